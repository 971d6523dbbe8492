module Light(in car, in night, out red, out yellow, out green) {
  if (night.now) {
    emit yellow;
    pause;
    emit yellow;
  } else {
    emit red;
    pause;
    if (car.now) {
      emit red;
      emit yellow;
      pause;
      emit green;
    } else {
      emit red;
    }
  }
}
%% scenario
react
react car
react
react car night
