module Vending(in coin, in tea, in coffee, out wait, out serve_tea, out serve_coffee, out refund) {
  emit wait;
  pause;
  if (coin.now) {
    emit wait;
    pause;
    if (tea.now) {
      emit serve_tea;
    } else {
      if (coffee.now) { emit serve_coffee; } else { emit refund; }
    }
  } else { }
}
%% scenario
react
react coin
react coffee
