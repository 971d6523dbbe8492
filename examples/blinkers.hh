// Two lamps that run one module, each with signals of its own, and that go on and off in turn.
module Lamps(in tick, in stop, out left, out right) {
  abort (stop.now) {
    fork {
      run Blinker(lamp = left);
    } par {
      await (tick.now);
      run Blinker(lamp = right);
    }
  }
}
module Blinker(in tick, out lamp) {
  loop {
    abort (tick.now) { sustain lamp; }
    await (tick.now);
  }
}
%% scenario
react
react tick
react tick
react
react tick
react stop
