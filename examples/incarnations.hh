// A loop whose body ends and starts in one reaction: its local signal is then two signals, and the new one is absent.
module Incarnations(out present, out absent) {
  loop {
    signal s {
      if (s.now) { emit present; } else { emit absent; }
      pause;
      emit s;
    }
  }
}
%% scenario
react
react
