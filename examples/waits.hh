// The delays: what comes in the reaction in which the wait begins counts only where it says `immediate`.
module Waits(in a, out later, out now, out third, out each) {
  fork {
    await (a.now); emit later;
  } par {
    await immediate (a.now); emit now;
  } par {
    await count(3, a.now); emit third;
  } par {
    every count(2, a.now) { emit each; }
  }
}
%% scenario
react a
react a
react
react a
react a
react a
