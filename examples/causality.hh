// Where `ask` comes, each of the two signals is emitted if the other one is not: no reaction is the only one, so it is
// refused, and the program stands as it stood.
module Causality(in ask, out first, out second) {
  every immediate (ask.now) {
    fork {
      if (first.now) {} else { emit second; }
    } par {
      if (second.now) {} else { emit first; }
    }
  }
}
%% scenario
react
react ask
react
