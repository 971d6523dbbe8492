// Emits o as soon as a and b have both come, and begins anew at each r.
module Abro(in a, in b, in r, out o) {
  do {
    fork { await (a.now); } par { await (b.now); }
    emit o;
  } every (r.now);
}
%% scenario
react
react a
react b
react a b
# What comes together with r does not count any more.
react r a b
react a b
