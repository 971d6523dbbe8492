// Reactions that are refused for what they compute, and change nothing: a division by zero, a sum that is too large, and
// two values for a signal that takes one.
module Faults(in a: int, in twice, out share: int, out sum: int) {
  loop {
    if (a.now) {
      emit share(100 / a.nowval);
      emit sum(sum.preval + a.nowval);
      if (twice.now) { emit sum(0); }
    }
    pause;
  }
}
%% scenario
react a(5)
react a(0)
react a(9223372036854775807)
react a(2) twice
react a(4)
