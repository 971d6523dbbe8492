// Counts the votes of each reaction and of all, with values that several emissions make together.
module Votes(in left: int, in right: int, out round: int combine plus, out best: int combine max, out both: bool combine and, out total: int) {
  fork {
    every immediate (left.now) { emit round(left.nowval); emit best(left.nowval); emit both(right.now); }
  } par {
    every immediate (right.now) { emit round(right.nowval); emit best(right.nowval); emit both(left.now); }
  } par {
    every immediate (round.now) { emit total(total.preval + round.nowval); }
  }
}
%% scenario
react
react left(3)
react left(2) right(5)
react right(1)
