#!/usr/bin/env bash
# Times the compiler: `hiphop play` on texts with an empty scenario, with the ratio of each time to the one before it, near 4 where the cost is
# linear. The texts of 1, 4 and 16 MB are many modules of which one runs, and a chain of modules that each run the next (refused, since it is
# too high). Then a few lines whose expansion has about 4,096 to 65,536 statements, by modules that each run the next twice, and 70 such
# modules, whose expansion no machine could hold and which are refused at once.
set -eu
. "$(dirname "$0")/common.sh"
use_play

modules() { # MB
    awk -v bytes=$(($1 * 1000000)) 'BEGIN {
        while (n < bytes) { s = "module M" i++ "(in A, out V: int combine plus) { every (A.now) { abort count(3, A.now) { sustain V(V.preval + 1); } } }"; print s; n += length(s) + 1 }
    }'
}
runs() { # MB: each module runs the next
    awk -v bytes=$(($1 * 1000000)) 'BEGIN { while (n < bytes) { s = "module m" i++ "() { pause; run m" i "(); }"; print s; n += length(s) + 1 } print "module m" i "() { }" }'
}
doubled() { # MODULES: each runs the next twice
    awk -v count="$1" 'BEGIN {
        for (i = 0; i < count; i++) print "module m" i "() { run m" i + 1 "(); run m" i + 1 "(); }"
        print "module m" count "() { pause; }"
    }'
}
measure_play MB "1 4 16" modules
measure_play MB "1 4 16" runs
measure_play modules "11 13 15 70" doubled
