#!/usr/bin/env bash
# Times reactions: `hiphop play` on 100 reactions of programs of growing size, with the ratio of each time to the one before it. It is near 2
# for a fork of 250 to 2,000 branches and for 4 to 16 nested loops, where a reaction takes a few rounds, each linear in the program. In a chain
# of 62 to 250 local signals, of which each tests the next, each round decides one signal more: there the ratio is near 4.
set -eu
. "$(dirname "$0")/common.sh"
use_play

reactions() { # COUNT
    echo "%% scenario"
    awk -v count="$1" 'BEGIN { while (n++ < count) print "react" }'
}
loops() { # LOOPS: nested round a pause
    echo "module M(out O) {"
    awk -v count="$1" 'BEGIN { for (i = 0; i < count; i++) printf "loop { "; printf "emit O; pause;"; for (i = 0; i < count; i++) printf " }"; print "" }'
    echo "}"
    reactions 100
}
chain() { # SIGNALS: s0 is emitted where s1 is present, and so on
    awk -v count="$1" 'BEGIN {
        print "module M(out O) { loop { signal s0"
        for (i = 1; i <= count; i++) print ", s" i
        print "{"
        for (i = 0; i < count; i++) print (i ? "par" : "fork") " { if (s" i + 1 ".now) { emit s" i "; } }"
        print "par { emit s" count "; } if (s0.now) { emit O; } pause; } } }"
    }'
    reactions 100
}
measure_play branches "250 500 1000 2000" generated
measure_play loops "4 8 16" loops
measure_play signals "62 125 250" chain
