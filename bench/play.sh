#!/usr/bin/env bash
# Times `hiphop play`, and prints the ratio of each time to the one before it and the peak memory for each byte of input. The ratios are
# near 2 where the cost is linear. The inputs of 1 to 16 MB are a long scenario with inputs and values, many small modules of which one
# runs, and one large module; then 12,500 to 100,000 lines of `work` and `notify` over 1,000 instances, and 100 reactions of a fork of
# 125 to 1,000 branches.
set -eu
. "$(dirname "$0")/common.sh"
use_play

long_scenario() { # MB
    printf 'module M(in A: int, in B: text, out O: int, out P: text) { every immediate (A.now) { emit O(A.nowval * 2); if (B.now) { emit P(B.nowval + "!"); } } }\n%%%% scenario\n'
    awk -v bytes=$(($1 * 1000000)) 'BEGIN { while (n < bytes) { print "react A(17)"; print "react A(-4) B(\"some text\")"; print "react"; n += 46 } }'
}
small_modules() { # MB
    awk -v bytes=$(($1 * 1000000)) 'BEGIN {
        print "module M(in A, out O) { run M1(); await (A.now); emit O; }"
        while (n < bytes) { s = "module M" ++i "(in A, out O) { await (A.now); emit O; }"; print s; n += length(s) + 1 }
        print "%% scenario"; print "react"; print "react A"; print "react A"
    }'
}
large_module() { # MB: outputs with first values of 4,096 bytes, and emissions of one with a name of 255 bytes
    awk -v bytes=$(($1 * 1000000)) 'BEGIN {
        name = sprintf("%0250d", 0); gsub("0", "o", name)
        text = sprintf("%04096d", 0)
        printf "module M(out a_%s", name
        for (n = 0; n < bytes / 2; n += 4120) printf ", out b%d: text = \"%s\"", ++i, text
        print ") {"
        for (; n < bytes; n += 259) printf "emit a_%s;\n", name
        print "}"; print "%% scenario"; print "react"; print "react"
    }'
}
instances() { # LINES over 1,000 instances, which all end in each reaction and start anew
    awk -v lines="$1" 'BEGIN {
        print "body twice(n: int): int { n * 2 }"
        print "module M(out V: int combine plus) {"
        for (i = 0; i < 1000; i++) print (i ? "par" : "fork") " { loop { async (V) call twice(" i "); } }"
        print "}"; print "%% scenario"; print "react"
        for (i = 1; i <= lines; i++) { print (i % 2 ? "work " i : "notify " i " 5"); if (i % 1000 == 0) print "react" }
    }'
}
for text in long_scenario small_modules large_module; do measure_play MB "1 2 4 8 16" "$text"; done
measure_play lines "12500 25000 50000 100000" instances
measure_play branches "125 250 500 1000" generated
