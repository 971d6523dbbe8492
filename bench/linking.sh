#!/usr/bin/env bash
# Times the linking of names, kinds and runs: `hiphop play` on texts of 1, 4 and 16 MB, with the ratio of each time to the one before it, which
# is near 4 where the cost is linear. The texts are one chain of runs, one module with many signals, modules that each run all others, a
# chain between two cycles, runs that bind many signals, and nested scopes that each hide all names. All are read and linked whole; then the first of two cycles is refused, and
# the others are refused by what they expand to, without being written out.
set -eu
. "$(dirname "$0")/common.sh"
use_play

chain() { # MB: each module runs the next
    awk -v bytes=$(($1 * 1000000)) 'BEGIN { while (n < bytes) { s = "module m" i++ "() { run m" i "(); }"; print s; n += length(s) + 1 } print "module m" i "() { }" }'
}
signals() { # MB: one module with many signals, each of which is emitted
    awk -v bytes=$(($1 * 1000000)) 'BEGIN {
        printf "module M(out s0"
        for (n = 16; n < bytes / 2; n += length(s)) { s = ", out s" ++i; printf "%s", s }
        print ") {"
        for (j = 0; j <= i; j++) print "emit s" j ";"
        print "}"
    }'
}
dense() { # MB: each module runs all behind it
    awk -v bytes=$(($1 * 1000000)) 'BEGIN {
        count = int(sqrt(bytes / 7))
        for (i = 0; i < count; i++) {
            print "module m" i "() {"
            for (j = i + 1; j < count; j++) print "run m" j "();"
            print "}"
        }
    }'
}
cycles() { # MB: a chain that begins and ends with a cycle
    awk -v bytes=$(($1 * 1000000)) 'BEGIN {
        print "module a() { run b(); } module b() { run a(); run m0(); }"
        while (n < bytes) { s = "module m" i++ "() { run m" i "(); }"; print s; n += length(s) + 1 }
        print "module m" i "() { run c(); } module c() { run m" i "(); }"
    }'
}
bindings() { # MB: runs of a module with a thousand signals, each of which is bound
    awk -v bytes=$(($1 * 1000000)) 'BEGIN {
        for (i = 0; i < 1000; i++) { heads = heads (i ? ", " : "") "in s" i; binds = binds (i ? ", " : "") "s" i " = s" 999 - i }
        print "module N(" heads ") { } module M(" heads ") {"
        while (n < bytes) { print "run N(" binds ");"; n += length(binds) + 9 }
        print "}"
    }'
}
scopes() { # MB: 120 nested lists of signals, each with all names of the ones around it
    awk -v bytes=$(($1 * 1000000)) 'BEGIN {
        count = int(bytes / 120 / 10)
        for (i = 0; i < count; i++) names = names (i ? ", " : "") "s" i
        print "module M() {"
        for (i = 0; i < 120; i++) print "signal " names " {"
        print "emit s0;"
        for (i = 0; i < 120; i++) printf "}"
        print "}"
    }'
}
for text in chain signals dense cycles bindings scopes; do measure_play MB "1 4 16" "$text"; done
