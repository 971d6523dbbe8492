#!/usr/bin/env bash
# Times a program that reads a text of 1, 4 and 16 MB from its input, and prints the ratio of each time to the one before it, which is near
# 4 where the cost is linear, and the peak memory for each byte of text. It fails where memory passes its bound. Measured are
# - the tokens alone: of every kind, one long comment, and marks with no gap;
# - reading, and then reading and printing: small modules, one flat block, long expressions, a long sum, nested parentheses, asyncs, long
#   lists (of arguments and of signals), one fork of many blocks, and empty blocks side by side and nested.
# A token takes 24 bytes and a statement 96. So `{}`, which is two tokens and a statement in two bytes of text, takes most.
set -eu
. "$(dirname "$0")/common.sh"
prepare reads hh_base module_tree module_token module_reader module_printer
cat >"$work/crates/reads/src/main.rt" <<'R'
//! Reads a module text from standard input, as far as the first word says, and tells what was found.
#![tactic(auto)]

use module_printer::print::print;
use module_reader::read::read;
use module_token::tokens::tokens;
use std::{env, io};

fn main(rt: HostRuntime) -> io::Result<()> {
    let text = io::read_to_string(rt.alloc(), rt.reader())?;
    if text.len() > 100_000_000 {
        return Ok(());
    }
    let words = env::args(&rt)?.len();
    if words == 1 {
        match tokens(rt.alloc(), text.as_str()) {
            Ok(found) => println!(rt; "{} tokens", found.len())?,
            Err(fault) => println!(rt; "{fault}")?,
        }
        return Ok(());
    }
    match read(rt.alloc(), text.as_str()) {
        Err(fault) => println!(rt; "{fault}")?,
        Ok(modules) if words == 2 => println!(rt; "{} declarations", modules.parts().len())?,
        Ok(modules) => match print(rt.alloc(), &modules) {
            Ok(bytes) => println!(rt; "{} bytes printed", bytes.len())?,
            Err(fault) => println!(rt; "{fault}")?,
        },
    }
    Ok(())
}
R
build reads

mixed() { # MB: tokens of every kind, with comments
    awk -v bytes=$(($1 * 1000000)) 'BEGIN { while (n < bytes) { print "if (größe.now <= 007 && x != \"a\\n\") { emit S(1 + 2); } // é"; n += 62 } }'
}
comment() { # MB: one comment, with a star in each line
    awk -v bytes=$(($1 * 1000000)) 'BEGIN { print "/*"; while (n < bytes) { print "* / a line of the comment, which is long"; n += 41 } print "*/" }'
}
marks() { # MB: no gap at all
    awk -v bytes=$(($1 * 1000000)) 'BEGIN { while (n < bytes) { printf "<=(==)&&;"; n += 9 } }'
}
modules() { # MB: many modules
    awk -v bytes=$(($1 * 1000000)) 'BEGIN { while (n < bytes) { print "module M(in A, out V: int = 3 combine plus) { every (A.now) { emit V(V.preval + 2 * (1 - 3)); } }"; n += 97 } }'
}
lists() { # MB: a list of arguments and one of signals
    awk -v bytes=$(($1 * 1000000)) 'BEGIN { printf "module M() { async call f(1"; while (n < bytes / 2) { printf ", 1"; n += 3 } printf "); signal a"; while (n < bytes) { printf ", a"; n += 3 } print " {} }" }'
}
branches() { # MB: one fork with many blocks
    awk -v bytes=$(($1 * 1000000)) 'BEGIN { print "module M() { fork {}"; while (n < bytes) { print "par { pause; }"; n += 15 } print "}" }'
}
flat() { # MB: one block of short statements
    awk -v bytes=$(($1 * 1000000)) 'BEGIN { print "module M() {"; while (n < bytes) { print "emit S; pause; await (A.now);"; n += 30 } print "}" }'
}
expressions() { # MB: many long expressions
    awk -v bytes=$(($1 * 1000000)) 'BEGIN { print "module M() {"; while (n < bytes) { print "emit S(A.nowval * 12 + (B.preval - 3) % 7 + C.nowval / 2 - D.preval * 5);"; n += 73 } print "}" }'
}
sum() { # MB: one sum
    awk -v bytes=$(($1 * 1000000)) 'BEGIN { printf "module M() { emit S(1"; while (n < bytes) { printf "+1"; n += 2 } print "); }" }'
}
parentheses() { # MB: expressions in 120 parentheses
    awk -v bytes=$(($1 * 1000000)) 'BEGIN { for (i = 0; i < 120; i++) { a = a "("; b = b ")" } print "module M() {"; while (n < bytes) { print "emit S" a "1" b ";"; n += 249 } print "}" }'
}
asyncs() { # MB: asyncs with all their parts
    awk -v bytes=$(($1 * 1000000)) 'BEGIN { print "module M() {"; while (n < bytes) { print "async (V) call think(A.nowval, 1) kill \"k\" suspend \"s\" resume \"r\";"; n += 70 } print "}" }'
}
blocks() { # MB: empty blocks
    awk -v bytes=$(($1 * 1000000)) 'BEGIN { printf "module M() {"; while (n < bytes) { printf "{}"; n += 2 } print "}" }'
}
nested() { # MB: 120 blocks in each other
    awk -v bytes=$(($1 * 1000000)) 'BEGIN { for (i = 0; i < 120; i++) { a = a "{"; b = b "}" } print "module M() {"; while (n < bytes) { print a b; n += 241 } print "}" }'
}
failed=0
measure_memory() { # BOUND NAME WORDS: times the program on the text NAME, and holds its peak memory against the bound, in bytes a byte of text
    local before="" mb took peak bound=$1 name=$2
    shift 2
    for mb in 1 4 16; do
        "$name" "$mb" >"$work/input"
        read -r took peak < <(run_program "$@")
        awk -v name="$name${*:+ }$*" -v mb="$mb" -v took="$took" -v before="$before" -v peak="$peak" -v bound="$bound" \
            -v bytes="$(stat -c %s "$work/input")" -v found="$(cat "$work/output")" 'BEGIN {
            printf "%s %d MB, %s: %.3f s", name, mb, found, took
            if (before != "") printf ", %.2f times the one before", took / before
            held = peak - 8000000 <= bound * bytes
            printf ", %.1f bytes of memory a byte of text%s\n", peak / bytes, held ? "" : ", which passes its bound of " bound
            exit !held
        }' || failed=1
        before=$took
    done
}
for text in mixed comment; do measure_memory 25 "$text"; done
measure_memory 40 marks
for text in modules flat expressions sum parentheses asyncs lists branches; do
    measure_memory 40 "$text" read
    measure_memory 60 "$text" read print
done
for text in blocks nested; do measure_memory 95 "$text" read; done
exit "$failed"
