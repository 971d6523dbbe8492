# What the benchmarks of texts share. A script sources this, puts its program's source into $work/crates/NAME/src, builds it and measures.
# The program is built in a folder that is thrown away, over what `rt check` kept in this checkout; where it kept nothing, the crates
# are proved first, which takes long.
top=$(cd "$(dirname "$0")/.." && pwd)
work=$(mktemp -d)
trap 'rm -rf "$work"' EXIT

needs() { # NAME..: these crates of the repository and all below them
    awk -F: -v names="$*" '{ below[$1] = $2 }
        END {
            count = split(names, queue, " ")
            for (i = 1; i <= count; i++) {
                if (queue[i] in seen || !(queue[i] in below)) continue
                seen[queue[i]]
                print queue[i]
                found = split(below[queue[i]], names_below, " ")
                for (j = 1; j <= found; j++) queue[++count] = names_below[j]
            }
        }' "$top/crates.txt"
}
prepare() { # NAME CRATE..: a program over these crates, whose source is still to be written
    local name=$1
    shift
    mkdir -p "$work/crates/$name/src"
    for crate in $(needs "$@"); do
        mkdir "$work/crates/$crate"
        for folder in src specs proofs out; do
            [ ! -d "$top/crates/$crate/$folder" ] || cp -r "$top/crates/$crate/$folder" "$work/crates/$crate"
        done
        grep -E "^$crate:" "$top/crates.txt" >>"$work/crates.txt"
    done
    echo "$name: $*" >>"$work/crates.txt"
}
build() { # NAME
    (cd "$work/crates/$1" && rt run </dev/null >"$work/log" 2>&1) || true
    program=$work/crates/$1/out/$1
    [ -x "$program" ] || {
        cat "$work/log" >&2
        echo "$0: the program could not be built" >&2
        exit 1
    }
}
measure() { # SIZES NAME WORDS: times the program on the text NAME of so many MB each, with these words
    local before="" mb start end took sizes=$1 name=$2
    shift 2
    for mb in $sizes; do
        "$name" "$mb" >"$work/input"
        start=$(date +%s.%N)
        "$program" "$@" <"$work/input" >"$work/output"
        end=$(date +%s.%N)
        took=$(awk -v a="$start" -v b="$end" 'BEGIN { print b - a }')
        awk -v name="$name${*:+ }$*" -v mb="$mb" -v took="$took" -v before="$before" -v found="$(cat "$work/output")" 'BEGIN {
            printf "%s %d MB, %s: %.3f s", name, mb, found, took
            if (before != "") printf ", %.2f times the one before", took / before
            print ""
        }'
        before=$took
    done
}
use_play() { # the program of this repository, built where that is needed
    "$top/tools/hiphop" play </dev/null >/dev/null || true
    program=$top/crates/hiphop/out/hiphop
}
run_program() { # WORDS: runs the program with these words on $work/input: tells the seconds and the peak memory in bytes
    python3 - "$work/input" "$work/output" "$program" "$@" <<'P'
import resource, subprocess, sys
subprocess.run(sys.argv[3:], stdin=open(sys.argv[1]), stdout=open(sys.argv[2], "w"))
used = resource.getrusage(resource.RUSAGE_CHILDREN)
print(used.ru_utime + used.ru_stime, used.ru_maxrss * 1024)
P
}
measure_play() { # UNIT SIZES NAME: times `play` on the input NAME of each of these sizes
    local before="" size took peak unit=$1 sizes=$2 name=$3
    for size in $sizes; do
        "$name" "$size" >"$work/input"
        read -r took peak < <(run_program play)
        awk -v name="$name" -v size="$size $unit" -v took="$took" -v before="$before" -v peak="$peak" \
            -v bytes="$(stat -c %s "$work/input")" -v lines="$(wc -l <"$work/output")" \
            -v first="$(head -n 1 "$work/output" | cut -c 1-40)" 'BEGIN {
            printf "%s %s, %d lines (%s ..): %.3f s", name, size, lines, first, took
            if (before != "") printf ", %.2f times the one before", took / before
            printf ", %.1f bytes of memory for each byte of input\n", peak / bytes
        }'
        before=$took
    done
}
generated() { # BRANCHES: what `hiphop gen` makes of the seed 0, a fork of loops, repetitions and counted aborts, with 100 reactions
    "$top/tools/made" 0 "$1"
}
