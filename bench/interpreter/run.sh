#!/bin/bash
# Compares Adelie's interpreter with a plain one, on three loops of 100,000,000 steps each. README.md says what is
# measured. usage: run.sh [ROUNDS]. With ADELIE=FILE that program is measured, and nothing of Adelie is built.
set -euo pipefail
rounds=${1:-5}
calls=1000
here=$(cd "$(dirname "$0")" && pwd)
top=$(cd "$here/../.." && pwd)
work=$(mktemp -d)
trap 'rm -rf "$work"' EXIT

rustc --edition 2021 -C opt-level=3 -o "$work/plain" "$here/plain.rs"
if [ -n "${ADELIE:-}" ]; then
    adelie=$(readlink -f "$ADELIE")
else
    "$top/adelie" seq "$top/examples/absent.script" >/dev/null 2>&1 || [ $? -ne 70 ]
    adelie=$top/crates/adelie/out/adelie
fi

# seconds OUT COMMAND ..: runs a command with its output in a file, and prints the processor seconds that it took.
seconds() {
    local out=$1
    shift
    local TIMEFORMAT=%U
    { time "$@" >"$out" 2>"$work/trouble"; } 2>&1
}

# lesser A B: prints the lesser of two numbers, where the first may be missing.
lesser() {
    awk -v a="$1" -v b="$2" 'BEGIN { print (a == "" || b < a) ? b : a }'
}

# measure LOOP ARGUMENT: runs a loop in both by turns, and prints a row.
measure() {
    local loop=$1 argument=$2 plain='' ours='' round reply
    cp "$here/loops/$loop.o" "$work/$loop.o"
    awk -v loop="$loop" -v argument="$argument" -v calls="$calls" 'BEGIN {
        print "load m " loop ".o"
        for (i = 0; i < calls; i++) print "call 0 m." loop " " argument
    }' >"$work/$loop.script"
    for round in $(seq "$rounds"); do
        plain=$(lesser "$plain" "$(seconds "$work/plain.out" "$work/plain" "$work/$loop.o" "$argument" "$calls")")
        ours=$(lesser "$ours" "$(cd "$work" && seconds "$work/ours.out" "$adelie" seq "$loop.script")")
        reply=$(sed -n 's/ steps 100000000$//p' "$work/plain.out")
        if [ -z "$reply" ] || [ "$(grep -c "^call .*: $reply$" "$work/ours.out")" -ne "$calls" ]; then
            echo "run.sh: $loop: the two differ" >&2
            exit 1
        fi
    done
    awk -v loop="$loop" -v plain="$plain" -v ours="$ours" 'BEGIN {
        printf "%-10s %12.0f %12.0f %8.2f\n", loop, 1e8 / ours, 1e8 / plain, plain / ours
    }'
}

printf '%-10s %12s %12s %8s\n' loop 'ours, /s' 'plain, /s' ratio
measure sums 999
measure products 4999
measure memory 4999
