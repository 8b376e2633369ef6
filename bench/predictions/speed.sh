#!/bin/bash
# Compares the time that predictions take with that of the runs, on the loops of ../interpreter, 10,000,000 steps each.
# README.md says what is measured. usage: speed.sh [ROUNDS]. With ADELIE=FILE that program is measured.
set -euo pipefail
rounds=${1:-5}
calls=100
here=$(cd "$(dirname "$0")" && pwd)
top=$(cd "$here/../.." && pwd)
adelie=${ADELIE:-$top/crates/adelie/out/adelie}
if [ ! -x "$adelie" ]; then
    echo 'speed.sh: run ./adelie first, which builds the program' >&2
    exit 1
fi
adelie=$(readlink -f "$adelie")
work=$(mktemp -d)
trap 'rm -rf "$work"' EXIT

# seconds COMMAND LOOP: has a script served, and prints the processor seconds that it took.
seconds() {
    local TIMEFORMAT=%U
    (cd "$work" && { time "$adelie" "$1" "$2.script" >"$2.$1"; } 2>&1)
}

# lesser A B: prints the lesser of two numbers, where the first may be missing.
lesser() {
    awk -v a="$1" -v b="$2" 'BEGIN { print (a == "" || b < a) ? b : a }'
}

# measure LOOP ARGUMENT: has a loop predicted and run by turns, and prints a row.
measure() {
    local loop=$1 argument=$2 predicted='' run=''
    cp "$top/bench/interpreter/loops/$loop.o" "$work/$loop.o"
    awk -v loop="$loop" -v argument="$argument" -v calls="$calls" 'BEGIN {
        print "load m " loop ".o"
        for (i = 0; i < calls; i++) print "call 0 m." loop " " argument
    }' >"$work/$loop.script"
    for _ in $(seq "$rounds"); do
        predicted=$(lesser "$predicted" "$(seconds predict "$loop")")
        run=$(lesser "$run" "$(seconds seq "$loop")")
    done
    if ! diff <(sed -n 's/^call .*: //p' "$work/$loop.predict") <(sed -n 's/^call .*: //p' "$work/$loop.seq") >&2; then
        echo "speed.sh: $loop: the two differ" >&2
        exit 1
    fi
    awk -v loop="$loop" -v predicted="$predicted" -v run="$run" 'BEGIN {
        printf "%-10s %14.0f %14.0f %8.2f\n", loop, 1e7 / predicted, 1e7 / run, run / predicted
    }'
}

printf '%-10s %14s %14s %8s\n' loop 'predicted, /s' 'run, /s' ratio
measure sums 999
measure products 4999
measure memory 4999
