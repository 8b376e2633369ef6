#!/bin/bash
# Measures what a move costs, of modules of different sizes. README.md says what is measured. usage: run.sh [ROUNDS].
# With ADELIE=FILE that program is measured; with CC=COMMAND the modules are compiled by that command; with MOVES=N so
# many moves are made.
set -euo pipefail
rounds=${1:-9}
moves=${MOVES:-4092}
here=$(cd "$(dirname "$0")" && pwd)
adelie=${ADELIE:-$here/../../crates/adelie/out/adelie}
compiler=${CC:-clang --target=riscv64-unknown-elf}
if [ ! -x "$adelie" ]; then
    echo 'run.sh: run ./adelie first, which builds the program' >&2
    exit 1
fi
adelie=$(readlink -f "$adelie")
work=$(mktemp -d)
trap 'rm -rf "$work"' EXIT
python3 "$here/modules.py" "$work"
cd "$work"

# seconds SCRIPT: runs a script, and prints the processor seconds that it took.
seconds() {
    local TIMEFORMAT=%U
    { time "$adelie" seq "$1" >report; } 2>&1
}

# lesser A B: prints the lesser of two numbers, where the first may be missing.
lesser() {
    awk -v a="$1" -v b="$2" 'BEGIN { print (a == "" || b < a) ? b : a }'
}

# script MODULE LINES ..: prints a script that loads a module, and then has these lines so many times.
script() {
    echo "load m $1.o"
    shift
    for ((i = 0; i < moves; i++)); do printf '%s\n' "$@"; done
}

for module in small large local; do
    # shellcheck disable=SC2086
    $compiler -march=rv64im -mabi=lp64 -fPIC -mno-relax -ffreestanding -O1 -c $module.c -o $module.o
    echo "load m $module.o" >$module.none
    script $module 'move m' >$module.moves
    script $module 'move m' 'call 0 m.f 5' >$module.both
    "$adelie" seq $module.moves >report
    if [ "$(grep -c '^move .*: mapping ' report)" -ne "$moves" ]; then
        echo "run.sh: $module: a move was not made" >&2
        exit 1
    fi
done

printf '%-8s %6s %6s %16s %22s\n' module pages local 'a move, us' 'a move and a call, us'
declare -A least
for ((round = 0; round < rounds; round++)); do
    for module in small large local; do
        for lines in none moves both; do
            least[$module.$lines]=$(lesser "${least[$module.$lines]:-}" "$(seconds $module.$lines)")
        done
    done
done
for module in small large local; do
    "$adelie" show $module.o >listing
    awk -v module=$module -v pages="$(sed -n 's/^movable pages \([0-9]*\) .*/\1/p' listing)" \
        -v words="$(grep -c '^local ' listing)" -v moves=$moves -v none="${least[$module.none]}" \
        -v move="${least[$module.moves]}" -v both="${least[$module.both]}" 'BEGIN {
        printf "%-8s %6d %6d %16.2f %22.2f\n", module, pages, words, 1e6 * (move - none) / moves, 1e6 * (both - none) / moves
    }'
done
