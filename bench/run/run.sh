#!/bin/bash
# Measures calls and moves with threads. README.md says what is measured. usage: run.sh [ROUNDS].
# With ADELIE=FILE that program is measured; with ONLY=calls, moves or frames only that table is made.
set -euo pipefail
rounds=${1:-5}
here=$(cd "$(dirname "$0")" && pwd)
adelie=${ADELIE:-$here/../../crates/adelie/out/adelie}
if [ ! -x "$adelie" ]; then
    echo 'run.sh: run ./adelie first, which builds the program' >&2
    exit 1
fi
adelie=$(readlink -f "$adelie")
work=$(mktemp -d)
trap 'rm -rf "$work"' EXIT
machine='--target=riscv64-unknown-elf -march=rv64im -mabi=lp64 -fPIC -mno-relax -ffreestanding'
# shellcheck disable=SC2086
clang $machine -O1 -c "$here/module.c" -o "$work/module.o"
PYTHONDONTWRITEBYTECODE=1 python3 "$here/measure.py" "$adelie" "$work" "$rounds" "${ONLY:-}"
uptime | sed 's/.*load/load/'
