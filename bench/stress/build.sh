#!/bin/bash
# Compiles the modules into a folder: for the machine by clang, and natively, each at several levels of optimisation,
# and the program that calls the native ones. usage: build.sh FOLDER. CC=COMMAND is the native compiler.
set -euo pipefail
to=$(readlink -f "${1:?usage: build.sh FOLDER}")
cd "$(dirname "$0")"
machine='--target=riscv64-unknown-elf -march=rv64im -mabi=lp64 -fPIC -mno-relax -ffreestanding'
native='-DNATIVE -fPIC -ffreestanding -shared -Wl,-Bsymbolic'
for source in modules/*.c; do
    for level in O0 O1 O2 Os; do
        name=$(basename "$source" .c)-$level
        # shellcheck disable=SC2086
        clang $machine -$level -c "$source" -o "$to/$name.o"
        # shellcheck disable=SC2086
        ${CC:-cc} $native -$level -o "$to/$name.so" "$source"
    done
done
${CC:-cc} -O1 -rdynamic -o "$to/native" native.c -ldl
