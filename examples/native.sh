#!/bin/sh
# Compiles the C source of each example for this machine, performs the calls of its script there, and compares how they
# end with the report that is expected. It says which examples it compared, and fails where one differs.
# usage: native.sh. CC=COMPILER chooses the compiler, CFLAGS its options.
set -eu
here=$(cd "$(dirname "$0")" && pwd)
compiler=${CC:-cc}
flags=${CFLAGS:--O2}
if ! command -v "$compiler" >/dev/null; then
    echo "native.sh: there is no $compiler to compare with" >&2
    exit 2
fi
work=$(mktemp -d)
trap 'rm -rf "$work"' EXIT
"$compiler" -O1 -rdynamic -o "$work/calls" "$here/native/calls.c" -ldl
wrong=0
for source in "$here"/*/*.c; do
    script=${source%.c}.script
    expected=${source%.c}.expected
    [ -f "$script" ] || continue
    name=$(basename "$source" .c)
    # shellcheck disable=SC2086
    "$compiler" $flags -fPIC -ffreestanding -shared -o "$work/$name.so" "$source"
    sed -n 's/^call [^:]*: //p' "$expected" >"$work/$name.expected"
    "$work/calls" "$work/$name.so" "$script" >"$work/$name.native" || wrong=1
    if cmp -s "$work/$name.expected" "$work/$name.native"; then
        echo "$name: $(wc -l <"$work/$name.native") calls end alike"
    else
        echo "$name: differs from $expected" >&2
        diff "$work/$name.expected" "$work/$name.native" >&2 || true
        wrong=1
    fi
done
exit "$wrong"
