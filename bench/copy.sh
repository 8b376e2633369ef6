#!/bin/sh
# Copies the crates of the repository, without edits and without what was built, into a folder that exists.
set -eu
to=${1:?usage: copy.sh FOLDER}
top=$(cd "$(dirname "$0")/.." && pwd)
mkdir "$to/crates"
cp "$top/crates.txt" "$top/HANDLES" "$to/"
for crate in "$top"/crates/*; do
    mkdir "$to/crates/$(basename "$crate")"
    for part in src specs proofs; do
        if [ -d "$crate/$part" ]; then
            cp -r "$crate/$part" "$to/crates/$(basename "$crate")/"
        fi
    done
done
