#!/bin/bash
# Measures enter and leave of ad_maps, on a copy of the repository: against two bare atomic operations, on one thread
# and on as many as there are processors; after earlier moves; and with moves during the call. It proves the measuring
# code, so that it runs as the program would be built.
set -euo pipefail
here=$(cd "$(dirname "$0")" && pwd)
copy=$(mktemp -d)
trap 'rm -rf "$copy"' EXIT
"$here/../copy.sh" "$copy"
crate=$copy/crates/ad_maps
# The gate wants every source in a crate, so these have another ending here.
cat "$here/measure/measure.rt.txt" >>"$crate/src/tests.rt"
(cd "$here/measure" && find proofs -name '*.txt') | while read -r file; do
    mkdir -p "$crate/$(dirname "$file")"
    cp "$here/measure/$file" "$crate/${file%.txt}"
done
cd "$crate"
RT_SECONDS=600 rt test | grep '^    \|^test result\|^logic='
