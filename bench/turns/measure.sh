#!/bin/bash
# Measures a turn of ad_turns, on a copy of the repository: of one worker alone, and of as many workers as there are
# processors on one module, each beside a bare turn on two atomic words. Each worker makes so many turns in a run. It
# proves the measuring code, so that it runs as the program would be built. It ends with a status other than 0 where
# the book of a closed table doesn't have each turn once.
set -euo pipefail
turns=${1:?usage: measure.sh TURNS}
here=$(cd "$(dirname "$0")" && pwd)
copy=$(mktemp -d)
trap 'rm -rf "$copy"' EXIT
"$here/../copy.sh" "$copy"
tests=$copy/crates/ad_turns/src/tests.rt
# The gate wants every source in a crate, so this has another ending here.
cat "$here/measure/measure.rt.txt" >>"$tests"
sed -i "s/^const TURNS: u64 = .*;/const TURNS: u64 = $turns;/" "$tests"
grep -q "^const TURNS: u64 = $turns;" "$tests"
cd "$copy/crates/ad_turns"
RT_SECONDS=600 rt test | grep '^    \|^test\|^logic='
uptime | sed 's/.*load/load/'
