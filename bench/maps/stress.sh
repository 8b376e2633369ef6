#!/bin/bash
# Runs workers beside a mover in so many rounds, each on a table of its own, on a copy of the repository: stress.rt.txt
# says what a round is, and what is checked of it. It proves the tests, so that they run as a program would be built.
# It ends with a status other than 0 where a check fails.
set -euo pipefail
rounds=${1:?usage: stress.sh ROUNDS}
here=$(cd "$(dirname "$0")" && pwd)
copy=$(mktemp -d)
trap 'rm -rf "$copy"' EXIT
"$here/../copy.sh" "$copy"
tests=$copy/crates/ad_maps/src/tests.rt
# The gate wants every source in a crate, so this has another ending here.
cat "$here/stress/stress.rt.txt" >>"$tests"
sed -i "s/^const STRESS_ROUNDS: u64 = .*;/const STRESS_ROUNDS: u64 = $rounds;/" "$tests"
grep -q "^const STRESS_ROUNDS: u64 = $rounds;" "$tests"
cd "$copy/crates/ad_maps"
time RT_SECONDS=3600 rt test | grep '^test\|^    \|^logic='
