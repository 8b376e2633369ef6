#!/bin/sh
# Runs the thread test of ad_stacks with so many takes of each of eight workers beside 4,000 refreshes, on a
# copy of the repository.
set -eu
rounds=${1:?usage: stress.sh ROUNDS}
here=$(cd "$(dirname "$0")" && pwd)
copy=$(mktemp -d)
trap 'rm -rf "$copy"' EXIT
"$here/../copy.sh" "$copy"
tests=$copy/crates/ad_stacks/src/tests.rt
sed -i "s/^const ROUNDS: u64 = .*;/const ROUNDS: u64 = $rounds;/; s/(8, ROUNDS, 400)/(8, ROUNDS, 4000)/" "$tests"
grep -q "(8, ROUNDS, 4000)" "$tests"
cd "$copy/crates/ad_stacks"
time rt try --test
