#!/bin/bash
# Has the program run scripts of chance with threads, and checks each report. README.md says what is checked.
# usage: run.sh [RUNS [SEED [FIRST]]]. With ADELIE=FILE that program is run, with COMMAND=seq its command seq; with
# MOST_LINES=N no script has more than so many steps, and with TIMEOUT=N a run may take so many seconds.
set -euo pipefail
runs=${1:-300}
seed=${2:-0}
first=${3:-0}
here=$(cd "$(dirname "$0")" && pwd)
adelie=${ADELIE:-$here/../../crates/adelie/out/adelie}
if [ ! -x "$adelie" ]; then
    echo 'run.sh: run ./adelie first, which builds the program' >&2
    exit 1
fi
adelie=$(readlink -f "$adelie")
export PYTHONDONTWRITEBYTECODE=1
work=$(mktemp -d)
trap 'rm -rf "$work"' EXIT
"$here/build.sh" "$work"
python3 "$here/selftest.py" "$work"
status=0
python3 "$here/stress.py" "$adelie" "${COMMAND:-run}" "$work" "$runs" "$seed" "$first" || status=$?
if [ "$status" -ne 0 ]; then
    trap - EXIT
    echo "run.sh: script, report and words are kept in $work; to check the report again:" >&2
    echo "  (cd $work && python3 $here/check.py report \$(cat words))" >&2
fi
exit "$status"
