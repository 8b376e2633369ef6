"""Has the program run scripts that generate.py makes, and check.py check each report. run.sh calls it.

    python3 stress.py ADELIE COMMAND FOLDER RUNS [SEED [FIRST]]

COMMAND is run or seq, and FOLDER has what build.sh makes. It stops at the first run that ends with another status than
0, doesn't end within TIMEOUT seconds (600), or whose report is wrong; the script, the report and the program's words
are left in the folder. With MOST_LINES=N no script has more than so many steps. Every fourth run has one processor.
"""

import os
import random
import subprocess
import sys
import time
from collections import Counter
from pathlib import Path

from check import Wrong, check_report, options_of
from generate import MOST_LINES, generate, objects_of

ALONE = 4  # one in so many runs has one processor
SHOWN = [
    ("calls", "calls"),
    ("compared", "replies compared with native ones"),
    ("amid", "calls under a mapping that was neither the module's first nor its last"),
    ("move lines", "move lines"),
    ("moves", "moves made"),
    ("busy", "moves busy"),
    ("runs with busy", "runs with a busy move"),
    ("spent", "moves and stacks spent"),
    ("stacks", "fresh stacks"),
    ("mappings", "mappings"),
]


def words_of(command, words):
    """The program's words: seq has no slots and no frames."""
    pairs = zip(words[::2], words[1::2])
    kept = [pair for pair in pairs if command == "run" or pair[0] in ("--seed", "--fuel")]
    return [command, "script", *(word for pair in kept for word in pair)]


def take_one_processor():
    """Leaves this process one of the processors that it may use."""
    os.sched_setaffinity(0, [random.choice(sorted(os.sched_getaffinity(0)))])


def fault_of(adelie, folder, words, limit, alone):
    """Runs the program on the script in the folder, and leaves its report there. Why it failed, or None."""
    before = take_one_processor if alone else None
    with open(folder / "report", "wb") as report:
        try:
            done = subprocess.run(
                [adelie, *words],
                cwd=folder,
                stdout=report,
                stderr=subprocess.PIPE,
                timeout=limit,
                check=False,
                preexec_fn=before,
            )
        except subprocess.TimeoutExpired:
            return f"it hasn't ended in {limit} seconds"
    trouble = done.stderr.decode("latin-1").strip()
    return f"status {done.returncode}, and '{trouble}'" if done.returncode != 0 or trouble else None


def one_run(adelie, folder, script, words, limit, alone):
    """Makes one run and checks it. What it has; or, as a text, what is wrong."""
    (folder / "script").write_text(script)
    (folder / "words").write_text(" ".join(words) + "\n")
    fault = fault_of(adelie, folder, words, limit, alone)
    if fault:
        return fault
    report = (folder / "report").read_bytes().decode("latin-1")
    try:
        return check_report(report, script, words[0] == "run", options_of(words[2:]), folder)
    except Wrong as wrong:
        return f"the report is wrong in {wrong}"


def show(runs, counts, began):
    print(f"{runs:10} runs, in {time.monotonic() - began:.0f} seconds; no report is wrong")
    for what, text in SHOWN:
        print(f"{counts[what]:10} {text}")


def main():
    if not 5 <= len(sys.argv) <= 7 or sys.argv[2] not in ("run", "seq"):
        sys.exit("usage: stress.py ADELIE run|seq FOLDER RUNS [SEED [FIRST]]")
    adelie, command, folder, runs = sys.argv[1], sys.argv[2], Path(sys.argv[3]), int(sys.argv[4])
    seed, first = (int(word) for word in [*sys.argv[5:], "0", "0"][:2])
    objects = objects_of(folder)
    limit = float(os.environ.get("TIMEOUT", "600"))
    most = int(os.environ.get("MOST_LINES", MOST_LINES))
    counts = Counter()
    began = time.monotonic()
    for number in range(first, first + runs):
        script, options = generate(number, seed, objects, most)
        words = words_of(command, options)
        found = one_run(adelie, folder, script, words, limit, number % ALONE == ALONE - 1)
        if isinstance(found, str):
            print(f"stress.py: script {number} of seed {seed}, adelie {' '.join(words)}: {found}", file=sys.stderr)
            sys.exit(1)
        counts.update(found)
        counts["runs with busy"] += found["busy"] > 0
        if sys.stderr.isatty():
            print(f"\r{number - first + 1}", end="", file=sys.stderr)
    show(runs, counts, began)


if __name__ == "__main__":
    main()
