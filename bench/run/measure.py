"""Measures calls and moves with threads. run.sh calls it, and README.md says what is measured.

    python3 measure.py ADELIE FOLDER ROUNDS [calls|moves|frames]

FOLDER has module.o. Each figure is the median of so many rounds, in which the scripts are run by turns.
"""

import os
import re
import subprocess
import sys
import time
from collections import defaultdict
from dataclasses import dataclass
from pathlib import Path
from statistics import median

MODULES = 8
EMPTY_CALLS = 2000  # of each worker: 8 workers make 16,000, of the 20,000 lines that a script may have
LONG_CALLS = 100  # of each worker
LONG_STEPS = 10_000  # of a long call
MOVES = 3000  # lines; a run has numbers for fewer than 4,095
CALL_STEPS = [1_000, 100_000]  # of a call beside the moves
BUSY_STEPS = 2_000_000  # of each worker beside the moves, in all
HOLDING_STEPS = [10_000, 100_000, 1_000_000, 10_000_000]  # of the call that holds the frames
HOLDING_FRAMES = [2, 8, 16]
HOLDING_MOVES = 19_000
FUEL = 100_000_000
EXIT_DELAY = 40_000  # microseconds that a watched thread is held at its end
LOOK_EACH = 0.01  # seconds between two looks at the threads that are watched


@dataclass
class Spent:
    """What a run took, in seconds, and what came of its moves."""

    wall: float
    processor: float  # of all threads
    mover: float  # of the mover's thread, where it is watched
    mover_wall: float  # the same, and how long that thread waited for a processor
    made: int
    busy: int
    spent: int
    streak: int  # how many busy moves came one after the other at most
    early: int  # moves that were made before the first call entered its module
    outlasted: bool  # whether each worker's last call ran behind the last move of its module


def outcomes(report):
    """How many moves were made, busy and spent, and how many busy ones came one after the other at most."""
    ends = re.findall(r"^move \d+ \w+: (\w)", report, re.M)
    streaks = re.findall("b+", "".join(ends))
    return ends.count("m"), ends.count("b"), ends.count("s"), max(map(len, streaks), default=0)


def made_beside(report):
    """How many moves were made before the first call entered, and whether the last call of each worker ran behind the
    last move of its module, whose number is the worker's."""
    under = defaultdict(list)
    for worker, mapping in re.findall(r"^call \d+ w(\d+) \S+ at \d+ under (\d+)", report, re.M):
        under[worker].append(int(mapping))
    made = [int(number) for number in re.findall(r"^move .*: mapping (\d+)", report, re.M)]
    last = {module: int(number) for number, module in re.findall(r"^map (\d+) code m(\d+)", report, re.M)}
    entered = min((numbers[0] for numbers in under.values()), default=0)
    outlasted = all(numbers[-1] == last[worker] for worker, numbers in under.items())
    return sum(number <= entered for number in made), outlasted


def mover_thread(process):
    """The scheduler's figures of the mover's thread: the first that the process started, which has the lowest number
    behind the main thread's. None where no such thread is there."""
    try:
        threads = sorted(map(int, os.listdir(f"/proc/{process}/task")))[1:]
        return Path(f"/proc/{process}/task/{threads[0]}/schedstat").read_text() if threads else None
    except OSError:
        return None


def started_by(tracer, program):
    """The process of this program that a tracer started, or None."""
    try:
        for child in Path(f"/proc/{tracer}/task/{tracer}/children").read_text().split():
            if os.readlink(f"/proc/{child}/exe") == program:
                return int(child)
    except OSError:
        pass
    return None


class Bench:
    """Scripts that are run by turns, and what each run took."""

    def __init__(self, adelie, folder, rounds):
        self.adelie, self.folder, self.rounds = adelie, folder, rounds
        self.words = {}
        self.runs = {}
        self.watched = set()
        self.copies = {}

    def add(self, name, command, lines, *options, watched=False, copies=1):
        """A script, which is run by this command: by so many processes at once. Where it is watched, it is run once more in
        each round, for the time of the mover's thread."""
        file = "script " + name
        (self.folder / file).write_text("".join(line + "\n" for line in lines))
        self.words[name] = [self.adelie, command, file, *options]
        self.runs[name] = []
        self.copies[name] = copies
        if watched:
            self.watched.add(name)

    def run_all(self):
        for _ in range(self.rounds):
            for name in self.words:
                self.runs[name].append(self.run(name))

    def run(self, name):
        """Runs a script once, by each of its processes, and leaves a report."""
        mover, waited = self.watch(name) if name in self.watched else (0, 0)
        began = time.perf_counter()
        processes = [self.start(name) for _ in range(self.copies[name])]
        ends = [os.wait4(process, 0) for process in processes]
        wall = time.perf_counter() - began
        for _, status, _ in ends:
            if status != 0:
                sys.exit(f"measure.py: {' '.join(self.words[name])} ended with {os.waitstatus_to_exitcode(status)}")
        report = (self.folder / ("report " + name)).read_text()
        processor = sum(used.ru_utime + used.ru_stime for _, _, used in ends)
        return Spent(wall, processor, mover, mover + waited, *outcomes(report), *made_beside(report))

    def watch(self, name):
        """Runs a script once, and gives for how many seconds the mover's thread ran and waited for a processor. The tracer
        stops threads at their end alone, and holds them there so long that they can be looked at."""
        held = f"inject=exit:delay_enter={EXIT_DELAY}"
        words = ["strace", "-f", "-qq", "--seccomp-bpf", "-e", "trace=exit", "-e", held, "-o", "/dev/null"]
        tracer = subprocess.Popen([*words, *self.words[name]], cwd=self.folder, stdout=subprocess.DEVNULL)
        process, figures = None, None
        while tracer.poll() is None:
            process = process or started_by(tracer.pid, self.adelie)
            figures = (process and mover_thread(process)) or figures
            time.sleep(LOOK_EACH)
        if tracer.returncode != 0 or figures is None:
            sys.exit(f"measure.py: {' '.join(self.words[name])} under strace ended with {tracer.returncode}")
        running, waiting, _ = map(int, figures.split())
        return running / 1e9, waiting / 1e9

    def start(self, name):
        """Starts the program on a script, in the folder. Its process."""
        os.chdir(self.folder)
        flags = os.O_WRONLY | os.O_CREAT | os.O_TRUNC
        report = [(os.POSIX_SPAWN_OPEN, 1, "report " + name, flags, 0o644)]
        return os.posix_spawn(self.adelie, self.words[name], os.environ, file_actions=report)

    def middle(self, name, part):
        """The median of a part of what the runs of a script took."""
        return median(getattr(spent, part) for spent in self.runs[name])

    def more(self, name, base, part):
        """How much more of it a script takes than another: the median of the rounds."""
        pairs = zip(self.runs[name], self.runs[base], strict=True)
        return median(getattr(one, part) - getattr(other, part) for one, other in pairs)


def heads(workers, modules):
    return [f"workers {workers}", *(f"load m{module} module.o" for module in range(modules))]


def busy(steps):
    """What is called to make so many steps."""
    return f"busy {steps // 2 - 1}"


def calls(workers, count, called):
    """So many calls of each worker, each on its own module."""
    return [f"call {worker} m{worker}.{called}" for _ in range(count) for worker in range(workers)]


def rate(count, seconds):
    """So many in a second, or none where the time is too short to be measured."""
    return f"{count / seconds:,.0f}" if seconds > 0 else "-"


def microseconds(seconds, count):
    """The time of each of so many, or none where it is too short to be measured."""
    return f"{1e6 * seconds / count:,.2f}" if seconds > 0 else "-"


def ratio(seconds, others):
    """How many times as long it takes, or none where the others are too short to be measured."""
    return f"{seconds / others:.2f}" if others > 0 else "-"


def milliseconds(seconds):
    return f"{1e3 * seconds:,.2f}"


def show(rows):
    """Prints a table, whose first row has the heads."""
    widths = [max(len(row[column]) for row in rows) for column in range(len(rows[0]))]
    for row in rows:
        print("  ".join(word.rjust(width) for word, width in zip(row, widths, strict=True)))
    print(flush=True)


def calls_table(bench):
    """Calls a second: by seq, by several processes of seq at once, and by run with as many workers as modules."""
    kinds = {"empty": ("empty", EMPTY_CALLS), "long": (busy(LONG_STEPS), LONG_CALLS)}
    each = range(1, MODULES + 1)
    cases = [("seq", 1, workers) for workers in each] + [("run", workers, 1) for workers in each]
    for command, workers, copies in cases:
        opening = heads(workers, workers)
        bench.add(f"none {command} {workers} {copies}", command, opening, copies=copies)
        for kind, (called, count) in kinds.items():
            lines = opening + calls(workers, count, called)
            bench.add(f"{kind} {command} {workers} {copies}", command, lines, copies=copies)
    bench.run_all()
    for kind, (_, count) in kinds.items():
        rows = [["command", "workers", "processes", "calls", "wall, us/call", "processor, us/call", "calls/s"]]
        rows[0] += ["of one seq", "of as many seq"]
        walls = {}
        for command, workers, copies in cases:
            name, none = (f"{what} {command} {workers} {copies}" for what in (kind, "none"))
            wall, processor = bench.more(name, none, "wall"), bench.more(name, none, "processor")
            walls[command, workers, copies] = wall
            at_once = workers * copies
            made = count * at_once
            times = ratio(walls["seq", 1, 1] * at_once, wall)
            beside = ratio(walls["seq", 1, at_once], wall) if command == "run" else ""
            each_call = [microseconds(wall, made), microseconds(processor, made)]
            rows.append([command, str(workers), str(copies), f"{made:,}", *each_call, rate(made, wall), times, beside])
        print(f"{kind} calls" + (f" of {LONG_STEPS:,} steps" if kind == "long" else ""))
        show(rows)


def moves_table(bench):
    """Moves a second beside workers that call all the time."""
    cases = [(0, 0), *((workers, steps) for steps in CALL_STEPS for workers in range(1, MODULES + 1))]
    for workers, steps in cases:
        modules = max(workers, 1)
        lines = heads(modules, modules)
        if workers:
            lines += calls(workers, BUSY_STEPS // steps, busy(steps))
        moves = [f"move m{number % modules}" for number in range(MOVES)]
        bench.add(f"still {workers} {steps}", "run", lines, watched=True)
        bench.add(f"moved {workers} {steps}", "run", lines + moves, watched=True)
    bench.run_all()
    rows = [["workers", "steps/call", "made", "busy", "early", "to the end"]]
    rows[0] += ["mover, us/line", "by wall", "made/s", "wall, ms", "still", "processor, ms", "still"]
    for workers, steps in cases:
        name, still = f"moved {workers} {steps}", f"still {workers} {steps}"
        told = [f"{bench.middle(name, part):,.0f}" for part in ("made", "busy", "early")]
        outlasted = sum(spent.outlasted for spent in bench.runs[name]) if workers else 0
        mover, mover_wall = bench.more(name, still, "mover"), bench.more(name, still, "mover_wall")
        made = rate(bench.middle(name, "made"), mover_wall)
        each = [microseconds(mover, MOVES), microseconds(mover_wall, MOVES), made]
        took = [milliseconds(bench.middle(which, part)) for part in ("wall", "processor") for which in (name, still)]
        rows.append([str(workers), f"{steps:,}", *told, f"{outlasted} of {bench.rounds}", *each, *took])
    print(f"{MOVES:,} move lines, 8 frames a module")
    show(rows)


def frames_table(bench):
    """What comes of moves while one call holds the module's frames."""
    opening = heads(1, 1)
    moves = ["move m0"] * HOLDING_MOVES
    bench.add("none", "run", opening)
    for steps in HOLDING_STEPS:
        lines = [*opening, f"call 0 m0.{busy(steps)}"]
        fuel = ["--fuel", str(FUEL)]
        bench.add(f"still {steps}", "run", lines, *fuel, watched=True)
        for frames in HOLDING_FRAMES:
            words = [*fuel, "--frames", str(frames)]
            bench.add(f"held {steps} {frames}", "run", lines + moves, *words, watched=True)
    bench.run_all()
    rows = [["steps", "frames", "made", "busy", "spent", "busy on end", "mover, us/line", "busy for, ms", "call, ms"]]
    for steps in HOLDING_STEPS:
        call = bench.more(f"still {steps}", "none", "wall")
        for frames in HOLDING_FRAMES:
            name = f"held {steps} {frames}"
            told = [f"{bench.middle(name, part):,.0f}" for part in ("made", "busy", "spent", "streak")]
            line = bench.more(name, f"still {steps}", "mover") / HOLDING_MOVES
            longest = HOLDING_STEPS[-1]
            look = bench.more(f"held {longest} {frames}", f"still {longest}", "mover") / HOLDING_MOVES
            held = milliseconds(bench.middle(name, "streak") * look)
            rows.append([f"{steps:,}", str(frames), *told, microseconds(line, 1), held, milliseconds(call)])
    print(f"{HOLDING_MOVES:,} move lines beside one call")
    show(rows)


TABLES = {"calls": calls_table, "moves": moves_table, "frames": frames_table}


def main():
    if len(sys.argv) not in (4, 5) or not set(sys.argv[4:]) <= {*TABLES, ""}:
        sys.exit("usage: measure.py ADELIE FOLDER ROUNDS [calls|moves|frames]")
    adelie, folder, rounds = sys.argv[1], Path(sys.argv[2]).resolve(), int(sys.argv[3])
    only = sys.argv[4] if len(sys.argv) == 5 else ""
    for name, table in TABLES.items():
        if only in ("", name):
            table(Bench(adelie, folder, rounds))


if __name__ == "__main__":
    main()
