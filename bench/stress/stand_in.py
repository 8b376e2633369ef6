"""A stand-in for the program, to test check.py with: it makes a report of `run` without threads and without a machine.

    python3 stand_in.py run SCRIPT [--seed N] [--fuel N] [--slots N] [--frames N]

Workers and mover make their steps by turns, in an order of chance; CHANCE=N chooses it. A mapping is kept while a
worker that was inside any module when it was retired is still inside, as the real one keeps it. Calls end as those of
the native builds do.
"""

import os
import random
import sys
from dataclasses import dataclass, field
from pathlib import Path

from check import ADDRESSES, MAPPINGS, Entry, native_ends, options_of, read_script
from places import PAGE, REGION_BYTES, STACK_PAGES, Places

PAGES = {"stack": STACK_PAGES, "fixed": 5, "code": 6}
OFFSETS = {
    "code_at": 0x40,
    "data_at": 0x5010,
    "shared_at": 0x5018,
    "pointer_at": 0x80,
    "fixed_at": 0x4008,
    "stack_at": 0x3FF0,
}


@dataclass
class Row:
    kind: str
    who: int
    region: int
    start: int
    retired: int = 0
    unmapped: int = 0


@dataclass
class Worker:
    """A worker: its calls, how many have ended, and how far the one under way is."""

    number: int
    calls: list
    ended: int = 0
    stage: int = 0
    stack: int = 0
    under: int = 0
    ticket: int = 0
    ticks: int = 0  # that are left of the call
    owes: list = field(default_factory=list)  # the batches that wait for it


class Machine:
    """The state that workers and mover share."""

    def __init__(self, script, options, choice):
        self.script, self.choice = script, choice
        self.places = Places(options["--seed"])
        self.rows = []
        self.stacks = [self.place("stack", worker) for worker in range(script.workers)]
        self.fixed, self.current = [], []
        for module in range(len(script.names)):
            self.fixed.append(self.place("fixed", module))
            self.current.append(self.place("code", module))
        self.opened = len(self.rows)
        self.frames = [[number] + [0] * (options["--frames"] - 1) for number in self.current]
        self.drawn = [0] * len(script.names)
        self.served = [0] * len(script.names)
        calls = [step for step in script.steps if step.kind == "call"]
        self.workers = [Worker(w, [call for call in calls if call.worker == w]) for w in range(script.workers)]
        self.entries = {}  # of a call's line: its entry
        self.stack_of = {}  # and the mapping of its stack

    def place(self, kind, who):
        """Draws the next place. Its number."""
        self.rows.append(Row(kind, who, *self.places.next(kind, PAGES[kind])))
        return len(self.rows)

    def base(self, number):
        row = self.rows[number - 1]
        return row.region * REGION_BYTES + row.start * PAGE

    def unmap(self, number):
        """Unmaps a mapping and gives its frame back."""
        row = self.rows[number - 1]
        row.unmapped += 1
        if row.kind == "code":
            frames = self.frames[row.who]
            frames[frames.index(number)] = 0

    def retire(self, outs, line):
        """Retires a batch. It waits for each worker that is inside."""
        batch = {"members": outs, "waits": 0}
        for number in outs:
            self.rows[number - 1].retired = line
        for worker in self.workers:
            if 2 <= worker.stage <= 6:
                worker.owes.append(batch)
                batch["waits"] += 1
        self.free(batch)

    def free(self, batch):
        if batch["waits"] == 0:
            for number in batch["members"]:
                self.unmap(number)


def can_go(machine, worker):
    """Whether the worker has a step to make."""
    if worker.ended == len(worker.calls):
        return False
    module = worker.calls[worker.ended].modules[0]
    return worker.stage != 4 or machine.served[module] == worker.ticket


def go(machine, worker):
    """Makes one step of a worker's call."""
    call = worker.calls[worker.ended]
    module = call.modules[0]
    match worker.stage:
        case 0:
            worker.stack = machine.stacks[worker.number]
        case 2:
            worker.under = machine.current[module]
        case 3:
            worker.ticket = machine.drawn[module]
            machine.drawn[module] += 1
            worker.ticks = machine.choice.choice([0, 1, 5, 40])
        case 5 if worker.ticks > 0:
            worker.ticks -= 1
            return
        case 5:
            machine.entries[call.line] = Entry(call, 0, worker.ticket, worker.under, "")
            machine.stack_of[call.line] = worker.stack
            machine.served[module] += 1
        case 6:
            leave(machine, worker)
        case 7:
            if machine.stacks[worker.number] != worker.stack:
                machine.unmap(worker.stack)
            worker.ended += 1
    worker.stage = (worker.stage + 1) % 8


def leave(machine, worker):
    """Pays what the worker owes."""
    for batch in worker.owes:
        batch["waits"] -= 1
        machine.free(batch)
    worker.owes = []


def is_out(worker):
    """Whether the worker has no stack in hand."""
    return worker.stage == 0


def moves(machine, said):
    """Makes the lines of the mover, and says what came of each module; it yields between two steps."""
    for step in machine.script.steps:
        if step.kind == "stack":
            said[step.line] = [fresh_stack(machine, step)]
            yield
        elif step.kind == "move":
            outs = []
            said[step.line] = []
            for module in step.modules:
                said[step.line].append(move(machine, module, outs))
                yield
            machine.retire(outs, step.line)
            yield


def fresh_stack(machine, step):
    if len(machine.rows) == MAPPINGS:
        return "spent"
    number = machine.stacks[step.worker]
    machine.stacks[step.worker] = machine.place("stack", step.worker)
    machine.rows[number - 1].retired = step.line
    if is_out(machine.workers[step.worker]) or machine.workers[step.worker].stack != number:
        machine.unmap(number)
    return f"mapping {machine.stacks[step.worker]}"


def move(machine, module, outs):
    if len(machine.rows) == MAPPINGS:
        return "spent"
    frames = machine.frames[module]
    if 0 not in frames:
        return f"busy owner {frames[-1]}"
    outs.append(machine.current[module])
    number = machine.place("code", module)
    frames[frames.index(0)] = number
    machine.current[module] = number
    return f"mapping {number}"


def run(machine):
    """Makes all steps, in an order that chance has. What came of each line of the mover."""
    said = {}
    mover = moves(machine, said)
    share = machine.choice.choice([0.1, 0.5, 0.9])
    moving = True
    while True:
        ready = [worker for worker in machine.workers if can_go(machine, worker)]
        if moving and (not ready or machine.choice.random() < share):
            moving = next(mover, mover) is not mover
        elif ready:
            go(machine, machine.choice.choice(ready))
        else:
            return said


def end_calls(machine, folder):
    """Gives each call its end."""
    for module, file in enumerate(machine.script.files):
        own = [entry for entry in machine.entries.values() if entry.step.modules == [module]]
        own.sort(key=lambda entry: entry.position)
        for entry, end in zip(own, native_ends(folder, file, own), strict=True):
            kind = ADDRESSES.get(entry.step.export)
            parts = {"code": entry.under, "fixed": machine.fixed[module], "stack": machine.stack_of[entry.step.line]}
            entry.end = f"returned {machine.base(parts[kind]) + OFFSETS[entry.step.export]}" if kind else end


def row_of(row, number, names):
    """The line of a mapping."""
    who = f"w{row.who}" if row.kind == "stack" else names[row.who]
    place = f"region {row.region} start {row.start} pages {PAGES[row.kind]}"
    return f"map {number} {row.kind} {who} {place} retired {row.retired} unmapped {row.unmapped}"


def report(machine, said):
    """The lines of the report."""
    names = machine.script.names
    for step in machine.script.steps:
        if step.kind == "call":
            entry = machine.entries[step.line]
            called = f"call {step.line} w{step.worker} {names[step.modules[0]]}.{step.export}"
            yield f"{called} at {entry.position} under {entry.under}: {entry.end}"
        elif step.kind == "move":
            for module, end in zip(step.modules, said[step.line], strict=True):
                yield f"move {step.line} {names[module]}: {end}"
        else:
            yield f"stack {step.line} w{step.worker}: {said[step.line][0]}"
    yield from (row_of(row, number, names) for number, row in enumerate(machine.rows, 1))
    mappings = len(machine.rows)
    yield f"end calls {len(machine.entries)} moves {mappings - machine.opened} mappings {mappings}"


def simulated(script_text, options, folder, chance):
    """The text of a report of this script."""
    machine = Machine(read_script(script_text), options, random.Random(chance))
    said = run(machine)
    end_calls(machine, folder)
    return "".join(line + "\n" for line in report(machine, said))


def main():
    if len(sys.argv) < 3 or sys.argv[1] != "run":
        sys.exit("usage: stand_in.py run SCRIPT [--seed N] [--fuel N] [--slots N] [--frames N]")
    chance = os.environ.get("CHANCE", "0")
    print(simulated(Path(sys.argv[2]).read_text(), options_of(sys.argv[3:]), Path(), chance), end="")


if __name__ == "__main__":
    main()
