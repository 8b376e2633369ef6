"""Checks one report of `run`, or of `seq`, against its script. README.md says what is checked.

    python3 check.py REPORT run SCRIPT [--seed N] [--fuel N] [--slots N] [--frames N]
    python3 check.py REPORT seq SCRIPT [--seed N] [--fuel N]

The words behind REPORT are those that the program was given, in the folder that it was run in. It prints what the
report has, with status 0; or the line that is wrong and why, with status 1. Nothing here is the program's: places,
ledger and replies are computed anew. The replies are those of the modules' native builds: of FILE.so beside each
FILE.o, asked by the program `native` there. Where there is no such build, the replies of a module are only read.
"""

import re
import subprocess
import sys
from bisect import bisect_left, bisect_right
from collections import Counter, defaultdict, deque
from dataclasses import dataclass, field
from pathlib import Path

from places import PAGE, REGION_BYTES, STACK_PAGES, Places

MAPPINGS = 4095
PART_PAGES = 62
NOTES = 16
# The least pages of a part: of the movable one text, stubs, table and local area; of the other stubs and table.
LEAST_PAGES = {"code": 4, "fixed": 2}
DEFAULTS = {"--seed": 0, "--fuel": 100_000, "--slots": 4, "--frames": 8}
# Exports that reply an address, and what it is in: the movable part that the call ran under, the module's immovable
# part, or a stack of the worker.
ADDRESSES = {
    "code_at": "code",
    "data_at": "code",
    "shared_at": "code",
    "pointer_at": "code",
    "fixed_at": "fixed",
    "stack_at": "stack",
}

NUMBER = "(0|[1-9][0-9]*)"
NAME = "([A-Za-z_][A-Za-z0-9_]*)"
CALL = re.compile(rf"call {NUMBER} w{NUMBER} {NAME}\.([^ ]+) at {NUMBER} under {NUMBER}: (.+)")
MOVE = re.compile(rf"move {NUMBER} {NAME}: (?:mapping {NUMBER}|busy owner {NUMBER}|spent)")
STACK = re.compile(rf"stack {NUMBER} w{NUMBER}: (?:mapping {NUMBER}|spent)")
MAP = re.compile(
    rf"map {NUMBER} (stack|fixed|code) ([^ ]+) region {NUMBER} start {NUMBER} pages {NUMBER}"
    rf" retired {NUMBER} unmapped {NUMBER}"
)
LAST = re.compile(rf"end calls {NUMBER} moves {NUMBER} mappings {NUMBER}")
TRAPS = "illegal|misaligned|fault|denied|ecall|ebreak|fuel|notes"
END = re.compile(rf"(?:(?:returned|abort) {NUMBER}|trap ({TRAPS}))(?: notes((?: {NUMBER})+))?")


class Wrong(Exception):
    """A report that isn't one of its script: the number of a line of it, counted from 1, and why."""

    def __init__(self, line, why):
        super().__init__(f"line {line}: {why}")


@dataclass
class Step:
    """A call, a move or a stack line of a script."""

    kind: str
    line: int
    worker: int = 0
    modules: list = field(default_factory=list)  # their numbers: the one that is called, or those that are moved
    export: str = ""
    arguments: list = field(default_factory=list)


@dataclass
class Script:
    workers: int = 1
    names: list = field(default_factory=list)
    files: list = field(default_factory=list)
    steps: list = field(default_factory=list)

    def has_calls(self):
        return any(step.kind == "call" for step in self.steps)


def spelled(word):
    """The number that a word of a script spells."""
    return int(word[2:], 16) if word.startswith("0x") else int(word, 10)


def read_script(text):
    """The script of a text, which must be one."""
    script = Script()
    for line, content in enumerate(text.split("\n"), 1):
        words = content.split()
        comment = next((at for at, word in enumerate(words) if word.startswith("#")), len(words))
        match words[:comment]:
            case []:
                pass
            case ["workers", count]:
                script.workers = spelled(count)
            case ["load", name, file]:
                script.names.append(name)
                script.files.append(file)
            case ["call", worker, called, *arguments]:
                name, _, export = called.partition(".")
                called = [script.names.index(name)]
                script.steps.append(Step("call", line, spelled(worker), called, export, [*map(spelled, arguments)]))
            case ["move", *names]:
                script.steps.append(Step("move", line, modules=[*map(script.names.index, names)]))
            case ["stack", worker]:
                script.steps.append(Step("stack", line, spelled(worker)))
            case _:
                raise ValueError(f"line {line} is no line of a script: {content}")
    return script


class Lines:
    """The lines of a report, taken one after the other."""

    def __init__(self, text):
        self.lines = text.split("\n")
        self.number = 0
        if self.lines.pop() != "":
            raise Wrong(len(self.lines) + 1, "the last line has no line feed")

    def take(self, form, what):
        """The parts of the next line, which must have this form."""
        self.number += 1
        if self.number > len(self.lines):
            raise Wrong(self.number, f"the report ends before {what}")
        parts = form.fullmatch(self.lines[self.number - 1])
        self.must(parts is not None, f"this isn't {what}")
        return parts

    def must(self, holds, why):
        """Refuses the line that was taken last, where this doesn't hold."""
        if not holds:
            raise Wrong(self.number, f"{why}: {self.lines[self.number - 1]}")


@dataclass
class Mapping:
    kind: str
    who: int  # the number of the worker, or of the module
    retired: int = 0
    pages: int = 0
    base: int = 0


class Made:
    """The mappings that were made so far, of which mapping N is the N-th."""

    def __init__(self, script):
        self.mappings = []
        self.numbers = defaultdict(list)  # of each kind and worker or module, rising; the last one is the current one
        for worker in range(script.workers):
            self.make("stack", worker, 0)
        for module in range(len(script.names)):
            self.make("fixed", module, 0)
            self.make("code", module, 0)
        self.opened = len(self.mappings)

    def make(self, kind, who, line):
        """Makes the next mapping in a line, which retires the one before it. Its number."""
        numbers = self.numbers[kind, who]
        if numbers:
            self.at(numbers[-1]).retired = line
        self.mappings.append(Mapping(kind, who))
        numbers.append(len(self.mappings))
        return numbers[-1]

    def at(self, number):
        return self.mappings[number - 1]

    def place_of(self, kind, who, number):
        """How many mappings of a worker or a module were made before this one, or None where it is none of these."""
        numbers = self.numbers[kind, who]
        at = bisect_left(numbers, number)
        return at if at < len(numbers) and numbers[at] == number else None

    def are_spent(self):
        return len(self.mappings) == MAPPINGS

    def latest(self, kind, who, number):
        """The last mapping of a worker or a module that isn't numbered above this, or the first one."""
        numbers = self.numbers[kind, who]
        return numbers[max(bisect_right(numbers, number) - 1, 0)]


@dataclass
class Entry:
    """What a report says of a call."""

    step: Step
    number: int  # of its line in the report
    position: int
    under: int
    end: str
    stack: int = 0  # the mapping of its stack, where its reply tells it
    known: int = 0  # the highest number of a mapping that was surely made before its end


class Check:
    """A report in the course of its check."""

    def __init__(self, script, is_run, options):
        self.script = script
        self.is_run = is_run
        self.options = options
        self.made = Made(script)
        self.entries = []
        self.of_module = defaultdict(list)  # the entries of each module, in the order of the script
        self.of_worker = defaultdict(list)  # and of each worker
        self.owners = {}  # of a module: the owner that its last busy line told, and how many mappings it had then
        self.counts = Counter()


def check_call(check, lines, step):
    """The line of a call: all but its position, its mapping and its reply."""
    parts = lines.take(CALL, f"the call of line {step.line}")
    name = check.script.names[step.modules[0]]
    lines.must(int(parts[1]) == step.line, f"the script's step is in line {step.line}")
    lines.must(int(parts[2]) == step.worker, f"the call is of w{step.worker}")
    lines.must((parts[3], parts[4]) == (name, step.export), f"the call is of {name}.{step.export}")
    end = END.fullmatch(parts[7])
    lines.must(end is not None, "a call can't end so")
    notes = (end[3] or "").split()
    lines.must(len(notes) <= NOTES, "too many notes")
    lines.must(end[2] != "notes" or len(notes) == NOTES, "too few notes for such an end")
    lines.must(all(int(number) < 2**64 for number in [end[1] or 0, *notes]), "a number has more than 64 bits")
    entry = Entry(step, lines.number, int(parts[5]), int(parts[6]), parts[7])
    if not check.is_run:
        current = check.made.numbers["code", step.modules[0]][-1]
        lines.must(entry.under == current, f"the current mapping is {current}")
        position = len(check.of_module[step.modules[0]])
        lines.must(entry.position == position, f"the position is {position}")
    check.entries.append(entry)
    check.of_module[step.modules[0]].append(entry)
    check.of_worker[step.worker].append(entry)
    check.counts["calls"] += 1


def check_made(check, lines, number, kind, who, line):
    """What a move or a stack line made, where it says that it made this mapping, or is spent."""
    spent = check.made.are_spent()
    lines.must(not spent or number is None, f"{MAPPINGS} places were made before")
    lines.must(spent or number is not None, f"{len(check.made.mappings)} places were made before")
    if spent:
        check.counts["spent"] += 1
        return
    made = check.made.make(kind, who, line)
    lines.must(int(number) == made, f"the next mapping is {made}")
    check.counts["moves" if kind == "code" else "stacks"] += 1


def check_busy(check, lines, module, owner):
    """A busy outcome: each frame may have an owner, and this may be that of the last frame."""
    lines.must(check.is_run, "no frame is busy in seq")
    lines.must(check.script.has_calls(), "no call holds a mapping")
    lines.must(not check.made.are_spent(), f"{MAPPINGS} places were made before, so it is spent")
    frames = check.options["--frames"]
    numbers = check.made.numbers["code", module]
    lines.must(len(numbers) >= frames, f"the module had {len(numbers)} mappings before, in {frames} frames")
    at = check.made.place_of("code", module, owner)
    lines.must(at is not None, "the owner is no mapping of the module that was made before")
    lines.must(at >= frames - 1, f"only {at} mappings were made before this owner, so it hasn't the last frame")
    before, made = check.owners.get(module, (owner, 0))
    lines.must(owner == before or at >= made, f"the owner was {before} before, and none that came behind it is this")
    check.owners[module] = owner, len(numbers)
    check.counts["busy"] += 1


def check_move(check, lines, step):
    """The lines of a move, one for each module in the order named."""
    for module in step.modules:
        parts = lines.take(MOVE, f"a module of the move of line {step.line}")
        name = check.script.names[module]
        lines.must(int(parts[1]) == step.line, f"the script's step is in line {step.line}")
        lines.must(parts[2] == name, f"the next module is {name}")
        if parts[4]:
            check_busy(check, lines, module, int(parts[4]))
        else:
            check_made(check, lines, parts[3], "code", module, step.line)
    check.counts["move lines"] += 1


def check_stack(check, lines, step):
    """The line of a fresh stack."""
    parts = lines.take(STACK, f"the stack of line {step.line}")
    lines.must(int(parts[1]) == step.line, f"the script's step is in line {step.line}")
    lines.must(int(parts[2]) == step.worker, f"the stack is of w{step.worker}")
    check_made(check, lines, parts[3], "stack", step.worker, step.line)


def check_positions(check):
    """Of each module the positions are 0 and following, each once, and rise in each worker's calls of it."""
    for entries in check.of_module.values():
        seen = {}
        last = {}
        for entry in entries:
            if entry.position >= len(entries):
                raise Wrong(entry.number, f"position {entry.position} of a module with {len(entries)} calls")
            if entry.position in seen:
                raise Wrong(entry.number, f"line {seen[entry.position]} has position {entry.position} too")
            if entry.position < last.get(entry.step.worker, -1):
                before = last[entry.step.worker]
                raise Wrong(entry.number, f"position {entry.position} behind {before}, of the worker's call before")
            seen[entry.position] = entry.number
            last[entry.step.worker] = entry.position


def check_under(check):
    """What a call ran under is a mapping of its module, and doesn't fall in a worker's calls of it."""
    last = {}
    for entry in check.entries:
        module = entry.step.modules[0]
        numbers = check.made.numbers["code", module]
        if check.made.place_of("code", module, entry.under) is None:
            raise Wrong(entry.number, f"{entry.under} is no mapping of the module")
        before = last.get((entry.step.worker, module), 0)
        if entry.under < before:
            raise Wrong(entry.number, f"under {entry.under}, but the worker's call before under {before}")
        last[entry.step.worker, module] = entry.under
        check.counts["amid"] += numbers[0] < entry.under < numbers[-1]


def name_of(script, mapping):
    return f"w{mapping.who}" if mapping.kind == "stack" else script.names[mapping.who]


def check_row(check, lines, number, mapping, places, pages_of):
    """A row of the ledger."""
    parts = lines.take(MAP, f"the row of mapping {number}")
    name = name_of(check.script, mapping)
    lines.must(int(parts[1]) == number, f"the next row is of mapping {number}")
    lines.must((parts[2], parts[3]) == (mapping.kind, name), f"it is {mapping.kind} {name}")
    pages = int(parts[6])
    if mapping.kind == "stack":
        lines.must(pages == STACK_PAGES, f"a stack has {STACK_PAGES} pages")
    else:
        lines.must(LEAST_PAGES[mapping.kind] <= pages <= PART_PAGES, "a part can't have so many pages")
        before = pages_of.setdefault((mapping.kind, mapping.who), pages)
        lines.must(pages == before, f"the part has {before} pages")
    region, start = places.next(mapping.kind, pages)
    lines.must((int(parts[4]), int(parts[5])) == (region, start), f"the next place is region {region} start {start}")
    lines.must(int(parts[7]) == mapping.retired, f"line {mapping.retired} made the next one, or none if 0")
    unmapped = int(mapping.retired != 0)
    lines.must(int(parts[8]) == unmapped, f"unmapped must be {unmapped}")
    mapping.pages = pages
    mapping.base = region * REGION_BYTES + start * PAGE


def check_ledger(check, lines):
    """The rows of all mappings, and the last line."""
    places = Places(check.options["--seed"])
    pages_of = {}
    for number, mapping in enumerate(check.made.mappings, 1):
        check_row(check, lines, number, mapping, places, pages_of)
    mappings = len(check.made.mappings)
    parts = lines.take(LAST, f"the last line, behind {mappings} rows")
    counts = (len(check.entries), mappings - check.made.opened, mappings)
    were = "there were {} calls, {} moves, {} mappings".format(*counts)
    lines.must(tuple(map(int, parts.groups())) == counts, were)
    if lines.number < len(lines.lines):
        raise Wrong(lines.number + 1, f"more behind the last line: {lines.lines[lines.number]}")


def in_part(check, number, address):
    """Whether an address is in a mapping, or just behind its end."""
    mapping = check.made.at(number)
    return 0 <= address - mapping.base <= mapping.pages * PAGE


def part_of_address(check, entry, address):
    """The mapping that this reply of an address is in, or None where it is in none that it may be in."""
    kind = ADDRESSES[entry.step.export]
    if kind == "code":
        return entry.under if in_part(check, entry.under, address) else None
    who = entry.step.worker if kind == "stack" else entry.step.modules[0]
    return next((n for n in check.made.numbers[kind, who] if in_part(check, n, address)), None)


def check_address(check, entry, offsets):
    """The reply of an address: it lies in its part, always at the same offset there."""
    reply = entry.end.split()
    if reply[0] != "returned" or len(reply) != 2:
        raise Wrong(entry.number, f"no reply of an address: {entry.end}")
    part = part_of_address(check, entry, int(reply[1]))
    if part is None:
        raise Wrong(entry.number, f"this address isn't in a part that it may be in: {entry.end}")
    offset = int(reply[1]) - check.made.at(part).base
    before = offsets.setdefault((entry.step.modules[0], entry.step.export), offset)
    if offset != before:
        raise Wrong(entry.number, f"offset {offset} in mapping {part}, but {before} in an earlier reply")
    if ADDRESSES[entry.step.export] == "stack":
        entry.stack = part


def native_ends(folder, file, entries):
    """How these calls of a module end, one after the other, in its native build; None where there is none."""
    module = (folder / file).with_suffix(".so").resolve()
    if not module.is_file():
        return None
    calls = [[entry.under, entry.step.export, *entry.step.arguments] for entry in entries]
    asked = "".join(" ".join(map(str, call)) + "\n" for call in calls)
    done = subprocess.run([module.parent / "native", module], input=asked, capture_output=True, text=True, check=True)
    return done.stdout.splitlines()


def check_ends(check, folder):
    """The calls of each module end as those of its native build do in the order of their positions."""
    offsets = {}
    for module, entries in check.of_module.items():
        ordered = sorted(entries, key=lambda entry: entry.position)
        ends = native_ends(folder, check.script.files[module], ordered)
        if ends is None:
            continue
        for entry, end in zip(ordered, ends, strict=True):
            if entry.step.export in ADDRESSES:
                check_address(check, entry, offsets)
            elif entry.end != end:
                raise Wrong(entry.number, f"it ends '{entry.end}', and natively '{end}'")
            check.counts["compared"] += 1


def check_knowledge(check, entry, before):
    """A call finds nothing older than what was surely made before it."""
    module, worker = entry.step.modules[0], entry.step.worker
    latest = check.made.latest("code", module, before)
    if entry.under < latest:
        raise Wrong(entry.number, f"under {entry.under}, though mapping {latest} was current before it")
    latest = check.made.latest("stack", worker, before)
    if entry.stack and entry.stack < latest:
        raise Wrong(entry.number, f"on stack {entry.stack}, though stack {latest} was its worker's before it")


def check_order(check):
    """One order of all calls agrees with the positions and with each worker's order, and in it no call finds what was
    replaced before. The mover makes its mappings one after the other, so whoever finds mapping N comes behind all that
    are numbered below it."""
    predecessor = {}  # a call's predecessor among its worker's calls, and at its module
    after = defaultdict(list)
    for entries in check.of_worker.values():
        for before, entry in zip([None, *entries], entries):
            predecessor[id(entry)] = [before]
            after[id(before)].append(entry)
    for entries in check.of_module.values():
        ordered = sorted(entries, key=lambda entry: entry.position)
        for before, entry in zip([None, *ordered], ordered):
            predecessor[id(entry)].append(before)
            after[id(before)].append(entry)
    waits = {id(entry): 2 for entry in check.entries}
    ready = deque([None])
    done = 0
    while ready:
        last = ready.popleft()
        for entry in after[id(last)]:
            waits[id(entry)] -= 1
            if waits[id(entry)] == 0:
                own, turn = predecessor[id(entry)]
                before = own.known if own else check.made.opened
                check_knowledge(check, entry, before)
                entry.known = max(before, entry.under, entry.stack, turn.known if turn else 0)
                ready.append(entry)
                done += 1
    if done < len(check.entries):
        stuck = next(entry for entry in check.entries if waits[id(entry)] > 0)
        raise Wrong(stuck.number, "the positions and the workers' orders of calls run in a circle")


def check_report(text, script_text, is_run, options, folder):
    """Checks a report, and counts what it has. Files of modules are looked for in this folder."""
    check = Check(read_script(script_text), is_run, options)
    lines = Lines(text)
    for step in check.script.steps:
        {"call": check_call, "move": check_move, "stack": check_stack}[step.kind](check, lines, step)
    check_positions(check)
    check_under(check)
    check_ledger(check, lines)
    check_ends(check, folder)
    check_order(check)
    check.counts["mappings"] = len(check.made.mappings)
    return check.counts


def options_of(words):
    """The options of the program's words, with those that aren't given."""
    options = dict(DEFAULTS)
    for name, number in zip(words[::2], words[1::2], strict=True):
        if name not in options:
            sys.exit(f"check.py: there is no option {name}")
        options[name] = int(number)
    return options


def main():
    if len(sys.argv) < 4 or sys.argv[2] not in ("run", "seq"):
        sys.exit("usage: check.py REPORT run|seq SCRIPT [--seed N] [--fuel N] [--slots N] [--frames N]")
    report, command, script = sys.argv[1:4]
    text, script_text = (Path(name).read_bytes().decode("latin-1") for name in (report, script))
    try:
        counts = check_report(text, script_text, command == "run", options_of(sys.argv[4:]), Path())
    except Wrong as wrong:
        sys.exit(f"check.py: {report}: {wrong}")
    print(", ".join(f"{what} {count}" for what, count in sorted(counts.items())))


if __name__ == "__main__":
    main()
