"""Tests check.py: it must take reports that are right, and refuse each that was tampered with, for the right reason.

    python3 selftest.py FOLDER

FOLDER has what build.sh makes. The reports are two worked ones, and those that stand_in.py makes. See also README.md.
"""

import random
import re
import sys
from pathlib import Path

from check import Wrong, check_report, options_of
from generate import generate, objects_of
from places import random_words
from stand_in import simulated

# The first words of the choice of places at seed 0 (RFC 8439's block function with a key of zeros).
FIRST_WORDS = [
    0xADE0B876,
    0x903DF1A0,
    0xE56A5D40,
    0x28BD8653,
    0xB819D2BD,
    0x1AED8DA0,
    0xCCEF36A8,
    0xC70D778B,
    0x7C5941DA,
    0x8D485751,
]

# Two worked reports: a call that holds both frames until line 5, and moves beside which no call is.
WORKED = [
    (
        "load m whereami.o\ncall 0 m.whereami\nmove m\nmove m\nmove m\n",
        "call 2 w0 m.whereami at 0 under 3: returned 3435573248\n"
        "move 3 m: mapping 4\n"
        "move 4 m: busy owner 4\n"
        "move 5 m: mapping 5\n"
        "map 1 stack w0 region 47222 start 24 pages 4 retired 0 unmapped 0\n"
        "map 2 fixed m region 29432 start 1 pages 2 retired 0 unmapped 0\n"
        "map 3 code m region 13105 start 43 pages 4 retired 3 unmapped 1\n"
        "map 4 code m region 27250 start 53 pages 4 retired 5 unmapped 1\n"
        "map 5 code m region 13128 start 39 pages 4 retired 0 unmapped 0\n"
        "end calls 1 moves 2 mappings 5\n",
    ),
    (
        "load m sum.o\nmove m\nmove m\n",
        "move 2 m: mapping 4\n"
        "move 3 m: mapping 5\n"
        "map 1 stack w0 region 47222 start 24 pages 4 retired 0 unmapped 0\n"
        "map 2 fixed m region 29432 start 1 pages 2 retired 0 unmapped 0\n"
        "map 3 code m region 13105 start 43 pages 4 retired 2 unmapped 1\n"
        "map 4 code m region 27250 start 53 pages 4 retired 3 unmapped 1\n"
        "map 5 code m region 13128 start 39 pages 4 retired 0 unmapped 0\n"
        "end calls 0 moves 2 mappings 5\n",
    ),
]

# A script whose reports are tampered with: two frames, calls of several kinds, and moves that come out busy.
LINES = [
    "workers 3",
    "load p pure-O2.o",
    "load c counter-O1.o",
    "load t traps-Os.o",
    "load q queue-O0.o",
    "load a places-O2.o",
]
CALLS = [
    "p.mix {0} 2 3",
    "p.rounds {0}",
    "c.add {0}",
    "c.counted",
    "t.fault {0}",
    "t.note 5",
    "q.put {0}",
    "q.print 3",
    "a.code_at",
    "a.stack_at",
    "a.keep {0}",
    "a.follow",
]
WORDS = ["run", "script", "--seed", "7", "--frames", "2"]

# A script of one worker, and one of two whose calls cross, for what one order of all calls refuses.
SEEN = "load a pure-O1.o\nload b pure-O2.o\nmove b a\ncall 0 a.weigh 7\ncall 0 b.weigh 7\n"
CROSSED = (
    "workers 2\nload a pure-O1.o\nload b pure-O2.o\n"
    "call 0 a.weigh 1\ncall 0 b.weigh 2\ncall 1 b.weigh 3\ncall 1 a.weigh 4\n"
)


def tampered_script(chance):
    """A script of some hundred lines over five modules."""
    choice = random.Random(chance)
    lines = list(LINES)
    for at in range(240):
        match choice.randrange(8):
            case 0 | 1:
                lines.append(f"move {' '.join(choice.sample('pctqa', choice.randrange(1, 4)))}")
            case 2:
                lines.append(f"stack {choice.randrange(3)}")
            case _:
                lines.append(f"call {choice.randrange(3)} {choice.choice(CALLS).format(at)}")
    return "\n".join(lines) + "\n"


def edited(lines, form, change, which=0):
    """The lines with the first one of this form changed, or the one of this number among those of the form."""
    found = [at for at, line in enumerate(lines) if re.search(form, line)]
    lines = list(lines)
    lines[found[which]] = change(lines[found[which]])
    return lines


def replaced(form, pattern, by, which=0):
    """A tampering that replaces a pattern in a line of this form."""
    return lambda lines: edited(lines, form, lambda line: re.sub(pattern, by, line), which)


def raised(form, pattern, by=1, which=0):
    """A tampering that changes a number in a line of this form. The pattern has the number as its group."""

    def change(line):
        found = re.search(pattern, line)
        return f"{line[: found.start(1)]}{int(found[1]) + by}{line[found.end(1) :]}"

    return lambda lines: edited(lines, form, change, which)


def without(form, which=0):
    """A tampering that leaves a line of this form out."""

    def change(lines):
        found = [at for at, line in enumerate(lines) if re.search(form, line)]
        return lines[: found[which]] + lines[found[which] + 1 :]

    return change


def exchanged(form):
    """A tampering that exchanges two lines of this form, which follow one another."""

    def change(lines):
        at = next(at for at in range(len(lines)) if all(re.search(form, line) for line in lines[at : at + 2]))
        return [*lines[:at], lines[at + 1], lines[at], *lines[at + 2 :]]

    return change


def calls_of(lines, form):
    """Of each call of this form: where its line is, its worker, position and mapping."""
    found = [(at, re.match(r"call \d+ w(\d+) \S+ at (\d+) under (\d+)", line)) for at, line in enumerate(lines)]
    return [(at, *map(int, parts.groups())) for at, parts in found if parts and re.search(form, lines[at])]


def with_position(line, position):
    return re.sub(r"at \d+ under", f"at {position} under", line)


def positions_exchanged(lines, pairs):
    """The lines with the positions of two calls exchanged, the first of these pairs."""
    one, other = next(pairs)
    lines = list(lines)
    lines[one[0]] = with_position(lines[one[0]], other[2])
    lines[other[0]] = with_position(lines[other[0]], one[2])
    return lines


def order_of_one_worker(lines):
    """Two calls of one worker on a module are exchanged."""
    calls = calls_of(lines, r" c\.")
    return positions_exchanged(lines, ((x, y) for at, x in enumerate(calls) for y in calls[at + 1 :] if x[1] == y[1]))


def order_of_two_workers(lines):
    """Two additions that came one directly after the other, of two workers, are exchanged."""
    calls = calls_of(lines, r" c\.add")
    return positions_exchanged(lines, ((x, y) for x in calls for y in calls if y[2] == x[2] + 1 and y[1] != x[1]))


def under_falls(lines):
    """A call is put under the module's first mapping, behind one of its worker that ran under another."""
    calls = calls_of(lines, " p\\.")
    first = min(under for _, _, _, under in calls)
    pairs = ((call, later) for n, call in enumerate(calls) for later in calls[n + 1 :])
    at = next(later[0] for call, later in pairs if later[1] == call[1] and call[3] > first)
    return edited(lines, re.escape(lines[at]), lambda line: re.sub(r"under \d+", f"under {first}", line))


def owner_of_first_frame(lines):
    """A busy move names the module's first mapping, which has the first frame."""
    module = next(re.match(r"move \d+ (\w+): busy", line)[1] for line in lines if "busy" in line)
    first = next(re.match(r"map (\d+)", line)[1] for line in lines if f" code {module} " in line)
    return edited(lines, f"{module}: busy", lambda line: re.sub(r"owner \d+", f"owner {first}", line))


def owner_comes_back(lines):
    """A later busy move of a module names the owner that an earlier one had, which was replaced in the meantime."""
    found = [(at, re.match(r"move \d+ (\w+): busy owner (\d+)", line)) for at, line in enumerate(lines)]
    busy = [(at, *parts.groups()) for at, parts in found if parts]
    pairs = ((one, other) for n, one in enumerate(busy) for other in busy[n + 1 :])
    one, other = next((one, other) for one, other in pairs if one[1] == other[1] and one[2] != other[2])
    lines = list(lines)
    lines[other[0]] = re.sub(r"owner \d+", f"owner {one[2]}", lines[other[0]])
    return lines


def address_of_other_place(lines):
    """Two replies of an address are exchanged, of calls under different mappings."""
    calls = calls_of(lines, "code_at")
    one, other = next((one, other) for n, one in enumerate(calls) for other in calls[n + 1 :] if one[3] != other[3])
    lines = list(lines)
    ends = [lines[call[0]].split(": ")[1] for call in (one, other)]
    for call, end in zip((one, other), reversed(ends)):
        lines[call[0]] = lines[call[0]].split(": ")[0] + ": " + end
    return lines


# What is tampered with, and why it must be refused.
TAMPERINGS = [
    ("a call is missing", "the script's step is in line|this isn't", without("^call")),
    ("a move of several modules lacks one", "the next module is|this isn't|the script's step", without("^move")),
    ("a call stands twice", "", lambda lines: [lines[0], *lines]),
    ("two calls in another order", "the script's step is in line", exchanged("^call")),
    ("another line", "the script's step is in line", raised("^call", r"call (\d+)")),
    ("another worker", "the call is of w", replaced("^call.* w0", " w0 ", " w1 ")),
    ("another export", "the call is of p.mix", replaced(r"p\.mix", r"p\.mix", "p.mux")),
    ("a position twice", "has position", raised("^call.* at 0 ", r"at (\d+)")),
    ("a position too high", "position 9000 of a module", raised("^call.* at 0 ", r"at (\d+)", 9000)),
    ("positions of one worker exchanged", "behind", order_of_one_worker),
    ("positions of two workers exchanged", "natively", order_of_two_workers),
    ("under a mapping of another module", "no mapping of the module", raised("^call.* p", r"under (\d+)", 2)),
    ("under an older mapping than the call before", "but the worker's call before", under_falls),
    ("another reply of a pure function", "natively", raised(r" p\.mix", r"returned (\d+)")),
    ("another reply of a counter", "natively", raised(r" c\.add", r"returned (\d+)")),
    ("another note", "natively", raised("notes", r"notes \d+ (\d+)")),
    ("another trap", "natively", replaced("trap fault", "trap fault", "trap denied")),
    ("a return in place of a trap", "natively", replaced("trap fault", "trap fault", "returned 0")),
    ("no such trap", "a call can't end so", replaced("trap fault", "trap fault", "trap faults")),
    ("seventeen notes", "too many notes", replaced(" t.note", "$", " 1" * 12)),
    ("a number of 65 bits", "more than 64 bits", replaced(r" c\.add", r"returned \d+", f"returned {2**64}")),
    ("an address of another mapping", "isn't in a part", address_of_other_place),
    ("an address at another offset", "offset", raised("code_at.*returned", r"returned (\d+)", 4, 1)),
    ("an address of another stack", "isn't in a part", raised("stack_at", r"returned (\d+)", 0x40000)),
    ("a mapping left out", "the next mapping is", raised("^move.*mapping", r"mapping (\d+)")),
    ("a stack's mapping twice", "the next mapping is", raised("^stack.*mapping", r"mapping (\d+)", -1)),
    ("spent too early", "places were made before", replaced("^move.*mapping", r"mapping \d+", "spent")),
    ("busy too early", "mappings before, in 2 frames", replaced("^move.*mapping", r"mapping (\d+)", r"busy owner \1")),
    ("a busy owner without the last frame", "hasn't the last frame", owner_of_first_frame),
    ("a busy owner of nowhere", "no mapping of the module", raised("busy owner", r"owner (\d+)", 4000)),
    ("a busy owner that was replaced", "the owner was", owner_comes_back),
    ("a busy move that is made", "the next mapping is", replaced("busy owner", "busy owner", "mapping")),
    ("another region", "the next place is", raised("^map 20 ", r"region (\d+)")),
    ("another start", "the next place is", raised("^map 20 ", r"start (\d+)")),
    ("other pages", "the part has 6 pages|a stack has 4 pages", raised("^map 20 ", r"pages (\d+)")),
    ("another kind", "it is", replaced("^map 5 ", "code", "fixed")),
    ("another who", "it is", replaced("^map 1 ", "w0", "w1")),
    ("a row is missing", "the next row is", without("^map 10 ")),
    ("the last row is missing", "this isn't the row", without("^map", -1)),
    ("two rows in another order", "the next row is", exchanged("^map")),
    ("retired by another line", "made the next one", raised("^map.* unmapped 1", r"retired (\d+)")),
    ("never retired", "made the next one", replaced("^map.* unmapped 1", r"retired .*", "retired 0 unmapped 0")),
    ("retired, and still there", "unmapped must be 1", replaced("unmapped 1", "unmapped 1", "unmapped 0")),
    ("unmapped twice", "unmapped must be 1", replaced("unmapped 1", "unmapped 1", "unmapped 2")),
    ("unmapped, and not retired", "unmapped must be 0", replaced("^map.*retired 0", "unmapped 0", "unmapped 1")),
    ("more calls at the end", "there were", raised("^end", r"calls (\d+)")),
    ("more moves at the end", "there were", raised("^end", r"moves (\d+)")),
    ("fewer mappings at the end", "there were", raised("^end", r"mappings (\d+)", -1)),
    ("no end", "the report ends before", lambda lines: lines[:-1]),
    ("more behind the end", "more behind the last line", lambda lines: [*lines, lines[-1]]),
    ("a leading zero", "this isn't", replaced("^call", " at ", " at 0")),
    ("a space at the end of a line", "this isn't", replaced("^map 3 ", "$", " ")),
    ("an empty line", "this isn't", lambda lines: [lines[0], "", *lines[1:]]),
]

failures = 0


def tell(holds, what):
    """Counts a test that fails, and says which."""
    global failures
    if not holds:
        failures += 1
        print(f"selftest.py: {what}", file=sys.stderr)


def refusal(report, script, words, folder):
    """Why the report is refused, or None."""
    try:
        check_report(report, script, words[0] == "run", options_of(words[2:]), folder)
    except Wrong as wrong:
        return str(wrong)
    return None


def must_refuse(name, reason, report, script, words, folder):
    why = refusal(report, script, words, folder)
    tell(why is not None, f"not refused: {name}")
    tell(why is None or re.search(reason, why), f"{name}: refused for another reason: {why}")


def test_right_ones(folder):
    """Worked reports, and those of the stand-in on scripts of chance, are taken. How many they are."""
    words = random_words(0)
    tell([next(words) for _ in FIRST_WORDS] == FIRST_WORDS, "the random words of seed 0")
    for script, report in WORKED:
        why = refusal(report, script, ["run", "script", "--frames", "2"], Path("absent"))
        tell(why is None, f"a worked report is refused: {why}")
    objects = objects_of(folder)
    numbers = range(30)
    for number in numbers:
        script, words = generate(number, "selftest", objects, 500)
        report = simulated(script, options_of(words), folder, number)
        why = refusal(report, script, ["run", "script", *words], folder)
        tell(why is None, f"report {number} of the stand-in is refused: {why}")
    return len(WORKED) + len(numbers)


def report_to_tamper_with(folder):
    """A script and a report of it in which a module has two busy owners, one after the other."""
    for chance in range(1000):
        script = tampered_script(chance)
        report = simulated(script, options_of(WORDS[2:]), folder, chance)
        owners = set(re.findall(r"move \d+ (\w+): busy owner (\d+)", report))
        codes = {under for _, _, _, under in calls_of(report.splitlines(), "code_at")}
        if len(owners) > len({module for module, _ in owners}) and len(codes) > 1 and "trap fault" in report:
            return script, report
    sys.exit("selftest.py: no report of the stand-in has all that is tampered with")


def test_tampered(folder):
    """Each tampered report is refused. How many they are."""
    script, report = report_to_tamper_with(folder)
    tell(refusal(report, script, WORDS, folder) is None, "the report is refused before it was tampered with")
    for name, reason, tamper in TAMPERINGS:
        lines = tamper(report.splitlines())
        must_refuse(name, reason, "".join(line + "\n" for line in lines), script, WORDS, folder)
    others = [
        ("no line feed at the end", "no line feed", report[:-1], WORDS),
        ("the places of another seed", "the next place is", report, [*WORDS[:3], "8", *WORDS[4:]]),
        ("busy with more frames", "frames", report, [*WORDS[:5], "16"]),
        ("run as seq", "the current mapping is|the position is|no frame", report, ["seq", *WORDS[1:4]]),
    ]
    for name, reason, text, words in others:
        must_refuse(name, reason, text, script, words, folder)
    return len(TAMPERINGS) + len(others)


def test_order(folder):
    """What only one order of all calls refuses. How many reports they are."""
    words = ["run", "script"]
    reports = (simulated(SEEN, options_of([]), folder, chance) for chance in range(1000))
    seen = next(report for report in reports if "a.weigh at 0 under 7" in report)
    tell("b.weigh at 0 under 6" in seen, "the second call finds what was made before what the first one found")
    older = seen.replace("b.weigh at 0 under 6", "b.weigh at 0 under 5")
    must_refuse("under a mapping that was replaced before", "was current before it", older, SEEN, words, folder)
    crossed = simulated(CROSSED, options_of([]), folder, 0)
    crossed = re.sub(r"(w1 a.weigh|w0 b.weigh) at \d", r"\1 at 0", crossed)
    crossed = re.sub(r"(w0 a.weigh|w1 b.weigh) at \d", r"\1 at 1", crossed)
    must_refuse("positions that cross", "run in a circle", crossed, CROSSED, words, folder)
    return 2


def main():
    if len(sys.argv) != 2:
        sys.exit("usage: selftest.py FOLDER")
    folder = Path(sys.argv[1])
    right = test_right_ones(folder)
    tampered = test_tampered(folder) + test_order(folder)
    if failures:
        sys.exit(f"selftest.py: {failures} tests failed")
    print(f"check.py takes {right} right reports and refuses {tampered} tampered ones")


if __name__ == "__main__":
    main()
