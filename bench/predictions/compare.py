"""Compares the predictions of random short programs with their runs. README.md says what is compared.

    python3 compare.py [PROGRAMS [SEED]]

PROGRAMS is how many are made, 10,000 by default, and SEED what they are chosen by, 0 by default. With ADELIE=FILE
in the environment that program is asked; else the one that ./adelie has built.
"""

import os
import random
import struct
import subprocess
import sys
import tempfile
from collections import Counter
from pathlib import Path

TOP = Path(__file__).resolve().parents[2]

RA, SP, X5, X6, X7, X10, X11, X12, X13 = 1, 2, 5, 6, 7, 10, 11, 12, 13
SCRATCH = [X5, X6, X10, X11, X12, X13]
READ = SCRATCH + [SP, 0]
# What a script does with its module: three calls before a move, one between two moves, two behind them.
STEPS = ["call", "call", "call", "move", "call", "move", "call", "call"]
# The seeds of the places at which each script is predicted and run.
PLACES = [0, 1]
EDGES = [0, 1, 2, 7, 8, 4095, 4096, 16384, 2**19 - 1, 2**19, 2**31, 2**34 - 1, 2**34, 2**63, 2**64 - 1]


def section(name, kind, flags, offset, size, link, info, align, entry_size):
    """A section header (gABI, "Sections")."""
    return struct.pack("<IIQQQQIIQQ", name, kind, flags, 0, offset, size, link, info, align, entry_size)


def object_of(words):
    """An object whose text has these words, and the export `f` at its start: header, text, symbols, names, headers."""
    text = struct.pack(f"<{len(words)}I", *words)
    text += bytes(-len(text) % 8)
    symbols = bytes(24) + struct.pack("<IBBHQQ", 1, 0x12, 0, 1, 0, 4 * len(words))
    strings = b"\0f\0" + b"\0.text\0.symtab\0.strtab\0.shstrtab\0"
    strings += bytes(-len(strings) % 8)
    symbols_at = 64 + len(text)
    strings_at = symbols_at + len(symbols)
    table = [
        bytes(64),
        section(1, 1, 6, 64, 4 * len(words), 0, 0, 4, 0),
        section(7, 2, 0, symbols_at, len(symbols), 3, 1, 8, 24),
        section(15, 3, 0, strings_at, 3, 0, 0, 1, 0),
        section(23, 3, 0, strings_at + 3, 33, 0, 0, 1, 0),
    ]
    end = strings_at + len(strings)
    ident = b"\x7fELF" + bytes([2, 1, 1]) + bytes(9)
    header = ident + struct.pack("<HHIQQQIHHHHHH", 1, 243, 1, 0, 0, end, 0, 64, 0, 0, 64, 5, 4)
    return header + text + symbols + strings + b"".join(table)


def register_form(opcode, f3, f7, rd, rs1, rs2):
    return f7 << 25 | rs2 << 20 | rs1 << 15 | f3 << 12 | rd << 7 | opcode


def immediate_form(opcode, f3, rd, rs1, value):
    return (value & 0xFFF) << 20 | rs1 << 15 | f3 << 12 | rd << 7 | opcode


def store_form(f3, rs1, rs2, value):
    return (value >> 5 & 0x7F) << 25 | rs2 << 20 | rs1 << 15 | f3 << 12 | (value & 0x1F) << 7 | 0x23


def branch_form(f3, rs1, rs2, value):
    high = (value >> 12 & 1) << 6 | (value >> 5 & 0x3F)
    low = (value >> 1 & 0xF) << 1 | (value >> 11 & 1)
    return high << 25 | rs2 << 20 | rs1 << 15 | f3 << 12 | low << 7 | 0x63


def upper_form(opcode, rd, pages):
    return (pages & 0xFFFFF) << 12 | rd << 7 | opcode


def addi(rd, rs1, value):
    return immediate_form(0x13, 0, rd, rs1, value)


def arithmetic(choice):
    """An operation of registers, of 64 or 32 bits."""
    opcode, f7, rows = choice.choice(
        [
            (0x33, 0, range(8)),
            (0x33, 0, [0, 2, 3, 4, 6, 7]),
            (0x33, 0x20, [0, 5]),
            (0x33, 1, range(8)),
            (0x3B, 0, [0, 1, 5]),
            (0x3B, 0x20, [0, 5]),
            (0x3B, 1, [0, 4, 5, 6, 7]),
        ]
    )
    f3 = choice.choice(list(rows))
    return [register_form(opcode, f3, f7, choice.choice(SCRATCH), choice.choice(READ), choice.choice(READ))]


def constant(choice):
    """An operation of a register and a constant."""
    rd, rs1 = choice.choice(SCRATCH), choice.choice(READ)
    if choice.random() < 0.2:
        return [immediate_form(0x13, 1, rd, rs1, choice.randrange(64))]
    if choice.random() < 0.2:
        return [immediate_form(0x1B, 0, rd, rs1, choice.randrange(-2048, 2048))]
    value = choice.choice([0, 1, -1, -2, -4, -8, 7, 15, choice.randrange(-2048, 2048)])
    return [immediate_form(0x13, choice.choice([0, 0, 0, 2, 3, 4, 6, 7]), rd, rs1, value)]


def address(choice):
    """An address of the stack or of the text in a register."""
    rd = choice.choice(SCRATCH)
    if choice.random() < 0.6:
        return [addi(rd, SP, -8 * choice.randrange(0, 8))]
    return [upper_form(0x17, rd, choice.choice([0, 0, 0, 1, -1, 4]))]


def upper(choice):
    """A number in a register: one of the immovable side, or any."""
    return [upper_form(0x37, choice.choice(SCRATCH), choice.choice([0x40, 0x80, 1, choice.randrange(2**20)]))]


def access(choice):
    """A load or a store, mostly on the stack."""
    base = choice.choice([SP, SP, SP, X5, X6])
    f3 = choice.choice([3, 3, 3, 2, 1, 0])
    value = -8 * choice.randrange(1, 6) + choice.choice([0, 0, 0, 0, 4, 1])
    if choice.random() < 0.5:
        return [store_form(f3, base, choice.choice(READ + [RA]), value)]
    return [immediate_form(0x03, f3 | choice.choice([0, 4]) if f3 != 3 else 3, choice.choice(SCRATCH), base, value)]


def part_of_address(choice):
    """A store of an address, and a load of all of it or a part."""
    at = -8 * choice.randrange(1, 4)
    load = immediate_form(0x03, choice.choice([0, 2, 3, 6]), choice.choice(SCRATCH), SP, at + choice.choice([0, 0, 4]))
    return [store_form(3, SP, SP, at), load]


def branch(choice):
    """A branch over the next instruction or two, or to nowhere."""
    f3 = choice.choice([0, 1, 4, 5, 6, 7])
    return [branch_form(f3, choice.choice(READ), choice.choice(READ), choice.choice([8, 8, 8, 12, 6, -4096]))]


def service(choice):
    """A call of a service, or of what lies beside them."""
    at = 16 * choice.choice([0, 1, 1, 2, 3, 4, 4, 5, 6]) + choice.choice([0, 0, 0, 0, 0, 4])
    return [upper_form(0x37, X6, 0x40), immediate_form(0x67, 0, RA, X6, at)]


def program(choice):
    """The words of a short program that returns to its caller, if it comes to its end."""
    pieces = [arithmetic, constant, constant, address, address, upper, access, access, branch, service, part_of_address]
    words = [addi(X7, RA, 0)]
    for _ in range(choice.randrange(1, 9)):
        words += choice.choice(pieces)(choice)
    return words + [immediate_form(0x67, 0, 0, X7, 0)]


def script(choice):
    """A script that calls and moves the module, as text."""
    lines = ["load m f.o"]
    for step in STEPS:
        arguments = " ".join(str(choice.choice(EDGES + [choice.randrange(2**64)])) for _ in range(4))
        lines.append(f"call 0 m.f {arguments}" if step == "call" else "move m")
    return "\n".join(lines) + "\n"


def answers(adelie, command, places, folder):
    """What a command says of each call, by its line, with the places of a seed."""
    words = [adelie, command, "s", "--seed", str(places)]
    done = subprocess.run(words, cwd=folder, capture_output=True, text=True, check=True)
    said = {}
    for line in done.stdout.splitlines():
        head, colon, answer = line.partition(": ")
        if colon and head.startswith("call "):
            said[int(head.split()[1])] = answer
    return said


def kind(answer):
    """What a prediction is: clear, unclear, keeps or lost."""
    first = answer.split()[0]
    return first if first in ("unclear", "keeps", "lost") else "clear"


def fault(predicted, run):
    """Why these two disagree, or None."""
    if predicted.keys() != run.keys() or len(run) != STEPS.count("call"):
        return "other calls"
    is_lost = False
    for line, answer in predicted.items():
        if kind(answer) == "clear" and answer != run[line]:
            return f"line {line} is predicted as '{answer}' and replies '{run[line]}'"
        if (kind(answer) == "lost") != is_lost:
            return f"line {line} is '{answer}'"
        is_lost = is_lost or kind(answer) != "clear"
    return None


def count(seen, predicted):
    """Counts what was predicted, by kind."""
    for answer in predicted.values():
        seen[kind(answer)] += 1
        if kind(answer) == "unclear":
            seen["reason " + answer.split()[-1]] += 1
        if kind(answer) == "clear":
            seen["ends by " + answer.split()[0]] += 1
            seen["with notes"] += " notes " in answer


def main():
    programs = int(sys.argv[1]) if len(sys.argv) > 1 else 10_000
    choice = random.Random(int(sys.argv[2]) if len(sys.argv) > 2 else 0)
    adelie = Path(os.environ.get("ADELIE", TOP / "crates/adelie/out/adelie")).resolve()
    if not adelie.is_file():
        sys.exit("compare.py: run ./adelie first, which builds the program")
    seen = Counter()
    with tempfile.TemporaryDirectory() as folder:
        for number in range(programs):
            words = program(choice)
            Path(folder, "f.o").write_bytes(object_of(words))
            text = script(choice)
            Path(folder, "s").write_text(text)
            for places in PLACES:
                predicted, run = (answers(adelie, command, places, folder) for command in ("predict", "seq"))
                why = fault(predicted, run)
                if why:
                    listing = " ".join(f"0x{w:08x}" for w in words)
                    sys.exit(f"compare.py: program {number} at the places of seed {places}: {why}\n{listing}\n{text}")
                count(seen, predicted)
    print(f"programs {programs}: each clear answer is the reply")
    for what, calls in sorted(seen.items()):
        print(f"{what:20} {calls:8}")


if __name__ == "__main__":
    main()
