"""Makes a script that loads modules of a folder, calls and moves them, and the options that it is run with.

    python3 generate.py FOLDER NUMBER [SEED]

prints the options, in a comment, and the script of this number. The folder has the objects that build.sh makes. A
number, a seed and the folder's objects give the same script each time.
"""

import random
import sys
from pathlib import Path

# The exports of each module with their arguments: w any word, s a small one, l how long the call takes, d how deep it
# goes.
EXPORTS = {
    "pure": {
        "mix": "www",
        "common": "ww",
        "power": "www",
        "sort": "wwwwwwww",
        "weigh": "w",
        "apply": "sww",
        "letter": "ss",
        "narrow": "ww",
        "rounds": "l",
    },
    "counter": {"add": "w", "cell": "sw", "small": "sw", "counted": "", "slowly": "wl"},
    "queue": {"put": "w", "take": "", "put_many": "lw", "print": "s", "pass": "w"},
    "deep": {"deep": "d", "fill": "w", "left_over": "", "below": "w"},
    "traps": {
        "illegal": "",
        "misaligned": "w",
        "fault": "w",
        "denied": "w",
        "environment": "w",
        "forever": "",
        "give_up": "w",
        "note": "s",
        "count": "",
    },
    "places": {
        "code_at": "",
        "stack_at": "",
        "data_at": "",
        "shared_at": "",
        "pointer_at": "",
        "keep": "w",
        "follow": "",
        "change": "w",
    },
    "fixed": {"meter": "ss", "choose": "s", "on_meter": "s", "fixed_at": ""},
}
# Of each module the export that takes long; it is called often where calls are to be long.
LONG = {"pure": "rounds", "counter": "slowly", "queue": "put_many", "deep": "left_over", "traps": "forever"}
EDGES = [0, 1, 2, 7, 255, 2**12, 2**31, 2**32 - 1, 2**63, 2**64 - 2, 2**64 - 1]
# What a script is like: how often it is chosen, the shares of calls, moves and stack lines, how many calls are long.
KINDS = {
    "mixed": (5, (70, 25, 5), 0.05),
    "calls": (3, (95, 4, 1), 0.05),
    "moves": (4, (25, 70, 5), 0.3),
    "stacks": (2, (45, 10, 45), 0.05),
    "long": (4, (30, 65, 5), 0.9),
    "short": (3, (30, 68, 2), 0),
    "crowded": (4, (50, 48, 2), 0.3),  # all calls are of one module
    "full": (1, (5, 93, 2), 0.5),  # each move names all modules, until the numbers of mappings are spent
    "without moves": (1, (100, 0, 0), 0.1),
    "without calls": (1, (0, 80, 20), 0),
}
# How many lines a script has, and how often.
SIZES = [(2, range(0, 40)), (6, range(40, 400)), (6, range(400, 2500)), (1, range(2500, 6000))]
FULL_SIZES = range(520, 900)
MOST_LINES = 6000


def weighted(choice, pairs):
    """One of the values of pairs of a weight and a value."""
    return choice.choices([value for _, value in pairs], [weight for weight, _ in pairs])[0]


def argument(choice, letter):
    match letter:
        case "s":
            return choice.randrange(24)
        case "l":
            return choice.randrange(2048)
        case "d":
            return choice.choice([choice.randrange(60), choice.randrange(60), 2000, 2**64 - 1])
    return choice.choice([choice.choice(EDGES), choice.randrange(100), choice.randrange(2**64)])


def spelled(choice, number):
    return hex(number) if choice.random() < 0.1 else str(number)


class Plan:
    """What a script is made of, before its lines."""

    def __init__(self, choice, objects):
        self.choice = choice
        self.kind = weighted(choice, [(weight, kind) for kind, (weight, _, _) in KINDS.items()])
        _, self.shares, self.long = KINDS[self.kind]
        self.workers = choice.choice([1, 2, 2, 3, 4, 4, 8, 16, 64, choice.randrange(1, 65)])
        self.modules = 8 if self.kind == "full" else choice.randrange(1, 9)
        self.files = [choice.choice(objects) for _ in range(self.modules)]
        self.sources = [file.split("-")[0] for file in self.files]
        sizes = FULL_SIZES if self.kind == "full" else weighted(choice, SIZES)
        self.lines = choice.choice(sizes)
        self.called = [choice.randrange(self.modules)] if self.kind == "crowded" else list(range(self.modules))

    def export(self, module):
        """An export of a module, and the letters of its arguments."""
        source = self.sources[module]
        exports = EXPORTS[source]
        name = self.choice.choice(list(exports))
        if source in LONG and self.choice.random() < self.long:
            name = LONG[source]
        if name == "forever" and self.choice.random() < 0.8:
            name = "count"
        return name, exports[name]

    def call(self):
        module = self.choice.choice(self.called)
        name, letters = self.export(module)
        if self.choice.random() < 0.05:
            letters = letters[: self.choice.randrange(len(letters) + 1)]
        arguments = [spelled(self.choice, argument(self.choice, letter)) for letter in letters]
        return " ".join(["call", str(self.choice.randrange(self.workers)), f"m{module}.{name}", *arguments])

    def move(self):
        count = self.modules if self.kind == "full" else self.choice.choice([1, 1, 1, self.choice.randrange(1, 9)])
        modules = self.choice.sample(range(self.modules), min(count, self.modules))
        return " ".join(["move", *(f"m{module}" for module in modules)])

    def stack(self):
        return f"stack {self.choice.randrange(self.workers)}"

    def step(self):
        make = self.choice.choices([self.call, self.move, self.stack], self.shares)[0]
        if self.choice.random() < 0.02:
            return self.choice.choice(["", "# nothing", "\t" + make() + "  # behind a tab"])
        return make()


def options(choice):
    """The options of a run; each may be left out."""
    numbers = {
        "--seed": choice.choice([choice.randrange(2**64), choice.randrange(100)]),
        "--fuel": choice.choice([50_000, 200_000]),
        "--slots": choice.choice([1, 2, 4, 16, choice.randrange(1, 17)]),
        "--frames": choice.choice([2, 2, 2, 3, 4, choice.randrange(2, 17)]),
    }
    shares = {"--seed": 0.8, "--fuel": 0.2, "--slots": 0.8, "--frames": 0.8}
    return [word for name in numbers if choice.random() < shares[name] for word in (name, str(numbers[name]))]


def generate(number, seed, objects, most=MOST_LINES):
    """The text of a script over these objects, with at most so many steps, and the options that it is run with."""
    choice = random.Random(f"{seed} {number}")
    plan = Plan(choice, objects)
    heads = [f"workers {plan.workers}", *(f"load m{at} {file}" for at, file in enumerate(plan.files))]
    lines = heads + [plan.step() for _ in range(min(plan.lines, most))]
    return "\n".join(lines) + "\n", options(choice)


def objects_of(folder):
    """The names of the folder's objects, in order."""
    return sorted(file.name for file in Path(folder).glob("*.o"))


def main():
    if len(sys.argv) not in (3, 4):
        sys.exit("usage: generate.py FOLDER NUMBER [SEED]")
    text, words = generate(int(sys.argv[2]), int((sys.argv[3:] or ["0"])[0]), objects_of(sys.argv[1]))
    print("#", *words)
    print(text, end="")


if __name__ == "__main__":
    main()
