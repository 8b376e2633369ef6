"""The choice of places (docs/FORMATS.md, "Places"), computed anew: nothing here is the program's."""

PAGE = 4096
REGION_BYTES = 0x40000
STACK_PAGES = 4
# The first region of each kind of mapping, and how many there are.
STACK_REGIONS = (32768, 32768)
MODULE_REGIONS = (2, 32766)

CONSTANTS = [0x61707865, 0x3320646E, 0x79622D32, 0x6B206574]
QUARTERS = [
    (0, 4, 8, 12),
    (1, 5, 9, 13),
    (2, 6, 10, 14),
    (3, 7, 11, 15),
    (0, 5, 10, 15),
    (1, 6, 11, 12),
    (2, 7, 8, 13),
    (3, 4, 9, 14),
]


def quarter_round(words, a, b, c, d):
    """The quarter round of ChaCha20 (RFC 8439, 2.1)."""
    for target, source, mixed, by in ((a, b, d, 16), (c, d, b, 12), (a, b, d, 8), (c, d, b, 7)):
        words[target] = (words[target] + words[source]) & 0xFFFFFFFF
        word = words[mixed] ^ words[target]
        words[mixed] = (word << by | word >> (32 - by)) & 0xFFFFFFFF


def random_words(seed):
    """The words of ChaCha20 (RFC 8439, 2.3, with a block counter of 64 bits) whose key is the seed, on stream 0."""
    key = [seed & 0xFFFFFFFF, seed >> 32, 0, 0, 0, 0, 0, 0]
    block = 0
    while True:
        first = CONSTANTS + key + [block & 0xFFFFFFFF, block >> 32, 0, 0]
        words = list(first)
        for _ in range(10):
            for places in QUARTERS:
                quarter_round(words, *places)
        yield from ((word + begun) & 0xFFFFFFFF for word, begun in zip(words, first))
        block += 1


class Places:
    """The places of a seed, in the order in which they are drawn."""

    def __init__(self, seed):
        self.words = random_words(seed)
        self.used = set()

    def next(self, kind, pages):
        """Region and start page of the next place."""
        first, count = STACK_REGIONS if kind == "stack" else MODULE_REGIONS
        at = next(self.words) % count
        while first + at in self.used:
            at = (at + 1) % count
        self.used.add(first + at)
        return first + at, 1 + next(self.words) % (63 - pages)
