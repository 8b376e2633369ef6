"""Writes the sources of the modules that run.sh moves into a folder: usage: modules.py FOLDER."""

import sys
from pathlib import Path

LOCAL_WORDS = 512
PAGE = 4096

SOURCES = {
    # text, stubs, table, local area: the least that a module has
    "small": "long f(long n) { return n + 1; }\n",
    # 58 pages of data beside these four: the most that a part has
    "large": f"static char zeros[58 * {PAGE}];\nlong f(long n) {{ return n + 1 + zeros[n]++; }}\n",
    # the local area full of pointers, which each mapping has of its own
    "local": "static long one(void) { return 1; }\n"
    f"static long (*const table[{LOCAL_WORDS}])(void) = {{{', '.join(['one'] * LOCAL_WORDS)}}};\n"
    f"long f(long n) {{ return table[n & {LOCAL_WORDS - 1}]() + n; }}\n",
}

for name, source in SOURCES.items():
    Path(sys.argv[1], f"{name}.c").write_text(source)
