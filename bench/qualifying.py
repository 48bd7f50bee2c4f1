#!/usr/bin/env python3
# SPDX-License-Identifier: Apache-2.0
"""Tells what it takes to qualify a name: its share of `check`, and the microseconds that this makes.

    bench/qualifying.py PROGRAM

PROGRAM is a built program that has the names of its functions. The texts are entity
types with nested records, in no namespace and in one. What is counted are the walks
that the crate of namespace definitions starts: they go over the declarations as they
are written, make each anew, and give each name in it the full names that it may stand
for. The share is that of their instructions under `valgrind --tool=callgrind`, with the
settings of the allocator that the timed runs have too, and the microseconds are this
share of the best of three runs, for each name that is written.
"""
import re
import subprocess
import sys
import tempfile

from measure import best_of_three, print_head, print_row, tuned, written
from shares import has_names

CALLER = "cedar_namespace_definitions::"
WALKS = ("walked::walk_names", "walk::walk_type")
NAMES = 8


def record(depth, i):
    """A record of three attributes, the first of which is such a record again, down to a common type."""
    inner = "T" if depth == 0 else record(depth - 1, i)
    return f"{{ a: {inner}, b: Set<Long>, c?: E{i} }}"


def declarations(n):
    """A common type and n entity types, each with a parent and seven names in nested records."""
    yield "type T = Long;\n"
    for i in range(n):
        yield f"entity E{i} in [E{i * 7 % n}] = {record(2, i)};\n"


def texts(n):
    """The declarations in no namespace and in one."""
    plain = "".join(declarations(n))
    yield f"{n} in no namespace", plain
    yield f"{n} in one namespace", f"namespace N {{\n{plain}}}\n"


def instructions(program, path):
    """All instructions of `check`, and those of the walks."""
    with tempfile.NamedTemporaryFile() as counted, open(path, "rb") as source:
        words = ["valgrind", "--tool=callgrind", f"--callgrind-out-file={counted.name}", program, "check"]
        quiet = subprocess.DEVNULL
        subprocess.run(words, stdin=source, stdout=quiet, stderr=quiet, env=tuned(), check=True)
        words = ["callgrind_annotate", "--tree=calling", "--inclusive=yes", "--threshold=100", counted.name]
        told = subprocess.run(words, stdout=subprocess.PIPE, check=True).stdout.decode()
    whole = int(re.search(r"([\d,]+) .*PROGRAM TOTALS", told).group(1).replace(",", ""))
    walks, inside = 0, False
    for line in told.splitlines():
        row = re.match(r" *([\d,]+) \( *[\d.]+%\) +([*>]) +(.*)", line)
        if not row:
            continue
        if row.group(2) == "*":
            inside = CALLER in row.group(3) and not re.search(r"'\d+ \[", row.group(3))
        elif inside and any(walk in row.group(3) for walk in WALKS):
            walks += int(row.group(1).replace(",", ""))
    return whole, walks


def main():
    if len(sys.argv) < 2:
        sys.exit(__doc__)
    program = sys.argv[1]
    if not has_names(program):
        sys.exit(f"{program} has no names of functions")
    print_head("declarations", "names", "instructions a name", "share", "us a name")
    for n in (500, 5000):
        for name, text in texts(n):
            with written(text) as path:
                whole, walks = instructions(program, path)
                seconds, _ = best_of_three(program, path, (0,), ("check",))
            count = NAMES * n
            print_row(name, count, walks // count, f"{100 * walks / whole:.2f} %", f"{1e6 * seconds * walks / whole / count:.3f}")


if __name__ == "__main__":
    main()
