#!/usr/bin/env python3
# SPDX-License-Identifier: Apache-2.0
"""Tells what share of `resolve` one function takes, and the seconds that this makes.

    bench/shares.py PROGRAM [FUNCTION]

PROGRAM is a built program that has the names of its functions; that of the script
`joistginger` has none, and is told so. FUNCTION is a part of a function's name;
without it, `declaring::declare_with`, which checks what shadows what, adds the
builtin types and gathers all names: a compiler that optimizes leaves no function of
the check alone. The share is that of the instructions of the function and of what it
calls, under `valgrind --tool=callgrind`, and the seconds are this share of the best
of three runs. Where the environment variable JOISTGINGER_PEER names a program with a
word `time`, its own time for `shadowing` stands beside. The texts are 5,000 common
types, entity types and actions: in no namespace, and half of them in 50 namespaces.
"""
import os
import re
import subprocess
import sys
import tempfile

from measure import PEER, best_of_three, print_head, print_row, written

CHECK = "declaring::declare_with"
COUNT = 5000
NAMESPACES = 50


def declarations(numbers):
    """A common type, an entity type and an action for each number."""
    for i in numbers:
        yield f"type T{i} = Long; entity E{i} {{ t: T{i} }}; "
        yield f'action "a{i}" appliesTo {{ principal: E{i}, resource: E{i} }};\n'


def in_namespaces(numbers):
    """The same in namespaces, as many in each."""
    for k in range(NAMESPACES):
        yield f"namespace N{k} {{\n"
        yield from declarations(numbers[k::NAMESPACES])
        yield "}\n"


def texts():
    """Schemas without names that shadow others, with what is told of them."""
    half = COUNT // 2
    yield "no namespace", "".join(declarations(range(COUNT)))
    yield f"half in {NAMESPACES} namespaces", "".join(declarations(range(half))) + "".join(in_namespaces(range(half, COUNT)))


def has_names(program):
    """Whether functions of the program have names."""
    listed = subprocess.run(["nm", program], stdout=subprocess.PIPE, stderr=subprocess.DEVNULL, check=False)
    return listed.stdout != b""


def share(program, path, function):
    """The share of instructions of the functions of this name and of what they call, of all instructions."""
    with tempfile.NamedTemporaryFile() as counted, open(path, "rb") as source:
        words = ["valgrind", "--tool=callgrind", f"--callgrind-out-file={counted.name}", program, "resolve"]
        subprocess.run(words, stdin=source, stdout=subprocess.DEVNULL, stderr=subprocess.DEVNULL, check=True)
        words = ["callgrind_annotate", "--inclusive=yes", "--threshold=100", counted.name]
        told = subprocess.run(words, stdout=subprocess.PIPE, check=True).stdout.decode()
    whole = int(re.search(r"([\d,]+) .*PROGRAM TOTALS", told).group(1).replace(",", ""))
    counts = [line for line in told.splitlines() if function in line and re.match(r" *[\d,]+ ", line)]
    if not counts:
        return None
    return max(int(line.split()[0].replace(",", "")) for line in counts) / whole


def their_shadowing(path):
    """The peer's seconds for its check of what shadows what."""
    told = subprocess.run([PEER, "time", path, "3"], stdout=subprocess.PIPE, check=True).stdout.decode()
    return float(re.search(r"^shadowing .*least ([\d.]+)", told, re.MULTILINE).group(1))


def main():
    if len(sys.argv) < 2:
        sys.exit(__doc__)
    program = sys.argv[1]
    function = sys.argv[2] if len(sys.argv) > 2 else CHECK
    if not has_names(program):
        sys.exit(f"{program} has no names of functions")
    print_head("text", "share", "seconds (processor)", *(["the crate's shadowing", "ratio"] if PEER else []))
    for name, text in texts():
        with written(text) as path:
            part = share(program, path, function)
            if part is None:
                sys.exit(f"{program} has no function {function}, or it is not reached")
            seconds = part * best_of_three(program, path)[0]
            theirs = their_shadowing(path) if PEER and function == CHECK else None
        beside = [f"{theirs:.3f}", f"{seconds / theirs:.4f}"] if theirs else []
        print_row(name, f"{100 * part:.3f} %", f"{seconds:.6f}", *beside)


if __name__ == "__main__":
    main()
