#!/usr/bin/env python3
# SPDX-License-Identifier: Apache-2.0
"""Counts the instructions of `resolve`, and prints a table.

    bench/instructions.py [PROGRAM]

PROGRAM is a built program; without it, the one that the script `joistginger` at
the top builds. Each row is one run under `valgrind --tool=callgrind`, some fifty
times slower than the program alone, on entity declarations of five attributes.
"""
import os
import re
import subprocess

from measure import print_head, print_row, program_to_time, written
from resolve import full_schema, schema


def instructions(program, path):
    words = ["valgrind", "--tool=callgrind", f"--callgrind-out-file={os.devnull}", program, "resolve"]
    with open(path, "rb") as source:
        ran = subprocess.run(words, stdin=source, stdout=subprocess.DEVNULL, stderr=subprocess.PIPE, check=True)
    return int(re.search(rb"Collected : (\d+)", ran.stderr).group(1))


def main():
    program = program_to_time()
    print_head("declarations", "instructions", "instructions per declaration")
    for n, text in [(1000, schema(1000)), full_schema()]:
        with written(text) as path:
            count = instructions(program, path)
        print_row(n, count, count // n)


if __name__ == "__main__":
    main()
