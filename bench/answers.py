#!/usr/bin/env python3
# SPDX-License-Identifier: Apache-2.0
"""Puts generated schemas to two programs, and tells where they answer otherwise.

    JOISTGINGER_PEER=PATH bench/answers.py [PROGRAM] [COUNT] [SEED]

PROGRAM is a built program; without it, the one that the script `joistginger` at
the top builds. COUNT texts (2000) of every form are made from SEED (1), small
ones, with names from a small stock, so that names clash, shadow, are missing and
go in circles. Answers are alike where both write the same listing, or both refuse
with the same first line, or both with a line that differs in what the other
program takes from a hash map: which of several errors is named, and the order
of a list. The texts on which they differ are printed, and a count of all kinds.
"""
import collections
import os
import random
import re
import subprocess
import sys

from measure import program_to_time

TYPE_NAMES = ["A", "B", "C", "T", "U", "Long", "Bool", "ipaddr", "Action"]
NAMESPACES = ["N", "M", "N::M"]
IDS = ["a", "b", "c", "\"d e\""]


class Writer:
    """Texts of schemas, at random. Of every three texts two declare each name once, and refer mostly to these."""

    def __init__(self, seed):
        self.random = random.Random(seed)

    def some(self, made, least, most):
        return [made() for _ in range(self.random.randint(least, most))]

    def chance(self, of):
        return self.random.randrange(of) == 0

    def drawn(self, stock):
        """A name of the stock; where names are declared once, one that is left."""
        name = self.random.choice(stock)
        if self.once:
            stock.remove(name)
        return name

    def path(self, known):
        if known and self.once and not self.chance(40):
            return self.random.choice(known)
        if self.chance(12):
            return "__cedar::" + self.random.choice(["Long", "String", "Bool", "decimal", "Other"])
        return self.random.choice(["", "", "N::", "M::"]) + self.random.choice(TYPE_NAMES)

    def type(self, depth=2):
        kind = self.random.randrange(8)
        if depth and kind == 0:
            return "Set<" + self.type(depth - 1) + ">"
        if depth and kind == 1:
            return self.record(depth - 1)
        return self.random.choice(["Long", "String", "Bool"]) if kind < 4 else self.path(self.types)

    def record(self, depth=2):
        keys = self.random.sample(["p", "q", "r", "s t"], self.random.randint(0, 3))
        return "{ " + ", ".join(f'"{key}"{self.random.choice(["", "?"])}: {self.type(depth)}' for key in keys) + " }"

    def paths(self):
        return "[" + ", ".join(self.some(lambda: self.path(self.entities), 1, 2)) + "]"

    def entity(self, name):
        if self.chance(6):
            return f'entity {name} enum ["x", "y"];'
        parents = f" in {self.paths()}" if self.chance(2) else ""
        shape = f" = {self.record()}" if self.chance(2) else ""
        tags = f" tags {self.type()}" if self.chance(5) else ""
        return f"entity {name}{parents}{shape}{tags};"

    def action(self, name):
        known = self.actions or IDS
        parents = f" in [{', '.join(self.some(lambda: self.random.choice(known), 1, 2))}]" if self.chance(3) else ""
        if self.once:
            self.actions.append(name)
        if self.chance(2):
            return f"action {name}{parents};"
        context = f", context: {self.record()}" if self.chance(2) else ""
        return f"action {name}{parents} appliesTo {{ principal: {self.paths()}, resource: {self.paths()}{context} }};"

    def planned(self, prefix):
        """What a namespace will declare: kinds and names."""
        plan = []
        for _ in range(self.random.randint(0, 4)):
            kind = self.random.choice(["type", "entity", "entity", "action"])
            name = self.drawn(self.ids if kind == "action" else self.names)
            plan.append((kind, name))
            if kind != "action":
                self.types.append(prefix + name)
            if kind == "entity":
                self.entities.append(prefix + name)
        return plan

    def declaration(self, kind, name):
        if kind == "type":
            return f"type {name} = {self.type()};"
        return self.entity(name) if kind == "entity" else self.action(name)

    def schema(self):
        self.once = not self.chance(3)
        self.names, self.ids = TYPE_NAMES + ["D", "E", "F", "G", "H"] * self.once, IDS + ["e", "f", "g", "h", "i", "j", "k", "l"] * self.once
        self.types, self.entities, self.actions = [], [], []
        plans = [("", self.planned(""))] + [(n, self.planned(n + "::")) for n in self.random.sample(NAMESPACES, self.random.choice([0, 0, 1, 2]))]
        parts = []
        for namespace, plan in plans:
            self.actions = []
            lines = [self.declaration(*of) for of in plan]
            parts += [f"namespace {namespace} {{"] + ["  " + line for line in lines] + ["}"] if namespace else lines
        return "\n".join(parts) + "\n"


def answer(program, text):
    done = subprocess.run([program, "resolve"], input=text.encode(), capture_output=True)
    return done.returncode, done.stdout.decode(), done.stderr.decode()


def kind_of(error):
    """The first line of an error without its names."""
    head, _, rest = error.split("\n")[0].removeprefix("error: ").partition(": ")
    if head == "error parsing schema":
        return head + ": " + kind_of(rest)
    return re.sub("`[^`]*`", "..", head).replace("types", "type").replace("actions", "action")


def comparison(ours, theirs):
    if ours[0] == 0 and theirs[0] == 0:
        return "both list the same" if ours[1] == theirs[1] else "DIFFERENT LISTINGS"
    if ours[0] == 0 or theirs[0] == 0:
        return "ONE REFUSES"
    if ours[2] == theirs[2]:
        return "both refuse alike"
    return "both refuse by one kind" if kind_of(ours[2]) == kind_of(theirs[2]) else "DIFFERENT REFUSALS"


def main():
    program = program_to_time()
    count = int(sys.argv[2]) if len(sys.argv) > 2 else 2000
    writer = Writer(int(sys.argv[3]) if len(sys.argv) > 3 else 1)
    counts = collections.Counter()
    for _ in range(count):
        text = writer.schema()
        ours, theirs = answer(program, text), answer(os.environ["JOISTGINGER_PEER"], text)
        same = comparison(ours, theirs)
        counts[same] += 1
        if same.isupper():
            print(f"--- {same}\n{text}--- ours\n{ours[1]}{ours[2]}--- the other\n{theirs[1]}{theirs[2]}")
    for same, number in sorted(counts.items()):
        print(f"{number:6} {same}")


if __name__ == "__main__":
    main()
