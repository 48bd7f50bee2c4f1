#!/usr/bin/env python3
# SPDX-License-Identifier: Apache-2.0
"""Times `resolve` on entity declarations, and prints four tables.

    bench/resolve.py [PROGRAM]

PROGRAM is a built program; without it, the one that the script `joistginger` at
the top builds. Each row is the best of three runs. The first table has declarations
of five attributes, by their number; the second has memberships, by the number of
pairs of a type and one that descends from it, which the listing writes; the third
says what 20,000 memberships in one type cost; the fourth has texts that want the most
memory, or the most time, of one thing. Where JOISTGINGER_PEER names another program, each row has its time too.
"""
import subprocess

from measure import LIMIT, PEER_COLUMNS, against_peer, best_of_three, print_head, print_row, program_to_time, written


def declaration(i, n):
    """A plain entity type of five attributes, the last of them of another entity type."""
    return (f"entity E{i} {{ name: String, age: Long, active: Bool, "
            f"tags: Set<String>, next: Set<E{(i + 1) % n}> }};\n")


def schema(n):
    return "".join(declaration(i, n) for i in range(n))


def full_schema():
    """As many declarations as fit in the program's limit, and blanks up to it."""
    n = LIMIT // len(declaration(99999, 100000))
    while True:
        text = schema(n)
        if len(text) <= LIMIT:
            return n, text + " " * (LIMIT - len(text))
        n -= 1 + (len(text) - LIMIT) // 120


def members(pairs):
    """Entity types, each in the one that it is paired with, or in none."""
    return "".join(f"entity {name} in {parent};\n" if parent else f"entity {name};\n"
                   for name, parent in pairs)


def chain(n):
    return members([(f"E{i}", f"E{i - 1}" if i else None) for i in range(n)])


def tree(n):
    return members([(f"E{i}", f"E{i // 2}" if i > 1 else None) for i in range(1, n + 1)])


def groups(n, size):
    return members([(f"G{i}", None) for i in range(n)]
                   + [(f"M{i}x{k}", f"G{i}") for i in range(n) for k in range(size)])


def cycle(n):
    return members([(f"E{i}", f"E{(i + 1) % n}") for i in range(n)])


def many(piece):
    """As many numbered pieces of one length as fit in the program's limit."""
    return "".join(piece(i) for i in range(LIMIT // len(piece(0))))


def again(head, piece, tail):
    """The same piece again and again between the head and the tail, up to the program's limit."""
    return head + piece * ((LIMIT - len(head) - len(tail)) // len(piece)) + tail


def short_name(i):
    """A word of five characters, another one for each number."""
    digits = "0123456789abcdefghijklmnopqrstuvwxyz"
    return "x" + "".join(digits[i // 36 ** k % 36] for k in (3, 2, 1, 0))


def listed(head, tail):
    """Distinct names with commas between the head and the tail, as many as fit."""
    count = (LIMIT - len(head) - len(tail)) // 6
    return head + ",".join(short_name(i) for i in range(count)) + tail


def undefined(n):
    """Entity types of one attribute, whose type is declared nowhere."""
    return "".join(f"entity E{i}{{a:U{i}}};" for i in range(n))


def closure_size(program, path):
    """How many descendants the listing has."""
    with open(path, "rb") as source:
        listing = subprocess.run([program, "resolve"], stdin=source, stdout=subprocess.PIPE,
                                 check=True).stdout
    size = 0
    for line in listing.splitlines():
        inside = line[line.index(b"[") + 1:line.index(b"]")]
        size += inside.count(b",") + 1 if inside else 0
    return size


def print_declarations(program):
    cases = [(n, schema(n)) for n in (1000, 10000)]
    cases.append(full_schema())
    print_head("declarations", "bytes", "seconds (processor)", "peak MB", "us per declaration", *PEER_COLUMNS)
    for n, text in cases:
        with written(text) as path:
            seconds, memory = best_of_three(program, path)
            peer = against_peer(seconds, path)
        print_row(n, len(text), f"{seconds:.3f}", f"{memory:.0f}", f"{1e6 * seconds / n:.2f}", *peer)


def print_memberships(program):
    cases = [("500 groups of 40 members", groups(500, 40)),
             ("a binary tree of 20,000", tree(20000)),
             ("a chain of 2,000", chain(2000)),
             ("a cycle of 2,000", cycle(2000))]
    print_head("entity types", "pairs of the closure", "seconds (processor)", "peak MB", "us per type and pair",
               *PEER_COLUMNS)
    for name, text in cases:
        with written(text) as path:
            size = closure_size(program, path)
            seconds, memory = best_of_three(program, path)
            peer = against_peer(seconds, path)
        each = 1e6 * seconds / (size + text.count("\n"))
        print_row(name, size, f"{seconds:.3f}", f"{memory:.0f}", f"{each:.2f}", *peer)


def print_flat(program):
    """What memberships cost: 20,000 types in one, and the same types in none."""
    in_one = groups(1, 20000)
    cases = [("20,000 in none", in_one.replace(" in G0", "")), ("20,000 in one", in_one)]
    print_head("entity types", "seconds (processor)", "peak MB", "cost of those in none", *PEER_COLUMNS)
    least = None
    for name, text in cases:
        with written(text) as path:
            seconds, memory = best_of_three(program, path)
            peer = against_peer(seconds, path)
        least = least or seconds
        print_row(name, f"{seconds:.3f}", f"{memory:.0f}", f"{seconds / least:.2f}", *peer)


def print_large(program):
    cases = [("distinct entity types without anything", many(lambda i: f"entity E{i:06};"), 0),
             ("distinct actions without anything", many(lambda i: f"action {short_name(i)};"), 0),
             # without its last piece, so that there is room for `action z;`
             ("distinct actions in one", "action z;" + many(lambda i: f"action {short_name(i)} in z;")[:-18], 0),
             ("an entity type with two million equal parents", again("entity B; entity A in [B", ",B", "];"), 0),
             ("an action with two million equal parents", again("action b; action A in [b", ",b", "];"), 0),
             ("an action with two million equal principals",
              again("entity B; action A appliesTo { principal: [B", ",B", "], resource: B };"), 0),
             ("one declaration of distinct entity types with attributes",
              listed("entity ", " { a: Long, b: Long, c: Set<x0000> };"), 0),
             ("one declaration of distinct actions", listed("action ", ";"), 0),
             ("one declaration of distinct actions with a context",
              listed("entity B; action ", " appliesTo { principal: B, resource: B, context: { a: Long } };"), 0),
             ("150,000 entity types, each with an undefined type", undefined(150000), 1)]
    print_head("text", "bytes", "seconds (processor)", "peak MB", *PEER_COLUMNS)
    for name, text, status in cases:
        with written(text) as path:
            seconds, memory = best_of_three(program, path, (status,))
            peer = against_peer(seconds, path, (status,))
        print_row(name, len(text), f"{seconds:.3f}", f"{memory:.0f}", *peer)


def main():
    program = program_to_time()
    for print_table in (print_declarations, print_memberships, print_flat, print_large):
        print_table(program)
        print()


if __name__ == "__main__":
    main()
