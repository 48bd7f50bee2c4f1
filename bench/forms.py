#!/usr/bin/env python3
# SPDX-License-Identifier: Apache-2.0
"""Times the commands on generated schemas and on texts that want the most of one step, and prints tables.

    bench/forms.py [PROGRAM]

PROGRAM is a built program; without it, the one that the script `joistginger` at
the top builds. Each row is the best of three runs. Where a form has two sizes, one
is ten times the other, and the growth is what a piece of the greater one costs, a
piece of the smaller one being 1. Where JOISTGINGER_PEER names another program,
each row of the first tables has its time too; it is left out where that program
is quadratic.
"""
import subprocess

import generated as texts
from measure import PEER_COLUMNS, against_peer, best_of_three, print_head, print_row, program_to_time, written


def timed(program, text, words, status=0):
    with written(text) as path:
        return best_of_three(program, path, (status,), words)


def print_generated(program):
    """Schemas of three declarations for each number."""
    print("\n`resolve`, generated schemas\n")
    print_head("size", "bytes", "seconds (processor)", "peak MB", "us per declaration", *PEER_COLUMNS)
    for n in (100, 500, 1000, 5000):
        text = texts.generated(n)
        with written(text) as path:
            seconds, memory = best_of_three(program, path)
            peer = against_peer(seconds, path)
        print_row(n, len(text), f"{seconds:.3f}", f"{memory:.0f}", f"{1e6 * seconds / (3 * n):.1f}", *peer)


def print_counts(program):
    """What it takes to count: the program's own generated schemas, and their texts, beside resolving them."""
    print("\nCounts of generated schemas\n")
    print_head("words", "size", "seconds (processor)", "peak MB", *PEER_COLUMNS)
    for n in (100, 1000, 5000):
        text = texts.generated(n)
        for words, shown in (("bench", str(n)), "`bench N`"), (("check",), "`check`"), (("resolve",), "`resolve`"):
            with written("" if words[0] == "bench" else text) as path:
                seconds, memory = best_of_three(program, path, (0,), words)
                peer = against_peer(seconds, path, (0,), words)
            print_row(shown, n, f"{seconds:.3f}", f"{memory:.0f}", *peer)


def print_records(program):
    """Texts of little but attributes."""
    print("\n`check`, attributes\n")
    print_head("text", "bytes", "seconds (processor)", "peak MB", "us per attribute", *PEER_COLUMNS)
    cases = [("2,000 entity types of five", texts.records(2000, 5), 10000),
             ("200 entity types of 50", texts.records(200, 50), 10000),
             ("an entity type of 20,000", texts.records(1, 20000), 20000),
             ("300 entity types of 30 in one declaration", texts.one_record(300, 30), 9000)]
    for name, text, attributes in cases:
        with written(text) as path:
            seconds, memory = best_of_three(program, path, (0,), ("check",))
            peer = against_peer(seconds, path, (0,), ("check",))
        print_row(name, len(text), f"{seconds:.3f}", f"{memory:.0f}", f"{1e6 * seconds / attributes:.2f}", *peer)


def print_long(program):
    """As much as may be given."""
    print("\n`resolve`, 4 MiB\n")
    print_head("text", "bytes", "seconds (processor)", "peak MB")
    for name, text in ("a realistic schema", texts.realistic()), ("namespaces of every form", texts.every_form()):
        seconds, memory = timed(program, text, ("resolve",))
        print_row(name, len(text), f"{seconds:.3f}", f"{memory:.0f}")


def json_of_text(program, text):
    """What the program writes in JSON of a text."""
    return subprocess.run([program, "to-json"], input=text, stdout=subprocess.PIPE, check=True, text=True).stdout


def print_json(program):
    """Texts in JSON."""
    print("\nJSON\n")
    print_head("words", "text", "bytes", "seconds (processor)", "peak MB", *PEER_COLUMNS)
    n, full = texts.json_full()
    rows = [(f"{n} declarations", full), ("an object of 100,000 keys", texts.json_keys(100000)),
            ("an array of 100,000", texts.json_array(100000)), ("sets nested 100 deep", texts.json_deep(100))]
    rows = [(f"{k} declarations", texts.json_declarations(k)) for k in (100, 1000, 5000)] + rows
    rows = [(f"{k} of each kind", json_of_text(program, texts.generated(k))) for k in (100, 1000, 5000)] + rows
    for words in (("resolve-json",), ("to-cedar",)):
        for name, text in rows:
            with written(text) as path:
                seconds, memory = best_of_three(program, path, (0,), words)
                peer = against_peer(seconds, path, (0,), words) if len(text) < 2000000 else ["", ""][:len(PEER_COLUMNS)]
            print_row(f"`{words[0]}`", name, len(text), f"{seconds:.3f}", f"{memory:.0f}", *peer)


def print_growth(program, title, words, cases):
    """Forms at two sizes: what a byte of the greater costs, by one of the smaller."""
    print(f"\n{title}\n")
    print_head("text", "bytes", "seconds (processor)", "peak MB", "bytes", "seconds (processor)", "peak MB", "growth")
    for name, make, n, status in cases:
        small, large = make(n // 10), make(n)
        less, room = timed(program, small, words, status)
        more, memory = timed(program, large, words, status)
        growth = more / len(large) / (max(less, 0.0005) / len(small))
        print_row(name, len(small), f"{less:.3f}", f"{room:.0f}", len(large), f"{more:.3f}", f"{memory:.0f}", f"{growth:.2f}")


CONVERSION = [("plain declarations", texts.plain, 40000, 0), ("one declaration, many names", texts.many_names, 100000, 0),
              ("an action in many", texts.many_parents, 100000, 0), ("many attributes", texts.many_attributes, 100000, 0),
              ("many namespaces", texts.many_namespaces, 10000, 0)]
NAMES = [("1 namespace", lambda n: texts.across(n, 1), 5000, 0), ("50 namespaces", lambda n: texts.across(n, 50), 5000, 0),
         ("as many namespaces", lambda n: texts.across(n, n), 5000, 0), ("undefined types", texts.undefined, 100000, 1),
         ("unused common types", texts.unused, 50000, 0), ("one action on many by many", lambda n: texts.applies(n, n), 2000, 0)]
UNFOLDING = [("a chain", texts.chain, 20000, 0), ("all of one type", texts.star, 20000, 0), ("a cycle", texts.cycle, 20000, 1),
             ("cycles of two behind a chain", texts.cycles_behind, 10000, 1), ("many attributes of one type", texts.one_type, 100000, 0)]

REVIEWS = [(("conform",), "entities", texts.entities, 20000, 0), (("request",), "requests", texts.requests, 20000, 0),
           (("compat",), "a generated schema and itself", texts.both, 5000, 0),
           (("merge",), "schemas of a namespace each", texts.one_namespace_each, 5000, 0),
           (("merge",), "schemas with one namespace", texts.one_namespace_in_all, 20000, 0)]


def print_conversion(program):
    """From the text to the fragment: an entity type named `Action` refuses the text right behind its conversion."""
    print("\nFrom the text to the fragment\n")
    print_head("text", "bytes", "seconds (processor)", "peak MB", "us per byte", "of a byte of plain text")
    plain = None
    for name, make, n, _ in [*CONVERSION, ("100,000 declarations of a name", texts.short, 100000, 0)]:
        text = "entity Action;\n" + make(n)
        seconds, memory = timed(program, text, ("check",), 1)
        cost = 1e6 * seconds / len(text)
        plain = plain or cost
        print_row(name, len(text), f"{seconds:.3f}", f"{memory:.0f}", f"{cost:.3f}", f"{cost / plain:.2f}")


def print_doublings(program):
    print("\n`check`, sixty types of two of the one before\n")
    print_head("use", "seconds (processor)", "peak MB")
    uses = [("a shape", "entity E { x: T60 };"), ("tags", "entity E tags T60;"),
            ("a context", "entity E; action a appliesTo { principal: E, resource: E, context: T60 };")]
    for name, use in uses:
        seconds, memory = timed(program, texts.doublings(use), ("check",))
        print_row(name, f"{seconds:.3f}", f"{memory:.0f}")


def main():
    program = program_to_time()
    print_generated(program)
    print_counts(program)
    print_records(program)
    print_long(program)
    print_json(program)
    print_conversion(program)
    print_growth(program, "`to-json`", ("to-json",), CONVERSION)
    print_growth(program, "`check`, names", ("check",), NAMES)
    print_growth(program, "`check`, common types", ("check",), UNFOLDING)
    print_doublings(program)
    for words, *case in REVIEWS:
        print_growth(program, f"`{words[0]}`", words, [case])


if __name__ == "__main__":
    main()
