#!/usr/bin/env python3
# SPDX-License-Identifier: Apache-2.0
"""Times the parser on texts of every form, and prints a table.

    bench/parse.py [PROGRAM]

PROGRAM is a built program; without it, the one that the script `joistginger` at
the top builds. Each form is made twice, of about 400 KiB and of at most 4 MiB;
each row is the best of three runs of `resolve`. Most texts refer to names that they
don't declare, and are refused for that, so that the time is that of reading the text,
its tokens, tree and fragment, and of the search for what is missing. The cost of a byte is that of the long text, a byte of
the short one being 1. Where JOISTGINGER_PEER names another program, each row has its
time on the long text too, which is that of resolving it as well.
"""
from measure import LIMIT, PEER_COLUMNS, against_peer, best_of_three, print_head, print_row, program_to_time, written


def repeated(piece, size):
    """As many pieces as fit in the size; `%d` in a piece is its number."""
    pieces, length, i = [], 0, 0
    while True:
        one = piece % i if "%d" in piece else piece
        if length + len(one) > size:
            return "".join(pieces)
        pieces.append(one)
        length += len(one)
        i += 1


EVERY = ("@doc(\"a text\") namespace N%d { type T = { a: Long, \"b\"?: Set<{ c: X::Y }> }; "
         "@x entity A, B in [C, D::E] = { @k(\"v\") a: T, b: Set<String>, } tags Long; "
         "entity F enum [\"p\", \"q\\n\"]; action \"r s\", t in [u, N::Action::\"v\"] "
         "appliesTo { principal: [A, B], resource: F, context: { ip: ipaddr } }; }\n")


def every_form(size):
    return "".join(EVERY.replace("N%d", f"N{i:05}") for i in range(size // (len(EVERY) + 3)))


def comments(size):
    return repeated("// a comment, which says nothing at all\n", size)


def attributes(size):
    """One entity type with 100,000 attributes, or a tenth of them."""
    return "entity E { " + ", ".join(f"attribute{i}: Long" for i in range(size * 100000 // LIMIT)) + " };"


def names(size):
    return "entity " + ", ".join(f"Name{i}" for i in range(size * 100000 // LIMIT)) + " { a: Long };"


def literal(size):
    return "action \"" + "a" * (size - 20) + "\";"


def escapes(size):
    return "action \"" + "\\u{e9}" * ((size - 20) // 6) + "\";"


def annotated(size):
    """One declaration with as many annotations as fit."""
    return repeated("@key%d(\"v\") ", size - 100) + "entity A tags Long;"


def stray(size):
    """A schema that goes wrong at its last token."""
    return every_form(size - 100) + "entity in;"


FORMS = [("every form", every_form), ("comments", comments), ("one type, many attributes", attributes),
         ("one declaration, many names", names), ("one literal", literal), ("one literal of escapes", escapes),
         ("one declaration, many annotations", annotated), ("a stray last token", stray)]


# A form that isn't resolved yet is refused, which is no fault here.
STATUSES = (0, 1)


def measured(program, text):
    """The best of three runs, and the peer's, where there is one."""
    with written(text) as path:
        seconds, memory = best_of_three(program, path, STATUSES)
        return seconds, memory, against_peer(seconds, path, STATUSES)


def main():
    program = program_to_time()
    print_head("text", "bytes", "seconds (processor)", "peak MB",
               "bytes", "seconds (processor)", "peak MB", "cost of a byte", *PEER_COLUMNS)
    for name, form in FORMS:
        short, long = form(LIMIT // 10), form(LIMIT)
        little, small, _ = measured(program, short)
        much, large, peer = measured(program, long)
        each = (much / len(long)) / (little / len(short))
        print_row(name, len(short), f"{little:.3f}", f"{small:.0f}", len(long), f"{much:.3f}", f"{large:.0f}",
                  f"{each:.2f}", *peer)


if __name__ == "__main__":
    main()
