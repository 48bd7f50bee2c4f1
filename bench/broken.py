#!/usr/bin/env python3
# SPDX-License-Identifier: Apache-2.0
"""Puts texts that are mostly faulty to two programs, and tells where they answer otherwise.

    JOISTGINGER_PEER=PATH bench/broken.py [PROGRAM] [COUNT] [SEED]

PROGRAM is a built program; without it, the one that the script `joistginger` at the
top builds. COUNT (1000) texts of each of three kinds are made from SEED (1): schemas
of `bench/answers.py` some tokens of which are lost, moved or exchanged, put to
`resolve`; what these schemas are in JSON, first as it is and then with values lost or
exchanged, put to `to-json`, `resolve-json` and `to-cedar`; and schemas in JSON of
forms that no text in the human syntax has, put to the last two. Places that the
other program adds to errors of JSON, and the orders that it takes from a hash map,
count for nothing. Answers that differ otherwise are printed, but for those where
both refuse, of which one is printed for each two kinds of error; and all are counted.
"""
import collections
import json
import os
import random
import re
import subprocess
import sys

from answers import Writer, kind_of
from measure import program_to_time

TOKEN = re.compile(r'"(?:[^"\\]|\\.)*"|//[^\n]*|::|\w+|\s+|.')
PIECES = ("? = , ; : :: in [ ] { } < > ( ) @a @doc(\"x\") @a(x) @if(\"q\") entity type action namespace tags enum appliesTo principal "
          "resource context attributes Set Long String Bool ipaddr __cedar __cedar::Long if then else true is like has \"x\" \"\\u{41}\" "
          "\"\\x80\" \"\\q\" \"a\\*b\" \"\" 'x' // é _ a-b 1 \\ \0 ` \u2028 \ufeff \t \r N::\"x\" Action::\"x\" [A,] [A,B,] {a:Long,} "
          "{\"a\"?:Long} Set<> Set<Set<Long>> enum[] enum[\"a\",\"a\"]").split(" ")
LINES = ["entity A, B;", "entity A {}", "entity A = T;", "type T = ;", "namespace N { }", "namespace { }", "action a, b in [c];",
         "action x in N::Action::\"y\";", "action y appliesTo {};", "action z appliesTo { context: {} };", "type Set = Long;",
         "type Bool = Long;", "entity in in in;", "entity Long;", "@doc(\"x\") @doc(\"y\") entity Q;"]
KEYS = ("commonTypes entityTypes actions annotations memberOfTypes shape tags enum memberOf appliesTo principalTypes resourceTypes context "
        "type name element attributes required additionalAttributes id x").split() + [""]
VALUES = [None, True, False, 0, -1, 1.5, 2 ** 63 - 1, 2 ** 63, "", "A", "Long", "Record", "Set", "Entity", "EntityOrCommon", "Extension",
          "N::T", "A B", "__cedar::Long", "Boolean", [], {}, ["A"], [None], {"type": "Long"}, {"type": "Record", "attributes": {}},
          {"type": "Set", "element": {"type": "Long"}}, {"type": "Entity", "name": "A"}, {"type": "Extension", "name": "ipaddr"},
          {"type": "T"}, {"id": "a"}, {"id": "a", "type": "Action"}, {"a": None}, [{"id": "a"}], {"principalTypes": ["A"]}, {"if": "y"}]


class Breaker:
    """Makes texts faulty, at random."""

    def __init__(self, seed):
        self.random = random.Random(seed)

    def text(self, text):
        """A text with up to three tokens lost, moved, copied or exchanged, or with up to three others put in."""
        tokens = TOKEN.findall(text)
        for _ in range(self.random.randint(1, 3)):
            at, other = self.random.randrange(len(tokens) + 1), self.random.randrange(len(tokens) + 1)
            new = [self.random.choice([*PIECES, *LINES])]
            tokens = self.random.choice([
                tokens[:at] + tokens[at + 1:], tokens[:at] + new + tokens[at:], tokens[:at] + new + tokens[at + 1:],
                tokens[:at] + tokens[other:other + 1] + tokens[at:], tokens[:at] + tokens[other:other + 1] + tokens[at + 1:]])
        return "".join(tokens)

    def value(self, value):
        """A value of JSON in which something is lost, exchanged or named otherwise."""
        value = json.loads(json.dumps(value))
        holder, key = self.random.choice([*held(value)] or [(value, None)])
        kind = self.random.randrange(5)
        if key is None:
            return self.random.choice(VALUES)
        if kind == 0:
            del holder[key]
        elif kind == 1 and isinstance(holder, dict):
            holder[self.random.choice(KEYS)] = holder.pop(key)
        elif kind == 2 and isinstance(holder, dict):
            holder[self.random.choice(KEYS)] = self.random.choice(VALUES)
        elif kind == 3 and isinstance(holder[key], str):
            holder[key] += self.random.choice(["::", "x", " ", "\"", "::B", "é"])
        else:
            holder[key] = self.random.choice(VALUES)
        return value

    def json(self, value):
        """A text in JSON of a value made faulty, a few of which are none in JSON, or have a key twice."""
        text = json.dumps(self.value(value), ensure_ascii=False)
        at = self.random.randrange(len(text) + 1)
        if self.random.randrange(12) == 0:
            return text[:at] + self.random.choice(["\"", "{", "}", ",", ":", "\\ud800", "1e400", "nul", "\t", "//"]) + text[at:]
        pair = re.search(r'"\w+": ("[^"]*"|\{\})', text)
        return text[:pair.start()] + pair.group() + ", " + text[pair.start():] if pair and self.random.randrange(16) == 0 else text


def held(value):
    """The places in a value: what holds each, and its key there."""
    for key in value if isinstance(value, dict) else range(len(value)) if isinstance(value, list) else ():
        yield value, key
        yield from held(value[key])


class Maker:
    """Schemas in JSON with types of every word, open records, parents with their types and attributes of actions, at random."""

    def __init__(self, seed):
        self.random = random.Random(seed)

    def chance(self, of):
        return self.random.randrange(of) == 0

    def name(self, known):
        if known and not self.chance(40):
            return self.random.choice(known)
        return self.random.choice(["", "N::", "M::", "__cedar::"]) + self.random.choice(["A", "T", "Long", "ipaddr", "Action", "Lost"])

    def type(self, depth=2):
        kind = self.random.randrange(12)
        if kind == 0 and depth:
            return {"type": "Set", "element": self.type(depth - 1)}
        if kind == 1 and depth:
            return self.record(depth - 1)
        return {2: {"type": "Boolean"}, 3: {"type": "Entity", "name": self.name(self.entities)}, 4: {"type": self.name(self.types)},
                5: {"type": "Extension", "name": self.random.choice(["ipaddr", "decimal", "datetime", "duration", "lost"])},
                6: {"type": "EntityOrCommon", "name": self.name(self.entities + self.types)}, 7: {"type": "Bool"}}.get(
                    kind, {"type": self.random.choice(["Long", "String"])})

    def record(self, depth=2):
        attributes = {}
        for key in self.random.sample(["p", "q", "s t", "é"], self.random.randint(0, 3)):
            attributes[key] = {**self.type(depth), **({"required": self.chance(2)} if self.chance(3) else {}), **self.annotations()}
        return {"type": "Record", "attributes": attributes, **({"additionalAttributes": self.chance(2)} if self.chance(8) else {})}

    def annotations(self):
        return {"annotations": {"doc": "x", "if": ""}} if self.chance(12) else {}

    def entity(self):
        if self.chance(8):
            return {"enum": ["x", "y z"], **self.annotations()}
        parents = {"memberOfTypes": [self.name(self.entities)]} if self.chance(2) else {}
        shape = {"shape": self.type() if self.chance(8) else self.record()} if self.chance(2) else {}
        return {**parents, **shape, **({"tags": self.type()} if self.chance(6) else {}), **self.annotations()}

    def action(self, ids, prefix):
        applies = {"principalTypes": [self.name(self.entities)], "resourceTypes": [self.name(self.entities) for _ in ids]}
        if self.chance(2):
            applies["context"] = self.type() if self.chance(6) else self.record()
        parent = {"id": self.random.choice(ids), **({"type": self.random.choice([prefix, "N::"]) + "Action"} if self.chance(3) else {})}
        return {**({"appliesTo": applies} if self.chance(2) else {}), **({"memberOf": [parent]} if self.chance(4) else {}),
                **({"attributes": {"k": [1, {"a": True}]}} if self.chance(30) else {}), **self.annotations()}

    def schema(self):
        plans = {ns: [self.random.sample("ABCTU", self.random.randint(0, 2)) for _ in range(2)] for ns in self.random.sample(["", "N", "M"], 2)}
        full = lambda kind: [f"{ns}::{id}" if ns else id for ns, plan in plans.items() for id in plan[kind]]
        self.types, self.entities = full(0), full(1)
        made = {}
        for ns, (types, entities) in plans.items():
            ids = self.random.sample(["a", "b", "c d"], self.random.randint(1, 2))
            made[ns] = {"commonTypes": {id: self.type() for id in types}, "entityTypes": {id: self.entity() for id in entities},
                        "actions": {id: self.action(ids, f"{ns}::" if ns else "") for id in ids}}
        return made


class Comparison:
    """What two programs answer to the same texts."""

    def __init__(self, ours, other):
        self.programs, self.counts, self.printed = (ours, other), collections.Counter(), set()

    def put(self, word, text):
        ours, other = (self.answer(program, word, text) for program in self.programs)
        same = self.same(ours, other)
        self.counts[word, same] += 1
        kinds = (kind_of(ours[2]), kind_of(other[2])) if same == "both refuse otherwise" else text
        if (same.isupper() or same == "both refuse otherwise") and kinds not in self.printed:
            self.printed.add(kinds)
            print(f"--- {word}: {same}\n{text}\n--- ours\n{ours[1]}{ours[2]}--- the other\n{other[1]}{other[2]}")
        return other

    def answer(self, program, word, text):
        done = subprocess.run([program, word], input=text.encode("utf-8", "replace"), capture_output=True, check=False)
        out, error = done.stdout.decode(), re.sub(r" at line \d+ column \d+", "", done.stderr.decode())
        if word == "to-json" and done.returncode == 0:
            out = json.dumps(json.loads(out), sort_keys=True)
        return done.returncode, "\n".join(sorted(out.split("\n"))) if word == "to-cedar" else out, error

    def same(self, ours, other):
        if ours[0] == 0 and other[0] == 0:
            return "both write the same" if ours[1] == other[1] else "DIFFERENT OUTPUT"
        if ours[0] == 0 or other[0] == 0:
            return "ONE REFUSES"
        if ours[2] == other[2]:
            return "both refuse alike"
        return "both refuse by one kind" if kind_of(ours[2]) == kind_of(other[2]) else "both refuse otherwise"


def main():
    program = program_to_time()
    count, seed = (int(sys.argv[at]) if len(sys.argv) > at else least for at, least in ((2, 1000), (3, 1)))
    writer, breaker, maker = Writer(seed), Breaker(seed), Maker(seed)
    both = Comparison(program, os.environ["JOISTGINGER_PEER"])
    for _ in range(count):
        text, made = writer.schema(), json.dumps(maker.schema(), ensure_ascii=False)
        both.put("resolve", breaker.text(text))
        status, fragment, _ = both.put("to-json", text)
        texts = [made] if status else [made, fragment, breaker.json(json.loads(fragment))]
        for word in ("resolve-json", "to-cedar"):
            for of in texts:
                both.put(word, of)
    for (word, same), number in sorted(both.counts.items()):
        print(f"{number:6} {word}: {same}")


if __name__ == "__main__":
    main()
