#!/usr/bin/env python3
# SPDX-License-Identifier: Apache-2.0
"""Refuses a program each of its requests for memory, and tells where it then does anything but end with status 7.

    bench/refused_memory.py [PROGRAM] [--all-later]

PROGRAM is a built program; without it, the one that the script `joistginger` at the
top builds. A shared object, which `cc` makes of the source below, stands before the
allocator of the GNU C library and answers the request of a number with none: in the
first run the first, in the next one the second, up to a run that makes fewer requests.
With --all-later it refuses each request behind that one too. Requests are counted from
the call of `main` on, since the object puts itself before that call: what the loader
and the library ask for when they start isn't the program's, and is never refused.

Each run has to end with status 7 and nothing written, or exactly as the run in which
nothing is refused: with that status, output and standard error. The table tells how
many requests each command made, and how the runs ended in which one was refused. Where
a run ends otherwise, that is printed, and the status is 1. It is 2 where the program
doesn't call `main` through the object, as one that is linked statically.
"""
import collections
import os
import subprocess
import sys
import tempfile

from measure import print_head, print_row, program_to_time, tuned

SECONDS = 60

SHIM = r"""
#define _GNU_SOURCE
#include <dlfcn.h>
#include <errno.h>
#include <stdlib.h>
#include <unistd.h>

typedef int program(int, char **, char **);
typedef int starter(program *, int, char **, void (*)(void), void (*)(void), void (*)(void), void *);

extern void *__libc_malloc(size_t), *__libc_calloc(size_t, size_t);
extern void *__libc_realloc(void *, size_t), *__libc_memalign(size_t, size_t);

static program *started;
static long number, first;
static int later, told, counting;

static void tell(const char *what) {
    if (write(told, what, 1) != 1)
        abort();
}

static int is_refused(void) {
    if (!counting)
        return 0;
    long at = __atomic_add_fetch(&number, 1, __ATOMIC_SEQ_CST);
    if (first == 0 || at < first || (at > first && !later))
        return 0;
    tell("r");
    errno = ENOMEM;
    return 1;
}

void *malloc(size_t size) { return is_refused() ? NULL : __libc_malloc(size); }
void *calloc(size_t count, size_t size) { return is_refused() ? NULL : __libc_calloc(count, size); }
void *memalign(size_t align, size_t size) { return is_refused() ? NULL : __libc_memalign(align, size); }
void *aligned_alloc(size_t align, size_t size) { return is_refused() ? NULL : __libc_memalign(align, size); }

void *realloc(void *at, size_t size) {
    int gives_back = at && size == 0;
    return !gives_back && is_refused() ? NULL : __libc_realloc(at, size);
}

int posix_memalign(void **at, size_t align, size_t size) {
    if (align % sizeof(void *) != 0 || align == 0 || (align & (align - 1)) != 0)
        return EINVAL;
    void *found = is_refused() ? NULL : __libc_memalign(align, size);
    if (!found)
        return ENOMEM;
    *at = found;
    return 0;
}

static int counted_main(int argc, char **argv, char **environment) {
    first = atol(getenv("REFUSED_FIRST"));
    later = atoi(getenv("REFUSED_LATER"));
    told = atoi(getenv("REFUSED_TOLD"));
    tell("m");
    counting = 1;
    return started(argc, argv, environment);
}

int __libc_start_main(program *main, int argc, char **argv, void (*init)(void), void (*fini)(void),
                      void (*loader_fini)(void), void *stack) {
    started = main;
    starter *start = (starter *)dlsym(RTLD_NEXT, "__libc_start_main");
    return start(counted_main, argc, argv, init, fini, loader_fini, stack);
}
"""

HUMAN = """\
@doc("Names that stand in no namespace.")
type Name = { first: String, last?: String };
entity Person = { name: Name, nick: Set<String> } tags Long;
namespace Files {
  type Size = Long;
  type Shape = { size: Size, owner: Person, seen: datetime, deep: { at: ipaddr, of?: Set<Set<Size>> } };
  entity Kind enum ["plain", "folder", "a \\"link\\""];
  entity Root;
  entity Folder in [Root, Folder] = Shape tags Set<String>;
  entity File, Copy in Folder = { shape: Shape, kind: Kind, part?: decimal };
  action all;
  @doc("Both only look.")
  action read, list in [all] appliesTo {
    principal: [Person, Users::Group],
    resource: [File, Copy, Folder],
    context: { by: Size, when?: duration },
  };
  action "change \\u{e9}" in [all, Users::Action::"act"] appliesTo { principal: Person, resource: File };
}
namespace Users {
  type duration = __cedar::Long;
  entity Group in Group = { level: duration, names: Set<Name> };
  action act;
}
"""

JSON = r"""
{
  "": {
    "commonTypes": {"Name": {"type": "Record", "attributes": {"first": {"type": "String"}, "last": {"type": "String", "required": false}}}},
    "entityTypes": {
      "Person": {
        "shape": {"type": "Record", "attributes": {"name": {"type": "Name"}, "nick": {"type": "Set", "element": {"type": "String"}}}},
        "tags": {"type": "Long"}
      }
    },
    "actions": {}
  },
  "Files": {
    "annotations": {"doc": "What stands in folders."},
    "commonTypes": {
      "Size": {"type": "Long"},
      "Shape": {
        "type": "Record",
        "attributes": {
          "size": {"type": "Size"},
          "owner": {"type": "Entity", "name": "Person"},
          "seen": {"type": "Extension", "name": "datetime"},
          "deep": {"type": "Record", "attributes": {"of": {"type": "Set", "element": {"type": "Set", "element": {"type": "Size"}}, "required": false}}}
        }
      }
    },
    "entityTypes": {
      "Kind": {"enum": ["plain", "folder", "a \"link\""]},
      "Root": {},
      "Folder": {"memberOfTypes": ["Root", "Folder"], "shape": {"type": "Shape"}, "tags": {"type": "Set", "element": {"type": "String"}}},
      "File": {
        "memberOfTypes": ["Folder"],
        "shape": {"type": "Record", "attributes": {"shape": {"type": "Shape"}, "kind": {"type": "EntityOrCommon", "name": "Kind"}}}
      }
    },
    "actions": {
      "all": {},
      "read": {
        "memberOf": [{"id": "all"}],
        "appliesTo": {
          "principalTypes": ["Person", "Users::Group"],
          "resourceTypes": ["File", "Folder"],
          "context": {"type": "Record", "attributes": {"by": {"type": "Size"}, "when": {"type": "duration", "required": false}}}
        }
      },
      "change \u00e9": {
        "memberOf": [{"id": "all"}, {"id": "act", "type": "Users::Action"}],
        "appliesTo": {"principalTypes": ["Person"], "resourceTypes": ["File"]}
      }
    }
  },
  "Users": {
    "entityTypes": {
      "Group": {
        "memberOfTypes": ["Group"],
        "shape": {"type": "Record", "attributes": {"level": {"type": "Long"}, "names": {"type": "Set", "element": {"type": "Name"}}}}
      }
    },
    "actions": {"act": {}}
  }
}
"""

CASES = [("resolve", HUMAN), ("resolve-json", JSON)]
Ending = collections.namedtuple("Ending", "status out err")
WITHOUT_MEMORY = Ending(7, b"", b"")


class Refusing:
    """Runs the program on a text, with requests refused."""

    def __init__(self, program, folder, all_later):
        self.program, self.all_later = program, all_later
        self.shim = os.path.join(folder, "refusing.so")
        source = os.path.join(folder, "refusing.c")
        with open(source, "w") as file:
            file.write(SHIM)
        subprocess.run(["cc", "-O1", "-fPIC", "-fno-builtin", "-shared", "-o", self.shim, source, "-ldl"], check=True)

    def run(self, word, text, first):
        """How a run ends in which the request of this number is refused, none for 0, and how many were refused."""
        with tempfile.TemporaryFile() as told:
            settings = {"REFUSED_FIRST": str(first), "REFUSED_LATER": str(int(self.all_later)), "REFUSED_TOLD": str(told.fileno())}
            try:
                done = subprocess.run([self.program, word], input=text.encode(), capture_output=True, timeout=SECONDS,
                                      pass_fds=[told.fileno()], env={**tuned(), **settings, "LD_PRELOAD": self.shim})
                ending = Ending(done.returncode, done.stdout, done.stderr)
            except subprocess.TimeoutExpired as late:
                ending = Ending("none in time", late.stdout or b"", late.stderr or b"")
            told.seek(0)
            marks = told.read()
        if not marks.startswith(b"m"):
            print(f"{self.program} doesn't call main through the object", file=sys.stderr)
            sys.exit(2)
        return ending, marks.count(b"r")


def print_difference(word, number, ending, whole):
    print(f"--- `{word}`, request {number} refused: status {ending.status}, "
          f"{len(ending.out)} bytes written of {len(whole.out)}, and on standard error {ending.err[:200]!r}", flush=True)


def try_all(refusing, word, text):
    """How many requests a run makes; and of the runs with one refused, how many end with status 7, as the whole one, or otherwise."""
    whole, _ = refusing.run(word, text, 0)
    if whole.status != 0:
        sys.exit(f"`{word}` ended with status {whole.status} though nothing was refused")
    number, without, alike, otherwise = 1, 0, 0, 0
    while True:
        ending, refused = refusing.run(word, text, number)
        if ending != whole and (refused == 0 or ending != WITHOUT_MEMORY):
            print_difference(word, number, ending, whole)
            otherwise += 1
        if refused == 0:
            return number - 1, without, alike, otherwise
        without += ending == WITHOUT_MEMORY
        alike += ending == whole
        number += 1


def main():
    all_later = "--all-later" in sys.argv
    sys.argv = [word for word in sys.argv if word != "--all-later"]
    program = os.path.abspath(program_to_time())
    rows = []
    with tempfile.TemporaryDirectory() as folder:
        refusing = Refusing(program, folder, all_later)
        for word, text in CASES:
            rows.append((f"`{word}`", len(text.encode()), *try_all(refusing, word, text)))
    print_head("words", "bytes", "requests", "ended with status 7", "ended with status 0", "otherwise")
    for row in rows:
        print_row(*row)
    sys.exit(any(row[-1] for row in rows))


if __name__ == "__main__":
    main()
