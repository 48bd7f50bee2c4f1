# SPDX-License-Identifier: Apache-2.0
"""What the timings share: the programs, a text in a file, the best of three runs on it, and rows of a table.

The environment variable JOISTGINGER_PEER may name another program that resolves a
schema from standard input at the word `resolve`, such as one over the Rust crate. Each
row then has its processor seconds on the same text, and the ratio of the first to these.
Our program has the settings of the allocator with which the script `joistginger` runs it,
unless GLIBC_TUNABLES is set already; the other program has none.
"""
import contextlib
import os
import re
import subprocess
import sys
import tempfile

TOP = os.path.dirname(os.path.dirname(os.path.abspath(__file__)))
LIMIT = 4194304
PEER = os.environ.get("JOISTGINGER_PEER")
PEER_COLUMNS = ["the crate's seconds", "ratio"] if PEER else []


def program_to_time():
    """The program that is named on the command line, or else the one that `joistginger` builds."""
    if len(sys.argv) > 1:
        return sys.argv[1]
    built = subprocess.run([os.path.join(TOP, "joistginger"), "--where"], stdout=subprocess.PIPE, check=True)
    return built.stdout.decode().strip()


def tuned():
    """The environment in which the script `joistginger` runs the program."""
    with open(os.path.join(TOP, "joistginger")) as script:
        allocator = re.search(r"^allocator=(\S+)$", script.read(), re.MULTILINE).group(1)
    return {"GLIBC_TUNABLES": allocator, **os.environ}


@contextlib.contextmanager
def written(text):
    """The path of a file that holds the text."""
    with tempfile.NamedTemporaryFile(suffix=".cedarschema") as source:
        source.write(text.encode())
        source.flush()
        yield source.name


# Starts the program and tells how it ended, what it took and its peak memory: from a process that is small itself, since
# the kernel counts as a program's peak also what the process held that became it.
LAUNCHER = """
import os, sys
child = os.posix_spawnp(sys.argv[2], sys.argv[2:], os.environ)
_, status, usage = os.wait4(child, 0)
seconds = usage.ru_utime + usage.ru_stime
os.write(int(sys.argv[1]), b"%d %f %d" % (os.waitstatus_to_exitcode(status), seconds, usage.ru_maxrss))
"""


def run(program, path, statuses, words=("resolve",)):
    """Processor seconds and peak memory in MB of one run, which has to end with one of these statuses."""
    environment = os.environ if program == PEER else tuned()
    reader, writer = os.pipe()
    with open(path, "rb") as source, open(os.devnull, "wb") as out:
        launcher = [sys.executable, "-I", "-S", "-c", LAUNCHER, str(writer), program, *words]
        subprocess.run(launcher, stdin=source, stdout=out, stderr=out, env=environment, pass_fds=[writer], check=True)
    os.close(writer)
    with os.fdopen(reader) as told:
        status, seconds, kilobytes = told.read().split()
    if int(status) not in statuses:
        sys.exit(f"{program} ended with status {status}")
    return float(seconds), int(kilobytes) / 1024


def best_of_three(program, path, statuses=(0,), words=("resolve",)):
    """The least processor seconds and the greatest peak memory of three runs."""
    rows = [run(program, path, statuses, words) for _ in range(3)]
    return min(row[0] for row in rows), max(row[1] for row in rows)


def against_peer(seconds, path, statuses=(0,), words=("resolve",)):
    """The peer's processor seconds on the same text and the ratio to them, where there is a peer."""
    if not PEER:
        return []
    theirs, _ = best_of_three(PEER, path, statuses, words)
    return [f"{theirs:.3f}", f"{seconds / theirs:.2f}"]


def print_head(*columns):
    print_row(*columns)
    print("|---" * len(columns) + "|")


def print_row(*cells):
    print("| " + " | ".join(str(cell) for cell in cells) + " |", flush=True)
