#!/usr/bin/env python3
"""Refuses each allocation of the program in turn, one a run, and looks at how that run ends.

    by_hand/memory.py [PROGRAM]

PROGRAM is the one that ./build leaves, where none is named. Each command runs once with all its
memory, and then once for each of its allocations, of which that one is refused; of a command with
more than a thousand, for a thousand that stand evenly apart. Such a run has to end with status 1
and the line `no memory`, and without anything before it, but for `audit` and `watch`, which may
have written a front of their text; none but `watch` may have asked for a socket, and none begun a
log. Or it goes on without that memory, and ends as it does with all of it: where a file's name
can't be kept, the file is opened again. It needs Linux with glibc, and a C compiler.
"""
import os
import subprocess
import sys
import tempfile

HERE = os.path.dirname(os.path.abspath(__file__))
EXAMPLES = os.path.join(HERE, "..", "examples")

# the most runs of one command
MOST = 1000

# the one that takes memory for what comes over its sockets too
WATCH = "watch"

# plays for player 2, and waits once
PEER = "peer {e}/match.session {e}/match.2.roster {e}/match.2.moves 2 1 {f}/log"

# the command's name here, its words, the file that it reads as its input, and whether it takes
# memory after its first byte
RUNS = [
    ("drive", "drive {e}/duel.session 0", "duel.script", False),
    ("drive, from a log", "drive {e}/resumed.session 0 {e}/resumed.log", "resumed.script", False),
    ("judge", "judge {e}/duel.session {e}/duel.evidence", None, False),
    ("audit", "audit {e}/trio.session {e}/trio.0.log {e}/trio.1.log", None, True),
    ("schedule", "schedule {e}/gossip.session", "gossip.schedule", False),
    ("make", "make 7", None, False),
    ("upgrade", "upgrade {e}/duel.session", None, False),
    ("peer", PEER, None, False),
    ("peer, from a log", PEER + " {f}/old", None, False),
    ("root", "root {e}/duel.session 0 {f}/seed", None, False),
    ("seal", "seal {e}/trio.session 0 {f}/seed {e}/trio.0.log", None, False),
    ("deposit", "deposit {e}/liar.session {e}/liar.0.deposit 0 1 {e}/trio.0.log", None, False),
    (WATCH, "watch {e}/liar.session {e}/liar.watch 1", None, True),
]


class Ran:
    """How a run ended: its status, its text, how many allocations it made, how many sockets it
    asked for, and whether it began a log."""

    def __init__(self, program, shim, folder, words, given, refused):
        log, told = os.path.join(folder, "log"), os.path.join(folder, "told")
        for name in (log, told):
            if os.path.exists(name):
                os.remove(name)
        outside = dict(os.environ, LD_PRELOAD=shim, REFUSE=str(refused), REFUSE_TOLD=told)
        words = words.format(e=EXAMPLES, f=folder).split()
        ended = subprocess.run([program] + words, input=given, stdout=subprocess.PIPE,
                               env=outside, timeout=60)
        self.status, self.text = ended.returncode, ended.stdout
        with open(told) as file:
            self.count, self.sockets = map(int, file.read().split())
        self.has_log = os.path.exists(log)


def went_on(whole, ran):
    """Whether the run ended as it does with all its memory."""
    return ran.status == whole.status and ran.text == whole.text


def fault(name, whole, ran, late):
    """What is wrong with a run that ended otherwise, if anything is."""
    if ran.status != 1:
        return "status %d" % ran.status
    if not ran.text.endswith(b"no memory\n"):
        return "it wrote %r" % ran.text
    front = ran.text[: -len(b"no memory\n")]
    if front and not (late and whole.text.startswith(front)):
        return "it wrote %r before" % front
    if (ran.sockets and name != WATCH) or ran.has_log:
        return "it asked for %d sockets, or began a log" % ran.sockets
    return None


def tried(program, shim, folder, name, words, file, late):
    """Refuses each allocation of a command in turn, tells how it went, and returns the faults."""
    given = b""
    if file:
        with open(os.path.join(EXAMPLES, file), "rb") as read:
            given = read.read()
    whole = Ran(program, shim, folder, words, given, 0)
    faults, passed = [], 0
    numbers = range(1, whole.count + 1, -(-whole.count // MOST))
    for number in numbers:
        ran = Ran(program, shim, folder, words, given, number)
        if went_on(whole, ran):
            passed += 1
            continue
        found = fault(name, whole, ran, late)
        if found:
            faults.append("allocation %d: %s" % (number, found))
    if name == "peer":
        Ran(program, shim, folder, words, given, 0)
        os.replace(os.path.join(folder, "log"), os.path.join(folder, "old"))
    print("%-18s status %d, %d allocations, %d of them refused in turn: %d runs went on, %d faults"
          % (name, whole.status, whole.count, len(numbers), passed, len(faults)), flush=True)
    for found in faults[:5]:
        print("    " + found)
    return faults


def main():
    built = os.path.join(HERE, "..", "crates", "lethwyrn", "out", "lethwyrn")
    program = os.path.abspath(sys.argv[1] if len(sys.argv) > 1 else built)
    if not os.path.exists(program):
        sys.exit("by_hand/memory.py: ./build builds the program first")
    wrong = 0
    with tempfile.TemporaryDirectory() as folder:
        shim, source = os.path.join(folder, "refuse.so"), os.path.join(HERE, "refuse.c")
        subprocess.run(["cc", "-O1", "-shared", "-fPIC", "-o", shim, source, "-ldl"], check=True)
        seed = os.open(os.path.join(folder, "seed"), os.O_CREAT | os.O_WRONLY, 0o600)
        os.write(seed, os.urandom(32))
        os.close(seed)
        for run in RUNS:
            wrong += len(tried(program, shim, folder, *run))
    return 1 if wrong else 0


if __name__ == "__main__":
    sys.exit(main())
