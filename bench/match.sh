#!/bin/sh
# How many turns a second two players make over the sockets of this machine, who wait for each other in every turn: with their logs on the
# disk of the folder that TMPDIR or /tmp names, beside two syncs a turn on that disk one behind the other, and with their logs in memory;
# and what a turn costs of the processor, and a player of memory. ./build first.
. "$(dirname "$0")/common.sh"
program=${1:-$here/../crates/lethwyrn/out/lethwyrn}
if [ ! -x "$program" ]; then
    echo 'bench/match.sh: ./build builds the program first' >&2
    exit 1
fi
turns=2000
python3 - "$program" "$work" "$turns" <<'END'
import os, resource, socket, subprocess, sys, tempfile, time

program, work, turns = sys.argv[1], sys.argv[2], int(sys.argv[3])

def put(name, text):
    with open(f"{work}/{name}", "w") as it:
        it.write(text)

def ports():
    sockets = [socket.create_server(("127.0.0.1", 0)) for _ in range(2)]
    found = [it.getsockname()[1] for it in sockets]
    for it in sockets:
        it.close()
    return found

put("session", f"playout 1\ngrid 12 12\nrules 1 2 0\ncharge 1 3 2\nturns {turns}\nplayers 2\nplayer 0 4 5\nplayer 1 7 5\nend\n")
put("moves.0", "4 5\n" * turns)
put("moves.1", "7 5\n" * turns)

def play(folder):
    """Plays a match with the logs in a folder: seconds, processor seconds, and the greatest memory of a player."""
    own = ports()
    for me in (0, 1):
        shows, wants = f"{me:032x}", f"{1 - me:032x}"
        put(f"roster.{me}", f"roster 1\nme 127.0.0.1 {own[me]}\npeer {1 - me} 127.0.0.1 {own[1 - me]} {shows} {wants}\nend\n")
    words = lambda me: [program, "peer", f"{work}/session", f"{work}/roster.{me}", f"{work}/moves.{me}", str(me), "1000000", f"{folder}/log.{me}"]
    for me in (0, 1):
        if os.path.exists(f"{folder}/log.{me}"):
            os.remove(f"{folder}/log.{me}")
    before = resource.getrusage(resource.RUSAGE_CHILDREN)
    start = time.monotonic()
    # the one that listens begins
    players = [subprocess.Popen(words(me), stdout=subprocess.DEVNULL) for me in (1, 0)]
    ended = [it.wait() for it in players]
    seconds = time.monotonic() - start
    after = resource.getrusage(resource.RUSAGE_CHILDREN)
    assert ended == [0, 0], ended
    used = after.ru_utime + after.ru_stime - before.ru_utime - before.ru_stime
    return seconds, used, after.ru_maxrss

def syncs(folder):
    """The seconds of two syncs a turn, each behind bytes of an entry."""
    name = f"{folder}/syncs"
    it = os.open(name, os.O_CREAT | os.O_EXCL | os.O_WRONLY, 0o600)
    start = time.monotonic()
    for _ in range(2 * turns):
        os.write(it, b"x" * 153)
        os.fsync(it)
    seconds = time.monotonic() - start
    os.close(it)
    os.remove(name)
    return seconds

disk = min(play(work) for _ in range(3))
bound = min(syncs(work) for _ in range(3))
with tempfile.TemporaryDirectory(dir="/dev/shm") as memory:
    fast = min(play(memory) for _ in range(3))
print(f"logs on disk    {turns / disk[0]:9.0f} turns a second, and {disk[1] / turns / 2 * 1e6:.0f} us of processor a turn and player")
print(f"two syncs a turn{turns / bound:9.0f} turns a second")
print(f"logs in memory  {turns / fast[0]:9.0f} turns a second, and {fast[1] / turns / 2 * 1e6:.0f} us of processor a turn and player")
print(f"a player takes at most {max(disk[2], fast[2]) / 1024:.1f} MB")
END
