#!/bin/sh
# How many turns a second two players make over datagrams of this machine, who wait for each other in every turn, beside `peer` over sockets; how
# many datagrams and bytes a turn takes and how many polls suffice, where none is lost and on lines that lose some (examples/lossy.py); and what
# a flood at a player's port costs it. ./build first.
. "$(dirname "$0")/common.sh"
program=${1:-$here/../crates/lethwyrn/out/lethwyrn}
if [ ! -x "$program" ]; then
    echo 'bench/posts.sh: ./build builds the program first' >&2
    exit 1
fi
python3 - "$program" "$work" "$here/../examples" <<'END'
import os, resource, socket, subprocess, sys, tempfile, threading, time

program, work, examples = sys.argv[1:4]
sys.path.insert(0, examples)
from lossy import Line

folder = tempfile.TemporaryDirectory(dir="/dev/shm")

def put(name, text):
    with open(f"{work}/{name}", "w") as it:
        it.write(text)

def ports(count):
    sockets = [socket.socket(socket.AF_INET, socket.SOCK_DGRAM) for _ in range(count)]
    for it in sockets:
        it.bind(("127.0.0.1", 0))
    found = [it.getsockname()[1] for it in sockets]
    for it in sockets:
        it.close()
    return found

def put_match(turns, own, to):
    """The texts of a match: where each player hears, and where each sends to."""
    put("session", f"playout 1\ngrid 12 12\nrules 1 2 0\ncharge 1 3 2\nturns {turns}\nplayers 2\nplayer 0 4 5\nplayer 1 7 5\nend\n")
    put("moves.0", "4 5\n" * turns)
    put("moves.1", "7 5\n" * turns)
    for me in (0, 1):
        shows, wants = f"{me:032x}", f"{1 - me:032x}"
        put(f"roster.{me}", f"roster 1\nme 127.0.0.1 {own[me]}\npeer {1 - me} 127.0.0.1 {to[me]} {shows} {wants}\nend\n")

def play(command, polls):
    """Plays the match: seconds, processor seconds of both players, and how each ended."""
    for me in (0, 1):
        if os.path.exists(f"{folder.name}/log.{me}"):
            os.remove(f"{folder.name}/log.{me}")
    before = resource.getrusage(resource.RUSAGE_CHILDREN)
    start = time.monotonic()
    players = [subprocess.Popen([program, command, f"{work}/session", f"{work}/roster.{me}", f"{work}/moves.{me}", str(me), str(polls),
               f"{folder.name}/log.{me}"], stdout=subprocess.PIPE) for me in (1, 0)]
    texts = [it.communicate()[0].decode() for it in players]
    seconds = time.monotonic() - start
    after = resource.getrusage(resource.RUSAGE_CHILDREN)
    return seconds, after.ru_utime + after.ru_stime - before.ru_utime - before.ru_stime, texts

def is_whole(text):
    return "need " not in text and text.count(" next ") == 2

class Counted(Line):
    """A bad line that counts what comes to it."""

    def __init__(self, loss, seed):
        super().__init__(loss, seed)
        self.count, self.bytes = 0, 0

    def take(self, datagram, port):
        self.count, self.bytes = self.count + 1, self.bytes + len(datagram)
        super().take(datagram, port)

def carry(line, ways, is_over):
    """Carries datagrams until all is over."""
    boxes = []
    for port, to in ways:
        box = socket.socket(socket.AF_INET, socket.SOCK_DGRAM)
        box.bind(("127.0.0.1", port))
        box.settimeout(0.002)
        boxes.append((box, to))
    def on(box, to):
        while not is_over.is_set():
            try:
                datagram = box.recv(2048)
            except socket.timeout:
                with lock:
                    if line.held:
                        line.let_go()
                continue
            with lock:
                line.take(datagram, to)
        box.close()
    lock = threading.Lock()
    threads = [threading.Thread(target=on, args=way) for way in boxes]
    for it in threads:
        it.start()
    return threads

turns = 500
own = ports(2)
put_match(turns, own, own[::-1])
fast = min(play("post", 1000000)[:2] for _ in range(3))
slow = min(play("peer", 1000000)[:2] for _ in range(3))
print(f"over datagrams {turns / fast[0]:8.0f} turns a second, and {fast[1] / turns / 2 * 1e6:.0f} us of processor a turn and player")
print(f"over sockets   {turns / slow[0]:8.0f} turns a second, and {slow[1] / turns / 2 * 1e6:.0f} us of processor a turn and player")

turns = 50
for loss in (0, 10, 30):
    for factor in (2, 4, 8, 16):
        whole, count, carried = 0, 0, 0
        for seed in range(10):
            found = ports(4)
            own, relay = found[:2], found[2:]
            put_match(turns, own, relay)
            line, is_over = Counted(loss, seed), threading.Event()
            # player 0 sends to relay[0], which goes on to player 1
            threads = carry(line, [(relay[0], own[1]), (relay[1], own[0])], is_over)
            texts = play("post", factor * turns)[2]
            is_over.set()
            for it in threads:
                it.join()
            whole += all(is_whole(text) for text in texts)
            count, carried = count + line.count, carried + line.bytes
        print(f"{loss:2} of 100 lost, {factor:2} polls a turn: {whole:2} of 10 matches whole, {count / turns / 20:5.1f} datagrams and {carried / turns / 20:5.0f} bytes a turn and player")

# a flood of greetings with a wrong pass, for as long as a player waits in vain
own = ports(2)
put_match(8, own, own[::-1])
hello = bytes.fromhex("01") + bytes(55)
def waits(is_flooded):
    before = resource.getrusage(resource.RUSAGE_CHILDREN)
    start = time.monotonic()
    player = subprocess.Popen([program, "post", f"{work}/session", f"{work}/roster.0", f"{work}/moves.0", "0", "100", f"{folder.name}/flooded"], stdout=subprocess.DEVNULL)
    sent, out = 0, socket.socket(socket.AF_INET, socket.SOCK_DGRAM)
    while player.poll() is None:
        if is_flooded:
            for _ in range(64):
                out.sendto(hello, ("127.0.0.1", own[0]))
            sent += 64
        else:
            time.sleep(0.01)
    seconds = time.monotonic() - start
    os.remove(f"{folder.name}/flooded")
    after = resource.getrusage(resource.RUSAGE_CHILDREN)
    return seconds, after.ru_utime + after.ru_stime - before.ru_utime - before.ru_stime, sent
for is_flooded in (False, True):
    seconds, used, sent = waits(is_flooded)
    print(f"100 polls {'in a flood of ' + str(sent) + ' datagrams' if is_flooded else 'in silence'}: {seconds:.2f} s, {used:.3f} s of processor")
END
