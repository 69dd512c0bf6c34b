#!/usr/bin/env python3
"""A bad line between players: it loses, repeats and reorders their datagrams.

    examples/lossy.py LOSS SEED PORT:TO ..

Each datagram that comes to a PORT of this machine goes on to the port TO, but for LOSS of a hundred.
One in ten goes twice, and one in five is held back until others have gone. SEED says which. It runs
until it is stopped.
"""
import random
import selectors
import socket
import sys

# in a hundred
TWICE, HELD = 10, 20
# how many are held back at most, and how many seconds until the first of them goes
MOST_HELD, LONGEST = 8, 0.02


class Line:
    """The datagrams that go on, and those that are held back."""

    def __init__(self, loss, seed):
        self.loss, self.drawn = loss, random.Random(seed)
        self.out = socket.socket(socket.AF_INET, socket.SOCK_DGRAM)
        self.held = []

    def draws(self, percent):
        return self.drawn.randrange(100) < percent

    def take(self, datagram, port):
        if self.draws(self.loss):
            return
        for _ in range(2 if self.draws(TWICE) else 1):
            if self.draws(HELD):
                self.held.append((datagram, port))
            else:
                self.give(datagram, port)
        if len(self.held) > MOST_HELD:
            self.let_go()

    def let_go(self):
        """Gives one of those that were held back, whichever is drawn."""
        self.give(*self.held.pop(self.drawn.randrange(len(self.held))))

    def give(self, datagram, port):
        try:
            self.out.sendto(datagram, ("127.0.0.1", port))
        except OSError:
            pass  # a datagram may be lost for any reason


def main(loss, seed, ways):
    line, ports = Line(loss, seed), selectors.DefaultSelector()
    for way in ways:
        port, to = map(int, way.split(":"))
        mailbox = socket.socket(socket.AF_INET, socket.SOCK_DGRAM)
        mailbox.bind(("127.0.0.1", port))
        mailbox.setblocking(False)
        ports.register(mailbox, selectors.EVENT_READ, to)
    while True:
        ready = ports.select(LONGEST if line.held else None)
        for key, _ in ready:
            line.take(key.fileobj.recv(2048), key.data)
        if line.held and not ready:
            line.let_go()


if __name__ == "__main__":
    if len(sys.argv) < 4:
        sys.exit("usage: examples/lossy.py LOSS SEED PORT:TO ..")
    main(int(sys.argv[1]), int(sys.argv[2]), sys.argv[3:])
