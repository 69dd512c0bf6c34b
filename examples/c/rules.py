"""What a session's text and the bytes of logs say, by the formats and the rules alone: nothing in this file comes from the library.

python3 rules.py SESSION LOG..: replays the logs of all players, in their order, and tells where each came to stand.
"""
import hashlib
import sys
from collections import namedtuple

Seat = namedtuple("Seat", "cell speed reach")
Move = namedtuple("Move", "to strike")
Track = namedtuple("Track", "cell charge")


def sha(data):
    return hashlib.sha256(data).digest()


def far(a, b):
    return max(abs(a[0] - b[0]), abs(a[1] - b[1]))


class Session:
    """The fields of a text that is known to be a session's."""

    def __init__(self, text):
        self.id = sha(text)
        lines = [line.split(" ") for line in text.decode("ascii").split("\n")]
        named = {line[0]: [int(word) for word in line[1:]] for line in lines if line[0] not in ("player", "wall")}
        self.width, self.height = named["grid"]
        speed, reach, self.blast = named["rules"]
        self.start, self.cap, self.cost = named["charge"]
        (self.turns,) = named["turns"]
        self.walls = {tuple(map(int, line[1:])) for line in lines if line[0] == "wall"}
        players = [list(map(int, line[2:])) for line in lines if line[0] == "player"]
        self.seats = [Seat((p[0], p[1]), *(p[2:] or [speed, reach])) for p in players]

    def inside(self, cell):
        return 0 <= cell[0] < self.width and 0 <= cell[1] < self.height

    def walks(self, cell, steps):
        """The cells to which a walk of so many steps leads."""
        there = {cell}
        for _ in range(steps):
            around = {(x + i, y + j) for x, y in there for i in (-1, 0, 1) for j in (-1, 0, 1)}
            there = {c for c in around if self.inside(c) and c not in self.walls}
        return there

    def fault(self, player, track, move):
        """The first of the six faults of a move, from 1, or 0 for a legal one."""
        seat, strike = self.seats[player], move.strike
        tests = [not self.inside(move.to), move.to in self.walls, move.to not in self.walks(track.cell, seat.speed)]
        if strike:
            tests += [not self.inside(strike), far(move.to, strike) > seat.reach, track.charge < self.cost]
        return tests.index(True) + 1 if True in tests else 0

    def after(self, track, move):
        return Track(move.to, track.charge - self.cost if move.strike else min(self.cap, track.charge + 1))

    def begin(self):
        return [Track(seat.cell, self.start) for seat in self.seats]

    def opening(self, player, turn, move, nonce):
        return self.id + bytes([player]) + turn.to_bytes(4, "big") + move + nonce


def move_of(data):
    x, y = (int.from_bytes(data[i : i + 2], "big") for i in (0, 2))
    assert data[4] == (len(data) == 9)
    return Move((x, y), tuple(int.from_bytes(data[i : i + 2], "big") for i in (5, 7)) if data[4] else None)


def entries(session, log):
    """The kinds and bodies of a log's entries, whose chain is whole."""
    at, chain = 1, session.id + log[:1]
    while at < len(log):
        end = at + 3 + int.from_bytes(log[at : at + 2], "big")
        chain = sha(chain + log[at:end])
        assert log[end : end + 32] == chain, f"the chain at {at}"
        yield log[at + 2], log[at + 3 : end]
        at = end + 32


def moves_in(session, log):
    """The moves of each player that a log resolves, turn by turn; each opens the commitment before it, and the own ones are as chosen."""
    owner, chosen, digests, moves = log[0], {}, {}, [[] for _ in session.seats]
    for kind, body in entries(session, log):
        if kind == 1:
            chosen[int.from_bytes(body[:4], "big")] = body[4:]
            continue
        frame = body if kind == 2 else body[1:]
        player, turn, shown = frame[3], int.from_bytes(frame[4:8], "big"), frame[8:]
        assert len(frame) == 3 + int.from_bytes(frame[1:3], "big") and player == (owner if kind == 2 else body[0])
        if frame[0] == 2:
            assert (player, turn) not in digests and len(shown) == 32
            digests[player, turn] = shown
        else:
            assert digests[player, turn] == sha(session.opening(player, turn, shown[:-32], shown[-32:])), "an opening"
            assert kind == 3 or shown == chosen[turn], "a reveal of what was chosen"
            assert len(moves[player]) == turn
            moves[player].append(move_of(shown[:-32]))
    return moves


class Play:
    """All moves, replayed: the tracks behind each turn, and the strikes and hits."""

    def __init__(self, session, moves):
        self.tracks, players = [session.begin()], range(len(moves))
        self.strikes, self.given, self.taken = [0] * len(moves), [0] * len(moves), [0] * len(moves)
        for turn in range(session.turns):
            now = [moves[p][turn] for p in players]
            assert not any(session.fault(p, self.tracks[-1][p], now[p]) for p in players), "a move"
            self.tracks.append([session.after(self.tracks[-1][p], now[p]) for p in players])
            for p in players:
                self.strikes[p] += now[p].strike is not None
                for q in players:
                    if q != p and now[p].strike and far(now[q].to, now[p].strike) <= session.blast:
                        self.given[p] += 1
                        self.taken[q] += 1


def main():
    session, *logs = (open(name, "rb").read() for name in sys.argv[1:])
    session = Session(session)
    seen = [moves_in(session, log) for log in logs]
    assert all(moves == seen[0] for moves in seen), "the logs agree"
    play = Play(session, seen[0])
    for p, log in enumerate(logs):
        (x, y), charge = play.tracks[-1][p]
        counts = f"{play.strikes[p]} strikes, {play.given[p]} hits given, {play.taken[p]} taken"
        print(f"player {p}: at {x} {y}, charge {charge}, {counts}, a log of {len(log)} bytes")


if __name__ == "__main__":
    main()
