"""The match of duel.c through ctypes, move for move and crash for crash: python3 duel.py liblethwyrn_c.so

It prints what duel.c does; and what the library told is computed again from the logs that it handed out, by rules.py alone.
"""
import ctypes
import os
import sys
from ctypes import POINTER, byref, c_bool, c_int32, c_size_t, c_uint8, c_uint16, c_uint32, c_uint64, c_void_p

import rules

TEXT = (b"playout 1\ngrid 12 12\nrules 1 2 1\ncharge 1 3 2\nturns 20\nplayers 2\nplayer 0 2 5\nplayer 1 9 6\n"
        b"wall 5 3\nwall 6 3\nwall 5 8\nwall 6 8\nend\n")
SIDE, PIECE, COST = 12, 7, 3
OK, NO_PEER, BAD_SESSION, BAD_PLAYER, IN_USE, NOTHING, STORE_FIRST, NO_ROOM = 0, 1, 3, 4, 6, 7, 8, 17
MORE, HELLO, BAD_BYTE, TAKEN, SAME, CAUGHT, MADE, DONE = 30, 31, 33, 40, 42, 46, 50, 53


class Peer(ctypes.Structure):
    _fields_ = [("at", c_void_p), ("live", c_bool)]


class Refusal(ctypes.Structure):
    _fields_ = [("line", c_uint32), ("rule", c_uint32), ("at", c_uint32), ("why", c_uint32), ("dropped", c_bool)]


class Track(ctypes.Structure):
    _fields_ = [("turns", c_uint32), ("next", c_uint32), ("x", c_uint16), ("y", c_uint16), ("charge", c_uint8)]


class Move(ctypes.Structure):
    _fields_ = [("x", c_uint16), ("y", c_uint16), ("strike_x", c_uint16), ("strike_y", c_uint16), ("strikes", c_bool)]


class Wait(ctypes.Structure):
    _fields_ = [("turn", c_uint32), ("next", c_uint32), ("what", c_uint32), ("player", c_uint8)]


class Found(ctypes.Structure):
    _fields_ = [("turn", c_uint32), ("kind", c_uint32), ("first", c_uint32), ("second", c_uint32), ("player", c_uint8)]


class Hits(ctypes.Structure):
    _fields_ = [("settled", c_uint32), ("given", c_uint32), ("taken", c_uint32)]


class Greeting(ctypes.Structure):
    _fields_ = [("next", c_uint32), ("player", c_uint8), ("same_session", c_bool), ("pass_shown", c_uint8 * 16)]


def declare(library):
    """Says what each call takes; all answer an int32 but free."""
    bytes_of = ctypes.c_char_p
    takes = {
        "make": [bytes_of, c_size_t, c_uint8, POINTER(Refusal)],
        "resume": [bytes_of, c_size_t, c_uint8, bytes_of, c_size_t, POINTER(Refusal)],
        "choose": [POINTER(Move), bytes_of],
        "hear": [c_uint8, bytes_of, c_size_t, POINTER(c_size_t), POINTER(Greeting)],
        "link": [c_uint8],
        "greet": [c_uint8, bytes_of, POINTER(c_uint8), POINTER(c_size_t)],
        "advance": [POINTER(c_uint8)],
        "take_log": [POINTER(c_uint8), POINTER(c_size_t)],
        "stored": [c_uint64],
        "take_frame": [POINTER(c_uint8), POINTER(c_size_t)],
        "send_from": [c_uint32],
        "need": [c_size_t, POINTER(Wait)],
        "finding": [POINTER(Found)],
        "evidence": [POINTER(c_uint8), c_size_t, POINTER(c_size_t)],
        "player": [c_uint8, POINTER(Track)],
        "next": [POINTER(Track)],
        "score": [POINTER(Hits)],
        "free": [],
    }
    calls = {}
    for name, more in takes.items():
        call = getattr(library, "lethwyrn_" + name)
        call.argtypes = [POINTER(Peer)] + more
        call.restype = None if name == "free" else c_int32
        calls[name] = call
    return calls


def beside(at, step):
    return max(0, at + step % 3 - 1)


class Side:
    """A player with its peer, its disk, and what came for it."""

    def __init__(self, calls, player):
        self.calls, self.player, self.peer = calls, player, Peer()
        self.begin()

    def begin(self):
        self.disk, self.inbox, self.strikes, self.waited, self.refused = b"", b"", 0, 0, []
        assert self.ask("make", TEXT, len(TEXT), self.player, byref(Refusal())) == OK

    def ask(self, name, *more):
        return self.calls[name](byref(self.peer), *more)

    def told(self, name, out, *more):
        assert self.ask(name, *more, byref(out)) == OK, name
        return out

    def handed_out(self, name, room):
        """Everything that the call hands out, and the code behind it."""
        out, count, got = (c_uint8 * room)(), c_size_t(), b""
        while (code := self.ask(name, out, byref(count))) == OK:
            got += bytes(out[: count.value])
        return got, code

    def choose(self):
        """As duel.c does: a step around, with a strike where there is charge for one, or staying where that isn't legal."""
        own = Track()
        if self.ask("next", byref(own)) != OK:
            return False
        dice = (own.turns * 2654435761 + self.player * 1779033703) % 2**32
        to = beside(own.x, dice >> 16), beside(own.y, dice >> 24)
        strike = (beside(to[0], dice >> 20), to[1]) if own.charge >= COST else None
        code = self.ask("choose", byref(Move(*to, *(strike or (0, 0)), strike is not None)), os.urandom(32))
        if code == OK:
            self.strikes += strike is not None
            return True
        print(f"player {self.player} may not go there in turn {own.turns} (code {code}); it stays")
        self.refused.append((own.turns, rules.Move(to, strike), code))
        assert self.ask("choose", byref(Move(own.x, own.y, 0, 0, False)), os.urandom(32)) == OK
        return True

    def hear(self):
        while self.inbox:
            used, greet, piece = c_size_t(), Greeting(), self.inbox[:PIECE]
            code = self.ask("hear", 1 - self.player, piece, len(piece), byref(used), byref(greet))
            if code == HELLO:
                assert greet.same_session and greet.player == 1 - self.player and bytes(greet.pass_shown) == PASS
                assert self.ask("send_from", greet.next) == OK
            assert code in (MORE, HELLO, TAKEN, SAME), code
            self.inbox = self.inbox[used.value :]

    def step(self, other):
        """What is allowed is made, the log is stored, and only then frames go out."""
        before, _ = self.handed_out("take_frame", 64)
        chose = self.choose()
        code = self.ask("advance", byref(c_uint8()))
        entries, _ = self.handed_out("take_log", 96)
        self.disk += entries
        if code == MADE:
            assert self.handed_out("take_frame", 64) == (b"", STORE_FIRST)
            self.waited += 1
        assert self.ask("stored", len(self.disk)) == OK
        after, _ = self.handed_out("take_frame", 64)
        other.inbox += before + after
        return bool(before or chose or entries or after)

    def greet(self, other):
        hello, count = (c_uint8 * 64)(), c_size_t()
        assert self.ask("greet", other.player, PASS, hello, byref(count)) == OK
        other.inbox = bytes(hello[: count.value])


PASS = bytes([7]) + bytes(15)


def refusals(calls):
    bad, none, why, used = b"playout 1\ngrid 0 12\n", Peer(), Refusal(), c_size_t()
    assert calls["advance"](byref(none), byref(c_uint8())) == NO_PEER
    assert calls["make"](byref(none), bad, len(bad), 0, byref(why)) == BAD_SESSION
    print(f"refused: line {why.line}, rule {why.rule}")
    assert calls["make"](byref(none), TEXT, len(TEXT), 2, byref(why)) == BAD_PLAYER
    assert calls["make"](byref(none), TEXT, len(TEXT), 0, byref(why)) == OK
    assert calls["make"](byref(none), TEXT, len(TEXT), 0, byref(why)) == IN_USE
    assert calls["hear"](byref(none), 1, bytes(48), 48, byref(used), byref(Greeting())) == BAD_BYTE
    print(f"a bad byte behind {used.value}")
    calls["free"](byref(none))
    assert calls["advance"](byref(none), byref(c_uint8())) == NO_PEER


def show(turn, cells):
    board = [["."] * SIDE for _ in range(SIDE)]
    for x, y in ((5, 3), (6, 3), (5, 8), (6, 8)):
        board[y][x] = "#"
    for player, (x, y) in enumerate(cells):
        board[y][x] = str(player)
    print(f"turn {turn}", *map("".join, board), sep="\n")


def lose(side, other, torn):
    """All but the disk is lost, on which an entry was being written, and both meet over a new link."""
    why = Refusal()
    side.disk += torn
    side.ask("free")
    assert side.ask("resume", TEXT, len(TEXT), side.player, side.disk, len(side.disk), byref(why)) == OK
    assert why.dropped == bool(torn)
    side.disk = side.disk[: why.at]
    print(f"player {side.player} was lost, and goes on from {why.at} bytes of its log" + (", behind which an entry was torn" if why.dropped else ""))
    assert other.ask("link", side.player) == OK
    side.greet(other)
    other.greet(side)


def play(sides):
    """Plays the match, and gives what was shown: of each player the turns that are resolved, and the cell behind them."""
    left, right = sides
    shown, moved = [], True
    while moved:
        moved = False
        for side, other in ((left, right), (right, left)):
            side.hear()
            moved |= side.step(other)
        tracks = [left.told("player", Track(), p) for p in (0, 1)]
        if min(t.turns for t in tracks) > len(shown):
            shown.append([(t.turns, (t.x, t.y)) for t in tracks])
            show(len(shown), [cell for _, cell in shown[-1]])
            if len(shown) in (7, 14):
                lose(left, right, bytes([0, 45, 2, 2, 0]) if len(shown) == 7 else b"")
                moved = True
    return shown


def end_of_match(sides, shown):
    """What was told stands in the logs, as rules.py reads them."""
    session = rules.Session(TEXT)
    moves = rules.moves_in(session, sides[0].disk)
    assert moves == rules.moves_in(session, sides[1].disk)
    match = rules.Play(session, moves)
    assert len(shown) == session.turns
    assert all(match.tracks[turns][p].cell == cell for cells in shown for p, (turns, cell) in enumerate(cells))
    for p, side in enumerate(sides):
        assert side.ask("advance", byref(c_uint8())) == DONE
        assert side.ask("need", 0, byref(Wait())) == NOTHING and side.ask("finding", byref(Found())) == NOTHING
        for turn, move, code in side.refused:
            assert 10 + session.fault(p, match.tracks[turn][p], move) == code > 10
        hits, own = side.told("score", Hits()), side.told("player", Track(), p)
        assert (hits.settled, hits.given, hits.taken) == (session.turns, match.given[p], match.taken[p])
        assert own.charge == match.tracks[-1][p].charge and side.strikes == match.strikes[p] and side.waited
        print(f"player {p}: {hits.settled} turns settled, {hits.given} hits given, {hits.taken} taken, a log of {len(side.disk)} bytes")
    print(f"{sum(match.strikes)} strikes")


def cheat(left, right):
    """Player 1 answers its own first commitment with another one."""
    for side in (left, right):
        side.ask("free")
        side.begin()
    right.step(left)
    frame = left.inbox[:39] + bytes([left.inbox[39] ^ 1])
    left.hear()
    assert left.ask("hear", 1, frame, 40, byref(c_size_t()), byref(Greeting())) == CAUGHT
    found = left.told("finding", Found())
    print(f"caught: player {found.player}, turn {found.turn}, kind {found.kind}, entries {found.first} and {found.second}")
    text, count = (c_uint8 * 512)(), c_size_t()
    assert left.ask("advance", byref(c_uint8())) == CAUGHT
    assert left.ask("evidence", text, 10, byref(count)) == NO_ROOM
    assert left.ask("evidence", text, 512, byref(count)) == OK
    print(f"evidence of {count.value} bytes, which begins", bytes(text[:40]).decode("ascii"), sep="\n")


def main():
    calls = declare(ctypes.CDLL(sys.argv[1]))
    refusals(calls)
    sides = [Side(calls, player) for player in (0, 1)]
    end_of_match(sides, play(sides))
    cheat(*sides)
    for side in sides:
        side.ask("free")


if __name__ == "__main__":
    main()
