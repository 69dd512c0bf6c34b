"""Cheats through ctypes: python3 cheats.py liblethwyrn_c.so

Openings, commitments and frames are made here with hashlib, and the evidence that the peer writes is judged here again, without the library.
"""
import ctypes
import hashlib
import sys
from ctypes import byref, c_size_t, c_uint8

from duel import Found, Greeting, Peer, Refusal, Track, declare

TEXT = b"playout 1\ngrid 12 12\nrules 1 2 1\ncharge 1 3 2\nturns 6\nplayers 2\nplayer 0 2 5\nplayer 1 9 5\nend\n"
ID = hashlib.sha256(TEXT).digest()
OK, NOTHING, NO_ROOM, WHOLE_LOG, TAKEN, STASHED, SAME, FOREIGN, CLOSED, CAUGHT = 0, 7, 17, 18, 40, 41, 42, 44, 45, 46
KINDS = {1: "two-commits", 2: "bad-opening", 4: "illegal"}


def number(value, size):
    return value.to_bytes(size, "big")


def opening(player, turn, x, y, nonce):
    """What a commitment hides: the session, the player, the turn, the move and the nonce."""
    return ID + number(player, 1) + number(turn, 4) + number(x, 2) + number(y, 2) + b"\0" + nonce


def commit(player, turn, x, y, nonce):
    return bytes([2, 0, 37]) + number(player, 1) + number(turn, 4) + hashlib.sha256(opening(player, turn, x, y, nonce)).digest()


def reveal(player, turn, x, y, nonce):
    return bytes([3, 0, 42]) + opening(player, turn, x, y, nonce)[32:]


def digest(frame):
    """The digest of a frame: a commitment has it, a reveal opens to it."""
    return frame[8:] if frame[0] == 2 else hashlib.sha256(ID + frame[3:]).digest()


def convicts(text):
    """Whether the two frames of an evidence text show what it says, by this file alone."""
    lines = text.decode("ascii").split("\n")
    frames = [bytes.fromhex(line.split(" ")[1]) for line in lines[4:-2]]
    kind = lines[3].split(" ")[1]
    head = ["evidence 1", f"player {frames[0][3]}", f"turn {int.from_bytes(frames[0][4:8], 'big')}"]
    both = len(frames) == 2 and frames[0][3:8] == frames[1][3:8] and lines[:3] == head and lines[-2:] == ["end", ""]
    kinds = sorted(frame[0] for frame in frames)
    shown = kinds == [2, 2] if kind == "two-commits" else 3 in kinds if kind == "bad-opening" else False
    return both and shown and digest(frames[0]) != digest(frames[1])


class Judge:
    """Player 0, who hears what player 1 sends."""

    def __init__(self, calls):
        self.calls, self.peer = calls, Peer()
        assert self.ask("make", TEXT, len(TEXT), 0, byref(Refusal())) == OK

    def ask(self, name, *more):
        return self.calls[name](byref(self.peer), *more)

    def hear(self, frame):
        used = c_size_t()
        code = self.ask("hear", 1, frame, len(frame), byref(used), byref(Greeting()))
        assert used.value == len(frame), used.value
        return code

    def evidence(self, room=512):
        out, count = (c_uint8 * room)(), c_size_t(9)
        code = self.ask("evidence", out, room, byref(count))
        return code, bytes(out[: count.value])


def caught(calls, name, kind, spots, frames, codes):
    """Player 1 sends these frames, which are answered so, and the last of them is caught."""
    judge = Judge(calls)
    assert [judge.hear(frame) for frame in frames] == codes, (name, codes)
    found = Found()
    assert judge.ask("finding", byref(found)) == OK
    assert (found.player, found.turn, found.kind, (found.first, found.second)) == (1, 0, kind, spots), name
    assert judge.hear(frames[0]) == CLOSED
    code, text = judge.evidence()
    if KINDS[kind] == "illegal":
        assert (code, text) == (WHOLE_LOG, b"")
        print(f"{name}: {KINDS[kind]}, entries {spots[0]} and {spots[1]}; the whole log shows it")
    else:
        first, second = (frames[spot].hex() for spot in spots)
        due = f"evidence 1\nplayer 1\nturn 0\nkind {KINDS[kind]}\nframe {first}\nframe {second}\nend\n"
        assert (code, text) == (OK, due.encode("ascii")), text
        assert judge.evidence(len(text) - 1) == (NO_ROOM, b"") and judge.evidence(len(text)) == (OK, text)
        assert convicts(text)
        print(f"{name}: {KINDS[kind]}, entries {spots[0]} and {spots[1]}; {len(text)} bytes of evidence convict")
    judge.ask("free")


def honest(calls):
    """What isn't a cheat: the same again, a reveal before its commitment, another's frame."""
    judge, nonce = Judge(calls), bytes(32)
    codes = [judge.hear(frame) for frame in (reveal(1, 0, 9, 5, nonce), commit(1, 0, 9, 5, nonce), commit(1, 0, 9, 5, nonce), commit(0, 0, 9, 5, nonce))]
    assert codes == [STASHED, TAKEN, SAME, FOREIGN], codes
    track = Track()
    assert judge.ask("player", 1, byref(track)) == OK and (track.turns, track.next, track.x, track.y, track.charge) == (1, 2, 9, 5, 2)
    assert judge.ask("finding", byref(Found())) == NOTHING and judge.evidence() == (NOTHING, b"")
    print("a reveal, its commitment, the same again and another's frame: no finding")
    judge.ask("free")


def main():
    calls = declare(ctypes.CDLL(sys.argv[1]))
    one, two = b"\1" * 32, b"\2" * 32
    honest(calls)
    caught(calls, "commits twice", 1, (0, 1), [commit(1, 0, 9, 5, one), commit(1, 0, 9, 5, two)], [TAKEN, CAUGHT])
    caught(calls, "opens another nonce", 2, (0, 1), [commit(1, 0, 9, 5, one), reveal(1, 0, 9, 5, two)], [TAKEN, CAUGHT])
    caught(calls, "opens another move", 2, (0, 1), [commit(1, 0, 9, 5, one), reveal(1, 0, 8, 5, one)], [TAKEN, CAUGHT])
    caught(calls, "reveals twice", 2, (0, 1), [reveal(1, 0, 9, 5, one), reveal(1, 0, 9, 5, two)], [STASHED, CAUGHT])
    caught(calls, "goes two cells", 4, (0, 1), [commit(1, 0, 7, 5, one), reveal(1, 0, 7, 5, one)], [TAKEN, CAUGHT])


main()
