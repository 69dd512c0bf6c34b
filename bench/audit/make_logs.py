# Writes a session and its logs for bench/audit.sh into a folder: make_logs.py FOLDER KIND LOGS ENTRIES
import hashlib
import os
import sys


def sha(data):
    return hashlib.sha256(data).digest()


# a session of version 2, where it has more players than one of version 1 may have
def session_of(players, turns):
    version, ahead = (1, "") if players <= 16 else (2, "ahead 1\n")
    text = f"playout {version}\ngrid {players} 1\nrules 1 0 0\ncharge 1 2 1\nturns {turns}\n{ahead}players {players}\n"
    text += "".join(f"player {q} {q} 0\n" for q in range(players))
    return (text + "end\n").encode()


def commit(player, turn, digest):
    return b"\2\0\x25" + bytes([player]) + turn.to_bytes(4, "big") + digest


def reveal(player, turn, x, nonce):
    return b"\3\0\x2a" + bytes([player]) + turn.to_bytes(4, "big") + x.to_bytes(2, "big") + b"\0\0\0" + nonce


def opened(identity, player, turn, x, nonce):
    return sha(identity + bytes([player]) + turn.to_bytes(4, "big") + x.to_bytes(2, "big") + b"\0\0\0" + nonce)


WORD = 2**64 - 1
MULTIPLIER = 0x9E3779B97F4A7C15
# as many turns of players as the largest session has, and how many groups of twelve the table has that holds so many turns
LARGEST = 64, 6144
GROUPS = 16384
HELD = 9 * GROUPS


def folded(a, b):
    return a * b & WORD ^ a * b >> 64


# the hash by which indexmap finds a player's turn: that of its default hasher, whose seed is fixed, for a byte and a number of four
def turn_hash(player, turn):
    state = folded(0x243F6A8885A308D3 ^ player * 0x010101, MULTIPLIER ^ 2)
    state = folded(state ^ (turn | turn << 32), MULTIPLIER ^ 8)
    return (state ^ state >> 32) & 0xFFFFFFFF


# as many turns as fill the table, in the order in which they come; the last one is asked for again and again
def turns_taken(kind):
    players, turns = LARGEST
    # by the group at which the look-up of each begins
    keys = [(turn_hash(q, t) & GROUPS - 1, q, t) for q in range(1, players) for t in range(turns)]
    if kind == "colliding":
        # those that begin in the first groups, so that the look-ups run on behind each other; that of the last one goes all the way
        return [key[1:] for key in reversed(sorted(keys)[:HELD])]
    # any, without regard to where they begin
    return [key[1:] for key in sorted(keys, key=lambda key: sha(b"%d %d" % key[1:]))[:HELD]]


# the frames that log number `log` of its owner got, each with the player from whom it came
def frames(kind, identity, players, turns, owner, log, entries):
    nonce = bytes(32)
    others = [q for q in range(players) if q != owner]
    if kind == "honest":
        # all others stay in every turn, and one of them after the other tells all of them: the frames of a turn stand far apart
        for q in others:
            for t in range(turns):
                yield q, commit(q, t, opened(identity, q, t, q, nonce))
                yield q, reveal(q, t, q, nonce)
    elif kind == "turns":
        # the same frames in the order in which a match in step brings them: of each turn all commitments, and then all reveals
        for t in range(turns):
            for q in others:
                yield q, commit(q, t, opened(identity, q, t, q, nonce))
            for q in others:
                yield q, reveal(q, t, q, nonce)
    elif kind == "commitments":
        # different commitments of one turn, other ones in each log
        for i in range(entries):
            yield 15, commit(15, 0, sha(b"%d %d" % (log, i)))
    elif kind == "alike":
        # commitments of one turn that differ in their last bytes alone, each below the one before: the longest to compare
        for i in range(entries):
            yield 15, commit(15, 0, bytes(24) + (2**63 - log * entries - i).to_bytes(8, "big"))
    elif kind == "repeats":
        # one commitment again and again
        for i in range(entries):
            yield 15, commit(15, 0, bytes(32))
    elif kind == "reveals":
        # different reveals of one turn, none of which opens its commitment
        yield 15, commit(15, 0, bytes(32))
        for i in range(entries):
            yield 15, reveal(15, 0, 15, sha(b"%d %d" % (log, i)))
    elif kind in ("colliding", "spread"):
        # a commitment to each of the turns that fill the table, in the first log, and then the last one again and again
        taken = turns_taken(kind)
        first = taken if log == 0 else []
        for q, t in first:
            yield q, commit(q, t, bytes(32))
        for _ in range(entries - len(first)):
            yield taken[-1][0], commit(*taken[-1], bytes(32))


def main():
    folder, kind, logs, entries = sys.argv[1], sys.argv[2], int(sys.argv[3]), int(sys.argv[4])
    players, turns = LARGEST if kind in ("colliding", "spread") else (16, 4096)
    text = session_of(players, turns)
    identity = sha(text)
    with open(os.path.join(folder, "session"), "wb") as out:
        out.write(text)
    for log in range(logs):
        owner = log if kind in ("honest", "turns") else 0 if kind in ("colliding", "spread") else log % 15
        chain = identity + bytes([owner])
        parts = [bytes([owner])]
        for player, frame in frames(kind, identity, players, turns, owner, log, entries):
            body = bytes([player]) + frame
            entry = len(body).to_bytes(2, "big") + b"\3" + body
            chain = sha(chain + entry)
            parts.append(entry + chain)
        with open(os.path.join(folder, str(log)), "wb") as out:
            out.write(b"".join(parts))


main()
