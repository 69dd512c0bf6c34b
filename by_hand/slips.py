#!/usr/bin/env python3
"""Makes the slips that people make with the built program, and looks at what the error stream says.

    by_hand/slips.py [PROGRAM]

Each slip has its status, and words that a line of the error stream has to have. It ends with 1 where
one differs. ./build first.
"""
import os
import socket
import subprocess
import sys
import tempfile

TOP = os.path.dirname(os.path.dirname(os.path.abspath(__file__)))
PROGRAM = os.path.abspath(sys.argv[1]) if len(sys.argv) > 1 else TOP + "/crates/lethwyrn/out/lethwyrn"
EXAMPLE = TOP + "/examples/match"


def read(name):
    with open(name, "rb") as it:
        return it.read()


def put(name, text):
    with open(name, "wb") as it:
        it.write(text)
    return name


def free_port():
    with socket.create_server(("127.0.0.1", 0)) as it:
        return it.getsockname()[1]


def roster(own):
    """The roster of player 0, which hears there and whose neighbours aren't there."""
    lines = read(EXAMPLE + ".0.roster").split(b"\n")
    lines[1] = b"me " + own.encode()
    return b"\n".join(lines)


def main():
    wrong = 0

    def slip(what, words, status, *wanted):
        nonlocal wrong
        ran = subprocess.run([PROGRAM, *words], stdin=subprocess.DEVNULL, capture_output=True, timeout=60)
        said = ran.stderr.decode()
        lacking = [text for text in wanted if text not in said]
        if ran.returncode == status and not lacking:
            print("as it should be  " + what)
            return
        wrong += 1
        print("OTHER            %s: status %s, and not said: %s\n%s" % (what, ran.returncode, lacking, said))

    with tempfile.TemporaryDirectory() as folder:
        os.chdir(folder)
        session = put("session", read(EXAMPLE + ".session"))
        moves = put("moves", read(EXAMPLE + ".0.moves"))
        own = put("roster", roster("127.0.0.1 %d" % free_port()))

        def peer(log, *more, session=session, roster=own, moves=moves, command="peer"):
            return [command, session, roster, moves, "0", "1", log, *more]

        slip("no words", [], 2, "lethwyrn peer SESSION ROSTER MOVES PLAYER POLLS LOG [OLD]")
        slip("a wrong number of words", ["peer", session], 2, "lethwyrn peer SESSION ROSTER")
        slip("a file that isn't there", peer("a", session="none"), 4, "none can't be read: there is no such file")
        slip("a folder", peer("a", session="."), 4, ". can't be read: it is a folder")
        slip("an older log that isn't there", peer("a", "none"), 4, "none can't be read")
        slip("CR and LF", peer("a", session=put("crlf", read(session).replace(b"\n", b"\r\n"))), 3, "crlf has CR and LF at the end of line 1")
        slip("a byte order mark", peer("a", roster=put("bom", b"\xef\xbb\xbf" + read(own))), 11, "bom begins with a byte order mark")
        slip("no neighbour", peer("log"), 7)
        slip("a log that is there", peer("log"), 8, "log is there already")
        slip("no folder for the log", peer("none/log"), 8, "none/log couldn't be begun: there is no such file")
        with socket.create_server(("127.0.0.1", 0)) as busy:
            used = put("used", roster("127.0.0.1 %d" % busy.getsockname()[1]))
            # player 0 of the session dials all others, and hears nobody: player 2 is heard
            last = read(EXAMPLE + ".2.roster").split(b"\n")
            last[1] = b"me 127.0.0.1 %d" % busy.getsockname()[1]
            slip("a port in use", ["peer", session, put("last", b"\n".join(last)), moves, "2", "1", "b"], 9, "something else hears there")
        with socket.socket(socket.AF_INET, socket.SOCK_DGRAM) as busy:
            busy.bind(("127.0.0.1", 0))
            used = put("used", roster("127.0.0.1 %d" % busy.getsockname()[1]))
            slip("a port of datagrams in use", peer("c", roster=used, command="post"), 9, "something else hears there")
        slip("another machine's address", peer("d", roster=put("far", roster("203.0.113.1 17310")), command="post"), 9, "no address of this machine")
        log = read("log")
        slip("an empty older log", peer("e", put("empty", b"")), 7, "empty is empty: the match is begun anew", "convict you")
        slip("a torn older log", peer("f", put("torn", log[:-5])), 7, "torn has a torn end")
        slip("a damaged older log", peer("g", put("bad", log[:100] + bytes([log[100] ^ 1]) + log[101:])), 7, "bad is damaged at byte", "convict you")
        slip("an older log of another session", peer("h", "log", session=put("other", read(session).replace(b"turns 6", b"turns 5")), moves=put("five", b"\n".join(read(moves).split(b"\n")[:5]) + b"\n")), 7, "log has no entry of this session")
        slip("a whole older log", peer("i", "log"), 7)
    return 1 if wrong else 0


if __name__ == "__main__":
    sys.exit(main())
