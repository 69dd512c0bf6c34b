#!/usr/bin/env python3
"""Two bots play a match, each by a program `lethwyrn drive` of its own, to which it speaks in lines.

    ./examples/bots.py [SESSION [FOLDER]]

after ./build. Each line gets its answer at once, so that a bot in any language can choose as the
match goes. Here both run in one process, which carries the frames; over a network a frame would be
a message. The logs are left in FOLDER, where one is named, as 0.log and 1.log.
"""
import os
import random
import secrets
import subprocess
import sys
import tempfile

TOP = os.path.dirname(os.path.dirname(os.path.abspath(__file__)))
PROGRAM = os.environ.get("LETHWYRN", TOP + "/crates/lethwyrn/out/lethwyrn")


class Bot:
    """A player. Its moves are drawn; a bot with a plan would choose by the `player` lines."""

    def __init__(self, session, player, log):
        self.player, self.log, self.cell, self.frames = player, log, starts(session)[player], []
        self.program = subprocess.Popen([PROGRAM, "drive", session, str(player)], text=True,
                                        stdin=subprocess.PIPE, stdout=subprocess.PIPE)

    def say(self, line):
        """Says a line, stores the log as it is then, and only after that lets frames go out."""
        self.program.stdin.write(line + "\nlog\n")
        self.program.stdin.flush()
        answers = []
        for answer in self.program.stdout:
            words = answer.split()
            if words[0] == "log":
                break
            answers.append(words)
        with open(self.log, "wb") as file:
            file.write(bytes.fromhex("".join(words[1:])))
            os.fsync(file.fileno())
        self.frames += [words[3] for words in answers if words[0] == "made"]
        return answers

    def choose(self):
        """Chooses a step for the next turn, unless it isn't time to, or all turns are chosen."""
        x, y = (part + random.randint(-1, 1) for part in self.cell)
        if x < 0 or y < 0:
            return
        # a nonce hides the move: 32 random bytes, never the same twice
        answers = self.say("choose %d %d %s" % (x, y, secrets.token_hex(32)))
        if answers and answers[0][0] == "chosen":
            self.cell = x, y

    def end(self):
        """What the program says of the match at its end."""
        return self.program.communicate()[0]


def starts(session):
    """Where each player begins, by the session's text."""
    with open(session) as lines:
        words = [line.split() for line in lines]
    return [(int(line[2]), int(line[3])) for line in words if line[0] == "player"]


def play(session, folder):
    bots = [Bot(session, player, "%s/%d.log" % (folder, player)) for player in (0, 1)]
    quiet = 0
    while quiet < 100:
        quiet += 1
        for bot, other in (bots, bots[::-1]):
            bot.choose()
            while bot.frames:
                other.say("got %d %s" % (bot.player, bot.frames.pop(0)))
                quiet = 0
    for bot in bots:
        print("bot %d:" % bot.player)
        print(bot.end(), end="")


if __name__ == "__main__":
    match = sys.argv[1] if len(sys.argv) > 1 else TOP + "/examples/duel.session"
    if len(sys.argv) > 2:
        play(match, sys.argv[2])
    else:
        with tempfile.TemporaryDirectory() as kept:
            play(match, kept)
