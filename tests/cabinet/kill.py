"""Starts the cabinet, kills it with SIGKILL at a random moment, and mounts what it left; then starts it again on the same file.

    kill.py CABINET LIBRARY FILE KILLS SEED

Ends with status 1 at the first memory that is not one of the states of the book, from that after the last round acknowledged (a line printed) up to
the next round's end; where a printed line is not the book's; and where credit is not cash in - cash out - bets + wins."""
import os
import random
import struct
import subprocess
import sys
import time

import book
import screen


def fail(what):
    print("kill: " + what)
    sys.exit(1)


class Game:
    """One file and the book beside it, at the state that was found last."""

    def __init__(self, path, seed):
        if os.path.exists(path):
            os.remove(path)
        self.path, self.seed, self.book = path, seed, book.Book(seed)
        self.steps = self.book.steps()
        self.rounds, self.inside, self.unformatted = 0, 0, 0

    def acknowledge(self, line):
        """The book plays on to the end of the round that this line tells of."""
        if not line.startswith("round "):
            if not line.startswith("Event refused (21): "):
                fail("a line that tells of no round: " + line)
            return
        number = int(line[6:line.index(":")])
        while self.book.number < number or self.book.over is None:
            next(self.steps)
        if self.book.over != line:
            fail("printed '%s', and the book says '%s'" % (line, self.book.over))
        self.rounds += 1

    def find(self, pages):
        """The book plays on to the state that is shown: no further than the end of the round under way, which a start ends without a line, and
        of the one after it."""
        ends = 1 if self.book.over is not None else 2
        while bytes(self.book.pages) != pages:
            if ends == 0:
                return False
            next(self.steps)
            ends -= self.book.over is not None
        return True


def started_and_killed(cabinet, game, moments):
    """Its printed lines. One kill in four, and each second one on a new file, is aimed at the start, the others at the rounds."""
    new = game.book.number == 0
    at_start = moments.random() < (0.5 if new else 0.25)
    # at a start it gives way to this program, which otherwise comes too late
    child = subprocess.Popen([cabinet, "-n", "1000000", "-s", str(game.seed), game.path], stdout=subprocess.PIPE, bufsize=0,
                             preexec_fn=(lambda: os.nice(10)) if at_start else None)
    printed = b"" if at_start else child.stdout.read(1)
    time.sleep(moments.random() * (0.008 if not at_start else 0.0004 if new else 0.004))
    child.kill()
    printed += child.stdout.read()
    if child.wait() != -9:
        fail("the cabinet ended by itself, with status %d" % child.returncode)
    return printed.decode().split("\n")[:-1]


def check(library, game, kill):
    image = open(game.path, "rb").read() if os.path.exists(game.path) else b""
    answer, pages = library.shown(image) if len(image) == library.length else (2, b"")
    if answer == 2 and game.book.number == 0 and not any(game.book.pages):
        game.unformatted += 1
        return
    if answer != 0:
        fail("a mount was turned back with %d" % answer)
    credit, cash_in, cash_out, bets, wins = [struct.unpack_from("<Q", pages, 64 * m)[0] for m in range(5)]
    if credit != cash_in - cash_out - bets + wins:
        fail("credit %d beside meters %d, %d, %d, %d" % (credit, cash_in, cash_out, bets, wins))
    acknowledged = game.book.number
    if not game.find(pages):
        fail("torn at kill %d: from round %d on no state of the book is what the memory shows" % (kill, acknowledged))
    game.inside += game.book.over is None and game.book.number > 0


def main():
    cabinet, path, kills, seed = sys.argv[1], sys.argv[3], int(sys.argv[4]), int(sys.argv[5])
    library, moments = screen.Library(sys.argv[2]), random.Random(seed)
    games = []
    for kill in range(kills):
        if kill % 10 == 0:
            games.append(Game(path, seed + kill))
        game = games[-1]
        for line in started_and_killed(cabinet, game, moments):
            game.acknowledge(line)
        check(library, game, kill + 1)
    totals = [sum(getattr(game, name) for game in games) for name in ("rounds", "inside", "unformatted")]
    print("kill: %d kills, %d rounds acknowledged, %d kills inside a spin, %d before the format's end, 0 torn" % (kills, *totals))


main()
