"""The cabinet in a terminal of 80 columns and 24 rows: keys are sent, and the screen is read back and held to the book.

    terminal.py CABINET FILE"""
import fcntl
import os
import pty
import re
import select
import signal
import struct
import sys
import termios
import time

import book

SEED = 27  # with it round 16 has the bonus


def fail(what, terminal):
    print("terminal: %s; the screen is\n%s" % (what, "\n".join("|" + row for row in terminal.rows())))
    sys.exit(1)


class Terminal:
    """The screen as a terminal shows it: text, line ends, and the two escape sequences home and clear."""

    def __init__(self, command):
        self.child, self.side = pty.fork()
        if self.child == 0:
            fcntl.ioctl(0, termios.TIOCSWINSZ, struct.pack("4H", 24, 80, 0, 0))
            os.execv(command[0], command)
        self.cells, self.row, self.column = {}, 0, 0

    def show(self, text):
        for part in re.findall("\033\\[[0-9;]*[A-Za-z]|[^\033]", text):
            if part == "\033[H":
                self.row = self.column = 0
            elif part == "\033[2J":
                self.cells = {}
            elif part == "\r":
                self.column = 0
            elif part == "\n":
                self.row += 1
            elif part.isprintable() and len(part) == 1:
                self.cells[self.row, self.column] = part
                self.column += 1
            else:
                fail("a terminal was sent %r" % part, self)
            if self.row > 23 or self.column > 80:
                fail("more than a screen", self)

    def rows(self):
        return ["".join(self.cells.get((row, column), " ") for column in range(80)).rstrip() for row in range(24)]

    def wait_for(self, text):
        """Reads until the screen has this."""
        end = time.monotonic() + 30
        while text not in "\n".join(self.rows()):
            if not select.select([self.side], [], [], max(end - time.monotonic(), 0))[0]:
                fail("no '%s'" % text, self)
            self.show(os.read(self.side, 65536).decode())

    def press(self, key, text):
        self.cells, self.row, self.column = {}, 0, 0
        os.write(self.side, key.encode())
        self.wait_for(text)

    def has(self, text):
        if text not in "\n".join(self.rows()):
            fail("no '%s'" % text, self)


def shows_window(terminal, drawn):
    """The nine symbols, in the frame of the reels."""
    seen = [[cell.strip() for cell in row.split("|")[1:4]] for row in terminal.rows() if row.count("|") == 4]
    if seen != drawn.window:
        fail("the reels are %s, and the book says %s" % (seen, drawn.window), terminal)


SPIN = "space spin   b bet %d"


def play(terminal):
    """Spins with bets of 2 until a bonus; gives the rounds played and the credit."""
    terminal.wait_for("no round was played")
    terminal.press("x", SPIN % 1)
    terminal.press(" ", SPIN % 1)
    terminal.has("Event refused (21): ")
    terminal.press("b", SPIN % 2)
    terminal.press("i", SPIN % 2)
    terminal.has("credit 100")
    credit, rounds = 100, []
    while not rounds or not rounds[-1].prizes:
        rounds.append(book.Round(SEED, len(rounds) + 1, 2))
        credit += rounds[-1].win - 2
        if rounds[-1].prizes:
            terminal.press(" ", "any key goes on")
            terminal.has("BONUS")
            seen = [int(n) for row in terminal.rows() for n in re.findall(r"\[ *(\d+)\]", row)]
            if seen != rounds[-1].prizes:
                fail("the doors are %s, and the book says %s" % (seen, rounds[-1].prizes), terminal)
            terminal.press("x", SPIN % 2)
        else:
            terminal.press(" ", SPIN % 2)
        shows_window(terminal, rounds[-1])
        terminal.has("win %-8d  credit %d" % (rounds[-1].win, credit))
        terminal.has("in 100  out 0  bets %d  wins %d  games %d" % (2 * len(rounds), credit - 100 + 2 * len(rounds), len(rounds)))
    return rounds, credit


def shows_recall(terminal, rounds, credit):
    last = rounds[-1]
    terminal.has("RECALL: round %d" % last.number)
    terminal.has("bet %-4d win %-6d credit %d" % (last.bet, last.win, credit))
    shows_window(terminal, last)
    for r in rounds[-6:-1]:
        terminal.has("%6d  %-6s %-6s %-6s  bet %-3d win %d" % (r.number, *r.line, r.bet, r.win))


def main():
    command = [sys.argv[1], "-s", str(SEED), sys.argv[2]]
    terminal = Terminal(command)
    rounds, credit = play(terminal)
    terminal.press("r", "any key goes on")
    shows_recall(terminal, rounds, credit)
    os.kill(terminal.child, signal.SIGKILL)
    os.waitpid(terminal.child, 0)
    terminal = Terminal(command)
    terminal.wait_for("any key goes on")
    shows_recall(terminal, rounds, credit)
    terminal.press("x", SPIN % 1)
    terminal.press("c", "credit 0")
    terminal.has("out %d" % credit)
    if termios.tcgetattr(terminal.side)[3] & termios.ECHO:
        fail("keys are echoed while it plays", terminal)
    os.write(terminal.side, b"q")
    status = os.waitpid(terminal.child, 0)[1]
    if status != 0 or not termios.tcgetattr(terminal.side)[3] & termios.ECHO:
        fail("it did not end well, or left the terminal as it had made it", terminal)
    print("terminal: %d rounds by keys, the bonus, the recall screen before and after a kill: 0 differ" % len(rounds))


main()
