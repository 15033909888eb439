"""The bandit of examples/cabinet told a second time: every state of its memory that `cabinet -n` leaves, one after the other. What the cabinet
does next depends on its memory and the seed alone, so kills and cuts must not change the list."""
import struct

PAGES, LINES, LINE = 19, 64, 64
CREDIT, CASH_IN, CASH_OUT, BETS, WINS, GAMES = 0, 1, 2, 3, 4, 5
NAMES = ["SEVEN", "CHERRY", "BAR", "PLUM", "BELL", "STAR", "LEMON"]
REEL = ["SEVEN", "CHERRY", "BAR", "PLUM", "BELL", "CHERRY", "STAR", "LEMON"]
THREE = {"SEVEN": 50, "BAR": 30, "BELL": 15, "PLUM": 10, "CHERRY": 8, "LEMON": 6, "STAR": 0}
MASK = (1 << 64) - 1


def drawn(seed, number, place):
    z = (seed + (100 * number + place) * 0x9E3779B97F4A7C15) & MASK
    z = (z ^ z >> 30) * 0xBF58476D1CE4E5B9 & MASK
    z = (z ^ z >> 27) * 0x94D049BB133111EB & MASK
    return z ^ z >> 31


class Round:
    """What is drawn for a round of this number and bet."""

    def __init__(self, seed, number, bet):
        stops = [drawn(seed, number, reel) % 8 for reel in range(3)]
        self.number, self.bet = number, bet
        self.window = [[REEL[(stop + row) % 8] for stop in stops] for row in (-1, 0, 1)]
        self.line = self.window[1]
        pays = THREE[self.line[0]] if len(set(self.line)) == 1 else 2 if self.line.count("CHERRY") == 2 else 0
        self.prizes = []
        if self.line.count("STAR") >= 2:
            for door in range(16):
                prize = drawn(seed, number, 3 + door) % 12
                self.prizes.append(bet * prize if prize < 4 else 0)
        self.win = bet * pays + sum(self.prizes)


class Book:
    """The pages, the meters, and which line the cabinet has printed for the round that is over."""

    def __init__(self, seed):
        self.seed, self.pages, self.meters = seed, bytearray(PAGES * LINES * LINE), [0] * 24
        self.number, self.round, self.over = 0, None, None

    def lay(self, page, line, data):
        at = (page * LINES + line) * LINE
        self.pages[at:at + LINE] = data.ljust(LINE, b"\0")

    def event(self, meter, amount):
        if meter in (CASH_IN, CASH_OUT, BETS, WINS):
            self.meters[CREDIT] += amount if meter in (CASH_IN, WINS) else -amount
            self.lay(0, CREDIT, struct.pack("<Q", self.meters[CREDIT]))
        self.meters[meter] = (self.meters[meter] + amount) % (10**8 if meter < 5 else 10**6)
        self.lay(0, meter, struct.pack("<Q", self.meters[meter]))

    def play_round(self, bet):
        self.number += 1
        r = self.round = Round(self.seed, self.number, bet)
        wins = (self.meters[WINS] + r.win) % 10**8
        line = bytes(NAMES.index(s) for s in r.line)
        self.lay(2, r.number % 64, struct.pack("<5Q3sB", r.number, bet, r.win, self.meters[BETS], wins, line, len(r.prizes)))
        self.lay(1, 0, struct.pack("<Q9s", r.number, bytes(NAMES.index(s) for row in r.window for s in row)))
        for door, prize in enumerate(r.prizes):
            self.lay(3 + door, 0, struct.pack("<QQ", r.number, prize))

    def printed(self):
        r = self.round
        return "round %d: %s, bet %d, win %d%s, credit %d" % (r.number, " ".join(r.line), r.bet, r.win, " with bonus" if r.prizes else "",
                                                              self.meters[CREDIT])

    def steps(self):
        """Plays on, a step at a time; `over` is the line printed after the step that ends a round, otherwise None."""
        while True:
            if self.meters[CREDIT] >= 250:
                self.event(CASH_OUT, self.meters[CREDIT])
                yield
            bet = 1 + self.number % 3
            if self.meters[CREDIT] < bet:
                self.event(CASH_IN, 100)
                yield
                continue
            self.event(BETS, bet)
            yield
            self.play_round(bet)
            yield
            if self.round.win > 0:
                self.event(WINS, self.round.win)
                yield
            self.event(GAMES, 1)
            self.over = self.printed()
            yield
            self.over = None
