"""The cabinet's compiled code on memory behind a cache: from a trace of its stores, msyncs and printed lines (tracer.c), the images that a power cut
may leave. Of what was stored since an msync of it any bytes may have landed, each as of any moment (a word that decides lands whole). Each image is
mounted by the library, and what recall shows is held to the book. On some of them the cabinet is started again, and must go on as the book does.

    torn.py CABINET LIBRARY TRACE FILE GAME_SEED IMAGES SEED

An image is torn if it shows no state of the book between the last one waited for and the last one stored, and lost if it shows an older one than
the last msync or printed line promised. Ends with status 1 if there is any."""
import random
import re
import struct
import subprocess
import sys

import book
import screen

MAPPED, STORE, PERSIST, FLUSH = range(4)
NO_IMAGE = -1  # a mount answers 2: the format is not over
PAGE = 4096
STARTED = 20  # the cabinet is started on one image of so many
DECIDING = range(24, 56)  # bytes of words 3 to 6: layout, head, tail, count of entries


def read_trace(path):
    data, at, entries = open(path, "rb").read(), 0, []
    while at < len(data):
        kind, offset, count = struct.unpack_from("<3Q", data, at)
        at += 24
        held = count if kind in (MAPPED, STORE) else 0
        entries.append((kind, offset, count, data[at:at + held]))
        at += held
    return entries


class States:
    """The states of the book, made as they are asked for; state 0 is the fresh image."""

    def __init__(self, seed):
        self.book = book.Book(seed)
        self.steps, self.pages, self.ends = self.book.steps(), [bytes(self.book.pages)], []

    def at(self, index):
        while index >= len(self.pages):
            next(self.steps)
            if self.book.over is not None:
                self.ends.append(len(self.pages))
            self.pages.append(bytes(self.book.pages))
        return self.pages[index]

    def after(self, number):
        """The state at the end of the round of this number."""
        while len(self.ends) < number:
            self.at(len(self.pages))
        return self.pages[self.ends[number - 1]]

    def find(self, answer, pages, first, last):
        """The lowest of these states that this is, or None."""
        if answer == 2:
            return NO_IMAGE if first == NO_IMAGE else None
        return next((i for i in range(max(first, 0), last + 1) if answer == 0 and self.at(i) == pages), None)


class Memory:
    """What has landed for good, what is on its way since, and what the program sees."""

    def __init__(self, image):
        self.landed, self.now, self.pending = bytearray(image), bytearray(image), []

    def store(self, offset, data):
        if data:
            self.now[offset:offset + len(data)] = data
            self.pending.append((offset, data))

    def persist(self, offset, count):
        """All bytes of the pages that this range lies in are waited for."""
        first, end = offset // PAGE * PAGE, -(-(offset + count) // PAGE) * PAGE
        self.landed[first:end] = self.now[first:end]
        left = []
        for at, data in self.pending:
            if at < first:
                left.append((at, data[:max(first - at, 0)]))
            if at + len(data) > end:
                left.append((max(at, end), data[max(end - at, 0):]))
        self.pending = left
        return first < DECIDING.stop

    def cut(self, draw):
        """One image: each piece of so many bytes is as it was some number of pending stores ago."""
        image, unit, count = bytearray(self.landed), draw.choice((1, 1, 8, 8, 64)), len(self.pending)
        piece = lambda at: -1 - at // 8 if at in DECIDING else at // unit
        pieces = sorted({piece(at) for offset, data in self.pending for at in range(offset, offset + len(data))})
        if not pieces:
            return image
        way, share = draw.randrange(4), draw.random()
        one = draw.choice(pieces)
        until = {}
        for p in pieces:
            if way == 0:
                until[p] = count if p == one else 0
            elif way == 1:
                until[p] = 0 if p == one else count
            elif way == 2:
                until[p] = count if draw.random() < share else 0
            else:
                until[p] = draw.randrange(count + 1)
        for i, (offset, data) in enumerate(self.pending):
            for at in range(offset, offset + len(data)):
                if i < until[piece(at)]:
                    image[at] = data[at - offset]
        return image


def moments(entries, images, draw):
    """How many images are made after each entry: some of them in the format, a quarter right after a store that decides, the others after any store
    that changes a byte."""
    changes = [i for i, (kind, _, count, _) in enumerate(entries) if kind == STORE and count > 0]
    decide = [i for i in changes if entries[i][1] in DECIDING]
    after_format = max(i for i in decide if entries[i][1] // 8 == 3)
    played = [i for i in changes if i > after_format]
    times = {}
    for n in range(images):
        at = draw.randrange(1, after_format + 1) if n % 20 == 0 else draw.choice(decide if n % 4 == 1 else played)
        times[at] = times.get(at, 0) + 1
    return times


def fail(what):
    print("torn: " + what)
    sys.exit(1)


class Search:
    """The images tried, and what was found."""

    def __init__(self, cabinet, library, path, seed):
        self.cabinet, self.library, self.path, self.seed, self.states = cabinet, library, path, seed, States(seed)
        self.made, self.found = 0, {"mixed": 0, "started": 0, "torn": 0, "lost": 0}

    def failure(self, image, waited, stored):
        """What kind of failure this image is, or None."""
        answer, pages = self.library.shown(image)
        if self.states.find(answer, pages, waited, stored) is not None:
            return None
        return "torn" if self.states.find(answer, pages, NO_IMAGE, stored) is None else "lost"

    def goes_on(self, image):
        """The cabinet, started on this image, plays two rounds more, and leaves the state of the book at their end."""
        open(self.path, "wb").write(image)
        command = [self.cabinet, "-n", "2", "-s", str(self.seed), self.path]
        rounds = re.findall(r"^round (\d+): ", subprocess.run(command, stdout=subprocess.PIPE, check=True).stdout.decode(), re.M)
        return len(rounds) == 2 and self.library.shown(open(self.path, "rb").read()) == (0, self.states.after(int(rounds[1])))

    def try_image(self, image, waited, stored, where):
        self.made += 1
        failure = self.failure(image, waited, stored)
        if failure is not None:
            if self.found[failure] == 0:
                print("torn: the first that is %s: %s" % (failure, where))
            self.found[failure] += 1
        elif self.made % STARTED == 0:
            self.found["started"] += 1
            if not self.goes_on(image):
                fail("%s, the cabinet goes on otherwise than the book" % where)


def walk(entries, search, times, draw):
    """Goes along the trace, with the cuts after each of its entries; gives the rounds that it has."""
    memory, states, stored, waited, flushed = Memory(entries[0][3]), search.states, NO_IMAGE, NO_IMAGE, 0
    for i, (kind, offset, count, data) in enumerate(entries):
        if kind == STORE:
            memory.store(offset, data)
            if count > 0 and offset in DECIDING:
                stored = states.find(*search.library.shown(memory.now), stored, stored + 1)
                if stored is None:
                    fail("entry %d: the stores in their order show no state of the book" % i)
        elif kind == PERSIST:
            waited = stored if memory.persist(offset, count) else waited
        elif kind == FLUSH:
            flushed += 1
            states.after(flushed)
            waited = max(waited, states.ends[flushed - 1])
        for _ in range(times.get(i, 0)):
            image = memory.cut(draw)
            search.found["mixed"] += image not in (memory.landed, memory.now)
            search.try_image(image, waited, stored, "after entry %d of the trace, in round %d" % (i, flushed + 1))
    return flushed


def main():
    cabinet, library, trace, path = sys.argv[1:5]
    game_seed, images, seed = map(int, sys.argv[5:8])
    entries, search, draw = read_trace(trace), Search(cabinet, screen.Library(library), path, game_seed), random.Random(seed)
    rounds = walk(entries, search, moments(entries, images, draw), draw)
    stores, waits = (sum(1 for entry in entries if entry[0] == kind) for kind in (STORE, PERSIST))
    print("torn: %d rounds, %d instructions that store, %d msyncs; %d images, %d mixed, %d played on; %d torn, %d lost"
          % (rounds, stores, waits, search.made, *search.found.values()))
    sys.exit(search.found["torn"] + search.found["lost"] > 0)


main()
