#!/usr/bin/env python3
"""The lines that the program `edges` must write, computed from the text of document 01.

Nothing here follows the store's code: a word is Python's own little-endian number, a mask is a set of line numbers,
and a place in the image is found by laying its regions one after the other. Run: python3 tools/edges.py
"""

MAX = 2**64 - 1
EIGHT = int.from_bytes(bytes(range(1, 9)), "little")


def case(name, *numbers):
    print(",".join([name] + [str(int(n)) for n in numbers]))


# ---- "A word is 8 bytes, little-endian."


def put(buffer, at, value):
    buffer[at : at + 8] = value.to_bytes(8, "little")


def words(buffer):
    return [int.from_bytes(buffer[at : at + 8], "little") for at in range(0, len(buffer), 8)]


def word_cases():
    places = [(at, value) for at in [0, 16] for value in [0, MAX, EIGHT]]
    for at, value in places + [(9, EIGHT)]:
        buffer = bytearray([165] * 24)
        put(buffer, at, value)
        case("put", at, value, *words(buffer))


# ---- "Bit i (of worth 2^i) of a bitmap is line i"; held and committed lines are sets of the 64 lines.

LINES = set(range(64))


def worth(lines):
    return sum(2**i for i in lines)


def nth(lines, n):
    """The line with n of its set below it, or 64."""
    rising = sorted(lines)
    return rising[n] if n < len(rising) else 64


def mask_cases():
    even, odd = set(range(0, 64, 2)), set(range(1, 64, 2))
    for lines in [set(), LINES, {0}, {63}, set(range(32)), set(range(33)), even]:
        others = LINES - lines
        case(
            "mask",
            worth(lines),
            0 in lines,
            63 in lines,
            worth(lines | {0}),
            worth(lines | {63}),
            worth(others),
            len(lines),
        )
        for n in [0, 31, 63, 64]:
            case("nth", n, nth(lines, n), nth(others, n))
    for a, b in [(set(), LINES), (LINES, LINES), ({0}, {63}), (LINES, {63}), (even, odd)]:
        case("pair", worth(a), worth(b), worth(a ^ b), a.isdisjoint(b))


# ---- "In order": header, page table, slot table, journal, padding to a multiple of 64 bytes, frames.


class Image:
    def __init__(self, pages, slots, places):
        self.at = {}  # the byte at which each thing starts
        end = 0

        def lay(region, size, count):
            nonlocal end
            for i in range(count):
                self.at[region, i] = end
                end += size

        lay("header", 8, 8)
        lay("page", 8, pages)
        self.slot_table = end
        lay("slot", 3 * 8, slots)
        self.journal = end
        lay("place", 4 * 8, places)
        self.padding = end
        while end % 64 != 0:
            end += 1
        self.first_frame = end
        lay("frame", 64 * 64, pages + slots)
        self.length = end

    def line(self, frame, line):
        return self.at["frame", frame] + 64 * line


def word_numbers(*places):
    assert all(place % 8 == 0 for place in places)
    return [place // 8 for place in places]


def layout_cases():
    for p, s, j in [(2, 1, 2), (1024, 16, 256), (1, 1, 1)]:
        image = Image(p, s, j)
        case("image", p, s, j)
        case("tables", *word_numbers(image.at["page", p - 1], image.slot_table, image.journal))
        case("frames", *word_numbers(image.padding, image.first_frame), image.length)
        case("lines", *word_numbers(image.line(0, 0), image.line(0, 63), image.line(p + s - 1, 63)))
        for position in [j - 1, j, 2 * j - 1]:
            place = position % j
            case("place", position, place, *word_numbers(image.at["place", place]))
    sizes = [
        (1, 1, 1),
        (1024, 16, 256),
        (1, 16, 16),
        (0, 1, 1),
        (1025, 16, 256),
        (1, 0, 1),
        (1024, 17, 256),
        (2, 1, 0),
        (1, 16, 15),
        (1024, 16, 257),
    ]
    for p, s, j in sizes:
        case("sizes", p, s, j, p in range(1, 1025) and s in range(1, 17) and j in range(s, 257))


# ---- lines of 64 bytes in the frames of the example


def line_cases():
    place = Image(2, 1, 2)
    assert (place.first_frame, place.length) == (192, 12480)  # the document's own numbers
    image = bytearray(place.length)

    def line_bytes(frame, line):
        return bytes(image[place.line(frame, line) : place.line(frame, line) + 64])

    def show(frame, line):
        case("line", frame, line, *words(line_bytes(frame, line)))

    def copy(line):
        image[place.line(2, line) : place.line(2, line) + 64] = line_bytes(0, line)
        show(2, line)

    for line, k, value in [(5, 0, EIGHT), (5, 3, MAX), (5, 7, 9), (63, 7, 7)]:
        put(image, place.line(0, line) + 8 * k, value)
    data = bytes([17 + i % 8 for i in range(64)])
    for offset, n in [(0, 1), (63, 1), (0, 64), (28, 9)]:
        merged = bytearray(line_bytes(0, 5))
        merged[offset : offset + n] = data[:n]
        case("merge", offset, n, *words(merged))
    show(2, 5)
    copy(5)
    copy(63)
    for frame, line in [(2, 4), (2, 6), (1, 5), (0, 5)]:
        show(frame, line)


word_cases()
mask_cases()
layout_cases()
line_cases()
