#!/usr/bin/env python3
"""Tiles of one large file by the program: whatever the places at which it is cut, what they come to is what one pass comes to.

    bindings/tests/tiles.py PROGRAM [SECONDS [SEED]]     PROGRAM is parstream; 40 seconds if none are named

Random texts, with quotes, doubled and stray ones, line breaks between quotes, three kinds of line ends, empty lines, byte order marks
and quotes that are never closed, are cut at random places; some have another separator. For each tile `parstream partial --bytes FROM-TO --size SIZE` is given the
line of the header and the bytes from FROM on. It has to begin at the first end of a line that a scan from FROM finds, and to end where
a scan from there first finds one at or after TO, as it is said here in a few lines. A tile that does not begin where the one before it
ends was guessed wrongly, and is made again from there. Then the files of states are put together, in any order and tree: the table has
to be that of `parstream` over the whole, or the same row has to be refused; with a wrong tile in it, no table. Ends with a line of what
was tried, or with what is wrong.
"""
import os
import random
import re
import sys
import time

from states import Plan, Program

OPENS, QUOTED, INSIDE = range(3)
MARK = b"\xef\xbb\xbf"


def fail(what, *more):
    print(f"tiles: {what}", *more)
    sys.exit(1)


def seams(data, start):
    """The places from this one on, taken to be outside quotes, at which a line ends outside quotes."""
    place = OPENS
    for at in range(start, len(data)):
        byte = data[at]
        if byte == 34:
            place = {OPENS: QUOTED, QUOTED: OPENS, INSIDE: INSIDE}[place]
        elif place != QUOTED:
            if byte in b"\r\n":
                yield at
            place = OPENS if byte in b",\r\n" else INSIDE


def first_seam(data, start, least):
    """The first of them at or after a place, or the end."""
    return next((at for at in seams(data, start) if at >= least), len(data))


def header_end(data):
    """Where the first record ends."""
    start = len(MARK) if data.startswith(MARK) else 0
    return next((at for at in seams(data, start) if data[start:at].strip(b"\r\n")), len(data))


def number(data, at):
    value, shift = 0, 0
    while True:
        byte = data[at]
        value |= (byte & 127) << shift
        at, shift = at + 1, shift + 7
        if byte < 128:
            return value, at


def cover_of(states):
    """The stretches that a file of states covers: where each begins and ends, and of how many bytes its source is."""
    line = b"parstream states 1\n"
    length = int.from_bytes(states[len(line) : len(line) + 4], "little")
    head, at = states[len(line) + 4 : len(line) + 4 + length], 0
    for _ in range(5):
        size, at = number(head, at)
        at += size
    _sources, at = number(head, at)
    count, at = number(head, at)
    cover = []
    for _ in range(count):
        _source, at = number(head, at)
        place = []
        for _ in range(3):
            value, at = number(head, at)
            place.append(value)
        refused, at = number(head, at)
        for _ in range(2 if refused else 1):
            _, at = number(head, at)
        cover.append(tuple(place))
    return cover


def text_of(rng, names):
    """A text of these columns, and maybe of others that only look like them."""
    end = rng.choice([b"\n", b"\n", b"\r\n", b"\r"])
    inside = [b"x", b",", b"\n", b"\r\n", b"\r", b'""', b"1", b" ", b"a,1,2\n", b"\n7,7\n"]
    stray = [b'5" pipe', b'a"b', b'x""y', b'"a"b"c"', b' "x"', b'""']

    def field(name):
        if name in "vw":
            return rng.choice([b"", b"%d" % rng.randint(-99, 99), b'"%d"' % rng.randint(-9, 9), b"%d" % rng.randint(-(2**63), 2**63 - 1)])
        kind = rng.random()
        if kind < 0.5:
            return rng.choice([b"a", b"b", b"", b"c d", "é".encode(), b"long" * rng.randint(0, 12)])
        if kind < 0.5 + quoted:
            return b'"' + b"".join(rng.choices(inside, k=rng.randint(0, 9))) + b'"' + rng.choice([b"", b"", b"", b"z"])
        return rng.choice(stray) if kind < 0.9 + strays else b"c"

    quoted, strays = rng.choice([0, 0.1, 0.4]), rng.choice([-0.9, 0, 0.1])
    rows, wrong = rng.choice([0, 1, 3, 30, 300, 300, 3000]), rng.random() < 0.2
    head = b",".join(b'"' + name.encode() + b'"' if rng.random() < 0.3 else name.encode() for name in names)
    lines = [rng.choice([b"", b"", MARK]) + end * rng.choice([0, 0, 1, 3]) + head]
    for _ in range(rows):
        fields = [field(name) for name in names]
        if wrong and rng.random() < 0.02:
            fields = fields[:-1] if rng.random() < 0.5 else fields + [b"1"]
        lines.append(b",".join(fields) + rng.choice([b"", b"", b"", b"", end]))
    text = end.join(lines) + rng.choice([b"", end])
    return text + b',"never closed' if rng.random() < 0.03 else text


def exchanged(text, separator):
    """A text in which the comma and the separator are exchanged."""
    both = b"," + separator.encode()
    return text.translate(bytes.maketrans(both, both[::-1]))


class File:
    """A text, and how its tiles are made."""

    def __init__(self, rng, program, plan, text):
        self.rng, self.program, self.plan, self.text = rng, program, plan, text
        # the same with commas between fields: each byte is at its place
        self.commas = exchanged(text, plan.separator)
        self.head = header_end(self.commas)

    def tile(self, start, to):
        """The status, the file of states and what is said of the tile that is to begin and to end at these places."""
        size = len(self.text)
        front = b"" if start == 0 else self.text[: self.head] + self.rng.choice([b"\n", b"\r\n"])
        span = f"{start}" if to is None else f"{start}-{to}"
        words = ["partial", f"--bytes={span}", "--size", f"{size}", f"--workers={self.rng.choice([0, 0, 0, 2])}", *self.plan.words()]
        done = self.program.run(words, front + self.text[start:])
        if done[0] != 0:
            return done
        begins = 0 if start == 0 else first_seam(self.commas, start, max(start, self.head))
        inner = self.head if start == 0 else begins
        ends = first_seam(self.commas, inner, max(inner, size if to is None else to))
        cover = [(begins, ends, size)] if begins < ends or size == 0 else []
        if cover_of(done[1]) != cover:
            fail("another tile", words, cover_of(done[1]), cover, self.text[:400])
        return done


def again(file, places, made, counts):
    """The tiles, of which each that does not begin where the one before it ends is made again from there; and those that were wrong."""
    right, wrong, at = [], [], 0
    for (_, to), states in zip(places, made):
        cover = cover_of(states)
        if not cover:
            continue
        if cover[0][0] != at:
            counts["wrong guesses"] += 1
            wrong.append((len(right), states))
            if at >= (len(file.text) if to is None else to) or at == len(file.text):
                continue
            status, states, said = file.tile(at, to)
            cover = cover_of(states) if status == 0 else []
            if not cover or cover[0][0] != at:
                fail("a tile that is made again begins elsewhere", status, said.decode(), cover, at)
        right.append(states)
        at = cover[0][1]
    if at < len(file.text):
        right.append(file.tile(at, None)[1])
    return right, wrong


def is_same_row(said, of_states):
    """Whether both lines name one row and one cause: parstream's has the row's line too, and more of the cause."""
    one = re.search(rb"row (\d+)(?: \(line \d+\))?: (.*)", said)
    other = re.search(rb"row (\d+): (.*)", of_states)
    return one and other and one[1] == other[1] and one[2].replace(b'"', b"").startswith(other[2].replace(b'"', b""))


def one_file(rng, program, counts):
    names = rng.choice([["g", "v", "w"], ["v", "g", "h", "w"], ["w", "v", "g"]])
    plan = Plan(rng, [name for name in names if name not in "vw"], False, True)
    file = File(rng, program, plan, exchanged(text_of(rng, names), plan.separator))
    size = len(file.text)
    status, table, said = program.run(plan.words(), file.text)
    # A header that is all of the text may end between quotes: then no line of it can be handed over.
    count = rng.choice([0, 1, 2, 6, 19]) if file.head < size else 0
    cuts = sorted({0, *(rng.randint(0, size) for _ in range(count))})
    places = list(zip(cuts, [*cuts[1:], rng.choice([None, size])]))
    made = [file.tile(*place) for place in places]
    counts["files"] += 1
    counts["tiles"] += len(made)
    refused = next((one for one in made if one[0] != 0), None)
    if refused:
        if refused[0] != status or refused[2] != said:
            fail("a tile is refused", refused, status, said, plan.words(), file.text[:400])
        return
    right, wrong = again(file, places, [one[1] for one in made], counts)
    for at, states in wrong[:3]:
        done = program.run(["finalize"], b"".join(right[:at] + [states] + right[at + 1 :]))
        if done[0] not in (8, 9) or done[1]:
            fail("a wrong tile is taken", done[0], done[2].decode())
    while len(right) > 1 and rng.random() < 0.6:
        rng.shuffle(right)
        take = rng.randint(1, len(right))
        done = program.run(["combine"], b"".join(right[:take]))
        if done[0] != 0:
            fail("combine ended with", done[0], done[2].decode())
        right = [done[1], *right[take:]]
        counts["combines"] += 1
    rng.shuffle(right)
    done = program.run(["finalize"], b"".join(right))
    if status == 0 and done != (0, table, b""):
        fail("another table", plan.words(), cuts, done[0], done[2].decode(), file.text[:400])
    if status == 1:
        counts["refused"] += 1
        if done[0] != 1 or done[1] or not is_same_row(said, done[2]):
            fail("another row is refused", done, said)
    if status not in (0, 1):
        fail("parstream ended with", status, said.decode(), plan.words(), file.text[:400])


def other_inputs(program):
    """What is no tile: each ends with its status, and nothing is written."""
    text = b"g,v\na,1\nb,2\n"
    words = ["--agg", "sum:v"]
    tries = [
        (2, ["--bytes=4", *words], text, "no size"),
        (2, ["--size=12", *words], text, "no bytes"),
        (2, ["--bytes=4-3", "--size=12", *words], text, "an end before the beginning"),
        (2, ["--bytes=13", "--size=12", *words], text, "a place behind the end"),
        (2, ["--bytes=4-x", "--size=12", *words], text, "no number"),
        (2, ["--bytes=4-", "--size=12", *words], text, "no number after the dash"),
        (2, ["--bytes=4", "--bytes=4", "--size=12", *words], text, "bytes twice"),
        (2, ["--bytes=4", "--size=12", *words], b"g,v", "a header's line with no end"),
        (2, ["--bytes=4", "--size=12", *words], b"g,v\ra,1\n", "a header's line that ends with a carriage return"),
        (2, ["--bytes=4", "--size=12", *words], b"", "no header"),
        (3, ["--bytes=0-12", "--size=13", *words], text, "a source that ends early"),
        (3, ["--bytes=0", "--size=11", *words], text, "a source that is longer"),
        (2, ["--bytes=4", "--size=12", "--agg", "sum:x"], b"g,v\n" + text[4:], "no such column"),
    ]
    for status, more, data, what in tries:
        done = program.run(["partial", *more], data)
        if done[0] != status or done[1] or not done[2]:
            fail(f"{what}: status", done[0], done[2].decode())
    return len(tries)


def main(words):
    program = Program(os.path.abspath(words[0]))
    seconds = float(words[1]) if len(words) > 1 else 40.0
    rng = random.Random(int(words[2]) if len(words) > 2 else 1)
    counts = dict.fromkeys(["files", "tiles", "wrong guesses", "combines", "refused"], 0)
    others, end = other_inputs(program), time.monotonic() + seconds
    while counts["files"] < 60 or time.monotonic() < end:
        one_file(rng, program, counts)
    print("tiles: " + ", ".join(f"{counts[name]} {name}" for name in counts) + f", {others} other inputs, as expected")


if __name__ == "__main__":
    main(sys.argv[1:])
