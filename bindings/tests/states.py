#!/usr/bin/env python3
"""Files of partial states by the program: what parts come to, put together in any order and tree, is what one pass comes to.

    bindings/tests/states.py PROGRAM [SECONDS [SEED [OTHER]]]     PROGRAM is parstream; half of the seconds (40) go to each of
                                                                  two things. OTHER is another build of it, which runs
                                                                  every second command

Random texts are cut into parts, of one source or several. What each part comes to is written here, by docs/STATES.md and by
nothing of the program: `parstream partial` has to write the same bytes, and `parstream combine`, of some of them at random, the
bytes of their sum. `parstream finalize` of all that is left has to give the table of one pass, in one piece or by ranges, or to
refuse the same row; with a part left out or twice the status is 9 or 8. Then files are damaged, 10,000 times at least. One with any bytes is refused. One
whose checksums and foot were made anew is refused for the cause that is found here, or, if there is none, is a file that reads
back as it is. The files of version 1 that are kept in bindings/tests/states come to what they came to when they were made. Half of the
texts have another separator, nulls, or white space that is left out, and heads that say how fields are read in words that parstream does
not take are refused. Ends with a line of what was tried, or with what is wrong.
"""
import csv
import io
import os
import random
import re
import subprocess
import sys
import time
from concurrent.futures import ThreadPoolExecutor

HERE = os.path.dirname(os.path.abspath(__file__))
FIRST_LINE = b"parstream states 1\n"
LAST_LINE = b"\nstates\n"
MOST_ROWS = 2**50

TABLE = []
for _n in range(256):
    for _ in range(8):
        _n = (_n >> 1) ^ (0x82F63B78 if _n & 1 else 0)
    TABLE.append(_n)


def crc32c(data):
    crc = 0xFFFFFFFF
    for byte in data:
        crc = TABLE[(crc ^ byte) & 255] ^ (crc >> 8)
    return crc ^ 0xFFFFFFFF


# Writing


def number(n):
    out = bytearray()
    while n >= 128:
        out.append(n & 127 | 128)
        n >>= 7
    out.append(n)
    return bytes(out)


def signed(n):
    return number(2 * n if n >= 0 else -2 * n - 1)


def text(data):
    return number(len(data)) + data


def section(data):
    return len(data).to_bytes(4, "little") + data + crc32c(data).to_bytes(4, "little")


RELATIONS = {
    "=": lambda a, b: a == b,
    "!=": lambda a, b: a != b,
    "<": lambda a, b: a < b,
    "<=": lambda a, b: a <= b,
    ">": lambda a, b: a > b,
    ">=": lambda a, b: a >= b,
}


def lanes_of(items):
    return list(dict.fromkeys((name, kind != "count") for kind, name in items if name is not None))


# How fields are read: the separators by their words, and the texts of --null.
SEPARATORS = {";": ";", "\t": "tab", "|": "|", ":": ":", " ": " ", "a": "a", "7": "7"}
NULLS = ["NA", "NA,NULL,-", "7", "", "a,x y"]


class Plan:
    """A plan's words, and what of a row it reads. A lane is a column with its numbers or without."""

    separator, nulls, trim = ",", None, False

    def __init__(self, rng, columns, has_decimals=False, has_reading=False):
        columns = columns + ["v"]
        self.groups = rng.choices(columns, k=rng.randint(0, 2))
        kinds = ["count", "sum", "min", "max", "avg"]
        self.items = [("count", None)] if rng.random() < 0.5 else []
        while not self.items or rng.random() < 0.5 and len(self.items) < 8:
            self.items.append((rng.choice(kinds), rng.choice(["v", "w"])))
        self.decimals = rng.choice(["", "", "", "2", "w=1"]) if has_decimals else ""
        self.filters = []
        while rng.random() < 0.3 and len(self.filters) < 8:
            name = rng.choice(["v", "w"] + columns)
            if name in "vw":
                self.filters.append((name, rng.choice(list(RELATIONS)), rng.randint(-20, 20)))
            else:
                self.filters.append((name, rng.choice(["=", "!="]), rng.choice(["", "a", "x y"])))
        self.lanes = lanes_of(self.items)
        if has_reading and rng.random() < 0.5:
            self.separator = rng.choice([",", *SEPARATORS])
            self.nulls = rng.choice([None, None, *NULLS])
            self.trim = rng.random() < 0.3

    def of_reading(self):
        """The options that say how fields are read, each a name and its value."""
        options = [("separator", SEPARATORS[self.separator])] if self.separator != "," else []
        return options + [("null", self.nulls)] * (self.nulls is not None) + [("trim", None)] * self.trim

    def read(self, value):
        """A field as it is read."""
        value = value.strip(" \t\n\r\f") if self.trim else value
        return "" if self.nulls is not None and value in self.nulls.split(",") else value

    @classmethod
    def of(cls, groups, items, filters, decimals):
        plan = cls.__new__(cls)
        plan.groups, plan.items, plan.filters, plan.decimals, plan.lanes = groups, items, filters, decimals, lanes_of(items)
        return plan

    def of_items(self):
        return ",".join(kind if name is None else f"{kind}:{name}" for kind, name in self.items)

    def of_filters(self):
        return [f"{name}{relation}{value}" for name, relation, value in self.filters]

    def words(self):
        words = ["--agg", self.of_items()]
        if self.groups:
            words += ["--group", ",".join(self.groups)]
        if self.decimals:
            words += ["--decimals", self.decimals]
        words += [f"--{name}" if value is None else f"--{name}={value}" for name, value in self.of_reading()]
        return words + [word for it in self.of_filters() for word in ("--where", it)]

    def head(self):
        said = ["=" + name if value is None else f"={name}={value}" for name, value in self.of_reading()]
        filters = b"".join(text(it.encode()) for it in self.of_filters() + said)
        return b"".join(text(it) for it in (",".join(self.groups).encode(), self.of_items().encode(), filters, self.decimals.encode()))

    def places(self, name):
        """How many places a column has by the one part of --decimals."""
        of, _, places = self.decimals.rpartition("=")
        return int(places or 0) if of in ("", name) else 0

    def value(self, name, field):
        """The number of a field, in units of its last place, or none."""
        places = self.places(name)
        found = re.fullmatch(r" *([+-]?)(\d*)(?:\.(\d+))? *", field, re.ASCII)
        if not found or not (found[2] or found[3]) or len(found[3] or "") > places:
            return None
        value = int(found[1] + (found[2] or "") + (found[3] or "").ljust(places, "0"))
        return value if -(2**63) <= value < 2**63 else None

    def is_kept(self, fields):
        """Whether the filters keep a row, or the place of the one for which it is refused."""
        for place, (name, relation, against) in enumerate(self.filters):
            if isinstance(against, str):
                kept = (fields[name] == against) if relation == "=" else fields[name] not in ("", against)
            else:
                value = self.value(name, fields[name])
                if value is None and fields[name]:
                    return (4, place)
                kept = value is not None and RELATIONS[relation](value, against * 10 ** self.places(name))
            if not kept:
                return False
        return True

    def refusal(self, names, row):
        """Whether a row is kept, or cause and place of its refusal."""
        if len(row) != len(names):
            return (1, 0)
        fields = dict(zip(names, row))
        kept = self.is_kept(fields)
        if kept is not True:
            return kept
        if len(encoded(self.key(fields))) > 248:
            return (2, 0)
        for place, (kind, name) in enumerate(self.items):
            if kind != "count" and fields[name] and self.value(name, fields[name]) is None:
                return (3, place)
        return True

    def key(self, fields):
        return tuple(fields[name].encode() for name in self.groups)


def encoded(key):
    return b"".join(len(part).to_bytes(4, "little") + part for part in key)


def stretch_of(plan, names, rows, place, groups):
    """The bytes of a stretch of a cover, and whether a row of it is refused; adds its rows to the groups."""
    for at, row in enumerate(rows, 1):
        kept = plan.refusal(names, row)
        if isinstance(kept, tuple):
            return b"".join(map(number, (*place, at, *kept))), True
        if kept:
            fields = dict(zip(names, row))
            state = groups.setdefault(plan.key(fields), [0, [[] for _ in plan.lanes]])
            state[0] += 1
            for lane, (name, _) in zip(state[1], plan.lanes):
                if fields[name] != "":
                    lane.append(plan.value(name, fields[name]))
    return b"".join(map(number, (*place, 0, len(rows)))), False


def tuple_of(plan, key, state):
    out = text(encoded(key)) + number(state[0])
    for values, (_, numbers) in zip(state[1], plan.lanes):
        out += number(len(values))
        if numbers and values:
            out += signed(sum(values)) + signed(min(values)) + number(max(values) - min(values))
    return out


def foot_of(starts, count):
    return number(count) + number(len(starts)) + b"".join(number(at) + text(first) for at, first in starts)


def bytes_of(head, blocks, starts_of, count):
    """A file of a head and blocks, each of which begins with the tuple of a key."""
    out, starts = bytearray(FIRST_LINE + section(head)), []
    for block, first in zip(blocks, starts_of):
        starts.append((len(out), first))
        out += section(block)
    foot = foot_of(starts, count)
    return bytes(out + section(b"") + section(foot) + len(foot).to_bytes(4, "little") + LAST_LINE)


def states_of(plan, header, parts, sources):
    """The file of some parts, each a source, from, to, its size and the rows there. Those that touch become one."""
    names = list(map(plan.read, next(csv.reader(io.StringIO(header.decode(), newline=""), delimiter=plan.separator))))
    cover = []
    for source, start, end, size, rows in sorted(parts, key=lambda part: part[:2]):
        if cover and cover[-1][0] == source and cover[-1][2] == start:
            _, start, _, _, before = cover.pop()
            rows = before + rows
        cover.append((source, start, end, size, rows))
    groups = {}
    stretches = [stretch_of(plan, names, rows, place, groups) for *place, rows in cover]
    if any(is_refused for _, is_refused in stretches):
        groups = {}
    head = plan.head() + text(header.rstrip(b"\r\n")) + number(sources) + number(len(cover))
    head += b"".join(stretch for stretch, _ in stretches) + text(b"") + text(b"")
    blocks, starts = [], []
    for key in sorted(groups):
        if not blocks or len(blocks[-1]) >= 60000:
            blocks.append(bytearray())
            starts.append(encoded(key))
        blocks[-1] += tuple_of(plan, key, groups[key])
    return bytes_of(head, blocks, starts, len(groups))


# Reading


class Bad(Exception):
    """Bytes that are no file, with the cause."""


class Reader:
    """Some bytes, read from the front. What is read has the one form that it may have, and is within its bounds, or the cause is raised."""

    def __init__(self, data, cause):
        self.data, self.at, self.cause = data, 0, cause

    def need(self, is_so):
        if not is_so:
            raise Bad(self.cause)

    def bytes(self, count):
        self.need(len(self.data) - self.at >= count)
        self.at += count
        return self.data[self.at - count : self.at]

    def number(self, most, least=0):
        value = shift = 0
        while True:
            byte = self.bytes(1)[0]
            value, shift = value | (byte & 127) << shift, shift + 7
            if byte < 128:
                break
        self.need(byte or shift == 7)
        self.need(shift <= 19 * 7 and least <= value <= most)
        return value

    def signed(self, least, most):
        value = self.number(2**128 - 1)
        value = value // 2 if value % 2 == 0 else -(value + 1) // 2
        self.need(least <= value <= most)
        return value

    def text(self, most):
        return self.bytes(self.number(most))


def read_section(data, at, most, name, long_name):
    """The bytes of a section, and the place after it."""
    if len(data) - at < 4:
        raise Bad(f"cut off in the {name}")
    count = int.from_bytes(data[at : at + 4], "little")
    if count > most:
        raise Bad(f"{long_name} is too long")
    if len(data) - at < count + 8:
        raise Bad(f"cut off in the {name}")
    inner = data[at + 4 : at + 4 + count]
    if crc32c(inner) != int.from_bytes(data[at + 4 + count : at + 8 + count], "little"):
        raise Bad(f"wrong checksum of {long_name}")
    return inner, at + 8 + count


def read_head(head):
    """Whether a row is refused."""
    it = Reader(head, "no right head")
    for _ in range(4):
        it.text(2**20)
    it.text(2**28)
    sources, last, is_refused = it.number(2**32 - 1, 1), (-1, 0, 0), False
    for _ in range(it.number(2**32 - 1)):
        source, start, end, size = it.number(sources - 1), *(it.number(2**64 - 1) for _ in range(3))
        it.need(start <= end <= size and (start < end or size == 0))
        it.need(source > last[0] or source == last[0] and start > last[1] and size == last[2])
        if it.number(MOST_ROWS):
            is_refused = True
            it.number(4, 1)
            it.number(7)
        else:
            it.number(MOST_ROWS)
        last = (source, end, size)
    it.text(248)
    it.text(248)
    it.need(it.at == len(head))
    return is_refused


def read_tuple(it, plan):
    """The columns of the key of a tuple."""
    key, columns = Reader(it.text(248), it.cause), []
    for _ in plan.groups:
        columns.append(key.bytes(int.from_bytes(key.bytes(4), "little")))
    key.need(key.at == len(key.data))
    rows = it.number(MOST_ROWS, 1)
    for _, numbers in plan.lanes:
        count = it.number(rows)
        if numbers and count:
            it.signed(-(2**63) * count, 2**63 * count)
            least = it.signed(-(2**63), 2**63 - 1)
            it.number(2**63 - 1 - least)
    return columns


def read_file(data, plan):
    """Raises the cause if the bytes are no file of a plan."""
    if not data.startswith(FIRST_LINE[:17]):
        raise Bad("no states")
    if not data.startswith(FIRST_LINE):
        raise Bad("another version")
    head, at = read_section(data, len(FIRST_LINE), 2**28, "head", "the head")
    is_refused, keys, starts = read_head(head), [], []
    while True:
        start, (block, at) = at, read_section(data, at, 2**20, "blocks", "a block")
        if not block:
            break
        it = Reader(block, "")
        while it.at < len(block):
            it.cause = f"tuple {len(keys) + 1}: no group"
            keys.append(read_tuple(it, plan))
            if len(starts) == 0 or starts[-1][0] != start:
                starts.append((start, encoded(keys[-1])))
    foot, at = read_section(data, at, 2**28, "foot", "the foot")
    if foot != foot_of(starts, len(keys)):
        raise Bad("another foot")
    if len(data) - at < 12:
        raise Bad("cut off in the end")
    if data[at : at + 12] != len(foot).to_bytes(4, "little") + LAST_LINE:
        raise Bad("another end")
    if is_refused and keys:
        raise Bad("tuples beside a refused row")
    for n, (one, other) in enumerate(zip(keys, keys[1:]), 2):
        if not one < other:
            raise Bad(f"tuple {n}: out of order")


def cause_of(data, plan):
    try:
        read_file(data, plan)
    except Bad as why:
        return str(why)
    return None


# Texts


def field(rng, name, places):
    if name in "vw":
        wide = rng.choice([rng.randint(-(2**63), 2**63 - 1), -(2**63), 2**63 - 1])
        small = rng.choice([str(rng.randint(-20, 20)), "007", f" +{rng.randint(0, 9)} ", *["-.5", "3.1 ", "0.0"][: 3 * places]])
        point = f".{abs(wide) % 10**places:0{places}}" if places else ""
        return rng.choice(["", small, small, f"{'-' * (wide < 0)}{abs(wide) // 10**places}{point}"])
    return rng.choice(["", "a", "b", "a,b", "x\ny", 'q"r', "long" * rng.randint(0, 12), "7", "007", "é", "z\r\n,", "x y"])


def written(row, end, separator=","):
    def one(value):
        return '"' + value.replace('"', '""') + '"' if any(c in value for c in separator + '"\n\r') else value

    line = separator.join(one(value) for value in row)
    return (line if line else '""').encode() + end


def spoil(rng, names, rows):
    """Makes a row one that may be refused."""
    row = rng.choice(rows)
    kind = rng.randrange(4)
    if kind == 0:
        row.append("more")
    elif kind == 1 and len(row) > 1:
        row.pop()
    elif kind == 2:
        row[rng.randrange(len(row))] = "k" * 250
    else:
        row[min(names.index(rng.choice("vw")), len(row) - 1)] = rng.choice(["1x", "1.505", "9223372036854775808", ".", "+", "5."])


def source_of(rng, plan, names, end, is_bad, is_long):
    """The rows of a source as they are read, and the bytes of each. A long one has more groups by column k than there is room for in a block."""
    rows = [[field(rng, name, plan.places(name)) for name in names] for _ in range(1000 if is_long else rng.choice([0, 1, 3, 20, 200]))]
    for row in rows if is_long else []:
        row[names.index("k")] = f"{rng.randrange(10**9)} and more, to be a long key" * 3
    while rows and is_bad:
        spoil(rng, names, rows)
        is_bad = rng.random() < 0.5
    for row in rows if plan.nulls or plan.trim else []:
        at = rng.randrange(len(row))
        row[at] = rng.choice([row[at], f" {row[at]}\t", *(["NA", " NULL ", "-", " "] if names[at % len(names)] not in "vw" else [])])
    return [list(map(plan.read, row)) for row in rows], [written(row, end, plan.separator) for row in rows]


class Program:
    """A program, or two builds of one by turns."""

    def __init__(self, path, other=None):
        self.paths = [path, other or path]

    def run(self, words, data):
        self.paths.reverse()
        done = subprocess.run([self.paths[0], *words], input=data, capture_output=True, check=False)
        return done.returncode, done.stdout, done.stderr


def fail(what, *more):
    print(f"states: {what}", *more)
    sys.exit(1)


def refused_row(line):
    """The number of a refused row, and its cause: parstream's line has the row's line too, and more of the cause."""
    found = re.search(rb"(?:source (\d+) )?row (\d+)(?: \(line \d+\))?: (.*)", line)
    return found and (int(found[1] or 0), int(found[2]), found[3])


def in_ranges(rng, program, plan, data, table, counts):
    """The ranges between some records, one after another, have to be the table; a record of other columns is no end."""
    width = len(plan.groups)
    keys = [row[:width] for row in csv.reader(io.StringIO(table.decode(), newline=""))][1:]
    cuts = rng.sample(keys, min(len(keys), rng.randint(0, 3))) + [[field(rng, "k", 0) for _ in range(width)] for _ in range(rng.randint(0, 2))]
    cuts = sorted({tuple(part.encode() for part in cut) for cut in cuts})
    ends = [written([part.decode() for part in cut], b"").decode() for cut in cuts]
    made = b""
    for low, high in zip([None] + ends, ends + [None]):
        words = ["--above", low] * (low is not None) + ["--below", high] * (high is not None)
        done = program.run(["finalize", *words], data)
        if done[0] != 0 or done[2]:
            fail("a range ended with", done[0], done[2].decode(), words)
        made += done[1]
        counts["ranges"] += 1
    if made != table:
        fail("other ranges", plan.words(), ends, table[:400], made[:400])
    done = program.run(["finalize", "--above", written(["a"] * (width + 1), b"").decode()], data)
    if done[0] != 2 or done[1]:
        fail("a record of more columns is an end, and the status is", done[0], done[2].decode())


def one_text(rng, program, counts):
    names = ["k", "v", "w", *rng.sample(["g", "h", "i,j"], rng.randint(0, 3))]
    rng.shuffle(names)
    is_long = counts["texts"] % 25 == 24
    end = rng.choice([b"\n", b"\r\n"])
    plan = Plan(rng, [name for name in names if name not in ("v", "w", "i,j")], True, True)
    if is_long:
        plan = Plan.of(["k"], plan.items, [], "")
    header = written(names, end, plan.separator)
    counts["readings"] += bool(plan.of_reading())
    sources = rng.choice([1, 1, 2, 4])
    files, whole, before = [], header, []
    is_bad = rng.random() < 0.4
    for source in range(sources):
        rows, lines = source_of(rng, plan, names, end, is_bad and not is_long and rng.random() < 0.6, is_long)
        size = len(header) + sum(map(len, lines))
        words = ["partial", f"--source={source}/{sources}", f"--workers={rng.randint(0, 3)}", *plan.words()]
        made = program.run(words, header + b"".join(lines))
        if made != (0, states_of(plan, header, [(source, 0, size, size, rows)], sources), b""):
            fail("another file of a source", words, made[0], made[2].decode(), header + b"".join(lines[:3]))
        counts["of several blocks"] += len(made[1]) > 62_000
        cuts = sorted(rng.sample(range(1, len(lines)), min(rng.randint(0, 7), max(0, len(lines) - 1)))) if lines else []
        at, start = 0, 0
        for cut in cuts + [len(lines)]:
            end_at = start + sum(map(len, lines[at:cut])) + (len(header) if at == 0 else 0)
            part = (source, start, end_at, size, rows[at:cut])
            files.append((states_of(plan, header, [part], sources), [part]))
            at, start = cut, end_at
        before.append(len(rows))
        whole += b"".join(lines)
    counts["parts"] += len(files)
    status, table, said = program.run(plan.words(), whole)
    some = list(files)
    while len(some) > 1 and rng.random() < 0.6:
        rng.shuffle(some)
        take = rng.randint(1, len(some))
        parts = [part for _, its in some[:take] for part in its]
        done = program.run(["combine"], b"".join(data for data, _ in some[:take]))
        if done != (0, states_of(plan, header, parts, sources), b""):
            fail("another sum of files", done[0], done[2].decode(), plan.words())
        some = [(done[1], parts)] + some[take:]
        counts["combines"] += 1
    rng.shuffle(some)
    done = program.run(["finalize"], b"".join(data for data, _ in some))
    if status == 0 and done != (0, table, b""):
        fail("another table", plan.words(), done[0], done[2].decode(), whole[:400])
    if status == 0 and plan.groups and counts["texts"] % 3 == 0:
        in_ranges(rng, program, plan, b"".join(data for data, _ in some), table, counts)
    if status == 1:
        counts["refused"] += 1
        one, other = refused_row(said), refused_row(done[2])
        if done[0] != 1 or done[1] or not other or not one[2].replace(b'"', b"").startswith(other[2].replace(b'"', b"")):
            fail("a refused row is not refused", done, said)
        if one[1] != sum(before[: other[0]]) + other[1]:
            fail("another refused row", done[2].decode(), said.decode())
    if status not in (0, 1):
        fail("parstream ended with", status, said.decode(), plan.words(), whole[:300])
    if len(files) > 1:
        one = rng.randrange(len(files))
        done = program.run(["finalize"], b"".join(data for data, _ in files[:one] + files[one + 1 :]))
        if done[0] != 9 or done[1]:
            fail("a part is left out, and the status is", done[0], done[2].decode())
    twice = program.run(["finalize"], b"".join(data for data, _ in files + [rng.choice(files)]))
    if twice[0] != 8 or twice[1]:
        fail("a part is twice, and the status is", twice[0], twice[2].decode())
    counts["texts"] += 1
    return [(data, plan) for data, _ in files]


# Damage


def damaged(rng, data):
    """The bytes with one bit turned, cut off, with a few others in their place, or with some more at their end."""
    kind, at = rng.randrange(5), rng.randrange(len(data))
    if kind == 0:
        return data[:at] + bytes([data[at] ^ 1 << rng.randrange(8)]) + data[at + 1 :]
    if kind == 1:
        return data[:at]
    more = bytes(rng.randrange(256) for _ in range(rng.randint(1, 4)))
    if kind == 2:
        return data + more
    return data[:at] + more + data[at + (len(more) if kind == 3 else 0) :]


EDGES = [0, 1, 2, 4, 5, 7, 8, 127, 128, 248, 249, 2**20, 2**32, MOST_ROWS, MOST_ROWS + 1, 2**63 - 1, 2**63, 2**64 - 1, 2**64]
EDGES += [2**127, 2**128 - 1, 2**128, 2**140]


def changed(rng, data, least):
    """The bytes with a change after a place: a bit, a few bytes, or a number that is one of the edges or has a longer form."""
    at = rng.randrange(least, len(data))
    kind = rng.randrange(4)
    if kind == 0:
        return data[:at] + bytes([data[at] ^ 1 << rng.randrange(8)]) + data[at + 1 :]
    if kind == 1:
        return data[:at] + data[at + rng.randint(1, 3) :]
    end = next((n for n in range(at, len(data)) if data[n] < 128), len(data) - 1) + 1
    if kind == 2:
        return data[:at] + number(rng.choice(EDGES)) + data[end:]
    return data[: end - 1] + bytes([data[end - 1] | 128]) + b"\0" + data[end:]


def repaired(rng, data, plan):
    """A file with a change in its head, in a block or in its foot, and with the checksums and the foot of what it has then."""
    head, at = read_section(data, len(FIRST_LINE), 2**28, "head", "the head")
    blocks, starts = [], []
    while True:
        block, at = read_section(data, at, 2**20, "blocks", "a block")
        if not block:
            break
        blocks.append(block)
    part = rng.randrange(8)
    if part == 0 or not blocks and part < 6:
        words = Reader(head, "")
        for _ in range(5):
            words.text(2**28)
        head = changed(rng, head, words.at)
    elif part < 6:
        block = rng.randrange(len(blocks))
        blocks[block] = changed(rng, blocks[block], 0) if part < 5 else out_of_order(rng, blocks[block], plan)
    count = 0
    for block in blocks:
        first = None
        it = Reader(block, "")
        try:
            while it.at < len(block):
                key = encoded(read_tuple(it, plan))
                first, count = key if first is None else first, count + 1
        except Bad:
            pass
        starts.append(first or b"")
    made = bytes_of(head, [block for block in blocks if block], [it for block, it in zip(blocks, starts) if block], count)
    if part < 6:
        return made
    foot = Reader(made, "")
    foot.at = len(made) - 12 - int.from_bytes(made[-12:-8], "little") - 4
    inner = changed(rng, made[foot.at : -16], 0)
    return made[: foot.at - 4] + section(inner) + len(inner).to_bytes(4, "little") + LAST_LINE


def out_of_order(rng, block, plan):
    """A block with two of its tuples changed, one of them twice, or one left out."""
    it, tuples = Reader(block, ""), []
    while it.at < len(block):
        start = it.at
        read_tuple(it, plan)
        tuples.append(block[start : it.at])
    one, other = rng.randrange(len(tuples)), rng.randrange(len(tuples))
    kind = rng.randrange(3)
    if kind == 0:
        tuples[one], tuples[other] = tuples[other], tuples[one]
    elif kind == 1:
        tuples.insert(other, tuples[one])
    else:
        del tuples[one]
    return b"".join(tuples)


def damage(rng, program, kept, counts, end):
    tried = 0
    with ThreadPoolExecutor(4) as pool:
        while tried < 10_000 or time.monotonic() < end:
            batch = []
            while len(batch) < 200:
                data, plan = rng.choice(kept)
                is_repaired = rng.random() < 0.4
                bad = repaired(rng, data, plan) if is_repaired else damaged(rng, data)
                if bad != data:
                    batch.append(("combine" if is_repaired else rng.choice(["combine", "finalize"]), bad, plan, is_repaired))
            for (form, bad, plan, is_repaired), done in zip(batch, pool.map(lambda job: program.run([job[0]], job[1]), batch)):
                cause = cause_of(bad, plan) if is_repaired else ""
                counts["repaired"] += is_repaired
                if cause is None:
                    counts["files of them"] += 1
                    if done != (0, bad, b""):
                        fail("a file does not read back as it is", done[0], done[2].decode(), plan.words(), bad.hex())
                elif done[0] != 8 or done[1]:
                    fail(f"{form} of damaged bytes ended with {done[0]}", done[2].decode(), cause, plan.words(), bad.hex())
                elif cause and done[2].decode() != f"parstream: file 1: {cause}\n":
                    fail("another cause", done[2].decode(), cause, plan.words(), bad.hex())
            tried += len(batch)
    return tried


# The files that are kept


# What made version1.states of the sources 0.csv and 1.csv, one after the other, and refused.states of 1.csv.
ITEMS = [("count", None), ("sum", "price"), ("avg", "price"), ("count", "note"), ("min", "qty")]
KEPT = Plan.of(["region", "item"], ITEMS, [("qty", ">", 0)], "price=2")
REFUSED = Plan.of(["region"], [("max", "qty"), ("sum", "price")], [], "1")
# What made readings.states of the source 2.csv.
READ = Plan.of(["region", "item"], [("count", None), ("sum", "price")], [], "2")
READ.separator, READ.nulls, READ.trim = ";", "NA,-", True
LINE = b"parstream: source 0 row 2: column price is not a decimal with at most 1 place\n"


def kept_files(program):
    """Whether the files that were kept when the format was made come to the same as then."""
    folder, whole, parts = os.path.join(HERE, "states"), b"", []

    def data_of(name):
        with open(os.path.join(folder, name), "rb") as file:
            return file.read()

    for source, name in enumerate(["0.csv", "1.csv"]):
        data = data_of(name)
        header, *rows = csv.reader(io.StringIO(data.decode(), newline=""))
        part = [0, len(data), len(data), rows]
        line = data[: data.index(b"\n") + 1]
        for plan, its, sources, states in ((KEPT, source, 2, b""), (REFUSED, 0, 1, data_of("refused.states"))):
            made = states_of(plan, line, [(its, *part)], sources)
            if program.run(["partial", f"--source={its}/{sources}", *plan.words()], data) != (0, made, b""):
                fail("another file of a source that is kept", name, plan.words())
            if plan is KEPT:
                whole += made
            elif source == 1 and made != states:
                fail("refused.states is another file")
        parts.append((source, *part))
    if whole != data_of("version1.states"):
        fail("version1.states is another file")
    if program.run(["finalize"], whole) != (0, data_of("table.csv"), b""):
        fail("version1.states comes to another table")
    if program.run(["finalize"], data_of("refused.states")) != (1, b"", LINE):
        fail("refused.states refuses another row")
    data, states = data_of("2.csv"), data_of("readings.states")
    header, *rows = ([READ.read(field) for field in row] for row in csv.reader(io.StringIO(data.decode(), newline=""), delimiter=";"))
    if states_of(READ, data[: data.index(b"\n") + 1], [(0, 0, len(data), len(data), rows)], 1) != states:
        fail("readings.states is another file", header)
    if program.run(["partial", *READ.words()], data) != (0, states, b""):
        fail("another file of a source that is kept with its reading")
    if program.run(["finalize"], states) != (0, data_of("readings.csv"), b""):
        fail("readings.states comes to another table")


def other_readings(program):
    """Heads that say how fields are read in words that parstream does not take, or have no column for them, are refused."""
    others = (["=separator=;;"], ["=separator="], ['=separator="'], ["=trim", "=trim"], ["=trims"], ["=null=" + "," * 8], ["=separator=;"])
    for said in others:
        plan = Plan.of(["k"], [("count", None)], [], "")
        plan.of_filters = lambda said=said: said
        data = states_of(plan, b"k,v\n", [(0, 0, 4, 4, [])], 1)
        for form in ("combine", "finalize"):
            done = program.run([form], data)
            if done != (8, b"", b"parstream: file 1: no right head\n"):
                fail(f"{form} of a head with {said} ended with", *done)


def main(words):
    program = Program(*(os.path.abspath(word) for word in (words[:1] + words[3:4])))
    seconds = float(words[1]) if len(words) > 1 else 40.0
    rng = random.Random(int(words[2]) if len(words) > 2 else 1)
    counts = dict.fromkeys(["texts", "parts", "combines", "ranges", "readings", "refused", "of several blocks", "repaired", "files of them"], 0)
    kept, end = [], time.monotonic() + seconds / 2
    while counts["texts"] < 60 or time.monotonic() < end:
        kept += [(data, plan) for data, plan in one_text(rng, program, counts) if len(data) < 1500]
    kept_files(program)
    other_readings(program)
    tried = damage(rng, program, rng.sample(kept, min(100, len(kept))), counts, time.monotonic() + seconds / 2)
    print("states: " + ", ".join(f"{counts[name]} {name}" for name in counts) + f", {tried} damaged files, as expected")


if __name__ == "__main__":
    main(sys.argv[1:])
