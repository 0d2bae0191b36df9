#!/usr/bin/env python3
"""Whether --separator, --null and --trim read of an input what Python's csv module and a plain model read of it.

    bindings/tests/readings.py PARSTREAM [TRIALS [SEED]]

Random inputs: ten separators, quotes, byte order marks, each end of a line, blanks, nulls, ragged rows and quotes that are
not closed. They come in pieces or at once, and are read with 0 to 8 workers. A program that takes the size of its batches
from WINDOW reads batches of 1 byte and more; the others don't look at it.
"""

import csv
import io
import os
import random
import re
import subprocess
import sys
import threading

SEPARATORS = {b",": ",", b"\t": "tab", b";": ";", b"|": "|", b":": ":", b" ": " ", b"a": "a", b"0": "0", b"\\": "\\", b"-": "-"}
NULLS = [[], [b"NA"], [b"NA", b"NULL", b"-"], [b"0"], [b""], [b"x", b"y;z", b"1"], [b" "], [b"n/a", b"NaN"]]
WORDS = [b"NA", b"NULL", b"-", b"", b"0", b"x", b"y;z", b"1", b" ", b"NaN", b"n/a"]
BYTES = [bytes([it]) for it in b'ab,;\t|: "\n\r\xc3\xa9\xef\xbb\xbf01-.\\']
WHITE = b" \t\n\r\x0c"
INTEGER = re.compile(rb" *[+-]?[0-9]+ *\Z")
LINE_ENDS = [b"\n", b"\n", b"\r\n", b"\r"]


# ---- the model


def records(data, separator):
    # csv.reader knows no bytes; latin-1 keeps each
    text = io.StringIO(data.removeprefix(b"\xef\xbb\xbf").decode("latin-1"), newline="")
    return [[field.encode("latin-1") for field in row] for row in csv.reader(text, delimiter=separator.decode("latin-1")) if row]


def cleaned(field, trim, nulls):
    field = field.strip(WHITE) if trim else field
    return b"" if field in nulls else field


def written(fields):
    quoted = [b'"' + it.replace(b'"', b'""') + b'"' if any(c in it for c in b',"\r\n') else it for it in fields]
    return (b",".join(quoted) or b'""') + b"\n"


def value_of(field):
    if field == b"":
        return None
    if not INTEGER.match(field):
        raise ValueError(field)
    return int(field.strip(b" "))


def answer(rows, groups, item, where):
    """The status, and the table of count and the sum of one column."""
    if not rows:
        return 2, b""
    header, *rows = rows
    named = groups + ([item] if item else []) + ([where[0]] if where else [])
    if any(header.count(name) != 1 for name in named):
        return 2, b""
    at = header.index
    table = {} if groups else {(): [0, None]}
    for row in rows:
        if len(row) != len(header):
            return 1, b""
        if where and row[at(where[0])] != where[1]:
            continue
        key = tuple(row[at(name)] for name in groups)
        if sum(4 + len(it) for it in key) > 248:
            return 1, b""
        try:
            value = value_of(row[at(item)]) if item else None
        except ValueError:
            return 1, b""
        group = table.setdefault(key, [0, None])
        group[0] += 1
        if value is not None:
            group[1] = (group[1] or 0) + value
    text = written(groups + [b"count"] + ([b"sum(" + item + b")"] if item else []))
    for key in sorted(table):
        count, total = table[key]
        text += written([*key, b"%d" % count] + ([b"" if total is None else b"%d" % total] if item else []))
    return 0, text


# ---- random inputs


def field(rng):
    kind = rng.random()
    if kind < 0.25:
        return rng.choice(WORDS)
    if kind < 0.5:
        return b"%d" % rng.randrange(-50, 50)
    if kind < 0.6:
        return rng.choice([b" ", b"\t", b"  "]) + rng.choice([b"NA", b"7", b"x", b""]) + rng.choice([b"", b" ", b"\t "])
    return b"".join(rng.choice(BYTES) for _ in range(rng.randrange(6)))


def number(rng):
    return rng.choice([b"NA", b"", b" 5", b"-", b"%d" % rng.randrange(-9, 99)])


def encoded(rng, text, separator):
    asks = any(it in text for it in (separator, b'"', b"\r", b"\n"))
    if rng.random() < (0.93 if asks else 0.15):
        return b'"' + text.replace(b'"', b'""') + b'"'
    return text


def an_input(rng, separator):
    names = [b"g", b"v", b"k", b"w"][: rng.randrange(1, 5)]
    end = rng.choice(LINE_ENDS)
    numbers = rng.random() < 0.7
    data = b"\xef\xbb\xbf" if rng.random() < 0.2 else b""
    data += end if rng.random() < 0.1 else b""
    blank = b" " if rng.random() < 0.3 and separator != b" " else b""
    data += separator.join(encoded(rng, blank + it, separator) if blank else it for it in names) + end
    many = rng.choice([0, 1, 3, 10, 40, 200]) if rng.random() < 0.97 else 9000
    for _ in range(many):
        row = [number(rng) if name == b"v" and numbers else field(rng) for name in names]
        row += [b"x"] if rng.random() < 0.0005 else []
        data += separator.join(encoded(rng, it, separator) for it in row)
        data += end if rng.random() < 0.98 else rng.choice([b"\n", b"\r\n", b"\n\n"])
    data = data.rstrip(b"\r\n") if rng.random() < 0.2 else data
    return names, data + (b'"open' if rng.random() < 0.03 else b"")


def run(rng, words, data):
    """The program's status and output. Short inputs come in pieces, some of them."""
    batch = rng.choice([1, 16, 64, 300, 1000, 4096, 4194304])
    pipes = {"stdin": subprocess.PIPE, "stdout": subprocess.PIPE, "stderr": subprocess.PIPE}
    program = subprocess.Popen(words, env={**os.environ, "WINDOW": str(batch)}, bufsize=0, **pipes)
    longest = rng.choice([1, 3, 7, 50]) if len(data) < 3000 and rng.random() < 0.6 else max(len(data), 1)
    pieces, at = [], 0
    while at < len(data):
        pieces.append(data[at : at + rng.randint(1, longest)])
        at += len(pieces[-1])

    def feed():
        try:
            for it in pieces:
                program.stdin.write(it)
            program.stdin.close()
        except BrokenPipeError:
            pass

    feeder = threading.Thread(target=feed)
    feeder.start()
    output, said = program.stdout.read(), program.stderr.read()
    status = program.wait()
    feeder.join()
    return status, output, said


def trial(program, rng):
    separator, word = rng.choice(list(SEPARATORS.items()))
    nulls, trim = rng.choice(NULLS), rng.random() < 0.5
    names, data = an_input(rng, separator)
    groups = [it for it in names if it != b"v" and rng.random() < 0.5]
    item = b"v" if b"v" in names and rng.random() < 0.8 else None
    where = (b"g", rng.choice([b"NA", b"x", b"", b"ab", b"a,b", b"y;z"])) if rng.random() < 0.3 else None
    words = [program, "--agg", "count,sum:v" if item else "count", "--workers", str(rng.choice([0, 0, 1, 2, 3, 8]))]
    words += ["--group", b",".join(groups)] if groups else []
    if separator != b"," or rng.random() < 0.5:
        words += ["--separator=" + word] if rng.random() < 0.5 or word == "-" else ["--separator", word]
    words += [b"--null=" + b",".join(nulls)] if nulls else []
    words += ["--trim"] if trim else []
    words += [b"--where=" + where[0] + b"=" + (b'"' + where[1] + b'"' if where[1] else b"")] if where else []
    rows = [[cleaned(it, trim, nulls) for it in row] for row in records(data, separator)]
    wanted = answer(rows, groups, item, where)
    status, output, said = run(rng, words, data)
    assert (status, output) == wanted, (words, data[:600], wanted, status, output, said)
    return status


def main():
    csv.field_size_limit(1 << 30)
    program = sys.argv[1]
    trials = int(sys.argv[2]) if len(sys.argv) > 2 else 300
    rng = random.Random(int(sys.argv[3]) if len(sys.argv) > 3 else 20261201)
    tables = sum(trial(program, rng) == 0 for _ in range(trials))
    print(f"readings: {trials} trials, {tables} tables, no difference")


main()
