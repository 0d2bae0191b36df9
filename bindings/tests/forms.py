#!/usr/bin/env python3
"""Whether --output writes a table as a plain reading of it does, with Python's csv and json.

    bindings/tests/forms.py PARSTREAM [TRIALS [SEED]]

For random inputs and queries the program writes the table as it is, also with --order and --limit, and with the same words in each
form."""
import csv
import io
import json
import random
import re
import subprocess
import sys


def rows_of(text):
    """The rows of a table's text: Python's csv reads each byte as a character."""
    return [row for row in csv.reader(io.StringIO(text.decode("latin-1"), newline=""), strict=True)]


LETTERS = [b"a", b"b", b",", b'"', b"\n", b"\r", b"\t", b"\\", b" ", b"\0", b"\x1b", b"\x7f", b"\x08", b"\x0c", b"\x1f",
           "\xe4".encode(), "\u20ac".encode(), "\U0001f600".encode(), b"\xff", b"\xc3", b"\xe2\x82", b"\xc2\x85", b"\xe2\x80\xae", b"/", b"'"]
NAMES = ["g", "h", "a b", 'q"', "\xe4\u20ac", "t\tb", "back\\slash", "\x1b[1m", "line\nend", "\u202e", "null", "7"]


def key_of(rng):
    return b"".join(rng.choice(LETTERS) for _ in range(rng.choice((0, 1, 1, 2, 3, 8, 60))))


def input_of(rng, names):
    """A table with these columns, and v and w, which are numbers or empty."""
    pool = [[key_of(rng) for _ in range(rng.choice((1, 3, 20)))] for _ in names]

    def value():
        return rng.choice(("", str(rng.choice((0, 1, -1, 10, 9223372036854775807, -9223372036854775808, rng.randint(-1000, 1000))))))

    rows = [[rng.choice(keys) for keys in pool] + [value().encode(), rng.choice((b"", b"0.25", b"-3.5", b"7"))] for _ in range(rng.choice((0, 1, 5, 60)))]
    return [[name.encode() for name in names] + [b"v", b"w"]] + rows


def csv_text(table):
    def field_text(field):
        return b'"' + field.replace(b'"', b'""') + b'"' if re.search(rb'[,"\r\n]', field) else field

    return b"".join((b",".join(map(field_text, row)) or b'""') + b"\n" for row in table)


def tsv(keys, table):
    escapes = {9: b"\\t", 10: b"\\n", 13: b"\\r", 92: b"\\\\"}
    return b"".join(b"\t".join(b"".join(escapes.get(b, bytes([b])) for b in field) for field in row) + b"\n" for row in table)


NUMBER = re.compile(rb"-?(0|[1-9][0-9]*)(\.[0-9]+)?\Z")


def json_text(keys, table):
    def string(field):
        return json.dumps(field.decode("utf-8", "replace"), ensure_ascii=False).encode()

    def value(at, field):
        if at < keys:
            return string(field)
        if field == b"":
            return b"null"
        return field if NUMBER.match(field) else string(field)

    header = table[0]
    return b"".join(b"{" + b",".join(string(name) + b":" + value(at, row[at]) for at, name in enumerate(header)) + b"}\n" for row in table[1:])


MARKS = set(range(0x80, 0xA0)) | {0x200E, 0x200F} | set(range(0x2028, 0x202F)) | set(range(0x2066, 0x206A))


def shown(field):
    out = ""
    at = 0
    while at < len(field):
        for size in (2, 3, 4):
            try:
                char = field[at:at + size].decode()
            except UnicodeDecodeError:
                continue
            if len(char) == 1 and ord(char) >= 128:
                break
        else:
            char = ""
        if field[at] >= 128 and char and ord(char) not in MARKS:
            out += char
            at += size
            continue
        byte = field[at]
        at += 1
        out += '\\"' if byte == 34 else "\\\\" if byte == 92 else chr(byte) if 32 <= byte <= 126 else "\\x%02x" % byte
    return out


def aligned(keys, table):
    cells = [[shown(field) for field in row] for row in table]
    sizes = [max(len(row[at]) for row in cells) for at in range(len(cells[0]))]

    def line(row):
        return "  ".join(text.ljust(size) if at < keys else text.rjust(size) for at, (text, size) in enumerate(zip(row, sizes))) + "\n"

    return (line(cells[0]) + "  ".join("-" * size for size in sizes) + "\n" + "".join(line(row) for row in cells[1:])).encode()


def ask(program, words, data):
    run = subprocess.run([program, *words], input=data, capture_output=True, timeout=60)
    return run.returncode, run.stdout, run.stderr


def words_of(rng):
    """Words of a query of random columns, the columns, and how many of them it groups by."""
    names = rng.sample(NAMES, rng.randrange(0, 4))
    keys = rng.randrange(0, len(names) + 1)
    exact = rng.random() < 0.5
    items = rng.sample(["count", "count:v", "sum:v", "min:v", "max:v", "avg:v"] if exact else ["count", "sum:w", "min:w", "max:w", "avg:w"], rng.randint(1, 4))
    words = ["--agg", ",".join(items), "--workers", str(rng.randint(0, 2))]
    if keys:
        words += ["--group", ",".join(names[:keys])]
    if not exact:
        words += ["--decimals", "2"]
    if rng.random() < 0.4:
        words += ["--order", rng.choice(items) + rng.choice(["", ":desc"])]
    if rng.random() < 0.4:
        words += ["--limit", str(rng.choice([0, 1, 3, 100]))]
    return names, keys, words


def trial(program, rng):
    names, keys, words = words_of(rng)
    data = csv_text(input_of(rng, names))
    status, table, err = ask(program, words, data)
    assert (status, err) == (0, b""), (words, data, status, err)
    rows = [[field.encode("latin-1") for field in row] for row in rows_of(table)]
    assert csv_text(rows) == table, "the csv module reads the table otherwise"
    for name, made in (("csv", table), ("tsv", tsv(keys, rows)), ("json", json_text(keys, rows)), ("aligned", aligned(keys, rows))):
        more = [f"--output={name}"] if rng.random() < 0.5 else ["--output", name]
        cut = rng.choice([0, 2, len(words)])
        got = ask(program, words[:cut] + more + words[cut:], data)
        assert got == (0, made, b""), (words, name, data, got, made)


def main():
    program = sys.argv[1]
    trials = int(sys.argv[2]) if len(sys.argv) > 2 else 200
    rng = random.Random(int(sys.argv[3]) if len(sys.argv) > 3 else 20261130)
    for _ in range(trials):
        trial(program, rng)
    print(f"forms: {trials} trials, no difference")


main()
