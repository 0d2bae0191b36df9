#!/usr/bin/env python3
"""Whether --order and --limit show of a table what a plain reading of it gives.

    bindings/tests/shown.py PARSTREAM [TRIALS [SEED]]

For random inputs and queries the program writes the table as it is, and with random options. The table as it is is read by
Python's csv module, its rows are ordered by whole numbers and fractions of any length, and written again.
"""

import csv
import io
import random
import subprocess
import sys
from fractions import Fraction

INTEGER_KEYS = ["7", "10", "9", "-3", "+5", "007", "-0", "0", "123456789012345678901234567890", "-99999999999999999999",
                "18446744073709551615", "18446744073709551616", "9223372036854775807", "9223372036854775808",
                "-9223372036854775808", "-9223372036854775809"]
OTHER_KEYS = ["", "a", "b", "B", 'q"q', '"', '""', "x,y", "line\nend", "cr\rx", "\xe9", "\x00", "1.5", " 4", "4 ", "-", "+", "1-", "--1",
              'q"', 'q"!', 'q"#', "q!", "q#", ","]


def ask(program, words, data):
    run = subprocess.run([program, *words], input=data, capture_output=True, timeout=60)
    return run.returncode, run.stdout, run.stderr


def read(table):
    # csv.reader knows no bytes; latin-1 keeps each
    return list(csv.reader(io.StringIO(table.decode("latin-1"), newline=""), strict=True))


def write(rows):
    out = io.StringIO(newline="")
    for row in rows:
        fields = ['"' + f.replace('"', '""') + '"' if set(f) & set(',"\r\n') else f for f in row]
        text = ",".join(fields)
        out.write((text if text else '""') + "\n")
    return out.getvalue().encode("latin-1")


def digits(text):
    return text != "" and all(c in "0123456789" for c in text)


def integer_in(text):
    body = text[1:] if text[:1] in ("-", "+") else text
    return int(text) if digits(body) else None


def value_in(text):
    whole, _, part = text.lstrip("-").partition(".")
    return Fraction(text) if digits(whole) and (part == "" or digits(part)) else None


def ordered(rows, at, number_in, down):
    """Numbers by their values, then other texts by their bytes, then empty fields; rows that tie as they were."""
    if number_in is None:
        return sorted(rows, key=lambda row: row[at].encode("latin-1"), reverse=False) if not down else \
            stable_down(rows, lambda row: row[at].encode("latin-1"))
    numbers = [row for row in rows if number_in(row[at]) is not None]
    others = [row for row in rows if number_in(row[at]) is None and row[at] != ""]
    empty = [row for row in rows if row[at] == ""]
    place = sorted if not down else lambda xs, key: stable_down(xs, key)
    return place(numbers, key=lambda row: number_in(row[at])) + place(others, key=lambda row: row[at].encode("latin-1")) + empty


def stable_down(rows, key):
    # sorted(.., reverse=True) keeps the order of rows that tie
    return sorted(rows, key=key, reverse=True)


def trial(program, rng):
    groups = rng.choice([[], ["g"], ["g"], ["h"], ["g", "h"], ["h", "g"]])
    items = rng.sample(["count", "count:v", "sum:v", "min:v", "max:v", "avg:v"], rng.randint(1, 4))
    places = rng.choice([0, 0, 2])
    keys = [rng.choice([INTEGER_KEYS, OTHER_KEYS, INTEGER_KEYS + OTHER_KEYS]) for _ in range(2)]
    records = [["g", "h", "v"]]
    for _ in range(rng.randint(0, 60)):
        value = "" if rng.random() < 0.3 else str(rng.choice([1, 2, 3, 10, -5, 9223372036854775807, -9223372036854775808, rng.randint(-1000, 1000)]))
        if places and value and len(value) < 15 and rng.random() < 0.7:
            value += f".{rng.randint(0, 99):02}"
        elif places and len(value) > 15:
            value = "1"
        records.append([rng.choice(keys[0]), rng.choice(keys[1]), value])
    data = write(records)
    words = ["--agg", ",".join(items), "--workers", str(rng.randint(0, 2))]
    if groups:
        words += ["--group", ",".join(groups)]
    if places:
        words += ["--decimals", str(places)]
    status, table, err = ask(program, words, data)
    assert status == 0, (words, err)
    header, *rows = read(table)
    assert write([header] + rows) == table, "the csv module reads the table otherwise"
    options = []
    shown = rows
    if rng.random() < 0.85:
        at = rng.randrange(len(groups) + len(items))
        down = rng.random() < 0.5
        name = (groups + items)[at]
        number_in = value_in if at >= len(groups) else None
        text = name
        if at < len(groups) and rng.random() < 0.6:
            number_in = integer_in
            text += ":numeric"
        text += ":desc" if down else rng.choice(["", ":asc"])
        options.append(("--order", text))
        shown = ordered(rows, at, number_in, down)
    if rng.random() < 0.5 or not options:
        limit = rng.choice([0, 1, 2, 3, 10, 4294967295, 999999999999999999])
        options.append(("--limit", str(limit)))
        shown = shown[:limit]
    rng.shuffle(options)
    more = []
    for name, value in options:
        more += [f"{name}={value}"] if rng.random() < 0.5 else [name, value]
    cut = rng.choice([0, 2, len(words)])
    all_words = words[:cut] + more + words[cut:]
    status, got, err = ask(program, all_words, data)
    wanted = write([header] + shown)
    assert (status, got, err) == (0, wanted, b""), (all_words, data, status, got, wanted, err)


def main():
    program = sys.argv[1]
    trials = int(sys.argv[2]) if len(sys.argv) > 2 else 300
    seed = int(sys.argv[3]) if len(sys.argv) > 3 else 20261130
    rng = random.Random(seed)
    for _ in range(trials):
        trial(program, rng)
    print(f"shown: {trials} trials, no difference")


main()
