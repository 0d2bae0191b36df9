#!/usr/bin/env python3
"""numbers.py PROGRAM COUNT [SEED]: tables without a header, as parstream answers a query over them with --no-header.

The same query over the table behind a header of the numbers of its columns has to have the same answer, byte for byte, its line on
the standard error too. The header is made here, from the fields that Python's csv finds in the first record, and ends with a
carriage return, which is the end of a record and of no line. After that some worked rows, as docs/SEMANTICS.md has them."""
import csv
import io
import random
import subprocess
import sys

FRONT = 1 << 20
MARK = b"\xef\xbb\xbf"

# Words, an input, and the output, the line and the status.
ROWS = [
    ("--group 1 --agg sum:3", b"a,x,1\nb,y,2\na,z,5\n", b"1,sum(3)\na,6\nb,2\n", b"", 0),
    ("--agg count", b"", b"", b"parstream: no header\n", 2),
    ("--agg count", b"\n\r\n", b"", b"parstream: no header\n", 2),
    ("--group 3 --agg count", b"a,1\n", b"", b'parstream: no column "3"; the header has 2: "1" "2"\n', 2),
    ("--group 1 --agg sum:2", b"a,1\nb,x\n", b"", b'parstream: row 2 (line 2): column "2" is not an integer: "x"; see --null\n', 1),
    ("--group 1 --agg sum:2", b"a,1\nb\n", b"", b"parstream: row 2 (line 2): wrong number of fields: 1, the header has 2\n", 1),
    ("--agg sum:2 --separator 1", b"5,012\n713\n", b"sum(2)\n5\n", b"", 0),
    ("--group 1 --agg sum:2 --separator 1", b"a12\n", b"1,sum(2)\na,2\n", b"", 0),
    ("--group 1 --agg sum:2 --decimals 2=2 --order sum:2:desc", b"a,1.5\nb,2\n", b"1,sum(2)\nb,2.00\na,1.50\n", b"", 0),
    ("--no-header --agg count", b"a\n", b"", b"parstream: --no-header is there twice: this option may be given once; see parstream --help\n", 2),
    ("--no-header=x --agg count", b"a\n", b"", b"parstream: --no-header is there twice: this option may be given once; see parstream --help\n", 2),
]


def asked(program, words, text):
    result = subprocess.run([program, *words], input=text, capture_output=True, check=False)
    return result.stdout, result.stderr, result.returncode


def without_mark(text):
    return text[3:] if text.startswith(MARK) else text


def fields_of(text, separator):
    """How many fields the first record has; none if there is no record."""
    csv.field_size_limit(1 << 30)
    front = without_mark(text[:FRONT]).decode("latin-1")
    for row in csv.reader(io.StringIO(front, newline=""), delimiter=separator):
        if row:
            return len(row)
    return 0


def with_numbers(text, separator):
    """The table behind a header: each number in quotes, for whatever the separator is."""
    numbers = separator.join('"%d"' % (at + 1) for at in range(fields_of(text, separator)))
    return (numbers + "\r").encode() + without_mark(text) if numbers else text


def random_case(rng):
    """Words and a table."""
    separator = rng.choice(",,,;\t|1230 a-")
    letters = ["a", "b", "1", "2", "-3", "", "1.5", '"x"', '"y\n1"', '"%s"' % separator, "NA", " 4", "ä"]
    width = rng.choice((1, 1, 2, 2, 3, 4, 12))
    lines = []
    for _ in range(rng.choice((0, 1, 2, 5, 20))):
        here = width if rng.random() < 0.97 else rng.choice((1, width + 1))
        lines.append(separator.join(rng.choice(letters[:7] if rng.random() < 0.7 else letters) for _ in range(here)))
    text = rng.choice(("\n", "\r\n", "\n", "\r", "\n\n")).join(lines) + rng.choice(("", "\n"))
    if rng.random() < 0.1:
        text += '"open' + separator + "1\n2"
    if rng.random() < 0.1:
        text = rng.choice(("\n", "\r\n", "\r")) + text
    text = (MARK if rng.random() < 0.2 else b"") + text.encode()
    if rng.random() < 0.01:
        text = text + b"x" * rng.choice((FRONT - 7, FRONT, FRONT + 7)) + text
    numbers = [str(at) for at in range(1, width + 2)] if rng.random() < 0.1 else [str(at) for at in range(1, width + 1)]
    words = ["--agg", ",".join(rng.choice(("count", "sum:", "max:", "avg:", "count:")) + rng.choice(numbers) for _ in range(2)).replace("countcount", "count")]
    words[1] = ",".join(item if ":" in item else "count" for item in words[1].split(","))
    if rng.random() < 0.7:
        words += ["--group", rng.choice(numbers)]
    if rng.random() < 0.3:
        words += ["--where", rng.choice(numbers) + rng.choice((">0", "=a", "!=", "<=2"))]
    if rng.random() < 0.3:
        words += ["--decimals", rng.choice(("2", "1=1", "2=3,1"))]
    if rng.random() < 0.2:
        words += ["--null", rng.choice(("NA", "NA,-3", "a"))]
    if rng.random() < 0.2:
        words += ["--trim"]
    if rng.random() < 0.2:
        words += ["--limit", "3"]
    if separator != "," or rng.random() < 0.1:
        words += ["--separator", "tab" if separator == "\t" else separator]
    return words + ["--workers", rng.choice("012")], text, separator


def main():
    program, count = sys.argv[1], int(sys.argv[2])
    rng = random.Random(int(sys.argv[3]) if len(sys.argv) > 3 else 1)
    for _ in range(count):
        words, text, separator = random_case(rng)
        at = rng.randrange(len(words) // 2 + 1) if "--trim" not in words else 0
        got = asked(program, words[: at * 2] + ["--no-header"] + words[at * 2 :], text)
        wanted = asked(program, words, with_numbers(text, separator))
        if got != wanted:
            sys.exit(f"numbers: {words}\ntext   {text[:300]!r}\ngot    {got}\nwanted {wanted}")
    for words, text, *wanted in ROWS:
        got = list(asked(program, ["--no-header", *words.split()], text))
        if got != wanted:
            sys.exit(f"numbers: {words}\ntext   {text!r}\ngot    {got}\nwanted {wanted}")
    print(f"no header: {count} trials, no difference; {len(ROWS)} rows as expected")


main()
