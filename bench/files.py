#!/usr/bin/env python3
"""Makes the files of the benchmark, the same ones each time.

usage: files.py FOLDER

    a.csv       4,000,000 rows of g,v: 1,000 groups
    b.csv         600,000 rows of 12 columns with quoted text, commas and line breaks: 100,000 groups of two columns
    b_bare.csv    the same rows, the three columns that the query reads, unquoted, for programs that cannot parse quotes
    c.csv       2,000,000 rows of k,v: 1,000,000 groups, two rows each
    d.csv           1,000 rows of g,v: 20 groups, so what is timed is starting and ending

`make_long` makes a16.csv, the rows of a.csv sixteen times, which are above these limits. Each other file has at most 64 MiB and 4,194,304 rows, the limits of pargather. Every sum is below 2^53 in magnitude, so that a
program that sums floats finds it too.
"""
import os
import random
import sys

MOST_BYTES = 64 << 20

TEXTS = ["plain", "with, comma", 'say ""hi""', "two words", "semi;colon", "tab?no", "x", "", "caf\u00e9", "a,b,c",
         "line\nbreak", "longer piece of text here"]
WORDS = ["alpha", "beta", "gamma", "delta", "epsilon", "zeta", "eta", "theta"]


def few_groups(below):
    """4,000,000 rows of 1,000 groups."""
    yield "g,v\n"
    for _ in range(4_000_000):
        yield f"g{int(below() * 1000):03d},{int(below() * 2_000_000_000) - 100_000_000}\n"


def quoted_rows(below):
    """600,000 pairs of a row of 12 columns and the same row of three."""
    yield "id,region,name,item,comment,amount,qty,day,note,code,flag,tail\n", "region,item,amount\n"
    for row in range(600_000):
        group = int(below() * 100_000)
        region, item = f"region {group // 500:03d}", f"item{group % 500:03d}"
        amount = int(below() * 2_000_000) - 1_000_000
        # a group has rows with the quoted and rows with the bare spelling
        spelled = f'"{region}"' if row % 3 == 0 else region
        name = f"{WORDS[int(below() * 8)]}, {WORDS[int(below() * 8)]}"
        comment, note = TEXTS[int(below() * 12)], TEXTS[int(below() * 12)]
        day = f"2024-{1 + int(below() * 12):02d}-{1 + int(below() * 28):02d}"
        yield (f'{row},{spelled},"{name}",{item},"{comment}",{amount},{int(below() * 100)},{day},'
               f'"{note} {WORDS[int(below() * 8)]}",C{int(below() * 10**6):06d},{"YN"[row & 1]},end\n',
               f"{region},{item},{amount}\n")


def many_groups(draw):
    """2,000,000 rows of 1,000,000 groups."""
    keys = list(range(1_000_000)) * 2
    draw.shuffle(keys)
    yield "k,v\n"
    for key in keys:
        yield f"user-{key * 7919 % 10_000_019:08d},{int(draw.random() * 10**9) - 5 * 10**8}\n"


def few_rows(draw):
    """1,000 rows of 20 groups."""
    yield "g,v\n"
    for _ in range(1000):
        yield f"g{draw.randrange(20):02d},{draw.randrange(-1000, 100_000)}\n"


def write(path, lines):
    with open(path, "w", encoding="utf-8", newline="") as file:
        file.writelines(lines)
    assert os.path.getsize(path) <= MOST_BYTES, path


def make(folder):
    """Writes all files to the folder."""
    os.makedirs(folder, exist_ok=True)
    write(f"{folder}/a.csv", few_groups(random.Random(1).random))
    pairs = list(quoted_rows(random.Random(2).random))
    write(f"{folder}/b.csv", (row for row, _ in pairs))
    write(f"{folder}/b_bare.csv", (row for _, row in pairs))
    write(f"{folder}/c.csv", many_groups(random.Random(3)))
    write(f"{folder}/d.csv", few_rows(random.Random(4)))


def make_long(folder):
    """Writes the rows of a.csv 16 times after its header."""
    with open(f"{folder}/a.csv", "rb") as lines, open(f"{folder}/a16.csv", "wb") as out:
        header, rows = lines.readline(), lines.read()
        out.write(header)
        for _ in range(16):
            out.write(rows)


if __name__ == "__main__":
    make(sys.argv[1])
