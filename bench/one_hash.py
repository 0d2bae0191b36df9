#!/usr/bin/env python3
"""Times `pargather` on keys that all have one hash, and on as many random ones.

usage: one_hash.py [--keys 4000,32000,100000] [--times 3]

Each key is three pieces of eight letters and digits. The hash is FNV-1a in 32 bits, so a piece that brings the hash back
to where it was before it is found by meeting in the middle; 47 such pieces make 103,823 keys. A group's key begins with
its length and the length of its field, a join's with its length alone, so each has pieces of its own.

The query counts the rows of each group, in the plan `hash` with 65,536 pages and no workers. The join has two workers and
as many rows on the right, with the same keys. Programs take turns, and the least processor time of each is told. The
program is crates/pargather/out/pargather, or the path in PARGATHER.
"""
import argparse
import itertools
import os
import random
import resource
import string
import subprocess

PRIME, FIRST, MOST = 0x0100_0193, 0x811C_9DC5, 2**32
BACK = pow(PRIME, -1, MOST)
LETTERS = (string.ascii_letters + string.digits).encode()
FRONTS = 1 << 18
PIECES = 47
TOP = os.path.dirname(os.path.dirname(os.path.abspath(__file__)))


def forward(state, data):
    for byte in data:
        state = (state ^ byte) * PRIME % MOST
    return state


def backward(state, data):
    for byte in reversed(data):
        state = (state * BACK % MOST) ^ byte
    return state


def letters(draw, count):
    return bytes(draw.choices(LETTERS, k=count))


def pieces(state, draw):
    """Pieces that bring the hash from this state back to it."""
    fronts = {}
    for front in itertools.islice(itertools.product(LETTERS, repeat=4), FRONTS):
        fronts[forward(state, front)] = bytes(front)
    found = set()
    while len(found) < PIECES:
        back = letters(draw, 4)
        front = fronts.get(backward(state, back))
        if front:
            found.add(front + back)
    return sorted(found)


def one_hash(head, draw):
    """Keys of 24 letters that have one hash after these bytes."""
    triples = itertools.product(pieces(forward(FIRST, head), draw), repeat=3)
    return [b"".join(triple).decode() for triple in triples]


def scattered(draw, count):
    return [letters(draw, 24).decode() for _ in range(count)]


def processor_seconds(words, text):
    """The processor time of one run, and what it wrote."""
    before = resource.getrusage(resource.RUSAGE_CHILDREN)
    ran = subprocess.run(words, input=text, stdout=subprocess.PIPE, check=True)
    after = resource.getrusage(resource.RUSAGE_CHILDREN)
    spent = after.ru_utime + after.ru_stime - before.ru_utime - before.ru_stime
    return spent, ran.stdout


def main():
    ask = argparse.ArgumentParser()
    ask.add_argument("--keys", default="4000,32000,100000")
    ask.add_argument("--times", type=int, default=3)
    asked = ask.parse_args()
    program = os.environ.get("PARGATHER", f"{TOP}/crates/pargather/out/pargather")
    draw = random.Random(7)
    grouped = one_hash(b"\x1c" + bytes(7) + b"\x18" + bytes(3), draw)
    joined = one_hash(b"\x18" + bytes(7), draw)
    query = [program, "--group", "k", "--agg", "count", "--plan", "hash", "--area-pages", "65536", "--workers", "0"]
    join = [program, "join", "k", "2"]
    print("keys  query: one hash, random  join: one hash, random  (processor s)")
    for count in map(int, asked.keys.split(",")):
        others = scattered(draw, count)
        runs = []
        for keys in grouped[:count], others:
            rows = "k\n" + "\n".join(keys) + "\n"
            runs.append((query, rows, count + 1))
        for keys in joined[:count], others:
            rows = "k\n" + "\n".join(keys) + "\n"
            runs.append((join, rows + "%\n" + rows, count + 1))
        least = [float("inf")] * len(runs)
        for _ in range(asked.times):
            for at, (words, text, lines) in enumerate(runs):
                spent, out = processor_seconds(words, text.encode())
                assert out.count(b"\n") == lines, (words, out[:80])
                least[at] = min(least[at], spent)
        print(f"{count:7,}", *(f"{spent:8.3f}" for spent in least), flush=True)


main()
