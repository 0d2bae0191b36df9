#!/usr/bin/env python3
"""Times parstream on inputs that grow in one way at a time: columns, bytes of a key, groups, rows and workers.

usage: growth.py [--times 3] [--only columns,keys,groups,rows,workers] [--small]

Each line is a table row: what grows, the input's MiB, and for each number of workers the least wall time of the runs, the
nanoseconds of it for each row, and the largest memory in MiB. The program is crates/parstream/out/parstream, as `.ci/run`
leaves it, or the path in PARSTREAM. The inputs are made in BENCH_DIR, or /tmp/lembokuj-bench, and removed again; `rows`
and `workers` read the files of files.py there. `--small` makes a hundredth of each, which shows that all runs and
measures nothing.
"""
import argparse
import itertools
import json
import os
import random
import subprocess
import sys

import files

HERE = os.path.dirname(os.path.abspath(__file__))
FOLDER = os.environ.get("BENCH_DIR", "/tmp/lembokuj-bench")
PARSTREAM = os.environ.get("PARSTREAM", f"{HERE}/../crates/parstream/out/parstream")
KINDS = ["columns", "keys", "groups", "rows", "workers"]
# Started before this script grows: see there.
STARTER = subprocess.Popen([sys.executable, "-S", f"{HERE}/starter.py"], stdin=subprocess.PIPE, stdout=subprocess.PIPE, text=True)


def run(words, source, before=""):
    """The seconds and the MiB of a run of parstream with these words, at the end of this pipe."""
    ask = [f"{before}{PARSTREAM} {words}", source, f"{FOLDER}/growth.out", f"{FOLDER}/growth.err"]
    print(json.dumps(ask), file=STARTER.stdin, flush=True)
    wall, _, _, memory, status = json.loads(STARTER.stdout.readline())
    if status:
        sys.exit(f"growth: {words} ended with {status}: {open(ask[3], errors='replace').read()}")
    return wall, memory / 1024


def row(label, rows, size, words, source, workers, times, before=""):
    """Prints a table's row: each number of workers takes its turn before any has a second one."""
    found = {number: [] for number in workers}
    for _ in range(times):
        for number in workers:
            found[number].append(run(f"{words} --workers {number}", source, before))
    cells = [f"{min(it)[0]:.2f} | {min(it)[0] / rows * 1e9:.0f} | {max(mib for _, mib in it):.0f}" for it in found.values()]
    print(f"| {label} | {size / 2**20:.0f} | " + " | ".join(cells) + " |", flush=True)


def head(what, workers):
    print(f"\n| {what} | input MiB | " + " | ".join(f"{it} workers: s | ns a row | MiB" for it in workers) + " |")
    print("|---|--:|" + "--:|--:|--:|" * len(workers))


def made(lines):
    """Writes these lines to a file, and gives its path and size."""
    path = f"{FOLDER}/growth.csv"
    with open(path, "w", encoding="utf-8", newline="") as out:
        out.writelines(lines)
    return path, os.path.getsize(path)


def table_of_columns(times, part):
    head("columns", [0, 4])
    for columns in (1, 2, 4, 10, 30, 100):
        rows, draw = 6_000_000 // columns // part, random.Random(5)
        rest = "".join(f",text{at:04d}" for at in range(columns - 2))
        header = "g,v" + "".join(f",c{at}" for at in range(columns - 2)) + "\n"
        lines = (f"g{draw.randrange(1000):03d},{draw.randrange(10**9)}{rest}\n" for _ in range(rows))
        items = "count,sum:v"
        if columns == 1:
            header, items = "g\n", "count"
            lines = (f"g{draw.randrange(1000):03d}\n" for _ in range(rows))
        path, size = made(itertools.chain([header], lines))
        row(columns, rows, size, f"--group g --agg {items}", path, [0, 4], times)


def table_of_keys(times, part):
    head("bytes of a key", [0, 4])
    for width in (8, 16, 32, 64, 128, 244):
        rows, draw = 1_000_000 // part, random.Random(6)
        path, size = made(["g,v\n"] + [f"{draw.randrange(100_000):0{width}d},{at}\n" for at in range(rows)])
        row(width, rows, size, "--group g --agg count,sum:v", path, [0, 4], times)


def table_of_groups(times, part):
    head("groups of 10,000,000 rows", [0, 4])
    for groups in (1_000, 10_000, 100_000, 1_000_000, 10_000_000):
        rows, draw = 10_000_000 // part, random.Random(7)
        path, size = made(["g,v\n"] + [f"k{int(draw.random() * groups):08d},{at}\n" for at in range(rows)])
        row(f"{groups:,}", rows, size, "--group g --agg count,sum:v", path, [0, 4], times)


def table_of_rows(times, part):
    head("times file a", [0, 4])
    size = os.path.getsize(f"{FOLDER}/a.csv")
    for often in (1, 4, 16, 64):
        copies = max(often // part, 1)
        again = f"(cat; for n in $(seq {copies - 1}); do tail -n +2 {FOLDER}/a.csv; done) | "
        row(often, 4_000_000 * copies, size * copies, "--group g --agg count,sum:v", f"{FOLDER}/a.csv", [0, 4], times, again)


def table_of_workers(times, part):
    workers = [0, 1, 2, 4, 8, 16, 64]
    head("file", workers)
    for name, keys, value, rows in (("a", "g", "v", 4_000_000), ("b", "region,item", "amount", 600_000), ("c", "k", "v", 2_000_000)):
        path = f"{FOLDER}/{name}.csv"
        row(name, rows, os.path.getsize(path), f"--group {keys} --agg count,sum:{value}", path, workers, times)


def main():
    parser = argparse.ArgumentParser(usage=__doc__)
    parser.add_argument("--times", type=int, default=3)
    parser.add_argument("--only", default=",".join(KINDS))
    parser.add_argument("--small", action="store_true")
    given = parser.parse_args()
    os.makedirs(FOLDER, exist_ok=True)
    if not os.path.exists(f"{FOLDER}/c.csv"):
        files.make(FOLDER)
    for kind in given.only.split(","):
        globals()[f"table_of_{kind}"](given.times, 100 if given.small else 1)
    for name in ("growth.csv", "growth.out", "growth.err"):
        if os.path.exists(f"{FOLDER}/{name}"):
            os.remove(f"{FOLDER}/{name}")


if __name__ == "__main__":
    main()
