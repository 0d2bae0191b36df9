#!/usr/bin/env python3
"""Times pargather, parstream and other programs on the same query, and checks each answer.

usage: compare.py [--files a,b,c,d] [--times 5] [--workers 0,1,2,4] [--plans gather] [--only NAME,..] [--cargo FOLDER]
                  [--save FILE.json]

Each program runs once before any runs a second time, so that what else the machine does falls on all alike: trust the
ratios of one run, not its seconds. A program whose first run takes more than 12 s runs once. What each wrote is compared
with the answer of Python's csv module and its integers: keys, counts, sums, minima and maxima exactly, means to four
decimals, and whether the rows are in byte order of the keys.

wall        from the start of the command to its end
processor   user and system time of the command, its children, and of a server that does the work
memory      of the largest of its processes, in MiB, the command's own (starter.py)
to the best wall time over that of the fastest peer that parses quotes and answered rightly

`--files a16` is 16 times the rows of file a (940 MiB), which are above the limits of pargather; it is made if it is asked for.

The files (files.py), the straight Rust program (baseline.rs, by rustc) and what the programs write lie in BENCH_DIR, or
/tmp/lembokuj-bench. The programs are crates/pargather/out/pargather and crates/parstream/out/parstream, as `.ci/run` or
`examples/run` leaves them, or the paths in PARGATHER and PARSTREAM; `--cargo FOLDER` adds what cargo built of the same sources
(the `bin` of `bindings/build`). Programs that are not installed are left out; `clickhouse.sh start` starts a server of Debian's package.
"""
import argparse
import csv
import json
import os
import re
import statistics
import subprocess
import sys
import time
from dataclasses import dataclass
from fractions import Fraction

import files
from queries import FILES, FOLDER, LONG, programs

HERE = os.path.dirname(os.path.abspath(__file__))
SLOW_SECONDS = 12
# Started before this script grows: see there.
STARTER = subprocess.Popen([sys.executable, "-S", f"{HERE}/starter.py"], stdin=subprocess.PIPE, stdout=subprocess.PIPE, text=True)


@dataclass
class Run:
    wall: float
    processor: float
    memory: float


def right_answer(file):
    """Of each key its count, sum, minimum and maximum."""
    groups = {}
    with open(file.path, newline="", encoding="utf-8") as lines:
        rows = csv.reader(lines)
        header = next(rows)
        places, place = [header.index(key) for key in file.keys], header.index(file.value)
        for row in rows:
            key, value = tuple(row[at] for at in places), int(row[place])
            group = groups.setdefault(key, [0, 0, value, value])
            group[0] += 1
            group[1] += value
            group[2] = min(group[2], value)
            group[3] = max(group[3], value)
    return groups


def number(text):
    """The number that a text is, without an error if it is a whole one."""
    try:
        return int(text)
    except ValueError:
        return Fraction(text)


def fault_of_row(row, key_columns, groups):
    """What is wrong with a row of an answer, or None. Takes its group off."""
    group = groups.pop(tuple(row[:key_columns]), None)
    if group is None:
        return f"unknown or repeated key {row[:key_columns]}"
    found = [number(field.strip()) for field in row[key_columns:]]
    if found[:4] != group:
        return f"{row[:key_columns]}: {found[:4]}, not {group}"
    if abs(found[4] - Fraction(group[1], group[0])) > Fraction(1, 10_000):
        return f"{row[:key_columns]}: mean {row[-1]}"
    return None


def is_header(row, key_columns):
    """Whether a row of an answer names the columns."""
    try:
        number(row[key_columns].strip())
        return False
    except ValueError:
        return True


def fault(file, path, groups):
    """What is wrong with an answer, or None."""
    left, last = dict(groups), None
    with open(path, newline="", encoding="utf-8") as lines:
        for at, row in enumerate(csv.reader(lines)):
            if at == 0 and is_header(row, len(file.keys)):
                continue
            wrong = fault_of_row(row, len(file.keys), left)
            if wrong:
                return wrong
            key = [field.encode() for field in row[: len(file.keys)]]
            if last is not None and key < last:
                return f"{row[: len(file.keys)]} is out of order"
            last = key
    return f"{len(left)} groups are missing" if left else None


def processor_of(process):
    """The seconds of a running process so far."""
    with open(f"/proc/{process}/stat", encoding="ascii") as file:
        fields = file.read().rsplit(")", 1)[1].split()
    return (int(fields[11]) + int(fields[12])) / os.sysconf("SC_CLK_TCK")


def largest_of(process):
    with open(f"/proc/{process}/status", encoding="ascii") as file:
        return int(re.search(r"VmHWM:\s+(\d+)", file.read())[1]) / 1024


def run(program, out):
    """Runs a program once. What it writes goes to the file `out`."""
    before = processor_of(program.server) if program.server else 0
    if program.server:
        with open(f"/proc/{program.server}/clear_refs", "w", encoding="ascii") as file:
            file.write("5")
    print(json.dumps([program.command, program.path, out, f"{out}.err"]), file=STARTER.stdin, flush=True)
    wall, user, system, memory, status = json.loads(STARTER.stdout.readline())
    processor, memory = user + system, memory / 1024
    if program.server:
        processor += processor_of(program.server) - before
        memory = largest_of(program.server)
    return Run(wall, processor, memory), status


def measure(file, listed, times):
    """The runs of each program, and what was wrong with its answer."""
    groups = right_answer(file)
    runs, wrong = {program.name: [] for program in listed}, {}
    for turn in range(times):
        for program in listed:
            done = runs[program.name]
            if wrong.get(program.name) or (done and done[0].wall > SLOW_SECONDS):
                continue
            out = f"{FOLDER}/out/{file.name}-{re.sub('[^a-zA-Z0-9]+', '-', program.name)}"
            result, status = run(program, out)
            done.append(result)
            if turn == 0:
                wrong[program.name] = f"status {status}" if status else fault(file, out, groups)
                print(f"  {file.name}, {program.name}: {result.wall:.2f} s, {wrong[program.name] or 'right'}", file=sys.stderr)
            os.remove(out)
    return runs, wrong


def least(runs):
    return Run(min(r.wall for r in runs), min(r.processor for r in runs), max(r.memory for r in runs))


def table(file, listed, runs, wrong):
    """The table of one file, as Markdown."""
    best = min((least(runs[p.name]).wall for p in listed if p.kind == "peer" and not wrong[p.name]), default=float("nan"))
    lines = [f"File {file.name}", "",
             "| program | wall, least s | median s | processor s | MiB | to the best peer |", "|---|--:|--:|--:|--:|--:|"]
    for program in sorted(listed, key=lambda p: least(runs[p.name]).wall):
        low = least(runs[program.name])
        median = statistics.median(r.wall for r in runs[program.name])
        name = program.name + (" (bare columns)" if program.kind == "bare" else "")
        if wrong[program.name]:
            name += f" (wrong: {wrong[program.name][:60]})"
        lines.append(f"| {name} | {low.wall:.3f} | {median:.3f} | {low.processor:.2f} | {low.memory:.0f} | {low.wall / best:.2f} |")
    return "\n".join(lines) + "\n"


def arguments():
    parser = argparse.ArgumentParser(description=__doc__, formatter_class=argparse.RawDescriptionHelpFormatter)
    parser.add_argument("--files", default="a,b,c,d")
    parser.add_argument("--times", type=int, default=5)
    parser.add_argument("--workers", default="0,1,2,4")
    parser.add_argument("--plans", default="gather")
    parser.add_argument("--only", help="the programs whose names begin with one of these")
    parser.add_argument("--cargo", help="the folder of our programs as cargo builds them")
    parser.add_argument("--save", help="a file for all runs, from which plot.py draws")
    return parser.parse_args()


def main():
    asked = arguments()
    os.makedirs(f"{FOLDER}/out", exist_ok=True)
    if not os.path.exists(f"{FOLDER}/data/d.csv"):
        files.make(f"{FOLDER}/data")
    if not os.path.exists(f"{FOLDER}/baseline"):
        subprocess.run(["rustc", "-O", "-o", f"{FOLDER}/baseline", f"{HERE}/baseline.rs"], check=True)
    pargather = os.path.abspath(os.environ.get("PARGATHER", f"{HERE}/../crates/pargather/out/pargather"))
    parstream = os.path.abspath(os.environ.get("PARSTREAM", f"{HERE}/../crates/parstream/out/parstream"))
    saved = {}
    for name in asked.files.split(","):
        file = FILES[name]
        if name in LONG and not os.path.exists(file.path):
            files.make_long(f"{FOLDER}/data")
        listed = programs(file, pargather, parstream, asked.workers.split(","), asked.plans.split(","), asked.cargo)
        if asked.only:
            listed = [p for p in listed if p.name.startswith(tuple(asked.only.split(",")))]
        runs, wrong = measure(file, listed, asked.times)
        print(table(file, listed, runs, wrong), flush=True)
        saved[name] = {p.name: {"kind": p.kind, "runs": [vars(r) for r in runs[p.name]]} for p in listed}
    if asked.save:
        with open(asked.save, "w", encoding="utf-8") as out:
            json.dump(saved, out, indent=1)


if __name__ == "__main__":
    main()
