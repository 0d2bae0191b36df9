#!/usr/bin/env python3
"""Times `pargather join`, `pargather merge` and other programs, and checks each answer.

usage: rows.py [--tasks join,a,b] [--times 3] [--workers 0,1,2,4] [--only NAME,..]

    join  left.csv, 600,000 rows of id,k,amount, with right.csv, 100,000 rows of k,weight: one pair for each left row
    a     a.csv of files.py, 4,000,000 rows, in order of the column g
    b     b.csv of files.py, 600,000 rows with quoted text, in order of the columns region and item

Each program runs once before any runs a second time: trust the ratios of one run, not its seconds. A program whose first
run takes more than 12 s runs once. Ours and a stable sort have to write exactly the rows that Python's csv module gives,
in that order; of the others the rows are compared as a set, and the order of the keys.

`sort` and `join` are those of coreutils, with LC_ALL=C. They know no quotes, so b.csv is not theirs. PostgreSQL's time
has the COPY of the tables in it; its processes are not the command's, so their time and memory are not told. The files
and what the programs write lie in BENCH_DIR, or /tmp/lembokuj-bench. The program is crates/pargather/out/pargather, or
the path in PARGATHER. Programs that are not installed are left out; `clickhouse.sh start` and `postgres.sh start` start
servers of Debian's packages.
"""
import argparse
import csv
import os
import random
import re
import shlex
import shutil
import statistics
import sys
from dataclasses import dataclass
from functools import lru_cache

import files
from compare import HERE, SLOW_SECONDS, least, run
from queries import CLICKHOUSE_PORT, FOLDER, Program, clickhouse_server, counted

DATA = f"{FOLDER}/data"


@dataclass
class Task:
    """One thing that is asked: what the columns are, those that give the order, and the file on standard input."""
    name: str
    columns: list
    keys: list
    path: str


TASKS = {
    "join": Task("join", ["id", "k", "amount", "k", "weight"], [], f"{DATA}/both.csv"),
    "a": Task("a", ["g", "v"], ["g"], f"{DATA}/a.csv"),
    "b": Task("b", "id,region,name,item,comment,amount,qty,day,note,code,flag,tail".split(","), ["region", "item"], f"{DATA}/b.csv"),
}


def make_tables():
    """The two tables of the join, and both in one file with the line that parts them."""
    below = random.Random(5).random
    keys = [f"region {group // 500:03d}/item{group % 500:03d}" for group in range(100_000)]
    left = "id,k,amount\n" + "".join(f"{row},{keys[int(below() * 100_000)]},{int(below() * 2_000_000) - 1_000_000}\n" for row in range(600_000))
    random.Random(6).shuffle(keys)
    right = "k,weight\n" + "".join(f"{key},{int(below() * 1000)}\n" for key in keys)
    files.write(f"{DATA}/left.csv", [left])
    files.write(f"{DATA}/right.csv", [right])
    files.write(f"{DATA}/both.csv", [left, "%\n", right])


def rows_of(path):
    """The records of a file but its header."""
    with open(path, newline="", encoding="utf-8") as lines:
        rows = csv.reader(lines)
        next(rows)
        return [tuple(row) for row in rows]


@lru_cache(maxsize=1)
def right_answer(name):
    """The records that are wanted, in order."""
    task = TASKS[name]
    if name == "join":
        weights = dict(rows_of(f"{DATA}/right.csv"))
        return [(*row, row[1], weights[row[1]]) for row in rows_of(f"{DATA}/left.csv") if row[1] in weights]
    places = [task.columns.index(key) for key in task.keys]
    return sorted(rows_of(task.path), key=lambda row: [row[place].encode() for place in places])


def fault(task, path, is_exact, has_header):
    """What is wrong with an answer, or None. A join of others may leave out the second `k`."""
    with open(path, newline="", encoding="utf-8") as lines:
        found = [tuple(row) for row in csv.reader(lines)][1 if has_header else 0:]
    wanted = right_answer(task.name)
    if is_exact:
        return None if found == wanted else "other rows, or another order"
    if task.name == "join":
        wanted = [(row[0], row[1], row[2], row[4]) for row in wanted]
    places = [task.columns.index(key) for key in task.keys]
    if [[row[place] for place in places] for row in found] != [[row[place] for place in places] for row in wanted]:
        return "another order"
    return None if sorted(found) == sorted(wanted) else "other rows"


def sqlite(task):
    if task.name == "join":
        text = [".mode csv", "CREATE TABLE l(id, k TEXT, amount)", f".import --skip 1 {DATA}/left.csv l", "CREATE TABLE r(k TEXT, weight)",
                f".import --skip 1 {DATA}/right.csv r", "CREATE INDEX i ON r(k)", "SELECT id, l.k, amount, weight FROM l JOIN r ON l.k = r.k"]
    else:
        columns = ", ".join(f"{name} TEXT" for name in task.columns)
        text = [".mode csv", f"CREATE TABLE t({columns})", ".import --skip 1 /dev/stdin t", f"SELECT * FROM t ORDER BY {', '.join(task.keys)}"]
    return ["sqlite3", ":memory:", *text]


def data_table(task):
    begin = "suppressMessages(library(data.table)); setDTthreads(4); "
    if task.name == "join":
        text = (f"l <- fread('{DATA}/left.csv'); r <- fread('{DATA}/right.csv'); "
                "fwrite(r[l, on='k', nomatch=NULL][, .(id, k, amount, weight)], '', scipen=999L)")
    else:
        keys = ", ".join(task.keys)
        text = f"t <- fread('{task.path}', colClasses='character'); setorder(t, {keys}); fwrite(t, '', quote='auto', na='')"
    return ["Rscript", "--vanilla", "-e", begin + text]


def clickhouse(task):
    words = ["clickhouse-client", "--host", "127.0.0.1", "--port", str(CLICKHOUSE_PORT), "--max_threads", "4"]
    given = lambda name, path, columns: ["--external", f"--file={path}", f"--name={name}", "--format=CSVWithNames",
                                        "--structure=" + ",".join(f"{column} String" for column in columns)]
    if task.name == "join":
        return words + ["--query", "SELECT id, k, amount, weight FROM l ANY INNER JOIN r USING k FORMAT CSV",
                        *given("l", f"{DATA}/left.csv", ["id", "k", "amount"]), *given("r", f"{DATA}/right.csv", ["k", "weight"])]
    return words + ["--query", f"SELECT * FROM t ORDER BY {', '.join(task.keys)} FORMAT CSV", *given("t", "-", task.columns)]


def postgres(task):
    psql = ["psql", "-q", "-h", f"{FOLDER}/postgres", "-U", "bench", "postgres", "-v", "ON_ERROR_STOP=1"]
    table = lambda name, columns: ["-c", f"CREATE UNLOGGED TABLE {name}({', '.join(f'{column} text' for column in columns)})"]
    drop = ["-c", "DROP TABLE IF EXISTS l, r, t"]
    if task.name == "join":
        return psql + [*drop, *table("l", ["id", "k", "amount"]), *table("r", ["k", "weight"]), "-c", f"\\copy l from '{DATA}/left.csv' csv header",
                       "-c", f"\\copy r from '{DATA}/right.csv' csv header", "-c", "ANALYZE l", "-c", "ANALYZE r",
                       "-c", "\\copy (SELECT id, l.k, amount, weight FROM l JOIN r ON l.k = r.k) to stdout csv"]
    return psql + [*drop, *table("t", task.columns), "-c", f"\\copy t from '{task.path}' csv header", "-c", "ANALYZE t",
                   "-c", f"\\copy (SELECT * FROM t ORDER BY {', '.join(task.keys)}) to stdout csv"]


def coreutils(task):
    if task.name == "join":
        body = lambda name, key: f"tail -n +2 {DATA}/{name}.csv | sort -t, -k{key},{key} > {FOLDER}/out/{name}"
        return (f"export LC_ALL=C; {body('left', 2)} & {body('right', 1)}; wait; "
                f"join -t, -1 2 -2 1 -o 1.1,0,1.3,2.2 {FOLDER}/out/left {FOLDER}/out/right")
    return "export LC_ALL=C; tail -n +2 | sort -s -t, -k1,1"


def mlr(task):
    if task.name == "join":
        return ["mlr", "--icsv", "--ocsv", "join", "-j", "k", "-f", f"{DATA}/right.csv", "then", "reorder", "-f", "id,k,amount,weight", f"{DATA}/left.csv"]
    return ["mlr", "--icsv", "--ocsv", "sort", "-f", ",".join(task.keys)]


def programs(task, pargather, workers):
    """All programs that are there, each with whether its order has to be exact and whether it writes a header."""
    listed = []

    def add(name, command, kind="peer", is_exact=False, has_header=False, server=0):
        text = command if isinstance(command, str) else shlex.join(command)
        listed.append((Program(name, text, task.path, kind, server), is_exact, has_header))

    for count in workers:
        words = ["join", "k"] if task.name == "join" else ["merge", ",".join(task.keys)]
        add(f"pargather, {counted(int(count), 'worker')}", [pargather, *words, count], "ours", True, True)
    if task.name != "b":
        add("sort and join" if task.name == "join" else "sort", coreutils(task), is_exact=task.name == "a")
    if shutil.which("mlr"):
        add("mlr", mlr(task), has_header=True)
    if shutil.which("sqlite3"):
        add("sqlite3", sqlite(task))
    if shutil.which("Rscript"):
        add("data.table, 4 threads", data_table(task), has_header=True)
    if os.path.exists(f"{FOLDER}/postgres/data/postmaster.pid"):
        add("PostgreSQL, 4 workers", postgres(task), "server")
    if clickhouse_server():
        add("ClickHouse, 4 threads", clickhouse(task), server=clickhouse_server())
    return listed


def measure(task, listed, times):
    """The runs of each program, and what was wrong with its answer."""
    runs, wrong = {program.name: [] for program, _, _ in listed}, {}
    for turn in range(times):
        for program, is_exact, has_header in listed:
            done = runs[program.name]
            if wrong.get(program.name) or (done and done[0].wall > SLOW_SECONDS):
                continue
            out = f"{FOLDER}/out/{task.name}-{re.sub('[^a-zA-Z0-9]+', '-', program.name)}"
            result, status = run(program, out)
            done.append(result)
            if turn == 0:
                wrong[program.name] = f"status {status}" if status else fault(task, out, is_exact, has_header)
                print(f"  {task.name}, {program.name}: {result.wall:.2f} s, {wrong[program.name] or 'right'}", file=sys.stderr)
            os.remove(out)
    return runs, wrong


def table(task, listed, runs, wrong):
    """The table of one task, as Markdown."""
    best = min((least(runs[p.name]).wall for p, _, _ in listed if p.kind != "ours" and not wrong[p.name]), default=float("nan"))
    lines = [f"Task {task.name}", "", "| program | wall, least s | median s | processor s | MiB | to the best peer |", "|---|--:|--:|--:|--:|--:|"]
    for program, _, _ in sorted(listed, key=lambda it: least(runs[it[0].name]).wall):
        low, median = least(runs[program.name]), statistics.median(r.wall for r in runs[program.name])
        name = program.name + (f" (wrong: {wrong[program.name][:60]})" if wrong[program.name] else "")
        used = "- | -" if program.kind == "server" else f"{low.processor:.2f} | {low.memory:.0f}"
        lines.append(f"| {name} | {low.wall:.2f} | {median:.2f} | {used} | {low.wall / best:.2f} |")
    return "\n".join(lines) + "\n"


def main():
    words = argparse.ArgumentParser(description=__doc__, formatter_class=argparse.RawDescriptionHelpFormatter)
    words.add_argument("--tasks", default="join,a,b")
    words.add_argument("--times", type=int, default=3)
    words.add_argument("--workers", default="0,1,2,4")
    words.add_argument("--only", help="the programs whose names begin with one of these")
    asked = words.parse_args()
    os.makedirs(f"{FOLDER}/out", exist_ok=True)
    if not os.path.exists(f"{DATA}/d.csv"):
        files.make(DATA)
    if not os.path.exists(f"{DATA}/both.csv"):
        make_tables()
    pargather = os.path.abspath(os.environ.get("PARGATHER", f"{HERE}/../crates/pargather/out/pargather"))
    for name in asked.tasks.split(","):
        task = TASKS[name]
        listed = programs(task, pargather, asked.workers.split(","))
        if asked.only:
            listed = [it for it in listed if it[0].name.startswith(tuple(asked.only.split(",")))]
        runs, wrong = measure(task, listed, asked.times)
        print(table(task, listed, runs, wrong), flush=True)


if __name__ == "__main__":
    main()
