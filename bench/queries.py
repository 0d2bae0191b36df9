"""The one query of the benchmark, as each program is asked it.

The query: group by the key columns; count, sum, minimum, maximum and mean of the value column; sorted by key; as CSV. A
program gets its file on the standard input. `programs(file, ..)` lists those that are installed.
"""
import os
import shlex
import shutil
import subprocess
from dataclasses import dataclass

FOLDER = os.environ.get("BENCH_DIR", "/tmp/lembokuj-bench")
CLICKHOUSE_PORT = 19000


@dataclass
class File:
    name: str
    keys: list
    value: str
    columns: list
    bare: str = ""  # a file with only the key columns and the value, unquoted

    @property
    def path(self):
        return f"{FOLDER}/data/{self.name}.csv"

    @property
    def bare_path(self):
        return f"{FOLDER}/data/{self.bare or self.name}.csv"

    @property
    def bare_columns(self):
        return self.keys + [self.value] if self.bare else self.columns


FILES = {
    "a": File("a", ["g"], "v", ["g", "v"]),
    "b": File("b", ["region", "item"], "amount",
              "id,region,name,item,comment,amount,qty,day,note,code,flag,tail".split(","), bare="b_bare"),
    "c": File("c", ["k"], "v", ["k", "v"]),
    "d": File("d", ["g"], "v", ["g", "v"]),
    "a16": File("a16", ["g"], "v", ["g", "v"]),
}
# Files above the limits of pargather, which only parstream is asked of ours.
LONG = {"a16"}


@dataclass
class Program:
    name: str
    command: str
    path: str
    kind: str  # ours; limit, straight Rust over std; peer; bare, a peer that cannot parse quotes
    server: int = 0  # the process that does the work, if it is not the command's


PANDAS = """import sys, pandas
keys, value = {keys!r}, {value!r}
rows = pandas.read_csv(sys.stdin.buffer, usecols=keys + [value], dtype={{key: str for key in keys}})
rows.groupby(keys, sort=True)[value].agg(['count', 'sum', 'min', 'max', 'mean']).to_csv(sys.stdout)"""

DATA_TABLE = """suppressMessages(library(data.table)); setDTthreads({threads})
rows <- fread(file={path!r}, select=c({names}), colClasses=list(character=c({keys})), showProgress=FALSE)
rows[, {value} := as.numeric({value})]
fwrite(rows[, .(.N, sum({value}), min({value}), max({value}), mean({value})), keyby=c({keys})], '', scipen=999L)"""

AWK = """NR > 1 {{
    key = {key}; value = ${value} + 0
    if (!(key in count)) {{ least[key] = value; greatest[key] = value }}
    count[key]++; sum[key] += value
    if (value < least[key]) least[key] = value
    if (value > greatest[key]) greatest[key] = value
}}
END {{
    for (key in count)
        printf "%s,%d,%.0f,%.0f,%.0f,%.9f\\n", key, count[key], sum[key], least[key], greatest[key], sum[key] / count[key]
}}"""


def counted(count, word):
    return f"{count} {word}" if count == 1 else f"{count} {word}s"


def ours(file, pargather, parstream, workers, plans, build=""):
    value = file.value
    items = f"count,sum:{value},min:{value},max:{value},avg:{value}"
    words = ["--group", ",".join(file.keys), "--agg", items]
    for plan in [] if file.name in LONG else plans:
        for count in workers:
            yield f"pargather{build}, {plan}, {counted(int(count), 'worker')}", [pargather, *words, "--plan", plan, "--workers", str(count)]
    for count in workers:
        yield f"parstream{build}, {counted(int(count), 'worker')}", [parstream, *words, "--workers", str(count)]


def sql(file, table):
    keys, value = ",".join(file.keys), file.value
    return (f"SELECT {keys}, count(*), sum({value}), min({value}), max({value}), avg({value}) FROM {table}"
            f" GROUP BY {keys} ORDER BY {keys}")


def sqlite(file):
    columns = ", ".join(f"{name} {'INTEGER' if name == file.value else 'TEXT'}" for name in file.columns)
    return ["sqlite3", ":memory:", f"CREATE TABLE t({columns})", ".mode csv", ".import --skip 1 /dev/stdin t", sql(file, "t")]


def data_table(file, threads):
    quote = lambda names: ",".join(f"'{name}'" for name in names)
    text = DATA_TABLE.format(threads=threads, path=file.path, names=quote(file.keys + [file.value]), keys=quote(file.keys),
                             value=file.value)
    return ["Rscript", "--vanilla", "-e", text]


def clickhouse(file):
    types = ",".join(f"{name} {'Int64' if name == file.value else 'String'}" for name in file.columns)
    return ["clickhouse-client", "--host", "127.0.0.1", "--port", str(CLICKHOUSE_PORT), "--max_threads", "4", "--query",
            sql(file, "t") + " FORMAT CSV", "--external", "--file=-", "--name=t", "--format=CSVWithNames", f"--structure={types}"]


def awk(program, file):
    places = [file.bare_columns.index(name) + 1 for name in file.keys + [file.value]]
    key = '","'.join(f"${place}" for place in places[:-1])
    text = AWK.format(key=key, value=places[-1])
    return f"LC_ALL=C {program} -F, {shlex.quote(text)} | LC_ALL=C sort -t, -k1,{len(file.keys)}"


def datamash(file):
    places = [file.bare_columns.index(name) + 1 for name in file.keys]
    value = file.bare_columns.index(file.value) + 1
    asked = " ".join(f"{word} {value}" for word in ["count", "sum", "min", "max", "mean"])
    return f"LC_ALL=C datamash -t, --header-in -s --format %.9f -g {','.join(map(str, places))} {asked}"


def has_pandas():
    return subprocess.run(["/usr/bin/python3", "-c", "import pandas"], capture_output=True).returncode == 0


def clickhouse_server():
    """The number of the server's process, 0 if `clickhouse.sh start` was not called."""
    try:
        with open(f"{FOLDER}/clickhouse/pid", encoding="ascii") as file:
            number = int(file.read())
        os.kill(number, 0)
        return number
    except (OSError, ValueError):
        return 0


def programs(file, pargather, parstream, workers, plans, by_cargo=None):
    """All programs that are there, each with its command for this file. by_cargo: the folder of our programs as cargo builds them."""
    listed = []

    def add(name, command, kind="peer", path=file.path, server=0):
        text = command if isinstance(command, str) else shlex.join(command)
        listed.append(Program(name, text, path, kind, server))

    for name, words in ours(file, pargather, parstream, workers, plans):
        add(name, words, "ours")
    if by_cargo:
        for name, words in ours(file, f"{by_cargo}/pargather", f"{by_cargo}/parstream", workers, plans, " by cargo"):
            add(name, words, "ours")
    for threads in (1, 4):
        words = [f"{FOLDER}/baseline", ",".join(file.keys), file.value, str(threads)]
        add(f"straight Rust, {counted(threads, 'thread')}", words, "limit")
    bare = "bare" if file.bare else "peer"
    for name in ("mawk", "gawk"):
        if shutil.which(name):
            add(name, awk(name, file), bare, file.bare_path)
    if shutil.which("datamash"):
        add("datamash", datamash(file), bare, file.bare_path)
    if shutil.which("mlr"):
        keys = ",".join(file.keys)
        add("mlr", ["mlr", "--icsv", "--ocsv", "stats1", "-a", "count,sum,min,max,mean", "-f", file.value, "-g", keys,
                    "then", "sort", "-f", keys])
    if shutil.which("sqlite3"):
        add("sqlite3", sqlite(file))
    if has_pandas():
        add("pandas", ["/usr/bin/python3", "-c", PANDAS.format(keys=file.keys, value=file.value)])
    if shutil.which("Rscript"):
        for threads in (1, 4):
            add(f"data.table, {counted(threads, 'thread')}", data_table(file, threads))
    server = clickhouse_server()
    if server:
        add("ClickHouse, 4 threads", clickhouse(file), server=server)
    return listed
