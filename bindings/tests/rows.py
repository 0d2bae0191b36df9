#!/usr/bin/env python3
"""Whether the built programs write the bytes that the repository keeps for the proved ones.

Takes the folder of the programs. The rows are those of examples/expected and examples/shell/expected, each command
as it stands there, the standard input and output of the programs' crates, and what parstream says of words and of inputs
that it refuses, as docs/SEMANTICS.md has it, and what is said if a standard stream can't be read or written.
"""

import os
import re
import subprocess
import sys

REPOSITORY = os.path.abspath(os.path.join(os.path.dirname(os.path.abspath(__file__)), "..", ".."))

# Words and an input of parstream, and its output, its line and its status.
STREAMS = [
    ("--agg count", b"g\n1\n", b"count\n1\n", b"", 0),
    ("", b"g\n", b"", b"parstream: a word is missing at the end: --agg ITEMS is missing; see parstream --help\n", 2),
    (
        "--agg mean:v",
        b"v\n1\n",
        b"",
        b'parstream: "mean:v" is not understood: --agg takes one to eight of count, count:C, sum:C, min:C, max:C and avg:C'
        b" between commas, without spaces; see parstream --help\n",
        2,
    ),
    (
        "--where g<\x1b[1m --agg count",
        b"g\n1\n",
        b"",
        b'parstream: "g<\\x1b[1m" is not understood: --where takes a column, one of = != < <= > >=, and an integer, or a'
        b" decimal with --decimals, as in 'qty>=10'; after = and != also a text, as in region=north; see parstream --help\n",
        2,
    ),
    (
        "--agg count --plan hash",
        b"g\n1\n",
        b"",
        b'parstream: "--plan" is not understood: the options are --group, --agg, --where, --decimals, --separator,'
        b" --null, --trim, --workers, --order, --limit, --output, --skip-bad and --no-header; the input is the standard"
        b" input, as in < FILE; see parstream --help\n",
        2,
    ),
    (
        "--agg count --agg=sum:v",
        b"v\n1\n",
        b"",
        b'parstream: "--agg=sum:v" is not understood: this option may be given once; see parstream --help\n',
        2,
    ),
    (
        "--agg count --workers",
        b"v\n1\n",
        b"",
        b"parstream: a word is missing at the end: --workers takes a number from 0 to 64; see parstream --help\n",
        2,
    ),
    (
        "--agg sum:v --decimals two",
        b"v\n1\n",
        b"",
        b'parstream: "two" is not understood: --decimals takes a number from 0 to 18, or one for each column, as in'
        b" 'price=2,weight=3'; see parstream --help\n",
        2,
    ),
    (
        "--agg \udcff",
        b"v\n1\n",
        b"",
        b"parstream: usage: parstream [--group COLUMNS] --agg ITEMS [--where FILTER].. [--decimals PLACES]"
        b" [--separator BYTE] [--null TEXTS] [--trim] [--workers N]\n",
        2,
    ),
    (
        "--agg count",
        b"\x1f\x8b\x08\x00\x00\x00\x00\x00\x00\x03",
        b"",
        b"parstream: the input is compressed by gzip: zcat FILE | parstream ..\n",
        2,
    ),
    ("--agg count", b"\xfd7zXZ\x00\x00\x04", b"", b"parstream: the input is compressed by xz: xzcat FILE | parstream ..\n", 2),
    ("--agg count", b"\x28\xb5\x2f\xfd\x04\x00", b"", b"parstream: the input is compressed by zstd: zstdcat FILE | parstream ..\n", 2),
    (
        "--agg count",
        b"PK\x03\x04\x14\x00",
        b"",
        b"parstream: the input is a zip archive: unzip -p FILE | parstream .., or save a spreadsheet as CSV\n",
        2,
    ),
    (
        "--agg count",
        b"PAR1\x15\x04\x15",
        b"",
        b"parstream: the input is Parquet: duckdb -csv -c \"FROM 'FILE'\" | parstream ..\n",
        2,
    ),
    (
        "--agg count",
        b"SQLite format 3\0\x10\0\x01\x01",
        b"",
        b"parstream: the input is an SQLite database: sqlite3 -csv -header FILE 'SELECT * FROM t' | parstream ..\n",
        2,
    ),
    ("--agg count", b"\n <!doctype html>\n<p>", b"", b"parstream: the input is HTML: save its table as CSV\n", 2),
    ("--agg count", b"<g>,SQLite format 3\n1,2\n", b"count\n1\n", b"", 0),
    (
        "--agg count",
        "g,v\n".encode("utf-16"),
        b"",
        b"parstream: the input is UTF-16: iconv -f UTF-16 -t UTF-8 FILE | parstream ..\n",
        2,
    ),
    (
        "--agg count",
        "g,v\n".encode("utf-16-le"),
        b"",
        b"parstream: the input is UTF-16: iconv -f UTF-16LE -t UTF-8 FILE | parstream ..\n",
        2,
    ),
    (
        "--agg count",
        "g,v\n".encode("utf-16-be"),
        b"",
        b"parstream: the input is UTF-16: iconv -f UTF-16BE -t UTF-8 FILE | parstream ..\n",
        2,
    ),
    (
        "--group g --agg sum:v --skip-bad 2",
        b"g,v\na,1\nb,x\na,2\nc\n",
        b"g,sum(v)\na,3\n",
        b'parstream: rows left out: 2; the first: row 2 (line 3): column "v" is not an integer: "x"; see --null\n',
        0,
    ),
    (
        "--group g --agg sum:v --skip-bad=1",
        b"g,v\na,1\nb,x\na,2\nc\n",
        b"",
        b'parstream: row 2 (line 3): column "v" is not an integer: "x"; see --null\n',
        1,
    ),
    ("--agg sum:v --skip-bad 1", b"v\n1\n2\n", b"sum(v)\n3\n", b"", 0),
    ("--agg count --where PAR1=1", b"PAR1,PK\n1,2\n3,4\n", b"count\n1\n", b"", 0),
    ("--agg count --where g=a --where v!= --where=v<2", b"g,v\na,1\na,\nb,x\na,2\n", b"count\n1\n", b"", 0),
    ("--group g --agg sum:v --separator ;", b'g;v\na;1\n"b;c,d";2\n', b'g,sum(v)\na,1\n"b;c,d",2\n', b"", 0),
    ("--group g --agg sum:v --separator tab", b"g\tv\na,b\t1\n\t2\n", b'g,sum(v)\n,2\n"a,b",1\n', b"", 0),
    ("--agg count:v,sum:v --null NA,NULL,-", b"v\n1\nNA\n-\nNULL\n\"NA\"\n-5\n", b"count(v),sum(v)\n2,-4\n", b"", 0),
    ("--group g --agg count:v --trim --null NA", b'g , v\na, NA\n a ,1\n"a ",\tx\t\n', b"g,count(v)\na,2\n", b"", 0),
    (
        "--agg count --separator ab",
        b"g\n1\n",
        b"",
        b'parstream: "ab" is not understood: --separator takes one character of ASCII that is no quote and ends no line, or'
        b" tab; see parstream --help\n",
        2,
    ),
    (
        "--agg count --null 1,2,3,4,5,6,7,8,9",
        b"g\n1\n",
        b"",
        b'parstream: "1,2,3,4,5,6,7,8,9" is not understood: --null takes one to eight texts between commas, at most 248 bytes'
        b" in all; see parstream --help\n",
        2,
    ),
    (
        "--agg count --trim=yes",
        b"g\n1\n",
        b"",
        b'parstream: "--trim=yes" is not understood: --trim takes no value; see parstream --help\n',
        2,
    ),
    ('--agg count --where g="1"', b"g\n1\n01\n", b"count\n1\n", b"", 0),
    ("--agg count --where g=a --where v<2", b"g,v\nb,x\na,x\n", b"", b"parstream: row 2 (line 3): filter column \"v\" is not an integer: \"x\"; see --null\n", 1),
    (
        "--agg sum:price,avg:price --where price>=-2.0 --decimals price=2",
        b"price\n1.50\n-2\n+.5\n\n",
        b"sum(price),avg(price)\n0.00,0.000000\n",
        b"",
        0,
    ),
    (
        "--agg sum:price --decimals 1",
        b"price\n1.5\n1.50\n",
        b"",
        b'parstream: row 2 (line 3): column "price" is not a decimal with at most 1 place: "1.50"\n',
        1,
    ),
    (
        "--agg sum:v",
        b'g,v\r\n"a\r\nb",1\r\n\r\nc,x\r\n',
        b"",
        b'parstream: row 2 (line 5): column "v" is not an integer: "x"; see --null\n',
        1,
    ),
    (
        "--agg sum:v",
        b'g,v\na,1\n"b\nc","2\nd,3\ne,4\n',
        b"",
        b'parstream: row 2 (line 3): column "v" is not an integer: "2\\x0ad,3\\x0ae,4\\x0a"; the quote in line 4 is not closed\n',
        1,
    ),
    (
        "--agg count",
        b'g,v\n"a\nb"\n"c',
        b"",
        b"parstream: row 1 (line 2): wrong number of fields: 1, the header has 2\n",
        1,
    ),
    (
        "--group g --agg sum:v",
        b"g,v,g,v,g\na,1,b,2,c\n",
        b"",
        b'parstream: the header has column "g" twice: fields 1 and 3\n',
        2,
    ),
    ("--group g --agg count", b"g,v,v\na,1,2\n", b"g,count\na,1\n", b"", 0),
    (
        "partial --agg count --where =trim",
        b"g\n1\n",
        b"",
        b"parstream: usage: parstream partial [--source I/N] [--bytes FROM[-TO] --size SIZE] [--group COLUMNS] --agg ITEMS .."
        b" < PART > STATES\n",
        2,
    ),
    (
        "partial --agg count --no-header",
        b"1\n",
        b"",
        b"parstream: partial takes no --no-header: the parts of a table need its header\n",
        2,
    ),
    (
        "partial --agg count --skip-bad=3",
        b"g\n1\n",
        b"",
        b"parstream: partial takes no --skip-bad: a file of states leaves out no rows\n",
        2,
    ),
]

# Where the standard input and output of a program come from that counts two records, and its line and status.
FAULTS = [
    ("<&-", b"read fault", 3),
    ("0>/dev/null", b"read fault", 3),
    ("</", b"read fault", 3),
    (">&-", b"write fault", 4),
    ("1</dev/null", b"write fault", 4),
    ("</dev/null", b"no header", 2),
]


def read(path):
    """The bytes of a file of the repository, or None if there is none."""
    path = os.path.join(REPOSITORY, path)
    if not os.path.exists(path):
        return None
    with open(path, "rb") as file:
        return file.read()


def commands(path):
    """The commands of a file of expected output, each a line that begins with a dollar, with the text behind it."""
    parts = re.split(rb"^\$ (.*)\n", read(path), flags=re.M)
    return list(zip(parts[1::2], parts[2::2]))


def run(programs, line):
    """What a command line writes, with the built programs in place of those that are installed."""
    environment = {**os.environ, "PATH": programs + os.pathsep + os.environ["PATH"]}
    return subprocess.run(["bash", "-c", line], cwd=REPOSITORY, env=environment, capture_output=True, check=False)


def shown(result):
    """What the examples show of a command: its output, its lines on the standard error, and a status other than 0."""
    errors = b"".join(b"stderr: " + line + b"\n" for line in result.stderr.splitlines())
    status = b"status %d\n" % result.returncode if result.returncode else b""
    return result.stdout + errors + status


def beside(script, result):
    """Each line of a script with its answer behind it."""
    asked, answered = script.splitlines(), result.stdout.splitlines()
    return b"".join(ask + b"  ->  " + answer + b"\n" for ask, answer in zip(asked, answered, strict=True))


def example_rows(programs):
    for line, wanted in commands("examples/expected"):
        yield line, shown(run(programs, os.fsdecode(line))), wanted


def shell_rows(programs):
    for line, wanted in commands("examples/shell/expected"):
        script = read(os.fsdecode(line).split(" < ")[1])
        yield line, beside(script, run(programs, os.fsdecode(line))), wanted


def crate_rows(programs):
    for name in ("pargather", "parstream", "parsh"):
        folder = f"crates/{name}"
        words = os.fsdecode(read(f"{folder}/args") or b"").split("\n")[:-1]
        result = subprocess.run(
            [os.path.join(programs, name), *words], input=read(f"{folder}/stdin") or b"", capture_output=True, check=False
        )
        status = int(read(f"{folder}/status") or b"0")
        yield f"{folder}: the output".encode(), result.stdout, read(f"{folder}/stdout")
        yield f"{folder}: the status".encode(), b"%d" % result.returncode, b"%d" % status


def stream_rows(programs):
    for line, given, *wanted in STREAMS:
        words = [os.path.join(programs, "parstream"), *line.split()]
        result = subprocess.run(words, input=given, capture_output=True, check=False)
        got = [result.stdout, result.stderr, result.returncode]
        yield b"parstream " + os.fsencode(line), repr(got).encode(), repr(wanted).encode()


def fault_rows(programs):
    for name in ("pargather", "parstream"):
        for streams, line, status in FAULTS:
            result = run(programs, f"printf 'g\\n1\\n' | {name} --agg count {streams}")
            wanted = b"%s: %s\n%d" % (name.encode(), line, status)
            yield f"{name} {streams}".encode(), result.stdout + result.stderr + b"%d" % result.returncode, wanted


def main():
    programs = os.path.abspath(sys.argv[1])
    rows = [*example_rows(programs), *shell_rows(programs), *crate_rows(programs), *stream_rows(programs), *fault_rows(programs)]
    wrong = [(line, got, wanted) for line, got, wanted in rows if got != wanted]
    for line, got, wanted in wrong:
        sys.stdout.buffer.write(b"rows: %s\n--- wanted\n%s--- got\n%s" % (line, wanted, got))
    if wrong or not rows:
        sys.exit(f"rows: {len(wrong)} of {len(rows)} are not as expected")
    print(f"rows: {len(rows)} as expected")


main()
