#!/usr/bin/env python3
"""The table of CSV files of any size by the workers of a Dask cluster: the bytes of one pass over all rows.

    parstream_dask.py [--scheduler ADDRESS | --local N] [--tile MIB] [--fan K] [--workers W] [--parstream PROGRAM]
                      --scratch FOLDER --out TABLE FILE.. -- PLAN..

Each file, or each tile of it of some MiB, is a task: the worker that gets it opens the file where it lies, and leaves what
`parstream partial` writes in the scratch folder. Other tasks put K of these together, until K are left, and the last one
makes the table. What the folder has already is not made again. README.md says more.
"""
import argparse
import contextlib
import hashlib
import os
import re
import subprocess
import sys
import uuid

FIELD = rb'(?:"[^"]*")*(?:[^",\r\n][^,\r\n]*)?'
HEADER = re.compile(rb"(?:\xef\xbb\xbf)?[\r\n]*(?![\r\n])" + FIELD + rb"(?:," + FIELD + rb")*(?=[\r\n])")


class Refused(Exception):
    """An answer that another try would give again. A task returns it, so that it is not tried again."""


def header_of(path):
    """The bytes of a file up to the end of its first record, or none if that is not in the first 64 MiB."""
    with open(path, "rb") as file:
        found = HEADER.match(file.read(1 << 16)) or HEADER.match(file.read(file.seek(0) or 1 << 26))
    return found and found[0]


def run(words, first, files, path):
    """Runs the program over some bytes and then files, each from a place on. Its output gets its name when it is whole."""
    made = f"{path}.{uuid.uuid4().hex}"
    with open(made, "wb") as out:
        program = subprocess.Popen(words, stdin=subprocess.PIPE, stdout=out, stderr=subprocess.PIPE)
        with contextlib.suppress(BrokenPipeError), program.stdin as pipe:  # It may stop when it has all that it needs.
            os.write(pipe.fileno(), first)
            for name, at in files:
                with open(name, "rb") as file:
                    while count := os.sendfile(pipe.fileno(), file.fileno(), at, 1 << 20):
                        at += count
        said = program.stderr.read().decode(errors="replace").strip()
    if status := program.wait():
        os.unlink(made)
        if status in (1, 2, 7, 8, 9):
            return Refused(said)
        raise RuntimeError(f"status {status}: {said}")
    os.replace(made, path)
    return path


def number(data, at):
    """A number of a file of states, and the place after it."""
    found = re.compile(rb"[\x80-\xff]*[\x00-\x7f]").match(data, at)
    return sum((byte & 127) << 7 * n for n, byte in enumerate(found[0])), found.end()


def stretch_of(path):
    """Which bytes of its source a part is of, by the head of its file, or none if it is of no bytes."""
    with open(path, "rb") as file:
        file.readline()
        head, at, numbers = file.read(int.from_bytes(file.read(4), "little")), 0, []
    for _ in range(5):  # four words of the plan, and the header
        count, at = number(head, at)
        at += count
    while len(numbers) < 5 and numbers[1:] != [0]:  # how many sources and stretches; of the first its source, from and to
        value, at = number(head, at)
        numbers.append(value)
    return numbers[3:] or None


def partial(words, file, start, end, path):
    """One part: its path, or why it is refused, and which bytes it is of."""
    if not os.path.exists(path):
        path = run(words, header_of(file) + b"\n" if start else b"", [(file, start)], path)
    if isinstance(path, Refused):
        return path, None
    stretch = stretch_of(path)
    if start == 0 and stretch and stretch[1] < end:
        os.unlink(path)
        raise RuntimeError(f"{file} became shorter while it was read")
    return path, stretch


def together(words, parts, path):
    """Several files as one, or the table that they come to."""
    refused = next((it for it in parts if isinstance(it, Refused)), None)
    return refused or run(words, b"", [(it, 0) for it in parts], path)


def table(g, plan, client, as_completed):
    """Makes the parts, puts them together, and writes the table; says why there is none."""
    submit = lambda *it: client.submit(*it, pure=False, retries=5)
    name = lambda *it: os.path.join(os.path.abspath(g.scratch), hashlib.sha256(repr(it).encode()).hexdigest()[:32])
    os.makedirs(g.scratch, exist_ok=True)

    def part(n, start, end):
        file, stat = os.path.abspath(g.files[n]), os.stat(g.files[n])
        words = [g.parstream, "partial", f"--source={n}/{len(g.files)}", f"--workers={g.workers}", *plan]
        words += [f"--bytes={start}-{end}", f"--size={stat.st_size}"] if g.tile else []
        return submit(partial, words, file, start, end, name(words, file, stat.st_size, stat.st_mtime_ns))

    tiles = []
    for n, size in enumerate(map(os.path.getsize, g.files)):
        step = max(1, int(g.tile * 2**20) if g.tile and header_of(g.files[n]) else size)
        tiles += [(n, start, min(start + step, size)) for start in range(0, max(size, 1), step)]
    tasks = [part(*it) for it in tiles]
    for done, _ in enumerate(as_completed(tasks), 1):
        if done % max(1, len(tasks) // 20) == 0:
            print(f"{done} of {len(tasks)} parts", file=sys.stderr)
    # A tile that does not begin where the one before it ends began at a wrong guess, and is made again from there.
    parts, at, again = [], 0, 0
    for (n, start, end), task in zip(tiles, tasks):
        at = at if start else 0
        if start and at >= end:
            continue
        path, stretch = task.result()
        if start and (stretch is None or stretch[0] != at):
            again, (path, stretch) = again + 1, part(n, at, end).result()
        parts.append(path)
        at = stretch[1] if stretch else end
    print(f"{again} of them again, from where the one before ends", file=sys.stderr)
    while len(parts) > g.fan:
        groups = [parts[at : at + g.fan] for at in range(0, len(parts), g.fan)]
        parts = [submit(together, [g.parstream, "combine"], it, name(it)) for it in groups]
    made = submit(together, [g.parstream, "finalize"], parts, os.path.abspath(g.out)).result()
    return str(made) if isinstance(made, Refused) else 0


def main():
    at = sys.argv.index("--") if "--" in sys.argv else len(sys.argv)
    a = argparse.ArgumentParser(usage=__doc__.split("\n\n")[1].strip())
    for option, default in [("scheduler", ""), ("local", 1), ("tile", 0.0), ("fan", 16), ("workers", 0), ("parstream", "parstream")]:
        a.add_argument(f"--{option}", type=type(default), default=default)
    a.add_argument("--scratch", required=True)
    a.add_argument("--out", required=True)
    a.add_argument("files", nargs="+")
    g = a.parse_args(sys.argv[1:at])
    from distributed import Client, LocalCluster, as_completed
    with Client(g.scheduler or LocalCluster(n_workers=g.local, threads_per_worker=1)) as client:
        print(f"dashboard: {client.dashboard_link}", file=sys.stderr)
        sys.exit(table(g, sys.argv[at + 1 :], client, as_completed))


if __name__ == "__main__":
    main()
