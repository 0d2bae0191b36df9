#!/usr/bin/env python3
"""Times calls of the shared objects by several threads, and the same loads in plain Rust, one kind after another.

usage: objects.py [--kinds lock,area,..] [--builds proved,erased] [--times 5] [--calls PERCENT] [--save FILE.json]

The loads, their peers and what the columns mean are in docs/PERFORMANCE.md, "The shared objects by themselves". `--calls 1`
makes a hundredth of the calls, which shows that all runs and measures nothing. The builds are the toolchain's
(crates/uses_load/out/uses_load, or the path in OBJECT_LOAD) and cargo's of the erased sources
(bindings/out/target/release/uses_load, or the path in ERASED_LOAD); the peers (objects.rs, by rustc) lie in BENCH_DIR, or
/tmp/lembokuj-bench.
"""
import argparse
import json
import os
import shutil
import subprocess
import sys
import time
from dataclasses import dataclass

HERE = os.path.dirname(os.path.abspath(__file__))
FOLDER = os.environ.get("BENCH_DIR", "/tmp/lembokuj-bench")
TOP = os.path.dirname(HERE)
BUILDS = {
    "proved": os.environ.get("OBJECT_LOAD", f"{TOP}/crates/uses_load/out/uses_load"),
    "erased": os.environ.get("ERASED_LOAD", f"{TOP}/bindings/out/target/release/uses_load"),
}
HOW_TO_BUILD = {
    "proved": "`rt run` in crates/uses_load or .ci/run builds it; OBJECT_LOAD names another place",
    "erased": "`./erase && cargo build --release -p uses_load` in bindings builds it; ERASED_LOAD names another place",
}
PEERS = f"{FOLDER}/objects"
JEMALLOC = "/usr/lib/x86_64-linux-gnu/libjemalloc.so.2"
SEVERAL = [1, 2, 4]


@dataclass
class Load:
    """Many calls and few of a thread; what both runs do besides the calls is the same."""
    kind: str
    threads: int
    many: int
    few: int
    size: int

    @property
    def name(self):
        unit = "" if self.kind == "lock" else f", {self.size:,} {'keys' if self.kind in TABLES else 'bytes'}"
        return f"{self.kind}{unit}, {self.threads} thread{'s' if self.threads > 1 else ''}"

    @property
    def calls(self):
        """The calls by which the two runs differ, of all threads; a message is one call of two threads."""
        return (self.many - self.few) * (1 if self.kind in QUEUES else self.threads)


@dataclass
class Program:
    name: str
    words: list
    preload: str = ""


QUEUES = ["queue", "flushed"]
TABLES = ["puts", "gets", "sets"]
KINDS = ["lock", "area", "spares", "window", *QUEUES, *TABLES]


def loads(kinds, percent):
    listed = [Load("lock", threads, 4_000_000 // threads, 1, 8) for threads in SEVERAL + [8, 64]]
    listed += [Load(kind, threads, 2_000_000 // threads, 1, size) for kind in ("area", "spares", "window") for size in (24, 600) for threads in SEVERAL]
    listed += [Load(kind, 2, 2_000_000 if size == 8 else 300_000, 1, size) for kind in QUEUES for size in (8, 1000)]
    listed += [Load(kind, threads, 1_000_000 // threads, 1, size) for kind in TABLES for size in (1_000, 1_000_000) for threads in SEVERAL]
    for load in listed:
        load.many = max(load.many * percent // 100, 2)
    return [load for load in listed if load.kind in kinds]


def programs(kind, builds):
    allocators = [("system's allocator", "system", "")] + ([("jemalloc", "system", JEMALLOC)] if os.path.exists(JEMALLOC) else [])
    maps = [("HashMap, 1 mutex", "one", ""), ("HashMap, 128 mutexes", "many", "")]
    peers = {"lock": [("Mutex", "mutex", "")], "area": allocators, "spares": allocators, "window": allocators}
    peers.update(dict.fromkeys(QUEUES, [("sync_channel", "channel", ""), ("plain ring", "ring", "")]))
    peers.update(dict.fromkeys(TABLES, maps))
    return [Program(build, [BUILDS[build]]) for build in builds] + [Program(name, [PEERS, form], preload) for name, form, preload in peers[kind]]


def timed(words, environment=None):
    """Wall and processor time of a command, and the line that it prints."""
    start = time.perf_counter()
    child = subprocess.Popen(words, stdout=subprocess.PIPE, text=True, env=environment)
    line = child.stdout.read()
    _, status, used = os.wait4(child.pid, 0)
    wall = time.perf_counter() - start
    child.returncode = os.waitstatus_to_exitcode(status)
    if child.returncode:
        sys.exit(f"{' '.join(words)} ended with {child.returncode}")
    return wall, used.ru_utime + used.ru_stime, line


def one_run(program, load, calls):
    """The times and the line of a run of a program."""
    environment = {**os.environ, "LD_PRELOAD": program.preload} if program.preload else None
    return timed(program.words + [load.kind, str(load.threads), str(calls), str(load.size)], environment)


def measured(load, builds, times):
    """Of each program the least wall and processor nanoseconds a call. Each has to print the same line."""
    listed, found, lines = programs(load.kind, builds), {}, {}
    for _ in range(times):
        for program in listed:
            for calls in (load.few, load.many):
                wall, used, line = one_run(program, load, calls)
                found.setdefault((program.name, calls), []).append((wall, used))
                lines.setdefault(calls, {}).setdefault(line, []).append(program.name)
    for told in lines.values():
        if len(told) > 1:
            sys.exit(f"{load.name}: the programs do not agree: {told}")

    def each(name, part):
        least = [min(run[part] for run in found[name, calls]) for calls in (load.many, load.few)]
        return max(least[0] - least[1], 0) / load.calls * 1e9

    return {program.name: {"ns": each(program.name, 0), "processor": each(program.name, 1)} for program in listed}


def show(load, builds, results):
    """Nanoseconds a call, and then the time of each build divided by that one, in the order of the builds."""
    print(load.name)
    for name, each in results.items():
        columns = []
        for part in ("ns", "processor"):
            ratios = [f"{results[build][part] / each[part]:.2f}" if name not in builds and each[part] else "" for build in builds]
            columns.append(f"{each[part]:9.1f} {part} " + " ".join(f"{ratio:>6}" for ratio in ratios))
        print(f"    {name:22}{'   '.join(columns)}", flush=True)


def build_peers():
    """Builds objects.rs, or says what is missing for it."""
    if not shutil.which("rustc"):
        sys.exit("no rustc on the path: it builds the peers (bench/objects.rs); Debian has it in the package rustc")
    os.makedirs(FOLDER, exist_ok=True)
    if subprocess.run(["rustc", "--edition", "2021", "-O", "-o", PEERS, f"{HERE}/objects.rs"]).returncode:
        sys.exit(f"rustc did not build {HERE}/objects.rs")


def main():
    words = argparse.ArgumentParser(usage=__doc__.split("usage: ")[1].split("\n")[0])
    words.add_argument("--kinds", default=",".join(KINDS))
    words.add_argument("--builds", default="proved")
    words.add_argument("--times", type=int, default=5)
    words.add_argument("--calls", type=int, default=100)
    words.add_argument("--save")
    asked = words.parse_args()
    kinds, builds = asked.kinds.split(","), asked.builds.split(",")
    unknown = [word for word in kinds if word not in KINDS] + [word for word in builds if word not in BUILDS]
    if unknown or asked.times < 1 or asked.calls < 1:
        words.error(f"no such kind or build: {', '.join(unknown)}" if unknown else "--times and --calls are at least 1")
    for build in builds:
        if not os.access(BUILDS[build], os.X_OK):
            sys.exit(f"no program at {BUILDS[build]}: {HOW_TO_BUILD[build]}")
    build_peers()
    print(f"{os.cpu_count()} processors, load {os.getloadavg()[0]:.1f}, {asked.times} runs each, {asked.calls} % of the calls")
    if not os.path.exists(JEMALLOC):
        print(f"without jemalloc: {JEMALLOC} is not there (Debian's libjemalloc2)")
    saved = {}
    for load in loads(kinds, asked.calls):
        saved[load.name] = measured(load, builds, asked.times)
        show(load, builds, saved[load.name])
    print(f"load at the end {os.getloadavg()[0]:.1f}")
    if asked.save:
        with open(asked.save, "w", encoding="utf-8") as file:
            json.dump(saved, file, indent=1)


if __name__ == "__main__":
    main()
