#!/usr/bin/env python3
"""Times a cache of pages by several threads: page_cache with its contracts erased, and maps in the order of use behind mutexes.

usage: cache.py [--times 3] [--calls PERCENT] [--save FILE.json]

The loads and what the columns mean are in docs/PERFORMANCE.md, "A cache of pages". `--calls 1` makes a hundredth of the calls,
which shows that all runs and measures nothing. cargo builds the program (cache.rs, with the erased sources of page_cache) in
BENCH_DIR, or /tmp/lembokuj-bench.
"""
import argparse
import json
import os
import re
import shutil
import subprocess
import sys

from objects import timed

HERE = os.path.dirname(os.path.abspath(__file__))
TOP = os.path.dirname(HERE)
FOLDER = os.environ.get("BENCH_DIR", "/tmp/lembokuj-bench")
FORMS = {"proved": "page_cache, erased", "one": "an LRU map behind a mutex", "many": "128 of them"}
KINDS = ["gets", "mixed"]
THREADS = [1, 2, 4]
CALLS = 400_000


def build():
    """Erases the crates, and builds cache.rs as a package beside them. The path of the program."""
    out, package = f"{FOLDER}/erased", f"{FOLDER}/cache"
    subprocess.run([f"{TOP}/bindings/erase", out], check=True, stdout=subprocess.DEVNULL)
    os.makedirs(f"{package}/src", exist_ok=True)
    erased = f"{out}/crates/page_cache"
    with open(f"{erased}/Cargo.toml", encoding="utf-8") as file:
        text = file.read()
    # The stand-ins are in bindings/std, two folders above the erased crates as bindings/out has them.
    text = text.replace("../../../std/", f"{TOP}/bindings/std/").replace('path = "../', f'path = "{out}/crates/')
    text = re.sub('^name = .*', 'name = "cache"', text, flags=re.MULTILINE)
    with open(f"{package}/Cargo.toml", "w", encoding="utf-8") as file:
        file.write(text + '\n[profile.release]\nlto = "fat"\ncodegen-units = 1\n\n[lints.rust]\nwarnings = "allow"\n\n[workspace]\n')
    shutil.copy(f"{HERE}/cache.rs", f"{package}/src/main.rs")
    for name in ("cache", "calls", "page"):
        shutil.copy(f"{erased}/src/{name}.rs", f"{package}/src/{name}.rs")
    subprocess.run(["cargo", "build", "--quiet", "--release", "--offline", "--manifest-path", f"{package}/Cargo.toml"], check=True)
    return f"{package}/target/release/cache"


def measured(program, kind, threads, calls, times):
    """Of each form the least wall and processor nanoseconds a call: of a run less one that makes a call."""
    found, lines = {}, set()
    for _ in range(times):
        for form in FORMS:
            for each in (1, calls // threads):
                wall, used, line = timed([program, form, kind, str(threads), str(each)])
                found.setdefault((form, each), []).append((wall, used))
                lines.add(line)
    if len(lines) > 2:
        sys.exit(f"{kind}: the forms do not agree: {lines}")
    made = (calls // threads - 1) * threads

    def least(form, part):
        many, few = (min(run[part] for run in found[form, each]) for each in (calls // threads, 1))
        return max(many - few, 0) / made * 1e9

    return {form: {"ns": least(form, 0), "processor": least(form, 1)} for form in FORMS}


def main():
    words = argparse.ArgumentParser(usage=__doc__.split("usage: ")[1].split("\n")[0])
    words.add_argument("--times", type=int, default=3)
    words.add_argument("--calls", type=int, default=100)
    words.add_argument("--save")
    asked = words.parse_args()
    if asked.times < 1 or asked.calls < 1:
        words.error("--times and --calls are at least 1")
    if not shutil.which("cargo"):
        sys.exit("no cargo on the path: it builds the program; Debian has it in the package cargo")
    program = build()
    print(f"{os.cpu_count()} processors, load {os.getloadavg()[0]:.1f}, {asked.times} runs each, {asked.calls} % of the calls")
    saved = {}
    for kind in KINDS:
        for threads in THREADS:
            result = measured(program, kind, threads, CALLS * asked.calls // 100, asked.times)
            saved[f"{kind}, {threads}"] = result
            print(f"{kind}, {threads} thread{'s' if threads > 1 else ''}")
            for form, each in result.items():
                print(f"    {FORMS[form]:28}{each['ns']:9.0f} ns {each['processor']:9.0f} processor", flush=True)
    if asked.save:
        with open(asked.save, "w", encoding="utf-8") as file:
            json.dump(saved, file, indent=1)


if __name__ == "__main__":
    main()
