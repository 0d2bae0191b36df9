#!/usr/bin/env python3
"""Whether docs/EMBEDDING.md is true: its Rust and its C program are built as it says, and its commands print what stands there. And
whether the C program of docs/PROCESSES.md is built and runs as that page says.

Takes the folder that bindings/build has laid out.
"""

import os
import re
import shutil
import subprocess
import sys
import tempfile

BINDINGS = os.path.dirname(os.path.dirname(os.path.abspath(__file__)))
REPOSITORY = os.path.dirname(BINDINGS)


def blocks():
    """The page's blocks, by kind, in order."""
    with open(os.path.join(REPOSITORY, "docs", "EMBEDDING.md"), encoding="utf-8") as page:
        return re.findall(r"^```(\w+)\n(.*?)^```$", page.read(), re.M | re.S)


def run(command, folder, **extra):
    """What a command prints; the script ends where it fails."""
    done = subprocess.run(["bash", "-ec", command], cwd=folder, text=True, capture_output=True, check=False, **extra)
    if done.returncode:
        sys.exit(f"embedding: {command}\n{done.stdout}{done.stderr}")
    return done.stdout


def wanted(block):
    """The command of a block that shows one, and what it prints."""
    command, _, output = block.removeprefix("$ ").partition("\n")
    return command, output


def same(what, got, want):
    if got != want:
        sys.exit(f"embedding: {what} printed\n{got}and not\n{want}")


CMAKE = """cmake_minimum_required(VERSION 3.10)
project(tally C)
find_package(lembokuj 0.3 REQUIRED)
add_executable(tally tally.c)
target_link_libraries(tally lembokuj::lembokuj)
"""


def cmake(room, output):
    """Builds tally.c by the package file for CMake."""
    with open(f"{room}/CMakeLists.txt", "w", encoding="utf-8") as file:
        file.write(CMAKE)
    run("cmake -S . -B made -DCMAKE_PREFIX_PATH=$PWD/dist && cmake --build made", room)
    same("find_package(lembokuj)", run("made/tally", room), output)


def processes(room):
    """The program in Rust of docs/PROCESSES.md, both its parts in one, and its commands for the one in C."""
    with open(f"{REPOSITORY}/docs/PROCESSES.md", encoding="utf-8") as file:
        page = file.read()
    parts = re.search(r"^```rust\n(.*?)^```$", page, re.M | re.S)[1]
    added = re.search(r"`(cargo add [^`]*)`", page)[1]
    run(f"cargo new --quiet sums && cd sums && {added}", room)
    lines = [
        "use lembokuj::processes::Region;",
        "fn main() -> Result<(), Box<dyn std::error::Error>> {",
        parts,
        'println!("{}", std::str::from_utf8(rx.receive()?)?);',
        'Ok(Region::unlink("lk.sums")?)',
        "}",
    ]
    with open(f"{room}/sums/src/main.rs", "w", encoding="utf-8") as file:
        file.write("\n".join(lines).replace("lk.sums", f"lk.sums.{os.path.basename(os.path.dirname(room))}"))
    same("docs/PROCESSES.md: its program in Rust", run("cargo run --quiet --offline", f"{room}/sums"), "hello\n")
    commands = re.search(r"(?:^    .*partial_sums.*\n|^       .*\n)+", page, re.M)[0]
    last = run(commands, room).splitlines()[-1:]
    same("docs/PROCESSES.md: partial_sums", last, ["partial_sums: 300000 lines, sum 45000150000"])


def main():
    dist = os.path.abspath(sys.argv[1])
    page = blocks()
    consoles = [text for kind, text in page if kind == "console"]
    rust = next(text for kind, text in page if kind == "rust")
    c = next(text for kind, text in page if kind == "c")
    with tempfile.TemporaryDirectory(prefix="embedding-") as room:
        # The page's folder lies beside a checkout called lembokuj, and has the programs and libraries in dist.
        os.symlink(REPOSITORY, f"{room}/lembokuj")
        room = f"{room}/yours"
        os.mkdir(room)
        os.symlink(dist, f"{room}/dist")
        command, output = wanted(consoles[0])
        same(command, run(command, room), output)

        new, _ = wanted(consoles[1])
        run(new, room)
        with open(f"{room}/counting/src/main.rs", "w", encoding="utf-8") as file:
            file.write(rust)
        command, output = wanted(consoles[2])
        same(command, run(command, f"{room}/counting"), output)
        with open(f"{room}/counting/Cargo.lock", encoding="utf-8") as lock:
            names = re.findall('^name = "(.*)"$', lock.read(), re.M)
        same("Cargo.lock", " ".join(names), "counting lembokuj")

        with open(f"{room}/tally.c", "w", encoding="utf-8") as file:
            file.write(c)
        plain = next(text for text in re.findall("`(cc [^`]*)`", open(f"{REPOSITORY}/docs/EMBEDDING.md", encoding="utf-8").read()))
        run(plain + " -Wall -Wextra -Werror -o tally-plain", room)
        output = "".join(line + "\n" for line in consoles[3].splitlines()[2:])
        same(plain, run("./tally-plain", room), output)
        if shutil.which("pkg-config"):
            lines = "; ".join(line.removeprefix("$ ") for line in consoles[3].splitlines()[:2])
            same(lines, run(lines, room), output)
        if shutil.which("cmake"):
            cmake(room, output)
        if sys.platform == "linux":
            processes(room)
    print("embedding: as docs/EMBEDDING.md and docs/PROCESSES.md say")


main()
