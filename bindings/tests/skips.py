#!/usr/bin/env python3
"""skips.py PROGRAM COUNT [SEED]: refused rows left out by parstream --skip-bad.

Rows are made that are refused or not, for causes that are known here. With at most as many refused rows as the option allows, the
output is that of the program over the other rows, and the standard error names how many were left out, and the first by what the
program says of it without the option. With more, all is as without the option."""
import random
import subprocess
import sys


def asked(program, words, text):
    result = subprocess.run([program, *words], input=text, capture_output=True, check=False)
    return result.stdout, result.stderr, result.returncode


def random_row(rng, separator):
    """A row of g, v and w, and whether it is refused by sum(v) if w is above 0."""
    group = rng.choice(("a", "b", "c", '"x\ny"', '"p""q"', "", '"%s"' % separator, "d%d" % rng.randrange(40)))
    value = rng.choice(("1", "-2", "+3", "", " 4 ", "9223372036854775807"))
    weight = rng.choice(("1", "2", "5"))
    kind = rng.random()
    if kind < 0.80:
        return [group, value, weight], False
    if kind < 0.84:
        return [group, "x", rng.choice(("0", "", "-1"))], False
    if kind < 0.88:
        return [group, value, "z"], True
    if kind < 0.91:
        return [group, value], True
    if kind < 0.94:
        return [group, value, weight, ""], True
    if kind < 0.96:
        return ["k" * 245, value, weight], True
    return [group, rng.choice(("x", "1.5", '"1\n"', "9223372036854775808")), weight], True


def random_case(rng):
    """Words, the header, the rows as they are in the text, with whether each is refused, and how many may be left out."""
    separator = rng.choice(",,;\t")
    end = rng.choice(("\n", "\n", "\r\n", "\n\n"))
    share = rng.choice((0, 0.02, 0.3, 1))
    rows = []
    for _ in range(rng.choice((0, 1, 3, 10, 30, 300, 300, 9000))):
        row, is_bad = random_row(rng, separator)
        if is_bad and rng.random() > share:
            row, is_bad = ["a", "1", "1"], False
        rows.append((separator.join(row) + end, is_bad))
    words = ["--group", "g", "--agg", "count,sum:v,max:v", "--where", "w>0", "--workers", rng.choice("0123")]
    if separator != ",":
        words += ["--separator", "tab" if separator == "\t" else separator]
    if rng.random() < 0.3:
        words += ["--order", "sum:v:desc", "--limit", "3"]
    if rng.random() < 0.2:
        words += ["--output", "json"]
    header = separator.join("gvw") + end
    if rng.random() < 0.2:
        words[1], words[3], words[5] = "1", "count,sum:2,max:2", "3>0"
        words = [word.replace("sum:v", "sum:2") for word in words] + ["--no-header"]
        header = ""
        if rows and len(rows[0][0].split(separator)) != 3:
            rows = []
    count = sum(is_bad for _, is_bad in rows)
    most = rng.choice((count, count, count + 1, max(count - 1, 0), 0, 10**18 - 1, count // 2))
    return words, header, rows, most


def main():
    program, count = sys.argv[1], int(sys.argv[2])
    rng = random.Random(int(sys.argv[3]) if len(sys.argv) > 3 else 1)
    for _ in range(count):
        words, header, rows, most = random_case(rng)
        text = (header + "".join(row for row, _ in rows)).encode()
        good = (header + "".join(row for row, is_bad in rows if not is_bad)).encode()
        bad = sum(is_bad for _, is_bad in rows)
        got = asked(program, [*words, "--skip-bad", str(most)], text)
        wanted = asked(program, words, text)
        if 0 < bad <= most:
            first = wanted[1].decode().removeprefix("parstream: ")
            line = f"parstream: rows left out: {bad}; the first: {first}".encode()
            wanted = (asked(program, words, good)[0], line, 0)
        if got != wanted or (bad > most) != (got[2] == 1):
            sys.exit(f"skips: {words} {most}\ntext   {text[:600]!r}\ngot    {got}\nwanted {wanted}")
    print(f"skips: {count} trials, no difference")


main()
