#!/usr/bin/env python3
"""Draws the time by workers, from what `compare.py --save` wrote.

usage: plot.py RUNS.json > PLOT.svg

One panel a file: the wall time of pargather by workers, a line a plan, and that of parstream; dashed, the times of the
straight Rust program and of the fastest peer that parses quotes.
"""
import json
import re
import sys

WIDTH, HEIGHT, LEFT, TOP, BOTTOM, LINE = 420, 340, 70, 46, 56, 17
COLOURS = {"pargather, gather": "#1f5fa8", "pargather, hash": "#b3541e", "parstream": "#2f7d32"}


def least(runs):
    return min(run["wall"] for run in runs)


def plans(programs):
    """Of each program and plan its points: how many workers, and the least time."""
    found = {}
    for name, program in programs.items():
        words = re.fullmatch(r"(pargather, \w+|parstream), (\d+) workers?", name)
        if words:
            found.setdefault(words[1], []).append((int(words[2]), least(program["runs"])))
    return {plan: sorted(points) for plan, points in found.items()}


def levels(programs):
    """The lines across: a name and a time each."""
    rows = [(name, least(p["runs"])) for name, p in programs.items() if p["kind"] == "limit"]
    peers = [(least(p["runs"]), name) for name, p in programs.items() if p["kind"] == "peer"]
    return rows + [(name, time) for time, name in sorted(peers)[:1]]


def spread(wanted):
    """Heights for labels that want these, from top to bottom, with a line's height between them at least."""
    at = []
    for height in wanted:
        at.append(max(height, at[-1] + LINE) if at else height)
    low = HEIGHT - BOTTOM - 4
    for place in reversed(range(len(at))):
        at[place] = min(at[place], low)
        low = at[place] - LINE
    return at


def panel(at, name, programs):
    lines, across = plans(programs), levels(programs)
    places = sorted({workers for points in lines.values() for workers, _ in points})
    top = 1.1 * max([time for points in lines.values() for _, time in points] + [time for _, time in across])
    left, right = LEFT + at * WIDTH, (at + 1) * WIDTH - 175
    x = lambda workers: left + places.index(workers) * (right - left) / max(1, len(places) - 1)
    y = lambda time: TOP + (HEIGHT - TOP - BOTTOM) * (1 - time / top)
    out = [f'<text x="{left}" y="{TOP - 20}" font-weight="bold">file {name}</text>',
           f'<path d="M{left} {y(top):.1f}V{y(0):.1f}H{right}" fill="none" stroke="#444"/>',
           f'<text x="{left - 6}" y="{y(0):.1f}" text-anchor="end">0 s</text>',
           f'<text x="{left - 6}" y="{y(top / 1.1) + 5:.1f}" text-anchor="end">{top / 1.1:.2g} s</text>']
    for workers in places:
        out.append(f'<text x="{x(workers):.1f}" y="{y(0) + 20:.1f}" text-anchor="middle">{workers}</text>')
    labels = [(time, label, "#555") for label, time in across]
    labels += [(points[-1][1], plan, COLOURS[plan]) for plan, points in lines.items()]
    labels.sort(key=lambda one: y(one[0]))
    for _, time in across:
        out.append(f'<path d="M{left} {y(time):.1f}H{right}" stroke="#888" stroke-dasharray="4 3"/>')
    for plan, points in lines.items():
        path = "M" + "L".join(f"{x(workers):.1f} {y(time):.1f}" for workers, time in points)
        out.append(f'<path d="{path}" fill="none" stroke="{COLOURS[plan]}" stroke-width="2"/>')
        out += [f'<circle cx="{x(workers):.1f}" cy="{y(time):.1f}" r="3" fill="{COLOURS[plan]}"/>' for workers, time in points]
    for (_, label, colour), height in zip(labels, spread([y(time) + 4 for time, _, _ in labels])):
        out.append(f'<text x="{right + 8}" y="{height:.1f}" fill="{colour}">{label}</text>')
    return out


def main():
    with open(sys.argv[1], encoding="utf-8") as file:
        saved = json.load(file)
    print(f'<svg xmlns="http://www.w3.org/2000/svg" width="{WIDTH * len(saved)}" height="{HEIGHT}" '
          'font-family="sans-serif" font-size="14">')
    print('<rect width="100%" height="100%" fill="white"/>')
    for at, (name, programs) in enumerate(saved.items()):
        print("\n".join(panel(at, name, programs)))
    print(f'<text x="{LEFT}" y="{HEIGHT - 10}">across: workers besides the leader; up: wall time, least of the runs</text></svg>')


main()
