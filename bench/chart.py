#!/usr/bin/env python3
"""The chart of bench/figures.txt: instructions for each operation, here, by hand in C, and in the original.

chart.py          draws docs/speed.svg
chart.py --check  compares it with the figures: the status is 1 where it is out of date

It has the operations that have a figure of another version, except for those that are taken off others. Of the two builds of the original it shows the faster one, linked whole."""
import re
import sys
from html import escape
from pathlib import Path

TOP = Path(__file__).resolve().parent.parent
CHART = TOP / "docs/speed.svg"
VERSIONS = [("here", "here"), ("hand", "by hand in C"), ("original", "the original, linked whole")]
# The axes: the most instructions that one shows, and a grid line's step. An operation is on the first that has all of its bars.
AXES = [(100, 20), (1000, 200), (3000, 500), (40_000, 10_000)]

WIDTH, LEFT, RIGHT = 760, 330, 50
BAR, GAP, HEAD, FOOT = 9, 5, 64, 22
STYLE = """
  text { font: 11px sans-serif; fill: #24292f }
  .title { font-size: 15px; font-weight: bold }
  .axis { font-weight: bold }
  .small { font-size: 9px; fill: #57606a }
  .page { fill: #ffffff }
  .grid { stroke: #d0d7de }
  .here { fill: #0969da }
  .hand { fill: #bf8700 }
  .original { fill: #8c959f }
  @media (prefers-color-scheme: dark) {
    text { fill: #e6edf3 }
    .small { fill: #9198a1 }
    .page { fill: #0d1117 }
    .grid { stroke: #30363d }
    .here { fill: #4493f8 }
    .hand { fill: #d29922 }
    .original { fill: #6e7681 }
  }
"""


def titles():
    """What each operation of bench/driver.c is."""
    found = dict(re.findall(r'^ {4}\{ "(\w+)", \d+, "([^"]+)"', (TOP / "bench/driver.c").read_text(), re.MULTILINE))
    return found | {
        "rows_counted": "binary row of 10 columns, read (by hand: in one block)",
        "payloads_joined": "payload of a text row, found in pieces of 1,460 bytes",
    }


def operations():
    """The name of each operation and its figures by version, where there is one to compare with."""
    lines = (TOP / "bench/figures.txt").read_text().splitlines()
    rows = [it.split() for it in lines if not it.startswith("#") and len(it.split()) == 6]
    for name, here, hand, _, linked, _ in rows:
        if name in [it[5] for it in rows]:
            continue
        if here == "-":
            continue
        figures = {"here": here, "hand": hand, "original": linked}
        figures = {version: int(it.lstrip("~")) for version, it in figures.items() if it != "-"}
        if "here" in figures and len(figures) > 1:
            yield name, figures


def text(x, y, words, kind="", anchor="start"):
    kind = f' class="{kind}"' if kind else ""
    anchor = f' text-anchor="{anchor}"' if anchor != "start" else ""
    return f'<text x="{x:g}" y="{y:g}"{kind}{anchor}>{escape(words)}</text>'


def axis(y, most, step, rows):
    """An axis with its operations, from y down; and where it ends."""
    scale = (WIDTH - LEFT - RIGHT) / most
    bars, at, names = [], y + 20, titles()
    for name, figures in rows:
        top = at
        for version, _ in VERSIONS:
            if version in figures:
                long = max(1, figures[version] * scale)
                bars.append(f'<rect class="{version}" x="{LEFT}" y="{at}" width="{long:.1f}" height="{BAR - 2}"/>')
                bars.append(text(LEFT + round(long) + 3, at + BAR - 2, f"{figures[version]:,}", "small"))
                at += BAR
        bars.append(text(LEFT - 6, (top + at) / 2 + 3, names[name], anchor="end"))
        at += GAP
    grid = []
    for number in range(0, most + 1, step):
        x = round(LEFT + number * scale)
        grid.append(f'<path class="grid" d="M{x}.5 {y + 16}V{at}"/>')
        grid.append(text(x, y + 12, f"{number:,}", "small", "middle"))
    return [text(10, y + 12, f"Up to {most:,} instructions", "axis"), *grid, *bars], at + 10


def drawn():
    """The whole chart."""
    parts, y, left = [], HEAD, list(operations())
    for most, step in AXES:
        rows = [it for it in left if max(it[1].values()) <= most]
        left = [it for it in left if it not in rows]
        if rows:
            more, y = axis(y, most, step, rows)
            parts += more
    if left:
        raise SystemExit(f"chart.py: no axis is long enough for {left[0][0]}")
    height = y + FOOT - 10
    head = [text(10, 24, "Instructions for one operation (fewer is faster)", "title")]
    x = 10
    for version, words in VERSIONS:
        head += [f'<rect class="{version}" x="{x}" y="38" width="10" height="10"/>', text(x + 14, 47, words)]
        x += 40 + 6 * len(words)
    foot = text(10, height - 8, "Counted by valgrind on x86-64. Each axis has its own scale. bench/README.md says what is measured.", "small")
    return "\n".join([
        f'<svg xmlns="http://www.w3.org/2000/svg" viewBox="0 0 {WIDTH} {height}" width="{WIDTH}" height="{height}" role="img">',
        "<title>Instructions for one operation: here, by hand in C, and in the original</title>",
        f"<style>{STYLE}</style>",
        f'<rect class="page" width="{WIDTH}" height="{height}"/>',
        *head, *parts, foot, "</svg>", "",
    ])


def main(*words):
    if words == ("--check",):
        if CHART.exists() and CHART.read_text() == drawn():
            return 0
        print("docs/speed.svg is out of date: bench/chart.py draws it from bench/figures.txt")
        return 1
    if words:
        print(__doc__.split("\n\n")[1], file=sys.stderr)
        return 2
    CHART.write_text(drawn())
    return 0


if __name__ == "__main__":
    sys.exit(main(*sys.argv[1:]))
