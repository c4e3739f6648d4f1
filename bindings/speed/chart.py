#!/usr/bin/env python3
"""Prints the chart of docs/SPEED.md, an SVG, from the shares in the tables of that page. `tools/generate chart` calls it.

A dot is a call. Its place is the share of what a user would write, on a scale of powers of two.
"""
import math
import re
from pathlib import Path
from xml.sax.saxutils import escape

PAGE = (Path(__file__).resolve().parents[2] / "docs/SPEED.md").read_text("utf-8").replace("`", "")
# a row of the chart: the heading of its table, and what it is compared with
ROWS = {"Rust": "the Rust crate", "JavaScript": "plain JavaScript", "Python": "plain Python"}
LEFT, WIDTH, HEIGHT, TOP = 200, 560, 58, 64
LEAST, MOST = -5, 3  # powers of two
BOTTOM = TOP + HEIGHT * len(ROWS)
STYLE = """text { font: 14px sans-serif; fill: #24292f } .small { font-size: 12px; fill: #57606a }
line { stroke: #8c959f; stroke-width: 1 } .one { stroke-width: 2 }
circle { fill: #0969da; fill-opacity: .55 } .more { fill: #bc4c00 }
@media (prefers-color-scheme: dark) {
  text { fill: #e6edf3 } .small { fill: #9198a1 } line { stroke: #6e7681 } circle { fill: #58a6ff } .more { fill: #f0883e }
}"""


def place(share: float) -> float:
    """Returns the horizontal place of a share."""
    return LEFT + WIDTH * (min(max(math.log2(share), LEAST), MOST) - LEAST) / (MOST - LEAST)


def print_text(x: float, y: float, words: str, anchor: str, name: str = "") -> None:
    print(f'<text x="{x:.0f}" y="{y:.0f}" text-anchor="{anchor}"{name}>{escape(words)}</text>')


small = ' class="small"'
print(f'<svg xmlns="http://www.w3.org/2000/svg" viewBox="0 0 {LEFT + WIDTH + 24} {BOTTOM + 12}" role="img">')
print(f"<title>Cost of each call, as a share of what a user would write</title>\n<style>{STYLE}</style>")
for power in range(LEAST, MOST + 1):
    x, one = place(2.0**power), "" if power else ' class="one"'
    print(f'<line x1="{x:.0f}" x2="{x:.0f}" y1="{TOP - 8}" y2="{BOTTOM}"{one}/>')
    print_text(x, TOP - 16, f"1/{2 ** -power}" if power < 0 else f"{2 ** power}", "middle", small)
print_text(place(0.98), 20, "faster", "end")
print_text(place(1.03), 20, "slower", "start")
for number, (heading, other) in enumerate(ROWS.items()):
    y = TOP + HEIGHT * (number + 0.5)
    print_text(LEFT - 16, y, heading, "end")
    print_text(LEFT - 16, y + 16, f"beside {other}", "end", small)
    print(f'<line x1="{LEFT}" x2="{LEFT + WIDTH}" y1="{y:.0f}" y2="{y:.0f}" stroke-dasharray="2 4"/>')
    table = PAGE.partition(f"## {heading}\n")[2].partition("\n## ")[0]
    calls = [(float(share), name) for name, share in re.findall(r"(?m)^\| (.+?) \|.* \| ([\d.]+) \|$", table)]
    for share, name in calls:
        more = ' class="more"' if share > 1 else ""
        print(
            f'<circle cx="{place(share):.1f}" cy="{y:.0f}" r="6"{more}><title>{escape(name)}: {share}</title></circle>'
        )
    share, name = max(calls)
    print_text(place(share), y - 12, f"{name} {share}", "middle", small)
print("</svg>")
