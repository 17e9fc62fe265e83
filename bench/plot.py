#!/usr/bin/env python3
"""Draws the table of docs/BENCH.md as bars, and writes docs/pictures/bench.svg.

usage: plot.py            draws
       plot.py --help

It reads the rows of the first table of the page: a name, the proved program's figure, plain Rust's figure, in million instructions. The scale is
logarithmic, since they lie far apart.
"""

import html
import math
import re
import sys
from pathlib import Path

TOP = Path(__file__).resolve().parent.parent
LEFT, WIDTH, ROW = 320, 480, 58


def rows():
    found = []
    for line in (TOP / "docs/BENCH.md").read_text().splitlines():
        cells = [cell.strip() for cell in line.strip("|").split("|")]
        if len(cells) >= 3 and re.fullmatch(r"[\d,]+", cells[1]) and re.fullmatch(r"[\d,]+", cells[2]):
            found.append((cells[0].replace("`", ""), *(int(cell.replace(",", "")) for cell in cells[1:3])))
        elif found:
            break
    return found


def svg(table):
    least, most = 100, max(max(ours, theirs) for _, ours, theirs in table) * 1.3
    scale = lambda n: WIDTH * (math.log10(n) - math.log10(least)) / (math.log10(most) - math.log10(least))
    height = 50 + ROW * len(table) + 34
    out = [
        f'<svg xmlns="http://www.w3.org/2000/svg" width="{LEFT + WIDTH + 70}" height="{height}" font-family="DejaVu Sans, Helvetica, Arial, sans-serif">',
        '<rect width="100%" height="100%" fill="#fff"/>',
        '<text x="8" y="22" font-size="16" font-weight="bold">Million instructions, less is better</text>',
    ]
    for tick in (100, 300, 1000, 3000):
        x = LEFT + scale(tick)
        out.append(f'<line x1="{x:.0f}" y1="40" x2="{x:.0f}" y2="{height - 30}" stroke="#ddd"/>')
        out.append(f'<text x="{x:.0f}" y="{height - 14}" font-size="11" fill="#666" text-anchor="middle">{tick:,}</text>')
    for at, (name, ours, theirs) in enumerate(table):
        y = 46 + ROW * at
        out.append(f'<text x="{LEFT - 10}" y="{y + 24}" font-size="12" text-anchor="end">{html.escape(name)}</text>')
        for offset, figure, shade, who in ((0, ours, "#1f6fb2", "proved"), (20, theirs, "#b25a1f", "plain Rust")):
            out.append(f'<rect x="{LEFT}" y="{y + offset}" width="{scale(figure):.0f}" height="17" fill="{shade}"/>')
            out.append(f'<text x="{LEFT + scale(figure) + 5:.0f}" y="{y + offset + 13}" font-size="11" fill="{shade}">{figure:,} {who}</text>')
    return "\n".join([*out, "</svg>"]) + "\n"


def main(words):
    if words:
        print(__doc__.strip())
        return 0 if words in (["--help"], ["-h"]) else 2
    (TOP / "docs/pictures/bench.svg").write_text(svg(rows()))
    return 0


if __name__ == "__main__":
    sys.exit(main(sys.argv[1:]))
