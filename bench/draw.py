#!/usr/bin/env python3
"""Draws docs/speed.svg and docs/growth.svg with gnuplot, from two tables of docs/PERFORMANCE.md: `draw.py`.

The first is the speed of `wmod check` beside node and wasm-validate by shape, as `compare.py` prints it. The second is
the time per byte by size, as `compare.py --growth` prints it. The script fails if the page lacks one of the tables.
"""
import pathlib
import subprocess

DOCS = pathlib.Path(__file__).resolve().parent.parent / "docs"

SPEED = """
set terminal svg size 900,480 dynamic background rgb "white"
set output "{output}"
set style data histograms
set style fill solid 0.9 border -1
set boxwidth 0.9
set logscale y
set yrange [1:10000]
set ylabel "MB a second (log scale)"
set xtics rotate by -35
set key top left
set grid ytics
set datafile missing "?"
plot $table using 2:xtic(1) title "wmod check", "" using 3 title "node", "" using 4 title "wasm-validate"
"""

GROWTH = """
set terminal svg size 900,480 dynamic background rgb "white"
set output "{output}"
set logscale xy
set xrange [1.8:9]
set xtics (2, 4, 8)
set xlabel "MB of the module (log scale)"
set ylabel "nanoseconds a byte of wmod check (log scale)"
set key outside right
set grid
plot for [i=1:{rows}] $table matrix every 1:::i-1::i-1 using (2 ** ($1 + 1)):3 with linespoints title word("{names}", i)
"""


def table(page, heads):
    """Returns the rows of the first table of the page whose header begins with these cells."""
    lines = iter(page.split("\n"))
    begins = "| " + " | ".join(heads) + " |"
    if not any(line.startswith(begins) for line in lines):
        raise SystemExit(f"docs/PERFORMANCE.md has no table {begins}")
    next(lines)
    rows = []
    for line in lines:
        if not line.startswith("|"):
            return rows
        rows.append([cell.strip() for cell in line.strip("|").split("|")])
    return rows


def draw(script, rows):
    text = "$table << END\n" + "\n".join(rows) + "\nEND\n" + script
    subprocess.run(["gnuplot"], input=text, text=True, check=True)


def number(cell):
    """Returns a cell as gnuplot reads it. `> N` becomes N, and `refused` becomes a missing value."""
    return "?" if cell == "refused" else cell.removeprefix("> ")


def main():
    page = (DOCS / "PERFORMANCE.md").read_text(encoding="utf8")
    speeds = table(page, ["Shape", "MB", "wmod MB/s", "node MB/s", "wasm-validate MB/s"])
    draw(SPEED.format(output=DOCS / "speed.svg"), [f'"{cells[0]}" ' + " ".join(map(number, cells[2:5])) for cells in speeds])
    grown = table(page, ["Shape", "2 MB, ns a byte", "4 MB", "8 MB"])
    names = " ".join(f"'{cells[0]}'" for cells in grown)
    draw(GROWTH.format(output=DOCS / "growth.svg", rows=len(grown), names=names), [" ".join(cells[1:4]) for cells in grown])


if __name__ == "__main__":
    main()
