#!/usr/bin/env python3
"""Draws exact against short soft bits, one panel a bit, from the tables of `softtable`.

usage: tools/plot_softbits.py bin/softtable > docs/softbits.svg
"""
import subprocess
import sys

WIDTH, HEIGHT = 232, 150  # of a panel's frame
LEFT, TOP = 58, 86  # of the first panel
ACROSS, DOWN = 290, 212  # from one panel to the next
EXACT, SHORT, GREY = "#0b5394", "#cc4125", "#999999"


def table(program, m):
    """The columns reading, exact and short of each bit, a level past the outermost ones."""
    end = 64 * (2**m + 1)
    command = [program, str(m), str(-end), str(end), str(2**m)]
    lines = subprocess.run(command, check=True, capture_output=True, text=True).stdout.splitlines()
    rows = [[int(word) for word in line.split("\t")] for line in lines if not line.startswith("#")]
    return {k: [(r, exact, short) for r, bit, exact, short, *_ in rows if bit == k] for k in range(1, m + 1)}


def text(x, y, words, size=11, anchor="middle", colour="#222222"):
    return f'<text x="{x:.1f}" y="{y:.1f}" font-size="{size}" text-anchor="{anchor}" fill="{colour}">{words}</text>'


def line(x1, y1, x2, y2, colour=GREY, more=""):
    return f'<line x1="{x1:.1f}" y1="{y1:.1f}" x2="{x2:.1f}" y2="{y2:.1f}" stroke="{colour}" {more}/>'


def curve(points, colour, more=""):
    path = " ".join(f"{x:.1f},{y:.1f}" for x, y in points)
    return f'<polyline points="{path}" fill="none" stroke="{colour}" stroke-width="1.8" {more}/>'


def panel(m, k, rows):
    x0, y0 = LEFT + (k - 1) * ACROSS, TOP + (m - 1) * DOWN
    end = rows[-1][0]
    low = min(min(exact, short) for _, exact, short in rows)
    high = max(max(exact, short) for _, exact, short in rows)

    def x(r):
        return x0 + (r + end) * WIDTH / (2 * end)

    def y(d):
        return y0 + (high - d) * HEIGHT / (high - low)

    yield f'<rect x="{x0}" y="{y0}" width="{WIDTH}" height="{HEIGHT}" fill="none" stroke="{GREY}"/>'
    yield line(x0, y(0), x0 + WIDTH, y(0), more='stroke-dasharray="2 3"')
    for i in range(2**m):
        level = 64 * (2 * i - (2**m - 1))
        yield line(x(level), y0 + HEIGHT, x(level), y0 + HEIGHT + 4)
    yield text(x0 + WIDTH / 2, y0 - 7, f"m = {m}, bit {k}", 12)
    yield text(x0 - 5, y(high) + 8, high, 10, "end")
    yield text(x0 - 5, y(0) + 4, 0, 10, "end")
    yield text(x0 - 5, y(low), low, 10, "end")
    for r, anchor in ((-end, "start"), (0, "middle"), (end, "end")):
        yield text(x(r), y0 + HEIGHT + 17, r, 10, anchor)
    yield curve([(x(r), y(exact)) for r, exact, _ in rows], EXACT)
    yield curve([(x(r), y(short)) for r, _, short in rows], SHORT, 'stroke-dasharray="5 4"')


def main():
    if len(sys.argv) != 2:
        sys.exit(__doc__)
    wide, high = LEFT + 4 * ACROSS - 28, TOP + 4 * DOWN - 28
    print(f'<svg xmlns="http://www.w3.org/2000/svg" viewBox="0 0 {wide} {high}" font-family="sans-serif">')
    print(f'<rect width="{wide}" height="{high}" fill="white"/>')
    print(text(LEFT, 28, "Soft bits of one axis with m bits, by reading in steps; ticks below a frame mark the levels", 15, "start"))
    print(line(LEFT, 48, LEFT + 40, 48, EXACT, 'stroke-width="2"'))
    print(text(LEFT + 48, 52, "exact", 12, "start"))
    print(line(LEFT + 110, 48, LEFT + 150, 48, SHORT, 'stroke-width="2" stroke-dasharray="5 4"'))
    print(text(LEFT + 158, 52, "short", 12, "start"))
    for m in range(1, 5):
        for k, rows in table(sys.argv[1], m).items():
            for shape in panel(m, k, rows):
                print(shape)
    print("</svg>")


main()
