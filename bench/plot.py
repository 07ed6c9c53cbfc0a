#!/usr/bin/env python3
"""Draws how sessions grow: `plot.py FOLDER FILE` reads the CSV files of the folder and writes an SVG file."""

import math
import sys

import figures

COMMANDS = [1, 2, 4, 8, 16, 32, 64, 128]
WIDTH, HEIGHT = 400, 300
LEFT, TOP, GAP, BOTTOM = 86, 96, 90, 60

# Colours that are readable on a light and a dark background; frame and text follow the reader's scheme.
STYLE = """
svg { font: 13px system-ui, sans-serif; background: #ffffff; }
text { fill: #24292f; }
.title { font-weight: 600; }
.frame { stroke: #57606a; fill: none; }
.grid { stroke: #d0d7de; }
.line { fill: none; stroke-width: 2; }
.twin { stroke-dasharray: 6 4; }
.mix { stroke: #d1570f; } .mix-point { fill: #d1570f; }
.adds { stroke: #2176d2; } .adds-point { fill: #2176d2; }
@media (prefers-color-scheme: dark) {
  svg { background: #0d1117; }
  text { fill: #e6edf3; }
  .frame { stroke: #8b949e; }
  .grid { stroke: #30363d; }
}
"""

SERIES = [(family, side) for family in ("mix", "adds") for side in ("engine", "twin")]
NAMES = {"mix": "mix of all commands", "adds": "a store, then adds"}


class Panel:
    """One pair of axes, both logarithmic: a straight line of slope one is growth in proportion."""

    def __init__(self, left, title, values):
        self.left, self.title, self.values = left, title, values
        points = [values[f"growth:{family}:{n}", side] for family, side in SERIES for n in COMMANDS]
        self.low = math.floor(math.log10(min(points)))
        self.high = math.ceil(math.log10(max(points)))

    def x(self, commands):
        return self.left + WIDTH * math.log2(commands) / 7

    def y(self, value):
        return TOP + HEIGHT * (self.high - math.log10(value)) / (self.high - self.low)

    def axes(self):
        for commands in COMMANDS:
            yield line(self.x(commands), TOP, self.x(commands), TOP + HEIGHT)
            yield text(self.x(commands), TOP + HEIGHT + 20, str(commands), "middle")
        for power in range(self.low, self.high + 1):
            height = self.y(10**power)
            yield line(self.left, height, self.left + WIDTH, height)
            yield text(self.left - 8, height + 4, f"{10**power:,}", "end")
        yield f'<rect class="frame" x="{self.left}" y="{TOP}" width="{WIDTH}" height="{HEIGHT}"/>'
        yield text(self.left + WIDTH / 2, TOP - 12, self.title, "middle", "title")
        yield text(self.left + WIDTH / 2, TOP + HEIGHT + 42, "commands in the session", "middle")

    def series(self, family, side):
        at = [(self.x(n), self.y(self.values[f"growth:{family}:{n}", side])) for n in COMMANDS]
        points = " ".join(f"{x:.1f},{y:.1f}" for x, y in at)
        yield f'<polyline class="line {family} {side}" points="{points}"/>'
        for x, y in at:
            yield f'<circle class="{family}-point" cx="{x:.1f}" cy="{y:.1f}" r="3"/>'

    def draw(self):
        yield from self.axes()
        for family, side in SERIES:
            yield from self.series(family, side)


def text(x, y, words, anchor, style="label"):
    return f'<text class="{style}" x="{x:.1f}" y="{y:.1f}" text-anchor="{anchor}">{words}</text>'


def line(x1, y1, x2, y2):
    return f'<line class="grid" x1="{x1:.1f}" y1="{y1:.1f}" x2="{x2:.1f}" y2="{y2:.1f}"/>'


def legend():
    """A row for each family of sessions, a column for each side."""
    for i, (family, side) in enumerate(SERIES):
        x, y = LEFT + 240 * (i % 2), 22 + 22 * (i // 2)
        yield f'<polyline class="line {family} {side}" points="{x},{y} {x + 34},{y}"/>'
        yield text(x + 42, y + 4, f"{side}, {NAMES[family]}", "start")


def drawing(panels):
    width = LEFT + len(panels) * (WIDTH + GAP)
    height = TOP + HEIGHT + BOTTOM
    yield f'<svg xmlns="http://www.w3.org/2000/svg" viewBox="0 0 {width} {height}" width="{width}" height="{height}">'
    yield "<title>What a session costs by its number of commands</title>"
    yield f"<style>{STYLE}</style>"
    yield from legend()
    for panel in panels:
        yield from panel.draw()
    yield "</svg>"


def main():
    folder, path = sys.argv[1:]
    measured = {
        "instructions per session": figures.instructions(folder),
        "nanoseconds per session": figures.medians(folder),
    }
    shown = [(title, values) for title, values in measured.items() if values]
    panels = [Panel(LEFT + i * (WIDTH + GAP), title, values) for i, (title, values) in enumerate(shown)]
    with open(path, "w") as file:
        file.writelines(part + "\n" for part in drawing(panels))


main()
