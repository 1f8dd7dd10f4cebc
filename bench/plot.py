"""Draws small charts side by side as one picture, in plain SVG: lines over four sizes, on axes of powers of two.

A line at 45 degrees is linear. Beside the end of each line is the exponent between its first and its last point.
"""

import math
from dataclasses import dataclass
from html import escape

from measure import exponent

WIDTH, HEIGHT, GAP = 250, 190, 18
# The room of a chart for its title, its numbers, and the names of its lines.
TOP, LEFT, BELOW, RIGHT = 26, 44, 20, 62
COLOURS = {"rv": "#b3261e", "GNU": "#1f5fa8", "LLVM": "#3b7d3b", "C": "#8a6d1a", "qemu": "#6b4fa0"}
STYLE = "text{font:11px sans-serif;fill:#222}.small{font-size:9px;fill:#555}.title{font-weight:bold}"


@dataclass
class Chart:
    """The title of a chart, the sizes, and of each tool the figures at these."""

    title: str
    sizes: list
    lines: dict


def number(value):
    """Few digits: 0.0123, 4.5, 120, 16k, 2M."""
    for unit, letter in ((1_000_000, "M"), (1000, "k")):
        if value >= unit:
            return f"{value / unit:.3g}{letter}"
    return f"{value:.3g}"


def text(x, y, words, kind="small", anchor="start", colour=None):
    fill = f' style="fill:{colour}"' if colour else ""
    return f'<text x="{x:.1f}" y="{y:.1f}" class="{kind}" text-anchor="{anchor}"{fill}>{escape(words)}</text>'


class Axes:
    """Where a point of a chart is in the picture: a step to twice as much is as long on both axes."""

    def __init__(self, chart, left, top):
        figures = [value for line in chart.lines.values() for value in line]
        self.left, self.bottom = left + LEFT, top + HEIGHT - BELOW
        self.first, self.least = math.log2(chart.sizes[0]), math.log2(min(figures))
        across, up = math.log2(chart.sizes[-1]) - self.first, math.log2(max(figures)) - self.least
        self.step = min((WIDTH - LEFT - RIGHT) / across, (HEIGHT - TOP - BELOW) / max(up, 1))

    def point(self, size, value):
        across, up = math.log2(size) - self.first, math.log2(value) - self.least
        return self.left + across * self.step, self.bottom - up * self.step


def line(axes, chart, tool):
    """A line with its points."""
    colour, values = COLOURS.get(tool, "#555"), chart.lines[tool]
    points = [axes.point(size, value) for size, value in zip(chart.sizes, values)]
    shown = " ".join(f"{x:.1f},{y:.1f}" for x, y in points)
    yield f'<polyline points="{shown}" fill="none" stroke="{colour}" stroke-width="1.6"/>'
    yield from (f'<circle cx="{x:.1f}" cy="{y:.1f}" r="2.2" fill="{colour}"/>' for x, y in points)


def names(axes, chart):
    """Behind the end of each line its tool and its exponent, none over another."""
    ends = {tool: axes.point(chart.sizes[-1], values[-1]) for tool, values in chart.lines.items()}
    above = float("-inf")
    for tool, (x, y) in sorted(ends.items(), key=lambda it: it[1][1]):
        above = max(y + 3, above + 10)
        grown = exponent(chart.lines[tool], chart.sizes[-1] / chart.sizes[0])
        yield text(x + 5, above, f"{tool} {grown:.2f}", colour=COLOURS.get(tool))


def drawn(chart, left, top):
    """The elements of a chart at a place of the picture."""
    axes, figures = Axes(chart, left, top), [value for values in chart.lines.values() for value in values]
    right, high = axes.point(chart.sizes[-1], max(figures))
    yield text(left, top + 12, chart.title, "title")
    for value in {min(figures), max(figures)}:
        _, y = axes.point(chart.sizes[0], value)
        yield f'<path d="M{axes.left} {y:.1f}H{right:.1f}" stroke="#ddd"/>'
        yield text(axes.left - 4, y + 3, number(value), anchor="end")
    # (where steps are short, the first and the last size have their numbers)
    for size in chart.sizes if axes.step > 26 else (chart.sizes[0], chart.sizes[-1]):
        x, _ = axes.point(size, figures[0])
        yield f'<path d="M{x:.1f} {high:.1f}V{axes.bottom}" stroke="#eee"/>'
        yield text(x, axes.bottom + 13, number(size), anchor="middle")
    for tool in chart.lines:
        yield from line(axes, chart, tool)
    yield from names(axes, chart)


def picture(rows):
    """The picture of rows of charts; none stands for a gap."""
    columns = max(map(len, rows))
    width, height = columns * (WIDTH + GAP) + GAP, len(rows) * (HEIGHT + GAP) + GAP
    size = f'width="{width}" height="{height}" viewBox="0 0 {width} {height}"'
    parts = [f'<svg xmlns="http://www.w3.org/2000/svg" {size}>', f"<style>{STYLE}</style>"]
    parts.append(f'<rect width="{width}" height="{height}" fill="#fff"/>')
    for down, row in enumerate(rows):
        for across, chart in enumerate(row):
            if chart:
                parts += drawn(chart, GAP + across * (WIDTH + GAP), GAP + down * (HEIGHT + GAP))
    return "\n".join([*parts, "</svg>\n"])
