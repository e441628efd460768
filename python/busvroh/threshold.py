"""How often codes of several distances fail at several rates, and a picture of that.

Below the threshold of a code the rate of logical errors falls with the distance, above it the rate rises: so the curves
cross there. A code is measured for as many rounds as its distance, and outcomes are wrong at the rate of flips.
"""

import math
from collections import namedtuple
from html import escape

from busvroh.codes import CODES
from busvroh.counting import count_errors, parts_of
from busvroh.decoding import Decoding

# A code by its name, its distance and its rate, and the count of its shots.
Point = namedtuple("Point", "code distance rate count")

PANEL_WIDTH, PANEL_HEIGHT, LEFT, RIGHT, TOP, BOTTOM = 380, 320, 70, 20, 50, 60
COLOURS = ["#2b6cb0", "#dd6b20", "#2f855a", "#805ad5", "#c53030", "#4a5568"]
MOST_LABELS = 9
GRID, INK = "#e2e8f0", "#2d3748"


def measured(name, distance, rate, draws, settings):
    """The count of some shots of a code; `draws` are their number and the seed."""
    code = CODES[name](distance, distance, rate)
    decoding = Decoding(code.model_text().splitlines(), settings)
    return Point(name, distance, rate, count_errors(decoding, parts_of(decoding, code.shots(*draws))))


class Panel:
    """The curves of one code in a rectangle; the vertical axis is logarithmic."""

    def __init__(self, points, left):
        self.points, self.left = points, left
        self.rates = sorted({point.rate for point in points})
        least = min((point.count.rate for point in points if point.count.errors), default=0.1)
        self.decades = range(math.floor(math.log10(least)), 1)

    def x(self, rate):
        first, last = self.rates[0], self.rates[-1]
        share = (rate - first) / (last - first) if last > first else 0.5
        return self.left + PANEL_WIDTH * (0.05 + 0.9 * share)

    def y(self, rate):
        lowest = self.decades[0]
        return TOP + PANEL_HEIGHT * min(1, math.log10(max(rate, 10.0**lowest)) / lowest)

    def parts(self):
        """The elements of the picture, the lowest first."""
        yield from self.axes()
        distances = sorted({point.distance for point in self.points})
        for number, distance in enumerate(distances):
            colour = COLOURS[number % len(COLOURS)]
            yield from self.curve([point for point in self.points if point.distance == distance], colour)
            y = TOP + PANEL_HEIGHT - 18 * (len(distances) - number)
            x = self.left + PANEL_WIDTH - 104
            yield line(x, y, x + 20, y, colour, 2)
            yield text(x + 26, y + 4, f"distance {distance}")

    def axes(self):
        right, bottom = self.left + PANEL_WIDTH, TOP + PANEL_HEIGHT
        for rate in self.rates:
            yield line(self.x(rate), TOP, self.x(rate), bottom, GRID)
        for rate in self.rates[:: -(-len(self.rates) // MOST_LABELS)]:
            yield text(self.x(rate), bottom + 18, f"{100 * rate:g}", "middle")
        for decade in self.decades:
            yield line(self.left, self.y(10.0**decade), right, self.y(10.0**decade), GRID)
            yield text(self.left - 8, self.y(10.0**decade) + 4, f"{10.0**decade:g}", "end")
        place = f'x="{self.left}" y="{TOP}" width="{PANEL_WIDTH}" height="{PANEL_HEIGHT}"'
        yield f'<rect {place} fill="none" stroke="{INK}"/>'
        middle = self.left + PANEL_WIDTH / 2
        yield text(middle, TOP - 16, f"{self.points[0].code} code, as many rounds as its distance", "middle")
        yield text(middle, bottom + 40, "rate of flips and of wrong outcomes in a round, %", "middle")

    def curve(self, points, colour):
        """The points of one distance, each with its error bar. One without errors has the bar alone."""
        seen = [point for point in sorted(points, key=lambda each: each.rate) if point.count.errors]
        places = " ".join(f"{self.x(each.rate):.1f},{self.y(each.count.rate):.1f}" for each in seen)
        yield f'<polyline points="{places}" fill="none" stroke="{colour}" stroke-width="1.5"/>'
        for each in points:
            low, high = each.count.interval()
            yield line(self.x(each.rate), self.y(low), self.x(each.rate), self.y(high), colour, 1.5)
        for each in seen:
            told = f"distance {each.distance}, rate {each.rate:g}: {each.count.errors} of {each.count.shots}"
            disc = f'<circle cx="{self.x(each.rate):.1f}" cy="{self.y(each.count.rate):.1f}" r="3" fill="{colour}">'
            yield f"{disc}<title>{told}</title></circle>"


def line(x1, y1, x2, y2, colour, width=1):
    ends = f'x1="{x1:.1f}" y1="{y1:.1f}" x2="{x2:.1f}" y2="{y2:.1f}"'
    return f'<line {ends} stroke="{colour}" stroke-width="{width}"/>'


def text(x, y, words, anchor="start"):
    return f'<text x="{x:.1f}" y="{y:.1f}" text-anchor="{anchor}">{escape(words)}</text>'


def picture(points, caption):
    """The curves of all points as SVG, a panel for each code."""
    names = list(dict.fromkeys(point.code for point in points))
    panels = [
        Panel([point for point in points if point.code == name], LEFT + number * (LEFT + PANEL_WIDTH + RIGHT))
        for number, name in enumerate(names)
    ]
    width, height = len(panels) * (LEFT + PANEL_WIDTH + RIGHT), TOP + PANEL_HEIGHT + BOTTOM
    font = f'font-family="sans-serif" font-size="12" fill="{INK}"'
    turned = f'transform="translate(16 {TOP + PANEL_HEIGHT / 2:g}) rotate(-90)" text-anchor="middle"'
    lines = [
        f'<svg xmlns="http://www.w3.org/2000/svg" viewBox="0 0 {width} {height}" {font}>',
        f"<desc>{escape(caption)}</desc>",
        '<rect width="100%" height="100%" fill="white"/>',
        *(part for panel in panels for part in panel.parts()),
        f"<text {turned}>rate of logical errors in a shot</text>",
        "</svg>",
    ]
    return "".join(f"{each}\n" for each in lines)
