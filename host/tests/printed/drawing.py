"""A drawing in SVG: lines, boxes and texts in the page's own units, and panels with axes."""

import math
from xml.sax.saxutils import escape

INK, GREY, PALE = "#222222", "#777777", "#dddddd"


class Drawing:
    def __init__(self, width, height):
        self.size = width, height
        self.parts = []

    def line(self, points, ink, width=1.0, dashes=""):
        path = " ".join(f"{x:.1f},{y:.1f}" for x, y in points)
        dashed = f' stroke-dasharray="{dashes}"' if dashes else ""
        self.parts.append(f'<polyline points="{path}" fill="none" stroke="{ink}" stroke-width="{width}"{dashed}/>')

    def box(self, x, y, width, height, fill):
        self.parts.append(f'<rect x="{x:.1f}" y="{y:.1f}" width="{width:.1f}" height="{height:.1f}" fill="{fill}"/>')

    def text(self, x, y, words, size=12, ink=INK, anchor="start", bold=False):
        weight = ' font-weight="bold"' if bold else ""
        place = f'x="{x:.1f}" y="{y:.1f}" font-size="{size}" fill="{ink}" text-anchor="{anchor}"'
        self.parts.append(f"<text {place}{weight}>{escape(words)}</text>")

    def svg(self):
        width, height = self.size
        head = f'<svg xmlns="http://www.w3.org/2000/svg" width="{width}" height="{height}" viewBox="0 0 {width} {height}"'
        head += ' font-family="DejaVu Sans, sans-serif">'
        ground = f'<rect width="{width}" height="{height}" fill="#ffffff"/>'
        return "\n".join([head, ground, *self.parts, "</svg>", ""])


class Axis:
    """values from low to high over the page from start to end"""

    def __init__(self, low, high, start, end, logarithmic=False):
        self.of = math.log10 if logarithmic else float
        self.low, self.high, self.start, self.end = self.of(low), self.of(high), start, end

    def at(self, value):
        return self.start + (self.of(value) - self.low) / (self.high - self.low) * (self.end - self.start)


class Panel:
    def __init__(self, drawing, across, up):
        self.drawing, self.across, self.up = drawing, across, up

    def grid(self, across_ticks, up_ticks, across_text=str, up_text=str):
        left, right, bottom, top = self.across.start, self.across.end, self.up.start, self.up.end
        for tick in across_ticks:
            x = self.across.at(tick)
            self.drawing.line([(x, top), (x, bottom)], PALE)
            self.drawing.text(x, bottom + 16, across_text(tick), 11, GREY, "middle")
        for tick in up_ticks:
            y = self.up.at(tick)
            self.drawing.line([(left, y), (right, y)], PALE)
            self.drawing.text(left - 6, y + 4, up_text(tick), 11, GREY, "end")
        self.drawing.line([(left, top), (left, bottom), (right, bottom), (right, top), (left, top)], GREY)

    def curve(self, points, ink, width=1.6, dashes=""):
        """a line through points of the panel; none where there are none"""
        if points:
            self.drawing.line([(self.across.at(x), self.up.at(y)) for x, y in points], ink, width, dashes)
