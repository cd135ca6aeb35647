"""Laid rows as boxes on the page: edges, whole pixels, padding and margins in pixels."""
from dataclasses import dataclass

from .numbers import decimal, f32, whole
from .page import Page
from .props import AUTO, PART
from .run import BASELINE, Layout


@dataclass
class Box:
    node: int
    depth: int
    x: float  # on the page, as the coarse panel adds it
    y: float
    width: float
    height: float
    place: tuple[float, float]  # in its parent, as printed
    baseline: float | None  # on the page
    margin: list[float]  # top, right, bottom, left, those of the style
    padding: list[float]
    border: list[float]

    def pixels(self) -> tuple[int, int, int, int]:
        """Left, top, right and bottom edge in whole pixels."""
        return whole(self.x), whole(self.y), whole(f32(self.x + self.width)), whole(f32(self.y + self.height))


def _sides(page: Page, node: int, first: int, basis: float) -> list[float]:
    units, numbers = page.nodes[node].units, page.nodes[node].numbers
    found = []
    for field in range(first, first + 4):
        if units[field] == AUTO:
            found.append(0.0)
        else:
            found.append(f32(numbers[field] * basis) if units[field] == PART else numbers[field])
    return found


def boxes(page: Page, layout: Layout) -> list[Box]:
    """One for each laid node, in order. A fraction is of the parent width that the row says."""
    above = page.parents()
    found = []
    for i, row in enumerate(layout.rows):
        if not row.laid():
            continue
        x, y, width, height = row.numbers[:4]
        up, depth = above[i], 0
        while up >= 0:
            x, y = f32(x + layout.rows[up].numbers[0]), f32(y + layout.rows[up].numbers[1])
            up, depth = above[up], depth + 1
        line = f32(y + row.numbers[15]) if row.marks & BASELINE else None
        sides = [_sides(page, i, first, row.numbers[10]) for first in (6, 10, 14)]
        found.append(Box(i, depth, x, y, width, height, (row.numbers[0], row.numbers[1]), line, *sides))
    return found


def text_form(page: Page, layout: Layout) -> str:
    """A table in decimals for a terminal: place in the parent, size, edges on the page, whole pixels, baseline."""
    head = ["box", "x", "y", "width", "height", "left", "top", "right", "bottom", "whole pixels", "baseline"]
    names = page.names()
    lines = [head]
    for box in boxes(page, layout):
        right, bottom = f32(box.x + box.width), f32(box.y + box.height)
        numbers = [*box.place, box.width, box.height, box.x, box.y, right, bottom]
        panel = " ".join(str(p) for p in box.pixels())
        line = "-" if box.baseline is None else decimal(box.baseline)
        lines.append(["  " * box.depth + names[box.node]] + [decimal(x) for x in numbers] + [panel, line])
    widths = [max(len(line[k]) for line in lines) for k in range(len(head))]
    out = []
    for line in lines:
        cells = [line[0].ljust(widths[0])] + [cell.rjust(w) for cell, w in zip(line[1:], widths[1:])]
        out.append("  ".join(cells).rstrip())
    for node, order, start, end, y in layout.candidates:
        out.append(f"candidate {names[node]}: order {order}, from {decimal(start)} to {decimal(end)} on the line at {decimal(y)}")
    return "\n".join(out) + "\n"
