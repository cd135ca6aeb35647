"""A laid page as an SVG picture: boxes in page pixels under one scale, tags with their edges beside."""
import textwrap
from dataclasses import dataclass, field
from xml.sax.saxutils import escape, quoteattr

from .boxes import Box, boxes
from .build import ADVANCE
from .numbers import decimal
from .page import LEAF, Node, Page
from .run import Layout

EDGE = 16  # around the picture
LEADER = 34  # room for the lines from boxes to tags
PITCH = 15  # from tag to tag
TAG = 11  # size of a tag's letters
WIDE = 0.602  # width of a letter by its size, in the usual fixed-width fonts
FONT = "DejaVu Sans Mono, Menlo, Consolas, monospace"

COLOURS = {
    "root": "#f4f1ea", "block": "#ffffff", "leaf": "#d3e2ee", "changed": "#e0701a", "outline": "#2f5d8a",
    "border": "#2f5d8a", "bar": "#c8c2b4", "padding": "#4f8a4d", "margin": "#c8803a", "baseline": "#c0392b",
    "candidate": "#7a3b8f", "leader": "#a8a294", "grey": "#8a8578",
}


@dataclass
class Picture:
    width: float
    height: float
    parts: list[str] = field(default_factory=list)

    def svg(self) -> str:
        return "\n".join([_open(self.width, self.height)] + self.parts + ["</svg>"]) + "\n"


def _open(width: float, height: float) -> str:
    return (
        f'<svg xmlns="http://www.w3.org/2000/svg" width="{width:g}" height="{height:g}" viewBox="0 0 {width:g} {height:g}"'
        f' font-family={quoteattr(FONT)} font-size="{TAG}">\n<rect width="100%" height="100%" fill="#fff"/>'
    )


def panels(pictures: list[Picture]) -> str:
    """Pictures side by side."""
    parts, x = [], 0.0
    for picture in pictures:
        parts += [f'<svg x="{x:g}" y="0" width="{picture.width:g}" height="{picture.height:g}">', *picture.parts, "</svg>"]
        x += picture.width
    return Picture(x, max(p.height for p in pictures), parts).svg()


def picture(page: Page, layout: Layout, title: str = "", changed: frozenset[int] = frozenset(),
            brief: bool = False, prefix: str = "") -> Picture:
    return _Drawing(page, layout, changed, brief, prefix).whole(title)


class _Drawing:
    def __init__(self, page: Page, layout: Layout, changed: frozenset[int], brief: bool, prefix: str):
        self.page, self.layout, self.changed, self.brief, self.prefix = page, layout, changed, brief, prefix
        self.boxes = {box.node: box for box in boxes(page, layout)}
        self.above = page.parents()
        self.parts: list[str] = []
        self.defs: list[str] = []
        self.seen: set[str] = set()  # what the legend has to explain
        ends = [self.reach(box) for box in self.boxes.values() if not self.is_clipped(box)]
        ends += [(start, line, end, line) for _, _, start, end, line in layout.candidates]
        self.left, self.top = min(e[0] for e in ends), min(e[1] for e in ends)
        self.right, self.bottom = max(e[2] for e in ends), max(e[3] for e in ends)
        span, tall = max(self.right - self.left, 1.0), max(self.bottom - self.top, 1.0)
        self.scale = min(4.0, round(4 * 400 / span) / 4 or 400 / span, 4000 / tall)

    # ---- What is seen ----

    def reach(self, box: Box) -> tuple[float, float, float, float]:
        top, right, bottom, left = [max(m, 0.0) if box.node else 0.0 for m in box.margin]
        return box.x - left, box.y - top, box.x + box.width + right, box.y + box.height + bottom

    def clip_of(self, node: int) -> tuple[float, float, float, float] | None:
        """The part of a box that its content is seen in, if it cuts it."""
        if not self.page.nodes[node].style >> 6 & 15:
            return None
        box = self.boxes[node]
        top, right, bottom, left = (p + q for p, q in zip(box.border, self.bars(node)))
        return box.x + left, box.y + top, box.x + box.width - right, box.y + box.height - bottom

    def bars(self, node: int) -> list[float]:
        """Room of the scrollbars: top, right, bottom, left."""
        style, bar = self.page.nodes[node].style, self.page.nodes[node].numbers[23]
        down, across = style >> 8 & 3 == 3, style >> 6 & 3 == 3
        return [0.0, bar if down and not style >> 3 & 1 else 0.0, bar if across else 0.0, bar if down and style >> 3 & 1 else 0.0]

    def is_clipped(self, box: Box) -> bool:
        """Is nothing of it seen, as a box above cuts it off?"""
        up = self.above[box.node]
        while up >= 0:
            clip = self.clip_of(up)
            if clip and (box.x >= clip[2] or box.x + box.width <= clip[0] or box.y >= clip[3] or box.y + box.height <= clip[1]):
                return True
            up = self.above[up]
        return False

    # ---- Boxes ----

    def rect(self, x: float, y: float, width: float, height: float, rest: str) -> None:
        if width > 0 and height > 0:
            self.parts.append(f'<rect x="{decimal(x)}" y="{decimal(y)}" width="{decimal(width)}" height="{decimal(height)}" {rest}/>')

    def frame(self, x: float, y: float, w: float, h: float, sides: list[float], rest: str) -> None:
        """The four sides of a frame, inside a box."""
        top, right, bottom, left = (max(s, 0.0) for s in sides)
        self.rect(x, y, w, top, rest)
        self.rect(x, y + h - bottom, w, bottom, rest)
        self.rect(x, y + top, left, h - top - bottom, rest)
        self.rect(x + w - right, y + top, right, h - top - bottom, rest)

    def hatch(self, kind: str) -> str:
        self.seen.add(kind)
        return f'fill="url(#{self.prefix}{kind})"'

    def draw_box(self, box: Box) -> None:
        node = self.page.nodes[box.node]
        x, y, w, h = box.x, box.y, box.width, box.height
        if box.node and any(m > 0 for m in box.margin):
            top, right, bottom, left = (max(m, 0.0) for m in box.margin)
            self.frame(x - left, y - top, w + left + right, h + top + bottom, [top, right, bottom, left], self.hatch("margin"))
        kind = "root" if box.node == 0 else "leaf" if node.kind() == LEAF else "block"
        thin = 0.8 / self.scale
        edges = f'x="{decimal(x)}" y="{decimal(y)}" width="{decimal(w)}" height="{decimal(h)}"'
        if w >= 0 and h >= 0:
            self.parts.append(
                f'<rect class="box" data-node="{box.node}" {edges} fill="{COLOURS[kind]}" stroke="{COLOURS["outline"]}" stroke-width="{thin:.3g}"/>'
            )
        if w == 0 or h == 0:  # a rectangle of no height is not seen
            line = f"M{decimal(x)} {decimal(y)}l{decimal(w)} {decimal(h)}"
            self.parts.append(f'<path d="{line}" stroke="{COLOURS["outline"]}" stroke-width="{2 * thin:.3g}"/>')
        self.frame(x, y, w, h, box.border, f'fill="{COLOURS["border"]}"')
        inner = (x + box.border[3], y + box.border[0], w - box.border[1] - box.border[3], h - box.border[0] - box.border[2])
        if any(self.bars(box.node)):
            self.seen.add("bar")
            self.frame(*inner, self.bars(box.node), f'fill="{COLOURS["bar"]}"')
            bars = self.bars(box.node)
            inner = (inner[0] + bars[3], inner[1], inner[2] - bars[1] - bars[3], inner[3] - bars[2])
        if any(p > 0 for p in box.padding):
            self.frame(*inner, box.padding, self.hatch("padding"))
        if node.kind() == LEAF:
            self.label(box, node)

    def label(self, box: Box, node: Node) -> None:
        """The text of a leaf, in its own letters if it is measured by them; what does not fit ends in dots."""
        size = min(11.0, 0.75 * box.height * self.scale) / self.scale
        size, pitch = node.font or (size, 1.15 * size)
        left, right = (box.padding[k] + box.border[k] + (0 if node.font else size / 3) for k in (3, 1))
        letters = int((box.width - left - right) / (ADVANCE * size) + 0.01) if size > 0 else 0
        if letters < 2 or size * self.scale < 5:
            return
        room = max(1, int(box.height / pitch + 0.01))
        lines = textwrap.wrap(node.text or node.name or str(box.node), letters, max_lines=room, placeholder="…") or [""]
        first = box.y + (box.height - pitch * (len(lines) - 1)) / 2 + 0.36 * size
        if box.baseline is not None:
            first = box.baseline
        rtl = node.style >> 3 & 1
        x = f'x="{box.x + box.width - right:.6g}" text-anchor="end"' if rtl else f'x="{box.x + left:.6g}"'
        for k, line in enumerate(lines):
            self.parts.append(f'<text {x} y="{first + pitch * k:.6g}" font-size="{size:.4g}">{escape(line)}</text>')

    def draw_line(self, box: Box) -> None:
        """A leaf's baseline along the leaf; that of a block, which is some leaf's, as a mark at its left edge."""
        if box.baseline is not None:
            self.seen.add("baseline")
            leaf = self.page.nodes[box.node].kind() == LEAF
            long = box.width if leaf else min(box.width, 7 / self.scale)
            self.parts.append(
                f'<path class="baseline" data-node="{box.node}" d="M{decimal(box.x)} {decimal(box.baseline)}h{long:.6g}"'
                f' stroke="{COLOURS["baseline"]}" stroke-width="{(0.7 if leaf else 1.4) / self.scale:.3g}"'
                + (f' stroke-dasharray="{1.5 / self.scale:.3g}"/>' if leaf else "/>")
            )

    def draw_tree(self, node: int) -> None:
        if node not in self.boxes:
            return
        box = self.boxes[node]
        self.draw_box(box)
        if node == 0:
            self.draw_changed(root=True)
        clip = self.clip_of(node)
        if clip:
            name = f"{self.prefix}clip{node}"
            width, height = max(clip[2] - clip[0], 0.0), max(clip[3] - clip[1], 0.0)
            self.defs.append(
                f'<clipPath id="{name}"><rect x="{clip[0]:g}" y="{clip[1]:g}" width="{width:g}" height="{height:g}"/></clipPath>'
            )
            self.parts.append(f'<g clip-path="url(#{name})">')
        child = node + 1
        while child < node + self.page.nodes[node].size:
            self.draw_tree(child)
            child += self.page.nodes[child].size
        self.draw_line(box)
        if clip:
            self.parts.append("</g>")

    def draw_changed(self, root: bool) -> None:
        """After all boxes, so that none covers a mark; but the root's before them, as it would cross what sticks out."""
        for box in [self.boxes[0]] if root else list(self.boxes.values())[1:]:
            if box.node in self.changed and not self.is_clipped(box):
                self.seen.add("changed")
                look = f'class="changed" fill="none" stroke="{COLOURS["changed"]}" stroke-width="{2 / self.scale:.3g}"'
                self.rect(box.x, box.y, box.width, box.height, look)

    def draw_candidates(self) -> None:
        for node, _, start, end, line in self.layout.candidates:
            self.seen.add("candidate")
            dash = f"{5 / self.scale:.3g} {3 / self.scale:.3g}"
            self.parts.append(
                f'<path class="candidate" data-node="{node}" d="M{decimal(start)} {decimal(line)}H{decimal(end)}"'
                f' stroke="{COLOURS["candidate"]}" stroke-width="{1.6 / self.scale:.3g}" stroke-dasharray="{dash}"/>'
            )

    # ---- Tags ----

    def cells(self, box: Box) -> list[str]:
        name = "  " * (0 if self.brief else box.depth) + self.page.names()[box.node]
        left, top, right, bottom = box.pixels()
        if self.brief:
            return [name, f"{top} to {bottom}"]
        size = f"{decimal(box.width)} x {decimal(box.height)}"
        return [name, f"{decimal(box.x)}, {decimal(box.y)}", size, f"{left} to {right}", f"{top} to {bottom}"]

    def tags(self) -> list[tuple[float | None, float, list[str], str]]:
        """Where each tag points to (no x: it points nowhere), what it says, its colour; in the order of the nodes."""
        found = []
        for box in self.boxes.values():
            if self.brief and self.page.nodes[box.node].kind() == LEAF and self.above[box.node] > 0:
                continue
            hidden = self.is_clipped(box)
            leaf = self.page.nodes[box.node].kind() == LEAF
            y = box.y + (box.height / 2 if leaf else min(box.height / 2, 3 / self.scale))
            colour = COLOURS["grey"] if hidden else COLOURS["changed"] if box.node in self.changed else "#000"
            found.append((None if hidden else box.x + box.width, y, self.cells(box), colour, box.node))
        for node, _, _, end, line in self.layout.candidates:
            cells = [self.page.names()[node], f"line {decimal(line)}"]
            found.append((end, line, cells, COLOURS["candidate"], node))
        return [tag[:4] for tag in sorted(found, key=lambda tag: tag[4])]

    def draw_tags(self, at: tuple[float, float], tag_x: float, top: float) -> tuple[float, float]:
        """The tags beside the page; the picture's width and the foot of the last tag."""
        tags = self.tags()
        head = ["box", "pixels down"] if self.brief else ["box", "left, top", "size", "pixels across", "pixels down"]
        widths = [max(len(t[2][k]) for t in tags + [(0, 0, head, "")] if k < len(t[2])) for k in range(len(head))]
        columns = [tag_x + WIDE * TAG * (sum(widths[:k]) + 2 * k) for k in range(len(head))]
        for x, text in zip(columns, head):
            self.parts.append(f'<text x="{x:.6g}" y="{top:.6g}" fill="{COLOURS["grey"]}">{text}</text>')
        y = top
        for x, point, cells, colour in tags:
            wanted = at[1] + (point - self.top) * self.scale
            y = max(y + PITCH, wanted + TAG / 3)
            if x is not None:
                start = at[0] + (x - self.left) * self.scale
                self.parts.append(
                    f'<path d="M{start:.6g} {wanted:.6g}L{tag_x - 6:.6g} {y - TAG / 3:.6g}" stroke="{COLOURS["leader"]}" stroke-width="0.6"/>'
                    f'<circle cx="{start:.6g}" cy="{wanted:.6g}" r="1.6" fill="{COLOURS["leader"]}"/>'
                )
            for column, cell in zip(columns, cells):
                shift = len(cell) - len(cell.lstrip())
                self.parts.append(f'<text x="{column + WIDE * TAG * shift:.6g}" y="{y:.6g}" fill="{colour}">{escape(cell.strip())}</text>')
        return columns[-1] + WIDE * TAG * widths[-1] + EDGE, y

    def draw_legend(self, y: float) -> float:
        """Swatches of what the picture has; the width that they take."""
        words = {
            "padding": "padding", "margin": "margin", "bar": "scrollbar", "baseline": "first baseline",
            "candidate": "candidate", "changed": "changed",
        }
        x = float(EDGE)
        for kind, word in words.items():
            if kind not in self.seen:
                continue
            if kind in ("baseline", "candidate"):
                dash = "1.5" if kind == "baseline" else "5 3"
                self.parts.append(f'<path d="M{x:g} {y - 4:g}h16" stroke="{COLOURS[kind]}" stroke-width="1.4" stroke-dasharray="{dash}"/>')
            else:
                fill = f"url(#{self.prefix}{kind}-1)" if kind in ("padding", "margin") else COLOURS[kind]
                look = f'fill="{fill}" stroke="{COLOURS["grey"]}" stroke-width="0.5"'
                look = f'fill="none" stroke="{fill}" stroke-width="2"' if kind == "changed" else look
                self.parts.append(f'<rect x="{x:g}" y="{y - 9:g}" width="16" height="10" {look}/>')
            self.parts.append(f'<text x="{x + 21:g}" y="{y:g}" fill="{COLOURS["grey"]}">{word}</text>')
            x += 21 + WIDE * TAG * len(word) + 16
        return x

    def patterns(self) -> list[str]:
        out = []
        for kind, turn in (("padding", 45), ("margin", -45)):
            for name, scale in ((kind, self.scale), (f"{kind}-1", 1.0)):
                step = 4 / scale
                stripe = f'<path d="M0 0v{step:.4g}" stroke="{COLOURS[kind]}" stroke-width="{1.6 / scale:.3g}"/>'
                out.append(
                    f'<pattern id="{self.prefix}{name}" width="{step:.4g}" height="{step:.4g}" patternUnits="userSpaceOnUse"'
                    f' patternTransform="rotate({turn})">{stripe}</pattern>'
                )
        return out

    def whole(self, title: str) -> Picture:
        top = EDGE + (20 if title else 0)
        at = (EDGE, top + PITCH + 4)
        shift = f"translate({at[0] - self.left * self.scale:.6g} {at[1] - self.top * self.scale:.6g})"
        self.parts.append(f'<g transform="{shift} scale({self.scale:.6g})">')
        self.draw_tree(0)
        self.draw_candidates()
        self.draw_changed(root=False)
        self.parts.append("</g>")
        tag_x = at[0] + (self.right - self.left) * self.scale + LEADER
        width, foot = self.draw_tags(at, tag_x, top + TAG / 2)
        foot = max(foot, at[1] + (self.bottom - self.top) * self.scale)
        width = max(width, self.draw_legend(foot + 26), EDGE * 2 + WIDE * 13 * len(title))
        if title:
            self.parts.insert(0, f'<text x="{EDGE}" y="{EDGE + 8}" font-size="13">{escape(title)}</text>')
        self.parts.insert(0, "<defs>" + "".join(self.patterns() + self.defs) + "</defs>")
        return Picture(round(width), round(foot + 26 + EDGE), self.parts)
