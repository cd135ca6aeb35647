"""The elements of an HTML page to the nodes of a page."""
import re

from .css import Rule, cascade, rules
from .html import MEASURES, Element, fold, parse
from .numbers import f32
from .page import BLOCK, HIDDEN, LEAF, Node, Page
from .props import AUTO, FIELDS, PART, PIXELS, SIDES, Value, pixels
from .source import Bad, Source

MAX_NODES = 512  # of a page file
MAX_DEPTH = 32
ADVANCE = 0.6  # width of a character of the fixed-width font, by its size
ASCENT = 0.8  # from the top of its letters to the baseline, by its size

CODES = {
    "position": {"static": 0, "relative": 1 << 4, "absolute": 2 << 4},
    "overflow-x": {"visible": 0, "clip": 1 << 6, "hidden": 2 << 6, "scroll": 3 << 6},
    "overflow-y": {"visible": 0, "clip": 1 << 8, "hidden": 2 << 8, "scroll": 3 << 8},
    "box-sizing": {"content-box": 1 << 2, "border-box": 0},
    "direction": {"ltr": 0, "rtl": 1 << 3},
    "contain": {"none": 0, "layout": 1 << 12, "content": 1 << 12, "strict": 1 << 12},
    "align-content": {
        "normal": 0, "start": 1 << 10, "center": 2 << 10, "end": 3 << 10,
        "space-between": 1 << 13, "space-around": 2 << 13, "space-evenly": 3 << 13, "stretch": 4 << 13,
        "unsafe center": 2 << 10, "unsafe end": 3 << 10,
        "safe center": 1 << 17 | 2 << 10, "safe end": 1 << 17 | 3 << 10,
    },
}
FIRST = {
    "position": "static", "overflow-x": "visible", "overflow-y": "visible", "box-sizing": "content-box",
    "direction": "ltr", "contain": "none", "align-content": "normal", "display": "block",
}
INHERITED = ("direction", "font-size", "line-height", "font-family")
OF_BODY = INHERITED + ("width", "height", "box-sizing")
BASELINE = 1 << 16


class Builder:
    def __init__(self, text: str):
        self.source = Source(text)
        self.html = parse(self.source)
        head = [c for c in self.html.children if c.tag == "head"]
        styles = [c for h in head for c in h.children if c.tag == "style"]
        self.sheet: list[Rule] = [rule for s in styles for rule in rules(self.source, s)]
        self.page = Page()
        self.ids: set[str] = set()
        self.scrollbar = 0.0

    def bad(self, at: int, text: str) -> Bad:
        return self.source.bad(at, text)

    def build(self) -> Page:
        bodies = [c for c in self.html.children if c.tag == "body"]
        if not bodies:
            raise self.bad(self.html.at, "there is no body")
        body = bodies[0]
        if len(body.children) != 1:
            at = body.children[1].at if body.children else body.at
            raise self.bad(at, "body has exactly one div, the page")
        self.body = cascade(self.source, self.sheet, body)
        self.check_body()
        if "data-scrollbar" in body.attributes:
            self.scrollbar = self.measure(body, "data-scrollbar")
        inherited = {k: v for k, v in self.body.items() if k in INHERITED}
        self.add(body.children[0], inherited, 1)
        return self.page

    def check_body(self) -> None:
        """Body is the screen: its width and height, no margin, and what is inherited."""
        for name, value in self.body.items():
            if name.startswith("margin-") and value.what[0] == PIXELS and value.what[1] == 0:
                continue
            if name not in OF_BODY:
                raise self.bad(value.at, f"{name} of body is not in the rules; put it on the div in it")
        if "margin-top" not in self.body:
            raise self.bad([c for c in self.html.children if c.tag == "body"][0].at, "body needs margin: 0, as a browser gives it one")

    # ---- The question ----

    def ask(self, root: Element, values: dict[str, Value], node: Node) -> None:
        page = self.page
        for name in ("min-width", "max-width", "margin-left", "margin-right"):
            if name in values and values[name].what != (AUTO, 0.0) and values[name].what != (PIXELS, 0.0):
                raise self.bad(values[name].at, f"{name} of the outer div is not in the rules; put it on a div in it")
        for name in ("height", "min-height", "max-height"):
            if name in values and values[name].what[0] == PART and (name, values[name].what[1]) != ("height", 1.0):
                raise self.bad(values[name].at, f"{name}: the outer div has no height to be a part of, but for height: 100%")
        width = self.body["width"] if "width" in self.body else None
        if width is None or width.what in ("max-content", "min-content"):
            page.avail = "min" if width and width.what == "min-content" else "max"
        elif width.what[0] == PIXELS:
            page.parent = width.what[1]
            page.known[0] = None if node.units[0] else page.parent
        else:
            raise self.bad(width.at, "width of body is in px, max-content or min-content")
        self.ask_height(values, node)
        display = values["display"].what if "display" in values else "block"
        if display == "none":
            raise self.bad(values["display"].at, "the outer div is shown")
        page.flags[0] = page.flags[1] = int(display == "block")
        if node.position() == 2:
            raise self.bad(values["position"].at, "the outer div is in the flow")
        if node.kind() == LEAF:
            raise self.bad(root.at, "the outer div is a block, no text and no measures")

    def ask_height(self, values: dict[str, Value], node: Node) -> None:
        """height: 100% of the outer div takes the body's height, and it is definite."""
        height = self.body.get("height")
        wanted = node.units[1] == PART
        if height and (not isinstance(height.what, tuple) or height.what[0] != PIXELS):
            raise self.bad(height.at, "height of body is in px")
        if height and not wanted:
            raise self.bad(height.at, "height of body counts only if the outer div has height: 100%")
        if wanted and not height:
            raise self.bad(values["height"].at, "height: 100% of the outer div needs a height of body in px")
        if wanted:
            self.page.known[1], self.page.flags[2] = height.what[1], 1
            node.units[1], node.numbers[1] = AUTO, 0.0

    # ---- Nodes ----

    def add(self, element: Element, inherited: dict[str, Value], depth: int) -> int:
        """The node of an element and those below it; how many they are."""
        place = len(self.page.nodes)
        if place == MAX_NODES:
            raise self.bad(element.at, f"over {MAX_NODES} nodes")
        if depth > MAX_DEPTH:
            raise self.bad(element.at, f"over {MAX_DEPTH} levels")
        values = dict(inherited)
        values.update(cascade(self.source, self.sheet, element))
        node = Node(name=self.name(element), place=self.source.place(element.at))
        node.text = fold(element.text)
        self.page.nodes.append(node)
        self.take_fields(values, node)
        self.take_style(element, values, node, place == 0)
        if place == 0:
            self.ask(element, values, node)
        inherited = {k: v for k, v in values.items() if k in INHERITED}
        for child in element.children:
            node.size += self.add(child, inherited, depth + 1)
        return node.size

    def name(self, element: Element) -> str:
        name = element.get("id")
        if name:
            at = element.attributes["id"].at
            if not re.match(r"[A-Za-z_][-\w]*\Z", name):
                raise self.bad(at, f"id {name} is no name")
            if name in self.ids:
                raise self.bad(at, f"id {name} stands twice")
            self.ids.add(name)
            return name
        classes = element.get("class").split()
        return f"{classes[0] if classes else 'div'}.{len(self.page.nodes)}"

    def take_fields(self, values: dict[str, Value], node: Node) -> None:
        for name, field in FIELDS.items():
            if name not in values:
                continue
            what = values[name].what
            if isinstance(what, str):
                raise self.bad(values[name].at, f"{name}: {what} is not in the rules but for the width of body")
            node.units[field], node.numbers[field] = what
        for side in SIDES:
            width = values.get(f"border-{side}-width")
            style = values.get(f"border-{side}-style")
            if width and width.what[1] > 0 and (not style or style.what == "none"):
                raise self.bad(width.at, f"border-{side}-width without solid: a browser takes it for 0")

    def take_style(self, element: Element, values: dict[str, Value], node: Node, root: bool) -> None:
        for name, codes in CODES.items():
            node.style |= codes[values[name].what if name in values else FIRST[name]]
        display = values.get("display")
        if display and display.what == "flow-root" and not root:
            raise self.bad(display.at, "display: flow-root is for the outer div alone")
        measured = [n for n in MEASURES if n in element.attributes]
        if (measured or element.text) and element.children:
            raise self.bad(element.at, "a leaf with divs in it")
        if measured or element.text:
            node.style |= LEAF
            self.take_measure(element, values, node)
        if display and display.what == "none":
            node.style = node.style & ~(3 | BASELINE) | HIDDEN
        self.check_pairs(values, node)
        self.take_bar(element, node)

    def check_pairs(self, values: dict[str, Value], node: Node) -> None:
        """What the rules refuse, or do not have, of two properties together."""
        if "aspect-ratio" in values:
            node.numbers[22] = values["aspect-ratio"].what
            if node.numbers[22] and PART in (node.units[1], node.units[3], node.units[5]):
                raise self.bad(values["aspect-ratio"].at, "aspect-ratio beside a % of a height is refused")
        if node.position() == 2:
            for side in SIDES:
                if side in values and values[side].what[0] != AUTO:
                    raise self.bad(values[side].at, f"{side} of an absolute box is not in the rules: it is a candidate alone")
        if "contain" in values and values["contain"].what == "strict" and node.units[:2] != [PIXELS, PIXELS]:
            raise self.bad(values["contain"].at, "contain: strict needs width and height in px, as no box is sized as if empty")

    def take_bar(self, element: Element, node: Node) -> None:
        scrolls = node.style >> 6 & 3 == 3 or node.style >> 8 & 3 == 3
        if "data-scrollbar" in element.attributes:
            if not scrolls:
                raise self.bad(element.attributes["data-scrollbar"].name_at, "data-scrollbar on a box that does not scroll")
            node.numbers[23] = self.measure(element, "data-scrollbar")
        elif scrolls:
            node.numbers[23] = self.scrollbar

    # ---- Leaves ----

    def measure(self, element: Element, name: str) -> float:
        attribute = element.attributes[name]
        return f32(pixels(self.source, name, attribute.value, attribute.at, ""))

    def take_measure(self, element: Element, values: dict[str, Value], node: Node) -> None:
        """Numbers 24 to 27: from the text first, then from the attributes."""
        given = {n: self.measure(element, n) for n in MEASURES if n in element.attributes}
        least = most = height = 0.0
        baseline = None
        if element.text and not {"data-min", "data-max", "data-height"} <= set(given):
            least, most, height, baseline = self.text_measure(element, values, node, given)
        elif "data-lines" in given:
            raise self.bad(element.attributes["data-lines"].name_at, "data-lines is for text that is measured")
        least = given.get("data-min", least)
        most = given.get("data-max", max(most, least))
        height = given.get("data-height", height)
        if least > most:
            raise self.bad(element.attributes.get("data-max", element.attributes.get("data-min")).at, "data-min is above data-max")
        if "data-baseline" in given:
            baseline = given["data-baseline"]
            if baseline > height:
                raise self.bad(element.attributes["data-baseline"].at, "data-baseline is below the leaf")
        elif "data-height" in given:
            baseline = None  # it belonged to the height that the text would have
        node.numbers[24:27] = [f32(least), f32(most), f32(height)]
        if baseline is not None:
            node.numbers[27] = f32(baseline)
            node.style |= BASELINE

    def text_measure(self, element: Element, values: dict[str, Value], node: Node, given: dict[str, float]):
        for name in ("font-size", "line-height", "font-family"):
            if name not in values:
                raise self.bad(element.text_at, f"text without {name}, as in font: 10px/12px monospace")
        size = values["font-size"].what
        unit, number = values["line-height"].what
        line = number if unit == "px" else number * size
        node.font = (size, line)
        lines = given.get("data-lines", 1.0)
        if lines < 1 or lines != int(lines):
            raise self.bad(element.attributes["data-lines"].at, "data-lines is a whole number from 1")
        least = max(len(word) for word in node.text.split(" ")) * size * ADVANCE
        most = len(node.text) * size * ADVANCE
        baseline = (line - size) / 2 + ASCENT * size
        height = lines * line
        return least, most, height, baseline if 0 <= baseline <= height else None


def build(text: str) -> Page:
    """The page of an HTML text."""
    return Builder(text).build()
