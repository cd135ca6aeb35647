"""A page as its tables: nodes with words and numbers, the question, and the page file."""
from dataclasses import dataclass, field

from .numbers import bits, from_bits
from .source import Bad

UNITS = 22
NUMBERS = 28
BLOCK, LEAF, HIDDEN = 0, 1, 2
USUAL = [0] * 6 + [1] * 12 + [0] * 4  # margins, padding and border in pixels


@dataclass
class Node:
    size: int = 1
    style: int = 0
    units: list[int] = field(default_factory=lambda: list(USUAL))
    numbers: list[float] = field(default_factory=lambda: [0.0] * NUMBERS)
    name: str = ""
    text: str = ""
    font: tuple[float, float] | None = None  # size and line height of a text that is measured
    place: tuple[int, int] = (0, 0)  # line and column in the HTML

    def kind(self) -> int:
        return self.style & 3

    def position(self) -> int:
        return self.style >> 4 & 3

    def words(self) -> list[int]:
        packed = [sum(u << 2 * k for k, u in enumerate(part)) for part in (self.units[:14], self.units[14:])]
        return [self.size, self.style] + packed

    def take_word(self, word: int, value: int) -> None:
        if word == 0:
            self.size = value
        elif word == 1:
            self.style = value
        else:
            first, count = (0, 14) if word == 2 else (14, 8)
            self.units[first:first + count] = [value >> 2 * k & 3 for k in range(count)]


@dataclass
class Page:
    nodes: list[Node] = field(default_factory=list)
    parent: float = 0.0
    known: list[float | None] = field(default_factory=lambda: [None, None])
    avail: str | float = "max"
    flags: list[int] = field(default_factory=lambda: [0, 0, 0])

    def parents(self) -> list[int]:
        """The parent of each node, -1 for the root; from the sizes of the subtrees."""
        found, stack = [], []
        for i, node in enumerate(self.nodes):
            while stack and i >= stack[-1][1]:
                stack.pop()
            found.append(stack[-1][0] if stack else -1)
            stack.append((i, i + node.size))
        return found

    def names(self) -> list[str]:
        return [node.name or f"node {i}" for i, node in enumerate(self.nodes)]

    def text(self) -> str:
        """The page file."""
        known = ",".join("none" if k is None else bits(k) for k in self.known)
        avail = self.avail if isinstance(self.avail, str) else bits(self.avail)
        lines = [
            f"nodes={len(self.nodes)}", f"parent={bits(self.parent)}", f"known={known}", f"avail={avail}",
            "lines=" + ",".join(str(f) for f in self.flags),
        ]
        for node in self.nodes:
            lines.append("node=" + ",".join(f"{w:08x}" for w in node.words()))
            lines += [f"num={f},{bits(x)}" for f, x in enumerate(node.numbers) if bits(x) != "00000000"]
        return "\n".join(lines) + "\n"


def read_bits(text: str) -> float | None:
    return None if text == "none" else from_bits(text)


def read_avail(text: str) -> str | float:
    return text if text in ("min", "max") else from_bits(text)


def read_page(text: str) -> Page:
    """A page file. The page program is the judge of its lines; this reads those it accepts."""
    page = Page()
    for number, line in enumerate(text.splitlines(), 1):
        key, _, value = line.partition("=")
        try:
            if key == "parent":
                page.parent = from_bits(value)
            elif key == "known":
                page.known = [read_bits(k) for k in value.split(",")]
            elif key == "avail":
                page.avail = read_avail(value)
            elif key == "lines":
                page.flags = [int(f) for f in value.split(",")]
            elif key == "node":
                node = Node()
                for k, word in enumerate(value.split(",")):
                    node.take_word(k, int(word, 16))
                page.nodes.append(node)
            elif key == "num":
                place, number_bits = value.split(",")
                page.nodes[-1].numbers[int(place)] = from_bits(number_bits)
            elif key != "nodes":
                raise ValueError
        except (ValueError, IndexError):
            raise Bad(f"'{line}' is no line of a page file", number, 1) from None
    if not page.nodes:
        raise Bad("there is no node")
    return page
