"""Which listed difference may part ours and a browser's box: kinds of docs/DIFFERENCES.md, by what a node has."""
from .page import LEAF, Node, Page
from .props import AUTO, PART
from .run import Layout


def _ratio(page: Page, layout: Layout, i: int) -> bool:
    return page.nodes[i].numbers[22] != 0


def _tight(page: Page, layout: Layout, i: int) -> bool:
    """Plain center or end, and a laid child that starts above its box."""
    node = page.nodes[i]
    if node.style >> 17 & 1 or node.style >> 10 & 3 < 2:
        return False
    above = page.parents()
    return any(above[k] == i and row.laid() and row.numbers[1] < 0 for k, row in enumerate(layout.rows))


def _least_height(page: Page, layout: Layout, i: int) -> bool:
    node = page.nodes[i]
    return node.kind() != LEAF and node.units[1] == AUTO and node.units[3] != AUTO


def _deciding(page: Page, layout: Layout, i: int) -> bool:
    node = page.nodes[i]
    return _least_height(page, layout, i) and node.units[5] != AUTO and node.numbers[5] <= node.numbers[3]


def _most_height(page: Page, layout: Layout, i: int) -> bool:
    return page.nodes[i].kind() != LEAF and page.nodes[i].units[5] != AUTO


def _narrow(page: Page, layout: Layout, i: int) -> bool:
    """Insets across that are wider than the box, so that the inner width is negative."""
    node, row = page.nodes[i], layout.rows[i]
    return row.laid() and row.numbers[2] < _across(node)


def _across(node: Node) -> float:
    bar = node.numbers[23] if node.style >> 8 & 3 == 3 else 0.0
    return sum(node.numbers[f] for f in (11, 13, 15, 17) if node.units[f] != PART) + bar


def _low(page: Page, layout: Layout, i: int) -> bool:
    """A height that is less than the insets down, by a scrollbar or a negative margin."""
    node, row = page.nodes[i], layout.rows[i]
    bar = node.numbers[23] if node.style >> 6 & 3 == 3 else 0.0
    return row.laid() and row.numbers[3] < sum(node.numbers[f] for f in (10, 12, 14, 16) if node.units[f] != PART) + bar


def _shrunk(page: Page) -> bool:
    return page.known[0] is None and page.nodes[0].units[0] == AUTO


def _part_margin(page: Page, layout: Layout, i: int) -> bool:
    return _shrunk(page) and PART in page.nodes[i].units[6:10]


def _leaf_widths(page: Page, layout: Layout, i: int) -> bool:
    node = page.nodes[i]
    return _shrunk(page) and node.kind() == LEAF and (node.units[2] != AUTO or node.units[4] != AUTO)


def _leaf_height(page: Page, layout: Layout, i: int) -> bool:
    node = page.nodes[i]
    return node.kind() == LEAF and (node.units[3] != AUTO or node.units[5] != AUTO)


def _leaf_padding(page: Page, layout: Layout, i: int) -> bool:
    node = page.nodes[i]
    return node.kind() == LEAF and any(node.numbers[f] for f in range(10, 18))


def _text(page: Page, layout: Layout, i: int) -> bool:
    """Text whose width counts: the page shrinks to it, or it is wider than its box."""
    node, row = page.nodes[i], layout.rows[i]
    return node.kind() == LEAF and bool(node.text) and (_shrunk(page) or row.laid() and row.numbers[2] < node.numbers[25])


# In the order in which they are asked: the narrower first.
KINDS = [
    ("plain center or end with too little room", _tight),
    ("a minimum that decides (B) is a definite height", _deciding),
    ("a leaf's table height is not raised to its padding", _leaf_padding),
    ("a leaf's table height is not clamped (J)", _leaf_height),
    ("a leaf's own minimum and maximum do not count in the width of its parent (F)", _leaf_widths),
    ("fraction margins in a page that shrinks to fit (F)", _part_margin),
    ("the inner width is not raised to 0 (J, E)", _narrow),
    ("the content height is raised to 0 and not to the insets (K, M)", _low),
    ("the ratio: D, A and B, and no growth with the content", _ratio),
    ("a minimum height equal to the content's (L)", _least_height),
    ("a maximum height does not close the end", _most_height),
    ("text is measured by its count of letters, a browser sets it (tools/README.md)", _text),
]


def hint(page: Page, layout: Layout, i: int) -> str:
    """A kind that this box shows, or one above it, below it or else on the page; what may be, not what must."""
    above = page.parents()
    near = [i]
    while above[near[-1]] >= 0:
        near.append(above[near[-1]])
    near += list(range(i + 1, i + page.nodes[i].size))
    near += [k for k in range(len(page.nodes)) if k not in near]
    for k in near:
        for kind, shows in KINDS:
            if shows(page, layout, k):
                return f"{kind}, at {page.names()[k]}"
    return "not explained"
