"""The boxes of a browser beside ours, of one HTML page."""
import html as charrefs
import json
import os
import re
import shutil
import subprocess
import tempfile
from pathlib import Path

from .boxes import boxes
from .build import Builder
from .hints import hint
from .html import Element
from .numbers import decimal
from .page import Page
from .run import lay
from .source import Bad

BROWSERS = ("chromium", "chromium-browser", "google-chrome", "google-chrome-stable")
CLOSE = 1 / 16  # a browser counts in parts of 1/64 pixel, and a place is a sum of some
SCRIPT = """
addEventListener('load', () => {
  const all = [...document.querySelectorAll('[data-n]')], root = all[0].getBoundingClientRect();
  const found = all.map(e => { const r = e.getBoundingClientRect();
    return [+e.dataset.n, r.x - root.x, r.y - root.y, r.width, r.height]; });
  const pre = document.createElement('pre');
  pre.id = 'boxes';
  pre.textContent = JSON.stringify(found);
  document.body.replaceChildren(pre);
});
"""


def find_browser() -> str | None:
    return next((found for found in map(shutil.which, BROWSERS) if found), None)


def stand_in(least: float, most: float, height: float) -> str:
    """Content that is as narrow, as wide and as high as a leaf's table says: pieces that may stand in lines."""
    step = least or most / 64
    pieces, left = [], most
    while left > 0 and step > 0:
        pieces.append(min(step, left))
        left -= step
    inside = "".join(f'<span style="all:initial;display:inline-block;height:0;width:{p:.9g}px"></span>' for p in pieces or [0])
    return f'<span style="all:initial;display:block;font-size:0;line-height:0;height:{height:.9g}px">{inside}</span>'


class Copy:
    """The page for the browser: the same styles and divs, numbered, with stand-ins for measured leaves."""

    def __init__(self, builder: Builder):
        self.builder, self.page, self.count = builder, builder.page, 0

    def element(self, element: Element) -> str:
        number = self.count
        self.count += 1
        node = self.page.nodes[number]
        kept = " ".join(f'{name}="{element.get(name)}"' for name in ("id", "class", "style") if name in element.attributes)
        measured = any(name in element.attributes for name in ("data-min", "data-max", "data-height"))
        if measured:
            inside = stand_in(*node.numbers[24:27])
        else:
            inside = charrefs.escape(node.text) + "".join(self.element(child) for child in element.children)
        return f'<div data-n="{number}" {kept}>{inside}</div>'

    def text(self) -> str:
        html = self.builder.html
        body = next(c for c in html.children if c.tag == "body")
        styles = [c.text for h in html.children if h.tag == "head" for c in h.children if c.tag == "style"]
        bars = "".join(
            f'[data-n="{i}"]::-webkit-scrollbar{{width:{node.numbers[23]:.9g}px;height:{node.numbers[23]:.9g}px}}'
            for i, node in enumerate(self.page.nodes)
        )
        kept = " ".join(f'{name}="{body.get(name)}"' for name in ("id", "class", "style") if name in body.attributes)
        return (
            f'<!doctype html><html><head><meta charset="utf-8"><style>{"".join(styles)}</style><style>{bars}</style>'
            f"<script>{SCRIPT}</script></head><body {kept}>{self.element(body.children[0])}</body></html>"
        )


def browser_boxes(text: str, browser: str) -> dict[int, list[float]]:
    with tempfile.TemporaryDirectory() as folder:
        path = Path(folder, "page.html")
        path.write_text(text, encoding="utf-8")
        call = [browser, "--headless", "--disable-gpu", "--window-size=1200,1200", f"--user-data-dir={folder}/user"]
        if os.geteuid() == 0:
            call.append("--no-sandbox")
        done = subprocess.run(call + ["--dump-dom", path.as_uri()], capture_output=True, text=True, timeout=120, check=False)
    match = re.search(r'<pre id="boxes">(.*?)</pre>', done.stdout, re.DOTALL)
    if not match:
        raise Bad(f"the browser gave no boxes (status {done.returncode})")
    return {int(row[0]): row[1:] for row in json.loads(match.group(1))}


def beside(page: Page, layout, theirs: dict[int, list[float]]) -> list[list[str]]:
    """A line for each laid box and each candidate: name, ours, the browser's, what is said of it."""
    lines = []
    ours: dict[int, list[float]] = {box.node: [box.x, box.y, box.width, box.height] for box in boxes(page, layout)}
    for node, _, start, end, line in layout.candidates:
        rtl = page.nodes[max(page.parents()[node], 0)].style >> 3 & 1
        ours[node] = [end - theirs[node][2] if rtl else start, line]  # its size is not ours to say
    for node in sorted(ours):
        mine, other = ours[node], theirs[node][:len(ours[node])]
        same = all(abs(a - b) <= CLOSE for a, b in zip(mine, other))
        said = "same" if same else hint(page, layout, node)
        lines.append([page.names()[node], " ".join(decimal(x) for x in mine), " ".join(f"{x:.6g}" for x in other), said])
    return lines


def compare_file(path: str) -> int:
    """0: all are the same or explained; 1: some box is not explained; 3: there is no browser."""
    builder = Builder(Path(path).read_text(encoding="utf-8"))
    page = builder.build()
    layout = lay(page)
    browser = find_browser()
    if not browser:
        print(f"no browser: none of {', '.join(BROWSERS)} is installed; nothing is compared")
        return 3
    lines = beside(page, layout, browser_boxes(Copy(builder).text(), browser))
    head = ["box", "ours: left top width height", "the browser's", ""]
    widths = [max(len(line[k]) for line in [head] + lines) for k in range(3)]
    for line in [head] + lines:
        print("  ".join([cell.ljust(w) for cell, w in zip(line, widths)] + [line[3]]).rstrip())
    counts = [sum(1 for line in lines if line[3] == "same"), sum(1 for line in lines if line[3] == "not explained")]
    print(f"{len(lines)} boxes: {counts[0]} the same, {len(lines) - sum(counts)} by a listed difference, {counts[1]} not explained")
    return 1 if counts[1] else 0
