"""What compare says, with boxes in place of a browser's: no browser is needed here."""
import contextlib
import io
import re
import unittest
from unittest import mock

from mearrasot_tools import compare
from mearrasot_tools.boxes import boxes
from mearrasot_tools.build import Builder
from mearrasot_tools.run import lay

from . import PAGES, page_text


def laid(text: str):
    builder = Builder(text)
    page = builder.build()
    layout = lay(page)
    ours = {box.node: [box.x, box.y, box.width, box.height] for box in boxes(page, layout)}
    for node, _, start, _, line in layout.candidates:
        ours[node] = [start, line, 7.0, 7.0]
    return builder, page, layout, ours


class Compare(unittest.TestCase):
    def test_same(self):
        _, page, layout, ours = laid((PAGES / "meter.html").read_text(encoding="utf-8"))
        lines = compare.beside(page, layout, ours)
        self.assertEqual([line[3] for line in lines], ["same"] * 14)

    def test_not_explained(self):
        _, page, layout, ours = laid((PAGES / "notice.html").read_text(encoding="utf-8"))
        ours[3][1] += 0.25
        said = {line[0]: line[3] for line in compare.beside(page, layout, ours)}
        self.assertEqual((said["notice"], said["news"]), ("not explained", "same"))

    def test_kinds(self):
        """Pages of docs/DIFFERENCES.md: a box that a browser lays otherwise gets its kind."""
        pages = {
            "#a { width: 10px; aspect-ratio: 1 } #b { height: 30px }": "the ratio",
            "#a { height: 10px; align-content: center } #b { height: 20px }": "plain center or end",
            "#a { min-height: 10px } #b { height: 10px; margin-bottom: 10px }": "a minimum height equal",
            "#a { min-height: 40px; max-height: 30px } #b { height: 50% }": "a minimum that decides",
            "#a { max-height: 0 } #b { height: 10px; margin-bottom: 10px }": "a maximum height",
            "#a { width: 5px; overflow-y: scroll } #b { height: 10px; margin-right: -20px }": "the inner width",
            "#a { overflow-x: scroll } #b { margin-top: -20px }": "the content height",
        }
        for css, kind in pages.items():
            inside = '<div id="a"><div id="b"></div></div>'
            if "scroll" in css:
                inside = inside.replace('id="a"', 'id="a" data-scrollbar="15"')
            _, page, layout, ours = laid(page_text(css, inside))
            ours[1][3] += 5
            said = compare.beside(page, layout, ours)[1][3]
            self.assertTrue(said.startswith(kind) and said.endswith("at a"), f"{css}: {said}")
        _, page, layout, ours = laid(page_text("#a { height: 50%; min-height: 50px }", '<div id="a" data-height="7"></div>'))
        ours[1][3] = 50.0
        self.assertIn("not clamped", compare.beside(page, layout, ours)[1][3])

    def test_copy(self):
        """The browser's copy has each node once, in order, and pieces as wide as a leaf's table says."""
        builder, page, _, _ = laid((PAGES / "notice.html").read_text(encoding="utf-8"))
        text = compare.Copy(builder).text()
        self.assertEqual([int(n) for n in re.findall(r'<div data-n="(\d+)"', text)], list(range(12)))
        leaf = text[text.index('<div data-n="4"'):text.index('<div data-n="5"')]
        self.assertEqual([float(w) for w in re.findall(r"width:([\d.]+)px", leaf)], [60.0, 60.0, 60.0, 20.0])
        self.assertIn("display:block;font-size:0;line-height:0;height:24px", leaf)

    def test_no_browser(self):
        out = io.StringIO()
        with mock.patch.object(compare, "find_browser", return_value=None), contextlib.redirect_stdout(out):
            status = compare.compare_file(str(PAGES / "meter.html"))
        self.assertEqual(status, 3)
        self.assertIn("no browser: none of chromium", out.getvalue())


if __name__ == "__main__":
    unittest.main()
