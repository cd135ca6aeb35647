"""Pictures and the text form, against what the programs print."""
import contextlib
import io
import tempfile
import unittest
import xml.etree.ElementTree as xml
from pathlib import Path

from mearrasot_tools.build import build
from mearrasot_tools.draw import panels, picture
from mearrasot_tools.main import load, main
from mearrasot_tools.numbers import decimal, f32, from_bits
from mearrasot_tools.replay import changed_nodes, steps
from mearrasot_tools.run import lay, run
from mearrasot_tools.source import Bad

from . import PAGES, STORED, TOP, page_text

SVG = "{http://www.w3.org/2000/svg}"
PICTURES = ("meter", "notice", "billing", "settings")


def rects(svg: str, kind: str) -> dict[int, xml.Element]:
    return {int(e.get("data-node")): e for e in xml.fromstring(svg).iter() if e.get("class") == kind}


def printed(page) -> tuple[dict[int, list[float]], dict[int, list[float]]]:
    """Boxes on the page and candidates, from the page program's lines alone."""
    above, placed, found, lines = page.parents(), {}, {}, {}
    for line in run("mearrasot", page.text()):
        key, _, value = line.partition("=")
        part = value.split(",")
        if key == "box":
            placed[int(part[0])] = [from_bits(x) for x in part[2:]]
        elif key == "cand":
            lines[int(part[0])] = [from_bits(x) for x in part[2:]]
    for node, (x, y, width, height) in placed.items():
        up = above[node]
        while up >= 0:
            x, y, up = f32(x + placed[up][0]), f32(y + placed[up][1]), above[up]
        found[node] = [x, y, width, height]
    return found, lines


def call(*arguments: str) -> tuple[int, str, str]:
    out, err = io.StringIO(), io.StringIO()
    with contextlib.redirect_stdout(out), contextlib.redirect_stderr(err):
        status = main(list(arguments))
    return status, out.getvalue(), err.getvalue()


class Pictures(unittest.TestCase):
    def test_boxes_stand_as_printed(self):
        for path in sorted(PAGES.glob("*.html")) + [TOP / "examples" / "notice.page"]:
            page = load(str(path))
            svg = picture(page, lay(page)).svg()
            drawn, (wanted, lines) = rects(svg, "box"), printed(page)
            self.assertEqual(sorted(drawn), sorted(wanted), path.name)
            for node, box in wanted.items():
                found = [drawn[node].get(name) for name in ("x", "y", "width", "height")]
                self.assertEqual(found, [decimal(x) for x in box], f"{path.name} node {node}")
            for node, element in rects(svg, "candidate").items():
                start, end, y = lines.pop(node)
                self.assertEqual(element.get("d"), f"M{decimal(start)} {decimal(y)}H{decimal(end)}")
            self.assertEqual(lines, {}, path.name)

    def test_baselines(self):
        page = load(str(PAGES / "meter.html"))
        layout = lay(page)
        drawn = rects(picture(page, layout).svg(), "baseline")
        self.assertEqual(sorted(drawn), [i for i, row in enumerate(layout.rows) if row.marks & 512])
        # the title stands at 6, 6; its letters of 10 in a line of 12 have their baseline 9 below its top
        self.assertTrue(drawn[2].get("d").startswith("M6 15h"))

    def test_committed_pictures(self):
        """The pictures beside the pages, and the README's, are those that are drawn now."""
        for name in PICTURES:
            page = load(str(PAGES / f"{name}.html"))
            self.assertEqual(picture(page, lay(page)).svg(), (PAGES / f"{name}.svg").read_text(encoding="utf-8"), name)
        with tempfile.TemporaryDirectory() as folder:
            out = Path(folder, "rows.svg")
            status = call("draw", str(PAGES / "rows.html"), "--replay", str(PAGES / "rows.trace"), "--brief", "-o", str(out))[0]
            self.assertEqual((status, out.read_text(encoding="utf-8")), (0, (PAGES / "rows.svg").read_text(encoding="utf-8")))
        readme = (TOP / "README.md").read_text(encoding="utf-8")
        self.assertIn("(examples/pages/meter.svg)", readme)
        self.assertIn("(examples/pages/rows.svg)", readme)

    def test_odd_pages(self):
        """Boxes of no height, negative margins, right to left, what is cut off: well-formed all the same."""
        page = build(page_text(
            "#page { direction: rtl; overflow: scroll } .a { margin: -5px 10% } .b { height: 40px }",
            '<div class="a"></div><div class="b" style="width: 200px"><div data-min="1" data-max="9" data-height="20">&lt;&amp;&gt;</div></div>',
        ))
        svg = picture(page, lay(page)).svg()
        self.assertEqual(len(rects(svg, "box")), 4)

    def test_panels(self):
        page = load(str(PAGES / "rows.html"))
        one = picture(page, lay(page), prefix="a")
        both = xml.fromstring(panels([one, picture(page, lay(page), prefix="b")]))
        ids = [e.get("id") for e in both.iter() if e.get("id")]
        self.assertEqual(len(ids), len(set(ids)))
        self.assertEqual(float(both.get("width")), 2 * one.width)


class Replays(unittest.TestCase):
    def test_rows(self):
        """What crates/scenarios prints of its edit 1: the notice grows, all below it moves by 24."""
        page = load(str(PAGES / "rows.html"))
        events = (PAGES / "rows.trace").read_text(encoding="utf-8").splitlines()[1:]
        (_, _, _, first, none), (_, title, now, second, before) = list(steps(page, events))
        self.assertEqual((none, before), ([], first))
        self.assertEqual(sorted(changed_nodes(first, second)), [0, 2, 3, 8, 12])
        self.assertIn("notice", title)
        self.assertEqual(now.nodes[2].numbers[26], 64.0)
        stored = (TOP / "crates" / "scenarios" / "stdout").read_text(encoding="utf-8")
        for number, rows in (("0. ", first), ("1. ", second)):
            block = stored[stored.index(f"\n{number}"):].split("\n\n")[0]
            for node, row in enumerate(rows):
                if row.laid():
                    self.assertIn(f"\n  {node}: " + " ".join(decimal(x) for x in row.numbers[:4]) + " |", block)

    def test_day(self):
        """One picture for each accepted layout and relayout of examples/day.trace; the first event is refused."""
        with tempfile.TemporaryDirectory() as folder:
            trace = str(TOP / "examples" / "day.trace")
            status = call("draw", str(PAGES / "notice.html"), "--replay", trace, "-o", folder)[0]
            found = sorted(path.name for path in Path(folder).iterdir())
            self.assertEqual((status, found), (0, [f"event-{k:04}.svg" for k in (2, 4, 7, 9, 10, 13, 15, 17)]))
            marked = {}
            for k, name in zip((2, 4, 7, 9, 10), found):
                marked[k] = sum(e.get("class") == "changed" for e in xml.parse(Path(folder, name)).iter())
            # the notice grows: page, notice, news, registers, foot; other widths of it move nothing; nor does doing nothing
            self.assertEqual((marked[2], marked[4], marked[7], marked[10]), (0, 5, 0, 0))
            self.assertGreater(marked[9], 0)

    def test_other_page(self):
        status, _, err = call("draw", str(PAGES / "meter.html"), "--replay", str(TOP / "examples" / "day.trace"), "-o", "x.svg")
        self.assertEqual(status, 1)
        self.assertIn("another page", err)


class Commands(unittest.TestCase):
    def test_text(self):
        self.assertEqual(call("draw", "--text", str(PAGES / "meter.html")), (0, (STORED / "meter.txt").read_text(encoding="utf-8"), ""))

    def test_error_names_its_place(self):
        with tempfile.TemporaryDirectory() as folder:
            path = Path(folder, "a.html")
            path.write_text(page_text(inside='<div style="float: left"></div>'), encoding="utf-8")
            status, out, err = call("from-html", str(path))
            self.assertEqual((status, out, err), (1, "", f"{path}:4:13: property float is not in the rules\n"))

    def test_refusal(self):
        """A page file that the program refuses: the answer's number and place are told."""
        with tempfile.TemporaryDirectory() as folder:
            path = Path(folder, "a.page")
            text = (TOP / "examples" / "notice.page").read_text(encoding="utf-8")
            path.write_text(text.replace("num=8,40c00000", "num=8,7fc00000"), encoding="utf-8")
            status, _, err = call("draw", str(path))
            self.assertEqual(status, 1)
            self.assertIn("refused with 4, a number out of range; place 1", err)

    def test_missing_program(self):
        with self.assertRaises(Bad) as caught:
            run("no-such-program", "")
        self.assertIn("crates/no-such-program/out/no-such-program is missing", caught.exception.text)

    def test_missing_file(self):
        self.assertEqual(call("from-html", "no-such-file.html")[0], 1)


if __name__ == "__main__":
    unittest.main()
