"""Each property to words and numbers, with values worked out by hand."""
import unittest

from mearrasot_tools.build import build
from mearrasot_tools.numbers import bits, decimal, f32, from_bits, whole
from mearrasot_tools.page import read_page

from . import PAGES, TOP, page_text

CONTENT_BOX = 4  # the first value of box-sizing in CSS


def node(style: str, attributes: str = "", inside: str = ""):
    """Node 1 of a page: a div with that style."""
    return build(page_text(inside=f'<div style="{style}" {attributes}>{inside}</div>')).nodes[1]


class Style(unittest.TestCase):
    def check(self, style: str, word: int, attributes: str = "", inside: str = ""):
        self.assertEqual(f"{node(style, attributes, inside).style:08x}", f"{word:08x}", style)

    def test_plain(self):
        self.check("", CONTENT_BOX)

    def test_display(self):
        self.check("display: block", CONTENT_BOX)
        self.check("display: none", CONTENT_BOX | 2)

    def test_leaf(self):
        self.check("", CONTENT_BOX | 1, 'data-height="3"')
        self.check("display: none", CONTENT_BOX | 2, 'data-height="3" data-baseline="1"')

    def test_box_sizing(self):
        self.check("box-sizing: border-box", 0)
        self.check("box-sizing: content-box", 4)

    def test_direction(self):
        self.check("direction: rtl", CONTENT_BOX | 8)
        self.check("direction: ltr", CONTENT_BOX)

    def test_position(self):
        self.check("position: static", CONTENT_BOX)
        self.check("position: relative", CONTENT_BOX | 0x10)
        self.check("position: absolute", CONTENT_BOX | 0x20)

    def test_overflow(self):
        self.check("overflow: hidden", CONTENT_BOX | 0x280)
        self.check("overflow: clip scroll", CONTENT_BOX | 0x340)
        self.check("overflow-x: scroll; overflow-y: clip", CONTENT_BOX | 0x1C0)

    def test_align(self):
        words = {
            "normal": 0, "start": 0x400, "center": 0x800, "end": 0xC00, "space-between": 0x2000, "space-around": 0x4000,
            "space-evenly": 0x6000, "stretch": 0x8000, "safe center": 0x20800, "safe  end": 0x20C00,
            "unsafe center": 0x800, "unsafe end": 0xC00,
        }
        for word, code in words.items():
            self.check(f"align-content: {word}", CONTENT_BOX | code)

    def test_contain(self):
        self.check("contain: layout", CONTENT_BOX | 0x1000)
        self.check("contain: content", CONTENT_BOX | 0x1000)
        self.check("contain: strict; width: 3px; height: 4px", CONTENT_BOX | 0x1000)
        self.check("contain: none", CONTENT_BOX)

    def test_baseline(self):
        self.check("", CONTENT_BOX | 0x10001, 'data-height="9" data-baseline="7"')


class Fields(unittest.TestCase):
    def check(self, style: str, field: int, unit: int, number: str, attributes: str = ""):
        found = node(style, attributes)
        self.assertEqual((found.units[field] if field < 22 else unit, bits(found.numbers[field])), (unit, number), style)

    def test_sizes(self):
        for field, name in enumerate(("width", "height", "min-width", "min-height", "max-width", "max-height")):
            self.check(f"{name}: 12px", field, 1, "41400000")
            self.check(f"{name}: 50%", field, 2, "3f000000")
            self.check(f"{name}: {'none' if name.startswith('max') else 'auto'}", field, 0, "00000000")

    def test_sides(self):
        for first, name in ((6, "margin"), (10, "padding"), (18, "inset")):
            position = "position: relative; " if name == "inset" else ""
            for field, number in zip(range(first, first + 4), ("3f800000", "40000000", "40400000", "40800000")):
                self.check(f"{position}{name}: 1px 2px 3px 4px", field, 1, number)
            for field, number in zip(range(first, first + 4), ("3f800000", "40000000", "3f800000", "40000000")):
                self.check(f"{position}{name}: 1px 2px", field, 1, number)
        for field, side in enumerate(("top", "right", "bottom", "left")):
            self.check(f"margin-{side}: -1px", 6 + field, 1, "bf800000")
            self.check(f"margin-{side}: auto", 6 + field, 0, "00000000")
            self.check(f"padding-{side}: 25%", 10 + field, 2, "3e800000")
            self.check(f"position: relative; {side}: -50%", 18 + field, 2, "bf000000")

    def test_border(self):
        for field in range(14, 18):
            self.check("border: 1px solid", field, 1, "3f800000")
            self.check("border-width: 2px; border-style: solid", field, 1, "40000000")
        self.check("border-bottom: solid 3px", 16, 1, "40400000")
        self.check("border-left-width: 1px; border-left-style: solid", 17, 1, "3f800000")
        self.check("border: 1px solid; border-top: none", 14, 1, "00000000")

    def test_ratio(self):
        self.check("aspect-ratio: 10", 22, 0, "41200000")
        self.check("aspect-ratio: 1 / 2", 22, 0, "3f000000")
        self.check("aspect-ratio: 3/2", 22, 0, "3fc00000")
        self.check("aspect-ratio: auto", 22, 0, "00000000")

    def test_scrollbar(self):
        self.check("overflow: scroll", 23, 0, "41200000", 'data-scrollbar="10"')

    def test_measures(self):
        for field, number in ((24, "40000000"), (25, "40400000"), (26, "40800000"), (27, "3f800000")):
            self.check("", field, 0, number, 'data-min="2" data-max="3" data-height="4" data-baseline="1"')

    def test_units_packed(self):
        words = node("width: 50%; margin-left: auto; padding-top: 10%; position: relative; left: 1px").words()
        # width 2 at bit 0; margin 6 to 8 pixels, 9 auto; padding 10 a part, 11 to 13 pixels; left is field 21, bit 14
        self.assertEqual([f"{w:08x}" for w in words[2:]], ["05615002", "00004055"])

    def test_text(self):
        found = node("font: 10px/12px monospace", "", "two words here")
        # longest word 5 letters of 6 pixels, 14 letters in all; (12 - 10) / 2 + 8 to the baseline
        self.assertEqual(found.numbers[24:], [30.0, 84.0, 12.0, 9.0])
        self.assertEqual(node("font: 10px/1.5 monospace", 'data-lines="2"', "two words").numbers[26], 30.0)
        self.assertEqual(node("font-size: 10px; line-height: 12px; font-family: monospace", "", "a &amp; b").text, "a & b")


class Cascade(unittest.TestCase):
    def width(self, css: str, attributes: str) -> float:
        return build(page_text(css, f"<div {attributes}></div>")).nodes[1].numbers[0]

    def test_order_and_weight(self):
        css = "#a { width: 3px } .b { width: 2px } div { width: 1px } .c { width: 4px }"
        self.assertEqual(self.width(css, ""), 1)
        self.assertEqual(self.width(css, 'class="c b"'), 4)
        self.assertEqual(self.width(css, 'class="b" id="a"'), 3)
        self.assertEqual(self.width(css, 'id="a" style="width: 5px"'), 5)
        self.assertEqual(self.width("div.b, #a { width: 7px } .b { width: 2px }", 'class="b"'), 7)

    def test_comments(self):
        self.assertEqual(self.width("/* } */ div { /* width: 2px; */ width: 3px }", ""), 3)

    def test_direction_goes_down(self):
        page = build(page_text("#page { direction: rtl } .l { direction: ltr }", '<div><div class="l"></div></div>'))
        self.assertEqual([n.style & 8 for n in page.nodes], [8, 8, 0])


class Question(unittest.TestCase):
    def test_screen(self):
        page = build(page_text())
        self.assertEqual((page.parent, page.known, page.avail, page.flags), (100.0, [100.0, None], "max", [1, 1, 0]))
        self.assertEqual(build(page_text("#page { display: flow-root }")).flags, [0, 0, 0])

    def test_own_width(self):
        page = build(page_text("#page { width: 60px }"))
        self.assertEqual((page.known, page.nodes[0].numbers[0]), ([None, None], 60.0))

    def test_height(self):
        page = build(page_text("#page { height: 100% }", body="margin: 0; width: 100px; height: 80px"))
        self.assertEqual((page.known, page.flags), ([100.0, 80.0], [1, 1, 1]))
        self.assertEqual(page.nodes[0].units[1], 0)

    def test_shrink(self):
        self.assertEqual(build(page_text(body="margin: 0; width: min-content")).avail, "min")
        self.assertEqual(build(page_text(body="margin: 0; width: max-content")).known, [None, None])


class Files(unittest.TestCase):
    def test_notice(self):
        """The HTML of the notice is the page file that the README shows."""
        made = build((PAGES / "notice.html").read_text(encoding="utf-8")).text()
        self.assertEqual(made, (TOP / "examples" / "notice.page").read_text(encoding="utf-8"))

    def test_round_trip(self):
        for path in sorted(PAGES.glob("*.html")):
            made = build(path.read_text(encoding="utf-8")).text()
            self.assertEqual(read_page(made).text(), made, path.name)

    def test_scenarios(self):
        """rows.html is the page of crates/scenarios: its sizes of subtrees, kinds and units."""
        page = build((PAGES / "rows.html").read_text(encoding="utf-8"))
        self.assertEqual([n.size for n in page.nodes], [13, 1, 1, 3, 1, 1, 2, 1, 4, 1, 1, 1, 1])
        self.assertEqual([n.style for n in page.nodes], [0, 1, 1, 0, 1, 1, 2, 1, 0, 1, 1, 0x21, 0x11])
        self.assertEqual([f"{w:08x}" for w in page.nodes[8].words()[2:]], ["05515001", "00000055"])
        self.assertEqual([f"{w:08x}" for w in page.nodes[12].words()[2:]], ["05555002", "00004055"])


class Numbers(unittest.TestCase):
    def test_whole(self):
        self.assertEqual([whole(x) for x in (1.5, -1.5, 0.5, -0.5, 6.4, 106.5, -0.25)], [2, -1, 1, 0, 6, 107, 0])

    def test_decimals(self):
        for text in ("3f800000", "41d33333", "3dcccccd", "c2f6e979", "00000001", "477fffff"):
            x = from_bits(text)
            self.assertEqual(bits(f32(float(decimal(x)))) if abs(x) > 1e-9 else text, text)
        self.assertEqual([decimal(f32(x)) for x in (6.4, 0.0, -0.0, 65536.0, 0.1)], ["6.4", "0", "0", "65536", "0.1"])


if __name__ == "__main__":
    unittest.main()
