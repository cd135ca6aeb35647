"""What the rules do not have is an error with line and column."""
import unittest

from mearrasot_tools.build import build
from mearrasot_tools.source import Bad

from . import page_text


class Errors(unittest.TestCase):
    def refused(self, text: str, line: int, column: int, said: str):
        with self.assertRaises(Bad) as caught:
            build(text)
        bad = caught.exception
        self.assertIn(said, bad.text)
        self.assertEqual((bad.line, bad.column), (line, column), bad.text)

    def inside(self, markup: str, spot: str, said: str):
        """The error stands at the first `spot` of line 4."""
        self.refused(page_text(inside=markup), 4, markup.index(spot) + 1, said)

    def style(self, style: str, spot: str, said: str):
        self.inside(f'<div style="{style}"></div>', spot, said)

    def test_properties(self):
        for name in ("float", "color", "flex", "grid-template-columns", "transform", "z-index", "background", "text-align",
                     "font-weight", "margin-inline", "gap", "white-space"):
            self.style(f"width: 1px; {name}: none", name, f"property {name}")

    def test_keywords(self):
        for style, spot in (
            ("display: flex", "flex"), ("display: inline", "inline"), ("display: grid", "grid"), ("position: fixed", "fixed"),
            ("position: sticky", "sticky"), ("overflow: auto", "auto"), ("overflow-y: auto", "auto"),
            ("align-content: baseline", "baseline"), ("align-content: safe start", "safe"), ("contain: size", "size"),
            ("contain: paint", "paint"), ("box-sizing: padding-box", "padding-box"), ("direction: inherit", "inherit"),
            ("overflow: hidden overlay", "overlay"),
        ):
            self.style(style, spot, "is not in the rules")

    def test_lengths(self):
        for style, spot in (
            ("width: 2em", "2em"), ("width: calc(1px + 2px)", "calc"), ("height: 5", "5"), ("height: 5px 6px", "6px"), ("margin: 1px 2vw", "2vw"),
            ("width: fit-content", "fit"), ("padding: auto", "auto"), ("max-width: auto", "auto"), ("min-width: none", "none"),
        ):
            with self.assertRaises(Bad) as caught:
                build(page_text(inside=f'<div style="{style}"></div>'))
            self.assertEqual((caught.exception.line, caught.exception.column), (4, 13 + style.index(spot)), style)

    def test_ranges(self):
        self.style("width: -1px", "-1px", "negative")
        self.style("padding: 1px -1px", "-1px", "negative")
        self.style("width: 65537px", "65537px", "out of range")
        self.style("width: 101%", "101%", "out of range")
        self.style("margin-top: -100.5%", "-100.5%", "out of range")
        self.style("aspect-ratio: 65", "65", "out of range")
        self.style("aspect-ratio: 1 / 0", "1 / 0", "out of range")

    def test_borders(self):
        self.style("border: 1px dashed", "dashed", "dashed")
        self.style("border: 1px solid red", "red", "red")
        self.style("border-width: 1px", "1px", "without solid")
        self.style("border: 10% solid", "10%", "no %")

    def test_pairs(self):
        self.style("height: 50%; aspect-ratio: 2", "2\"", "beside a % of a height")
        self.style("position: absolute; left: 3px", "3px", "candidate")
        self.style("contain: strict; height: 3px", "strict", "needs width and height")
        self.style("width: 1px !important", "!", "!important")
        self.style("width 1px", "width", "colon")
        self.style("display: flow-root", "flow-root", "outer div alone")
        self.style("width: max-content", "max-content", "width of body")

    def test_elements(self):
        for tag in ("span", "p", "img", "table", "br"):
            self.inside(f"<div><{tag}></div>", f"<{tag}", f"element {tag}")
        self.inside("<div/>", "/>", "not well-formed")
        self.inside("<div></p>", "</p>", "where div is open")
        self.inside("text <div></div>", "<div>", "beside text")
        self.inside("<div></div> text", "text", "beside a div")
        self.inside('<div onclick="x"></div>', "onclick", "attribute onclick")
        self.inside('<div data-wide="3"></div>', "data-wide", "attribute data-wide")

    def test_names(self):
        markup = '<div id="x"></div><div id="x"></div>'
        self.refused(page_text(inside=markup), 4, markup.rindex('x"') + 1, "stands twice")
        self.inside('<div id="3a"></div>', "3a", "no name")

    def test_leaves(self):
        self.inside('<div data-min="2px"></div>', "2px", "no number")
        self.inside('<div data-min="5" data-max="4"></div>', '4"></div>', "above")
        self.inside('<div data-height="5" data-baseline="6"></div>', "6", "below the leaf")
        self.inside('<div data-height="5"><div></div></div>', "<div data", "leaf with divs")
        self.inside("<div>words</div>", "words", "text without font-size")
        self.inside('<div data-scrollbar="5"></div>', "data-scrollbar", "does not scroll")
        self.inside('<div data-lines="2"></div>', "data-lines", "text that is measured")

    def test_sheets(self):
        for css, said in (("@media print { }", "at-rule"), ("div > div { width: 1px }", "selector"), ("p { width: 1px }", "selector"),
                          ("div:hover { width: 1px }", "selector"), ("div { width: 1px", "without {"), ("/* a", "comment")):
            start = page_text(css).index(css) + 1
            self.refused(page_text(css), 1, start, said)
        css = ".nobody { colour: 1px }"
        self.refused(page_text(css), 1, page_text(css).index("colour") + 1, "property colour")

    def test_body(self):
        body = "margin: 0; width: 50%"
        self.refused(page_text(body=body), 1, page_text(body=body).index("50%") + 1, "width of body")
        self.refused(page_text(body="width: 50px"), 2, 1, "margin: 0")
        body = "margin: 0; width: 9px; height: 8px"
        self.refused(page_text(body=body), 1, page_text(body=body).index("8px") + 1, "height: 100%")
        body = "margin: 0; padding: 2px"
        self.refused(page_text(body=body), 1, page_text(body=body).index("2px") + 1, "of body")
        two = "<!doctype html><html><head><style>body { margin: 0 }</style></head>\n<body><div></div><div></div></body></html>"
        self.refused(two, 2, 18, "exactly one div")
        root = 'style="max-width: 10px"'
        self.refused(page_text(root=root), 3, 16 + root.index("10px"), "max-width of the outer div")

    def test_limits(self):
        deep = "<div>" * 32 + "</div>" * 32
        self.refused(page_text(inside=deep), 4, 31 * 5 + 1, "over 32 levels")
        many = "<div></div>" * 512
        self.refused(page_text(inside=many), 4, 511 * 11 + 1, "over 512 nodes")


if __name__ == "__main__":
    unittest.main()
