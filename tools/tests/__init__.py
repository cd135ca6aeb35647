"""Tests of tools/, run by tools/test. They write only below a temporary folder."""
from pathlib import Path

TOP = Path(__file__).resolve().parents[2]
PAGES = TOP / "examples" / "pages"
STORED = Path(__file__).resolve().parent / "stored"


def page_text(css: str = "", inside: str = "", body: str = "margin: 0; width: 100px", root: str = "") -> str:
    """A small page: the style element is line 1, the body line 2, the outer div line 3, what is in it line 4."""
    return (
        f"<!doctype html><html><head><style>body {{ {body} }} {css}</style></head>\n<body>\n"
        f'<div id="page" {root}>\n{inside}\n</div></body></html>\n'
    )
