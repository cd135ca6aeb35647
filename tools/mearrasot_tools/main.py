"""The commands."""
import argparse
import sys
from pathlib import Path

from .build import build
from .boxes import text_form
from .ctables import c_tables
from .page import Page, read_page
from .run import lay
from .source import Bad


def load(path: str) -> Page:
    """A page from HTML or from a page file, by the name's end."""
    text = Path(path).read_text(encoding="utf-8")
    return build(text) if path.endswith((".html", ".htm")) else read_page(text)


def put(text: str, path: str | None) -> None:
    if path:
        Path(path).write_text(text, encoding="utf-8")
    else:
        sys.stdout.write(text)


def from_html(args) -> None:
    page = build(Path(args.file).read_text(encoding="utf-8"))
    name = Path(args.file)
    put(c_tables(page, args.name or name.stem, name.name) if args.c else page.text(), args.o)


def draw(args) -> None:
    from .draw import picture
    from .replay import draw_replay
    page = load(args.file)
    if args.replay:
        draw_replay(page, args)
    elif args.text:
        put(text_form(page, lay(page)), args.o)
    else:
        put(picture(page, lay(page), brief=args.brief).svg(), args.o)


def compare(args) -> int:
    from .compare import compare_file
    return compare_file(args.file)


def main(argv: list[str]) -> int:
    parser = argparse.ArgumentParser(prog="tools/page")
    commands = parser.add_subparsers(dest="command", required=True)
    one = commands.add_parser("from-html", help="an HTML page to a page file, or to tables for C")
    one.add_argument("--c", action="store_true", help="const tables for C")
    one.add_argument("--name", help="the prefix of the names in C; else that of the file")
    one.set_defaults(run=from_html)
    one.add_argument("file")
    one.add_argument("-o", metavar="OUT")
    one = commands.add_parser("draw", help="a page file or an HTML page to a picture")
    one.add_argument("--text", action="store_true", help="a table in decimals")
    one.add_argument("--brief", action="store_true", help="tags with a name and two edges alone")
    one.add_argument("--replay", metavar="TRACE", help="a picture for each layout or relayout of a trace")
    one.set_defaults(run=draw)
    one.add_argument("file")
    one.add_argument("-o", metavar="OUT", help="a file; with --replay a file of panels, or a folder")
    one = commands.add_parser("compare", help="the boxes of a browser beside ours")
    one.add_argument("file")
    one.set_defaults(run=compare)
    args = parser.parse_args(argv)
    try:
        return args.run(args) or 0
    except Bad as bad:
        print(bad.at(args.file), file=sys.stderr)
        return 1
    except OSError as error:
        print(f"{args.file}: {error.strerror}: {error.filename}", file=sys.stderr)
        return 1
