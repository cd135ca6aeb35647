"""A trace as pictures: one for each accepted layout or relayout, changed boxes marked."""
import copy
from pathlib import Path

from .boxes import text_form
from .draw import Picture, panels, picture
from .numbers import from_bits
from .page import Page, read_avail, read_bits, read_page
from .run import Layout, Row, candidates, read_rows, run
from .source import Bad


def split_trace(text: str, page: Page) -> list[str]:
    """The events of a trace. Its start page, if it has one, is the page that is drawn."""
    lines = text.splitlines()
    starts = [k for k, line in enumerate(lines) if line.startswith("events=")]
    if not starts:
        raise Bad("the trace has no line events=")
    before = lines[:starts[0]]
    if before and read_page("\n".join(before)).text() != page.text():
        raise Bad("the trace starts from another page than the one to draw")
    return lines[starts[0] + 1:]


def apply(page: Page, event: str) -> None:
    """An edit, done to the page as the trace has made it."""
    key, _, value = event.partition("=")
    part = value.split(",")
    if key == "number":
        page.nodes[int(part[0])].numbers[int(part[1])] = from_bits(part[2])
    elif key == "word":
        page.nodes[int(part[0])].take_word(int(part[1]), int(part[2], 16))
    elif key == "ask":
        k = int(part[0])
        if k < 2:
            page.known[k] = read_bits(part[1])
        elif k == 2:
            page.parent = from_bits(part[1])
        else:
            page.avail = read_avail(part[1])


def changed_nodes(before: list[Row], after: list[Row]) -> frozenset[int]:
    """Laid boxes whose place or size is new."""
    if not before:
        return frozenset()
    return frozenset(
        i for i, (old, new) in enumerate(zip(before, after))
        if new.laid() and (not old.laid() or old.numbers[:4] != new.numbers[:4])
    )


def steps(page: Page, events: list[str]):
    """For each accepted layout or relayout: its number and title, the page by then, the rows, the rows before."""
    start, page = page.text(), copy.deepcopy(page)
    before: list[Row] = []
    edited: list[str] = []
    run("replay", start + "\n".join([f"events={len(events)}"] + events) + "\n")  # a bad line is told first
    for k, event in enumerate(events, 1):
        if not event.startswith("do="):
            apply(page, event)
            what = "the question" if event.startswith("ask=") else page.names()[int(event.partition("=")[2].split(",")[0])]
            edited += [what] if what not in edited else []
            continue
        said = run("replay", start + "\n".join([f"events={k}"] + events[:k]) + "\n")
        if not said[k - 1].startswith("answer=0,"):
            continue
        rows = read_rows(said)
        title = f"event {k}: {event[3:]}" + (f" after edits of {', '.join(edited)}" if edited else "")
        yield k, title, copy.deepcopy(page), rows, before
        before, edited = rows, []


def draw_replay(page: Page, args) -> None:
    events = split_trace(Path(args.replay).read_text(encoding="utf-8"), page)
    pictures: list[tuple[int, Picture]] = []
    texts: list[str] = []
    for k, title, now, rows, before in steps(page, events):
        layout = Layout(rows, candidates(now, rows))
        changed = changed_nodes(before, rows)
        names = ", ".join(now.names()[i] for i in sorted(changed)) or "nothing"
        texts.append(f"{title}; changed: {names}\n{text_form(now, layout)}")
        pictures.append((k, picture(now, layout, title, changed, args.brief, f"e{k}-")))
    if not pictures:
        raise Bad("no layout of the trace is accepted")
    _put(args, pictures, texts)


def _put(args, pictures: list[tuple[int, Picture]], texts: list[str]) -> None:
    if args.text:
        whole = "\n".join(texts)
        if args.o:
            Path(args.o).write_text(whole, encoding="utf-8")
        else:
            print(whole, end="")
    elif args.o and not args.o.endswith(".svg"):
        Path(args.o).mkdir(parents=True, exist_ok=True)
        for k, one in pictures:
            Path(args.o, f"event-{k:04}.svg").write_text(one.svg(), encoding="utf-8")
    elif args.o:
        Path(args.o).write_text(panels([one for _, one in pictures]), encoding="utf-8")
    else:
        print(panels([one for _, one in pictures]), end="")
