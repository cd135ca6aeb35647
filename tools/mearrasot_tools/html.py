"""HTML to a tree of elements with places. Strict: what is not understood is an error."""
import html as charrefs
import re
from dataclasses import dataclass, field

from .source import Source

TAG = re.compile(r"<([A-Za-z][A-Za-z0-9]*)")
END = re.compile(r"</([A-Za-z][A-Za-z0-9]*)\s*>")
ATTRIBUTE = re.compile(r"\s+([A-Za-z_][-\w]*)(?:\s*=\s*(\"[^\"]*\"|'[^']*'|[^\s\"'=<>`/]+))?")
DOCTYPE = re.compile(r"<!doctype\s+html\s*>", re.IGNORECASE)

# Which element may stand in which, and the attributes that each may have.
INSIDE = {
    "": ("html",),
    "html": ("head", "body"),
    "head": ("meta", "title", "style"),
    "body": ("div",),
    "div": ("div",),
    "title": (),
    "style": (),
}
VOID = ("meta",)
MEASURES = ("data-min", "data-max", "data-height", "data-baseline", "data-lines")
ATTRIBUTES = {
    "html": ("lang",),
    "head": (),
    "title": (),
    "style": (),
    "meta": ("charset", "name", "content"),
    "body": ("id", "class", "style", "data-scrollbar"),
    "div": ("id", "class", "style", "data-scrollbar") + MEASURES,
}


def fold(text: str) -> str:
    """Runs of blanks as one, as CSS does; a no-break space is a letter."""
    return re.sub(r"[ \t\r\n\f]+", " ", text).strip(" ")


@dataclass
class Attribute:
    value: str
    name_at: int
    at: int  # offset of the value


@dataclass
class Element:
    tag: str
    at: int
    attributes: dict[str, Attribute] = field(default_factory=dict)
    children: list["Element"] = field(default_factory=list)
    text: str = ""
    text_at: int = 0

    def get(self, name: str) -> str:
        return self.attributes[name].value if name in self.attributes else ""


def _attributes(source: Source, tag: str, at: int) -> tuple[dict[str, Attribute], int]:
    """The attributes from `at` on, and the offset after the closing bracket."""
    found: dict[str, Attribute] = {}
    while True:
        match = ATTRIBUTE.match(source.text, at)
        if not match:
            break
        name, name_at = match.group(1).lower(), match.start(1)
        value, value_at = match.group(2) or "", match.start(2) if match.group(2) else name_at
        if value[:1] in ("'", '"'):
            value, value_at = value[1:-1], value_at + 1
        if name not in ATTRIBUTES[tag]:
            raise source.bad(name_at, f"attribute {name} of {tag} is not in the rules")
        if name in found:
            raise source.bad(name_at, f"attribute {name} stands twice")
        if "&" in value:
            raise source.bad(value_at + value.index("&"), "a character reference in an attribute is not read")
        found[name] = Attribute(value, name_at, value_at)
        at = match.end()
    close = re.compile(r"\s*>").match(source.text, at)
    if not close:
        spot = len(source.text) - len(source.text[at:].lstrip())
        raise source.bad(spot, f"the tag {tag} is not well-formed here")
    return found, close.end()


def _add_text(source: Source, element: Element, at: int, raw: str) -> None:
    if not raw.strip():
        return
    spot = at + len(raw) - len(raw.lstrip())
    if element.tag not in ("div", "title", "style"):
        raise source.bad(spot, f"text in {element.tag or 'the document'}; text stands in a div")
    if element.tag == "div" and element.children:
        raise source.bad(spot, "text beside a div: inline content is not in the rules")
    if not element.text:
        element.text_at = at if element.tag == "style" else spot
    element.text += raw if element.tag == "style" else charrefs.unescape(raw)


def parse(source: Source) -> Element:
    """The html element."""
    text = source.text
    document = Element("", 0)
    stack = [document]
    at = 0
    while at < len(text):
        top = stack[-1]
        if text[at] != "<":
            end = text.find("<", at)
            end = len(text) if end < 0 else end
            _add_text(source, top, at, text[at:end])
            at = end
        elif text.startswith("<!--", at):
            end = text.find("-->", at)
            if end < 0:
                raise source.bad(at, "a comment without end")
            at = end + 3
        elif DOCTYPE.match(text, at) and top is document and not document.children:
            at = DOCTYPE.match(text, at).end()
        elif END.match(text, at):
            match = END.match(text, at)
            if match.group(1).lower() != top.tag:
                raise source.bad(at, f"</{match.group(1)}> where {top.tag or 'nothing'} is open")
            stack.pop()
            at = match.end()
        elif TAG.match(text, at):
            at = _open(source, stack, at)
        else:
            raise source.bad(at, "this markup is not read")
    if len(stack) > 1:
        raise source.bad(stack[-1].at, f"{stack[-1].tag} is not closed")
    if not document.children:
        raise source.bad(0, "there is no html element")
    return document.children[0]


def _open(source: Source, stack: list[Element], at: int) -> int:
    match = TAG.match(source.text, at)
    tag, top = match.group(1).lower(), stack[-1]
    if tag not in ATTRIBUTES:
        raise source.bad(at, f"element {tag} is not in the rules")
    if tag not in INSIDE[top.tag]:
        raise source.bad(at, f"{tag} inside {top.tag or 'the document'} is not in the rules")
    if tag == "div" and top.text.strip():
        raise source.bad(at, "a div beside text: inline content is not in the rules")
    if tag in ("html", "head", "body") and any(child.tag == tag for child in top.children):
        raise source.bad(at, f"a second {tag}")
    element = Element(tag, at)
    element.attributes, at = _attributes(source, tag, match.end())
    top.children.append(element)
    if tag == "style":
        end = source.text.find("</style", at)
        if end < 0:
            raise source.bad(element.at, "style is not closed")
        _add_text(source, element, at, source.text[at:end])
        stack.append(element)
        return end
    if tag not in VOID:
        stack.append(element)
    return at
