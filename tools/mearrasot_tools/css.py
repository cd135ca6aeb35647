"""Style elements and style attributes to longhands for each element, by the cascade."""
import re
from dataclasses import dataclass

from .html import Element
from .props import Value, expand
from .source import Source

SELECTOR = re.compile(r"(\*|[A-Za-z][A-Za-z0-9]*)?((?:[.#][A-Za-z_][-\w]*)*)\Z")
TAGS = ("*", "div", "body")


@dataclass
class Rule:
    tag: str
    ids: list[str]
    classes: list[str]
    longhands: list[tuple[str, Value]]

    def weight(self) -> tuple[int, int, int]:
        return len(self.ids), len(self.classes), int(self.tag not in ("", "*"))

    def fits(self, element: Element) -> bool:
        return (
            self.tag in ("", "*", element.tag)
            and all(i == element.get("id") for i in self.ids)
            and all(c in element.get("class").split() for c in self.classes)
        )


def _without_comments(source: Source, text: str, at: int) -> str:
    """Comments turn to blanks, so that places stay."""
    def blank(match):
        if not match.group().endswith("*/") or len(match.group()) < 4:
            raise source.bad(at + match.start(), "a comment without end")
        return re.sub(r"[^\n]", " ", match.group())
    return re.sub(r"/\*.*?(?:\*/|\Z)", blank, text, flags=re.DOTALL)


def declarations(source: Source, text: str, at: int) -> list[tuple[str, Value]]:
    """`name: value; ...` to longhands, in order."""
    found: list[tuple[str, Value]] = []
    for match in re.finditer(r"[^;]+", text):
        part = match.group()
        if not part.strip():
            continue
        name_at = at + match.start() + len(part) - len(part.lstrip())
        name, colon, value = part.partition(":")
        if not colon:
            raise source.bad(name_at, f"'{part.strip()}' is no declaration, a colon is missing")
        if "!" in value:
            raise source.bad(at + match.start() + part.index("!"), "!important is not read")
        found += expand(source, name.strip().lower(), name_at, value, at + match.start() + len(name) + 1)
    return found


def rules(source: Source, style: Element) -> list[Rule]:
    """The rules of one style element."""
    text = _without_comments(source, style.text, style.text_at)
    found: list[Rule] = []
    at = 0
    while text[at:].strip():
        start = at + len(text[at:]) - len(text[at:].lstrip())
        if text[start] == "@":
            raise source.bad(style.text_at + start, "an at-rule is not in the rules")
        opening = text.find("{", start)
        closing = text.find("}", start)
        if opening < 0 or closing < opening:
            raise source.bad(style.text_at + start, "a rule without { and }")
        longhands = declarations(source, text[opening + 1:closing], style.text_at + opening + 1)
        for match in re.finditer(r"[^,]+", text[start:opening]):
            found.append(_rule(source, match.group(), style.text_at + start + match.start(), longhands))
        at = closing + 1
    return found


def _rule(source: Source, text: str, at: int, longhands: list[tuple[str, Value]]) -> Rule:
    spot = at + len(text) - len(text.lstrip())
    match = SELECTOR.match(text.strip())
    if not match or not text.strip() or (match.group(1) or "*").lower() not in TAGS:
        raise source.bad(spot, f"selector {text.strip()} is not read (*, div, body, .class, #id and compounds are)")
    names = re.findall(r"[.#][^.#]+", match.group(2))
    return Rule(
        (match.group(1) or "").lower(),
        [n[1:] for n in names if n[0] == "#"],
        [n[1:] for n in names if n[0] == "."],
        longhands,
    )


def cascade(source: Source, sheet: list[Rule], element: Element) -> dict[str, Value]:
    """What each longhand of an element is: the heaviest rule, of these the last, the attribute over all."""
    values: dict[str, Value] = {}
    fitting = [rule for rule in sheet if rule.fits(element)]
    for rule in sorted(fitting, key=Rule.weight):  # stable, so order counts among equals
        values.update(rule.longhands)
    if "style" in element.attributes:
        attribute = element.attributes["style"]
        text = _without_comments(source, attribute.value, attribute.at)
        values.update(declarations(source, text, attribute.at))
    return values
