"""One declaration of CSS to what the tables can hold: field lengths and keywords."""
import re
from fractions import Fraction

from .numbers import f32
from .source import Source

AUTO, PIXELS, PART = 0, 1, 2
SIDES = ("top", "right", "bottom", "left")
LIMIT = 65536

# Fields with a length, by the name of their property.
FIELDS = {"width": 0, "height": 1, "min-width": 2, "min-height": 3, "max-width": 4, "max-height": 5}
for _k, _side in enumerate(SIDES):
    FIELDS[f"margin-{_side}"] = 6 + _k
    FIELDS[f"padding-{_side}"] = 10 + _k
    FIELDS[f"border-{_side}-width"] = 14 + _k
    FIELDS[_side] = 18 + _k

KEYWORDS = {
    "display": ("block", "none", "flow-root"),
    "position": ("static", "relative", "absolute"),
    "overflow-x": ("visible", "clip", "hidden", "scroll"),
    "overflow-y": ("visible", "clip", "hidden", "scroll"),
    "box-sizing": ("content-box", "border-box"),
    "direction": ("ltr", "rtl"),
    "contain": ("none", "layout", "content", "strict"),
    "align-content": (
        "normal", "start", "center", "end", "space-between", "space-around", "space-evenly", "stretch",
        "safe center", "safe end", "unsafe center", "unsafe end",
    ),
    "font-family": ("monospace",),
}
for _side in SIDES:
    KEYWORDS[f"border-{_side}-style"] = ("none", "solid")

# A shorthand of one to four sides, and its longhands.
BY_SIDES = {
    "margin": [f"margin-{s}" for s in SIDES],
    "padding": [f"padding-{s}" for s in SIDES],
    "inset": list(SIDES),
    "border-width": [f"border-{s}-width" for s in SIDES],
    "border-style": [f"border-{s}-style" for s in SIDES],
}
NUMBER = re.compile(r"([-+]?(?:\d+\.?\d*|\.\d+))(px|%)?\Z")


class Value:
    """A longhand's value with its place: `what` is (unit, number), a keyword or a number."""

    def __init__(self, what, at: int):
        self.what = what
        self.at = at


def words(text: str, at: int) -> list[tuple[str, int]]:
    """The words of a value with their offsets."""
    return [(m.group(), at + m.start()) for m in re.finditer(r"\S+", text)]


def _part(source: Source, name: str, word: str, at: int) -> tuple[int, float]:
    """A length of a field: its unit and number, in the ranges of the rules."""
    field = FIELDS[name]
    signed = 6 <= field <= 9 or 18 <= field
    if word == "none" and field in (4, 5):
        return AUTO, 0.0
    if word == "auto" and field not in (4, 5) and not 10 <= field <= 17:
        return AUTO, 0.0
    match = NUMBER.match(word)
    if not match or (not match.group(2) and Fraction(match.group(1)) != 0):
        raise source.bad(at, f"{name}: {word} is not in the rules (px, % and auto are)")
    number = Fraction(match.group(1))
    if match.group(2) == "%":
        if 14 <= field <= 17:
            raise source.bad(at, f"{name}: a border has no % in CSS")
        if abs(number) > 100:
            raise source.bad(at, f"{name}: {word} is out of range, at most 100%")
        number, unit = number / 100, PART
    else:
        unit = PIXELS
        if abs(number) > LIMIT:
            raise source.bad(at, f"{name}: {word} is out of range, at most {LIMIT}px")
    if number < 0 and not signed:
        raise source.bad(at, f"{name}: {word} is negative")
    return unit, f32(float(number))


def _ratio(source: Source, text: str, at: int) -> float:
    if text == "auto":
        return 0.0
    match = re.match(r"(\d+\.?\d*|\.\d+)(?:\s*/\s*(\d+\.?\d*|\.\d+))?\Z", text)
    if not match:
        raise source.bad(at, f"aspect-ratio: {text} is not in the rules (a number, a / b or auto)")
    above, below = Fraction(match.group(1)), Fraction(match.group(2) or 1)
    if below == 0 or not Fraction(1, 64) <= above / below <= 64:
        raise source.bad(at, f"aspect-ratio: {text} is out of range, 1/64 to 64")
    return f32(float(above / below))


def pixels(source: Source, name: str, text: str, at: int, unit: str = "px") -> float:
    """A length in pixels that is not negative, for a font or a measure."""
    match = re.match(rf"(\d+\.?\d*|\.\d+){unit}\Z", text)
    if not match or Fraction(match.group(1)) > LIMIT:
        raise source.bad(at, f"{name}: {text or 'nothing'} is no number of pixels, 0 to {LIMIT}")
    return float(Fraction(match.group(1)))


def _line_height(source: Source, text: str, at: int):
    """Pixels, or a multiple of the font size."""
    if re.match(r"(\d+\.?\d*|\.\d+)\Z", text):
        return ("times", float(text))
    return ("px", pixels(source, "line-height", text, at))


def _keyword(source: Source, name: str, text: str, at: int) -> str:
    plain = " ".join(text.split())
    if plain not in KEYWORDS[name]:
        raise source.bad(at, f"{name}: {plain} is not in the rules ({', '.join(KEYWORDS[name])})")
    return plain


def expand(source: Source, name: str, name_at: int, text: str, at: int) -> list[tuple[str, Value]]:
    """The longhands of one declaration."""
    given = words(text, at)
    if not given:
        raise source.bad(name_at, f"{name} has no value")
    if name in BY_SIDES:
        if len(given) > 4:
            raise source.bad(given[4][1], f"{name} has at most four values")
        four = [given[k] for k in {1: (0, 0, 0, 0), 2: (0, 1, 0, 1), 3: (0, 1, 2, 1), 4: (0, 1, 2, 3)}[len(given)]]
        return [one for long, (word, spot) in zip(BY_SIDES[name], four) for one in expand(source, long, name_at, word, spot)]
    if name == "border" or name in [f"border-{s}" for s in SIDES]:
        return _border(source, name, given)
    if name == "overflow":
        if len(given) > 2:
            raise source.bad(given[2][1], "overflow has at most two values")
        pair = [given[0], given[-1]]
        return [(long, Value(_keyword(source, long, w, spot), spot)) for long, (w, spot) in zip(("overflow-x", "overflow-y"), pair)]
    if name == "font":
        return _font(source, text.strip(), given[0][1])
    if name in FIELDS:
        if name in ("width", "height") and text.strip() in ("max-content", "min-content"):
            return [(name, Value(text.strip(), given[0][1]))]  # of body alone; the builder refuses it elsewhere
        value = Value(_part(source, name, *given[0]), given[0][1])
        if len(given) > 1:
            raise source.bad(given[1][1], f"{name} has one value")
        return [(name, value)]
    if name == "aspect-ratio":
        return [(name, Value(_ratio(source, text.strip(), given[0][1]), given[0][1]))]
    if name in KEYWORDS:
        return [(name, Value(_keyword(source, name, text, given[0][1]), given[0][1]))]
    if name == "font-size":
        return [(name, Value(pixels(source, name, text.strip(), given[0][1]), given[0][1]))]
    if name == "line-height":
        return [(name, Value(_line_height(source, text.strip(), given[0][1]), given[0][1]))]
    raise source.bad(name_at, f"property {name} is not in the rules")


def _border(source: Source, name: str, given) -> list[tuple[str, Value]]:
    """`1px solid`, `0` or `none`; a colour is nothing that the rules have."""
    sides = SIDES if name == "border" else (name[len("border-"):],)
    width, style, spot = None, "none", given[0][1]
    for word, at in given:
        if word in ("solid", "none") and style == "none":
            style = word
        elif NUMBER.match(word) and width is None:
            width, spot = _part(source, "border-top-width", word, at), at
        else:
            raise source.bad(at, f"{name}: {word} is not in the rules (a width in px, solid, none)")
    if style == "solid" and width is None:
        raise source.bad(given[0][1], f"{name}: solid needs a width in px")
    width = width or (PIXELS, 0.0)
    return [one for s in sides for one in ((f"border-{s}-width", Value(width, spot)), (f"border-{s}-style", Value(style, spot)))]


def _font(source: Source, text: str, at: int) -> list[tuple[str, Value]]:
    match = re.match(r"(\S+?)\s*/\s*(\S+)\s+monospace\Z", text)
    if not match:
        raise source.bad(at, f"font: {text} is not read (SIZEpx/HEIGHTpx monospace is)")
    height_at = at + match.start(2)
    return [
        ("font-size", Value(pixels(source, "font", match.group(1), at), at)),
        ("line-height", Value(_line_height(source, match.group(2), height_at), height_at)),
        ("font-family", Value("monospace", at)),
    ]
