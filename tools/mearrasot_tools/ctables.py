"""A page as const tables for C: an enum of its nodes, words, numbers by column, the question."""
import re

from .numbers import decimal, f32
from .page import NUMBERS, Page
from .source import Bad

IDENTIFIER = re.compile(r"[A-Za-z_]\w*\Z")


def _name(text: str) -> str:
    return re.sub(r"\W", "_", text)


def literal(x: float) -> str:
    text = decimal(x)
    if f32(float(text)) != x:  # too small for plain decimals
        text = f"{x:.9g}"
    return text + ("f" if "." in text or "e" in text else ".0f")


def enum_names(page: Page, prefix: str) -> list[str]:
    names = [f"{prefix}_{_name(name)}".upper() for name in page.names()]
    for i, name in enumerate(names):
        if name in names[:i] or name == f"{prefix}_nodes".upper():
            raise Bad(f"two nodes are {name} in C", *page.nodes[i].place)
    return names


def c_tables(page: Page, prefix: str, origin: str) -> str:
    prefix = _name(prefix)
    if not IDENTIFIER.match(prefix):
        prefix = "page_" + prefix
    names = enum_names(page, prefix)
    count = len(page.nodes)
    out = [
        f"/* Made from {origin} by tools/page from-html --c. Do not edit. */",
        f"#ifndef {prefix.upper()}_H", f"#define {prefix.upper()}_H", "",
        '#include "mearrasot.h"', "",
        "#if MEARRASOT_VERSION_MAJOR != 3", '#error "these tables are for version 3 of mearrasot.h"', "#endif", "",
        f"enum {prefix}_node {{",
    ]
    out += [f"    {name} = {i}," for i, name in enumerate(names)]
    out += [f"    {prefix.upper()}_NODES = {count}", "};", "", f"static const uint32_t {prefix}_words[] = {{"]
    for i, node in enumerate(page.nodes):
        out.append("    " + ", ".join(f"0x{w:08x}u" for w in node.words()) + f", /* {names[i]} */")
    out += ["};", "", "/* Field by field, each for all nodes. */", f"static const float {prefix}_numbers[] = {{"]
    for field in range(NUMBERS):
        out.append("    " + ", ".join(literal(node.numbers[field]) for node in page.nodes) + f", /* {field} */")
    out += ["};", ""] + _question(page, prefix) + ["", "#endif"]
    return "\n".join(out) + "\n"


def _question(page: Page, prefix: str) -> list[str]:
    how = [name for name, on in (
        ("MEARRASOT_KNOWN_WIDTH", page.known[0] is not None),
        ("MEARRASOT_KNOWN_HEIGHT", page.known[1] is not None),
        ("MEARRASOT_MIN_CONTENT", page.avail == "min"),
        ("MEARRASOT_MAX_CONTENT", page.avail == "max"),
        ("MEARRASOT_DEFINITE", not isinstance(page.avail, str)),
        ("MEARRASOT_START", page.flags[0]),
        ("MEARRASOT_END", page.flags[1]),
        ("MEARRASOT_DEFINITE_HEIGHT", page.flags[2]),
    ) if on]
    numbers = [page.known[0] or 0.0, page.known[1] or 0.0, page.parent, 0.0 if isinstance(page.avail, str) else page.avail]
    return [
        f"static const struct mearrasot_question {prefix}_question = {{",
        "    " + ", ".join(literal(x) for x in numbers) + ",",
        "    " + " | ".join(how),
        "};",
    ]
