#!/usr/bin/env python3
"""Prints what the crates of a commit said and what they say now, one under the other.

    tools/port/forms.py COMMIT

Public functions with their clauses and public types of src/, definitions and statements of specs/ and
proofs/ (answers and invariants aside). Where old and new differ only by SPELLED, the type that a type became,
they are counted and not printed. Parentheses do not tell two statements apart."""
import re
import subprocess
import sys
import tempfile
from pathlib import Path

ROOT = Path(__file__).resolve().parents[2]

# What an own type of the old form is called today: in statements, and in code.
SPELLED = {
    "OptionF32": "Option Float", "OptionSize": "Size (Option Float)", "LengthSize": "Size Length",
    "LengthRect": "Rect Length", "OverflowXY": "Point Overflow", "Answer": "Result ℕ Refusal",
    "Tested": "Result ⊤ Refusal", "SizeAnswer": "Result (Size Float) Refusal", "Found": "Option NodeId",
    "Spot": "Option ℕ", "Value": "Option ℕ", "IndexAnswer": "Result ⊤ IndexRefusal",
    "CoarseAnswer": "Result ⊤ CoarseRefusal", "ScrollAnswer": "Result (Option ℕ) ScrollRefusal",
    "ProfileAnswer": "Result ℕ ProfileRefusal", "ProfileSize": "Result (Size Float) ProfileRefusal",
    "ProfileTested": "Result ⊤ ProfileRefusal", "HeadLines": "Result Head PageError",
    "PageFile": "Result Head PageError", "EventLine": "Option Event", "AvailLine": "Option AvailableSpace",
    "FlagsLine": "Option Flags", "KnownLine": "Option (Size (Option Float))", "Known": "Option (Option Float)",
    "NumLine": "Option FieldNumber", "NodeLine": "Option NodeWords", "Seen": "Option PixelBox",
    "or_else": "option_or", "of_size": "plainly", "paper": "refusal_paper",
}
# Cases of those types. Ok, Err and the case of an error enum around another case are left out on both sides.
CASES = {
    "Pass": "tt", "Refuse": "", "Nowhere": "None", "At": "Some", "Done": "", "Bad": "None", "Sized": "", "Is": "Some",
    "Refused": "", "Shown": "tt", "Made": "tt", "First": "Some", "Nothing": "None", "Page": "", "_": "tt",
    "Ok": "", "Err": "", "Plain": "", "plainly": "", "BadLine": "",
}
IN_CODE = {"ℕ": "u32", "⊤": "()", "Float": "f32"}


def words_of(text, old):
    """The words of a statement, in today's spelling."""
    if old:
        for was, now in SPELLED.items():
            text = re.sub(rf"(?<![\w.']){was}(?![\w'])", now, text)
    text = re.sub(r"\b[a-z]\w*\.(?=[A-Z]\w*)", "", text)
    text = re.sub(r"(?<![\w'])paper(?![\w'])", "refusal_paper", text)
    text = re.sub(r"\b(Size|Point|Rect)\b[( <]*(Float|f32)\b", r"\1", text)
    found = re.findall(r"[\w'.\-]+|[^\s\w(){}<>,;]", text)
    return [now for it in found if (now := CASES.get(it, it))]


def code_words(text, old):
    if old:
        for was, now in SPELLED.items():
            for one, other in IN_CODE.items():
                now = now.replace(one, other)
            text = re.sub(rf"(?<![\w.]){was}(?!\w)", now, text)
    return words_of(text, False)


def one_line(text):
    return re.sub(r"\s+", " ", re.sub(r"//[^\n]*", "", text)).strip().rstrip("{").strip()


def of_code(path):
    """(kind of item and name) to its signature and clauses, public ones alone."""
    lines, found, within, at = path.read_text().split("#[cfg(test)]")[0].split("\n"), {}, "", 0
    while at < len(lines):
        line = lines[at]
        if re.match(r"(pub )?(impl|trait)\b.*\{$", line):
            within = line.rstrip(" {")
            if line.startswith("pub trait"):
                found[within.split("<")[0].split(":")[0]] = within
        elif line.startswith("}"):
            within = ""
        item = re.match(r"(\s*)(pub(?:\([a-z]+\))? )?(?:unsafe )?(?:extern \"C\" )?fn (\w+)", line)
        kind = re.match(r"pub (struct|enum|type) (\w+)", line)
        if kind:
            end = at
            while "{" in line and not lines[end].startswith("}") and not lines[end].endswith("}"):
                end += 1
            found[f"{kind[1]} {kind[2]}"] = one_line("\n".join(lines[at : end + 1]) + " ").rstrip("{")
            at = end
        elif item and (item[1] == "" or within):
            end, seen = at, False
            while not (lines[end].strip() == "{" or lines[end].endswith(";")):
                seen = seen or bool(re.search(r"\b(requires|ensures|decreases)\b", lines[end]))
                if not seen and lines[end].endswith(("{", "}")):
                    break
                end += 1
            if item[2] or within.startswith("pub trait") or " for " in within:
                name = f"{within} {item[3]}" if item[1] and within else f"fn {item[3]}"
                found[name] = one_line("\n".join(lines[at : end + 1]))
            at = end
        at += 1
    return found


def of_statements(path):
    """name to (is it a definition, its text), for each declaration of a file."""
    found = {}
    for block in re.split(r"\n\s*\n", path.read_text()):
        lines = [it for it in block.split("\n") if not re.match(r"\s*(--|use |module _ |pub mod )", it)]
        text = "\n".join(lines)
        head = re.match(r"\s*(unfoldable |abbrev )?(pub )?(?:(record|data) )?([\w'≡◌⊕⊖⊗⊘.\-]+)( [^\n]*)?", text)
        if not head:
            continue
        name, is_definition = head[4], bool(head[1] or head[3])
        if not is_definition:
            said = re.match(rf"(\s*(?:pub )?\S+ : .*?)(?=\n\s*unfolding |\n\s*{re.escape(name)}[ {{]|\Z)", text, re.S)
            text = said[1] if said else text
        found[name] = (is_definition, re.sub(r"\s+", " ", text).strip())
    return found


def of_a_function(inside):
    """Is this file a function's own proof: proofs/.., its folder, and a name that the check gives?"""
    return inside[1] == "proofs" and len(inside) > 3 and inside[-1] in ("Answers.antt", "Invariants.antt", "Proof.antt")


def read(root):
    code, statements = {}, {}
    for path in sorted((root / "crates").rglob("*")):
        inside = path.relative_to(root / "crates").parts
        if path.suffix == ".rt" and inside[1] == "src":
            for name, text in of_code(path).items():
                code[inside[0], name] = text
        elif path.suffix == ".antt" and inside[1] in ("specs", "proofs") and path.name != "Lib.antt" and not of_a_function(inside):
            for name, (is_definition, text) in of_statements(path).items():
                statements["/".join(inside), name] = (is_definition, text)
    return code, statements


def sides(title, old, new, same):
    """Prints gone, new and changed of one kind."""
    gone = [it for it in old if it not in new]
    came = [it for it in new if it not in old]
    both = [it for it in old if it in new and old[it] != new[it]]
    told = [it for it in both if not same(old[it], new[it])]
    print(f"\n#### {title}: {len(old)} then, {len(new)} now; {len(both)} differ, {len(both) - len(told)} of them by the types' names alone\n")
    for name, items in (("Changed", told), ("Gone", gone), ("New", came)):
        if not items:
            continue
        print(f"{name}:\n\n```diff")
        for it in items:
            print(f"  {it[0]} {it[1]}")
            if it in old:
                print(f"- {old[it]}")
            if it in new:
                print(f"+ {new[it]}")
        print("```\n")


def main():
    if len(sys.argv) != 2:
        sys.exit(__doc__)
    with tempfile.TemporaryDirectory() as room:
        tree = subprocess.run(["git", "archive", sys.argv[1], "crates"], cwd=ROOT, check=True, capture_output=True).stdout
        subprocess.run(["tar", "-x", "-C", room], input=tree, check=True)
        old_code, old = read(Path(room))
    code, new = read(ROOT)
    alike = lambda words: lambda a, b: words(a, True) == words(b, False)
    sides("Public functions and types", old_code, code, alike(code_words))
    for title, wanted in (("Definitions", True), ("Statements", False)):
        pick = lambda all_, wanted=wanted: {it: text for it, (is_definition, text) in all_.items() if is_definition == wanted}
        sides(title, pick(old), pick(new), alike(words_of))


main()
