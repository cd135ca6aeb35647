#!/usr/bin/env python3
"""Brings the repository's own definitions and lemmas to snake case, once, after port.py.

usage: python3 tools/port/respell.py [--list]   at the top of the repository; --list writes nothing and prints old and new

Renamed are the names that files of specs/ and proofs/ declare: definitions, lemmas, fields and constructors
of records and data. A name that begins with a capital (a type, a fact) keeps its spelling. Names of goals,
which Rattle makes, and what a function's own proof file declares stay, but for the proof itself, f_spec.
Names of src/, exports, strings, inputs and outputs stay.
"""

import collections
import os
import re
import sys

NAME = r"[^\s(){}:;.,=λ→∷\[\]\"`⌜⌝|↦×]+"
HEAD = re.compile(r"^(?:(?:abbrev|unfoldable|opaque)\s+)?(?:pub\s+)?(?:(record|data|ruleset)\s+)?(?:pub\s+)?(" + NAME + r")\s*(.*)$")
FIELD = re.compile(r"^\s+(?:pub\s+)?(" + NAME + r")\s*:\s")
# a definition in camel case, also one that stands inside another
CAMEL = re.compile(r"^\s*(?:(?:abbrev|unfoldable|opaque|pub)\s+)*([a-z][a-z0-9]*[A-Z]\w*)(?:\s+[({].*[)}])?\s*:\s")
WORDS = {"use", "mod", "unfolding", "infixl", "infixr", "infix", "syntax", "mutual", "where", "open", "pub", "abbrev", "unfoldable", "record", "data", "ruleset"}
# Two names of one file that would fall together, or with a name that stands: by hand.
BY_HAND = {}


def walk(root, ends):
    for folder, dirs, files in os.walk(root):
        dirs[:] = sorted(d for d in dirs if d not in ("out", ".git", "target"))
        for f in sorted(files):
            if f.endswith(ends):
                yield os.path.join(folder, f)


def shared(path):
    """Whether a file is one of definitions or lemmas, and not a function's own proof."""
    parts = path.split("/")
    at = parts.index("crates") + 2
    return parts[at] == "specs" or (parts[at] == "proofs" and parts[-1] not in ("Proof.antt", "Answers.antt", "Invariants.antt"))


def declared(root):
    """Each declared name and where."""
    found = collections.defaultdict(set)
    for p in walk(os.path.join(root, "crates"), ".antt"):
        if not shared(p):
            continue
        block = False
        for line in open(p, encoding="utf-8"):
            if not line.strip() or line.startswith("--"):
                continue
            it = CAMEL.match(line)
            if it:
                found[it[1]].add(p)
            if line[0].isspace():
                it = FIELD.match(line) if block else None
                if it and it[1] not in WORDS:
                    found[it[1]].add(p)
                continue
            it = HEAD.match(line)
            if re.match(r"(abbrev |unfoldable |opaque )?(pub )?mutual\b", line):
                block = True
                continue
            if not it or it[2] in WORDS:
                block = False
                continue
            block = it[1] in ("record", "data")
            if it[1] or re.match(r"(:|[({].*:)", it[3]):
                found[it[2]].add(p)
    return found


def snake(part):
    if not part or not part[0].islower():
        return part
    part = re.sub(r"([a-z0-9])([A-Z])", r"\1_\2", part)
    part = re.sub(r"([A-Z])([A-Z][a-z])", r"\1_\2", part)
    return part.lower()


def respelled(name):
    if name in BY_HAND:
        return BY_HAND[name]
    if name[0].isupper() or not re.match(r"[a-zμτ0-9]", name) or "◌" in name:
        return name
    return "_".join(p if p[:1].isupper() and len(p) > 1 else snake(p).lower() for p in name.split("-"))


def table(root):
    return {n: respelled(n) for n in declared(root) if respelled(n) != n}


TOKEN = re.compile(r"[^\s(){}:;.,=\[\]\"`|\\/!?+*%&<>$#@~^]+")


# Names that port.py has turned already, and that the definition beside them now needs.
BY_HAND.update({n: n + "_lem" for n in ("read_back", "past_by", "moved_by", "kept_row", "below_row", "rows_out", "row_words")})
BY_HAND.update({"as_lent": "is_as_lent", "as_plain": "is_as_plain", "classValues": "ClassValues"})
# What follows a step that Rattle names after a call: there the name is the called function's.
STEP = re.compile(r"\.(ensures|result|new|is|true|false|was|given)\b")


def in_code(root):
    """Names of the sources, outside clauses and ghost items."""
    found = set()
    for p in walk(os.path.join(root, "crates"), ".rt"):
        text = open(p, encoding="utf-8").read()
        text = re.sub(r"//[^\n]*", "", text)
        text = re.sub(r"ghost use [^;]*;", "", text)
        text = re.sub(r"(?m)^\s+(requires|ensures)\b.*$", "", text)
        found.update(re.findall(r"[A-Za-z_]\w*", text))
    return found


def table(root):
    """Old and new spelling of each name. A lemma that would have its function's name gets _lem."""
    names, code = declared(root), in_code(root)
    new = {n: respelled(n) for n in names if not (n in code and n not in BY_HAND)}
    new = {n: m for n, m in new.items() if n != m}
    users = collections.defaultdict(list)
    for n, m in new.items():
        users[m].append(n)
    for m, olds in users.items():
        stands = m in names and m not in BY_HAND
        dashed = [n for n in olds if "-" in n]
        if len(olds) > 1 or (stands and dashed):
            for n in dashed:
                new[n] = m + "_lem"
    return new


def pattern(names):
    return re.compile(r"(?<![\w'\-])(" + "|".join(re.escape(n) for n in sorted(names, key=len, reverse=True)) + r")(?![\w'\-])")


def comment(line, new, find):
    """A comment: names in backticks, in camel case, or at the head of a list of names."""
    def one(it):
        n, at = it[1], it.start()
        quoted = line[at - 1 : at] == "`"
        listed = re.match(r"^\s*--\s{4,}[\w', \-]*$", line[:at]) is not None
        return new[n] if quoted or listed or "-" not in n else n

    return find.sub(one, line)


def turned(path, text, new, find):
    own = not shared(path) and path.endswith(".antt")
    local = set()
    # a name that the file takes from the library is the library's
    for it in re.finditer(r"(?s)\buse ([\w.'\u00b7]+)\.\{([^}]*)\}", text):
        module = it[1].split(".")
        if module[0] != "Rattle" or not os.path.isdir(os.path.join("crates", module[1])):
            local.update(w for w in re.split(r"[\s,]+", it[2]) if w)
    if own:
        for line in text.split("\n"):
            it = HEAD.match(line) if line[:1].strip() and not line.startswith("--") else None
            if it and it[2] in new and not it[1]:
                local.add(it[2])
    rust = path.endswith(".rt")
    out = []
    ghost = clause = False
    for line in text.split("\n"):
        mark = "//" if rust else "--"
        body, sep, rest = line.partition(mark) if line.lstrip().startswith(mark) else (line, "", "")
        if rust:
            ghost = ghost or body.startswith("ghost use ")
            clause = clause or re.match(r"\s+(requires|ensures)\b", body) is not None
            if ghost or clause:
                body = find.sub(lambda it: it[1] if it[1] in local else new[it[1]], body)
            if ghost and ";" in body:
                ghost = False
            if clause and body.rstrip().endswith("}"):
                clause = False
        else:

            def one(it):
                n = it[1]
                if n in local:
                    return n
                if own and body[it.start() - 1 : it.start()] == "." and STEP.match(body[it.end() :]):
                    return n.replace("-", "_")
                return new[n]

            body = find.sub(one, body)
        out.append(body + (sep + comment(mark + rest, new, find)[2:] if sep else ""))
    text = "\n".join(out)
    if own:
        # the proof of a function f is f_spec
        text = re.sub(r"(?<![\w'\-.])(\+?[a-z][\w\-]*)-spec(?![\w'\-])", lambda it: it[1].replace("-", "_") + "_spec", text)
    return text


def main(argv):
    root = "."
    if not os.path.isdir("crates"):
        raise SystemExit("at the top of the repository")
    new = table(root)
    if "--list" in argv:
        for n in sorted(new):
            print(n, new[n], sep="\t")
        return 0
    find = pattern(new)
    for p in walk("crates", (".rt", ".antt")):
        text = open(p, encoding="utf-8").read()
        now = turned(p, text, new, find)
        if now != text:
            with open(p, "w", encoding="utf-8") as f:
                f.write(now)
    with open(os.path.join(os.path.dirname(os.path.realpath(__file__)), "respelled.tsv"), "w", encoding="utf-8") as f:
        f.writelines(f"{n}\t{new[n]}\n" for n in sorted(new))
    return 0


if __name__ == "__main__":
    raise SystemExit(main(sys.argv[1:]))
