#!/usr/bin/env python3
"""Brings the must-fail edits to today's spelling, by the scripts that turned the sources.

usage, at the top of the repository:
    python3 tools/port/edits.py prepare OUT       makes OUT/round0, OUT/round1 ..: clones of LANDED in each of which edits that share no line are applied.
                                                  Then port.py is run in each of them
    python3 tools/port/edits.py write OUT         turns them by respell.py with the table respelled.tsv, and writes each edit anew from how the
                                                  turned text differs from the sources as TURNED has them. What it could not write is printed
    python3 tools/port/edits.py check             whether every edit applies to the tree as it stands, by rt's own rule

LANDED is the commit that the port began with, TURNED the one in which port.py and respell.py ran (docs/PORT.md).
A pair in proofs/ is not turned: what answered a goal stands in other files now (docs/PORT.md).
"""

import collections
import difflib
import glob
import importlib.util
import json
import os
import re
import subprocess
import sys

HERE = os.path.dirname(os.path.realpath(__file__))


def commits():
    return open("docs/PORT.md", encoding="utf-8").read().split()[:2]


def git(*words, where="."):
    return subprocess.run(["git", *words], cwd=where, check=True, capture_output=True, text=True, encoding="utf-8").stdout


def pairs_of(text):
    path, old, out = "", None, []
    for line in text.split("\n"):
        if line.startswith("file: "):
            path = line[6:].strip()
        elif line.startswith("old: "):
            old = line[5:]
        elif line.startswith("new:"):
            out.append((path, old, re.sub(r"\A ", "", line[4:])))
            old = None
    return out


def edits_at(commit):
    names = [n for n in git("ls-tree", "-r", "--name-only", commit, "crates").split("\n") if re.fullmatch(r"crates/\w+/must-fail/.*\.edit", n)]
    return {n: git("show", f"{commit}:{n}") for n in names}


def places(edits, commit):
    """Of each edit its pairs as (path in the repository, line, old, new), without those of proofs/."""
    found = {}
    for name, text in edits.items():
        crate, texts, out = name.split("/")[1], {}, []
        for file, old, new in pairs_of(text):
            if file.startswith("proofs/"):
                continue
            path = f"crates/{crate}/{file}"
            now = texts.get(path) or git("show", f"{commit}:{path}")
            if now.count(old) != 1:
                raise SystemExit(f"{name}: {path} has the old text {now.count(old)} times")
            out.append((path, now.count("\n", 0, now.index(old)), old, new))
            texts[path] = now.replace(old, new)
        found[name] = out
    return found


def prepare(out):
    landed = commits()[0]
    at = places(edits_at(landed), landed)
    taken = collections.defaultdict(set)
    rounds = {}
    texts = {}
    for name in sorted(at):
        k = 0
        while True:
            near = any((path, line + d) in taken[k] for path, line, _, _ in at[name] for d in (-1, 0, 1))
            if not near:
                # each old text stands once still, with the edits that are there
                now = {path: texts.get((k, path)) or git("show", f"{landed}:{path}") for path, *_ in at[name]}
                fits = True
                for path, _, old, new in at[name]:
                    fits = fits and now[path].count(old) == 1
                    now[path] = now[path].replace(old, new)
                if fits:
                    break
            k += 1
        rounds[name] = k
        taken[k].update((path, line) for path, line, _, _ in at[name])
        texts.update({(k, path): text for path, text in now.items()})
    os.makedirs(out, exist_ok=True)
    json.dump(rounds, open(f"{out}/rounds.json", "w"), indent=1)
    for k in sorted(set(rounds.values())):
        to = f"{out}/round{k}"
        git("clone", "-q", ".", to)
        git("checkout", "-q", "-B", "scratch", landed, where=to)
        for (of, path), text in texts.items():
            if of == k:
                open(f"{to}/{path}", "w", encoding="utf-8").write(text)
        git("-c", "user.name=x", "-c", "user.email=x@x", "commit", "-qam", "edits", where=to)
        print(f"{to}: {list(rounds.values()).count(k)} edits")


def respell():
    spec = importlib.util.spec_from_file_location("respell", f"{HERE}/respell.py")
    made = importlib.util.module_from_spec(spec)
    spec.loader.exec_module(made)
    new = dict(line.rstrip("\n").split("\t") for line in open(f"{HERE}/respelled.tsv", encoding="utf-8"))
    return made, new, made.pattern(new)


TOKEN = re.compile(r"[\w'′₀-₉-]+|\s+|.")


def shortest(old, new, text):
    """The part of a line that changed, with enough beside it that it stands once in the text."""
    if len(old) <= 110 and text.count(old) == 1:
        return old, new
    a, b = TOKEN.findall(old), TOKEN.findall(new)
    i = 0
    while i < min(len(a), len(b)) and a[i] == b[i]:
        i += 1
    j = 0
    while j < min(len(a), len(b)) - i and a[-1 - j] == b[-1 - j]:
        j += 1
    lo, hi = i, len(a) - j
    while True:
        part = "".join(a[lo:hi])
        if len(part) >= 40 and part.strip() == part and text.count(part) == 1:
            return part, "".join(a[lo:i] + b[i : len(b) - j] + a[len(a) - j : hi])
        if lo == 0 and hi == len(a):
            return old, new
        lo, hi = max(0, lo - 1), min(len(a), hi + 1)


def by_lines(olds, news, rust):
    """A hunk as pairs of one line each."""
    if len(olds) != len(news):
        if not rust and len(olds) != 1:
            return None
        # what is more than the old lines have goes on the last of them
        k = len(olds)
        joint = news[: k - 1] + [" ".join([news[k - 1], *[it.strip() for it in news[k:]]])] if len(news) > k else news + [""] * (k - len(news))
        news = joint
    return [(o, n) for o, n in zip(olds, news) if o != n]


def written(name, landed, found, base, turned, here):
    """The pairs of an edit in today's spelling, as (file, old, new), or what keeps it from being written."""
    out, now = [], {}
    for path, line, old, new in found[name]:
        if path not in here:
            return None, f"no {path}"
    for path in dict.fromkeys(p for p, *_ in found[name]):
        rust = path.endswith(".rt")
        for olds, news in turned[name][path]:
            pairs = by_lines(olds, news, rust)
            if pairs is None:
                return None, f"{path}: lines do not pair: {olds} {news}"
            for o, n in pairs:
                text = now.get(path) or here[path]
                o, n = shortest(o, n, text)
                if text.count(o) != 1:
                    return None, f"{path} has {text.count(o)} times: {o}"
                now[path] = text.replace(o, n)
                out.append(("/".join(path.split("/")[2:]), o, n))
    return out, None


def write(out, only=None):
    landed, after = commits()
    edits = edits_at(landed)
    found = places(edits, landed)
    rounds = json.load(open(f"{out}/rounds.json"))
    made, new, find = respell()
    base, here = {}, {}
    for path in {p for ps in found.values() for p, *_ in ps}:
        base[path] = git("show", f"{after}:{path}")
        if os.path.isfile(path):
            here[path] = open(path, encoding="utf-8").read()
    top = os.getcwd()
    turned = collections.defaultdict(dict)
    failed = {}
    for k in sorted(set(rounds.values())):
        if not os.path.isdir(f"{out}/round{k}"):
            continue
        os.chdir(f"{out}/round{k}")
        groups = collections.defaultdict(list)
        for name, ps in found.items():
            if rounds[name] == k:
                for path, line, *_ in ps:
                    groups[path].append((line, name))
        for path, lines in sorted(groups.items()):
            # lines of one edit that follow one another are one hunk
            lines.sort()
            joint = []
            for line, name in lines:
                if joint and joint[-1][1] == name and line - joint[-1][2] <= 1:
                    joint[-1] = (joint[-1][0], name, line)
                else:
                    joint.append((line, name, line))
            text = made.turned(path, open(path, encoding="utf-8").read(), new, find)
            a, b = base[path].split("\n"), text.split("\n")
            hunks = [it for it in difflib.SequenceMatcher(None, a, b, autojunk=False).get_opcodes() if it[0] != "equal"]
            if len(hunks) != len(joint):
                for _, name, _ in joint:
                    failed[name] = f"{path}: {len(hunks)} hunks of {len(joint)}"
                print(f"{path}: {len(hunks)} hunks, {len(joint)} wanted in round {k}")
                for h in hunks:
                    print("   ", a[h[1] : h[2]], "->", b[h[3] : h[4]])
                for line, name, _ in joint:
                    print("    at", line, name)
                continue
            for (line, name, _), (_, a1, a2, b1, b2) in zip(joint, hunks):
                turned[name].setdefault(path, []).append((a[a1:a2], b[b1:b2]))
        os.chdir(top)
    done = 0
    for name in sorted(found):
        if only and name not in only:
            continue
        if name in failed or rounds[name] and not os.path.isdir(f"{out}/round{rounds[name]}"):
            print(f"left: {name}: {failed.get(name)}")
            continue
        pairs, why = written(name, landed, found, base, turned, here)
        if pairs is None:
            print(f"left: {name}: {why}")
            continue
        text, file = "", None
        for line in edits[name].split("\n"):
            if line.startswith("#"):
                text += made.comment("--" + line[1:], new, find).replace("--", "#", 1) + "\n"
        for path, old, now in pairs:
            if path != file:
                text += f"file: {path}\n"
                file = path
            text += f"old: {old}\nnew: {now}".rstrip(" ") + "\n" if not now else f"old: {old}\nnew: {now}\n"
        open(name, "w", encoding="utf-8").write(text)
        done += 1
    print(f"written {done} of {len(found)}")


def rt_rule():
    """rt's own function `edited`."""
    kit = os.path.dirname(subprocess.run(["rt", "doc"], check=True, capture_output=True, text=True).stdout.strip())
    text = open(os.path.join(kit, "bin", "rt"), encoding="utf-8").read()
    at = text.index("def edited(text, file):")
    end = text.index("\n\n\n", at)
    space = {"os": os, "re": re}
    exec(text[at:end], space)
    return space["edited"]


def check():
    edited, bad, n = rt_rule(), 0, 0
    for name in sorted(glob.glob("crates/*/must-fail/*.edit")):
        n += 1
        texts, why = edited(open(name, encoding="utf-8").read(), "/".join(name.split("/")[:2]))
        if why:
            bad += 1
            print(f"{name}: {why}")
    print(f"{n} edits, {n - bad} apply")
    return bad != 0


if __name__ == "__main__":
    if not os.path.isdir("crates"):
        raise SystemExit("at the top of the repository")
    if sys.argv[1:2] == ["prepare"] and len(sys.argv) == 3:
        raise SystemExit(prepare(os.path.abspath(sys.argv[2])))
    if sys.argv[1:2] == ["write"] and len(sys.argv) >= 3:
        raise SystemExit(write(os.path.abspath(sys.argv[2]), set(sys.argv[3:])))
    if sys.argv[1:] == ["check"]:
        raise SystemExit(check())
    raise SystemExit(__doc__)
