#!/usr/bin/env python3
"""Lists what to_proofs.py moved: each declaration of a file of proofs/ that stood in specs/ in the commit TURNED of docs/PORT.md, with its whole statement.

usage, at the top of the repository: python3 tools/port/moved.py
"""

import glob
import os
import re
import subprocess
import sys

sys.path.insert(0, os.path.dirname(os.path.realpath(__file__)))
sys.dont_write_bytecode = True
from to_proofs import TYPE, items, names_of, read


def statement(item, name, at):
    line = item[at]
    inner = len(line) - len(line.lstrip())
    if TYPE.match(line.lstrip()):
        end = next((k for k in range(at + 1, len(item)) if item[k].strip() and len(item[k]) - len(item[k].lstrip()) <= inner), len(item))
        return [l for l in item[at:end] if not l.lstrip().startswith("--")]
    if not re.search(r":(\s|$)", line):
        return [line]
    out = [line]
    for l in item[at + 1 :]:
        if not l.strip() or len(l) - len(l.lstrip()) <= inner:
            break
        out.append(l)
    return out


def main():
    turned = open("docs/PORT.md", encoding="utf-8").read().split()[1]
    show = lambda p: subprocess.run(["git", "show", f"{turned}:{p}"], capture_output=True, text=True, encoding="utf-8")
    count = 0
    for crate in sorted(os.listdir("crates")):
        old = {}
        names = subprocess.run(["git", "ls-tree", "-r", "--name-only", turned, f"crates/{crate}/specs"], capture_output=True, text=True).stdout.split()
        had = set(subprocess.run(["git", "ls-tree", "-r", "--name-only", turned, f"crates/{crate}/proofs"], capture_output=True, text=True).stdout.split())
        for p in names:
            r = show(p)
            if p.endswith(".antt") and not p.endswith("/Lib.antt"):
                for it in items(r.stdout)[2]:
                    for n in names_of(it):
                        old.setdefault(n, set()).add(os.path.basename(p)[:-5])
        for p in sorted(glob.glob(f"crates/{crate}/proofs/*.antt")):
            if p.endswith("/Lib.antt") or p in had:
                continue
            said = []
            for it in items(read(p))[2]:
                header = [l for l in it if re.match(r"\s*module\b", l)]
                mine = names_of(it)
                for n, at in mine.items():
                    if n in old:
                        lines = statement(it, n, at)
                        cut = len(lines[0]) - len(lines[0].lstrip())
                        inside = [h.strip() for h in header if it.index(h) < at and len(h) - len(h.lstrip()) < cut]
                        said.append(([*inside, *[l[cut:] for l in lines]], n))
            if said:
                print(f"\n### {crate}: proofs/{os.path.basename(p)}\n")
                print("```")
                last = []
                for lines, n in said:
                    heads = [l for l in lines if l.startswith("module ")]
                    k = 0
                    while k < min(len(heads), len(last)) and heads[k] == last[k]:
                        k += 1
                    for j in range(k, len(heads)):
                        print("  " * j + heads[j])
                    last = heads
                    for l in lines[len(heads) :]:
                        print("  " * len(heads) + l)
                    count += 1
                print("```")
    print(f"\n{count} declarations.")


if __name__ == "__main__":
    main()
