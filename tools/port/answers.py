#!/usr/bin/env python3
"""Turns a crate's Proof.antt files of the older form (answers to a tie's needs, by places) into Answers.antt and Invariants.antt.

usage: python3 tools/port/answers.py NAMES.json crates/CRATE [FUNCTION..]   at the top of the repository, committed: it replaces files

NAMES.json is what `rt check --generated DIR --old-names` writes in the crate. A file that cites places as types is left.
"""

import json
import os
import re
import sys

W = r"[^\s(){}.;,@\"«»\[\]\\]+"
plain = lambda s: re.sub("-+", "-", s.replace("_", "-"))
TRIVIAL = {"search rules", "omega arith", "tt", "refl", "(search rules)"}


class Left(Exception):
    pass


def blocks(text):
    """Top-level items: (comment lines, lines)."""
    out, com, cur = [], [], []
    for line in text.split("\n"):
        if line.startswith("--") or not line.strip():
            if cur:
                if not line.strip():
                    cur.append(line)
                    continue
                out.append((com, cur))
                com, cur = [], []
            if line.startswith("--"):
                com.append(line)
            elif com:
                com.append(line)
            continue
        if line[0].isspace() or line[0] in ")]}":
            cur.append(line)
            continue
        word = line.split()[0]
        if word in ("abbrev", "unfoldable", "pub"):
            word = next((w for w in line.split() if w not in ("abbrev", "unfoldable", "pub")), word)
        if cur and (cur_name == word and word != "use" or word == "unfolding"):
            cur.append(line)
            continue
        if cur:
            out.append((com, cur))
            com, cur = [], []
        cur, cur_name = [line], word
    if cur:
        out.append((com, cur))
    return out


def item(lines):
    """Name, signature, unfolding lines, equations."""
    while lines and not lines[-1].strip():
        lines = lines[:-1]
    m = re.match(r"^((?:abbrev |unfoldable |pub )*)(\S+)\s*(.*)$", lines[0])
    mark, name = m[1], m[2]
    sig, unf, eqs = [lines[0]], [], []
    for line in lines[1:]:
        if line.startswith("unfolding"):
            unf.append(line)
        elif line.split() and line.split()[0] == name and not line[0].isspace():
            eqs.append(line)
        elif eqs:
            eqs.append(line)
        elif unf:
            unf.append(line)
        else:
            sig.append(line)
    return mark, name, "\n".join(sig), unf, "\n".join(eqs)


class Fn:
    def __init__(self, of, deep=False):
        self.of = of
        self.deep = deep
        self.places = {p[0]: (i, p) for i, p in enumerate(of["places"])}
        self.goals = {}
        for (old, new), at in zip(of["needs"], of["asked_at"]):
            self.goals[plain(old)] = (new, at[0])

    def goal(self, word):
        w = plain(word)
        for cut, to in (("", ""), ("overflow-", ""), ("nonzero-", ""), ("slice-bounds-", "part-")):
            if w.startswith(cut) and to + w[len(cut):] in self.goals:
                return self.goals[to + w[len(cut):]]
        return None

    def chain(self, place):
        out = []
        while place is not None:
            i, p = self.places[place]
            out.append((i, p))
            place = p[1]
        return out

    def path(self, chain, words):
        new = self.path_(chain, words)
        if self.deep and new[0] == "pre":
            new = ["requires"] + new[1:]
        if self.deep and new[0] == "requires":
            # in a cycle the measure's fact stood first
            if new[1:2] == ["0"]:
                return ["decreases"] + new[2:]
            if new[1:2] == ["1"]:
                return ["requires"] + new[2:]
            raise Left("the whole requires in a cycle")
        return new

    def path_(self, chain, words):
        """The words after c, of a term c.before..X.Y, in the new form; the number of words used and the new words."""
        k = 0
        while k < len(words) and words[k] == "before":
            k += 1
        if k == len(words) and k < len(chain) and self.deep:
            # a place by itself, for a lemma over places
            return words
        if k >= len(words):
            raise Left("a place by itself: c." + ".".join(words))
        step = words[k]
        if k >= len(chain):
            k = len(chain) - 1
        i, p = chain[k]
        rest = words[words.index(step) + 1 :]
        if step in ("args", "requires", "pre", "ranges", "utf8", "well_formed", "type_inv"):
            return [step] + rest
        old, new = p[2]
        if plain(step) != plain(old):
            if step == "given" or p[1] is None:
                return [step] + rest
            # (a name that stands in both forms)
            alike = lambda it: re.sub(r"(?i)is[-_](?=is)|_contract$|_lem$|[-_]|_lem$", "", it).lower()
            if alike(step) != alike(old):
                # places have come or gone between: by its name
                found = [j for j, (_, q) in enumerate(chain) if alike(q[2][0]) == alike(step)]
                if not found:
                    raise Left(f"step {step} is not {old}")
                k = min(found, key=lambda j: abs(j - k))
                i, p = chain[k]
                old, new = p[2]
        # arms of later places name it
        own = None
        for j in range(k, -1, -1):
            arm = self.of["arms"][chain[j][0]]
            if not arm:
                continue
            for field, of_step, of_path in arm[2]:
                if plain(of_step) == plain(old) and rest[: len(of_path)] == of_path and of_path:
                    return [arm[0], field] + rest[len(of_path) :]
                if of_step == old and not of_path and j == k:
                    own = [arm[0], field] + rest
        # what a call left in its arguments went by place
        params = self.of["params"].get(p[3]) if p[3] else None
        if params and rest[:1] in (["new"], ["auto"]) and rest[1:2] and rest[1] in ("0", "1"):
            n = 1
            while n < len(rest) and rest[n] == "1" and n <= len(params) - 1:
                n += 1
            at = n - 1
            if n < len(rest) and rest[n] == "0":
                n += 1
            if at < len(params):
                rest = [rest[0], params[at]] + rest[n:]
                own = None
        return own or [new] + rest


def equation(name, eqs):
    """The binders of an equation and its right side."""
    h = re.match(r"^\S+((?:\s+[^\s=]+)*)\s+=\s*", eqs)
    if not h:
        raise Left("equations of " + name)
    return h[1].split(), eqs[h.end() :]


def named_places(body, binder):
    """A name for a place is the place."""
    while True:
        m = re.search(r"\blet ([\w\-]+) = " + re.escape(binder) + r"((?:\.before)*) in\s*", body)
        if not m:
            break
        body = body[: m.start()] + re.sub(r"(?<![\w'.\-])" + m[1] + r"(?![\w'\-])", binder + m[2], body[m.end() :])
    return body


def turned(body, binder, fn, chain, over={}, unfoldings=[]):
    body = named_places(body, binder)
    # a lemma over places stands in front, about the state itself
    def uses(name, text, b):
        return re.compile(r"(?<![\w'.\-])" + re.escape(name) + r"(?![\w'\-])(?:\s+t(?![\w'\-]))?\s+(?:\(" + re.escape(b) + r"(?:\.before)*\)|" + re.escape(b) + r"(?:\.before)*(?![\w'\-.]))")

    needed, front = [], {}
    todo = [(body, binder)]
    while todo:
        text, b = todo.pop()
        for name in over:
            if name not in needed and uses(name, text, b).search(text):
                needed.append(name)
                at, tb, typ, cb, params, eq, unf = over[name]
                j = next((k for k, (_, q) in enumerate(chain) if q[0] == at), None)
                if j is None:
                    raise Left(f"{name} is not on the way")
                here = binder + ".before" * j
                put = lambda text, b: re.sub(r"(?<![\w'.\-])" + re.escape(b) + r"(?![\w'\-])", here, text)
                typ2, eq2 = put(typ, tb), named_places(put(eq, cb), binder)
                typ2 = re.sub(r"^→\s*", "", typ2)
                front[name] = (typ2, ("λ " + " ".join(params) + ". " if params else "") + eq2, unf)
                todo += [(typ2, binder), (eq2, binder)]
    lets = ""
    for name in over:
        if name in needed:
            typ, eq, unf = front[name]
            lets += f"let {name} : {typ} = {' '.join(eq.split())} in "
            unfoldings.extend(unf)
    body = lets + body
    for name in needed:
        body = uses(name, body, binder).sub(name, body)
    for name in needed:
        # (lets that this one brought in)
        body = re.sub(r"let " + re.escape(name) + r" = " + re.escape(name) + r" in ", "", body)
    out = []
    last = 0
    for m in re.finditer(r"(?<![\w'.\-\x01])" + re.escape(binder) + r"((?:\." + W + r")*)(?![\w'\-])", body):
        words = m[1].split(".")[1:] if m[1] else []
        if not words:
            raise Left("the whole state")
        new = fn.path(chain, words)
        out.append(body[last : m.start()])
        out.append("c." + ".".join(new))
        last = m.end()
    out.append(body[last:])
    # a test of `!b` tells b itself now
    text = "".join(out).replace("\x01", "c")
    return re.sub(r"\(?not-(?:true|false) _ (c\.(?:if|loop)-[\w.-]*not-[\w-]+\.(?:true|false))(\)?)", lambda m: m[1] if m[0].startswith("(") and m[2] else m[1] + m[2] if not m[0].startswith("(") else "(" + m[1] + m[2], text)


def convert(text, path, crate, of):
    """of: the entry of the function, or for a cycle the entry of each by its name."""
    cycle = path.rsplit("/", 1)[-1].startswith("+")
    fns = {}
    if cycle:
        for it in re.finditer(r"use \S+\.Lts-(\S+) as (\S+)", text):
            name = next((n for n in of if plain(n) == plain(it[1])), None)
            if name:
                fns[it[2]] = Fn(of[name], True)
    fn = Fn(of) if not cycle else None
    module = f"Rattle.{crate}.proofs." + path.replace("/", ".")
    answers, helpers, invs, uses, named, over, placed = [], [], [], [], [], {}, []
    for com, lines in blocks(text):
        if lines[0].startswith("use "):
            joined = "\n".join(l for l in lines if l.strip())
            if re.search(re.escape(module) + r"\.(Tie|Statement|Lts|Reads|Kinds)\b", joined) or cycle and re.search(re.escape(module) + r"\.(\{|Lts)|borrow\.Fn\.(Kinds|PlainCycle)|\.(Reads|Kinds) as ", joined):
                continue
            uses.append(joined)
            continue
        if lines[0].startswith(("infix", "module", "open")):
            raise Left(lines[0])
        mark, name, sig, unf, eqs = item(lines)
        m = re.match(r"^(?:abbrev |pub )*\S+\s*:\s*tie\.(Need-)?(" + W + r")((?:\s+\S+)*)$", " ".join(sig.split()))
        deep = False
        if cycle:
            m = re.match(r"^(?:abbrev |pub )*\S+\s*:\s*(?:\((?:t) : ℕ\) → )?(\S+)\.(Need-)?(" + W + r")((?:\s+.*)?)$", " ".join(sig.split()))
            if m and m[1] in fns and m[3] not in ("Claims",):
                fn, m = fns[m[1]], (m[0], m[2], m[3])
                deep = True
            elif re.search(r"\bIn \d|Measures|\.Claims\b", sig):
                if "Measures" in sig:
                    kinds = re.search(r"Measures \d+ (\S+)\.ps", sig)[1]
                    f = re.search(r"use \S+?\.(\w+)\.Kinds as " + re.escape(kinds), text)[1]
                    invs.append((com, f, None, eqs))
                continue
            else:
                m = None
        if re.search(r"[_-]spec$", name) and "statement" in sig:
            continue
        if m and not m[1]:
            invs.append((com, name, (fn, m[2]), eqs))
            continue
        if not m:
            if re.search(r"\b(tie|lts|reads)\.|-lts\.", sig + eqs):
                flat = " ".join(sig.split())
                ph = None
                h0 = re.match(r"^((?:abbrev |pub )*)\S+ : ((?:\(t : ℕ\) )?)\((\w+) : (\S+?)\.(" + W + r")", flat)
                if h0:
                    depth, e = 1, h0.end()
                    while depth:
                        depth += {"(": 1, ")": -1}.get(flat[e], 0)
                        e += 1
                    ph = [h0[0], h0[1], h0[2], h0[3], h0[4], h0[5], flat[e:]]
                pe = re.match(r"^\S+((?:\s+[^\s=]+)*)\s+=\s*", eqs)
                of_fn = fns.get(ph[4]) if ph and cycle else fn
                if not ph or not pe or not of_fn:
                    raise Left("a helper over places: " + name)
                at = next((q for q in of_fn.places if plain(q) == plain(ph[5])), None)
                if at is None:
                    raise Left("a helper over places: " + name + " at " + ph[5])
                chain = of_fn.chain(at)
                new_place = of_fn.of["places_by_name"][of_fn.places[at][0]]
                hb = pe[1].split()
                k = 1 if ph[2] else 0
                cb = hb[k]
                more_params = hb[k + 1 :]
                over[name] = (at, ph[3], ph[6].strip(), cb, more_params, eqs[pe.end() :], unf)
                continue
            named.append((name, "\n".join(c for c in com if c.strip()) + ("\n" if com else "") + "\n".join([sig] + unf + ([eqs] if eqs else []))))
            helpers.append(named[-1][1])
            continue
        goal = fn.goal(m[2])
        if goal is None:
            print(f"dropped: {path}: no goal {m[2]}")
            continue
        new, at = goal
        new = fn.of["stem"] + new
        binders, body = equation(name, eqs)
        front = []
        if deep:
            front, binders = binders[:1], binders[1:]
        if not binders:
            raise Left("no binder of " + name)
        more = [b for b in binders[1:] if not b.startswith("κ")]
        chain = fn.chain(at)
        more_unf = []
        body = turned(body, binders[0], fn, chain, over, more_unf)
        if more_unf:
            words = sorted({w for line in unf + more_unf for w in line.replace("unfolding", "").split()})
            unf = ["unfolding " + " ".join(words)]
        if body.strip() in TRIVIAL and "unfolding" not in "\n".join(unf):
            continue
        local = "\n".join(c for c in com if c.strip())
        answers.append((local + "\n" if local else "") + f"pub {new} : goal.{new}\n" + ("\n".join(unf) + "\n" if unf else "") + " ".join([new, *front, "c", *more]) + f" = {body}")
    inv_text = None
    if invs:
        cited = []
        text_of = {h[0]: h[1] for h in named}
        todo = [eqs for _, _, _, eqs in invs]
        while todo:
            one = todo.pop()
            for n, t in text_of.items():
                if n not in cited and re.search(r"(?<![\w'.\-])" + re.escape(n) + r"(?![\w'\-])", one):
                    cited.append(n)
                    todo.append(t)
        moved = [re.sub(r"^((?:--.*\n)*)(?:(abbrev|unfoldable) )?(?:pub )?", lambda m: m[1] + (m[2] + " " if m[2] else "") + "pub ", t) for n, t in named if n in cited]
        helpers = [t for n, t in named if n not in cited]
        inv_text = invariants(module, uses, invs, moved, crate)
        if cited:
            uses.append(f"use {module}.Invariants.{{{', '.join(n for n, _ in named if n in cited)}}}")
    ans_text = None
    if answers:
        ans_text = "\n".join(uses + [f"use {module}.Goals as goal"]) + "\n\n" + "\n\n".join(helpers + placed + answers) + "\n"
    return ans_text, inv_text


def params_of(crate, name):
    """The parameters of a function of the crate, in order."""
    for folder, _, files in os.walk(f"crates/{crate}/src"):
        for f in files:
            it = re.search(r"(?s)\bfn " + name + r"\s*\((.*?)\)\s*(?:->|requires|ensures|\{)", open(f"{folder}/{f}", encoding="utf-8").read())
            if it:
                return re.findall(r"(?:^|[(,])\s*(?:mut )?(\w+)\s*:", it[1])
    raise Left("no function " + name)


def invariants(module, uses, invs, helpers, crate):
    out = []
    for com, name, word, eqs in invs:
        if word is None:
            note = "\n".join(c for c in com if c.strip())
            params = params_of(crate, name)
            it = eqs.split("=", 1)[1].strip()
            binder = eqs.split("=", 1)[0].split()[-1]
            it = re.sub(r"(?<![\w'.\-])" + re.escape(binder) + r"((?:\.1)*)(\.0)?(?=\.now|(?![\w.]))", lambda m: "l." + params[m[1].count("1")], it)
            out.append((note + "\n" if note else "") + f"abbrev pub decreases-{name} : goal.decreases-{name}\ndecreases-{name} l = {it}")
            continue
        fn, word = word
        loops, changed = fn.of["loops"], fn.of["changed"]
        kind, at = re.match(r"^(invariant|decreases)-(.*)$", word).groups()
        k = next((i for i, it in enumerate(loops) if plain(it[0][0]) == plain(at)), None)
        if k is None:
            raise Left("no loop " + word)
        (old, new), names = loops[k][0], loops[k][1]
        new = fn.of["stem"] + new
        binders, body = equation(name, eqs)
        plainly = body
        flags = changed[k]
        want = [("l.initial." if f else "l.") + n for n, f in zip(names, flags)] + ["l." + n for n, f in zip(names, flags) if f]
        to = {}
        if len(binders) == len(want):
            to = dict(zip(binders, want))
        else:
            for b in binders:
                n = b.replace("₀", "")
                if n in names:
                    to[b] = ("l.initial." if b.endswith("₀") else "l.") + n
                elif re.search(r"(?<![\w'.\-])" + re.escape(b) + r"(?![\w'\-])", body):
                    raise Left(f"binder {b} of {name}: {names}")
        # what a λ inside binds is its own
        for m in reversed(list(re.finditer(r"λ\s*(?:\(([^\s():]+) :|((?:[^\s().:]+ )*[^\s().:]+)\.)", body))):
            bound = [m[1]] if m[1] else m[2].split()
            depth, e = 0, m.start()
            while e < len(body) and depth >= 0:
                depth += {"(": 1, ")": -1}.get(body[e], 0)
                e += 1
            part = body[m.start() : e]
            for b in bound:
                part = re.sub(r"(?<![\w'.\-₀\x00])" + re.escape(b) + r"(?![\w'\-₀])", "\x00" + b, part)
            body = body[: m.start()] + part + body[e:]
        body = re.sub(r"(?<![\w'.\-₀\x00])(" + "|".join(re.escape(b) for b in sorted(to, key=len, reverse=True)) + r")(?![\w'\-₀])", lambda m: to[m[1]], body).replace("\x00", "")
        if re.search(r"(?<![\w'.\-₀])l(?![\w'\-₀])", plainly):
            body = re.sub(r"(?<![\w'.\-])l\.(?=(?:initial\.)?(?:" + "|".join(map(re.escape, names)) + r")(?![\w'\-]))", "v.", body)
            binder = "v"
        else:
            binder = "l"
        note = "\n".join(c for c in com if c.strip())
        out.append((note + "\n" if note else "") + f"abbrev pub {kind}-{new} : goal.{kind}-{new}\n{kind}-{new} {binder} = {body}")
    return "\n".join(uses + [f"use {module}.Given as goal"]) + "\n\n" + "\n\n".join([*helpers, *out]) + "\n"


def main(argv):
    names, folder, only = argv[0], argv[1].rstrip("/"), set(argv[2:])
    crate = os.path.basename(folder)
    table = json.load(open(names, encoding="utf-8"))
    done = left = 0
    entries = {}
    for key, of in table.items():
        if ".Lts" not in key:
            continue
        path, _, name = key.split("-proofs.", 1)[1].rpartition(".Lts")
        path = path.replace(".", "/")
        if name:
            entries.setdefault(path, {})[name[1:]] = of
        else:
            entries[path] = of
    for path, of in entries.items():
        if only and path not in only:
            continue
        where = f"{folder}/proofs/{path}"
        if not os.path.exists(f"{where}/Proof.antt"):
            continue
        text = open(f"{where}/Proof.antt", encoding="utf-8").read()
        if "tie.close" not in text and "/+" not in "/" + path:
            continue
        try:
            ans, inv = convert(text, path, crate, of)
        except Left as e:
            print(f"left: {path}: {e}")
            left += 1
            continue
        os.remove(f"{where}/Proof.antt")
        for f, t in (("Answers.antt", ans), ("Invariants.antt", inv)):
            if t:
                open(f"{where}/{f}", "w", encoding="utf-8").write(t)
        if not os.listdir(where):
            os.rmdir(where)
        done += 1
    print(f"{crate}: turned {done}, left {left}")


if __name__ == "__main__":
    main(sys.argv[1:])
