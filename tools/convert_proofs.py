#!/usr/bin/env python3
"""Turns an old Proof.antt that walked the code by hand into Invariants.antt and Answers.antt.

usage: rt names /tmp/names                                  at the top of the repository: lists the old and new names of each goal
       python3 tools/convert_proofs.py /tmp/names [CRATE [FUNCTION..]]

For each function it reads proofs/F/Proof.antt and the names; it writes the two files, and takes Proof.antt away. A goal
that was left to `search rules` gets no answer. What it can't turn it marks by TODO in a comment, and says so.
"""

import json
import os
import re
import sys

IDENT = r"[A-Za-z_μ+∩∪∖⊆][\w'₀-₉\-∩∪∖⊆]*"
PATH = re.compile(r"(?<![\w'.\-₀-₉])(" + IDENT + r")((?:\.[\w'₀-₉\-]+)*)")


def norm(s):
    return s.replace("_", "-")


def stem(s):
    """A step's name, however it was respelled."""
    return re.sub(r"-(law|fact|lem)$", "", norm(s)).lower()


def split_items(text):
    """Items at column 0, each with the lines below it that are indented."""
    items, cur = [], []
    for line in text.split("\n"):
        if line and not line[0].isspace() and line[0] not in ")]}":
            if cur:
                items.append(cur)
            cur = [line]
        elif cur:
            cur.append(line)
    if cur:
        items.append(cur)
    return ["\n".join(i).rstrip() for i in items]


class Info:
    def __init__(self, j):
        self.j = j
        self.places = j["places"]
        self.index = {norm(p[0]): i for i, p in enumerate(self.places)}
        self.needs = {norm(a): (b, i) for i, (a, b) in enumerate(j["needs"])}
        self.news = {norm(b): (b, i) for i, (a, b) in enumerate(j["needs"])}

    def parent(self, i):
        p = self.places[i][1]
        return None if p is None else self.index[norm(p)]

    def need(self, stem, name):
        for s in (norm(name), norm(stem)):
            for t in self.spellings(s):
                if t in self.needs:
                    return self.needs[t]
        return None

    @staticmethod
    def spellings(s):
        yield s
        yield re.sub(r"^overflow-", "", s)
        yield re.sub(r"^slice-bounds-", "part-", s)
        yield re.sub(r"^(loop\d*)-holds", r"\1-init", s)
        yield re.sub(r"^(loop\d*)-less", r"\1-smaller", s)
        yield re.sub(r"^(loop\d*)-again", r"\1-preserved", s)
        yield re.sub(r"^nonzero-", "", s)
        yield re.sub(r"^offset-bounds-", "mul-", s)


def clause_path(fields, rest):
    """rest: the projections behind .requires or .ensures, as a list; fields: names of the clauses."""
    if not fields:
        return rest
    n = len(fields)
    k = 0
    while k < n - 1 and k < len(rest) and rest[k] == "1":
        k += 1
    if k == n - 1:
        return [fields[k]] + rest[k:]
    if k < len(rest) and rest[k] == "0":
        return [fields[k]] + rest[k + 1:]
    if k == len(rest):
        return fields[k:]
    return None


def product(base, fields):
    """The clauses of base as a product."""
    return "(" + ", ".join(f"{base}.{f}" for f in fields) + ")"


class Converter:
    def __init__(self, info, crate, fn, member=None):
        self.i, self.crate, self.fn, self.todo = info, crate, fn, []
        self.goal, self.cycle = 0, fn.startswith("+")

    def path(self, place, rest, c="c"):
        """The new path of `place.rest`; None where the whole place is meant."""
        older = {"pre": "requires", "inv": "invariant", "fits": "ranges", "left": "false", "taken": "true", "came": "branch", "type-inv": "type_inv"}
        rest = [older.get(r, r) for r in rest]
        first = place
        while rest and rest[0] == "before":
            up = self.i.parent(place)
            if up is None:
                break
            place, rest = up, rest[1:]
        if not rest:
            return place, None
        f = rest[0]
        if f in ("args", "requires", "ranges", "well-formed", "well_formed", "lifetimes") and f != self.i.places[place][2][0]:
            place = 0
        if place == 0 or self.i.places[place][1] is None:
            if f == "requires":
                pre = self.i.j.get("pre")
                tail = rest[1:]
                if self.cycle:
                    if tail[:1] == ["0"]:
                        return place, "(omega arith)"
                    tail = tail[1:]
                if pre and pre.get("fields"):
                    t = clause_path(pre["fields"], tail)
                    if t is None:
                        self.todo.append("requires " + ".".join(rest))
                    elif len(t) > 1 and t[1] in pre["fields"]:
                        return place, product(f"{c}.requires", t)
                    else:
                        tail = t
                return place, ".".join([c, "requires"] + tail)
            if norm(f) == "well-formed":
                return place, ".".join([c, "ranges"] + rest[1:])
            return place, ".".join([c] + rest)
        p = self.i.places[place]
        old, new = p[2]
        if stem(f) != stem(old):
            # a step further up that stands in the record too, else one between the goal and here
            for begin in (place, first, self.goal):
                q = begin
                while q is not None and stem(self.i.places[q][2][0]) != stem(f):
                    q = self.i.parent(q)
                if q is not None:
                    return self.path(q, rest, c)
            self.todo.append(f"step {f} at {p[0]}")
            return place, ".".join([c] + rest)
        rest = rest[1:]
        if rest and rest[0] == "given":
            for var, step in self.i.j["typed"][place]:
                if norm(step) == norm(old):
                    return place, ".".join([c, "type_inv", var] + rest[1:])
            self.todo.append(f"given {old}")
        pairs = dict(map(tuple, p[4])) if p[4] else {}
        if rest and rest[0] in pairs:
            rest[0] = pairs[rest[0]]
        elif rest and norm(rest[0]) in {norm(k) for k in pairs}:
            rest[0] = {norm(k): v for k, v in pairs.items()}[norm(rest[0])]
        callee = p[3]
        if rest and rest[0] == "ensures":
            cl = self.i.j["clauses"][place]
            if cl and cl.get("fields"):
                t = clause_path(cl["fields"], rest[1:])
                if t is None:
                    self.todo.append("ensures " + ".".join(rest) + f" of {new}")
                elif len(t) > 1 and t[1] in cl["fields"]:
                    return place, product(f"{c}.{new}.ensures", t)
                else:
                    rest = ["ensures"] + t
        if rest and rest[0] in ("new", "auto") and callee in self.i.j["params"] and len(rest) > 1 and rest[1] in ("0", "1"):
            ps = self.i.j["params"][callee]
            k = 0
            while 1 + k < len(rest) and rest[1 + k] == "1":
                k += 1
            if 1 + k < len(rest) and rest[1 + k] == "0" and k < len(ps):
                rest = [rest[0], ps[k]] + rest[2 + k:]
            else:
                self.todo.append(f"{rest[0]} of {new}: {'.'.join(rest)}")
        return place, ".".join([c, new] + rest)

    def expr(self, text, place, need, c="c"):
        env = {c: (place, [])}
        self.goal = place
        out, pos = [], 0
        # aliases of whole places
        let = re.compile(r"let (" + IDENT + r") = (" + IDENT + r")((?:\.[\w'₀-₉\-]+)*)\s+in\s*")
        while True:
            found = False
            for m in let.finditer(text):
                if m[2] in env:
                    q, prefix = env[m[2]]
                    env[m[1]] = (q, prefix + m[3].split(".")[1:])
                    text = text[:m.start()] + text[m.end():]
                    found = True
                    break
            if not found:
                break

        def sub(m):
            if m[1] not in env:
                return m[0]
            q, prefix = env[m[1]]
            q, new = self.path(q, prefix + m[2].split(".")[1:], c)
            if new is not None:
                return new
            if m[1] == c and not m[2]:
                if need is None:
                    return c
                return c if False else f"(goal.at.{need} {c}).{self.i.j['places_by_name'][q]}" if q else c
            if need is None:
                if q == place:
                    return c
                self.todo.append(f"place {self.i.j['places_by_name'][q]} in a lemma")
                return f"{c}.{self.i.j['places_by_name'][q]}"
            return f"(goal.at.{need} {c}).{self.i.j['places_by_name'][q]}"

        return PATH.sub(sub, text)


def split_top(text):
    parts, depth, cur = [], 0, ""
    for ch in text:
        if ch in "([{":
            depth += 1
        elif ch in ")]}":
            depth -= 1
        if ch == "," and depth == 0:
            parts.append(cur)
            cur = ""
        else:
            cur += ch
    if cur.strip():
        parts.append(cur)
    return parts


def whole_paren(t):
    t = t.strip()
    if not (t.startswith("(") and t.endswith(")")):
        return False
    depth = 0
    for k, ch in enumerate(t):
        if ch == "(":
            depth += 1
        elif ch == ")":
            depth -= 1
            if depth == 0 and k < len(t) - 1:
                return False
    return True


def tuple_parts(t, n):
    t = t.strip()
    if n == 1:
        return [t]
    if not whole_paren(t):
        return None
    parts = [p.strip() for p in split_top(t[1:-1])]
    if len(parts) == 1:
        return tuple_parts(parts[0], n)
    if len(parts) >= n:
        return parts[:n - 1] + ([", ".join(parts[n - 1:])] if len(parts) == n else ["(" + ", ".join(parts[n - 1:]) + ")"])
    head, last = parts[:-1], parts[-1]
    more = tuple_parts(last, n - len(head))
    return head + more if more else None


def record(body, fields):
    """body gives a product of len(fields) facts: as a record by their names."""
    lets, rest = "", body.strip()
    while True:
        m = re.match(r"let\s", rest)
        if not m:
            break
        depth, k = 0, 0
        toks = list(re.finditer(r"(?<![\w\-'.])(let|in)(?![\w\-'])", rest))
        end = None
        for tk in toks:
            depth += 1 if tk[1] == "let" else -1
            if depth == 0:
                end = tk.end()
                break
        if end is None:
            break
        lets += rest[:end] + "\n    "
        rest = rest[end:].strip()
    parts = tuple_parts(rest, len(fields))
    if parts:
        return lets + "record {\n" + "".join(f"      {f} = {p};\n" for f, p in zip(fields, parts)) + "    }"
    proj = []
    for k, f in enumerate(fields):
        proj.append(f"{f} = r." + ("1." * k + "0" if k < len(fields) - 1 else "1." * (k - 1) + "1"))
    return lets + "let r = " + rest + " in record { " + "; ".join(proj) + " }"


NEED = re.compile(r"(?:tie|[\w\-]+lts|lts)\.Need-(\S+)")


def convert(folder, info, crate, fn, goalfn):
    with open(os.path.join(folder, "Proof.antt"), encoding="utf-8") as f:
        text = f.read()
    conv = Converter(info, crate, fn)
    m = re.search(r"^module _ \(t : ℕ\) where\n((?:  .*\n|\n)+)", text, re.M)
    if m:
        text = text[:m.start()] + re.sub(r"^  ", "", m[1], flags=re.M) + text[m.end():]
    items = split_items(text)
    comments, uses, answers, invariants, helpers, loops = [], [], [], [], [], info.j["loops"]
    head = True
    kind, unf = {}, {}
    pend, pend_comment = [], []
    for it in items:
        if it.startswith("--"):
            (comments if head else pend_comment).append(it)
            continue
        if it.startswith("use "):
            head = False
            if not re.search(r"\.(Statement|Tie|Reads|Kinds|Lts[\w\-]*)( as|\.\{)|borrow\.Fn\.|Statement\.\{|Tie\.\{|\+[\w\-]+\.\{statement\}", it):
                uses.append(it)
            continue
        head = False
        if it.startswith("unfolding"):
            pend.append(it)
            continue
        m = re.match(r"((?:abbrev |pub |unfoldable )*)(" + IDENT + r")\s*:(?!:)\s*(.*)$", it, re.S)
        if m:
            name, ty = m[2], m[3]
            n = NEED.match(ty.strip())
            if n:
                kind[name] = ("need", n[1].rstrip())
            elif re.match(r"tie\.(invariant|decreases)", ty.strip()) or re.match(r"Measures ", ty.strip()):
                kind[name] = ("loop", ty.strip())
            elif "statement M" in ty or name in ("given", "calls"):
                kind[name] = ("drop",)
            else:
                kind[name] = ("helper",)
                helpers.append(("sig", name, it, list(pend_comment)))
            if kind[name][0] == "need" and pend:
                unf[name] = list(pend)
            if kind[name][0] == "helper" and pend:
                helpers.append(("unf", name, "\n".join(pend), []))
            pend, pend_comment = [], []
            continue
        m = re.match(r"(" + IDENT + r")((?:\s+[^=]*?)?)\s*=\s*(.*)$", it, re.S)
        if not m or m[1] not in kind:
            answers.append(("raw", None, "-- TODO\n-- " + it.replace("\n", "\n-- ")))
            conv.todo.append("item " + it.split("\n")[0][:60])
            continue
        name, args, body = m[1], m[2].split(), m[3]
        k = kind[name]
        if k[0] == "drop":
            pend = []
            continue
        if k[0] == "helper":
            helpers.append(("eq", name, it, list(pend)))
            pend = []
            continue
        if k[0] == "loop":
            m2 = re.match(r"(invariant|decreases|μ)-(\S+)$", name)
            which, l = m2[1], m2[2]
            if which == "μ":
                member = l.replace("-", "_")
                ps = info.j["params"].get(f"{crate}::{member}")
                b = body

                def arg(mm):
                    idx = mm[0].split(".")[1:]
                    kk = 0
                    while kk < len(idx) and idx[kk] == "1":
                        kk += 1
                    return "l." + ps[kk] if ps and kk < len(ps) else mm[0]
                b = re.sub(r"(?<![\w.])a(?:\.[01])+", arg, b)
                invariants.append(f"abbrev pub decreases-{member} : goal.decreases-{member}\ndecreases-{member} l = {b}")
                continue
            hit = [x for x in loops if norm(x[0][0]) == norm(l)]
            if not hit:
                conv.todo.append("loop " + name)
                continue
            at = loops.index(hit[0])
            (old, new), vs = hit[0][0], hit[0][1]
            changed = info.j["changed"][at]
            want = len(vs) + sum(changed)
            if len(args) != want:
                conv.todo.append(f"{name}: {len(args)} arguments, {want} expected")
            sub = {}
            for a, v, ch in zip(args, vs, changed):
                sub[a] = f"l.initial.{v}" if ch else f"l.{v}"
            for a, v in zip(args[len(vs):], [v for v, ch in zip(vs, changed) if ch]):
                sub[a] = f"l.{v}"
            nb = PATH.sub(lambda mm: (sub[mm[1]] + mm[2]) if mm[1] in sub else mm[0], body)
            invariants.append(f"abbrev pub {which}-{new} : goal.{which}-{new}\n{which}-{new} l = {nb}")
            continue
        # a need
        hit = info.need(k[1], name)
        if not hit:
            if re.search(r"slice-aggregate|array-read|enum", name):
                continue
            conv.todo.append(f"goal {name} ({k[1]})")
            answers.append(("raw", None, "-- TODO " + name + "\n-- " + it.replace("\n", "\n-- ")))
            continue
        new, at = hit
        if re.sub(r"\s+", " ", body.strip()) == "search rules" and not pend and name not in unf:
            continue
        oldplace = info.j["asked_at"][at][0]
        place = info.index.get(norm(oldplace))
        c = args[0] if args else "c"
        b = conv.expr(body, place, new, c)
        b = re.sub(r"\(goal\.at\.(\S+) (\w+)\)", lambda mm: f"(goal.at.{mm[1]} {mm[2]})", b)
        base = re.match(r"returns|.*?-requires(?=-|$)|", new)[0]
        like = [v for k, v in info.j["asked"].items() if base and re.match(re.escape(base) + r"(-|$)", k)]
        fields = info.j["asked"].get(new) or (like[0] if like else None)
        if fields and len(fields) > 1:
            b = record(b, fields)
        u = "".join(x + "\n" for x in unf.get(name, []) + pend)
        pend = []
        cm = ""
        answers.append(("need", new, f"pub {new} : goal.{new}\n{u}{new} {c} = {b}"))
    # helper lemmas over a place
    htext = []
    hplace = {}
    for h in helpers:
        if h[0] == "sig":
            t = h[2]
            m = re.search(r"\((\w+) : (?:tie|[\w\-]*lts)\.((?:After|At|In|Then|Else|Joined|Start)[\w\-₀-₉]*)[^()]*\)", t)
            if m:
                pl = info.index.get(norm(m[2]))
                if pl is None:
                    conv.todo.append("place " + m[2])
                else:
                    hplace[h[1]] = (m[1], pl)
                    t = t[:m.start()] + f"({m[1]} : goal.{info.j['places_by_name'][pl]})" + t[m.end():]
                    t = t[:m.start()] + conv.expr(t[m.start():], pl, None, m[1]).replace(f"({m[1]} : goal.", f"({m[1]} : goal.", 1)
            htext.append("\n".join(h[3] + ["\n" + t] if h[3] else ["\n" + t]))
        elif h[0] == "unf":
            htext.append(h[2])
        else:
            t = h[2]
            if h[1] in hplace:
                c, pl = hplace[h[1]]
                m = re.match(r"(" + IDENT + r")((?:\s+[^=]*?)?)\s*=\s*(.*)$", t, re.S)
                ar = m[2].split()
                t = f"{m[1]}{m[2]} = " + conv.expr(m[3], pl, None, ar[0] if ar else c)
            htext.append("\n".join(h[3] + [t]))
    gpath = f"Rattle.{crate}.proofs.{goalfn}"
    cm = "\n".join(comments)
    ans = [a[2] for a in answers]
    if invariants:
        with open(os.path.join(folder, "Invariants.antt"), "w", encoding="utf-8") as f:
            f.write(cm + "\n" + "\n".join(uses) + f"\nuse {gpath}.Given as goal\n\n" + "\n\n".join(invariants) + "\n")
    if ans or htext:
        with open(os.path.join(folder, "Answers.antt"), "w", encoding="utf-8") as f:
            f.write(cm + "\n" + "\n".join(uses) + f"\nuse {gpath}.Goals as goal\n" + "\n".join(htext) + "\n\n" + "\n\n".join(ans) + "\n")
    os.remove(os.path.join(folder, "Proof.antt"))
    return conv.todo


WORDS = re.compile(r"\[\]|[^\s(){}\[\],;.]+")


def trim(path):
    """Takes away imports that the file does not use."""
    with open(path, encoding="utf-8") as f:
        lines = f.read().split("\n")
    body = "\n".join(l for l in lines if not l.startswith(("use ", "--")))
    used = set(WORDS.findall(body))
    out = []
    for l in lines:
        m = re.match(r"use (\S+)\.\{(.*)\}$", l)
        if not m:
            out.append(l)
            continue
        keep = []
        for n in m[2].split(", "):
            w = n.split(" as ")[-1].strip()
            if w.startswith("◌") or w.endswith("◌"):
                core = [x for x in w.split("◌") if x]
                if all(x in body for x in core):
                    keep.append(n)
            elif w in used or any(x.split(".")[0] == w for x in re.findall(r"[^\s(){}\[\],;]+", body)):
                keep.append(n)
        if keep:
            out.append(f"use {m[1]}.{{{', '.join(keep)}}}")
    with open(path, "w", encoding="utf-8") as f:
        f.write("\n".join(out))


def main(argv):
    names = argv[0]
    crates = [argv[1]] if len(argv) > 1 else sorted(os.listdir("crates"))
    only = set(argv[2:])
    for crate in crates:
        jf = os.path.join(names, "crates", crate, "names.json")
        if not os.path.exists(jf):
            continue
        with open(jf, encoding="utf-8") as f:
            j = json.load(f)
        top = os.path.join("crates", crate, "proofs")
        for folder, dirs, files in sorted(os.walk(top)):
            if "Proof.antt" not in files:
                continue
            fn = os.path.relpath(folder, top)
            if only and fn not in only:
                continue
            dotted = fn.replace("/", ".")
            key = f"Rattle-{crate}-proofs.{dotted}.Lts"
            if key not in j:
                hits = [k for k in j if k.startswith(key)]
                if len(hits) == 1:
                    key = hits[0]
                else:
                    print(f"{crate}/{fn}: no names ({len(hits)})")
                    continue
            try:
                todo = convert(folder, Info(j[key]), crate, fn, dotted)
            except Exception as e:  # the file stays as it was
                print(f"{crate}/{fn}: {type(e).__name__} {e}")
                continue
            for a in ("Invariants.antt", "Answers.antt"):
                p = os.path.join(folder, a)
                if os.path.exists(p):
                    trim(p)
            if todo:
                print(f"{crate}/{fn}: TODO " + "; ".join(todo))
            if not os.listdir(folder):
                os.rmdir(folder)


if __name__ == "__main__":
    main(sys.argv[1:])
