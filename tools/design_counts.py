#!/usr/bin/env python3
"""Counts, in crates/*/src, the places that docs/DESIGN-PASS.md speaks of.

usage: python3 tools/design_counts.py [-l] [FOLDER]     the checkout in FOLDER, or this one; -l lists each place

1   refusals as numbers: a field `refusal: u8`, a function with `fault`, `unread` or `sheet` in its name that gives a u8
1   flags: a field of type bool in a struct
1   a number for none: 255 in code, and `== 0` on what gives a position
1   an own enum of the shape of Option or Result: by its name, Printed
1   kinds as numbers: a field or parameter `kind`, `kind2`, `operator`, `left` or `right` of type u8; `whose`, `kind_of`
2   twins: functions of the same body but for names, types and numbers, or of one name in several crates
3   loops that count an index by hand: a `while` whose own variable the body moves by 1, or by a fixed number
3   other loops: `while` and `loop` that do not; `for`
4   casts by functions of the repository: wide, place, index, long, byte, flag, of_byte, of_word, of_size
4   casts by `as`
5   functions with more than seven parameters
6   arrays in structs
7   function pointers, dyn, tables of functions
"""
import glob
import os
import re
import sys

LISTED = "-l" in sys.argv
PLACES = [a for a in sys.argv[1:] if a != "-l"]
ROOT = PLACES[0] if PLACES else "."
CAST = r"\b(?:numbers::)?(wide|place|index|long|byte|flag|of_byte|of_word|of_size)\("


def files():
    for p in sorted(glob.glob(os.path.join(ROOT, "crates/*/src/*.rt"))):
        with open(p, encoding="utf-8") as f:
            yield os.path.relpath(p, ROOT), [line for line in f.read().split("\n")]


def code(line):
    return not line.strip().startswith("//") and not line.strip().startswith("ghost use")


def block(lines, i):
    """The lines of the block that line i opens."""
    depth, out = 0, []
    for line in lines[i:]:
        depth += line.count("{") - line.count("}")
        out.append(line)
        if depth == 0:
            break
    return out


def functions(lines):
    """Each function: its name, its line, its head and its body."""
    for i, line in enumerate(lines):
        m = re.match(r"\s*(?:pub )?(?:final )?(?:extern \"C\" )?fn (\w+)", line)
        if not m:
            continue
        j = i
        while j < len(lines) and lines[j].rstrip() not in ("{", "    {") and not lines[j].rstrip().endswith(" {"):
            if lines[j].rstrip().endswith(";"):
                break
            j += 1
        head = " ".join(x.strip() for x in lines[i : j + 1])
        head = re.split(r" (?:requires|ensures) ", head)[0]
        body = block(lines, j) if j < len(lines) else []
        yield m.group(1), i + 1, head, body


def parameters(head):
    m = re.search(r"fn \w+(?:<[^(]*>)?\(", head)
    if not m:
        return []
    depth, parts, cur = 1, [], ""
    for ch in head[m.end() :]:
        if ch in "([{<":
            depth += 1
        elif ch in ")]}>":
            depth -= 1
            if depth == 0:
                break
        if ch == "," and depth == 1:
            parts.append(cur)
            cur = ""
        else:
            cur += ch
    if cur.strip():
        parts.append(cur)
    return [p.strip() for p in parts]


FOUND = {}


def found(point, where):
    FOUND.setdefault(point, []).append(where)


def main():
    shapes, names = {}, {}
    for path, lines in files():
        inside = None
        for i, line in enumerate(lines):
            at = "%s:%d" % (path, i + 1)
            if not code(line):
                continue
            if re.match(r"\s*(pub )?struct \w+.*\{", line):
                inside = "struct"
            elif line.rstrip() == "}":
                inside = None
            if re.match(r"\s+(pub )?refusal: u8,", line):
                found("1 refusals as numbers", at)
            if inside and re.match(r"\s+(pub )?\w+: bool,", line):
                found("1 flags in structs", at + line)
            if re.search(r"\b255\b", line):
                found("1 a number for none", at)
            if re.match(r"\s*(pub )?enum Printed\b", line):
                found("1 own Option or Result", at)
            if inside and re.match(r"\s+(pub )?(kind|kind2|operator): u8,", line):
                found("1 kinds as numbers", at + line)
            m = re.match(r"\s*while (.*) \{", line)
            if m:
                body = block(lines, i)
                own = set(re.findall(r"\b[a-z_]\w*\b", m.group(1)))
                counts = any(re.match(r"\s*(\w+) [+-]= (\d+|w|width);", x) and re.match(r"\s*(\w+)", x).group(1) in own for x in body)
                found("3 loops that count by hand" if counts else "3 other while", at + " while " + m.group(1))
            if re.match(r"\s*('\w+: )?loop \{", line):
                found("3 loop", at)
            if re.match(r"\s*for ", line):
                found("3 for", at)
            if re.search(r"\.(iter|iter_mut|chunks_exact|zip|any|all|position|fill|copy_from_slice|copy_within|starts_with|contains)\(", line):
                found("3 chains and methods of the library", at)
            if re.search(CAST, line) and not re.match(r"\s*(pub )?fn ", line):
                found("4 casts by own functions", at)
            if re.search(r"\bas (u8|u32|u64|usize)\b", line):
                found("4 casts by as", at)
            if re.search(r"\b(u32|u64|usize)::from\(", line):
                found("4 casts by From", at)
            if inside and re.match(r"\s+(pub )?\w+: \[.*; .*\],", line):
                found("6 arrays in structs", at + line)
            if re.search(r": fn\(|\bdyn\b", line):
                found("7 function pointers, dyn", at)
        for name, line, head, body in functions(lines):
            at = "%s:%d %s" % (path, line, name)
            given = re.search(r"-> (.*?)(?: \{| requires| ensures|$)", head)
            if re.search(r"fault|^unread$|^sheet$", name) and given and given.group(1).strip() == "u8":
                found("1 refusals as numbers", at)
            if name in ("whose", "kind_of", "kind_of_book", "kind_of_query") and given and given.group(1).strip() == "u8":
                found("1 kinds as numbers", at)
            ps = parameters(head)
            for p in ps:
                if re.match(r"(kind|kind2|operator): u8", p):
                    found("1 kinds as numbers", at + " " + p)
            if len(ps) > 7:
                found("5 functions of more than seven parameters", at + " (%d)" % len(ps))
            text = " ".join(x.strip() for x in body if not x.strip().startswith("//"))
            shape = re.sub(r"\b\d+\w*\b", "0", re.sub(r"\b[a-z_]\w*\b", "x", text))
            if len(text) > 60:
                shapes.setdefault(shape, []).append(at)
            names.setdefault((name, re.sub(r"\s+", " ", text)), []).append(at)
    for shape, ats in shapes.items():
        if len(ats) > 1:
            found("2 functions of one shape", " ~ ".join(ats))
    for (name, text), ats in names.items():
        if len(ats) > 1 and len(text) > 8 and name != "main":
            found("2 functions of one name and body", " ~ ".join(ats))
    for point in sorted(FOUND):
        print("%-45s %d" % (point, len(FOUND[point])))
        if LISTED:
            for where in FOUND[point]:
                print("    " + where)


main()
