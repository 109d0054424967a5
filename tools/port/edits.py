#!/usr/bin/env python3
"""Brings the edits (must-fail/, wrong/) to the text of today's files, or says which do not fit.

usage: tools/port/edits.py OLD      (at the top of the repository; OLD is a checkout of the commit that the edits' text fits)
       tools/port/edits.py --fits   (only says which edits do not fit the files as they are)

For each pair of lines `old:` and `new:` it finds the line of OLD in which `old:` stands, the line of today's file that came of it (src/ and specs/ line
up almost line by line), and turns the words: names by tools/port/respelled.tsv and by what the two files show, fields `x .f` to `x.f`. An edit that
fits already, in the place that is meant, stays as it is but for words that are gone. What it cannot turn it prints; those were mended by hand.
"""

import difflib
import os
import re
import sys
from collections import Counter, defaultdict
from glob import glob

TOKEN = re.compile(r"[^\s(){};,\[\]\"&]+|[(){};,\[\]\"&]|\s+")
# What no pair of lines shows: an operator in an import.
WORDS = {"getElem?": "get_elem?", "the-variants": "TheVariants"}


def read(path):
    with open(path, encoding="utf-8") as f:
        return f.read()


def pairs(text):
    """The changes of an edit: file, function, and the numbers of its lines old, new and control."""
    found, file, within, old = [], None, None, None
    for n, line in enumerate(text.split("\n")):
        if line.startswith("proof: "):
            break
        if line.startswith("file: "):
            file, within = line[6:], None
        elif line.startswith("in: "):
            within = line[4:]
        elif line.startswith("old: "):
            old = n
        elif line.startswith("new:"):
            found.append({"file": file, "in": within, "old": old, "new": n, "control": None})
        elif line.startswith("control:"):
            found[-1]["control"] = n
    return found


def said(line):
    """What stands behind `old:`, `new:` or `control:`."""
    text = line.split(":", 1)[1]
    return text[1:] if text.startswith(" ") else text


def function(text, name):
    """Where a function begins and ends, as tests/wrong reads it."""
    m = re.search(r"(?m)^( *)(?:pub )?(?:extern \"C\" )?fn " + re.escape(name) + r"\b.*?^\1\}\n", text, re.S)
    return (m.start(), m.end()) if m else None


def places(text, within, old):
    """Where a text stands in a file, or in one function of it."""
    a, b = (function(text, within) or (0, 0)) if within else (0, len(text))
    return [a + m.start() for m in re.finditer(re.escape(old), text[a:b])]


def line_at(text, at):
    return text.count("\n", 0, at)


def words(line):
    return [t for t in TOKEN.findall(line) if not t.isspace()]


def turned(text, names):
    """The words of a text in today's spelling: names, and fields written tight."""
    def word(t):
        if t in names:
            return names[t]
        if "." in t and t not in (".", ".."):
            return ".".join(names.get(p, p) for p in t.split("."))
        return t

    text = "".join(t if t.isspace() else word(t) for t in TOKEN.findall(text))
    # (a .x) -> a.x; (f a b .x) -> (f a b).x; a .x elsewhere -> a.x
    atom = r"(?:[\w']+(?:\.[\w']+)*|\((?:[^()]|\([^()]*\))*\)(?:\.[\w']+)*)"
    before = None
    while before != text:
        before = text
        text = re.sub(r"\((" + atom + r") \.(\w+)\)", r"\1.\2", text)
        text = re.sub(r"\(([\w'.]+(?: " + atom + r")+) \.(\w+)", r"((\1).\2", text)
        text = re.sub(r"([;∷+] )([\w'.]+(?: " + atom + r")+) \.(\w+)", r"\1(\2).\3", text)
        text = re.sub(r"(?<![\w'.)] )(?<![\w'.])([\w']+(?:\.[\w']+)*) \.(\w+)", r"\1.\2", text)
    return text


def came_of(old, new, names):
    """For each line of the older file the line of today's that came of it."""
    a = [turned(line, names) for line in old]
    at = {}
    for tag, i1, i2, j1, j2 in difflib.SequenceMatcher(None, a, new, autojunk=False).get_opcodes():
        if tag == "equal":
            at.update(zip(range(i1, i2), range(j1, j2)))
            continue
        for i in range(i1, i2):
            near = [(difflib.SequenceMatcher(None, a[i], new[j]).ratio(), -j) for j in range(j1, j2)]
            if near and max(near)[0] > 0.5:
                at[i] = -max(near)[1]
    return at


def map_of_names(top, old_top):
    """The names as they were and as they are: from the list of respelled ones, and where lines of as many words stand beside each other."""
    names = dict(WORDS)
    own = dict(l.split("\t") for l in read(os.path.join(top, "tools/port/respelled.tsv")).splitlines())
    seen = defaultdict(Counter)
    for path in glob(os.path.join(old_top, "crates/*/specs/*.antt")):
        there = os.path.join(top, os.path.relpath(path, old_top))
        if not os.path.exists(there):
            continue
        a, b = read(path).split("\n"), read(there).split("\n")
        for tag, i1, i2, j1, j2 in difflib.SequenceMatcher(None, a, b, autojunk=False).get_opcodes():
            if tag != "replace" or i2 - i1 != j2 - j1:
                continue
            for x, y in zip(a[i1:i2], b[j1:j2]):
                x, y = words(turned(x, own)), words(y)
                if len(x) == len(y) and not x[:1] == ["use"]:
                    for p, q in zip(x, y):
                        if "." not in p:
                            seen[p][q] += 1
            # a word of an unchanged line is as it was
        for line in b:
            for w in words(line):
                seen[w][w] += 1
    for p, count in seen.items():
        q, n = count.most_common(1)[0]
        if n * 2 > sum(count.values()) and p != q:
            names[p] = q
    names.update(own)
    return names


USE = re.compile(r"use ([^\s{]+)\.\{([^}]*)")


def brought_in(old, new, now, names):
    """The two texts of an edit that brings names into an import: today's import of that module, with the names before its first."""
    a, b = USE.match(old), USE.match(new)
    own = a[1].startswith("Rattle·")
    module = "Rattle." + re.sub(r"^Rattle·(\w+)(?:·specs)?\.specs\.", r"\1.specs.", a[1]).removesuffix(".") if own else "Rattle.std.specs.Prelude"
    there = {w.strip() for w in a[2].split(",")}
    more = [w.strip() for w in b[2].split(",") if w.strip() and w.strip() not in there]
    more = [names.get(w, w.replace("_", "◌") if not w[0].isalpha() else w) for w in more]
    line = re.search(re.escape("use " + module + ".{") + r"[^,}]+", now)
    if not line:
        return None
    head, first = line[0].split("{")
    return line[0], head + "{" + ", ".join(more) + ", " + first


def main():
    top = os.getcwd()
    fits_only = sys.argv[1:] == ["--fits"]
    if len(sys.argv) != 2:
        print(__doc__)
        return 2
    old_top = None if fits_only else os.path.abspath(sys.argv[1])
    names = {} if fits_only else map_of_names(top, old_top)
    lined, bad, changed, count = {}, 0, 0, 0
    for path in sorted(glob("crates/*/must-fail/*.edit") + glob("crates/*/wrong/*.edit")):
        count += 1
        folder = os.path.dirname(os.path.dirname(path))
        text = read(path)
        head, mark, proof = text.partition("\nproof: ")
        lines = head.split("\n")
        why = []
        earlier = {}
        for p in pairs(head):
            file = os.path.join(folder, p["file"])
            now = read(file)
            old = said(lines[p["old"]])
            if not fits_only:
                was = read(os.path.join(old_top, file))
                spot = places(was, p["in"], old)
                if len(spot) != 1:
                    # it was turned before
                    spot = []
                if spot and old.startswith("use "):
                    both = brought_in(old, said(lines[p["new"]]), now, names)
                    if both:
                        lines[p["old"]], lines[p["new"]] = "old: " + both[0], "new: " + both[1]
                    else:
                        why.append(f"`{old}` brings in what no import of today's file does")
                elif spot:
                    if file not in lined:
                        lined[file] = came_of(was.split("\n"), now.split("\n"), names)
                    line = lined[file].get(line_at(was, spot[0]))
                    if p["file"].endswith(".antt"):
                        turn = lambda rest: turned(rest, names)
                    else:
                        # only a parameter of the function may have another name
                        x = words(was.split("\n")[line_at(was, spot[0])])
                        y = words(now.split("\n")[line]) if line is not None else []
                        local = {q: r for q, r in zip(x, y) if q != r} if len(x) == len(y) else {}
                        turn = lambda rest: "".join(local.get(w, w) for w in TOKEN.findall(rest))
                    here = [line_at(now, at) for at in places(now, p["in"], turn(old))]
                    if here == [line]:
                        for what in ("old", "new", "control"):
                            if p[what] is not None:
                                key, rest = lines[p[what]].split(":", 1)
                                lines[p[what]] = key + ":" + turn(rest)
                    else:
                        stands = now.split("\n")[line] if line is not None else "?"
                        why.append(f"`{old}` is not turned; today's line: {stands}")
                old = said(lines[p["old"]])
            for at, o, n in earlier.get(file, ()):
                now = now[:at] + n + now[at + len(o):]
            spots = places(now, p["in"], old)
            n = len(spots)
            if n != 1 and not why:
                why.append(f"`{old}` stands {n} times in {p['file']}")
            if "/must-fail/" in path and n == 1 and now.count(old) != 1:
                why.append(f"`{old}` stands {now.count(old)} times in {p['file']}, and rt wants it once")
            new = said(lines[p["new"]])
            if new == old or (p["control"] is not None and said(lines[p["control"]]) in (old, new)):
                why.append("its texts do not differ")
            if n == 1:
                earlier.setdefault(file, []).append((spots[0], old, new))
        turned_text = "\n".join(lines) + mark + proof
        if turned_text != text:
            changed += 1
            with open(path, "w", encoding="utf-8") as f:
                f.write(turned_text)
        for w in why:
            print(f"{path}: {w}")
        bad += bool(why)
    print(f"edits: {count}, turned {changed}, {bad} do not fit")
    return 1 if bad else 0


if __name__ == "__main__":
    sys.exit(main())
