#!/usr/bin/env python3
"""Brings this repository's own definitions and lemmas to today's spelling: words in snake case, types and modules in camel case.

usage: tools/port/respell.py          (at the top of the repository, once, after the kit's port.py)

    negateScalar, to-nan, so-far  ->  negate_scalar, to_nan, so_far

It reads every .antt and .rt file below crates/. A name keeps its spelling where it comes from a library or from what Rattle makes of a function
(the module after `use` tells, or the name before the dot), where it begins with a capital, or beside a part that does, as in All-append. A function of
src/ keeps its name. What would fall together with another name of a file is left and printed. Edits (must-fail/, wrong/) are turned by edits.py.
The map of what was renamed goes to tools/port/respelled.tsv.
"""

import os
import re
import sys
from collections import defaultdict

ROOT = os.getcwd()
W = r"[^\s(){}.;,@\"«»`\[\]\\λ]+"
TOKEN = re.compile(r"--[^\n]*|\"(?:[^\"\\\n]|\\.)*\"|«[^»]*»|λ|" + W + r"|[(){}.;,@`\[\]\\]")
RT_TOKEN = re.compile(r"//[^\n]*|\"(?:[^\"\\\n]|\\.)*\"|'(?:[^'\\\n]|\\.)'|«[^»]*»|λ|" + W + r"|[(){}.;,@`\[\]\\]")
GENERATED = {"Statement", "Tie", "Lts", "Reads", "Goals", "Given", "TheLaws", "Code", "Met", "Mir", "Symbol", "Asks", "Needs"}
NAME = re.compile(r"^[^\W\d_A-Z][\w'′₀-₉-]*$")


def snake(name):
    """The name in snake case; None where it is no word of ours to turn."""
    if not NAME.match(name) or name[0].isupper():
        return None
    parts = name.split("-")
    out = parts[0]
    for before, part in zip(parts, parts[1:]):
        joint = "-" if (part[:1].isupper() or before[:1].isupper() or not part or not before) else "_"
        out += joint + part
    words = []
    for part in out.split("-"):
        if not part[:1].isupper():
            part = re.sub(r"(?<=[a-z0-9])([A-Z])(?=[a-z0-9]|$|_)", lambda m: "_" + m[1].lower(), part)
        words.append(part)
    out = "-".join(words)
    return out if out != name else None


def files():
    for folder, dirs, names in os.walk(os.path.join(ROOT, "crates")):
        dirs[:] = sorted(d for d in dirs if d not in ("out", "must-fail", "wrong", "data"))
        for n in sorted(names):
            if n.endswith((".antt", ".rt")):
                yield os.path.join(folder, n)


def own(module):
    """Whether a module path is one of our own files, and not a library's or made of a function."""
    parts = module.split(".")
    if parts[0] != "Rattle" or len(parts) < 4 or parts[1] not in CRATES:
        return False
    if "declared" in parts or "contracts" in parts:
        return False
    return not (set(parts[3:]) & GENERATED)


USE = re.compile(r"(?ms)^[ \t]*(?:pub )?(?:ghost )?use ([^\s;{]+?)(?:\.\{(.*?)\}|\s+as\s+(\S+?))?;?[ \t]*$")


def read(path):
    with open(path, encoding="utf-8") as f:
        return f.read()


CLAUSE = re.compile(r"\b(?:requires|ensures|invariant|ghost)\b[^{};]*\{")


def bare(text, tokens, is_rt):
    """The words that stand alone in a file, and not behind or before a dot; of a .rt file in its clauses and as parameters."""
    parts = [text]
    if is_rt:
        parts = []
        for m in CLAUSE.finditer(text):
            depth = 0
            for end in range(m.end() - 1, len(text)):
                depth += (text[end] == "{") - (text[end] == "}")
                if depth == 0:
                    break
            parts.append(text[m.end() : end])
        parts += re.findall(r"[(,]\s*(?:mut )?(\w+): ", text)
    found = set()
    for part in parts:
        for m in tokens.finditer(part):
            before, after = part[m.start() - 1 : m.start()], part[m.end() : m.end() + 1]
            if before != "." and not (after == "." and part[m.end() + 1 : m.end() + 2].strip()):
                found.add(m[0])
    return found


def main():
    global CRATES
    CRATES = set(os.listdir(os.path.join(ROOT, "crates")))
    texts = {p: read(p) for p in files()}
    # functions of src/, whose names stay
    functions = set()
    for p, t in texts.items():
        if p.endswith(".rt"):
            functions |= set(re.findall(r"\bfn (\w+)", t))
    # names that our files define at all: signatures, and fields of records
    fields = set()
    defined = defaultdict(set)
    for p, t in texts.items():
        if not p.endswith(".antt"):
            continue
        for m in re.finditer(r"(?m)^[ \t]*(?:(?:abbrev|unfoldable|pub|ruleset|syntax) )*([^\s(){}.;,:]+(?: [^\s(){}.;,:]+)*) :(?: |$)", t):
            for n in m[1].split():
                defined[p].add(n)
        for m in re.finditer(r"(?ms)^[ \t]*(?:pub )?record .*?(?=^\S|\Z)", t):
            for f in re.findall(r"(?m)^[ \t]+(?:pub )?([^\s(){}.;,:]+) :", m[0]):
                fields.add(f)
    renamed, kept = defaultdict(int), []
    out = {}
    for p, t in texts.items():
        keep, modules = set(), set()
        for m in USE.finditer(t):
            module, names, alias = m[1], m[2], m[3]
            if names is not None and not own(module):
                for item in re.split(r"[,\s]+", names):
                    keep.add(item)
            if alias and not own(module):
                modules.add(alias)
            if names is None and alias is None and not own(module):
                modules.add(module.split(".")[-1])
        mine = {n for n in defined.get(p, ())}
        is_rt = p.endswith(".rt")
        tokens = (RT_TOKEN if is_rt else TOKEN)
        present = bare(t, tokens, is_rt)
        result, last, prev, prev2 = [], 0, "", ""
        use_kind = None
        in_use = [(m.start(), m.end(), own(m[1])) for m in USE.finditer(t)]

        def use_at(i):
            for a, b, o in in_use:
                if a <= i < b:
                    return o
            return None

        for m in tokens.finditer(t):
            tok = m[0]
            result.append(t[last:m.start()])
            last = m.end()
            new = tok
            if tok[:2] in ("--", "//") or tok[:1] == '"':
                pass
            else:
                s = snake(tok)
                glued = m.start() > 0 and t[m.start() - 1] == "."
                u = use_at(m.start())
                ok = s is not None
                if ok and is_rt and tok not in ALL:
                    ok = False
                if ok and u is False:
                    ok = False
                if ok and u is None and tok in keep and tok not in mine:
                    ok = False
                if ok and glued and u is None:
                    # a field or a name of a module
                    owner = prev2
                    if owner in modules or tok in GENERATED:
                        ok = False
                    elif tok in fields or owner in OWN_ALIASES.get(p, ()):
                        ok = True
                    else:
                        ok = False
                if ok and tok in functions and tok not in ALL:
                    ok = False
                if ok and s in present and s != tok:
                    kept.append(f"{os.path.relpath(p, ROOT)}: {tok} -> {s}")
                    COLLIDE[p].add((tok, s))
                if ok:
                    new = s
                    renamed[(tok, s)] += 1
                    if FROM[p].setdefault(s, tok) != tok:
                        kept.append(f"{os.path.relpath(p, ROOT)}: {tok} and {FROM[p][s]} -> {s}")
            result.append(new)
            if tok.strip():
                prev2, prev = prev, tok
        result.append(t[last:])
        out[p] = "".join(result)
    for line in sorted(set(kept)):
        print("together:", line)
    for p, t in out.items():
        if t != texts[p]:
            with open(p, "w", encoding="utf-8") as f:
                f.write(t)
    with open(os.path.join(ROOT, "tools/port/respelled.tsv"), "w") as f:
        for (a, b), n in sorted(renamed.items()):
            f.write(f"{a}\t{b}\n")
    print(f"respell: {len(renamed)} names, {sum(renamed.values())} places")


# A lemma that would fall together with the definition that it is about gets `_lem`.
LEMMAS = {
    "back_to": ["chunk/proofs", "stack_check/proofs"],
    "go_on": ["definition/proofs/Laws.antt", "definition/proofs/KeptValues.antt"],
    "same_kind": ["definition/proofs/Equality.antt", "vm_ops/proofs/NumbersByWords.antt"],
    "first_byte": ["definition/proofs/Judged.antt"],
    "with_byte": ["definition/proofs/Judged.antt"],
    "text_at": ["definition/proofs/Keeps.antt"],
    "after-test": ["definition/proofs"],
    "in-range": ["number_words/proofs/Places.antt"],
    "low-bytes": ["value_coding/proofs"],
    "room-for": ["vm_cells/proofs"],
    "left_by": ["vm_logic/proofs/PauseLaws.antt"],
    "no-chunk": ["vm_step/proofs"],
    "number-from": ["definition/proofs/Judged.antt"],
    "kept-locals": ["definition/proofs/LowerSlots.antt"],
    "kept-starts": ["definition/proofs/LowerSlots.antt"],
    "exact-test": ["definition/proofs"],
    "as-kind": ["definition/proofs"],
    "no-heights": ["definition/proofs"],
    "fault-in": ["stack_check/proofs"],
    "fault-of": ["stack_check/proofs"],
    "kind-is": ["value_equality/proofs"],
    "nest-over": ["values/proofs"],
    "wrong-kind": ["vm_cells/proofs", "vm_ops/proofs"],
    "good-by": ["vm_logic/proofs"],
    "pause-out": ["vm_logic/proofs"],
    "in-kind": ["vm_ops/proofs"],
    "class-tables": ["vm_step/proofs"],
    "two-numbers": ["vm_step/proofs"],
    "narrow-kind": ["vm_ops/proofs"],
}


def lemmas_apart():
    for p in files():
        if not p.endswith(".antt"):
            continue
        t = new = read(p)
        for name, places in LEMMAS.items():
            if any(os.path.relpath(p, os.path.join(ROOT, "crates")).startswith(place) for place in places):
                new = re.sub(r"(?<![^\s(){};,@«»`\[\]\\])" + re.escape(name) + r"(?![^\s(){};,@«»`\[\]\\])", name.replace("-", "_") + "_lem", new)
        if new != t:
            with open(p, "w", encoding="utf-8") as f:
                f.write(new)


ALL = set()
COLLIDE = defaultdict(set)
FROM = defaultdict(dict)
OWN_ALIASES = {}


def prepare():
    """Every name that a file of ours defines, and the modules of ours under an alias, by file."""
    global CRATES
    CRATES = set(os.listdir(os.path.join(ROOT, "crates")))
    for p in files():
        t = read(p)
        if p.endswith(".antt"):
            for m in re.finditer(r"(?m)^[ \t]*(?:(?:abbrev|unfoldable|pub|ruleset|syntax) )*([^\s(){}.;,:]+(?: [^\s(){}.;,:]+)*) :(?: |$)", t):
                ALL.update(m[1].split())
        OWN_ALIASES[p] = {m[3] for m in USE.finditer(t) if m[3] and own(m[1])} | {m[1].split(".")[-1] for m in USE.finditer(t) if m[2] is None and not m[3] and own(m[1])}


if __name__ == "__main__":
    if len(sys.argv) > 1:
        print(__doc__)
        raise SystemExit(2)
    lemmas_apart()
    prepare()
    main()
