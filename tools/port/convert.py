#!/usr/bin/env python3
"""Turns the walks of an older Rattle (proofs/F/Proof.antt over `tie`) into today's Invariants.antt and Answers.antt.

usage: tools/port/convert.py NAMES.json CRATE [FUNCTION ..]

NAMES.json is what `rt check --generated DIR --old-names` writes in the crate's folder; CRATE is that folder. An answer that is only a tactic
(`search rules`, `omega arith`, `tt`) is left out, as today's Rattle tries these by itself. With --all it is kept.
A file that is not of the common form is left and named.
"""

import json
import os
import re
import sys

KEEP_ALL = "--all" in sys.argv
ARGV = [a for a in sys.argv[1:] if a != "--all"]
W = r"[^\s(){}.;,@\"«»`\[\]\\λ]+"
TRIVIAL = {"search rules", "omega arith", "tt", "refl", "(search rules)", "(omega arith)", "absurd (omega arith)"}
# a parameter that port.py gave another name, since `result` is a clause's word
RENAMED = {"result": "res"}
FIELDS = {"pre": "requires", "well-formed": "well_formed", "type-inv": "type_inv", "yielded-by": "yielded_by", "loan-name": "loan_name"}


def dashed(name):
    """A step's name, however it was spelled on the way."""
    return re.sub(r"-lem$", "", name.replace("_", "-").lower())


def pieces(text):
    """The parts of the tuple that `text` is, if it is one."""
    s = text.strip()
    if not (s.startswith("(") and s.endswith(")")):
        return None
    depth, cuts = 0, []
    for k, ch in enumerate(s):
        if ch in "({[":
            depth += 1
        elif ch in ")}]":
            depth -= 1
            if depth == 0 and k != len(s) - 1:
                return None
        elif ch == "," and depth == 1:
            cuts.append(k)
    if not cuts:
        return None
    edges = [0] + cuts + [len(s) - 1]
    parts = [s[a + 1 : b].strip() for a, b in zip(edges, edges[1:])]
    return [q for q in parts if q]


def last_term(body):
    """Where the term after the last `in` of the lets begins, at no depth."""
    at, depth = 0, 0
    for m in re.finditer(r"[(){}\[\]]|(?<![^\s()])in(?=[\s(])", body):
        if m[0] in "({[":
            depth += 1
        elif m[0] in ")}]":
            depth -= 1
        elif depth == 0:
            at = m.end()
    return at


def record_of(body, labels):
    """The answer as a record by the names of its clauses."""
    at = last_term(body)
    front, term = body[:at], body[at:].strip()
    parts, rest = [], term
    for k in range(len(labels) - 1):
        got = pieces(rest)
        if got is None or len(got) < 2:
            parts = None
            break
        if len(got) > 2 and len(got) == len(labels) - k:
            parts += got[:-1]
            rest = got[-1]
            break
        if len(got) != 2:
            parts = None
            break
        parts.append(got[0])
        rest = got[1]
    lead = (front.rstrip() + " ") if front.strip() else ""
    if parts is not None and len(parts) == len(labels) - 1:
        parts.append(rest)
        lines = "".join(f"      {l} = {q};\n" for l, q in zip(labels, parts))
        return lead + "record {\n" + lines + "    }"
    paths, prefix = [], ""
    for k in range(len(labels)):
        paths.append("all" + prefix + (".0" if k < len(labels) - 1 else ""))
        prefix += ".1"
    inner = "; ".join(f"{l} = {q}" for l, q in zip(labels, paths))
    return lead + f"let all = {term} in record {{ {inner} }}"


def names_of(data, crate):
    """By function path: what Rattle says of its places and goals."""
    out = {}
    for key, value in data.items():
        m = re.match(r"Rattle-(\w+)-proofs\.(.*)\.Lts(.*)$", key)
        if m and m[1] == crate:
            out[m[2] + m[3]] = value
    return out


def items_of(text):
    """The imports, and the declarations in order: [comment lines, name, signature, clauses text]."""
    lines = text.split("\n")
    header, imports, items = [], [], []
    i, comment = 0, []
    while i < len(lines) and (lines[i].startswith("--") or not lines[i].strip()):
        if lines[i].strip():
            header.append(lines[i])
        i += 1
    current = None
    while i < len(lines):
        line = lines[i]
        if line.startswith("use "):
            chunk = [line]
            while chunk[-1].count("{") > chunk[-1].count("}") and "}" not in chunk[-1] or (len(chunk) > 1 and "}" not in chunk[-1]):
                i += 1
                chunk.append(lines[i])
            imports.append("\n".join(chunk))
            i += 1
            continue
        if line.startswith("--"):
            comment.append(line)
            i += 1
            continue
        if not line.strip():
            if comment and current is not None and False:
                pass
            i += 1
            continue
        # a chunk: this line and the indented or blank lines after it
        chunk = [line]
        i += 1
        while i < len(lines) and (lines[i][:1] in (" ", "\t", ")", "]", "}") or (not lines[i].strip() and i + 1 < len(lines) and lines[i + 1][:1] in (" ", "\t"))):
            chunk.append(lines[i])
            i += 1
        body = "\n".join(chunk)
        m = re.match(r"((?:(?:pub|abbrev|unfoldable) )*)([^\s(){}.;,:]+) :(?: |\n|$)", body)
        if m and not re.match(r"(unfolding|module|record|data|open|ruleset)\b", body):
            current = {"comment": comment, "marks": m[1], "name": m[2], "sig": body, "clauses": []}
            items.append(current)
            comment = []
        elif re.match(r"(module|record|data|pub record|pub data|open|ruleset|pub ruleset|syntax)\b", body):
            current = {"comment": comment, "marks": "", "name": None, "sig": body, "clauses": []}
            items.append(current)
            comment = []
        elif current is not None:
            if comment:
                current["clauses"].extend(comment)
                comment = []
            current["clauses"].append(body)
    return header, imports, items


def args_of(text):
    """The arguments of an application, apart: words, or what stands in brackets."""
    out, i = [], 0
    while i < len(text):
        if text[i].isspace():
            i += 1
            continue
        if text[i] in "({[":
            depth, j = 0, i
            while True:
                depth += (text[j] in "({[") - (text[j] in ")}]")
                j += 1
                if depth == 0:
                    break
            # fields behind a bracket
            while j < len(text) and not text[j].isspace():
                j += 1
            out.append(text[i:j])
            i = j
        else:
            j = i
            while j < len(text) and not text[j].isspace():
                j += 1
            out.append(text[i:j])
            i = j
    return out


class Function:
    def __init__(self, names):
        self.n = names
        self.parent = {}
        self.step = {}
        self.clauses = {}
        self.callee = {}
        for k, place in enumerate(names["places"]):
            self.parent[place[0]] = place[1]
            self.step[place[0]] = place[2]
            self.callee[place[0]] = place[3]
            cl = names["clauses"][k] if k < len(names["clauses"]) else None
            self.clauses[place[0]] = cl
        self.arms = {}
        for k, place in enumerate(names["places"]):
            arm = names["arms"][k] if k < len(names["arms"]) else None
            if arm and arm[0]:
                self.arms[place[0]] = (arm[0], arm[2])
        self.place_names = dict(zip([p[0] for p in names["places"]], names["places_by_name"]))

    def walk(self, place, ups):
        for _ in range(ups):
            if place is None:
                return None
            place = self.parent.get(place)
        return place

    def step_at(self, goal, place, field):
        """The place on the way to `goal` whose step the old proof calls `field`: the one that it counts to, or else the nearest to that."""
        if place is not None and place in self.step and dashed(self.step[place][0]) == dashed(field):
            return place
        way, p = [], goal
        while p is not None:
            way.append(p)
            p = self.parent.get(p)
        hits = [k for k, q in enumerate(way) if dashed(self.step[q][0]) == dashed(field)]
        if not hits:
            return None
        at = way.index(place) if place in way else len(way)
        return way[min(hits, key=lambda k: abs(k - at))]

    def labels(self, place, path):
        """`.ensures.0` of a call's step by the clause's name."""
        cl = self.clauses.get(place)
        if cl and cl.get("fields"):
            fields = cl["fields"]

            # clauses were joined in pairs: .1.0 is the second of three, .1.1 the third
            parts = path.split(".")[1:]
            if parts and parts[0] == "ensures" and len(fields) > 1:
                k, rest = 0, parts[1:]
                while k < len(fields) - 1 and rest and rest[0] == "1":
                    k, rest = k + 1, rest[1:]
                if k < len(fields) - 1 and rest and rest[0] == "0":
                    rest = rest[1:]
                    path = ".ensures." + fields[k] + "".join("." + r for r in rest)
                elif k == len(fields) - 1:
                    path = ".ensures." + fields[k] + "".join("." + r for r in rest)
        # older words for a test's two sides, and for what a `&mut` argument holds afterwards
        path = re.sub(r"^\.left(?![\w-])", ".false", re.sub(r"^\.taken(?![\w-])", ".true", re.sub(r"^\.last(?![\w-])", ".new", path)))
        path = re.sub(r"^\.kept(?![\w-])", ".auto", path)
        params = self.n.get("params", {}).get(self.callee.get(place))
        if params:
            # what is known of the argument at that place, by the parameter's name
            def param(m):
                k = m[2].count(".1")
                return f".{m[1]}.{params[k]}" if k < len(params) else m[0]

            path = re.sub(r"^\.(auto|new)((?:\.1)*)\.0", param, path)
        return path

    def in_arm(self, place, step, rest):
        """What `c.step.rest` is called in the arm of a match, on the way to a goal at `place`."""
        best = None
        p = place
        while p is not None:
            if p in self.arms:
                arm, entries = self.arms[p]
                for new, old, path in entries:
                    if dashed(old) == dashed(step) and rest[: len(path)] == path and (path or rest):
                        if best is None or len(path) > best[0]:
                            best = (len(path), arm, new, rest[len(path):])
            p = self.parent.get(p)
        if best is None:
            return None
        return "." + best[1] + "." + best[2] + "".join("." + r for r in best[3])

    def translate(self, body, var, place):
        """The paths from `var`, which stands at `place`, as the flat record has them."""
        aliases = {var: place}
        steps = {}
        dropped = []
        out, last = [], 0
        pat = re.compile(r"(?<![\w.′'-])(" + W + r")((?:\.[^\s(){};,@\"«»`\[\]\\λ.]+)*)")
        # aliases of places: let X = c.before.before in
        changed = True
        while changed:
            changed = False
            for m in re.finditer(r"let (" + W + r") = (" + W + r")((?:\.before)*)\s+in(?=\s)", body):
                if m[2] in aliases and m[1] not in aliases:
                    aliases[m[1]] = self.walk(aliases[m[2]], m[3].count(".before"))
                    dropped.append(m[1])
                    changed = True
        for name in dropped:
            body = re.sub(r"[ \t]*let " + re.escape(name) + r" = " + W + r"(?:\.before)*\s+in(?=\s) ?\n?", "", body)
        # aliases of steps: let X = c.before.loop in
        for m in re.finditer(r"let (" + W + r") = (" + W + r")((?:\.before)*)\.(" + W + r")\s+in(?=\s)", body):
            if m[2] in aliases:
                p = self.step_at(place, self.walk(aliases[m[2]], m[3].count(".before")), m[4])
                if p is not None:
                    steps[m[1]] = p

        def one(m):
            head, path = m[1], m[2]
            if head in steps and path:
                old = self.step[steps[head]][0]
                arm = self.in_arm(place, old, path.split(".")[1:])
                if arm:
                    return var + arm
                path = "".join("." + FIELDS.get(r, r) for r in path.split(".")[1:])
                return head + self.labels(steps[head], path)
            if head not in aliases or (head != var and not path and head not in dropped):
                return m[0]
            parts = path.split(".")[1:]
            p = aliases[head]
            while parts and parts[0] == "before":
                p = self.walk(p, 1)
                parts = parts[1:]
            if not parts:
                return var
            f, rest = parts[0], [FIELDS.get(r, r) for r in parts[1:]]
            q = self.step_at(place, p, f)
            if q is not None:
                arm = self.in_arm(place, self.step[q][0], rest)
                if arm:
                    return var + arm
                return var + "." + self.step[q][1] + self.labels(q, "".join("." + r for r in rest))
            f = FIELDS.get(f, f)
            if f == "args" and rest and rest[0] in RENAMED:
                rest = [RENAMED[rest[0]]] + rest[1:]
            return var + "." + f + "".join("." + r for r in rest)

        body = pat.sub(one, body)
        # the test of `!x` says of x itself that it is false
        body = re.sub(r"\(not-(?:true|false) _ ((?:" + W + r")?\.if-not-" + W + r"\.(?:true|false))\)", r"\1", body)
        body = re.sub(r"not-(?:true|false) _ (" + re.escape(var) + r"\.if-not-" + W + r"\.(?:true|false))", r"\1", body)
        body = re.sub(r"not-(?:true|false) _ \((" + re.escape(var) + r"\.if-not-" + W + r"\.(?:true|false))\)", r"\1", body)
        for name in re.findall(r"let (" + W + r") = " + re.escape(var) + r"\.if-not-" + W + r" in", body):
            body = re.sub(r"\(not-(?:true|false) _ (" + re.escape(name) + r"\.(?:true|false))\)", r"\1", body)
            body = re.sub(r"not-(?:true|false) _ (" + re.escape(name) + r"\.(?:true|false))", r"\1", body)
        for name in re.findall(r"let (" + W + r") = " + re.escape(var) + r"\.args in", body):
            for a, b in RENAMED.items():
                body = re.sub(r"(?<![\w.])" + re.escape(name) + r"\." + a + r"(?![\w-])", name + "." + b, body)
        # lets that nothing cites any more
        for m in re.findall(r"let (" + W + r") = " + W + r"(?:\." + W + r")* in[ ]*\n", body):
            if len(re.findall(r"(?<![^\s(){};,])" + re.escape(m) + r"(?![\w'-])", body)) == 1:
                body = re.sub(r"[ \t]*let " + re.escape(m) + r" = " + W + r"(?:\." + W + r")* in[ ]*\n", "", body, count=1)
        return body


def body_of(item):
    """Parameters and body of an item with one clause; None where it has more."""
    clauses = [c for c in item["clauses"] if not c.startswith("unfolding") and not c.startswith("--")]
    unfolding = [c for c in item["clauses"] if c.startswith("unfolding")]
    if len(clauses) != 1:
        return None
    m = re.match(re.escape(item["name"]) + r"((?: +[^\s=]+)*) =(?=\s)", clauses[0])
    if not m:
        return None
    return m[1].split(), clauses[0][m.end():].lstrip(" "), unfolding


def convert(path, names, module, crate):
    with open(path, encoding="utf-8") as f:
        text = f.read()
    header, imports, items = items_of(text)
    if not items:
        return "no items"
    last = items[-1]
    spec = "\n".join(last["clauses"])
    m = re.search(r"(tie|lts)\.spec\b(.*?)\)?\s*$", spec, re.S)
    if not m or "tie.close" not in spec:
        return "another form"
    inner = spec[spec.index("tie.spec") + len("tie.spec"):].rstrip()
    # the bracket that closes `(tie.spec`
    if re.search(r"\(\s*tie\.spec", spec):
        depth = 1
        for k, ch in enumerate(inner):
            depth += (ch == "(") - (ch == ")")
            if depth == 0:
                inner = inner[:k]
                break
    args = args_of(inner)
    fn = Function(names)
    by_name = {it["name"]: it for it in items if it["name"]}
    loops = names["loops"]
    invariants, answers, notes = [], [], []
    used = set()
    kinds = []
    for a in args:
        it = by_name.get(a)
        ty = it["sig"] if it else ""
        if it and re.search(r": tie\.(invariant|decreases)-", ty):
            kinds.append(("loop", a, it))
        else:
            kinds.append(("need", a, it))
    needs = [k for k in kinds if k[0] == "need"]
    loop_args = [k for k in kinds if k[0] == "loop"]
    if len(needs) != len(names["needs"]):
        notes.append(f"{len(needs)} answers for {len(names['needs'])} goals")
        # by the name in the signature where there is one
    olds = [n[0].replace("_", "-") for n in names["needs"]]

    def old_of(it):
        mm = re.search(r": tie\.Need-([^\s]+)", it["sig"]) if it else None
        return re.sub(r"^overflow-", "", mm[1]).replace("_", "-") if mm else None

    by_old = {re.sub(r"^overflow-", "", o): k for k, o in enumerate(olds)}
    pairs = []
    if len(needs) == len(names["needs"]):
        pairs = [(k, n) for k, n in enumerate(needs)]
    else:
        for n in needs:
            o = old_of(n[2])
            if o in by_old:
                pairs.append((by_old[o], n))
            else:
                notes.append(f"no goal for {n[1]} ({o})")
    # invariants
    for kind, a, it in loop_args:
        mm = re.search(r": tie\.(invariant|decreases)-(\S+)", it["sig"])
        what, loop = mm[1], mm[2]
        found = [k for k, l in enumerate(loops) if l[0][0] == loop]
        if not found:
            notes.append(f"no loop {loop}")
            continue
        k = found[0]
        new, live = loops[k][0][1], loops[k][1]
        flags = names["changed"][k]
        b = body_of(it)
        if b is None:
            notes.append(f"{a} has several clauses")
            continue
        params, body, unfolding = b
        n = len(live)
        changed = [v for v, f in zip(live, flags) if f]
        want = n + len(changed)
        if len(params) != want:
            notes.append(f"{a}: {len(params)} parameters, {want} looked for")
            continue
        sub = {}
        for p, v, f in zip(params[:n], live, flags):
            sub[p] = ("l.initial." if f else "l.") + v
        for p, v in zip(params[n:], changed):
            sub[p] = "l." + v

        def put(mm2):
            return sub.get(mm2[1], mm2[1]) + mm2[2]

        body = re.sub(r"(?<![\w.′'₀-₉-])(" + W + r")(\.[^\s(){};,]*)?", lambda q: sub.get(q[1], q[1]) + (q[2] or ""), body)
        invariants.append((it["comment"], f"abbrev pub {what}-{new} : goal.{what}-{new}", unfolding, f"{what}-{new} l = {body}"))
        used.add(it["name"])
    dropped = 0
    for k, (kind, a, it) in pairs:
        old, new = names["needs"][k]
        place = names["asked_at"][k][0]
        if it is not None:
            used.add(it["name"])
            b = body_of(it)
            if b is None:
                clauses = []
                for c in it["clauses"]:
                    clauses.append(re.sub(r"^" + re.escape(it["name"]) + r"(?=\s)", new, c))
                notes.append(f"{it['name']} has several clauses")
                answers.append((k, it["comment"], f"pub {new} : goal.{new}", [], "\n".join(clauses)))
                continue
            params, body, unfolding = b
            comment = it["comment"]
        else:
            comment, unfolding = [], []
            mm = re.match(r"\(λ ((?:[^\s.]+ ?)+)\.\s(.*)\)$", a, re.S)
            if mm:
                params, body = mm[1].split(), mm[2]
            else:
                params, body = [], a
        if params and params[-1] in ("κs", "_") and len(params) > 1:
            params = params[:-1]
        if not KEEP_ALL and body.strip() in TRIVIAL:
            dropped += 1
            continue
        if params:
            body = fn.translate(body, params[0], place)
        labels = names["asked"].get(old)
        if labels and len(labels) > 1:
            body = record_of(body, labels)
        lhs = " ".join([new] + params)
        sep = "" if body.startswith("\n") else " "
        answers.append((k, comment, f"pub {new} : goal.{new}", unfolding, f"{lhs} ={sep}{body}"))
    used.add(last["name"])
    helpers = [it for it in items[:-1] if (it["name"] not in used or it["name"] is None) and not re.search(r": tie\.Need-", it["sig"])]
    folder = os.path.dirname(path)
    keep_imports = [i for i in imports if not re.match(r"use Rattle\." + crate + r"\.proofs\." + re.escape(module) + r"\.(Statement|Tie)\b", i) and not i.startswith("use borrow.Author.Rules.")]
    needs_rules = any("rules" in x[4] for x in answers) or any("rules" in "\n".join(h["clauses"]) for h in helpers)
    rules = ["use borrow.Author.Rules.{rules}"] if needs_rules else []
    base = f"Rattle.{crate}.proofs.{module}"
    head = "\n".join(header)

    def show(it):
        return "\n".join(it["comment"] + [it["sig"]] + it["clauses"])

    inv_text = None
    inv_helpers = []
    if invariants:
        words = set(re.findall(W, "\n".join(x[3] for x in invariants)))
        grown = True
        while grown:
            grown = False
            for h in helpers:
                if h not in inv_helpers and h["name"] in words:
                    inv_helpers.append(h)
                    words |= set(re.findall(W, show(h)))
                    grown = True
        inv_helpers = [h for h in helpers if h in inv_helpers]
        parts = [head] + ["\n".join(keep_imports + [f"use {base}.Given as goal"])]
        for h in inv_helpers:
            s = show(h)
            if not h["marks"].startswith("pub") and " pub" not in h["marks"]:
                sig = h["sig"]
                h2 = dict(h)
                h2["sig"] = re.sub(r"^(abbrev |unfoldable )?", lambda q: (q[1] or "") + "pub ", sig, count=1)
                s = show(h2)
            parts.append(s)
        for comment, sig, unfolding, body in invariants:
            parts.append("\n".join(comment + [sig] + unfolding + [body]))
        inv_text = "\n\n".join(parts) + "\n"
        helpers = [h for h in helpers if h not in inv_helpers]
    if inv_text:
        with open(os.path.join(folder, "Invariants.antt"), "w", encoding="utf-8") as f:
            f.write(inv_text)
    answers.sort(key=lambda x: x[0])
    if answers or helpers:
        more = []
        if inv_helpers:
            more = [f"use {base}.Invariants.{{{', '.join(h['name'] for h in inv_helpers if h['name'])}}}"]
        parts = [head, "\n".join(rules + keep_imports + more + [f"use {base}.Goals as goal"])]
        # a helper stands before the first answer that cites it
        order = {it["name"]: n for n, it in enumerate(items)}
        for h in helpers:
            parts.append(show(h))
        for _, comment, sig, unfolding, body in answers:
            parts.append("\n".join(comment + [sig] + unfolding + [body]))
        if answers:
            with open(os.path.join(folder, "Answers.antt"), "w", encoding="utf-8") as f:
                f.write("\n\n".join(parts) + "\n")
    os.remove(path)
    left = sorted(set(re.findall(r"\b(?:tie|lts|reads|place)\.\S+", open(os.path.join(folder, "Answers.antt")).read()))) if os.path.exists(os.path.join(folder, "Answers.antt")) else []
    if left:
        notes.append("cites " + " ".join(left[:4]))
    return f"ok {len(answers)} answers, {dropped} left out" + ("; " + "; ".join(notes) if notes else "")


def convert_cycle(path, names, module, crate):
    """The answers of a function that calls itself. Its measure and its loops' invariants are written by hand."""
    with open(path, encoding="utf-8") as f:
        text = f.read()
    header, imports, items = items_of(text)
    by_name = {it["name"]: it for it in items if it["name"]}
    spec = "\n".join(items[-1]["clauses"])
    spec = spec[spec.index(".spec") + 5:]
    order = [a.strip("() ").split()[0] for a in args_of(spec) if a.strip("() ")]
    needs = [n for n in order if n in by_name and re.search(r"lts\.Need-", by_name[n]["sig"])]
    notes = [] if len(needs) == len(names["needs"]) else [f"{len(needs)} answers for {len(names['needs'])} goals"]
    if notes:
        return notes[0]
    fn = Function(names)
    answers, dropped = [], 0
    for k, name in enumerate(needs):
        old, new = names["needs"][k]
        place = names["asked_at"][k][0]
        b = body_of(by_name[name])
        if b is None:
            notes.append(f"{name} has several clauses")
            continue
        params, body, unfolding = b
        params = [q for q in params if q != "κs"][:2]
        if body.strip() in TRIVIAL:
            dropped += 1
            continue
        body = fn.translate(body, params[-1], place)
        body = re.sub(r"(?<![\w.])pre\.1(?![\w])", "c.requires", body)
        body = re.sub(r"(?<![\w.])pre\.0(?![\w])", "c.decreases", body)
        body = re.sub(r"[ \t]*let pre = c\.requires in[ ]*\n", "", body)
        labels = names["asked"].get(old)
        if labels and len(labels) > 1:
            body = record_of(body, labels)
        sep = "" if body.startswith("\n") else " "
        answers.append((by_name[name]["comment"], f"pub {new} : goal.{new}", unfolding, f"{new} {' '.join(params)} ={sep}{body}"))
    keep = [i for i in imports if not re.search(r"\.(Reads|Kinds|Tie|Lts-\w+|Statement)\b|\+\w+\.\{statement\}|borrow\.Fn\.", i)]
    folder = os.path.dirname(path)
    parts = ["\n".join(header), "\n".join(keep + [f"use Rattle.{crate}.proofs.{module}.Goals as goal"])]
    parts += ["\n".join(c + [s] + u + [b]) for c, s, u, b in answers]
    with open(os.path.join(folder, "Answers.antt"), "w", encoding="utf-8") as f:
        f.write("\n\n".join(parts) + "\n")
    os.remove(path)
    return f"ok {len(answers)} answers, {dropped} left out; the measure and the invariants by hand " + "; ".join(notes)


def main():
    data = json.load(open(ARGV[0]))
    crate_folder = ARGV[1].rstrip("/")
    crate = os.path.basename(os.path.abspath(crate_folder))
    names = names_of(data, crate)
    only = ARGV[2:]
    proofs = os.path.join(crate_folder, "proofs")
    for folder, dirs, fs in sorted(os.walk(proofs)):
        if "Proof.antt" not in fs:
            continue
        module = os.path.relpath(folder, proofs).replace("/", ".")
        if only and module not in only and module.split(".")[-1] not in only:
            continue
        if "+" in module:
            function = module.split("+")[-1]
            if module + "-" + function in names:
                print(f"{module}: {convert_cycle(os.path.join(folder, 'Proof.antt'), names[module + '-' + function], module, crate)}")
                continue
        if module not in names:
            print(f"{module}: no names")
            continue
        try:
            print(f"{module}: {convert(os.path.join(folder, 'Proof.antt'), names[module], module, crate)}")
        except Exception as e:  # noqa: BLE001
            print(f"{module}: failed: {type(e).__name__} {e}")


if __name__ == "__main__":
    main()
