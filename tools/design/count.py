#!/usr/bin/env python3
"""Where src/ may still be written in an older form: a list for each point of docs/DESIGN-PASS.md.

  python3 tools/design/count.py [POINT ..]        at the top of the repository; all seven points without a word

It goes by the text of crates/*/src, so it says where to look: docs/DESIGN-PASS.md says of each place what became of it, and what reading adds.

1  enums with a variant that holds a value beside one that holds none or is named as a failure; numbers that stand for yes or no
2  functions whose bodies are the same but for names, types and numbers
3  loops that are no `for`
4  matches that only turn a variant into a number or back, and functions named for comparing, copying, converting or printing
5  functions with eight parameters or more; facts that stand in the `requires` of three functions or more
6  slices of numbers that stand side by side in a signature, and places that are counted in a second variable
7  matches and chains of tests on a number that choose what to run
"""
import pathlib
import re
import sys
from collections import defaultdict

FAILS = re.compile(r"Fault|Stop|Refused|Err|Not|None|Other|Mixed|Unknown|Cut|End|NoRoom|Dead|Past|Malformed|Over")
WORD = re.compile(r"[A-Za-z_]\w*|0x[0-9a-f_]+|\d[\d_]*")
KEEP = {"if", "else", "while", "let", "match", "return", "fn", "in", "for", "loop", "mut", "pub", "as", "true", "false"}


def bare(text):
    """The code without comments and clauses, in as many lines."""
    text = re.sub(r"//[^\n]*", "", text)
    out, i = [], 0
    for m in re.finditer(r"\b(ensures|requires)\b[^{\n]*\{", text):
        if m.start() < i:
            continue
        out.append(text[i:m.start()])
        depth, k = 1, m.end()
        while depth:
            depth += {"{": 1, "}": -1}.get(text[k], 0)
            k += 1
        out.append("\n" * text[m.start():k].count("\n"))
        i = k
    return "".join(out) + text[i:]


def block(text, at):
    """Where the braces that open at or behind `at` close."""
    k = text.index("{", at)
    depth, k = 1, k + 1
    while depth:
        depth += {"{": 1, "}": -1}.get(text[k], 0)
        k += 1
    return k


def functions(text):
    for m in re.finditer(r"\bfn (\w+)", text):
        end = block(text, m.end())
        yield m.group(1), text.count("\n", 0, m.start()) + 1, text[m.start():end]


def parts(fields):
    depth, word, out = 0, "", []
    for c in fields:
        depth += {"(": 1, "{": 1, "[": 1, "<": 1, ")": -1, "}": -1, "]": -1, ">": -1}.get(c, 0)
        if c == "," and not depth:
            out.append(word.strip())
            word = ""
        else:
            word += c
    return [it for it in [*out, word.strip()] if it]


def parameters(body):
    """The parameters of a function, whose generics may hold brackets of their own."""
    k = re.match(r"fn \w+", body).end()
    depth = 0
    while depth or body[k] != "(":
        depth += {"<": 1, ">": 0 if body[k - 1] == "-" else -1}.get(body[k], 0)
        k += 1
    inside, depth, k = k + 1, 1, k + 1
    while depth:
        depth += {"(": 1, ")": -1}.get(body[k], 0)
        k += 1
    return parts(body[inside:k - 1])


SOURCES = {str(p): p.read_text() for p in sorted(pathlib.Path("crates").glob("*/src/**/*.rt"))}
CODE = {p: bare(t) for p, t in SOURCES.items()}


def point1():
    for path, text in CODE.items():
        for m in re.finditer(r"\benum (\w+)", text):
            variants = parts(re.sub(r"#\[[^\]]*\]", "", text[text.index("{", m.end()) + 1:block(text, m.end()) - 1]))
            held = [v for v in variants if re.search(r"[({]", v)]
            if held and len(held) <= 3 and any(FAILS.search(v.split("(")[0].split("{")[0]) or v not in held for v in variants):
                yield path, text.count("\n", 0, m.start()) + 1, f"enum {m.group(1)} {{ {', '.join(WORD.match(v).group(0) for v in variants)} }}"
        for name, line, body in functions(text):
            if re.search(r"-> u(size|8|64)\b", body) and re.search(r"\breturn [01];|\{ [01] \}", body):
                yield path, line, f"fn {name} answers 0 or 1"
        for m in re.finditer(r"[^\n]*\b(\w+(?:\.\w+)?) (==|!=) [01] \{", text):
            yield path, text.count("\n", 0, m.start()) + 1, m.group(0).strip()


def point2():
    alike = defaultdict(list)
    for path, text in CODE.items():
        for name, line, body in functions(text):
            shape = re.sub(r"\s+", " ", WORD.sub(lambda m: m.group(0) if m.group(0) in KEEP else "x", body))
            if len(shape) > 60:
                alike[shape].append(f"{path}:{line} {name}")
    for places in alike.values():
        if len(places) > 1:
            path, line = places[0].split(" ")[0].split(":")
            yield path, int(line), f"{len(places)}: " + ", ".join(p.split("/")[1] + "::" + p.split(" ")[1] for p in places)


def point3():
    for path, text in CODE.items():
        for m in re.finditer(r"^[^\n]*\b(while [^\n]*|loop) \{", text, re.M):
            yield path, text.count("\n", 0, m.start()) + 1, m.group(0).strip()


def point4():
    named = re.compile(r"same_|equal_|compare_|copy|clone|is_below|number_of|_number$|code_of|kind_of|_code$|_of_word|word_of|_word$|target|digit|decimal|spell|put_|to_|from_|wide")
    for path, text in CODE.items():
        for name, line, body in functions(text):
            if named.search(name):
                yield path, line, f"fn {name}"


def point5():
    facts = defaultdict(set)
    for path, text in CODE.items():
        for name, line, body in functions(text):
            given = len(parameters(body))
            if given >= 8:
                yield path, line, f"fn {name}: {given} parameters"
    for path, text in SOURCES.items():
        for m in re.finditer(r"requires(?: \w+)? \{(.*?)\}\n", text, re.S):
            for fact in m.group(1).split("×"):
                fact = re.sub(r"\.(old|now)", "", re.sub(r"\s+", " ", fact)).strip(" ()")
                facts[fact].add((path, m.start()))
    for fact, places in sorted(facts.items(), key=lambda it: -len(it[1])):
        if len(places) >= 3:
            yield "requires", 0, f"{len(places)} functions: {fact}"


def point6():
    for path, text in CODE.items():
        for name, line, body in functions(text):
            slices = re.findall(r"(\w+): &(?:mut )?\[", body.split(") ")[0])
            if len(slices) > 1:
                yield path, line, f"fn {name}: {', '.join(slices)}"


def point7():
    for path, text in CODE.items():
        for name, line, body in functions(text):
            arms = re.findall(r"^\s*\d+(?:\.\.=\d+)? =>", body, re.M)
            tests = re.findall(r"\b(?:op|tag|kind|k|rule) (?:==|<) \d+", body)
            if len(arms) > 1 or len(tests) > 1:
                yield path, line, f"fn {name}: {len(arms)} arms, {len(tests)} tests on a number"


for point in sys.argv[1:] or "1234567":
    found = list(globals()[f"point{point}"]())
    print(f"== point {point}: {len(found)}")
    for path, line, what in found:
        print(f"{path}:{line}: {what}" if line else f"{path}: {what}")
