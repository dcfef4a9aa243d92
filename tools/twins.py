#!/usr/bin/env python3
"""Functions and types that differ only in names, types, sizes or constants.

    python3 tools/twins.py [FOLDER]            FOLDER: crates, where none is given
    python3 tools/twins.py --facts [FOLDER]    facts that three or more functions require, the commonest first

Each body is brought to one form: comments and clauses are left out, every number becomes 0, every + - or * one sign, every name
its place of first use. Bodies that are the same then and have at least 24 words and signs stand together; one
group is one line, with the number of its members first."""
import glob
import re
import sys

KEPT = set("fn let mut if else while for in match return as use pub struct enum impl self Self ref break continue loop true false".split())
TOKEN = re.compile(r"[A-Za-z_][A-Za-z0-9_]*|\d[\w.]*|b?'(?:\\.|[^'\\])'|\"(?:\\.|[^\"\\])*\"|\S")


def items(text):
    """Every function with a body: its name, and the text from `{` to its end. An array's type has a `;` in brackets."""
    text = re.sub(r"//[^\n]*", "", text)
    for m in re.finditer(r"\bfn\s+(\w+)", text):
        at, body = m.end(), None
        while at < len(text):
            c = text[at]
            if c == "{":
                # A clause of the contract: its word stands before the brace.
                word = re.search(r"(requires|ensures|decreases)(\s+\w+)?\s*$", text[:at])
                end = close(text, at)
                if word:
                    at = end
                    continue
                body = text[at:end]
                break
            if c == "[":
                at = text.index("]", at)
            if c == ";":
                break
            at += 1
        if body:
            yield m.group(1), body


def required(text):
    """Every function that requires something: its name, and the facts, one by one."""
    text = re.sub(r"//[^\n]*", "", text)
    for m in re.finditer(r"\bfn\s+(\w+)", text):
        upto = re.search(r"\bfn\s", text[m.end() :])
        part = text[m.end() : m.end() + upto.start()] if upto else text[m.end() :]
        for r in re.finditer(r"\brequires(\s+\w+)?\s*\{", part):
            clause = part[r.end() : close(part, r.end() - 1) - 1]
            for fact in " ".join(clause.split()).split(" × "):
                while fact.startswith("(") and fact.endswith(")"):
                    fact = fact[1:-1].strip()
                yield m.group(1), fact


def facts(folder):
    said = {}
    for path in sorted(glob.glob(folder + "/*/src/**/*.rt", recursive=True)):
        for name, fact in required(open(path, encoding="utf-8").read()):
            said.setdefault(fact, set()).add(path + ":" + name)
    many = sorted(((len(v), k) for k, v in said.items() if len(v) >= 3), key=lambda r: (-r[0], r[1]))
    for n, fact in many:
        print(n, fact)
    print("%d facts" % len(many))


def close(text, at):
    depth = 0
    while at < len(text):
        if text[at] == "{":
            depth += 1
        elif text[at] == "}":
            depth -= 1
            if depth == 0:
                return at + 1
        at += 1
    return at


def form(body):
    names, out = {}, []
    for t in TOKEN.findall(body):
        if re.match(r"[A-Za-z_]", t) and t not in KEPT:
            out.append("n%d" % names.setdefault(t, len(names)))
        elif t[0].isdigit():
            out.append("0")
        elif t in "+-*":
            out.append("+")
        else:
            out.append(t)
    return tuple(out)


def main():
    words = sys.argv[1:]
    if "--facts" in words:
        words.remove("--facts")
        facts(words[0] if words else "crates")
        return
    folder = words[0] if words else "crates"
    groups = {}
    for path in sorted(glob.glob(folder + "/*/src/**/*.rt", recursive=True)):
        for name, body in items(open(path, encoding="utf-8").read()):
            f = form(body)
            if len(f) >= 24:
                groups.setdefault(f, []).append(path + ":" + name)
    many = sorted((g for g in groups.values() if len(g) > 1), key=lambda g: (-len(g), g))
    for g in many:
        print(len(g), " ".join(g))
    print("%d groups, %d functions" % (len(many), sum(map(len, many))))


main()
