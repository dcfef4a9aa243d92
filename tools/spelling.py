#!/usr/bin/env python3
"""Brings the repository's own definitions and lemmas to one spelling: words in snake case, a dash only after the name of a definition.

usage: spelling.py [--list]        at the top of the repository, once, after the toolchain's own scripts

It reads which names specs/ and proofs/ declare, and writes the new ones wherever a file of antt, a `ghost use` line, a clause, a must-fail
edit or a page names them. Functions of src/, exported names, strings, inputs and outputs stay. It says which names fall together,
and then writes nothing. --list prints the names and writes nothing.
"""

import glob
import os
import re
import subprocess
import sys

TOKEN = re.compile(r"--[^\n]*|\"(?:[^\"\\]|\\.)*\"|«[^»]*»|[^\s(){}.;,@\"«»\[\]\\`]+")
# Names of the field's own signs.
BY_HAND = {
    "HPOf": "hp_of", "KHPOf": "khp_of", "PHtOf": "pht_of", "fromROf": "from_r_of", "finiteXP": "finite_xp",
    "termsA·P": "terms_a_p", "termsA·x": "terms_a_x", "termsT·Aᵀ": "terms_t_at",
    "A·x": "a_x", "A·P": "a_p", "A·P·Aᵀ+Q": "a_p_at_q", "of-A·P": "of_a_p", "of-A·P·Aᵀ+Q": "of_a_p_at_q",
    # where the plain spelling is another's already
    "goesOn": "run_on", "oneByOne": "one_after_another", "oneMore": "one_up", "rowOn": "row_dot",
    "sumFirst": "sum_of_first", "rowAfter": "row_risen", "of-fields": "of_fields_lem", "is-nan": "is_nan_lem", "withRoot": "line_with_root", "S-is": "s_matrix",
}
# The library's words that a lemma's name may begin or end with.
WORDS = {"length", "set", "take", "drop", "reverse", "map", "add", "mul", "sub", "cond"}
# Matrices keep their signs.
SIGNS = {"HP", "KHP", "PHt"}
# The toolchain's scripts write a dot for the sign in this one.
MENDED = {"of-A.P": "of_a_p"}
DECLARED = re.compile(r"(?m)^ *(?:abbrev |unfoldable )?(?:pub )?((?!let |where|module |use |open )[^\s(){}.;,\"«»\[\]λ=|↦→]+) :(?= |$)")


def read(path):
    with open(path, encoding="utf-8") as it:
        return it.read()


def snake(word):
    """Humps of one name as underscores."""
    word = re.sub(r"(?<=[a-z0-9])(?=[A-Z])|(?<=[A-Z])(?=[A-Z][a-z])", "_", word)
    return re.sub(r"(?<![A-Za-z])[A-Z]\w*", lambda m: m[0].lower(), word) if re.match(r"[a-z]", word) else word


def lower_parts(word):
    """HP_left and S_inv: a sign of the field as a part of a longer name."""
    if "_" not in word:
        return word
    return "_".join(p if re.match(r"[A-Z]\w*[a-z]{2}", p) else p.lower() if re.fullmatch(r"[A-Z][A-Za-z0-9']*", p) else p for p in word.split("_"))


def paths(*patterns):
    out = []
    for p in patterns:
        out += [f for f in glob.glob(p, recursive=True) if "/out/" not in f]
    return sorted(out)


def is_walk(path):
    """Whether a file is of the proof of one function: it lies in a folder of proofs/."""
    below = path.split("/proofs/")[-1] if "/proofs/" in path else ""
    return "/" in below and os.path.basename(path) in ("Proof.antt", "Answers.antt", "Invariants.antt")


def fields_in(text):
    out, depth = set(), None
    for line in text.split("\n"):
        if not line.strip():
            continue
        indent = len(line) - len(line.lstrip())
        if depth is not None and indent <= depth:
            depth = None
        if depth is None:
            if re.match(r" *(?:pub )?(?:record|data) .*", line):
                depth = indent
            continue
        m = re.match(r" *(?:pub )?([^\s(){}.;,]+) :", line)
        if m:
            out.add(m[1])
    return out


def named():
    antt = paths("crates/*/specs/**/*.antt", "crates/*/proofs/**/*.antt")
    walks = [p for p in antt if is_walk(p)]
    lemmas = [p for p in antt if not is_walk(p) and os.path.basename(p) != "Lib.antt"]
    declared, defs, fields = set(), set(), set()
    for p in lemmas:
        text = re.sub(r"(?m)^\s*--.*$", "", read(p))
        names = set(DECLARED.findall(text))
        declared |= names
        fields |= fields_in(text)
        if "/specs/" in p:
            defs |= names - fields_in(text)
    # what a library of the kit calls so stays
    own = set(os.listdir("crates"))
    for p in antt:
        for module, names in re.findall(r"(?m)^(?:pub )?use ([^\s{]+)\.\{([^}]*)\}", read(p)):
            if not (module.startswith("Rattle.") and module.split(".")[1] in own):
                declared -= {it.split(" as ")[0].strip() for it in names.split(",")}
    # helpers in the proof of one function: those that answer no goal
    for p in walks:
        text = re.sub(r"(?m)^\s*--.*$", "", read(p))
        for n in re.findall(r"(?m)^(?:abbrev |unfoldable )?(?:pub )?([^\s(){}.;,\"«»\[\]λ=|]+) : (?!tie\.|goal\.|\{M : Type 1\})", text):
            declared.add(n)
    return declared, defs, fields


def new_names(declared, defs):
    table = {}
    for old in declared:
        if not re.search(r"[-·]|[a-z0-9][A-Z]|^[A-Z]{2}", old) and old not in BY_HAND:
            continue
        if old in BY_HAND:
            table[old] = BY_HAND[old]
            continue
        if old in SIGNS:
            continue
        if re.fullmatch(r"[A-Z]\w*", old):
            continue
        if not re.search(r"[A-Za-z]", old):
            continue
        if old.count("-") == 1 and all(len(it) > 1 and (it in defs or it in WORDS) for it in old.split("-")):
            new = "-".join(lower_parts(snake(it)) for it in old.split("-"))
        else:
            new = lower_parts(snake(old.replace("-", "_").replace("PHt", "pht")))
        if new != old:
            table[old] = new
    # a lemma that would have a definition's name
    taken = {table.get(d, d) for d in defs}
    for old, new in table.items():
        if old not in defs and old not in BY_HAND and new in taken:
            table[old] = new + "_lem"
    for old in ("exact-P", "exact-x"):
        if old in table:
            table[old] = snake(lower_parts(old.replace("-", "_"))) + "_lem"
    return table


def turn_antt(text, table, fields=None):
    for a, b in MENDED.items():
        text = text.replace(a, b)

    def one(m):
        w = m[0]
        if w.startswith("--"):
            return re.sub(r"`([^`]*)`", lambda q: "`" + TOKEN.sub(lambda t: table.get(t[0], t[0]), q[1]) + "`", in_words(w, table))
        if w.startswith(('"', "«")):
            return w
        if fields is not None and w in table and w not in fields:
            line = text[text.rfind("\n", 0, m.start()) + 1 : m.start()]
            if line.endswith(".") and not re.match(r"(pub )?use ", line) and not re.search(r"(?<![\w.])[A-Z]\w*\.$", line):
                return w
        return table.get(w, w)

    return TOKEN.sub(one, text)


def in_words(text, table):
    """Names with a hump in a comment, where no other word looks so."""
    return re.sub(r"(?<![\w`.-])[a-z]+[A-Z]\w*(?![\w-])", lambda m: table.get(m[0], m[0]), text)


def turn_rt(text, table):
    """`ghost use` lines and clauses; comments by name; code stays."""
    out, i = [], 0
    quiet = re.compile(r"//[^\n]*|b?\"(?:[^\"\\]|\\.)*\"|\bghost use [^;]*;|\b(?:requires|ensures)\*?(?: \w+)? \{|\bghost (?:\w+: )?\{")
    while True:
        m = quiet.search(text, i)
        if not m:
            out.append(text[i:])
            return "".join(out)
        out.append(text[i : m.start()])
        piece, i = m[0], m.end()
        if piece.startswith("//"):
            piece = re.sub(r"`([^`]*)`", lambda q: "`" + TOKEN.sub(lambda t: table.get(t[0], t[0]), q[1]) + "`", in_words(piece, table))
        elif piece.startswith("ghost use"):
            piece = TOKEN.sub(lambda t: table.get(t[0], t[0]), piece)
        elif piece.endswith("{"):
            depth, j = 1, i
            while depth and j < len(text):
                depth += (text[j] == "{") - (text[j] == "}")
                j += 1
            piece += TOKEN.sub(lambda t: t[0] if t[0].startswith(("--", '"')) else table.get(t[0], t[0]), text[i:j])
            i = j
        out.append(piece)


def turn_page(text, table):
    return re.sub(r"`([^`\n]*)`", lambda q: "`" + TOKEN.sub(lambda t: table.get(t[0], t[0]), q[1]) + "`", text)


COMMENT = re.compile(r"\"(?:[^\"\\]|\\.)*\"|(?://|--)(?![-/])[^\n]*")


def with_signs(path, text):
    """The products in comments as they were at HEAD: the toolchain's scripts take their dots for names'."""
    was = subprocess.run(["git", "show", "HEAD:./" + path], capture_output=True, text=True)
    if was.returncode:
        return text
    old = [m[0] for m in COMMENT.finditer(was.stdout) if m[0][0] != '"']
    new = [m[0] for m in COMMENT.finditer(text) if m[0][0] != '"']
    if len(old) != len(new):
        return text
    at = iter(zip(old, new))

    def one(m):
        if m[0][0] == '"':
            return m[0]
        o, n = next(at)
        return o if o.count("·") > n.count("·") and "Rattle·" not in o else n

    return COMMENT.sub(one, text)


def tokens(text):
    return set(TOKEN.findall(text))


def clashes(table, declared):
    bad = []
    by_new = {}
    for o, n in table.items():
        by_new.setdefault(n, []).append(o)
    bad += [f"{' and '.join(os)} would both be {n}" for n, os in by_new.items() if len(os) > 1]
    bad += [f"{o} would be {n}, which is declared" for o, n in table.items() if n in declared and n not in table]
    for p in paths("crates/*/specs/**/*.antt", "crates/*/proofs/**/*.antt", "crates/*/src/**/*.rt"):
        t = tokens(re.sub(r"(?m)--.*$|//.*$|^(pub )?use [^{\n]*", "", read(p)))
        for o in t & table.keys():
            if table[o] in t and table[o] not in declared and p.endswith(".antt"):
                bad.append(f"{p}: {o} would be {table[o]}, which stands there")
    return bad


def main():
    declared, defs, fields = named()
    table = new_names(declared, defs)
    if "--list" in sys.argv:
        for o, n in sorted(table.items()):
            print(o, n)
    bad = clashes(table, declared)
    if bad:
        print("\n".join(sorted(bad)), file=sys.stderr)
        return 1
    if "--list" in sys.argv:
        return 0
    for p in paths("crates/*/specs/**/*.antt", "crates/*/proofs/**/*.antt", "crates/*/src/**/*.rt", "crates/*/must-fail/*.edit", "*.md", "docs/*.md"):
        text = read(p)
        if p.endswith((".antt", ".rt")):
            text = with_signs(p, text)
        was = read(p)
        turn = turn_antt if p.endswith(".antt") else turn_rt if p.endswith(".rt") else turn_page
        if p.endswith(".edit"):
            turn = lambda t, table: "".join(
                l if not re.match(r"(old|new): ", l) else turn_antt(l, table) for l in t.splitlines(keepends=True)
            )
        new = turn(text, table, fields) if is_walk(p) else turn(text, table)
        if new != was:
            with open(p, "w", encoding="utf-8") as it:
                it.write(new)
    return 0


if __name__ == "__main__":
    raise SystemExit(main())
