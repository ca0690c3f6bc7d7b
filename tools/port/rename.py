#!/usr/bin/env python3
"""Brings the definitions and lemmas of specs/ and proofs/ to today's spelling: words in snake case, as `isDigit` and `no-data-end` become `is_digit` and
`no_data_end`. Run once, behind the kit's port.py, at the top of the repository. Types, modules, what Rust code names, strings and numbers keep their names, and
so do names of the kit. A lemma that would have the name of a definition beside it gets `_lem`.

usage: python3 tools/port/rename.py [--list]
"""

import collections
import glob
import re
import sys

WORD = r"[^\s(){}.;,@\"«»\[\]\\]+"
TOKEN = re.compile(r"--(?=\s|$|-)[^\n]*|\"(?:[^\"\\]|\\.)*\"|" + WORD)
SIGNATURE = re.compile(r"^(\s*)((?:(?:abbrev|unfoldable|pub|ruleset)\s+)*)([^\s:(){},.=]+(?:\s+[^\s:(){},.=]+)*)((?:\s*[({].*?[)}])*)\s*:(?:\s|$)")
HEAD = re.compile(r"^(\s*)(?:(?:pub|abbrev|unfoldable)\s+)*(record|data)\s+(?:pub\s+)?([^\s:(){},.=]+)")
NOT_A_NAME = re.compile(r"^(use|module|let|unfolding|where|in|elim|open|λ|record|data|mod|pub|abbrev|--.*)$")
ASCII_NAME = re.compile(r"^[a-z][A-Za-z0-9'₀-₉-]*(?:[-_][A-Za-z0-9'₀-₉-]+)*$")


# rows of the table of calls, beside the definitions that they cite
ROWS = {"label-named": "label_named_row", "label-in-slot": "label_in_slot_row"}


def snake(name):
    name = re.sub(r"(?<=[a-z0-9])(?=[A-Z])", "_", name)
    name = re.sub(r"(?<=[A-Z])(?=[A-Z][a-z])", "_", name)
    return name.replace("-", "_").lower()


def files(*kinds):
    return sorted(p for kind in kinds for p in glob.glob(kind, recursive=True))


def names_of(path, text):
    """The names that a file declares, and which of them are fields of a record; not the goals of a Proof.antt."""
    names, fields, record = set(), set(), None
    for line in text.split("\n"):
        if line.strip().startswith("--"):
            continue
        head = HEAD.match(line)
        if head:
            record = (head.group(2), len(head.group(1)))
            names.add(head.group(3))
            continue
        s = SIGNATURE.match(line)
        if line.strip() and record and len(line) - len(line.lstrip()) <= record[1]:
            record = None
        if not s:
            continue
        each = s.group(3).split()
        if any(NOT_A_NAME.match(n) for n in each):
            continue
        if path.endswith("/Proof.antt") and re.search(r":\s*tie\.|statement M", line):
            continue
        names.update(each)
        if record and record[0] == "record":
            fields.update(each)
    return names, fields


def kit_names(text):
    """What a file takes from modules that are not this repository's."""
    out = set()
    for module, braces in re.findall(r"use\s+(?:pub\s+)?([^\s;{]+?)\.?\{([^}]*)\}", text):
        if not own_module(module):
            out.update(re.findall(WORD, braces))
    return out


CRATES = {p.split("/")[1] for p in glob.glob("crates/*/src")}


def own_module(module):
    parts = module.split(".")
    return parts[0] == "Rattle" and len(parts) > 1 and parts[1] in CRATES


def main(listed):
    antt = files("crates/*/specs/**/*.antt", "crates/*/proofs/**/*.antt")
    code = files("crates/*/src/**/*.rt")
    texts = {}
    for p in antt + code:
        with open(p, encoding="utf-8") as f:
            texts[p] = f.read()
    own, fields, paper = set(), set(), set()
    for p in antt:
        n, f = names_of(p, texts[p])
        own |= n
        fields |= f
        if p.startswith("crates/standard/specs/"):
            paper |= n
    turned = {n: snake(n) for n in own if ASCII_NAME.match(n) and snake(n) != n}

    # names that would fall together in a file, or with one that is there: the dashed one is a lemma beside a definition
    bare = re.compile(r"--(?=\s|$|-)[^\n]*|\"(?:[^\"\\]|\\.)*\"|(?<![.\w])" + WORD)
    tokens = {p: set(bare.findall(texts[p])) if p.endswith(".antt") else set(TOKEN.findall(texts[p])) & own for p in antt + code}
    clash = collections.defaultdict(set)
    for p, here in tokens.items():
        kit = kit_names(texts[p])
        by = collections.defaultdict(set)
        for t in here:
            by[turned.get(t, t) if t not in kit else t].add(t)
        for new, olds in by.items():
            if len(olds) > 1:
                clash[new] |= olds
    for new, olds in sorted(clash.items()):
        # a definition in camel case keeps the name; so does what only Rust code names; a lemma gives way
        lemmas = sorted(o for o in olds if o in own and (o == new or "-" in o))
        others = [o for o in olds if o not in lemmas]
        lemmas.sort(key=lambda o: o not in paper)
        for o in lemmas if others else lemmas[1:]:
            turned[o] = ROWS.get(o, new + "_lem")
    if listed:
        for new, olds in sorted(clash.items()):
            print("falls together:", new, {o: turned.get(o, o) for o in olds})
        for o in sorted(turned):
            print(o, turned[o])
        return

    def turn(text, code=False):
        kit = kit_names(text)

        def one(m):
            t, at = m.group(0), m.start()
            if t.startswith('"'):
                return t
            if t.startswith("--"):
                return comment(t)
            if t not in turned or t in kit or (code and turned[t] == t + "_lem"):
                return t
            before = text[:at][-120:]
            if before.endswith("."):
                path = re.search(r"(" + WORD + r"(?:\." + WORD + r")*)\.$", before)
                head = path.group(1).split(".")[0] if path else ""
                if t not in fields and not (head and head[0].isupper() and text[m.end():m.end() + 1] != "."):
                    return t
            return turned[t]

        return TOKEN.sub(one, text)

    def comment(t):
        t = re.sub(r"`([^`\s]+)`", lambda m: "`" + turned.get(m.group(1), m.group(1)) + "`", t)
        return re.sub(r"(?<![\w`./-])[a-z]+[a-z0-9]*[A-Z]\w*(?![\w`-])", lambda m: turned.get(m.group(0), m.group(0)), t)

    def turn_code(text):
        """ghost use lines, clauses and comments of a source file: its code has no such names"""
        out = []
        for line in text.split("\n"):
            head, slashes, tail = line.partition("//")
            if '"' in head:
                head, slashes, tail = line, "", ""
            out.append(turn(head, True) + slashes + (comment(tail) if slashes else ""))
        return "\n".join(out)

    for p, text in texts.items():
        new = turn_code(text) if p.endswith(".rt") else turn(text)
        if new != text:
            with open(p, "w", encoding="utf-8") as f:
                f.write(new)
    print(f"rename: {len(turned)} names")


main("--list" in sys.argv[1:])
