#!/usr/bin/env python3
"""Brings the names of this repository's definitions and lemmas to one spelling: words in snake case, facts in camel case.

usage: tools/respell.py          at the top of the repository, once, after the kit's port.py

A definition or lemma that is declared in specs/ or in a shared file of proofs/ and is written in camel case or with
dashes is written in snake case: `firstBad` becomes `first_bad`, `digits-append` becomes `digits_append`. A definition
that is a type becomes upper camel case. Where two names would fall together, the lemma gets `_lem`. Names of the code
(src/), exported names, strings, inputs and outputs keep their spelling; so do the names that Rattle makes, which stand
behind a dot or in a function's own folder of proofs/.
It rewrites crates/ (specs, proofs, the ghost lines and clauses of src, must-fail edits) and, between backticks, the pages.
"""

import glob
import re
import sys

ANTT = sorted(glob.glob("crates/*/specs/**/*.antt", recursive=True) + glob.glob("crates/*/proofs/**/*.antt", recursive=True))
RT = sorted(glob.glob("crates/*/src/**/*.rt", recursive=True))
EDITS = sorted(glob.glob("crates/*/must-fail/*.edit") + glob.glob("crates/*/also-fail/*.edit"))
PAGES = sorted(glob.glob("*.md") + glob.glob("docs/*.md") + glob.glob("docs/changes/*.md") + ["crates.txt"])
DELIM = "\\s(){}\\[\\].;,«»`\""
TOKEN = re.compile(f"[^{DELIM}]+")
HEAD = re.compile(r"^(\s*)((?:abbrev |unfoldable |ruleset |data |record |pub )*)([^\s:(){}]+)((?: [({].*)?) :(?: (.*))?$")
CAMEL = re.compile(r"[a-z]\w*[A-Z]")
# names that the words of the kit have, under the name that it gives them
ALIASES = {
    "eqb·suc-zero": "eqb-suc-zero", "leb·zero": "leb-zero", "leb·suc-zero": "leb-suc-zero",
    "List·getD-eq-default": "get_or-eq_default", "List·getD-append": "get_or-append", "List·getD-map": "get_or-map",
    "List-as-Memᴰ": "Memᴰ", "List·Memᴰ·cases-cons": "mem_cases_cons", "List·Memᴰ·head": "mem_head",
    "List·Memᴰ·not-nil": "mem_not_nil", "List·Memᴰ·tail": "mem_tail",
}
# names that the kit has too: turned only in the file that declares them here
KIT = {"add-one": "crates/sums/proofs/One.antt"}
# lemmas whose name a definition gets
LEMMAS = {"digits_of": "digits_of_lem", "told_of": "told_of_lem"}
TYPES = {"andLast": "AndLast", "andLasts": "AndLasts", "plainElsewhere": "PlainElsewhere"}


def read(path):
    with open(path, encoding="utf-8") as f:
        return f.read()


def of_function(path):
    part = path.split("/")
    return part[2] == "proofs" and len(part) > 4


def declared():
    """The names that specs/ and shared files of proofs/ declare, those of functions' folders, and the fields of records."""
    shared, own, fields = set(), set(), set()
    for path in ANTT:
        text = read(path)
        for line in text.split("\n"):
            found = HEAD.match(line)
            if found and not line.strip().startswith("--"):
                (own if of_function(path) else shared).add(found[3])
        if not of_function(path):
            shared |= set(re.findall(r"^(?:pub )?ruleset (\S+) =", text, re.M))
            shared |= {n for n in re.findall(r" as ([^\s,{}()]+)(?=[},\n])", text) if "#" not in n}
        for block in re.findall(r"^(?:pub )?record.*where\n((?:  .*\n|\n)*)", text, re.M):
            fields |= set(re.findall(r"^\s+(?:pub )?(\S+) :", block, re.M))
    return shared, own, fields


def snake(name):
    parts = []
    for part in re.split("[-·]", name):
        if CAMEL.match(part):
            part = re.sub(r"([a-z0-9'])([A-Z])", lambda m: m[1] + "_" + m[2], part).lower()
        parts.append(part)
    return "_".join(parts)


def table():
    shared, own, fields = declared()
    used = set()
    for path in ANTT:
        used |= set(TOKEN.findall(read(path)))
    turned = dict(ALIASES)
    turned.update(TYPES)
    turned.update(LEMMAS)
    every = shared | {n for n in own if CAMEL.match(n) and "-" not in n}
    camel = sorted(n for n in every if CAMEL.match(n) and "-" not in n and n not in turned)
    dashed = sorted(n for n in shared if "-" in n and n not in turned and re.match(r"[\w'-]+$", n))
    taken = used - set(turned)
    for name in camel + dashed:
        new = snake(name)
        if new in taken or new in turned.values():
            if name in camel and (new in (own | shared) - set(LEMMAS)):
                raise SystemExit(f"respell: {name} falls on {new}, which is declared")
            if name in dashed:
                new += "_lem"
                if new in taken:
                    raise SystemExit(f"respell: {name} falls on {new}")
                print(f"respell: {name} becomes {new}")
        turned[name] = new
    if len(set(turned.values())) != len(turned):
        seen = {}
        for k, v in turned.items():
            if v in seen:
                print("respell: falls together:", k, seen[v], v)
            seen[v] = k
    return turned, {n for n in fields if n in turned}


def turn(text, turned, fields):
    def one(found):
        name = found[0]
        if name not in turned:
            return name
        start = found.start()
        if start and text[start - 1] == "." and not (start > 1 and text[start - 2] == "."):
            before = re.search(r"([^\s(){}\[\].;,«»`\"]+)\.$", text[max(0, start - 80):start])
            path = before and before[1][0].isupper()
            if not (path or name in fields or "-" not in name):
                return name
        return turned[name]

    return TOKEN.sub(one, text)


def antt(text, turned, fields):
    out = []
    for line in text.split("\n"):
        at = re.search(r"(?:^|\s)--(?:\s|$)", line)
        code, comment = (line[: at.start()], line[at.start():]) if at else (line, "")
        comment = re.sub(r"`[^`]*`", lambda m: turn(m[0], turned, fields), comment)
        out.append(turn(code, turned, fields) + comment)
    return "\n".join(out)


def rust(text, turned, fields):
    """Ghost lines and clauses: from `ghost`, `requires` or `ensures` to the end of its braces."""
    out, at = [], 0
    for head in re.finditer(r"^(\s*)(?:pub )?(?:ghost use|requires|ensures|ghost \w+:)", text, re.M):
        if head.start() < at:
            continue
        end, depth = head.end(), 0
        while end < len(text):
            depth += {"{": 1, "}": -1}.get(text[end], 0)
            end += 1
            if (text[end - 1] == "}" and depth == 0) or (text[end - 1] == ";" and depth == 0):
                break
        out.append(re.sub(r"(//.*)`([^`]*)`", lambda m: m[1] + "`" + turn(m[2], turned, fields) + "`", text[at:head.start()]))
        out.append(turn(text[head.start():end], turned, fields))
        at = end
    out.append(text[at:])
    return "".join(out)


def main():
    turned, fields = table()
    for path in ANTT + RT + EDITS + PAGES:
        old = read(path)
        if path.endswith(".antt"):
            new = antt(old, {k: v for k, v in turned.items() if KIT.get(k, path) == path}, fields)
        elif path.endswith(".rt"):
            new = rust(old, turned, fields)
        elif path.endswith(".edit"):
            new = "\n".join(turn(l, turned, fields) if l.startswith(("old:", "new:")) else l for l in old.split("\n"))
        else:
            new = re.sub(r"`[^`\n]*`", lambda m: turn(m[0], {k: v for k, v in turned.items() if k not in ("wrong", "type")}, fields), old)
        if new != old:
            with open(path, "w", encoding="utf-8") as f:
                f.write(new)
    print(f"respell: {len(turned)} names")
    if "--table" in sys.argv:
        for k in sorted(turned):
            print(k, turned[k])


if __name__ == "__main__":
    main()
