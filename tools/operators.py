#!/usr/bin/env python3
"""Takes the words of definitions straight from the library's Prelude, where they came by way of refusal's Basics: `rt ci` wants it so
of operators, whose meaning a reader takes for the library's own.

usage: tools/operators.py        at the top of the repository, once
"""

import glob
import re

OWN = re.compile(r"^use (Rattle\.refusal\.specs\.Basics)\.\{([^}]*)\}\n", re.M)


def split(found):
    names = [it.strip() for it in found[2].split(",")]
    straight = [it for it in names if it != "spelt"]
    rest = [it for it in names if it == "spelt"]
    lines = f"use Rattle.std.specs.Prelude.{{{', '.join(straight)}}}\n" if straight else ""
    return lines + (f"use {found[1]}.{{{', '.join(rest)}}}\n" if rest else "")


for path in sorted(glob.glob("crates/*/specs/**/*.antt", recursive=True)):
    with open(path, encoding="utf-8") as f:
        old = f.read()
    new = OWN.sub(split, old)
    if new != old:
        with open(path, "w", encoding="utf-8") as f:
            f.write(new)
