#!/usr/bin/env python3
"""Respells the names of this repository's definitions and lemmas: words in snake case, types in camel case.

usage: python3 tools/respell.py [FOLDER]     FOLDER: the top of a checkout, by default the working directory

Run once, after the kit's port.py. What is turned: every name with a dash that specs/ or proofs/ declares, an import gives (`as`) or a proof
binds, wherever an .antt file or a clause of an .rt file names it; comments and strings stay. The library's `AllByRecursion`, which port.py
imports as `All`, is imported as `Each`, since `All` is another word of the library. What stays: the names that Rattle makes (those of goals),
the dash before an operator (`after-++`), and the library's names.
"""

import os
import re
import sys

WORD = r"[\w'\-+∷≡≤ℕ×]"
DECLARED = re.compile(r"^\s*((?:abbrev |unfoldable |pub |data |record )*)([^\s(){}\[\],;.λ:=→][^(){}\[\],;.λ:=→]*?)(\s*[({].*)? : (.*)$")
# lemmas of the library, which a line of a term may seem to declare
JOINED = {"All-append", "All-push", "cond-false"}
# names whose plain respelling is taken: by the library's `bit_xor`, and by the phase `InStep`
OTHER = {"bit-xor": "bit_bit_xor", "In-step": "IsInStep"}
GIVEN = re.compile(r"(?<= as )[a-z][\w']*(?:-[\w']+)+")
EACH = "AllByRecursion as All"
BOUND = {"none-close", "now-read", "now-selected", "no-open", "open-now", "open-yet", "told-so"}
COMMENT = {".antt": re.compile(r"--(?=\s|$)[^\n]*"), ".rt": re.compile(r"//[^\n]*|\"(?:[^\"\\]|\\.)*\"")}


def sources(top):
    for folder, dirs, files in os.walk(os.path.join(top, "crates")):
        dirs[:] = sorted(d for d in dirs if d != "out")
        for f in sorted(files):
            if f.endswith((".antt", ".rt")):
                yield os.path.join(folder, f)


def declared(paths):
    """The names that .antt files declare, imports give and proofs bind, without those of goals."""
    names, goals = set(BOUND), set()
    for p in paths:
        kind = os.path.splitext(p)[1]
        with open(p, encoding="utf-8") as f:
            text = COMMENT[kind].sub("", f.read())
        names.update(GIVEN.findall(text))
        if kind == ".rt":
            continue
        answers = os.path.basename(p) in ("Answers.antt", "Invariants.antt")
        for line in text.split("\n"):
            m = DECLARED.match(line)
            if not m or m.group(2).strip().startswith(("let", "λ", "in ", "use ", "module")):
                continue
            found = [w for w in m.group(2).split() if w not in ("pub", "abbrev", "data", "record", "let")]
            (goals if answers and m.group(4).startswith("goal.") else names).update(found)
    return names - goals


def respelt(name):
    if name in JOINED or name in OTHER:
        return OTHER.get(name, name)
    head, tail = (name[:-3], name[-3:]) if name.endswith("-++") else (name, "")
    if head[0].isupper():
        return "".join(w[0].upper() + w[1:] for w in head.split("-")) + tail
    return head.replace("-", "_") + tail


def turn(text, kind, table):
    word = re.compile(r"(?<!" + WORD + r")(" + WORD + r"+)")
    out, at = [], 0
    for m in list(COMMENT[kind].finditer(text)) + [None]:
        end = m.start() if m else len(text)
        out.append(word.sub(lambda w: table.get(w.group(1), w.group(1)), text[at:end]))
        if m:
            out.append(m.group(0))
            at = m.end()
    return "".join(out)


def main():
    top = sys.argv[1] if len(sys.argv) > 1 else "."
    paths = list(sources(top))
    names = declared(paths)
    table = {n: respelt(n) for n in sorted(names) if "-" in n.strip("-") and respelt(n) != n}
    by_new = {}
    for old, new in table.items():
        by_new.setdefault(new, []).append(old)
    for new, olds in sorted(by_new.items()):
        if len(olds) > 1 or new in names:
            print(f"falls together: {new} from {', '.join(olds)}{' and itself' if new in names else ''}")
    for p in paths:
        kind = os.path.splitext(p)[1]
        with open(p, encoding="utf-8") as f:
            text = f.read()
        bare = COMMENT[kind].sub("", text)
        words = set(re.findall(WORD + r"+", bare))
        for old in sorted(words & set(table)):
            if table[old] in words:
                print(f"stands already in {p}: {table[old]}, beside {old}")
        turned = turn(text, kind, table)
        if EACH in turned:
            turned = turn(turned, kind, {"All": "Each"})
        if turned != text:
            with open(p, "w", encoding="utf-8") as f:
                f.write(turned)
    print(f"{len(table)} names turned")


main()
