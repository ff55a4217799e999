#!/usr/bin/env python3
"""Spells the definitions and lemmas of specs/ and proofs/ as today's Rattle does: words in snake case.

usage: python3 tools/spell.py [--dry]     at the top of the checkout, once, right after the toolchain's own script

A definition's camelCase name becomes snake_case, and so does a lemma's name-with-dashes, in specs/, proofs/, src/ and docs/.
Names that Rattle makes (goals, invariants, measures, the fields of a goal's facts) keep their dashes; types, modules,
functions of src/, strings, inputs and outputs keep their names. It stops where two names would fall together; a definition
may have the name of a function of src/, which no clause can name.
"""
import glob
import re
import sys

# what Rattle asks for by name in a folder of proofs/
MADE = re.compile(r"^(returns|loop|invariant|decreases|overflow|bounds|slice|nonzero|offset|prove|ghost)-|-requires")
# lemmas about a definition that would get its name, and one about a list word that std has renamed
OTHER = {
    "lines-from": "lines_from_lem",
    "opened-unless": "opened_unless_lem",
    "passing-at": "passing_at_lem",
    "settles-all": "settles_all_lem",
    "getD-same": "get_or_same",
}
WORD = r"A-Za-z0-9_'-"
TOKEN = re.compile(rf"(?<![{WORD}])[a-z][{WORD}]*")


def files(*kinds):
    return sorted(p for kind in kinds for p in glob.glob(f"crates/*/{kind}", recursive=True))


def snake(name):
    name = re.sub(r"([a-z0-9])([A-Z])", lambda m: m.group(1) + "_" + m.group(2).lower(), name)
    return name.replace("-", "_")


def declared():
    names = set()
    for path in files("specs/**/*.antt", "proofs/**/*.antt"):
        for line in open(path):
            m = re.match(r"^\s*(?:abbrev |unfoldable |pub )*([a-z][^\s:(){}.,;]*)\s*(?:\([^:]*:.*\)\s*)*:\s", line)
            if m and m.group(1) not in ("let", "use", "mod"):
                names.add(m.group(1))
    return names


def turn(text, turns, dashes):
    def word(m):
        name = m.group(0)
        if "-" in name and (not dashes or text[m.start() - 1 : m.start()] == "."):
            return name
        return turns.get(name, name)

    return TOKEN.sub(word, text)


def main():
    names = declared()
    turns = {n: OTHER.get(n, snake(n)) for n in names if not MADE.search(n)}
    turns = {n: t for n, t in turns.items() if n != t}
    proved = files("specs/**/*.antt", "proofs/**/*.antt")
    words = set(names)
    for path in proved:
        words |= set(TOKEN.findall(open(path).read()))
    new = list(turns.values())
    clash = sorted(n for n, t in turns.items() if t in words or new.count(t) > 1)
    # the folder and the goals of a function of src/ have its name, and so may a definition
    functions = set(re.findall(r"fn ([a-z_0-9]+)", "".join(open(p).read() for p in files("src/**/*.rt"))))
    clash = [n for n in clash if new.count(turns[n]) > 1 or turns[n] not in functions]
    if clash:
        sys.exit("these names would fall together with others: " + ", ".join(f"{n} ({turns[n]})" for n in clash))
    if "--dry" in sys.argv:
        print("\n".join(f"{n} {t}" for n, t in sorted(turns.items())))
        return
    for path in proved + files("src/**/*.rt") + sorted(glob.glob("docs/*.md")):
        text = open(path).read()
        turned = turn(text, turns, path.endswith(".antt"))
        if turned != text:
            open(path, "w").write(turned)
    print(f"spell: {len(turns)} names")


if __name__ == "__main__":
    main()
