#!/usr/bin/env python3
"""Brings the repository's own definitions and lemmas to Rattle's spelling of names.

usage: python3 tools/respell.py        at the top of the repository, once, right after the toolchain's port.py

Words are in snake case, facts and types in camel case, a prime is an apostrophe. What src/ declares, exported
names, strings, inputs and outputs keep their names; so do the names that the checker makes of them.
A new name that something else has already is printed, and then nothing is written.
"""

import glob
import re
import sys

# Where the plain rule would give a definition the name of a field or of another lemma.
SPECIAL = {
    "first-row": "first_row_cut",
    "datetime-type": "is_datetime_type",
    "duration-type": "is_duration_type",
    "cell-count": "count_of_cells",
    "text-place": "place_of_text",
    "ten-to-22": "ten_to_22_seen",
    "minus-zero": "minus_zero_seen",
}
# Parameters and names of imports that the plain rule, which goes by declarations, doesn't see.
LOCALS = [
    "sheet-text", "after-point", "exponent-length", "point-in-time", "length-of-time", "coercion-told",
    "y-is", "room-holds", "room-asked", "limits-asked", "date-by", "bytes-asked", "as-whole", "as-moment", "as-float",
]
# A lemma that now would have the name of the definition that it is about.
LEMMAS = {"crates/calendar/proofs/": {"whole_part": "whole_part_lem"}}

SIGNED = re.compile(r"^\s*(?:pub )?([^\s(){}\[\]:.;,λ«»\"]+) : ")
HEADED = re.compile(r"^\s*(?:unfoldable )?(?:abbrev )?(?:pub )?(?:abbrev )?(?:unfoldable )?(?:record |data )?([^\s(){}\[\]:.;,λ«»\"]+)(?: \([^)]*\)| \{[^}]*\})* : ")
TOKEN = re.compile(r"«?[^\s(){}\[\]:.;,λ«»\"]+»?")


def is_answer(path):
    return path.rsplit("/", 1)[1] in ("Answers.antt", "Invariants.antt", "Choices.antt")


def snake(name):
    if name in SPECIAL:
        return SPECIAL[name]
    name = name.replace("′", "'")
    if name[0].isupper():
        return "".join(w[0].upper() + w[1:] for w in name.split("-"))
    name = name.replace("-", "_")
    return re.sub(r"([a-z0-9])([A-Z])", lambda m: m.group(1) + "_" + m.group(2).lower(), name)


def declared(path):
    for line in open(path, encoding="utf-8"):
        if line.lstrip().startswith("--"):
            continue
        m = SIGNED.match(line) or HEADED.match(line)
        if m:
            yield m.group(1)


def main():
    antt = sorted(p for p in glob.glob("crates/*/specs/**/*.antt", recursive=True) + glob.glob("crates/*/proofs/**/*.antt", recursive=True))
    rust = sorted(glob.glob("crates/*/src/**/*.rt", recursive=True))
    names = {n: n.replace("-", "_") for n in LOCALS}
    for p in antt:
        if not is_answer(p):
            for n in declared(p):
                new = snake(n)
                if new != n:
                    names[n] = new
    text = {p: open(p, encoding="utf-8").read() for p in antt + rust}

    bad = []
    olds = {}
    for old, new in names.items():
        olds.setdefault(new, []).append(old)
    for new, old in olds.items():
        if len(old) > 1:
            bad.append(f"{new}: {', '.join(sorted(old))}")
    fields = set()
    for p in rust:
        body = re.sub(r"//.*", "", text[p])
        for m in re.finditer(r"\bstruct \w+[^;{(]*\{(.*?)\n\}", body, re.S):
            fields |= set(re.findall(r"(\w+):", m.group(1)))
        fields |= set(re.findall(r"\b(?:const|static) (\w+)", body)) | set(re.findall(r"\bghost (\w+):", body))
    declared_names = {n for p in antt if not is_answer(p) for n in declared(p)}
    for old, new in names.items():
        if new in fields:
            bad.append(f"{old}: a field, a constant or a ghost member is called {new}")
        if new in declared_names and not any(old in d and new in d for d in LEMMAS.values()) and new not in {k for d in LEMMAS.values() for k in d}:
            bad.append(f"{old}: something is called {new} already")
    if bad:
        print("\n".join(sorted(bad)), file=sys.stderr)
        return 1

    for p, old_text in text.items():
        foreign = set()
        for module, items in re.findall(r"use ([^\s{;]+)\.\{([^}]*)\}", old_text):
            crate = module.split(".")[1] if module.startswith("Rattle.") else ""
            if not glob.glob(f"crates/{crate}/src") or not crate:
                foreign |= {i.split(" as ")[0].strip(" «»") for i in items.split(",")}
        lemmas = next((d for start, d in LEMMAS.items() if p.startswith(start)), {})

        def turned(m):
            word = m.group(0)
            bare = word.strip("«»")
            if bare in foreign:
                return word
            before = old_text[m.start() - 1] if m.start() else ""
            after = old_text[m.end()] if m.end() < len(old_text) else ""
            if bare in lemmas and before != "." and after != ".":
                return lemmas[bare]
            return names.get(bare, word)

        out, at = [], 0
        for m in TOKEN.finditer(old_text):
            out.append(old_text[at:m.start()])
            line_start = old_text.rfind("\n", 0, m.start()) + 1
            comment = re.search(r"//|--(?: |$)", old_text[line_start:m.start()])
            quoted = p.endswith(".rt") and old_text.count('"', line_start, m.start()) % 2
            out.append(m.group(0) if quoted or (comment and m.group(0) not in names) else turned(m))
            at = m.end()
        new_text = "".join(out) + old_text[at:]
        new_text = re.sub(r"«([a-z]\w*)»", lambda m: m.group(1) if m.group(1) not in RESERVED else m.group(0), new_text)
        if new_text != old_text:
            with open(p, "w", encoding="utf-8") as f:
                f.write(new_text)
    for old, new in sorted(names.items()):
        print(f"{old} -> {new}")
    return 0


RESERVED = set("data record deriving module where use mod pub package open as unfoldable abbrev axiom unfold unfolding ruleset mutual infix infixl infixr elim let in do coe fcoe tcoe hcom com".split())

if __name__ == "__main__":
    sys.exit(main())
