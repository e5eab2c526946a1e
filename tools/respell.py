#!/usr/bin/env python3
"""Respells the definitions and lemmas of crates/ in snake case, once, for the move to a newer Rattle.

A definition of specs/ or proofs/ with a dash in its name gets underscores, where it is declared and
wherever it is cited: in the .antt files, and in the clauses and ghost items of the .rt files. Names of
the library, names that Rattle makes (they stand in answers as `goal.NAME`), code, text and comments in
.rt files stay. It prints the names that would fall together with another one and renames those as
CHOSEN says.

    python3 tools/respell.py [ROOT]
"""
import os
import re
import sys

ROOT = os.path.join(sys.argv[1] if len(sys.argv) > 1 else ".", "crates")
END = r"\s(){}\[\].,;:@\"⟦⟧⌜⌝∥λ"
TOKEN = re.compile(rf"[^{END}]+")
SIGNATURE = re.compile(rf"^ *(?:(?:pub|abbrev|unfoldable) )*([^{END}]+) :(?= |$)")
DECLARED = re.compile(rf"^ *(?:(?:pub|abbrev) )*(?:data|record) (?:pub )?([^{END}]+)")
ALIAS = re.compile(rf" as ([^{END}]+)")
GHOST = re.compile(r"\b(?:ghost|requires|ensures)\b[^;{=]*[{;=]")
# variables of lemmas, and names that unfinished clauses already cite
MORE = {"row-table", "record-table", "listing-row", "nine-row", "true-claim", "all-but", "every-cleared",
        "cell-reply", "claim-reply", "zone-reply", "steps-reply", "found-reply", "hits-along", "merge-sum-claim"}
# where the plain respelling would be the name of something else
CHOSEN = {}


def files(ending):
    for folder, _, names in sorted(os.walk(ROOT)):
        for name in sorted(names):
            if name.endswith(ending) and "/out/" not in folder:
                yield os.path.join(folder, name)


def own_names():
    names = set(MORE)
    for path in files(".antt"):
        answers = os.path.basename(path) in ("Answers.antt", "Invariants.antt", "Proof.antt")
        for line in open(path, encoding="utf-8"):
            for found in (SIGNATURE.match(line), DECLARED.match(line)):
                if found and not (answers and ": goal." in line):
                    names.add(found[1])
    return names


def ghost_parts(text):
    """The ghost items and clauses of a .rt file, as (start, end)."""
    at = 0
    while True:
        found = GHOST.search(text, at)
        if not found:
            return
        line = text.rfind("\n", 0, found.start()) + 1
        if "//" in text[line:found.start()]:
            at = found.end()
            continue
        start = found.start()
        if text.startswith("ghost use", start):
            end = text.index(";", start)
        else:
            end, depth = text.find("{", start), 0
            semi = text.find(";", start)
            if end < 0 or (0 <= semi < end):
                at = found.end()
                continue
            while True:
                depth += {"{": 1, "}": -1}.get(text[end], 0)
                end += 1
                if depth == 0:
                    break
        yield start, end
        at = end


def main():
    names = own_names()
    turned = {n: CHOSEN.get(n, n.replace("-", "_").replace("′", "'")) for n in names if "-" in n or "′" in n}
    plain = names - set(turned)
    made = {}
    for old, new in sorted(turned.items()):
        if new in plain or new in made:
            print(f"falls together: {old} and {made.get(new, new)}")
        made[new] = old

    def turn(text):
        return TOKEN.sub(lambda m: turned.get(m[0], m[0]), text)

    count = 0
    for path in files(".antt"):
        text = open(path, encoding="utf-8").read()
        new = "".join(turn(line) for line in text.splitlines(True))
        if new != text:
            open(path, "w", encoding="utf-8").write(new)
            count += 1
    for ending in (".rt", ".edit"):
        for path in files(ending):
            text = open(path, encoding="utf-8").read()
            new, at = [], 0
            for start, end in ghost_parts(text):
                new += [text[at:start], turn(text[start:end])]
                at = end
            new = "".join(new) + text[at:]
            if new != text:
                open(path, "w", encoding="utf-8").write(new)
                count += 1
    print(f"{len(turned)} names, {count} files")


if __name__ == "__main__":
    main()
