"""Lists functions that are alike but for names and numbers, in the sources under a folder.

    python3 tools/twins.py crates

Each group is one line: how many, and where. Bodies are compared with every name replaced by one word.
"""
import glob
import re
import sys

KEYWORDS = {"fn", "if", "else", "match", "for", "in", "let", "return", "self", "Self", "while", "loop", "mut", "as"}


def functions(text):
    """The name and the body of each function, by matching braces."""
    for found in re.finditer(r"\bfn (\w+)", text):
        head_end = re.compile(r"\{\n").search(text, found.end())
        if not head_end or ";\n" in text[found.end(): head_end.start()]:
            continue
        depth, at = 0, head_end.start()
        for at in range(head_end.start(), len(text)):
            depth += {"{": 1, "}": -1}.get(text[at], 0)
            if depth == 0:
                break
        yield found.group(1), text[: found.start()].count("\n") + 1, text[head_end.start(): at + 1]


def shape(body):
    """The body without comments, each name and number replaced."""
    body = re.sub(r"//[^\n]*", "", body)
    body = re.sub(r'"[^"]*"', "s", body)
    return re.sub(r"\w+", lambda word: word.group() if word.group() in KEYWORDS else "x", re.sub(r"\s+", " ", body))


def main(folder):
    groups = {}
    for path in sorted(glob.glob(folder + "/*/src/**/*.rt", recursive=True)):
        text = open(path, encoding="utf-8").read()
        for name, line, body in functions(text):
            if len(shape(body)) >= 24:
                groups.setdefault(shape(body), []).append(f"{path[len(folder) + 1:]}:{line} {name}")
    alike = [places for places in groups.values() if len(places) > 1]
    for places in sorted(alike, key=len, reverse=True):
        print(len(places), "; ".join(places))
    print(f"{len(alike)} groups, {sum(map(len, alike))} functions")


main(sys.argv[1])
