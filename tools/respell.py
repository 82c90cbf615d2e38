#!/usr/bin/env python3
"""Respells this repository's own definitions and lemmas: words in snake case.

Run once, at the top, on a tree as port.py leaves it. A name is turned if a file of specs/ or proofs/ declares it and it has an inner capital or a
dash: `dateOf` and `date-read` become `date_of` and `date_read`. Types, modules, functions of src/, names of the library and the names that the
checker makes (the steps and goals of a function's proof) stay. Where a lemma would fall together with a definition, it ends in `_lem`. In comments and pages
only what stands in backticks or a fence is turned.
"""

import os
import re

LETTER = r"A-Za-z0-9_'\-\u2080-\u2089\u0370-\u03ff\u2115\u2124"
NAME = re.compile(rf"[A-Za-z_\u0370-\u03ff][{LETTER}]*")
DECLARED = re.compile(rf"^\s*(?:(?:abbrev|unfoldable|pub|opaque)\s+)*([A-Za-z_\u0370-\u03ff][{LETTER}]*)\s*:(?!=)", re.M)
MADE = re.compile(r"\btie\.(?:Need|invariant|decreases)")
# declared in another way than at the head of a line
OTHERS = ["answerFor", "place-listed", "refusedWith", "by-either", "date-answers", "amount-answers"]
# lemmas that already have the name which a definition takes now
LEMMAS = ["adds_then", "end_after", "row_put", "no_key", "is-held", "no-row"]


def files(top, endings):
    for folder, inner, names in os.walk(top):
        inner[:] = sorted(d for d in inner if d not in ("out", "target", ".git"))
        for name in sorted(names):
            if name.endswith(endings):
                yield os.path.join(folder, name)


def read(path):
    with open(path, encoding="utf-8") as f:
        return f.read()


def snake(name):
    name = re.sub(r"^getD(?=-)", "get_or", name)
    name = re.sub(r"([a-z0-9])([A-Z])", lambda m: m.group(1) + "_" + m.group(2).lower(), name)
    return name.replace("-", "_")


def turned():
    old = set(OTHERS)
    for path in files("crates", ".antt"):
        for line in read(path).split("\n"):
            m = DECLARED.match(line)
            if m and m.group(1)[0].islower() and not MADE.search(line) and ("-" in m.group(1) or re.search(r"[a-z0-9][A-Z]", m.group(1))):
                old.add(m.group(1))
    new = {name: snake(name) for name in old}
    definitions = {new[name] for name in old if "-" not in name}
    for name in old:
        if "-" in name and new[name] in definitions:
            new[name] += "_lem"
    new.update({name: snake(name) + "_lem" for name in LEMMAS})
    return new


def respell(text, new):
    return NAME.sub(lambda m: new.get(m.group(0), m.group(0)), text)


def quoted(text, new):
    """Prose: what stands between backticks."""
    return re.sub(r"`[^`\n]+`", lambda m: respell(m.group(0), new), text)


def source(text, new, comment):
    """Code: all but the comments."""
    out = []
    for line in text.split("\n"):
        at = line.find(comment)
        at = len(line) if at < 0 else at
        out.append(respell(line[:at], new) + quoted(line[at:], new))
    return "\n".join(out)


def page(text, new):
    """A page: its fences, and what stands between backticks."""
    pieces = text.split("```")
    return "```".join(respell(p, new) if i % 2 else quoted(p, new) for i, p in enumerate(pieces))


def main():
    new = turned()
    for top, endings, turn in [
        ("crates", ".antt", lambda t: source(t, new, "--")),
        ("crates", ".rt", lambda t: source(t, new, "//")),
        ("crates", ".edit", lambda t: respell(t, new)),
        ("docs", ".md", lambda t: page(t, new)),
        (".", "README.md", lambda t: page(t, new)),
    ]:
        for path in files(top, endings):
            before = read(path)
            after = turn(before)
            if after != before:
                with open(path, "w", encoding="utf-8") as f:
                    f.write(after)


main()
