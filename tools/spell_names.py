#!/usr/bin/env python3
"""Brings this repository's own definitions, lemmas and fields to snake case. Run once, at the top, after port.py of the kit.

names.tsv beside it has a row for each name: as port.py leaves it, the new spelling, and 'field' where a record has it as a field.
A name is turned where it stands whole: in specs/ and proofs/, in clauses and ghost lines of src/, in the text of must-fail edits,
and in the code spans of README.md and docs/. Behind a dot only fields turn, and names behind a module's path.
"""

import os
import re

HERE = os.path.dirname(os.path.realpath(__file__))
WORD = re.compile(r'[^\s(){}.;,@"«»]+')
SPAN = re.compile(r"`[^`\n]+`")
CAMEL = re.compile(r"[a-z0-9][A-Z]")


def table():
    rows = {}
    for line in open(os.path.join(HERE, "names.tsv"), encoding="utf-8"):
        old, new, kind = line.rstrip("\n").split("\t")
        rows[old] = (new, kind)
    return rows


ROWS = table()


def turned(text):
    """The words of code, without its comments."""

    def one(found):
        word = found.group(0)
        if word not in ROWS:
            return word
        new, kind = ROWS[word]
        before = text[: found.start()]
        if before.endswith(".") and kind != "field":
            module = re.search(r"(\w+)\.$", before)
            if not (module and module.group(1)[0].isupper()):
                return word
        return new

    return WORD.sub(one, text)


def spans(text):
    """The code spans of prose, and words in camel case that stand bare."""

    def camel(found):
        word = found.group(0)
        return ROWS[word][0] if word in ROWS and CAMEL.search(word) else word

    return re.sub(r"[\w'-]+", camel, SPAN.sub(lambda found: turned(found.group(0).replace("`", " ` ")).replace(" ` ", "`"), text))


def antt(text):
    out = []
    for line in text.split("\n"):
        at = re.search(r"(?:^|\s)--(?:\s|$)", line)
        cut = at.start() if at else len(line)
        out.append(turned(line[:cut]) + spans(line[cut:]))
    return "\n".join(out)


def rattle(text):
    """Clauses and ghost lines; a name of Rust's own is in snake case already, so nothing else of the code can be a row."""
    out = []
    for line in text.split("\n"):
        at = line.find("//")
        cut = at if at >= 0 else len(line)
        code = line[:cut]
        parts = re.split(r'("(?:\\.|[^"\\])*")', code)
        code = "".join(p if p.startswith('"') else turned(p) for p in parts)
        out.append(code + spans(line[cut:]))
    return "\n".join(out)


def edit(text):
    out = []
    for line in text.split("\n"):
        out.append(line[:4] + turned(line[4:]) if line.startswith(("old:", "new:")) else spans(line))
    return "\n".join(out)


def main():
    for top in ("crates", "docs", "README.md"):
        paths = [top] if os.path.isfile(top) else [os.path.join(d, f) for d, _, fs in os.walk(top) for f in fs if "/out/" not in d + "/"]
        for path in sorted(paths):
            kinds = {".antt": antt, ".rt": rattle, ".edit": edit, ".md": spans}
            kind = kinds.get(os.path.splitext(path)[1])
            if not kind or path in ("docs/PORT.md",):
                continue
            with open(path, encoding="utf-8") as f:
                old = f.read()
            new = kind(old)
            if new != old:
                with open(path, "w", encoding="utf-8") as f:
                    f.write(new)


if __name__ == "__main__":
    main()
