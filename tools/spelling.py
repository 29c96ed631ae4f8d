#!/usr/bin/env python3
"""Respells the repository's own definitions and lemmas in snake case, with ' for a prime.

usage: python3 tools/spelling.py        at the top of the repository, once, after the kit's own script

What is declared in specs/ and proofs/ with a capital inside the word or with a hyphen is renamed wherever it stands: in those files, in the
clauses of src/, in must-fail edits, and between backquotes in documents. Types, modules, strings and the functions of src/ keep their names.
A lemma that would fall together with the definition that it speaks of has a name of its own in TOGETHER.
"""

import os
import re

WORD = r"[A-Za-z_][\w'′]*(?:-[\w'′]+)*"
TOGETHER = {
    "can-open": "can_open_in_form",
    "checked-from": "checked_cell_from",
    "encode-block": "encoded_block",
    "encode-entry": "encoded_entry",
    "encode-header": "encoded_header",
    "gone-on": "gone_on_marks",
    "head-of": "head_of_block",
    "is-at": "is_at_only",
    "long-bytes": "long_of_bytes",
    "number-of": "number_of_index",
    "raw-from": "raw_cell_from",
    "station-at": "station_of_bytes",
    "station-in": "station_from_parts",
    "word-bytes": "word_of_bytes",
    "Z-at": "z_at",
    "nil-in": "moved_by_nil",
}
# One name for two things that no file has both of: each is private to its file, or of a crate that the other's does not see.
# What a report's groups are called, in comments and documents.
LETTERS = {"iR", "tR"}
APART = {"in_column", "is_day", "on_day", "reports_on"}
DECLARED = re.compile(r"(?m)^\s*(?:abbrev |unfoldable )?(?:pub )?(?:abbrev |unfoldable )?(" + WORD + r")(?: \{[^{}:]*\})?\s*:(?!=)")
TOKEN = re.compile(r"(?<![\w'′-])" + WORD + r"(?![\w'′])")


def files(*endings):
    for top in ("crates", "docs", "tests", "README.md"):
        for folder, inner, names in os.walk(top) if os.path.isdir(top) else [(".", [], [top])]:
            inner[:] = sorted(it for it in inner if it not in ("out", "target", "data"))
            for name in sorted(names):
                if name.endswith(endings):
                    yield os.path.join(folder, name)


def read(path):
    with open(path, encoding="utf-8") as it:
        return it.read()


def snake(word):
    return TOGETHER.get(word) or re.sub(r"(?<=[a-z0-9'])([A-Z])", lambda it: "_" + it[1].lower(), word).replace("-", "_").replace("′", "'")


def declared(text):
    return set(DECLARED.findall(re.sub(r"--.*", "", text)))


def wanted():
    found = set()
    for path in files(".antt"):
        found |= declared(read(path))
    return {it: snake(it) for it in found if (it[0].islower() or it in TOGETHER) and snake(it) != it}


def known(text, names, declared_now):
    """The names, and those in the text that the kit's own script has respelled where they are declared."""
    found = {it for it in TOKEN.findall(text) if it[0].islower() and it not in names and snake(it) != it and snake(it) in declared_now}
    return {**names, **{it: snake(it) for it in found}}


def turned(text, names):
    """The text with each name respelled; a field or a step of a generated record (after a dot on a small word) goes by plain snake case."""

    def one(it):
        word = it[0]
        if word not in names:
            return word
        before = text[max(0, it.start() - 40) : it.start()]
        return word.replace("-", "_") if word in TOGETHER and re.search(r"(?:^|[^\w.])[a-z][\w.'-]*\.$", before) else names[word]

    return TOKEN.sub(one, text)


def of_comment(text, names, here):
    """A comment: words with a capital inside wherever they stand, words with a hyphen between backquotes or in a list of the file's lemmas."""
    names = {it: to for it, to in names.items() if it not in LETTERS}
    text = re.sub(r"`[^`]*`", lambda it: turned(it[0], names), text)
    if re.match(r"(?:--|//)     ", text):
        text = turned(text, {it: names[it] for it in here if it in names})
    return turned(text, {it: to for it, to in names.items() if "-" not in it and it not in LETTERS})


def foreign(text):
    """What a file takes from the kit's libraries, which have their own spelling."""
    found = set()
    for module, words in re.findall(r"(?m)^(?:ghost )?use ([^\s{]+)\.\{([^}]*)\}", text):
        parts = module.split(".")
        if parts[0] != "Rattle" or not os.path.isdir(os.path.join("crates", parts[1])):
            found |= {it.strip().split(" as ")[0] for it in words.split(",")}
    return found


def of_source(text, names, mark):
    taken = foreign(text)
    names = {it: to for it, to in names.items() if it not in taken}
    here, lines = declared(text), []
    for line in text.split("\n"):
        parts = re.split(r'(b?"(?:[^"\\]|\\.)*")', line) if mark == "//" else [line]
        at = next((i for i, part in enumerate(parts) if i % 2 == 0 and mark in part), None)
        rest = ""
        if at is not None:
            code, _, said = parts[at].partition(mark)
            rest = of_comment(mark + said + "".join(parts[at + 1 :]), names, here)
            parts = [*parts[:at], code]
        lines.append("".join(part if i % 2 else turned(part, names) for i, part in enumerate(parts)) + rest)
    return "\n".join(lines)


def of_edit(text, names):
    return "\n".join(turned(line, names) if line.startswith(("old:", "new:")) else re.sub(r"`[^`]*`", lambda it: turned(it[0], names), line) for line in text.split("\n"))


def of_page(text, names):
    names = {it: to for it, to in names.items() if it not in LETTERS}
    return re.sub(r"`[^`\n]*`", lambda it: turned(it[0], names), text)


def main():
    names = wanted()
    fell = {to for to in names.values() if sum(1 for it in names.values() if it == to) > 1} - APART
    assert not fell, sorted(fell)
    now = set(names.values())
    for path in files(".antt"):
        now |= declared(read(path))
    for path in files(".antt", ".rt", ".edit", ".md"):
        text = read(path)
        if path.endswith((".antt", ".rt")):
            new = of_source(text, names, "--" if path.endswith(".antt") else "//")
        else:
            here = known(text, names, now)
            new = of_edit(text, here) if path.endswith(".edit") else of_page(text, here)
        if new != text:
            with open(path, "w", encoding="utf-8") as it:
                it.write(new)


main()
