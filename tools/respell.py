#!/usr/bin/env python3
"""Brings this repository's own definitions and lemmas to today's spelling, once, after /opt/rattle/port/port.py.

usage: python3 tools/respell.py [TOP]        TOP is the repository, the current folder if left out

tools/respell.names has a line for each name: the old one and the new one. Words are in snake case, and a lemma that would have a
definition's name ends in _lem. A name changes in specs/ and proofs/, in the clauses of src/ (where the old spelling has a capital,
which no Rust name has), in must-fail edits of specs/ and src/, and between backticks in the pages.
"""

import os
import re
import sys

HERE = os.path.dirname(os.path.realpath(__file__))
NAMES = dict(line.split() for line in open(os.path.join(HERE, "respell.names"), encoding="utf-8"))
TOKEN = re.compile(r"(?<![\w'-])[A-Za-z_][\w'-]*")
TEXT = re.compile(r'"(?:[^"\\\n]|\\.)*"')
KNOWN = set()
TICKED = re.compile(r"`[^`\n]*`")
# Names of the library that port.py makes of a lemma of `multisets`; elsewhere they are fields of a Rust struct.
HERE_ONLY = {"in_both": "multisets", "some_words": "wording", "fixed_from": "cdrfile", "ready_by": "ledger events"}
FIELD_OF = {"in_both": re.compile(r"reconcile/specs/Shares\.antt$")}


def spelled(word, path, field):
    if word in HERE_ONLY:
        crate = path.split("crates/")[-1].split("/")[0]
        allowed = crate in HERE_ONLY[word].split() or (word in FIELD_OF and FIELD_OF[word].search(path))
        return NAMES[word] if allowed and not field else word
    if word in NAMES:
        new = NAMES[word]
        return new[: -len("_lem")] if field and "proofs" in path and new.endswith("_lem") and word.replace("-", "_") + "_lem" == new else new
    return word


def code(text, path, spelled=None):
    """The text with each name turned, but for what stands in quotation marks."""
    spelled = spelled or globals()["spelled"]
    parts, at = [], 0
    for m in TEXT.finditer(text):
        parts += [(text[at : m.start()], True), (m.group(), False)]
        at = m.end()
    parts.append((text[at:], True))
    turn = lambda t: TOKEN.sub(lambda m: spelled(m.group(), path, t[m.start() - 1 : m.start()] == "."), t)
    return "".join(turn(t) if is_code else t for t, is_code in parts)


def snake(word):
    return re.sub(r"(?<=[a-z0-9])[A-Z]", lambda m: "_" + m.group().lower(), word).replace("-", "_")


def known(word, path, field):
    """As spelled, and a name that port.py turned in specs/ too, where the new name stands there."""
    new = spelled(word, path, field)
    return snake(word) if new == word and word[0].islower() and snake(word) in KNOWN else new


def ticked(text, path):
    return TICKED.sub(lambda m: code(m.group(), path), text)


def antt(text, path):
    return "\n".join(ticked(line, path) if line.lstrip().startswith("--") else code(line, path) for line in text.split("\n"))


def rust_word(m):
    word = m.group()
    return NAMES[word] if word in NAMES and re.search(r"[a-z][A-Z]", word) else word


def rust(text, path):
    def line_of(line):
        at = line.find("//")
        before, after = (line, "") if at < 0 else (line[:at], line[at:])
        parts, start = [], 0
        for m in TEXT.finditer(before):
            parts += [TOKEN.sub(rust_word, before[start : m.start()]), m.group()]
            start = m.end()
        parts.append(TOKEN.sub(rust_word, before[start:]))
        return "".join(parts) + ticked(after, path)

    return "\n".join(line_of(line) for line in text.split("\n"))


def edit(text, path):
    """A must-fail edit: its lines old and new are of the file that the line above names."""
    out, turn = [], rust
    for line in text.split("\n"):
        if line.startswith("file:"):
            turn = rust if line.strip().endswith(".rt") else lambda text, path: code(text, path, known)
        out.append(turn(line, path) if line.startswith(("old:", "new:")) else line)
    return "\n".join(out)


def page(text, path):
    return TICKED.sub(lambda m: code(m.group(), path, known), text)


def turned(path):
    if path.endswith(".antt"):
        return antt
    if path.endswith(".rt"):
        return rust
    if path.endswith(".edit"):
        return edit
    if path.endswith(".md") and "/PORT" not in path:
        return page
    return None


def main():
    top = os.path.realpath(sys.argv[1] if len(sys.argv) > 1 else ".")
    changed = 0
    paths = []
    for folder, folders, files in os.walk(top):
        folders[:] = sorted(f for f in folders if f not in (".git", "out", "target", "tools", "lessons"))
        for name in sorted(files):
            path = os.path.join(folder, name)
            if turned(path) is not None:
                paths.append(path)
    paths.sort(key=lambda p: (not p.endswith((".antt", ".rt")), p))
    for path in paths:
        with open(path, encoding="utf-8") as f:
            old = f.read()
        new = turned(path)(old, os.path.relpath(path, top))
        if path.endswith(".antt"):
            KNOWN.update(TOKEN.findall(new))
        if new != old:
            changed += 1
            with open(path, "w", encoding="utf-8") as f:
                f.write(new)
    print(f"respell: {changed} files")


if __name__ == "__main__":
    main()
