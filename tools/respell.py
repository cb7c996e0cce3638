#!/usr/bin/env python3
"""Brings the repository's own definitions and lemmas from camelCase to today's spelling: words in snake case, types in UpperCamel.

usage: tools/respell.py [ROOT]      rewrites crates/ (clauses, definitions, proofs, edits) and the pages below ROOT; run once

It follows a renaming by port.py, and changes names alone. First the lemmas and locals that a definition's new name would fall
together with get `_lem` (TOGETHER); then each camelCase word becomes snake case, but for two that are types (TYPES) and one that the
library renamed (LIBRARY). Functions of src/, exported names and strings have no camelCase word, which the script sees to.
"""
import glob
import os
import re
import sys

# a lemma (or local) whose name would be that of a definition, by the folder in which it is named
TOGETHER = {
    "area_of": ("crates/laws/specs/",),
    "flat_sound": ("crates/laws/specs/", "crates/sound/proofs/"),
    "held_bytes": ("crates/laws/specs/RouterChange.antt", "crates/requester/proofs/", "crates/state/proofs/"),
    "held_after": ("crates/promises/specs/",),
    "rows_same": ("crates/laws/specs/",),
    "in_place": ("crates/ranks/specs/",),
}
TYPES = {"prefixRest": "PrefixRest", "excludeRest": "ExcludeRest"}
LIBRARY = {"getD": "get_or"}
CAMEL = re.compile(r"(?<![A-Za-z0-9_'₀-₉.])[a-z][a-z0-9]*(?:[A-Z][a-z0-9]*)+(?![A-Za-z0-9_])")
FIELD = re.compile(r"(?<=\.)[a-z][a-z0-9]*(?:[A-Z][a-z0-9]*)+(?![A-Za-z0-9_])")


def snake(word):
    if word in TYPES or word in LIBRARY:
        return TYPES.get(word) or LIBRARY[word]
    return re.sub(r"[A-Z]", lambda m: "_" + m.group(0).lower(), word)


def respelled(path, text):
    for word, places in TOGETHER.items():
        if path.startswith(places):
            text = re.sub(r"(?<![A-Za-z0-9_'.-])%s(?![A-Za-z0-9_'-])" % word, word + "_lem", text)
    for shape in (CAMEL, FIELD):
        text = shape.sub(lambda m: snake(m.group(0)), text)
    return text


def in_source(text):
    """Camel-case words of a .rt file outside comments and clauses: there should be none."""
    code = re.sub(r"//[^\n]*|ghost use [^;]*;|\b(?:requires|ensures)[^\n]*", "", text)
    return CAMEL.findall(code)


def main(root):
    os.chdir(root)
    words = set()
    for path in sorted(glob.glob("crates/*/**/*", recursive=True)):
        if not path.endswith((".antt", ".rt", ".edit")) or "/out/" in path:
            continue
        with open(path, encoding="utf-8") as f:
            text = f.read()
        if path.endswith(".rt") and in_source(text):
            print("left: %s: %s" % (path, " ".join(in_source(text))))
        words |= set(CAMEL.findall(text))
        with open(path, "w", encoding="utf-8") as f:
            f.write(respelled(path, text))
    for path in sorted(glob.glob("docs/*.md") + glob.glob("crates/*/README.md") + glob.glob("reference/*.md") + ["README.md"]):
        with open(path, encoding="utf-8") as f:
            text = f.read()
        with open(path, "w", encoding="utf-8") as f:
            for shape in (CAMEL, FIELD):
                text = shape.sub(lambda m: snake(m.group(0)) if m.group(0) in words else m.group(0), text)
            f.write(text)
    print("%d words respelled" % len(words))


if __name__ == "__main__":
    main(sys.argv[1] if len(sys.argv) > 1 else ".")
