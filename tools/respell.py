#!/usr/bin/env python3
"""Brings this repository's own names of definitions and lemmas to today's spelling: camelCase becomes snake_case.

usage: python3 tools/respell.py            at the top of the repository, once, after port.py

In .antt files and in the clauses, comments and ghost lines of .rt files each word in camelCase is one of the
repository's own names (code has none): `judgedOf` becomes `judged_of`. So it is in must-fail/*.edit, where port.py
changed nothing. One name would fall together with another: the lemma `tag_fits` of wire/proofs/Arriving becomes `tag-fits`,
since the definition `tagFits` of policies is `tag_fits` now. Numbers in hexadecimal and texts in quotes stay as they are.
It says which names it made, and stops before it writes where two names of one file would become one.
"""

import os
import re
import sys

WORD = re.compile(r"""(?<![0-9A-Za-z_'"\\])[a-z][a-z0-9_]*[A-Z][A-Za-z0-9_]*(?![A-Za-z0-9_'])""")
STRING = re.compile(r'"(?:[^"\\]|\\.)*"')
LEMMA = ("tag_fits", "tag-fits")
LEMMA_FILES = ("crates/wire/proofs/Arriving.antt", "crates/gcm_packet/proofs/aead/open_gcm/Proof.antt")


def snake(word):
    word = re.sub(r"([a-z0-9])([A-Z])", r"\1_\2", word)
    return re.sub(r"([A-Z])([A-Z][a-z])", r"\1_\2", word).lower()


def files(root):
    for folder, dirs, names in os.walk(os.path.join(root, "crates")):
        dirs[:] = sorted(d for d in dirs if d != "out")
        for name in sorted(names):
            if name.endswith((".rt", ".antt", ".edit")):
                yield os.path.relpath(os.path.join(folder, name), root)


def respelled(text, made, quoted):
    """The text with its words respelled; where quoted, what stands in double quotes stays."""
    def turn(match):
        word = match.group(0)
        made[word] = snake(word)
        return made[word]

    if not quoted:
        return WORD.sub(turn, text)
    parts, at = [], 0
    for match in STRING.finditer(text):
        parts += [WORD.sub(turn, text[at:match.start()]), match.group(0)]
        at = match.end()
    return "".join(parts) + WORD.sub(turn, text[at:])


def main():
    root = os.getcwd()
    made, turned, clashes = {}, {}, []
    for path in files(root):
        with open(path, encoding="utf-8") as file:
            text = file.read()
        old = text
        if path in LEMMA_FILES:
            text = re.sub(r"(?<![A-Za-z0-9_'\-])" + LEMMA[0] + r"(?![A-Za-z0-9_'\-])", LEMMA[1], text)
        own = {}
        text = respelled(text, own, path.endswith(".rt"))
        made.update(own)
        if path.endswith(".antt"):
            bare = set(re.findall(r"(?<![.:A-Za-z0-9_'\-])[a-z][A-Za-z0-9_'\-]*", old if path not in LEMMA_FILES else text))
            clashes += [f"{path}: {word} and {new}" for word, new in own.items() if new in bare and path not in LEMMA_FILES]
        if text != old:
            turned[path] = text
    if clashes:
        print("names that fall together:\n" + "\n".join(clashes))
        return 1
    for path, text in turned.items():
        with open(path, "w", encoding="utf-8") as file:
            file.write(text)
    for word in sorted(made):
        print(word, made[word])
    print(f"{len(made)} names, {len(turned)} files")
    return 0


if __name__ == "__main__":
    sys.exit(main())
