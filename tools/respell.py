#!/usr/bin/env python3
"""Respells the repository's own definitions and lemmas by tools/respell.tsv (old, a tab, new), in one pass over whole words.

usage: tools/respell.py [FOLDER]      the checkout's top, by default the folder above this script

In code all words turn; in a comment those in backquotes, and words with an inner capital. In Markdown, words in backquotes and in fenced blocks.
In a Proof.antt a word with a dash behind a dot is a name that the check makes, and stays.
"""
import os
import re
import sys

HERE = os.path.dirname(os.path.realpath(__file__))
WORD = r'[^\s(){}.;,@"«»`]+'
PARTS = re.compile(r'(?P<comment>(?<![^\s(){}.;,@"«»])--[^\n]*|//[^\n]*)|(?P<dot>\.)?(?P<word>' + WORD + ")")
SPAN = re.compile(r"`[^`\n]+`")
FENCE = re.compile(r"(?ms)^```[^\n]*\n.*?^```")


def table():
    with open(os.path.join(HERE, "respell.tsv"), encoding="utf-8") as f:
        return dict(line.rstrip("\n").split("\t") for line in f if line.strip())


def words(text, names):
    def one(m):
        word = m[0]
        if word in names:
            return names[word]
        bare = word.strip("'’:?!")
        return word.replace(bare, names[bare]) if bare in names and bare != word else word

    return re.sub(WORD, one, text)


def comment(text, names):
    inner = {a: b for a, b in names.items() if "-" not in a and a != a.lower()}
    out, at = [], 0
    for m in SPAN.finditer(text):
        out += [words(text[at : m.start()], inner), words(m[0], names)]
        at = m.end()
    return "".join(out + [words(text[at:], inner)])


def code(text, names, made):
    def part(m):
        if m["comment"]:
            return comment(m["comment"], names)
        word = m["word"]
        if made and m["dot"] and "-" in word:
            return m[0]
        return (m["dot"] or "") + names.get(word, word)

    return PARTS.sub(part, text)


def page(text, names):
    turned = FENCE.sub(lambda m: words(m[0], names), text)
    return SPAN.sub(lambda m: words(m[0], names), turned)


def files(top):
    for folder, folders, names in os.walk(top):
        folders[:] = sorted(d for d in folders if d not in ("out", "target", ".git"))
        for name in sorted(names):
            yield os.path.join(folder, name)


def main():
    top = sys.argv[1] if len(sys.argv) > 1 else os.path.dirname(HERE)
    names, turned = table(), 0
    for path in files(top):
        with_code = path.endswith((".antt", ".rt", ".edit"))
        if not with_code and not (path.endswith(".md") and not path.endswith("docs/PORT.md")):
            continue
        with open(path, encoding="utf-8") as f:
            old = f.read()
        new = code(old, names, path.endswith("/Proof.antt")) if with_code else page(old, names)
        if new != old:
            turned += 1
            with open(path, "w", encoding="utf-8") as f:
                f.write(new)
    print(f"respell: {turned} files")


main()
