#!/usr/bin/env python3
"""Brings names in README and docs/ to the spelling that the crates have, once, after respell.py.

usage: python3 tools/respell_docs.py        at the top of the repository

A name in backticks that stands nowhere in crates/ is replaced where its spelling of today does. What it cannot place is printed.
"""
import glob
import re

W = r"[A-Za-z◌_][\w'-]*"
CRATES = {"log": "sector_log", "sha1": "sha1_digest", "ground": "bedrock"}


def read(path):
    with open(path, encoding="utf-8") as it:
        return it.read()


words = set()
for f in glob.glob("crates/**/*", recursive=True):
    if f.endswith((".rt", ".antt", ".edit")) and "/out/" not in f:
        words.update(re.findall(r"[^\s(){}.;,@\"«»\[\]\\:`]+", read(f)))
        words.update(f.replace(".", "/").split("/"))
table = dict(line.split("\t") for line in read("tools/respelled.tsv").splitlines())
snake = lambda n: re.sub(r"(?<=[a-z0-9])([A-Z])", lambda m: "_" + m.group(1).lower(), n)


def today(name):
    if name in words:
        return name
    for c in (table.get(name), snake(name), name.replace("-", "_"), snake(name).replace("-", "_"), snake(name) + "_lem"):
        if c and c in words:
            return c
    return None


lost = set()


def code(m):
    text = m.group(0)
    text = re.sub(r"\bcrates/(log|sha1|ground)/", lambda k: f"crates/{CRATES[k.group(1)]}/", text)

    def one(k):
        name = k.group(0)
        if not re.search(r"[a-z0-9][A-Z]|-", name):
            return name
        new = today(name)
        if new is None:
            if re.search(r"[a-z0-9][A-Z]", name) and name[0].islower():
                lost.add(name)
            return name
        return new

    return re.sub(W, one, text)


for f in ["README.md", *sorted(glob.glob("docs/*.md"))]:
    if f.endswith("PORT.md"):
        continue
    text = read(f)
    new = re.sub(r"(?<!`)`[^`\n]+`(?!`)", code, text)
    if new != text:
        with open(f, "w", encoding="utf-8") as it:
            it.write(new)
        print("changed", f)
print("left:", " ".join(sorted(lost)))
