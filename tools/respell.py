#!/usr/bin/env python3
"""Brings the repository's own definitions and lemmas to the spelling of today's Rattle, once, after port.py.

usage: python3 tools/respell.py        at the top of the repository

- a word is in snake case: sha1Of -> sha1_of; types, facts and modules stay in camel case;
- a dash stays only where it joins two names, as in put-length; before a plain word it becomes an underscore: and-true -> and_true;
- three crates bear names that today's kit or its tactics have: log, sha1 and ground become sector_log, sha1_digest and bedrock.

Functions of src/, exported names, strings, inputs and outputs keep their names. Of names that would fall together one gets `_lem`, and both are told.
"""
import glob
import os
import re
import subprocess
import sys

CRATES = {"log": "sector_log", "sha1": "sha1_digest", "ground": "bedrock"}
# Definitions whose plain name another definition has.
PICKED = {"byteMore": "byte_over", "writeAbc": "write_of_abc", "listAt": "list_read_at", "blocksAt": "blocks_dated"}
W = r"[^\s(){}.;,@\"«»\[\]\\]+"
TOKEN = re.compile(r"--[^\n]*|//[^\n]*|\"(?:[^\"\\\n]|\\.)*\"|" + W)
DEFINED = re.compile(r"^\s*((?:abbrev |unfoldable |pub |record |data |private )*)(" + W + r")(?= :| \{[^}]*\}| \()")
FIELD = re.compile(r"(?:^|[{;])\s*(" + W + r")(?= =)")


def files(pattern):
    return sorted(glob.glob(pattern, recursive=True))


def read(path):
    with open(path, encoding="utf-8") as it:
        return it.read()


def write(path, text):
    with open(path, "w", encoding="utf-8") as it:
        it.write(text)


def snake(name):
    return re.sub(r"(?<=[a-z0-9])([A-Z])", lambda m: "_" + m.group(1).lower(), name)


def main():
    antt = [f for f in files("crates/*/specs/**/*.antt") + files("crates/*/proofs/**/*.antt")]
    lemma_files = [f for f in antt if not f.endswith("/Proof.antt")]
    names, functions, kit = set(), set(), set()
    for f in lemma_files:
        for line in read(f).splitlines():
            m = DEFINED.match(line)
            if m and not line.lstrip().startswith(("--", "use ", "module")):
                names.add(m.group(2))
                if "/specs/" in f or "abbrev" in m.group(1) or "unfoldable" in m.group(1):
                    functions.add(m.group(2))
    for f in antt + files("crates/*/src/**/*.rt"):
        for m in re.finditer(r"\buse ((?!Rattle\.)[\w.·]+|Rattle\.std\.[\w.·]+)\.\{([^}]*)\}", read(f)):
            kit.update(x.strip() for x in m.group(2).split(","))
    words = {"length", "append", "take", "drop", "put", "replicate", "set", "map"} | {k for k in kit if re.fullmatch(r"[a-z_]+", k)}
    joined = {n for n in functions | words if "-" not in n}

    def turned(name):
        if re.match(r"[A-Z◌_]", name) or not re.match(r"[a-z]", name):
            head, dash, rest = name.partition("-")
            return name
        parts = [snake(p) for p in name.split("-")]
        out = parts[0]
        for k, p in enumerate(parts[1:]):
            both = name.split("-")[k + 1] in joined and name.split("-")[k] in joined
            out += ("-" if both else "_") + p
        return out

    renamed, taken = {}, {}
    for n in sorted(names - kit):
        t = PICKED.get(n) or turned(n)
        if t != n:
            renamed[n] = t
    # Of names that would fall together the definition has the name, and a lemma gets `_lem`.
    for n, t in sorted(renamed.items(), key=lambda it: (it[0] not in functions, it[0])):
        other = taken.get(t) or (t if t in names or t in kit else None)
        if other:
            print(f"fall together: {n} -> {t}, and {other}" + (" (both are definitions)" if n in functions and other in functions else ""))
            loser = other if n in functions and other in names - functions else n
            winner = n if loser == other else other
            u = t + "_lem"
            if u in names or u in kit or u in taken:
                sys.exit(f"no name for {loser}")
            taken[u], renamed[loser] = loser, u
            if winner == n:
                taken[t] = n
            continue
        taken[t] = n

    def word(w):
        return renamed.get(w, w)

    def comment(text):
        text = re.sub(r"[A-Za-z0-9]+", lambda m: renamed.get(m.group(0), m.group(0)) if re.search(r"[a-z0-9][A-Z]", m.group(0)) else m.group(0), text)
        return re.sub(r"`(" + W + r")`", lambda m: "`" + word(m.group(1)) + "`", text)

    def token(m, rust):
        w, text, end = m.group(0), m.string, m.end()
        if w.startswith("--") or w.startswith("//"):
            return comment(w)
        # A name of src/ may be spelled as a lemma that gets `_lem`.
        if re.fullmatch(r"[a-z0-9_]+", w) and (rust or text[m.start() - 1 : m.start()] == "." or text[end : end + 1] == "."):
            return w
        return w if w.startswith('"') else word(w)

    def paths(text, rust):
        for old, new in CRATES.items():
            text = re.sub(rf"\bRattle\.{old}\.", f"Rattle.{new}.", text)
            if rust:
                text = re.sub(rf"(?<![\w:.]){old}::", f"{new}::", text)
                text = re.sub(rf"(?m)^(pub )?use {old};", rf"\1use {new};", text)
        return text

    for f in antt + files("crates/*/src/**/*.rt"):
        text = read(f)
        rust = f.endswith(".rt")
        new = paths(TOKEN.sub(lambda m: token(m, rust), text), rust)
        if new != text:
            write(f, new)
    for old, new in CRATES.items():
        if os.path.isdir(f"crates/{old}"):
            subprocess.run(["git", "mv", f"crates/{old}", f"crates/{new}"], check=True)
    lines = read("crates.txt").split("\n")
    for k, line in enumerate(lines):
        if not line.startswith("#"):
            lines[k] = re.sub(r"\b(" + "|".join(CRATES) + r")\b", lambda m: CRATES[m.group(0)], line)
    write("crates.txt", "\n".join(lines))
    os.makedirs("tools", exist_ok=True)
    write("tools/respelled.tsv", "".join(f"{a}\t{b}\n" for a, b in sorted(renamed.items())))
    print(f"{len(renamed)} names respelled", file=sys.stderr)


main()
