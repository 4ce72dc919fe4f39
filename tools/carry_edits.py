#!/usr/bin/env python3
"""Carries the must-fail edits from the spelling of an older commit to today's, once, after port.py and respell.py.

usage: python3 tools/carry_edits.py [--write]        at the top of the repository

An edit whose old text still stands once, and whose texts no rule changes, is left. Of the others both texts are turned by the same rules, and a turned
old text must be, word for word, what stands today at the place that the older text had: then the rules are right there, and the new text is turned as
the port turned the old one. What is left is told, for a carry by hand in HAND.
"""
import difflib
import glob
import os
import re
import subprocess
import sys
from collections import Counter, defaultdict

BASE = "bf91b51"
CRATES = {"log": "sector_log", "sha1": "sha1_digest", "ground": "bedrock"}
OLDER = {new: old for old, new in CRATES.items()}
WORD = r"[^\s(){}.;,@\"«»\[\]\\λ]+"
TOKEN = re.compile(r"\"(?:[^\"\\\n]|\\.)*\"|\[\]|\.(?:\d+|[^\s(){}.;,@\"«»\[\]]+)|" + WORD + r"|\S")
# pairs of texts for one edit, by hand: path -> {(file, old): [(old, new), ..]}
HAND = {
    # rt fmt joined the lines of the tables
    ("crates/crc32_tables/must-fail/wrong_digit.edit", "    0xec68d02b,"): [(" 0xec68d02b,", " 0xec68d03b,")],
    ("crates/crc32_tables/must-fail/wrong_entry.edit", "    0x2d02ef8d,"): [(" 0x2d02ef8d,", " 0x2d02ef8c,")],
    ("crates/crc32_tables/must-fail/wrong_low_digit.edit", "    0x173f7b7d,"): [(" 0x173f7b7d,", " 0x173f7b7c,")],
    ("crates/one_block/must-fail/refusal_from_a_part.edit", "buffer .outcome .number ≡ 0"): [("buffer).outcome.number ≡ 0", "buffer).outcome.number ≡ 11")],
}


def show(path, at=BASE):
    r = subprocess.run(["git", "show", f"{at}:{path}"], capture_output=True)
    return r.stdout.decode() if r.returncode == 0 else None


def today(path):
    try:
        with open(path, encoding="utf-8") as f:
            return f.read()
    except OSError:
        return None


def lines_of(text):
    """The lines of an edit, as [kind, rest]: file, old, new or other."""
    out = []
    for line in text.split("\n"):
        m = re.match(r"(file|old|new): (.*)", line)
        out.append([m.group(1), m.group(2)] if m else [None, line])
    return out


def tokens(text):
    return [(m.group(0), m.start(), m.end()) for m in TOKEN.finditer(text)]


def table():
    with open("tools/respelled.tsv", encoding="utf-8") as f:
        return dict(line.rstrip("\n").split("\t") for line in f)


RESPELLED = table()
SEPARATES = set("→ ≡ ≢ ≤ < × + - * / % ^ ∷ ++ && || = : , ; λ . ( [ { cond_ in let ⌜ ⌝ ∸ ⊎ ≢ of".split())
OPEN, CLOSE = "([{", ")]}"
PLAIN = re.compile(r"\.(\d+|[A-Za-z_][\w'′]*)$")


def word(w, names):
    if w in names:
        return names[w]
    if w in RESPELLED:
        return RESPELLED[w]
    w = w.replace("′", "'")
    m = re.fullmatch(r"_(\S+)_", w)
    if m and not re.search(r"\w", m.group(1)):
        return "◌" + m.group(1) + "◌"
    return {"List·Memᴰ": "Memᴰ", "the-variants": "TheVariants", "isRead": "is_read", "unitOf": "unit_of"}.get(w, w)


def turned(text, names):
    """A text in today's spelling: its words, and a field behind what it is taken of."""
    ts = tokens(text)
    out = []  # pieces: [space before, text, kind]
    at = 0
    for w, a, b in ts:
        space = text[at:a]
        at = b
        if PLAIN.match(w) and space and out:
            # the application that the field is taken of
            k, depth = len(out), 0
            while k > 0:
                p = out[k - 1]
                if p[2] == "close":
                    depth += 1
                elif p[2] == "open":
                    if depth == 0:
                        break
                    depth -= 1
                elif depth == 0 and p[2] == "op":
                    break
                k -= 1
            # count atoms in out[k:]
            atoms, depth = 0, 0
            for p in out[k:]:
                if p[2] == "close":
                    depth -= 1
                    continue
                if depth == 0 and p[2] != "field":
                    atoms += 1
                if p[2] == "open":
                    depth += 1
            field = w if w[1:].isdigit() else "." + word(w[1:], names)
            if atoms > 1:
                out[k:] = [[out[k][0], "(", "open"], ["", out[k][1], out[k][2]]] + out[k + 1 :] + [["", ")", "close"]]
            out.append(["", field, "field"])
            continue
        if w in CLOSE:
            # a paren around what is one atom now goes
            k, depth = len(out) - 1, 0
            while k >= 0:
                if out[k][2] == "close":
                    depth += 1
                elif out[k][2] == "open":
                    if depth == 0:
                        break
                    depth -= 1
                k -= 1
            if w == ")" and k >= 0 and out[k][1] == "(" and out and out[-1][2] == "field":
                atoms, depth = 0, 0
                for p in out[k + 1 :]:
                    if p[2] == "close":
                        depth -= 1
                        continue
                    if depth == 0 and p[2] != "field":
                        atoms += 1
                    if p[2] == "open":
                        depth += 1
                if atoms == 1:
                    first = out[k][0]
                    del out[k]
                    out[k][0] = first
                    continue
            out.append([space, w, "close"])
        elif w in OPEN:
            out.append([space, w, "open"])
        elif w in SEPARATES:
            out.append([space, word(w, names), "op"])
        elif w.startswith(".") and len(w) > 1 and not space:
            out.append([space, "." + word(w[1:], names), "atom"])
        else:
            out.append([space, word(w, names), "atom"])
    new = "".join(s + t for s, t, _ in out) + text[at:]
    new = re.sub(r"\bRattle·(\w+)·(?:specs|proofs)\.", r"Rattle.\1.", new)
    new = re.sub(r"\bRattle·(\w+)", r"Rattle.\1", new)
    for old, crate in CRATES.items():
        new = re.sub(rf"\bRattle\.{old}\.", f"Rattle.{crate}.", new)
    return new


def mapping(old, new):
    """How words of the old file stand in the new one, told by the alignment of their lines and words."""
    seen = defaultdict(Counter)
    a, b = [t[0] for t in tokens(old)], [t[0] for t in tokens(new)]
    a2 = [word(t, {}) for t in a]
    for tag, i1, i2, j1, j2 in difflib.SequenceMatcher(None, a2, b, autojunk=False).get_opcodes():
        if tag == "equal" or i2 - i1 == j2 - j1:
            for x, y in zip(a[i1:i2], b[j1:j2]):
                seen[x][y] += 1
    return {x: c.most_common(1)[0][0] for x, c in seen.items() if re.search(r"\w", x) and c.most_common(1)[0][0] != x and re.sub(r"[-_'′]", "", c.most_common(1)[0][0]).lower() == re.sub(r"[-_'′]", "", x).lower()}


def imported(text):
    """The names between the braces of `use` lines."""
    return [n.strip() for m in re.finditer(r"(?m)^(?:pub )?use [^{\n]*\.\{([^}]*)\}?", text) for n in m.group(1).split(",") if n.strip()]


def use_pairs(o, n, text, names):
    """An edit of a `use` line: the names that it adds and takes away, in the line of the kit's names."""
    was, will = imported(o + "}"), imported(n + "}")
    adds = [w for w in (word(w, names) for w in will if w not in was)]
    drops = [w for w in (word(w, names) for w in was if w not in will)]
    have = imported(text)
    adds = [w for w in adds if w not in have]
    kit = "use Rattle.std.specs.Prelude.{"
    if not adds and not drops:
        return []
    if text.count(kit) != 1:
        return None
    if drops:
        return [(drops[0], ", ".join(adds))] if len(drops) == 1 and adds and text.count(drops[0]) == 1 else None
    first = text[text.index(kit) + len(kit) :].split(",")[0].split("}")[0]
    return [(kit + first, kit + ", ".join(adds + [first]))]


def main():
    write = "--write" in sys.argv
    left, changed, same = [], [], 0
    maps = {}
    for path in sorted(glob.glob("crates/*/must-fail/*.edit")):
        crate = path.split("/")[1]
        text = show(path.replace(f"crates/{crate}/", f"crates/{OLDER.get(crate, crate)}/"))
        its = lines_of(text)
        name, new, olds, news, ok = None, [], {}, {}, True
        k = 0
        why = []
        while k < len(its):
            kind, rest = its[k]
            if kind == "file":
                name = rest
                if name not in news:
                    olds[name] = show(f"crates/{OLDER.get(crate, crate)}/{name}")
                    news[name] = today(f"crates/{crate}/{name}")
                new.append(f"file: {name}")
                k += 1
                continue
            if kind != "old":
                new.append(rest if kind is None else f"{kind}: {rest}")
                k += 1
                continue
            o, n = rest, its[k + 1][1]
            k += 2
            hand = HAND.get((path, o))
            if hand is not None:
                pairs = hand
            elif news[name] is None:
                ok = False
                why.append((name, o, n, "no such file today"))
                continue
            elif name.endswith(".rt"):
                pairs = [(o, n)]
            else:
                key = (crate, name)
                if key not in maps:
                    maps[key] = mapping(show(f"crates/{OLDER.get(crate, crate)}/{name}"), today(f"crates/{crate}/{name}"))
                pairs = [(turned(o, maps[key]), turned(n, maps[key]))]
                if o.startswith("use ") and news[name].count(pairs[0][0]) != 1:
                    pairs = use_pairs(o, n, news[name], maps[key])
                    if pairs is None:
                        pairs = [(turned(o, maps[key]), turned(n, maps[key]))]
            for a, b in pairs:
                c = news[name].count(a)
                if c != 1:
                    ok = False
                    at = olds[name].find(o)
                    line = olds[name][olds[name].rfind("\n", 0, at) + 1 : (olds[name].find("\n", at) + 1 or len(olds[name]) + 1) - 1]
                    near = difflib.get_close_matches(turned(line, maps.get((crate, name), {})), news[name].split("\n"), 2, 0.5)
                    why.append((name, o, n, f"{c} times: {a}\n      new: {b}\n      line: {line}\n      near: " + "\n            ".join(near)))
                    continue
                news[name] = news[name].replace(a, b)
                new += [f"old: {a}", f"new: {b}"]
            olds[name] = olds[name].replace(o, n, 1)
        out = "\n".join(new)
        if not ok:
            left.append((path, why))
            continue
        if out == text:
            same += 1
        else:
            changed.append(path)
        if write:
            with open(path, "w", encoding="utf-8") as f:
                f.write(out)
    for path, why in left:
        print("left:", path)
        for name, o, n, w in why:
            print(f"   {name}\n      old: {o}\n      new: {n}\n      {w}")
    print(f"{same} as they were, {len(changed)} turned, {len(left)} left", file=sys.stderr)


main()
