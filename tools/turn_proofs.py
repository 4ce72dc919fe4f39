#!/usr/bin/env python3
"""Turns each Proof.antt of the older form (Tie) into Invariants.antt and Answers.antt, once.

usage: python3 tools/turn_proofs.py NAMES CRATE

NAMES is the names.json that `rt check --generated DIR --old-names` writes for the crate. An answer that only searched is dropped.
Places that it cannot turn keep their text, with TODO before it. Cycles of calls are left alone.
"""
import json
import os
import re
import sys

W = r"[^\s(){}.;,@\"«»\[\]\\]+"
plain = lambda n: re.sub(r"_lem$", "", n).replace("_", "-").lower()


def blocks(text):
    """The top-level paragraphs of a file: (head comment lines, declaration text)."""
    out, now, lead = [], [], []
    for line in text.split("\n"):
        if re.match(r"(use|mod|module) ", line):
            if now:
                out.append((lead, now))
                now, lead = [], []
            out.append(([], [line]))
        elif line.startswith("--"):
            if now:
                out.append((lead, now))
                now, lead = [], []
            lead.append(line)
        elif re.match(rf"(abbrev |unfoldable |pub |record |data )*{W} :", line) or re.match(r"(pub |abbrev )*(record|data) ", line):
            if now:
                out.append((lead, now))
                now, lead = [], []
            now = [line]
        elif line.strip() == "" and not now:
            continue
        elif now:
            now.append(line)
        else:
            lead.append(line)
    if now:
        out.append((lead, now))
    return [(l, "\n".join(n).rstrip()) for l, n in out]


def split_top(text):
    out, depth, start = [], 0, 0
    for i, ch in enumerate(text):
        if ch in "([{":
            depth += 1
        elif ch in ")]}":
            depth -= 1
        elif ch == "," and depth == 0:
            out.append(text[start:i])
            start = i + 1
    out.append(text[start:])
    return [p.strip() for p in out if p.strip()]


def final_tuple(body):
    """The body before its last top-level tuple, and the tuple's parts; None where the body does not end in one."""
    text = body.rstrip()
    if not text.endswith(")"):
        return None
    depth = 0
    for i in range(len(text) - 1, -1, -1):
        if text[i] == ")":
            depth += 1
        elif text[i] == "(":
            depth -= 1
            if depth == 0:
                before = text[:i].rstrip()
                if before and not re.search(r"(\bin|=)$", before):
                    return None
                parts = split_top(text[i + 1 : -1])
                return (text[:i], parts) if len(parts) > 1 else None
    return None


def clause_names():
    """The names of the `ensures` and `requires` of each function, by its path."""
    out = {}
    for crate in os.listdir("crates"):
        for folder, _, files in os.walk(f"crates/{crate}/src"):
            for file in files:
                text = open(f"{folder}/{file}", encoding="utf-8").read()
                module = "" if file in ("lib.rt", "main.rt") else file[:-3] + "::"
                for m in re.finditer(r"\bfn (\w+)[^;{(]*\(([^)]*)\)", text):
                    out.setdefault(f"{crate}::{module}{m.group(1)}", {})["lent"] = re.findall(r"(\w+): &(?:'\w+ )?mut ", m.group(2))
                for m in re.finditer(r"\bfn (\w+)[^;{]*?\)[^;{]*?((?:\n    (?:requires|ensures) [^\n]*(?:\n        [^\n]*)*)+)", text):
                    names = {k: re.findall(rf"\n    {k} (\w+) \{{", m.group(2)) for k in ("ensures", "requires")}
                    out.setdefault(f"{crate}::{module}{m.group(1)}", {}).update(names)
    return out


CLAUSES = {}


class Function:
    def __init__(self, crate, path, names):
        self.crate, self.path, self.n = crate, path, names
        self.places = names["places"]
        self.todo = 0
        self.ways = set()

    def chain(self, name):
        at = next((p for p in self.places if p[0] == name), None)
        out = []
        while at:
            out.append(at)
            at = next((p for p in self.places if p[0] == at[1]), None)
        return out

    def arm(self, chain, step, rest):
        """The new path of a step of an arm and the fields behind it."""
        for p in chain:
            arm = self.n["arms"][self.places.index(p)]
            if not arm:
                continue
            best = None
            for new, old, path in arm[2]:
                if plain(old) == plain(step) and not new.endswith("-own") and [plain(r) for r in rest[: len(path)]] == [plain(q) for q in path]:
                    if best is None or len(path) > len(best[1]):
                        best = (new, path)
            if best:
                return [arm[0], best[0], *rest[len(best[1]) :]]
            if plain(step) == "match" and any(f[1] == step and f[0].endswith("-own") for f in arm[2]):
                return [arm[0], arm[0] + "-own", *rest]
        return None

    def step(self, chain, offset, step, rest):
        if step in ("args", "requires", "ranges"):
            return ["c", step, *rest]
        if step == "pre":
            return ["c", "requires", *rest]
        if step == "fits" and rest:
            return ["c", "ranges", rest[0], "fits", *rest[1:]]
        if plain(step) == "well-formed":
            return ["c", "well_formed", *rest]
        if step in ("good", "fits"):
            return None
        found = None
        order = sorted(range(len(chain)), key=lambda i: abs(i - offset))
        for i in order:
            if plain(chain[i][2][0]) == plain(step):
                found = i
                break
        if found is None:
            return None
        arm = self.arm(chain, step, rest)
        if arm:
            return ["c", *arm]
        p = chain[found]
        new = p[2][1]
        if "slice-known" in plain(step):
            for q in chain:
                for var, known in self.n["typed"][self.places.index(q)]:
                    if plain(known) == plain(step):
                        return ["c", "type_inv", var, *rest[1:]] if rest[:1] == ["given"] else None
        return ["c", new, *rest]

    def turn(self, body, place):
        chain = self.chain(place)
        alias = {"c": 0}
        # `start` leads to where the function began
        alias["start"] = len(chain) - 1
        body = re.sub(rf"\(start {W}(?:\.before)*\)(?=\.)", "start", body)
        body = re.sub(rf"(?<=[ (])start {W}(?:\.before)*(?= in)", "start", body)
        # names of places alone
        def take(m):
            name, base, more = m.group(1), m.group(2), m.group(3)
            if base not in alias:
                return m.group(0)
            alias[name] = alias[base] + more.count(".before")
            return "\x00"
        pattern = re.compile(rf"let ({W}) = ({W})((?:\.before)*) in")
        while True:
            new = pattern.sub(take, body)
            if new == body:
                break
            body = new
        # names of steps that are arms today
        steps = {}
        def arms(m):
            name, base, more, step = m.groups()
            if base not in alias or step in ("args", "requires"):
                return m.group(0)
            if "slice-known" not in plain(step) and not any(
                plain(f[1]) == plain(step) and not f[0].endswith("-own")
                for q in chain
                for f in (self.n["arms"][self.places.index(q)] or [0, 0, []])[2]
            ):
                return m.group(0)
            steps[name] = f"c{'.before' * (alias[base] + more.count('.before'))}.{step}"
            return "\x00"
        body = re.sub(rf"let ({W}) = ({W})((?:\.before)*)\.({W}) in", arms, body)
        for name, to in steps.items():
            body = re.sub(rf"(?<![^\s(){{}},;\[\]]){re.escape(name)}(?=[.\s)}},;\]])", to, body)
        body = re.sub(r"\n\s*\x00[ ]*(?=\n)", "", body)
        body = re.sub(r"\x00\s?", "", body)
        def path(m):
            if m.group(1) not in alias:
                return m.group(0)
            words = m.group(0).split(".")
            offset, k = alias[m.group(1)], 1
            while k < len(words) and words[k] == "before":
                offset, k = offset + 1, k + 1
            if k == len(words):
                if words == ["c"]:
                    return "c"
                self.todo += 1
                return "TODO." + m.group(0)
            new = self.step(chain, offset, words[k], words[k + 1 :])
            if new is None:
                self.todo += 1
                return "TODO." + m.group(0)
            return ".".join(new)
        names = "|".join(re.escape(a) for a in alias)
        body = re.sub(rf"(?<![^\s(){{}},;\[\]])({names})((?:\.{W})*)(?![^\s(){{}}.;,\[\]])", path, body)
        return body

    def lets(self, body):
        """The bindings before the last expression, and that expression."""
        depth, end = 0, 0
        for m in re.finditer(r"[(\[{]|[)\]}]|(?<=[\s)])in(?=\s)", body):
            if m.group(0) in "([{":
                depth += 1
            elif m.group(0) in ")]}":
                depth -= 1
            elif depth == 0:
                end = m.end()
        return body[:end] + (" " if end else " "), body[end:].strip()

    def branches(self, body):
        """A sum of two ways that join is an elimination of the join's branch."""
        out = ""
        while True:
            m = re.search(r"⊎_elim\s*\(", body)
            if not m:
                return out + body
            parts, i = [], m.end() - 1
            while len(parts) < 2:
                depth, start = 0, i
                while True:
                    depth += (body[i] in "([{") - (body[i] in ")]}")
                    i += 1
                    if depth == 0:
                        break
                parts.append(body[start + 1 : i - 1])
                while body[i : i + 1].isspace():
                    i += 1
            of = re.match(rf"c\.if-({W})\.branch", body[i:])
            ways = [re.match(rf"λ ({W})\. (.*)$", p.strip(), re.S) for p in parts]
            if not of or not all(ways):
                out, body = out + body[: m.end()], body[m.end() :]
                continue
            arms = " | ".join(f"{k}-{of.group(1)} {w.group(1)} ↦ {w.group(2)}" for k, w in zip(("then", "else"), ways))
            self.ways.update({f"then-{of.group(1)}", f"else-{of.group(1)}"})
            out, body = out + body[: m.start()] + f"elim c.if-{of.group(1)}.branch [ {arms} ]", body[i + of.end() :]

    def named(self, body, chain):
        """A clause of a call goes by its name."""
        bound = dict(re.findall(rf"let ({W}) = (c\.{W}(?:\.ensures)?) in", body))
        for name, other in re.findall(rf"let ({W}) = ({W}) in", body):
            if other in bound:
                bound[name] = bound[other]
        for p in chain:
            step = "c." + p[2][1]
            lent = CLAUSES.get(p[3] or "", {}).get("lent", [])
            for w in [step] + [n for n, to in bound.items() if to == step]:
                body = re.sub(rf"(?<![^\s(){{}},;\[\]]){re.escape(w)}\.(new|auto)\.(\d+)", lambda m: f"{w}.{m.group(1)}.{lent[int(m.group(2))]}" if int(m.group(2)) < len(lent) else m.group(0), body)
            names = CLAUSES.get(p[3] or "", {}).get("ensures", [])
            if len(names) < 2:
                continue
            whole = [step + ".ensures"] + [n + ".ensures" for n, to in bound.items() if to == step] + [n for n, to in bound.items() if to == step + ".ensures"]
            for w in whole:
                body = re.sub(rf"(?<![^\s(){{}},;\[\]]){re.escape(w)}\.(\d+)", lambda m: f"{w}.{names[int(m.group(1))]}" if int(m.group(1)) < len(names) else m.group(0), body)
        for n, to in bound.items():
            if to.startswith("c.if-not-"):
                body = re.sub(rf"\(not-(?:true|false) _ ({re.escape(n)}\.(?:true|false))\)", r"\1", body)
                body = re.sub(rf"not-(?:true|false) _ ({re.escape(n)}\.(?:true|false))", r"\1", body)
        return body

    def invariant(self, text):
        """A loop's invariant or measure."""
        text = re.sub(r"«(\w+)»", r"\1", text)
        m = re.match(rf"abbrev (?:pub )?({W}) : tie\.({W})\n(?:(unfolding [^\n]*)\n)?\1((?: {W})*?) =", text)
        if not m:
            return None
        kind, _, loop = m.group(2).partition("-")
        at = next((i for i, (names, _) in enumerate(self.n["loops"]) if plain(names[0]) == plain(loop)), None)
        if at is None:
            return None
        (_, new), variables = self.n["loops"][at]
        changed = self.n["changed"][at]
        params = m.group(4).split()
        after = [v for v, ch in zip(variables, changed) if ch]
        if len(params) != len(variables) + len(after):
            self.todo += 1
            return f"-- TODO parameters {params}, variables {variables} {changed}\n" + text
        to = {}
        for p, v, ch in zip(params, variables, changed):
            to[p] = f"l.initial.{v}" if ch else f"l.{v}"
        for p, v in zip(params[len(variables) :], after):
            to[p] = f"l.{v}"
        body = text[m.end() :]
        body = re.sub(rf"(?<![^\s(){{}},;\[\]])({W})(?=[\s(){{}}.;,\[\]]|$)", lambda w: to.get(w.group(1), w.group(1)), body)
        name = f"{kind}-{new}"
        unf = m.group(3) + "\n" if m.group(3) else ""
        return f"abbrev pub {name} : goal.{name}\n{unf}{name} l ={body}"

    def answer(self, text):
        m = re.match(rf"({W}) :\s+tie\.Need-({W})", text)
        if not m:
            return None
        key = plain(m.group(2))
        bare = re.sub(r"^(overflow|nonzero)-", "", key)
        at = next((i for i, (old, _) in enumerate(self.n["needs"]) if plain(old) in (key, bare)), None)
        if at is None and re.search(r" = search rules$", text):
            return ""
        made = None
        if at is None:
            at = next((i for i, (_, new) in enumerate(self.n["needs"]) if plain(new) == key), None)
        if at is None:
            part = re.match(r"slice-bounds-(.*)-(start|end|count)(-\d+)?$", key)
            if part:
                old = f"slice-aggregate-{part.group(1)}{part.group(3) or ''}"
                at = next((i for i, (o, _) in enumerate(self.n["needs"]) if plain(o) == old), None)
                if at is not None:
                    made = re.sub(r"-(start|end|count)((?:-\d+)?)$", rf"-{part.group(2)}\2", self.n["needs"][at][1])
        if at is None:
            self.todo += 1
            return "-- TODO no such goal\n" + "\n".join("-- " + l for l in text.split("\n"))
        lines = text.split("\n")
        k = 1
        unfolding = ""
        while k < len(lines) and not re.match(re.escape(m.group(1)) + r"(?= |$)", lines[k]):
            if lines[k].startswith("unfolding"):
                unfolding = lines[k] + "\n"
            k += 1
        rest = "\n".join(lines[k:])
        head = re.match(re.escape(m.group(1)) + rf"((?: {W})*?) =", rest)
        if not head:
            self.todo += 1
            return "-- TODO clauses\n" + "\n".join("-- " + l for l in text.split("\n"))
        body = rest[head.end() :]
        if body.strip() == "search rules" and not unfolding:
            return ""
        new = made or self.n["needs"][at][1]
        body = body.replace("\u2032", "'")
        body = self.turn(body, self.n["asked_at"][at][0])
        body = self.named(body, self.chain(self.n["asked_at"][at][0]))
        body = self.branches(body)
        body = re.sub(rf"(c\.{W}\.{W}-own\.keys\d+)", r"(opened \1)", body)
        # The test of a negation is told of what it negates.
        body = re.sub(rf"(not-(?:true|false) _) \((c\.if-not-{W}(?:\.{W})*)\)", r"\1 \2", body)
        body = re.sub(rf"\(not-(?:true|false) _ (c\.if-not-{W}(?:\.{W})*)\)", r"\1", body)
        body = re.sub(rf"not-(?:true|false) _ (c\.if-not-{W}(?:\.{W})*)", r"\1", body)
        names = self.n["asked"].get(self.n["needs"][at][0])
        if names:
            parts = final_tuple(body)
            if parts and len(parts[1]) == len(names):
                body = parts[0] + "record { " + "; ".join(f"{n} = {p}" for n, p in zip(names, parts[1])) + " }"
            elif not re.search(r"record \{|\x00", body):
                lets, rest = self.lets(body)
                body = lets + "record { " + "; ".join(f"{n} = ({rest}).{k}" for k, n in enumerate(names)) + " }"
            else:
                body += f" -- TODO clauses {names}"
                self.todo += 1
        params = " ".join(p for p in head.group(1).split() if p != "κs")
        return f"pub {new} : goal.{new}\n{unfolding}{new} {params} ={body}"


def main(names, crate):
    listed = json.load(open(names))
    CLAUSES.update(clause_names())
    total = 0
    for key, of in listed.items():
        m = re.match(r"Rattle-(\w+)-proofs\.(.*)\.Lts$", key)
        if not m or of.get("stem") is None:
            continue
        path = m.group(2)
        folder = f"crates/{crate}/proofs/{path.replace('.', '/')}"
        file = f"{folder}/Proof.antt"
        if not os.path.exists(file):
            continue
        f = Function(crate, path, of)
        uses, invariants, answers, head = [], [], [], []
        first = True
        for lead, text in blocks(open(file, encoding="utf-8").read()):
            lead = [l for l in lead if not re.match(r"-- src/", l)]
            if first and lead:
                head, lead = lead, []
            first = False
            if text.startswith("use "):
                if not re.search(r"\.(Statement\.\{statement\}|Tie as tie|Rules\.\{rules\})$", text):
                    uses.append(text)
                continue
            if re.match(r"pub \S+[-_]spec : |abbrev start : ", text):
                continue
            inv = f.invariant(text)
            if inv is not None:
                invariants.append("\n".join([*lead, inv]))
                continue
            ans = f.answer(text)
            if ans is None:
                f.todo += "tie." in text
                ans = text
            if ans:
                answers.append("\n".join([*lead, ans]))
        base = f"Rattle.{crate}.proofs.{path}"
        rules = ["use borrow.Author.Rules.{rules}"]
        if invariants:
            with open(f"{folder}/Invariants.antt", "w", encoding="utf-8") as it:
                it.write("\n".join([*head, *uses, f"use {base}.Given as goal"]) + "\n\n" + "\n\n".join(invariants) + "\n")
        if answers:
            more = rules if any("rules" in a for a in answers) else []
            if any("(opened " in a for a in answers):
                more = [*more, "use borrow.Enum.Refused.{opened}"]
            if f.ways:
                more = [*more, f"use {base}.Goals.{{{', '.join(sorted(f.ways))}}}"]
            with open(f"{folder}/Answers.antt", "w", encoding="utf-8") as it:
                it.write("\n".join([*head, *uses, *more, f"use {base}.Goals as goal"]) + "\n\n" + "\n\n".join(answers) + "\n")
        os.remove(file)
        if f.todo:
            print(f"{crate} {path}: {f.todo} places to do")
        total += f.todo
    print(f"{crate}: {total} places to do")


main(*sys.argv[1:])
