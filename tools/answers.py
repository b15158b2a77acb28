#!/usr/bin/env python3
"""Turns the proofs that walk the goals by position (Proof.antt over a Tie) into Invariants.antt and Answers.antt.

    tools/answers.py NAMES CRATE..    NAMES/CRATE/names.json is what `rattle check --generated .. --old-names` wrote for the crate

Answers that only search are dropped, since the check tries that itself. What it cannot turn it leaves and names.
"""
import glob
import json
import os
import re
import sys

TOKEN = r"[^\s(){}.;,@\"«»\[\]\\λ:]+"


def plain(name):
    return re.sub(r"[-_]", "", name).lower()


def blocks(text):
    """The file's top-level declarations: (comments and lines) pairs in order."""
    out, comment, body = [], [], []

    def close():
        nonlocal comment, body
        if body:
            out.append(("\n".join(comment), "\n".join(body).rstrip()))
        comment, body = [], []

    for line in text.splitlines():
        if not line.strip():
            if body and body[0].startswith(("use ", "mod ", "pub mod ")):
                close()
            elif body:
                body.append("")
            continue
        if line.startswith("--"):
            if body:
                close()
            comment.append(line)
            continue
        if line[0] not in " )" and not line.startswith("unfolding"):
            name = re.match(r"(?:(?:pub|abbrev|unfoldable) )*(" + TOKEN + r") ?:", line)
            if name or line.startswith(("use ", "mod ", "pub mod ", "data ", "record ", "pub data ", "pub record ")):
                close()
        body.append(line)
    close()
    return out


def split_head(body):
    """A declaration as name, type, unfolding line, clauses."""
    lines = body.split("\n")
    head = re.match(r"((?:(?:pub|abbrev|unfoldable) )*)(" + TOKEN + r") ?:(.*)", lines[0])
    if not head:
        return None
    name, typ, at = head.group(2), [head.group(3).strip()], 1
    while at < len(lines) and (lines[at].startswith(" ") or not lines[at].strip() or lines[at].startswith(")")):
        typ.append(lines[at].strip())
        at += 1
    unfolding = ""
    if at < len(lines) and lines[at].startswith("unfolding"):
        unfolding = lines[at]
        at += 1
        while at < len(lines) and lines[at].startswith("  ") and not lines[at].startswith(name):
            unfolding += " " + lines[at].strip()
            at += 1
    return head.group(1), name, " ".join(t for t in typ if t), unfolding, "\n".join(lines[at:])


class Turn:
    """What one function's names are called now: for a goal those of the steps on the way to it, else those of the whole function."""

    def __init__(self, entry):
        self.entry = entry
        self.places = {p[0]: i for i, p in enumerate(entry["places"])}
        self.all = self.names(range(len(entry["places"])))
        self.loops = entry["loops"]
        self.asked = {}
        new_of = dict(entry["needs"])
        for old, labels in entry["asked"].items():
            self.asked[new_of.get(old, old)] = labels
        self.left = {plain(o): n for o, n in entry["needs"]}
        self.new = {plain(n): n for o, n in entry["needs"]}
        self.at = {n: at[0] for (o, n), at in zip(entry["needs"], entry["asked_at"])}
        self.own = entry["pre"]["fields"] if entry["pre"] else None

    def names(self, indexes):
        steps, arms, labels = {}, [], {}
        for i in indexes:
            place = self.entry["places"][i]
            if place[2] and place[2][0]:
                steps.setdefault(plain(place[2][0]), place[2][1])
            arm = self.entry["arms"][i]
            if arm:
                for field, old, path in arm[2]:
                    if path:
                        arms.append((old, path, arm[0] + "." + field))
            clause = self.entry["clauses"][i]
            if clause and place[2]:
                labels[place[2][1]] = clause["fields"]
        for pair, _ in self.entry["loops"]:
            steps.setdefault(plain(pair[0]), pair[1])
            steps.setdefault(plain(pair[0] + "test"), pair[1] + "-test")
        return steps, arms, labels

    def way(self, goal):
        """The steps before a goal, the nearest first."""
        at, out = self.places.get(self.at.get(goal)), []
        while at is not None:
            out.append(at)
            at = self.places.get(self.entry["places"][at][1])
        return out

    def goal(self, decl, need):
        for key in (need, decl):
            if plain(key) in self.left:
                return self.left[plain(key)]
        return self.new.get(plain(need))

    def path(self, text, goal=None):
        steps, arms, labels = self.all
        if goal and self.way(goal):
            near = self.names(self.way(goal))
            steps, arms, labels = {**steps, **near[0]}, near[1] + arms, {**labels, **near[2]}
        roots = {"c"}
        for name, of in re.findall(r"let (\S+) = ([\w'-]+)(?:\.before)* in", text):
            if of in roots:
                roots.add(name)

        def way(m):
            root, rest = m.group(1), re.sub(r"(?:\.before)+(?![\w-])", "", m.group(2))
            if root not in roots and rest == m.group(2):
                return m.group(0)
            for old, path, new in arms:
                spelt = r"[-_]".join(re.escape(it) for it in re.split("[-_]", old))
                found = re.match(r"\." + spelt + r"\." + r"\.".join(re.escape(it) for it in path) + r"(?![\w-])", rest)
                if found:
                    return root + "." + new + rest[found.end():]
            first = re.match(r"\.([\w'₀-₉-]+)", rest)
            if not first:
                return root + rest
            new = steps.get(plain(first.group(1))) or steps.get(plain(re.sub("_lem$", "", first.group(1))))
            return root + ("." + new if new else first.group(0)) + rest[first.end():]

        text = re.sub(r"(?<![\w.'₀-₉-])([A-Za-z_][\w'₀-₉-]*)((?:\.[\w'₀-₉-]+)+)", way, text)
        text = re.sub(r"(\.(?:args|new|ranges|initial|fn)\.)([\w-]+)", lambda m: m.group(1) + m.group(2).replace("-", "_"), text)
        for name, fields in labels.items():
            text = re.sub(re.escape("." + name + ".ensures.") + r"(\d)(?![\w])", lambda m: f".{name}.ensures.{fields[int(m.group(1))]}", text)
        if self.own:
            text = re.sub(r"\.requires\.(\d)(?![\w])", lambda m: f".requires.{self.own[int(m.group(1))]}", text)
        return text.replace(".well-formed", ".well_formed").replace(".type-inv", ".type_inv")

    def answer(self, goal, value):
        """A tuple that answers several named clauses, as a record of them."""
        labels = self.asked.get(goal)
        v = value.rstrip()
        if not labels or not v.endswith(")"):
            return value
        depth, at = 0, None
        for i in range(len(v) - 1, -1, -1):
            depth += (v[i] in ")]}") - (v[i] in "([{")
            if depth == 0:
                at = i
                break
        if at is None or not (v[:at].strip() == "" or v[:at].rstrip().endswith(" in")):
            return value
        parts, depth, last = [], 0, at + 1
        for i in range(at + 1, len(v) - 1):
            depth += (v[i] in "([{") - (v[i] in ")]}")
            if depth == 0 and v[i] == ",":
                parts.append(v[last:i].strip())
                last = i + 1
        if v[last:-1].strip():
            parts.append(v[last:-1].strip())
        if len(parts) != len(labels):
            return value
        return v[:at] + "record { " + "; ".join(f"{l} = {p}" for l, p in zip(labels, parts)) + " }"


def turn(crate, folder, rel, entry):
    """Writes the two files of one function; says what was left."""
    path = os.path.join(folder, "Proof.antt")
    text = open(path, encoding="utf-8").read()
    told, t = [], Turn(entry)
    head = re.match(r"(?:--[^\n]*\n)*", text).group(0)
    uses, answers, invs = [], [], []
    module = "Rattle." + crate + ".proofs." + rel.replace("/", ".")
    kept_names = set()
    items = blocks(text[len(head):])
    for comment, body in items:
        if body.startswith("use "):
            if re.search(r"\.(Statement\.\{statement\}|Tie as tie)$", body.strip()) and body.strip().startswith("use " + module + "."):
                continue
            if body.strip().startswith("use " + module + "."):
                told.append("uses " + body.strip())
            uses.append(body)
            continue
        parts = split_head(body)
        if not parts:
            told.append("unread: " + body.split("\n")[0][:80])
            answers.append((comment + "\n" if comment else "") + body)
            continue
        pre, name, typ, unfolding, clauses = parts
        if re.search(r"tie\.close", clauses):
            continue
        m = re.match(r"tie\.(Need-|invariant|decreases)(\S*)(.*)$", typ)
        if not m:
            answers.append((comment + "\n" if comment else "") + t.path(body))
            if "lts." in typ or "reads." in typ:
                told.append("by hand: " + name)
            kept_names.add(name)
            continue
        kind, rest = m.group(1), m.group(2)
        if kind in ("invariant", "decreases"):
            loop = t.loops[0][0] if len(t.loops) == 1 else None
            if loop is None:
                for pair, _ in t.loops:
                    if plain(pair[0]) == plain(rest.lstrip("-")):
                        loop = pair
            new = f"{kind}-{loop[1] if loop else rest.lstrip('-')}"
            m2 = re.match(re.escape(name) + r"((?: " + TOKEN + r")*)\s*=(.*)$", clauses.strip(), re.S)
            if not m2:
                told.append("invariant by hand: " + name)
                invs.append((comment + "\n" if comment else "") + f"abbrev pub {new} : goal.{new}\n" + clauses)
                continue
            params, value = m2.group(1).split(), m2.group(2)

            def var(mm):
                w = mm.group(0)
                if w not in params:
                    return w
                if w.endswith("₀"):
                    return "l.initial." + w[:-1].replace("-", "_")
                return "l." + w.replace("-", "_")

            value = re.sub(r"(?<![\w.'-])" + r"[A-Za-z_][\w'₀-]*", var, value)
            invs.append((comment + "\n" if comment else "") + f"abbrev pub {new} : goal.{new}\n{new} l ={value}")
            continue
        goal = t.goal(name, rest)
        m2 = re.match(re.escape(name) + r" (\S+)((?: \S+)*?)\s*=(.*)$", clauses.strip(), re.S)
        if not goal or not m2:
            told.append(f"goal by hand: {name} : {typ[:60]}")
            answers.append((comment + "\n" if comment else "") + t.path(body))
            continue
        c, value = m2.group(1), t.answer(goal, t.path(m2.group(3), goal))
        if value.strip() == "search rules" and not unfolding:
            continue
        line = f"pub {goal} : goal.{goal}\n" + (unfolding + "\n" if unfolding else "") + f"{goal} {c} ={value}"
        answers.append((comment + "\n" if comment else "") + line)
    if answers:
        with open(os.path.join(folder, "Answers.antt"), "w", encoding="utf-8") as f:
            f.write(head + "\n".join(uses) + f"\nuse {module}.Goals as goal\n\n" + "\n\n".join(answers) + "\n")
    if invs:
        words = set(re.findall(TOKEN, "\n".join(invs)))
        with open(os.path.join(folder, "Invariants.antt"), "w", encoding="utf-8") as f:
            f.write(("" if answers else head) + "\n".join(uses) + f"\nuse {module}.Given as goal\n\n" + "\n\n".join(invs) + "\n")
        for n in kept_names & words:
            told.append("invariant uses helper " + n)
    os.remove(path)
    return told


def main(argv):
    names, crates = argv[0], argv[1:]
    for crate in crates:
        with open(f"{names}/{crate}/names.json", encoding="utf-8") as f:
            table = json.load(f)
        for path in sorted(glob.glob(f"crates/{crate}/proofs/**/Proof.antt", recursive=True)):
            folder = os.path.dirname(path)
            rel = os.path.relpath(folder, f"crates/{crate}/proofs")
            if "tie.close" not in open(path, encoding="utf-8").read():
                print("left:", path)
                continue
            key = f"Rattle-{crate}-proofs.{rel.replace('/', '.')}.Lts"
            if key not in table:
                print("no names:", path)
                continue
            for told in turn(crate, folder, rel, table[key]):
                print(f"{path}: {told}")


if __name__ == "__main__":
    main(sys.argv[1:])
