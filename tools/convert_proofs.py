#!/usr/bin/env python3
"""Turns the Proof.antt files of the older kit (one answer a `tie.Need-..`) into Invariants.antt and Answers.antt.

    tools/convert_proofs.py NAMES CRATE..

NAMES is the folder that `rt names NAMES` wrote. An answer that the check finds by itself is left out. A file that it can't
read stays as it is.
"""
import json
import os
import re
import sys

WORD = r"[^\s(){}\[\],;:=λ→.]+"
TRIVIAL = re.compile(
    r"^(search rules|omega arith|tt|refl|\(?(?:(?:omega arith|refl|tt|search rules)(?:, )?)+\)?)$"
)


def norm(name):
    return name.replace("-", "_").lower()


def clause_labels(root):
    """For each function of a crate's sources: its labels of requires and ensures ('' for a lone one)."""
    found = {}
    for folder, _, names in os.walk(f"{root}/src"):
        for name in names:
            if not name.endswith(".rt"):
                continue
            text = open(os.path.join(folder, name), encoding="utf-8").read()
            at = 0
            for m in re.finditer(r"\bfn (\w+)", text):
                end = text.find("\n{", m.end())
                nxt = text.find("\n    {\n", m.end())
                if nxt != -1 and (end == -1 or nxt < end):
                    end = nxt
                head = text[m.end():end if end != -1 else len(text)]
                head = head.split("\nfn ")[0].split("\npub fn ")[0]
                req = re.findall(r"^\s*requires ?(\w*) ?\{", head, re.M)
                ens = re.findall(r"^\s*ensures ?(\w*) ?\{", head, re.M)
                found.setdefault(m.group(1), (req, ens))
    return found


def all_labels(repo):
    labels = {}
    for crate in sorted(os.listdir(f"{repo}/crates")):
        for fn, value in clause_labels(f"{repo}/crates/{crate}").items():
            labels.setdefault(f"{crate}::{fn}", value)
            labels.setdefault(fn, value)
    return labels


def label_path(rest, labels):
    """`.1.0.x` over nested pairs becomes `.label.x`."""
    if len(labels) < 2:
        return rest
    parts = rest.split(".")[1:]
    for i in range(len(labels)):
        last = i == len(labels) - 1
        want = ["1"] * i + ([] if last else ["0"])
        if parts[:len(want)] == want:
            return "".join("." + p for p in [labels[i]] + parts[len(want):])
    return rest


class Function:
    def __init__(self, names, labels, crate, fn):
        self.names, self.labels, self.crate, self.fn = names, labels, crate, fn
        self.parent, self.field = {}, {}
        self.callee = {}
        self.arms = {}
        for (old, up, (oldf, newf), callee, _rest), new, arm in zip(names["places"], names["places_by_name"], names["arms"]):
            self.arms[old] = arm
            self.parent[old] = up
            self.field[old] = (oldf, newf)
            self.callee[old] = callee
        self.needs = {}
        for (old, new), asked in zip(names["needs"], names["asked_at"]):
            self.needs.setdefault(norm(old), (new, asked[0]))

    def expand(self, text, helpers, aliases, var):
        """Names of places come to be `var`; the other helpers come to be lets in front."""
        arg = r"(\((?:[^()]|\([^()]*\))*\)|[\w'-]+(?:\.before)*)"
        used = []

        def calls(t):
            for name, h in helpers.items():
                pattern = re.compile(r"(?<![\w'.-])" + re.escape(name) + r"\s+" + arg)
                while True:
                    m = pattern.search(t)
                    if not m:
                        break
                    if h["place"]:
                        t = t[:m.start()] + var + t[m.end():]
                    else:
                        t = t[:m.start()] + "\0" + name + "\0" + t[m.end():]
                        if name not in used:
                            used.append(name)
            t = re.sub(r"\(" + re.escape(var) + r"\)", var, t)
            return t

        text = calls(text)
        lets, done = [], set()

        def add(name):
            if name in done:
                return
            done.add(name)
            h = helpers[name]
            # (the helper's own place is this one)
            sub = re.compile(r"(?<![\w'.-])" + re.escape(h["var"]) + r"(?![\w'-])")
            kind, code = calls(sub.sub(var, h["type"])), calls(sub.sub(var, h["body"]))
            for other in re.findall(r"\0([^\0]+)\0", kind + code):
                add(other)
            if h["rest"]:
                code = f"λ {' '.join(h['rest'])}. {code}"
            lets.append(f"let {name} : {kind} = {code} in")
        for name in list(used):
            add(name)
        text = "\n    ".join(lets + [text]) if lets else text
        return text.replace("\0", "")

    def path(self, place, befores, rest, notes):
        """`c` at `place`, `befores` up, then the fields of `rest`."""
        for _ in range(befores):
            up = self.parent.get(place)
            if up is None:
                break
            place = up
        if not rest:
            return "c", place
        first, tail = rest.split(".")[1], "".join("." + p for p in rest.split(".")[2:])
        if first in ("args", "well_formed", "ranges"):
            return "c." + first + tail, place
        if first in ("requires", "pre"):
            return "c.requires" + label_path(tail, self.labels.get(self.fn, ([], []))[0]), place
        at = self.base
        while at is not None:
            oldf, newf = self.field[at]
            if oldf and norm(oldf) in (norm(first), norm(first).removesuffix("_lem")):
                arm, steps = self.arms[at], tail.split(".")[1:]
                for part, step, old_path in (arm[2] if arm else []):
                    if norm(step) == norm(oldf) and old_path and steps[:len(old_path)] == old_path:
                        return "c." + arm[0] + "." + part + "".join("." + s for s in steps[len(old_path):]), place
                callee = self.callee[at]
                if callee and tail.startswith(".ensures"):
                    short = callee.split("::")[-1]
                    have = self.labels.get(f"{callee.split('::')[0]}::{short}") or self.labels.get(short) or ([], [])
                    tail = ".ensures" + label_path(tail[len(".ensures"):], have[1])
                if callee and (tail.startswith(".auto.") or tail.startswith(".new.")):
                    kind, steps = tail.split(".")[1], tail.split(".")[2:]
                    index = next((k for k, s in enumerate(steps) if s != "1"), len(steps))
                    names = self.names["params"].get(callee, [])
                    if index < len(names):
                        tail = f".{kind}." + names[index] + "".join("." + s for s in steps[index + 1:])
                # (a test of `!b` now says what `b` is)
                if newf.startswith("if-not-") and tail in (".true", ".false"):
                    return f"(not_from_{'false' if tail == '.true' else 'true'} _ c.{newf}{tail})", place
                return f"c.{newf}{tail}", place
            at = self.parent.get(at)
        notes.append(f"no step {first} at {place}")
        return f"c.{first}{tail}", place

    def body(self, text, place, var, notes, helpers=None):
        self.base = place
        aliases = {var: place}
        text = self.expand(text, helpers or {}, aliases, var)
        path = re.compile(r"(?<![\w'.-])(" + WORD + r")((?:\.before(?![\w'-]))*)((?:\.[A-Za-z0-9_][\w'-]*)*)")
        # a name for a place: put the path in its stead
        let = re.compile(r"let (\w[\w'-]*) = (" + WORD + r")((?:\.before(?![\w'-]))*) in\s*")
        pre = re.compile(r"let (\w[\w'-]*) = (" + WORD + r"(?:\.before(?![\w'-]))*\.(?:requires|pre)) in\s*")
        if len(self.labels.get(self.fn, ([], []))[0]) > 1:
            while pre.search(text):
                m = pre.search(text)
                text = text[:m.start()] + re.sub(r"(?<![\w'.-])" + re.escape(m.group(1)) + r"(?![\w'-])", lambda _: m.group(2), text[m.end():])
        while True:
            found = None
            for m in let.finditer(text):
                if m.group(2) in aliases:
                    found = m
                    break
            if not found:
                break
            at = aliases[found.group(2)]
            for _ in range(found.group(3).count(".before")):
                at = self.parent.get(at) or at
            aliases[found.group(1)] = at
            text = text[:found.start()] + text[found.end():]

        def turn(m):
            if m.group(1) not in aliases:
                return m.group(0)
            # (`rw e at h` is no name of a place)
            if m.group(1) == "at" and not m.group(2) and not m.group(3) and re.match(r" [\w(]", text[m.end():]):
                return m.group(0)
            return self.path(aliases[m.group(1)], m.group(2).count(".before"), m.group(3), notes)[0]
        return path.sub(turn, text)


def split_tuple(text):
    text = text.strip()
    if not text.startswith("(") or not text.endswith(")"):
        return None
    depth, parts, at = 0, [], 1
    for i, ch in enumerate(text):
        if ch in "({[":
            depth += 1
        elif ch in ")}]":
            depth -= 1
            if depth == 0 and i != len(text) - 1:
                return None
        elif ch == "," and depth == 1:
            parts.append(text[at:i].strip())
            at = i + 1
    last = text[at:-1].strip()
    return parts + [last] if last else parts


def clauses_of(body, need, fun):
    """What a call with several `requires` asks is a record now, and was nested pairs."""
    m = re.match(r"(.*)_requires(?:_\d+)?$", need)
    if not m:
        return body
    labels = fun.labels.get(m.group(1), ([], []))[0]
    if len(labels) < 2:
        return body
    at = 0
    while True:
        k = re.compile(r"\s*let ").match(body, at)
        if not k:
            break
        depth, i = 0, k.end()
        while i < len(body):
            if body.startswith(" in", i) and depth == 0 and re.match(r" in\s", body[i:]):
                break
            if body.startswith("let ", i) and (i == 0 or not body[i - 1].isalnum()):
                depth += 1
            elif re.match(r" in\s", body[i:]) and depth:
                depth -= 1
            i += 1
        at = i + 3
    head, rest = body[:at], body[at:]
    parts, values = split_tuple(rest), []
    while parts and len(values) < len(labels) - 1:
        if len(parts) == len(labels) - len(values):
            values += parts
            parts = None
        elif len(parts) == 2:
            values.append(parts[0])
            parts = split_tuple(parts[1]) if len(values) < len(labels) - 1 else [parts[1]]
            if parts and len(values) == len(labels) - 1:
                values += parts
                parts = None
        else:
            return body
    if len(values) != len(labels):
        return body
    gap = re.match(r"\s*", rest).group(0)
    return head + (gap or " " * bool(head)) + "record { " + "; ".join(f"{l} = {v}" for l, v in zip(labels, values)) + " }"


def convert(file, fun, crate, sub, notes):
    text = open(file, encoding="utf-8").read()
    lines = text.split("\n")
    head, uses, rest = [], [], []
    i = 0
    while i < len(lines) and lines[i].startswith("--"):
        head.append(lines[i])
        i += 1
    while i < len(lines) and (lines[i].startswith("use ") or not lines[i].strip()):
        if lines[i].startswith("use "):
            uses.append(lines[i])
        i += 1
    blocks, block = [], []
    for line in lines[i:]:
        if not line.strip():
            # (a blank line within a `where` goes on with what is indented)
            block.append(line)
            continue
        if block and not line.startswith((" ", "\t")) and not block[-1].strip():
            blocks.append("\n".join(block).rstrip())
            block = []
        block.append(line)
    if block:
        blocks.append("\n".join(block).rstrip())
    inv, ans = [], []
    helpers, kinds = {}, set()
    for b in blocks:
        bl = [l for l in b.split("\n") if not l.startswith("--") and not l.startswith("unfolding")]
        m = re.match(r"(?:abbrev )?(\S+) : (.*)$", "\n".join(bl), re.S)
        if not m or re.match(r"tie\.(Need|invariant|decreases)", m.group(2)):
            continue
        name, rest = m.groups()
        cut = re.search(r"\n(" + re.escape(name) + r"(?: [^=\n]*)?) =\s*(.*)$", rest, re.S)
        if not cut:
            continue
        ty, args, code = " ".join(rest[:cut.start()].split()), cut.group(1).split()[1:], cut.group(2).strip()
        if ty == "Type 0" and re.match(r"(tie|lts)\.", code):
            kinds.add(name)
            continue
        place = r"(?:(?:tie|lts)\.(?:Start|At|In|After|Then|Else)[^→()]*|" + ("|".join(map(re.escape, kinds)) or "\0") + r")"
        p = re.match(r"(?:\((\S+) : " + place + r"\)|" + place + r") → (.*)$", ty) or re.match(r"\((\S+) : " + place + r"\) (\(.*)$", ty)
        if not p or not args:
            continue
        helpers[name] = {"var": args[0], "rest": args[1:], "type": p.group(2), "body": code,
                         "place": bool(re.match(r"(?:tie|lts)\.", p.group(2))) or p.group(2) in kinds}
    comment = ""
    for b in blocks:
        if all(l.startswith("--") or not l.strip() for l in b.split("\n")):
            comment = b + "\n"
            continue
        bl = b.split("\n")
        while bl and bl[0].startswith("--"):
            comment += bl[0] + "\n"
            bl = bl[1:]
        sig = bl[0]
        m = re.match(r"(?:abbrev )?(?:pub )?(?:abbrev )?(\S+) : (.*)$", sig)
        if not m:
            notes.append(f"unread: {sig}")
            ans.append(comment + b)
            comment = ""
            continue
        name, ty = m.groups()
        if "statement M" in ty or "statement" in ty and "tie.close" in b:
            comment = ""
            continue
        t = re.match(r"tie\.(invariant|decreases)-?(\S*)", ty)
        if t:
            kind, loop = t.groups()
            clause = re.match(re.escape(name) + r" (.*?) ?=\s*(.*)$", "\n".join(bl[1:]), re.S)
            unf = ""
            if not clause:
                notes.append(f"invariant unread: {sig}")
                continue
            args, body = clause.group(1).split(), clause.group(2)
            index = next((k for k, l in enumerate(fun.names["loops"]) if norm(l[0][0]) == norm(loop)), None)
            if index is None:
                notes.append(f"no loop {loop}")
                continue
            (oldl, newl), vars_ = fun.names["loops"][index]
            changed = fun.names["changed"][index]
            meaning = {}
            moved = [v for v, ch in zip(vars_, changed) if ch]
            want = len(vars_) + len(moved)
            if len(args) != want:
                notes.append(f"loop {loop}: {len(args)} arguments, {want} wanted: {args} for {vars_} {changed}")
            for a, v, ch in zip(args, vars_, changed):
                meaning[a] = f"l.initial.{v}" if ch else f"l.{v}"
            for a, v in zip(args[len(vars_):], moved):
                meaning[a] = f"l.{v}"
            meaning.pop("_", None)
            new = re.sub(r"(?<![\w'.₀-])(" + "|".join(sorted(map(re.escape, meaning), key=len, reverse=True)) + r")(?![\w'₀-])",
                         lambda k: meaning[k.group(1)], body) if meaning else body
            inv.append(f"{comment}abbrev pub {kind}-{newl} : goal.{kind}-{newl}\n{kind}-{newl} l = {new}" if "\n" not in new or not clause.group(0).split("=",1)[1].startswith("\n")
                       else f"{comment}abbrev pub {kind}-{newl} : goal.{kind}-{newl}\n{kind}-{newl} l =\n    {new}")
            comment = ""
            continue
        t = re.match(r"tie\.Need-(\S+)", ty)
        if t:
            need = norm(t.group(1))
            known = fun.needs.get(need) or fun.needs.get(re.sub("^overflow_", "", need))
            unf = [l for l in bl[1:] if l.startswith("unfolding")]
            code = [l for l in bl[1:] if not l.startswith("unfolding")]
            clause = re.match(re.escape(name) + r" ?(.*?) ?=(\s*)(.*)$", "\n".join(code), re.S)
            if not clause:
                notes.append(f"answer unread: {sig}")
                continue
            args, gap, body = clause.group(1).split(), clause.group(2), clause.group(3)
            if TRIVIAL.match(" ".join(body.split())) and not unf:
                comment = ""
                continue
            if not known:
                notes.append(f"no need {need}")
                ans.append(f"{comment}-- no goal {need}\n{b}")
                comment = ""
                continue
            new, place = known
            args = [a for a in args if a != "κs"]
            var = args[0] if args else "c"
            my = []
            body = fun.body(body, place, var, my, helpers)
            body = clauses_of(body, need, fun)
            notes.extend(f"{new}: {n}" for n in my)
            if var == "_" and "c." in body:
                var = "c"
            out = [f"pub {new} : goal.{new}"] + unf
            gap = "\n    " if "\n" in gap else " "
            out.append(f"{new} {' '.join(['c'] + args[1:])} ={gap}{body}")
            ans.append(comment + "\n".join(out))
            comment = ""
            continue
        if name in helpers or name in kinds:
            comment = ""
            continue
        if re.search(r"\b(tie|lts|reads)\.", b):
            notes.append(f"helper over places: {name}")
        (pre if False else ans).append(comment + "\n".join(bl))
        comment = ""
    path = f"Rattle.{crate}.proofs." + ".".join(sub)
    uses += ["use Rattle.std.proofs.lemmas.Bool.{not_from_false, not_from_true}"]
    uses = [u for u in uses if not re.search(r"\.(Statement|Tie|Lts|Reads)\b", u)]
    made = {}
    if inv:
        made["Invariants.antt"] = "\n".join((head if not ans else []) + uses + [f"use {path}.Given as goal", ""]) + "\n" + "\n\n".join(inv) + "\n"
    if ans:
        made["Answers.antt"] = "\n".join(head + uses + [f"use {path}.Goals as goal", ""]) + "\n" + "\n\n".join(ans) + "\n"
    if inv and ans:
        made["Invariants.antt"] = "\n".join(head) + "\n" * bool(head) + made["Invariants.antt"]
    # imports that a file doesn't use
    for name, t in made.items():
        out = []
        body = "\n".join(l for l in t.split("\n") if not l.startswith("use "))
        for l in t.split("\n"):
            m = re.match(r"use (\S+)\.\{(.*)\}$", l)
            if m:
                keep = []
                for it in m.group(2).split(", "):
                    short = it.split(" as ")[-1]
                    if "◌" in short:
                        parts = [p for p in short.split("◌") if p]
                        if all(p in body for p in parts):
                            keep.append(it)
                    elif re.search(r"(?<![\w'-])" + re.escape(short) + r"(?![\w'-])", body):
                        keep.append(it)
                if not keep:
                    continue
                l = f"use {m.group(1)}.{{{', '.join(keep)}}}"
            out.append(l)
        made[name] = "\n".join(out)
    return made


def main(argv):
    names, crates = argv[0], argv[1:]
    labels = all_labels(".")
    for crate in crates:
        known = json.load(open(f"{names}/crates/{crate}/names.json", encoding="utf-8"))
        own = clause_labels(f"crates/{crate}")
        for folder, _, files in sorted(os.walk(f"crates/{crate}/proofs")):
            if "Proof.antt" not in files:
                continue
            sub = os.path.relpath(folder, f"crates/{crate}/proofs").split("/")
            key = f"Rattle-{crate}-proofs." + ".".join(sub) + ".Lts"
            file = f"{folder}/Proof.antt"
            if key not in known:
                print(f"{file}: no names")
                continue
            notes = []
            merged = dict(labels)
            merged.update(own)
            fun = Function(known[key], merged, crate, sub[-1])
            made = convert(file, fun, crate, sub, notes)
            os.remove(file)
            for name, text in made.items():
                with open(f"{folder}/{name}", "w", encoding="utf-8") as out:
                    out.write(text)
            if not made:
                os.rmdir(folder)
            for n in notes:
                print(f"{file}: {n}")


main(sys.argv[1:])
