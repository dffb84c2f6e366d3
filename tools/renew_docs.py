#!/usr/bin/env python3
"""Brings the names and the counts of lines in README.md and docs/ to what specs/ and proofs/ have now. It prints what it can't place."""
import glob
import os
import re

WORD = re.compile(r"[^\s(){}\[\],;:=λ`]+")
PAGES = ["README.md", *(p for p in glob.glob("docs/*.md") if p != "docs/PORT.md"), *glob.glob("*/README.md")]


def norm(name):
    return re.sub("[-_]", "", name).lower()


def index():
    words, files = {}, {}
    for path in glob.glob("crates/*/*/*.antt") + glob.glob("crates/*/src/**/*.rt", recursive=True):
        found = {w for part in WORD.findall(open(path, encoding="utf-8").read()) for w in [part, *part.split(".")]}
        crate, file = path.split("/")[1], os.path.basename(path).rsplit(".", 1)[0]
        if path.endswith(".antt"):
            files.setdefault((crate, file), set()).update(found)
        for w in found:
            words.setdefault(norm(w), set()).add(w)
    return words, files


def best(name, among):
    # (camelCase is a definition's old spelling, a dash a lemma's)
    same = sorted((w for w in among if norm(w) == norm(name)), key=lambda w: "-" in w)
    lower = [w for w in same if w[:1].islower() == name[:1].islower()]
    return (lower or same or [None])[0]


def main():
    words, files = index()
    every = {w for ws in words.values() for w in ws}

    def turn(m):
        text = m.group(1)
        cite = re.fullmatch(r"([a-z_]+)/([A-Z][A-Za-z0-9]*)\.([^. ]+)", text)
        if cite:
            crate, file, name = cite.groups()
            have = files.get((crate, file))
            if have is None:
                places = [f for c, f in files if c == crate and best(name, files[(c, f)])]
                if len(places) == 1:
                    return f"`{crate}/{places[0]}.{best(name, files[(crate, places[0])])}`"
                print("no file:", text, places)
                return m.group(0)
            now = best(name, have) if name not in have else name
            if not now:
                print("no name:", text)
            return f"`{crate}/{file}.{now or name}`"
        if re.fullmatch(r"[a-z][\w'-]*", text) and text not in every and re.search("[A-Z-]", text):
            now = best(text, words.get(norm(text), ()))
            if now:
                return f"`{now}`"
        return m.group(0)

    for page in PAGES:
        was = open(page, encoding="utf-8").read()
        now = re.sub(r"`([^`\n]+)`", turn, was)
        now = re.sub(r"\b([a-z_]+)/specs/([A-Z]\w*)\.antt", lambda m: f"{m.group(1)}/proofs/{m.group(2)}.antt" if os.path.exists(f"crates/{m.group(1)}/proofs/{m.group(2)}.antt") else m.group(0), now)
        if page == "docs/READING.md":
            def counted(m):
                names = re.findall(r"`([a-z_]+)/([A-Za-z0-9]+)`", m.group(1))
                n = sum(len(open(f"crates/{c}/specs/{f}.antt", encoding="utf-8").read().split("\n")) - 1 for c, f in names)
                return f"| {m.group(1)} | {n} |"
            now = re.sub(r"^\| ((?:`[a-z_]+/[A-Za-z0-9]+`(?:, )?)+) \| \d+ \|", counted, now, flags=re.M)
        if now != was:
            with open(page, "w", encoding="utf-8") as f:
                f.write(now)


main()
