#!/usr/bin/env python3
"""Respells the must-fail edits as port.py and respell.py respelt the files that they change: `old:` and `new:` alike."""
import glob
import importlib.util
import os
import re
import sys

spec = importlib.util.spec_from_file_location("respell", os.path.join(os.path.dirname(__file__), "respell.py"))
sys.argv = ["respell"]
source = open(spec.origin, encoding="utf-8").read().replace("sys.exit(main())", "")
respell = {}
exec(compile(source, spec.origin, "exec"), respell)
# what else port.py respelt in these lines, besides operators
WORDS = {"getD": "get_or", "disturbanceMove": "disturbance_move", "same-before": "same_before", "ruin-by": "ruin_by"}


def turned(text):
    text = re.sub(r"(?<![\w'-])(" + "|".join(WORDS) + r")(?![\w'-])", lambda m: WORDS[m.group(1)], text)
    text = respell["respelt"](text)
    text = text.replace("′", "'").replace("List·Memᴰ", "Memᴰ")
    text = re.sub(r"(?<![\w'])_([^\w\s{},]+)_(?![\w'])", r"◌\1◌", text)
    text = re.sub(r"(?<=[\w)'])\s\.(?=[a-z0-9])", ".", text)
    text = re.sub(r"Rattle·(\w+)·specs\.specs", r"Rattle.\1.specs", text)
    return text


def main():
    left = 0
    for path in sorted(glob.glob("crates/*/must-fail/*.edit")):
        lines = open(path, encoding="utf-8").read().split("\n")
        file = next(l[6:] for l in lines if l.startswith("file: "))
        text = open(f"{os.path.dirname(os.path.dirname(path))}/{file}", encoding="utf-8").read()
        out, now = [], text
        for i, line in enumerate(lines):
            if line.startswith(("old: ", "new: ")) and file.startswith("specs/"):
                line = line[:5] + turned(line[5:])
            out.append(line)
        pairs = [l[5:] for l in out if l.startswith(("old: ", "new: "))]
        for old, new in zip(pairs[::2], pairs[1::2]):
            if now.count(old) != 1:
                print(f"{path}: {now.count(old)} times: {old}")
                left += 1
                break
            now = now.replace(old, new)
        with open(path, "w", encoding="utf-8") as f:
            f.write("\n".join(out))
    print(left, "left")


main()
