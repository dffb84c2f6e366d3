#!/usr/bin/env python3
"""Respells the repository's own definitions as port.py leaves them: camelCase names of specs/ and proofs/ in snake case.

Run once at the top, after port.py. Functions of src/, strings, inputs and outputs keep their names; names of the library
(SKIP) too. SPECIAL has the names that would fall together with another, or that read better otherwise.
"""
import os
import re
import sys

SKIP = {"mut_slice_Tells", "shr_slice_Tells", "not_T", "uint_Lawful", "uint_Makes", "uint_Tells", "walk_Meets", "r_G"}
SPECIAL = {
    "eqV": "value_eq",
    "leV": "value_le",
    "ltV": "value_lt",
    "decideV": "value_decide",
    "valueIn": "value_in_plate",
    "choiceIn": "choice_in_plate",
    "stepIn": "step_in_plate",
    "left_After": "left_after",
}
# A lemma whose name a definition now has.
LEMMAS = {"same_text": "same_text_lem"}
WORD = re.compile(r"(?<![A-Za-z0-9_'])[a-z][A-Za-z0-9_']*")
STRING = re.compile(r'b?"(?:\\.|[^"\\])*"|b?\'(?:\\.|[^\'\\])\'|r"[^"]*"', re.S)


def new_name(word):
    if word in SPECIAL:
        return SPECIAL[word]
    if word in SKIP or not re.search("[A-Z]", word):
        return LEMMAS.get(word, word)
    return re.sub("([A-Z])", lambda m: "_" + m.group(1).lower(), word)


def respelt(text):
    return WORD.sub(lambda m: new_name(m.group(0)), text)


def respelt_source(text):
    out, at = [], 0
    for string in STRING.finditer(text):
        out.append(respelt(text[at:string.start()]))
        out.append(string.group(0))
        at = string.end()
    out.append(respelt(text[at:]))
    return "".join(out)


def main():
    clashes = 0
    for folder, _, names in os.walk("crates"):
        if "/out" in folder:
            continue
        for name in names:
            path = os.path.join(folder, name)
            if not name.endswith((".antt", ".rt")):
                continue
            with open(path, encoding="utf-8") as file:
                text = file.read()
            words = set(WORD.findall(text))
            for word in sorted(words):
                now = new_name(word)
                if now != word and now in words and now not in LEMMAS and not path.endswith(".rt"):
                    print(f"clash: {path}: {word} -> {now}")
                    clashes += 1
            new = respelt_source(text) if name.endswith(".rt") else respelt(text)
            if new != text:
                with open(path, "w", encoding="utf-8") as file:
                    file.write(new)
    return 1 if clashes else 0


sys.exit(main())
