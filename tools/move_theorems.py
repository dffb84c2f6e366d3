#!/usr/bin/env python3
"""Moves files of theorems from specs/ to proofs/, and cites them there.

    tools/move_theorems.py

An edit of a definition is refused only where what it breaks stands in proofs/: in specs/ rt takes it for an edit that can't
be read. It may run again: what has been moved stays, and what still cites the old place is turned.
"""
import os
import re

MOVES = {
    "game": "Members ValueLaws PlayLaws Bounds Holding Ruin LessOne Certified Unique Memory Carry Prepend Optimal RestrictLaws Ways "
            "Extend MoveTests PlacementLaws TableLaws RoundTables Stable TableIsRounds FirstLineLaws RoundBounds BestLaws RoundHolding "
            "RoundRuin RoundCertificate RoundValues RestLaws GoodLaws Resilience ConditionTests FaultLaws WellFormedTest ChartValues "
            "WrongValues WrongChoices".split(),
    "way": "Trails WayLaws OneWay".split(),
    "numbering": "SetLaws NumeralLaws DigitLaws MoveLists SquareLaws ArenaLaws EverySmall OrderLaws TextLaws".split(),
    "demands": "Demand1Holds HouseRows ReportRows RowLaws RuinRows SmallRows Demand3Holds SmallChartsHold EdgeChartsHold TwoWaysHold "
               "BlankMarksHold GoodMovesHold RestHolds WayToRuinHolds".split(),
    "run": "RunningLaws AnswersExact AnyTextsHold Followed".split(),
    "house": "AnswersExact AnyCallsHold DrivingLaws HousingLaws Lent".split(),
}
# Theorems that stood beside definitions in one file: the file, the new one, what went there.
SPLITS = {
    ("search", "First"): ("FirstLaws", "first_or_none first_next first-stop first_done first-none first-at first_ended first-answered first-same".split()),
}


def sources():
    for folder, _, names in os.walk("crates"):
        if "/out" not in folder:
            for name in names:
                if name.endswith((".antt", ".rt", ".edit")):
                    yield os.path.join(folder, name)


def move(crate, file):
    old, new = f"crates/{crate}/specs/{file}.antt", f"crates/{crate}/proofs/{file}.antt"
    if not os.path.exists(old):
        return
    os.makedirs(os.path.dirname(new), exist_ok=True)
    os.rename(old, new)


def listed(crate):
    """Each file of specs/ and proofs/ is declared in its Lib.antt, in the order in which it was."""
    lib = f"crates/{crate}/specs/Lib.antt"
    text = open(lib, encoding="utf-8").read()
    moved = [f for f in MOVES[crate] if f"pub mod {f}\n" in text]
    for f in moved:
        text = text.replace(f"pub mod {f}\n", "")
    open(lib, "w", encoding="utf-8").write(text)
    own = f"crates/{crate}/proofs/Lib.antt"
    was = open(own, encoding="utf-8").read() if os.path.exists(own) else "-- What is proved of the definitions in specs/.\n"
    for f in moved:
        if f"pub mod {f}\n" not in was:
            was += f"pub mod {f}\n"
    open(own, "w", encoding="utf-8").write(was)


def turned(text):
    for crate, files in MOVES.items():
        text = re.sub(rf"Rattle\.{crate}\.specs\.({'|'.join(files)})(?![A-Za-z0-9])", rf"Rattle.{crate}.proofs.\1", text)
    for (crate, file), (new, names) in SPLITS.items():
        def split(m):
            items = m.group(2).split(", ")
            there = [i for i in items if i.split(" as ")[0] in names]
            here = [i for i in items if i not in there]
            out = []
            if here:
                out.append(f"{m.group(1)}use Rattle.{crate}.specs.{file}.{{{', '.join(here)}}}{m.group(3)}")
            if there:
                out.append(f"{m.group(1)}use Rattle.{crate}.proofs.{new}.{{{', '.join(there)}}}{m.group(3)}")
            return "\n".join(out)
        text = re.sub(rf"^((?:ghost )?)use Rattle\.{crate}\.specs\.{file}\.\{{(.*)\}}(;?)$", split, text, flags=re.M)
    return text


def main():
    for crate, files in MOVES.items():
        for file in files:
            move(crate, file)
        listed(crate)
    for path in sources():
        text = open(path, encoding="utf-8").read()
        new = turned(text)
        if new != text:
            with open(path, "w", encoding="utf-8") as file:
                file.write(new)


main()
