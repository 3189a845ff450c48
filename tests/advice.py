#!/usr/bin/env python3
"""Follows the advice of reviews: takes refused statements out that the summary calls harmless, and all others, and looks at what is measured then.

What a program means is read here a second time, by ISO 22093: for each touch its target, direction, tool and coordinate system, and whether an
operator takes it. A program without its refused statements is accepted. With one of them put back, or with all of a group, it is refused; the
summary of that program must have said how many touches are measured in other coordinates without them, and which ones the machine then drives to
by itself. `run` calls this; by itself: tests/advice.py
"""

import re
import sys
from decimal import Decimal

from common import EXAMPLES, called, counted, room
from rows import ROWS, read

# Each program, its setup, and what its mistakes are corrected to, by line.
PROGRAMS = {
    "calypso_style_ring.dmis": ("", {11: "SNSLCT/S(PRB1)"}),
    "camio_style_flange.dmis": ("", {}),
    "flange_cleaned_up.dmis": ("flange_cleaned_up.setup", {}),
    "pc_dmis_style_block.dmis": ("", {11: "SNSLCT/SA(TIP1)"}),
    "plate.dmis": ("", {}),
    "housing.dmis": ("", {}),
    "cover.dmis": ("cover.setup", {}),
    "bracket_by_joystick.dmis": ("", {}),
}
SETS_COORDINATES = {"DATSET", "EQUATE", "ITERAT", "LOCATE", "MATDEF", "ROTAB", "ROTATE", "ROTSET", "TRANS"}
# Statements that change nothing of a touch but maybe the way to it.
CHANGES_NOTHING = {"CLOSE", "CLRSRF", "CONST", "CZONE", "CZSLCT", "DECPL", "DEVICE", "EVAL", "FLY", "GOHOME", "GOTO", "OPEN", "RAPID", "REPORT", "VFORM"}
STAYS = "what is measured stays the same"
MACHINE = (Decimal(0), Decimal(0), Decimal(0))


def word_and_values(line):
    """The major word of a statement and its parameters."""
    front, _, rest = line.strip().partition("/")
    return front.rpartition("=")[2].strip(), rest.split(",")


def numbers(texts, places):
    return tuple(Decimal(it).quantize(Decimal(1).scaleb(-places)) for it in texts)


def frames_of(setup):
    return {it.split()[1]: numbers(it.split()[2:], 3) for it in setup.splitlines() if it.startswith("FRAME ")}


def meant(lines, frames):
    """The programmed touches that a text means, by line: target and direction, tool, zero point (none if it is not known), and whether an operator takes it."""
    tool, zero, by_hand, touches = None, MACHINE, False, {}
    for number, line in enumerate(lines, 1):
        word, values = word_and_values(line)
        if word == "SNSLCT":
            tool = re.match(r"SA?\((\w+)\)", values[0])[1]
        elif word == "RECALL" and values[0].startswith("D"):
            zero = frames.get(values[0][2:-1]) if values[0].startswith("D(") else None
        elif word in SETS_COORDINATES:
            zero = None
        elif word == "MODE":
            by_hand = "PROG" not in values
        elif word == "PTMEAS" and values[0] == "CART":
            touches[number] = (numbers(values[1:4], 3), numbers(values[4:], 6), tool, zero, by_hand)
    return touches


class Calls:
    """Calls of `dme` on a text under a setup."""

    def __init__(self, folder, setup):
        self.folder = folder
        (folder / "s").write_text(setup)

    def call(self, command, lines):
        (self.folder / "p").write_text("".join(f"{it}\n" for it in lines))
        status, text, _ = called(self.folder, command, "--setup", "s", "p")
        return text.splitlines(), status

    def refused(self, lines):
        """The refused lines of a text with their codes, and its summary: the lines and the sentence of each group."""
        found, _ = self.call("review", lines)
        refusals = [re.match(r"p:(\d+): refused: (P\d+) .*?(?:MEAS at line (\d+)|$)", it) for it in found if ": refused: " in it]
        summary = [re.fullmatch(r"p: summary: [^:]+: \d+ lines? \(([\d, ]+)\): (.*)", it) for it in found if ": summary: " in it and ": dme lower" not in it]
        return {int(it[1]): (it[2], it[3]) for it in refusals}, [({int(n) for n in it[1].split(", ")}, it[2]) for it in summary]

    def measured(self, lines):
        """The touches that an accepted text becomes, by line; none if it is refused."""
        commands, status = self.call("check", lines)
        if status:
            return None
        tool, zero, shift, touches = None, MACHINE, MACHINE, []
        for line in commands:
            values = re.findall(r"-?\d+\.\d+", line)
            if "ChangeTool" in line:
                tool = line.split('"')[1]
            elif "SetCsyTransformation" in line:
                shift = tuple(-it for it in numbers(values[:3], 3))
            elif "SetCoordSystem" in line:
                zero = shift if "PartCsy" in line else MACHINE
            elif " PtMeas(" in line:
                touches.append((numbers(values[:3], 3), numbers(values[3:], 6), tool, zero))
        places = [number for number, line in enumerate(lines, 1) if word_and_values(line)[0] == "PTMEAS"]
        return dict(zip(places, touches, strict=True))


def cleaned(calls, lines, corrected):
    """A program whose mistakes are corrected and from which all else that is refused is taken out, until it is accepted; and what was taken out,
    by line, but for blocks that have too few touches."""
    lines, out = [corrected.get(number, it) for number, it in enumerate(lines, 1)], {}
    while True:
        refused, _ = calls.refused(lines)
        if not refused:
            return lines, out
        for number, (code, opening) in refused.items():
            if code == "P10":
                lines[int(opening) - 1:number] = [""] * (number - int(opening) + 1)
            else:
                out[number] = lines[number - 1]
                lines[number - 1] = ""


def said(summary):
    """How many touches a summary says are measured in other coordinates, and to how many the machine drives by itself, from and to which line."""
    text = "\n".join(it for _, it in summary)
    others = sum(int(it) for it in re.findall(r"(\d+) touch(?:es)? would be measured in|, and (\d+) touch(?:es)? in those", text) for it in it if it)
    hand = re.search(r"drives by itself to (\d+) touch(?:es)?(?:, (?:at|from) line (\d+)(?: to line (\d+))?)?", text)
    if not hand or hand[1] == "0":
        return others, (0, None, None)
    return others, (int(hand[1]), int(hand[2]), int(hand[3] or hand[2]))


def faults_of(calls, text, put_back, left, frames):
    """What is wrong with the advice on an accepted text into which refused lines are put back: `left` are the touches of the accepted one."""
    lines = [put_back.get(number, it) for number, it in enumerate(text, 1)]
    refused, summary = calls.refused(lines)
    wanted = meant(lines, frames)
    if set(refused) != set(put_back):
        yield f"{sorted(refused)} are refused"
    if any((target, direction, tool) != left[it][:3] for it, (target, direction, tool, _, _) in wanted.items() if it in left):
        yield "a touch has another target, direction or tool"
    elsewhere = [it for it in left if wanted[it][3] != left[it][3]]
    by_hand = [it for it in left if wanted[it][4]]
    others, driven = said(summary)
    if others < len(elsewhere) or driven != (len(by_hand), min(by_hand, default=None), max(by_hand, default=None)):
        yield f"{elsewhere} are measured elsewhere, {by_hand} are taken by an operator, but {summary} is said"
    harmless = set().union(*(numbers for numbers, sentence in summary if STAYS in sentence))
    for number in harmless:
        without = meant([it if at != number else "" for at, it in enumerate(lines, 1)], frames)
        word = word_and_values(lines[number - 1])[0]
        if without != wanted or (word not in CHANGES_NOTHING and word not in SETS_COORDINATES | {"DATDEF", "SAVE", "RECALL", "MODE"}):
            yield f"{word} is called harmless"


def faults_in(name, folder):
    """What is wrong with the advice on a program, and how often it was tried."""
    texts = read(ROWS / "advice.rows").named
    text = {it: texts[it].decode() if it in texts else (EXAMPLES / it).read_text() for it in (name, PROGRAMS[name][0]) if it}
    setup, corrected = text.get(PROGRAMS[name][0], ""), PROGRAMS[name][1]
    calls, frames = Calls(folder, setup), frames_of(setup)
    accepted, out = cleaned(calls, text[name].splitlines(), corrected)
    left = calls.measured(accepted)
    if not left:
        return [f"{name} is not accepted"], 1
    _, summary = calls.refused([out.get(number, it) for number, it in enumerate(accepted, 1)])
    groups = [{it: out[it] for it in numbers} for numbers, _ in summary]
    harmless = {it: line for group, (_, sentence) in zip(groups, summary) for it, line in group.items() if STAYS in sentence}
    tried = [*({it: line} for it, line in out.items()), *groups, harmless, out]
    faults = {f"{name}, with lines {sorted(it)}": list(faults_of(calls, accepted, it, left, frames)) for it in tried}
    return [f"{it}: {'; '.join(why)}" for it, why in faults.items() if why], len(faults)


def check_advice():
    faults, tried = [], 0
    for name in PROGRAMS:
        with room() as folder:
            wrong, count = faults_in(name, folder)
        faults, tried = faults + wrong, tried + count
    print(*faults, sep="\n", end="\n" if faults else "")
    return counted("advice of reviews", len(faults), tried)


if __name__ == "__main__":
    sys.exit(1 if check_advice()[1] else 0)
