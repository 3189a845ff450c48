#!/usr/bin/env python3
"""Reviews of generated programs, judged by a second implementation: it asks `dme check` for the first refusal, takes the refused statement
out but for what it certainly means, and asks again, until the program is accepted. `dme review` must list the same refusals.

And each finding alone, and each two of them one after the other: the lines and the literal sentences are in a table below.

`run` calls this with some hundred programs, `releases.py` with 3,000; by itself: tests/reviews.py [COUNT [SEED]]
"""

import random
import re
import sys

from common import EXAMPLES, called, counted, room

TOUCHES = ["PTMEAS/CART,1,2,3", "PTMEAS/CART,1,2,3,0,0,1", "PTMEAS/CART,1,2", "PTMEAS/CART,1,2,X", "PTMEAS/POL,1,2,3", "PTMEAS/CART,1,2,3,0,0,0"]
TOUCHES += ["PTMEAS/CART,1,2,3,0,0,1"] * 6
OTHERS = ["GOTO/1,2,3", "GOTO/CART,1,2,3", "GOTO/1,2", "GOTO/INCR,1,2,3", "SNSLCT/S(T)", "SNSLCT/SA(T)", "SNSLCT/S(", "SNSLCT/T", "RECALL/D(NONE)"]
OTHERS += ["RECALL/D(", "RECALL/S(X)", "RECALL/Q", "RECALL", "UNITS/MM", "UNITS/INCH", "UNITS", "MODE/PROG", "MODE/MAN", "MODE", "FEDRAT/1", "TEXT/OPER,'A"]
OTHERS += ["F(A)=FEAT/POINT", "A=TEXT/X", "TOL/X", "DECL/A", "CALL/B", "$$ comment", "", "DMISMN/'X'", "A=DMISMN/'X'", "DMISMN/'X", "PTMES/1"]
OPENING = ["MEAS/POINT,F(A),1", "MEAS/PLANE,F(A),2", "MEAS/CIRCLE,F(A),4", "MEAS/POINT,F(A),0", "MEAS/POINT,A,1", "MEAS/1,F(A),1"]
CLOSING = ["ENDMES", "ENDMES", "ENDMES", "ENDMES/X"]
ENDS = ["ENDFIL", "ENDFIL", "ENDFIL", "ENDFIL/X", None]
STARTS = ["DMISMN/'P'"] * 6 + ["DMISMN", "FILNAM/'P'", "MEAS/POINT,F(A),1", "PTMEAS/CART,1,2,3", "SNSLCT/S(T)", "A=DMISMN/'X'", "DMISMN/'X", "DMIS"]


def generated(random_source):
    """The lines of a program with mistakes."""
    pick = random_source.choice
    clean = random_source.random() < 0.1
    lines = [pick(STARTS)]
    if random_source.random() < 0.7:
        lines.append("SNSLCT/S(T)")
    for _ in range(random_source.randrange(6)):
        kind = random_source.random()
        if clean or kind < 0.5:
            lines += [pick(OPENING[:3] if clean or random_source.random() < 0.7 else OPENING)]
            lines += [pick(TOUCHES[:2] if clean else TOUCHES) for _ in range(random_source.randrange(5))]
            if not clean and random_source.random() < 0.3:
                lines.insert(len(lines) - random_source.randrange(3), pick(OTHERS + OPENING))
            if clean or random_source.random() < 0.85:
                lines.append("ENDMES" if clean else pick(CLOSING))
        elif kind < 0.6:
            lines.append(pick(TOUCHES + CLOSING))
        else:
            lines.append(pick(OTHERS))
    if random_source.random() < 0.03:
        lines.append("X" * 4097 if random_source.random() < 0.5 else "DISPLY/\x07")
    end = pick(ENDS)
    if end is not None:
        lines.append(end)
        if random_source.random() < 0.2:
            lines += ["GOTO/X", "NONSENSE"]
    return lines


def word_of(line):
    """The major word of a line that is one statement."""
    return line.partition("/")[0].rpartition("=")[2].strip().upper()


class Text:
    """The lines of a program from which refused statements are taken out. Each line keeps its number; a line that is put in has none."""

    def __init__(self, lines):
        self.lines = [(number, line) for number, line in enumerate(lines, 1)]
        self.without_count = set()  # numbers of the MEAS whose touches are not counted

    def as_text(self):
        return "".join(f"{line}\n" for _, line in self.lines)

    def opening_above(self, at):
        """The place of the MEAS whose block is open above this place; none if no block is."""
        for place in range(at - 1, -1, -1):
            word = word_of(self.lines[place][1])
            if word == "MEAS":
                return place
            if word == "ENDMES":
                return None
        return None

    def replace(self, at, line):
        self.lines[at] = (self.lines[at][0], line)

    def take_out(self, at):
        self.replace(at, "")

    def take_block_out(self, opening, at):
        """Takes a block out that ends at this place: its MEAS, its touches and its ENDMES."""
        for place in range(opening, at + 1):
            if word_of(self.lines[place][1]) in ("MEAS", "PTMEAS", "ENDMES"):
                self.take_out(place)

    def open_without_count(self, at):
        """A MEAS that is refused outside a block opens one all the same; inside one it is a block that continues."""
        opening = self.opening_above(at)
        if opening is None:
            self.replace(at, "MEAS/POINT,F(A),1")
            self.without_count.add(self.lines[at][0])
        else:
            self.take_out(at)
            self.without_count.add(self.lines[opening][0])

    def count_touch(self, at):
        """A touch that is refused is taken out, and the block asks for one less."""
        opening = self.opening_above(at)
        self.take_out(at)
        if opening is None:
            return
        front, _, count = self.lines[opening][1].rpartition(",")
        if int(count) > 1:
            self.replace(opening, f"{front},{int(count) - 1}")
        else:
            self.without_count.add(self.lines[opening][0])

    def start(self, at):
        """The first statement is no DMISMN: one is put in, and the next is only passed over. The statement itself is taken out."""
        self.lines.insert(0, (None, "DMISMN"))
        self.pass_over(at + 1, "P1 NotDmis")
        for place in range(at + 2, len(self.lines)):
            line = self.lines[place][1]
            if word_of(line) == "DMISMN":
                self.replace(place, line.replace("DMISMN", "DISPLY"))
                return

    def pass_over(self, at, refusal):
        """Takes a refused statement out, but for what it certainly means."""
        word = word_of(self.lines[at][1])
        if word == "MEAS":
            self.open_without_count(at)
        elif word == "PTMEAS" and refusal == "P15 NoTool":
            self.lines.insert(at, (None, "SNSLCT/S(T)"))
        elif word == "PTMEAS":
            self.count_touch(at)
        elif word == "ENDMES":
            opening = self.opening_above(at)
            self.take_out(at) if opening is None else self.take_block_out(opening, at)
        elif word == "SNSLCT":
            self.replace(at, "SNSLCT/S(T)")
        elif word == "DMISMN" and at == 0:
            self.replace(at, "DMISMN")
        else:
            self.take_out(at)


def first_refusal(text):
    """What `dme check` refuses first, and its line; none if it accepts."""
    found = re.fullmatch(r"dme: (.*) at line (\d+)\n", called(EXAMPLES, "check", text=text)[2])
    return (found[1], int(found[2])) if found else None


def expected(lines):
    """The refusals with their lines, one after the other."""
    text, found = Text(lines), []
    while True:
        refused = first_refusal(text.as_text())
        if refused is None:
            return found
        refusal, line = refused
        at = line - 1
        number = text.lines[at][0] if at < len(text.lines) else len(lines)
        opening = text.opening_above(at) if at < len(text.lines) else None
        is_hidden = refusal == "P10 TooFewPoints" and opening is not None and text.lines[opening][0] in text.without_count
        if not is_hidden:
            found.append((refusal, number))
        if refusal.split()[0] in ("P2", "P3", "P4") or word_of(text.lines[at][1]) == "ENDFIL":
            return found
        if refusal == "P1 NotDmis":
            if not any(line.partition("$$")[0].strip() for line in lines):
                return found
            text.start(at)
        else:
            text.pass_over(at, refusal)


def listed(lines):
    """What `dme review` lists, and its status."""
    status, review, _ = called(EXAMPLES, "review", text="".join(f"{it}\n" for it in lines))
    found = re.findall(r"^-:(\d+): refused: (P\d+ \w+(?: \(N\d \w+\))?): .+$", review, re.MULTILINE)
    return [(refusal, int(line)) for line, refusal in found], status


def block(label, kind, *touches, count=None, feature=True, moves=True):
    """The lines of a feature: its definition, and its block with a move before these touches."""
    lines = [f"F({label})=FEAT/{kind},CART,0,0,0,0,0,1"] if feature else []
    lines.append(f"MEAS/POINT,F({label}),{count or len(touches)}")
    return lines + (["GOTO/1,2,9"] if moves else []) + list(touches) + ["ENDMES"]


TOUCH = "PTMEAS/CART,1,2,3,0,0,1"
NOT_CARRIED_OUT = "refused: P5 Unsupported: {} is not carried out."
ALONE = {  # what is found in a line: the line, and the sentence on it
    "P5": ("DECPL/ALL,3", NOT_CARRIED_OUT.format("DECPL") + " dme lower leaves it out."),
    "P6": ("SNSLCT/T", "refused: P6 BadArguments: T is not S(name) or SA(name)."),
    "P7": ("GOTO/1,x,3", "refused: P7 BadNumeral (N1 NotNumeral): x is not a numeral: a numeral has digits with at most one point, and optionally a"
                         " sign and an exponent of one to three digits."),
    "P8": (TOUCH, "refused: P8 OutsideBlock: PTMEAS is outside a measurement block: no MEAS above it is open."),
    "P12": ("UNITS/INCH", "refused: P12 NotMillimetres: The unit INCH is not read: lengths are in MM. dme lower writes it out."),
    "P13": ("MODE/MAN", "refused: P13 NoProgMode: The mode MAN is not carried out, and PROG is not among the words of MODE: without this line, or with"
                        " PROG, the machine drives by itself to the touches below, which MAN leaves to the operator, since the place of the part is"
                        " not known."),
    "radius": ("PRCOMP/OFF", "passed over: PRCOMP/OFF would say whether points are corrected by the radius of the probe: they are taken as the server"
                             " reports them."),
    "standstill": ("FINPOS/OFF", "passed over: FINPOS/OFF would say whether a move ends only when the machine stands still: the server decides."),
    "approach": ("SNSET/APPRCH,3", "passed over: SNSET/APPRCH,3 would set how the probe approaches, searches and retracts: the machine's own settings are"
                                   " used."),
    "plane": ("WKPLAN/XYPLAN", "passed over: WKPLAN/XYPLAN would name the plane of later statements: positions have three coordinates here."),
    "speed": ("FEDRAT/1", "passed over: FEDRAT/1 would set a speed: the machine's own is used."),
    "acceleration": ("ACLRAT/1", "passed over: ACLRAT/1 would set an acceleration: the machine's own is used."),
    "operator": ("TEXT/OPER,'TURN'", "passed over: TEXT/OPER,'TURN' is a text for the operator: a run waits for him only with --pause."),
}
AMONG = {  # in several lines: these, with a label of their own, and for each sentence how many lines are above it; {} is the line there
    "P9": lambda it: (
        [f"F(I{it})=FEAT/POINT,CART,0,0,0,0,0,1", *block(it, "POINT", TOUCH, f"MEAS/POINT,F(I{it}),1", count=1)],
        {5: "refused: P9 InsideBlock: MEAS is inside the measurement block that begins at line {2}: it has no ENDMES yet."},
    ),
    "P10": lambda it: (
        block(it, "POINT", count=2),
        {3: "refused: P10 TooFewPoints: The program asks for automatic measuring: MEAS at line {1} names 2 touches and its block has none,"
            " and only programmed touches are measured. Write a PTMEAS for each, or delete the MEAS at line {1} and this ENDMES together."},
    ),
    "P11": lambda it: (
        ["RECALL/D(NOPE)", "RECALL/D(HERE)"],
        {0: "refused: P11 UnknownFrame: No frame NOPE is stored: --setup is missing, or its file has no line FRAME NOPE."},
    ),
    "P14": lambda it: (
        block(it, "POINT", "PTMEAS/CART,1,2,3,0,0,0"),
        {3: "refused: P14 ZeroVector: The direction 0,0,0 is zero in all components, rounded to millionths."},
    ),
    "direction": lambda it: (
        block(it, "POINT", "PTMEAS/CART,1,2,3,0,0,1.002"),
        {3: "odd: PTMEAS/CART,1,2,3,0,0,1.002 has a direction whose length is not 1."},
    ),
    "no move": lambda it: (
        block(f"I{it}", "POINT", TOUCH) + block(it, "POINT", TOUCH, moves=False),
        {7: "odd: The probe travels straight from line {3} (1.000 2.000 3.000) to line {7} (1.000 2.000 3.000), 0.000 mm, with no GOTO between."},
    ),
    "more touches": lambda it: (
        block(it, "POINT", TOUCH, TOUCH, count=1),
        {5: "odd: ENDMES ends a block with more touches than its MEAS names."},
    ),
    "no definition": lambda it: (
        block(it, "POINT", TOUCH, feature=False),
        {0: f"odd: MEAS/POINT,F({it}),1 measures a feature that no FEAT above defines."},
    ),
    "another kind": lambda it: (
        block(it, "PLANE", TOUCH),
        {1: f"odd: MEAS/POINT,F({it}),1 measures a feature as another kind than its FEAT above says."},
    ),
    "measured twice": lambda it: (
        block(it, "POINT", TOUCH) + block(it, "POINT", TOUCH, feature=False),
        {5: f"odd: MEAS/POINT,F({it}),1 measures a feature whose label another MEAS above has."},
    ),
    "defined twice": lambda it: (
        [f"F({it})=FEAT/POINT,CART,0,0,0,0,0,1"] * 2,
        {1: "odd: FEAT/POINT,CART,0,0,0,0,0,1 defines a feature whose label another FEAT above has."},
    ),
    "tool": lambda it: (["SNSLCT/S(P9)", "SNSLCT/S(P1)"], {0: "setup: SNSLCT/S(P9) selects a tool that the setup lacks."}),
    "volume": lambda it: (
        ["RECALL/D(FAR)", "GOTO/2,0,0", "RECALL/D(HERE)"],
        {1: "setup: GOTO/2,0,0 is out of the machine's volume: an axis is more than 1,000 metres from its zero point."},
    ),
}
NEAR_WORD = ["PTMES/1"], [NOT_CARRIED_OUT.format("PTMES"), "odd: PTMES: PTMEAS?"]
NAMES = [*ALONE, *AMONG, "near word"]
MEASURED = ("P7", "P8", "P9", "P10", "P13", "P14")  # refusals of words that measure or move, or of MODE
SETUP = "TOOL P1\nFRAME HERE 0 0 0\nFRAME SPARE 0 0 0\nFRAME FAR 999999 0 0\n"
OPENED = ["DMISMN", "SNSLCT/S(P1)", "RECALL/D(FAR)", "RECALL/D(HERE)"]


def found_by(name, label):
    """The lines of a finding, and each of its sentences with how many lines are above it."""
    if name in ALONE:
        line, sentence = ALONE[name]
        return [line], [(0, sentence)]
    if name == "near word":
        return NEAR_WORD[0], [(0, it) for it in NEAR_WORD[1]]
    lines, sentences = AMONG[name](label)
    return lines, list(sentences.items())


def review_of(names):
    """The lines of a program with these findings, one after the other, and the lines of its review but for the summary."""
    lines, due, manual = list(OPENED), [], False
    for place, name in enumerate(names):
        chunk, sentences = found_by(name, f"L{place}")
        numbers = [len(lines) + 1 + it for it in range(len(chunk))]
        manual = manual or name == "P13"
        end = " dme lower --skip-manual leaves it out." if manual and name in MEASURED else ""
        due += [f"p:{numbers[above]}: {sentence.format(*numbers)}{end}" for above, sentence in sentences]
        lines += chunk
    return [*lines, "ENDFIL"], [*due, "s:3: setup: FRAME SPARE is stored, and no RECALL of the program selects it."]


def is_reviewed(names, folder):
    """Whether a program with these findings is reviewed so, with the status, and refused by `dme check` for the first refusal."""
    lines, due = review_of(names)
    (folder / "p").write_text("".join(f"{it}\n" for it in lines))
    status, review, _ = called(folder, "review", "--setup", "s", "p")
    refused = called(folder, "check", "--setup", "s", "p")[2]
    found = [it for it in review.splitlines() if not it.startswith("p: summary: ")]
    refusals = [re.match(r"p:(\d+): refused: (P\d+ \w+(?: \(N\d \w+\))?): ", it) for it in due if ": refused: " in it]
    first = f"dme: {refusals[0][2]} at line {refusals[0][1]}\n" if refusals else ""
    if found == due and status == (1 if refusals else 0) and refused == first:
        return True
    print(f"review of {' and '.join(names)}: {found} with status {status} and {refused!r}, not {due} and {first!r}")
    return False


def check_findings():
    """Each finding alone, and each two of them."""
    names = [(it,) for it in NAMES] + [(it, other) for it in NAMES for other in NAMES]
    with room({"s": SETUP}) as folder:
        wrong = sum(not is_reviewed(it, folder) for it in names)
    return counted("findings alone and in pairs", wrong, len(names))


def check_reviews(count=300, seed=37):
    source = random.Random(seed)
    wrong = 0
    for number in range(count):
        lines = generated(source)
        due = expected(lines)
        found, status = listed(lines)
        if found != due or status != (1 if due else 0):
            wrong += 1
            if wrong <= 3:
                print(f"review of program {number}: {found} with status {status}, not {due}, of:", *lines, sep="\n  ")
    return counted("reviews", wrong, count)


if __name__ == "__main__":
    sys.exit(1 if check_reviews(*map(int, sys.argv[1:]))[1] else 0)
