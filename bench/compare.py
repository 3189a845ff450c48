#!/usr/bin/env python3
"""Compares the plain programs of bench/plain/ with ours: both run on the same input, and the first difference stops it.

`check` gets each program and setup of examples/ and of the rows of tests/program/, and some thousands of changed ones, made with a fixed
seed; standard output, standard error and status are compared. `wire`, `server` and `client` print counts and sums, which are compared
for several sizes, pieces and windows. What the cores answer to calls in each state is compared by the rows of crates/test_calls, and by
random calls and lines. It needs the built programs (see counting.py), and builds the plain ones.

usage: bench/compare.py [CHANGED_PROGRAMS]
"""
import os
import pathlib
import random
import re
import subprocess
import sys
import tempfile

from counting import ROOT, built, plain
from rows import program_rows

# Parts of the input of test_calls that plain programs play too.
PLAYED = ("program", "setup", "client", "server")

CHANGED = int(sys.argv[1]) if len(sys.argv) > 1 else 4_000

NUMERALS = [
    "0", "1", "+1", "-1", "1.", ".5", "-.5", ".", "", "-", "+", "1..2", "1.2.3", "--1", "1e", "1e3", "1E-3", "-1.5E+2", "1e+", "1e1000",
    "1e-999", "1E99", "0E99", "0e-99", "0.0005", "-0.0005", "0.00049999", "-0.0004", "1000000", "1000000.0004", "1000000.0005",
    "-1000000.0005", "999999.9995", "999999.99949", "1000.0000004", "1000.0000005", "0.0000005", "0.00000049", "-0.0000005",
    "0.5773502692", "1 2", "1e 2", "0x1", "1_0", "0" * 30, "0" * 31, "1" * 30, "1" * 31, "0." + "0" * 29, "0." + "0" * 30,
    "0" * 24 + "1.5", "1." + "0" * 29, "123456789012345678901234567890e-29", "999999999999999999999999999999e-24", "5e-4", "4e-4",
    "49999999999999999999999999999e-32", "5" + "0" * 29 + "e-33", "5" + "0" * 28 + "1e-33", "1e6", "1e7", "'1'", "\t1 ", " 2.50\t",
    "1e0000", "12e-040", "7E-00", "nan", "inf",
]

STATEMENTS = [
    "GOTO/{0},{1},{2}", "GOTO/CART,{0},{1},{2}", "goto/cart , {0} ,{1},{2}", "PTMEAS/CART,{0},{1},{2}",
    "PTMEAS/CART,{0},{1},{2},{3},{4},{5}", "ptmeas/cart,{0},{1},{2},0,0,1", "PTMEAS/{0},{1},{2}", "PTMEAS/POL,{0},{1},{2}",
    "GOTO/POL,{0},{1},{2}", "GOTO", "PTMEAS", "GOTO/", "PTMEAS/", "GOTO/INCR,{0}", "MEAS/POINT,F(A),1", "MEAS/circle,F(b_1),0002",
    "MEAS/PLANE,F(X),{0}", "MEAS/P1,F(X),1", "MEAS/POINT,F( X ),1", "MEAS/POINT,F(),1", "MEAS/,F(A),1", "MEAS/POINT,F(A)",
    "MEAS/POINT,F(A),10000", "MEAS/POINT,F(A),10001", "MEAS/POINT,F(A),0", "MEAS/POINT,F(" + "N" * 64 + "),1",
    "MEAS/POINT,F(" + "N" * 65 + "),1", "MEAS/POINT,F(A),99999999999999999999999999", "MEAS/POINT,FA(A),1", "MEAS/POINT,F(A=B),1",
    "MEAS/POINT,'F(A)',1", "MEAS", "ENDMES", "ENDMES/", "endmes", "ENDMES/1", "A=ENDMES/1", "SNSLCT/S(P1)", "SNSLCT/SA(p2)",
    "SNSLCT/S(P1),S(P2)", "SNSLCT/SB(P1)", "SNSLCT", "SNSLCT/S(P 1)", "SNSLCT/S(P1", "RECALL/D(A)", "RECALL/S(A)", "RECALL/SA(A)",
    "RECALL/S(", "RECALL/DA(A)", "RECALL/D (A)", "RECALL/", "RECALL", "RECALL/D(A),x", "RECALL/D(,)", "L=RECALL/S(A)", "ENDFIL",
    "ENDFIL/", "ENDFIL/1", "endfil", "UNITS/MM,ANGDEC", "UNITS/INCH", "UNITS", "UNITS/", "UNITS/MM", "MODE/PROG,MAN", "MODE/MAN",
    "MODE", "MODE/", "MODE/AUTO,prog", "FEAT/POINT", "F(A)=FEAT/POINT,CART,{0}", "=FEAT/x", "A=FEAT", "T(1)=TOL/DIAM", "=GOTO/1,2,3",
    "L=TEXT/OPER,'a'", "TEXT/OPER,'it''s, a / = text $$ of it'", "TEXT/OPER,'open", "TEXT/OPER,'open $", "FEAT/'open",
    "FEDRAT/MESVEL,{0}", "DISPLY/TERM", "OUTPUT/FA(A)", "MACRO/X", "GO TO/1,2,3", "DMISMN/'AGAIN'", "FILNAM/'x'", "'A'/1", "/", "=",
    "=/", "$", " $ ", "$$", "$$$", "GOTO/1,$", "GOTO/1,$ $$ more", "2,3", "  ", "\t", "GOTO/1,2,3$", "GOTO/1,2,3 $$ comment \xe4",
    "TEXT/OPER,'\xfc'", "TEXT/\xfc", "$$ \x7f", "'", "''", "GOTO/'1',2,3", "FINPOS/ON", "PRCOMP/ON", "WKPLAN/XYPLAN", "SNSDEF/1",
    "S(1)=SNSDEF/PROBE", "ACLRAT/1", "SNSET/1", "TEXT", "TOL",
]


def given_programs():
    """Each program of examples/, and each file and standard input of the rows of `check`."""
    rows = program_rows().values()
    texts = [it.read_bytes() for it in sorted(ROOT.glob("examples/*.dmis"))] + [it.texts["stdin"] for it in rows if "stdin" in it.texts]
    return texts + [text for row in rows for text in row.given.values()]


def whole_program(choose):
    """Random statements around a frame that lets many of them be reached."""
    lines = ["DMISMN/'M',05.2"] if choose.random() < 0.97 else []
    if choose.random() < 0.9:
        lines.append("SNSLCT/S(P1)")
    for _ in range(choose.randrange(8)):
        statement = choose.choice(STATEMENTS)
        good = choose.random() < 0.4
        values = [choose.choice(["1", "-2.5", "30.0625"]) if good or choose.random() < 0.7 else choose.choice(NUMERALS) for _ in range(6)]
        lines.append(re.sub(r"\{(\d)\}", lambda found: values[int(found[1])], statement))
        if choose.random() < 0.5:
            lines += ["MEAS/POINT,F(A),1", f"PTMEAS/CART,{choose.choice(NUMERALS)},2,3", "ENDMES"]
    if choose.random() < 0.9:
        lines.append("ENDFIL")
    end = choose.choice(["\n", "\r\n"])
    text = end.join(lines) + choose.choice([end, "", end + end, "\r"])
    return text.encode("latin-1")


def with_numerals(choose, text):
    """Replaces one number of the text by another numeral."""
    places = list(re.finditer(rb"-?[\d.]+", text))
    if not places:
        return text
    place = choose.choice(places)
    return text[:place.start()] + choose.choice(NUMERALS).encode() + text[place.end():]


def with_bytes(choose, text):
    """Changes, removes or inserts a few bytes."""
    text = bytearray(text)
    for _ in range(choose.randrange(1, 4)):
        at = choose.randrange(len(text) + 1)
        byte = choose.choice([choose.randrange(256), ord(choose.choice("$$''/=,()\r\n\t 09.eE+-aZ"))])
        kind = choose.randrange(3)
        if kind == 0 or at == len(text):
            text.insert(at, byte)
        elif kind == 1:
            text[at] = byte
        else:
            del text[at]
    return bytes(text)


def with_lines(choose, text):
    """Cuts, doubles, exchanges or lengthens a line, or puts another statement before it."""
    lines = text.split(b"\n")
    at, other = choose.randrange(len(lines)), choose.randrange(len(lines))
    kind = choose.randrange(6)
    if kind == 0:
        del lines[at]
    elif kind == 1:
        lines.insert(at, lines[other])
    elif kind == 2:
        lines[at], lines[other] = lines[other], lines[at]
    elif kind == 3:
        lines.insert(at, choose.choice(STATEMENTS).format(*"123001").encode("latin-1"))
    elif kind == 4:
        lines[at] = lines[at][:choose.randrange(len(lines[at]) + 1)]
    else:
        filler = choose.choice([b" ", b"x", b"$", b"'"]) * choose.choice([1, 2, 4080, 4095, 4096, 4097])
        lines[at] = choose.choice([filler, lines[at] + filler, lines[at] + b"$$" + filler])
    return b"\n".join(lines)


def changed_program(choose, givens):
    if choose.random() < 0.4:
        text = whole_program(choose)
    else:
        text = choose.choice(givens)
    for _ in range(choose.choice([0, 1, 1, 1, 2, 3])):
        text = choose.choice([with_numerals, with_bytes, with_lines])(choose, text)
    return text


def found(words, text=b""):
    run = subprocess.run(words, input=text, stdout=subprocess.PIPE, stderr=subprocess.PIPE)
    return run.returncode, run.stdout, run.stderr


def compare(ours, plain_words, text=b""):
    """The results of both; the script stops if they differ."""
    first, second = found(ours, text), found(plain_words, text)
    if first != second:
        with tempfile.NamedTemporaryFile(delete=False, suffix=".input") as file:
            file.write(text)
        sys.exit(f"{ours[1:]}: ours gave\n{first}\nand the plain program\n{second}\nof the input in {file.name}")
    return first


def compare_check():
    choose = random.Random(20240817)
    givens = given_programs()
    small = [text for text in givens if len(text) < 20_000 and b"DMISMN" in text.upper()]
    texts = givens + [changed_program(choose, small) for _ in range(CHANGED)]
    told = {}
    ours, theirs = built("dme_program"), plain()
    for text in texts:
        status, _, errors = compare([ours, "check"], [theirs, "check"], text)
        cause = re.sub(rb" at line \d+", b"", errors).decode().strip() or f"status {status}"
        told[cause] = told.get(cause, 0) + 1
    for name in ("missing.dmis", str(ROOT / "examples"), str(ROOT / "examples" / "bore.dmis"), "-"):
        compare([ours, "check", name], [theirs, "check", name])
    print(f"check: {len(texts) + 4:,} programs alike")
    for cause, count in sorted(told.items()):
        print(f"  {count:6,} {cause}")


def compare_sums():
    ours, theirs = built("bench_world"), plain()
    rows = [["wire", side, str(lines), str(piece)]
            for side in ("commands", "responses") for lines in (0, 1, 9_999, 20_001) for piece in (1, 2, 7, 53, 4_096, 70_000)]
    rows += [["server", str(rounds)] for rounds in (0, 1, 2, 500, 4_999, 10_001, 25_000)]
    rows += [["client", str(touches), str(window)]
             for touches in (0, 1, 2, 329, 330, 331, 5_000, 9_900) for window in (1, 2, 3, 5, 15, 16)]
    rows += [["client", "10", "0"], ["client", "10", "17"]]
    for words in rows:
        status, _, _ = compare([ours] + words, [theirs] + words)
        if status != (1 if words in rows[-2:] else 0):
            sys.exit(f"{words}: status {status}")
    print(f"wire, server, client: {len(rows)} counts and sums alike")


def with_fields(choose, text):
    """Replaces a field of a line of a setup by another."""
    lines = text.split(b"\n")
    at = choose.randrange(len(lines))
    fields = lines[at].split(b" ")
    numeral = choose.choice(NUMERALS).encode()
    fields[choose.randrange(len(fields))] = choose.choice([numeral, b"tool", b"FRAME", b"shift", b"P1", b"p2", b"", b"#"])
    lines[at] = b" ".join(fields)
    return b"\n".join(lines)


def compare_setups():
    choose = random.Random(20240818)
    givens = [it.read_bytes() for it in sorted(ROOT.glob("examples/*.setup"))]
    givens += [text for row in program_rows().values() for name, text in row.given.items() if name.endswith(".setup")]
    givens += [b"", b"TOOL P1\r\nFRAME PART 100 0 0\r", b"# only\n\nframe  part 1   2 3\n", b"SHIFT 0 0 0 0\n", b"TOOL\tP1\n"]
    program = b"DMISMN/'P',05.2\nRECALL/D(PART)\nGOTO/1,2,3\nRECALL/D(LEFT)\nENDFIL\n"
    pathlib.Path("part.dmis").write_bytes(program)
    texts = givens + [changed_setup(choose, givens) for _ in range(CHANGED // 8)]
    for text in texts:
        words = ["check", "--setup", "-", "part.dmis"]
        compare([built("dme_program")] + words, [plain()] + words, text)
    print(f"check under a setup: {len(texts):,} setups alike")


def changed_setup(choose, givens):
    text = choose.choice(givens)
    for _ in range(choose.choice([1, 1, 2])):
        text = choose.choice([with_fields, with_numerals, with_bytes, with_lines])(choose, text)
    return text


def played(text):
    """The parts of an input of test_calls that plain programs play."""
    pieces = text.split("[")[1:]
    return "".join("[" + piece for piece in pieces if re.split(r"[ \]]", piece)[0] in PLAYED)


TARGETS = [
    "X({0}), Y({1}), Z({2})", "x ( {0} ) , y({1}),z( {2})", "Z({0}),Y({1}),X({2})", "X({0}), Y({1})", "X({0}), X({1}), Y(1), Z({2})",
    "X{0}, Y({1}), Z({2})", "X({0}), Y({1}), Z({2}), IJK({3}, {4}, {5})", "ijk({3},{4} , {5} ), X({0}), Y({1}), Z({2})",
    "X({0}), IJK(0,0,1), Y({1}), Z({2}), IJK(0,0,1)", "X({0}), Y({1}), Z({2}), IJK(0, 0, 0)", "X({0}), Y({1}), Z({2}),",
    ", X({0}), Y({1}), Z({2})", "X({0}), Y({1}), Z({2}), W(1)", "", "X({0} {1}), Y({1}), Z({2})", "X(({0})), Y({1}), Z({2})",
]

COMMANDS = [
    "StartSession()", "EndSession()", "ClearAllErrors()", "IsHomed()", "Home()", "OnPtMeasReport(X(), Y(), Z())",
    "OnPtMeasReport( x ( ) , y() ,Z ( ) ) ", "OnPtMeasReport(Y(), X(), Z())", "OnPtMeasReport(X(), Y(), Z(),)",
    "OnPtMeasReport(X(1), Y(), Z())", "startsession ( ) ", "HOME(  )  ", "Home", "Home(", "Home)", "Home()x", "Home() ()", "Home(1)",
    "Homes()", "Hom()", "", " Home()", 'ChangeTool("P1")', 'ChangeTool(p2)', 'changetool ( "p1" ) ', 'ChangeTool("P9")',
    'ChangeTool("P1)', 'ChangeTool(P1")', 'ChangeTool(" P1 ")', 'ChangeTool()', 'ChangeTool("")', 'ChangeTool(P 1)',
    'ChangeTool(P1,P2)', "ChangeTool(" + "n" * 64 + ")", "ChangeTool(" + "n" * 65 + ")", "SetCoordSystem(MachineCsy)",
    "SetCoordSystem( partcsy )", "SetCoordSystem(PartCsy)", "SetCoordSystem(\"PartCsy\")", "SetCoordSystem()",
    "SetCsyTransformation(PartCsy, {0}, {1}, {2}, 0, 0, 0)", "SetCsyTransformation(partcsy,{0} , {1},{2},0.0,-0,+0e5)",
    "SetCsyTransformation(PartCsy, {0}, {1}, {2}, 0, 0, 1)", "SetCsyTransformation(MachineCsy, {0}, {1}, {2}, 0, 0, 0)",
    "SetCsyTransformation(PartCsy, {0}, {1}, {2}, 0, 0)", "SetCsyTransformation(PartCsy, {0}, {1}, {2}, {3}, {4}, {5})", "AbortE()",
    "aborte ( )", "AbortE", "GetProp(Tool.Name())",
] + [f"GoTo({target})" for target in TARGETS] + [f"PtMeas({target})" for target in TARGETS]


DATA = [
    "X({0}), Y({1}), Z({2})", "X ( {0} ),Y({1}) , Z({2})  ", "x({0}), Y({1}), Z({2})", " X({0}), Y({1}), Z({2})", "Y({0}), X({1}), Z({2})",
    "IsHomed(1)", "ishomed ( 0 ) ", "1", "0", "IsHomed(2)", "01", "",
]

ON_THE_WIRE = [it for it in NUMERALS if "\t" not in it]


def command_line(choose):
    tags = ["00001", "00002", "00003", "00004", "00007", "E0001", "E0002", "00000", "E0000", "e0001", "1", "99999", "0000x"]
    tag = choose.choice(tags) if choose.random() < 0.2 else f"{choose.randrange(1, 30):05d}"
    numerals = ["1", "-2.5", "30.0625", "0"] if choose.random() < 0.6 else ON_THE_WIRE
    values = [choose.choice(numerals) for _ in range(6)]
    line = f"{tag} " + re.sub(r"\{(\d)\}", lambda found: values[int(found[1])], choose.choice(COMMANDS))
    if choose.random() < 0.05:
        at = choose.randrange(len(line))
        line = line[:at] + choose.choice([" ", "(", ")", ",", "X", "", "\t", "~"]) + line[at + choose.randrange(2):]
    return line


def server_rows(choose):
    """Random calls of a server, most of them in an open session and on a homed machine."""
    ready = ["00041 StartSession()", "turn", "00042 Home()", "turn", "done", '00043 ChangeTool("P1")', "turn", "done"]
    rows = ["accept 1"] + ready[:choose.choice([0, 2, 5, 8, 8, 8, 8, 8])]
    others = ["accept 2", "accept 99", "turn", "turn", "turn", "done", "missed", "fault", "touched 1.5 2 -3", "touched 1000000.001 0 0",
              "read", "homes 100"]
    for number in range(choose.randrange(5, 60)):
        kind = choose.random()
        if kind < 0.7:
            ended = ["turn", "running", choose.choice(["touched 0.0005 2 -3.5", "touched 1 2 3", "done", "missed", "fault"])]
            rows += [command_line(choose)] + ended[:choose.choice([0, 1, 3, 3, 3])]
        elif kind < 0.8:
            ended = choose.choice(["touched 1 2 3", "missed", "done", "fault", "E0009 AbortE()"])
            rows += ["00044 PtMeas(X(1), Y(2), Z(3))", "turn", ended]
        elif kind < 0.95:
            rows.append(choose.choice(others))
        else:
            rows += [choose.choice(["leave", "restart", "bad 00001 Home()"]), "turn", "state", "leave", f"accept {number + 2}"] + ready
        if choose.random() < 0.5:
            rows += choose.choice([["state"], ["clear"], ["clear"], ["running"], ["clear", "00045 StartSession()", "turn", "clear"]])
    return "[server]\n" + "\n".join(rows + ["state", "running", "ledger", "contact rows"]) + "\n"


def response_line(choose):
    tag = choose.choice([f"{choose.randrange(1, 14):05d}", f"{choose.randrange(1, 14):05d}", "E0001", "E0002", "E0000", "00000", "x"])
    values = [choose.choice(["1", "-2.5", "0.0625", choose.choice(ON_THE_WIRE)]) for _ in range(3)]
    data = " # " + choose.choice(DATA).format(*values)
    return tag + choose.choice([" &", " %", " &", " %", " %  ", " !", " ! Error(3, 9014)", data, data, " #", "&", " &x", "  &"])


# What the plans of the programs of test_calls send after their first six commands, or after a feature: T a tool, G a move, p a touch and P the
# last one of its feature, X and F a frame.
SENT = {"ONE": "TGP", "TWO": "TPP", "THREE": "TppP", "FRAMES": "TPpXFP", "MOVES": "G" * 14}


def plan_of(name, kept, is_new):
    """The plan after that many features: S, C, I, H, O and E are the commands that every plan has."""
    begin, sent = "S" * is_new + "CIHO", SENT[name]
    if kept == 0:
        return begin + "F" + sent + "E"
    before, behind = sent.split("P")[:kept], sent.split("P")[kept:]
    return begin + "T" + ("XF" if "X" in "".join(before) else "F") + "P".join(behind) + "E"


class Played:
    """A client whose plan is followed, so that most of the calls are possible."""

    def __init__(self, choose, name, window):
        self.choose, self.name, self.window = choose, name, window
        self.rows, self.kept, self.connection = [], 0, 0
        self.connect()

    def connect(self):
        self.connection += 1
        self.tag = self.aborts = 0
        self.rows.append(f"connected {self.connection}")
        self.plan = plan_of(self.name, self.kept, True)

    def go_on(self):
        """The command that is due is ended."""
        command, self.plan = self.plan[0], self.plan[1:]
        self.tag += 1
        if command in "pP":
            self.rows.append(f"touched X({self.choose.choice(['1.002', '-3'])}), Y(2), Z(-3.0005)")
            self.kept += command == "P"
        elif command == "I":
            self.rows.append(self.choose.choice(["told IsHomed(1)", "told 1", "told 0", "ended"]))
            self.plan = self.plan[1:] if self.rows[-1].endswith(("1", "1)")) else self.plan
        else:
            self.rows.append("ended")

    def begin_again(self):
        self.rows.append("resume")
        self.plan = plan_of(self.name, self.kept, False)

    def fail(self):
        """What is sent fails, and the plan starts again."""
        count = self.choose.randrange(1, self.window + 1)
        tags = [f"{self.tag + nth:05d}" for nth in range(1, count + 1)]
        self.tag += count
        self.rows += ["send"] * count
        for tag in tags:
            self.rows += [f"{tag} &"] * (self.choose.random() < 0.7) + [f"{tag} ! Error(3, 9014)"]
        self.rows += ["state"] + [f"{tag} %" for tag in tags if self.choose.random() < 0.8]
        self.begin_again()

    def abort(self):
        """An abort, with or without an open command, and the plan starts again."""
        self.aborts += 1
        event = f"E{self.aborts:04d}"
        if self.choose.random() < 0.7:
            self.tag += 1
            self.rows += ["send", f"{self.tag:05d} &", "abort", f"{event} &", f"{self.tag:05d} !", f"{self.tag:05d} %"]
        else:
            self.rows += ["abort", f"{event} &"]
        self.rows.append(self.choose.choice([f"{event} %", f"{event} %", f"{event} !"]))
        self.begin_again()

    def leave(self):
        kept = self.choose.choice([self.kept, self.kept, 0])
        self.rows += ["leave"] if kept == self.kept and self.plan else ["leave", f"restart {kept}"]
        self.kept = kept
        self.connect()

    def step(self):
        kind = self.choose.random()
        if not self.plan or kind < 0.06:
            self.leave()
        elif kind < 0.8:
            self.go_on()
        elif kind < 0.87:
            self.fail()
        elif kind < 0.92:
            self.abort()
        elif kind < 0.97:
            others = ["resume", "restart 3", "connected 1", "read", "E0000 &", "due", "open", "completed", "counted"]
            self.rows.append(self.choose.choice(others))
        else:
            others = ["bare 00001 &", "send", "letters 3", "aborts 2"]
            self.rows += [response_line(self.choose), "send", "abort", self.choose.choice(others)]
            self.leave()


def client_rows(choose):
    """Random calls of a client: most of them advance the plan, with disturbances between them."""
    name, window = choose.choice(sorted(SENT)), choose.choice([1, 1, 2, 3, 4, 16])
    client = Played(choose, name, window)
    for _ in range(choose.randrange(5, 70)):
        client.step()
        client.rows += choose.choice([[], [], [], ["state"], ["due"], ["open"], ["completed"], ["features"]])
    return f"[client {name} {window}]\n" + "\n".join(client.rows + ["state", "open", "completed", "counted", "features", "report"]) + "\n"


def text_rows(choose):
    """Lines that a client reads, each after commands that were sent."""
    rows = []
    for _ in range(40):
        ended = choose.choice([2, 7, 8])
        before = choose.choice(["send", "send / 000{0:02d} &", "send / 000{0:02d} & ", "send"]).format(ended + 1).strip()
        line = response_line(choose).replace("/", "")
        line = re.sub(r"^\d{5}", f"{ended + 1:05d}", line) if choose.random() < 0.8 else line
        rows.append(f"ended {ended} / {before} / {line}")
    return f"[texts {choose.choice(['ONE'])} 3]\n" + "\n".join(rows) + "\n"


def compare_rows():
    choose = random.Random(20240819)
    folder = ROOT / "crates" / "test_calls"
    given, expected = (played((folder / name).read_text()) for name in ("stdin", "stdout"))
    answers = found([plain(), "rows"], given.encode())
    if answers != (0, expected.encode(), b""):
        sys.exit("the rows of test_calls: the plain programs answer otherwise")
    print(f"calls: {len(given.splitlines()):,} rows of test_calls alike")
    base = given[:given.index("[client")]
    parts = 0
    lines = 0
    for make in (server_rows, client_rows, text_rows):
        for _ in range(CHANGED // 20):
            rows = make(choose)
            compare([built("test_calls")], [plain(), "rows"], (base + rows).encode())
            parts += 1
            lines += len(rows.splitlines())
    print(f"calls: {lines:,} rows made by chance alike, in {parts:,} parts")


os.chdir(tempfile.mkdtemp())
compare_check()
compare_sums()
compare_setups()
compare_rows()
