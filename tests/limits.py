"""Each limit, and one more: statements of a program, touches of a feature, bytes of a line. What has to be linear is.

The expected results are computed here. Rows test other limits: 64 waiting commands and one more (`homes` of test_calls), all tags held (`aborts
9999` there), connection 4,000,000,000 and the next number (`connected`, `accept`).

`run` calls this; by itself: tests/limits.py [NAME ..]
"""

import sys

from common import counted, holds, length, must, processor_time, ran
from hostile import answers_of

FIRST = ["StartSession()", "ClearAllErrors()", "IsHomed()", "Home()", "OnPtMeasReport(X(), Y(), Z())", "SetCoordSystem(MachineCsy)"]
SHIFTS = [(2, 0, 0), (0, 0, 4), (-1, 1, 0)]  # of examples/machine.setup, in micrometres
SETUP = "TOOL P1\nSHIFT 0.002 0 0\nSHIFT 0 0 0.004\nSHIFT -0.001 0.001 0\n"


def lines_of(commands):
    """Commands under the tags of a new connection, which start again after 09999."""
    return "".join(f"{at % 9999 + 1:05} {it}\n" for at, it in enumerate(commands))


def moves(count):
    return "DMISMN/'E',05.2\n" + "GOTO/0,0,0\n" * count


def touches(count, named):
    """A program of one feature with that many touches, in five statements more."""
    rows = "".join(f"PTMEAS/CART,{at},0,0,0,0,1\n" for at in range(count))
    return f"DMISMN/'E',05.2\nSNSLCT/S(P1)\nMEAS/POINT,F(A),{named}\n{rows}ENDMES\nENDFIL\n"


def must_be(found, *wanted):
    for name, it, other in zip(("status", "output", "errors"), found, wanted):
        must(it == other, name, str(it)[:200], "not", str(other)[:200])


def ten_thousand_statements():
    commands = FIRST + ["GoTo(X(0.000), Y(0.000), Z(0.000))"] * 9_998 + ["EndSession()"]
    text = lines_of(commands)
    must(text.count("\n") == 10_005 and text.endswith("\n00006 EndSession()\n"), "another text")
    must_be(ran("check p", p=moves(9_998) + "ENDFIL\n"), 0, text, "")
    # The end may be missing only if the limit is not reached before it.
    must_be(ran("check p", p=moves(9_999)), 1, "", "dme: P2 Truncated at line 10000\n")


def one_statement_more():
    must_be(ran("check p", p=moves(10_000)), 1, "", "dme: P16 TooLarge at line 10001\n")
    for last in ("ENDFIL", "FOO"):
        must_be(ran("check p", p=f"{moves(9_999)}{last}\n"), 1, "", "dme: P16 TooLarge at line 10001\n")
    must_be(ran("check p", p=moves(9_999) + "ENDFIL/\xc8\n"), 1, "", "dme: P4 BadByte at line 10001\n")


def most_points_of_a_block():
    fault = "dme: P6 BadArguments at line 3\n"
    must_be(ran("check p", p=touches(1, 10_001)), 1, "", fault)
    must_be(ran("check p", p=touches(1, 0)), 1, "", fault)
    must_be(ran("check p", p=touches(1, 10_000)), 1, "", "dme: P10 TooFewPoints at line 5\n")


def most_touches_of_a_feature():
    """10,000 touches do not fit with the five statements around them; 9,995 do."""
    written = [f"PtMeas(X({at}.000), Y(0.000), Z(0.000), IJK(0.000000, 0.000000, 1.000000))" for at in range(9_995)]
    text = lines_of(FIRST + ['ChangeTool("P1")'] + written + ["EndSession()"])
    must_be(ran("check p", p=touches(9_995, 9_995)), 0, text, "")
    must_be(ran("check p", p=touches(9_996, 9_996)), 1, "", "dme: P16 TooLarge at line 10001\n")
    must_be(ran("check p", p=touches(10_000, 10_000)), 1, "", "dme: P16 TooLarge at line 10001\n")


def most_touches_measured():
    """They are measured in one run, in which the tags start again."""
    points = []
    for at in range(9_995):
        x, y, z = SHIFTS[at % 3]
        points.append(" ".join(map(length, (1000 * at + x, y, z))))
    features = "FEATURE A\n" + "".join(it + "\n" for it in points)
    contacts = "".join(f"CONTACT {at} 1 {it}\n" for at, it in enumerate(points))
    report = f"STATE Done\nCOUNTED {4 + 9_995}\n{features}{contacts}"
    files = {"s": SETUP, "q": "connect\naccept 1\nquiet\n", "p": touches(9_995, 9_995)}
    for window in (1, 16):
        must_be(ran(f"simulate --setup s --schedule q --window {window} p", **files), 0, report, "")


# ---- a line, fed in pieces of 1, 7 and 200 bytes

IN_SESSION = "accept 1 / 00001 StartSession() / turn"


def cuts(count, end):
    """What both ends show of that many letters and an end of a line."""
    given = (b"A" * count + end).hex()
    return answers_of("client_cuts ONE 1", [f"ended 8 / send | {given}"])[0], answers_of("server_cuts", [f"{IN_SESSION} | {given}"])[0]


def longest_line():
    for count, end, client, server in (
        (65_536, b"", "0 lines Running 1 open", "0 lines on 1;"),
        (65_536, b"\r\n", "0 lines Faulted(NotResponse) Faulted", "1 lines on 1;"),
        (65_536, b"\r", "0 lines Running 1 open", "0 lines on 1;"),
        (65_536, b"\n", "0 lines Faulted(BadByte) Faulted", "0 lines Framing(BadByte) on 1;"),
        (65_537, b"", "0 lines Faulted(LineTooLong) Faulted", "0 lines Framing(LineTooLong) on 1;"),
        (65_537, b"\r\n", "0 lines Faulted(LineTooLong) Faulted", "0 lines Framing(LineTooLong) on 1;"),
    ):
        told = cuts(count, end)
        must(told[0].startswith(client) and told[1].startswith(server), count, end, told)
        must(("No tag" in told[1]) == (end == b"\r\n" and count == 65_536), count, end, told)


def seconds_of(count):
    """The processor time that 6,553,600 bytes take in the cuts of a server, as lines of this length without an end."""
    rows = [f"{IN_SESSION} | {(b'A' * count).hex()}"] * (6_553_600 // count)
    return processor_time(answers_of, "server_cuts", rows)


def linear_work():
    """The same bytes cost no more in lines sixteen times as long; if each byte led to a search from the beginning, they would cost sixteen times
    as much. The cheapest of five runs of each, taken in turns, counts, and a factor of up to six is accepted."""
    short, long = map(min, zip(*((seconds_of(4_096), seconds_of(65_536)) for _ in range(5))))
    must(long < 6 * short, "lines of 65,536 bytes took", long, "and the same bytes in lines of 4,096", short)


# ---- a review of half refused statements


def half_refused(count):
    """A program of that many statements, about half of them refused, and how many are: blocks without a touch, each with a call in it."""
    blocks, rest = divmod(count - 2, 4)
    rows = "".join(f"F(A{at})=FEAT/POINT\nMEAS/POINT,F(A{at}),1\nCALL/M\nENDMES\n" for at in range(blocks))
    return "DMISMN\n" + rows + "GOHOME\n" * rest + "ENDFIL\n", 2 * blocks + rest


def reviewed(count):
    """Reviews 10,000 statements, as programs of that many statements."""
    text, refused = half_refused(count)
    for _ in range(10_000 // count):
        status, found, _ = ran("review p", p=text)
        must(status == 1 and found.count(": refused: ") == refused, count, "statements with another number of refusals")


def linear_review():
    """5,000 refusals in 10,000 statements cost no more than in eight programs; likewise judged."""
    must(half_refused(10_000)[1] == 5_000, "not half of them")
    short, long = map(min, zip(*((processor_time(reviewed, 1_250), processor_time(reviewed, 10_000)) for _ in range(5))))
    must(long < 3 * short, "a review of 10,000 statements took", long, "and eight of 1,250", short)


ROWS = (ten_thousand_statements, one_statement_more, most_points_of_a_block, most_touches_of_a_feature, most_touches_measured, longest_line,
        linear_work, linear_review)


def check_limits(names=()):
    rows = [it for it in ROWS if not names or it.__name__ in names]
    wrong = sum(not holds(f"limit {row.__name__}", row) for row in rows)
    return counted("rows of limits", wrong, len(rows))


if __name__ == "__main__":
    sys.exit(1 if check_limits(sys.argv[1:])[1] else 0)
