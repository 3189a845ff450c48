#!/usr/bin/env python3
"""With which tool and in which frame each contact of a connection is known, by the lines of both ends alone.

`known_contacts` is a second reading of the rules of crates/witness, apart from its code: it looks back over the lists of lines for each
contact. It takes the lines in the order in which they came (`ordered`), or takes all lines of the client to come first, since two recordings do
not keep the order of the two directions.

- The eight examples in tests/witness/ (NAME.up is what the client sent, NAME.down what the server did), and two of them with an order.
- Sessions of ordinary clients and servers: each contact must be known, with its tool and its frame.
- Of all these sessions `dme ledger` reports line by line what the rules say (`told_lines`), if the program is built.
- Sessions of others, by families: what is known of a contact must be so on the simulated server, which keeps the premises below. Each family
  must have contacts that are known.

What the simulated server keeps: it takes commands in order, each after the end of the one before it, or motions that overlap; `& %` of a change
means that the change was made, and is so at the `%`; a line without a command of the interface acts when it likes, but before a later line
begins; a tool that is lost for the sake of no line is reported by a fault before the end of the next touch; a line has at most one `%`.

By itself: tests/witness.py [SESSIONS], which is how many sessions each family has (250 by default); or tests/witness.py UP DOWN [ORDER], which
prints the contacts of a recording. ORDER is a file as `dme watch --record-bytes` keeps it: after its first line, one `> COUNT` or `< COUNT` for
each piece of that many bytes, in the order in which they came.
"""

import collections
import concurrent.futures
import functools
import pathlib
import re
import subprocess
import sys
from decimal import Decimal
from fractions import Fraction

from common import PROGRAM, TESTS, Wrong, must, room, whole
from sessions import FAMILIES, foreign_session, ordinary_session

EXAMPLES = TESTS / "witness"
FEW, SESSIONS = 30, 250
LINE_MOST = 65_536
WIRE_LIMIT, VOLUME_LIMIT, COMPONENT_LIMIT = 4_000_000_000, 1_000_000_000, 1_000_000_000
MACHINE = "M"

Contact = collections.namedtuple("Contact", "target direction point tool frame")


def ends_of_lines(recorded):
    """Each whole line of a recording with the place after its end, up to the first byte that no line can hold."""
    lines, start = [], 0
    for found in re.finditer(rb"\r\n|\r(?!\Z)|\n", recorded):
        if found[0] != b"\r\n" or found.start() - start > LINE_MOST:
            break
        lines.append((recorded[start:found.start()], found.end()))
        start = found.end()
    return lines


def lines_of_two_recordings(up, down):
    return [(">", line) for line, _ in ends_of_lines(up)] + [("<", line) for line, _ in ends_of_lines(down)]


def lines_of_one_recording(up, down, order):
    """Both ends' lines, each where its last byte came."""
    waiting = {">": ends_of_lines(up), "<": ends_of_lines(down)}
    come, lines = {">": 0, "<": 0}, []
    for side, count in (it.split() for it in order.splitlines()[1:]):
        come[side] += int(count)
        while waiting[side] and waiting[side][0][1] <= come[side]:
            lines.append((side, waiting[side].pop(0)[0]))
    return lines


# ---- what a line reads as (docs/PROTOCOL.md)

NAMES = {it.lower(): it for it in ("StartSession EndSession ClearAllErrors IsHomed Home AbortE OnPtMeasReport GoTo PtMeas ChangeTool "
                                   "SetCsyTransformation SetCoordSystem").split()}
ASKING = set("get getprop getprope enumprop enumallprop onmovereporte geterrstatuse getxtderrstatus geterrorinfo getdmeversion getmachineclass "
             "isuserenabled enumtools foundtool getchangetoolaction getcsytransformation getcoordsystem enumcoordsystem".split())
NUMERAL = r"[+-]?(?:[0-9]+\.?[0-9]*|\.[0-9]+)(?:[Ee][+-]?[0-9]{1,3})?"
POINT = re.compile(rf"X *\( *({NUMERAL}) *\) *, *Y *\( *({NUMERAL}) *\) *, *Z *\( *({NUMERAL}) *\) *")
TOOL = re.compile(r"[!#%&*+.0-<>-~-]{1,64}")
UNREAD = None


def before_exponent(word):
    return re.split("[Ee]", word)[0]


@functools.lru_cache(maxsize=None)
def numeral(word, places, limit):
    """A numeral in units of which 10 ** places make one, halves away from zero."""
    if not re.fullmatch(NUMERAL, word) or sum(it.isdigit() for it in before_exponent(word)) > 30:
        return UNREAD
    exact = Fraction(Decimal(word)) * 10**places
    nearest = int(abs(exact) + Fraction(1, 2)) * (-1 if exact < 0 else 1)
    return nearest if abs(nearest) <= limit else UNREAD


def numerals(words, places, limit):
    values = tuple(numeral(it, places, limit) for it in words)
    return UNREAD if UNREAD in values else values


def tokens_of(text):
    return re.findall(r"[(),]|[^ (),]+", text)


def arguments_of(tokens):
    """Named arguments with their words, between parentheses: (X(1), IJK(0, 0, 1)) is [('x', ['1']), ('ijk', ['0', '0', '1'])]."""
    spelled = " ".join(tokens)
    word = r"[^ (),]+"
    argument = rf"({word}) \( ({word}(?: , {word})*) \)"
    if not re.fullmatch(rf"\( {argument}(?: , {argument})* \)", spelled):
        return []
    return [(name.lower(), words.split(" , ")) for name, words in re.findall(argument, spelled)]


def place_of(tokens, may_have_direction):
    """A target, and a direction or None."""
    arguments = arguments_of(tokens)
    found = dict(arguments)
    if len(found) < len(arguments) or set(found) - ({"ijk"} if may_have_direction else set()) != set("xyz"):
        return UNREAD
    if any(len(words) != (3 if name == "ijk" else 1) for name, words in arguments):
        return UNREAD
    target = numerals([found[it][0] for it in "xyz"], 3, WIRE_LIMIT)
    direction = numerals(found["ijk"], 6, COMPONENT_LIMIT) if "ijk" in found else ()
    if target is UNREAD or direction in (UNREAD, (0, 0, 0)):
        return UNREAD
    return target, direction or None


def words_of(tokens, count):
    """Words with commas between them, in parentheses."""
    inner = tokens[1:-1]
    words = inner[::2]
    spelled = ["("] + [it for word in words for it in (word, ",")][:-1] + [")"]
    return words if len(words) == count and spelled == tokens and not set(words) & set("(),") else UNREAD


def tool_of(tokens):
    word = (words_of(tokens, 1) or [""])[0]
    bare = word[1:-1] if len(word) > 1 and word[0] == word[-1] == '"' else word
    return bare.upper() if TOOL.fullmatch(bare) else UNREAD


def offset_of(tokens):
    """The place of a part's zero point in machine axes: the lengths of a transformation, each sign turned."""
    words = words_of(tokens, 7)
    if words is UNREAD or words[0].lower() != "partcsy":
        return UNREAD
    lengths = numerals(words[1:4], 3, VOLUME_LIMIT)
    angles_are_zero = all(numeral(it, 0, VOLUME_LIMIT) == 0 and not re.search("[1-9]", before_exponent(it)) for it in words[4:])
    return tuple(-it for it in lengths) if lengths is not UNREAD and angles_are_zero else UNREAD


def argument_of(name, tokens):
    """What the arguments of a command say; UNREAD if they do not read."""
    if name in ("GoTo", "PtMeas"):
        return place_of(tokens, name == "PtMeas")
    if name == "ChangeTool":
        return tool_of(tokens)
    if name == "SetCsyTransformation":
        return offset_of(tokens)
    if name == "SetCoordSystem":
        word = (words_of(tokens, 1) or [""])[0].lower()
        return word if word in ("machinecsy", "partcsy") else UNREAD
    if name == "OnPtMeasReport":
        return True if re.fullmatch(r"\( X \( \) , Y \( \) , Z \( \) \)", " ".join(tokens), re.IGNORECASE) else UNREAD
    return True if tokens == ["(", ")"] else UNREAD


class Line:
    """A line of the client: its tag, None if it is untagged; its command, None if it is not one of the profile; and the marks that belong to it."""

    def __init__(self, place, content):
        self.place, self.marks, self.text = place, [], content.decode("latin-1")
        found = re.fullmatch(r"((?!00000)[0-9]{5}|(?!E0000)E[0-9]{4}) (([^ (]*)(.*))", content.decode("latin-1"), re.DOTALL)
        self.tag = found[1] if found else None
        name = found[3].lower() if found else ""
        self.command, self.argument = NAMES.get(name), UNREAD
        if self.command and (self.command == "AbortE") == self.has_event_tag():
            self.argument = argument_of(self.command, tokens_of(found[4]))
        if self.argument is UNREAD:
            self.command = None
        self.asks = name in ASKING and found[4].lstrip(" ").startswith("(")

    def has_event_tag(self):
        return self.tag is not None and self.tag[0] == "E"

    def is_foreign(self):
        return self.command is None and not self.asks

    def acts_at_once(self):
        return self.tag is None or self.is_foreign() and self.has_event_tag()

    def is_waited_for(self):
        return self.tag is not None and not self.asks and self.command != "AbortE"

    def place_of(self, marks):
        """Where the first of these marks came."""
        return next((it.place for it in self.marks if it.mark in marks), None)

    def is_settled_at(self, place):
        settled = self.place_of("!%")
        return settled is not None and settled <= place

    def has_just(self, marks):
        return "".join(it.mark for it in self.marks) == marks


class Response:
    """A line of the server: its tag and its mark, both None if it is no response; and the line that it belongs to, if there is one."""

    def __init__(self, place, content):
        self.place, self.line, self.content = place, None, content.decode("latin-1")
        found = re.fullmatch(r"([0-9]{5}|E[0-9]{4}) (?:([&%]) *|([#!]) (.*)|(!))", content.decode("latin-1"), re.DOTALL)
        self.tag = found[1] if found else None
        self.mark = (found[2] or found[3] or found[5]) if found else None
        self.text = (found[4] or "") if found else ""

    def point(self):
        found = POINT.fullmatch(self.text)
        return numerals(found.groups(), 3, WIRE_LIMIT) if found else UNREAD

    def is_homed(self):
        found = re.fullmatch(r"IsHomed *\( *([01]) *\) *", self.text, re.IGNORECASE)
        return found[1] == "1" if found else UNREAD


# ---- the rules


class Connection:
    def __init__(self, lines, ordered):
        self.ordered = ordered
        self.sent = [Line(place, content) for place, (side, content) in enumerate(lines) if side == ">"]
        self.responses = [Response(place, content) for place, (side, content) in enumerate(lines) if side == "<"]
        for response in self.responses:
            self.give_to_its_line(response)
        self.faults = [it.place for it in self.responses if self.is_fault(it)]
        self.reuses = [it.place for it in self.sent if it.tag is not None and self.tag_was_in_use(it)]

    # a response belongs to the first use of its tag, of those that have come, without a `%`

    def give_to_its_line(self, response):
        for line in self.sent:
            if line.tag is not None and line.tag == response.tag and line.place < response.place and line.place_of("%") is None:
                response.line = line
                line.marks.append(response)
                return

    # faults, each at its place in the server's lines

    def is_fault(self, response):
        if response.mark is None:
            return True
        if response.line is None:
            return not self.is_report_by_event(response)
        if response.mark in "#%":
            failed = response.line.place_of("!")
            return self.is_out_of_turn(response) and (failed is None or failed > response.place)
        return response.mark == "!" and response.line.is_foreign() and self.is_out_of_turn(response)

    def is_report_by_event(self, response):
        return response.mark == "#" and response.tag[0] == "E" and any(
            it.tag == response.tag and it.place < response.place for it in self.sent)

    def is_out_of_turn(self, response):
        return response.line.is_waited_for() and any(
            it.is_waited_for() and not it.is_settled_at(response.place) for it in self.above(response.line))

    # looking back from a line

    def above(self, line):
        """The lines that were sent before a line, the last of them first."""
        return [it for it in reversed(self.sent) if it.place < line.place]

    def last_above(self, line, *commands):
        """The last line above that is one of these commands, or one that may do anything."""
        return next((it for it in self.above(line) if it.is_foreign() or it.command in commands), None)

    def tag_is_in_doubt(self, line):
        """Without the order of both directions: whether the use of its tag before this one had an error."""
        before = next((it for it in self.above(line) if it.tag == line.tag), None)
        return not self.ordered and before is not None and before.place_of("!") is not None

    def tag_was_in_use(self, line):
        """Whether an earlier use of its tag had no `%` as the line came."""
        return any(it.tag == line.tag and (it.place_of("%") is None or it.place_of("%") > line.place) for it in self.above(line))

    def tags_are_lost_at(self, place):
        """With the order: whether a line came before this place, under a tag that was in use."""
        return self.ordered and any(it < place for it in self.reuses)

    def holds(self, change, touch):
        """Whether a change was made, and nothing has undone it up to the touch."""
        touched, ended = touch.place_of("#%"), touch.place_of("%")
        if not change.has_just("&%") or change.place_of("%") > touched or self.tag_is_in_doubt(change):
            return False
        if any(change.place_of("&") < it <= ended for it in self.faults):
            return False
        return not any(change.place < it.place < ended and it.acts_at_once() for it in self.sent)

    # what is known of a touch

    def tool(self, touch):
        change = self.last_above(touch, "ChangeTool", "StartSession", "EndSession", "Home")
        return change.argument if change and change.command == "ChangeTool" and self.holds(change, touch) else None

    def frame(self, touch):
        change = self.last_above(touch, "SetCoordSystem", "StartSession", "EndSession")
        if change is None or change.command != "SetCoordSystem" or not self.holds(change, touch):
            return None
        return MACHINE if change.argument == "machinecsy" else self.part_frame(change, touch)

    def part_frame(self, change, touch):
        if self.last_above(touch, "SetCoordSystem", "SetCsyTransformation") is not change:
            return None
        return self.zero_point(change, touch)

    def selected(self, change):
        """The frame that a change selects, at its end."""
        if change.argument == "machinecsy":
            return MACHINE
        doubt = self.tag_is_in_doubt(change) or self.tags_are_lost_at(change.place_of("%"))
        return None if doubt else self.zero_point(change, change)

    def zero_point(self, change, touch):
        zero = self.last_above(change, "SetCsyTransformation", "StartSession", "EndSession")
        return zero.argument if zero and zero.command == "SetCsyTransformation" and self.holds(zero, touch) else None

    def tool_and_frame(self, line):
        known = not self.tag_is_in_doubt(line) and not self.tags_are_lost_at(line.place_of("%"))
        return (self.tool(line), self.frame(line)) if known else (None, None)

    def contact(self, touch):
        return Contact(*touch.argument, touch.marks[1].point(), *self.tool_and_frame(touch))

    def contacts(self):
        touches = [it for it in self.sent if it.command == "PtMeas" and it.has_just("&#%") and it.marks[1].point() is not UNREAD]
        return [self.contact(it) for it in sorted(touches, key=lambda it: it.place_of("%"))]


def known_contacts(lines, ordered):
    """The contacts of a connection in the order of their `%`: target, direction, reported point, and tool and frame, each None if it is not known.
    A frame is MACHINE, or the place of the part's zero point in machine axes; lengths are in micrometres. `lines` are pairs of a side, '>' for
    the client and '<' for the server, and a line's bytes, in the order in which they came."""
    if not ordered:
        lines = [it for it in lines if it[0] == ">"] + [it for it in lines if it[0] == "<"]
    return Connection(lines, ordered).contacts()


# ---- as a told file has them (docs/FILES.md)


def decimal(value, places):
    whole, rest = divmod(abs(value), 10**places)
    return f"{'-' * (value < 0)}{whole}.{rest:0{places}}"


def lengths(point):
    return " ".join(decimal(it, 3) for it in point)


def frame_field(contact):
    return "?" if contact.frame is None else MACHINE if contact.frame == MACHINE else f"P {lengths(contact.frame)}"


def tool_and_frame(contact):
    return f"{contact.tool or '?'} {frame_field(contact)}"


def contact_line(contact):
    direction = " ".join(["D"] + [decimal(it, 6) for it in contact.direction]) if contact.direction else "N"
    return f"CONTACT {lengths(contact.target)} {direction} {tool_and_frame(contact)} {lengths(contact.point)}"


def act_line(connection, line):
    """The act of a command that is complete; None if it has none."""
    if line.command == "PtMeas":
        return contact_line(connection.contact(line))
    if line.command == "IsHomed":
        return f"HOMEDIS {int(line.marks[1].is_homed())}"
    if line.command == "ChangeTool":
        return f"CHANGED {line.argument}"
    known = Contact(None, None, None, *connection.tool_and_frame(line))
    if line.command == "GoTo":
        return f"MOVED {lengths(line.argument[0])} {frame_field(known)}"
    if line.command == "SetCoordSystem":
        return f"FRAMED {frame_field(known._replace(frame=connection.selected(line)))}"
    return "HOMED" if line.command == "Home" else None


def broken_rule(line, stage, response):
    """The rule that a mark of a command breaks at its stage, which is its marks so far; None if it breaks none."""
    if stage == "" or response.mark == "&":
        return None if stage == "" and response.mark in "&!" else "OutOfOrder"
    if response.mark == "#":
        reads = {"PtMeas": response.point(), "IsHomed": response.is_homed()}.get(line.command, UNREAD)
        return "OtherData" if reads is UNREAD else "SecondData" if stage == "&#" else None
    asks = line.command in ("PtMeas", "IsHomed")
    return "NoData" if response.mark == "%" and asks and stage == "&" else None


def told_of_mark(connection, response):
    """What a mark of a line is reported as, with the marks of the line so far."""
    line = response.line
    before = [it for it in line.marks if it.place < response.place]
    if line.is_foreign():
        return [f"OTHER > {line.text}"] if not before and not line.has_event_tag() else []
    if line.asks:
        return []
    stage = ""
    for mark in before:
        if mark.mark == "!" or broken_rule(line, stage, mark):
            return []
        stage += mark.mark
    rule = broken_rule(line, stage, response)
    if rule:
        return [f"BROKEN {rule} {line.tag}"]
    act = act_line(connection, line) if response.mark == "%" else None
    return [act] if act else []


def told_of_response(connection, response):
    if response.mark is None:
        return [f"OTHER < {response.content}"]
    if response.line is None:
        return [] if connection.is_report_by_event(response) else [f"UNASKED {response.content}"]
    early = [f"BROKEN NotInTurn {response.tag}"] if connection.is_fault(response) else []
    return early + told_of_mark(connection, response)


def told_lines(lines, ordered):
    """What a told file has of a connection, line by line, without the number of the connection."""
    if not ordered:
        lines = [it for it in lines if it[0] == ">"] + [it for it in lines if it[0] == "<"]
    connection = Connection(lines, ordered)
    told = [(it.place, [f"OTHER > {it.text}"]) for it in connection.sent if it.acts_at_once()]
    told += [(it.place, told_of_response(connection, it)) for it in connection.responses]
    return [line for _, some in sorted(told, key=lambda it: it[0]) for line in some]


# ---- what lines read as, by examples

READ_AS = {
    "00001 Home()": ("Home", True),
    "00001 hOME ( ) ": ("Home", True),
    "E0001 AbortE()": ("AbortE", True),
    "00001 PtMeas(Z(1.0005), x(-1.0005), Y(.5E1), ijk(0, 0, 1))": ("PtMeas", ((-1001, 5000, 1001), (0, 0, 1000000))),
    "00001 GoTo(X(4000000.0004), Y(0), Z(0))": ("GoTo", ((4_000_000_000, 0, 0), None)),
    "00001 ChangeTool(p1)": ("ChangeTool", "P1"),
    '00001 ChangeTool( "a.b" )': ("ChangeTool", "A.B"),
    "00001 SetCsyTransformation(partcsy, 1, -2, 0.0004, 0, 0e5, -.0)": ("SetCsyTransformation", (-1000, 2000, 0)),
    "00001 SetCoordSystem(MACHINECSY)": ("SetCoordSystem", "machinecsy"),
    "00001 OnPtMeasReport(x(),y(),z())": ("OnPtMeasReport", True),
}
FOREIGN = [
    "00001 AbortE()", "00001 Home(1)", "00001  Home()", "00001 ", "00001 GetTool()", "00001 Get", '00001 SetTool("P1")', '00001 ChangeTool("P1)',
    '00001 ChangeTool(" P1")', "00001 ChangeTool()", "00001 GoTo()", "00001 GoTo(X(1), Y(2))", "00001 GoTo(X(1), Y(2), Z(3), IJK(0, 0, 1))",
    "00001 GoTo(X(1), X(1), Y(2), Z(3))", "00001 PtMeas(X(1), Y(2), Z(3), IJK(0, 0, 0))", "00001 GoTo(X(4000000.0005), Y(0), Z(0))",
    "00001 GoTo(X(1), Y(2), Z(" + 31 * "0" + "))", "00001 SetCsyTransformation(PartCsy, 1, 0, 0, 0, 0, 1E-9)", "00001 SetCoordSystem(JogDisplayCsy)",
    "00001 OnPtMeasReport(Y(), X(), Z())",
]
AT_ONCE = [
    "E0001 Home()", 'E0001 SetTool("P1")', "E0001 GetTool()", "Home()", "00000 Home()", "E0000 AbortE()", "000001 Home()", " 00001 Home()", "00001",
    "0001 Home()", "e0001 AbortE()", "00001\tHome()", "",
]
ONLY_ASK = ["00001 Get(X())", "E0001 GETPROP ( Tool.Name() )", "00001 enumtools(", "E9999 OnMoveReportE(Dis(1))"]


def check_readings():
    for text, due in READ_AS.items():
        line = Line(0, text.encode())
        must((line.command, line.argument) == due, text, "is read as", line.command, line.argument)
    for text in FOREIGN + AT_ONCE:
        line = Line(0, text.encode())
        must(line.is_foreign() and line.acts_at_once() == (text in AT_ONCE), text, "is read as another line")
    for text in ONLY_ASK:
        line = Line(0, text.encode())
        must(not line.is_foreign() and not line.is_waited_for(), text, "does not only ask")
    must([it for it, _ in ends_of_lines(b"a\r\n\r\nb\r")] == [b"a", b""], "a torn end")
    for broken in (b"a\r\nb\nc\r\n", b"a\r\nb\rc\r\n", b"a\r\n" + bytes(65_537) + b"\r\n"):
        must([it for it, _ in ends_of_lines(broken)] == [b"a"], "a byte that no line can hold")


# ---- examples

DUE = {
    "ends_crosswise": ["? ?", "P1 ?"],
    "change_refused_at_reading": ["P1 M", "? M"],
    "foreign_event_line": ["? ?", "P1 M"],
    "tag_in_use": ["? M"],
    "reports_by_event": ["P1 M"],
    "home_and_end_of_session": ["? M", "P1 M", "? ?"],
    "errors_without_a_tag": ["P1 M", "? ?", "P1 M"],
    "zero_points": ["P1 P -1.000 0.000 0.000", "P1 ?", "P1 M"],
}
DUE_WITH_ORDER = {"tag_in_use": ["? ?"], "foreign_event_line": ["P1 M", "P1 M"]}


def recorded(name):
    return ((EXAMPLES / f"{name}.{end}").read_bytes() for end in ("up", "down"))


def in_order(name):
    """A tag that is used again before the server answers; an event line that is sent, and answered, after the first touch has ended."""
    lines = lines_of_two_recordings(*recorded(name))
    if name == "tag_in_use":
        return lines
    late = [it for it in lines if it[1].startswith(b"E0042")]
    others = [it for it in lines if it not in late]
    first = [it for it in others if it[1][:5] in (b"00001", b"00002", b"00003")]
    return first + late + [it for it in others if it not in first]


def check_examples():
    must(set(DUE) == {it.stem for it in EXAMPLES.iterdir()}, "other examples")
    for name, due in DUE.items():
        known = [tool_and_frame(it) for it in known_contacts(lines_of_two_recordings(*recorded(name)), False)]
        must(known == due, name, "has", known)
    for name, due in DUE_WITH_ORDER.items():
        known = [tool_and_frame(it) for it in known_contacts(in_order(name), True)]
        must(known == due, name, "with its order has", known)


# ---- sessions

# Here a line under a tag gets no end, and the tag is used again. Two recordings do not show which of its lines lacks one.
ONLY_WITH_ORDER = ("uses_without_an_end",)


def is_so(contact, made):
    """Whether what is known of a contact is so."""
    tool, frame = contact.tool, contact.frame
    if tool is None and frame is None:
        return True
    return made is not None and (contact.target, contact.direction) == made[:2] and tool in (None, made.tool) and frame in (None, made.frame)


def order_of(lines):
    """The text of their order, each in a piece of its own."""
    return "DME-ORDER 1\n" + "".join(f"{side} {len(line) + 2}\n" for side, line in lines)


def check_recording(lines):
    """An ordered recording gives these lines again."""
    up, down = recordings(lines)
    order = order_of(lines)
    must(lines_of_one_recording(up, down, order) == lines, "an ordered recording is read as other lines")


def recordings(lines):
    return (b"".join(line + b"\r\n" for side, line in lines if side == end) for end in "><")


def ledger_of(lines, folder, ordered):
    """What the program reports of the two recordings of a connection, line by line, without the number of the connection."""
    for name, recording in zip(("1.up", "1.down"), recordings(lines)):
        (folder / name).write_bytes(recording)
    (folder / "1.order").unlink(missing_ok=True)
    if ordered:
        (folder / "1.order").write_text(order_of(lines))
    words = [PROGRAM, "ledger", "--up", folder / "1.up", "--down", folder / "1.down"]
    told = subprocess.run(words, capture_output=True, check=True, timeout=60).stdout.decode("latin-1").split("\n")
    must(told[0] == "DME-TOLD 1" and told[-1] == "" and all(it[:2] == "1 " for it in told[1:-1]), "no told file")
    return [it[2:] for it in told[1:-1]]


def check_ledger(session, folder, name, ordered):
    """The program reports of two recordings what the rules say, line by line, with their order and without."""
    due, told = told_lines(session.lines, ordered), ledger_of(session.lines, folder, ordered)
    if due != told:
        text = "\n".join(f"{side} {line.decode('latin-1')}" for side, line in session.lines)
        raise Wrong("\n".join([name, text, "the program reports", *told, "and the rules", *due]))


def check_session(session, must_be_known, ordered, name):
    """How many contacts it has, and of how many the tool or the frame is known."""
    contacts = known_contacts(session.lines, ordered)
    for contact in contacts:
        whole = contact.tool is not None and contact.frame is not None
        if not is_so(contact, session.made.get(contact.point)) or must_be_known and not whole:
            text = "\n".join(f"{side} {line.decode('latin-1')}" for side, line in session.lines)
            raise Wrong(f"{name}, ordered: {ordered}\n{text}\n{contact_line(contact)}\nbut it was {session.made.get(contact.point)}")
    return len(contacts), sum(it.tool is not None or it.frame is not None for it in contacts)


def check_family(family, count):
    """How many contacts a family has, with and without the order, and of how many something is known. Without a name: ordinary sessions."""
    found = []
    with room() as folder:
        for seed in range(count):
            session, name = foreign_session(family, seed) if family else ordinary_session(seed), f"{family or 'ordinary session'} {seed}"
            check_recording(session.lines)
            if PROGRAM.exists():
                for ordered in (False, True):
                    check_ledger(session, folder, name, ordered)
            for ordered in [True] if family in ONLY_WITH_ORDER else [True, False]:
                found.append(check_session(session, not family, ordered, name))
    contacts, known = (sum(it) for it in zip(*found))
    must(known > 0, family, "has no contact that is known")
    return contacts, known


def check_all(count):
    families = [None, *FAMILIES]
    check_readings()
    check_examples()
    with concurrent.futures.ProcessPoolExecutor() as pool:
        contacts, known = map(sum, zip(*pool.map(check_family, families, [count] * len(families))))
    return f"{known} of {contacts}, in {count * len(families)} sessions"


def check_witness(count=FEW):
    return whole("what is known of contacts", check_all, count)


def print_contacts(up, down, order=None):
    both = pathlib.Path(up).read_bytes(), pathlib.Path(down).read_bytes()
    lines = lines_of_one_recording(*both, pathlib.Path(order).read_text()) if order else lines_of_two_recordings(*both)
    for contact in known_contacts(lines, order is not None):
        print(contact_line(contact))


if __name__ == "__main__":
    if len(sys.argv) > 2:
        print_contacts(*sys.argv[1:])
    else:
        sys.exit(1 if check_witness(int(sys.argv[1]) if sys.argv[1:] else SESSIONS)[1] else 0)
