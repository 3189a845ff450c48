"""Arbitrary bytes, given to either end and to both in pieces of 1, 7 and 200 bytes (`hostile` of test_calls).

256 fixed lists of 200 bytes that occur in lines and bytes that do not, and lists made of fragments of lines. The three ways of cutting a list
must leave an end in the same state; and what an end has read, why it stops and what it answers is compared with the tables of
docs/PROTOCOL.md, written here a second time and for whole lists. Each kind of refusal and of answer must occur.

`run` calls this; by itself: tests/hostile.py [LISTS], where LISTS is how many lists of fragments each of the three gets (10,000 by default).
"""

import collections
import re
import subprocess
import sys
from decimal import Decimal

from common import CALLS, counted, must, parts_of_calls, tried

FRAGMENT_LISTS = 10_000
SECONDS = 600


class Fixed:
    """The same numbers in every run: the upper bits of a linear congruence of 64 bits."""

    def __init__(self, seed):
        self.state = seed

    def below(self, count):
        self.state = (self.state * 6364136223846793005 + 1442695040888963407) % 2**64
        return (self.state >> 33) % count

    def one_of(self, choices):
        return choices[self.below(len(choices))]


# ---- lists of bytes

IN_LINES = b"0123456789E &#%!.,()\"-+XYZIJKxyzHomePtMeasGoToAbortError\r\n"


def plain_list(fixed):
    """200 bytes: most of them occur in lines, and every sixth is arbitrary; lines end more often than by chance."""
    given = bytearray()
    while len(given) < 200:
        which = fixed.below(24)
        if which < 4:
            given.append(fixed.below(256))
        elif which == 4:
            given += b"\r\n"
        else:
            given.append(fixed.one_of(IN_LINES.replace(b"\r\n", b"")))
    return bytes(given[:200])


NUMERALS = ("0 1 -1 .5 5. +1.2345 1e3 1E-3 4000000 -4000000 4000000.0004 4000000.0005 4000000.001 1000000 1000000.001 0E99 1e999 1e-999 1e1000 "
            "000000000000000000000000000001 0000000000000000000000000000001 1.2e-016 - . e 1e 1.2.3 0x1 --1 1,5").split()
TAGS = ["00001", "00002", "00003", "00004", "00005", "00008", "00009", "00010", "00064", "09999", "10000", "99999",
        "00000", "E0000", "E0001", "E0002", "E9999", "0000A", "E000", "000009"]
ENDS = ["\r\n"] * 90 + ["\n", "\r", "", "\r\r\n", "\n\r"]


def point_text(fixed):
    x, y, z = (fixed.one_of(NUMERALS[:3] if fixed.below(4) else NUMERALS) for _ in range(3))
    space = " " * (fixed.below(8) == 0)
    return f"X({x}),{space}Y{space}({y}{space}){space}, Z({z})"


def reply_text(fixed, held):
    """A reply, mostly to one of these tags, or to no tag."""
    tag = fixed.one_of(held + ["E0000"] if fixed.below(12) else TAGS)
    data = [point_text(fixed), "IsHomed(1)", "IsHomed(0)", "ishomed ( 1 )", "1", "0", "2", "IsHomed()", "X(1), Y(2)", "none", ""]
    good = [" &", " & ", " %", " %  ", " # " + data[0], " # " + data[0], " # " + fixed.one_of(data), " !",
            " ! Error(3, 9014, \"PtMeas\", \"No surface\")"]
    return tag + fixed.one_of(good if fixed.below(15) else [" $", "&", " # ", "", " &1", "  &"])


COMMANDS = ["StartSession()", "EndSession()", "ClearAllErrors()", "ClearAllErrors()", "IsHomed()", "Home()", "AbortE()",
            "OnPtMeasReport(X(), Y(), Z())", "ChangeTool(\"P1\")", "ChangeTool(p2)", "ChangeTool(\"P9\")", "SetCoordSystem(MachineCsy)",
            "SetCoordSystem(PartCsy)", "SetCsyTransformation(PartCsy, -100, 0, 0, 0, 0, 0)", "GoTo(POINT)", "PtMeas(POINT)",
            "PtMeas(POINT, IJK(0, 0, 1))", "PtMeas(POINT, IJK(0, 0, 0))", "Nonsense()", "home ( ) ", "aborte()", "clearallerrors( )"]


def command_text(fixed):
    tag = fixed.one_of(TAGS[:10] + ["E0001"] if fixed.below(6) else TAGS)
    return f"{tag} " + fixed.one_of(COMMANDS).replace("POINT", point_text(fixed))


def damaged(fixed, text):
    """A line, whole or cut at either end, or with a byte changed: to NUL, to one above 127, or to an arbitrary one."""
    given = bytearray(text.encode())
    which = fixed.below(30)
    at = fixed.below(len(given))
    if which == 0:
        return given[:at]
    if which == 1:
        return given[at:]
    if which == 2:
        given[at] = fixed.one_of([0, 0, 128, 200, 255, fixed.below(256)])
    return given


def fragment_list(fixed, line_of):
    """About 200 bytes of such lines and their ends."""
    given = bytearray()
    while len(given) < 200:
        given += damaged(fixed, line_of(fixed)) + fixed.one_of(ENDS).encode()
    return bytes(given[:200])


# ---- what lists mean: docs/PROTOCOL.md, for a whole list at once

def stream_of(given):
    """The lines at the beginning, and whether a CR or LF that does not end a line follows them."""
    lines, start = [], 0
    for at, byte in enumerate(given):
        if byte == 10 and (at == start or given[at - 1] != 13):
            return lines, True
        if byte == 13 and at + 1 < len(given) and given[at + 1] != 10:
            return lines, True
        if byte == 10:
            lines.append(given[start:at - 1])
            start = at + 1
    return lines, False


NAMES = {it.lower(): it for it in ("StartSession EndSession ClearAllErrors IsHomed Home AbortE OnPtMeasReport GoTo PtMeas ChangeTool "
                                   "SetCsyTransformation SetCoordSystem").split()}
TEXTS = {9001: "No tag", 9002: "Tag in use", 9003: "Unknown command", 9004: "Bad arguments", 9007: "Aborted", 9008: "Error state",
         9009: "Queue full"}


class ServerReading:
    """A server that reads lines, with no turn between them: the cases of 'A line is read'."""

    def __init__(self, runs=None, waits=()):
        self.runs, self.waits, self.error, self.out = runs, list(waits), False, []

    def say(self, tag, number, name):
        self.out.append(f'{tag} ! Error(3, {number}, "{name}", "{TEXTS[number]}")')

    def fail(self, tag, number, name):
        self.say(tag, number, name)
        self.out.append(f"{tag} %")

    def stop_all(self):
        for tag, name in self.waits:
            self.fail(tag, 9007, name)
        self.waits, self.error = [], True

    def read(self, line):
        found = re.fullmatch(rb"([0-9]{5}|E[0-9]{4}) (.*)", line, re.DOTALL)
        if not found or not int(found[1].decode().lstrip("E")):
            self.say("E0000", 9001, "")
            return
        tag = found[1].decode()
        if tag in [it for it, _ in self.waits + ([self.runs] if self.runs else [])]:
            self.say("E0000", 9002, "")
            return
        raw = re.match(rb"[^ (]*", found[2])[0]
        name = NAMES.get(raw.decode("latin-1").lower(), "") if raw.isascii() else ""
        has_no_arguments = re.fullmatch(rb" *\( *\) *", found[2][len(raw):]) is not None
        self.out.append(f"{tag} &")
        if tag.startswith("E"):
            self.read_event(tag, name, has_no_arguments)
        else:
            self.read_standard(tag, name, has_no_arguments)

    def read_event(self, tag, name, has_no_arguments):
        if name != "AbortE" or not has_no_arguments:
            self.fail(tag, 9004 if name else 9003, name)
            return
        if self.runs:
            self.fail(*self.runs[:1], 9007, self.runs[1])
        self.runs = None
        self.stop_all()
        self.out.append(f"{tag} %")

    def read_standard(self, tag, name, has_no_arguments):
        clears = name == "ClearAllErrors" and has_no_arguments
        if self.error and not clears:
            self.fail(tag, 9008, name)
        elif self.error:
            self.error = False
            self.waits.append((tag, name))
        elif len(self.waits) == 64:
            self.fail(tag, 9009, name)
            self.stop_all()
        else:
            self.waits.append((tag, name))


NUMERAL = r"[+-]?(?:[0-9]+\.?[0-9]*|\.[0-9]+)(?:[Ee][+-]?[0-9]{1,3})?"
POINT = re.compile(r"X *\( *(N) *\) *, *Y *\( *(N) *\) *, *Z *\( *(N) *\) *".replace("N", NUMERAL))


def is_coordinate(text):
    """At most 30 digits before the exponent, and at most 4,000,000,000 micrometres once rounded."""
    mantissa = re.split("[eE]", text)[0]
    return sum(it.isdigit() for it in mantissa) <= 30 and abs(Decimal(text)) < Decimal("4000000.0005")


def is_point(text):
    found = POINT.fullmatch(text.decode("latin-1"))
    return found is not None and all(map(is_coordinate, found.groups()))


def is_homed_text(text):
    return re.fullmatch(rb"[01]|(?i:ishomed) *\( *[01] *\) *", text) is not None


class ClientReading:
    """A client that reads lines and sends nothing: the table of marks. `held` are tags with `touch`, `asks`, `other` or `abort`, in order,
    and their stages, one of Sent, Received, Given and Failed."""

    def __init__(self, state, held):
        self.state, self.cause = state, None
        self.held = [list(it) for it in held]
        self.has_failed = any(stage == "Failed" for _, sort, stage in held if sort != "abort")
        self.aborting = next((tag for tag, sort, _ in held if sort == "abort"), None)

    def read(self, line):
        self.cause = self.met(line)
        if self.cause:
            self.state = "Faulted"
        return self.cause is None

    def met(self, line):
        found = re.fullmatch(rb"([0-9]{5}|E[0-9]{4}) (?:([&%]) *|([#!]) (.*)|(!))", line, re.DOTALL)
        if not found:
            return "NotResponse"
        tag = found[1].decode()
        mark = (found[2] or found[3] or found[5]).decode()
        at = next((it for it in self.held if it[0] == tag), None)
        if tag == "E0000":
            return None
        if mark == "#" and at and not {"touch": is_point, "asks": is_homed_text}.get(at[1], lambda _: True)(found[4]):
            return "NotResponse"
        if at is None:
            return "UnknownTag"
        return getattr(self, {"&": "received", "#": "given", "!": "failed", "%": "ended"}[mark])(at)

    def is_front(self, at):
        kind = [it for it in self.held if (it[1] == "abort") == (at[1] == "abort")]
        before = kind[:kind.index(at)]
        return all(it[2] == "Failed" for it in before) and (at[1] == "abort" or not self.has_failed)

    def received(self, at):
        if at[2] != "Sent":
            return "OutOfOrder"
        at[2] = "Received"

    def given(self, at):
        if at[1] not in ("touch", "asks") or not self.is_front(at) or at[2] in ("Sent", "Failed"):
            return "OutOfOrder"
        if at[2] == "Given":
            return "SecondData"
        at[2] = "Given"

    def failed(self, at):
        at[2] = "Failed"
        if at[1] == "abort":
            self.abort_ends(at)
        else:
            self.has_failed = True
            if self.state == "Running":
                self.state = "Failing"
            self.settle()

    def ended(self, at):
        if at[2] != "Failed":
            if not self.is_front(at) or at[2] == "Sent":
                return "OutOfOrder"
            if at[2] == "Received" and at[1] in ("touch", "asks"):
                return "NoData"
        self.held.remove(at)
        if at[1] == "abort":
            self.abort_ends(at)
        self.settle()

    def standard_open(self):
        """The commands that have not failed."""
        return [it for it in self.held if it[1] != "abort" and it[2] != "Failed"]

    def settle(self):
        if self.state == "Failing" and not self.standard_open():
            self.state = "Halted"

    def abort_ends(self, at):
        if self.state == "Aborting" and at[0] == self.aborting:
            self.state = "Failing" if self.standard_open() else "Halted"


# ---- rows and what they must show

CLIENTS = [
    ("ONE 1", "ended 8 / send", "Running", [("00009", "touch", "Sent")]),
    ("ONE 3", "ended 7 / sends 2 / 00008 & / 00009 &", "Running", [("00008", "other", "Received"), ("00009", "touch", "Received")]),
    ("ONE 3", "ended 2 / send / 00003 &", "Running", [("00003", "asks", "Received")]),
    ("ONE 1", "ended 8 / send / 00009 & / abort", "Aborting", [("00009", "touch", "Received"), ("E0001", "abort", "Sent")]),
    ("THREE 3", "ended 7 / sends 3 / 00008 !", "Failing",
     [("00008", "touch", "Failed"), ("00009", "touch", "Sent"), ("00010", "touch", "Sent")]),
]

IN_SESSION = "accept 1 / 00001 StartSession() / turn / 00002 Home() / turn / done / 00003 ChangeTool(\"P1\") / turn / done"
ACTS = "1 HOMED;1 CHANGED P1;"
SERVERS = [
    ("accept 1 / 00001 StartSession() / turn", "", ServerReading),
    (IN_SESSION + " / 00004 PtMeas(X(1), Y(2), Z(3)) / turn / 00005 Home()", ACTS,
     lambda: ServerReading(("00004", "PtMeas"), [("00005", "Home")])),
    (IN_SESSION + "".join(f" / {number:05} Home()" for number in range(100, 162)), ACTS,
     lambda: ServerReading(None, [(f"{number:05}", "Home") for number in range(100, 162)])),
]


def answers_of(head, rows):
    """The answers to the rows of a part."""
    text = f"{parts_of_calls('[program ', '[setup]')}[{head}]\n" + "".join(row + "\n" for row in rows)
    done = subprocess.run([str(CALLS)], input=text, capture_output=True, text=True, timeout=SECONDS)
    must(done.returncode == 0, head, "ended with status", done.returncode)
    answers = done.stdout.partition(f"[{head}]\n")[2].splitlines()
    must(len(answers) == len(rows), head, "has", len(answers), "answers")
    for row, answer in zip(rows, answers):
        must(answer.startswith(f"{row} => "), "another row", answer)
    return [answer[len(row) + 4:] for row, answer in zip(rows, answers)]


def must_be_client(context, given, answer, met):
    name, actions, state, held = context
    must("differs" not in answer, given, answer)
    lines, fault = stream_of(given)
    client, count = ClientReading(state, held), 0
    for line in lines:
        if not client.read(line):
            break
        count += 1
    if client.cause is None and fault:
        client.cause, client.state = "BadByte", "Faulted"
    told = re.match(r"(\d+) lines (?:Faulted\((\w+)\) )?(\w+) (\d+) open", answer)
    wanted = (str(count), client.cause, client.state)
    must(told and (told[1], told[2], told[3]) == wanted, name, actions, given, "shows", answer, "not", wanted)
    if client.cause is None:
        must(int(told[4]) == len(client.standard_open()), name, actions, given, "keeps open", answer)
    met[client.cause or client.state] += 1


def must_be_server(context, given, answer, met):
    actions, acts, new = context
    must("differs" not in answer, given, answer)
    lines, fault = stream_of(given)
    server = new()
    for line in lines:
        server.read(line)
    shown = "".join(it + ";" for it in server.out) + acts
    told = re.match(r"(\d+) lines (Framing\(BadByte\) )?on 1;session;", answer)
    must(told and told[1] == str(len(lines)) and bool(told[2]) == fault, actions, given, "has read", answer)
    must(answer.partition(": ")[2] == shown, actions, given, "shows", answer, "not", shown)
    for line in server.out:
        met[re.search(r"(?<=Error\(3, )\d+|[&%]$", line)[0]] += 1
    met["BadByte"] += fault


def must_be_both(down, up, answer, met):
    """Both are driven to the end after all bytes, and the files have runs unless the bytes gave the client a point."""
    must("differs" not in answer, down, up, answer)
    states = re.findall(r"(\w+) \d+ open \d+ completed: ", answer)
    must(len(states) == 2 and states[1] == "Done", down, up, "ends", answer)
    verdict = answer[-4:]
    is_told = b"#" in down
    must(verdict == "RUNS" or (verdict == "NONE" and is_told), down, up, "audit", answer)
    met[verdict] += 1


def client_rows(lists_of):
    met = collections.Counter()
    by_head = collections.defaultdict(list)
    for at, context in enumerate(CLIENTS):
        by_head[context[0]] += [(context, given) for given in lists_of(at)]
    count = 0
    for head, pairs in by_head.items():
        answers = answers_of(f"client_cuts {head}", [f"{context[1]} | {given.hex()}" for context, given in pairs])
        for (context, given), answer in zip(pairs, answers):
            must_be_client(context, given, answer, met)
        count += len(pairs)
    return count, met


def server_rows(lists_of):
    met = collections.Counter()
    pairs = [(context, given) for at, context in enumerate(SERVERS) for given in lists_of(at)]
    answers = answers_of("server_cuts", [f"{context[0]} | {given.hex()}" for context, given in pairs])
    for (context, given), answer in zip(pairs, answers):
        must_be_server(context, given, answer, met)
    return len(pairs), met


def both_rows(pairs):
    met = collections.Counter()
    answers = answers_of("both_cuts ONE 1", [f"8 more | {down.hex()} | {up.hex()}" for down, up in pairs])
    for (down, up), answer in zip(pairs, answers):
        must_be_both(down, up, answer, met)
    return len(pairs), met


def must_have_met(met, wanted):
    must(all(met[it] for it in wanted.split()), "these came", dict(met), "of", wanted)


def plain_rows():
    """The 256 fixed lists, to a client with a touch open and to a server in a session."""
    fixed = Fixed(1)
    lists = [plain_list(fixed) for _ in range(256)]
    clients, met = client_rows(lambda at: lists if at == 0 else [])
    must_have_met(met, "NotResponse BadByte")
    servers, met = server_rows(lambda at: lists if at == 0 else [])
    must_have_met(met, "9001 BadByte")
    return clients + servers


def fragment_rows_of_a_client(count):
    fixed = Fixed(2)

    def lists_of(at):
        held = [tag for tag, _, _ in CLIENTS[at][3]]
        return [fragment_list(fixed, lambda it: reply_text(it, held)) for _ in range(count // len(CLIENTS))]

    rows, met = client_rows(lists_of)
    must_have_met(met, "NotResponse BadByte UnknownTag OutOfOrder NoData SecondData Running Failing Halted")
    return rows


def fragment_rows_of_a_server(count):
    fixed = Fixed(3)
    rows, met = server_rows(lambda at: [fragment_list(fixed, command_text) for _ in range(count // len(SERVERS))])
    must_have_met(met, "9001 9002 9003 9004 9007 9008 9009 & % BadByte")
    return rows


def fragment_rows_of_both(count):
    fixed = Fixed(4)
    rows, met = both_rows([(fragment_list(fixed, lambda it: reply_text(it, ["00009"])), fragment_list(fixed, command_text)) for _ in range(count)])
    must_have_met(met, "RUNS NONE")
    return rows


def check_hostile(lists=FRAGMENT_LISTS, names=False):
    groups = {"fixed lists": plain_rows, "lists to a client": lambda: fragment_rows_of_a_client(lists),
              "lists to a server": lambda: fragment_rows_of_a_server(lists), "lists to both": lambda: fragment_rows_of_both(lists)}
    found = {name: tried(f"hostile {name}", group) for name, group in groups.items()}
    for name, count in found.items():
        if names and count is not None:
            print(f"hostile {name}: {count} as they have to be")
    return counted("groups of hostile lists", list(found.values()).count(None), len(groups))


if __name__ == "__main__":
    sys.exit(1 if check_hostile(int(sys.argv[1]) if len(sys.argv) > 1 else FRAGMENT_LISTS, True)[1] else 0)
