"""Refuses each growth of calls in turn (refuse.c), for every public call that can answer that memory was short, in the crates from fixed_um to
ledger_audit.

The calls are made by rows of `test_calls`, which examine the value: if a call says that memory was short, they show `refused, as before; ` and
make it again; they show `changed` if a reader of the value then answers anything else, and `refused for ever` if the
call does not succeed. A text that is read says `out of memory` in its own words; its row is asked twice here.

`CALLS` gives for each call the row that makes it. If the rows of its part are independent, the row is run alone, otherwise the whole part, once
for each growth of the run: it must print the expected output, with or without these words. A growth of reading the input, which comes first, or
of printing, which comes last, ends the program with nothing printed. At least one growth of each call's row must be refused. All rows would
take hours, since a run of most of them has thousands of growths.

By itself: tests/refusals.py [CALL ..], the calls whose names begin with one of these words.
"""

import re
import sys

from common import ROWS_OF_CALLS, counted, must, parts_of, room, tried
from growths import Refusing

WORDS = "refused, as before; "
SHORT = "out of memory"
# Parts whose rows continue from one another, and parts of texts that are read.
WHOLE = ("client", "server", "world")
READ = ("setups", "schedules", "features", "contacts")
# Rows that bring a client or a server to the state in which the next ones begin. They make their calls once.
READY = re.compile("(sends|ended|letters) [0-9]+|aborts")

# A run over a link comes to its next connection after a refusal: the second feature is measured there, maybe by the next contact of the machine,
# or was measured before.
MEASURED = "00007 PtMeas(X(4.000), Y(5.000), Z(6.000), IJK(0.000000, 0.000000, 1.000000));00008 EndSession();"
CONTACT = "00007 # X(4.002), Y(5.000), Z(6.000);"
OTHER_LINKS = {
    "runs REST 1": [[("B 1 M", "B 2 M")], [(MEASURED, "00007 EndSession();")]],
    "loops REST 1": [
        [("B 2 M", "B 3 M")],
        [("B 2 M", "B 3 M"), (CONTACT, "00007 # X(4.000), Y(5.000), Z(6.004);")],
        [(MEASURED, "00007 EndSession();"), (f"{CONTACT}00007 %;00008 &;00008 %;", "00007 %;")],
    ],
}

# The head of the part (followed by `#` and which of those with this head, by default the first), and the row.
ONE_PROGRAM = "DMISMN/'ONE',05.2;SNSLCT/S(P1);MEAS/POINT,F(A),1;GOTO/10,20,30;PTMEAS/CART,10,20,25,0,0,1;ENDMES;ENDFIL"
CALLS = {
    "fixed_um Name::new": ("names", "probe_1a"),
    "fixed_um write_um": ("numerals", "0.0005"),
    "fixed_um write_dir": ("directions", "0.5773502692 0.0000005 -1"),
    "dmis_text Statements::next": ("statements", "$$ head;dmismn/'t',05.2;snslct/s(p1);goto/1,$; 2, 3 $$ end;ENDFIL"),
    "dmis_program Frames::add": ("programs", ONE_PROGRAM),
    "dmis_program Program::read": ("programs", ONE_PROGRAM),
    "dme_line write_command": ("commands", "00004 Home()"),
    "dme_line read_command": ("commands", '00008 ChangeTool("P1")'),
    "dme_line read_response": ("responses", '00008 ! Error(3, 9010, "GoTo", "Not homed")'),
    "dme_line write_point": ("points", "X(10.002), Y(20.000), Z(25.000)"),
    "dme_line write_error": ("errors", "9010 00002 GoTo(X(0), Y(0), Z(0))"),
    "dme_line write_data": ("writes", "data X(1), Y(2), Z(3)"),
    "dme_line write_homed_data": ("writes", "homed_data 0"),
    "dme_line write_response": ("writes", "complete"),
    "dme_line write_homed": ("writes", "homed 1"),
    "dme_line Text::new": ("writes", "text IsHomed(0)"),
    "line_framing Lines::feed": ("pieces", "A|;B|;|;C|D|;"),
    "line_framing Lines::next_line": ("pieces", "A|;B|;|;C|D|;"),
    "line_framing ByteQueue::reserve": ("queues", "100001/ &0123456789012345678901234567890123456789012345678901234567"),
    "dme_tags Open::draw": ("values TWO", "Open::draw"),
    "command_queue Queue::new": ("values TWO", "Queue::new, Queue::drain_all"),
    "command_queue Queue::drain_all": ("values TWO", "Queue::new, Queue::drain_all"),
    "resume_plan plan": ("values TWO", "plan"),
    "contact_ledger Points::push": ("values TWO", "Points::push"),
    "contact_ledger Points::copy": ("values TWO", "Feature::copy"),
    "contact_ledger Feature::copy": ("values TWO", "Feature::copy"),
    "contact_ledger FeatureLedger::push": ("values TWO", "FeatureLedger::push"),
    "contact_ledger ServerLedger::push": ("values TWO", "ServerLedger::push"),
    "ledger_audit audit": ("values TWO", "audit"),
    "link_world Simulated::new": ("values TWO", "Simulated::new"),
    "server_core Server::new": ("values TWO", "Server::new"),
    "tool_rack Setup::read": ("setups", "TOOL P1;TOOL P2;FRAME PART 100 0 0;SHIFT 0.002 0 0;SHIFT 0 0 0.004;SHIFT -0.001 0.001 0;"),
    "link_world Schedule::read": ("schedules", "connect;# two;#;quiet ;"),
    "contact_ledger read_features": ("features", "DME-FEATURES 1;FEATURE C 3;1.000 0.000 0.004;-0.001 1.001 0.000;-0.998 0.000 0.000;END;"),
    "contact_ledger read_contacts": ("contacts", "DME-CONTACTS 1;1 HOMEDIS 2;"),
    "contact_ledger write_features": ("world ONE 1", "files"),
    "contact_ledger write_contacts": ("world ONE 1", "files"),
    "client_core Client::connected": ("client FRAMES 1", "connected 1"),
    "client_core Client::send": ("client ONE 1", "send"),
    "client_core Client::feed": ("client FRAMES 1", "touched X(10.002), Y(0.000), Z(0.000)"),
    "client_core Client::read_one": ("client FRAMES 1", "touched X(10.002), Y(0.000), Z(0.000)"),
    "client_core Client::abort": ("client FRAMES 1", "abort"),
    "client_core Client::resume": ("client FRAMES 1", "resume"),
    "link_world report_of": ("client ONE 1#3", "report"),
    "server_core Server::feed": ("server#4", "00001 StartSession()"),
    "server_core Server::read_one": ("server#4", "00001 StartSession()"),
    "server_core Server::turn": ("server#5", "turn"),
    "server_core Server::machine": ("server#4", "done"),
    "link_world write_contact_rows": ("server#4", "contact rows"),
    "link_world World::new": ("world ONE 1", "[world ONE 1]"),
    "link_world World::step Connect": ("world ONE 1", "connect"),
    "link_world World::step ClientSends": ("world ONE 1", "clientsends"),
    "link_world World::step Up": ("world ONE 1", "up 22"),
    "link_world World::step ServerReads": ("world ONE 1", "serverreads"),
    "link_world World::step ServerTurn": ("world ONE 1", "serverturn"),
    "link_world World::step Machine": ("world ONE 1", "machine done"),
    "link_world World::step Down": ("world ONE 1", "down 18"),
    "link_world World::step ClientReads": ("world ONE 1#2", "clientreads"),
    "link_world World::step Abort": ("world ONE 1#2", "abort"),
    "link_world World::step Resume": ("world ONE 1#2", "resume"),
    "link_world World::report": ("world ONE 1", "report"),
    "link_world write_report": ("world ONE 1", "report"),
    "link_world World::run": ("world TWO 1", "run"),
    "link_world World::finish": ("world TWO 1", "finish"),
    "link_world Schedule::play": ("world TWO 1#2", "play connect"),
    "link_world quiet_run": ("quiets ONE 1", "SHIFT 0.002 0 0;SHIFT 0 0 0.004;SHIFT -0.001 0.001 0"),
    "link_world client_turns": ("turns REST 1", "least 9, bound 100, again 1 < 00001 &|;"),
    "link_world run_link": ("runs REST 1", "least 1, again 1 < all"),
    "link_world loop_link": ("loops REST 1", "least 1, again 1 < all"),
    "link_world serve_turns": ("serves#2", "least 22, bound 4, again 1 < 00001 StartSession()|;"),
    "link_world serve_link": ("connections#2", "least 1, again 1 < 00001 StartSession()|;"),
}


def numbered(name):
    """The parts of a file of the program by their heads; a head that is not the first of its kind is followed by its number."""
    parts, counts = {}, {}
    for part in parts_of(ROWS_OF_CALLS.with_name(name).read_text()):
        head = part.partition("]")[0].removeprefix("[")
        counts[head] = counts.get(head, 0) + 1
        parts[head if counts[head] == 1 else f"{head}#{counts[head]}"] = part
    return parts


def texts_of(parts, head):
    """The parts that a part with this head is made of: the setup, and those with the name of its program."""
    name = head.partition("#")[0].split(" ")[1:2]
    of_its_name = lambda words: words[0] in ("program", "held", "replies", "commands", "last") and words[-1:] == name
    return "".join(part for it, part in parts.items() if it == "setup" or of_its_name(it.split(" ")))


def is_one_of(words, head):
    return head.partition("#")[0].split(" ")[0] in words


def is_alone(head):
    return not is_one_of(WHOLE, head)


def case_of(head, row):
    """The input of a case, and what it prints. A text that is read is asked twice."""
    given, expected = numbered("stdin"), numbered("stdout")
    texts = texts_of(given, head)
    if not is_alone(head):
        return texts + given[head], texts + expected[head]
    answer = next((it for it in expected[head].splitlines(keepends=True) if it.startswith(f"{row} => ")), None)
    must(answer is not None, "no such row", row)
    title = f"[{head.partition('#')[0]}]\n"
    times = 2 if is_one_of(READ, head) else 1
    return texts + title + f"{row}\n" * times, texts + title + answer * times


def is_end(run):
    """Whether the program has ended out of memory, or since a port failed, with nothing printed."""
    return run[0] in (1, 4) and run[1:] == ("", "")


def between_ends(runs):
    """The runs whose refused growth is not one of reading the input or of printing."""
    first, last = 0, len(runs)
    while first < last and is_end(runs[first]):
        first += 1
    while first < last and is_end(runs[last - 1]):
        last -= 1
    return runs[first:last]


def answers_of(head, as_ever):
    """What the row may show apart from `WORDS`."""
    answers = [as_ever]
    for changes in OTHER_LINKS.get(head, ()):
        answer = as_ever
        for old, new in changes:
            must(answer.count(old) == 1, "no such words", old)
            answer = answer.replace(old, new)
        answers.append(answer)
    return answers


def refused_row(head, output, whole):
    """The row for whose call memory was short; None if there is no such row, or if the first is one that prepares others. All other rows are as
    with all memory."""
    found, lines, plain = [], output.splitlines(), whole.splitlines()
    for line, as_ever in zip(lines, plain):
        row = as_ever.partition(" => ")[0]
        if line == as_ever:
            continue
        if not found and READY.fullmatch(row):
            return None
        is_again = WORDS in line and line.replace(WORDS, "", 1) in answers_of(head, as_ever)
        must(is_again or line == f"{row} => {SHORT}", "another answer", line)
        found.append(row)
    must(len(lines) == len(plain), "other rows", output)
    must(len(found) <= 1, "more than one call was refused", found)
    return found[0] if found else None


def refusals_of(refusing, head, row):
    """The rows of a case for whose calls a growth was refused, one for each refusal."""
    given, expected = case_of(head, row)
    whole, runs = refusing.all_of_calls(given)
    must(whole == (0, expected, ""), "with all memory", whole)
    refused = []
    for run in between_ends(runs):
        must(run[0] == 0 and run[2] == "", "another end", run)
        refused.append(refused_row(head, run[1], expected))
    return [it for it in refused if it is not None]


def check_refusals(names=()):
    calls = {call: where for call, where in CALLS.items() if not names or call.startswith(tuple(names))}
    # One case for each independent row, and one for each other part.
    cases = {call: (head, row if is_alone(head) else "") for call, (head, row) in calls.items()}
    with room() as folder:
        refusing = Refusing(folder)
        found = {it: tried(f"refusals of {' '.join(it)}", refusals_of, refusing, *it) or [] for it in dict.fromkeys(cases.values())}
    wrong = 0
    for call, (_, row) in calls.items():
        count = found[cases[call]].count(row)
        wrong += count == 0
        if names or count == 0:
            print(f"refusals of {call}: {count} growths refused")
    return counted("refused calls", wrong, len(calls), f", {sum(map(len, found.values()))} growths refused")


if __name__ == "__main__":
    sys.exit(1 if check_refusals(sys.argv[1:])[1] else 0)
