"""A run that waits for its operator sends nothing that stands below the text at which it waits.

A program has a text above its first command, below the selection of a tool, between two features with and without a move between, in a block,
twice with nothing between, and below its last touch. It runs with windows of 1 and 16, over a server whose log has each line of both sides. At each
pause the server must have received exactly the commands that stand above, each of them answered; half a second later still; and after the line the
rest of the run is that of one without a pause. A stop file that appears during a pause, and a server that ends then, end the run with nothing
more sent.

`run` calls this; by itself: tests/pauses.py
"""

import subprocess
import sys
import time

from common import counted, dme, ended, holds, killed, must, room, run_words, serving, text_of
from killed import SETUP

STILL = 0.5
ASKED = "dme: an empty line continues the run, anything else ends it\n"
TEXT = """\
DMISMN/'PAUSES',05.2
TEXT/OPER,'CLAMP IT'
SNSLCT/S(P1)
TEXT/MAN,'CLEAN THE PROBE'
MEAS/POINT,F(A),2
GOTO/10,20,30
TEXT/OPER,'LOOK'
PTMEAS/CART,10,20,25,0,0,1
PTMEAS/CART,11,20,25,0,0,1
ENDMES
TEXT/MAN,'TURN IT'
TEXT/OPER,'CLAMP IT AGAIN'
RECALL/D(PART)
GOTO/0,0,50
TEXT/OPER,'ALMOST'
MEAS/POINT,F(B),1
PTMEAS/CART,4,5,6,0,0,1
ENDMES
TEXT/OPER,'BETWEEN'
MEAS/POINT,F(C),1
PTMEAS/CART,7,8,9,0,0,1
ENDMES
TEXT/OPER,'TAKE IT OUT'
ENDFIL
"""
# The lines of the texts of each pause, and how many commands stand above it. A session begins with six, and a frame that is recalled takes two.
PAUSES = (((2,), 0), ((4,), 7), ((11, 12), 10), ((15,), 13), ((19,), 14))
COMMANDS = 16


def sent(folder):
    """The lines that the server has received, and how many of the server's lines end a command."""
    lines = text_of(folder / "server.log").splitlines()
    received = [line.split("> ", 1)[1] for line in lines if "> " in line]
    return received, sum(line.endswith(" %") for line in lines)


def served(folder):
    (folder / "server.log").unlink(missing_ok=True)
    return serving(folder, "--log", "server.log")


def run(folder, port, *more):
    return dme(folder, *run_words(port, *more), stdin=subprocess.PIPE)


def settled(folder, expected):
    """Whether the log, to which lines are added after they went, comes to this."""
    for _ in range(50):
        if sent(folder) == expected:
            return True
        time.sleep(0.1)
    return False


def asked(process):
    """The lines of the texts that are shown before the run asks."""
    lines = []
    while (line := process.stderr.readline()) != ASKED:
        must(line.startswith("dme: line "), "another line", line)
        lines.append(int(line.split(":")[1].removeprefix(" line ")))
    return tuple(lines)


def answer(process, text="\n"):
    process.stdin.write(text)
    process.stdin.flush()


def paused(folder, window):
    server, port = served(folder)
    plain = ended(run(folder, port, "--window", window))
    ended(server)
    whole, _ = sent(folder)
    must(plain[0] == 0 and len(whole) == COMMANDS, "the run without a pause", plain, whole)
    server, port = served(folder)
    process = run(folder, port, "--window", window, "--pause")
    for lines, above in PAUSES:
        must(asked(process) == lines, "other texts", lines)
        must(settled(folder, (whole[:above], above)), "not what stands above", lines, sent(folder))
        time.sleep(STILL)
        must(sent(folder) == (whole[:above], above), "something was sent", lines, sent(folder))
        answer(process)
    must(ended(process) == plain, "another end")
    ended(server)
    must(sent(folder)[0] == whole, "other commands", sent(folder))


def stopped(folder):
    """The first pause between features, which a stop file ends."""
    (folder / "stop").unlink(missing_ok=True)
    server, port = served(folder)
    process = run(folder, port, "--pause", "--stop", "stop")
    for _ in PAUSES[:2]:
        asked(process)
        answer(process)
    asked(process)
    (folder / "stop").touch()
    answer(process)
    status, _, error = ended(process)
    ended(server)
    received, _ = sent(folder)
    must(status == 3 and "stopped by the stop file: 1 of 3 features" in error, "the stop", status, error)
    must(len(received) == 11 and received[-1].endswith("AbortE()"), "something was sent", received)


def left(folder):
    """The same pause, during which the server ends."""
    server, port = served(folder)
    process = run(folder, port, "--pause")
    for _ in PAUSES[:2]:
        asked(process)
        answer(process)
    asked(process)
    killed(server)
    answer(process)
    status, _, error = ended(process)
    must(status == 1 and error.startswith("dme: connection failed\nthe server has left the connection\n"), "the end", status, error)
    must(len(sent(folder)[0]) == 10, "something was sent", sent(folder))


def check_pauses():
    """Each window, and each end of a pause."""
    trials = (("window 1", paused, "1"), ("window 16", paused, "16"), ("stop file", stopped), ("server", left))
    with room({"machine.setup": SETUP, "part.dmis": TEXT}) as folder:
        failed = sum(not holds(f"pauses, {what}", trial, folder, *words) for what, trial, *words in trials)
    return counted("pauses", failed, len(trials))


if __name__ == "__main__":
    sys.exit(1 if check_pauses()[1] else 0)
