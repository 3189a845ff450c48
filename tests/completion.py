"""Sources docs/dme.bash in bash, and compares its completions with what the program itself reports: its commands, the options of each, the
forms, and the codes that `dme explain` knows. The line of each command in the help is the first of its own help.

`run` calls this; by itself: tests/completion.py
"""

import re
import subprocess
import sys

from common import ROOT, SECONDS, called, listed

COMPLETE = 'source docs/dme.bash && COMP_WORDS=("$@") && COMP_CWORD=$(($# - 1)) && _dme && printf "%s\\n" "${COMPREPLY[@]}"'


def completed(*words):
    """What bash offers for the last of these words after `dme`."""
    run = subprocess.run(["bash", "-c", COMPLETE, "bash", "dme", *words], cwd=ROOT, capture_output=True, text=True, timeout=SECONDS, check=True)
    return set(run.stdout.split())


def told(*words):
    status, text, error = called(ROOT, *words)
    return status, text + error


def commands():
    """Each command that the help lists, with its line there."""
    return dict(re.findall(r"^  (\w+) +(.*)", told("--help")[1].partition("Usage:")[2].partition("Options:")[0], re.MULTILINE))


def options(command):
    return set(re.findall(r"--[a-z-]+", told(command, "--help")[1].partition("Options:")[2]))


def forms_are_whole(command, *words):
    forms = re.search(r"possible values: (.*)\]", told(command, "--as", "", *words)[1])
    return completed(command, "--as", "") == set(forms[1].split(", "))


def is_whole(name):
    """Whether the completion of these words is what the program reports."""
    if name == "commands":
        own = all(it == "help" or told(it, "--help")[1].startswith(line + "\n") for it, line in commands().items())
        return completed("") == commands().keys() | {"--help", "--version"} and told("--version")[0] == 0 and own
    if name == "codes":
        codes = completed("explain", "")
        small = completed("explain", "p")
        known = all(told("explain", it)[0] == 0 and told("explain", it)[1].startswith(it.upper() + " ") for it in codes | small)
        return len(codes) == 50 and small == {it.lower() for it in codes if it[0] == "P"} and known
    if name == "forms":
        return forms_are_whole("export", "--features", "none") and forms_are_whole("review") and forms_are_whole("summary", "none")
    return completed(name, "--") == options(name)


def check_completion():
    names = "commands codes forms check simulate audit loop serve run explain export report summary review lower ledger judge watch".split()
    return listed("completions", "completion of", names, is_whole)


if __name__ == "__main__":
    sys.exit(1 if check_completion()[1] else 0)
