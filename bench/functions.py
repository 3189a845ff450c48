#!/usr/bin/env python3
"""Prints which functions contain the instructions that measure.py counts, of ours and of the plain programs, without the fixed part (the same
run with no work; for the client also what reads the program).

Each body is counted with what the compiler inlined into it, so a function that was inlined into its callers has no row. For each program it
prints the functions that together make up nineteen twentieths of its cost, and each one's share of ours less plain.

It needs the built programs (see counting.py), and builds the plain ones. It takes a few minutes.

usage: bench/functions.py [WORD..]    only the rows whose names have all the words
"""
import concurrent.futures
import sys
import tempfile

from counting import built, by_function, plain
from measure import WORKERS, rows

SHOWN = 0.95


def bodies_of(row, program):
    """The instructions of the whole work in each function."""
    counts = by_function([program] + row.words(row.work))
    counts.subtract(by_function([program] + row.words(0)))
    for words, none in zip(row.aside(row.work), row.aside(0)):
        counts.subtract(by_function([program] + words))
        counts.update(by_function([program] + none))
    return counts


def shown(counts, excess):
    whole, told = sum(counts.values()), 0
    for name, count in counts.most_common():
        if told >= SHOWN * whole:
            break
        told += count
        yield f"| {name} | {count:,} | {100 * count / excess:.0f} % |"


def main():
    wanted = sys.argv[1:]
    theirs = plain()
    with tempfile.TemporaryDirectory() as folder, concurrent.futures.ThreadPoolExecutor(WORKERS) as pool:
        chosen = [row for row in rows(folder) if all(word in row.name for word in wanted)]
        runs = [(row, pool.submit(bodies_of, row, built(row.crate)), pool.submit(bodies_of, row, theirs)) for row in chosen]
        for row, first, second in runs:
            ours, others = first.result(), second.result()
            excess = sum(ours.values()) - sum(others.values())
            print(f"\n## {row.name}: {sum(ours.values()):,} and {sum(others.values()):,}, {excess:,} more\n")
            for name, counts in (("ours", ours), ("plain", others)):
                print(f"| {name} | Instructions | Of the excess |\n|---|---|---|")
                print("\n".join(shown(counts, excess)), flush=True)


if __name__ == "__main__":
    main()
