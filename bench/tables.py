#!/usr/bin/env python3
"""Prints the benchmark's figures as Markdown: `tables.py FOLDER`, with the folder of the CSV files."""

import sys

import figures

GROWTH = [1, 2, 4, 8, 16, 32, 64, 128]

ABOUT = """\
Engine: the static library. Twin: `bench/twin`, safe Rust without allocation, which must first answer and write the same \
words on seeded commands and sessions. Both are compiled for x86-64-v2 (the twin by `rustc -C opt-level=3 -C \
codegen-units=1 -C target-cpu=x86-64-v2`). A ratio is the engine's figure by the twin's.

- Calls are repeated on the same lists, which are not cleared between them: every call leaves the same words. The loop \
about the calls and the passing of arguments count on both sides.
- Commands: tables of 128 entries, 3 or 100 of them filled, tapes and lists of a session's greatest lengths, partly used.
- Sessions: `pool`'s lists. 'largest' is eight times the mix, 128 commands, with all bodies filled to their limits (30,768 \
bytes). The mix has all twelve commands, 16 in a row: store, equal, store, subtract, bits, bit, add, add constant, below, \
multiply, equal, times constant, below, multiply, reshare, open. '127 belows' is the heaviest legal session: one store \
before them, all bodies filled. The others have bodies just long enough, and two stores before the belows and multiplies, \
one before the opens.
- Growth: the first commands of the mix, repeated, or a store and then adds; bodies just long enough.
"""
COUNTED = """\
Instructions are counted by callgrind: a run of twice the calls less a run of the calls, divided by the calls.
"""
TIMED = """\
Times are medians of 101 samples, engine and twin in turn, in brackets the quartiles; they are noisy and differ from run to \
run and machine to machine.
"""


def number(value):
    return f"{round(value):,}" if value >= 100 else f"{value:.3g}"


def spread(time):
    low, median, high = time
    return f"{number(median)} ({number(low)}–{number(high)})"


def ratio(engine, twin):
    return f"{engine / twin:.2f}"


def print_table(title, head, rows):
    print(f"### {title}\n")
    print("| " + " | ".join(head) + " |")
    print("|---|" + "---:|" * (len(head) - 1))
    for row in rows:
        print("| " + " | ".join(row) + " |")
    print()


def sides(values, workload, show, middle):
    """Engine, twin and their ratio."""
    engine, twin = (values[workload, side] for side in ("engine", "twin"))
    return [show(engine), show(twin), ratio(middle(engine), middle(twin))]


def labels(values, group):
    """The labels of a group, in the order of the figures."""
    names = [workload.split(":") for workload, _ in values]
    return list(dict.fromkeys(name[1] for name in names if name[0] == group))


def head_of(names):
    return [f"{side}, {name}" for name in names for side in ("engine", "twin", "ratio")]


def command_table(values, unit, show, middle):
    rows = []
    for group in ("command", "refusal"):
        for label in labels(values, group):
            cells = [sides(values, f"{group}:{label}:{size}", show, middle) for size in (3, 100)]
            rows.append([label, *cells[0], *cells[1]])
    head = ["command", *head_of(["3 handles", "100 handles"])]
    print_table(f"One command: {unit} per call", head, rows)


def session_table(values, unit, show, middle):
    rows = [
        [label, *sides(values, f"session:{label}", show, middle), *sides(values, f"pool:{label}", show, middle)]
        for label in labels(values, "session")
    ]
    head = ["session", *head_of(["session call", "pool call"])]
    print_table(f"Whole sessions: {unit} per call", head, rows)


def growth_table(values, unit, show, middle):
    rows = []
    for commands in GROWTH:
        cells = [sides(values, f"growth:{family}:{commands}", show, middle) for family in ("mix", "adds")]
        rows.append([str(commands), *cells[0], *cells[1]])
    print_table(f"Growth: {unit} per session call", ["commands", *head_of(["mix", "adds"])], rows)


def print_tables(values, unit, show, middle):
    for table in (command_table, session_table, growth_table):
        table(values, unit, show, middle)


def main():
    folder = sys.argv[1]
    print(ABOUT)
    counted = figures.instructions(folder)
    if counted:
        print(COUNTED)
        print_tables(counted, "instructions", number, lambda value: value)
    timed = figures.times(folder)
    if timed:
        print(TIMED)
        print_tables(timed, "nanoseconds", spread, lambda time: time[1])


main()
