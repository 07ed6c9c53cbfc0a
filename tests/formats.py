#!/usr/bin/env python3
"""Prints what the test program `formats` has to print: refusals, shortages and kinds by name and in words, and records
as `Debug` prints them. Takes no arguments. The sentences stand here a second time. Specification: Sentences."""

REFUSALS = {
    "NotWhole": "the file is under 48 bytes or ends within a word; send the whole file, 4 bytes a word",
    "ContentsBroken": "the bodies do not follow one another to the file's end; correct their starts and counts",
    "OverLimit": "a body is over its limit or the last command is incomplete; shorten the body or complete the command",
    "LentUnsoundly": "the lent lists do not fit; check their lengths, the kinds, the place record and a session's words",
    "UnknownCode": "no command has this code; take one from the table of commands",
    "FieldNotZero": "a field that the command does not use is not 0; set it to 0",
    "HandleNotFilled": "a handle is 0 or not filled; name one that an earlier command filled",
    "WrongKind": "a handle holds the wrong kind of value; make a bit word by bits, or a ring value by bit",
    "PositionOutside": "a bit position is past the highest bit; take one from 0 to 31",
    "TablesFull": "the share tables have no entry left for the new value; lend longer tables and kinds",
    "InputsUsed": "all inputs are used; lend one for each store",
    "TapeSpent": "a tape has fewer words left than are drawn from it; lend more random words",
    "ListFull": "a received list has room for fewer words than are sent to it; lend a longer list",
}
KINDS = {"RingValue": "ring value", "BitWord": "bit word"}
NAMES = ["Provider", "One", "Two", "Three", "Unused", "Handle", "Word", "Position"]


def record(name, **fields):
    return name + " { " + ", ".join(f"{field}: {value}" for field, value in fields.items()) + " }"


def records():
    shares = record("Shares", one=1, two=2, three=3)
    drawn = record("Drawn", provider=3, one=4, two=5, three=6)
    received = record("Received", one=7, two=8, three=9, controller=10)
    place = record("Place", handles=1, inputs=2, drawn=drawn, received=received)
    answer = record("Answer", number=7, place=place, opened=0)
    return [
        record("Done", shares=shares, place=place),
        record("Accepted", place=place, opened=5),
        record("Run", done=2, last=answer),
        record("SessionAnswer", done=2, place=place, number=7),
        record("Command", code=9, a=1, b=31),
        record("Row", a="Handle", b="Position", operands="BitWord", kind="RingValue", values=1, inputs=0,
               received=received, drawn=drawn),
        record("Sizes", one=11, two=12, three=13, kinds=14, inputs=15, tapes=drawn, received=received),
    ]


if __name__ == "__main__":
    for number, (name, sentence) in enumerate(REFUSALS.items(), 1):
        print(f"{name}: refused {number}: {sentence}")
    for name in ("TapeSpent", "ListFull"):
        print(f"{name}: {REFUSALS[name]}")
    for name, words in KINDS.items():
        print(f"{name}: {words}")
    print("\n".join([*NAMES, *records()]))
