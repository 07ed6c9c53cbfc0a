"""The command machine, written a second time, and the cases that it gives for the crate `machine`.

It follows docs/SPECIFICATION.md (Specification: Lent lists; Table of commands; Accepted commands; Order of refusals)
and shares no code with the crate. The commands stand on protocol_vectors.py, the protocols written a second time. The
program `crates/commands` reads the cases from its stdin, runs them on the proved library and has to write its stdout.

    python3 tests/command_cases.py            both files must be what this script makes, else the status is 1
    python3 tests/command_cases.py --write    writes both

Each refusal is tested by itself, so every number that applies is known, and the lowest is answered. A case says which
numbers it is there for, and the script fails if it gives others. A register machine runs beside the shares, which have
to combine to its words (Specification: Registers).
"""

import functools
import pathlib
import sys

sys.dont_write_bytecode = True
from protocol_vectors import COMMANDS, MINERS, RING, WIDTH, Run, words_from

CRATE = pathlib.Path(__file__).resolve().parent.parent / "crates" / "commands"
ROOM, LARGEST = 1024, 400000  # what the program holds: words in a list, or in inputs and tapes together; bytes of text
LAST = RING - 1
# What a field of a command is: unused, a handle of kind 1 or of kind 2, any word, a bit position.
UNUSED, VALUE, BITS, WORD, POSITION = "unused", "value", "bits", "word", "position"
NONE = (0, 0, 0, 0)
# Name, a, b, the new value's kind (0: none), received words of miners 1 to 3 and the controller, drawn words of the
# provider and miners 1 to 3. Specification: Table of commands.
ROWS = {
    1: ("store", UNUSED, UNUSED, 1, (1, 1, 1, 0), (2, 0, 0, 0)),
    2: ("add", VALUE, VALUE, 1, NONE, NONE),
    3: ("subtract", VALUE, VALUE, 1, NONE, NONE),
    4: ("add constant", VALUE, WORD, 1, NONE, NONE),
    5: ("times constant", VALUE, WORD, 1, NONE, NONE),
    6: ("multiply", VALUE, VALUE, 1, (4, 4, 4, 0), (0, 2, 2, 2)),
    7: ("reshare", VALUE, UNUSED, 1, (1, 1, 1, 0), (0, 1, 1, 1)),
    8: ("bits", VALUE, UNUSED, 2, (22, 25, 25, 0), (0, 15, 12, 12)),
    9: ("bit", BITS, POSITION, 1, (0, 3, 3, 0), (0, 3, 0, 0)),
    10: ("equal", VALUE, VALUE, 1, (11, 15, 15, 0), (0, 10, 6, 6)),
    11: ("open", VALUE, UNUSED, 0, (1, 1, 1, 3), (0, 1, 1, 1)),
    12: ("below", VALUE, VALUE, 1, (22, 28, 28, 0), (0, 18, 12, 12)),
}
# The new values of the same table, from the words of the handles, the field b and the input.
PLAIN = {
    1: lambda a, b, field, given: given,
    2: lambda a, b, field, given: a + b,
    3: lambda a, b, field, given: a - b,
    4: lambda a, b, field, given: a + field,
    5: lambda a, b, field, given: a * field,
    6: lambda a, b, field, given: a * b,
    7: lambda a, b, field, given: a,
    8: lambda a, b, field, given: a,
    9: lambda a, b, field, given: a >> field & 1,
    10: lambda a, b, field, given: int(a == b),
    12: lambda a, b, field, given: (a - b) % WIDTH.ring >> WIDTH.bits - 1,
}
GIVING = [code for code in ROWS if code in PLAIN]
# What each round adds to the counts of bits, equal and below. At 32 bits they have five rounds.
ROUND = {8: ((4, 4, 4, 0), (0, 2, 2, 2)), 10: ((2, 2, 2, 0), (0, 1, 1, 1)), 12: ((4, 4, 4, 0), (0, 2, 2, 2))}
INPUTS, TAPES = "inputs", ("provider", "tape1", "tape2", "tape3")
LISTS = ("received1", "received2", "received3", "controller")
TABLES = ("share1", "share2", "share3", "kinds")
HANDLES, KINDS, READ = "handles", "kinds", (INPUTS, *TAPES)
PLACES = (HANDLES, INPUTS, *TAPES, *LISTS)  # the place record


@functools.cache
def row(code, rounds):
    """The table's row at words of 2^rounds bits: without what the missing rounds would add."""
    *fixed, received, drawn = ROWS[code]
    added = ROUND.get(code, (NONE, NONE))
    return *fixed, *(tuple(n - (5 - rounds) * m for n, m in zip(*both)) for both in zip((received, drawn), added))


def combined(kind, shares):
    return shares[0] ^ shares[1] ^ shares[2] if kind == 2 else sum(shares) % WIDTH.ring


class Machine:
    """The lent lists, the place record and the registers."""

    protocols = Run  # blindness_counts.py puts in some that are wrong

    def __init__(self, lists, place):
        self.lists, self.place = {name: list(words) for name, words in lists.items()}, dict(place)
        entries = list(zip(*(self.lists[name] for name in TABLES)))
        self.registers = [combined(kind, shares) for *shares, kind in entries[: place[HANDLES]]]

    def filled(self, handle):
        return 1 <= handle <= self.place[HANDLES]

    def lent_badly(self):
        """Number 4: lengths, place record, kinds."""
        lengths = [len(self.lists[name]) for name in TABLES]
        ends = {HANDLES: min(lengths), **{name: len(words) for name, words in self.lists.items()}}
        kinds = self.lists[KINDS][: self.place[HANDLES]]
        return len(set(lengths)) > 1 or any(self.place[p] > ends[p] for p in PLACES) or any(k not in (1, 2) for k in kinds)

    def short(self, names, need):
        """Numbers 12 and 13. Beyond its end a list has no words left."""
        return any(max(0, len(self.lists[name]) - self.place[name]) < n for name, n in zip(names, need))

    def applying(self, code, a, b):
        """Every number that applies. A code that no command has has no row: 6 to 13 do not apply to it."""
        numbers = {4} if self.lent_badly() else set()
        if code not in ROWS:
            return numbers | {5}
        _, form_a, form_b, kind, received, drawn = row(code, WIDTH.rounds)
        fields = ((form_a, a), (form_b, b))
        handles = [(1 if form == VALUE else 2, word) for form, word in fields if form in (VALUE, BITS)]
        known = dict(enumerate(self.lists[KINDS][: self.place[HANDLES]], 1))
        tests = {
            6: any(form == UNUSED and word != 0 for form, word in fields),
            7: any(not self.filled(handle) for _, handle in handles),
            8: any(known.get(handle, due) != due for due, handle in handles),
            9: any(form == POSITION and word >= WIDTH.bits for form, word in fields),
            10: kind > 0 and any(len(self.lists[name]) <= self.place[HANDLES] for name in TABLES[:3]),
            11: code == 1 and len(self.lists[INPUTS]) <= self.place[INPUTS],
            12: self.short(TAPES, drawn),
            13: self.short(LISTS, received),
        }
        return numbers | {number for number, applies in tests.items() if applies}

    def operand(self, form, handle):
        """The shares and the word of a field that is a handle."""
        if form not in (VALUE, BITS):
            return {}, 0
        return {i: self.lists[name][handle - 1] for i, name in zip(MINERS, TABLES)}, self.registers[handle - 1]

    def accept(self, code, a, b):
        """Performs an accepted command, and answers the opened word."""
        name, form_a, form_b, kind, received, drawn = row(code, WIDTH.rounds)
        (u, word_a), (v, word_b) = self.operand(form_a, a), self.operand(form_b, b)
        given = self.lists[INPUTS][self.place[INPUTS]] if code == 1 else 0
        run = self.protocols([self.lists[tape] for tape in TAPES], [self.place[tape] for tape in TAPES])
        shares = list(COMMANDS[name][1](run, u, v, given if code == 1 else b).values())
        assert run.drawn == [self.place[tape] + n for tape, n in zip(TAPES, drawn)]
        assert [len(words) for words in run.received.values()] == list(received)
        self.place |= zip(TAPES, run.drawn)
        for name, words in zip(LISTS, run.received.values()):
            self.write(name, self.place[name], words)
            self.place[name] += len(words)
        if code == 11:
            assert sum(shares) % WIDTH.ring == word_a
            return word_a
        self.registers.append(PLAIN[code](word_a, word_b, b, given) % WIDTH.ring)
        assert combined(kind, shares) == self.registers[-1]
        for name, word in zip(TABLES, (*shares, kind)):
            self.write(name, self.place[HANDLES], [word])
        self.place[HANDLES] += 1
        self.place[INPUTS] += code == 1
        return 0

    def write(self, name, at, words):
        self.lists[name][at : at + len(words)] = words

    def command(self, code, a, b):
        """Every number that applies, and the opened word."""
        numbers = self.applying(code, a, b)
        return numbers, 0 if numbers else self.accept(code, a, b)


# ---- cases: how they are made, read and run


class Case:
    def __init__(self, name, lists, place, commands):
        self.name, self.lists, self.place, self.commands = name, lists, place, commands

    def given(self):
        """The case as the program reads it."""
        assert max(map(len, self.lists.values())) <= ROOM and sum(len(self.lists[name]) for name in READ) <= ROOM
        yield f"case {self.name}"
        for name in (*READ, *LISTS, *TABLES):
            yield " ".join([name, f"{len(self.lists[name])}:", *map(str, self.lists[name])])
        yield " ".join(["place", *(str(self.place[name]) for name in PLACES)])
        yield f"commands {len(self.commands)}"
        yield from (f"{code} {a} {b}" for code, a, b in self.commands)

    def run(self):
        """What the program has to write, the numbers that apply to each command, the opened words, and the machine."""
        machine, lines, numbers, opened = Machine(self.lists, self.place), [f"case {self.name}"], [], []
        for code, a, b in self.commands:
            found, word = machine.command(code, a, b)
            place = " ".join(str(machine.place[name]) for name in PLACES)
            lines.append(f"{code} {a} {b} answers {min(found, default=0)} place {place} opened {word}")
            numbers.append(found)
            opened.append(word)
        lines += [" ".join([name, *map(str, machine.lists[name])]) for name in (*TABLES, *LISTS)]
        return lines, numbers, opened, machine


CASES = []


def keep(case, *numbers):
    """Adds the case. To its commands exactly these numbers apply: 0 for none, several as a set."""
    found = case.run()[1]
    assert found == [n if isinstance(n, set) else {n} - {0} for n in numbers], (case.name, found)
    CASES.append(case)
    return case


def keep_lowest(case, *numbers):
    """Adds the case. Of the numbers that apply to its commands these are the lowest."""
    found = [min(n, default=0) for n in case.run()[1]]
    assert found == list(numbers), (case.name, found)
    CASES.append(case)


def own(name, count):
    """Words that show their list and entry: 101, 102 .. in share1, 201 .. in share2. Kinds are 9, which is no kind."""
    order = (*TABLES[:3], *READ, *LISTS)
    return [9 if name == KINDS else 100 * order.index(name) + 101 + n for n in range(count)]


def lend(name, commands, values=(), room=0, inputs=(), used=0, tapes=((),) * 4, drawn=NONE, received=NONE, space=NONE):
    """A case: filled entries (kind, shares) and `room` more; inputs after those used; tapes that go on with these words
    after the ones drawn; received lists with `space` words after those received. All other words are `own`."""
    lists = {INPUTS: own(INPUTS, used) + list(inputs)}
    lists |= {tape: own(tape, n) + list(words) for tape, words, n in zip(TAPES, tapes, drawn)}
    lists |= {name: own(name, n + more) for name, n, more in zip(LISTS, received, space)}
    columns = [[*shares, kind] for kind, shares in values]
    for n, table in enumerate(TABLES):
        lists[table] = [column[n] for column in columns] + own(table, len(values) + room)[len(values) :]
    return Case(name, lists, dict(zip(PLACES, (len(values), used, *drawn, *received))), commands)


def small(counts):
    """Tapes of so many small words."""
    return [[10 * (t + 1) + k for k in range(n)] for t, n in enumerate(counts)]


def shorter(case, *names):
    """The case without the last word of these lists."""
    for name in names:
        case.lists[name].pop()
    return case


# Handles 1 and 2 are 7 and 5, as worked cases 1 and 2 leave them, 3 is a bit word and 4 a ring value again.
VALUES = [(1, [1, 2, 4]), (1, [3, 4, 4294967294]), (2, [2863311530, 1431655765, 15]), (1, [11, 12, 13])]
USUAL = {1: (1, 0, 0), 4: (4, 1, 9), 5: (5, 1, 9), 7: (7, 1, 0), 8: (8, 1, 0), 9: (9, 3, 31), 11: (11, 1, 0)}
USUAL |= {code: (code, 1, 2) for code in ROWS if code not in USUAL}


def exact(name, code, words=None, times=1, middle=True):
    """A usual command with exactly enough left of every list, from the middle of the lists or from their beginnings."""
    _, _, _, kind, received, drawn = ROWS[code]
    tapes = [[next(words) for _ in range(n)] for n in drawn] if words else small(drawn)
    inputs = [next(words) if words else 6] if code == 1 else []
    starts = {"used": 1, "drawn": (2, 1, 3, 2), "received": (1, 2, 3, 1)} if middle else {}
    return lend(name, [USUAL[code]] * times, VALUES, int(kind > 0), inputs, tapes=tapes, space=received, **starts)


def plenty(name, commands, room=2):
    """A case with room for any one command and a few small ones, from the middle of the lists."""
    some = {"inputs": [6, 8], "used": 1, "tapes": small((4, 20, 14, 14)), "drawn": (1, 1, 1, 1)}
    return lend(name, commands, VALUES, room, **some, received=(1, 1, 1, 1), space=(26, 30, 30, 4))


# ---- the worked cases: 1 to 4 as a session, then 5 to 12. Specification: Worked computations


def worked():
    session = [(1, 0, 0), (1, 0, 0), (6, 1, 2), (11, 3, 0)]
    tapes = [[1, 2, 3, 4], [10, 20, 70], [30, 40, 80], [50, 60, 90]]
    case = lend("session of worked cases 1 to 4", session, room=4, inputs=[7, 5], tapes=tapes, space=(8, 8, 8, 4))
    _, _, opened, machine = keep(case, 0, 0, 0, 0).run()
    columns = list(zip(*(machine.lists[table] for table in TABLES)))[:3]
    assert columns == [(1, 2, 4, 1), (3, 4, 4294967294, 1), (4294967149, 4294966074, 1404, 1)] and opened == [0, 0, 0, 35]
    assert machine.lists["controller"][:3] == [4294967129, 4294966084, 1414]
    assert machine.lists["received1"][:7] == [1, 3, 50, 60, 24, 18, 90]
    assert [machine.place[name] for name in LISTS] == [7, 7, 7, 3]
    for name, shares, b, due in (
        ("worked case 5", [1, 0, 1], 1, [0, 5, 4294967291]),
        ("worked case 6", [0, 1, 0], 0, [0, 4294967292, 5]),
    ):
        tapes, bit = [[], [b, 5, 0, 70], [80], [90]], [(9, 1, 0), (11, 2, 0)]
        case = lend(f"{name} and its opening", bit, [(2, shares)], 1, tapes=tapes, space=(2, 5, 5, 4))
        machine = keep(case, 0, 0).run()[3]
        assert [machine.lists[table][1] for table in TABLES[:3]] == due
    long = [[], [4294967295, *range(2, 30)], [*range(40, 64)], [*range(70, 94)]]
    bits = [(8, 1, 0), (9, 2, 0), (11, 3, 0)]
    zero = [(1, [5, 6, 4294967285])]
    case = lend("worked case 7, v is 1 and r is 4294967295", bits, zero, 2, tapes=long, space=(24, 30, 30, 4))
    keep(case, 0, 0, 0)
    for name, code, u, v, due in (
        ("worked case 8, folding all ones", 10, [1, 2, 4], [3, 4, 0], 1),
        ("worked case 9, folding 4294967294", 10, [9, 2, 3], [8, 2, 3], 0),
        ("worked case 10, 65536 times 65536", 6, [65536, 0, 0], [0, 65536, 0], 0),
        ("worked case 11, 3 below 5", 12, [0, 1, 2], [2, 2, 1], 1),
        ("worked case 11, 5 below 5", 12, [0, 1, 4], [2, 2, 1], 0),
        ("worked case 12, 4294967295 below 0", 12, [4294967295, 1, 4294967295], [1, 1, 4294967294], 1),
    ):
        then = [(code, 1, 2), (11, 3, 0)]
        case = lend(f"{name} and its opening", then, [(1, u), (1, v)], 1, tapes=long, space=(24, 30, 30, 4))
        assert keep(case, 0, 0).run()[2] == [0, due]


# ---- each command with exactly enough of every list, and with one word too few of each


def edges():
    words = words_from(7)
    for code, (name, _, _, kind, received, drawn) in ROWS.items():
        used_up = {10: kind, 11: code == 1, 12: any(drawn), 13: any(received)}
        again = {number for number, applies in used_up.items() if applies}
        keep(exact(f"{name} with exactly enough, and again", code, words, 2), 0, again)
        keep(exact(f"{name} with exactly enough, from the beginnings", code, words, middle=False), 0)
        for tape in [tape for tape, n in zip(TAPES, drawn) if n]:
            keep(shorter(exact(f"number 12: {name}, {tape} one word too short", code), tape), 12)
        for list_ in [list_ for list_, n in zip(LISTS, received) if n]:
            keep(shorter(exact(f"number 13: {name}, {list_} one word too short", code), list_), 13)


# ---- number 4: kinds, lengths of tables, place record


def adding(name, room=1, space=(1, 1, 1, 3), then=()):
    """An addition, which needs no words of tapes and no room in received lists."""
    some = {"inputs": [6], "used": 1, "tapes": small((2, 1, 1, 1)), "drawn": (1, 1, 1, 1)}
    return lend(name, [(2, 1, 2), *then], VALUES[:3], room, **some, received=(1, 1, 1, 1), space=space)


def kinds():
    for name, entry, kind, numbers in (
        ("example 4: kind 3", 2, 3, 4),
        ("number 4: kind 0", 2, 0, 4),
        ("number 4: kind 4294967295", 2, LAST, 4),
        ("inside 4: kind 2", 2, 2, 0),
        ("inside 4: kind 1", 2, 1, 0),
        ("number 4: kind 3 of the first handle", 0, 3, {4, 8}),
        ("inside 4: kind 3 in an entry that is not filled", 3, 3, 0),
    ):
        case = adding(name)
        case.lists[KINDS][entry] = kind
        keep(case, numbers)


def lengths():
    for table in TABLES:
        keep(shorter(adding(f"number 4: {table} one entry shorter", 2), table), 4)
        keep_lowest(shorter(adding(f"number 4: {table} shorter than what is filled", 0), table), 4)
        case = adding(f"number 4: {table} one entry longer", 2)
        case.lists[table].append(1)
        keep(case, 4)
    keep(shorter(adding("inside 4: all four one entry shorter", 2), *TABLES), 0)


def places():
    then = [(11, 1, 0), (0, 0, 0)]
    for name in PLACES:
        end = len(adding("").lists[KINDS if name == HANDLES else name])
        # 2^32 + 1 is within the list if its upper half is lost, 2^64 - 1 if one is added to it
        for place, text in ((end + 1, "one beyond its list"), (RING + 1, "2^32 + 1"), (2**64 - 1, "2^64 - 1")):
            case = adding(f"number 4: {name} {text}", then=then)
            case.lists[KINDS][3], case.place[name] = 1, place
            keep_lowest(case, 4, 4, 4)
        case = adding(f"inside 4: {name} at its end", then=then)
        case.lists[KINDS][3], case.place[name] = 1, end
        due = {HANDLES: (10, 0), **dict.fromkeys(TAPES[1:], (0, 12)), **dict.fromkeys(LISTS, (0, 13))}
        keep(case, *due.get(name, (0, 0)), 5)
    ends = {"used": 2, "drawn": (3, 3, 3, 3), "received": (2, 2, 2, 2)}
    keep(lend("inside 4: every place at its end", [(11, 1, 0), (2, 1, 2)], VALUES, **ends), {12, 13}, 10)
    nothing = [(1, 0, 0), (2, 1, 1), (11, 1, 0), (0, 0, 0)]
    keep(lend("inside 4: all lists empty", nothing), {10, 11, 12, 13}, {7, 10}, {7, 12, 13}, 5)
    case = lend("number 4: all lists empty, all places 1", nothing)
    case.place = dict.fromkeys(PLACES, 1)
    keep_lowest(case, 4, 4, 4, 4)


# ---- numbers 5 to 9: runs that go on past the refusals


def codes():
    wrong = [(0, 0, 0), (13, 0, 0), (LAST, 0, 0), (0, 1, 2), (13, 1, 2), (258, 1, 2), (65538, 1, 2), (2**31 + 2, 1, 2)]
    keep(plenty("number 5: codes 0, 13, 4294967295 and more, then 2", [*wrong, (2, 1, 2)]), *[5] * 8, 0)
    keep(plenty("example 5: 0, 0, 0", [(0, 0, 0)]), 5)
    keep(plenty("inside 5: 1, 0, 0", [(1, 0, 0)]), 0)
    keep(plenty("inside 5: 12, 1, 2", [(12, 1, 2)]), 0)


def at_either(code, forms, words):
    """The usual command with one of these words in a, and in b, where the field has one of these forms."""
    _, a, b = USUAL[code]
    in_a = [(code, word, b) for word in words if ROWS[code][1] in forms]
    return in_a + [(code, a, word) for word in words if ROWS[code][2] in forms]


def fields():
    keep(plenty("example 6: 1, 0, 7", [(1, 0, 7)]), 6)
    keep(plenty("inside 6: 1, 0, 0", [(1, 0, 0)]), 0)
    keep(plenty("example 7: 2, 0, 1", [(2, 0, 1)]), 7)
    keep(plenty("inside 7: 2, 1, 1", [(2, 1, 1)]), 0)
    keep(plenty("example 8: 11 on a bit word", [(11, 3, 0)]), 8)
    keep(plenty("inside 8: 11 on a ring value", [(11, 4, 0)]), 0)
    for code, (name, form_a, form_b, *_) in ROWS.items():
        unused = at_either(code, (UNUSED,), (1, 7, 2**31, LAST))
        if unused:
            keep(plenty(f"number 6: {name}, then without", [*unused, USUAL[code]]), *[6] * len(unused), 0)
        missing = at_either(code, (VALUE, BITS), (0, 5, 6, 7, 2**31 + 1, LAST))
        last = (code, 4 if form_a == VALUE else USUAL[code][1], 4 if form_b == VALUE else USUAL[code][2])
        if missing:
            keep(plenty(f"number 7: {name} with 4 filled, then on the last", [*missing, last]), *[7] * len(missing), 0)
        wrong = at_either(code, (VALUE,), (3,)) + at_either(code, (BITS,), (1, 4))
        wrong += [(code, 3, 3)] if form_b == VALUE else []
        if wrong:
            keep(plenty(f"number 8: {name}, then of the right kind", [*wrong, USUAL[code]]), *[8] * len(wrong), 0)
    for word in (0, 1, 2**31, LAST):
        keep(plenty(f"inside 6: constant {word}", [(4, 1, word), (5, 2, word)]), 0, 0)
    keep(plenty("number 7: full tables, one past them, then the last", [(11, 5, 0), (11, 4, 0)], 0), 7, 0)


def positions():
    keep(plenty("example 9: position 32", [(9, 3, 32)]), 9)
    keep(plenty("inside 9: position 31", [(9, 3, 31)]), 0)
    wrong = [(9, 3, position) for position in (32, 33, 63, 64, 256, 2**31, LAST)]
    keep(plenty("number 9: positions 32 and beyond, then 0", [*wrong, (9, 3, 0)]), *[9] * 7, 0)
    keep(plenty("inside 9: six positions, as far as tape1 goes", [(9, 3, p) for p in range(0, 31, 5)], 7), *[0] * 6, 12)


# ---- numbers 10 to 13: the examples of the table, and one step inside


def stock():
    stores = [(1, 0, 0), (1, 0, 0)]
    for name, room, number in (("example 10: second store, tables", 1, 10), ("inside 10: second store, tables", 2, 0)):
        case = lend(f"{name} of {room}", stores, room=room, inputs=[7, 5, 6], tapes=small((6, 0, 0, 0)), space=(3, 3, 3, 0))
        keep(case, 0, number)
    full = [USUAL[code] for code in (*GIVING, 11)]
    keep(plenty("number 10: full tables, all that give a value, then open", full, 0), *[10] * 11, 0)
    keep(plenty("inside 10: one entry left, then none", [(2, 1, 2), (2, 1, 2), (11, 5, 0)], 1), 0, 10, 0)
    for name, used, inputs, number in (
        ("example 11: store, no inputs", 0, [], 11),
        ("inside 11: store, one input", 0, [6], 0),
        ("number 11: store, both inputs used", 2, [], 11),
        ("inside 11: store, two of three inputs used", 2, [6], 0),
    ):
        case = lend(name, stores[:1], room=2, inputs=inputs, used=used, tapes=small((3, 1, 1, 1)), space=(2, 2, 2, 2))
        keep(case, number)
    for name, left, number in (("example 12: reshare, tape2 empty", 0, 12), ("inside 12: reshare, tape2 of 1", 1, 0)):
        keep(lend(name, [(7, 1, 0)], VALUES[:1], 1, tapes=small((1, 2, left, 2)), space=(2, 2, 2, 2)), number)
    for name, room, number in (("example 13: open, controller", 2, 13), ("inside 13: open, controller", 3, 0)):
        case = lend(f"{name} list of {room}", [(11, 1, 0)], VALUES[:1], 1, tapes=small((1, 2, 2, 2)), space=(2, 2, 2, room))
        keep(case, number)


# ---- orders: for each command every two numbers that can apply to it at once, and all that can


def spoil(case, number):
    """Makes a number apply to the case's one command, if it can."""
    [(code, a, b)] = case.commands
    _, form_a, form_b, kind, received, drawn = ROWS[code]
    if number == 4:
        case.lists[KINDS].append(1)
    if number == 6 and form_b == UNUSED:
        b = 7
    if number == 7 and form_a in (VALUE, BITS):
        a = 0
    if number == 8 and form_b == VALUE:
        b = 3
    elif number == 8 and form_a in (VALUE, BITS) and a:
        a = 3 if form_a == VALUE else 1
    if number == 9 and form_b == POSITION:
        b = 32
    if number == 10 and kind:
        shorter(case, *TABLES)
    if number == 11 and code == 1:
        shorter(case, INPUTS)
    if number == 12 and any(drawn):
        shorter(case, [tape for tape, n in zip(TAPES, drawn) if n][-1])
    if number == 13 and any(received):
        shorter(case, [list_ for list_, n in zip(LISTS, received) if n][-1])
    case.commands = [(code, a, b)]


def orders():
    case = plenty("order: 4 and 5 apply", [(0, 0, 0), (13, 0, 7), (LAST, LAST, LAST)])
    case.lists[KINDS][1] = 3
    keep(case, *[{4, 5}] * 3)
    both = [(code, a, b) for code in (2, 3, 6, 10, 12) for a, b in ((0, 3), (3, 0), (5, 3), (3, 5), (LAST, 3), (3, LAST))]
    keep(plenty("order: 7 in one field and 8 in the other", both), *[{7, 8}] * len(both))
    for code, (name, *_) in ROWS.items():
        for low in range(4, 14):
            for high in range(low + 1, 14):
                case = exact(f"order: {name}, {low} and {high} apply", code)
                spoil(case, low)
                spoil(case, high)
                if case.run()[1] == [{low, high}]:
                    keep(case, {low, high})
        case = exact(f"order: {name}, all that can apply", code)
        for number in range(4, 14):
            spoil(case, number)
        keep_lowest(case, 4)


# ---- runs: refusals in between, the same handle twice, each command on what the one before left


def runs():
    between = [(2, 1, 2), (6, 1, 9), (0, 0, 0), (6, 1, 5), (1, 0, 7), (11, 3, 0), (11, 6, 0), (9, 1, 0), (9, 3, 32)]
    case = plenty("refused in between, and the next goes on", [*between, (9, 3, 5), (7, 7, 0)], 3)
    keep(case, 0, 7, 5, 0, 6, 8, 0, 8, 9, 0, 10)
    same = [(2, 1, 1), (3, 1, 1), (6, 1, 1), (10, 1, 1), (12, 1, 1), *((11, handle, 0) for handle in (3, 4, 5, 6, 7))]
    tapes, space = small((0, 35, 25, 25)), (42, 52, 52, 15)
    case = lend("both handles the same", same, VALUES[:2], 5, tapes=tapes, space=space)
    assert keep(case, *[0] * 10).run()[2] == [0, 0, 0, 0, 0, 14, 0, 49, 1, 0]
    every = [(1, 0, 0), (1, 0, 0), (6, 1, 2), (2, 3, 1), (3, 4, 2), (4, 5, 1000), (5, 6, LAST), (7, 7, 0), (8, 8, 0)]
    every += [(9, 9, 31), (10, 6, 8), (12, 8, 6), *((11, handle, 0) for handle in (3, 7, 10, 11, 12))]
    words, rows = words_from(3), [ROWS[code] for code, _, _ in every]
    tapes = [[next(words) for _ in range(sum(row[5][n] for row in rows))] for n in range(4)]
    space = [sum(row[4][n] for row in rows) for n in range(4)]
    case = lend("all twelve commands in one run", every, room=12, inputs=[2001, 77], tapes=tapes, space=space)
    total = 2001 * 77 + 2001 - 77 + 1000
    assert keep(case, *[0] * 17).run()[2][12:] == [2001 * 77, -total % RING, 1, 0, 1]


# ---- generated runs


CODES = (1, 1, 1, 2, 3, 4, 5, 6, 6, 6, 7, 7, 8, 9, 9, 9, 10, 11, 11, 11, 12)  # the long ones less often
CORNERS = (0, 1, 2, 2**31 - 1, 2**31, LAST - 1, LAST)


class Choice:
    """Choices by the words of the generator."""

    def __init__(self, seed):
        self.words = words_from(seed)

    def below(self, n):
        return next(self.words) % n

    def of(self, choices):
        return choices[self.below(len(choices))]

    def word(self):
        return self.of(CORNERS) if self.below(4) == 0 else next(self.words)

    def list(self, n):
        return [self.word() for _ in range(n)]

    def field(self, form, kinds):
        """A good field, if there is a handle of the kind."""
        right = [handle for handle, kind in enumerate(kinds, 1) if kind == (2 if form == BITS else 1)] or [1]
        return {UNUSED: lambda: 0, WORD: self.word, POSITION: lambda: self.below(32)}.get(form, lambda: self.of(right))()

    def near(self, n, short):
        """A length near n; at `short` 0 never below it."""
        return max(0, n + self.below(4) - short * self.below(3))


def damaged(choice, command, handles):
    """The command with another word in one field, mostly near an edge."""
    other = choice.of((0, handles + 1, 13, 32, LAST, choice.below(handles + 1), choice.word()))
    at = choice.of((0, 1, 1, 2, 2))
    return *command[:at], other, *command[at + 1 :]


def generated(seed):
    """A run of 6 to 12 commands on lists about as long as it needs."""
    choice = Choice(1000 + seed)
    values = [(1 + (choice.below(3) == 0), choice.list(3)) for _ in range(choice.below(4))]
    kinds, commands, rows = [kind for kind, _ in values], [], []
    for _ in range(6 + choice.below(7)):
        code = choice.of(CODES) if kinds else 1
        command = code, choice.field(ROWS[code][1], kinds), choice.field(ROWS[code][2], kinds)
        if choice.below(5) == 0:
            commands.append(damaged(choice, command, len(kinds)))
        else:
            commands.append(command)
            rows.append(ROWS[code])
            kinds += [ROWS[code][3]] if ROWS[code][3] else []
    short = choice.below(3)  # in one run of three nothing is too short
    tapes = [choice.list(choice.near(sum(row[5][n] for row in rows), short)) for n in range(4)]
    space = [choice.near(sum(row[4][n] for row in rows), short) for n in range(4)]
    inputs = choice.list(choice.near(sum(row[0] == "store" for row in rows), short))
    room = choice.near(len(kinds) - len(values), short)
    drawn, received = ([choice.below(3) for _ in range(4)] for _ in range(2))
    case = lend(f"generated {seed}", commands, values, room, inputs, choice.below(2), tapes, drawn, received, space)
    return faulty(choice, case) if choice.below(12) == 0 else case


def faulty(choice, case):
    """The case with something wrong that number 4 answers, and fewer commands, since all are refused."""
    case.commands = case.commands[:3]
    if choice.below(2):
        case.place[choice.of(PLACES)] += 60 + choice.below(60)
    else:
        case.lists[choice.of(TABLES)].append(2)
    return case


def generate():
    accepted, lowest = set(), set()
    for seed in range(1, 61):
        case = generated(seed)
        for numbers, (code, _, _) in zip(case.run()[1], case.commands):
            lowest.add(min(numbers, default=0))
            accepted |= set() if numbers else {code}
        CASES.append(case)
    assert lowest == {0, *range(4, 14)} and accepted == set(ROWS)


# ---- the two files


def made():
    """The texts of stdin and stdout."""
    for group in (worked, edges, kinds, lengths, places, codes, fields, positions, stock, orders, runs, generate):
        group()
    names = [case.name for case in CASES]
    assert len(set(names)) == len(names)
    given = f"cases {len(CASES)}\n" + "".join("\n" + "\n".join(case.given()) + "\n" for case in CASES)
    assert len(given) < LARGEST
    return given, "".join("\n".join(case.run()[0]) + "\n" for case in CASES)


def differing(path, text):
    """The first line in which a file is not the text, or None."""
    found, due = path.read_text().split("\n") if path.exists() else [], text.split("\n")
    for n in range(max(len(found), len(due))):
        if found[n : n + 1] != due[n : n + 1]:
            return f"{path.name}, line {n + 1}: stored {found[n : n + 1]}, due {due[n : n + 1]}"
    return None


def main():
    files = list(zip((CRATE / "stdin", CRATE / "stdout"), made()))
    if sys.argv[1:] not in ([], ["--write"]):
        sys.exit("usage: command_cases.py [--write]")
    for path, text in files:
        if sys.argv[1:]:
            path.write_text(text)
        elif wrong := differing(path, text):
            sys.exit(f"command_cases: {wrong}")
    print(f"command_cases: {len(CASES)} cases, {sum(len(case.commands) for case in CASES)} commands")


if __name__ == "__main__":
    main()
