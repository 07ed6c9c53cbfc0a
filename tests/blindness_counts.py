"""Counts how often each record of an observer comes up over contents of the tapes: blindness checked on small words.

The map that blindness needs (Specification: Blindness) exists exactly when each record comes up equally often on both
input lists. Contents of 32-bit words are too many to go through, so protocol_vectors.py and command_cases.py, which are
checked against the engine at 32 bits, run here on words of 2^n bits: bits and equal have no rounds at n = 0, one at
n = 1, two at n = 2. Prints a line for each check; the status is 1 if one fails.

A miner's own tape is fixed at a sampled content, and the other tapes go through all contents; for the controller all
four do. A command reads shares, inputs and words not drawn yet, so runs that agree so far in the record and in all
shares go on alike and are counted together. Where there are more than MANY contents, words are held at sampled values,
as few as needed:

- First words that nobody uses: the masks drawn after the last round, and all but the lowest bit of a word drawn as a
  random bit. The record either shows the word as it is or does not depend on it.
- Then words that the observer is sent as they were drawn. Its record shows them, so runs on other values give other
  records: the counts agree as a whole exactly when they agree for each value.
- Last, for the same reason, the shares that the provider sends to miner 3. They are not drawn: runs with others are
  left out.
"""

import inspect
import itertools
import math
import sys
from collections import Counter
from types import SimpleNamespace

sys.dont_write_bytecode = True
import protocol_vectors
from command_cases import HANDLES, LISTS, ROWS, TABLES, TAPES, Machine, lend, row
from protocol_vectors import CONTROLLER, MINERS, NEXT, PROVIDER, WIDTH, set_width, words_from

MANY, SAMPLES = 2**12, words_from(2010)
CODES = {name: [code] for code, (name, *_) in ROWS.items()} | {"": []}
OBSERVERS = {1: "miner 1", 2: "miner 2", 3: "miner 3", CONTROLLER: "controller"}
# Sessions: observers, n, commands, input lists. 'open 1' is 11, 1, 0 and accepted, 'open 9: 7' refused with number 7.
# Where the controller is an observer, the first two lists give the same opened words, and a third one gives others.
ALL, NOT_3 = tuple(OBSERVERS), (1, 2)
REFUSED = "store, 13 0 0: 5, store 0 7: 6, open 9: 7, times constant 1 0, open 2, open 2, store: 11, multiply 1 1: 12, "
SUMS = "store, times constant 1 0, equal 1 2, multiply 1 1, multiply 1 1, add 3 4, add 3 5, open 6, open 7"
RING = "store, store, add 1 2, subtract 3 2, add constant 4 1, times constant 3 2, multiply 5 6, reshare 7, open 8"
TWELVE = "store, store, multiply 1 2, add 3 1, subtract 4 2, add constant 5 1, times constant 6 1, reshare 7, bits 8, "
SESSIONS = {
    "refused": (ALL, 0, REFUSED + "open 1: 13, add 1 1, add 1 1: 10", [[0], [1]]),
    "sums": (ALL, 0, SUMS, [[0], [1]]),
    "bit": (ALL, 0, "store, bits 1, open 2: 8, bit 2 1: 9, bit 2 0, add 1 3, open 4", [[0], [1]]),
    "reshared": (ALL, 0, "store, store, add 1 2, reshare 3, open 4, open 3", [[0, 1], [1, 0], [1, 1]]),
    "equal opened": (ALL, 0, "store, store, equal 1 2, open 3", [[0, 0], [1, 1], [0, 1]]),
    "below opened": (ALL, 0, "store, store, below 1 2, open 3", [[0, 1], [1, 0]]),
    "products": (MINERS, 0, "store, store, multiply 1 2, multiply 3 1", [[0, 0], [0, 1]]),
    "chain": (MINERS, 0, "store, multiply 1 1, bits 2, bit 3 0, equal 4 1", [[0], [1]]),
    "below of equal": (MINERS, 0, "store, times constant 1 0, equal 1 2, below 3 1", [[0], [1]]),
    "twelve": (NOT_3, 0, TWELVE + "bit 9 0, equal 6 10, below 11 8, open 12", [[0, 1], [1, 1]]),
    "store": (MINERS, 1, "store", [[0], [1]]),
    "opened twice": (ALL, 1, "store, times constant 1 2, open 2, open 2", [[1], [3]]),
    "ring": (MINERS, 1, RING, [[0, 1], [2, 3]]),
    "bits": (MINERS, 1, "store, bits 1", [[0], [3]]),
    "equal": (MINERS, 1, "store, store, equal 1 2", [[1, 1], [1, 2]]),
    "below": (MINERS, 1, "store, times constant 1 2, below 1 2", [[0], [2]]),
    "square": (MINERS, 2, "store, multiply 1 1", [[3], [10]]),
    "two rounds": (NOT_3, 2, "store, times constant 1 2, equal 1 2", [[0], [6]]),
}
# One thing wrong, the shares still right: text of the class Run and what it becomes, a session, an observer whose
# counts differ.
BROKEN = {
    "store masks with one word": ("2: s2, 3: (value - s1 - s2)", "2: s1, 3: (value - s1 - s1)", "store", 3),
    "open sends the stored shares": ("shares[1], shares[2], shares[3]", "s[1], s[2], s[3]", "sums", CONTROLLER),
    "multiply sends u unmasked": ("u, v = fresh(u, r), fresh(v, s)", "v = fresh(v, s)", "products", 2),
    "bit sends u2 without b12": ("self.send(3, s23)", "self.send(3, u[2])", "bit", 3),
    "bits sends u2 without r2": ("self.send(3, v2)", "self.send(3, u[2])", "chain", 3),
    "bits sends p unmasked": ("self.masked((p, s), (q, t))", "self.masked((p, s), (each(lambda i: 0), t))", "bits", 3),
    "equal masks with own q only": ("*(p[i] for", "*(p[i] ^ masks[0][PREVIOUS[i]] for", "equal", 3),
    "equal uses masks again": ("[p], [q] = self.masked([p], [q])", "[p], _ = self.masked([p], [q])", "two rounds", 2),
}
# What parties apart cannot do (Specification: Parties apart): use a share of another party, send words before they can
# be computed, or let a share that the sender does not have decide who is sent a word, or when. The counts agree all the
# same, as on the right protocols. Of each: pairs of text, as in BROKEN; a session; the values that words which nobody
# uses go through, where one of them is sent instead of another. The crate `protocols` has a must-fail edit for each.
NOT_APART = {
    "reshare adds miner 3's new share to miner 2's": (
        [
            (
                "return fresh(s, *self.masks(1))",
                "s = fresh(s, *self.masks(1))\n        return each({1: s[1], 2: s[2] + s[3], 3: 0}.get)",
            )
        ],
        "reshared",
        (),
    ),
    "bits sends u2 + r2 and u3 + r3 before r2 and r3": (
        [
            ("self.send(2, r2, bar2)", "self.send(2, (u[3] + r3) % WIDTH.ring, r2, bar2)"),
            ("self.send(3, r3, bar3)", "self.send(3, (u[2] + r2) % WIDTH.ring, r3, bar3)"),
            ("self.send(3, v2)", "pass"),
            ("self.send(2, v3)", "pass"),
        ],
        "bits",
        (),
    ),
    "equal sends its last q back where miner 1's share is odd": (
        [
            (
                "[p], [q] = self.masked([p], [q])",
                "back, ([p], [q]) = k + 1 == WIDTH.rounds and p[1] % 2, self.masked([p], [q])\n"
                "            for i in MINERS if back else ():\n"
                "                self.received[i][-1] = q[NEXT[i]]",
            )
        ],
        "two rounds",
        (0, 1),
    ),
    "equal sends miner 2 its last words by miner 1's share": (
        [
            (
                "return self.bit(p, 0)",
                "shares, words = self.bit(p, 0), self.received[2]\n"
                "        words[-2:] = reversed(words[-2:]) if p[1] % 2 else words[-2:]\n"
                "        return shares",
            )
        ],
        "equal",
        (),
    ),
}


def parsed(text):
    """Each command with its number."""
    for command, _, number in (part.partition(": ") for part in text.split(", ")):
        name = command.rstrip("0123456789 ")
        fields = [int(word) for word in command[len(name) :].split()]
        yield *[*CODES[name], *fields, 0, 0][:3], int(number or 0)


def fates(code, tape):
    """Who is sent each word that the command draws from the tape, as it is: miner 1 to 3, nobody (0), or a miner who
    does not use it (-); a random bit is sent to nobody (b) or to miner 2 (c)."""
    if tape == PROVIDER:
        return "12" if code == 1 else ""
    to, masks = str(NEXT[tape]), {8: 2, 10: 1, 12: 2}.get(code, 0)
    words = to * {6: 2, 7: 1, 11: 1}.get(code, 0) + to * masks * WIDTH.rounds + "-" * masks
    if tape == 1:  # first r, r2, R2, in equal r2; last b, m12, b12
        words = {8: "022", 10: "2", 12: "022"}.get(code, "") + words + ("b2c" if code in (9, 10, 12) else "")
    return words


def planned(commands, observer, tapes, unused):
    """The words of the tapes but the observer's, with the values that they go through; by step, the shares held.
    Words that nobody uses go through the values `unused`, if there are any."""
    words, shares, drawn = [], {}, [0] * 4
    for step, (code, _, _, number) in enumerate(commands):
        for tape in {*range(4)} - {observer}:
            for fate in fates(code, tape) if number == 0 else "":
                words.append(SimpleNamespace(step=step, tape=tape, at=drawn[tape], fate=fate, values=range(WIDTH.ring)))
                drawn[tape] += 1
    many = lambda: math.prod(len(word.values) for word in words) > MANY * WIDTH.ring ** len(shares)
    for kinds in ("-", "bc", {1: "1", 2: "2c", 3: "3", CONTROLLER: ""}[observer]):
        for word in words:
            if word.fate in kinds and many():
                sampled = tapes[word.tape][word.at]
                word.values = {"-": unused, "bc": (sampled, sampled ^ 1)}.get(kinds) or (sampled,)
    for word in words:
        if observer == 3 and word.tape == PROVIDER and word.fate == "1" and many():
            shares[word.step] = next(SAMPLES) % WIDTH.ring
    return words, shares


def going_on(states, command, number, words, share):
    """Each state (machine, answers so far, number of runs) after the command, on all contents of its drawn words."""
    for machine, answers, times in states:
        for values in itertools.product(*(word.values for word in words)):
            after = type(machine)(machine.lists, machine.place) if words else machine  # a copy for each content
            for word, value in zip(words, values):
                after.lists[TAPES[word.tape]][word.at] = value
            numbers, opened = after.command(*command)
            assert min(numbers, default=0) == number, (command, numbers)
            if share in (None, after.lists[TABLES[2]][after.place[HANDLES] - 1]):
                yield after, (*answers, (number, tuple(after.place.values()), opened)), times


def record(observer, machine, answers):
    """An observer's record, the received words first. Specification: Records."""
    received = tuple(machine.lists[LISTS[observer - 1]][: machine.place[LISTS[observer - 1]]])
    answered = tuple(answer[:2] for answer in answers)
    if observer == CONTROLLER:
        return received, tuple(opened for *_, opened in answers), answered
    shares = tuple(machine.lists[TABLES[observer - 1]][: machine.place[HANDLES]])
    return received, shares, tuple(machine.lists[TAPES[observer]]), answered


def together(observer, states):
    """One state for all that agree in the record and in the shares."""
    merged = {}
    for machine, answers, times in states:
        key = record(observer, machine, answers), *(tuple(machine.lists[table]) for table in TABLES)
        merged.setdefault(key, [machine, answers, 0])[2] += times
    return merged.values()


def counted(name, observer, kind=Machine, unused=()):
    """For each input list of a session how often each record comes up, and the number of words held."""
    _, n, text, inputs = SESSIONS[name]
    set_width(n)
    commands, counts = list(parsed(text)), []
    rows = [row(code, n) for code, *_, number in commands if number == 0]
    drawn, space = ([sum(row[column][party] for row in rows) for party in range(4)] for column in (5, 4))
    # one word more on each tape, so that a command can be refused for its received words alone
    tapes = [[next(SAMPLES) % WIDTH.ring for _ in range(count + 1)] for count in drawn]
    words, shares = planned(commands, observer, tapes, unused)
    for given in inputs:
        case = lend(name, commands, room=sum(row[3] > 0 for row in rows), inputs=given, tapes=tapes, space=space)
        states, count = [(kind(case.lists, case.place), (), 1)], Counter()
        for step, (*command, number) in enumerate(commands):
            drawing = [word for word in words if word.step == step]
            states = together(observer, states) if drawing else states
            states = going_on(states, command, number, drawing, shares.get(step))
        for machine, answers, times in states:
            count[record(observer, machine, answers)] += times
        counts.append(count)
    return counts, len(shares) + sum(len(word.values) < WIDTH.ring for word in words)


def right():
    """Of each check: its name, the number of words held, two counts, and whether they have to be alike."""
    for name, (observers, n, text, inputs) in SESSIONS.items():
        for observer in observers:
            counts, held = counted(name, observer)
            for at in range(1, len(inputs)):
                what = f"n={n} {text}: {OBSERVERS[observer]} on {inputs[0]} and {inputs[at]}"
                yield what, held, counts[0], counts[at], observer in MINERS or at == 1


def changed(pairs):
    """The machine on protocols of which some text is replaced."""
    source, names = inspect.getsource(protocol_vectors.Run), dict(vars(protocol_vectors))
    for old, new in pairs:
        assert source.count(old) == 1
        source = source.replace(old, new)
    exec(source, names)
    return type("Changed", (Machine,), {"protocols": names["Run"]})


def not_apart():
    """The same for what parties apart cannot do, for each observer of the session."""
    for what, (pairs, name, unused) in NOT_APART.items():
        for observer in SESSIONS[name][0]:
            (one, other, *_), held = counted(name, observer, changed(pairs), unused)
            yield f"not apart, {what}: {OBSERVERS[observer]}", held, one, other, True


def broken():
    """The same for the protocols with one thing wrong."""
    for what, (old, new, name, observer) in BROKEN.items():
        (one, other, *_), held = counted(name, observer, changed([(old, new)]))
        yield f"broken, {what}: {OBSERVERS[observer]}", held, one, other, False
        if name == "products":  # where no word is held: the received words have to be in the record
            thinned = [sum((Counter({seen[1:]: n}) for seen, n in count.items()), Counter()) for count in (one, other)]
            yield f"broken, {what}: {OBSERVERS[observer]} without received words", held, *thinned, True


if __name__ == "__main__":
    for checks, (what, held, one, other, alike) in enumerate(itertools.chain(right(), broken(), not_apart()), 1):
        if (one == other) != alike:
            sys.exit(f"blindness_counts: {what}: the counts {'differ' if alike else 'agree'}")
        contents = f"{one.total()} contents" + f" (words held: {held})" * (held > 0)
        print(f"{what}: {contents}, {len(one)} records, {'alike' if alike else 'differ, as they must'}", flush=True)
    print(f"blindness_counts: {checks} checks")
