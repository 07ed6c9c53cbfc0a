"""The three-miner protocols, written a second time, and the vectors that they give for the crate `protocols`.

It works bit by bit, after report T-4-10 (algorithms 1, 3, 4 and 5) and docs/SPECIFICATION.md
(Specification: Order of words; Store; Reshare; Open; Below), and shares no code with the crate. The program
`crates/vectors` runs the same cases on the proved library and has to write the same text. To write it anew:

    python3 tests/protocol_vectors.py > crates/vectors/stdout

A protocol moves only the drawn counts of the place record: the commands move the others. If a tape has too few words
left, the number is 12, else, if a received list has too little room, 13: then the shares are 0, 0, 0, the place record
stays, and no word is sent. Otherwise the number is 0, and each party's words go to the front of its list.
"""

from types import SimpleNamespace

RING = 2**32
WIDTH = SimpleNamespace()  # of the words in the protocols: rounds of bits and equal, bits of a word, ring 2^bits
MINERS, NEXT, PREVIOUS = (1, 2, 3), {1: 2, 2: 3, 3: 1}, {1: 3, 2: 1, 3: 2}
PROVIDER, CONTROLLER = 0, 4  # the provider has a tape, the controller a received list, each miner both
TAPES, LISTS = ("provider", "miner 1", "miner 2", "miner 3", "no tape"), ("miner 1", "miner 2", "miner 3", "controller")


def set_width(rounds):
    """Words of 2^rounds bits: 2^5 in the engine, fewer in blindness_counts.py, which goes through all words."""
    WIDTH.rounds, WIDTH.bits, WIDTH.ring = rounds, 2**rounds, 2 ** 2**rounds


set_width(5)


def each(share):
    """The shares that a rule gives to miners 1 to 3."""
    return {i: share(i) % WIDTH.ring for i in MINERS}


def fresh(s, r):
    """Own mask on, the previous miner's off. Specification: Reshare."""
    return each(lambda i: s[i] + r[i] - r[PREVIOUS[i]])


def bit_of(word, j):
    return word // 2**j % 2


def and_(a, j, b, k):
    """Shares of the 'and' of bit j of a and bit k of b.
    Specification: Shared and; report T-4-10, algorithm 4, line 22."""
    x, y = {i: bit_of(a[i], j) for i in MINERS}, {i: bit_of(b[i], k) for i in MINERS}
    return {i: (x[i] & y[i]) ^ (x[i] & y[PREVIOUS[i]]) ^ (x[PREVIOUS[i]] & y[i]) for i in MINERS}


def put(a, j, new):
    for i in MINERS:
        a[i] += (new[i] - bit_of(a[i], j)) * 2**j


class Run:
    """The tapes, each with its position, the lists to which the words sent are appended, and the protocols."""

    def __init__(self, tapes, drawn):
        self.tapes, self.drawn, self.received = tapes, list(drawn), {1: [], 2: [], 3: [], CONTROLLER: []}

    def draw(self, party):
        if self.drawn[party] >= len(self.tapes[party]):
            raise EOFError("the tape is spent")
        self.drawn[party] += 1
        return self.tapes[party][self.drawn[party] - 1]

    def send(self, party, *words):
        self.received[party].extend(words)

    def masks(self, count):
        """Each miner draws `count` words and sends them on; answers the three first, then the three second words."""
        drawn = {i: [self.draw(i) for _ in range(count)] for i in MINERS}
        for i in MINERS:
            self.send(NEXT[i], *drawn[i])
        return [{i: drawn[i][n] for i in MINERS} for n in range(count)]

    def store(self, value):
        s1, s2 = self.draw(PROVIDER), self.draw(PROVIDER)
        shares = {1: s1, 2: s2, 3: (value - s1 - s2) % WIDTH.ring}
        for i in MINERS:
            self.send(i, shares[i])
        return shares

    def reshare(self, s):
        return fresh(s, *self.masks(1))

    def open(self, s):
        shares = fresh(s, *self.masks(1))
        self.send(CONTROLLER, shares[1], shares[2], shares[3])
        return shares

    def multiply(self, u, v):
        """Report T-4-10, algorithm 1. Specification: Multiply."""
        r, s = self.masks(2)
        u, v = fresh(u, r), fresh(v, s)
        for i in MINERS:
            self.send(NEXT[i], u[i], v[i])
        return each(lambda i: u[i] * v[i] + u[i] * v[PREVIOUS[i]] + u[PREVIOUS[i]] * v[i])

    def bit(self, shares, j):
        """Report T-4-10, algorithm 3, for bit j. Specification: Bit."""
        u = each(lambda i: bit_of(shares[i], j))
        b, m12, b12 = self.draw(1) % 2, self.draw(1), self.draw(1) % 2
        m13, b13 = ((b ^ u[1]) - m12) % WIDTH.ring, b ^ b12
        self.send(2, m12, b12)
        self.send(3, m13, b13)
        s23, s32 = b12 ^ u[2], b13 ^ u[3]
        self.send(3, s23)
        self.send(2, s32)
        return {1: 0, 2: (1 - m12) % WIDTH.ring, 3: -m13 % WIDTH.ring} if s23 ^ s32 == 1 else {1: 0, 2: m12, 3: m13}

    def masked(self, shared, masks):
        """Masks each shared word and sends it, then draws and sends new masks.
        Report T-4-10, algorithm 4, lines 14 to 17."""
        shared = [each(lambda i: p[i] ^ q[i] ^ q[PREVIOUS[i]]) for p, q in zip(shared, masks)]
        for i in MINERS:
            self.send(NEXT[i], *(p[i] for p in shared))
        return shared, self.masks(len(masks))

    def bits(self, u):
        """Report T-4-10, algorithm 4, lines 1 to 27. Specification: Bits."""
        r, r2, bar2 = self.draw(1), self.draw(1), self.draw(1)
        r3, bar3 = (u[1] - r - r2) % WIDTH.ring, r ^ bar2
        self.send(2, r2, bar2)
        self.send(3, r3, bar3)
        q, t = self.masks(2)
        v2, v3 = (u[2] + r2) % WIDTH.ring, (u[3] + r3) % WIDTH.ring
        self.send(3, v2)
        self.send(2, v3)
        v = (v2 + v3) % WIDTH.ring
        p, s = {1: 0, 2: v ^ bar2, 3: bar3}, {1: 0, 2: v & bar2, 3: v & bar3}
        for k in range(WIDTH.rounds):
            (p, s), (q, t) = self.masked((p, s), (q, t))
            for l in range(2**k):
                for m in range(WIDTH.bits // 2 ** (k + 1)):
                    j, low = 2**k + l + 2 ** (k + 1) * m, 2**k + 2 ** (k + 1) * m - 1
                    carry = and_(p, j, s, low)
                    put(s, j, each(lambda i: bit_of(s[i], j) ^ carry[i]))
                    put(p, j, and_(p, j, p, low))
        w = {1: 0, 2: v ^ bar2, 3: bar3}
        for j in range(1, WIDTH.bits):
            put(w, j, each(lambda i: bit_of(w[i], j) ^ bit_of(s[i], j - 1)))
        return w

    def equal(self, u, v):
        """Report T-4-10, algorithm 5. Specification: Equal."""
        r2 = self.draw(1)
        r3 = (u[1] - v[1] - r2) % WIDTH.ring
        self.send(2, r2)
        self.send(3, r3)
        [q] = self.masks(1)
        p = {1: WIDTH.ring - 1, 2: (u[2] - v[2] + r2) % WIDTH.ring, 3: -(u[3] - v[3] + r3) % WIDTH.ring}
        for k in range(WIDTH.rounds):
            [p], [q] = self.masked([p], [q])
            for m in range(WIDTH.bits // 2 ** (k + 1)):
                put(p, 2 ** (k + 1) * m, and_(p, 2 ** (k + 1) * m, p, 2 ** (k + 1) * m + 2**k))
        return self.bit(p, 0)

    def below(self, u, v):
        return self.bit(self.bits(each(lambda i: u[i] - v[i])), WIDTH.bits - 1)


# Operands (u and v are shares, w is an input, a constant or a position), protocol, received words of miners 1 to 3 and
# the controller, drawn words of the provider and miners 1 to 3, both at 32 bits. Specification: Table of commands.
COMMANDS = {
    "store": ("w", lambda run, u, v, w: run.store(w), [1, 1, 1, 0], [2, 0, 0, 0]),
    "add": ("uv", lambda run, u, v, w: each(lambda i: u[i] + v[i]), [0, 0, 0, 0], [0, 0, 0, 0]),
    "subtract": ("uv", lambda run, u, v, w: each(lambda i: u[i] - v[i]), [0, 0, 0, 0], [0, 0, 0, 0]),
    "add constant": ("uw", lambda run, u, v, w: {**u, 1: (u[1] + w) % WIDTH.ring}, [0, 0, 0, 0], [0, 0, 0, 0]),
    "times constant": ("uw", lambda run, u, v, w: each(lambda i: u[i] * w), [0, 0, 0, 0], [0, 0, 0, 0]),
    "multiply": ("uv", lambda run, u, v, w: run.multiply(u, v), [4, 4, 4, 0], [0, 2, 2, 2]),
    "reshare": ("u", lambda run, u, v, w: run.reshare(u), [1, 1, 1, 0], [0, 1, 1, 1]),
    "bits": ("u", lambda run, u, v, w: run.bits(u), [22, 25, 25, 0], [0, 15, 12, 12]),
    "bit": ("uw", lambda run, u, v, w: run.bit(u, w), [0, 3, 3, 0], [0, 3, 0, 0]),
    "equal": ("uv", lambda run, u, v, w: run.equal(u, v), [11, 15, 15, 0], [0, 10, 6, 6]),
    "open": ("u", lambda run, u, v, w: run.open(u), [1, 1, 1, 3], [0, 1, 1, 1]),
    "below": ("uv", lambda run, u, v, w: run.below(u, v), [22, 28, 28, 0], [0, 18, 12, 12]),
}
SMALL = [[], [*range(1, 19)], [*range(20, 32)], [*range(40, 52)]]
# The worked cases, and Bit at the ends of a word and past it: protocol, operands, tapes, and the shares or value due.
# Specification: Worked computations.
WORKED = {
    "worked case 1": ("store", [], [], 7, [[1, 2], [], [], []], [1, 2, 4]),
    "worked case 2": ("store", [], [], 5, [[3, 4], [], [], []], [3, 4, 4294967294]),
    "worked case 3": (
        "multiply",
        [1, 2, 4],
        [3, 4, 4294967294],
        0,
        [[], [10, 20], [30, 40], [50, 60]],
        [4294967149, 4294966074, 1404],
    ),
    "worked case 4": (
        "open",
        [4294967149, 4294966074, 1404],
        [],
        0,
        [[], [70], [80], [90]],
        [4294967129, 4294966084, 1414],
    ),
    "worked case 5": ("bit", [1, 0, 1], [], 0, [[], [1, 5, 0], [], []], [0, 5, 4294967291]),
    "worked case 6": ("bit", [0, 1, 0], [], 0, [[], [0, 5, 0], [], []], [0, 4294967292, 5]),
    "first": ("bit", [4294967295, 4294967295, 4294967295], [], 0, SMALL, 1),
    "last": ("bit", [4294967295, 4294967295, 4294967295], [], 31, SMALL, 1),
    "past": ("bit", [4294967295, 4294967295, 4294967295], [], 32, SMALL, 0),
    "worked case 7": ("bits", [5, 6, 4294967285], [], 0, [[], [4294967295, *range(2, 19)], *SMALL[2:]], 0),
    "worked case 8": ("equal", [1, 2, 4], [3, 4, 0], 0, SMALL, 1),
    "worked case 9": ("equal", [9, 2, 3], [8, 2, 3], 0, SMALL, 0),
    "worked case 10": ("multiply", [65536, 0, 0], [0, 65536, 0], 0, SMALL, 0),
    "worked case 11": ("below", [0, 1, 2], [2, 2, 1], 0, SMALL, 1),
    "worked case 11 too": ("below", [0, 1, 4], [2, 2, 1], 0, SMALL, 0),
    "worked case 12": ("below", [4294967295, 1, 4294967295], [1, 1, 4294967294], 0, SMALL, 1),
}


def words_from(x):
    """The words of the cases: a congruential generator. Its low bits repeat too soon: the high ones are folded in."""
    while True:
        x = (1664525 * x + 1013904223) % RING
        yield x ^ x // 2**16


def generated(name, words):
    """The next case of a protocol: operands, place record, tapes, and how much of each is lent where tapes are cut."""
    u, v, [w] = ([next(words) for _ in range(n)] for n in (3, 3, 1))
    place = [next(words) % size for size in (100, 100, 4, 4, 4, 4, 1000, 1000, 1000, 1000)]
    lent = [place[2 + x] + n + next(words) % 8 - (n > 0) for x, n in enumerate(COMMANDS[name][3])]
    if name == "equal":  # two random values never are: so v is u, or a power of two away
        v[2] = (sum(u) - v[0] - v[1] + w % 2 * 2 ** (w // 2 % 32)) % RING
    return (u, v, w % 32 if name == "bit" else w, place), [[next(words) for _ in range(32)] for _ in range(4)], lent


def perform(name, u, v, w, place, tapes):
    """The number, the new shares, the ten numbers of the place record, the four lists of received words."""
    run = Run(tapes, place[2:6])
    try:
        shares = COMMANDS[name][1](run, dict(zip(MINERS, u)), dict(zip(MINERS, v)), w)
    except EOFError:
        return 12, [0, 0, 0], place, [[], [], [], []]
    assert COMMANDS[name][2] == [len(words) for words in run.received.values()]
    return 0, list(shares.values()), place[:2] + run.drawn + place[6:], list(run.received.values())


def show(label, name, u, v, w, *rest):
    operands = {"u": ("u", *u), "v": ("v", *v), "w": ("w", w)}
    print(label, name, *(item for x in COMMANDS[name][0] for item in operands[x]), *rest)


def worked():
    """The worked cases, and what miner 1 receives in the session of cases 1 to 4."""
    kept = {}
    for label, (name, u, v, w, tapes, given) in WORKED.items():
        number, shares, _, kept[label] = perform(name, u, v, w, [0] * 10, tapes)
        value = shares[0] ^ shares[1] ^ shares[2] if name == "bits" else sum(shares) % RING
        assert given in (shares, value)
        show(label, name, u, v, w, "number", number, "shares", *shares, "value", value)
    assert [word for n in (1, 2, 3, 4) for word in kept[f"worked case {n}"][0]] == [1, 3, 50, 60, 24, 18, 90]


def exact(tapes, need, short=None):
    """Tapes that end just after the words needed, behind those that the place record 1 to 10 counts; the short one ends
    a word earlier."""
    return [tape[: 3 + x + n - (x == short)] for x, (tape, n) in enumerate(zip(tapes, need))]


def deliver(place, lists, number, shares, moved, received):
    """Number 13, if a list has too little room; number 12 is lower, and then no words are due.
    Specification: Table of refusals."""
    if any(len(words) > len(lent) for words, lent in zip(received, lists)):
        return 13, [0, 0, 0], place, lists
    return number, shares, moved, [words + lent[len(words) :] for words, lent in zip(received, lists)]


def deliveries(name, operands, tapes, need):
    """Ends of the lists 100 to 131 with exactly enough room, with more, and with a word less in one list; then in a
    tape too."""
    counts, place, whole = COMMANDS[name][2], list(range(1, 11)), list(range(100, 132))
    first = next(x for x, n in enumerate(need) if n)
    lines = [("exact", 0, None, None), ("more", 2, None, None)]
    lines += [(f"short {LISTS[x]}", 0, x, None) for x, n in enumerate(counts) if n]
    for label, more, short, tape in [*lines, ("short tape and miner 2", 0, 1, first)]:
        room = [n + more - (x == short) for x, n in enumerate(counts)]
        performed = perform(name, *operands, place, exact(tapes, need, tape))
        number, shares, moved, tails = deliver(place, [whole[32 - n :] for n in room], *performed)
        print("deliver", label, name, "room", *room, "number", number, "shares", *shares, "place", *moved)
        for party, tail in zip(LISTS, tails):
            print(" ", party, "list", *whole[: 32 - len(tail)], *tail)


def cases(name, need, words):
    """A protocol's cases: three in full, tapes and lists that are too short, and two hundred as a checksum."""
    for n in (1, 2, 3):
        operands, tapes, _ = generated(name, words)
        number, shares, place, received = perform(name, *operands, tapes)
        show(f"case {n}", name, *operands[:3], "number", number, "shares", *shares)
        if any(need):
            print("  place", *place)
            for party, list_ in zip(LISTS, received):
                print(" ", party, "receives", *list_)
    if any(need):
        operands, tapes, _ = generated(name, words)
    for short in [x for x, n in enumerate([*need, sum(need)]) if n]:
        number, shares, place, received = perform(name, *operands[:3], list(range(1, 11)), exact(tapes, need, short))
        print("short", TAPES[short], name, "number", number, "place", *place, "words", *map(len, received))
    if any(need):
        deliveries(name, operands[:3], tapes, need)
    h = 0
    for _ in range(200):
        operands, tapes, lent = generated(name, words)
        number, shares, place, received = perform(name, *operands, [tape[:n] for tape, n in zip(tapes, lent)])
        for word in (number, *shares, *place, *(word for list_ in received for word in (len(list_), *list_))):
            h = (31 * h + word) % RING
    print("checksum", name, h)


if __name__ == "__main__":
    worked()
    generator = words_from(1)
    for protocol, (*_, drawn) in COMMANDS.items():
        cases(protocol, drawn, generator)
