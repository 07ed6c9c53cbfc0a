#!/usr/bin/env python3
"""Calls the engine from Python: a worked session, command by command and as a file, then an example session.

    tools/build dinglefork
    python3 examples/pooled.py

include/dinglefork.h says what each call is lent, writes and answers. The tapes here are fixed: never use fixed
tapes for real figures.
"""
import struct
import sys
from ctypes import CDLL, POINTER, Structure, c_char, c_char_p, c_size_t, c_uint32
from pathlib import Path

ROOT = Path(__file__).resolve().parent.parent
SHARED = ROOT / "target/shared/libdinglefork.so"

# The header's names.
VERSION = 100
WORDS, TEXT, ENTRIES, RECEIVED, REFUSAL_TEXT = 7692, 8192, 128, 3584, 128
STORE, MULTIPLY, OPEN = 1, 6, 11


class Place(Structure):
    """How many handles and inputs are used, words drawn by provider and miners, received by miners and controller."""

    _fields_ = [
        ("handles", c_size_t),
        ("inputs", c_size_t),
        ("drawn", c_size_t * 4),
        ("received", c_size_t * 4),
    ]


class Answer(Structure):
    """0 or a refusal's number, the place record for the next command, what an open gives."""

    _fields_ = [("number", c_uint32), ("place", Place), ("opened", c_uint32)]


class List(Structure):
    """A lent list: a pointer, then the length."""

    _fields_ = [("words", POINTER(c_uint32)), ("length", c_size_t)]


class Tables(Structure):
    """The share tables of miners 1 to 3 and the kind list."""

    _fields_ = [("share1", List), ("share2", List), ("share3", List), ("kinds", List)]


class Tapes(Structure):
    """The tapes of the provider and miners 1 to 3."""

    _fields_ = [("provider", List), ("tape1", List), ("tape2", List), ("tape3", List)]


class Lists(Structure):
    """The received lists, miners 1 to 3 first and then the controller."""

    _fields_ = [("received1", List), ("received2", List), ("received3", List), ("controller", List)]


def load():
    """The library, of the version that these declarations are for."""
    if not SHARED.exists():
        sys.exit(f"{SHARED} is missing: run `tools/build dinglefork` first")
    library = CDLL(str(SHARED))
    library.dinglefork_version.restype = c_uint32
    if library.dinglefork_version() != VERSION:
        sys.exit("the library is not of this version")
    place, tables, tapes, lists = map(POINTER, (Place, Tables, Tapes, Lists))
    words = [POINTER(c_uint32), c_size_t]
    library.dinglefork_command.argtypes = [c_uint32] * 3 + [place, tables, *words, tapes, lists]
    library.dinglefork_command.restype = Answer
    library.dinglefork_pool.argtypes = [c_char_p, c_size_t, *words, tables, lists, POINTER(c_char)]
    library.dinglefork_pool.restype = c_size_t
    library.dinglefork_refusal.argtypes = [c_uint32, POINTER(c_char)]
    library.dinglefork_refusal.restype = c_size_t
    return library


def words_of(values):
    return (c_uint32 * len(values))(*values)


def zeros(length):
    return (c_uint32 * length)()


def lent(words):
    return List(words, len(words))


def room():
    """Tables and received lists that are enough for every session."""
    return Tables(*(lent(zeros(ENTRIES)) for _ in range(4))), Lists(*(lent(zeros(RECEIVED)) for _ in range(4)))


def run_commands(library, commands, inputs, tapes):
    """Prints what each command answers, and the words that miner 1 received."""
    # Filled once for all commands.
    tables, lists = room()
    tapes = Tapes(*(lent(words_of(tape)) for tape in tapes))
    inputs, place = words_of(inputs), Place()
    for command in commands:
        answer = library.dinglefork_command(*command, place, tables, inputs, len(inputs), tapes, lists)
        place = answer.place
        if answer.number != 0:
            print(*command, refusal(library, answer.number))
        elif command[0] == OPEN:
            print(*command, "opened", answer.opened)
        else:
            print(*command, "handle", place.handles)
    print("miner 1 received", *lists.received1.words[: place.received[0]])


def refusal(library, number):
    """What a refusal says."""
    out = (c_char * REFUSAL_TEXT)()
    library.dinglefork_refusal(number, out)
    return out.value.decode()


def pool(library, file):
    """The text of a session file, as the program `pool` prints it."""
    out = (c_char * TEXT)()
    length = library.dinglefork_pool(file, len(file), zeros(WORDS), WORDS, *room(), out)
    return out[:length].decode()


def sheet(commands, inputs, tapes):
    """The session file: each body's start and count, then the bodies, each word as four bytes, lowest first."""
    bodies = [[word for command in commands for word in command], inputs, *tapes]
    contents, start = [], 12
    for body in bodies:
        contents += [start, len(body)]
        start += len(body)
    words = contents + [word for body in bodies for word in body]
    return struct.pack(f"<{len(words)}I", *words)


def main():
    library = load()
    print("dinglefork {}.{}.{}".format(VERSION // 10000, VERSION // 100 % 100, VERSION % 100))
    # 7 and 5 are stored and multiplied, and the product is opened.
    commands = [(STORE, 0, 0), (STORE, 0, 0), (MULTIPLY, 1, 2), (OPEN, 3, 0)]
    # No handle 9 is filled, so that this one is refused and changes nothing.
    wrong = (MULTIPLY, 1, 9)
    inputs = [7, 5]
    tapes = [[1, 2, 3, 4], [10, 20, 70], [30, 40, 80], [50, 60, 90]]
    print("worked session, command by command:")
    run_commands(library, [*commands, wrong], inputs, tapes)
    print("worked session, as a file:")
    print(pool(library, sheet(commands, inputs, tapes)), end="")
    print("stumbles_times_hours:")
    print(pool(library, (ROOT / "examples/stumbles_times_hours.session").read_bytes()), end="")


if __name__ == "__main__":
    main()
