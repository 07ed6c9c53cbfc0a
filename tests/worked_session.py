"""The worked session, one that stops, the empty one and a file of no word, for the prover to check by computation.

The numbers are those of command_cases.py, which shares no code with the engine. To write the file of crates/session
anew:

    python3 tests/worked_session.py > crates/session/specs/Worked.antt

The program `pool` is run on the same worked session and has to print the same text.
"""

import string
import struct
import sys

sys.dont_write_bytecode = True
from command_cases import CRATE, HANDLES, INPUTS, LISTS, PLACES, TABLES, TAPES, Machine
from worked_runs import chain

# Commands, inputs and tapes: of the worked session, and of one whose second command names handle 0.
WORKED = [(1, 0, 0), (1, 0, 0), (6, 1, 2), (11, 3, 0)], [7, 5], [[1, 2, 3, 4], [10, 20, 70], [30, 40, 80], [50, 60, 90]]
STOPPED = [(1, 0, 0), (2, 0, 1)], [7], [[1, 2], [], [], []]
ENTRIES, ROOM = 128, 3584  # the lists that the program lends
POOL = CRATE.parent / "pool"
FILE = string.Template("""\
-- The worked session, one that stops, the empty one and a file of no word: what they answer, print and leave;
-- Specification: Worked sessions. tests/worked_session.py prints this file: its numbers come from a second writing of
-- the machine, which shares no code with the engine.
use Rattle.std.specs.Prelude.{◌≡◌, ℕ, ◌/◌, ◌%◌, ◌≤◌, List, [], ◌∷◌, ◌++◌, length, drop, replicate, codes}
use Rattle.protocols.specs.Place.{lists, place_of}
use Rattle.machine.specs.Lent.{tables}
use Rattle.machine.specs.Run.{empty_place}
use Rattle.session.specs.Session.{State, state, session_answer, session_outcome, session}
use Rattle.session.specs.Text.{pool_outcome, pool}

-- ---- the files

-- words as bytes, the lowest byte of each first; Specification: Sheet file
abbrev pub bytes : List ℕ → List ℕ
bytes [] = []
bytes (w ∷ l) = w % 256 ∷ w / 256 % 256 ∷ w / 65536 % 256 ∷ w / 16777216 ∷ bytes l

-- start and count of each body; four commands; two inputs; the tapes of the provider and miners 1, 2, 3
abbrev pub worked_file : List ℕ
worked_file =
$worked

-- a store, and an add that names handle 0
abbrev pub stopped_file : List ℕ
stopped_file =
$stopped

-- six bodies without a word
abbrev pub empty_file : List ℕ
empty_file =
$nothing

-- ---- what the program lends, and what the first two sessions leave in it; Specification: Program

abbrev pub zeros : ℕ → List ℕ
zeros n = replicate n 0

-- share tables and kind list; received lists
abbrev pub state_before : State
state_before =
    state (tables (zeros $entries) (zeros $entries) (zeros $entries)) (zeros $entries)
    (lists (zeros $room) (zeros $room) (zeros $room) (zeros $room))

-- two values and their product
abbrev pub state_after : State
state_after =
    state
$worked_left

-- the value that was stored
abbrev pub state_after_stop : State
state_after_stop =
    state
$stopped_left

-- promised by `worked_session`: whatever words are lent, if there are $fewest or more, the bytes of these three files
-- give exactly these answers and texts, and leave exactly these shares, kinds and received words, every list whole, and
-- the file's words at the front of the lent ones; the lent words behind them stay. A file of no word is refused.
-- Specification: Worked sessions; Sessions.
pub record WorkedSession : Type 0 where
  -- four commands are done
  pub worked_outcome : (w : List ℕ) → $fewest ≤ length w
      → session (bytes worked_file) w state_before
      ≡ session_outcome (session_answer $worked_answer)
      (worked_file ++ drop $worked_length w) state_after
  pub worked_text : (w : List ℕ) → $fewest ≤ length w
      → pool (bytes worked_file) w state_before
      ≡ pool_outcome (codes "$worked_text") (worked_file ++ drop $worked_length w) state_after
  -- one command is done, and what it wrote remains; the next one is refused
  pub stopped_outcome : (w : List ℕ) → $fewest ≤ length w
      → session (bytes stopped_file) w state_before
      ≡ session_outcome (session_answer $stopped_answer)
      (stopped_file ++ drop $stopped_length w) state_after_stop
  pub stopped_text : (w : List ℕ) → $fewest ≤ length w
      → pool (bytes stopped_file) w state_before
      ≡ pool_outcome (codes "$stopped_text") (stopped_file ++ drop $stopped_length w) state_after_stop
  -- no command is done, and only the lent words change
  pub empty_outcome : (w : List ℕ) → $fewest ≤ length w
      → session (bytes empty_file) w state_before
      ≡ session_outcome (session_answer 0 empty_place 0) (empty_file ++ drop 12 w) state_before
  pub empty_text : (w : List ℕ) → $fewest ≤ length w
      → pool (bytes empty_file) w state_before
      ≡ pool_outcome (codes "end 0 0 0 0 0\\n") (empty_file ++ drop 12 w) state_before
  -- no command is done, and nothing changes
  pub no_word_outcome : (w : List ℕ)
      → session [] w state_before ≡ session_outcome (session_answer 0 empty_place 1) w state_before
  pub no_word_text : (w : List ℕ)
      → pool [] w state_before ≡ pool_outcome (codes "refused 1\\n") w state_before
""")


def sheet(bodies):
    """The words of a file: the contents, and each body."""
    starts = [12 + sum(map(len, bodies[:n])) for n in range(6)]
    contents = [word for start, body in zip(starts, bodies) for word in (start, len(body))]
    return [contents, *bodies]


def listed(parts):
    return "    " + " ∷\n    ".join(" ∷ ".join(map(str, part)) for part in parts if part) + " ∷ []"


def with_zeros(words, length):
    assert not any(words[length:])
    return "    (" + " ∷ ".join([*map(str, words[:length]), f"zeros {len(words) - length}"]) + ")"


def run(commands, inputs, tapes):
    """The file's bodies, the answer in the prover's form, the text, and what is left."""
    lists = {**dict.fromkeys(TABLES, [0] * ENTRIES), **dict.fromkeys(LISTS, [0] * ROOM), INPUTS: inputs}
    machine = Machine(lists | dict(zip(TAPES, tapes)), dict.fromkeys(PLACES, 0))
    done, number, text = 0, 0, ""
    for code, a, b in commands:
        numbers, word = machine.command(code, a, b)
        number = min(numbers, default=0)
        if number:
            break
        done += 1
        text += f"open {a} {word}\n" if code == 11 else ""
    place = machine.place
    last = ["refused", number, "at", done] if number else ["end", done, *(place[name] for name in LISTS)]
    bodies = sheet([[word for command in commands for word in command], inputs, *tapes])
    answer = f"{done} (place_of ({chain(place[name] for name in PLACES)})) {number}"
    return bodies, answer, text + " ".join(map(str, last)) + "\n", left_by(machine)


def left_by(machine):
    """Tables, kinds and received lists, in the prover's form."""
    place, left = machine.place, machine.lists
    tables = [with_zeros(left[name], place[HANDLES]) for name in TABLES]
    received = [with_zeros(left[name], place[name]) for name in LISTS]
    shares = ["    (tables", *tables[:2], tables[2] + ")"]
    words = ["    (lists", *received[:3], received[3] + ")"]
    return "\n".join([*shares, tables[3], *words])


def main():
    parts = {}
    for name, case in ("worked", WORKED), ("stopped", STOPPED):
        bodies, answer, text, left = run(*case)
        words = sum(bodies, [])
        if name == "worked":
            assert (POOL / "stdin").read_bytes() == struct.pack(f"<{len(words)}I", *words)
            assert (POOL / "stdout").read_text() == text
        parts |= {name: listed(bodies), f"{name}_answer": answer, f"{name}_text": text.replace("\n", "\\n")}
        parts |= {f"{name}_length": len(words), f"{name}_left": left}
    fewest = 12 + 384 + 128 + 256 + 3 * 2304
    print(FILE.substitute(parts, nothing=listed(sheet([[]] * 6)), entries=ENTRIES, room=ROOM, fewest=fewest), end="")


if __name__ == "__main__":
    main()
