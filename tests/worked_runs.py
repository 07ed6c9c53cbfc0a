"""One worked run of each command, for the prover to check by computation.

The numbers are those of command_cases.py, which shares no code with the engine. All words that are lent, but for the
kinds, are different. To write the file of crates/machine anew:

    python3 tests/worked_runs.py > crates/machine/specs/WorkedRuns.antt
"""

import sys

sys.dont_write_bytecode = True
from command_cases import HANDLES, INPUTS, KINDS, LISTS, PLACES, READ, TABLES, TAPES, Machine, combined, words_from

# Of each command its field in the record, its three words, and in words what it does.
RUNS = (
    ("store", (1, 0, 0), "the next input, shared"),
    ("add", (2, 1, 2), "the sum of the first two values"),
    ("subtract", (3, 1, 2), "the first value less the second"),
    ("add_constant", (4, 1, 2779096485), "the first value and a constant"),
    ("times_constant", (5, 2, 3735928559), "the second value times a constant"),
    ("multiply", (6, 1, 2), "the product of the first two values"),
    ("reshare", (7, 2, 0), "the second value, shared anew"),
    ("bits", (8, 1, 0), "the first value as a bit word"),
    ("bit", (9, 3, 31), "the highest bit of the third, which is 1"),
    ("equal", (10, 1, 4), "1, since the first and the fourth are equal"),
    ("opening", (11, 2, 0), "the second value, opened"),
    ("below", (12, 1, 2), "1, since the first value is below the second"),
)
# How many words each list holds already, and how many more it has.
HELD = {**dict.fromkeys(TABLES, 4), INPUTS: 1, "provider": 1, "tape1": 2, "tape2": 3, "tape3": 4}
HELD |= {"received1": 1, "received2": 2, "received3": 4, "controller": 3}
MORE = {**dict.fromkeys(TABLES, 2), INPUTS: 2, "provider": 3, "tape1": 19, "tape2": 13, "tape3": 13}
MORE |= {"received1": 23, "received2": 29, "received3": 29, "controller": 4}
HEAD = """\
-- One worked run of each command; Specification: Accepted commands. tests/worked_runs.py prints this file: its numbers
-- come from a second writing of the machine, which shares no code with the engine. All words that are lent, but for the
-- kinds, are different.
use Rattle.std.specs.Prelude.{◌≡◌, ℕ, List, [], ◌∷◌, ◌++◌, length, drop}
use Rattle.protocols.specs.declared.place.Place.{Place}
use Rattle.protocols.specs.declared.shares.Shares.{Shares}
use Rattle.protocols.specs.Shares.{shares}
use Rattle.protocols.specs.Place.{Tapes, tapes, Lists, lists, silence, place_of}
use Rattle.machine.specs.Table.{command_of}
use Rattle.machine.specs.Lent.{Tables, tables, Lent, lent_lists}
use Rattle.machine.specs.Command.{CommandOutcome, answer, command_outcome, command}
"""
# What is lent, a list for each %s.
LENT = """\
-- ---- what is lent to each run

-- the shares of four values, and their kinds: the third is a bit word; the first is below the second and equal to the
-- fourth
abbrev pub values : Tables
values = tables
%s
abbrev pub kinds : List ℕ
kinds = %s
-- the two entries that are not filled
abbrev pub unfilled_entries : Tables
unfilled_entries = tables
%s
abbrev pub unfilled_kinds : List ℕ
unfilled_kinds = %s
-- one input is used
abbrev pub inputs : List ℕ
inputs = %s
-- 1, 2, 3 and 4 words are drawn
abbrev pub lent_tapes : Tapes
lent_tapes = tapes
%s
-- the words that were received before the run
abbrev pub words_before : Lists
words_before = lists
%s
-- the unfilled part of each received list
abbrev pub unfilled_parts : Lists
unfilled_parts = lists
%s
-- the ten counts; Specification: Place record
abbrev pub start : Place
start = place_of (%s)
"""
FORMS = """\
-- ---- a run, and what it leaves

-- a list: the words that it held, new words behind them, and the rest of it as it was
abbrev pub with_words : List ℕ → List ℕ → List ℕ → List ℕ
with_words held words beyond = held ++ (words ++ drop (length words) beyond)

abbrev pub tables_with : Tables → Tables
tables_with new =
    tables (with_words values.one new.one unfilled_entries.one) (with_words values.two new.two unfilled_entries.two)
    (with_words values.three new.three unfilled_entries.three)

abbrev pub lists_with : Lists → Lists
lists_with words =
    let before = words_before in
    lists (with_words before.one words.one unfilled_parts.one) (with_words before.two words.two unfilled_parts.two)
    (with_words before.three words.three unfilled_parts.three)
    (with_words before.controller words.controller unfilled_parts.controller)

-- all that is lent, with new shares and kinds, and with words that the parties receive
abbrev pub lent_with : Tables → List ℕ → Lists → Lent
lent_with new new_kinds words =
    lent_lists (tables_with new) (with_words kinds new_kinds unfilled_kinds) inputs lent_tapes (lists_with words)

abbrev pub no_shares : Tables
no_shares = tables [] [] []

-- the run of one command
abbrev pub outcome_at_start : ℕ → ℕ → ℕ → CommandOutcome
outcome_at_start code a b = command 5 (command_of code a b) start (lent_with no_shares [] silence)

-- of a command that makes a value: the ten counts after it, shares and kind, and the words that each party receives
abbrev pub outcome_with_value : List ℕ → Shares → ℕ → Lists → CommandOutcome
outcome_with_value counts s kind words =
    command_outcome (answer 0 (place_of counts) 0)
    (lent_with (tables (s.one ∷ []) (s.two ∷ []) (s.three ∷ [])) (kind ∷ []) words)

-- of an open: the ten counts after it, the opened word, and the words that each party receives
abbrev pub outcome_with_opened_word : List ℕ → ℕ → Lists → CommandOutcome
outcome_with_opened_word counts word words =
    command_outcome (answer 0 (place_of counts) word) (lent_with no_shares [] words)
"""
RECORD = """\
-- promised by `worked_runs`: from a place record that counts words of each list, each of the twelve commands draws the
-- next words of the tapes, answers exactly these counts and this opened word, writes exactly these shares and this kind
-- into the next entry and exactly these words, in this order, into the unfilled part of each party's list; all else
-- stays as it was. Specification: Accepted commands.
pub record WorkedRuns : Type 0 where"""


def all_lists():
    """Large words where a list is filled, small ones behind: 101, 102 .. in the first share table, 201 .. in the
    second."""
    words = words_from(22)
    lists = {name: [next(words) for _ in range(HELD[name] + MORE[name])] for name in (*TABLES, INPUTS, *TAPES, *LISTS)}
    for n, name in enumerate((*TABLES, *LISTS), 1):
        lists[name][HELD[name] :] = [100 * n + k for k in range(1, MORE[name] + 1)]
    share1, share2, share3 = (lists[table] for table in TABLES[:3])
    share3[3] = (combined(1, (share1[0], share2[0], share3[0])) - share1[3] - share2[3]) % 2**32
    every = [word for words in lists.values() for word in words]
    assert len(set(every)) == len(every)
    lists[KINDS][:4] = 1, 1, 2, 1
    return lists


def chain(words):
    return " ∷ ".join([*map(str, words), "[]"])


def argument(words, indent):
    """A list as an argument on lines of its own, eight words to a line."""
    if not words:
        return indent + "[]"
    lines = [" ∷ ".join(map(str, words[k : k + 8])) for k in range(0, len(words), 8)]
    return indent + "(" + f" ∷\n{indent}".join(lines) + " ∷ [])"


def arguments(lists, indent):
    return "\n".join(argument(words, indent) for words in lists)


def definitions(lists, place):
    held = {name: words[: HELD[name]] for name, words in lists.items()}
    more = {name: words[HELD[name] :] for name, words in lists.items()}

    def each(part, names):
        return arguments([part[name] for name in names], "    ") + "\n"

    return LENT % (
        each(held, TABLES[:3]),
        chain(held[KINDS]) + "\n",
        each(more, TABLES[:3]),
        chain(more[KINDS]) + "\n",
        chain(lists[INPUTS]) + "\n",
        each(lists, TAPES),
        each(held, LISTS),
        each(more, LISTS),
        chain(place[name] for name in PLACES),
    )


def words_added(machine, lists):
    """What a run adds to each list. All else is as it was."""
    added = {}
    for name, before in lists.items():
        held = HELD[name]
        end = held if name in READ else machine.place[HANDLES if name in TABLES else name]
        added[name] = machine.lists[name][held:end]
        assert machine.lists[name] == before[:held] + added[name] + before[end:]
    return added


def field(name, command, text, lists, place):
    machine = Machine(lists, place)
    numbers, opened = machine.command(*command)
    added = words_added(machine, lists)
    assert not numbers
    counts = f"({chain(machine.place[name] for name in PLACES)})"
    if name == "opening":
        form = f"outcome_with_opened_word {counts} {opened}"
    else:
        assert opened == 0
        one, two, three, kind = (added[table][0] for table in TABLES)
        form = f"outcome_with_value {counts} (shares {one} {two} {three}) {kind}"
    received = [added[list_] for list_ in LISTS]
    words = f"(lists\n{arguments(received, '      ')})" if any(received) else "silence"
    code, a, b = command
    return f"  -- {text}\n  pub {name} : outcome_at_start {code} {a} {b}\n      ≡ {form}\n      {words}"


def main():
    lists = all_lists()
    place = {HANDLES: 4, **{name: HELD[name] for name in PLACES[1:]}}
    print(HEAD, definitions(lists, place), FORMS, RECORD, sep="\n")
    for name, command, text in RUNS:
        print(field(name, command, text, lists, place))


if __name__ == "__main__":
    main()
