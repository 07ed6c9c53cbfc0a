#!/bin/sh
# The tests that need no build: the stored files of `vectors`, `commands` and `formats`, the worked runs and sessions,
# and the counted records.
set -eu
cd "$(dirname "$0")/.."
python3 tests/protocol_vectors.py | cmp - crates/vectors/stdout
python3 tests/command_cases.py
python3 tests/formats.py | cmp - crates/formats/stdout
python3 tests/worked_runs.py | cmp - crates/machine/specs/WorkedRuns.antt
python3 tests/worked_session.py | cmp - crates/session/specs/Worked.antt
python3 tests/blindness_counts.py
