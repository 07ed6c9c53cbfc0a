#!/bin/sh
# Runs the program `pool` with every kind of argument, input and output.
# Run from the repository's root, when the program is built.
set -eu
exec python3 tests/pool/cases.py target/bin/pool
