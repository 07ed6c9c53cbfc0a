#!/bin/sh
# Checks the library and the program `pool` against the reference, which is written separately from them.
# Run from the repository's root, when the library and the program are built.
set -eu

sources=tests/sessions
built=target/tests
mkdir -p "$built"
rustc --edition 2021 -O -D warnings -o "$built/cases_main" "$sources/cases_main.rs"
rustc --edition 2021 -O -D warnings -o "$built/differential" \
    -L target/staticlib -l static=dinglefork "$sources/differential.rs"

# The reference first, on the worked cases. Specification: Worked computations.
"$built/cases_main" --self-check

# The test program's files and expected text are those that the reference gives.
fresh=$(mktemp -d)
trap 'rm -rf "$fresh"' EXIT
trap 'exit 1' HUP INT TERM
"$built/cases_main" "$fresh"
for part in data args stdout; do
    diff -r "crates/sessions/$part" "$fresh/$part"
done
# The example sessions are among them.
for example in examples/*.session; do
    cmp "$example" "$fresh/data/$(basename "$example" .session)"
done

# Seeded sessions, by the program, the session call and the pool call.
"$built/differential" 20000 target/bin/pool

# If reading fails (a folder) or writing fails (a full device), `pool` says so on standard error and fails; a failed
# read prints no text.
if target/bin/pool < examples > "$fresh/text" 2> "$fresh/read"; then exit 1; fi
test ! -s "$fresh/text"
test -s "$fresh/read"
if target/bin/pool < crates/sessions/data/worked > /dev/full 2> "$fresh/write"; then exit 1; fi
test -s "$fresh/write"
