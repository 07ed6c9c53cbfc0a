#!/bin/sh
# Makes the library's calls on arbitrary input, with every lent buffer between inaccessible pages.
# Run from the repository's root, when the library is built: `sh tests/faults/run.sh [CASES]`.
set -eu

built=target/tests
mkdir -p "$built"
rustc --edition 2021 -O -D warnings -o "$built/faults" \
    -L target/staticlib -l static=dinglefork tests/faults/faults.rs
"$built/faults" "${1:-50000}"
