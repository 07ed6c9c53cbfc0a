#!/bin/sh
# Calls the library through its C header, from C and C++, through its Rust declarations and from Python, and compares
# the names, the texts and the exported calls. Run from the repository's root, when the library is built.
set -eu

sources=tests/interface
built=target/tests
library=target/staticlib/libdinglefork.a
shared=target/shared/libdinglefork.so
warnings="-Wall -Wextra -Werror -pedantic"
mkdir -p "$built"

c99() {
    cc -std=c99 $warnings -Iinclude -o "$built/$1" "$2" "$library"
}
rust() {
    rustc --edition "$1" -O -D warnings -o "$built/$2" -L target/staticlib -l static=dinglefork "$3"
}

# The records' layouts and the header itself.
cc -std=c11 $warnings -fsyntax-only "$sources/layout.c"
c++ -x c++ -std=c++11 $warnings -fsyntax-only "$sources/layout.c"

c99 interface_c "$sources/test.c"
"$built/interface_c"
c++ -x c++ -std=c++11 $warnings -o "$built/interface_cpp" "$sources/test.c" -x none "$library"
"$built/interface_cpp"
for edition in 2018 2021 2024; do
    rust "$edition" interface_rust "$sources/test.rs"
    message=$("$built/interface_rust")
    echo "edition $edition: $message"
done

# Rust has each name of the header with its value, and the refusals' texts are those that the engine's crates print.
c99 names_c "$sources/names.c"
"$built/names_c" > "$built/names_c.txt"
rust 2021 names_rust "$sources/names.rs"
"$built/names_rust" > "$built/names_rust.txt"
diff "$built/names_c.txt" "$built/names_rust.txt"
grep -o '\<DINGLEFORK_[A-Z_]*[A-Z]\>' include/dinglefork.h | grep -v '^DINGLEFORK_H$' | sort -u > "$built/names_header.txt"
sed -n 's/^\(DINGLEFORK_[A-Z_]*\) .*/\1/p' "$built/names_c.txt" | sort | diff "$built/names_header.txt" -
sed -n 's/^[A-Za-z]*: refused/refused/p' crates/formats/stdout > "$built/refusals.txt"
grep '^refused' "$built/names_c.txt" | diff "$built/refusals.txt" -
echo "$(wc -l < "$built/names_header.txt") names and $(wc -l < "$built/refusals.txt") texts of refusals alike in C and Rust"

# The shared object exports the calls that the header declares, and nothing else.
grep -o '\<dinglefork_[a-z]*(' include/dinglefork.h | tr -d '(' | sort -u > "$built/exported.txt"
nm -D --defined-only "$shared" | sed 's/.* T //' | sort | diff "$built/exported.txt" -
echo "the shared object exports its calls alone"

# The library and the program have one version.
head -n 1 "$sources/pooled.txt" | sed 's/^dinglefork/pool/' | diff tests/pool/version.txt -

prints_what_is_stored() {
    "$@" > "$built/pooled.txt"
    diff "$sources/pooled.txt" "$built/pooled.txt"
}

# The examples, over the archive and over the shared object.
c99 pooled_c examples/pooled.c
prints_what_is_stored "$built/pooled_c"
for edition in 2018 2021 2024; do
    rust "$edition" pooled_rust examples/pooled.rs
    prints_what_is_stored "$built/pooled_rust"
done
cc -std=c99 $warnings -Iinclude -o "$built/pooled_c_shared" examples/pooled.c "$shared" -Wl,-rpath,"$PWD/target/shared"
prints_what_is_stored "$built/pooled_c_shared"
prints_what_is_stored python3 examples/pooled.py
echo "the examples in C, Rust and Python print what is stored"
