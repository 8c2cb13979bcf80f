#!/bin/sh
# Builds the reference, the comparison and the calls with plain rustc, from the repository's root,
# into target/tests. Needs Rust's own library only, and for the calls target/staticlib/libdock.a.
set -e
out=target/tests
mkdir -p "$out"
rustc -O --edition 2021 --crate-name reference --crate-type rlib \
    -o "$out/libreference.rlib" tests/reference/lib.rs
for program in reference compare; do
    rustc -O --edition 2021 --extern reference="$out/libreference.rlib" \
        -o "$out/$program" "tests/$program/main.rs"
done
rustc -O --edition 2021 --extern reference="$out/libreference.rlib" \
    -L native=target/staticlib -l static=dock -o "$out/calls" tests/calls/main.rs
