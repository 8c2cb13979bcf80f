#!/bin/sh
# The benchmark of the library, from the repository's root: sh bench/library.sh [ARCHIVE]
# Row and check calls through the C boundary of ARCHIVE (target/staticlib/libdock.a unless given)
# beside the two baselines, all in one program. Needs rustc; instructions are counted where valgrind
# is there. Prints tables in Markdown. Ends with 0 whatever the ratios are, with 1 if what the three
# give differs. See docs/BENCHMARKS.md.
set -e
archive=${1:-target/staticlib/libdock.a}
out=target/bench

[ -f "$archive" ] || { echo "build the archive first: sh tools/build"; exit 1; }
mkdir -p "$out"
rustc -O --edition 2021 --crate-type rlib -o "$out/libbaseline.rlib" bench/baseline.rs
rustc -O --edition 2021 --extern baseline="$out/libbaseline.rlib" -C link-arg="$archive" \
    -o "$out/library" bench/library.rs
"$out/library"
