#!/bin/sh
# All tests of the library and the program, from the repository's root: sh tests/run.sh [PROGRAM]
# The hand-reasoned answers come first, the reference's after them. Ends with 0 if all agree.
set -e
program=${1:-target/bin/glasspuddle}
sh tests/build.sh
target/tests/reference tables < crates/test_tables/stdin | diff crates/test_tables/stdout -
echo "tables: the reference gives the answers reasoned by hand"
for example in table_a two_ears; do
    "$program" < "examples/$example.bin" | diff "examples/$example.expected" -
    echo "example $example: same"
done
target/tests/calls > target/tests/calls.out || { cat target/tests/calls.out; exit 1; }
cat target/tests/calls.out
target/tests/compare "$program"
sh tests/dock.sh "$program"
# The reference leaves a failed read or write to Rust's library.
[ "$program" = target/tests/reference ] || sh tests/ends.sh "$program"
sh tests/numbers.sh
# Last, since the pages also say how many calls were made.
sh tests/pages.sh
