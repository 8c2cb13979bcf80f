#!/bin/sh
# Late and failed input and output of the program and of both examples, from the repository's root:
# sh tests/ends.sh [PROGRAM], after tests/build.sh and tests/dock.sh, which build the reference and
# the examples. The lines owed are the reference's. Ends with 0 if all three do as they should.
set -e
program=${1:-target/bin/glasspuddle}
out=target/tests
folder=$out/ends
mkdir -p "$folder"
strict="-std=c11 -Wall -Wextra -Wvla -Werror -pedantic -O2"
cc $strict -o "$folder/ends" tests/ends.c
cc $strict -shared -fPIC -o "$folder/faults.so" tests/faults.c
cp examples/table_a.bin "$folder/small"
# Any bytes are rows of table A: here some ten thousand, and a part row.
cat examples/table_a.bin crates/test_tables/stdin > "$folder/large"
for input in small large; do
    "$out/reference" < "$folder/$input" > "$folder/$input.owed"
done
cmp examples/table_a.expected "$folder/small.owed"
failed=0
"$folder/ends" program "$program" "$folder" || failed=1
for dock in dock_c dock_rust; do
    "$folder/ends" dock "$out/$dock" "$folder" || failed=1
done
exit "$failed"
