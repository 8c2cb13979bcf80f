#!/bin/sh
# The dock's entries from C and Rust, from the repository's root:
# sh tests/dock.sh [PROGRAM [FOLDER/libdock.a]]
# The archive first, then both examples against the program's output, byte for byte, then all of
# tests/compare on both. Builds into target/tests. Ends with 0 if all agree.
set -e
program=${1:-target/bin/glasspuddle}
archive=${2:-target/staticlib/libdock.a}
out=target/tests
mkdir -p "$out"

fail() {
    echo "dock: $1"
    exit 1
}

strict="-Wall -Wextra -Wvla -Werror -pedantic -O2 -Iinclude"

compile_c() {
    cc -std=c11 $strict -o "$out/$1" "$2" "$archive"
}

# The header alone, then the layout, by this compiler and language, if it is here.
layout_by() {
    if command -v "$1" > /dev/null; then
        "$@" $strict -fsyntax-only include/glasspuddle.h
        "$@" $strict -o "$out/layout" tests/layout.c -x none "$archive"
        "$out/layout"
        echo "layout: by $*"
    else
        echo "layout: no $1 here, not tried"
    fi
}

# Both docks and the program on one input: the same lines, an act for each trigger, and status 0 if
# the run ended, 2 if there was none.
same() {
    "$program" < "$out/input" > "$out/owed"
    sed -n 's/^t \(.*\) \(.*\)$/dock: trigger \1 at position \2/p' "$out/owed" > "$out/acts"
    case $(tail -n 1 "$out/owed") in
    "end "*) wanted=0 ;;
    *) wanted=2 ;;
    esac
    for dock in dock_c dock_rust; do
        status=0
        "$out/$dock" < "$out/input" > "$out/given" 2> "$out/acted" || status=$?
        cmp "$out/owed" "$out/given" || fail "$dock gives other lines: $1"
        cmp "$out/acts" "$out/acted" || fail "$dock acts otherwise: $1"
        [ "$status" -eq "$wanted" ] || fail "$dock ends with $status, not $wanted: $1"
    done
    cases=$((cases + 1))
}

# The first example with the byte at this offset of the table put to this value, in octal.
changed() {
    head -c $((3 + $1)) "$small" > "$out/input"
    printf "\\$2" >> "$out/input"
    tail -c +$((5 + $1)) "$small" >> "$out/input"
    same "byte $1 of the table put to octal $2"
}

# The next line of a dock under `live` must be this one.
hears() {
    read -r line <&4 || fail "$dock is not live, or has ended: no line '$1'"
    [ "$line" = "$1" ] || fail "$dock, live: '$line' for '$1'"
}

# Table A row by row: each row's lines are read before the next row is written.
live() {
    dock=$1
    rm -f "$out/to" "$out/from"
    mkfifo "$out/to" "$out/from"
    timeout 10 "$out/$dock" < "$out/to" > "$out/from" 2> "$out/acted" &
    exec 3> "$out/to" 4< "$out/from"
    head -c 43 "$small" >&3
    hears "v 1 0 fffffffa"
    tail -c +44 "$small" | head -c 4 >&3
    hears "v 1 1 0000000a"
    hears "v 2 0 00000000"
    tail -c +48 "$small" >&3
    hears "v 1 2 ffffffff"
    hears "v 2 1 00000001"
    hears "t 2 1"
    exec 3>&-
    hears "v 2 2 00000000"
    hears "end 3"
    exec 4<&-
    wait $! || fail "$dock ends badly, live"
    echo "$dock: live"
}

layout_by cc -std=c11 -x c
layout_by clang -std=c11 -x c
layout_by g++ -std=c++11 -x c++
compile_c refusals tests/refusals.c
"$out/refusals"
compile_c sessions tests/sessions.c
"$out/sessions" < tests/sessions.script > "$out/given"
cmp tests/sessions.expected "$out/given" || fail "an entry gives not what tests/sessions.py reads out of document 01"
echo "sessions: the entries give what tests/sessions.py reads out of document 01"
compile_c stack tests/stack.c
"$out/stack" < crates/test_tables/stdin

# The program in docs/INTEGRATORS.md, in the block of C, and the lines that it prints, in the next one.
page=docs/INTEGRATORS.md
awk '/^```c$/ { inside = 1; next } inside && /^```$/ { exit } inside' "$page" > "$out/one_row.c"
awk '/^```c$/ { seen = 1 } seen && /^```$/ { fences++; next } fences == 2' "$page" > "$out/owed"
compile_c one_row "$out/one_row.c"
"$out/one_row" > "$out/given"
cmp "$out/owed" "$out/given" || fail "the program in $page prints other lines than the page has"
echo "one_row: the program in $page prints what the page has"

compile_c dock_c examples/dock.c
rustc -O --edition 2021 --crate-type rlib --crate-name glasspuddle \
    -L native="$(dirname "$archive")" -o "$out/libglasspuddle.rlib" examples/glasspuddle.rs
rustc -O --edition 2021 --extern glasspuddle="$out/libglasspuddle.rlib" \
    -o "$out/dock_rust" examples/dock.rs
rustdoc --test --edition 2021 --crate-name glasspuddle --extern \
    glasspuddle="$out/libglasspuddle.rlib" examples/glasspuddle.rs > "$out/rustdoc" \
    || { cat "$out/rustdoc"; fail "the examples in glasspuddle.rs"; }

cases=0
small=examples/table_a.bin
for example in examples/*.bin; do
    cp "$example" "$out/input"
    same "$example"
done
length=0
while [ "$length" -le 51 ]; do
    head -c "$length" "$small" > "$out/input"
    same "the first $length bytes of $small"
    length=$((length + 1))
done
offset=0
while [ "$offset" -lt 36 ]; do
    for value in 000 001 002 020 047 177 200 377; do
        changed "$offset" "$value"
    done
    offset=$((offset + 1))
done
for head in 141 140 '140\000\000' '140\000\020' '140\001\020' '140\377\377'; do
    printf "\\$head" > "$out/input"
    same "the head $head, in octal"
done
echo "examples dock.c and dock.rs: same as the program on $cases inputs"
live dock_c
live dock_rust

[ -x "$out/compare" ] || sh tests/build.sh
for dock in dock_c dock_rust; do
    echo "$dock:"
    "$out/compare" "$out/$dock" 2> "$out/acted"
done
