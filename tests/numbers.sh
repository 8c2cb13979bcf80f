#!/bin/sh
# Numbers that stand in several languages are equal: limits, refusal numbers and record sizes in the code (constants of
# crates/*/src/lib.rt), in the definitions (crates/*/specs), in include/glasspuddle.h and in examples/glasspuddle.rs; the version in
# the last two and in CHANGELOG.md. From the repository's root: sh tests/numbers.sh
# It needs cc. Ends with 0 if all agree and none is missing.
set -e
out=target/tests
mkdir -p "$out"

# Where constants and definitions are. Each `pub const`, each number of an enum's case and each `pub` number of these files needs a row below.
code="crates/limits/src/lib.rt crates/records/src/lib.rt"
definitions="crates/limits/specs/Limits.antt crates/limits/specs/Refusals.antt crates/records/specs/Kinds.antt"

# The header's name less GLASSPUDDLE_, the constant or the case, the definition; `-` where there is none, `-name` for a number's opposite.
# Each name of the header needs a row.
table() {
    cat << 'END'
TABLE_LEAST             TABLE_LEAST     least_table
TABLE_MOST              TABLE_MOST      most_table
STREAMS_MOST            STREAMS_MOST    most_streams
INPUTS_MOST             OUTPUTS_MOST    most_outputs
OUTPUTS_MOST            OUTPUTS_MOST    most_outputs
LEVELS_MOST             LEVELS_MOST     most_levels
OFFSET_LEAST            -BACK_MOST      -most_back
OFFSET_MOST             AHEAD_MOST      most_ahead
STORE_MOST              STORE_MOST      most_words
ROWS_MOST               ROWS_MOST       most_rows
CLOSING_MOST            -               most_look
-                       PAIRS_MOST      most_pairs
-                       RISE_OF_ZERO    rise_of_zero
-                       FALL_OF_ZERO    fall_of_zero
-                       -               most_note
ACCEPTED                ACCEPTED        accepted
REFUSED_TABLE_LENGTH    TableLength     table_length
REFUSED_MISSING         Missing         missing
REFUSED_KIND            WrongKind       wrong_kind
REFUSED_FIELD           WrongField      wrong_field
REFUSED_TYPE            WrongType       wrong_type
REFUSED_LEVEL           TooDeep         too_deep
REFUSED_LOOP            WrongLoop       wrong_loop
REFUSED_STORE_WORDS     OverWords       over_words
REFUSED_BYTES_AFTER     BytesAfter      bytes_after
REFUSED_RECORD          ForeignRecord   foreign_record
REFUSED_SHORT_STORE     ShortStore      short_store
REFUSED_PHASE           WrongPhase      wrong_phase
REFUSED_ROW_LIMIT       RowLimit        row_limit
REFUSED_ROW_LENGTH      RowLength       row_length_of
REFUSED_FLAG            WrongFlag       wrong_flag
REFUSED_SHORT_OUTPUT    ShortOutput     short_output
KIND_VALUE              KIND_VALUE      kind_value
KIND_TRIGGER            KIND_TRIGGER    kind_trigger
VALUE_BYTES             VALUE_BYTES     value_size_of
TRIGGER_BYTES           TRIGGER_BYTES   trigger_size_of
ROOM_MOST               ROOM_MOST       most_room
-                       TEXT_MOST       most_text
END
    # The header's own: a place in the table, the phases (tests/layout.c), the version (below).
    printf '%s - -\n' INPUTS_AT READING DRAINING OVER VERSION VERSION_MAJOR VERSION_MINOR VERSION_PATCH
}

fail() {
    echo "numbers: $1"
    exit 1
}

# `name expression` for each constant, each of the Rust crate's, each definition; the names of the header.
rust() {
    sed -n 's/^\(pub \)*const \([A-Z0-9_]*\): *[a-z0-9]* = \(.*\);$/\2 \3/p' examples/glasspuddle.rs
}
constants() {
    sed -n -e 's/^pub const \([A-Z0-9_]*\): *[a-z0-9]* = \(.*\);$/\1 \2/p' -e 's/^    \([A-Z][A-Za-z]*\) = \([0-9]*\),$/\1 \2/p' $code
}
defined() {
    awk '$NF == "ℕ" && $(NF - 1) == ":" && / pub / { number = $(NF - 2) } $2 == "=" && $1 == number { $2 = ""; print }' $definitions
}
header() {
    sed -n -e 's/^#define GLASSPUDDLE_\([A-Z0-9_]*\) .*/\1/p' -e 's/^ *GLASSPUDDLE_\([A-Z0-9_]*\) = .*,$/\1/p' include/glasspuddle.h
}

# Both lists have the same names, each once; $1 says of what.
same_names() {
    diff "$out/numbers.have" "$out/numbers.rows" > "$out/numbers.diff" \
        || fail "$1 (<: there, >: in the table of tests/numbers.sh)
$(grep '^[<>]' "$out/numbers.diff")"
}

table > "$out/numbers.table"
header | sort > "$out/numbers.have"
awk '$1 != "-" { print $1 }' "$out/numbers.table" | sort > "$out/numbers.rows"
same_names "names of include/glasspuddle.h"
constants | awk '{ print $1 }' | sort > "$out/numbers.have"
awk '$2 != "-" { sub(/^-/, "", $2); print $2 }' "$out/numbers.table" | sort -u > "$out/numbers.rows"
same_names "constants of $code"
defined | awk '{ print $1 }' | sort > "$out/numbers.have"
awk '$3 != "-" { sub(/^-/, "", $3); print $3 }' "$out/numbers.table" | sort -u > "$out/numbers.rows"
same_names "definitions of $definitions"

# `name expression` as a C macro, the names with $1 before them; `limits::X` is X, 4_096 is 4096, `as usize` goes.
as_c() {
    awk -v before="$1" '
        function c(word) { gsub(/-/, "_", word); return before word }
        {
            printf "#define %s (", c($1)
            $1 = ""
            gsub(/[a-z]+::/, ""); gsub(/ as [a-z0-9]+/, "")
            while (match($0, /[A-Za-z0-9][A-Za-z0-9_-]*/)) {
                word = substr($0, RSTART, RLENGTH)
                if (word ~ /^[0-9]/) gsub(/_/, "", word); else word = c(word)
                printf "%s%s", substr($0, 1, RSTART - 1), word
                $0 = substr($0, RSTART + RLENGTH)
            }
            print $0 ")"
        }'
}

# Values are compared by the C compiler, since some are made of others.
{
    cat << 'END'
#include "glasspuddle.h"
#include <stdio.h>
static int failures;
static void same(const char *a, long long x, const char *b, long long y) {
    if (x != y) {
        printf("numbers: %s is %lld, %s is %lld\n", a, x, b, y);
        failures++;
    }
}
END
    constants | as_c code_
    defined | as_c spec_
    rust | as_c rust_
    echo 'int main(void) {'
    rust | awk '{ printf "    same(\"GLASSPUDDLE_%s\", GLASSPUDDLE_%s, \"that of glasspuddle.rs\", rust_%s);\n", $1, $1, $1 }'
    awk '
        # the name in C, with the sign, of a column; nothing where it is empty
        function value(column, before, sign) {
            if (column == "-") return ""
            sign = sub(/^-/, "", column) ? "-" : ""
            gsub(/-/, "_", column)
            return sign before column
        }
        function same(a, x, b, y) { if (x != "" && y != "") printf "    same(\"%s\", %s, \"%s\", %s);\n", a, x, b, y }
        {
            header = value($1, "GLASSPUDDLE_"); constant = value($2, "code_"); definition = value($3, "spec_")
            same(header, header, "the constant " $2, constant)
            same(header, header, "the definition " $3, definition)
            if (header == "") same("the constant " $2, constant, "the definition " $3, definition)
        }' "$out/numbers.table"
    echo '    const int v = GLASSPUDDLE_VERSION;'
    printf '    printf("%%d.%%d.%%d\\n", v / 10000, v / 100 %% 100, v %% 100);\n'
    echo '    return failures != 0;'
    echo '}'
} > "$out/numbers.c"
cc -std=c11 -Wall -Iinclude -o "$out/numbers" "$out/numbers.c"
"$out/numbers" > "$out/numbers.said" || fail "not equal
$(grep '^numbers' "$out/numbers.said")"

# The version: the header's number and its parts, the changelog's newest, the Rust crate's.
part() {
    sed -n "s/^#define GLASSPUDDLE_VERSION_$1 \([0-9]*\)$/\1/p" include/glasspuddle.h
}
version=$(tail -n 1 "$out/numbers.said")
parts="$(part MAJOR).$(part MINOR).$(part PATCH)"
newest=$(sed -n 's/^## \([0-9][0-9.]*\).*/\1/p' CHANGELOG.md | head -n 1)
crate=$(sed -n 's/^pub const VERSION: \[u32; 3\] = \[\([0-9]*\), \([0-9]*\), \([0-9]*\)\];$/\1.\2.\3/p' examples/glasspuddle.rs)
[ "$version" = "$parts" ] || fail "GLASSPUDDLE_VERSION is that of $version, its parts are $parts"
[ "$version" = "$newest" ] || fail "the header's version is $version, CHANGELOG.md's newest '$newest'"
[ "$version" = "$crate" ] || fail "the header's version is $version, that of examples/glasspuddle.rs '$crate'"

compared=$(grep -c '    same(' "$out/numbers.c")
echo "numbers: $compared pairs are equal, of code, definitions, header and Rust crate; version $version"
