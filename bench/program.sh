#!/bin/sh
# The benchmark of the program, from the repository's root: sh bench/program.sh [ROWS]
# Table A with ROWS rows (2,000,000 unless given): the program and the two baselines, as programs,
# alternately, five times each, output to a file. Needs rustc, bash and a built
# target/bin/glasspuddle; instructions are counted where valgrind is there. Prints a table and the
# ratios. Ends with 0 whatever the ratios are, with 1 if the outputs differ. See docs/BENCHMARKS.md.
set -e
rows=${1:-2000000}
rounds=5
counted=20000
out=target/bench
names="program anew once"

[ -x target/bin/glasspuddle ] || { echo "build the program first: sh tools/build"; exit 1; }
mkdir -p "$out"
rm -f "$out"/*.times "$out"/*.counts
rustc -O --edition 2021 --crate-type rlib -o "$out/libbaseline.rlib" bench/baseline.rs
rustc -O --edition 2021 --extern baseline="$out/libbaseline.rlib" -o "$out/plain" bench/plain.rs
for n in "$rows" "$counted" 0; do
    "$out/plain" input "$n" > "$out/input.$n"
done

command_of() {
    case $1 in
    program) echo target/bin/glasspuddle ;;
    *) echo "$out/plain $1" ;;
    esac
}

# User and wall seconds of one run, with three digits: the time that bash takes of a command.
time_of() {
    bash -c 'TIMEFORMAT="%3U %3R"; time '"$1"' < "$0" > "$1"' "$2" "$3" 2>&1
}

# Instructions of one run. They repeat, whatever else the machine does.
count_of() {
    valgrind -q --tool=callgrind --callgrind-out-file="$3" $1 < "$2" > "$out/counted.out" 2>&1
    awk '/^(summary|totals):/ { print $2; exit }' "$3"
}

round=0
while [ "$round" -lt "$rounds" ]; do
    for name in $names; do
        time_of "$(command_of "$name")" "$out/input.$rows" "$out/$name.out" >> "$out/$name.times"
    done
    round=$((round + 1))
done

for name in anew once; do
    cmp "$out/program.out" "$out/$name.out" || { echo "outputs differ"; exit 1; }
done
echo "$rows rows of table A, $(wc -c < "$out/program.out") bytes of lines from each, all identical"

# The instructions of a row: those of many rows less those of none.
if command -v valgrind > /dev/null; then
    for name in $names; do
        call=$(command_of "$name")
        many=$(count_of "$call" "$out/input.$counted" "$out/$name.callgrind")
        none=$(count_of "$call" "$out/input.0" "$out/$name.callgrind.0")
        echo "$(((many - none) / counted))" > "$out/$name.counts"
    done
fi

# One line for each: best user and wall seconds, user nanoseconds and instructions a row.
for name in $names; do
    awk -v name="$name" -v rows="$rows" -v counts="$out/$name.counts" '
        NR == 1 || $1 < user { user = $1 }
        NR == 1 || $2 < wall { wall = $2 }
        END {
            if ((getline instructions < counts) <= 0) instructions = "-"
            printf "%s %.3f %.3f %.1f %s\n", name, user, wall, user * 1e9 / rows, instructions
        }' "$out/$name.times"
done | awk '
    function ratio(a, b) { return b > 0 ? sprintf("%.2f", a / b) : "-" }
    BEGIN { print "| | user s | wall s | user ns a row | instructions a row |"; print "|---|---|---|---|---|" }
    { print "| " $1 " | " $2 " | " $3 " | " $4 " | " $5 " |"; user[$1] = $2; wall[$1] = $3; count[$1] = $5 }
    function against(name) {
        print "| program / " name " | " ratio(user["program"], user[name]) " | " \
            ratio(wall["program"], wall[name]) " | | " ratio(count["program"], count[name]) " |"
    }
    END {
        against("anew")
        against("once")
        print "ratio to a plain Rust program that tests the table anew: " \
            ratio(user["program"], user["anew"]) " (at most 1.25 wanted)"
        print "ratio to a plain Rust program that tests the table once: " \
            ratio(user["program"], user["once"])
    }'
