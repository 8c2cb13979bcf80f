#!/bin/sh
# Two things that no check of the crates says. From the repository's root: sh tests/sources.sh
# - crates.txt lists for each crate just the crates that its own files name, and those of types that its values hold.
# - A name that a file imports is named in it.
# Ends with 0 if both hold.
set -e
export LC_ALL=C
bad=0

# The crates that a crate's files name: in antt by Rattle.NAME, in code by NAME:: too.
named() {
    find "crates/$1" -path '*/out' -prune -o \( -name '*.antt' -o -name '*.rt' \) -print | xargs sed 's/\(--\|\/\/\).*//' \
        | grep -o 'Rattle\.[a-z0-9_]*' | sed 's/Rattle\.//'
    sed 's/\/\/.*//' "crates/$1"/src/*.rt | grep -oE '\b[a-z0-9_]+::' | sed 's/:://'
}

# The prover also asks for the crate of a type that a value only holds: the program's state holds a run.
held() {
    case $1 in
    glasspuddle) echo monitor ;;
    esac
}

# The repository's crates, and those of the toolchain that one of them lists.
crates=$(sed -n 's/^\([a-z0-9_]*\)\( staticlib\)*:.*/\1/p' crates.txt)
known="$crates $(sed -n 's/^[a-z0-9_]*\( staticlib\)*://p' crates.txt)"
for crate in $crates; do
    found=$( (named "$crate"; held "$crate") | sort -u | while read -r name; do
        case " $(echo $known) " in
        *" $name "*) [ "$name" = "$crate" ] || echo "$name" ;;
        esac
    done)
    listed=$(sed -n "s/^$crate\( staticlib\)*://p" crates.txt | tr ' ' '\n' | sed '/^$/d' | sort -u)
    if [ "$found" != "$listed" ]; then
        echo "sources: crates.txt, $crate: listed and not named, or named and not listed:" \
            $( (echo "$found"; echo "$listed") | sed '/^$/d' | sort | uniq -u)
        bad=1
    fi
done

# An operator, as ◌+◌, is named where all its parts are.
idle=$(find crates -path '*/out' -prune -o \( -name '*.antt' -o -name '*.rt' \) -print | sort | while read -r file; do
    awk -v file="$file" '
        /^[ \t]*(ghost )?use [^{}]*\{[^}]*\};?$/ {
            list = $0; sub(/^[^{]*\{/, "", list); sub(/\};?$/, "", list)
            n = split(list, items, /, */)
            for (i = 1; i <= n; i++) { sub(/^.* (as|to) /, "", items[i]); wanted[items[i]] = 1 }
            next
        }
        /^use [a-z0-9_]+::[A-Za-z0-9_]+;$/ { item = $0; sub(/^.*::/, "", item); sub(/;$/, "", item); wanted[item] = 1; next }
        /^[ \t]*(ghost )?use / { if ($(NF - 1) == "as") wanted[$NF] = 1; next }
        {
            sub(/(--|\/\/).*/, "")
            if (index($0, "[]") > 0) there["[]"] = 1
            gsub(/λ/, " "); gsub(/!/, " ! ")
            n = split($0, words, /[][(){},;.:@`" \t<>&*]+/)
            for (i = 1; i <= n; i++) there[words[i]] = 1
            whole = whole " " $0
        }
        END {
            for (name in wanted) {
                if (name == "" || name in there) continue
                missing = 0
                if (index(name, "◌") > 0) {
                    n = split(name, parts, /(◌)+/)
                    for (i = 1; i <= n; i++) if (parts[i] != "" && index(whole, parts[i]) == 0) missing = 1
                } else missing = 1
                if (missing) print file ": " name
            }
        }' "$file"
done)
if [ -n "$idle" ]; then
    echo "sources: imported and not named:"
    echo "$idle"
    bad=1
fi
[ "$bad" = 0 ] || exit 1
echo "sources: crates.txt lists what is named, every import is named"
