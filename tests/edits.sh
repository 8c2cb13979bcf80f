#!/bin/sh
# Each must-fail edit has to be refused at a fact that no longer holds. From the repository's root, with what `rt ci` printed:
# sh tests/edits.sh refused LOG
# An edit that is refused only because a proof file names what it took away, or only by a limit of the prover, shows nothing of the
# contract; nor does one whose first error is that a name is missing. Ends with 0 if there is none.
# Before `rt ci`, in a moment: sh tests/edits.sh texts
# The text that an edit replaces has to stand in its file, once.
set -e
count=0
if [ "${1:-}" = texts ]; then
    for edit in crates/*/must-fail/*.edit; do
        file=${edit%%/must-fail/*}/$(sed -n 's/^file: //p' "$edit")
        [ -f "$file" ] || { echo "edits: $edit names no file of its crate"; exit 1; }
        times=$(awk 'FNR == NR { if (sub(/^old: /, "")) old = $0; next }
            { while ((at = index($0, old)) > 0) { n++; $0 = substr($0, at + length(old)) } }
            END { print n + 0 }' "$edit" "$file")
        [ "$times" = 1 ] || { echo "edits: the text of $edit stands $times times in $file"; exit 1; }
        count=$((count + 1))
    done
    echo "edits: the texts of $count are there"
    exit 0
fi
log=${2:?the log of rt ci}
for edit in crates/*/must-fail/*.edit; do
    crate=${edit#crates/}
    label=${crate%%/*}/$(basename "$edit")
    said=$(grep -F "must-fail $label: " "$log" || true)
    case $said in
    *'refused, as it must be (only '* | *'has no `'* | *'has no field'* | *'is not in scope'* | *'unexpected character'*)
        echo "edits: $label is refused for its shape: $said"
        exit 1
        ;;
    *'refused, as it must be'*) ;;
    *)
        echo "edits: $label is not refused: ${said:-no line in the log}"
        exit 1
        ;;
    esac
    count=$((count + 1))
done
echo "edits: $count refused, none for its shape"
