#!/bin/sh
# What the pages cite is there. From the repository's root: sh tests/pages.sh
# - Sizes and counts are those of the sources (tools/sizes, tools/counts); docs/crates.svg has the crates of crates.txt (tools/floors).
# - README.md prints the lines that its two examples give: the first plain block is those of table_a.expected, the second what a dock
#   says about the triggers of two_ears.expected.
# - Each link leads to a file, and to a heading of it where it names one.
# - Each path between backquotes exists: as it stands, under crates/, beside the page or the path before it, or as the must-fail edit
#   crate/name. A file's bare name may be that of any file outside crates/.
# - Each `crate::name` is in the crate's code. Each name of a definition or a law is in some crate. In docs/PROMISES.md names that stand
#   right before a path, in parentheses right behind it, or in the first cell of a row whose path stands alone in a cell, are in that file.
# Ends with 0 if all is so. CHANGELOG.md tells of the past: only its links are followed.
set -e
failed=0
sh tools/sizes --check || failed=1
sh tools/counts --check || failed=1
out=target/tests
mkdir -p "$out"

sed -n 's/^\([a-z0-9_]*\)\( staticlib\)*:.*/\1/p' crates.txt | sort > "$out/pages.crates"
grep -A 1 'class="node"' docs/crates.svg | sed -n 's|^<title>\(.*\)</title>$|\1|p' | sort > "$out/pages.drawn"
if ! diff "$out/pages.crates" "$out/pages.drawn"; then
    echo "pages: docs/crates.svg has other crates (<: crates.txt, >: picture); tools/floors draws it"
    failed=1
fi

rm -f "$out"/readme.*
awk -v out="$out/readme." '/^```/ { inside = !inside; plain = inside && /^```$/; n += plain; next } plain { print > (out n) }' README.md
cp examples/table_a.expected "$out/readme.owed.1"
sed -n 's/^t \(.*\) \(.*\)$/dock: trigger \1 at position \2/p' examples/two_ears.expected > "$out/readme.owed.2"
for block in 1 2; do
    if ! diff "$out/readme.$block" "$out/readme.owed.$block"; then
        echo "pages: plain block $block of README.md is not what the example gives (<: page, >: example)"
        failed=1
    fi
done

# Every file and folder, and every name with the file that defines it.
find . \( -path ./target -o -path ./.git \) -prune -o -print | sed 's|^\./||' > "$out/pages.files"
cat > "$out/names.awk" << 'END'
FILENAME ~ /\.antt$/ {
    line = $0
    while (sub(/^ *(abbrev|unfoldable|pub|record|data) /, " ", line));
    if (line !~ /[:=]/) next
    n = split(line, word, " ")
    for (i = 1; i <= n && word[i] ~ /^[A-Za-z][^(){};:,=.]*$/; i++) print FILENAME, word[i]
    next
}
{
    line = $0
    named = 0
    while (sub(/^ *(pub|extern "C"|const|fn|struct|enum) /, " ", line)) named = 1
    if (named && match(line, /[A-Za-z_][A-Za-z0-9_]*/)) print FILENAME, substr(line, RSTART, RLENGTH)
}
END
find crates -path '*/out' -prune -o \( -name '*.antt' -o -name '*.rt' \) -exec awk -f "$out/names.awk" '{}' + > "$out/pages.names"

cat > "$out/pages.awk" << 'END'
function wrong(text) { print "pages: " FILENAME ":" FNR ": " text; failures++ }
function folder(path) { return path ~ /\// ? substr(path, 1, match(path, /\/[^\/]*$/)) : "" }
function plain(path) { sub(/\/$/, "", path); while (sub(/[^\/.]+\/\.\.\//, "", path)); return path }

# The file that a word between backquotes means, or nothing.
function file_of(word, edit) {
    word = plain(word)
    if (word in exists) return word
    if ("crates/" word in exists) return "crates/" word
    if (plain(folder(FILENAME) word) in exists) return plain(folder(FILENAME) word)
    edit = word
    if (sub(/\//, "/must-fail/", edit) && "crates/" edit ".edit" in exists) return "crates/" edit ".edit"
    if (last != "" && folder(last) word in exists) return folder(last) word
    return word in alone ? alone[word] : ""
}

# Made, or standing for any: no file is asked for.
function any_file(word) {
    return word ~ /^(target|https?:)/ || word ~ /[*<>]/ || word ~ /(^|\/)\+?(CRATE|NAME|LABEL|FN|F|X)(\/|\.|$)/ \
        || word ~ /^(src|specs|proofs|must-fail)(\/|$)/ || word ~ /^[0-9\/]+$/ || word ~ /^\/+$/
}
# A name of ours: any in docs/PROMISES.md, where an edit may stand without its crate; in another page of docs/ one with a capital, a
# hyphen or a line below inside, as definitions and laws have. docs/PORT.md and docs/DESIGN-PASS.md also have the names of before.
function is_name(word) {
    if (FILENAME ~ /PROMISES/) return word ~ /^\.?[A-Za-z][A-Za-z0-9_-]*$/
    return FILENAME ~ /^docs\// && FILENAME !~ /PORT|DESIGN/ && (word ~ /^[a-z]+[A-Z][A-Za-z0-9]*$/ || word ~ /^[a-z]+[_-][a-z0-9_-]+$/)
}
function is_path(word) { return word ~ /\// || word ~ /\.(antt|rt|rs|sh|py|md|edit|svg|txt)$/ }

function heading(path, anchor, line, found) {
    while ((getline line < path) > 0) {
        if (line !~ /^#/) continue
        sub(/^#+ */, "", line); line = tolower(line); gsub(/[^a-z0-9 _-]/, "", line); gsub(/ /, "-", line)
        if (line == anchor) found = 1
    }
    close(path)
    return found
}

function links(text, target, path, at) {
    while (match(text, /\]\([^)]*\)/)) {
        target = substr(text, RSTART + 2, RLENGTH - 3)
        text = substr(text, RSTART + RLENGTH)
        if (target ~ /^https?:/) continue
        at = index(target, "#")
        path = at ? substr(target, 1, at - 1) : target
        path = path == "" ? FILENAME : plain(folder(FILENAME) path)
        if (!(path in exists)) wrong("the link " target " leads to no file")
        else if (at && !heading(path, substr(target, at + 1))) wrong("the link " target " leads to no heading")
    }
}

# `crate::name` and `Type::name`. docs/PORT.md and docs/DESIGN-PASS.md have those of before too.
function code_name(word, part) {
    if (FILENAME ~ /PORT|DESIGN/) return
    split(word, part, "::")
    sub(/[^A-Za-z0-9_].*/, "", part[2])
    if (part[1] ~ /^(std|core|f32|u32)$/) return
    if ("crates/" part[1] in exists) {
        if (!(part[1] "::" part[2] in coded)) wrong("the code of crates/" part[1] " has no " part[2])
    } else if (!(part[2] in anywhere)) wrong("no crate has " word)
}

# The names of `pending`, each defined in the file; of words between one pair of backquotes one at least.
function names_in(path, n, i, k, m, part, word, some) {
    n = split(pending, part, "\n")
    for (i = 1; i <= n; i++) {
        m = split(part[i], word, /[^A-Za-z0-9'_-]+/)
        some = ""
        for (k = 1; k <= m; k++) if (word[k] != "" && !(word[k] in spoken)) { if (some == "") some = "no"; if ((path, word[k]) in defined) some = "yes" }
        if (some == "no") wrong(path " does not define " part[i])
    }
    pending = ""
}

function spans(text, n, i, k, m, part, word, path, cells, inside, first, names_of) {
    n = split(text, part, "`")
    last = pending = first = names_of = ""
    cells = inside = 0
    for (i = 1; i <= n; i++) {
        if (i % 2 == 1) {
            if (part[i] ~ /[|;]|[.] /) pending = ""
            if (part[i] ~ /[|]/) { cells += gsub(/[|]/, "|", part[i]); inside = 0 }
            if (part[i] == " (" && inside && last != "") { names_of = last; pending = "" }
            else if (names_of != "" && part[i] ~ /^\)/) { names_in(names_of); names_of = "" }
            continue
        }
        m = split(part[i], word, " ")
        for (k = 1; k <= m; k++) {
            sub(/[,;:.]+$/, "", word[k])
            if (word[k] ~ /::/) { code_name(word[k]); continue }
            if (!is_path(word[k]) || any_file(word[k])) continue
            path = file_of(word[k])
            if (path == "") { wrong("no file " word[k]); continue }
            if (FILENAME ~ /PROMISES/ && path ~ /\.antt$/) {
                if (inside == 0 && cells > 1) pending = first
                names_in(path)
            }
            if (path !~ /\.edit$/) last = path
            pending = ""
            inside++
        }
        if (m == 1 && is_name(part[i])) {
            sub(/^\./, "", part[i])
            if (!(part[i] in spoken) && !(part[i] in anywhere) && !(part[i] in label) && !("crates/" part[i] in exists)) wrong("no crate defines " part[i])
        }
        if (FILENAME ~ /PROMISES/ && !is_path(part[i]) && part[i] !~ /::/) {
            pending = pending (pending == "" ? "" : "\n") part[i]
            if (cells == 1) first = pending
            inside++
        }
    }
}

BEGIN {
    # words between backquotes in docs/PROMISES.md that are no names of ours
    n = split("requires ensures if else then v t r s end at now nan_bits of_bits to_bits", word, " ")
    for (i = 1; i <= n; i++) spoken[word[i]]
}
FILENAME ~ /pages\.files$/ {
    exists[$0]
    base = $0
    sub(/.*\//, "", base)
    if ($0 !~ /^crates\//) alone[base] = $0
    if (sub(/\.edit$/, "", base)) label[base]
    next
}
FILENAME ~ /pages\.names$/ {
    defined[$1, $2]; anywhere[$2]
    if ($1 ~ /\/src\//) { split($1, part, "/"); coded[part[2] "::" $2] }
    next
}
FNR == 1 { fenced = 0 }
/^```/ { fenced = !fenced; next }
fenced || /^    / {
    for (i = 1; i <= NF; i++) if ($i ~ /^[a-z_]+::[a-z_]/) code_name($i)
    next
}
{ links($0) }
FILENAME != "CHANGELOG.md" { spans($0) }
END { if (failures) exit 1 }
END
awk -f "$out/pages.awk" "$out/pages.files" "$out/pages.names" README.md CHANGELOG.md docs/*.md tests/*.md examples/*.md || failed=1
[ "$failed" -eq 0 ] || exit 1
echo "pages: every path, link and name is there"
