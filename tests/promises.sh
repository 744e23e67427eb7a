#!/usr/bin/env bash
# docs/PROMISES.md and the must-fail edits speak of each other. A name in brackets is an edit of the crate whose part it stands in, and each edit is
# named so. A row of a public function, in a table whose first column is `function`, names two edits or more, or says why it names fewer:
# `one edit, since ..` or `no edit, since ..`. The part "What has to be believed" lists the files of definitions that do not open as internal.
set -u -o pipefail
cd "$(dirname "$0")/.." || exit 2
shopt -s nullglob
edits=(crates/*/must-fail/*.edit)

# The files that a reader has to believe: those that are listed, and those that are there.
believed=$(sed -n '/^## What has to be believed/,/^## [^W]/s/^| \([^|]*antt\) |.*/\1/p' docs/PROMISES.md | tr -d ' ' | tr ',' '\n' | LC_ALL=C sort)
public=$(for file in crates/*/specs/*.antt; do
    [[ $file == */Lib.antt ]] || head -n 1 "$file" | grep -q '^-- Internal: no public promise cites this\.' || echo "${file#crates/}"
done | LC_ALL=C sort)
if [ "$believed" != "$public" ]; then
    diff <(echo "$believed") <(echo "$public") | sed -n 's/^< /listed, and internal or not there: /p; s/^> /not listed: /p'
    exit 1
fi

awk -v edits="${edits[*]}" '
    function wrong(text) { print text; bad = 1 }
    # how many names of edits stand in brackets in a text
    function names(text,   count, found, n, i) {
        count = 0
        while (match(text, /\[[a-z0-9_]+(, [a-z0-9_]+)*\]/)) {
            n = split(substr(text, RSTART + 1, RLENGTH - 2), found, ", ")
            for (i = 1; i <= n; i++) named[crate "/must-fail/" found[i]] = 1
            count += n
            text = substr(text, RSTART + RLENGTH)
        }
        return count
    }
    # what stands between two tables is looked at as a whole: a list of names may go on in the next line
    function prose_is_over() { names(prose); prose = "" }
    /^## / { prose_is_over(); crate = "crates/" $2 }
    !/^\|/ { prose = prose " " $0; table = ""; next }
    table == "" { prose_is_over(); table = $0; next }
    /^\|[-|: ]+$/ { next }
    {
        count = names($0)
        if (table !~ /^\| function \|/) next
        rows++
        few = count ? "one edit" : "no edit"
        if (count < 2 && !index($0, few ", since ")) { split($0, cell, "|"); wrong(crate ":" cell[2] "names " few ", and does not say why") }
    }
    END {
        prose_is_over()
        if (!rows) wrong("there is no row of a function")
        count = split(edits, edit, " ")
        for (i = 1; i <= count; i++) {
            sub(/\.edit$/, "", edit[i])
            if (!(edit[i] in named)) wrong(edit[i] ": not named")
            delete named[edit[i]]
        }
        for (name in named) wrong(name ": named, and there is no such edit")
        if (!bad) print rows " functions, " count " edits"
        exit bad
    }' docs/PROMISES.md
