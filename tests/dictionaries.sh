#!/usr/bin/env bash
# Each file of definitions opens with a dictionary that is whole: it lists every name that the file gives to others, and no other name. A line of it
# is `--   name, name2   meaning`, with two blanks or more before the meaning, and a line that is indented deeper goes on with the meaning. Fields and
# constructors are not listed.
set -u -o pipefail
cd "$(dirname "$0")/.." || exit 2
shopt -s nullglob
files=()
for file in crates/*/specs/*.antt; do
    [ "$(basename "$file")" = Lib.antt ] || files+=("$file")
done
[ "${#files[@]}" != 0 ] || { echo 'there is no file of definitions' && exit 1; }

awk '
    function wrong(text) { print file ": " text; bad = 1 }
    # what is wrong in the file that is over
    function over(   i) {
        for (i = 1; i <= listed; i++) {
            if (!(list[i] in defines)) wrong("lists what it does not define: " list[i])
            if (lists[list[i]]++) wrong("lists twice: " list[i])
        }
        for (i = 1; i <= defined; i++) if (!(define[i] in lists)) wrong("does not list: " define[i])
        names += defined
        listed = defined = 0
        split("", lists)
        split("", defines)
    }
    FNR == 1 { if (file != "") over(); file = FILENAME; top = 1 }
    !/^--/ { top = 0 }
    top && /^--   [^ ]/ {
        text = substr($0, 6)
        gap = index(text, "  ")
        if (!gap) { wrong("line " FNR " has no two blanks before a meaning"); next }
        count = split(substr(text, 1, gap - 1), words, ", ")
        for (i = 1; i <= count; i++) list[++listed] = words[i]
    }
    # a field is indented, and does not come here
    /^([a-z]+ )?pub / {
        name = $1 != "pub" || $2 ~ /^(record|data)$/ ? $3 : $2
        define[++defined] = name
        defines[name] = 1
    }
    END { over(); if (!bad) print "names " names ", files " ARGC - 1; exit bad }' "${files[@]}"
