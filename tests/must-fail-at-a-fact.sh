#!/usr/bin/env bash
# Each must-fail edit is refused at the fact that it names. Its first line `shows:` is the wrong behaviour that is ruled out, its second line `at:`
# the first fact that fails: a theorem, or a function with the name of the goal that stays open, whether it is shown false or no proof is found. A
# refusal only because a proof names what the edit took away, or only by a limit at which the prover gives no verdict, or of an edit that is not well
# formed, shows nothing of the promise. An edit of a definition or of a contract
# is named `definition_..`, and no other is. Each library has an edit. Run after `rt ci`, whose log (target/ci.log) has a line for each edit.
set -u -o pipefail
cd "$(dirname "$0")/.." || exit 2
bad=0
edits=0
log=target/ci.log
[ -f "$log" ] || { echo "there is no $log: .ci/run writes it" && exit 1; }

# wrong WHAT WORD..: says what is wrong with it.
wrong() {
    printf '%s: %s\n' "$1" "${*:2}"
    bad=1
}

# refused_at CRATE LINE: the fact that the log's line refuses an edit at, or nothing where that is none. An edit has a line for a line, so that a note
# on a source's line speaks of the function that stands there in the crate itself.
refused_at() {
    awk -v crate="$1" -v line="$2" '
        # the function that stands on a line of a source, or under the attributes there, behind its modules
        function function_at(file, number,   text, modules, found, at) {
            modules = file
            sub(/^src\//, "", modules)
            sub(/^(lib|main)\.rt$/, "", modules)
            sub(/\.rt$/, "/", modules)
            while (at++ < number || text ~ /^ *#\[/) {
                if ((getline text <("crates/" crate "/" file)) < 1) return ""
                if (text ~ /(^|[ (])fn [a-z0-9_]+[(<]/) { found = text; sub(/.*fn /, "", found); sub(/[^a-z0-9_].*/, "", found) }
            }
            return modules found
        }
        # the function that a proof is of, or nothing where a file has theorems
        function proof_of(file) { return sub(/\/(Answers|Invariants)\.antt$/, " ", file) && sub(/^proofs\//, "", file) ? file : "" }
        function say(text) { gsub("/", "::", text); print text; exit }
        BEGIN {
            sub(/^\.\//, "", line)
            if (match(line, /: error: `[^`]+`: /)) {
                fact = substr(line, RSTART + 10, RLENGTH - 13)
                split(line, at, ":")
                say(proof_of(at[1]) fact)
            }
            if (sub(/^note: (\.\/)?/, "", line) && line ~ /: it is not proved that / && match(line, /\(`[^`]+`\)/)) {
                fact = substr(line, RSTART + 2, RLENGTH - 4)
                split(line, at, ":")
                say(function_at(at[1], at[2]) " " fact)
            }
        }'
}

for library in crates/*/src/lib.rt; do
    crate=${library%/src/lib.rt}
    ls "$crate"/must-fail/*.edit >/dev/null 2>&1 || wrong "$crate" 'no must-fail edit'
done
for edit in crates/*/must-fail/*.edit; do
    edits=$((edits + 1))
    label=$(basename "$edit" .edit)
    crate=$(basename "$(dirname "$(dirname "$edit")")")
    grep -qE '^shows: .' <(sed -n 1p "$edit") || wrong "$edit" "the first line is no 'shows:'"
    at=$(sed -nE '2s/^at: (.+)/\1/p' "$edit")
    [ -n "$at" ] || wrong "$edit" "the second line is no 'at:'"
    defines=no named=no
    ! grep -qE '^file: specs/|^(old|new): .*\<(requires|ensures)\>.*\{' "$edit" || defines=yes
    [[ $label != definition_* ]] || named=yes
    case $defines$named in
    yesno) wrong "$edit" "changes a definition, and is not named 'definition_..'" ;;
    noyes) wrong "$edit" "changes no definition, and is named 'definition_..'" ;;
    esac
    said=$(sed -n "s,^rt: must-fail $crate/$label\.edit: refused\, as it must be: ,,p" "$log" | tail -n 1)
    if ! grep -qF "rt: must-fail $crate/$label.edit: " "$log"; then
        wrong "$edit" 'not in the log'
        continue
    fi
    fact=$(refused_at "$crate" "$said")
    if [ -z "$fact" ]; then
        wrong "$edit" "not refused at a fact: $(grep -m 1 -F "rt: must-fail $crate/$label.edit: " "$log" | cut -c 1-300)"
    elif [ "$fact" != "$at" ]; then
        wrong "$edit" "refused at '$fact', and not at '$at'"
    fi
done
[ "$edits" != 0 ] || bad=1
[ "$bad" != 0 ] || echo "$edits edits"
exit $bad
