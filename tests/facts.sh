#!/usr/bin/env bash
# The program `facts`, as built by `rt ci`: the starting balance and the moves, or the refusal, of some sets; and that it never says `lent wrong`,
# which it would where the lent call kept to other rows, or gave other moves, than it should. First a table: a row is a set's lines and the lines to
# be said of it. Then many texts, of which the independent planner says the same.
set -u -o pipefail
cd "$(dirname "$0")/.." || exit 2
. tools/x86-64.sh
program=facts
. tools/answers.sh

# says NAME SET WANT: what it says of a set. A blank of a set stands for a line feed, and so does a semicolon of what is said.
says() {
    printf %s "${2:+$2 }" | tr ' ' '\n' | "${run[@]}" >"$out" 2>"$err"
    is "$1" "$?" "$(printf %s "$3" | tr ';' '\n')"$'\n' ''
}

# times COUNT WORD: the word so many times, a blank before each.
times() { printf " $2%.0s" $(seq "$1"); }

twice=02000000000a0000000a # B(10,10)
six=02000000000600000010   # B(6,16)
ten=02000000001000000006   # B(16,6)

says 'one mover' "$(<examples/two-jobs.txt)" 'balance -2 10;moves 0 0 0;moves 1 2 0'
says 'even movers' "01000a0202 $six $six $six 02010000000800000000" 'balance -6 20;moves 0 2 0;moves 1 2 1;moves 2 2 1;moves 3 0 0'
says 'as many moves as can be' "01000a0202$(times 3 02000000000800000010) 0200000000060000000c" \
    'balance -10 20;moves 0 2 0;moves 1 2 1;moves 2 2 1;moves 3 2 0'
says 'two cores of the first kind' "01000a0201$(times 3 02010000000600000000)" 'balance 2 10;moves 0 0 0;moves 1 0 2;moves 2 0 0'
says 'two cores of the second kind' "01000a0102$(times 3 02020000000000000006)" 'balance 10 2;moves 0 0 0;moves 1 0 2;moves 2 0 0'
says '64 jobs' "01000a0808$(times 64 02020000000000000001)" "balance 80 16$(for ((i = 0; i < 64; i++)); do printf ';moves %d 0 0' "$i"; done)"
says 'no jobs' 01000a0101 'balance 10 10'

says 'no room on the second kind for what the first has to give' "01000a0101 $twice $twice $twice" 'balance -20 10;refused 16 0'
says 'no room for a stretched job on the first kind' "01000a0202 $six $six $six 02010000000900000000" 'balance -7 20;refused 14 0'
says 'no room for a stretched job on the second kind' "01000a0202 $ten $ten $ten 02020000000000000009" 'balance 20 -7;refused 15 0'
says 'no room on either' '01000a0101 02010000000600000000 02010000000600000000 02020000000000000007 02020000000000000007' 'balance -2 -4;refused 6 0'

says 'a window of 0' "0100000101 $six" 'refused 1 0'
says 'nine cores' "01000a0109 $six" 'refused 2 0'
says '65 jobs' "01000a0808$(times 65 02020000000000000001)" 'refused 3 64'
says 'a cost of 0' "01000a0101 $six 02010000000000000000" 'refused 4 1'
says 'a cost above the window' "01000a0101 $six $six 02010000000b00000000" 'refused 5 2'
says 'an odd digit' "01000a0101 $six 0" 'refused 8 3'
says 'an unknown record' '01000a0101 03' 'refused 9 2'
says 'a second board' '01000a0101 01000a0101' 'refused 10 2'
says 'no text' '' 'refused 10 1'
says 'a long text' "$(times 4097 0 | tr -d ' ')" 'refused 8 0'

"${run[@]}" <. >"$out" 2>"$err"
is 'a directory for input' "$?" '' $'facts: the input cannot be read\n'

# each piece that cannot be written is complained of
"${run[@]}" <<<01000a0101 >/dev/full 2>"$err"
status=$?
sort -u -o "$err" "$err"
is 'full output' "$status" '' $'facts: the answer cannot be written\n'

# compared LEAST FAMILY..: the independent planner says the same of each text of a family, of which there are some at the least.
compared() {
    local counts
    counts=$(independent/target/release/independent compare-facts "${@:2}" -- "${loader[@]}" "$(program_file facts)") || { bad=1 && return; }
    [[ $counts =~ ^texts\ ([0-9]+) ]] && [ "${BASH_REMATCH[1]}" -ge "$1" ] || { echo "${*:2}: fewer than $1 texts" && bad=1 && return; }
    seen=$((seen + BASH_REMATCH[1]))
}

quietly cargo build --release --offline --quiet --manifest-path independent/Cargo.toml || exit
compared 95 named
compared 2368 --every 61 small
compared 3000 gen 1 3000

echo "$seen answers"
exit $bad
