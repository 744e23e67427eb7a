#!/usr/bin/env bash
# The tick handler says what the independent one says: its C entries of many tables, right and wrong ones, each asked for a core at a tick by its
# lines and by its packed bytes (tests/c/ticks.c), and the program `window`, as built by `rt ci`, of whole windows. Then a program in C plans
# stored sets, runs a window of each, and adds up the ticks of each job (tests/c/window.c). The tables are the same in each run; SEED and COUNT in
# the environment choose others.
set -u -o pipefail
cd "$(dirname "$0")/.." || exit 2
. tools/x86-64.sh
program=window
. tools/answers.sh
seed=${SEED:-1}
count=${COUNT:-200000}
[[ $count =~ ^[1-9][0-9]*$ ]] || { echo "COUNT is $count: not a number above 0" && exit 2; }
c_program ticks && c_program window -std=c99 -pedantic-errors || exit
quietly cargo build --release --offline --quiet --manifest-path independent/Cargo.toml || exit
independent=independent/target/release/independent

# at_least LEAST NAME COUNTS: as many as that were counted under the name, whose number follows it.
at_least() {
    [[ $3 =~ (^|[[:space:]])$2\ ([0-9]+) ]] && [ "${BASH_REMATCH[2]}" -ge "$1" ] || { echo "fewer than $1 under '$2': $3" && bad=1; }
}

counts=$($independent lines "$seed" "$count" | $emulator target/c/ticks | $independent compare lines "$seed" "$count") || exit 1
at_least "$count" queries "$counts"
# every answer was given: a job, none, and each refusal that there is for it
for answer in named idle 1: 2: 8: 9: 10: 11: 12: 13:; do
    [ "$count" -lt 20000 ] || at_least 100 "$answer" "$counts"
done

# a text with a long window is left out here
windows=$($independent compare-window lines "$seed" 2000 -- "${loader[@]}" "$(program_file window)") || exit 1
at_least 1500 texts "$windows"
at_least 500 accepted "$windows"
at_least 500 refused "$windows"

"${run[@]}" <. >"$out" 2>"$err"
is 'a directory for input' "$?" '' $'window: the input cannot be read\n'
# each piece that cannot be written is complained of
"${run[@]}" <crates/window/stdin >/dev/full 2>"$err"
status=$?
sort -u -o "$err" "$err"
is 'full output' "$status" '' $'window: the answer cannot be written\n'

sets=(examples/{two-jobs,no-window,even-movers,most-jobs,most-slices,long-window}.txt)
[ -s tests/c/window.stdout ] && $emulator target/c/window "${sets[@]}" | diff - tests/c/window.stdout || bad=1

[ "$bad" != 0 ] || echo "$counts, windows: ${windows//$'\n'/, }"
exit $bad
