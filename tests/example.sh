#!/usr/bin/env bash
# The example in C links the static library, as C99 without a warning, reads the answers to the stored sets into structs, and prints what it
# should. The library has the header's entries, and needs what the header says. Where the whole example is written out, it is the stored one.
set -u -o pipefail
cd "$(dirname "$0")/.." || exit 2
. tools/x86-64.sh
c_program example -std=c99 -pedantic-errors || exit
[ -s tests/c/example.stdout ] && $emulator target/c/example examples/two-jobs.txt examples/no-window.txt | diff - tests/c/example.stdout || exit 1
symbols=$("$nm" -gP target/staticlib/libclampfern.a | awk 'NF > 1 { print $2, $1 }' | LC_ALL=C sort | tr '\n' ';')
wanted='T clampfern_pack;T clampfern_packed_tick;T clampfern_plan;T clampfern_tick;U memcpy;U memset;'
[ "$symbols" = "$wanted" ] || { echo "the library has (T) and needs (U): $symbols" && exit 1; }

# is_stored NAME FILE: the lines from standard input are those of the stored file.
is_stored() {
    diff - "$2" || { echo "$1 has another example than $2" && bad=1; }
}

# shown PAGE RECORDS: the lines with these records that a page shows in its blocks, without the words behind them.
shown() {
    sed -nE "s/^    (($2)([0-9a-f]{2})+)( .*)?$/\1/p" "$1"
}
bad=0
for page in README.md docs/SPEC.md; do
    is_stored "$page" examples/two-jobs.txt < <(shown "$page" '01|02')
    is_stored "$page" examples/two-jobs.plan.txt < <(shown "$page" '10|11|12')
done
# on these `rt ci` runs the program
is_stored 'the input of plan' examples/two-jobs.txt <crates/plan/stdin
is_stored 'the output of plan' examples/two-jobs.plan.txt <crates/plan/stdout
exit $bad
