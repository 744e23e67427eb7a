#!/usr/bin/env bash
# The stack that a call needs at its deepest, read off the code as it is built (tools/stack): of each C entry in a program in C that calls them all,
# and of the lent planning call in the program `facts`. There the compiler takes the call into a function that does nothing else, and is put into no
# caller itself (`plan_lent`): so what is read is the call's, and nothing is taken off. No call needs more than is promised; the C header promises the
# same.
set -u -o pipefail
cd "$(dirname "$0")/.." || exit 2
. tools/x86-64.sh
most=4096
bad=0
report=
c_program window || exit

# within NAME FILE FUNCTION: what the function needs.
within() {
    local size
    size=$(tools/stack "$2" "$3") || { bad=1 && return; }
    report+="${report:+, }$1 $size bytes"
    [ "$size" -le "$most" ] || { echo "$1 needs $size bytes of stack, and $most are promised" && bad=1; }
}

for entry in plan tick pack packed_tick; do
    within "clampfern_$entry" target/c/window "clampfern_$entry"
done
within planner::plan "$(program_file facts)" facts::plan_lent
promised=$(header_number STACK_MOST)
[ "$promised" = "$most" ] || { echo "the header promises '$promised' bytes of stack, and not $most" && bad=1; }
[ "$bad" != 0 ] || echo "$report"
exit $bad
