#!/usr/bin/env bash
# The C header says what the library is: the entries of the Rattle source and no other, each type exactly, and the sources' number for each limit,
# code and refusal. It compiles as C and C++ of each standard without a warning, by itself and when it is included twice.
set -u -o pipefail
cd "$(dirname "$0")/.." || exit 2
. tools/x86-64.sh
find_compilers || exit
header=include/clampfern.h
temporary=$(mktemp -d) || exit
trap 'rm -rf "$temporary"' EXIT
bad=0

wrong() {
    printf '%s\n' "$*"
    bad=1
}

# The entries as header and tests/c/header.c were written for them. Who changes one has to look there.
written='pub extern "C" fn clampfern_pack(lines: &[u8], table: &mut [u8]) -> usize
pub extern "C" fn clampfern_packed_tick(table: &[u8], tick: u32, kind: u32, core: u32) -> u32
pub extern "C" fn clampfern_plan(text: &[u8], out: &mut [u8]) -> usize
pub extern "C" fn clampfern_tick(lines: &[u8], tick: u32, kind: u32, core: u32) -> u32'
entries=$(grep -rhE --include='*.rt' 'extern[[:space:]]+"' crates | LC_ALL=C sort)
[ "$entries" = "$written" ] || wrong "the sources have these entries: $entries"

# What the header declares and defines by itself: the standard's headers are empty here.
mkdir "$temporary/empty" && touch "$temporary/empty/stddef.h" "$temporary/empty/stdint.h"
alone=("$cc" -std=c11 -E -P -nostdinc -I "$temporary/empty")
declared=$("${alone[@]}" "$header") || wrong "$header does not go through the preprocessor"
functions=$(grep -oE '[A-Za-z0-9_]+[[:space:]]*\(' <<<"$declared" | tr -d ' (' | LC_ALL=C sort)
[ "$functions" = "$(sed -E 's/.* fn ([a-z0-9_]+)\(.*/\1/' <<<"$entries")" ] || wrong "$header declares these functions: $functions"

# The header's limits and codes: each with its value by constants of the sources, and its definition (a dash: it is a sum over others, or a promise
# holds the code to it). A new one is a new row.
limits='
WINDOW_MOST   WINDOW_MOST                         window_most
CORES_MOST    CORES_MOST                          cores_most
JOBS_MOST     JOBS_MOST                           jobs_most
COST_MOST     COST_MOST                           cost_most
TEXT_MOST     TEXT_MOST                           text_most
SLICES_MOST   SLICES_MOST                         slices_most
OUT_MOST      ANSWER_MOST                         -
PACKED_MOST   BOARD_SIZE+SLICE_SIZE*ROWS_MOST     -
TICK_IDLE     IDLE                                -
TICK_REFUSED  REFUSAL_BASE                        -'

# numbers: a line NAME NUMBER for each number that the sources have for the header.
numbers() {
    local name value constant definition
    # the constants of the sources, as variables whose values the shell works out; the prefix keeps their names apart from its own
    while read -r name value; do
        [[ $value =~ ^(proved_[A-Z0-9_]+|[0-9 +*()-])+$ ]] || continue
        [ -z "${!name:-}" ] || { echo "${name#proved_} has two values" && return 1; } >&2
        local "$name=$value"
    done < <(sed 's,//.*,,' crates/{model,text,kernel,clampfern}/src/*.rt | tr '\n' ' ' | grep -oE 'const [A-Z0-9_]+: (usize|u32) = [^;]+;' |
        sort -u | sed -E 's/^const ([A-Z0-9_]+): [a-z0-9]+ = (.*);$/\1 \2/; s/[a-z_]+:://g; s/([0-9])_([0-9])/\1\2/g; s/[A-Z][A-Z0-9_]*/proved_&/g')
    while read -r name value definition; do
        value=$(sed -E 's/[A-Z_]+/proved_&/g' <<<"$value")
        for constant in ${value//[+*]/ }; do
            [ -n "${!constant:-}" ] || { echo "the sources give no ${constant#proved_}" && return 1; } >&2
        done
        value=$((value))
        if [ "$definition" != - ] && ! grep -qx "$definition = $value" crates/model/specs/Limits.antt; then
            echo "$definition is not $value" >&2
            return 1
        fi
        echo "$name $value"
    done <<<"${limits#$'\n'}"
    # the arms of the function `number`, of which TooShort is REFUSAL_TOO_SHORT
    sed -n '/^pub fn number(/,/^}/p' crates/model/src/lib.rt | sed -nE 's/^ *Refusal::([A-Za-z]+)(\(_\))? => ([0-9]+),$/\1 \3/p' |
        sed -E 's/([a-z])([A-Z])/\1_\2/g; s/^[^ ]+/REFUSAL_\U&/'
}
numbers >"$temporary/numbers" || exit 1
sed -E 's/(.*) (.*)/IS(\1, \2)/' "$temporary/numbers" >"$temporary/numbers.h"

# Nothing of the header has another name. The stack is tests/stack.sh's.
named=$("${alone[@]}" -dM "$header" | sed -nE 's/^#define (CLAMPFERN_[A-Z0-9_]+) ..*/\1/p' && grep -oE 'CLAMPFERN_[A-Z0-9_]+' <<<"$declared")
more=$(LC_ALL=C comm -23 <(printf '%s\n' "${named//CLAMPFERN_/}" | LC_ALL=C sort) <(sed 's/ .*//; $a STACK_MOST' "$temporary/numbers" | LC_ALL=C sort))
[ -z "$more" ] || wrong "$header has numbers that the sources have not: ${more//$'\n'/ }"

# The page for readers in C has a row for each refusal.
while read -r name number; do
    row="| $number | \`${name#REFUSAL_}\` |"
    grep -qF "$row" docs/REFUSALS.md || wrong "docs/REFUSALS.md has no row $row"
done < <(grep ^REFUSAL_ "$temporary/numbers")

# compiles COMPILER WORD..: the header alone, and what holds it.
compiles() {
    quietly "$@" -fsyntax-only "$header" && quietly "$@" -fsyntax-only -Iinclude -I"$temporary" tests/c/header.c || exit 1
}
warnings=(-pedantic-errors -Wall -Wextra -Wpedantic -Wconversion -Wsign-conversion -Wcast-qual -Wundef -Wshadow -Werror)
for standard in c99 c11 c17; do
    compiles "$cc" -x c -std=$standard "${warnings[@]}" -Wstrict-prototypes -Wmissing-prototypes -Wc++-compat
done
for standard in c++98 c++11 c++14 c++17 c++20; do
    compiles "$cxx" -x c++ -std=$standard "${warnings[@]}" -Wold-style-cast -Wmissing-declarations
done
[ "$bad" != 0 ] || echo "$(wc -l <"$temporary/numbers") numbers"
exit $bad
