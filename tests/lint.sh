#!/usr/bin/env bash
# rustfmt lays out the independent planner as it is, and clippy and shellcheck find nothing in it and in the scripts. A tool that is not on the
# machine looks at nothing, which the last line says.
set -u -o pipefail
cd "$(dirname "$0")/.." || exit 2
shopt -s nullglob
bad=0
report=

# lint TOOL WORDS..: has the tool, which may be two words, look at what the words say.
lint() {
    local name=$1 tool log
    shift
    read -ra tool <<<"$name"
    if ! "${tool[@]}" --version >/dev/null 2>&1; then
        report+="${report:+, }$name: not on this machine"
    elif log=$("${tool[@]}" "$@" 2>&1); then
        report+="${report:+, }$name: nothing found"
    else
        printf '%s\n%s: this is not to be\n' "$log" "$name"
        bad=1
    fi
}

scripts=(.ci/run tests/*.sh tools/*.sh)
for script in tools/*; do
    [[ $(head -n 1 "$script") != '#!'*sh ]] || scripts+=("$script")
done
cd independent || exit 2
lint 'cargo fmt' --check
lint 'cargo clippy' --offline --quiet --all-targets -- -D warnings
cd .. || exit 2
# Not looked for: `a && b || c`, by which c is meant to run where either fails; dollars in single quotes; functions that are called by a variable.
lint shellcheck -x -e SC2015,SC2016,SC2317 "${scripts[@]}"
[ "$bad" != 0 ] || echo "$report"
exit $bad
