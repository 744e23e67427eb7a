#!/usr/bin/env bash
# The independent planner's own tests: the sets and texts that the rules name, its checker, its test of splits in fractions, its generator, its tick
# handler. Each file of independent/tests must have run some, none may be left out, and in all there must be as many as there were when this was
# written.
set -u -o pipefail
cd "$(dirname "$0")/../independent" || exit 2
log=$(cargo test --release --offline --color never 2>&1) || { printf '%s\n' "$log" && exit 1; }
printf '%s\n' "$log" | awk -v least=94 -v files="$(echo tests/*.rs)" '
    function wrong(what) { print what; bad = 1 }
    $1 == "Running" { file = $2 }
    /^test result: / {
        ran[file] += $4
        all += $4
        if ($0 !~ /^test result: ok\. [0-9]+ passed; 0 failed; 0 ignored; 0 measured; 0 filtered out;/) wrong(file ": " $0)
    }
    END {
        count = split(files, names, " ")
        for (i = 1; i <= count; i++) if (ran[names[i]] == 0) wrong(names[i] ": no test ran")
        if (all < least) wrong(all + 0 " tests ran, fewer than " least)
        if (!bad) print all " tests"
        exit bad
    }'
