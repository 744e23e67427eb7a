#!/usr/bin/env bash
# No planning call takes a tenth more instructions than it did when the figures below were taken (tools/counts; on x86-64, by callgrind). A change
# that is meant to take more stores new figures, and says why.
set -u -o pipefail
cd "$(dirname "$0")/.." || exit 2
stored='0 465
8 5332
64 49548
worst 71930
refused 59316'
mapfile -t groups < <(cut -d ' ' -f 1 <<<"$stored")
counts=$(tools/counts "${groups[@]}") || { printf '%s\n' "$counts" && exit 1; }
paste -d ' ' <(printf '%s\n' "$stored") <(printf '%s\n' "$counts") | awk '
    NF != 4 || $1 != $3 { print "no count: " $0; bad = 1; next }
    10 * $4 > 11 * $2 { print $1 ": " $4 " instructions, where it took " $2; bad = 1 }
    { said = said (said == "" ? "" : ", ") $1 " " $4 }
    END { if (!bad) print "instructions of a call: " said; exit bad }'
