#!/usr/bin/env bash
# The planner's answers are the independent planner's, byte for byte, and the checker objects to none: the named sets, all small sets, and random
# texts. The random texts are the same in each run; SEED and COUNT in the environment choose others. From 20,000 of them on, each refusal must be
# among their answers, those for room by their causes: a comparison without one fails.
set -u -o pipefail
cd "$(dirname "$0")/.." || exit 2
seed=${SEED:-1}
count=${COUNT:-200000}
[[ $count =~ ^[1-9][0-9]*$ ]] || { echo "COUNT is $count: not a number above 0" && exit 2; }
# 95 named sets and 144,437 small ones at the least
least=$((95 + 144437 + count))
echo "named and small sets, and $count random texts of seed $seed"
counts=$(tools/compare named small "gen $seed $count")
status=$?
printf '%s\n' "$counts"
[ "$status" = 0 ] || exit "$status"
[[ $counts =~ ^texts\ ([0-9]+), ]] && [ "${BASH_REMATCH[1]}" -ge "$least" ] || { echo "fewer than $least texts were compared" && exit 1; }
