# For a test of a program that rt built: `program=NAME`, and then it is sourced from the top of the repository. The test runs the program by
# "${run[@]}" with its outputs to the files "$out" and "$err", asks `is` of each answer, and ends with `exit $bad`. `seen` counts the answers.
# shellcheck shell=bash disable=SC2034 # who sources it uses them
bad=0
seen=0
made=$(mktemp -d) || exit
trap 'rm -rf "$made"' EXIT
out=$made/out
err=$made/err
run=(timeout 60 tools/run "$program")

# is NAME STATUS WANT COMPLAINT: the program ended with status 0, and wrote exactly this to standard output and exactly that to standard error.
is() {
    seen=$((seen + 1))
    if [ "$2" != 0 ] || ! printf %s "$3" | cmp -s - "$out" || ! printf %s "$4" | cmp -s - "$err"; then
        printf '%s: status %s, answer:\n' "$1" "$2"
        cat "$out"
        printf 'standard error:\n'
        cat "$err"
        bad=1
    fi
    : >"$out"
}
