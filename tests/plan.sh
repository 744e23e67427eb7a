#!/usr/bin/env bash
# The program `plan` itself, as built by `rt ci`: what it answers to whole, cut, long and slow inputs; that it never answers for a part of an input
# which it could not read to its end; that it says so on standard error where its input cannot be read or its answer cannot be written; and that
# it ends and does no harm where it is interrupted or killed half-way. tests/c/streams.c stands before the C library in some of the cases.
set -u -o pipefail
cd "$(dirname "$0")/.." || exit 2
. tools/x86-64.sh
c_preload streams || exit
program=plan
. tools/answers.sh
preloaded=(timeout 60 tools/run --preload target/c/streams.so plan)
example=$(<examples/two-jobs.txt)$'\n'
plan=$(<examples/two-jobs.plan.txt)$'\n'
unread=$'plan: the input cannot be read\n'
unwritten=$'plan: the answer cannot be written\n'

# answers NAME WANT COMMAND..: what it answers to the command's output.
answers() {
    "${@:3}" | "${run[@]}" >"$out" 2>"$err"
    is "$1" "${PIPESTATUS[1]}" "$2" ''
}

# treated NAME WANT COMPLAINT READS WRITES: what it answers to the example, where its first calls do what the letters say (tests/c/streams.c).
treated() {
    printf %s "$example" | READS=$4 WRITES=$5 "${preloaded[@]}" >"$out" 2>"$err"
    is "$1" "${PIPESTATUS[1]}" "$2" "$3"
}

# with_pipe: a new pipe, with descriptor 8 to write to it and 7 to read from it. Nothing here waits for the other end, and it ends once 8 is closed.
with_pipe() {
    rm -f "$made/pipe"
    mkfifo "$made/pipe" && exec 8<>"$made/pipe" && exec 7<"$made/pipe"
}

# unwaiting NAME WANT COMPLAINT BYTES [MORE]: what it answers to bytes in a pipe that does not wait; with MORE, there is more to come.
unwaiting() {
    local status
    with_pipe
    printf %s "$4" >&8
    [ -n "${5:-}" ] || exec 8>&-
    NONBLOCKING=1 "${preloaded[@]}" <&7 7<&- 8>&- >"$out" 2>"$err"
    status=$?
    exec 7<&- 8>&-
    is "$1" "$status" "$2" "$3"
}

# signalled NAME SIGNAL..: it answers the example, and the signals that it gets while it waits for the second half change nothing.
signalled() {
    local process signal rounds
    with_pipe
    printf %s "${example:0:32}" >&8
    CATCHING=1 tools/run --preload target/c/streams.so plan <&7 7<&- 8>&- >"$out" 2>"$err" &
    process=$!
    # it waits for more once it has taken the first half
    for ((rounds = 0; rounds < 200; rounds++)); do
        read -r -t 0 -u 7 || break
        sleep 0.05
    done
    exec 7<&-
    sleep 0.1
    for signal in "${@:2}"; do
        kill -s "$signal" "$process"
        sleep 0.1
    done
    printf %s "${example:32}" >&8
    exec 8>&-
    wait "$process"
    is "$1" "$?" "$plan" ''
}

digits() { head -c "$1" /dev/zero | tr '\0' 0; }

times() { printf "$2%.0s" $(seq "$1"); }

pieces() {
    local at
    for ((at = 0; at < ${#example}; at += 9)); do
        printf %s "${example:at:9}"
        sleep 0.1
    done
}

answers 'the whole example' "$plan" printf %s "$example"
answers 'in capitals' "$plan" printf %s "${example^^}"
answers 'no last line feed' "$plan" printf %s "${example%$'\n'}"
answers 'in pieces' "$plan" pieces
# The refusals that README shows.
mapfile -t refused < <(sed -nE 's/^    (1f[0-9a-f]{4}) .*/\1/p' README.md)
third() { printf %s "$example" && sed -n 2p examples/two-jobs.txt; }
two_more() { printf %s "$example" && times 2 '02010000000600000000\n'; }
answers 'a third job like job 0' "${refused[0]}"$'\n' third
answers 'two more jobs on the first kind only' "${refused[1]}"$'\n' two_more

answers 'no input' $'1f0a01\n' true
answers '4,095 bytes' $'1f0801\n' digits 4095
answers '4,096 bytes' $'1f0901\n' digits 4096
answers '4,097 bytes' $'1f0800\n' digits 4097
answers '100,000 bytes' $'1f0800\n' digits 100000

# The longest answer: 64 jobs on 8 and 8 cores with 94 slices (planner/proofs/Examples.antt has the same set).
longest() {
    printf '01%04x0808\n' 1000
    { times 15 '800 1338 ' && echo 400 900; } | xargs printf '0200%08x%08x\n'
    times 24 '10 ' | xargs printf '0201%08x00000000\n'
    times 24 '5 ' | xargs printf '020200000000%08x\n'
}
longest | "${run[@]}" >"$out" 2>"$err"
if [ "${PIPESTATUS[1]} $(wc -c <"$out") $(head -n 1 "$out") $(wc -l <"$out") $(wc -c <"$err")" != "0 $(header_number OUT_MOST) 10405e 159 0" ]; then
    echo "the longest answer: $(wc -c <"$out") bytes, of which the first line is '$(head -n 1 "$out")'"
    bad=1
fi

"${run[@]}" <. >"$out" 2>"$err"
is 'a directory for input' "$?" '' "$unread"
"${run[@]}" <&- >"$out" 2>"$err"
is 'closed input' "$?" '' "$unread"
: >"$err"
"${run[@]}" <. >"$out" 2>&-
is 'a directory for input, closed standard error' "$?" '' ''
unwaiting 'two pieces through a pipe that does not wait' '' "$unread" "${example:0:32}" more
unwaiting 'all of it in a pipe that does not wait' "$plan" '' "$example"

# no more than 1,000 interrupted calls are borne
treated 'interrupted reads' "$plan" '' i1i1ii1i ''
treated '1,000 interrupted reads' "$plan" '' "$(times 1000 i)" ''
treated '1,001 interrupted reads' '' "$unread" "$(times 1001 i)" ''
treated '1,001 interrupted reads among others' '' "$unread" "1$(times 500 i)1$(times 501 i)" ''
treated 'reads of a byte' "$plan" '' "$(times 100 1)" ''
treated 'a first read that fails' '' "$unread" f ''
treated 'a later read that fails' '' "$unread" "$(times 32 1)f" ''
treated 'a read that fails where the end is' '' "$unread" "$(times ${#example} 1)f" ''
signalled 'stopped and continued' STOP CONT STOP CONT
signalled 'a signal that is caught' WINCH WINCH WINCH

treated 'interrupted writes' "$plan" '' '' i1i1ii1i
treated '1,000 interrupted writes' "$plan" '' '' "$(times 1000 i)"
treated '1,001 interrupted writes' '' "$unwritten" '' "$(times 1001 i)"
treated 'writes of a byte' "$plan" '' '' "$(times 100 1)"
treated 'a first write that fails' '' "$unwritten" '' f
treated 'a later write that fails' "${plan:0:7}" "$unwritten" '' 1111111f
treated 'a write that takes nothing' "${plan:0:7}" "$unwritten" '' 1111111n

"${run[@]}" <<<"$example" >&- 2>"$err"
is 'closed output' "$?" '' "$unwritten"
"${run[@]}" <<<"$example" >/dev/full 2>"$err"
is 'full output' "$?" '' "$unwritten"

# the reader is gone before the answer comes: the system ends the program by a signal (141), or fails its write where that signal is ignored
"${run[@]}" < <(sleep 1 && printf %s "$example") 2>"$err" | true
status=${PIPESTATUS[0]}
if [ "$status" = 141 ]; then
    is 'output that nobody reads' 0 '' ''
else
    is 'output that nobody reads' "$status" '' "$unwritten"
fi

# the subshell keeps bash's own word on the killing
(timeout -s KILL 1 tools/run plan < <(printf %s "${example:0:20}" && exec sleep 2) >"$out" 2>"$err"; exit "$?") 2>/dev/null
status=$?
is 'killed half-way' "$((status == 137 ? 0 : 1))" '' ''

echo "$seen answers"
exit $bad
