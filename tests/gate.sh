#!/usr/bin/env bash
# The gate and its tests cannot be hollowed out. Each is run on a small stand-in of the repository, in which `rt`, `cargo`, the C compiler and the
# independent planner say what the files of said/ have: it passes there, and fails, saying why, once something is taken away or made wrong.
set -u -o pipefail
cd "$(dirname "$0")/.." || exit 2
room=$(mktemp -d) || exit
trap 'rm -rf "$room"' EXIT
bad=0
tries=0
unset SEED COUNT

# ---- the stand-in, and the programs that stand in
mkdir -p "$room/whole/said" "$room/whole/docs" "$room/whole/independent/target/release" "$room/bin"
cp -R .ci README.md examples include tests tools "$room/whole"
cp --parents docs/SPEC.md docs/REFUSALS.md crates/plan/std{in,out} crates/window/stdin crates/model/specs/Limits.antt "$room/whole"
cp -R independent/tests "$room/whole/independent"
read -ra tests < <(sed -nE 's/^tests=\((.*)\)$/\1/p' .ci/run)
libraries=(model text kernel clampfern clampfern_c)
all=$((2 * ${#libraries[@]} + 1)) # each library and its edit, and the program
(
    cd "$room/whole" || exit
    printf '%s:\n' "${libraries[@]}" plan | sed 's/^clampfern_c:/clampfern_c staticlib: clampfern/' >crates.txt
    mkdir -p crates/plan/src && touch crates/plan/src/main.rt
    for crate in "${libraries[@]}"; do
        mkdir -p "crates/$crate/must-fail" target
        cp -R "$OLDPWD/crates/$crate/src" "crates/$crate"
        printf '%s\n' 'shows: a wrong answer' 'at: a-fact' 'file: src/lib.rt' 'old: a' 'new: b' >"crates/$crate/must-fail/one.edit"
        echo "rt: must-fail $crate/one.edit: refused, as it must be: ./proofs/Facts.antt:1:1: error: \`a-fact\`: it does not follow" >>target/ci.log
        printf '%s\n' "## $crate" '| function | rules out |' '|---|---|' '| `f(x)` | a wrong answer [one]; one edit, since no other is wrong |' \
            '' '| theorem | says |' '|---|---|' '| `law` | what holds |' '' 'Names may go on in the next line [one,' 'one].' ''
    done >docs/PROMISES.md
    printf '%s\n' '## What has to be believed' '| file | what it says |' '|---|---|' '| model/specs/Limits.antt, model/specs/Some.antt | numbers |' >>docs/PROMISES.md
    printf '%s\n' '-- Some definitions.' '--   one, two   numbers; more' '--   Three      a record, and' '--              its fields' '' '--   four   none' \
        'abbrev pub one : ℕ' 'unfoldable pub two : ℕ' 'abbrev own : ℕ' 'pub record Three : Type 0 where' '  pub field : ℕ' >crates/model/specs/Some.antt
    touch crates/model/specs/Lib.antt
    cd said || exit
    echo 'kit logic 0123' >version
    echo 0 >status
    touch absent
    {
        printf 'logic=proved functions=1 sum=0123 native=nat\nrt: %s proved\n' "${libraries[@]}" plan
        cat ../target/ci.log
        printf 'rt: plan ran, and wrote what its file stdout has\n'
        printf 'rt: ok; handles allowed: none; must-fail edits: %s refused\n%s passed, 0 failed\n' "${#libraries[@]}" "$all"
    } >ci
    for file in ../independent/tests/*.rs; do
        printf '     Running tests/%s (target/release/deps/x)\nrunning 100 tests\n' "$(basename "$file")"
        echo 'test result: ok. 100 passed; 0 failed; 0 ignored; 0 measured; 0 filtered out; finished in 0.00s'
    done >cargo
    printf '#!/bin/sh\ncat\n' | tee ticks >frames
    printf '#!/bin/sh\ncat tests/c/example.stdout\n' | tee bench >example
    printf '#!/bin/sh\ncat tests/c/window.stdout\n' >window
    printf '%s\n' 'lib.a[x.o]:' 'clampfern_'{plan,tick,pack,packed_tick}' T 0 1' 'memcpy U' 'memset U' >symbols
    printf '%s\n' '0000 <clampfern_plan>:' $'   0:\tpush   %rbx' $'   1:\tsub    $0x10,%rsp' $'   2:\tcall   10 <split::steps>' $'   3:\tret' \
        '0010 <split::steps>:' $'  10:\tmov    %eax,-0x18(%rsp)' $'  11:\tret' '0020 <facts::plan_lent>:' $'  20:\tsub    $0x20,%rsp' \
        $'  21:\tret' '0030 <clampfern_'{tick,pack,packed_tick}$'>:\n  30:\tret' >code
    echo 'texts 10' >counted
    printf '%s\n' '10 ( 1.0%)  ???:split::steps [x]' '2,000 ( 9.0%)  ???:clampfern_plan [x]' '9,000 (90.0%)  memset.S:memset [x]' >annotated
    printf 'texts 95\nplans 9\n' >named
    printf 'texts 144437\nplans 9\n' >small
    printf 'texts 200000\nplans 9\n' >gen
    echo 'queries 200000, named 100, idle 100, refused 1: 100, 2: 100, 8: 100, 9: 100, 10: 100, 11: 100, 12: 100, 13: 100' >lines
    printf 'texts 1500\naccepted 500\nrefused 500\n' >windows
    # the program, and the loader that runs it after two words
    mkdir -p ../crates/{window,clampfern_c}/out ../kit/toolchain/lib && touch ../crates/clampfern_c/out/libclampfern_c.a
    cat >../crates/window/out/window <<'END'
#!/bin/sh
cat >/dev/null 2>&1 || { echo 'window: the input cannot be read' >&2 && exit; }
echo idle 2>/dev/null || echo 'window: the answer cannot be written' >&2
END
    printf '#!/bin/sh\nshift 2\nexec "$@"\n' >../kit/toolchain/lib/ld-linux-x86-64.so.2
    chmod +x ../crates/window/out/window ../kit/toolchain/lib/*
)
cat >"$room/bin/rt" <<'END'
#!/bin/sh
case $1 in
doc) echo kit/START-HERE.md ;;
version) cat said/version ;;
ci) cat said/ci && exit "$(cat said/status)" ;;
esac
END
cat >"$room/bin/cargo" <<'END'
#!/bin/sh
case "$*" in
test*) cat ../said/cargo ;;
*--version) ! grep -qx "cargo $1" ../said/absent ;;
fmt* | clippy*) [ ! -e "../said/$1" ] || { cat "../said/$1" && exit 1; } ;;
esac
END
cat >"$room/bin/shellcheck" <<'END'
#!/bin/sh
[ "$1" != --version ] || ! grep -qx shellcheck said/absent || exit
for file; do [ ! -f "$file" ] || ! grep -Hx fault "$file" || exit 1; done
END
cat >"$room/bin/cc" <<'END'
#!/bin/sh
while [ "$1" != -o ]; do shift; done
cp "said/$(basename "$2")" "$2" && chmod +x "$2"
END
cat >"$room/bin/nm" <<'END'
#!/bin/sh
cat said/symbols
END
cat >"$room/bin/objdump" <<'END'
#!/bin/sh
cat said/code
END
cat >"$room/bin/valgrind" <<'END'
#!/bin/sh
cat said/counted
END
cat >"$room/bin/callgrind_annotate" <<'END'
#!/bin/sh
cat said/annotated
END
cat >"$room/whole/independent/target/release/independent" <<'END'
#!/bin/sh
case $1 in
compare) cat >&2 && cat "said/$2" ;;
compare-window) cat said/windows ;;
esac
END
chmod +x "$room"/bin/* "$room/whole/independent/target/release/independent"
for name in cc c++ x86_64-linux-gnu-gcc x86_64-linux-gnu-g++; do [ -e "$room/bin/$name" ] || cp "$room/bin/cc" "$room/bin/$name"; done
for name in nm objdump; do cp "$room/bin/$name" "$room/bin/x86_64-linux-gnu-$name"; done

# The gate is tried with tests that do nothing much.
simple_tests() {
    for name in "${tests[@]}"; do printf '%s\n' 'set -u -o pipefail' 'echo done' >"tests/$name.sh"; done
}

# ---- how it is tried
# try CHANGE: runs the script on a new stand-in with that change; `said` is what it printed, `status` how it ended.
try() {
    tries=$((tries + 1))
    rm -rf "$room/repository"
    cp -R "$room/whole" "$room/repository"
    said=$(
        cd "$room/repository" && { [ "$script" != .ci/run ] || simple_tests; } && eval "$1" || { echo 'no change was made' && exit 0; }
        PATH=$path exec bash "$script" 2>&1 </dev/null
    )
    status=$?
}

wrong() {
    printf '%s: %s\n' "$script" "$1"
    tail -n 12 <<<"$said" | sed 's/^/    /'
    bad=1
}

# passes SCRIPT LAST [CHANGE]: it passes as it is, or after a change that it bears, and its last line is this. The lines after are about this script.
passes() {
    script=$1 path=$room/bin:$PATH
    [ "$script" != tests/header.sh ] || path=$PATH
    try "${3:-:}"
    [ "$status" = 0 ] && [ "${said##*$'\n'}" = "$2" ] || wrong 'does not pass where all is well'
}

# fails SAYING CHANGE: after the change it fails, and says so.
fails() {
    try "$2"
    [ "$status" != 0 ] && [[ $said == *"$1"* ]] || wrong "ends with $status after: $2"
    [[ $script != .ci/run || ${said##*$'\n'} =~ ^[0-9]+\ passed,\ [1-9][0-9]*\ failed$ ]] || wrong "the last line is no count, after: $2"
}

# ---- the gate
passes .ci/run "$((all + 2 + ${#tests[@]})) passed, 0 failed"
passes .ci/run "$((all + 2 + ${#tests[@]})) passed, 0 failed" \
    'sed -i "s/^rt: text proved.*/rt: text is kept: an earlier run on this machine proved the same files over the same libraries/" said/ci'
fails "rt ci passed 0 of the $all crates and edits" 'echo 0 passed, 0 failed >said/ci'
fails "rt ci passed 6 of the $all crates and edits" 'sed -i "s/^$all passed/6 passed/" said/ci'
fails 'rt ci did not say: model proved' 'echo "$all" passed, 0 failed >said/ci'
fails 'rt ci did not say: text proved' 'sed -i "/^rt: text proved/d" said/ci'
fails 'rt ci did not say: text proved' 'sed -i "s/^rt: text proved.*/rt: text proved once/" said/ci'
fails 'rt ci did not say: model proved, logic 0123' 'sed -i "0,/sum=0123/s//sum=4567/" said/ci'
fails 'rt ci did not say: text/one.edit refused' 'sed -i "/^rt: must-fail text/d" said/ci'
fails 'must-fail edits are bad' 'sed -i "/^rt: ok/s/$/, 1 bad/" said/ci'
fails "rt ci has no line 'rt: ok'" 'sed -i "/^rt: ok/d" said/ci'
fails 'rt ci did not say: text/two.edit refused' 'touch crates/text/must-fail/two.edit'
fails 'rt ci did not say: plan run' 'sed -i "/^rt: plan ran/d" said/ci'
fails 'rt ci did not say: more proved' 'echo more: text >>crates.txt'
fails 'rt ci ended with status 1 and 0 failed' 'echo 1 >said/status'
fails 'rt ci ended with status 0 and 1 failed' 'sed -i "s/0 failed/1 failed/" said/ci'
fails 'rt ci ended with status 0 and 1 failed' 'sed -i "/ passed, /d" said/ci'
fails 'there is nothing to prove' ': >crates.txt && rm -r crates && echo 0 passed, 0 failed >said/ci'
fails 'rt does not name its kit' ': >said/version'
for name in "${tests[@]}"; do
    fails "tests/$name.sh is missing or empty" "rm tests/$name.sh"
done
fails 'tests/plan.sh is missing or empty' ': >tests/plan.sh'
fails 'tests/plan.sh is missing or empty' 'printf "# a\nset -u -o pipefail\ncd ..\n\nexit 0\n" >tests/plan.sh'
fails 'tests/more.sh is not listed' 'cp tests/plan.sh tests/more.sh'
fails 'FAILED: tests/plan.sh' 'echo "false | true" >>tests/plan.sh'
fails "tests/plan.sh has no line 'set -u -o pipefail'" 'echo echo done >tests/plan.sh'
fails "tools/compare has no line 'set -u -o pipefail'" 'sed -i "s/^set .*/set -u/" tools/compare'

# ---- the independent planner's tests
passes tests/independent.sh "$(find independent/tests -name '*.rs' | wc -l)00 tests"
fails 'tests/scope.rs: no test ran' 'sed -i "/scope/,/result/s/100 passed/0 passed/" said/cargo'
fails '0 ignored; 0 measured; 100 filtered out' 'sed -i "s/100 passed/0 passed/; s/0 filtered/100 filtered/" said/cargo'
fails '1 ignored' 'sed -i "/scope/,/result/s/0 ignored/1 ignored/" said/cargo'
fails 'tests ran, fewer than' 'sed -i "s/100 passed/1 passed/" said/cargo'
fails 'tests ran, fewer than' ': >said/cargo'
fails 'tests/more.rs: no test ran' 'touch independent/tests/more.rs'

# ---- the example
passes tests/example.sh ''
fails '' 'echo exit 3 >>said/example'
fails '' 'echo "kill -SEGV \$\$" >>said/example'
fails '> examples/two-jobs.txt: 2 jobs' 'echo exit 0 >said/example'
fails '' ': >tests/c/example.stdout'
fails 'U malloc' 'echo malloc U >>said/symbols'
fails 'T more' 'echo more T 0 1 >>said/symbols'
fails 'README.md has another example than examples/two-jobs.txt' 'sed -i "s/^    0200/    0201/" README.md'
fails 'README.md has another example than examples/two-jobs.plan.txt' 'sed -i "/^    12/d" README.md'
fails 'docs/SPEC.md has another example than examples/two-jobs.txt' 'sed -i "/^    01/d" docs/SPEC.md'
fails 'the input of plan has another example' 'echo >>crates/plan/stdin'
fails 'the output of plan has another example' ': >crates/plan/stdout'

# ---- the archive: over the libraries that `rt ci` left, and by `rt lib` where these are not all of today's sources
# left HOW: libraries that `rt ci` left behind every source, and a compiler of the kit that writes its output, or (`broken`) ends with 1.
left() {
    mkdir -p crates/clampfern/out/rlib/clampfern.rlib kit/bin && touch -d tomorrow target/ci.log &&
        printf '%s\n' '#!/bin/sh' "[ $1 != broken ] || exit 1" 'while [ "$1" != -o ]; do shift; done' 'touch "$2"' >kit/bin/rattle && chmod +x kit/bin/rattle
}
passes tests/example.sh '' 'left whole && rm crates/clampfern_c/out/libclampfern_c.a'
fails 'FAILED (1)' 'left broken'
passes tests/example.sh '' 'left broken && touch crates/clampfern/out/rlib/stamp'
passes tests/example.sh '' 'left broken && touch -d "2 days" crates/clampfern/src/lib.rt'
passes tests/example.sh '' 'left broken && rm -r crates/clampfern/out/rlib/clampfern.rlib'

# ---- the stack: a push, 16 bytes, two return addresses and 24 bytes below the pointer
passes tests/stack.sh 'clampfern_plan 64 bytes, clampfern_tick 8 bytes, clampfern_pack 8 bytes, clampfern_packed_tick 8 bytes, planner::plan 40 bytes'
fails 'clampfern_plan needs 4144 bytes of stack' 'sed -i s/0x10,/0x1000,/ said/code'
fails 'clampfern_plan needs 4128 bytes of stack' 'sed -i "s/mov .*/sub    \$0xff8,%rsp/" said/code'
fails 'planner::plan needs 4136 bytes of stack' 'sed -i s/0x20,/0x1020,/ said/code'
for entry in plan tick pack packed_tick; do
    fails "there is no function clampfern_$entry" "sed -i s/clampfern_$entry/more/ said/code"
done
fails 'clampfern_tick needs 4104 bytes of stack' 'sed -i "/<clampfern_tick>/a\  30:\tsub    \$0x1000,%rsp" said/code'
fails 'there is no function facts::plan_lent' 'sed -i s/plan_lent/more/ said/code'
fails 'split::steps calls itself' 'sed -i "s/ret/call   10 <split::steps>/" said/code'
fails 'split::steps has call   *%rax' 'sed -i "s/mov .*/call   *%rax/" said/code'
fails 'split::steps has sub    %rax,%rsp' 'sed -i "s/mov .*/sub    %rax,%rsp/" said/code'
fails "the header promises '8192' bytes" 'sed -i "s/\(STACK_MOST\) 4096/\1 8192/" include/clampfern.h'

# ---- the counts
passes tests/counts.sh 'instructions of a call: 0 201, 8 201, 64 201, worst 201, refused 201'
fails 'instructions, where it took' 'sed -i s/2,000/999,999,000/ said/annotated'
fails '0: nothing was counted' ': >said/annotated'
fails '0: nothing was counted' ': >said/counted'
fails 'no count: ' 'printf "set -u -o pipefail\n" >tools/counts'

# ---- the comparison
passes tests/compare.sh 'texts 344532, plans 27'
fails 'named: compared 0 texts' 'echo texts 0 >said/named'
fails 'small: compared 0 texts' ': >said/small'
fails 'gen 1 200000: compared 199999 texts' 'echo texts 199999 >said/gen'
fails 'fewer than 344532 texts were compared' 'sed -i s/144437/144436/ said/small'
fails 'COUNT is 0' 'export COUNT=0'
fails '' 'echo exit 1 >>said/frames'
fails 'fewer than 344532 texts were compared' 'echo "#!/bin/sh" >tools/compare'

# ---- the tick handler
passes tests/ticks.sh "$(cat "$room/whole/said/lines"), windows: texts 1500, accepted 500, refused 500"
fails "fewer than 200000 under 'queries'" 'sed -i s/200000/199999/ said/lines'
fails "fewer than 200000 under 'queries'" ': >said/lines'
fails "fewer than 100 under 'idle'" 'sed -i "s/idle 100/idle 99/" said/lines'
fails "fewer than 100 under '1:'" 'sed -i "s/refused 1: 100,/refused 11: 100,/" said/lines'
fails "fewer than 100 under '13:'" 'sed -i "s/13: 100/13: 99/" said/lines'
fails "fewer than 1500 under 'texts'" 'sed -i s/1500/1499/ said/windows'
fails "fewer than 500 under 'accepted'" 'sed -i "s/accepted 500/accepted 499/" said/windows'
fails 'COUNT is 0' 'export COUNT=0'
fails '' 'echo exit 1 >>said/ticks'
fails '' 'echo exit 1 >>said/window'
fails '> examples/two-jobs.txt: window 10' 'echo exit 0 >said/window'
fails '' ': >tests/c/window.stdout'
fails 'a directory for input: status 0' 'sed -i "s/^cat .*/cat >\/dev\/null/" crates/window/out/window'
fails 'full output: status' 'echo echo >crates/window/out/window'

# ---- the must-fail edits' facts
# edit SAYING CHANGE: an edit with such a change.
edit() {
    fails "crates/text/must-fail/one.edit: $1" "sed -i '$2' crates/text/must-fail/one.edit"
}
# logged SAYING LINE: what the log says of an edit.
logged() {
    fails "crates/text/must-fail/one.edit: $1" "sed -i 's#^rt: must-fail text/one.edit: .*#rt: must-fail text/one.edit: $2#' target/ci.log"
}
refused='refused, as it must be'
unproved='it is not proved that what the function ensures holds when it returns (`returns-2`)'
mkdir -p "$room/whole/crates/text/src"
printf '%s\n' '// a function' 'pub fn f(x: u8) -> u8' '{' '    x' '}' '#[tactic(auto)]' 'fn g()' | tee "$room/whole/crates/text/src/lib.rt" >"$room/whole/crates/text/src/m.rt"
passes tests/must-fail-at-a-fact.sh "${#libraries[@]} edits"
passes tests/must-fail-at-a-fact.sh "${#libraries[@]} edits" 'sed -i "s/^file: src/file: specs/" crates/text/must-fail/one.edit && mv crates/text/must-fail/{,definition_}one.edit &&
    sed -i s,text/one,text/definition_one, target/ci.log'
fails 'crates/text: no must-fail edit' 'rm crates/text/must-fail/one.edit'
fails 'crates/text: no must-fail edit' 'rm -r crates/*/must-fail'
fails 'there is no target/ci.log' 'rm target/ci.log'
fails 'text/must-fail/one.edit: not in the log' 'sed -i "/text.one/d" target/ci.log'
edit "the first line is no 'shows:'" 's/^shows: .*/shows: /'
edit "the second line is no 'at:'" 2d
edit "refused at 'a-fact', and not at 'b-fact'" s/a-fact/b-fact/
edit "changes a definition, and is not named 'definition_..'" 's/^file: src/file: specs/'
edit "changes a definition, and is not named 'definition_..'" 's/^old: .*/old:     ensures { a }/'
fails "changes no definition, and is named 'definition_..'" 'mv crates/text/must-fail/{,definition_}one.edit'
logged 'not refused at a fact' "$refused"
logged 'not refused at a fact' "$refused (only because a proof file names what the edit took away): ./proofs/Facts.antt:1:1: error: \`a-fact\`: no field"
logged 'not refused at a fact' "$refused (only by a limit of the prover, which gave no verdict): ./proofs/Facts.antt:1:1: error: \`a-fact\`: no more steps"
logged 'not refused at a fact' "BAD EDIT: ./proofs/Facts.antt:1:1: error: \`a-fact\`: no"
logged 'not refused at a fact' "$refused: src/lib.rt:1:1: error[parse]: no"
logged "refused at 'm::f returns', and not" "$refused: ./proofs/m/f/Answers.antt:9:1: error: \`returns\`: it does not follow"
logged "refused at 'f invariant-loop-i', and not" "$refused: ./proofs/f/Invariants.antt:9:1: error: \`invariant-loop-i\`: it does not follow"
logged "refused at 'f returns-2', and not" "$refused: note: src/lib.rt:2:1: $unproved"
logged "refused at 'f returns-2', and not" "$refused: note: src/lib.rt:4:5: $unproved"
logged "refused at 'g returns-2', and not" "$refused: note: src/lib.rt:6:1: $unproved"
logged "refused at 'm::f returns-2', and not" "$refused: note: src/m.rt:2:1: $unproved"

# ---- the promises and their edits
# promised SAYING CHANGE: a page of promises with such a change of its last part, which is a crate's.
promised() {
    fails "$1" "sed -i '/^## clampfern/,\$$2' docs/PROMISES.md"
}
passes tests/promises.sh "${#libraries[@]} functions, ${#libraries[@]} edits"
passes tests/promises.sh "${#libraries[@]} functions, $((${#libraries[@]} + 1)) edits" 'touch crates/text/must-fail/two.edit && sed -i "/^## text/,/^$/s/\[one\]; .*|/[one, two] |/" docs/PROMISES.md'
promised 'crates/clampfern: `f(x)` names one edit, and does not say why' 's/one edit, since/for/'
promised 'crates/clampfern: `f(x)` names no edit, and does not say why' 's/\[one\];/and/'
promised 'crates/clampfern/must-fail/one: not named' 's/^## clampfern/## more/'
promised 'crates/more/must-fail/one: named, and there is no such edit' 's/^## clampfern/## more/'
promised 'crates/clampfern/must-fail/two: named, and there is no such edit' 's/^one\]/two]/'
fails 'crates/text/must-fail/two: not named' 'touch crates/text/must-fail/two.edit'
fails 'there is no row of a function' 'sed -i "s/^| function/| theorem/" docs/PROMISES.md'
fails '' 'rm docs/PROMISES.md'
fails 'not listed: model/specs/Limits.antt' 'sed -i "s/model.specs.Limits.antt, //" docs/PROMISES.md'
fails 'listed, and internal or not there: model/specs/Some.antt' 'sed -i "1s/.*/-- Internal: no public promise cites this./" crates/model/specs/Some.antt'

# ---- the dictionaries
# listed SAYING CHANGE: a file of definitions with such a change.
listed() {
    fails "crates/model/specs/Some.antt: $1" "sed -i '$2' crates/model/specs/Some.antt"
}
passes tests/dictionaries.sh 'names 9, files 2'
listed 'does not list: two' 's/one, two /one      /'
listed 'does not list: four' '$s/$/\npub four : one/'
listed 'does not list: four' '$s/$/\npub data four : Type 0 where/'
listed 'lists what it does not define: four' 's/one, two /one, two, four /'
listed 'lists twice: one' 's/one, two /one, two, one /'
listed 'line 2 has no two blanks before a meaning' '2s/two  */two /'
fails 'there is no file of definitions' 'rm crates/*/specs/[LS]*.antt'

# ---- the layout of the independent planner, and what is found in it and in the scripts
passes tests/lint.sh 'cargo fmt: nothing found, cargo clippy: nothing found, shellcheck: nothing found'
passes tests/lint.sh 'cargo fmt: nothing found, cargo clippy: nothing found, shellcheck: not on this machine' 'echo shellcheck >said/absent'
passes tests/lint.sh 'cargo fmt: not on this machine, cargo clippy: not on this machine, shellcheck: nothing found' 'printf "cargo fmt\ncargo clippy\n" >said/absent'
fails 'cargo fmt: this is not to be' 'echo Diff >said/fmt'
fails 'cargo clippy: this is not to be' 'echo warning >said/clippy'
for name in .ci/run tests/plan.sh tools/compare tools/x86-64.sh; do
    fails "$name:fault" "echo fault >>$name"
done

# ---- the header
# header SAYING CHANGE: a header with such a change.
header() {
    fails "$1" "sed -i '$2' include/clampfern.h"
}
# header_numbers: a line NAME NUMBER for each number of the header that this test looks at
header_numbers() {
    sed -nE '/STACK_MOST/d; s/^.*CLAMPFERN_([A-Z_]+) (= )?([0-9]+).*/\1 \3/p' include/clampfern.h
}
passes tests/header.sh "$(header_numbers | wc -l) numbers"
for entry in plan pack tick packed_tick; do
    header "const ${entry}_entry = " "s/^\\(size\|uint32\)_t clampfern_$entry(/int64_t clampfern_$entry(/"
    header "const ${entry}_entry = " "/ clampfern_$entry(/s/const uint8_t/uint8_t/"
    header "const ${entry}_entry = " "/ clampfern_$entry(/s/size_t \\([a-z_]*_len\\)/uint32_t \\1/"
    header "declares these functions: " "/^[a-z0-9_]* clampfern_$entry(/d"
done
header 'const plan_entry = ' 's/size_t out_len)/uint32_t out_len)/'
header 'const tick_entry = ' '/ clampfern_tick(/s/uint32_t core)/size_t core)/'
while read -r name number; do
    header "${name}_is_the_sources_number" "s/\(CLAMPFERN_$name [= ]*\)$number/\1$((number + 1))/"
done < <(header_numbers)
header CLAMPFERN_JOBS_MOST '/CLAMPFERN_JOBS_MOST/d'
header 'has numbers that the sources have not: MORE' 's/^enum/#define CLAMPFERN_MORE 1\n&/'
header 'has numbers that the sources have not: REFUSAL_MORE' 's/ORDER = 10/&, CLAMPFERN_REFUSAL_MORE = 14/'
header 'writer clampfern_plan, ' '/^extern "C"/d; /^}$/d'
header 'declares these functions: ' 's/^size_t clampfern_plan/size_t more(void);\n&/'
fails 'the sources have these entries' 'sed -i "s/^\(pub extern.*\) usize/\1 u32/" crates/clampfern_c/src/*.rt'
fails 'the sources give no ANSWER_MOST' 'sed -i "/const ANSWER_MOST/d" crates/text/src/*.rt'
fails 'slices_most is not 95' 'sed -i "s/const SLICES_MOST: usize = 94/const SLICES_MOST: usize = 95/" crates/model/src/lib.rt'
fails 'window_most is not 65535' 'sed -i "s/^window_most = .*/window_most = 65536/" crates/model/specs/Limits.antt'
fails OUT_MOST_is_the_sources_number 'sed -i "s/const SLICE_SIZE: usize = 8/const SLICE_SIZE: usize = 9/" crates/text/src/*.rt'
fails 'docs/REFUSALS.md has no row | 9 | `RECORD` |' 'sed -i "/RECORD/d" docs/REFUSALS.md'
fails REFUSAL_ORDER_is_the_sources_number 'sed -i "s/Refusal::Order(_) => 10,/Refusal::Order(_) => 11,/" crates/model/src/lib.rt'
fails 'has numbers that the sources have not: REFUSAL_ORDER' 'sed -i "/Refusal::Order(_) => 10,/d" crates/model/src/lib.rt'

[ "$bad" != 0 ] || echo "$tries tries"
exit $bad
