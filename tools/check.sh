#!/usr/bin/env bash
# Runs the gate. It ends with status 0 if everything passed:
#
#   - Scripts that need neither the program nor the library come first.
#   - `rt ci` proves every crate from nothing, with its tests, and runs the program and the tests. It works on a copy of the crates
#     without their wrong bodies, since it would prove a crate once more for its first wrong body.
#   - Beside it, at a lower priority, the library for C is built in the tree. Then tools/mistakes.py tries the wrong bodies whose refusal
#     may have changed, and a sample of the others. Scripts that need no program run beside that, and scripts on the library follow.
#   - As soon as the program is built, scripts run on it side by side, beside the proofs of the tests. Scripts that need these tests or
#     measure times come at the end.
#
# `rt ci` leaves nothing that `rt lib` can use, so the crates below the library for C are proved twice. With --once, tools/build.py proves
# every crate once, from nothing, in a copy of the tree, and the library is built there. This is no verdict: `rt ci` refuses more, for
# example contracts that no call can meet.
#
# The output of each script is printed in one piece. At the end the gate says what all of it cost, and which scripts failed. The last line
# counts what passed and failed: crates, programs and tests, wrong bodies, scripts. The output of `rt ci` or tools/build.py is in
# build/logs/ci.log, and what the prover says to tools/build.py in build/logs/CRATE.log.
#
# Usage: tools/check.sh [--once]
set -u
cd "$(dirname "$0")/.." || exit 1
work=$(mktemp -d)
trap 'rm -rf "$work"' EXIT
# `rt ci` runs programs and tests below this folder as the user nobody.
chmod a+rx "$work"
mkdir -p build/logs "$work/tree/crates" "$work/said"
touch "$work/passed" "$work/failed"
judge=yes
[ "${1:-}" != --once ] || judge=
log=build/logs/ci.log
# The tree in which `rt lib` finds the crates proved that stand below the library for C.
proved=$work/tree
[ -z "$judge" ] || proved=.
program=$work/tree/crates/hart/out/hart
tests=$work/tree/crates/hart_tests_cli/out/hart_tests_cli_tests
library=$work/library
arm=aarch64-linux-gnu
passed=0
failed=0

# How many scripts run side by side: one for each processor, of which half are left to the proofs while they run.
lanes() {
    local all=${RT_JOBS:-$(nproc)}
    if [ -e "$work/proving" ]; then
        echo $(((all + 1) / 2))
    else
        echo "$all"
    fi
}

# Runs one script, and prints what it said, once it has ended, with its time and what it used of the processors.
run() {
    local name=${1//$work\//} said took status=0 TIMEFORMAT='%0R s, of processors %0U s user, %0S s system'
    said=$(mktemp -p "$work/said")
    took=$({ time bash -c "$1" >"$said" 2>&1 </dev/null; } 2>&1) || status=$?
    {
        flock 9
        echo "== $name: $took"
        cat "$said"
        if [ "$status" -eq 0 ]; then
            echo "$name" >>"$work/passed"
        else
            echo "$name: FAILED" | tee -a "$work/failed"
        fi
    } 9>"$work/lock"
}

# Runs scripts side by side.
run_all() {
    local script running
    for script in "$@"; do
        while mapfile -t running < <(jobs -rp) && [ "${#running[@]}" -ge "$(lanes)" ]; do
            wait -n
        done
        run "$script" &
    done
    wait
}

# Waits until a line of the proofs says that a crate is proved, or all of them have ended.
until_proved() {
    until grep -qE "(^rt: |\] )$1:? proved" "$log" || [ ! -e "$work/proving" ]; do
        sleep 1
    done
}

# Proves the library for C, if `rt ci` leaves nothing of it, or else waits until it is proved.
prove_library() {
    if [ -n "$judge" ]; then
        python3 tools/build.py --jobs "$(lanes)" hart_c
    else
        until_proved hart_c
    fi
}

# Tries wrong bodies where the crates below them are proved. Those that it tries are chosen by this commit.
try_mistakes() {
    [ -n "$judge" ] || until_proved hart_cli
    GIT_DIR=$(git rev-parse --absolute-git-dir) RT_JOBS=2 python3 "$proved/tools/mistakes.py" --gate
}

# Builds the library for C, tries the wrong bodies, and runs the scripts that use either.
beside() {
    renice -n 10 "$BASHPID" >/dev/null
    prove_library
    # These run one after the other, since a crate is built for one target at a time, and the scripts after them copy what they change.
    mkdir "$library"
    if command -v "$arm-gcc" >/dev/null; then
        mkdir "$library/$arm"
        run "sh $proved/tools/library.sh --target $arm $library/$arm"
    fi
    run "sh $proved/examples/cortex-m/run.sh"
    run "sh $proved/tools/library.sh $library"
    try_mistakes >"$work/gate" 2>&1 &
    run_all "python3 $proved/tools/mistakes.py --can-fail" "sh tools/held-view.sh" "python3 tools/vector_bugs.py"
    cat "$work/gate"
    until_proved hart
    run_on_program "sh tools/library-examples.sh $program $library" \
        "sh tools/library-examples.sh --target $arm $program $library/$arm" "sh tools/packages.sh $program $library \$(find $library -name $arm)"
}

# Runs scripts on the program. Without a program each of them counts as failed.
run_on_program() {
    if [ -x "$program" ]; then
        run_all "$@"
    else
        printf '%s: FAILED; there is no program\n' "${@//$work\//}" >>"$work/failed"
    fi
}

rt version
run_all "sh tools/kits.sh" "python3 tools/links.py" "python3 tools/doc_examples.py" "python3 tools/named.py"

scripts=(
    "python3 tools/bench.py $program"
    "python3 tools/report.py $program"
    "sh tools/runs.sh $program"
    "sh tools/streams.sh $program"
    "python3 tools/vectors.py $program --check && python3 tools/serve.py $program"
    "sh tools/manual.sh $program"
    "python3 tools/schema.py $program"
)
if [ -n "$judge" ]; then
    tar -cf - --exclude=out --exclude=must-fail --exclude=mistakes crates crates.txt HANDLES | tar -xf - -C "$work/tree"
    prove() { (cd "$work/tree" && rt ci); }
else
    tar -cf - --exclude=out --exclude=./build --exclude=./.git . | tar -xf - -C "$work/tree"
    mkdir "$work/tree/build"
    ln -s "$PWD/build/logs" "$work/tree/build/logs"
    prove() { (cd "$work/tree" && python3 tools/build.py ${RT_JOBS:+--jobs "$RT_JOBS"} --whole); }
fi
: >"$log"
touch "$work/proving"
beside >"$work/beside" 2>&1 </dev/null &
(renice -n 10 "$BASHPID" >/dev/null; until_proved hart; run_on_program "${scripts[@]}") >"$work/on_program" 2>&1 </dev/null &
prove 2>&1 | tee "$log" | grep --line-buffered -E '^rt: |^\[|^build: |not proved|NOT PROVED|FAILED|passed, .* failed|\berror\b'
[ "${PIPESTATUS[0]}" -eq 0 ] || echo "the proofs: FAILED; what was not proved stands in build/logs" >>"$work/failed"
rm "$work/proving"
read -r ok _ < <(sed -nE 's/^([0-9]+) passed, ([0-9]+) failed.*/\1 \2/p' "$log" | tail -n 1)
passed=$((passed + ${ok:-0}))

run_on_program "sh tools/refused-growths.sh $program $tests"
wait
cat "$work/beside" "$work/on_program"
read -r ok lost < <(sed -nE 's/^mistakes: ([0-9]+) refused, ([0-9]+) failed.*/\1 \2/p' "$work/beside")
passed=$((passed + ${ok:-0}))
failed=$((failed + ${lost:-0}))
[ -n "${lost:-}" ] || echo "python3 tools/mistakes.py --gate: FAILED; it counted nothing" >>"$work/failed"

# These measure times, or wait for what has to come in time, so each runs alone.
run_on_program "python3 tools/vector_bugs.py --random $program"
run_on_program "sh tools/examples.sh $program"
run_on_program "python3 tools/listen.py $program"
run_on_program "python3 tools/ask.py $program"
passed=$((passed + $(wc -l <"$work/passed")))
failed=$((failed + $(wc -l <"$work/failed")))

# `times` has to run in this shell, which waited for all scripts.
times >"$work/times"
read -r user system < <(tail -n 1 "$work/times")
echo "processor time: $user user, $system system; $((SECONDS / 60)) minutes on $(nproc) processors"
grep 'not refused:' "$work/beside"
cat "$work/failed"
echo "$passed passed, $failed failed"
[ "$failed" -eq 0 ]
