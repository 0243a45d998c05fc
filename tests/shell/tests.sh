# The tests' own steps.

. "$top/tests/gate.sh"

# ---- the tests themselves, and what tells of them

what_cannot_run_is_skipped() (
    reasons=$work/reasons work=$work/inner
    mkdir "$work"
    passed=0 failed=0 skipped=0
    cannot_run() (has no-such-tool 'what needs it' || exit $is_skipped)
    set +e
    try cannot_run
    set -e
    [ "$passed $failed $skipped" = '0 0 1' ]
    [ "$(cat "$reasons")" = 'there is no no-such-tool for what needs it' ]
)

# So a step that only seems to ask for a tool passes over nothing.
a_skip_without_a_reason_has_failed() (
    seeming_tests
    printf '%s() (\n    %s\n)\n' cannot_run 'lacks "there is no such thing" || exit $is_skipped' \
        is_skipped_too 'exit $is_skipped' >"$there/tests/shell/second.sh"
    run_tests_there second
    answers 1 'FAILED: is_skipped_too\nskipped, and it says no reason\nsecond: 0 passed, 1 failed, 1 skipped\n1 skipped: there is no such thing\n0 passed, 1 failed\n'
)

counts_of_a_run_are_added() (
    passed=1 failed=0
    printf 'well\n5 passed, 2 failed\n' >"$work/log"
    add_counts "$work/log" 1
    [ "$passed $failed" = '6 2' ]
    printf '5 passed, 0 failed\n' >"$work/log"
    add_counts "$work/log" 1
    [ "$passed $failed" = '11 3' ]
    echo 'it was killed' >"$work/log"
    add_counts "$work/log" 0
    [ "$passed $failed" = '11 4' ]
)

wrong_bodies_come_by_one_crate_at_a_time() (
    top=$work/there
    mkdir -p "$top/crates/one" "$top/crates/two" "$top/tests/wrong/one" "$top/tests/wrong/two"
    : >"$top/tests/wrong/one/a.edit" >"$top/tests/wrong/two/b.edit"
    number_of_commit() { echo "$number"; }
    number=1
    lay_edits_out
    [ -e "$top/crates/two/must-fail/b.edit" ]
    # What a killed run left goes.
    number=2
    lay_edits_out
    [ ! -e "$top/crates/two/must-fail" ]
    [ -e "$top/crates/one/must-fail/a.edit" ]
    take_edits_back
    [ ! -e "$top/crates/one/must-fail" ]
)

# An 'rt' that proves one crate, tries a wrong body and runs its program, each for as long as it takes to be seen.
seconds_are_told_by_crate_and_step() (
    has python3 'what tells CPU seconds' || exit $is_skipped
    mkdir -p "$work/rt-edit-1" "$work/rt-run-1/bin"
    cat >"$work/rt" <<'RT'
#!/usr/bin/env python3
import subprocess, sys
burn = "import time\nwhile time.process_time() < 0.8: pass"
for words, folder in (["--crate-name", "one"], "."), (["--crate-name", "one"], "rt-edit-1"), (["/rt-run-1/bin/one"], "."):
    subprocess.call([sys.executable, "-c", burn, *words], cwd=folder)
RT
    chmod +x "$work/rt"
    cd "$work"
    "$top/tools/times" --table "$work/table" "$work/rt" ci >"$out"
    # Each step has seconds, more on a busy machine, and the tests, the compiler and what comes behind none.
    some='*[1-9][0-9]* |' none='*|'
    grep -q "^| one  *| $some $none $some $none $some $none $none $some\$" "$work/table"
    mkdir "$work/tools"
    cp "$work/rt" "$work/tools/prove"
    "$top/tools/times" --table "$work/table" "$work/tools/prove" --gate >"$out"
    grep -q "^| one  *| $some $none $some $none $some $none $none $some\$" "$work/table"
    # By itself it proves for a build.
    "$top/tools/times" --table "$work/table" "$work/tools/prove" >"$out"
    grep -q "^| one  *| $none $none $none $none $none $some $some $some\$" "$work/table"
    status=0
    "$top/tools/times" sh -c 'exit 3' >"$out" || status=$?
    [ "$status" -eq 3 ]
)

# A repository of two sections of short tests, with a script, and with a program that only seems one.
seeming_tests() {
    there=$work/there
    mkdir -p "$there/tests/shell" "$there/tests/scripts"
    cp "$top/tests/run" "$top/tests/lib.sh" "$there/tests"
    printf '#!/bin/sh\n' >"$there/cvec"
    printf '#!/bin/sh\necho "$# passed, 0 failed"\n' >"$there/tests/scripts/run"
    chmod +x "$there/cvec" "$there/tests/scripts/run"
    : >"$there/tests/scripts/steps.script"
    printf '%s() (\n    %s\n)\n' holds true >"$there/tests/shell/first.sh"
    printf '%s() (\n    %s\n)\n' cannot_run 'lacks "there is no such thing" || exit $is_skipped' \
        fails 'echo why; false; true' >"$there/tests/shell/second.sh"
}

# Runs its tests with these words, as 'run' runs the program.
run_tests_there() {
    status=0
    "$there/tests/run" "$@" >"$out" 2>"$err" || status=$?
}

sections_and_tests_are_run_by_their_names() (
    seeming_tests
    run_tests_there first
    answers 0 'first: 1 passed, 0 failed\n1 passed, 0 failed\n'
    run_tests_there steps holds first
    answers 0 'first: 1 passed, 0 failed\nscripts: 1 passed, 0 failed\n2 passed, 0 failed\n'
    run_tests_there --list
    answers 0 'first\n    holds\nsecond\n    cannot_run\n    fails\nscripts\n    steps\n'
    for words in 'first nothing' '-j 0 first' '-j' '-k'; do
        # shellcheck disable=SC2086 # each word is one
        run_tests_there $words
        [ "$status" -eq 2 ]
        [ ! -s "$out" ]
        tells 'sections: first second scripts'
    done
    run_tests_there first nothing
    tells "there is no section or test 'nothing'"
)

# A test ends at what first fails, and a skip is no pass. Sections that run side by side end in any order.
a_test_that_fails_is_printed_and_counted() (
    seeming_tests
    printf '%s\n' 'first: 1 passed, 0 failed' 'FAILED: fails' why 'second: 0 passed, 1 failed, 1 skipped' \
        'scripts: 1 passed, 0 failed' '1 skipped: there is no such thing' '2 passed, 1 failed' >"$work/wanted"
    sort "$work/wanted" >"$work/sorted"
    for jobs in 1 2 9; do
        run_tests_there -j $jobs
        [ "$status" -eq 1 ]
        sort "$out" | cmp - "$work/sorted"
        [ "$(grep -A 2 FAILED "$out" | paste -sd ';')" = 'FAILED: fails;why;second: 0 passed, 1 failed, 1 skipped' ]
        tail -n 2 "$work/wanted" >"$work/last"
        tail -n 2 "$out" | cmp - "$work/last"
    done
)

what_does_not_run_has_failed() (
    seeming_tests
    echo 'exit 0' >>"$there/tests/shell/second.sh"
    run_tests_there first second
    [ "$status" -eq 1 ]
    grep -qx 'FAILED: section second ended before its tests were counted' "$out"
    [ "$(tail -n 1 "$out")" = '1 passed, 1 failed' ]
    echo 'exit 1' >>"$there/cvec"
    run_tests_there
    answers 1 'FAILED: there is no program to test\n0 passed, 1 failed\n'
)

# The counts of a program stand in place of the test's that runs it. Where its status is bad, or it has none, it failed.
a_test_that_runs_several_is_counted_by_them() (
    seeming_tests
    printf '%s() (\n    %s\n)\n' several 'counted sh "$top/several"' >"$there/tests/shell/first.sh"
    echo 'echo why; echo "2 skipped: no x; no y"; echo "3 passed, 1 failed"; exit 1' >"$there/several"
    run_tests_there first
    answers 1 'why\nfirst: 3 passed, 1 failed, 2 skipped\n2 skipped: no x; no y\n3 passed, 1 failed\n'
    echo 'echo "3 passed, 0 failed"; exit 1' >"$there/several"
    run_tests_there first
    answers 1 'first: 3 passed, 1 failed\n3 passed, 1 failed\n'
    echo 'echo "3 passed, 0 failed"' >"$there/several"
    run_tests_there first
    answers 0 'first: 3 passed, 0 failed\n3 passed, 0 failed\n'
    for what in 'echo why' 'echo "0 passed, 0 failed"'; do
        echo "$what" >"$there/several"
        run_tests_there first
        [ "$status" -eq 1 ]
        tail -n 1 "$out" | grep -qx '0 passed, 1 failed'
    done
)

# What a test began ends with the script that runs the tests.
tests_that_are_ended_leave_nothing_running() (
    seeming_tests
    printf '%s() (\n    %s\n)\n' waits 'echo "$work" >"$top/begun"; sleep 2; : >"$top/ended"' >"$there/tests/shell/first.sh"
    "$there/tests/run" first >"$out" &
    runs=$!
    until [ -s "$there/begun" ]; do sleep 0.1; done
    kill $runs
    status=0
    wait $runs || status=$?
    [ "$status" -eq 1 ]
    sleep 3
    [ ! -e "$there/ended" ]
    [ ! -e "$(cat "$there/begun")" ]
)

# The gate's tool only seems one: it passes three tests while a wrong body lies beside the crate.
seeming_gate() {
    seeming_tests
    cp "$top/test" "$there"
    cp "$top/tests/gate.sh" "$there/tests"
    mkdir -p "$there/bin" "$there/crates/one" "$there/tests/wrong/one" "$there/tools"
    cp "$top/tools/lanes" "$top/tools/crates.py" "$top/tools/prove" "$there/tools"
    : >"$there/tests/wrong/one/a.edit"
    printf '#!/bin/sh\necho "lanes $RT_JOBS"\n[ "$1" = ci ] && [ -e crates/one/must-fail/a.edit ] && echo "3 passed, 0 failed"\n' >"$there/bin/rt"
    chmod +x "$there/bin/rt"
}

the_gate_and_the_tests_are_counted_together() (
    seeming_gate
    unset RT_JOBS
    status=0
    PATH=$there/bin:$PATH taskset -c "$(first_processor)" "$there/test" >"$out" || status=$?
    [ "$status" -eq 1 ]
    grep -qx 'lanes 1' "$out"
    [ "$(tail -n 1 "$out")" = '5 passed, 1 failed' ]
    [ ! -e "$there/crates/one/must-fail" ]
    rm "$there/tests/shell/second.sh"
    PATH=$there/bin:$PATH "$there/test" >"$out"
    [ "$(tail -n 1 "$out")" = '5 passed, 0 failed' ]
    echo 'exit 1' >>"$there/bin/rt"
    status=0
    PATH=$there/bin:$PATH "$there/test" >"$out" || status=$?
    [ "$status" -eq 1 ]
    [ "$(tail -n 1 "$out")" = '5 passed, 1 failed' ]
    "$there/test" shell >"$out"
    [ "$(tail -n 1 "$out")" = '2 passed, 0 failed' ]
)

# Four seconds are 0.07 minutes.
the_gate_tells_the_minutes_of_its_proofs() (
    has python3 'what takes seconds of a processor' || exit $is_skipped
    seeming_gate
    rm "$there/tests/shell/second.sh"
    PATH=$there/bin:$PATH "$there/test" >"$out"
    grep -qx 'the proofs took 0.0 CPU minutes' "$out"
    echo "python3 -c 'import time
while time.process_time() < 4: pass'" >>"$there/bin/rt"
    PATH=$there/bin:$PATH "$there/test" >"$out"
    grep -qx 'the proofs took 0.1 CPU minutes' "$out"
    [ "$(tail -n 1 "$out")" = '5 passed, 0 failed' ]
)

# So many processors, and so many GiB of free memory, seem to be there.
lanes_of_gate_on() {
    cat >"$work/sitecustomize.py" <<PY
import builtins, io, os
os.sched_getaffinity = lambda _: set(range($1))
builtins.open = lambda *_, **__: io.StringIO("MemAvailable: $(($2 << 20)) kB\n")
PY
    PYTHONPATH=$work "$top/tools/lanes"
}

the_gate_proves_half_as_many_crates_at_once_as_there_are_processors() (
    [ "$(lanes_of_gate_on 1 64)" -eq 1 ]
    [ "$(lanes_of_gate_on 2 64)" -eq 2 ]
    [ "$(lanes_of_gate_on 3 64)" -eq 2 ]
    [ "$(lanes_of_gate_on 4 64)" -eq 2 ]
    [ "$(lanes_of_gate_on 8 64)" -eq 4 ]
    [ "$(lanes_of_gate_on 8 9)" -eq 2 ]
    [ "$(lanes_of_gate_on 8 1)" -eq 1 ]
)

# A check that keeps its files as it makes them: two of one function, one of another. An older one lies there.
slow_functions_of_a_crate_are_told() (
    there=$work/there kept=$work/there/crates/low/out/incremental
    mkdir -p "$there/tools" "$there/bin" "$kept/old"
    cp "$top/tools/slow" "$there/tools"
    touch -d @90 "$kept/old/Rattle-low-proofs.gone.Lts.oantt"
    cat >"$there/bin/rt" <<'SH'
#!/bin/sh
[ "$*" = 'check --jobs 1' ] || exit 3
mkdir -p out/incremental/new/records && cd out/incremental/new || exit 3
touch -d @100 Rattle-low-specs.Lib.oantt
touch -d @103.5 Rattle-low-proofs.one.first.Lts.oantt
touch -d @104 Rattle-low-proofs.one.first.Code.Given.oantt
touch -d @106 records/Rattle-low-proofs.one.second.Proof.decls.oantt
touch -d @107 other
echo 'what it says'
[ ! -e ../../../broken ]
SH
    chmod +x "$there/bin/rt"
    PATH=$there/bin:$PATH
    "$there/tools/slow" low >"$out"
    printf '%8s one.first\n%8s one.second\n' 4.0 2.0 | cmp - "$out"
    [ "$("$there/tools/slow" low 1)" = '     4.0 one.first' ]
    : >"$there/crates/low/broken"
    status=0
    "$there/tools/slow" low >"$out" 2>"$err" || status=$?
    [ "$status" -eq 1 ]
    [ ! -s "$out" ]
    [ "$(cat "$err")" = 'what it says' ]
    status=0
    "$there/tools/slow" none 2>"$err" || status=$?
    [ "$status" -eq 2 ]
    tells 'usage: tools/slow CRATE [N]'
)

# Under `set -e` neither `! this` ends a test nor any part of `this && that` but the last.
each_check_of_a_test_can_fail() (
    check='(\[|!|grep|cmp|diff|tells|kill|[a-z_]+=\$)'
    grep -nE "^ +(! |$check [^|]* && $check)" "$top"/tests/shell/*.sh | grep -vF '||' >"$out" || :
    cat "$out"
    [ ! -s "$out" ]
)

# An iterator of the toolchain steps over each item where a slice jumps: a loop that skips to its place each time is quadratic.
no_list_is_stepped_over_to_jump() (
    grep -rnE '\.(skip|nth|step_by)\(' "$top"/crates/*/src | grep -v 'env::args(' >"$work/steps" || :
    head -n 5 "$work/steps" >&2
    [ ! -s "$work/steps" ]
)

each_test_has_a_name_of_its_own() (
    [ -z "$("$top/tests/run" --list | sed 's/^ *//' | sort | uniq -d)" ]
)

# The libraries for C can't be built here, so the tests are to find none.
no_library_of_an_earlier_run_is_left_by_the_gate() (
    seeming_gate
    rm "$there/tests/shell/second.sh"
    # It is told when the proofs began.
    echo "sleep 0.1; touch '$there/edited'" >>"$there/bin/rt"
    printf '#!/bin/sh\nfind "%s/edited" -newer "$1" >"%s/told"\nexit 1\n' "$there" "$there" >"$there/tools/archives"
    chmod +x "$there/tools/archives"
    for name in cvec_c cvec_threads; do
        mkdir -p "$there/crates/$name/out"
        : >"$there/crates/$name/out/lib$name.a"
    done
    PATH=$there/bin:$PATH "$there/test" >"$out"
    [ "$(tail -n 1 "$out")" = '5 passed, 0 failed' ]
    [ -z "$(ls "$there/crates/cvec_c/out" "$there/crates/cvec_threads/out" | grep '[.]a$')" ]
    [ -s "$there/told" ]
    # What the proofs leave stays.
    echo ": >'$there/crates/cvec_c/out/libcvec_c.a'" >>"$there/bin/rt"
    PATH=$there/bin:$PATH "$there/test" >"$out"
    [ -e "$there/crates/cvec_c/out/libcvec_c.a" ]
)

# `./build` only seems one, and tells what it was asked for.
what_is_older_than_its_sources_is_built_before_it_is_tested() (
    has_c || exit $is_skipped
    there=$work/there
    mkdir -p "$there/tests" "$there/crates/low/src"
    cp -R "$top/tools" "$there"
    cp -R "$top/tests/scripts" "$there/tests"
    printf 'low: clap\ncvec_c staticlib: low\ncvec_threads staticlib: low\n' >"$there/crates.txt"
    echo 'play_tests: low' >>"$there/crates.txt"
    printf '#!/bin/sh\necho "$1" >>"%s"\n' "$work/asked" >"$there/build"
    for made in cvec_c/out/libcvec_c.a cvec_threads/out/libcvec_threads.a play_tests/out/play_tests; do
        mkdir -p "$there/crates/${made%/*}"
        printf '#!/bin/sh\n' >"$there/crates/$made"
        chmod +x "$there/build" "$there/crates/$made"
    done
    unset PLAY_TESTS
    top=$there c_library=$there/crates/cvec_c/out/libcvec_c.a threads_library=$there/crates/cvec_threads/out/libcvec_threads.a
    asks_for() {
        : >"$work/asked"
        make_c_library
        make_threads_library
        "$there/tests/scripts/run" "$there/tests/scripts/runs.script" >"$out" || :
        [ "$(paste -sd ' ' "$work/asked")" = "$1" ]
    }
    touch -d '1 hour ago' "$there/crates/low/src/lib.rt"
    all='cvec_c cvec_threads play_tests'
    touch -d '1 hour ago' "$there/crates.txt" "$there/HANDLES" "$there/crates/low/src"
    asks_for ''
    for newer in crates/low/src/lib.rt crates/low/src crates.txt HANDLES; do
        touch -d '1 hour' "$there/$newer"
        asks_for "$all"
        touch -d '1 hour ago' "$there/$newer"
        asks_for ''
    done
)

# The gate tries those of one crate at a time. That each can be applied, so that the prover refuses what it makes, is seen here.
each_wrong_body_changes_texts_that_stand_once() (
    has python3 'the texts of wrong bodies' || exit $is_skipped
    cd "$top"
    python3 - tests/wrong/*/*.edit <<'PY'
import sys

lost = []
for name in sys.argv[1:]:
    crate, texts = name.split("/")[2], {}
    with open(name, encoding="utf-8") as edit:
        for line in edit.read().split("\n"):
            word, _, rest = line.partition(": ")
            if word == "file":
                file = f"crates/{crate}/{rest}"
                if file not in texts:
                    with open(file, encoding="utf-8") as code:
                        texts[file] = code.read()
            elif word == "old":
                old = rest
            elif word == "new":
                if texts[file].count(old) != 1:
                    lost.append(f"{name}: {texts[file].count(old)} times in {file}: {old}")
                texts[file] = texts[file].replace(old, rest)
sys.exit("\n".join(lost) or 0)
PY
)

# ---- the index of wrong bodies

# In a repository: each link of the index that leads to nothing, or to a file in which its test doesn't stand, and each folder
# of which the index tells another number of edits than lie there beside those that it links.
wrong_in_index() {
    python3 - "$1/tests/wrong" <<'PY'
import collections, glob, os, re, sys

os.chdir(sys.argv[1])
with open("INDEX.md", encoding="utf-8") as index:
    table, _, own = index.read().partition("\n## Of our own\n")
links = re.findall(r"\[`?([^\[\]`]+)`?\]\(([^()]+)\)", table)
for text, target in links:
    if not os.path.exists(target):
        print(f"no file: {target}")
    elif target.endswith((".rt", ".sh", ".script")):
        with open(target, encoding="utf-8") as tests:
            if not re.search(rf"(?m)^(fn )?{re.escape(text)}(\(|$)", tests.read()):
                print(f"no test in {target}: {text}")
linked = {target for _, target in links}
there = collections.Counter(os.path.dirname(it) for it in glob.glob("*/*.edit") if it not in linked)
told = {name: int(number) for name, number in re.findall(r"`(\w+)` (\d+)", own)}
for name in sorted(there.keys() | told.keys()):
    if there[name] != told.get(name, 0):
        print(f"{name}: {there[name]} others, and the index tells of {told.get(name, 0)}")
PY
}

each_wrong_body_stands_in_the_index() (
    has python3 'the index of wrong bodies' || exit $is_skipped
    wrong_in_index "$top" >"$out"
    cat "$out"
    [ ! -s "$out" ]
)

what_is_wrong_in_the_index_of_wrong_bodies_is_found() (
    has python3 'the index of wrong bodies' || exit $is_skipped
    there=$work/there
    mkdir -p "$there/tests/wrong/one" "$there/tests/wrong/two" "$there/tests/wrong/three"
    : >"$there/tests/wrong/one/a.edit" >"$there/tests/wrong/one/b.edit" >"$there/tests/wrong/two/c.edit"
    printf 'fn holds(rt: HostRuntime) {\n' >"$there/tests/some.rt"
    cd "$there/tests/wrong"
    printf '%s\n' '| [edit](one/a.edit) | test [`holds`](../some.rt) |' '' '## Of our own' '' '`one` 1, `two` 1.' >INDEX.md
    finds_in_index ''
    mv one/a.edit one/d.edit
    finds_in_index 'no file: one/a.edit' 'one: 2 others, and the index tells of 1'
    mv one/d.edit one/a.edit
    mv two/c.edit three
    finds_in_index 'three: 1 others, and the index tells of 0' 'two: 0 others, and the index tells of 1'
    mv three/c.edit two
    sed -i s/holds/stands/ ../some.rt
    finds_in_index 'no test in ../some.rt: holds'
)

# Of the repository there these lines are all that is found.
finds_in_index() {
    wrong_in_index "$there" >"$out"
    printf '%s\n' "$@" | grep . | cmp - "$out"
}
