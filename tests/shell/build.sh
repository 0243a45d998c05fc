# `./cvec` and `./build`, which prove and build the program; one of these tests alone runs the toolchain.

# ---- the script that builds the program, with a toolchain that only seems one

# A repository of one source, in which 'rt ci' says of each crate that it is proved, and makes a program that prints its
# words. A crate with a file 'broken' fails.
seeming_repository() {
    there=$work/there
    mkdir -p "$there/crates/cvec/src" "$there/bin" "$there/tools"
    cp "$top/cvec" "$top/build" "$there"
    cp "$top/tools/crates.py" "$top/tools/prove" "$top/tools/current" "$top/tools/below" "$there/tools"
    echo 'cvec: clap' >"$there/crates.txt"
    touch -d '1 hour ago' "$there/crates.txt" "$there/HANDLES" "$there/crates/cvec/src/main.rt"
    cat >"$there/bin/rt" <<'RT'
#!/bin/sh
echo 'a line of the build'
[ "$1" = ci ] || exit 2
for crate in $(sed 's/[: ].*//' crates.txt); do
    echo "== $crate"
    echo "a line of $crate"
    if [ -e "crates/$crate/broken" ]; then
        echo "a fault of $crate" >&2
        echo "rt: $crate NOT PROVED"
        exit 1
    fi
    mkdir -p "crates/$crate/out/rlib"
    if [ -e "crates/$crate/src/main.rt" ]; then
        printf '#!/bin/sh\necho "made with $1"\n' >"crates/$crate/out/$crate"
        chmod +x "crates/$crate/out/$crate"
    fi
    echo "rt: $crate proved"
done
RT
    chmod +x "$there/bin/rt"
    cat >"$there/bin/rtlib.py" <<'RTLIB'
import os


class Crate:
    def __init__(self, folder, root, known):
        self.folder = folder

    def stamp(self):
        return f"sources of {os.path.basename(self.folder)}"
RTLIB
}

# Runs its script with a word, as 'run' runs the program, where 'rt' is found by this path.
run_there() {
    status=0
    PATH=$1 "$there/cvec" word <"$in" >"$out" 2>"$err" || status=$?
}

with_toolchain() { run_there "$there/bin:/usr/bin:/bin"; }

without_toolchain() { run_there /usr/bin:/bin; }

# Standard error has one line, with this text.
tells_only() {
    [ "$(wc -l <"$err")" -eq 1 ]
    tells "$1"
}

the_program_is_built_once() (
    seeming_repository
    with_toolchain
    [ "$status" -eq 0 ]
    [ "$(cat "$out")" = 'made with word' ]
    tells_only 'cvec: proves and builds the program, which takes 35 to 40 minutes the first time'
    with_toolchain
    answers 0 'made with word\n'
)

an_older_program_is_built_again() (
    seeming_repository
    with_toolchain
    touch -d '2 hours ago' "$there/crates/cvec/out/cvec"
    with_toolchain
    [ "$(cat "$out")" = 'made with word' ]
    tells_only 'cvec: proves and builds the program'
)

# What contracts say and how they are proved are sources too.
a_newer_contract_or_proof_is_built_again() (
    seeming_repository
    mkdir -p "$there/crates/cvec/specs" "$there/crates/cvec/proofs/F" "$there/crates/cvec/out/rlib"
    for file in specs/Lib.antt proofs/F/Answers.antt src/main.rt; do
        touch -d '2 hours ago' "$there/crates/cvec/$file"
        with_toolchain
        with_toolchain
        answers 0 'made with word\n'
        touch -d '1 hour' "$there/crates/cvec/$file"
        with_toolchain
        tells_only 'cvec: proves and builds the program'
        touch -d '2 hours ago' "$there/crates/cvec/$file"
    done
    # What a build made is none, nor is a page.
    touch -d '1 hour' "$there/crates/cvec/out/rlib/main.rt" "$there/crates/cvec/README.md"
    with_toolchain
    answers 0 'made with word\n'
)

a_source_that_is_taken_away_is_built_again() (
    seeming_repository
    for folder in src specs proofs/F; do
        mkdir -p "$there/crates/cvec/$folder"
        touch "$there/crates/cvec/$folder/other.rt"
        with_toolchain
        with_toolchain
        answers 0 'made with word\n'
        rm "$there/crates/cvec/$folder/other.rt"
        with_toolchain
        tells_only 'cvec: proves and builds the program'
    done
)

# They say on what a crate stands and what it may use.
a_newer_list_of_crates_or_of_handles_is_built_again() (
    seeming_repository
    for file in crates.txt HANDLES; do
        with_toolchain
        with_toolchain
        answers 0 'made with word\n'
        touch "$there/$file"
        with_toolchain
        tells_only 'cvec: proves and builds the program'
    done
)

# Two builds at once: the second waits for the first, and has nothing left to do but to run the program. As by git, another file
# is put in the place of crates.txt meanwhile.
one_build_works_in_a_repository_at_a_time() (
    seeming_repository
    of_three_crates
    sed -i "1a cp -p '$there/crates.txt' '$there/new' && mv '$there/new' '$there/crates.txt'; echo begin >>'$there/calls'; sleep 0.5; trap 'echo end >>\"$there/calls\"' EXIT" "$there/bin/rt"
    export PATH="$there/bin:/usr/bin:/bin"
    "$there/build" cvec 2>"$work/first" &
    first=$!
    until [ -s "$there/calls" ]; do sleep 0.05; done
    "$there/build" cvec 2>"$err"
    wait $first
    tells 'another build is under way here: waiting for it'
    if grep -q 'another build' "$work/first"; then return 1; fi
    [ "$(paste -sd ' ' "$there/calls")" = 'begin end begin end' ]
)

a_source_that_is_edited_in_a_build_is_built_again() (
    seeming_repository
    sed -i "1a sleep 0.1; touch '$there/crates/cvec/src/main.rt'" "$there/bin/rt"
    with_toolchain
    with_toolchain
    [ "$(cat "$out")" = 'made with word' ]
    tells_only 'cvec: proves and builds the program'
)

# Without Python `rt run` builds it.
a_source_that_is_edited_in_a_build_without_python_is_built_again() (
    seeming_repository
    mkdir "$work/tools"
    for tool in awk cat cp dirname find mkdir mktemp readlink rm sed sh sleep touch; do
        ln -s "$(command -v $tool)" "$work/tools"
    done
    sed -i "2i [ \"\$1\" != run ] || { sleep 0.1 && touch src/main.rt && mkdir -p out && cp '$work/made' out/cvec; exit; }" "$there/bin/rt"
    printf '#!/bin/sh\necho "made with $1"\n' >"$work/made"
    chmod +x "$work/made"
    for _ in 1 2; do
        run_there "$there/bin:$work/tools"
        [ "$(cat "$out")" = 'made with word' ]
        tells_only 'cvec: proves and builds the program'
    done
)

# As the program of `./build` is older than what was edited meanwhile, so is its archive.
what_is_edited_in_a_build_is_newer_than_what_it_made() (
    seeming_repository
    of_three_crates
    printf 'low: clap\nmiddle staticlib: low\ncvec: low\n' >"$there/crates.txt"
    sed -i "1a sleep 0.1; touch '$there/crates/low/src/lib.rt'" "$there/bin/rt"
    sed -i '3i [ "$1" != lib ] || { : >out/libmiddle.a; exit; }' "$there/bin/rt"
    for made in cvec/out/cvec middle/out/libmiddle.a; do
        touch -d '1 hour ago' "$there/crates/low/src/lib.rt"
        PATH=$there/bin:/usr/bin:/bin "$there/build" "${made%%/*}" 2>"$err"
        [ -e "$there/crates/$made" ]
        [ "$there/crates/low/src/lib.rt" -nt "$there/crates/$made" ]
        [ "$there/crates/$made" -nt "$there/crates.txt" ]
    done
)

the_folder_may_have_any_name() (
    seeming_repository
    mv "$there" "$work/a & b|c\\d"
    there="$work/a & b|c\\d"
    with_toolchain
    with_toolchain
    answers 0 'made with word\n'
    touch -d '2 hours ago' "$there/crates/cvec/out/cvec"
    with_toolchain
    tells_only 'cvec: proves and builds the program'
)

# Only the crates that the program stands on are looked at.
a_source_beside_the_program_builds_nothing() (
    seeming_repository
    printf '# lowest first\nbelow: thiserror\nmiddle: below\ncvec: middle\nbeside: below\n' >"$there/crates.txt"
    mkdir -p "$there/crates/below/src" "$there/crates/middle/src" "$there/crates/beside/src"
    touch -d '1 hour ago' "$there/crates/below/src/lib.rt"
    with_toolchain
    touch -d '1 hour' "$there/crates/beside/src/main.rt"
    with_toolchain
    answers 0 'made with word\n'
    touch -d '1 hour' "$there/crates/below/src/lib.rt"
    with_toolchain
    [ "$(cat "$out")" = 'made with word' ]
    tells_only 'cvec: proves and builds the program'
)

a_build_that_fails_is_told_whole() (
    seeming_repository
    touch "$there/crates/cvec/broken"
    with_toolchain
    [ "$status" -eq 1 ]
    [ ! -s "$out" ]
    tells 'a line of the build'
    tells 'a fault of cvec'
    tells 'cvec: the program was not built'
)

# Three crates, each on the one before, and one that the program doesn't stand on.
of_three_crates() {
    printf '# lowest first\nlow: clap\n\nmiddle: low\nbeside: low\ncvec: middle clap\n' >"$there/crates.txt"
    mkdir -p "$there/crates/low/src" "$there/crates/middle/src" "$there/crates/beside/src"
    touch -d '1 hour ago' "$there/crates/low/src/lib.rt" "$there/crates/middle/src/lib.rt" "$there/crates.txt"
}

# The toolchain gets the crates that the program stands on, lowest first, with what the repository's handles allow, and
# without what builds and the gate have left in them.
what_a_program_stands_on_is_proved() (
    seeming_repository
    of_three_crates
    mkdir -p "$there/crates/low/must-fail" "$there/crates/low/out/rlib" "$there/crates/low/specs"
    echo 'Handles allowed: Wait.' >"$there/HANDLES"
    touch -d '1 hour ago' "$there/HANDLES" "$there/crates/low/specs/Lib.antt"
    sed -i "1a cat HANDLES crates.txt >'$there/given'; ls crates/low >>'$there/given'; [ -e .git ] || exit 1; sleep 1" "$there/bin/rt"
    with_toolchain
    [ "$(cat "$out")" = 'made with word' ]
    printf '%s\n' 'Handles allowed: Wait.' 'low: clap' 'middle: low' 'cvec: middle clap' specs src | cmp - "$there/given"
    grep -qx 'cvec: 1 of 3 crates are proved, [1-9][0-9]* s' "$err"
)

# A crate's library is moved here with the note of its sources, in place of the one that was there.
the_libraries_are_kept() (
    seeming_repository
    of_three_crates
    mkdir -p "$there/crates/low/out/rlib"
    echo 'an older one' >"$there/crates/low/out/rlib/older"
    with_toolchain
    [ "$(cat "$there/crates/low/out/rlib/stamp")" = 'sources of low' ]
    [ "$(cat "$there/crates/middle/out/rlib/stamp")" = 'sources of middle' ]
    [ "$(ls "$there/crates/low/out")" = rlib ]
    [ "$(ls "$there/crates/low/out/rlib")" = stamp ]
    [ ! -e "$there/crates/beside/out" ]
)

# A crate that the toolchain has passed before counts too.
what_was_proved_before_counts() (
    seeming_repository
    of_three_crates
    sed -i "s/rt: \$crate proved/rt: \$crate is kept: an earlier run proved it/; 1a sleep 1" "$there/bin/rt"
    with_toolchain
    grep -qx 'cvec: 1 of 3 crates are proved, [1-9][0-9]* s' "$err"
)

# Where the toolchain has another module, its libraries are made anew when they are needed.
a_program_is_built_where_no_library_can_be_kept() (
    seeming_repository
    of_three_crates
    echo 'raise ValueError("another kit")' >"$there/bin/rtlib.py"
    with_toolchain
    [ "$(cat "$out")" = 'made with word' ]
    tells "cvec: its libraries aren't kept: another kit"
    [ ! -e "$there/crates/low/out/rlib" ]
)

a_library_that_fails_is_told_and_not_left() (
    seeming_repository
    of_three_crates
    touch "$there/crates/middle/broken"
    with_toolchain
    [ "$status" -eq 1 ]
    tells 'a line of middle'
    tells 'a fault of middle'
    tells 'cvec is not built'
    if tells 'a line of low'; then return 1; fi
    [ ! -e "$there/crates/low/out" ]
    [ ! -e "$there/crates/cvec/out" ]
)

# One crate a processor, unless the caller says otherwise.
as_many_crates_are_proved_at_once_as_there_are_processors() (
    seeming_repository
    sed -i "1a echo \"lanes \$RT_JOBS\" >'$there/lanes'" "$there/bin/rt"
    PATH=$there/bin:/usr/bin:/bin
    unset RT_JOBS
    taskset -c "$(first_processor)" "$there/build" cvec 2>"$err"
    [ "$(cat "$there/lanes")" = 'lanes 1' ]
    RT_JOBS=3 "$there/build" cvec 2>"$err"
    [ "$(cat "$there/lanes")" = 'lanes 3' ]
)

# A toolchain that divides its work as the real one does: over a crate 'low', 'long' and then 'last' wait for one another,
# as 'short' and then 'last' do; beside them stand as many crates 'wide' as it is told to have. It says how many
# jobs each proof has, what it looks for, and where it keeps what was proved.
dividing_toolchain() {
    cat >"$there/bin/rt" <<'RT'
#!/usr/bin/env python3
import os
import sys
import types

rtlib = types.SimpleNamespace(help_of=lambda verb: f"{verb} --jobs --empty-contracts")


class Crate:
    def compile_by(self, backend, words, to):
        print(f"compiled by {backend}")
        return 0


class Kept:
    def place(self, crate, tests, key):
        return f"{os.environ['KEPT']}/{crate}-{tests}-{key}"


def processors():
    return 4


def in_lanes(tasks):
    return {key: task[-1]({}, 1) for key, task in tasks.items()}


def ci():
    lines = {"low": 1000, "long": 3000, "short": 100, "last": 600}
    waits = {"low": [], "long": ["low"], "short": ["low"]}
    for at in range(int(os.environ["WIDE"])):
        lines[f"wide{at}"], waits[f"wide{at}"] = 1000, ["low"]
    waits["last"] = ["long", "short"]
    tasks = {}
    for name in waits:
        for step in ("proof", "tests", "edits"):
            call = lambda given, jobs, it=name, of=step: print(f"{it} {of} {jobs}", flush=True)
            tasks[name, step] = [(it, "proof") for it in waits[name]], lines[name], 0, call
    in_lanes(tasks)
    Crate().compile_by("llvm", [], "out")
    Crate().compile_by("rattle", [], "out")
    print("looks:", rtlib.help_of("check"))
    print("keeps:", os.path.basename(Kept().place("low", False, "sum")))
    return 0


def main(words):
    return ci() if words == ["ci"] else 2


if __name__ == "__main__":
    sys.exit(f"rt {sys.argv[1:]} is not to be run")
RT
}

# proves WIDE JOBS [WORD]: what tools/prove has that toolchain say stands in $out then.
proves() {
    PATH=$there/bin:/usr/bin:/bin KEPT=$there/kept WIDE=$1 RT_JOBS=$2 "$there/tools/prove" ${3+"$3"} >"$out"
}

# Alone, or where what stands beside it has time, a crate has all processors. Where there are enough others, one job costs
# least. What isn't proof has the jobs that the toolchain gives it.
a_crate_gets_more_jobs_where_processors_are_idle() (
    seeming_repository
    dividing_toolchain
    jobs_are() {
        proves "$1" "$2"
        shift 2
        [ "$(grep -E '^(low|long|short|last) proof' "$out" | paste -sd,)" = "$*" ]
        [ "$(grep -c -E '^[a-z0-9]+ (tests|edits) 1$' "$out")" -eq "$(grep -c -E ' (tests|edits) ' "$out")" ]
    }
    jobs_are 0 4 'low proof 4,long proof 4,short proof 1,last proof 4'
    jobs_are 12 3 'low proof 3,long proof 1,short proof 1,last proof 1'
    [ "$(grep -c '^wide[0-9]* proof 1$' "$out")" -ge 9 ]
    jobs_are 0 1 'low proof 1,long proof 1,short proof 1,last proof 1'
)

a_program_is_compiled_once() (
    seeming_repository
    dividing_toolchain
    proves 0 4
    [ "$(grep '^compiled' "$out")" = 'compiled by llvm' ]
)

# So the gate, which looks for contracts that no call can meet, doesn't take what was proved without that; what the gate has
# kept is taken.
what_the_gate_asks_for_beside_proofs_is_left_to_it() (
    seeming_repository
    dividing_toolchain
    proves 0 4
    grep -qx 'looks: check --jobs ' "$out"
    grep -qx 'keeps: low-False-sum-built' "$out"
    mkdir -p "$there/kept/low-False-sum"
    proves 0 4
    grep -qx 'keeps: low-False-sum' "$out"
    sed -i 's/def place(/def folder(/; s/Kept()\.place(/Kept().folder(/' "$there/bin/rt"
    proves 0 4
    grep -qx 'looks: check --jobs --empty-contracts' "$out"
)

# It is given the toolchain's own jobs, compiles by both compilers, and looks for all.
the_gate_proves_as_the_toolchain_does() (
    seeming_repository
    dividing_toolchain
    proves 12 3 --gate
    [ "$(grep -c ' proof 1$' "$out")" -eq 16 ]
    [ "$(grep '^compiled' "$out" | paste -sd,)" = 'compiled by llvm,compiled by rattle' ]
    grep -qx 'looks: check --jobs --empty-contracts' "$out"
    grep -qx 'keeps: low-False-sum' "$out"
    status=0
    "$top/tools/prove" gate 2>"$err" || status=$?
    [ "$status" -eq 2 ]
    tells 'usage: tools/prove [--gate]'
)

# A repository of one crate that no run has proved before, since what was proved is kept: $small, which crates.txt names so.
a_small_crate() {
    there=$work/small
    small=small$(date +%s%N)
    mkdir -p "$there/.git" "$there/crates/$small/src"
    echo "$small$1:" >"$there/crates.txt"
    printf '#![tactic(auto)]\n\n%b' "$2" >"$there/crates/$small/src/lib.rt"
}

# The toolchain proves it, by tools/prove with these words; what it said is shown where it doesn't.
the_small_crate_is_proved() {
    (cd "$there" && RT_JOBS=1 "$top/tools/prove" "$@" >"$out" 2>"$err") && grep -qx "rt: $small proved" "$out" &&
        [ "$(tail -n 1 "$out")" = '1 passed, 0 failed' ] || { cat "$out" "$err" && return 1; }
}

# The toolchain at hand proves a crate of one function so, and keeps it apart.
the_toolchain_at_hand_is_run() (
    has rt 'a proof by tools/prove' || exit "$is_skipped"
    a_small_crate '' 'pub fn one() -> u8 {\n    1\n}\n'
    the_small_crate_is_proved
    if grep '^empty contracts' "$out"; then return 1; fi
)

# With it the proof of a static library leaves its archive, also in the gate, which looks for all.
the_toolchain_at_hand_archives_what_it_proves() (
    has rt 'a proof by tools/prove' || exit "$is_skipped"
    a_small_crate ' staticlib' '#[unsafe(no_mangle)]\npub extern "C" fn small_one() -> u8 {\n    1\n}\n'
    for words in '' --gate; do
        the_small_crate_is_proved $words
        grep -q small_one "$there/crates/$small/out/lib$small.a"
        rm "$there/crates/$small/out/lib$small.a"
    done
    grep -q '^empty contracts' "$out"
)

# 'rt lib' runs over the noted libraries of the copy. Where it fails, nothing is left here.
a_static_library_is_built_over_what_is_proved() (
    seeming_repository
    of_three_crates
    sed -i 's/^middle:.*/middle staticlib: low/' "$there/crates.txt"
    sed -i '2i [ "$1" != lib ] || { echo "a line of lib" && cat ../low/out/rlib/stamp >out/libmiddle.a && [ ! -e ../low/src/fails ]; exit; }' \
        "$there/bin/rt"
    builds() {
        status=0
        PATH=$there/bin:/usr/bin:/bin "$there/build" middle >"$out" 2>"$err" || status=$?
        [ "$status" -eq "$1" ]
    }
    touch "$there/crates/low/src/fails"
    builds 1
    tells 'a line of lib'
    tells 'middle is not built'
    [ ! -e "$there/crates/middle/out" ]
    [ ! -e "$there/crates/low/out" ]
    rm "$there/crates/low/src/fails"
    builds 0
    [ "$(cat "$there/crates/middle/out/libmiddle.a")" = 'sources of low' ]
    [ "$(cat "$there/crates/low/out/rlib/stamp")" = 'sources of low' ]
    if tells 'a line of lib'; then return 1; fi
    # It doesn't run where the proof has left an archive.
    sed -i '2i [ "$1" != ci ] || { mkdir -p crates/middle/out && echo proved >crates/middle/out/libmiddle.a; }' "$there/bin/rt"
    touch "$there/crates/low/src/fails"
    builds 0
    [ "$(cat "$there/crates/middle/out/libmiddle.a")" = proved ]
)

# What `rt ci` leaves of a library, and an `rt lib` that makes an archive of its note and this file.
seeming_libraries() {
    seeming_repository
    mkdir -p "$there/crates/low/src" "$there/crates/low/out/rlib/low.rlib"
    cp "$top/tools/archives" "$there/tools"
    printf 'low: clap\ncvec_c staticlib: low\ncvec_threads staticlib: low\n' >"$there/crates.txt"
    for name in cvec_c cvec_threads; do mkdir -p "$there/crates/$name/src"; done
    touch -d '1 hour ago' "$there/crates/low/src/lib.rt"
    printf '#!/bin/sh\n[ "$1" = lib ] || exit 2\nmkdir out\nname=${PWD##*/}\n%s\n' \
        'cat ../low/out/rlib/stamp "$LONG" >out/lib$name.a' >"$there/bin/rt"
    : >"$work/long"
    export LONG="$work/long" PYTHONDONTWRITEBYTECODE=1
}

makes_libraries() {
    status=0
    PATH=$there/bin:/usr/bin:/bin "$there/tools/archives" "$@" 2>"$err" || status=$?
}

the_libraries_for_c_are_made_of_what_was_proved() (
    seeming_libraries
    makes_libraries
    [ "$status" -eq 0 ]
    for name in cvec_c cvec_threads; do [ "$(cat "$there/crates/$name/out/lib$name.a")" = 'sources of low' ]; done
    # Nothing is made of a library that is older than its sources, and what is edited meanwhile is newer than an archive.
    touch -d '1 minute' "$there/crates/low/src/lib.rt"
    rm "$there/crates/cvec_c/out/libcvec_c.a"
    makes_libraries
    [ "$status" -eq 1 ]
    tells 'crates/low/src/lib.rt is newer than what was proved'
    [ ! -e "$there/crates/cvec_c/out/libcvec_c.a" ]
    # Nor where a source was edited while it was proved: behind the beginning of the gate.
    touch -d '1 hour ago' "$there/crates/low/src/lib.rt"
    touch -d '2 hours ago' "$work/began"
    makes_libraries "$work/began"
    [ "$status" -eq 1 ]
    tells 'crates/low/src/lib.rt is newer than what was proved'
    touch "$work/began"
    makes_libraries "$work/began"
    [ "$status" -eq 0 ]
    sed -i "2i sleep 0.1; touch '$there/crates/low/src/lib.rt'" "$there/bin/rt"
    makes_libraries
    [ "$status" -eq 0 ]
    [ "$there/crates/low/src/lib.rt" -nt "$there/crates/cvec_c/out/libcvec_c.a" ]
)

# It is taken to be of the sources as they were when the gate began. The other one is made.
what_a_proof_has_archived_isnt_proved_once_more() (
    seeming_libraries
    touch -d '1 minute ago' "$work/began"
    mkdir "$there/crates/cvec_c/out"
    echo archived >"$there/crates/cvec_c/out/libcvec_c.a"
    makes_libraries "$work/began"
    [ "$status" -eq 0 ]
    [ "$(cat "$there/crates/cvec_c/out/libcvec_c.a")" = archived ]
    [ "$(stat -c %Y "$there/crates/cvec_c/out/libcvec_c.a")" -eq "$(stat -c %Y "$work/began")" ]
    [ "$(cat "$there/crates/cvec_threads/out/libcvec_threads.a")" = 'sources of low' ]
    # Now neither is newer, so both are made; where both are, nothing else is asked for.
    makes_libraries "$work/began"
    [ "$status" -eq 0 ]
    [ "$(cat "$there/crates/cvec_c/out/libcvec_c.a")" = 'sources of low' ]
    touch "$there"/crates/*/out/lib*.a
    rm -r "$there/crates/low"
    makes_libraries "$work/began"
    [ "$status" -eq 0 ]
)

# It is made on another device, and comes over it to a full one: a file there has 64 KiB at most.
a_library_for_c_is_left_whole_or_not_at_all() (
    [ -w /dev/shm ] && [ "$(stat -c %d /dev/shm)" != "$(stat -c %d "$work")" ] ||
        lacks 'there is no /dev/shm to bring a library from' || exit $is_skipped
    seeming_libraries
    LONG=$(mktemp -p /dev/shm)
    trap 'rm -f "$LONG"' EXIT
    head -c 200000 /dev/zero >"$LONG"
    sed -i 's/^cat .*/ln "$LONG" out\/lib$name.a/' "$there/bin/rt"
    (
        export TMPDIR=/dev/shm
        ulimit -f 128
        makes_libraries
        [ "$status" -eq 1 ]
    )
    [ ! -e "$there/crates/cvec_c/out/libcvec_c.a" ]
)

# The toolchain is ended too.
a_build_that_is_ended_leaves_nothing_half() (
    seeming_repository
    of_three_crates
    mkdir "$there/.git"
    sed -i "1a trap 'touch \"$there/is_ended\"; exit 1' TERM; mkdir -p crates/low/out/rlib; : >'$there/has_begun'; sleep 60 & wait" "$there/bin/rt"
    PATH=$there/bin:/usr/bin:/bin "$there/build" cvec 2>"$err" &
    await [ -e "$there/has_begun" ]
    kill $!
    status=0
    wait $! || status=$?
    [ "$status" -ne 0 ]
    [ -e "$there/is_ended" ]
    [ ! -e "$there/crates/low/out/rlib" ]
    [ -z "$(ls "$there/.git")" ]
)

# The small program is built while the whole one isn't there, and serves two commands alone.
image_and_show_are_built_first() (
    seeming_repository
    mkdir -p "$there/crates/cvec_hex/src"
    printf 'cvec_hex: clap\ncvec: clap\n' >"$there/crates.txt"
    touch -d '1 hour ago' "$there/crates.txt" "$there/crates/cvec_hex/src/main.rt"
    answers_by() {
        program=$there/crates/$1/out/$1
        shift
        PATH=$there/bin:/usr/bin:/bin "$there/cvec" "$@" <"$in" >"$out" 2>"$err"
        [ -x "$program" ]
    }
    answers_by cvec_hex show u64
    [ ! -e "$there/crates/cvec/out/cvec" ]
    tells "proves and builds what 'image' and 'show' need"
    for words in 'image f32' 'show f64' 'show --help'; do
        rm -f "$there/crates/cvec/out/cvec"
        # shellcheck disable=SC2086 # each is a word
        answers_by cvec $words
    done
    echo 'echo the small one' >>"$there/crates/cvec_hex/out/cvec_hex"
    answers_by cvec image u64
    [ "$(grep -c 'the small one' "$out")" -eq 0 ]
)

# Files are handed over as copies, words in their order; nothing that writes is tried.
words_are_tried_without_proofs() (
    seeming_repository
    printf '#!/bin/sh\nprintf "%%s\\n" "$@"\necho "checked: ended status=3" >&2\necho "run=ended status=3 x proved=no" >&2\nexit 3\n' >"$there/bin/rt"
    : >"$work/a file"
    cd "$work"
    status=0
    PATH=$there/bin:/usr/bin:/bin "$there/cvec" try list u64 'a file' --count=2 >"$out" 2>"$err" || status=$?
    [ "$status" -eq 3 ]
    printf '%s\n' try --data "a file=$(readlink -f "$work")/a file" -- list u64 'a file' --count=2 | cmp - "$out"
    tells_only 'cvec: nothing is proved'
    for word in create load append set resize clear fold upgrade copy serve; do
        status=0
        PATH=$there/bin:/usr/bin:/bin "$there/cvec" try $word u64 'a file' >"$out" 2>"$err" || status=$?
        [ "$status" -eq 2 ]
        [ ! -s "$out" ]
        tells_only "'try' has no $word"
    done
)

without_a_toolchain_the_older_program_runs() (
    seeming_repository
    with_toolchain
    touch -d '2 hours ago' "$there/crates/cvec/out/cvec"
    without_toolchain
    [ "$status" -eq 0 ]
    [ "$(cat "$out")" = 'made with word' ]
    tells_only 'cvec: the program is older than its sources, and there is no toolchain (rt)'
)

without_a_toolchain_nothing_is_built() (
    seeming_repository
    without_toolchain
    [ "$status" -eq 1 ]
    [ ! -s "$out" ]
    tells_only 'cvec: the program is not built, and there is no toolchain (rt)'
)

# Runs the script as a user who may write to none of its folders.
as_another_user() {
    chmod -R go+rX,go-w "$work"
    chmod 777 "$work"
    if [ "$(id -u)" -eq 0 ]; then
        status=0
        setpriv --reuid=65534 --regid=65534 --clear-groups \
            env PATH="$there/bin:/usr/bin:/bin" "$there/cvec" word <"$in" >"$out" 2>"$err" || status=$?
    else
        find "$there" -type d -exec chmod a-w {} +
        with_toolchain
        find "$there" -type d -exec chmod u+w {} +
    fi
}

a_user_who_may_not_write_gets_the_older_program() (
    seeming_repository
    with_toolchain
    touch -d '2 hours ago' "$there/crates/cvec/out/cvec"
    as_another_user
    [ "$status" -eq 0 ]
    [ "$(cat "$out")" = 'made with word' ]
    tells_only 'cvec: the program is older than its sources, and you may not write to '
)

a_user_who_may_not_write_is_told_that_nothing_is_built() (
    seeming_repository
    as_another_user
    [ "$status" -eq 1 ]
    [ ! -s "$out" ]
    tells_only 'cvec: the program is not built, and you may not write to '
)
