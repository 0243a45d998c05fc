# Files, scripts and words that nobody wrote, and memory that is refused.

# ---- files that nobody wrote, memory that is refused: by the reader of files and the follower of scripts in tests/fuzz

# The file of one growth of 5, which a change makes 7.
seven=${five%00}0102100000000000000000000000070000000000000000

# What 'show' answers of so many of its bytes.
a_file_that_is_cut_short_is_told() (
    while read -r lengths answer; do
        for length in $lengths; do
            given "$(printf %s "$seven" | head -c $((2 * length)))\n"
            run show u64
            [ "$(cat "$out")" = "$answer" ]
        done
    done <<'ANSWERS'
0 refused: unborn
1 refused: unborn
2 refused: not a segment
10 refused: not a segment
11 refused: damaged at 11: no gate
12 refused: damaged at 11: short frame
32 refused: damaged at 11: short frame
33 refused: damaged at 33: no gate
34 refused: damaged at 33: short frame
54 refused: damaged at 33: short frame
55 refused: damaged at 55: no gate
56 7
ANSWERS
)

# What 'show' answers where the bytes from the first place to the last are ff, one at a time.
a_byte_that_is_altered_is_told() (
    while read -r first last answer; do
        for place in $(seq "$first" "$last"); do
            given "$(printf %s "$seven" | head -c $((2 * place)))ff$(printf %s "$seven" | tail -c +$((2 * place + 3)))\n"
            run show u64
            [ "$(cat "$out")" = "$answer" ]
        done
    done <<'ANSWERS'
0 0 refused: unborn
1 7 refused: not a segment
8 8 refused: version 255
9 9 refused: width 255
10 10 refused: width 65288
11 11
12 12 refused: damaged at 12: kind 255
13 14 refused: damaged at 11: short frame
15 16 refused: damaged at 13: too large
17 24 refused: damaged at 17: layout
25 32 7
33 33 5
34 34 refused: damaged at 34: kind 255
35 36 refused: damaged at 33: short frame
37 38 refused: damaged at 35: too large
39 46 refused: damaged at 39: range
47 47 255
55 55 7
ANSWERS
)

each_byte_may_have_each_value() (
    "$top/tests/fuzz/run" each bytes
)

a_file_may_be_cut_at_each_length() (
    "$top/tests/fuzz/run" each cuts
)

frames_may_be_any() (
    "$top/tests/fuzz/run" each frames
)

a_number_that_asks_for_much_takes_no_memory() (
    "$top/tests/fuzz/run" each sizes
)

each_request_for_memory_may_be_refused() (
    "$top/tests/fuzz/run" each memory
)

nothing_that_nobody_wrote_is_answered_wrongly() (
    "$top/tests/fuzz/run" 60 "$(date +%s)"
)

# ---- what looks for wrong answers, with programs that give some

# A repository whose program is the built one, behind these lines of a shell.
seeming_program() {
    there=$work/there
    rm -rf "$there"
    mkdir -p "$there/tests" "$there/crates/cvec/out" "$there/crates/play_tests/out"
    cp -r "$top/tests/fuzz" "$there/tests"
    printf '#!/bin/sh\n%s\nexec "%s" "$@"\n' "$1" "$program" >"$there/crates/cvec/out/cvec"
    chmod +x "$there/crates/cvec/out/cvec"
    cp "$there/crates/cvec/out/cvec" "$there/cvec"
    ln -s "${PLAY_TESTS:-$top/crates/play_tests/out/play_tests}" "$there/crates/play_tests/out"
}

# What is wrong with its answers to one job of each kind.
judged() {
    PYTHONPATH=$there/tests/fuzz PYTHONDONTWRITEBYTECODE=1 python3 - <<'PYTHON'
from commands import judge_commands
from follower import judge_script
from random_jobs import judge_lines
from serving import GROW, head, judge_served
from tables import judge_image, judge_opened
from writer import all_kinds, numbers

commands = [("check", [], []), ("stat", [], []), ("list", [], []), ("count", ["--record=9"], []), ("find", ["--record=9"], []),
            ("upgrade", [], []), ("copy", ["--block=2"], []), ("set", ["1", "--records=4,5"], []),
            ("append", [], ["1 2", "3"]), ("fold", [], [])]
jobs = [(judge_commands, ("u64", all_kinds(1), [it])) for it in commands]
jobs += [(judge_opened, ([all_kinds(1), all_kinds(2)[:-1], b""], "u64"))]
jobs += [(judge_image, (all_kinds(2)[:-1], "u64", False)), (judge_lines, ("u64", [[numbers(10)]])),
         (judge_script, ["create", "resize 2 5", "crash old", "open", "list"]),
         (judge_served, ("u64", all_kinds(1), [[(head(GROW, 1) + bytes(8), GROW, [bytes(8)])]]))]
for judge, job in jobs:
    told = judge(job)[0]
    if told:
        print(told)
PYTHON
}

# Each line is a command of the program, what is done in its place, and what is found. $p is the program.
a_program_that_answers_wrongly_is_found() (
    [ -n "${PLAY_TESTS-}" ] || build_older play_tests
    seeming_program ''
    judged >"$out"
    [ ! -s "$out" ]
    while IFS='~' read -r word does found; do
        seeming_program "p='$program'; if [ \"\${1-}\" = $word ]; then $does; fi"
        judged >"$out"
        echo "$word: $does"
        cat "$out"
        [ "$(grep -c . "$out")" -eq 1 ]
        grep -q "^$found" "$out"
    done <<'ROWS'
show~"$p" "$@"; exit 0~show
image~"$p" "$@" | tr a-f A-F; exit~image
count~"$p" "$@"; s=$?; printf x >>"$3"; exit $s~count wrote the file
find~echo none; exit~find
check~"$p" "$@" | sed 's/live 1/live 2/'; exit~check
list~"$p" "$@" | sed 1d; exit~list
stat~"$p" "$@" | sed 's/^behind 0/behind 1/'; exit~stat
set~"$p" "$@"; s=$?; printf '\7' | dd of="$3" bs=1 seek=25 conv=notrunc 2>/dev/null; exit $s~set left other records
append~"$p" "$@" </dev/null | sed 's/appended .*/appended 2 growths, size 6/'; exit~append left other records
upgrade~"$p" "$@"; s=$?; printf '\1' | dd of="$4" bs=1 seek=8 conv=notrunc 2>/dev/null; exit $s~the new file of upgrade
copy~"$p" copy "$2" "$3" "$4" --block=3; exit~the new file of copy
serve~"$p" "$@" | sed 's/served 1/served 0/'; exit~serve
play~"$p" "$@" | sed 's/^size 2/size 1/'; exit~line
ROWS
    for does in "sed 's/^images -> .*/images -> 9/'" "sed 's/damaged at/damaged  at/'" "sed '\$d'" "sed 's/\$/ /'" 'cat; exit 1'; do
        seeming_program ''
        runner=$(readlink "$there/crates/play_tests/out/play_tests")
        rm "$there/crates/play_tests/out/play_tests"
        printf '#!/bin/sh\n"%s" | %s\n' "$runner" "$does" >"$there/crates/play_tests/out/play_tests"
        chmod +x "$there/crates/play_tests/out/play_tests"
        judged >"$out"
        echo "$does"
        cat "$out"
        [ "$(grep -c . "$out")" -eq 1 ]
        grep -q '^a script: ' "$out"
    done
    seeming_program "if [ \"\${1-}\" = help ]; then '$program' help | grep -v '^serve'; exit 0; fi"
    status=0
    "$there/tests/fuzz/run" 1 7 >"$out" 2>"$err" || status=$?
    [ "$status" -eq 1 ]
    tells 'the usage of the program names no serve'
)
