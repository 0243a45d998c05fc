# The scripts that measure. Nothing is proved, compiled or timed here, but for the job over tokens.

# ---- the tools that they build with only seem some

# A repository of these scripts, with an 'rt' and compilers. What the compilers make prints three figures, and leaves the words
# that it got beside itself.
seeming_repository() {
    there=$work/there
    mkdir -p "$there" "$work/tools"
    cp -r "$top/bench" "$there"
    printf '#!/bin/sh\necho "built $1"\n' >"$there/build"
    chmod +x "$there/build"
    ln -s "$top/examples" "$top/bindings" "$there"
    cat >"$work/figures" <<'FIGURES'
{"peer":"tbb.grow_by(range)","work":"grow","threads":4,"block":256,"n":8,"seconds":1,"per_second":1.5e6,"spread":1.3,"others":0}
{"peer":"own","work":"grow","threads":4,"block":256,"n":8,"seconds":1,"per_second":3e6,"spread":1.2,"others":0}
{"peer":"lmdb","work":"durable.flow","threads":4,"block":16,"n":8,"seconds":1,"per_second":8e6,"spread":1.5,"others":1}
FIGURES
    printf '#!/bin/sh\necho /seeming/page\n' >"$work/tools/rt"
    cat >"$work/tools/g++" <<TOOL
#!/bin/sh
[ "\$1" != --version ] || exec echo seeming
while [ "\$1" != -o ]; do shift; done
cp "$work/measurer" "\$2"
TOOL
    cat >"$work/measurer" <<TOOL
#!/bin/sh
[ "\$1" != --versions ] || exec echo seeming
printf '%s\n' "\$@" >"\$0.words"
cat "$work/figures"
TOOL
    cp "$work/tools/g++" "$work/tools/rustc"
    cp "$work/tools/g++" "$work/tools/cc"
    chmod +x "$work/measurer" "$work/tools"/*
    PATH=$work/tools:$PATH
    unset CC CXX SCRATCH
}

# Runs this script of the repository, as 'run' runs the program.
run_script() {
    script=$1
    shift
    status=0
    "$there/bench/$script" "$@" >"$out" 2>"$err" || status=$?
    echo "status $status of bench/$script $*"
    cat "$err"
}

# ---- the scripts

refuses() {
    run_script "$@"
    [ "$status" -eq 2 ]
    [ ! -s "$out" ]
    tells "usage: bench/$1 "
    [ ! -e "$work/run" ]
}

scripts_that_measure_refuse_wrong_words() (
    seeming_repository
    for name in run run-peers; do
        refuses "$name"
        refuses "$name" --quick
        for wrong in quick --quickly --work= --work=grown --work=grow,,read --work=grow: --modes=wait --threads=3 \
            --blocks=8 --reps= --reps=two --ext=own; do
            refuses "$name" "$work/run" "$wrong" --quick
            tells "$wrong"
        done
    done
)

scripts_in_python_refuse_wrong_words() (
    has python3 'scripts that measure' || exit "$is_skipped"
    seeming_repository
    refuses commands
    refuses commands "$work" none
    refuses commands "$work" 1 2
    refuses follow
    refuses follow "$work" 0
    refuses follow "$work" 1 1 1
    refuses many
    refuses many "$work" 3
    refuses many "$work" 4 0
    refuses many "$work" 4 15 1
    refuses tokens
    for wrong in "$work/none" "$work 0" "$work one" "$work 1 1999" "$work 1 2000 1"; do
        # shellcheck disable=SC2086 # each word is one
        refuses tokens $wrong
    done
    refuses plot
    refuses table --base=own
)

a_run_measures_own_figures_among_the_peers() (
    seeming_repository
    run_script run "$work/run" --work=grow,durable --threads=1,4 --reps=5
    [ "$status" -eq 0 ]
    cmp "$work/figures" "$work/run/results.jsonl"
    printf '%s\n' "--dir=$work/run/scratch" "--ext=rust-std:$work/run/build/peers_rs" \
        "--ext=own:$work/run/build/native" \
        --work=grow,append,beside,read,memory,durable,open --work=grow,durable --threads=1,4 --reps=5 |
        cmp - "$work/run/build/peers.words"
    grep -qx 'built cvec_threads' "$out"
    cmp "$work/measurer" "$work/run/build/native"
    grep -qx seeming "$work/run/env.txt"
    [ ! -e "$work/run/scratch" ]
    if has python3 'tables of a run'; then
        grep -qxF '| 256 | tbb.grow_by(range) | 1.5 (1.3) **2.00** |' "$work/run/table.md"
        grep -qxF '| 256 | own | 3 (1.2) |' "$work/run/table.md"
    fi
)

a_table_has_ratios_to_a_peer() (
    has python3 'tables of a run' || exit "$is_skipped"
    seeming_repository
    run_script table "$work/figures" --base=own --work=grow
    [ "$status" -eq 0 ]
    grep -qxF '| 256 | tbb.grow_by(range) | 1.5 (1.3) **2.00** |' "$out"
    grep -qxF '| 256 | own | 3 (1.2) |' "$out"
    run_script table "$work/figures" --of=own --work=grow
    grep -qxF '| 256 | tbb.grow_by(range) | 1.5 (1.3) **0.50** |' "$out"
    grep -qxF '| 256 | own | 3 (1.2) |' "$out"
)

a_run_whose_peers_fail_has_no_tables() (
    seeming_repository
    echo 'exit 1' >>"$work/measurer"
    run_script run-peers "$work/run"
    [ "$status" -eq 1 ]
    [ ! -e "$work/run/table.md" ]
    [ ! -e "$work/run/scratch" ]
)

# The names in a plot, and the heights above its foot of the points that stand over this place of the axis.
points_over() {
    python3 - "$1" "$2" <<'READER'
import sys, xml.etree.ElementTree as tree
root = tree.parse(sys.argv[1]).getroot()
parts = lambda tag: root.iter("{http://www.w3.org/2000/svg}" + tag)
print(*(text.text for text in parts("text") if text.get("class") == "name"))
column = next(text.get("x") for text in parts("text") if text.text == sys.argv[2])
print(*(int(root.get("height")) - float(point.get("cy")) for point in parts("circle") if point.get("cx") == column))
READER
}

a_run_is_drawn() (
    has python3 'plots of a run' || exit "$is_skipped"
    seeming_repository
    run_script plot "$work/figures" "$work/plots"
    answers 0 ''
    [ "$(cd "$work/plots" && echo *)" = 'durable.svg growth.svg' ]
    [ "$(points_over "$work/plots/durable.svg" 16 | head -n 1)" = LMDB ]
    points_over "$work/plots/growth.svg" 4 >"$work/points"
    [ "$(head -n 1 "$work/points")" = 'cvec oneTBB' ]
    # Our point is drawn above all others, so last; it is the higher one too.
    tail -n 1 "$work/points" | { read -r theirs ours && [ "${ours%.*}" -gt "${theirs%.*}" ]; }
    run_script plot "$work/figures"
    answers 0 ''
    cmp "$work/plots/growth.svg" "$there/docs/plots/growth.svg"
)

# A line for each way of reading.
ways_of_reading_are_drawn() (
    has python3 'plots of a run' || exit "$is_skipped"
    seeming_repository
    for peer in tbb own own.view own.visit own.pieces; do
        for threads in 1 4; do
            printf '{"peer":"%s","work":"%s","threads":%d,"block":16,"per_second":%de6}\n' \
                "$peer" read.random "$threads" "$threads" "$peer" beside.sum "$threads" "$threads" "$peer" read.seq "$threads" "$threads"
        done
    done >"$work/ways"
    run_script plot "$work/ways" "$work/plots"
    answers 0 ''
    [ "$(cd "$work/plots" && echo *)" = reads.svg ]
    [ "$(points_over "$work/plots/reads.svg" 4 | head -n 1)" = 'cvec cvec, by a view cvec, 32 at once oneTBB cvec, by pieces' ]
)

# ---- the job over tokens, by the program itself

has_tokens() {
    for tool in python3 cc sqlite3; do
        has $tool 'the job over tokens' || return 1
    done
}

# A repository of these scripts and the program, and folders for its files and for tools that stand before others.
repository_of_tokens() {
    "$top/cvec" --version >"$out" 2>"$err"
    there=$work/there
    mkdir -p "$there/crates/cvec/out" "$work/tools" "$work/files"
    cp -r "$top/bench" "$there"
    ln -s "$top/cvec" "$top/examples" "$top/bindings" "$there"
    ln -s "$program" "$there/crates/cvec/out/cvec"
    PATH=$work/tools:$PATH
}

# The tool does this where its words are of this pattern, and else what it is. `real` is the tool in the former.
seems() {
    case $1 in
    cvec) path=$there/crates/cvec/out/cvec real=$program ;;
    *) path=$work/tools/$1 real=$(PATH=${PATH#*:} command -v "$1") ;;
    esac
    rm -f "$path"
    printf '#!/bin/sh\nreal=%s\ncase $* in\n%s)\n%s\nexit ;;\nesac\nexec "$real" "$@"\n' "$real" "$2" "$3" >"$path"
    chmod +x "$path"
}

# The figures of the lines of this name, each above 0: the third is the second over the first, as far as they are printed.
has_figures() {
    awk -F ' [|] ' -v name="$1" '
        $1 == "| " name { off = $2 > 0 && $3 > 0 ? $3 / $2 / $4 : 0; if (off > 0.97 && off < 1.03) good++; else bad++ }
        END { exit bad || !good }' "$2"
}

both_tools_do_the_job_over_tokens() (
    has_tokens || exit "$is_skipped"
    repository_of_tokens
    run_script tokens "$work/files" 2 2345
    [ "$status" -eq 0 ]
    [ ! -s "$err" ]
    printf '%s\n' 'Work, seconds' --- 'take in 2,345 tokens, one a line' 'count those that equal one' \
        'find the first position of one, in the middle' 'list 1,000 in the middle' 'change one in the middle' 'append one' \
        '4 processes append 10,000 each at once' 'shorten to half: `fold` and `resize`; `delete`' 'the file then, MB' \
        'write it anew: `copy`; `vacuum`' 'the file then, MB' >"$work/names"
    sed 's/^| *\([^|]*[^ |]\) *|.*/\1/; s/^|---|.*/---/' "$out" | cmp - "$work/names"
    sed -n '3,$p' "$work/names" | while IFS= read -r name; do
        has_figures "$name" "$out"
    done
    # A frame of 1,172 records of 8 bytes and 26 bytes beside them.
    tail -n 1 "$out" | grep -qF '| the file then, MB | 0.0094 | '
)

figures_are_medians_of_runs_by_turns() (
    has_tokens || exit "$is_skipped"
    repository_of_tokens
    : >"$work/turns"
    seems sqlite3 '*" limit 1"' "echo sqlite3 >>'$work/turns'; exec \"\$real\" \"\$@\""
    # The program counts slowly in the first turn alone, and finds slowly in all others.
    seems cvec 'count* | find*' "[ \$1 = count ] || echo cvec >>'$work/turns'
        case \$1-\$(grep -c cvec '$work/turns') in count-0 | find-[23]) sleep 1 ;; esac
        exec \"\$real\" \"\$@\""
    run_script tokens "$work/files" 3 2000
    [ "$status" -eq 0 ]
    [ "$(paste -sd ' ' "$work/turns")" = 'cvec sqlite3 sqlite3 cvec cvec sqlite3' ]
    # A figure has three digits: a second and a millisecond read 1.
    awk -F ' [|] ' '$1 ~ "count" && $2 < 1 { counted = 1 } $1 ~ "find" && $2 >= 1 { found = 1 } END { exit !(counted && found) }' "$out"
)

# What the page says of them: cvec makes growths of 1,000, two and one of them before 40 of the writers. Each process of sqlite3
# syncs commits, its file is one that is written ahead, and each writer has ten transactions.
tools_have_the_settings_of_the_page() (
    has_tokens || exit "$is_skipped"
    repository_of_tokens
    seems cvec 'fold*' "\"\$real\" stat \"\$3\" >'$work/frames'; exec \"\$real\" \"\$@\""
    seems sqlite3 '*' "echo \"\$*\" | grep -c 'pragma synchronous=full' >>'$work/synced'; exec \"\$real\" \"\$@\""
    run_script tokens "$work/files" 1 2000
    [ "$status" -eq 0 ]
    grep -qx 'growths 43' "$work/frames"
    [ "$(sort -u "$work/synced")" = 1 ]
    [ "$(sqlite3 "$work/files/sqlite3.tokens" 'pragma journal_mode')" = wal ]
    for writer in 1 2 3 4; do
        [ "$(grep -c '^begin immediate; .*; commit;$' "$work/files/sqlite3.writer$writer")" -eq 10 ]
    done
)

# The tool that does this where its words are of this pattern is told, by this text, and there are no figures.
is_found_out() {
    repository_of_tokens
    seems "$1" "$3" "$4"
    run_script tokens "$work/files" 1 2000
    [ "$status" -eq 1 ]
    [ ! -s "$out" ]
    tells "bench/tokens: $2"
    rm -r "$there" "$work/tools"
}

a_program_that_answers_otherwise_has_no_figures() (
    has_tokens || exit "$is_skipped"
    is_found_out cvec 'take in 2,000 tokens, one a line: cvec has []' '*' 'exit'
    is_found_out cvec 'take in 2,000 tokens, one a line: cvec has' '*--block*' 'sed 1d | "$real" "$@"'
    is_found_out cvec 'count those that equal one: cvec has' 'count*' 'echo 7'
    is_found_out cvec 'find the first position of one, in the middle: cvec has' 'find*' 'echo none'
    is_found_out cvec 'list 1,000 in the middle: cvec has' '*--count=1000' '"$real" "$@" | tac'
    is_found_out cvec 'change one in the middle: cvec has' 'set*' 'echo ok'
    is_found_out cvec 'append one: cvec has' 'append*.tokens' 'cat >/dev/null'
    is_found_out cvec '4 processes append 10,000 each at once: cvec has' 'serve*' \
        'cp "$3" "$3.other"; "$real" serve u64 "$3.other" --seats=4'
    is_found_out cvec '4 processes append 10,000 each at once: cvec has' '*--count=40001' '"$real" "$@" | sort -n -r'
    is_found_out cvec 'shorten to half: `fold` and `resize`; `delete`: cvec has' 'resize*' 'echo ok'
    is_found_out cvec 'write it anew: `copy`; `vacuum`: cvec has' 'copy*' '"$real" create u64 "$4"'
    is_found_out cvec 'cvec made no shorter file' 'copy*' 'cp "$3" "$4"'
    for command in find serve; do
        is_found_out cvec "Command '['$work/there/crates/cvec/out/cvec', '$command'," "$command*" 'exit 3'
        tells 'exit status 3'
    done
)

a_peer_that_answers_otherwise_has_no_figures() (
    has_tokens || exit "$is_skipped"
    is_found_out sqlite3 'take in 2,000 tokens, one a line: sqlite3 has []' '*' 'exit'
    is_found_out sqlite3 'count those that equal one: sqlite3 has' '*count*where*' 'echo 7'
    is_found_out sqlite3 'find the first position of one, in the middle: sqlite3 has' '*" limit 1"' 'echo 7'
    is_found_out sqlite3 'list 1,000 in the middle: sqlite3 has' '*" limit 1000"' '"$real" "$@" | tac'
    is_found_out sqlite3 'change one in the middle: sqlite3 has' '*update*' ':'
    is_found_out sqlite3 'append one: sqlite3 has' '*insert*' ':'
    is_found_out sqlite3 '4 processes append 10,000 each at once: sqlite3 has' '*.tokens' 'grep -v "(20000)" | "$real" "$@"'
    is_found_out sqlite3 'shorten to half: `fold` and `resize`; `delete`: sqlite3 has' '*delete*' ':'
    is_found_out sqlite3 'sqlite3 made no shorter file' '*vacuum*' ':'
    is_found_out sqlite3 "Command '['sqlite3'," '*.tokens' 'exit 3'
    tells 'exit status 3'
)

without_a_peer_there_are_no_figures() (
    has python3 'the job over tokens' || exit "$is_skipped"
    repository_of_tokens
    ln -s "$(python3 -c 'import sys; print(sys.executable)')" "$work/tools/python3"
    status=0
    PATH=$work/tools "$there/bench/tokens" "$work/files" 1 2000 >"$out" 2>"$err" || status=$?
    cat "$err"
    [ "$status" -eq 1 ]
    [ ! -s "$out" ]
    tells 'bench/tokens: there is no sqlite3'
    [ -z "$(ls "$work/files")" ]
)
