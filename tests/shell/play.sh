# `cvec play`: scripts of steps over a disk in memory.

# ---- scripts of steps

# A script whose lines are asked for and answered so: rows of 'LINE = ANSWER', parted by semicolons.
is_played() {
    printf '%s\n' "$2" | tr ';' '\n' | sed 's/^ *//' >"$work/rows"
    sed 's/ = .*//' "$work/rows" >"$in"
    run play "$1"
    [ "$status" -eq 0 ]
    sed 's/.* = //' "$work/rows" | cmp - "$out"
}

# The scripts of a file of tests/play, parted by empty lines: a type, and such rows, one a line. A line with # says what they show.
are_played() {
    rm -f "$work"/script.*
    grep -v '^#' "$top/tests/play/$1.play" | awk -v to="$work/script." 'BEGIN { RS = "" } { print >(to NR) }'
    [ -e "$work/script.1" ]
    for script in "$work"/script.*; do
        is_played "$(head -n 1 "$script")" "$(tail -n +2 "$script")"
    done
}

growths_are_settled_by_the_flusher() (
    are_played growths_are_settled_by_the_flusher
)

a_gate_that_is_not_synced_may_be_lost() (
    are_played a_gate_that_is_not_synced_may_be_lost
)

folds_go_on_beside_commands() (
    are_played folds_go_on_beside_commands
)

runs_of_several_positions_are_one_command() (
    are_played runs_of_several_positions_are_one_command
)

refused_steps_change_nothing() (
    are_played refused_steps_change_nothing
)

each_type_of_record_has_its_scripts() (
    are_played each_type_of_record_has_its_scripts
)

every_line_of_a_script_is_read_before_a_step_is_done() (
    becomes 'play u64' '' 0 ''
    becomes 'play u64' 'list' 0 'refused wrong phase\n'
    becomes 'play u64' 'create\nlist\nlost\nlast\n' 1 'refused: line 3\n'
    becomes 'play u64' 'create\ncrash old\n\n' 1 'refused: line 3\n'
    becomes 'play u64' 'create\ncrash 0\n' 1 'refused: line 2\n'
    becomes 'play u64' 'crash FF\ncrash ff' 0 'crashed 0\ncrashed 0\n'
)

# Each verb with too few words, too many, and with words that are of another kind.
a_line_of_no_script_is_refused() (
    becomes 'play u64' '\nlist\n' 1 'refused: line 1\n'
    becomes 'play u64' 'list\r\nlist\n' 1 'refused: line 1\n'
    becomes 'play u64' '\tlist\nlist\n' 1 'refused: line 1\n'
    while IFS= read -r row; do
        { printf '%s\n' "${row%.}"; echo list; } >"$in"
        run play u64
        answers_refusal 'line 1'
    done <<'ROWS'
 .
create .
 create.
create 1.
create 02.
create 2 2.
Create.
creates.
creat.
open 1.
share.
share 1.
share 1 2 3.
share x 1.
share 1 x.
share 01 1.
share 1 18446744073709551616.
put.
put 0.
put x 1.
put 0 x.
put 0 1 x.
put 0  1.
put 0 1 .
put 0 | 1.
put 0 1 | 2.
put f 1.
look.
look x.
look F.
look f f.
look 0 1.
look -1.
view.
view f.
view 0 0.
settled.
settled f.
settled 0 0.
take 1.
raise 1.
close 1.
gather 1.
change.
change 0.
change 0 x.
change x 1.
change 0 1 | 1 2.
changes.
changes 0.
changes x 1.
changes 0 x.
changes 0 1 |.
changes 0 1 | .
changes 0 1 | 1.
changes 0 1 | x 1.
changes | 0 1.
changes 0 | 1 2.
changes 0 1 || 1 2.
changes 0 1|1 2.
changes 0 1 | | 1 2.
changes 0 1 |  1 2.
resize.
resize 1.
resize x 1.
resize 1 x.
resize 1 2 3.
clear 0.
list 0.
fold 1.
log 1.
home 1.
crash.
crash 0.
crash 000.
crash 0g.
crash +1.
crash OLD.
crash old old.
crash new .
crash 07 07.
ROWS
)

two_seats_learn_of_two_thousand_growths() (
    {
        printf 'create = ok\nshare 2000 2 = ok\n'
        for k in $(seq 0 1999); do
            printf 'look %s = size %s\nput %s %s = growth %s start %s len 1\n' $((k % 2)) "$k" $((k % 2)) "$k" "$k" "$k"
        done
        printf 'look 0 = size 2000\nput 1 7 = refused full\n'
    } >"$work/script"
    is_played u64 "$(cat "$work/script")"
)

a_script_of_steps_is_played() (
    given 'create\nresize 1 5\ncrash old\nopen\nlist\n'
    run play u64
    answers 0 'ok\nok\ncrashed 34\nsize 1\n5\n'
    given 'create\nlist\nput 0\n'
    run play u64
    answers 1 'refused: line 3\n'
)

# A million puts of one record, a commit after each 10,000, and the vector behind a crash.
a_long_script_is_played() (
    {
        printf 'create\nshare 1048568 1\n'
        for _ in $(seq 1 100); do
            seq -f 'put 0 %.0f' 1 10000
            printf 'look f\ntake\nlog\nlog\nlog\nlog\n'
        done
        printf 'crash old\nopen\n'
    } >"$in"
    run play u64
    [ "$status" -eq 0 ]
    [ "$(tail -n 1 "$out")" = 'size 1000000' ]
    [ "$(wc -l <"$out")" -eq "$(wc -l <"$in")" ]
)
