# `append --rotate`: a row of files, of which each gets growths until it is full.

# ---- which growths a file gets

# The folder $work/row has just these files: each is a name, and behind a colon its records.
row_is() {
    for file in "$work/row"/*; do
        run list u64 "$file"
        [ "$status" -eq 0 ]
        echo "${file##*/}:$(tr '\n' ' ' <"$out" | sed 's/ $//')"
    done >"$work/is"
    printf '%s\n' "$@" | cmp - "$work/is"
}

# A row of one empty file of this name, and appends to it by `append_row WORDS..`.
begins_row() {
    rm -rf "$work/row"
    mkdir "$work/row"
    first=$work/row/$1
    run create u64 "$first"
    did 'created\n'
}

append_row() { run append u64 "$first" "$@"; }

# It has written these lines, each behind the folder, and nothing else.
told_of() {
    [ "$status" -eq 0 ]
    [ ! -s "$err" ]
    printf "$work/row/%s\n" "$@" | cmp - "$out"
}

a_full_file_is_followed_by_the_next_one() (
    begins_row t.cv
    given '1 2\n3\n4 5\n6\n'
    append_row --rotate=3
    told_of 't.cv: appended 2 growths, size 3' 't-000002.cv: appended 2 growths, size 3'
    row_is 't-000002.cv:4 5 6' 't.cv:1 2 3'
    given ''
    append_row --rotate=3
    told_of 't-000002.cv: appended 0 growths, size 3'
    given '7\n8\n'
    append_row --rotate 3
    told_of 't-000003.cv: appended 2 growths, size 2'
    given '9'
    append_row --rotate=2
    told_of 't-000004.cv: appended 1 growths, size 1'
    given '10\n11\n'
    append_row --rotate=18446744073709551615
    told_of 't-000004.cv: appended 2 growths, size 3'
    row_is 't-000002.cv:4 5 6' 't-000003.cv:7 8' 't-000004.cv:9 10 11' 't.cv:1 2 3'
)

growths_stay_whole() (
    begins_row t.cv
    given '1 2 3 4 5\n6\n7\n'
    append_row --rotate=2
    row_is 't-000002.cv:6 7' 't.cv:1 2 3 4 5'
    begins_row t.cv
    given '1\n2\n3\n4\n5\n6 7\n8\n'
    append_row --rotate=3 --block=2
    told_of 't.cv: appended 2 growths, size 4' 't-000002.cv: appended 1 growths, size 3' 't-000003.cv: appended 1 growths, size 1'
    row_is 't-000002.cv:5 6 7' 't-000003.cv:8' 't.cv:1 2 3 4'
    run stat "$work/row/t.cv"
    grep -qx 'growths 2' "$out"
)

# Many growths in one read of the input, and files of the version of the first one.
a_long_input_makes_many_files() (
    rm -rf "$work/row"
    mkdir "$work/row"
    first=$work/row/t.cv
    run create u64 "$first" --format=2
    seq 1 100000 >"$in"
    append_row --rotate=7000 --block=10
    [ "$(wc -l <"$out")" -eq 15 ]
    for number in 02 03 04 05 06 07 08 09 10 11 12 13 14 15; do echo "$work/row/t-0000$number.cv"; done >"$work/names"
    { echo "$first" && cat "$work/names"; } | while read -r file; do
        run check u64 "$file"
        grep -q '^ok version 2 width 8 size \(7000\|2000\) ' "$out"
        run list u64 "$file"
        cat "$out"
    done | cmp - "$in"
)

the_next_name_has_the_next_number() (
    while read -r name next; do
        begins_row "$name"
        given '1\n2\n'
        append_row --rotate=1
        row_is "$name:1" "$next:2" || row_is "$next:2" "$name:1"
    done <<'ROWS'
t t-000002
t-000009.cv t-000010.cv
t-999999.cv t-1000000.cv
t-00009.cv t-00009-000002.cv
t000009.cv t000009-000002.cv
a.b.cv a.b-000002.cv
-000003 -000004
ROWS
    rm -rf "$work/row"
    mkdir -p "$work/row/d.x"
    run create u64 "$work/row/d.x/t"
    given '1\n2\n'
    run append u64 "$work/row/d.x/t" --rotate=1
    [ -f "$work/row/d.x/t-000002" ]
)

floats_and_lenient_lines_are_rotated() (
    run create f64 "$work/t.cv"
    given '\t0.5\r\n1e-9  2\r\n3\n'
    run append f64 "$work/t.cv" --rotate=2 --lenient
    [ "$status" -eq 0 ]
    run list f64 "$work/t.cv"
    did '0.5\n1e-9\n2.0\n'
    run list f64 "$work/t-000002.cv"
    did '3.0\n'
)

# ---- refusals

# Lines are counted from the beginning of the input, whichever file they went to.
lines_of_a_row_are_those_of_the_input() (
    begins_row t.cv
    given '1\n2\n3\nx\n5\n'
    append_row --rotate=2
    [ "$status" -eq 1 ]
    printf '%s\n' "$first: appended 2 growths, size 2" 'refused: line 4' | cmp - "$out"
    tells "line 4 of the input is no growth: \"x\" at its byte 1 is no record"
    tells 'the growths of the first 3 lines stand'
    row_is 't-000002.cv:3' 't.cv:1 2'
)

a_row_is_refused_where_its_file_is() (
    begins_row t.cv
    given '1\n2\n'
    run append u64 "$work/row/none.cv" --rotate=1
    was_refused file 'there is no such file'
    run append u32 "$first" --rotate=1
    was_refused 'width 8' 'its records have 8 bytes'
    echo hello >"$work/row/t-000002.cv"
    append_row --rotate=1
    was_refused exists "cvec: $work/row/t-000002.cv: there are other bytes in this file already; it is as it was"
    [ "$(cat "$work/row/t-000002.cv")" = hello ]
    for value in 0 x -1 18446744073709551616; do
        append_row "--rotate=$value"
        ends_with_usage 'error: the value of --rotate is a number of records from 1 on'
    done
)

# ---- rows that are stopped

# Whatever a stopped creation leaves of the last file, the same command goes on there.
a_stopped_creation_is_gone_on_with() (
    begins_row empty.cv
    cp "$first" "$work/empty.cv"
    rm "$first"
    for left in 0 1 5 11 12; do
        begins_row t.cv
        given '1\n'
        append_row --rotate=1
        { printf '\0' && tail -c +2 "$work/empty.cv"; } | head -c "$left" >"$work/row/t-000002.cv"
        given '2\n3\n'
        append_row --rotate=1
        row_is 't-000002.cv:2' 't-000003.cv:3' 't.cv:1'
    done
)

# Killed at ten moments, a row has the front of the input, with one empty file at most, and the same command goes on.
a_killed_row_has_the_front_of_its_input() (
    seq 1 20000 >"$work/all"
    begins_row t.cv
    cp "$work/all" "$in"
    begun=$(date +%s%N)
    append_row --rotate=1000 --block=50
    whole=$((($(date +%s%N) - begun) / 1000000))
    [ "$(ls "$work/row" | wc -l)" -eq 20 ]
    stopped=0
    for k in $(seq 1 10); do
        begins_row t.cv
        "$program" append u64 "$first" --rotate=1000 --block=50 <"$work/all" >"$work/told" 2>"$work/told_err" &
        child=$!
        moment=$((whole * k / 11))
        sleep "$((moment / 1000)).$(printf %03d $((moment % 1000)))"
        if kill -9 "$child" 2>/dev/null; then stopped=$((stopped + 1)); fi
        wait "$child" 2>/dev/null || :
        records_of_row >"$work/stands"
        stands=$(wc -l <"$work/stands")
        head -n "$stands" "$work/all" | cmp - "$work/stands"
        [ "$empty" -le 1 ]
        tail -n "+$((stands + 1))" "$work/all" >"$in"
        append_row --rotate=1000 --block=50
        [ "$status" -eq 0 ]
        records_of_row >"$work/stands"
        cmp "$work/all" "$work/stands"
    done
    echo "$stopped of 10 were stopped"
    [ "$stopped" -ge 3 ]
)

# The records of the row t.cv in order. Of its files so many are empty or unborn: the last ones.
records_of_row() {
    empty=0
    file=$first
    number=1
    while [ -e "$file" ]; do
        if "$program" list u64 "$file" >"$work/of_one" 2>"$err" && [ -s "$work/of_one" ]; then
            [ "$empty" -eq 0 ]
            cat "$work/of_one"
        else
            empty=$((empty + 1))
        fi
        number=$((number + 1))
        file=$work/row/t-$(printf %06d "$number").cv
    done
}

# ---- input that waits

# What has come is durable while more is waited for, and no file is made before its first line comes.
a_row_waits_for_its_input() (
    begins_row t.cv
    mkfifo "$work/pipe"
    "$program" append u64 "$first" --rotate=2 --progress <"$work/pipe" >"$work/told" 2>"$work/told_err" &
    exec 8>"$work/pipe"
    printf '1\n2\n' >&8
    until_row_has 't.cv:1 2'
    sleep 0.5
    row_is 't.cv:1 2'
    printf '3\n' >&8
    until_row_has 't-000002.cv:3' 't.cv:1 2'
    sleep 1.1
    printf '4\n5\n' >&8
    until_row_has 't-000002.cv:3 4' 't-000003.cv:5' 't.cv:1 2'
    exec 8>&-
    wait "$!"
    printf "$work/row/%s\n" 't.cv: appended 2 growths, size 2' 't-000002.cv: appended 2 growths, size 2' \
        't-000003.cv: appended 1 growths, size 1' | cmp - "$work/told"
    grep -qx 'cvec: 4 growths of the first 4 lines are durable, size 2' "$work/told_err"
)

# Waits until the row has just these files.
until_row_has() {
    turns=100
    until (row_is "$@") >"$work/compared" 2>&1; do
        turns=$((turns - 1))
        [ "$turns" -gt 0 ]
        sleep 0.1
    done
}
