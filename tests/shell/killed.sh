# Commands over files that are killed at any moment.

# ---- commands over files

# Each of these is ended by a kill at 20 moments of the time that it takes. Whatever was told stands then, and the same
# command goes on.

# Measures the milliseconds of a command that isn't stopped.
takes() {
    begun=$(date +%s%N)
    "$top/crates/cvec/out/cvec" "$@" <"$in" >/dev/null
    whole=$((($(date +%s%N) - begun) / 1000000))
    stopped=0
}

# Kills a command at the first moment, the second, and so on, and counts those that hadn't told their end. A child that is
# killed before it has opened its output leaves what stood there.
killed_at() {
    moment=$((whole * $1 / 21))
    shift
    : >"$out"
    "$top/crates/cvec/out/cvec" "$@" <"$in" >"$out" 2>"$err" &
    child=$!
    sleep "$((moment / 1000)).$(printf %03d $((moment % 1000)))"
    kill -9 $child 2>/dev/null || :
    wait $child 2>/dev/null || :
    [ -s "$out" ] || stopped=$((stopped + 1))
}

# The records that the file lists begin those of this file.
lists_a_front_of() {
    run list u64 "$work/t.cv"
    [ "$status" -eq 0 ]
    head -n "$(wc -l <"$out")" "$1" | cmp - "$out"
}

# What the command answers of so many lines that were left; `append` makes a growth of 100 of them.
went_on() {
    case $1 in
        load) echo "loaded $2 growths, size 400000" ;;
        append) echo "appended $((($2 + 99) / 100)) growths, size 400000" ;;
    esac
}

# Growths of 400,000 lines by the command, and those that are left by it again.
is_killed_and_goes_on() {
    seq 1 400000 >"$in"
    run create u64 "$work/whole.cv"
    takes "$1" u64 "$work/whole.cv" $2
    for k in $(seq 1 20); do
        rm -f "$work/t.cv"
        run create u64 "$work/t.cv"
        killed_at "$k" "$1" u64 "$work/t.cv" $2
        told=$(cat "$out")
        lists_a_front_of "$in"
        stands=$(wc -l <"$out")
        [ -z "$told" ] || [ "$stands" -eq 400000 ]
        tail -n +$((stands + 1)) "$in" >"$work/rest"
        in=$work/rest
        run "$1" u64 "$work/t.cv" $2
        did "$(went_on "$1" $((400000 - stands)))\n"
        in=$work/in
        run list u64 "$work/t.cv"
        cmp "$in" "$out"
    done
    [ "$stopped" -gt 0 ]
}

a_load_that_is_killed_goes_on() (
    is_killed_and_goes_on load
)

an_append_that_is_killed_goes_on() (
    is_killed_and_goes_on append --block=100
)

# A file of 300,000 records, and 30,000 of them to change.
a_long_file() {
    seq 1 300000 >"$in"
    run create u64 "$work/long.cv"
    run load u64 "$work/long.cv"
    did 'loaded 300000 growths, size 300000\n'
    seq 1 300000 >"$work/old"
    { seq 1 9; seq 1000001 1030000; seq 30010 300000; } >"$work/new"
}

# It lists the records of this file or of that one.
lists_one_of() {
    run list u64 "$work/t.cv"
    [ "$status" -eq 0 ]
    cmp -s "$out" "$1" || cmp "$out" "$2"
}

a_set_that_is_killed_is_whole_or_not_there() (
    a_long_file
    records=$(seq -s , 1000001 1010000)
    { seq 1 9; seq 1000001 1010000; seq 10010 300000; } >"$work/new"
    cp "$work/long.cv" "$work/t.cv"
    takes set u64 "$work/t.cv" 9 "--records=$records"
    for k in $(seq 1 20); do
        cp "$work/long.cv" "$work/t.cv"
        killed_at "$k" set u64 "$work/t.cv" 9 "--records=$records"
        lists_one_of "$work/old" "$work/new"
        run set u64 "$work/t.cv" 9 "--records=$records"
        did 'ok\n'
        lists_one_of "$work/new" "$work/new"
    done
    [ "$stopped" -gt 0 ]
)

# The same of an input.
a_set_of_an_input_that_is_killed_is_whole_or_not_there() (
    a_long_file
    { seq 1 9; seq 1000001 1100000; seq 100010 300000; } >"$work/new"
    seq 1000001 1100000 | paste -d ' ' - - >"$in"
    cp "$work/long.cv" "$work/t.cv"
    takes set u64 "$work/t.cv" 9 --input
    for k in $(seq 1 20); do
        cp "$work/long.cv" "$work/t.cv"
        killed_at "$k" set u64 "$work/t.cv" 9 --input
        lists_one_of "$work/old" "$work/new"
        run set u64 "$work/t.cv" 9 --input
        did 'ok\n'
        lists_one_of "$work/new" "$work/new"
    done
    [ "$stopped" -gt 0 ]
)

# The records of before stand, and some of the new ones; the same command goes on.
a_resize_in_parts_that_is_killed_goes_on() (
    run create u64 "$work/long.cv"
    seq 1 1000 >"$work/new"
    yes 7 | head -n 1999000 >>"$work/new"
    head -n 1000 "$work/new" >"$in"
    run load u64 "$work/long.cv"
    cp "$work/long.cv" "$work/t.cv"
    takes resize u64 "$work/t.cv" 2000000 --record=7 --parts
    some=0
    for k in $(seq 1 20); do
        cp "$work/long.cv" "$work/t.cv"
        killed_at "$k" resize u64 "$work/t.cv" 2000000 --record=7 --parts
        lists_a_front_of "$work/new"
        stands=$(wc -l <"$out")
        [ "$stands" -ge 1000 ]
        [ "$stands" -eq 1000 ] || [ "$stands" -eq 2000000 ] || some=$((some + 1))
        run resize u64 "$work/t.cv" 2000000 --record=7 --parts
        did 'ok\n'
        lists_one_of "$work/new" "$work/new"
    done
    [ "$stopped" -gt 0 ]
    [ "$some" -gt 0 ]
)

a_fold_that_is_killed_goes_on() (
    a_long_file
    for at in 9 10009 20009; do
        run set u64 "$work/long.cv" $at "--records=$(seq -s , $((999992 + at)) $((1009991 + at)))"
        did 'ok\n'
    done
    cp "$work/long.cv" "$work/t.cv"
    takes fold u64 "$work/t.cv"
    for k in $(seq 1 20); do
        cp "$work/long.cv" "$work/t.cv"
        killed_at "$k" fold u64 "$work/t.cv"
        lists_one_of "$work/new" "$work/new"
        run fold u64 "$work/t.cv"
        [ "$status" -eq 0 ]
        grep -qx 'folded [0-3]' "$out"
        lists_one_of "$work/new" "$work/new"
        run check u64 "$work/t.cv"
        grep -qF ' live 0' "$out"
    done
    [ "$stopped" -gt 0 ]
)

# A new file is made of a long one by the command, which says so, and when it was killed, with another new file.
is_killed_and_begun_again() {
    a_long_file
    before=$(cksum <"$work/long.cv")
    takes "$1" u64 "$work/long.cv" "$work/whole.cv" $3
    for k in $(seq 1 20); do
        rm -f "$work/t.cv" "$work/m.cv"
        killed_at "$k" "$1" u64 "$work/long.cv" "$work/t.cv" $3
        told=$(cat "$out")
        if [ -s "$work/t.cv" ]; then
            run list u64 "$work/t.cv"
            case $status in
                0) head -n "$(wc -l <"$out")" "$work/old" | cmp - "$out" ;;
                *) [ "$(cat "$out")" = 'refused: unborn' ] ;;
            esac
            [ -z "$told" ] || cmp "$work/old" "$out"
        fi
        [ -z "$told" ] || [ -s "$work/t.cv" ]
        run "$1" u64 "$work/long.cv" "$work/m.cv" $3
        did "$2 size 300000\n"
        run list u64 "$work/m.cv"
        cmp "$work/old" "$out"
    done
    [ "$stopped" -gt 0 ]
    [ "$before" = "$(cksum <"$work/long.cv")" ]
}

an_upgrade_that_is_killed_is_begun_again() (
    is_killed_and_begun_again upgrade upgraded
)

a_copy_that_is_killed_is_begun_again() (
    is_killed_and_begun_again copy copied --block=1000
)
