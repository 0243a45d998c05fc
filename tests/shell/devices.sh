# Devices that are full and an input that fails in its midst: what is printed, and what stands.

# ---- a standard output that is full

# With a full standard output it ends with status 1 and this as the one line of standard error.
is_told_to_be_full() {
    out=/dev/full
    run "$@"
    out=$work/out
    echo "$*: $status"
    [ "$status" -eq 1 ]
    echo 'cvec: standard output: No space left on device (os error 28)' | cmp - "$err"
}

what_the_program_prints_of_itself_may_be_cut() (
    for words in --version help 'help stat' 'help load'; do
        # shellcheck disable=SC2086 # each word is one
        is_told_to_be_full $words
    done
    # Usage is on standard error, and nothing is written to standard output.
    out=/dev/full
    for words in --help 'lists u64'; do
        # shellcheck disable=SC2086 # each word is one
        run $words
        [ "$status" -eq 2 ]
        [ "$(head -n 1 "$err")" = 'usage: cvec COMMAND TYPE ..' ]
        if tells 'cvec: standard output'; then return 1; fi
    done
)

answers_of_commands_that_read_may_be_cut() (
    a_changed_file
    sum=$(cksum <"$work/t.cv")
    for words in 'check u64 FILE' 'list u64 FILE' 'count u64 FILE --record=7' 'find u64 FILE --record=7' 'find u64 FILE --record=4' \
        'stat FILE' 'stat FILE --json'; do
        # shellcheck disable=SC2046 # each word is one
        is_told_to_be_full $(echo "$words" | sed "s|FILE|$work/t.cv|")
    done
    [ "$(cksum <"$work/t.cv")" = "$sum" ]
    given '1 2 | 3\n'
    is_told_to_be_full image u64
    given "$three\n"
    is_told_to_be_full show u64
    given 'create\nlist\n'
    is_told_to_be_full play u64
)

# What a command did to its file stands.
answers_of_commands_that_write_may_be_cut() (
    t=$work/t.cv
    is_told_to_be_full create u64 "$t"
    given '5 6\n'
    is_told_to_be_full load u64 "$t"
    given '7\n'
    is_told_to_be_full append u64 "$t"
    is_told_to_be_full set u64 "$t" 1 --records=8
    is_told_to_be_full resize u64 "$t" 5 --record=9
    run list u64 "$t"
    did '5\n8\n7\n9\n9\n'
    is_told_to_be_full fold u64 "$t"
    run check u64 "$t"
    did 'ok version 1 width 8 size 5 frames 5 live 0\n'
    for word in upgrade copy; do
        rm -f "$work/n.cv"
        is_told_to_be_full $word u64 "$t" "$work/n.cv"
        run list u64 "$work/n.cv"
        did '5\n8\n7\n9\n9\n'
    done
    # A growth of the record 4 by a client.
    printf '\1\0\0\0\1\0\0\0\0\0\0\0\0\0\0\0\4\0\0\0\0\0\0\0' >"$work/requests"
    : >"$work/answers"
    is_told_to_be_full serve u64 "$t" --seats=1 3<"$work/requests" 4>"$work/answers"
    run list u64 "$t"
    did '5\n8\n7\n9\n9\n4\n'
    is_told_to_be_full clear u64 "$t"
    run list u64 "$t"
    did ''
)

# The refusal can't be written, and both reasons are on standard error.
a_refusal_may_be_cut() (
    out=/dev/full
    run check u64 "$work/none.cv"
    [ "$status" -eq 1 ]
    tells 'cvec: standard output: No space left on device (os error 28)'
    tells "cvec: $work/none.cv: there is no such file"
    [ "$(wc -l <"$err")" -eq 2 ]
)

# ---- a device that takes no more of a file

# Runs the program where a file becomes no longer than 512 bytes.
on_a_full_device() {
    status=0
    (
        trap '' XFSZ
        ulimit -f 1
        exec "$program" "$@" <"$in" >"$out" 2>"$err"
    ) || status=$?
}

# A file of 60 records, of 506 bytes: 11 of the header, 6 of a group's head, 8 of its counts, 480 of records, and a gate.
a_nearly_full_device() {
    run create u64 "$work/t.cv"
    seq -s ' ' 1 60 >"$in"
    run load u64 "$work/t.cv"
    did 'loaded 1 growths, size 60\n'
    [ "$(stat -c %s "$work/t.cv")" -eq 506 ]
    seq 1 60 >"$work/lines"
}

# The file has the records of before.
stands_as_before() {
    run list u64 "$work/t.cv"
    cmp "$work/lines" "$out"
}

changes_that_a_full_device_takes_no_more_leave_the_file() (
    a_nearly_full_device
    for words in 'set u64 FILE 0 --records=9' 'resize u64 FILE 61 --record=9' 'resize u64 FILE 1 --record=9' 'clear u64 FILE'; do
        # shellcheck disable=SC2046 # each word is one
        on_a_full_device $(echo "$words" | sed "s|FILE|$work/t.cv|")
        was_refused 'disk write' "cvec: $work/t.cv: it may not become so long (File too large (os error 27)); "
        if tells 'restart'; then return 1; fi
        stands_as_before
    done
    run set u64 "$work/t.cv" 0 --records=9
    did 'ok\n'
    { echo 9; seq 2 60; } >"$work/lines"
    on_a_full_device fold u64 "$work/t.cv"
    was_refused 'disk write' "it may not become so long (File too large (os error 27)); "
    stands_as_before
    run fold u64 "$work/t.cv"
    did 'folded 1\n'
    stands_as_before
)

growths_that_a_full_device_takes_no_more_leave_the_file() (
    a_nearly_full_device
    given '61\n'
    on_a_full_device load u64 "$work/t.cv"
    was_refused broken "cvec: $work/t.cv: it may not become so long (File too large (os error 27)); what stood before stands; "
    if tells 'restart'; then return 1; fi
    stands_as_before
    on_a_full_device append u64 "$work/t.cv"
    was_refused 'disk write' 'the growths of the first 0 lines stand'
    stands_as_before
    printf '\1\0\0\0\1\0\0\0\0\0\0\0\0\0\0\0\4\0\0\0\0\0\0\0' >"$work/requests"
    : >"$work/answers"
    on_a_full_device serve u64 "$work/t.cv" --seats=1 3<"$work/requests" 4>"$work/answers"
    case $(cat "$out") in
        'refused: broken' | 'refused: disk write') ;;
        *) return 1 ;;
    esac
    [ "$status" -eq 1 ]
    tells 'it may not become so long (File too large (os error 27)); '
    tells '; the first 0 growths of its clients stand'
    stands_as_before
    run append u64 "$work/t.cv"
    did 'appended 1 growths, size 61\n'
)

# 600 growths of one record; those of the first lines that were told to stand are there.
an_append_that_fills_a_device_leaves_the_first_lines() (
    run create u64 "$work/t.cv"
    seq 1 600 >"$in"
    on_a_full_device append u64 "$work/t.cv"
    was_refused 'disk write' 'the growths of the first '
    stood=$(sed 's/.*growths of the first \([0-9]*\) lines stand.*/\1/' "$err")
    run list u64 "$work/t.cv"
    [ "$(wc -l <"$out")" -ge "$stood" ]
    head -n "$(wc -l <"$out")" "$in" | cmp - "$out"
)

# A device of so many bytes, in the folder full.
a_small_device() {
    mkdir "$work/full"
    mount -t tmpfs -o "size=$1" none "$work/full" 2>/dev/null || lacks 'no small device may be mounted' || exit $is_skipped
    trap 'umount "$work/full"' EXIT
}

# Of a full device its error is told, how many lines stand, and that no restart is needed: with room the same command goes on.
an_append_goes_on_where_a_device_was_full() (
    a_small_device 256k
    t=$work/full/t.cv
    run create u64 "$t"
    seq 1 100000 >"$work/lines"
    head -n 1000 "$work/lines" >"$in"
    run append u64 "$t" --block=100
    [ "$status" -eq 0 ]
    tail -n +1001 "$work/lines" >"$in"
    run append u64 "$t" --block=100
    was_refused 'disk write' "cvec: $t: the device is full (No space left on device (os error 28)); "
    tells '; make room, and the same command goes on with the lines behind those that stand'
    if tells 'restart'; then return 1; fi
    stood=$(sed 's/.*growths of the first \([0-9]*\) lines stand.*/\1/' "$err")
    run list u64 "$t"
    size=$(wc -l <"$out")
    [ "$size" -ge $((1000 + stood)) ]
    mount -o remount,size=4m "$work/full"
    tail -n +$((size + 1)) "$work/lines" >"$in"
    run append u64 "$t" --block=100
    [ "$status" -eq 0 ]
    run list u64 "$t"
    cmp "$work/lines" "$out"
)

# What a refused command has made itself is taken away, and what was there stays.
what_is_not_made_leaves_no_file() (
    a_small_device 64k
    run create u64 "$work/t.cv"
    run resize u64 "$work/t.cv" 20000 --record=5
    did 'ok\n'
    for command in copy upgrade; do
        run $command u64 "$work/t.cv" "$work/full/n.cv"
        was_refused 'new disk write' "cvec: $work/full/n.cv: the device is full (No space left on device (os error 28)); nothing was left there; make room, "
        [ -z "$(ls -A "$work/full")" ]
    done
    run copy u64 "$work/t.cv" "$work/full/n.cv" --block=131072
    was_refused 'new too large' 'nothing was written to it; give a smaller --block'
    [ -z "$(ls -A "$work/full")" ]
    # Bytes of others fill it.
    head -c 65536 /dev/zero >"$work/full/other" || :
    for over in '' --over; do
        run create u64 "$work/full/t.cv" $over
        was_refused 'disk write' "cvec: $work/full/t.cv: the device is full (No space left on device (os error 28)); "
        [ "$(ls -A "$work/full")" = other ]
    done
)

# What was written of it would look like a vector.
a_new_file_that_a_full_device_takes_no_more_is_emptied() (
    run create u64 "$work/t.cv"
    seq -s ' ' 1 100 >"$in"
    run load u64 "$work/t.cv"
    sum=$(cksum <"$work/t.cv")
    # NEW isn't there, or has what a stopped creation left.
    for of in upgrade:upgraded: copy:copied: 'upgrade:upgraded:\0CVECSEG\02\010\0\0' 'copy:copied:\0CVECSEG\02\010\0\0'; do
        rm -f "$work/n.cv"
        left=${of##*:} of=${of%:*}
        [ -z "$left" ] || printf '%b' "$left" >"$work/n.cv"
        on_a_full_device "${of%:*}" u64 "$work/t.cv" "$work/n.cv"
        was_refused 'new disk write' "cvec: $work/n.cv: it may not become so long (File too large (os error 27)); nothing was left there; "
        [ "$(cksum <"$work/t.cv")" = "$sum" ]
        if [ -n "$left" ]; then [ -f "$work/n.cv" ] && [ ! -s "$work/n.cv" ]; else [ ! -e "$work/n.cv" ]; fi
        run "${of%:*}" u64 "$work/t.cv" "$work/n.cv"
        did "${of#*:} size 100\n"
    done
)

# ---- an input that fails in its midst

# The second read of a pipe fails, which has given 65,536 bytes before.
reads_once() {
    run_with CALLS_FAIL=read:2 "$@"
}

an_input_that_fails_grows_nothing_by_load() (
    has_calls || exit $is_skipped
    build_calls
    a_changed_file
    sum=$(cksum <"$work/t.cv")
    seq 1 100000 >"$in"
    reads_once load u64 "$work/t.cv"
    was_refused input "cvec: standard input couldn't be read; no file was opened, and nothing was grown"
    [ "$(cksum <"$work/t.cv")" = "$sum" ]
    seq 1 100000 | sed 's/$/\r/' >"$in"
    for words in 'load u64 FILE' 'set u64 FILE 0 --input'; do
        # shellcheck disable=SC2046 # each word is one
        reads_once $(echo "$words --lenient" | sed "s|FILE|$work/t.cv|")
        was_refused input "cvec: standard input couldn't be read; no file was opened, and nothing was "
        [ "$(cksum <"$work/t.cv")" = "$sum" ]
    done
    seq 1 100000 >"$in"
    for words in 'image u64' 'show u64' 'play u64'; do
        # shellcheck disable=SC2086 # each word is one
        reads_once $words
        answers 1 'refused: input\n'
    done
)

# The growths of the lines that were told to stand are there, and none that wasn't read whole.
an_input_that_fails_leaves_the_first_lines_of_append() (
    has_calls || exit $is_skipped
    build_calls
    seq 1 100000 >"$in"
    for block in 1 100; do
        rm -f "$work/t.cv"
        run create u64 "$work/t.cv"
        reads_once append u64 "$work/t.cv" --block=$block
        was_refused input "cvec: standard input couldn't be read; it and the lines behind it weren't grown; the growths of the first "
        stood=$(sed 's/.*growths of the first \([0-9]*\) lines stand$/\1/' "$err")
        [ "$stood" -le "$(head -c 65536 "$in" | wc -l)" ]
        run list u64 "$work/t.cv"
        head -n "$stood" "$in" | cmp - "$out"
    done
)
