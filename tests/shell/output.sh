# A standard output that is full or closed.

# ---- an output that can't be written

a_full_device_is_told() (
    given '5\n'
    out=/dev/full
    run image u64
    ends_with_a_failed_write 'No space left on device'
    given "$five"
    run show u64
    ends_with_a_failed_write 'No space left on device'
    given '05\n'
    run image u64
    ends_with_a_failed_write 'No space left on device'
)

a_full_device_is_told_of_a_long_answer() (
    seq 1 200000 >"$in"
    out=/dev/full
    run image u64
    ends_with_a_failed_write 'No space left on device'
)

a_closed_output_is_told() (
    given '5\n'
    status=0
    "$top/cvec" image u64 <"$in" >&- 2>"$err" || status=$?
    ends_with_a_failed_write 'Bad file descriptor'
)

# The file gets the number of no standard stream that is closed: it would get the answers, over its first bytes.
a_file_has_no_number_of_a_closed_stream() (
    run create u64 "$work/t.cv"
    given '5\n6\n'
    run load u64 "$work/t.cv"
    status=0
    "$top/cvec" set u64 "$work/t.cv" 0 --records=9 >&- 2>"$err" || status=$?
    ends_with_a_failed_write 'Bad file descriptor'
    ! "$top/cvec" set u64 "$work/t.cv" 7 --records=9 >"$out" 2>&- || exit 1
    [ "$(cat "$out")" = 'refused: out of range' ]
    ! "$top/cvec" append u64 "$work/t.cv" <&- >&- 2>&- || exit 1
    status=0
    "$top/cvec" append u64 "$work/t.cv" <&- >"$out" 2>"$err" || status=$?
    was_refused input "standard input couldn't be read"
    run list u64 "$work/t.cv"
    did '9\n6\n'
)

nothing_is_told_of_a_closed_pipe() (
    seq 1 200000 >"$in"
    trap '' PIPE
    { { "$top/cvec" image u64 <"$in" 2>"$err" && echo 0 >"$work/status" || echo $? >"$work/status"; } | :; }
    status=$(cat "$work/status")
    ends_with_a_closed_pipe
)
