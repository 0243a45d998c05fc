# `cvec load` and `cvec append`: growths of the lines of standard input.

# ---- commands over files

growths_are_loaded_by_many_seats() (
    for seats in 1 3 64; do
        rm -f "$work/t.cv"
        run create u64 "$work/t.cv"
        seq 1 10000 >"$in"
        run load u64 "$work/t.cv" --seats=$seats
        did 'loaded 10000 growths, size 10000\n'
        run list u64 "$work/t.cv"
        sort -n "$out" | cmp - "$in"
    done
    for seats in 0 65 x -1 01 ''; do
        run load u64 "$work/t.cv" --seats=$seats
        [ "$status" -eq 2 ]
        [ ! -s "$out" ]
        tells 'usage: cvec COMMAND TYPE ..'
    done
    : >"$in"
    run load u64 "$work/t.cv"
    did 'loaded 0 growths, size 10000\n'
)

a_bad_line_grows_nothing() (
    run create u64 "$work/t.cv"
    given '1\n2\n3 x\n4\n'
    run load u64 "$work/t.cv"
    was_refused 'line 3' 'line 3'
    given '1\n\n'
    run load u64 "$work/t.cv"
    was_refused 'line 2' 'nothing was grown'
    { echo 5; seq -s ' ' 1 131072; echo 6; } >"$in"
    run load u64 "$work/t.cv"
    was_refused 'too large at line 2' '1048576 bytes'
    { seq -s ' ' 1 131072; echo x; } >"$in"
    run load u64 "$work/t.cv"
    was_refused 'line 2' 'line 2'
    # Words and input come before the file.
    run load u64 "$work/none.cv"
    was_refused 'line 2' 'line 2'
    head -c 67108865 /dev/zero >"$in"
    run load u64 "$work/none.cv"
    was_refused 'input too long' 'cvec append'
    in=$work
    run load u64 "$work/t.cv"
    was_refused input 'standard input'
    in=$work/in
    seq -s ' ' 1 131070 >"$in"
    run load u64 "$work/t.cv"
    did 'loaded 1 growths, size 131070\n'
)

# ---- more lines than a phase takes, which are 1,048,568

# Each line stands once, and in the order of the input where one grower makes all.
more_lines_than_a_phase_takes_are_loaded_in_order() (
    run create u64 "$work/t.cv"
    seq 1 2500000 >"$in"
    run load u64 "$work/t.cv"
    did 'loaded 2500000 growths, size 2500000\n'
    run list u64 "$work/t.cv"
    cmp "$in" "$out"
)

# Three growers have 349,522 lines each of a phase, line k, from 0, the grower k modulo 3. The growths of a phase stand behind
# those of the one before, and those of a grower in the order of its lines. It prints the first line that doesn't, and how many
# phases there are.
lines_of_three_growers() {
    awk '{
        phase = int((NR - 1) / 1048566)
        if (phase != last) { delete before; last = phase }
        grower = ($1 - 1) % 3
        due = grower in before ? before[grower] + 3 : phase * 1048566 + grower + 1
        if ($1 != due) { print "record " NR " is " $1 " in place of " due; exit }
        before[grower] = $1
    }
    END { print phase + 1 " phases" }' "$1"
}

more_lines_than_a_phase_takes_are_loaded_by_growers_in_turn() (
    run create u64 "$work/t.cv"
    seq 1 2500000 >"$in"
    run load u64 "$work/t.cv" --seats=3
    did 'loaded 2500000 growths, size 2500000\n'
    run list u64 "$work/t.cv"
    [ "$(wc -l <"$out")" -eq 2500000 ]
    [ "$(lines_of_three_growers "$out")" = '3 phases' ]
)

# Just as many as two phases take begin no third one; one line more does, and has a growth of its own.
the_last_phase_has_what_is_left() (
    for lines in 2097136 2097137; do
        rm -f "$work/t.cv"
        run create flagged "$work/t.cv"
        yes 1:0 | head -n $((lines - 1)) >"$in"
        echo '7:1 8:0' >>"$in"
        run load flagged "$work/t.cv"
        did "loaded $lines growths, size $((lines + 1))\n"
        run list flagged "$work/t.cv"
        tail -n 3 "$out" | paste -sd ' ' | grep -qx '1:0 7:1 8:0'
    done
)

a_bad_line_of_a_later_phase_grows_nothing() (
    run create u64 "$work/t.cv"
    before=$(cksum <"$work/t.cv")
    { seq 1 1500000; echo x; echo 5; } >"$in"
    run load u64 "$work/t.cv" --seats=2
    was_refused 'line 1500001' 'nothing was grown'
    [ "$before" = "$(cksum <"$work/t.cv")" ]
)

# The file has the first lines of the input, at least those of a first phase.
stands_behind_a_phase() {
    run list u64 "$work/t.cv"
    stood=$(wc -l <"$out")
    [ "$stood" -ge 1048568 ]
    head -n "$stood" "$in" | cmp - "$out"
}

# A growth of one record takes 12 bytes of the file, and 10 more where it is committed alone: so those of a first phase take
# 23,068,496 at most, with all else of the file, and 2,090,000 take 25,080,000 at least. The device takes 23,500,288.
a_phase_that_a_full_device_stops_leaves_those_before() (
    run create u64 "$work/t.cv"
    seq 1 2090000 >"$in"
    status=0
    (
        trap '' XFSZ
        ulimit -f 45899
        exec "$top/crates/cvec/out/cvec" load u64 "$work/t.cv" <"$in" >"$out" 2>"$err"
    ) || status=$?
    answers_refusal broken
    tells 'the growths of the first 1048568 lines stand, and maybe some behind them: `cvec check` tells how many records there are'
    stands_behind_a_phase
    [ "$stood" -lt 2090000 ]
)

# Once the file is longer than a first phase makes it, the load is killed, at some moments. All growths take 36,000,000 bytes
# at least. One that was about to end may have ended: not all did.
a_load_that_is_killed_in_a_later_phase_leaves_those_before() (
    seq 1 3000000 >"$in"
    cut_off=0
    for bytes in 23068507 26000000 30000000; do
        rm -f "$work/t.cv"
        run create u64 "$work/t.cv"
        "$top/crates/cvec/out/cvec" load u64 "$work/t.cv" <"$in" >/dev/null 2>&1 &
        until [ "$(stat -c %s "$work/t.cv")" -gt "$bytes" ]; do kill -0 $!; done
        kill -9 $! || :
        wait $! || true
        stands_behind_a_phase
        [ "$stood" -eq 3000000 ] || cut_off=$((cut_off + 1))
    done
    [ "$cut_off" -gt 0 ]
)

# ---- append

input_of_any_length_is_appended() (
    run create u64 "$work/t.cv"
    seq 1 300000 >"$in"
    run append u64 "$work/t.cv"
    did 'appended 300000 growths, size 300000\n'
    run list u64 "$work/t.cv"
    cmp "$in" "$out"
    { seq 1 200000; echo x; echo 5; } >"$in"
    run append u64 "$work/t.cv"
    [ "$status" -eq 1 ]
    [ "$(cat "$out")" = 'refused: line 200001' ]
    stood=$(sed 's/.*growths of the first \([0-9]*\) lines stand.*/\1/' "$err")
    run check u64 "$work/t.cv"
    grep -qF " size $((300000 + stood)) " "$out"
    head -c 67108865 /dev/zero >"$in"
    run append u64 "$work/t.cv"
    was_refused 'input too long' 'give a smaller --block'
)

# A copy of the file comes to have these lines: what an `append` has committed, while it has the file itself locked.
copy_comes_to_have() {
    turns=100
    until cp "$work/t.cv" "$work/copy.cv" && run list u64 "$work/copy.cv" && printf '%b' "$1" | cmp -s - "$out"; do
        turns=$((turns - 1))
        [ "$turns" -gt 0 ]
        sleep 0.1
    done
}

lines_that_came_are_committed_while_more_are_waited_for() (
    run create u64 "$work/t.cv"
    mkfifo "$work/pipe"
    "$top/crates/cvec/out/cvec" append u64 "$work/t.cv" <"$work/pipe" >"$work/first_out" 2>"$work/first_err" &
    exec 8>"$work/pipe"
    printf '5\n6\n7' >&8
    copy_comes_to_have '5\n6\n'
    printf '1\n' >&8
    copy_comes_to_have '5\n6\n71\n'
    exec 8>&-
    wait "$!"
    echo 'appended 3 growths, size 3' | cmp - "$work/first_out"
    [ ! -s "$work/first_err" ]
)

# Also where they have just the bytes that a read asks for.
lines_that_fill_a_read_are_committed_too() (
    run create u64 "$work/t.cv"
    mkfifo "$work/pipe"
    "$top/crates/cvec/out/cvec" append u64 "$work/t.cv" <"$work/pipe" >"$work/first_out" 2>"$work/first_err" &
    exec 8>"$work/pipe"
    seq 1000000 1008191 >"$work/lines"
    [ "$(wc -c <"$work/lines")" -eq 65536 ]
    cat "$work/lines" >&8
    copy_comes_to_have "$(cat "$work/lines")\n"
    exec 8>&-
    wait "$!"
    echo 'appended 8192 growths, size 8192' | cmp - "$work/first_out"
)

# Of blocks only whole ones are committed so.
whole_blocks_are_committed_while_more_is_waited_for() (
    run create u64 "$work/t.cv"
    mkfifo "$work/pipe"
    "$top/crates/cvec/out/cvec" append u64 "$work/t.cv" --block=2 <"$work/pipe" >"$work/first_out" 2>"$work/first_err" &
    exec 8>"$work/pipe"
    printf '5\n6\n7\n' >&8
    copy_comes_to_have '5\n6\n'
    printf '8\n9\n' >&8
    copy_comes_to_have '5\n6\n7\n8\n'
    exec 8>&-
    wait "$!"
    echo 'appended 3 growths, size 5' | cmp - "$work/first_out"
)

# An `append` with these words has its input from a pipe.
is_fed_by_a_pipe() {
    rm -f "$work/t.cv" "$work/pipe"
    run create u64 "$work/t.cv"
    mkfifo "$work/pipe"
    "$top/crates/cvec/out/cvec" append u64 "$work/t.cv" "$@" <"$work/pipe" >"$work/first_out" 2>"$work/first_err" &
    exec 8>"$work/pipe"
}

# It gets ten lines, each when the one before is in the file, and this counts the milliseconds.
counts_the_time_of_ten_lines() {
    begun=$(date +%s%N)
    for k in $(seq 10); do
        before=$(stat -c %s "$work/t.cv")
        echo "$k" >&8
        turns=10000
        until [ "$(stat -c %s "$work/t.cv")" -gt "$before" ]; do
            turns=$((turns - 1))
            [ "$turns" -gt 0 ]
        done
    done
    taken=$((($(date +%s%N) - begun) / 1000000))
    echo "ten lines take $taken ms"
}

# Its input ends, and so does it, with so many lines in the file.
ends_with_lines() {
    exec 8>&-
    wait "$!"
    echo "appended $1 growths, size $1" | cmp - "$work/first_out"
    [ ! -s "$work/first_err" ]
    run list u64 "$work/t.cv"
    seq "$1" | cmp - "$out"
}

# Each of ten lines waits a fifth of a second without a word, whatever else its commit takes. The end of the input is never
# waited for.
lines_wait_for_more_as_long_as_is_asked() (
    is_fed_by_a_pipe
    counts_the_time_of_ten_lines
    [ "$taken" -ge 2000 ]
    unasked=$taken
    ends_with_lines 10
    is_fed_by_a_pipe --every 1
    counts_the_time_of_ten_lines
    [ "$((taken + 1000))" -le "$unasked" ]
    ends_with_lines 10
    is_fed_by_a_pipe --every=60000
    before=$(stat -c %s "$work/t.cv")
    seq 5 >&8
    sleep 1
    [ "$(stat -c %s "$work/t.cv")" -eq "$before" ]
    seq 6 10 >&8
    begun=$(date +%s)
    ends_with_lines 10
    [ $(($(date +%s) - begun)) -lt 30 ]
)

# From 1 to 60,000: another word is a usage error, and nothing is read or written.
the_milliseconds_that_lines_wait_are_a_number() (
    run create u64 "$work/t.cv"
    given '5\n'
    for every in 0 60001 x -1 01 1.5 '' 18446744073709551617; do
        run append u64 "$work/t.cv" "--every=$every"
        ends_with_usage 'error: the value of --every is a number of milliseconds from 1 to 60000'
    done
    run load u64 "$work/t.cv" --every=5
    ends_with_usage "error: unexpected argument '--every' found"
    run check u64 "$work/t.cv"
    did 'ok version 1 width 8 size 0 frames 0 live 0\n'
)

# The end doesn't wait for an input that stays open.
a_refused_line_ends_an_append_at_once() (
    run create u64 "$work/t.cv"
    mkfifo "$work/pipe"
    timeout 20 "$top/crates/cvec/out/cvec" append u64 "$work/t.cv" <"$work/pipe" >"$out" 2>"$err" &
    exec 8>"$work/pipe"
    printf '5\nx\n' >&8
    status=0
    wait "$!" || status=$?
    exec 8>&-
    [ "$status" -eq 1 ]
    [ "$(cat "$out")" = 'refused: line 2' ]
    tells 'the growths of the first 1 lines stand'
    run list u64 "$work/t.cv"
    did '5\n'
)

# Lines are joined into growths, so many at a time; the last growth may have fewer.
lines_are_appended_in_blocks() (
    run create u64 "$work/t.cv"
    seq 1 1000010 >"$in"
    run append u64 "$work/t.cv" --block=1000
    did 'appended 1001 growths, size 1000010\n'
    run list u64 "$work/t.cv"
    cmp "$in" "$out"
    run create u64 "$work/u.cv"
    given '1 2\n3\n4\n5 6\n7\n'
    run append u64 "$work/u.cv" --block=2
    did 'appended 3 growths, size 7\n'
    given ''
    run append u64 "$work/u.cv" --block=2
    did 'appended 0 growths, size 7\n'
    run list u64 "$work/u.cv"
    did '1\n2\n3\n4\n5\n6\n7\n'
)

blocks_of_lines_that_are_refused_leave_those_before() (
    run create u64 "$work/t.cv"
    { seq 1 300000; echo x; echo 5; } >"$in"
    run append u64 "$work/t.cv" --block=1000
    [ "$status" -eq 1 ]
    [ "$(cat "$out")" = 'refused: line 300001' ]
    stood=$(sed 's/.*growths of the first \([0-9]*\) lines stand.*/\1/' "$err")
    [ $((stood % 1000)) -eq 0 ]
    run list u64 "$work/t.cv"
    head -n "$stood" "$in" | cmp - "$out"
    run create u64 "$work/u.cv"
    seq 1 131072 >"$in"
    run append u64 "$work/u.cv" --block=131072
    [ "$status" -eq 1 ]
    grep -q '^refused: too large at line [0-9]*$' "$out"
    run append u64 "$work/u.cv" --block=131071
    did 'appended 2 growths, size 131072\n'
    for block in 0 x -1 4294967296 ''; do
        run append u64 "$work/u.cv" "--block=$block"
        [ "$status" -eq 2 ]
        [ ! -s "$out" ]
        tells 'usage: cvec COMMAND TYPE ..'
    done
    run check u64 "$work/u.cv"
    did 'ok version 1 width 8 size 131072 frames 2 live 0\n'
)

# ---- lines that are taken leniently

# Lines of Windows, tabs and blanks too many are taken with --lenient, and stand for these records.
lenient_lines_are_taken() (
    for words in load append 'append --block=2'; do
        rm -f "$work/t.cv"
        run create i64 "$work/t.cv"
        given '5 6\r\n7\t-8\n  9   1 \t\n2\r\n\t3\n4 \r\n  10'
        set -- $words
        run "$1" i64 "$work/t.cv" --lenient ${2-}
        [ "$status" -eq 0 ]
        [ ! -s "$err" ]
        run list i64 "$work/t.cv"
        printf '%s\n' 5 6 7 -8 9 1 2 3 4 10 | cmp - "$out"
    done
)

# Each line is one growth still.
lenient_lines_are_growths_as_others() (
    run create u64 "$work/t.cv"
    given '5\t6\r\n7\r\n'
    run load u64 "$work/t.cv" --lenient
    did 'loaded 2 growths, size 3\n'
    run append u64 "$work/t.cv" --lenient
    did 'appended 2 growths, size 6\n'
)

# All else is refused as ever, by the same line.
lenience_takes_nothing_else() (
    run create u64 "$work/t.cv"
    while IFS='=' read -r text line; do
        for command in load append; do
            given "$text"
            run $command u64 "$work/t.cv" --lenient
            answers_refusal "line $line"
        done
    done <<'ROWS'
5\n\n6\n=2
5\r\n\r\n6\r\n=2
5\n \t \n=2
5\n6\r7\n=2
5\r\r\n=1
5 x\r\n=1
5\n\t007\n=2
5\f6\n=1
5,6\n=1
ROWS
    given '5\n7 6\r7\n'
    run load u64 "$work/t.cv" --lenient
    tells 'line 2 of the input is no growth: "6\r7" at its byte 3 is no record'
)

# Without the word each of these is refused.
lines_are_strict_without_the_word() (
    run create u64 "$work/t.cv"
    for text in '5\r\n' '5\t6\n' ' 5\n' '5 \n' '5  6\n'; do
        for command in load append; do
            given "$text"
            run $command u64 "$work/t.cv"
            answers_refusal 'line 1'
            tells '--lenient'
        done
    done
)

# Of a large input nothing is lost where a piece that is read ends, whatever stands there.
lenient_lines_of_any_length_are_taken() (
    seq 1 60000 | sed 's/$/\n7/' >"$work/records"
    for pad in 0 1 2 3 4 5; do
        rm -f "$work/t.cv"
        run create u64 "$work/t.cv"
        { printf '%*s' "$pad" ''; seq 1 60000 | sed 's/$/ \t7\r/'; } >"$in"
        run append u64 "$work/t.cv" --lenient
        did 'appended 60000 growths, size 120000\n'
        run list u64 "$work/t.cv"
        cmp "$work/records" "$out"
    done
)

# What has come is committed while more is waited for, as without the word.
lenient_lines_that_came_are_committed() (
    is_fed_by_a_pipe --lenient
    printf '5\t6\r\n7 \r\n8' >&8
    copy_comes_to_have '5\n6\n7\n'
    exec 8>&-
    wait "$!"
    echo 'appended 3 growths, size 4' | cmp - "$work/first_out"
)

# ---- growers that come behind others

# A grower that another comes before pauses, and where that happens again it sleeps, for twice as long each time. In half of the
# loads some do.
growers_that_give_way_sleep_shortly() (
    has_calls || exit $is_skipped
    build_calls
    seq 1 200000 >"$in"
    : >"$work/naps"
    for _ in $(seq 40); do
        rm -f "$work/t.cv"
        run create u64 "$work/t.cv"
        run_with "CALLS_NAPS=$work/naps" load u64 "$work/t.cv" --seats=64
        did 'loaded 200000 growths, size 200000\n'
        [ ! -s "$work/naps" ] || break
    done
    [ -s "$work/naps" ] || lacks 'no grower came behind another one twice' || exit $is_skipped
    sort -nu "$work/naps" | tr '\n' ' ' >"$work/lengths"
    cat "$work/lengths"
    case $(cat "$work/lengths") in
    '20 ' | '20 40 ' | '20 40 80 ' | '20 40 80 160 ') ;;
    *) return 1 ;;
    esac
)

# ---- how far append is, in lines

# A line tells what is durable as soon as a batch is, and is no line of a terminal.
appended_is_told_in_lines() (
    is_fed_by_a_pipe --progress --block=2
    printf '5 1\n6\n7\n' >&8
    copy_comes_to_have '5\n1\n6\n'
    [ "$(cat "$work/first_err")" = 'cvec: 1 growths of the first 2 lines are durable, size 3' ]
    sleep 1.2
    printf '8\n9\n1\n' >&8
    copy_comes_to_have '5\n1\n6\n7\n8\n9\n1\n'
    exec 8>&-
    wait "$!"
    echo 'appended 3 growths, size 7' | cmp - "$work/first_out"
    [ "$(sed -n 2p "$work/first_err")" = 'cvec: 3 growths of the first 6 lines are durable, size 7' ]
    [ "$(wc -l <"$work/first_err")" -eq 2 ]
)

# Where the last block has fewer lines, just those count: who goes on after the lines that are reported loses none.
lines_after_a_short_block_are_gone_on_with() (
    is_fed_by_a_pipe --progress --block=2
    printf '5\n6\n7\n' >&8
    copy_comes_to_have '5\n6\n'
    sleep 1.4
    exec 8>&-
    wait "$!"
    [ "$(sed -n '$p' "$work/first_err")" = 'cvec: 2 growths of the first 3 lines are durable, size 3' ]
    lines=$(sed -n '$s/.* of the first \([0-9]*\) lines are durable.*/\1/p' "$work/first_err")
    seq 5 12 | tail -n "+$((lines + 1))" >"$in"
    run append u64 "$work/t.cv" --block=2
    did 'appended 3 growths, size 8\n'
    run list u64 "$work/t.cv"
    seq 5 12 | cmp - "$out"
)

# While lines come that are no whole block yet, nothing more is durable, and no line tells it again.
what_is_durable_is_told_once() (
    is_fed_by_a_pipe --progress --block=3 --every=10
    printf '5\n6\n7\n' >&8
    copy_comes_to_have '5\n6\n7\n'
    for line in 8 9; do
        sleep 1.1
        printf '%s\n' "$line" >&8
    done
    sleep 0.3
    [ "$(cat "$work/first_err")" = 'cvec: 1 growths of the first 3 lines are durable, size 3' ]
    exec 8>&-
    wait "$!"
    echo 'appended 2 growths, size 5' | cmp - "$work/first_out"
)

# Of a growth whose commit fails, whichever of its calls, no line tells. The one before it is durable.
a_line_tells_of_no_growth_whose_commit_fails() (
    has_calls || exit $is_skipped
    build_calls
    run create u64 "$work/before.cv"
    given '5\n'
    run append u64 "$work/before.cv"
    refused=0
    for call in pwrite fdatasync; do
        for number in $(seq 1 20); do
            cp "$work/before.cv" "$work/t.cv"
            given '6\n'
            run_with "CALLS_FAIL=$call:$number" append u64 "$work/t.cv" --progress
            [ "$status" -ne 0 ] || break
            refused=$((refused + 1))
            if tells durable; then return 1; fi
        done
        [ "$(cat "$out")" = 'appended 1 growths, size 2' ]
        tells 'cvec: 1 growths of the first 1 lines are durable, size 2'
    done
    [ "$refused" -ge 4 ]
)

# Ten batches in less than a second are told by one line or two, and with --quiet by none.
appended_is_told_once_a_second() (
    is_fed_by_a_pipe --progress --every=1
    counts_the_time_of_ten_lines
    exec 8>&-
    wait "$!"
    lines=$(wc -l <"$work/first_err")
    [ "$lines" -ge 1 ]
    [ "$lines" -le $((taken / 1000 + 1)) ]
    is_fed_by_a_pipe --progress --quiet
    printf '5\n' >&8
    copy_comes_to_have '5\n'
    exec 8>&-
    wait "$!"
    [ ! -s "$work/first_err" ]
    given '5\n'
    for words in "load u64 $work/t.cv" "check u64 $work/t.cv" "serve u64 $work/t.cv --seats=1"; do
        # shellcheck disable=SC2086 # each word is one
        run $words --progress
        ends_with_usage "unexpected argument '--progress' found"
        [ "${words%% *}" = load ] && continue
        # shellcheck disable=SC2086
        run $words --lenient
        ends_with_usage "unexpected argument '--lenient' found"
    done
)
