# A second command while a first one has the file.

# ---- commands that are held while they have their file

# What runs the held command: nothing, or what `does` sets.
by=

# The held command's calls of the system do this (CALLS_WAIT=N), and the begin of its answer is noted.
does() { by="env CALLS_LOG=$work/log $* LD_PRELOAD=$work/calls.so"; }

# Starts a command that is held at its answer. One that writes has its file locked then.
is_held_at_its_answer() {
    pipe
    dd if=/dev/zero of="$work/pipe" bs=4096 oflag=nonblock 2>/dev/null || :
    rm -f "$work/log"
    # shellcheck disable=SC2086 # each word is one
    $by "$program" "$@" <"$in" >"$work/pipe" 2>"$work/first_err" 8>&- &
    first=$!
}

# Waits until the held command has begun to write its answer.
until_answering() {
    for _ in $(seq 1000); do
        if grep -q '^answer ' "$work/log" 2>/dev/null; then return 0; fi
        sleep 0.01
    done
    echo 'no answer is begun'
    return 1
}

# The held command goes on, and has answered this.
goes_on_and_answers() {
    exec 7<"$work/pipe"
    tr -d '\0' <&7 >"$work/first_out" 8>&- &
    reader=$!
    exec 8>&- 7<&-
    wait "$first"
    wait "$reader"
    printf '%b' "$1" | cmp - "$work/first_out"
    [ ! -s "$work/first_err" ]
}

# Waits until the gate at this place is open, which is the last byte that the held command writes.
until_written() {
    for _ in $(seq 1000); do
        if [ "$(od -An -tx1 -j "$2" -N 1 "$1" 2>/dev/null | tr -d ' ')" = 01 ]; then return 0; fi
        sleep 0.01
    done
    echo "the gate of $1 at $2 isn't open"
    return 1
}

# ---- the second command

# It ends within 5 seconds, which is less than readers are waited for.
at_once() {
    begun=$(date +%s%N)
    second "$@"
    echo "$*: $status"
    [ $(($(date +%s%N) - begun)) -lt 5000000000 ]
}

# It is refused at once since another has this file.
is_kept_from() {
    name=$1
    shift
    at_once "$@"
    answers_refusal file
    echo "cvec: $name: another command uses it; nothing was read or written; wait for its end" | cmp - "$err"
}

writers_are_kept_from() {
    for words in 'clear u64 FILE' 'fold u64 FILE' 'set u64 FILE 0 --records=9' 'resize u64 FILE 9 --record=9' \
        'create u64 FILE' 'load u64 FILE' 'append u64 FILE' 'serve u64 FILE --seats=1' "upgrade u64 $work/other.cv FILE" \
        "copy u64 $work/other.cv FILE"; do
        # shellcheck disable=SC2046 # each word is one
        is_kept_from "$1" $(echo "$words" | sed "s|FILE|$1|")
    done
}

# They read beside the first command.
others_read() {
    for words in 'check u64 FILE' 'list u64 FILE' 'count u64 FILE --record=9' 'find u64 FILE --record=9' 'follow u64 FILE --once' \
        'stat FILE' "copy u64 FILE $work/no.cv"; do
        rm -f "$work/no.cv"
        # shellcheck disable=SC2046 # each word is one
        second $(echo "$words" | sed "s|FILE|$1|")
        echo "$words: $status"
        [ "$status" -eq 0 ]
    done
}

# While this file is locked alone all are kept from it but those that read beside who has it, and it stays as it was.
all_are_kept_from() {
    until_locked WRITE "$1"
    sum=$(cksum <"$1")
    writers_are_kept_from "$1"
    others_read "$1"
    [ "$(cksum <"$1")" = "$sum" ]
}

# Once the first has ended a second one has the file, which then has these records.
the_next_one_has() {
    second resize u64 "$1" 9 --record=4
    did 'ok\n'
    second list u64 "$1"
    did "$2"
}

# Each command that writes is held, and what it did is there when it has ended.
a_command_that_writes_has_its_file_alone() (
    has_locks_listed || exit $is_skipped
    two_files
    t=$work/t.cv
    cp "$t" "$work/before.cv"
    while IFS='=' read -r words answer records; do
        cp "$work/before.cv" "$t"
        # shellcheck disable=SC2046 # each word is one
        is_held_at_its_answer $(echo "$words" | sed "s|FILE|$t|; s|:|=|")
        until_written "$t" 63
        all_are_kept_from "$t"
        goes_on_and_answers "$answer"
        the_next_one_has "$t" "$records"
    done <<'ROWS'
load u64 FILE=loaded 1 growths, size 3\n=5\n7\n8\n4\n4\n4\n4\n4\n4\n
append u64 FILE=appended 1 growths, size 3\n=5\n7\n8\n4\n4\n4\n4\n4\n4\n
set u64 FILE 0 --records:9=ok\n=9\n7\n4\n4\n4\n4\n4\n4\n4\n
set u64 FILE 0 --input=ok\n=8\n7\n4\n4\n4\n4\n4\n4\n4\n
resize u64 FILE 8 --record:9=ok\n=5\n7\n9\n9\n9\n9\n9\n9\n4\n
resize u64 FILE 8 --record:9 --parts=ok\n=5\n7\n9\n9\n9\n9\n9\n9\n4\n
fold u64 FILE=folded 1\n=5\n7\n4\n4\n4\n4\n4\n4\n4\n
ROWS
    cp "$work/before.cv" "$t"
    run fold u64 "$t"
    is_held_at_its_answer clear u64 "$t"
    until_written "$t" 77
    all_are_kept_from "$t"
    goes_on_and_answers 'ok\n'
    the_next_one_has "$t" '4\n4\n4\n4\n4\n4\n4\n4\n4\n'
)

a_file_that_is_made_is_its_makers_alone() (
    has_locks_listed || exit $is_skipped
    two_files
    is_held_at_its_answer create u64 "$work/new.cv"
    until_written "$work/new.cv" 0
    all_are_kept_from "$work/new.cv"
    goes_on_and_answers 'created\n'
    the_next_one_has "$work/new.cv" '4\n4\n4\n4\n4\n4\n4\n4\n4\n'
    is_held_at_its_answer upgrade u64 "$work/t.cv" "$work/two.cv"
    until_written "$work/two.cv" 11
    all_are_kept_from "$work/two.cv"
    # The old file has been read, so others may write it. The new one isn't theirs.
    at_once set u64 "$work/t.cv" 0 --records=6
    did 'ok\n'
    is_kept_from "$work/two.cv" upgrade u64 "$work/t.cv" "$work/two.cv"
    goes_on_and_answers 'upgraded size 2\n'
    the_next_one_has "$work/two.cv" '5\n7\n4\n4\n4\n4\n4\n4\n4\n'
    the_next_one_has "$work/t.cv" '6\n7\n4\n4\n4\n4\n4\n4\n4\n'
)

# An `append` that waits for more input has its file; what another is given to append stays unread.
an_append_that_waits_has_its_file_alone() (
    has_locks_listed || exit $is_skipped
    two_files
    pipe
    "$program" append u64 "$work/t.cv" <"$work/pipe" >"$work/first_out" 2>"$work/first_err" 8>&- &
    first=$!
    all_are_kept_from "$work/t.cv"
    exec 9<"$in"
    status=0
    timeout 20 "$program" append u64 "$work/t.cv" <&9 >"$out" 2>"$err" || status=$?
    answers_refusal file
    cat <&9 | cmp - "$in"
    echo 3 >&8
    exec 8>&-
    wait "$first"
    echo 'appended 1 growths, size 3' | cmp - "$work/first_out"
    the_next_one_has "$work/t.cv" '5\n7\n3\n4\n4\n4\n4\n4\n4\n'
)

a_server_has_its_file_alone_until_its_clients_have_ended() (
    has_locks_listed || exit $is_skipped
    two_files
    pipe
    "$program" serve u64 "$work/t.cv" --seats=1 3<"$work/pipe" 4>"$work/answered" </dev/null >"$work/first_out" \
        2>"$work/first_err" 8>&- &
    first=$!
    all_are_kept_from "$work/t.cv"
    # A growth of the record 3.
    printf '\1\0\0\0\1\0\0\0\0\0\0\0\0\0\0\0\3\0\0\0\0\0\0\0' >&8
    exec 8>&-
    wait "$first"
    echo 'served 1 growths' | cmp - "$work/first_out"
    the_next_one_has "$work/t.cv" '5\n7\n3\n4\n4\n4\n4\n4\n4\n'
)

# Words that wait, with a second command each that finds the file taken for a while.
waiting_words() {
    cat <<'ROWS'
append u64 FILE=appended 1 growths, size 4\n
load u64 FILE=loaded 1 growths, size 4\n
fold u64 FILE=folded 1\n
create u64 FILE --over=created\n
ROWS
}

a_command_waits_for_another_one() (
    has_locks_listed || exit $is_skipped
    two_files
    t=$work/t.cv
    cp "$t" "$work/before.cv"
    waiting_words >"$work/rows"
    for wait in --wait --wait=20; do
        # The first file is held for longer than a second.
        seconds=2.5
        while IFS='=' read -r words answer; do
            cp "$work/before.cv" "$t"
            is_taken_by_an_append "$t"
            # It is held for so long, behind which it appends the record 3.
            (sleep $seconds && echo 3 >&8) &
            seconds=1
            exec 8>&-
            # shellcheck disable=SC2046 # each word is one
            second $(echo "$words" | sed "s|FILE|$t|") "$wait" 8>&-
            did "$answer"
            wait
            [ "$(cat "$work/first_out")" = 'appended 1 growths, size 3' ]
        done <"$work/rows"
    done
)

a_command_that_has_waited_is_refused() (
    has_locks_listed || exit $is_skipped
    two_files
    t=$work/t.cv
    is_taken_by_an_append "$t"
    sum=$(cksum <"$t")
    for words in 'append u64 FILE' 'fold u64 FILE' 'create u64 FILE --over' "upgrade u64 $work/other.cv FILE"; do
        begun=$(date +%s%N)
        # shellcheck disable=SC2046 # each word is one
        second $(echo "$words" | sed "s|FILE|$t|") --wait=1
        answers_refusal file
        echo "cvec: $t: another command uses it; nothing was read or written; wait for its end; it was waited for 1 s" |
            cmp - "$err"
        [ $(($(date +%s%N) - begun)) -ge 1000000000 ]
        # shellcheck disable=SC2046 # each word is one
        is_kept_from "$t" $(echo "$words" | sed "s|FILE|$t|") --wait=0
    done
    [ "$(cksum <"$t")" = "$sum" ]
    exec 8>&-
    wait "$first"
    for word in '' x 1.5 -1 01 18446744073709551616; do
        run list u64 "$t" "--wait=$word"
        ends_with_usage 'error: the value of --wait is a number of seconds'
    done
    run list u64 "$t" --wait
    did '5\n7\n'
)

# While a copy only waits for NEW, nobody is kept from FILE, and two that wait for one another's come to their end.
a_copy_that_waits_has_nothing_locked() (
    has_locks_listed || exit $is_skipped
    two_files
    t=$work/t.cv
    n=$work/n.cv
    : >"$n"
    for command in copy upgrade; do
        run create u64 "$n" --over
        is_taken_by_an_append "$n"
        timeout 60 "$program" $command u64 "$t" "$n" --wait=20 >"$work/copied" 2>&1 8>&- &
        copying=$!
        sleep 0.5
        at_once set u64 "$t" 0 --records=5
        did 'ok\n'
        exec 8>&-
        wait "$first"
        wait "$copying" || :
        grep -qx 'refused: new exists' "$work/copied"
    done
)

# What another file has by now that name is what a command finds that has waited.
a_file_that_was_put_in_its_place_is_found() (
    has_locks_listed || exit $is_skipped
    two_files
    t=$work/t.cv
    run fold u64 "$work/other.cv"
    run clear u64 "$work/other.cv" --wait=1
    did 'ok\n'
    is_taken_by_an_append "$t"
    (sleep 1 && mv "$work/other.cv" "$t") 8>&- &
    second fold u64 "$t" --wait=20
    did 'folded 0\n'
    exec 8>&-
    wait "$first"
)

# Another file is put in its place as soon as a command has its lock: that is locked then, and written.
a_file_that_replaces_a_locked_one_is_locked() (
    has_locks_listed || exit $is_skipped
    has_calls || exit $is_skipped
    build_calls
    two_files
    t=$work/t.cv
    run set u64 "$work/other.cv" 1 --records=6
    mv "$work/other.cv" "$t.new"
    ln "$t" "$work/old.cv"
    old=$(cksum <"$work/old.cv")
    pipe
    CALLS_MOVE=$t LD_PRELOAD=$work/calls.so "$program" append u64 "$t" \
        <"$work/pipe" >"$work/first_out" 2>"$work/first_err" 8>&- &
    first=$!
    for _ in $(seq 1000); do
        if [ ! -e "$t.new" ]; then break; fi
        sleep 0.01
    done
    [ ! -e "$t.new" ]
    until_locked WRITE "$t"
    second fold u64 "$t" --wait=0
    answers_refusal file
    echo 9 >&8
    exec 8>&-
    wait "$first"
    [ "$(cksum <"$work/old.cv")" = "$old" ]
    run list u64 "$t"
    did '5\n6\n9\n'
)

# The file is opened, and its folder has another name before it is locked: where a plain file has the folder's place, or nothing, the
# file has the name no more, and is neither written nor emptied.
a_file_whose_folder_is_moved_is_not_written() (
    has_calls || exit $is_skipped
    build_calls
    two_files
    cd "$work"
    for place in ': >d' 'mkdir d' ':'; do
        for words in 'append u64' 'load u64' 'clear u64' 'create u64 --over'; do
            rm -rf d e
            mkdir d
            cp t.cv d/t.cv
            # shellcheck disable=SC2086 # each word is one
            run_with "CALLS_AT_LOCK=1:mv d e && $place" ${words% --*} d/t.cv $(echo "$words" | grep -o -- '--.*')
            cmp t.cv e/t.cv
            case $words-$place in
            create*-mkdir*) did 'created\n' ;;
            *) answers_refusal file ;;
            esac
        done
    done
)

# A command that makes a file has it, empty, before it has its lock. Another may make a vector there meanwhile: that is refused then,
# and not taken away with what the refused command made.
a_vector_that_was_made_in_a_new_file_stays() (
    has_calls || exit $is_skipped
    build_calls
    t=$work/t.cv
    printf '#!/bin/sh\n[ -e "%s" ] && "%s" create u64 "%s" && echo 5 6 | "%s" load u64 "%s"\n' "$t" "$program" "$t" "$program" "$t" >"$work/makes"
    run create u64 "$work/from.cv"
    did 'created\n'
    # Of the two that read a file the second lock is that of the new one.
    for words in '1 create u64' "2 copy u64 $work/from.cv" "2 upgrade u64 $work/from.cv"; do
        rm -f "$t"
        run_with "CALLS_AT_LOCK=${words%% *}:sh '$work/makes' >'$work/made'" ${words#* } "$t"
        [ "$status" -eq 1 ]
        grep -q 'refused: .*exists' "$out"
        run list u64 "$t"
        did '5\n6\n'
    done
)

# What is no plain file is neither read nor written: a device's length is told as 0, so it would be taken for an empty file.
# It isn't opened either: who waits to write to a pipe goes on waiting.
what_is_no_plain_file_is_refused() (
    mkfifo "$work/fifo"
    echo 5 >"$work/fifo" &
    writer=$!
    for file in "$work/fifo" /dev/null; do
        case $file in /dev/null) what='a device' ;; *) what='a pipe' ;; esac
        for words in 'create u64' 'create u64 --over' 'append u64' 'check u64' 'list u64' 'stat' 'follow u64 --once' 'fold u64'; do
            # shellcheck disable=SC2086 # each word is one
            run $words "$file"
            was_refused file "it is no plain file ($what)"
        done
    done
    kill $writer
    two_files
    run copy u64 "$work/t.cv" /dev/null
    was_refused file 'it is no plain file (a device)'
    has python3 'a socket' || exit $is_skipped
    (cd "$work" && python3 -c 'import socket; socket.socket(socket.AF_UNIX).bind("socket")')
    run list u64 "$work/socket"
    was_refused file 'it is no plain file (a socket)'
)

# Where there are too few descriptors for all that is opened, the file is as it was.
a_file_that_cannot_be_opened_is_not_emptied() (
    two_files
    t=$work/t.cv
    sum=$(cksum <"$t")
    emptied=
    for limit in 4 5 6 7 8 9; do
        status=0
        (ulimit -n "$limit" && exec "$program" create u64 "$t" --over) >"$out" 2>"$err" || status=$?
        if [ "$status" -eq 0 ]; then
            emptied=yes
            break
        fi
        [ "$(cksum <"$t")" = "$sum" ]
    done
    [ -n "$emptied" ]
    run list u64 "$t"
    did ''
)

# `load` and `set` read their input before they open the file, so they keep nobody from it meanwhile. More than a pipe holds is
# written, so some of that has been read.
a_load_that_waits_for_its_input_keeps_nobody_out() (
    two_files
    pipe
    "$program" load u64 "$work/t.cv" <"$work/pipe" >"$work/first_out" 2>"$work/first_err" 8>&- &
    first=$!
    seq 1 20000 >&8
    second set u64 "$work/t.cv" 0 --records=2
    did 'ok\n'
    exec 8>&-
    wait "$first"
    echo 'loaded 20000 growths, size 20002' | cmp - "$work/first_out"
    second list u64 "$work/t.cv"
    { printf '2\n7\n'; seq 1 20000; } | cmp - "$out"
)

a_set_that_waits_for_its_input_keeps_nobody_out() (
    two_files
    pipe
    run resize u64 "$work/t.cv" 20003 --record=6
    "$program" set u64 "$work/t.cv" 1 --input <"$work/pipe" >"$work/first_out" 2>"$work/first_err" 8>&- &
    first=$!
    seq 1 20000 >&8
    second set u64 "$work/t.cv" 0 --records=2,3,4
    did 'ok\n'
    exec 8>&-
    wait "$first"
    echo ok | cmp - "$work/first_out"
    second list u64 "$work/t.cv"
    { echo 2; seq 1 20000; printf '6\n6\n'; } | cmp - "$out"
)

# ---- beside commands that only read

# What reads a file of the records 5 and 7, and what it answers. NEW is a new file.
reading_words() {
    cat <<'ROWS'
check u64 FILE=ok version 1 width 8 size 2 frames 2 live 1\n
list u64 FILE=5\n7\n
list u64 FILE --from:1 --count:1=7\n
count u64 FILE --record:7=1\n
find u64 FILE --record:7=1\n
stat FILE --json={"version":1,"width":8,"bytes":64,"groups":1,"changes":1,"shrinks":0,"folds":0,"growths":1,"records":2,"size":2,"live":1,"gate":63,"behind":0}\n
upgrade u64 FILE NEW=upgraded size 2\n
copy u64 FILE NEW=copied size 2\n
ROWS
}

# Beside each of them, held at its answer, a second command writes 9 in place of 5 once what is given is so. Each answers as if
# that had not been.
is_written_beside_each() {
    two_files
    t=$work/t.cv
    cp "$t" "$work/before.cv"
    reading_words >"$work/rows"
    while IFS='=' read -r words answer; do
        echo "$words"
        cp "$work/before.cv" "$t"
        rm -f "$work/no.cv"
        # shellcheck disable=SC2046 # each word is one
        is_held_at_its_answer $(echo "$words" | sed "s|FILE|$t|; s|NEW|$work/no.cv|; s|:|=|g")
        "$@"
        at_once set u64 "$t" 0 --records=9
        did 'ok\n'
        kill -0 "$first"
        second list u64 "$t"
        did '9\n7\n'
        goes_on_and_answers "$answer"
        [ ! -e "$work/no.cv" ] || second list u64 "$work/no.cv"
        [ ! -e "$work/no.cv" ] || did '5\n7\n'
    done <"$work/rows"
}

# Whoever waits until its answer is taken keeps nobody out: the file is read.
a_reader_that_waits_at_its_answer_keeps_nobody_out() (
    has_calls || exit $is_skipped
    build_calls
    does
    is_written_beside_each until_answering
)

# Of a list that is longer than the program's buffer and a pipe, most isn't written yet.
a_long_list_that_waits_keeps_nobody_out() (
    has_calls || exit $is_skipped
    build_calls
    t=$work/t.cv
    run create u64 "$t"
    seq 1 50000 >"$in"
    run load u64 "$t"
    does
    is_held_at_its_answer list u64 "$t"
    until_answering
    at_once set u64 "$t" 49999 --records=9
    did 'ok\n'
    goes_on_and_answers "$(seq -s '\n' 1 50000)\n"
    second find u64 "$t" --record=50000
    did 'none\n'
)

# Each read is made half a second late, so the second command finds the file locked, and waits.
a_command_that_writes_waits_for_those_that_read() (
    has_calls && has_locks_listed || exit $is_skipped
    build_calls
    does CALLS_WAIT=500000
    is_read_late() { until_locked READ "$work/t.cv"; }
    is_written_beside_each is_read_late
)

# Another process shares the file for longer than it is waited for. Others read it meanwhile, and it stays as it was.
a_command_that_has_waited_for_readers_is_refused() (
    command -v flock >/dev/null || lacks 'there is no flock to lock a file with' || exit $is_skipped
    two_files
    t=$work/t.cv
    sum=$(cksum <"$t")
    exec 9<"$t"
    flock --shared 9
    # Nobody is waited for where a new file is to be.
    for words in "copy u64 $work/other.cv $t" "upgrade u64 $work/other.cv $t"; do
        # shellcheck disable=SC2086 # each word is one
        is_kept_from "$t" $words
    done
    begun=$(date +%s%N)
    waiting=
    for words in clear fold 'set 0 --records=9' 'resize 9 --record=9' create 'create --over' load append 'serve --seats=1' 'fold --wait=1'; do
        (
            out=$work/out.$words err=$work/err.$words name=${words%% *}
            # shellcheck disable=SC2086 # each word is one
            second "$name" u64 "$t" ${words#"$name"}
            echo "$words: $status"
            answers_refusal file
            tells "cvec: $t: another command uses it; nothing was read or written; wait for its end"
            [ $(($(date +%s%N) - begun)) -ge 10000000000 ]
        ) &
        waiting="$waiting $!"
    done
    at_once list u64 "$t"
    did '5\n7\n'
    for pid in $waiting; do wait "$pid"; done
    [ "$(cksum <"$t")" = "$sum" ]
)

# Each nap takes a tenth of a second more, as on a busy machine. Of two seconds there are 400.
a_wait_on_a_busy_machine_is_as_long_as_it_says() (
    has_calls || exit $is_skipped
    command -v flock >/dev/null || lacks 'there is no flock to lock a file with' || exit $is_skipped
    build_calls
    two_files
    t=$work/t.cv
    exec 9<"$t"
    flock 9
    begun=$(date +%s%N)
    status=0
    CALLS_NAP=100000 LD_PRELOAD=$work/calls.so timeout 30 "$program" clear u64 "$t" --wait=2 <"$in" >"$out" 2>"$err" 9<&- || status=$?
    waited=$((($(date +%s%N) - begun) / 1000000))
    answers_refusal file
    tells "cvec: $t: another command uses it; nothing was read or written; wait for its end"
    [ "$waited" -ge 2000 ]
    [ "$waited" -lt 20000 ]
)
