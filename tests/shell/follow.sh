# `follow`: the records of a vector, and those that come, each written once; and the events by which a copy is kept.

# Starts `follow` with these words on the file t.cv, or $followed, which writes to files of its own. It has a minute.
follows() {
    : >"$work/followed" >"$work/follow_err"
    timeout 60 "$program" follow u64 "${followed:-$work/t.cv}" "$@" >"$work/followed" 2>"$work/follow_err" &
    follower=$!
}

# Waits until it has written so many lines.
until_followed() {
    for _ in $(seq 1000); do
        [ "$(wc -l <"$work/followed")" -lt "$1" ] || return 0
        sleep 0.01
    done
    echo "no $1 lines: $(cat "$work/followed" "$work/follow_err")"
    return 1
}

# It has written just this, and goes on until it is killed.
has_followed() {
    kill -0 "$follower"
    kill "$follower"
    wait "$follower" 2>/dev/null || :
    printf '%b' "$1" | cmp - "$work/followed"
    [ ! -s "$work/follow_err" ]
}

# It has ended, refused by this name behind these lines, and one sentence has this text.
has_ended() {
    for _ in $(seq 1000); do
        kill -0 "$follower" 2>/dev/null || break
        sleep 0.01
    done
    status=0
    wait "$follower" || status=$?
    [ "$status" -eq 1 ]
    { printf '%b' "$2" && echo "refused: $1"; } | cmp - "$work/followed"
    [ "$(wc -l <"$work/follow_err")" -eq 1 ]
    grep -qF -- "cvec: ${followed:-$work/t.cv}: $3" "$work/follow_err"
}

# The file t.cv has the records 5, 6 and 7.
three_records() {
    run create u64 "$work/t.cv"
    given '5 6 7\n'
    run load u64 "$work/t.cv"
    did 'loaded 1 growths, size 3\n'
}

one_look_writes_the_records_and_ends() (
    three_records
    while IFS='=' read -r words answer; do
        # shellcheck disable=SC2086 # each word is one
        run follow u64 "$work/t.cv" --once $words
        did "$answer"
    done <<'ROWS'
=5\n6\n7\n
--from 0=5\n6\n7\n
--from 2=7\n
--from 3=
--from 18446744073709551615=
--poll 60000 --quiet=5\n6\n7\n
--events=+ 5\n+ 6\n+ 7\n. 49:3:0:0\n
--events --after 11:0:0:0=+ 5\n+ 6\n+ 7\n. 49:3:0:0\n
--events --after 49:3:0:0=
ROWS
    run create u64 "$work/e.cv"
    for words in '' --events; do
        run follow u64 "$work/e.cv" --once $words
        did ''
    done
)

words_of_follow_are_refused_that_are_none() (
    three_records
    run follow u64 "$work/t.cv" --from=x
    was_refused word 'the value of --from is "x"'
    for place in x '' 1 1:2:3 1:2:3:4:5 1:2:3:04 1:2:3:x 1:2:3:18446744073709551616 -1:2:3:4 ' 1:2:3:4'; do
        run follow u64 "$work/t.cv" --events "--after=$place"
        was_refused word "the value of --after is \"$place\""
    done
    for poll in 0 60001 x 1.5; do
        run follow u64 "$work/t.cv" --poll=$poll
        ends_with_usage 'error: the value of --poll is a number of milliseconds from 1 to 60000'
    done
    run follow u64 "$work/t.cv" --after=49:3:0:0
    ends_with_usage 'error: the following required arguments were not provided:'
    for words in '--events --from=1' '--events --after=49:3:0:0 --from=1' --wait '--once=1'; do
        # shellcheck disable=SC2086 # each word is one
        run follow u64 "$work/t.cv" $words
        ends_with_usage 'error: '
    done
    run follow u64 "$work/none.cv"
    was_refused file 'there is no such file'
    run follow u64 "$work"
    was_refused file 'it is a folder'
    run follow u32 "$work/t.cv"
    was_refused 'width 8' 'those of u32 have 4'
    printf 'no vector' >"$work/n.cv"
    run follow u64 "$work/n.cv"
    was_refused unborn 'no vector was made'
    printf '\001no vector in this' >"$work/n.cv"
    run follow u64 "$work/n.cv"
    was_refused 'not a segment' "it isn't a segment file"
)

# By `append`, `load`, a server and `resize`, each of which has the file alone; nothing keeps them from it.
records_that_come_are_written_each_once() (
    three_records
    follows --from=1 --poll=5
    until_followed 2
    given '8\n9\n'
    run append u64 "$work/t.cv"
    did 'appended 2 growths, size 5\n'
    until_followed 4
    given '10 11\n'
    run load u64 "$work/t.cv"
    did 'loaded 1 growths, size 7\n'
    # A growth of the record 3, by a client.
    printf '\1\0\0\0\1\0\0\0\0\0\0\0\0\0\0\0\3\0\0\0\0\0\0\0' >"$work/request"
    "$program" serve u64 "$work/t.cv" --seats=1 3<"$work/request" 4>"$work/answered" </dev/null >/dev/null
    run resize u64 "$work/t.cv" 10 --record=1
    did 'ok\n'
    run fold u64 "$work/t.cv"
    did 'folded 0\n'
    until_followed 9
    has_followed '6\n7\n8\n9\n10\n11\n3\n1\n1\n'
)

# While the command that writes them still has the file.
records_of_a_writer_that_goes_on_are_written() (
    has_locks_listed || exit $is_skipped
    three_records
    follows
    until_followed 3
    is_taken_by_an_append "$work/t.cv"
    for record in 8 9; do
        echo $record >&8
        until_followed $((record - 4))
        kill -0 "$first"
    done
    has_followed '5\n6\n7\n8\n9\n'
    exec 8>&-
    wait "$first"
)

a_record_that_was_read_and_is_replaced_ends_it() (
    three_records
    follows --poll=5
    until_followed 3
    run set u64 "$work/t.cv" 1 --records=9
    has_ended 'changed 1' '5\n6\n7\n' 'the record at position 1 was replaced after it was read here'
    # Also one that wasn't written.
    follows --poll=5 --from=2
    until_followed 1
    run set u64 "$work/t.cv" 0 --records=4
    has_ended 'changed 0' '7\n' 'the record at position 0 was replaced'
)

a_vector_that_becomes_shorter_ends_it() (
    three_records
    follows --poll=5
    until_followed 3
    run resize u64 "$work/t.cv" 2 --record=0
    has_ended 'shorter 2' '5\n6\n7\n' 'the vector was cut to 2 records after more were read here'
)

# Whatever came before the name led elsewhere is written.
a_name_that_leads_elsewhere_ends_it() (
    three_records
    cp "$work/t.cv" "$work/other.cv"
    for how in 'mv -f other.cv t.cv' 'rm t.cv' 'ln -sf other.cv t.cv' "$program create u64 t.cv --over"; do
        cd "$work"
        rm -f t.cv a.cv
        cp other.cv a.cv
        case $how in
        ln*) ln -s a.cv t.cv ;;
        *) cp other.cv t.cv ;;
        esac
        cp other.cv kept.cv
        follows --poll=300
        until_followed 3
        given '8\n'
        run append u64 "$work/t.cv"
        did 'appended 1 growths, size 4\n'
        $how
        has_ended replaced '5\n6\n7\n8\n' 'this name leads to another file now, or to none'
        cp kept.cv other.cv
    done
)

# With --reopen it goes on with the file that has the name then, from its first record on, whatever --from was. What came to the
# file before is written first.
a_name_is_followed_to_the_next_file() (
    three_records
    run create u64 "$work/other.cv"
    given '10\n11\n'
    run load u64 "$work/other.cv"
    follows --reopen --poll=20 --from=1
    until_followed 2
    given '8\n'
    run append u64 "$work/t.cv"
    mv -f "$work/other.cv" "$work/t.cv"
    until_followed 5
    given '12\n'
    run append u64 "$work/t.cv"
    until_followed 6
    run create u64 "$work/t.cv" --over
    run append u64 "$work/t.cv"
    until_followed 7
    has_followed '6\n7\n8\n10\n11\n12\n12\n'
)

# Where no file has the name, one is waited for, also while its creation isn't whole.
a_name_without_a_file_is_waited_for() (
    three_records
    follows --reopen --poll=20
    until_followed 3
    mv "$work/t.cv" "$work/old.cv"
    sleep 0.3
    : >"$work/t.cv"
    sleep 0.2
    run create u64 "$work/t.cv"
    did 'created\n'
    given '9\n'
    run append u64 "$work/t.cv"
    until_followed 4
    has_followed '5\n6\n7\n9\n'
)

# All else ends it as without the option.
a_followed_name_ends_where_its_file_is_refused() (
    three_records
    follows --reopen --poll=5
    until_followed 3
    run set u64 "$work/t.cv" 1 --records=9
    has_ended 'changed 1' '5\n6\n7\n' 'the record at position 1 was replaced after it was read here'
    follows --reopen --poll=5
    until_followed 3
    run create u32 "$work/other.cv"
    mv -f "$work/other.cv" "$work/t.cv"
    has_ended 'width 4' '5\n9\n7\n' 'its records have 4 bytes'
    for words in --once --events '--events --after=1:2:3:4'; do
        # shellcheck disable=SC2086 # each word is one
        run follow u64 "$work/t.cv" --reopen $words
        ends_with_usage 'cannot be used with'
    done
)

# Below the name of a plain file there is none.
a_folder_that_becomes_a_file_ends_it() (
    three_records
    mkdir "$work/d"
    cp "$work/t.cv" "$work/d/t.cv"
    followed=$work/d/t.cv
    follows --poll=5
    until_followed 3
    mv "$work/d" "$work/e"
    : >"$work/d"
    has_ended replaced '5\n6\n7\n' 'this name leads to another file now, or to none'
)

# Two files may have one number, each on a device of its own.
a_file_of_another_device_ends_it() (
    three_records
    two_devices
    cp "$work/t.cv" "$work/one/t.cv"
    cp "$work/t.cv" "$work/two/t.cv"
    [ "$(stat -c %i "$work/one/t.cv")" = "$(stat -c %i "$work/two/t.cv")" ]
    ln -s one/t.cv "$work/link"
    followed=$work/link
    follows --poll=5
    until_followed 3
    ln -sfn two/t.cv "$work/link"
    has_ended replaced '5\n6\n7\n' 'this name leads to another file now, or to none'
)

# A record that comes between two looks is written by the later one.
looks_are_as_far_apart_as_is_said() (
    three_records
    follows --poll=2000
    until_followed 3
    begun=$(date +%s%N)
    given '8\n'
    run append u64 "$work/t.cv"
    did 'appended 1 growths, size 4\n'
    sleep 1
    [ $(($(date +%s%N) - begun)) -ge 1900000000 ] || [ "$(wc -l <"$work/followed")" -eq 3 ]
    until_followed 4
    has_followed '5\n6\n7\n8\n'
)

a_file_that_becomes_shorter_ends_it() (
    three_records
    cp "$work/t.cv" "$work/other.cv"
    # A file of two names is emptied before a vector is made over it.
    ln "$work/t.cv" "$work/second.cv"
    for how in "truncate -s 20 $work/t.cv" "$program create u64 $work/t.cv --over"; do
        cp "$work/other.cv" "$work/t.cv"
        follows --poll=300
        until_followed 3
        $how >/dev/null
        has_ended cut '5\n6\n7\n' 'it has become shorter'
    done
    # Also to what it had at first: before each look its length is asked.
    rm "$work/second.cv"
    cp "$work/other.cv" "$work/t.cv"
    follows --poll=5
    until_followed 3
    for record in 8 9; do
        given "$record\n"
        run append u64 "$work/t.cv"
        until_followed $((record - 4))
    done
    truncate -s "$(stat -c %s "$work/other.cv")" "$work/t.cv"
    has_ended cut '5\n6\n7\n8\n9\n' 'it has become shorter'
)

# As `list`, once it has something to write.
a_closed_output_ends_it() (
    three_records
    seq 1 200000 >"$in"
    run append u64 "$work/t.cv" --block=1000
    { timeout 20 "$program" follow u64 "$work/t.cv" 2>"$err" || echo $? >"$work/status"; } | head -n 3 >"$out"
    printf '5\n6\n7\n' | cmp - "$out"
    [ "$(cat "$work/status")" = 1 ]
    [ ! -s "$err" ]
    out=/dev/full
    run follow u64 "$work/t.cv"
    ends_with_a_failed_write 'No space left on device'
)

# The lines that a copy is kept by, of each command.
events_tell_all_that_becomes_of_a_vector() (
    run create u64 "$work/t.cv"
    follows --events --poll=5
    step() {
        run "$@"
        [ "$status" -eq 0 ]
    }
    given '5\n6\n7\n'
    step append u64 "$work/t.cv" --block=3
    until_followed 4
    step set u64 "$work/t.cv" 1 --records=8,9
    until_followed 7
    step fold u64 "$work/t.cv"
    step resize u64 "$work/t.cv" 1 --record=0
    until_followed 9
    step resize u64 "$work/t.cv" 2 --record=0
    until_followed 11
    step clear u64 "$work/t.cv"
    until_followed 13
    kill "$follower"
    sed 's/^\. .*/./' "$work/followed" | paste -sd ' ' >"$out"
    [ "$(cat "$out")" = '+ 5 + 6 + 7 . = 1 8 = 2 9 . < 1 . + 0 . < 0 .' ]
    # From each place on come just the lines behind it.
    grep -n '^\. ' "$work/followed" | while IFS=: read -r line place; do
        # Steps that one look finds are one step; so their lines are compared by what a copy becomes.
        head -n "$line" "$work/followed" | python3 "$top/tests/keep.py" "$work/copy"
        run follow u64 "$work/t.cv" --events --once "--after=${place#. }"
        [ "$status" -eq 0 ]
        python3 "$top/tests/keep.py" "$work/copy" <"$out"
        tail -n +2 "$work/copy" | cmp - /dev/null
        rm "$work/copy"
    done
)

# CVEC_ROUNDS gives another number of rounds.
a_copy_that_is_killed_goes_on_by_its_place() (
    has python3 'a copy by events' || exit $is_skipped
    counted python3 "$top/tests/following.py" "$program" "$work" "${CVEC_ROUNDS:-200}"
)
