# Commands that read a file beside the command that writes it, or that only read it.

# Each of these asks a file of the records 5 and 7 what it has.
readers() {
    cat <<'ROWS'
check u64 FILE=ok version 1 width 8 size 2 frames 2 live 1\n
list u64 FILE=5\n7\n
list u64 FILE --from 1=7\n
list u64 FILE --from 1 --count 0=
list u64 FILE --count 1=5\n
list u64 FILE --from 9=
list u64 FILE --wait=5\n7\n
count u64 FILE --record 7=1\n
count u64 FILE --record 6=0\n
find u64 FILE --record 7=1\n
find u64 FILE --record 6=none\n
follow u64 FILE --once=5\n7\n
upgrade u64 FILE NEW=upgraded size 2\n
copy u64 FILE NEW=copied size 2\n
copy u64 FILE NEW --format=1 --block=1 --wait=copied size 2\n
stat FILE --json={"version":1,"width":8,"bytes":64,"groups":1,"changes":1,"shrinks":0,"folds":0,"growths":1,"records":2,"size":2,"live":1,"gate":63,"behind":0}\n
ROWS
}

# All of them answer so of this file.
are_answered() {
    readers >"$work/rows"
    mkdir -p "$work/new"
    while IFS= read -r row; do
        echo "$row"
        rm -f "$work/new/n.cv"
        # shellcheck disable=SC2046 # each word is one
        second $(echo "${row%=*}" | sed "s|FILE|$1|; s|NEW|$work/new/n.cv|")
        did "${row##*=}"
    done <"$work/rows"
}

commands_that_read_answer_beside_an_append() (
    has_locks_listed || exit $is_skipped
    two_files
    t=$work/t.cv
    is_taken_by_an_append "$t"
    are_answered "$t"
    # The same one goes on, and what it has put on the device is read beside it.
    echo 3 >&8
    for _ in $(seq 100); do
        second list u64 "$t"
        [ "$(wc -l <"$out")" -lt 3 ] || break
        sleep 0.05
    done
    did '5\n7\n3\n'
    kill -0 "$first"
    second check u64 "$t"
    did 'ok version 1 width 8 size 3 frames 3 live 1\n'
    second count u64 "$t" --record=3
    did '1\n'
    second find u64 "$t" --record=3
    did '2\n'
    second stat "$t" --json
    did '{"version":1,"width":8,"bytes":86,"groups":2,"changes":1,"shrinks":0,"folds":0,"growths":2,"records":3,"size":3,"live":1,"gate":85,"behind":0}\n'
    exec 8>&-
    wait "$first"
    [ "$(cat "$work/first_out")" = 'appended 1 growths, size 3' ]
)

commands_that_read_answer_beside_a_server() (
    has_locks_listed || exit $is_skipped
    two_files
    t=$work/t.cv
    pipe
    "$program" serve u64 "$t" --seats=1 3<"$work/pipe" 4>"$work/answered" </dev/null >"$work/first_out" \
        2>"$work/first_err" 8>&- &
    first=$!
    until_locked WRITE "$t"
    are_answered "$t"
    exec 8>&-
    wait "$first"
)

# A file of each type and version; and one of another type, or none, is refused as without a writer.
files_of_all_types_are_read_beside_a_writer() (
    has_locks_listed || exit $is_skipped
    while read -r type format record other; do
        rm -f "$work/t.cv"
        run create "$type" "$work/t.cv" --format="$format"
        given "$record\n"
        run load "$type" "$work/t.cv"
        run set "$type" "$work/t.cv" 0 --records="$record"
        pipe
        "$program" append "$type" "$work/t.cv" <"$work/pipe" >"$work/first_out" 2>&1 8>&- &
        first=$!
        until_locked WRITE "$work/t.cv"
        second list "$type" "$work/t.cv"
        did "$record\n"
        second count "$type" "$work/t.cv" --record="$record"
        did '1\n'
        second list "$other" "$work/t.cv"
        [ "$(head -c 15 "$out")" = 'refused: width ' ]
        exec 8>&-
        wait "$first"
    done <<'ROWS'
u8 1 255 u16
u16 2 65535 u8
u32 1 4294967295 u64
u64 2 18446744073709551615 u32
i32 2 -2147483648 i64
i64 1 -9223372036854775808 u32
f32 1 -1e-45 f64
f64 2 NaN:18446744073709551615 f32
pair 2 7:-3 u32
flagged 1 5:1 u32
bytes24 2 00112233445566778899aabbccddeeff0102030405060708 u32
ROWS
)

# A file of frames of each kind, and two bytes behind the gate that ends them. While another process has it locked the gate
# is told as its last byte.
frames_of_each_kind_are_told_beside_a_writer() (
    command -v flock >/dev/null || lacks 'there is no flock to lock a file with' || exit $is_skipped
    t=$work/t.cv
    run create u64 "$t" --format=2
    given '5 6 7\n'
    run load u64 "$t"
    run set u64 "$t" 1 --records=9
    run fold u64 "$t"
    run resize u64 "$t" 2 --record=0
    printf 'xy' >>"$t"
    frames='groups 1\nchanges 1\nshrinks 1\nfolds 1\ngrowths 1\nrecords 3\nsize 2\nlive 0\ngate 107'
    run stat "$t"
    did "version 2\nwidth 8\nbytes 110\n$frames\nbehind 2\n"
    is_read_locked() {
        status=0
        flock "$t" timeout 20 "$program" "$@" >"$out" 2>"$err" || status=$?
    }
    is_read_locked stat "$t"
    did "version 2\nwidth 8\nbytes 108\n$frames\nbehind 0\n"
    # The second frame's kind is none.
    printf '\011' | dd of="$t" bs=1 seek=50 conv=notrunc 2>/dev/null
    for words in 'stat' 'check u64'; do
        # shellcheck disable=SC2086 # each word is one
        is_read_locked $words "$t"
        was_refused 'damaged at 50: kind 9' "$t: it is damaged at byte 50 (kind 9); nothing was written"
    done
    # The header is none.
    printf 'x' | dd of="$t" bs=1 seek=3 conv=notrunc 2>/dev/null
    is_read_locked stat "$t"
    was_refused 'not a segment' "$t: it isn't a segment file; it is as it was"
)

# A record of flagged whose flag is 2, in a file that another process has locked.
a_record_that_is_none_is_told_beside_a_writer() (
    command -v flock >/dev/null || lacks 'there is no flock to lock a file with' || exit $is_skipped
    run create flagged "$work/t.cv"
    given '5:1\n6:0\n'
    run load flagged "$work/t.cv"
    run list flagged "$work/t.cv"
    did '5:1\n6:0\n'
    # The last byte but the gate is the flag of the last record.
    printf '\002' | dd of="$work/t.cv" bs=1 seek=$(($(stat -c %s "$work/t.cv") - 2)) conv=notrunc 2>/dev/null
    for command in check list 'count --record=5:1' 'find --record=6:0' 'follow --once' 'follow --once --events'; do
        set -- $command
        name=$1
        shift
        status=0
        flock "$work/t.cv" timeout 20 "$program" "$name" flagged "$work/t.cv" "$@" >"$out" 2>"$err" || status=$?
        [ "$status" -eq 1 ]
        [ "$(tail -n 1 "$out")" = 'refused: bad record 1' ]
        tells "$work/t.cv: its record at position 1 is none of flagged; give the type that it was made with"
    done
)

# As another user, who may read the file and not write it.
a_file_that_may_only_be_read_is_read() (
    two_files
    t=$work/t.cv
    chmod 755 "$work"
    chmod 444 "$t"
    cp "$program" "$work/cvec"
    as=
    [ "$(id -u)" -ne 0 ] || as='setpriv --reuid=65534 --regid=65534 --clear-groups'
    mkdir -m 777 "$work/new"
    readers >"$work/rows"
    while IFS= read -r row; do
        echo "$row"
        status=0
        # shellcheck disable=SC2046,SC2086 # each word is one
        rm -f "$work/new/n.cv"
        $as "$work/cvec" $(echo "${row%=*}" | sed "s|FILE|$t|; s|NEW|$work/new/n.cv|") >"$out" 2>"$err" || status=$?
        did "${row##*=}"
    done <"$work/rows"
    status=0
    $as "$work/cvec" clear u64 "$t" >"$out" 2>"$err" || status=$?
    was_refused file 'you may not read and write it'
    chmod 000 "$t"
    for words in 'check u64' 'list u64' 'follow u64 --once' stat; do
        status=0
        # shellcheck disable=SC2086 # each word is one
        $as "$work/cvec" $words "$t" >"$out" 2>"$err" || status=$?
        was_refused file 'you may not read it'
    done
)

a_file_on_a_read_only_device_is_read() (
    two_files
    mkdir "$work/only"
    { mount --bind "$work" "$work/only" && mount -o remount,bind,ro "$work/only"; } 2>/dev/null ||
        lacks 'no folder may be mounted to be read only' || exit $is_skipped
    trap 'umount "$work/only"' EXIT
    second clear u64 "$work/only/t.cv"
    answers_refusal file
    are_answered "$work/only/t.cv"
)

a_file_is_read_through_a_link() (
    has_locks_listed || exit $is_skipped
    two_files
    mkdir "$work/links"
    ln -s ../t.cv "$work/links/l.cv"
    ln -s l.cv "$work/links/m.cv"
    are_answered "$work/links/m.cv"
    is_taken_by_an_append "$work/t.cv"
    are_answered "$work/links/m.cv"
    exec 8>&-
    wait "$first"
)

# The new file has the records that stood on the device, and what is refused says whose fault it is.
copies_are_made_beside_a_writer() (
    has_locks_listed || exit $is_skipped
    two_files
    t=$work/t.cv n=$work/n.cv
    is_taken_by_an_append "$t"
    second copy u64 "$t" "$n" --block=1
    did 'copied size 2\n'
    second list u64 "$n"
    did '5\n7\n'
    second check u64 "$n"
    did 'ok version 1 width 8 size 2 frames 2 live 0\n'
    for command in copy upgrade; do
        second $command u64 "$t" "$n"
        was_refused 'new exists' "$n: there is something in this file already"
        # The file that is taken is no new one.
        second $command u64 "$t" "$t"
        was_refused file 'it is FILE itself'
        second $command u32 "$t" "$work/no.cv"
        was_refused 'old width 8' 'those of u32 have 4'
    done
    rm "$n"
    second upgrade u64 "$t" "$n"
    did 'upgraded size 2\n'
    second check u64 "$n"
    did 'ok version 2 width 8 size 2 frames 1 live 0\n'
    exec 8>&-
    wait "$first"
    is_taken_by_an_append "$n"
    second upgrade u64 "$n" "$work/m.cv"
    was_refused 'not version 1' "$n: it has version 2 already"
    second copy u64 "$n" "$work/m.cv"
    did 'copied size 2\n'
    second check u64 "$work/m.cv"
    did 'ok version 2 width 8 size 2 frames 1 live 0\n'
    exec 8>&-
    wait "$first"
)

# Other commands append, set, fold, cut and clear, one after another, in calls of the system that do a part of what they
# are asked. Each look answers what the vector was between the look's beginning and its end.
looks_beside_writers_are_of_one_moment() (
    has python3 'looks beside writers' && has_calls || exit $is_skipped
    build_calls
    counted python3 "$top/tests/beside.py" "$program" "$work/calls.so" "$work" "${CVEC_LOOKS:-10000}"
)

# So does the library, from C and from Python.
looks_by_the_library_are_of_one_moment() (
    has_c && has python3 'looks beside writers' && has_calls || exit $is_skipped
    build_calls
    make_python_library
    cc -std=c99 -O2 -Wall -Wextra -Werror "-I$c_headers" -o "$work/looks" "$top/tests/bindings/looks.c" "$work/file.o" \
        "$c_library" "$kit_library"
    for seed in 1 2; do
        rm -f "$work/looks.cv"
        CVEC_LIB=$work PYTHONDONTWRITEBYTECODE=1 "$top/tests/looks.py" "$program" "$work/calls.so" \
            "$work/looks" "$work" "${CVEC_LOOKS:-10000}" $seed >"$out"
        cat "$out"
    done
)
