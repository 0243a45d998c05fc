# Files that are cut, damaged, locked or not to be used, and devices that are full.

# ---- commands over files

# The file of a changed record, cut to each length.
a_file_of_any_length_is_checked() (
    a_changed_file
    for n in $(seq 0 56); do
        head -c "$n" "$work/t.cv" >"$work/c.cv"
        run check u64 "$work/c.cv"
        case $n in
            0) was_refused unborn "cvec create u64 $work/c.cv" ;;
            1) was_refused unborn 'which has other bytes; it is as it was' ;;
            [2-9] | 10) was_refused 'not a segment' "it isn't a segment file" ;;
            11 | 33 | 55) was_refused "damaged at $n: no gate" "byte $n" ;;
            1? | 2? | 3[0-2]) was_refused 'damaged at 11: short frame' 'byte 11' ;;
            56) did 'ok version 1 width 8 size 1 frames 2 live 1\n' ;;
            *) was_refused 'damaged at 33: short frame' 'byte 33' ;;
        esac
    done
)

# Two growths of three records and one; then what kind the second frame has is none.
what_is_sound_before_a_damage_is_told() (
    run create u64 "$work/t.cv"
    given '1 2 3\n'
    run load u64 "$work/t.cv"
    given '4\n'
    run load u64 "$work/t.cv"
    printf '\011' | dd of="$work/t.cv" bs=1 seek=50 conv=notrunc 2>/dev/null
    before=$(cksum <"$work/t.cv")
    for command in check list clear fold; do
        run $command u64 "$work/t.cv"
        was_refused 'damaged at 50: kind 9' 'damaged at byte 50'
        tells 'the 3 records before that are sound'
    done
    for command in upgrade copy; do
        run $command u64 "$work/t.cv" "$work/n.cv"
        was_refused 'old damaged at 50: kind 9' 'the 3 records before that are sound'
    done
    run append u64 "$work/t.cv"
    was_refused 'damaged at 50: kind 9' 'the 3 records before that are sound'
    printf '\011' | dd of="$work/t.cv" bs=1 seek=12 conv=notrunc 2>/dev/null
    run check u64 "$work/t.cv"
    was_refused 'damaged at 12: kind 9' 'the 0 records before that are sound'
)

files_that_cannot_be_used_are_told() (
    for command in check list fold clear; do
        run $command u64 "$work/none.cv"
        was_refused file 'there is no such file'
        run $command u64 "$work"
        was_refused file 'it is a folder'
        run $command u64 "$work/none/t.cv"
        was_refused file 'there is no such file'
    done
    run create u64 "$work/none/t.cv"
    was_refused file 'there is no folder for it'
    run create u64 "$work"
    was_refused file 'it is a folder'
    a_changed_file
    run list u32 "$work/t.cv"
    was_refused 'width 8' 'those of u32 have 4'
    run list i64 "$work/t.cv"
    did '7\n'
    printf 'no vector' >"$work/n.cv"
    run check u64 "$work/n.cv"
    was_refused unborn 'no vector was made'
    printf '\001no vector in this' >"$work/n.cv"
    run create u64 "$work/n.cv"
    was_refused exists 'other bytes in this file already; it is as it was; name another file'
    run check u64 "$work/n.cv"
    was_refused 'not a segment' "$work/n.cv"
)

create_leaves_the_bytes_of_others() (
    for bytes in 'secret=abc1\n' s '\0CVECSEG\1\10\0\1' '\0CVECSEG\1\4\0\0' '\0\0\0\0\0\0\0\0\0\0\0\0\0'; do
        printf "$bytes" >"$work/n.cv"
        cp "$work/n.cv" "$work/was"
        run create u64 "$work/n.cv"
        was_refused exists 'other bytes in this file already; it is as it was; name another file'
        cmp "$work/was" "$work/n.cv"
    done
    for bytes in '' '\0' '\1' '\0CVEC' '\0\0VEC\0EG\1\0\0\0' '\0CVECSEG\1\10\0\0'; do
        printf "$bytes" >"$work/n.cv"
        run create u64 "$work/n.cv"
        did 'created\n'
        run check u64 "$work/n.cv"
        did 'ok version 1 width 8 size 0 frames 0 live 0\n'
    done
)

# It is refused, the file is as it was, and the sentence names nothing that takes its bytes away.
advises_nothing_over_bytes() {
    cp "$work/n.cv" "$work/was"
    run "$@"
    [ "$status" -eq 1 ]
    cmp "$work/was" "$work/n.cv"
    for advice in 'cvec create' --over 'makes one' 'remove'; do
        if tells "$advice"; then return 1; fi
    done
}

# Neither `create` nor --over is named over bytes that are no vector. Of a vector it is told what --over takes away.
no_advice_takes_bytes_away() (
    a_changed_file
    for bytes in 'secret=abc1\n' s '\1no vector in this, and more bytes than an empty file has\n' '\0CVECSEG\1\4\0' '\0'; do
        printf "$bytes" >"$work/n.cv"
        for words in 'list u64' 'append u64' 'load u64' 'clear u64' 'follow u64 --once' stat; do
            # shellcheck disable=SC2086 # each word is one
            advises_nothing_over_bytes $words "$work/n.cv"
        done
        advises_nothing_over_bytes upgrade u64 "$work/n.cv" "$work/m.cv"
        # What a stopped creation leaves `create` takes.
        case $bytes in '\0'*) continue ;; esac
        advises_nothing_over_bytes create u64 "$work/n.cv"
        advises_nothing_over_bytes copy u64 "$work/t.cv" "$work/n.cv"
    done
    : >"$work/n.cv"
    run list u64 "$work/n.cv"
    was_refused unborn "\`cvec create u64 $work/n.cv\` makes one"
    run create u64 "$work/t.cv"
    was_refused exists 'or give --over, which takes all its records away'
)

# A file that a refused command hasn't made is left, also an empty one.
an_empty_file_stays_where_no_vector_is_made() (
    has_calls || exit $is_skipped
    build_calls
    a_changed_file
    for words in "create u64 $work/n.cv" "copy u64 $work/t.cv $work/n.cv"; do
        : >"$work/n.cv"
        # shellcheck disable=SC2086 # each word is one
        run_with CALLS_FAIL=pwrite:1 $words
        [ "$status" -eq 1 ]
        [ -f "$work/n.cv" ]
        rm "$work/n.cv"
        # shellcheck disable=SC2086 # each word is one
        run_with CALLS_FAIL=pwrite:1 $words
        [ "$status" -eq 1 ]
        [ ! -e "$work/n.cv" ]
    done
)

create_over_takes_whatever_is_there() (
    a_changed_file
    run create u64 "$work/t.cv" --format=2 --over
    did 'created\n'
    run check u64 "$work/t.cv"
    did 'ok version 2 width 8 size 0 frames 0 live 0\n'
    for bytes in '' 'secret=abc1\n' '\1CVECSEG\1\10\0\1' '\001no vector in this, and more bytes than an empty file has\n'; do
        printf "$bytes" >"$work/n.cv"
        run create u64 "$work/n.cv" --over
        did 'created\n'
        [ "$(od -An -v -tx1 "$work/n.cv" | tr -d ' \n')" = 014356454353454701080000 ]
    done
    run create u64 "$work/none.cv" --over
    did 'created\n'
    run create u64 "$work" --over
    was_refused file "$work"
)

# A changed file by itself in a folder.
a_file_in_a_folder() {
    a_changed_file
    mkdir "$work/d"
    t=$work/d/t.cv
    cp "$work/t.cv" "$t"
}

# It is an empty vector, and nothing else stands in its folder.
is_made_alone() {
    [ "$(ls -A "$work/d")" = t.cv ]
    run check u64 "$t"
    did 'ok version 1 width 8 size 0 frames 0 live 0\n'
}

# Who reads the old file goes on over its bytes. What a stopped command has left is taken away.
what_is_made_over_a_file_takes_its_place() (
    a_file_in_a_folder
    ln -s "$t" "$work/link"
    for name in "$t" "$work/link"; do
        cp "$work/t.cv" "$t"
        chmod 1640 "$t"
        number=$(stat -c %i "$t")
        echo left >"$work/d/.cvec-$(stat -c %d-%i "$t")"
        exec 9<"$t"
        run create u64 "$name" --over
        did 'created\n'
        cmp "$work/t.cv" - <&9
        is_made_alone
        [ "$(stat -c %i "$t")" != "$number" ]
        [ "$(stat -c %a "$t")" = 1640 ]
        [ "$(readlink "$work/link")" = "$t" ]
        exec 9<&-
    done
)

# It is a vector on the device before it has the name, and the name is too before that is told. Its folder is synced once more
# before: what is wanting for that is told while the old one stands.
what_is_made_over_a_file_is_whole_before_it_has_its_name() (
    has_calls || exit $is_skipped
    build_calls
    a_file_in_a_folder
    run_with "CALLS_LOG=$work/calls" create u64 "$t" --over
    did 'created\n'
    sed "s/\\.cvec-[0-9]*-[0-9]*/NEW/" "$work/calls" >"$work/made"
    printf '%s\n' 'sync d' 'sync NEW' 'write NEW 0 1 00 00' 'sync NEW' 'write NEW 1 11 43 00' 'sync NEW' 'write NEW 0 1 01 01' 'sync NEW' \
        'sync d' 'sync d' 'answer 8' | diff - "$work/made"
)

# Of a file that isn't made nothing stands, and the one whose place it was to take is as it was.
a_file_is_as_it_was_where_none_is_made_over_it() (
    has_calls || exit $is_skipped
    build_calls
    a_file_in_a_folder
    for fails in pwrite:1=write pwrite:2=write pwrite:3=write fdatasync:1=sync fdatasync:3=sync fdatasync:4=sync; do
        run_with "CALLS_FAIL=${fails%=*}" create u64 "$t" --over
        was_refused "disk ${fails#*=}" "cvec: $t: "
        cmp "$work/t.cv" "$t"
        [ "$(ls -A "$work/d")" = t.cv ]
    done
    # Nor where its folder can't be synced, before it has its place.
    run_with CALLS_FAIL=fsync:2 create u64 "$t" --over
    was_refused file "cvec: $t: it can't be opened or made (Input/output error (os error 5))"
    cmp "$work/t.cv" "$t"
    [ "$(ls -A "$work/d")" = t.cv ]
    # It has its place, and whether that is on the device isn't known.
    run_with CALLS_FAIL=fsync:3 create u64 "$t" --over
    was_refused file "cvec: $t: it can't be opened or made (Input/output error (os error 5))"
    is_made_alone
)

# Another file would not be this one in all but its bytes, or can't be made: this one is emptied.
a_file_is_emptied_where_no_other_can_take_its_place() (
    has_calls || exit $is_skipped
    build_calls
    a_file_in_a_folder
    is_emptied() {
        number=$(stat -c '%i %U %G %a' "$t")
        "$@"
        did 'created\n'
        [ "$(stat -c '%i %U %G %a' "$t")" = "$number" ]
        is_made_alone
        cp "$work/t.cv" "$t"
    }
    ln "$t" "$work/second.cv"
    is_emptied run create u64 "$t" --over
    rm "$work/second.cv"
    # The lock of the new file is refused.
    is_emptied run_with CALLS_FAIL=flock:2 create u64 "$t" --over
    [ "$(id -u)" -eq 0 ] || lacks 'only root gives a file to another' || exit $is_skipped
    # Root's would be root's, and of root's group; and the owner may not write the folder.
    chgrp 65534 "$t"
    is_emptied run create u64 "$t" --over
    chgrp 0 "$t"
    chown 65534 "$t"
    is_emptied run create u64 "$t" --over
    chmod 755 "$work" "$work/d"
    cp "$program" "$work/cvec"
    by_its_owner() { status=0; setpriv --reuid=65534 --regid=65534 --clear-groups "$work/cvec" "$@" >"$out" 2>"$err" || status=$?; }
    is_emptied by_its_owner create u64 "$t" --over
)

who_may_not_use_a_file_is_told() (
    a_changed_file
    chmod 755 "$work"
    chmod 444 "$work/t.cv"
    cp "$top/crates/cvec/out/cvec" "$work/cvec"
    set --
    [ "$(id -u)" -ne 0 ] || set -- setpriv --reuid=65534 --regid=65534 --clear-groups
    status=0
    "$@" "$work/cvec" clear u64 "$work/t.cv" >"$out" 2>"$err" || status=$?
    was_refused file 'you may not read and write it'
)

# Runs the program on a device that takes no more than the first 512 bytes of a file. ./cvec has the signal ignored that
# would kill it there.
run_on_a_full_device() {
    status=0
    (
        ulimit -f 1
        exec "$top/cvec" "$@" <"$in" >"$out" 2>"$err"
    ) || status=$?
}

a_full_device_is_told_of_a_file() (
    a_changed_file
    run fold u64 "$work/t.cv"
    run_on_a_full_device resize u64 "$work/t.cv" 200 --record=5
    was_refused 'disk write' 'it may not become so long (File too large (os error 27))'
    run list u64 "$work/t.cv"
    did '7\n'
    seq -s ' ' 1 100 >"$in"
    run_on_a_full_device load u64 "$work/t.cv"
    was_refused broken 'it may not become so long (File too large (os error 27))'
    run list u64 "$work/t.cv"
    did '7\n'
    run load u64 "$work/t.cv"
    did 'loaded 1 growths, size 101\n'
)

an_answer_that_cannot_be_written_leaves_the_work() (
    out=/dev/full
    run create u64 "$work/t.cv"
    ends_with_a_failed_write 'No space left on device'
    given '5\n'
    run load u64 "$work/t.cv"
    ends_with_a_failed_write 'No space left on device'
    run list u64 "$work/t.cv"
    ends_with_a_failed_write 'No space left on device'
    out=$work/out
    run list u64 "$work/t.cv"
    did '5\n'
)

a_pipe_that_closes_ends_a_list() (
    run create u64 "$work/t.cv"
    seq 1 200000 >"$in"
    run load u64 "$work/t.cv"
    trap '' PIPE
    { { "$top/cvec" list u64 "$work/t.cv" 2>"$err" && echo 0 >"$work/status" || echo $? >"$work/status"; } | :; }
    status=$(cat "$work/status")
    ends_with_a_closed_pipe
)

one_writer_has_a_file_alone() (
    a_changed_file
    t=$work/t.cv g=$work/g.cv
    before=$(cksum <"$t")
    for how in --exclusive --shared; do
        exec 9<"$t"
        flock $how 9
        for words in "clear u64 $t" "fold u64 $t" "set u64 $t 0 --records=5" "resize u64 $t 1 --record=0" "create u64 $t" \
            "load u64 $t" "append u64 $t" "upgrade u64 $g $t" "copy u64 $g $t" "check u64 $t" "list u64 $t" "count u64 $t --record=7" \
            "find u64 $t --record=7" "stat $t" "serve u64 $t --seats=1" "upgrade u64 $t $g" \
            "copy u64 $t $g"; do
            # Where others only read it, who writes waits for them: locks.sh.
            case $how$words in
                --sharedclear* | --sharedfold* | --sharedset* | --sharedresize* | --sharedcreate* | --sharedload* | --sharedappend* | --sharedserve*) continue ;;
            esac
            rm -f "$g"
            case $words in *"$g $t") cp "$t" "$g" ;; esac
            # shellcheck disable=SC2086 # each word is one
            run $words 3</dev/null 4>/dev/null
            case $how$words in
                --exclusivecheck* | --sharedcheck*) did 'ok version 1 width 8 size 1 frames 2 live 1\n' ;;
                --exclusivelist* | --sharedlist*) did '7\n' ;;
                --exclusivecount* | --sharedcount*) did '1\n' ;;
                --exclusivefind* | --sharedfind*) did '0\n' ;;
                --exclusivestat* | --sharedstat*) did 'version 1\nwidth 8\nbytes 56\ngroups 1\nchanges 1\nshrinks 0\nfolds 0\ngrowths 1\nrecords 1\nsize 1\nlive 1\ngate 55\nbehind 0\n' ;;
                "--sharedupgrade u64 $t"* | "--exclusiveupgrade u64 $t"*) did 'upgraded size 1\n' ;;
                "--sharedcopy u64 $t"* | "--exclusivecopy u64 $t"*) did 'copied size 1\n' ;;
                *) was_refused file 'another command uses it' ;;
            esac
        done
        exec 9<&-
    done
    [ "$before" = "$(cksum <"$t")" ]
)
