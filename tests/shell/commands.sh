# Commands over files: what they do and answer, and the words that they refuse.

# ---- commands over files

commands_over_a_file_do_their_work() (
    t=$work/t.cv
    run create u64 "$t"
    did 'created\n'
    given '5 6 7\n'
    run load u64 "$t"
    did 'loaded 1 growths, size 3\n'
    run check u64 "$t"
    did 'ok version 1 width 8 size 3 frames 1 live 0\n'
    run count u64 "$t" --record=6
    did '1\n'
    run find u64 "$t" --record=4
    did 'none\n'
    run set u64 "$t" 1 --records=8,9
    did 'ok\n'
    run list u64 "$t"
    did '5\n8\n9\n'
    run check u64 "$t"
    did 'ok version 1 width 8 size 3 frames 2 live 1\n'
    run find u64 "$t" --record=9
    did '2\n'
    run resize u64 "$t" 2 --record=0
    was_refused unfolded 'fold'
    run fold u64 "$t"
    did 'folded 1\n'
    run fold u64 "$t"
    did 'folded 0\n'
    run resize u64 "$t" 2 --record=0
    did 'ok\n'
    run list u64 "$t"
    did '5\n8\n'
    run clear u64 "$t"
    did 'ok\n'
    run check u64 "$t"
    did 'ok version 1 width 8 size 0 frames 5 live 0\n'
    run create u64 "$t"
    was_refused exists "$t"
    [ "$(stat -c %s "$t")" -eq 122 ]
)

a_part_of_the_records_is_listed() (
    t=$work/t.cv
    run create u64 "$t"
    given '1 2\n3\n4 5\n'
    run load u64 "$t"
    run list u64 "$t" --from=1 --count=3
    did '2\n3\n4\n'
    run list u64 "$t" --from=4
    did '5\n'
    run list u64 "$t" --count=1
    did '1\n'
    run list u64 "$t" --from=5
    did ''
    run list u64 "$t" --from=x
    was_refused word '--from'
    run list u64 "$t" --count=-1
    was_refused word '--count'
)

the_last_records_are_listed() (
    t=$work/t.cv
    run create u64 "$t"
    given '1 2\n3\n4 5\n'
    run load u64 "$t"
    run set u64 "$t" 4 --records=6
    while IFS='=' read -r last answer; do
        run list u64 "$t" --last "$last"
        did "$answer"
    done <<'ROWS'
2=4\n6\n
1=6\n
0=
5=1\n2\n3\n4\n6\n
6=1\n2\n3\n4\n6\n
18446744073709551615=1\n2\n3\n4\n6\n
ROWS
    for value in x -1 01 18446744073709551616; do
        run list u64 "$t" "--last=$value"
        ends_with_usage 'error: the value of --last is a number of records'
    done
    for words in --from=1 --count=1; do
        run list u64 "$t" --last=1 "$words"
        ends_with_usage 'cannot be used with'
    done
    run list u32 "$t" --last=1
    was_refused 'width 8' 'its records have 8 bytes'
)

# Of 2,400,000 bytes of records only those of the part are read: fewer than 20 reads are made.
a_part_is_listed_without_the_other_records() (
    has_calls || exit $is_skipped
    build_calls
    t=$work/t.cv
    run create u64 "$t"
    seq 1 300000 >"$in"
    run append u64 "$t" --block=10000
    run set u64 "$t" 200001 --records=7
    run_with CALLS_FAIL=pread:20 list u64 "$t" --from=200000 --count=3
    did '200001\n7\n200003\n'
    run_with CALLS_FAIL=pread:20 list u64 "$t" --last=3
    did '299998\n299999\n300000\n'
    run list u64 "$t" --from=1
    seq 2 300000 | sed 's/^200002$/7/' | cmp - "$out"
)

# Runs the program, which is built, in so little memory that the 80 MB of a file don't fit.
run_in_little_memory() {
    status=0
    (ulimit -v 65536 && "$top/crates/cvec/out/cvec" "$@") <"$in" >"$out" 2>"$err" || status=$?
}

# A change lies over the end of what is read at once.
a_long_file_is_used_in_little_memory() (
    t=$work/t.cv
    run create u64 "$t"
    seq 1 10000000 >"$in"
    run append u64 "$t" --block=100000
    given ''
    run set u64 "$t" 65535 --records=7,10000001
    run_in_little_memory check u64 "$t"
    [ "$status" -eq 0 ]
    grep -qx 'ok version 1 width 8 size 10000000 frames [0-9]* live 1' "$out"
    run_in_little_memory count u64 "$t" --record=7
    did '2\n'
    run_in_little_memory find u64 "$t" --record=10000001
    did '65536\n'
    run_in_little_memory find u64 "$t" --record=10000000
    did '9999999\n'
    run_in_little_memory find u64 "$t" --record=65536
    did 'none\n'
    run_in_little_memory list u64 "$t" --from=9999998 --count=3
    did '9999999\n10000000\n'
    run_in_little_memory set u64 "$t" 9999999 --records=5
    did 'ok\n'
    given '8\n'
    run_in_little_memory append u64 "$t"
    did 'appended 1 growths, size 10000001\n'
    run_in_little_memory list u64 "$t" --from=9999998
    did '9999999\n5\n8\n'
)

a_file_is_upgraded() (
    a_changed_file
    run upgrade u64 "$work/t.cv" "$work/n.cv"
    did 'upgraded size 1\n'
    run check u64 "$work/n.cv"
    did 'ok version 2 width 8 size 1 frames 1 live 0\n'
    [ "$(od -An -v -tx1 "$work/n.cv" | tr -d ' \n')" = 01435645435345470208000101100000000100000001000000070000000000000000 ]
    run upgrade u64 "$work/n.cv" "$work/m.cv"
    was_refused 'not version 1' 'version 2 already'
    run upgrade u64 "$work/t.cv" "$work/n.cv"
    was_refused 'new exists' "$work/n.cv"
    run upgrade u32 "$work/t.cv" "$work/o.cv"
    was_refused 'old width 8' 'those of u32 have 4'
    run upgrade u64 "$work/none.cv" "$work/p.cv"
    was_refused file "$work/none.cv"
    [ ! -e "$work/p.cv" ]
    run create u64 "$work/two.cv" --format=2
    did 'created\n'
    run check u64 "$work/two.cv"
    did 'ok version 2 width 8 size 0 frames 0 live 0\n'
    # An empty vector is not written over, and stays.
    run upgrade u64 "$work/t.cv" "$work/two.cv"
    was_refused 'new exists' "$work/two.cv: there is something in this file already"
    run check u64 "$work/two.cv"
    did 'ok version 2 width 8 size 0 frames 0 live 0\n'
    # A file of few bytes, which aren't those of a creation that was stopped, is not written over.
    printf 'secret=abc1\n' >"$work/s.cv"
    run upgrade u64 "$work/t.cv" "$work/s.cv"
    was_refused 'new exists' 'a vector or other bytes; it is as it was; name another new file'
    printf 'secret=abc1\n' | cmp - "$work/s.cv"
)

# It is refused so, and NEW, if it is there, is as it was.
refuses_the_old_file() {
    name=$1 sentence=$2 before=
    shift 2
    for word; do new=$word; done
    [ ! -f "$new" ] || before=$(cksum <"$new")
    run "$@"
    was_refused "$name" "$sentence"
    if [ -n "$before" ]; then [ "$(cksum <"$new")" = "$before" ]; else [ ! -e "$new" ]; fi
}

# Whatever NEW is: FILE is read and found old before anything is asked of NEW, and nothing was made there.
what_is_wrong_with_the_old_file_is_told_first() (
    a_changed_file
    run create u64 "$work/two.cv" --format=2
    run create u64 "$work/vector.cv"
    printf 'secret=abc1\n' >"$work/bytes.cv"
    : >"$work/empty.cv"
    head -c 30 "$work/t.cv" >"$work/cut.cv"
    run create u64 "$work/taken.cv"
    exec 9<"$work/taken.cv"
    flock --exclusive 9
    for new in vector bytes empty taken none folder/none; do
        n=$work/$new.cv
        for command in copy upgrade; do
            refuses_the_old_file 'old width 8' 'those of u32 have 4' $command u32 "$work/t.cv" "$n"
            refuses_the_old_file 'old damaged at 11: short frame' 'the 0 records before that are sound' $command u64 "$work/cut.cv" "$n"
            refuses_the_old_file 'old unborn' 'no vector was made' $command u64 "$work/bytes.cv" "$n"
            refuses_the_old_file file "$work/no.cv: there is no such file" $command u64 "$work/no.cv" "$n"
        done
        refuses_the_old_file 'not version 1' 'version 2 already' upgrade u64 "$work/two.cv" "$n"
    done
    for n in two t; do
        refuses_the_old_file 'old width 8' 'those of u32 have 4' upgrade u32 "$work/$n.cv" "$work/$n.cv"
    done
    refuses_the_old_file 'not version 1' 'version 2 already' upgrade u64 "$work/two.cv" "$work/two.cv"
    # Of a sound old file what is wrong with NEW is told.
    refuses_the_old_file file "$work/taken.cv: another command uses it" upgrade u64 "$work/t.cv" "$work/taken.cv"
    refuses_the_old_file file "$work/folder/none.cv: there is no folder" upgrade u64 "$work/t.cv" "$work/folder/none.cv"
    for new in vector bytes; do
        refuses_the_old_file 'new exists' "$work/$new.cv: there is something in this file already" upgrade u64 "$work/t.cv" "$work/$new.cv"
    done
    run upgrade u64 "$work/t.cv" "$work/empty.cv"
    did 'upgraded size 1\n'
)

# A file of version $1: five records of which some were changed, then fewer and more ones, with changes put home. Its list is
# the file `listed`.
a_worked_file() {
    rm -f "$work/t.cv" "$work/n.cv" "$work/w.cv"
    run create u64 "$work/t.cv" "--format=$1"
    given '5 6 7 8\n9\n'
    run load u64 "$work/t.cv"
    run set u64 "$work/t.cv" 1 --records=2,3
    run fold u64 "$work/t.cv"
    did 'folded 1\n'
    run resize u64 "$work/t.cv" 3 --record=0
    run resize u64 "$work/t.cv" 5 --record=4
    run set u64 "$work/t.cv" 0 --records=1
    did 'ok\n'
    run list u64 "$work/t.cv"
    did '1\n2\n3\n4\n4\n'
    mv "$out" "$work/listed"
}

# It is as long as a file of these growths, and has its bytes.
has_the_bytes_of_growths() {
    run create u64 "$work/w.cv" "--format=$1"
    shift
    for growth in "$@"; do
        given "$growth\n"
        run append u64 "$work/w.cv"
        [ "$status" -eq 0 ]
    done
    cmp "$work/w.cv" "$work/n.cv"
}

a_file_of_either_version_is_copied_to_either() (
    for from in 1 2; do
        for to in '' 1 2; do
            a_worked_file $from
            sum=$(cksum <"$work/t.cv")
            run copy u64 "$work/t.cv" "$work/n.cv" ${to:+--format=$to}
            did 'copied size 5\n'
            [ "$(cksum <"$work/t.cv")" = "$sum" ]
            run check u64 "$work/n.cv"
            did "ok version ${to:-$from} width 8 size 5 frames 1 live 0\n"
            run list u64 "$work/n.cv"
            cmp "$work/listed" "$out"
            [ "$(stat -c %s "$work/n.cv")" -lt "$(stat -c %s "$work/t.cv")" ]
            has_the_bytes_of_growths "${to:-$from}" '1 2 3 4 4'
        done
    done
    [ "$(od -An -v -tx1 "$work/n.cv" | tr -d ' \n')" = 014356454353454702080001013000000001000000050000000100000000000000020000000000000003000000000000000400000000000000040000000000000000 ]
    # It takes the place of the one that it was copied from.
    mv "$work/n.cv" "$work/t.cv"
    given '6\n'
    run load u64 "$work/t.cv"
    did 'loaded 1 growths, size 6\n'
    run list u64 "$work/t.cv"
    { cat "$work/listed"; echo 6; } | cmp - "$out"
    rm "$work/t.cv"
    run create u64 "$work/t.cv"
    run copy u64 "$work/t.cv" "$work/n.cv"
    did 'copied size 0\n'
    cmp "$work/t.cv" "$work/n.cv"
)

a_copy_has_growths_of_so_many_records() (
    a_worked_file 1
    run copy u64 "$work/t.cv" "$work/n.cv" --block=2 --format=2
    did 'copied size 5\n'
    has_the_bytes_of_growths 2 '1 2' '3 4' '4'
    rm "$work/n.cv" "$work/w.cv"
    run copy u64 "$work/t.cv" "$work/n.cv" --block 5
    did 'copied size 5\n'
    has_the_bytes_of_growths 1 '1 2 3 4 4'
    # The most that a frame of its version takes, and one more.
    for of in 1:131071:131072 2:2097151:2097152; do
        fits=${of#*:}
        rm -f "$work/n.cv"
        run copy u64 "$work/t.cv" "$work/n.cv" "--format=${of%%:*}" "--block=${of##*:}"
        was_refused 'new too large' 'nothing was written to it; give a smaller --block'
        [ ! -e "$work/n.cv" ]
        run copy u64 "$work/t.cv" "$work/n.cv" "--format=${of%%:*}" "--block=${fits%%:*}"
        did 'copied size 5\n'
    done
    # An empty vector that stands there stays.
    run create u64 "$work/e.cv"
    sum=$(cksum <"$work/e.cv")
    run copy u64 "$work/t.cv" "$work/e.cv" --block=4294967295
    was_refused 'new too large' 'nothing was written to it'
    [ "$(cksum <"$work/e.cv")" = "$sum" ]
    for block in 0 x -1 4294967296; do
        run copy u64 "$work/t.cv" "$work/o.cv" "--block=$block"
        ends_with_usage 'error: the value of --block is a number from 1 to 4294967295'
    done
    run copy u64 "$work/t.cv" "$work/o.cv" --format=3
    ends_with_usage 'error: '
    [ ! -e "$work/o.cv" ]
    # Without a number the growths are the longest: two frames of version 1 have more than 131,071 records.
    run resize u64 "$work/n.cv" 131072 --record=0
    run copy u64 "$work/n.cv" "$work/o.cv" --format=1
    did 'copied size 131072\n'
    run stat "$work/o.cv"
    grep -qx 'growths 2' "$out"
    grep -qx "bytes $((12 + 2 * 14 + 131072 * 8))" "$out"
)

# NEW is what isn't there, or is empty, or has what a creation of such a file leaves that was stopped.
a_copy_is_made_over_nothing() (
    a_worked_file 1
    sum=$(cksum <"$work/t.cv")
    run copy u64 "$work/t.cv" "$work/n.cv"
    did 'copied size 5\n'
    printf 'secret=abc1\n' >"$work/s.cv"
    run create u64 "$work/v.cv"
    for new in n s v; do
        before=$(cksum <"$work/$new.cv")
        run copy u64 "$work/t.cv" "$work/$new.cv"
        was_refused 'new exists' "$work/$new.cv: there is something in this file already"
        [ "$(cksum <"$work/$new.cv")" = "$before" ]
    done
    for left in '' '\0' '\0CVEC' '\0CVECSEG\01\010\0\0' '\0CVECSEG\02\010\0\0'; do
        printf '%b' "$left" >"$work/l.cv"
        run copy u64 "$work/t.cv" "$work/l.cv"
        did 'copied size 5\n'
        cmp "$work/l.cv" "$work/n.cv"
    done
    printf '%b' '\0CVECSEG\01\010\0\0' >"$work/l.cv"
    run copy u64 "$work/t.cv" "$work/l.cv" --format=2
    was_refused 'new exists' "$work/l.cv"
    ln "$work/t.cv" "$work/linked.cv"
    for words in copy 'copy --wait' upgrade 'upgrade --wait'; do
        # shellcheck disable=SC2086 # each word is one
        status=0
        timeout 20 "$top/cvec" ${words% *} u64 "$work/t.cv" "$work/linked.cv" ${words#${words% *}} <"$in" >"$out" 2>"$err" || status=$?
        was_refused file "$work/linked.cv: it is FILE itself"
    done
    run copy u32 "$work/t.cv" "$work/o.cv"
    was_refused 'old width 8' 'those of u32 have 4'
    run copy u64 "$work/none.cv" "$work/p.cv"
    was_refused file "$work/none.cv"
    [ ! -e "$work/p.cv" ]
    [ "$(cksum <"$work/t.cv")" = "$sum" ]
)

# Who may not read FILE may not read NEW either, but its owner. The process's mask takes away more.
a_copy_has_the_permissions_of_its_file() (
    a_worked_file 1
    for of in 600:022:600 640:022:640 666:022:644 644:077:600 444:022:644; do
        chmod "${of%%:*}" "$work/t.cv"
        mask=${of#*:}
        for command in copy upgrade; do
            rm -f "$work/n.cv"
            (umask "${mask%:*}" && "$top/cvec" $command u64 "$work/t.cv" "$work/n.cv" >"$out")
            [ "$(stat -c %a "$work/n.cv")" = "${of##*:}" ]
        done
    done
)

# Of a file whose permissions the system doesn't tell, the owner alone has the copy: whichever call it refuses, nobody else may
# read what he may not read in FILE.
a_copy_is_for_its_owner_where_permissions_are_not_told() (
    has_calls || exit $is_skipped
    build_calls
    a_worked_file 1
    chmod 600 "$work/t.cv"
    umask 022
    made=0
    for call in $(seq 1 20); do
        for command in copy upgrade; do
            rm -f "$work/n.cv"
            run_with "CALLS_FAIL=statx:$call" $command u64 "$work/t.cv" "$work/n.cv"
            [ -e "$work/n.cv" ] || continue
            [ "$(stat -c %a "$work/n.cv")" = 600 ]
            made=$((made + 1))
        done
    done
    [ "$made" -gt 2 ]
)

# Two files may have one number, each on a device of its own: neither is the other.
a_copy_is_made_on_another_device() (
    a_worked_file 1
    two_devices
    for command in copy upgrade; do
        cp "$work/t.cv" "$work/one/t.cv"
        : >"$work/two/n.cv"
        [ "$(stat -c %i "$work/one/t.cv")" = "$(stat -c %i "$work/two/n.cv")" ]
        run $command u64 "$work/one/t.cv" "$work/two/n.cv"
        [ "$status" -eq 0 ]
        run list u64 "$work/t.cv"
        mv "$out" "$work/listed"
        run list u64 "$work/two/n.cv"
        cmp "$work/listed" "$out"
        rm "$work/one/t.cv" "$work/two/n.cv"
    done
)

every_type_has_files() (
    # Half of the widest record, in hex.
    half=00112233445566778899aabbccddeeff0102030405060708090a0b0c0d0e0fff
    most=ffffffffffffffffffffffffffffffff
    for of in u8:0:255 u16:256:65535 i32:-2147483648:-1 u32:7:8 u64:18446744073709551615:8 i64:-3:4 f32:0.5:-1e-45 f64:-0.0:1e300 pair:7:-3,8:0 flagged:5:1,6:0 bytes16:$most:${half%"${half#????????????????????????????????}"} \
        bytes24:${half%????????????????}:${most}0000000000000000 bytes32:$half:$most$most bytes64:$half$half:$most$most$half; do
        t=$work/t.cv
        rm -f "$t"
        type=${of%%:*}
        records=${of#*:}
        case $type in
            pair | flagged) one=${records%,*} two=${records#*,} ;;
            *) one=${records%:*} two=${records#*:} ;;
        esac
        run create "$type" "$t"
        did 'created\n'
        printf '%s %s\n' "$one" "$two" >"$in"
        run load "$type" "$t"
        did 'loaded 1 growths, size 2\n'
        run list "$type" "$t"
        did "$one\n$two\n"
        run find "$type" "$t" "--record=$two"
        did '1\n'
        run set "$type" "$t" 0 "--records=$two"
        did 'ok\n'
        run count "$type" "$t" "--record=$two"
        did '2\n'
        rm -f "$work/n.cv"
        run copy "$type" "$t" "$work/n.cv"
        did 'copied size 2\n'
        run list "$type" "$work/n.cv"
        did "$two\n$two\n"
        [ "$(stat -c %s "$work/n.cv")" -lt "$(stat -c %s "$t")" ]
    done
)

# The file, of version 1, has these bytes behind the version, by docs/file/format.md. Blanks count for nothing.
has_bytes() { [ "$(hex_of "$work/t.cv")" = "014356454353454701$(printf %s "$1" | tr -d ' ')" ]; }

# A row has: a type and its width; the lengths of the payloads of a growth, a change and another growth; three records, two that
# replace the last of them, and one that is added; and the bytes of these six.
records_of_few_bytes_stand_as_they_are_defined() (
    t=$work/t.cv
    while read -r type width grown changed added records replacing last a b c d e f; do
        echo "$type"
        rm -f "$t"
        run create "$type" "$t"
        did 'created\n'
        has_bytes "$width 00"
        given "$(echo "$records" | tr , ' ')\n"
        run append "$type" "$t"
        did 'appended 1 growths, size 3\n'
        group="0101 $grown 01000000 03000000"
        has_bytes "$width $group $a$b$c 00"
        run count "$type" "$t" "--record=${records##*,}"
        did '1\n'
        run set "$type" "$t" 1 "--records=$replacing"
        did 'ok\n'
        change="0102 $changed 0100000000000000 $d$e"
        has_bytes "$width $group $a$b$c $change 00"
        run find "$type" "$t" "--record=${replacing##*,}"
        did '2\n'
        run fold "$type" "$t"
        did 'folded 1\n'
        behind="$width $group $a$d$e $change 0104 08000000 0100000000000000"
        has_bytes "$behind 00"
        run resize "$type" "$t" 2 "--record=$last"
        did 'ok\n'
        behind="$behind 0103 08000000 0200000000000000"
        has_bytes "$behind 00"
        run resize "$type" "$t" 4 "--record=$last"
        did 'ok\n'
        has_bytes "$behind 0101 $added 01000000 02000000 $f$f 00"
        run list "$type" "$t"
        did "${records%%,*}\n${replacing%,*}\n$last\n$last\n"
        run check "$type" "$t"
        did "ok version 1 width $((${#a} / 2)) size 4 frames 5 live 0\n"
    done <<'ROWS'
u8 0100 0b000000 0a000000 0a000000 5,255,7 0,128 254 05 ff 07 00 80 fe
u16 0200 0e000000 0c000000 0c000000 5,65535,7 256,32768 65534 0500 ffff 0700 0001 0080 feff
i32 0400 14000000 10000000 10000000 5,-1,7 2147483647,-2147483648 -2 05000000 ffffffff 07000000 ffffff7f 00000080 feffffff
f32 0400 14000000 10000000 10000000 0.5,-2.0,0.1 -0.0,inf 1.0 0000003f 000000c0 cdcccc3d 00000080 0000807f 0000803f
f64 0800 20000000 18000000 18000000 0.5,-2.0,0.1 -0.0,inf 1.0 000000000000e03f 00000000000000c0 9a9999999999b93f 0000000000000080 000000000000f07f 000000000000f03f
ROWS
)

# Of the 1,048,576 bytes of a frame a growth takes 8 beside its records.
a_frame_takes_the_more_records_of_fewer_bytes() (
    t=$work/t.cv
    for of in u8:1048568:1 u16:524284:2 i32:262142:4; do
        type=${of%%:*} width=${of##*:} most=${of#*:}
        most=${most%:*}
        rm -f "$t"
        run create "$type" "$t"
        run resize "$type" "$t" $((most + 1)) --record=5
        was_refused 'too large' '--parts takes any number'
        run resize "$type" "$t" "$most" --record=5
        did 'ok\n'
        [ "$(stat -c %s "$t")" -eq $((12 + 14 + most * width)) ]
        yes 7 | head -n "$most" | paste -sd ' ' >"$in"
        run load "$type" "$t"
        did "loaded 1 growths, size $((2 * most))\n"
        yes 7 | head -n $((most + 1)) | paste -sd ' ' >"$in"
        run load "$type" "$t"
        was_refused 'too large at line 1' 'longer than the 1048576 bytes of a frame'
        run check "$type" "$t"
        did "ok version 1 width $width size $((2 * most)) frames 2 live 0\n"
    done
)

# Its records have another width; or the same one, and are read as numbers of that type.
a_file_of_few_bytes_a_record_is_of_its_width() (
    given '255 7\n'
    for of in u8:1:u16 u16:2:u8 i32:4:u16; do
        type=${of%%:*} width=${of#*:} other=${of##*:}
        width=${width%:*}
        run create "$type" "$work/$type.cv"
        run load "$type" "$work/$type.cv"
        before=$(cksum <"$work/$type.cv")
        for command in check list 'append --block=2' clear fold; do
            # shellcheck disable=SC2086 # each word is one
            set -- $command
            name=$1
            shift
            run "$name" "$other" "$work/$type.cv" "$@"
            was_refused "width $width" "its records have $width bytes, and those of $other have $((${other#u} / 8))"
        done
        [ "$before" = "$(cksum <"$work/$type.cv")" ]
    done
    run set i32 "$work/i32.cv" 0 --records=-1
    run list u32 "$work/i32.cv"
    did '4294967295\n7\n'
    run copy u32 "$work/i32.cv" "$work/n.cv"
    did 'copied size 2\n'
    run find i32 "$work/n.cv" --record=-1
    did '0\n'
)

words_that_are_not_of_their_form_are_refused() (
    a_changed_file
    before=$(cksum <"$work/t.cv")
    for record in '' x 05 -1 18446744073709551616 '5 ' 5,6; do
        run count u64 "$work/t.cv" "--record=$record"
        was_refused word '--record'
        run find u64 "$work/none.cv" "--record=$record"
        was_refused word '--record'
        run resize u64 "$work/t.cv" 1 "--record=$record"
        was_refused word '--record'
    done
    for records in '' 5, ,5 5,,6 '5, 6' x; do
        run set u64 "$work/t.cv" 0 "--records=$records"
        was_refused word '--records'
    done
    for number in x 05 -1 18446744073709551616 1.5; do
        run set u64 "$work/t.cv" "$number" --records=5
        was_refused word START
        run resize u64 "$work/t.cv" "$number" --record=5
        was_refused word 'N is'
    done
    [ "$before" = "$(cksum <"$work/t.cv")" ]
)

# The value of an option stands behind `=`, or is the next word.
values_are_words_of_their_own_too() (
    t=$work/t.cv
    run create i64 "$t" --format 2
    did 'created\n'
    run check i64 "$t" --quiet
    did 'ok version 2 width 8 size 0 frames 0 live 0\n'
    given '1 2\n-3\n4 5\n'
    run load i64 "$t" --seats 1
    did 'loaded 3 growths, size 5\n'
    run append i64 "$t" --block 3 --every 5
    did 'appended 1 growths, size 10\n'
    run list i64 "$t" --from 1 --count 3
    did '2\n-3\n4\n'
    run list i64 --count 1 "$t"
    did '1\n'
    run count i64 "$t" --record -3
    did '2\n'
    run find i64 "$t" --record -3 --quiet
    did '2\n'
    run set i64 "$t" 0 --records -8,-9
    did 'ok\n'
    run resize i64 "$t" 11 --record -7
    did 'ok\n'
    run list i64 "$t" --from 10
    did '-7\n'
    run list i64 "$t" --count 2
    did '-8\n-9\n'
    run list i64 "$t" --from -1
    was_refused word '--from'
    run list i64 "$t" --from --quiet
    ends_with_usage "error: "
    run load i64 --seats "$t"
    ends_with_usage "error: "
)

words_that_are_missing_end_with_usage() (
    t=$work/t.cv
    for words in 'count u64 t' 'find u64 t' 'set u64 t 0' 'set u64 t' 'set u64 t --input' 'set u64 t 0 --lenient' 'resize u64 t 1' 'resize u64 t 1 --parts' 'upgrade u64 t' 'copy u64 t' 'list u64' \
        'create u64' 'create u64 t --format=3' 'create u64 t --format' 'count u64 t --record' 'check u24 t' \
        'list u64 t u' 'fold u64 t --record=5' 'load u24 t' 'count u24 t --record=x'; do
        # shellcheck disable=SC2086 # each word is one
        run $words
        [ "$status" -eq 2 ]
        [ ! -s "$out" ]
        tells 'usage: cvec COMMAND TYPE ..'
    done
    [ ! -e "$t" ]
)

# The records of `set` are given by a word or by the input, and not by both.
words_that_are_too_many_end_with_usage() (
    a_changed_file
    sum=$(cksum <"$work/t.cv")
    given '8\n'
    for words in '--records=9 --input' '--input --records 9' '--records=9 --lenient' '--input=5'; do
        # shellcheck disable=SC2086 # each word is one
        run set u64 "$work/t.cv" 0 $words
        ends_with_usage 'error: '
    done
    run set u64 "$work/t.cv" 0 --records=9 --input
    ends_with_usage "error: the argument '--records <records>' cannot be used with '--input'"
    run resize u64 "$work/t.cv" 2 --record=9 --parts=2
    ends_with_usage 'error: '
    [ "$sum" = "$(cksum <"$work/t.cv")" ]
)

# Of all lines of the input, in order: one change, which has the bytes of that by a word.
records_of_an_input_are_set_as_one_change() (
    t=$work/t.cv
    run create u64 "$t"
    given '1 2 3 4 5 6\n'
    run load u64 "$t"
    cp "$t" "$work/n.cv"
    given '7 8\n9\n'
    run set u64 "$t" 1 --input
    did 'ok\n'
    run list u64 "$t"
    did '1\n7\n8\n9\n5\n6\n'
    run check u64 "$t"
    did 'ok version 1 width 8 size 6 frames 2 live 1\n'
    run set u64 "$work/n.cv" 1 --records=7,8,9
    cmp "$work/n.cv" "$t"
    given '2\n3'
    run set u64 "$t" 4 --input
    did 'ok\n'
    given '\t4  5 \r\n 6\r\n'
    run set u64 "$t" 0 --input --lenient
    did 'ok\n'
    run list u64 "$t"
    did '4\n5\n6\n9\n2\n3\n'
)

# No record is no change, whatever START is, and nothing is written.
an_empty_input_changes_nothing() (
    a_changed_file
    sum=$(cksum <"$work/t.cv")
    given ''
    for start in 0 9 18446744073709551615; do
        run set u64 "$work/t.cv" $start --input
        did 'ok\n'
        [ "$sum" = "$(cksum <"$work/t.cv")" ]
    done
    run set u64 "$work/none.cv" 0 --input
    was_refused file "$work/none.cv"
)

# The word START first, then the input, then the file.
an_input_of_set_is_refused_before_a_file_is_opened() (
    given '7\nx\n'
    run set u64 "$work/none.cv" 05 --input
    was_refused word START
    run set u64 "$work/none.cv" 0 --input
    was_refused 'line 2' 'line 2 of the input is no growth: "x" at its byte 1 is no record'
    [ ! -e "$work/none.cv" ]
    a_changed_file
    sum=$(cksum <"$work/t.cv")
    for lines in '7\n\n' '7\n8 \n' '7\n-1\n' '7\n8\r\n'; do
        given "$lines"
        run set u64 "$work/t.cv" 0 --input
        was_refused 'line 2' 'no file was opened, and nothing was changed'
    done
    given '7\n8\n'
    run set u64 "$work/t.cv" 0 --input
    was_refused 'out of range' "$work/t.cv"
    [ "$sum" = "$(cksum <"$work/t.cv")" ]
)

# A line of any length: what a frame takes decides, which in version 2 are 16 MiB.
the_records_of_an_input_are_as_many_as_a_frame_takes() (
    run create u64 "$work/one.cv"
    run resize u64 "$work/one.cv" 140000 --record=0 --parts
    run create u64 "$work/two.cv" --format=2
    run resize u64 "$work/two.cv" 140000 --record=0
    seq -s ' ' 1 140000 >"$in"
    run set u64 "$work/one.cv" 0 --input
    was_refused 'too large' 'give fewer at once'
    run list u64 "$work/one.cv"
    yes 0 | head -n 140000 | cmp - "$out"
    run set u64 "$work/two.cv" 0 --input
    did 'ok\n'
    run list u64 "$work/two.cv"
    seq 1 140000 | cmp - "$out"
)

changes_that_no_vector_takes_are_refused() (
    a_changed_file
    before=$(cksum <"$work/t.cv")
    run set u64 "$work/t.cv" 1 --records=5
    was_refused 'out of range' "$work/t.cv"
    run set u64 "$work/t.cv" 18446744073709551615 --records=5,6
    was_refused 'out of range' "$work/t.cv"
    run clear u64 "$work/t.cv"
    was_refused unfolded 'cvec fold'
    for parts in '' --parts; do
        run resize u64 "$work/t.cv" 4294967297 --record=5 $parts
        was_refused 'out of range' "$work/t.cv"
        run resize u64 "$work/t.cv" 0 --record=5 $parts
        was_refused unfolded 'cvec fold'
    done
    [ "$before" = "$(cksum <"$work/t.cv")" ]
)

# In parts: growths of the most records that a frame takes, and one of the rest. Else a resize is what it is without the word.
a_length_is_reached_in_parts() (
    t=$work/t.cv
    run create u64 "$t"
    given '5 6\n'
    run load u64 "$t"
    # A frame of version 1 has 131,071 records at most, so these are three.
    run resize u64 "$t" 262145 --record=7 --parts
    did 'ok\n'
    run check u64 "$t"
    did 'ok version 1 width 8 size 262145 frames 4 live 0\n'
    run list u64 "$t"
    { printf '5\n6\n'; yes 7 | head -n 262143; } | cmp - "$out"
    # The frames hold 2, 131,071, 131,071 and 1.
    [ "$(stat -c %s "$t")" -eq $((12 + 4 * 14 + 262145 * 8)) ]
    run resize u64 "$t" 393216 --record=8 --parts
    did 'ok\n'
    run check u64 "$t"
    did 'ok version 1 width 8 size 393216 frames 5 live 0\n'
    sum=$(cksum <"$t")
    run resize u64 "$t" 393216 --record=8 --parts
    did 'ok\n'
    [ "$sum" = "$(cksum <"$t")" ]
    run resize u64 "$t" 3 --record=8 --parts
    did 'ok\n'
    run list u64 "$t"
    did '5\n6\n7\n'
    run create u64 "$work/v.cv" --format=2
    run resize u64 "$work/v.cv" 2097152 --record=5 --parts
    did 'ok\n'
    run check u64 "$work/v.cv"
    did 'ok version 2 width 8 size 2097152 frames 2 live 0\n'
)

# A frame takes 1 MiB of records, or, of a file of version 2, 16 MiB.
what_is_too_large_is_refused() (
    run create u64 "$work/t.cv"
    before=$(cksum <"$work/t.cv")
    run resize u64 "$work/t.cv" 131072 --record=5
    was_refused 'too large' '--parts takes any number'
    [ "$before" = "$(cksum <"$work/t.cv")" ]
    run resize u64 "$work/t.cv" 131071 --record=5
    did 'ok\n'
    run create u64 "$work/v.cv" --format=2
    run resize u64 "$work/v.cv" 2097152 --record=5
    was_refused 'too large' "$work/v.cv"
    run resize u64 "$work/v.cv" 2097151 --record=5
    did 'ok\n'
    run check u64 "$work/v.cv"
    did 'ok version 2 width 8 size 2097151 frames 1 live 0\n'
)

# 500 scripts of commands on one file each, compared with a plain list.
commands_in_any_order_keep_a_plain_list() (
    python3 "$top/tests/commands.py" "$top/crates/cvec/out/cvec" "$work" 500
)

# A terminal is told how far long work is, and nothing is left of it; nothing else is.
a_terminal_is_told_how_far_work_is() (
    has script 'what a terminal is told' || exit $is_skipped
    seq 1 2000000 >"$in"
    run create u64 "$work/t.cv"
    script -qec "$top/crates/cvec/out/cvec append u64 $work/t.cv <$in" /dev/null >"$work/told" </dev/null
    grep -qF 'a second' "$work/told"
    grep -qF "$(printf '\r\033[Kappended 2000000 growths, size 2000000')" "$work/told"
    script -qec "$top/crates/cvec/out/cvec list u64 $work/t.cv" /dev/null >"$work/told" </dev/null
    if tail -n +2 "$work/told" | grep -qF 'a second'; then return 1; fi
    [ "$(tail -n 1 "$work/told" | tr -d '\r')" = 2000000 ]
    script -qec "$top/crates/cvec/out/cvec append u64 $work/t.cv --quiet <$in" /dev/null >"$work/told" </dev/null
    if grep -qF 'a second' "$work/told"; then return 1; fi
    run append u64 "$work/t.cv"
    did 'appended 2000000 growths, size 6000000\n'
)
