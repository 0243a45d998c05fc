# `copy --sound`: what the whole frames of a damaged file hold.

# The file t.cv has the growths 1 2 3, 4 and 5 6, in frames behind the gates at 11, 49 and 71.
three_growths() {
    rm -f "$work/t.cv" "$work/n.cv"
    run create u64 "$work/t.cv"
    for growth in '1 2 3' 4 '5 6'; do
        given "$growth\n"
        run append u64 "$work/t.cv"
    done
    run stat "$work/t.cv"
    grep -qx 'gate 101' "$out"
}

# Puts a byte, as printf has it, at this place of the file t.cv.
put_at() { printf "$2" | dd of="$work/t.cv" bs=1 seek="$1" conv=notrunc 2>/dev/null; }

# The copy has these records, with the place and the cause that are told, and nothing else was made or changed.
sound_is() {
    before=$(cksum <"$work/t.cv")
    run copy u64 "$work/t.cv" "$work/n.cv" --sound
    [ "$status" -eq 0 ]
    [ "$(cat "$out")" = "copied size $(printf "$3" | wc -l)" ]
    [ "$(wc -l <"$err")" -eq 1 ]
    tells "cvec: $work/t.cv: it is damaged at byte $1 ($2); what its whole frames before that hold was copied"
    [ "$(cksum <"$work/t.cv")" = "$before" ]
    [ "$(cd "$work" && echo *.cv*)" = 'n.cv t.cv' ]
    run list u64 "$work/n.cv"
    did "$3"
    run check u64 "$work/n.cv"
    [ "$status" -eq 0 ]
    rm "$work/n.cv"
}

frames_before_the_damage_are_copied() (
    three_growths
    put_at 50 '\011'
    sound_is 50 'kind 9' '1\n2\n3\n'
    three_growths
    put_at 72 '\011'
    sound_is 72 'kind 9' '1\n2\n3\n4\n'
    three_growths
    put_at 12 '\011'
    sound_is 12 'kind 9' ''
    # Cut within the last frame, and behind it, before its gate.
    three_growths
    head -c 100 "$work/t.cv" >"$work/cut" && cat "$work/cut" >"$work/t.cv"
    sound_is 71 'short frame' '1\n2\n3\n4\n'
    three_growths
    head -c 101 "$work/t.cv" >"$work/cut" && cat "$work/cut" >"$work/t.cv"
    sound_is 101 'no gate' '1\n2\n3\n4\n5\n6\n'
)

# A change of before the damage is in the copy, and one behind it isn't.
changes_before_the_damage_are_copied() (
    three_growths
    run set u64 "$work/t.cv" 1 --records=9
    run set u64 "$work/t.cv" 0 --records=8
    run stat "$work/t.cv"
    last=$(sed -n 's/^gate //p' "$out")
    head -c $((last - 1)) "$work/t.cv" >"$work/cut" && cat "$work/cut" >"$work/t.cv"
    run check u64 "$work/t.cv"
    place=$(sed -n 's/^refused: damaged at \([0-9]*\): short frame$/\1/p' "$out")
    sound_is "$place" 'short frame' '1\n9\n3\n4\n5\n6\n'
)

a_sound_file_is_copied_as_ever() (
    three_growths
    run copy u64 "$work/t.cv" "$work/n.cv" --sound --format=2
    did 'copied size 6\n'
    run check u64 "$work/n.cv"
    grep -q '^ok version 2 width 8 size 6 ' "$out"
    run copy u64 "$work/t.cv" "$work/n.cv" --sound
    was_refused 'new exists' "$work/n.cv"
    run copy u64 "$work/none.cv" "$work/m.cv" --sound
    was_refused file 'there is no such file'
    run copy u32 "$work/t.cv" "$work/m.cv" --sound
    was_refused 'old width 8' 'its records have 8 bytes'
    [ ! -e "$work/m.cv" ]
)

# What stands in the way stays.
a_damaged_file_is_not_copied_over_others() (
    three_growths
    put_at 50 '\011'
    cp "$work/t.cv" "$work/damaged"
    echo mine >"$work/n.cv.front"
    run copy u64 "$work/t.cv" "$work/n.cv" --sound
    was_refused file "cvec: $work/n.cv.front: it can't be made (File exists"
    [ "$(cat "$work/n.cv.front")" = mine ]
    [ ! -e "$work/n.cv" ]
    rm "$work/n.cv.front"
    echo mine >"$work/n.cv"
    run copy u64 "$work/t.cv" "$work/n.cv" --sound
    was_refused 'new exists' "$work/n.cv"
    [ "$(cat "$work/n.cv")" = mine ]
    run copy u64 "$work/t.cv" "$work/t.cv" --sound
    was_refused 'new exists' "$work/t.cv"
    cmp "$work/t.cv" "$work/damaged"
    [ "$(cd "$work" && echo *.front)" = '*.front' ]
)
