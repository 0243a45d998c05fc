# `cvec show`: the hex of a file becomes its records, or the file's first fault is named.

# ---- the program on its input

files_are_shown_as_their_records() (
    for hex in "$empty=" "$five=5\n" "$(edited $five 8 02)=5\n" "$three=1\n2\n3\n" "$(edited $five 11 07)="; do
        becomes 'show u64' "${hex%%=*}" 0 "${hex#*=}"
        becomes 'show u64' "$(printf '%s' "${hex%%=*}" | tr a-f A-F)\n" 0 "${hex#*=}"
    done
)

a_damaged_file_is_refused_by_its_first_fault() (
    becomes 'show u64' "$(printf '%s' $five | cut -c 1-66)" 1 'refused: damaged at 33: no gate\n'
    becomes 'show u64' '01' 1 'refused: unborn\n'
    becomes 'show u64' '' 1 'refused: unborn\n'
    becomes 'show u64' '\n' 1 'refused: unborn\n'
    becomes 'show u64' "$(edited $five 12 05)" 1 'refused: damaged at 12: kind 5\n'
    becomes 'show u64' "$(edited $five 13 11)" 1 'refused: damaged at 17: layout\n'
    becomes 'show u64' "$(edited $five 13 12)" 1 'refused: damaged at 11: short frame\n'
    becomes 'show u64' '01435645' 1 'refused: not a segment\n'
    becomes 'show u64' "$(edited $empty 8 03)" 1 'refused: version 3\n'
    becomes 'show u64' "$(edited $empty 9 04)" 1 'refused: width 4\n'
    becomes 'show u64' '0143564543534547010800' 1 'refused: damaged at 11: no gate\n'
    becomes 'show u64' '014' 1 'refused: not hex\n'
    becomes 'show u64' '0g' 1 'refused: not hex\n'
    becomes 'show u64' '01\n\n' 1 'refused: not hex\n'
)

the_hex_of_a_file_is_shown_as_its_records() (
    given "$five\n"
    run show u64
    answers 0 '5\n'
)

a_file_of_many_lines_is_shown_as_them() (
    seq 1 200000 >"$in"
    run image u64
    [ "$status" -eq 0 ]
    cp "$out" "$work/hex"
    cp "$in" "$work/lines"
    in=$work/hex
    run show u64
    [ "$status" -eq 0 ]
    cmp "$out" "$work/lines"
)

# ---- worked files with changes, shrinks and folds, of both versions

# A growth of 5, and a change of it to 7.
changed=0143564543534547010800010110000000010000000100000005000000000000000102100000000000000000000000070000000000000000
# Version 2: a growth of four times 5, and one change of position 0 to 7, and of 2 and 3 to 8 and 9.
two_runs=0143564543534547020800010128000000010000000400000005000000000000000500000000000000050000000000000005000000000000000102340000000200000000000000000000000100000002000000000000000200000007000000000000000800000000000000090000000000000000

files_of_every_kind_of_frame_are_shown() (
    # The change is folded: the home bytes say 5.
    folded=01435645435345470108000101100000000100000001000000050000000000000001021000000000000000000000000700000000000000010408000000010000000000000000
    # A growth of 5 and 6, a change of position 1 to 6, and a shrink to one record, with a fold before it and without.
    shrunk=0143564543534547010800010118000000010000000200000005000000000000000600000000000000010210000000010000000000000006000000000000000104080000000100000000000000010308000000010000000000000000
    unfolded=014356454353454701080001011800000001000000020000000500000000000000060000000000000001021000000001000000000000000600000000000000010308000000010000000000000000
    becomes 'show u64' $changed 0 '7\n'
    becomes 'show u64' $folded 0 '5\n'
    becomes 'show u64' $shrunk 0 '5\n'
    becomes 'show u64' $unfolded 1 'refused: damaged at 63: unfolded\n'
    becomes 'show u64' $two_runs 0 '7\n5\n8\n9\n'
)

# A growth of a flagged record whose flag is 2; under a live change to 7, flagged, it isn't looked at.
a_live_change_hides_home_bytes_that_are_no_record() (
    becomes 'show flagged' 0143564543534547010900010111000000010000000100000005000000000000000200 1 'refused: damaged at 25: bad record\n'
    becomes 'show flagged' 01435645435345470109000101110000000100000001000000050000000000000002010211000000000000000000000007000000000000000100 0 '7:1\n'
)

every_front_of_a_file_has_its_answer() (
    for len in $(seq 0 56); do
        case $len in
            [01]) answer='refused: unborn' ;;
            [2-9] | 10) answer='refused: not a segment' ;;
            11) answer='refused: damaged at 11: no gate' ;;
            33 | 55) answer="refused: damaged at $len: no gate" ;;
            56) answer=7 ;;
            *) [ "$len" -lt 33 ] && answer='refused: damaged at 11: short frame' || answer='refused: damaged at 33: short frame' ;;
        esac
        printf '%s' $changed | head -c $((2 * len)) >"$in"
        run show u64
        [ "$(cat "$out")" = "$answer" ]
    done
)

a_byte_of_ff_has_its_answer_wherever_it_stands() (
    for at in $(seq 0 47); do
        case $at in
            0) answer='refused: unborn' ;;
            [1-7]) answer='refused: not a segment' ;;
            8) answer='refused: version 255' ;;
            9) answer='refused: width 255' ;;
            10) answer='refused: width 65288' ;;
            11) answer= ;;
            12 | 34) answer="refused: damaged at $at: kind 255" ;;
            13 | 14) answer='refused: damaged at 11: short frame' ;;
            15 | 16) answer='refused: damaged at 13: too large' ;;
            1[7-9] | 2[0-4]) answer='refused: damaged at 17: layout' ;;
            2[5-9] | 3[0-2]) answer=7 ;;
            33) answer=5 ;;
            35 | 36) answer='refused: damaged at 33: short frame' ;;
            37 | 38) answer='refused: damaged at 35: too large' ;;
            39 | 4[0-6]) answer='refused: damaged at 39: range' ;;
            *) answer=255 ;;
        esac
        edited $changed "$at" ff >"$in"
        run show u64
        [ "$(cat "$out")" = "$answer" ]
    done
)

a_byte_of_a_change_of_two_runs_has_its_answer() (
    becomes 'show u64' "$(edited $two_runs 79 00)" 1 'refused: damaged at 63: runs\n'
    becomes 'show u64' "$(edited $two_runs 79 03)" 1 'refused: damaged at 63: range\n'
    becomes 'show u64' "$(edited $two_runs 75 00)" 1 'refused: damaged at 63: layout\n'
    becomes 'show u64' "$(edited $two_runs 79 01)" 0 '7\n8\n9\n5\n'
    becomes 'show u64' "$(edited $two_runs 8 01)" 1 'refused: damaged at 63: layout\n'
)
