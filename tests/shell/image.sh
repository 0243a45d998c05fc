# `cvec image`: lines of records become the hex of their file, or what is wrong with them is named.

# ---- the program on its input

lines_become_the_hex_of_their_file() (
    becomes 'image u64' '' 0 "$empty\n"
    becomes 'image u64' '5' 0 "$five\n"
    becomes 'image u64' '1 2 | 3\n' 0 "$three\n"
    becomes 'image u64' '1 2 | 3' 0 "$three\n"
)

the_first_bad_line_is_named() (
    becomes 'image u64' '5\n5  6\n' 1 'refused: line 2\n'
    becomes 'image u64' '5\n\n' 1 'refused: line 2\n'
    becomes 'image u64' '5\n6\n\0377\0376\n7 7 x\n' 1 'refused: line 3\n'
    for line in 05 18446744073709551616 +5 '' '5\r' '5 ' ' 5' '5 | ' '5 |' '| 5' '5 | | 6' '5|6'; do
        becomes 'image u64' "$line\n" 1 'refused: line 1\n'
    done
)

every_line_is_read_before_a_size_is_looked_at() (
    ones() { yes 1 | head -n "$1" | paste -sd ' '; }
    ones 131071 >"$in"
    run image u64
    [ "$status" -eq 0 ]
    [ "$(wc -c <"$out")" -eq 2097189 ]
    ones 131072 >"$in"
    run image u64
    answers_refusal 'too large at line 1'
    printf '5\n05\n' >>"$in"
    run image u64
    answers_refusal 'line 3'
)

a_line_becomes_the_hex_of_its_file() (
    given '5\n'
    run image u64
    answers 0 "$five\n"
    run
    answers 0 "$five\n"
)

an_empty_input_is_an_empty_vector() (
    given ''
    run image u64
    answers 0 "$empty\n"
    run show u64
    answers 1 'refused: unborn\n'
)

a_refusal_is_one_line_and_status_one() (
    given '05\n'
    run image u64
    answers 1 'refused: line 1\n'
    given 'no hex\n'
    run show u64
    answers 1 'refused: not hex\n'
)

the_longest_input_is_taken_and_no_longer_one() (
    head -c 67108864 /dev/zero >"$in"
    run show u64
    answers 1 'refused: not hex\n'
    head -c 67108865 /dev/zero >"$in"
    run show u64
    answers 1 'refused: input too long\n'
    run image u64
    answers 1 'refused: input too long\n'
)

an_input_that_cannot_be_read_is_told() (
    in=$work
    run image u64
    answers 1 'refused: input\n'
    status=0
    "$top/cvec" show u64 <&- >"$out" 2>"$err" || status=$?
    answers 1 'refused: input\n'
)
