# The words that the program takes and refuses, and its help.

# ---- the program's words

other_words_for_a_type_are_usage() (
    for word in u128 i8 i16 f8 f16 f128 float double F32 F64 f032 f U8 u08 8 U64 Pair flag u; do
        becomes "image $word" '5\n' 2 ''
        becomes "show $word" '5\n' 2 ''
    done
    run image ''
    ends_with_usage "error: "
)

words_choose_the_engine() (
    becomes '' '\n' 1 'refused: line 1\n'
    becomes 'show u64' '\n' 1 'refused: unborn\n'
    becomes 'play u64' 'list\n' 0 'refused wrong phase\n'
    for words in 'play u24' play 'play u64 u64' show 'show u64 u64' 'list u64'; do
        becomes "$words" 'list\n' 2 ''
    done
)

what_is_wrong_with_words_is_told_in_a_sentence() (
    while IFS='=' read -r words sentence; do
        run $words
        ends_with_usage "$sentence"
    done <<'ROWS'
lists u64=error: unrecognized subcommand 'lists'
show=error: the following required arguments were not provided:
image u24=error: invalid value 'u24' for '<TYPE>'
show u24=[possible values: u8, u16, u32, u64, i32, i64, f32, f64, pair, flagged, bytes16, bytes24, bytes32, bytes64]
show u64 u64=error: unexpected argument 'u64' found
--kind=error: unexpected argument '--kind' found
show -- u64 --help=error: unexpected argument '--help' found
ROWS
)

words_that_clap_refuses_end_with_usage() (
    run lists u64
    ends_with_usage "error: unrecognized subcommand 'lists'"
    run load u64 t.cv --seats=65
    ends_with_usage 'error: the value of --seats is a number from 1 to 64'
    run show u24
    ends_with_usage "error: invalid value 'u24' for '<TYPE>'"
    run show
    ends_with_usage 'error: the following required arguments were not provided:'
    run show u64 u64
    ends_with_usage "error: unexpected argument 'u64' found"
    run ''
    ends_with_usage 'error: '
)

# Behind what is wrong stands a line: how to ask for help on the command, or on the one whose name is nearest.
usage_says_where_to_read_on() (
    while IFS='=' read -r words line; do
        # shellcheck disable=SC2086 # each word is one
        run $words
        ends_with_usage 'error: '
        [ "$(tail -n 1 "$err")" = "$line" ]
    done <<'ROWS'
lists u64='list' may be meant: 'cvec help list' tells of it
lst='list' may be meant: 'cvec help list' tells of it
ls u64='list' may be meant: 'cvec help list' tells of it
Set u64 t 0='set' may be meant: 'cvec help set' tells of it
gets u64 t 0='set' may be meant: 'cvec help set' tells of it
help apend='append' may be meant: 'cvec help append' tells of it
help delete='cvec help' lists the commands
remove u64='cvec help' lists the commands
listlistlist='cvec help' lists the commands
--kind='cvec help' lists the commands
image u24='cvec help image' tells of it
count u64 t --recrod 5='--record' may be meant: 'cvec help count' tells of it
follow u64 t --form 5='--from' may be meant: 'cvec help follow' tells of it
append u64 t --quit='--quiet' may be meant: 'cvec help append' tells of it
append u64 t --seats 5='cvec help append' tells of it
count u64 t='cvec help count' tells of it
load u64 t --seats 65='cvec help load' tells of it
help list more='cvec help list' tells of it
version more='cvec help' lists the commands
ROWS
    run lists u64
    printf '%s\n' 'usage: cvec COMMAND TYPE ..' "error: unrecognized subcommand 'lists'" \
        "'list' may be meant: 'cvec help list' tells of it" | cmp - "$err"
)

# A parse that asks for help is refused as any other, and the help is told on standard error.
help_as_an_option_ends_with_usage() (
    run help
    cp "$out" "$work/all"
    run help show
    cp "$out" "$work/show"
    while IFS='=' read -r words told; do
        # shellcheck disable=SC2086 # each word is one
        run $words
        [ "$status" -eq 2 ]
        [ ! -s "$out" ]
        { printf '%s\n\n' 'usage: cvec COMMAND TYPE ..' && cat "$work/$told"; } | cmp - "$err"
    done <<'ROWS'
--help=all
-h=all
help --help=all
version -h=all
show --help=show
show -h=show
show --help u64=show
ROWS
)

a_word_that_is_no_utf8_ends_with_usage() (
    word=$(printf '\377')
    run "$word"
    ends_with_usage 'error: a word is no UTF-8'
    run "$word" u64
    ends_with_usage 'error: a word is no UTF-8'
    run image "u64$word"
    ends_with_usage 'error: a word is no UTF-8'
)

usage_needs_no_standard_error() (
    status=0
    "$top/cvec" lists u64 <"$in" >"$out" 2>&- || status=$?
    [ "$status" -eq 2 ]
    [ ! -s "$out" ]
)

the_program_tells_of_itself() (
    for command in image show play create load append serve check stat list follow count find set resize clear fold upgrade copy; do
        run help $command
        [ "$status" -eq 0 ]
        [ ! -s "$err" ]
        case $command in
            stat) grep -qF 'cvec stat FILE' "$out" ;;
            *) grep -qF "cvec $command TYPE" "$out" ;;
        esac
        grep -qF '  $ ' "$out"
        grep -qF 'Refused: ' "$out"
        run help
        [ "$status" -eq 0 ]
        [ ! -s "$err" ]
        grep -q "^$command .*   *[a-z]" "$out"
    done
    run help
    for type in u8 u16 u32 u64 i32 i64 f32 f64 pair flagged bytes16 bytes24 bytes32 bytes64; do grep -qw "$type" "$out"; done
    for line in 'TYPE is u8, u16, u32, u64, i32, i64, f32, f64 (as 0.5 or 1e-9), pair (a u64 and an i64, as 7:-3),' \
        'flagged (a u64 and 0 or 1, as 5:1), or bytes16, bytes24, bytes32, bytes64 (so many bytes, as hex digits in lower case).'; do
        grep -qxF "$line" "$out"
    done
    run help play
    grep -qxF "  \$ printf 'create\\nresize 1 5\\ncrash old\\nopen\\nlist\\n' | cvec play u64" "$out"
    for words in version --version; do
        run $words
        [ "$status" -eq 0 ]
        [ ! -s "$err" ]
        grep -qF 'files of version 1 and 2' "$out"
        kit=$(sed -n 's/.*The toolchain (`\([^`]*\)`).*/\1/p' "$top/README.md")
        [ -n "$kit" ]
        grep -qF "$kit" "$out"
    done
)

what_the_program_tells_of_itself_may_be_cut() (
    out=/dev/full
    for words in help 'help load' version; do
        # shellcheck disable=SC2086 # each word is one
        run $words
        ends_with_a_failed_write 'No space left on device'
    done
)
