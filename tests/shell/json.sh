# Answers and refusals as JSON, and refusals on standard error.

# ---- answers

# The lines of the answer have these values, as a reader of JSON has them.
has_values() {
    [ "$status" -eq 0 ]
    [ ! -s "$err" ]
    python3 -c '
import json, sys
values = [json.loads(line) for line in open(sys.argv[1])]
wanted = eval(sys.argv[2])
assert values == wanted, values
assert [type(value) for value in values] == [type(value) for value in wanted], values
' "$out" "$1"
}

answers_are_json_where_that_is_asked_for() (
    t=$work/t.cv
    run create u64 "$t" --format=2
    given '5 18446744073709551615\n7\n'
    run load u64 "$t"
    run set u64 "$t" 2 --records=5
    run check u64 "$t" --json
    has_values '[{"version": 2, "width": 8, "size": 3, "frames": 2, "live": 1}]'
    run count u64 "$t" --record=5 --json
    has_values '[{"count": 2}]'
    run find u64 "$t" --record=18446744073709551615 --json
    has_values '[{"position": 1}]'
    run find u64 "$t" --record=4 --json
    has_values '[{"position": None}]'
    run list u64 "$t" --json
    has_values '[5, 18446744073709551615, 5]'
    run list u64 "$t" --from=3 --json
    has_values '[]'
)

# The words of a type, its records as they are given, and the values.
records_of_each_type_are_json() (
    while IFS='=' read -r type records values; do
        rm -f "$work/t.cv"
        run create "$type" "$work/t.cv"
        given "$records\n"
        run load "$type" "$work/t.cv"
        run list "$type" "$work/t.cv" --json
        has_values "$values"
    done <<'ROWS'
u8=0 255=[0, 255]
i32=-2147483648 7=[-2147483648, 7]
i64=-9223372036854775808=[-9223372036854775808]
f32=0.5 -0.25=[0.5, -0.25]
f64=1e-9 -1.5e300 2=[1e-9, -1.5e300, 2.0]
f64=inf -inf NaN=["inf", "-inf", "NaN"]
pair=7:-3 18446744073709551615:0=[[7, -3], [18446744073709551615, 0]]
flagged=5:1 6:0=[[5, 1], [6, 0]]
bytes16=550e8400e29b41d4a716446655440000=["550e8400e29b41d4a716446655440000"]
ROWS
)

# ---- refusals

# It was refused by this name as an object of the file $2, which has that alone or first.
was_refused_in_json() {
    [ "$status" -eq 1 ]
    [ "$(head -n 1 "$2")" = "{\"refused\":\"$1\"}" ]
}

refusals_are_json_where_the_answer_would_be() (
    t=$work/t.cv
    run create u64 "$t"
    for words in 'check u32 FILE' 'list u32 FILE' 'list u32 FILE --last=1' 'count u32 FILE --record=5' 'find u32 FILE --record=5'; do
        # shellcheck disable=SC2046 # each word is one
        run $(echo "$words" | sed "s|FILE|$t|") --json
        was_refused_in_json 'width 8' "$out"
        [ "$(wc -l <"$out")" -eq 1 ]
        tells 'its records have 8 bytes'
    done
    run list u64 "$t" --from=x --json
    was_refused_in_json word "$out"
    run stat "$work/none.cv" --json
    was_refused_in_json file "$out"
    run list u64 "$t" --json --refusals=stderr --from=x
    was_refused_in_json word "$err"
    [ ! -s "$out" ]
)

# With the option standard output has answers alone; the sentence stands behind the line.
refusals_go_to_standard_error_where_that_is_asked_for() (
    t=$work/t.cv
    run create u64 "$t"
    given '5\nx\n'
    while IFS='=' read -r words name text; do
        # shellcheck disable=SC2046 # each word is one
        run $(echo "$words" | sed "s|FILE|$t|g") --refusals stderr
        [ "$status" -eq 1 ]
        [ ! -s "$out" ]
        [ "$(sed -n 1p "$err")" = "refused: $name" ]
        sed -n 2p "$err" | grep -qF -- "$text"
        [ "$(wc -l <"$err")" -eq 2 ]
    done <<'ROWS'
create u64 FILE=exists=--over
load u64 FILE=line 2="x" at its byte 1 is no record
append u64 FILE=line 2=the growths of the first 1 lines stand
check u32 FILE=width 8=its records have 8 bytes
list u64 FILE.none=file=there is no such file
list u64 FILE.none --last 1=file=there is no such file
count u64 FILE --record x=word=--record
set u64 FILE 5 --records 6=out of range=t.cv
follow u64 FILE.none=file=there is no such file
follow u64 FILE.none --reopen=file=there is no such file
stat FILE.none=file=there is no such file
copy u64 FILE FILE.none/n=file=there is no folder
ROWS
    run list u64 "$t" --refusals=stderr
    did '5\n'
    for value in stdout '' 1; do
        run list u64 "$t" "--refusals=$value"
        ends_with_usage '--refusals'
    done
)
