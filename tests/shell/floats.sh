# The commands over records that are floats, of f32 and of f64. The bits of each, by IEEE 754, are those of its u32 or u64.

# ---- texts and bits

# The type of numbers that has the bytes of this one of floats.
numbers_of() { echo "u${1#f}"; }

# Each word of a list on a line of its own.
each_alone() { printf '%s\n' $1; }

# The words of this line are the floats that have these bits.
is_read() {
    given "$2\n"
    run image "$1"
    [ "$status" -eq 0 ]
    [ ! -s "$err" ]
    cp "$out" "$in"
    run show "$(numbers_of "$1")"
    did "$(each_alone "$3")\n"
}

# Floats that have these bits are written as these words.
is_written() {
    given "$2\n"
    run image "$(numbers_of "$1")"
    [ "$status" -eq 0 ]
    cp "$out" "$in"
    run show "$1"
    did "$(each_alone "$3")\n"
}

# Each of these words, alone on a line, is refused as none of the type.
are_none() {
    of_type=$1
    shift
    for word in "$@"; do
        becomes "image $of_type" "$word\n" 1 'refused: line 1\n'
    done
}

# The file t.cv, of this type, has a growth of these records.
a_float_file() {
    rm -f "$work/t.cv"
    run create "$1" "$work/t.cv"
    did 'created\n'
    given "$2\n"
    run load "$1" "$work/t.cv"
    [ "$status" -eq 0 ]
}

# A sign, an exponent from 1023 or 127 on, and the bits behind the point. The least and the greatest, and beside the least one that
# is normal.
a_float_is_the_number_that_has_its_bits() (
    is_read f64 '0.5 1 -2 0.1 0.0 -0.0' \
        '4602678819172646912 4607182418800017408 13835058055282163712 4591870180066957722 0 9223372036854775808'
    is_read f64 '5e-324 2.225073858507201e-308 2.2250738585072014e-308 1.7976931348623157e308' \
        '1 4503599627370495 4503599627370496 9218868437227405311'
    is_read f64 'inf -inf NaN' '9218868437227405312 18442240474082181120 9221120237041090560'
    is_read f32 '0.5 1 -2 0.1 0.0 -0.0' '1056964608 1065353216 3221225472 1036831949 0 2147483648'
    is_read f32 '1e-45 1.1754942e-38 1.1754944e-38 3.4028235e38' '1 8388607 8388608 2139095039'
    is_read f32 'inf -inf NaN' '2139095040 4286578688 2143289344'
)

a_float_is_written_in_the_fewest_digits_that_read_as_it() (
    is_written f64 '4602678819172646912 4607182418800017408 13835058055282163712 4591870180066957722 0 9223372036854775808' \
        '0.5 1.0 -2.0 0.1 0.0 -0.0'
    is_written f64 '1 4503599627370495 4503599627370496 9218868437227405311' \
        '5e-324 2.225073858507201e-308 2.2250738585072014e-308 1.7976931348623157e308'
    is_written f64 '9218868437227405312 18442240474082181120 9221120237041090560' 'inf -inf NaN'
    is_written f64 '9094988921128908188 4831355200913801216 4846369599423283200 4532020583610935537 4517329193108106637' \
        '1e300 1000000000000000.0 1e16 0.00001 1e-6'
    is_written f64 '4728057454355546112 13725520251343122248 4614256656552045848 4950912855330343670' \
        '123456789.125 -1e-7 3.141592653589793 1e23'
    is_written f32 '1056964608 1065353216 3221225472 1036831949 0 2147483648' '0.5 1.0 -2.0 0.1 0.0 -0.0'
    is_written f32 '1 8388607 8388608 2139095039' '1e-45 1.1754942e-38 1.1754944e-38 3.4028235e38'
    is_written f32 '2139095040 4286578688 2143289344' 'inf -inf NaN'
    is_written f32 '1399379109 1427211495 897988541 869711765 1206984794' '1000000000000.0 1e13 0.000001 1e-7 123456.7'
)

# The same float in other forms: without a digit before or behind the point, with a sign, with zeros in front or behind, and with an
# exponent of either letter and with a sign or none.
a_decimal_may_have_any_form() (
    half=4602678819172646912 thousand=4652007308841189376
    is_read f64 '.5 +.5 0.50 000.5 0.5e0 5e-1 5E-1 +5.e-01 .05e1 50e-2 0.05E+1' \
        "$half $half $half $half $half $half $half $half $half $half $half"
    is_read f64 '1000 1000. +1e3 1E3 1e+3 1e03 01e003 .1e4 1000000e-3' \
        "$thousand $thousand $thousand $thousand $thousand $thousand $thousand $thousand $thousand"
    is_read f64 '-.5 -5e-1 -0.5E0' '13826050856027422720 13826050856027422720 13826050856027422720'
    is_read f64 '0 +0 -0 0. -.0 -0e5 0e99999 -0e-99999' \
        '0 0 9223372036854775808 0 9223372036854775808 9223372036854775808 0 9223372036854775808'
    # Too small ones are 0, of their sign.
    is_read f64 '1e-400 -1e-400 1e-99999999999999999999' '0 9223372036854775808 0'
    is_read f64 '1e-65537 1e-4294967297 1e-18446744073709551617 0e18446744073709551617' '0 0 0 0'
    is_read f32 '.5 5E-1 -0 1e-46 -1e-46' '1056964608 1056964608 2147483648 0 2147483648'
    # Of hundreds of digits: 1 and 0.1, each with 400 zeros behind, and 1 with 400 in front.
    zeros=$(printf '%0400d' 0)
    is_read f64 "1.$zeros 0.1$zeros ${zeros}1 1${zeros}e-400" \
        '4607182418800017408 4591870180066957722 4607182418800017408 4607182418800017408'
    is_read f32 "1.$zeros 0.1$zeros ${zeros}1" '1065353216 1036831949 1065353216'
)

infinities_and_nans_have_words_in_any_case() (
    infinity=9218868437227405312 below=18442240474082181120 nan=9221120237041090560
    is_read f64 'inf INF Inf +inf infinity Infinity +INFINITY' "$infinity $infinity $infinity $infinity $infinity $infinity $infinity"
    is_read f64 '-inf -INF -infinity -InFiNiTy' "$below $below $below $below"
    # The sign of a NaN is ignored.
    is_read f64 'nan NaN NAN nAn +nan -nan -NaN' "$nan $nan $nan $nan $nan $nan $nan"
    is_read f32 'inf +Infinity -inf -INFINITY nan -NaN +NAN' '2139095040 2139095040 4286578688 4286578688 2143289344 2143289344 2143289344'
)

# ---- rounding

# Beside and at the middle of two floats. By way of a double all those of f32 were at the middle.
a_decimal_is_rounded_once() (
    is_read f32 '1.00000017881393432617187499 1.000000178813934326171875 1.00000029802322387695312501' '1065353217 1065353218 1065353219'
    is_read f32 '7.0064923216240853546186479164495806e-46 7.0064923216240853546186479164495807e-46' '0 1'
    is_read f32 '16777217 16777217.0000000000000000001 16777219' '1266679808 1266679809 1266679810'
    is_read f64 '9007199254740993 9007199254740993.0000000000000000001 9007199254740995' \
        '4845873199050653696 4845873199050653697 4845873199050653698'
    is_read f64 '2.4703282292062327e-324 2.4703282292062328e-324' '0 1'
)

# From the middle between the greatest float and the next power of two on a decimal is too large.
a_decimal_just_below_what_is_too_large_is_the_greatest_float() (
    is_read f32 '340282356779733661637539395458142568447 -3.4028235677973366e38' '2139095039 4286578687'
    are_none f32 340282356779733661637539395458142568448 -3.4028235677973367e38 1e39 -1e39 340282366920938463463374607431768211456
    is_read f64 '1.797693134862315807e308 -1.797693134862315807e308' '9218868437227405311 18442240474082181119'
    are_none f64 1.797693134862315808e308 -1.797693134862315808e308 1e309 1e400 -1e400 1e99999999999999999999
    # What f32 hasn't f64 has.
    is_read f64 '1e39' 5190260616003865117
)

# Of random floats the middles to their neighbours, in all their digits, and what is beside these by a digit behind all. A middle is
# the float with an even last bit.
decimals_beside_middles_are_rounded_to_the_right_side() (
    has python3 'the middles of floats' || exit $is_skipped
    for type in f32 f64; do
        python3 - "$type" "$work/texts" "$work/bits" <<'PYTHON'
import random, sys

form, texts, bits = sys.argv[1:]
pick, digits, least = random.Random(form), *{"f32": (23, -149), "f64": (52, -1074)}[form]
greatest = {"f32": 0x7f7fffff, "f64": 0x7fefffffffffffff}[form]


def middle(number):
    """Half of the sum of a float and of the next one, as decimal digits and the power of ten behind them."""
    exponent = number >> digits
    fraction = (number & (1 << digits) - 1) + ((1 << digits) if exponent else 0)
    half, power = 2 * fraction + 1, max(exponent, 1) - 1 + least - 1
    return (half * 5 ** -power, power) if power < 0 else (half << power, 0)


with open(texts, "w") as words, open(bits, "w") as numbers:
    for k in range(150):
        number = pick.choice([0, 1, pick.randrange(1 << digits), greatest - 1, pick.randrange(greatest), pick.randrange(1, 200) << digits])
        digit, power = middle(number)
        nines, zeros = pick.randrange(1, 60), pick.randrange(60)
        near = [(str(digit), 0, number + number % 2), (f"{digit}{'0' * zeros}1", zeros + 1, number + 1),
                (f"{digit - 1}{'9' * nines}", nines, number)]
        for text, more, wanted in near:
            at = pick.randrange(len(text) + 1)
            sign = pick.randrange(2)
            words.write(f"{'-' * sign}{text[:at]}.{text[at:]}e{power - more + len(text) - at}\n")
            numbers.write(f"{wanted + (sign << 8 * {'f32': 4, 'f64': 8}[form] - 1)}\n")
PYTHON
        rm -f "$work/t.cv"
        run create "$type" "$work/t.cv"
        cp "$work/texts" "$in"
        run load "$type" "$work/t.cv"
        did 'loaded 450 growths, size 450\n'
        run list "$(numbers_of "$type")" "$work/t.cv"
        cmp "$work/bits" "$out"
    done
)

# ---- NaNs

# Also those that signal, and those with a sign.
each_nan_keeps_its_bits() (
    is_written f64 '9221120237041090561 18446744073709551615 9218868437227405313 18444492273895866368' \
        'NaN:9221120237041090561 NaN:18446744073709551615 NaN:9218868437227405313 NaN:18444492273895866368'
    is_read f64 'NaN:9221120237041090561 NaN:18446744073709551615 NaN:9218868437227405313 NaN:18444492273895866368' \
        '9221120237041090561 18446744073709551615 9218868437227405313 18444492273895866368'
    is_written f32 '2143289345 4294967295 2139095041 4290772992' 'NaN:2143289345 NaN:4294967295 NaN:2139095041 NaN:4290772992'
    is_read f32 'NaN:2143289345 NaN:4294967295 NaN:2139095041 NaN:4290772992' '2143289345 4294967295 2139095041 4290772992'
    # The quiet one may be given so too.
    is_read f64 'NaN:9221120237041090560' 9221120237041090560
    is_read f32 'NaN:2143289344' 2143289344
)

# ---- what is no float

the_text_of_no_float_is_refused() (
    for type in f32 f64; do
        are_none $type x - + . .. -. +. e e5 .e5 1e 1e+ 1e- 1e5.5 1.5.5 1_0 1,5 0x1 0x1p3 1f 1d --1 ++1 +-1 1- 1/2 5:1 '0.5|1' '١' '½' ''
        are_none $type '1\f' '\v1' '\t1' '1\0000' '1\0001' '\0377' '1\0302\0240'
        # No exponent is cut to fewer bits.
        are_none $type 1e65537 1e2147483649 1e4294967297 1e9223372036854775809 1e18446744073709551617 -1e+18446744073709551617
        are_none $type in infin infinit infinityy infinity1 inf- na nan1 nann nan- nanx -in +na '∞'
        are_none $type NaN: NaN:x NaN:0 NaN:5 NaN:-1 NaN:1.5 NaN:NaN NaN::1 NaN:18446744073709551616
    done
    # No NaN has these bits: those of the infinities, of the greatest float, and with a zero in front, a sign or a blank.
    are_none f64 NaN:9218868437227405312 NaN:18442240474082181120 NaN:9218868437227405311 \
        NaN:09221120237041090561 NaN:+9221120237041090561 \
        NaN:9221120237041090561. 'NaN: 9221120237041090561'
    # Of f32 none has more than 32 bits.
    are_none f32 NaN:2139095040 NaN:4286578688 NaN:2139095039 NaN:02143289345 NaN:4294967296 NaN:6438256641 \
        NaN:9221120237041090561 NaN:18446744073709551615
)

# What is no record is shown as it was given, also beside records.
what_is_no_float_is_shown_as_it_was_given() (
    growth='a growth is records with one space between each two, each a decimal number up to'
    while IFS='=' read -r text line sentence; do
        given "$text"
        run load f64 "$work/none.cv"
        was_refused "line $line" "line $line of the input is no growth: $sentence; $growth 1.7976931348623157e308, inf or NaN; no file was opened"
    done <<'ROWS'
x\n=1="x" is no record
0.5 .5 0x1 1\n=1="0x1" is no record
0.5\n1.5\n2.5 1e400 1\n=3="1e400" is no record
NaN:5\n=1="NaN:5" is no record
1 2,5 3\n=1="2,5" is no record
1 | 2\n=1="|" is no record
0.25\r0.5\n=1="0.25\r0.5" is no record
1\t2\n=1="1\t2" has a tab, which --lenient takes
1\r\n=1="1\r" ends with a carriage return, as lines of Windows do, which --lenient takes
 1\n=1=it has a blank too many, which --lenient takes
1  2\n=1=it has a blank too many, which --lenient takes
1 2 \n=1=it ends with a blank too many, which --lenient takes
1\n\n=2=it is empty
ROWS
    given '1\n1e39\n'
    run load f32 "$work/none.cv"
    was_refused 'line 2' "line 2 of the input is no growth: \"1e39\" is no record; $growth 3.4028235e38, inf or NaN; no file was opened"
    # Forty bytes are shown at most.
    given "$(printf 'x%050d' 5) 0.5\n"
    run load f64 "$work/none.cv"
    was_refused 'line 1' '"x000000000000000000000000000000000000000".. is no record'
)

a_word_that_is_no_float_is_named() (
    a_float_file f64 '0.5 1.5'
    before=$(cksum <"$work/t.cv")
    form='it is to be a decimal number up to 1.7976931348623157e308, inf or NaN; nothing was read or written'
    for word in x 1e400 '' NaN:5 '1 2' 1,2; do
        for words in count find 'resize 5'; do
            set -- $words
            command=$1
            shift
            run "$command" f64 "$work/t.cv" "$@" "--record=$word"
            was_refused word "the value of --record is \"$word\"; $form"
        done
    done
    while IFS='=' read -r words shown; do
        run set f64 "$work/t.cv" 0 "--records=$words"
        was_refused word "a value of --records is \"$shown\"; $form"
    done <<'ROWS'
x=x
0.5,x=x
0.5,1e400,y=1e400
0.5,,1=
0.5,=
,0.5=
0.5,-=-
0.5 1.5=0.5 1.5
ROWS
    run count f32 "$work/t.cv" --record=1e39
    was_refused word 'the value of --record is "1e39"; it is to be a decimal number up to 3.4028235e38, inf or NaN'
    # A number of records or a position is none.
    run resize f64 "$work/t.cv" 5.0 --record=1
    was_refused word 'N is "5.0"'
    run set f64 "$work/t.cv" 1e0 --records=1
    was_refused word 'START is "1e0"'
    run list f64 "$work/t.cv" --from=1.0
    was_refused word 'the value of --from is "1.0"'
    [ "$before" = "$(cksum <"$work/t.cv")" ]
)

other_types_take_no_floats() (
    for type in u32 u64 i32 i64; do
        are_none $type 0.5 1.0 1e3 inf NaN NaN:9221120237041090561
    done
)

# ---- long words, and words in pieces

# A word of so many bytes, which is the float 0.5.
a_long_half() { printf '0.5%0*d' $(($1 - 3)) 0; }

words_of_many_bytes_are_floats() (
    for bytes in 400 1000 4000 4095 4096; do
        is_read f64 "$(a_long_half $bytes) 7" '4602678819172646912 4619567317775286272'
        is_read f32 "7 $(a_long_half $bytes)" '1088421888 1056964608'
    done
)

# Lines of about 2048 bytes, of so many in all: each is the float 0.5.
fills() {
    for _ in $(seq $(($1 / 2048 - 1))); do a_long_half 2047 && echo; done
    a_long_half $((2047 + $1 % 2048)) && echo
}

# Words of more bytes are none, wherever what is read at once ends: also where a part of one were a float.
words_of_too_many_bytes_are_none() (
    for bytes in 4097 5000 8192 8193 60000 65536 70000; do
        for behind in 0 1 5 4095 4096 4097 8192 30000; do
            echo "$bytes, of which $behind are read at first"
            { fills $((65536 - behind)) && a_long_half $bytes && printf ' 1\n'; } >"$in"
            run image f64
            answers_refusal "line $(((65536 - behind) / 2048 + 1))"
        done
    done
)

a_record_of_too_many_bytes_is_none() (
    a_float_file f64 0.5
    run count f64 "$work/t.cv" "--record=$(a_long_half 4096)"
    did '1\n'
    run set f64 "$work/t.cv" 0 "--records=$(a_long_half 4096)"
    did 'ok\n'
    run count f64 "$work/t.cv" "--record=$(a_long_half 4097)"
    was_refused word 'the value of --record is "0.5'
    run set f64 "$work/t.cv" 0 "--records=7,$(a_long_half 5000)"
    was_refused word 'a value of --records is "0.5'
)

# Shows the numbers of an image that was written.
is_shown_as_numbers() {
    [ "$status" -eq 0 ]
    cp "$out" "$in"
    run show u64
    [ "$status" -eq 0 ]
}

# What is read at once ends at each byte of these words.
words_may_stand_over_the_end_of_what_is_read() (
    for behind in $(seq 0 37); do
        { fills $((65536 - behind)) && echo '-1.25e-3 NaN:9221120237041090561 inf'; } >"$in"
        run image f64
        is_shown_as_numbers
        [ "$(tail -n 3 "$out" | paste -sd ' ')" = '13786779467276751995 9221120237041090561 9218868437227405312' ]
        [ "$(head -n -3 "$out" | sort -u)" = 4602678819172646912 ]
    done
)

a_long_word_may_stand_over_the_end_of_what_is_read() (
    for behind in 0 1 2 3 100 2048 4000 4094 4095 4096 4097; do
        echo "$behind bytes are read at first"
        { fills $((65536 - behind)) && a_long_half 4096 && printf '\n7\n'; } >"$in"
        run image f64
        is_shown_as_numbers
        [ "$(tail -n 1 "$out")" = 4619567317775286272 ]
        [ "$(head -n -1 "$out" | sort -u)" = 4602678819172646912 ]
    done
)

# Each read gives so many bytes at most.
words_may_come_in_pieces() (
    has_calls || exit $is_skipped
    build_calls
    for part in 1 2 3 4 5 7 11 16; do
        given '0.5 -1.25e-3 | NaN:9221120237041090561\n-inf 1e300 7\n5e-324'
        run_with CALLS_PART=$part image f64
        [ "$status" -eq 0 ]
        cp "$out" "$in"
        run show u64
        did "$(each_alone '4602678819172646912 13786779467276751995 9221120237041090561 18442240474082181120 9094988921128908188 4619567317775286272 1')\n"
        a_float_file f32 '0.5'
        given ' 0.1\t-1e-45 \r\n7'
        run_with CALLS_PART=$part append f32 "$work/t.cv" --lenient
        did 'appended 2 growths, size 4\n'
        run_with CALLS_PART=$part list f32 "$work/t.cv"
        did '0.5\n0.1\n-1e-45\n7.0\n'
        given 'create\nresize 1 -1.25e-3\nchanges 0 NaN:9221120237041090561\nlist\n'
        run_with CALLS_PART=$part play f64
        did 'ok\nok\nok\nNaN:9221120237041090561\n'
        given '0.5\n1e4x0 7\n'
        run_with CALLS_PART=$part load f64 "$work/none.cv"
        was_refused 'line 2' 'no growth: "1e4x0" is no record'
    done
)

# A word is cut at each byte, where the rest comes later.
words_may_come_slowly() (
    words='-1.25e-3 NaN:9221120237041090561'
    run create f64 "$work/t.cv"
    mkfifo "$work/pipe"
    "$program" append f64 "$work/t.cv" --every=1 <"$work/pipe" >"$work/first_out" 2>"$work/first_err" &
    exec 8>"$work/pipe"
    echo 0.5 >&8
    comes_to_have '0.5\n'
    rest=$words
    while [ -n "$rest" ]; do
        printf '%s' "${rest%"${rest#?}"}" >&8
        rest=${rest#?}
        sleep 0.03
    done
    sleep 0.5
    echo >&8
    comes_to_have '0.5\n-0.00125\nNaN:9221120237041090561\n'
    printf '7' >&8
    sleep 0.3
    exec 8>&-
    wait "$!"
    echo 'appended 3 growths, size 4' | cmp - "$work/first_out"
    [ ! -s "$work/first_err" ]
    run list f64 "$work/t.cv"
    did '0.5\n-0.00125\nNaN:9221120237041090561\n7.0\n'
)

an_input_may_have_no_end_of_its_last_line() (
    for text in .5 '1\n.5' '1 .5' '1\n7 .5'; do
        for command in load append 'append --block=2' 'append --lenient'; do
            set -- $command
            name=$1
            shift
            rm -f "$work/t.cv"
            run create f64 "$work/t.cv"
            given "$text"
            run "$name" f64 "$work/t.cv" "$@"
            [ "$status" -eq 0 ]
            run list f64 "$work/t.cv"
            [ "$(tail -n 1 "$out")" = 0.5 ]
        done
    done
    becomes 'image f32' .5 0 '014356454353454701040001010c00000001000000010000000000003f00\n'
    given '0.5\n1e'
    run load f64 "$work/none.cv"
    was_refused 'line 2' '"1e" is no record'
)

# ---- any bits

# Raw numbers of all classes of floats, made by Python: zeros, infinities, NaNs, powers of two and what is beside them, those that
# aren't normal, decimals of few digits, whole numbers, and random bits. CVEC_FLOATS gives another number of them.
floats_of_any_bits_are_read_as_they_were_written() (
    has python3 'random floats' || exit $is_skipped
    for type in f32 f64; do
        number=$(numbers_of "$type")
        python3 - "$type" "${CVEC_FLOATS:-6000}" >"$work/bits" <<'PYTHON'
import random, struct, sys

form, count = sys.argv[1], int(sys.argv[2])
width, digits = {"f32": (32, 23), "f64": (64, 52)}[form]
pick, top = random.Random(form), 1 << width - 1
power = {"f32": "<f", "f64": "<d"}[form], {"f32": "<I", "f64": "<Q"}[form]
infinity = (1 << width - 1 - digits) - 1 << digits


def bits(number):
    return struct.unpack(power[1], struct.pack(power[0], number))[0]


edges = [0, 1, 2, (1 << digits) - 1, 1 << digits, infinity - 1, infinity, infinity + 1, infinity + (1 << digits - 1),
         infinity + (1 << digits - 1) + 1, top - 1]
numbers = edges + [top + it for it in edges] + [exponent << digits for exponent in range(1, infinity >> digits)]
while len(numbers) < count:
    numbers.append(pick.choice([
        pick.randrange(2 * top), pick.randrange(1 << digits), infinity + pick.randrange(1 << digits), pick.randrange(infinity),
        (pick.randrange(infinity >> digits) << digits) + pick.randrange(-2, 3) & 2 * top - 1, bits(pick.randrange(10**6) / 1000),
        bits(float(pick.randrange(1 << 24))), bits(float(f"{pick.randrange(1, 100)}e{pick.randrange(-30, 30)}"))])
        ^ top * pick.randrange(2))
for it in numbers:
    print(it)
PYTHON
        size=$(wc -l <"$work/bits")
        rm -f "$work/t.cv" "$work/n.cv"
        run create "$number" "$work/t.cv"
        cp "$work/bits" "$in"
        run append "$number" "$work/t.cv" --block=1000
        [ "$status" -eq 0 ]
        run list "$type" "$work/t.cv"
        [ "$status" -eq 0 ]
        python3 - "$type" "$work/bits" "$out" <<'PYTHON'
import struct, sys
from decimal import Decimal

form, bits, texts = sys.argv[1:]
quiet, width = {"f32": (0x7fc00000, 4), "f64": (0x7ff8 << 48, 8)}[form]
float_form, number_form, most = {"f32": ("<f", "<I", 9), "f64": ("<d", "<Q", 17)}[form]


def packed(number):
    try:
        return struct.pack(float_form, number)
    except OverflowError:
        return b""


def fewest(number, raw):
    """With so many digits the nearest decimal is read as the float."""
    return next(k for k in range(1, most + 1) if packed(float(f"{number:.{k - 1}e}")) == raw)


rows = list(zip(open(bits), open(texts), strict=True))
for given, text in rows:
    given, text = int(given), text.rstrip("\n")
    raw = struct.pack(number_form, given)
    number = struct.unpack(float_form, raw)[0]
    if number != number:
        assert text == ("NaN" if given == quiet else f"NaN:{given}"), (given, text)
        continue
    assert packed(float(text)) == raw, (given, text)
    assert text == text.lower() and "+" not in text and text[0] != ".", (given, text)
    if number - number == 0:
        digits = len(str(int("".join(map(str, Decimal(text).as_tuple().digits)).rstrip("0") or 0)))
        assert number == 0 or digits <= fewest(number, raw), (given, text)
        assert form == "f32" or Decimal(text) == Decimal(repr(number)), (given, text)
PYTHON
        cp "$out" "$in"
        run create "$type" "$work/n.cv"
        run append "$type" "$work/n.cv" --block=1000
        did "appended $(((size + 999) / 1000)) growths, size $size\n"
        run list "$number" "$work/n.cv"
        cmp "$work/bits" "$out"
    done
)

# ---- commands

commands_over_a_file_of_floats_do_their_work() (
    t=$work/t.cv
    run create f64 "$t"
    did 'created\n'
    given '.5 -2\n1e300\n'
    run load f64 "$t"
    did 'loaded 2 growths, size 3\n'
    given '0.1\ninf\n'
    run append f64 "$t"
    did 'appended 2 growths, size 5\n'
    run append f64 "$t" --block=2
    did 'appended 1 growths, size 7\n'
    run list f64 "$t"
    did '0.5\n-2.0\n1e300\n0.1\ninf\n0.1\ninf\n'
    run list f64 "$t" --from=2 --count=2
    did '1e300\n0.1\n'
    run check f64 "$t"
    # How many commits there are is a matter of time.
    [ "$(cut -d ' ' -f 1-7,10- "$out")" = 'ok version 1 width 8 size 7 live 0' ]
    run count f64 "$t" --record=1e-1
    did '2\n'
    run count f64 "$t" --record 7
    did '0\n'
    run find f64 "$t" --record=+10e299
    did '2\n'
    run find f64 "$t" --record=NaN
    did 'none\n'
)

commands_that_change_a_file_of_floats_do_their_work() (
    t=$work/t.cv
    a_float_file f64 '0.5 -2 1e300 0.1 inf 0.1 inf'
    run set f64 "$t" 1 --records=-0,NaN:9221120237041090561
    did 'ok\n'
    run list f64 "$t"
    did '0.5\n-0.0\nNaN:9221120237041090561\n0.1\ninf\n0.1\ninf\n'
    run stat "$t"
    grep -qx 'live 1' "$out"
    run copy f64 "$t" "$work/n.cv" --format=2
    did 'copied size 7\n'
    run list f64 "$work/n.cv"
    did '0.5\n-0.0\nNaN:9221120237041090561\n0.1\ninf\n0.1\ninf\n'
    run upgrade f64 "$t" "$work/u.cv"
    did 'upgraded size 7\n'
    run list f64 "$work/u.cv" --from=2 --count=1
    did 'NaN:9221120237041090561\n'
    run fold f64 "$t"
    did 'folded 1\n'
    run resize f64 "$t" 2 --record=7
    did 'ok\n'
    run resize f64 "$t" 4 --record=.25
    did 'ok\n'
    run resize f64 "$t" 5 --record=-inf --parts
    did 'ok\n'
    run list f64 "$t"
    did '0.5\n-0.0\n0.25\n0.25\n-inf\n'
    run list u64 "$t"
    did '4602678819172646912\n9223372036854775808\n4598175219545276416\n4598175219545276416\n18442240474082181120\n'
    run clear f64 "$t"
    did 'ok\n'
    run list f64 "$t"
    did ''
)

# Whether floats are to be turned doesn't hang on where TYPE stands.
options_may_stand_before_the_type_of_floats() (
    cd "$work"
    a_float_file f64 '0.5 2 1e-9'
    run list --from=1 f64 t.cv --count=1
    did '2.0\n'
    run find --record 2 f64 t.cv
    did '1\n'
    given '7\n'
    run append --lenient f64 t.cv
    did 'appended 1 growths, size 4\n'
    run list --from 3 f64 t.cv
    did '7.0\n'
    # A file may have a type's name.
    mv t.cv f64
    run list u64 f64 --from=3
    did '4619567317775286272\n'
)

# Those of f32 have four bytes, as u32 has, and those of f64 eight: a file has the width of its records.
a_file_of_floats_is_one_of_numbers() (
    a_float_file f64 '0.5 -2'
    run list u64 "$work/t.cv"
    did '4602678819172646912\n13835058055282163712\n'
    run list i64 "$work/t.cv"
    did '4602678819172646912\n-4611686018427387904\n'
    run set u64 "$work/t.cv" 0 --records=1
    run list f64 "$work/t.cv"
    did '5e-324\n-2.0\n'
    run create u64 "$work/n.cv"
    given '4602678819172646912\n'
    run append u64 "$work/n.cv"
    given '0.25\n'
    run append f64 "$work/n.cv"
    run list f64 "$work/n.cv"
    did '0.5\n0.25\n'
    run find u64 "$work/n.cv" --record=4598175219545276416
    did '1\n'
    for command in check list fold clear; do
        run $command f32 "$work/t.cv"
        was_refused 'width 8' 'its records have 8 bytes, and those of f32 have 4; give the type that it was made with'
    done
    a_float_file f32 '0.5 -2'
    run list u32 "$work/t.cv"
    did '1056964608\n3221225472\n'
    run list f64 "$work/t.cv"
    was_refused 'width 4' 'its records have 4 bytes, and those of f64 have 8; give the type that it was made with'
    run copy f64 "$work/t.cv" "$work/m.cv"
    was_refused 'old width 4' 'those of f64 have 8'
)

# By the bits: -0 is not 0, and a NaN equals those of its bits, and no other.
equal_floats_have_the_same_bits() (
    a_float_file f64 '0 -0 NaN NaN:9221120237041090561 -nan 0.0 NaN:18444492273895866368 inf -inf'
    while IFS='=' read -r record count found; do
        run count f64 "$work/t.cv" "--record=$record"
        did "$count\n"
        run find f64 "$work/t.cv" "--record=$record"
        did "$found\n"
    done <<'ROWS'
0=2=0
-0=1=1
-0.0e5=1=1
NaN=2=2
-nan=2=2
NaN:9221120237041090560=2=2
NaN:9221120237041090561=1=3
NaN:18444492273895866368=1=6
NaN:9221120237041090562=0=none
inf=1=7
-Infinity=1=8
1e-324=2=0
5e-324=0=none
ROWS
    # As 0.1 of f32 is another number than 0.1 of f64, it is found by either text that is nearest to it.
    a_float_file f32 '0.1 0.2'
    run find f32 "$work/t.cv" --record=0.10000000149011612
    did '0\n'
    run count f32 "$work/t.cv" --record=0.1000000015
    did '1\n'
)

a_record_may_be_a_word_of_its_own() (
    a_float_file f64 '-0.5 -inf 3'
    run count f64 "$work/t.cv" --record -0.5
    did '1\n'
    run find f64 "$work/t.cv" --record inf
    did 'none\n'
    run find f64 "$work/t.cv" --record 3e0 --quiet
    did '2\n'
    run set f64 "$work/t.cv" 0 --records -8,-inf
    did 'ok\n'
    run resize f64 "$work/t.cv" 4 --record -7
    did 'ok\n'
    run list f64 "$work/t.cv"
    did '-8.0\n-inf\n3.0\n-7.0\n'
)

records_of_floats_are_set_by_words_and_by_an_input() (
    a_float_file f32 '1 2 3 4 5 6'
    cp "$work/t.cv" "$work/n.cv"
    given '.5 -0\nnan\n'
    run set f32 "$work/t.cv" 1 --input
    did 'ok\n'
    run set f32 "$work/n.cv" 1 --records=0.5,-0.0,NaN
    did 'ok\n'
    cmp "$work/n.cv" "$work/t.cv"
    given '\t7e0  NaN:4294967295 \r\n 8\r\n'
    run set f32 "$work/t.cv" 3 --input --lenient
    did 'ok\n'
    run list f32 "$work/t.cv"
    did '1.0\n0.5\n-0.0\n7.0\nNaN:4294967295\n8.0\n'
    before=$(cksum <"$work/t.cv")
    given '7\n1e39 5\n'
    run set f32 "$work/t.cv" 0 --input
    was_refused 'line 2' '"1e39" is no record; a growth is records with one space between each two, each a decimal number'
    tells 'up to 3.4028235e38, inf or NaN; no file was opened, and nothing was changed'
    given '1 2\n'
    run set f32 "$work/t.cv" 5 --input
    was_refused 'out of range' "$work/t.cv"
    [ "$before" = "$(cksum <"$work/t.cv")" ]
)

lenient_lines_of_floats_are_taken() (
    for words in load append 'append --block=2'; do
        rm -f "$work/t.cv"
        run create f64 "$work/t.cv"
        given '.5 6\r\n7\t-8e-1\n  9   1 \t\n2\r\n\tNaN\n4 \r\n  10'
        set -- $words
        run "$1" f64 "$work/t.cv" --lenient ${2-}
        [ "$status" -eq 0 ]
        [ ! -s "$err" ]
        run list f64 "$work/t.cv"
        did '0.5\n6.0\n7.0\n-0.8\n9.0\n1.0\n2.0\nNaN\n4.0\n10.0\n'
    done
    given '.5\n7 6\r7\n'
    run load f64 "$work/none.cv" --lenient
    was_refused 'line 2' '"6\r7" is no record'
    for text in '5\n\n6\n' '5\n \t \n' '5\n1.5 x\r\n'; do
        given "$text"
        run load f64 "$work/none.cv" --lenient
        answers_refusal 'line 2'
    done
)

# What commands write that is no record stays: counts, positions, lengths and sizes, also where a float has the same digits.
numbers_that_are_no_records_stay() (
    a_float_file f64 '1 1 2'
    run count f64 "$work/t.cv" --record=1
    did '2\n'
    run find f64 "$work/t.cv" --record=2
    did '2\n'
    run check f64 "$work/t.cv"
    did 'ok version 1 width 8 size 3 frames 1 live 0\n'
    run stat "$work/t.cv" --json
    did '{"version":1,"width":8,"bytes":50,"groups":1,"changes":0,"shrinks":0,"folds":0,"growths":1,"records":3,"size":3,"live":0,"gate":49,"behind":0}\n'
    given '5\n6\n'
    run append f64 "$work/t.cv"
    did 'appended 2 growths, size 5\n'
    run load f64 "$work/t.cv"
    did 'loaded 2 growths, size 7\n'
    run create f64 "$work/t.cv"
    was_refused exists "$work/t.cv"
    printf '\011' | dd of="$work/t.cv" bs=1 seek=12 conv=notrunc 2>/dev/null
    for command in list check follow\ --once; do
        set -- $command
        name=$1
        shift
        run "$name" f64 "$work/t.cv" "$@"
        was_refused 'damaged at 12: kind 9' "$work/t.cv: it is damaged at byte 12 (kind 9)"
    done
)

# A growth of the record 0.5, by a client in bytes.
a_server_has_files_of_floats() (
    a_float_file f64 7
    mkfifo "$work/answers"
    {
        printf '\1\0\0\0\1\0\0\0\0\0\0\0\0\0\0\0\0\0\0\0\0\0\340\77'
        printf '\0\0\0\0\0\0\0\0\0\0\0\0\0\0\0\0'
    } >"$work/requests"
    cat "$work/answers" >"$work/answered" &
    reader=$!
    status=0
    "$top/cvec" serve f64 "$work/t.cv" --seats=1 3<"$work/requests" 4>"$work/answers" >"$out" 2>"$err" || status=$?
    wait $reader
    did 'served 1 growths\n'
    run list f64 "$work/t.cv"
    did '7.0\n0.5\n'
)

# ---- files and scripts

# A line is a group of growths: the bytes of each record, the lowest first.
floats_are_written_to_images_and_shown() (
    head=0143564543534547
    doubles=${head}010800010124000000020000000200000001000000000000000000e03f0000000000000080000000000000104000
    becomes 'image f64' '.5 -0 | 4\n' 0 "$doubles\n"
    becomes 'show f64' "$doubles\n" 0 '0.5\n-0.0\n4.0\n'
    singles=${head}01040001011000000001000000020000000000003f0000008001010c00000001000000010000000000807f00
    becomes 'image f32' '.5 -0\ninf' 0 "$singles\n"
    becomes 'show f32' "$singles\n" 0 '0.5\n-0.0\ninf\n'
    becomes 'show f64' "$singles\n" 1 'refused: width 4\n'
    becomes 'show f64' "$(edited $doubles 12 09)\n" 1 'refused: damaged at 12: kind 9\n'
    becomes 'image f64' '.5 | x\n' 1 'refused: line 1\n'
    becomes 'image f64' '.5 | 1\n.5 |1\n' 1 'refused: line 2\n'
)

# A script whose lines are asked for and answered so: rows of 'LINE = ANSWER'.
is_played_of() {
    cat >"$work/rows"
    sed 's/ = .*//' "$work/rows" >"$in"
    run play "$1"
    [ "$status" -eq 0 ]
    sed 's/.* = //' "$work/rows" | cmp - "$out"
}

# Rooms, seats, positions, lengths and what a crash keeps are no records, and neither is what steps answer.
records_of_floats_are_played() (
    is_played_of f64 <<'ROWS'
create 2 = ok
resize 4 1e3 = ok
changes 0 -0 | 2 inf 5 = ok
change 1 NaN:9221120237041090561 = ok
list = -0.0 NaN:9221120237041090561 inf 5.0
share 3 2 = ok
put 0 .5 1 = growth 0 start 4 len 2
put 1 -inf = growth 1 start 6 len 1
view 1 = -0.0 NaN:9221120237041090561 inf 5.0 0.5 1.0 -inf
look 0 = size 7
look f = size 7
take = took 2
log = step
log = step
log = step
log = done
settled 0 = settled 0 running
close = ok
gather = size 7
list = -0.0 NaN:9221120237041090561 inf 5.0 0.5 1.0 -inf
fold = begun
home = step
ROWS
    is_played_of f32 <<'ROWS'
list = refused wrong phase
create = ok
list = empty
resize 1 .1 = ok
crash 07 = crashed 30
open = size 1
list = 0.1
change 5 1 = refused out of range
fold = nothing
clear = ok
list = empty
ROWS
)

a_line_of_a_script_of_floats_is_refused() (
    while IFS= read -r row; do
        { echo create && printf '%s\n' "$row" && echo list; } >"$in"
        run play f64
        answers_refusal 'line 2'
    done <<'ROWS'
resize 2 x
resize 2 1e400
resize 2.0 1
resize 1e0 1
resize 2
create 2.0
share 1e0 1
share 20 2.0
put 1.0 .5
put 0 NaN:5
put 0 .5 | 1
look 0.0
change .5 1
change 0 .5,1
changes 0 .5 | 1.0 2
changes 0 .5 | 1 x
changes 0 .5|1 2
crash 0.5
NaN
0.5
ROWS
    # Other types have no floats in theirs.
    becomes 'play u64' 'create\nresize 2 0.5\n' 1 'refused: line 2\n'
)

# ---- beside a writer

# What an `append` has committed is listed beside it.
comes_to_have() {
    for _ in $(seq 100); do
        run list f64 "$work/t.cv"
        printf '%b' "$1" >"$work/wanted"
        if cmp -s "$work/wanted" "$out"; then return 0; fi
        sleep 0.1
    done
    cat "$out"
    return 1
}

lines_of_floats_are_committed_while_more_are_waited_for() (
    run create f64 "$work/t.cv"
    mkfifo "$work/pipe"
    "$program" append f64 "$work/t.cv" --progress <"$work/pipe" >"$work/first_out" 2>"$work/first_err" &
    exec 8>"$work/pipe"
    printf '.5\n1 NaN\n7' >&8
    comes_to_have '0.5\n1.0\nNaN\n'
    [ "$(head -n 1 "$work/first_err")" = 'cvec: 2 growths of the first 2 lines are durable, size 3' ]
    printf '1\n' >&8
    comes_to_have '0.5\n1.0\nNaN\n71.0\n'
    kill -0 "$!"
    exec 8>&-
    wait "$!"
    echo 'appended 3 growths, size 4' | cmp - "$work/first_out"
)

# Their numbers have more bytes than a read asks for.
lines_of_floats_that_fill_a_read_are_committed_too() (
    run create f64 "$work/t.cv"
    mkfifo "$work/pipe"
    "$program" append f64 "$work/t.cv" --block=16384 <"$work/pipe" >"$work/first_out" 2>"$work/first_err" &
    exec 8>"$work/pipe"
    yes 2.5 | head -n 16384 >"$work/lines"
    [ "$(wc -c <"$work/lines")" -eq 65536 ]
    cat "$work/lines" >&8
    comes_to_have "$(cat "$work/lines")\n"
    exec 8>&-
    wait "$!"
    echo 'appended 1 growths, size 16384' | cmp - "$work/first_out"
)

# The end doesn't wait for an input that stays open.
a_refused_line_of_floats_ends_an_append_at_once() (
    run create f64 "$work/t.cv"
    mkfifo "$work/pipe"
    timeout 20 "$program" append f64 "$work/t.cv" <"$work/pipe" >"$out" 2>"$err" &
    exec 8>"$work/pipe"
    printf '.5\n1e400\n' >&8
    status=0
    wait "$!" || status=$?
    exec 8>&-
    [ "$status" -eq 1 ]
    [ "$(cat "$out")" = 'refused: line 2' ]
    tells 'line 2 of the input is no growth: "1e400" is no record'
    tells 'the growths of the first 1 lines stand'
    run list f64 "$work/t.cv"
    did '0.5\n'
)

# Starts `follow` with these words on the file t.cv, which writes to a file of its own.
follows() {
    : >"$work/followed"
    "$program" follow f64 "$work/t.cv" --poll=5 "$@" >"$work/followed" 2>"$work/follow_err" &
    follower=$!
}

# It comes to have written just this. Then it is ended.
has_followed() {
    printf '%b' "$1" >"$work/wanted"
    await cmp -s "$work/wanted" "$work/followed" || { cat "$work/followed" && exit 1; }
    kill "$follower"
    wait "$follower" || :
    cmp "$work/wanted" "$work/followed"
    [ ! -s "$work/follow_err" ]
}

floats_that_come_are_followed() (
    a_float_file f64 '0.5 -2'
    follows
    given 'NaN:9221120237041090561\n1e300\n'
    run append f64 "$work/t.cv"
    has_followed '0.5\n-2.0\nNaN:9221120237041090561\n1e300\n'
    follows --from=3
    run resize f64 "$work/t.cv" 5 --record=inf
    has_followed '1e300\ninf\n'
    run follow f64 "$work/t.cv" --once --from=1
    did '-2.0\nNaN:9221120237041090561\n1e300\ninf\n'
    # Lengths and positions in what ends it are no records.
    follows
    run set f64 "$work/t.cv" 1 --records=7
    wait "$follower" || :
    [ "$(tail -n 1 "$work/followed")" = 'refused: changed 1' ]
)

# A PLACE, a position and a length stay.
events_have_floats() (
    a_float_file f64 '0.5 1 2'
    run follow f64 "$work/t.cv" --once --events
    did '+ 0.5\n+ 1.0\n+ 2.0\n. 49:3:0:0\n'
    run set f64 "$work/t.cv" 1 --records=-0,NaN:9221120237041090561
    run follow f64 "$work/t.cv" --once --events --after=49:3:0:0
    did '= 1 -0.0\n= 2 NaN:9221120237041090561\n. 79:3:1:0\n'
    run fold f64 "$work/t.cv"
    run resize f64 "$work/t.cv" 1 --record=0
    run follow f64 "$work/t.cv" --once --events --after=79:3:1:0
    did '< 1\n. 107:1:1:1\n'
    run resize f64 "$work/t.cv" 2 --record=-inf
    run follow f64 "$work/t.cv" --once --events --after=107:1:1:1
    did '+ -inf\n. 129:2:1:1\n'
    run follow f64 "$work/t.cv" --once --events --after=129:2:1:1
    did ''
    run follow f64 "$work/t.cv" --once --events
    did '+ 0.5\n+ -inf\n. 129:2:1:1\n'
    follows --events --after=129:2:1:1
    given '7\nNaN\n'
    run append f64 "$work/t.cv" --block=2
    has_followed '+ 7.0\n+ NaN\n. 159:4:1:1\n'
)

# ---- output that fails

output_of_floats_that_fails_is_told() (
    a_float_file f64 '0.5 1'
    cp "$work/t.cv" "$work/n.cv"
    hex_of "$work/t.cv" >"$work/hex"
    out=/dev/full
    for words in "list f64 $work/t.cv" "follow f64 $work/t.cv --once" "follow f64 $work/t.cv --once --events" 'show f64'; do
        cp "$work/hex" "$in"
        # shellcheck disable=SC2086 # each word is one
        run $words
        ends_with_a_failed_write 'No space left on device'
    done
    given 'create\nresize 1 .5\nlist\n'
    run play f64
    ends_with_a_failed_write 'No space left on device'
    given '.5\n'
    run image f64
    ends_with_a_failed_write 'No space left on device'
    cmp "$work/n.cv" "$work/t.cv"
)

# It ends as that of other types does.
a_closed_output_ends_a_list_of_floats() (
    a_float_file f64 '0.5'
    run resize f64 "$work/t.cv" 20000 --record=-1.7976931348623157e308
    did 'ok\n'
    for words in list 'follow --once'; do
        set -- $words
        command=$1
        shift
        { timeout 20 "$program" "$command" f64 "$work/t.cv" "$@" 2>"$err" || echo $? >"$work/status"; } | head -n 2 >"$out"
        printf '0.5\n-1.7976931348623157e308\n' | cmp - "$out"
        [ "$(cat "$work/status")" = 1 ]
        [ ! -s "$err" ]
    done
)

a_folder_is_no_input_of_floats() (
    in=$work
    run load f64 "$work/none.cv"
    was_refused input 'standard input'
)
