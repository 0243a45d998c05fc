# `cvec image`, `cvec show` and `cvec play` with each type of record.

# ---- the texts and files of each type of record

numbers_of_1_byte=014356454353454701010001010a000000010000000200000000ff00
numbers_of_2_bytes=01435645435345470102000101120000000200000002000000010000000000ffff000100
signed_of_4_bytes=014356454353454701040001011c00000002000000020000000200000000000080ffffff7fffffffff0000000000
numbers_of_4_bytes=0143564543534547010400010110000000010000000200000000000000ffffffff00
greatest_u64=01435645435345470108000101100000000100000001000000ffffffffffffffff00
signed_numbers=014356454353454701080001012c0000000200000002000000020000000000000000000080ffffffffffffff7fffffffffffffffff000000000000000000
floats_of_4_bytes=01435645435345470104000101180000000200000002000000010000000000003f000000800000c07f00
floats_of_8_bytes=014356454353454701080001011800000001000000020000000100000000000000000000000000f0ff00

two_pairs=01435645435345470110000101280000000100000002000000ffffffffffffffff00000000000000800000000000000000000000000000000000
flagged_keys=014356454353454701090001011a000000010000000200000005000000000000000105000000000000000000

# Bytes in the order of the file, and their hex.
sixteen=00112233445566778899aabbccddeeff
eight=0102030405060708
ones=ffffffffffffffff
bytes_16=0143564543534547011000010118000000010000000100000000112233445566778899aabbccddeeff00
bytes_24=01435645435345470118000101380000000100000002000000$sixteen$eight$ones$ones${ones}00
bytes_32=01435645435345470120000101280000000100000001000000$sixteen$eight${ones}00
bytes_64=01435645435345470140000101480000000100000001000000$sixteen$sixteen$sixteen$eight${ones}00

# A type's word, a line of its records, the line's file, and its records one a line.
is_written_and_shown() {
    becomes "image $1" "$2" 0 "$3\n"
    becomes "show $1" "$3\n" 0 "$4"
}

records_of_each_type_are_written_and_shown() (
    is_written_and_shown u8 '0 255\n' $numbers_of_1_byte '0\n255\n'
    is_written_and_shown u16 '0 65535 | 256\n' $numbers_of_2_bytes '0\n65535\n256\n'
    is_written_and_shown i32 '-2147483648 2147483647 | -1 0\n' $signed_of_4_bytes '-2147483648\n2147483647\n-1\n0\n'
    is_written_and_shown u32 '0 4294967295\n' $numbers_of_4_bytes '0\n4294967295\n'
    is_written_and_shown u64 '18446744073709551615\n' $greatest_u64 '18446744073709551615\n'
    is_written_and_shown i64 '-9223372036854775808 9223372036854775807 | -1 0\n' $signed_numbers '-9223372036854775808\n9223372036854775807\n-1\n0\n'
    is_written_and_shown f32 '0.5 -0 | NaN\n' $floats_of_4_bytes '0.5\n-0.0\nNaN\n'
    is_written_and_shown f64 '5e-324 -inf\n' $floats_of_8_bytes '5e-324\n-inf\n'
    is_written_and_shown pair '7:-3\n' $small_pair '7:-3\n'
    is_written_and_shown pair '18446744073709551615:-9223372036854775808 0:0' $two_pairs '18446744073709551615:-9223372036854775808\n0:0\n'
    is_written_and_shown flagged '5:1 5:0\n' $flagged_keys '5:1\n5:0\n'
    is_written_and_shown bytes16 "$sixteen\n" $bytes_16 "$sixteen\n"
    is_written_and_shown bytes24 "$sixteen$eight $ones$ones$ones\n" $bytes_24 "$sixteen$eight\n$ones$ones$ones\n"
    is_written_and_shown bytes32 "$sixteen$eight$ones\n" $bytes_32 "$sixteen$eight$ones\n"
    is_written_and_shown bytes64 "$sixteen$sixteen$sixteen$eight$ones\n" $bytes_64 "$sixteen$sixteen$sixteen$eight$ones\n"
)

# All numbers of one byte, or of two, are a growth of this many bytes: each number is its bytes, the lowest first.
all_numbers_of_a_type_are_written_and_shown() (
    while read -r type last width payload count; do
        seq 0 "$last" >"$work/numbers"
        paste -sd ' ' "$work/numbers" >"$in"
        run image "$type"
        [ "$status" -eq 0 ]
        {
            printf '014356454353454701%s0101%s01000000%s' "$width" "$payload" "$count"
            awk -v width="$width" '{ printf "%02x", $1 % 256; if (width == "0200") printf "%02x", int($1 / 256) }' "$work/numbers"
            echo 00
        } >"$work/file"
        cmp "$work/file" "$out"
        in=$work/file
        run show "$type"
        [ "$status" -eq 0 ]
        cmp "$work/numbers" "$out"
        in=$work/in
    done <<'ROWS'
u8 255 0100 08010000 00010000
u16 65535 0200 08000200 00000100
ROWS
)

# Each of these texts, alone on a line, is refused as no record of the type.
are_no_records() {
    of_type=$1
    shift
    for text in "$@"; do
        becomes "image $of_type" "$text\n" 1 'refused: line 1\n'
    done
}

the_text_of_no_record_is_refused() (
    are_no_records u8 256 257 511 999 1000 65536 2147483648 4294967296 18446744073709551616 -1 -255 -0 +1 +0 01 00 007 1:1 1.0 f ff ''
    are_no_records u16 65536 65537 70000 99999 131071 2147483648 4294967296 18446744073709551616 -1 -0 +1 01 00 1:1 ffff ''
    are_no_records i32 2147483648 -2147483649 4294967295 -4294967295 4294967296 9223372036854775807 -9223372036854775808 \
        18446744073709551616 -0 +0 +1 05 -05 00 - --1 -+1 1- 1:1 ''
    are_no_records u32 4294967296 18446744073709551616 -1 01 +1 1:1 ''
    are_no_records u64 18446744073709551616 -1 00 +0 1:1 ''
    are_no_records i64 -9223372036854775809 9223372036854775808 -18446744073709551616 -0 +1 05 -05 - --1 -+1 1- ''
    are_no_records f32 x 1e39 1_0 0x1 1,5 . e5 1e 1:1 NaN: NaN:5 ''
    are_no_records f64 x 1e309 1_0 0x1 1,5 . e5 1e 1:1 NaN: NaN:5 ''
    are_no_records pair 7 7: :3 : 7:3:1 7::3 7:+3 07:3 7:-0 -7:3 18446744073709551616:0 0:9223372036854775808 ''
    are_no_records flagged 5:2 5 5: :1 5:01 5:true 5:-1 5:1:1 05:1 18446744073709551616:0 ''
    # Upper case, a digit too few or too many, a byte too few or too many, a sign and a letter that are no digits.
    are_no_records bytes16 0011223344556677889900000000000F "${sixteen%f}" "${sixteen}0" "${sixteen%ff}" "${sixteen}00" "+${sixteen%f}" "${sixteen%f}g" 5 0x ''
    are_no_records bytes24 "$sixteen" "$sixteen$sixteen" "$sixteen${eight%8}A"
    are_no_records bytes32 "$sixteen$eight" "$sixteen$sixteen$eight" "$sixteen${sixteen%f}F"
    are_no_records bytes64 "$sixteen$sixteen$sixteen$eight" "$sixteen$sixteen$sixteen$sixteen$eight" "$sixteen$sixteen$sixteen${sixteen%f}F"
)

a_line_of_another_type_is_named() (
    becomes 'image u8' '0 255 | 7\n255 256\n0\n' 1 'refused: line 2\n'
    becomes 'image u16' '255\n65535\n65536\n' 1 'refused: line 3\n'
    becomes 'image i32' '-2147483648 2147483647\n-2147483649\n' 1 'refused: line 2\n'
    becomes 'image u32' '0\n4294967296\n' 1 'refused: line 2\n'
    becomes 'image u64' '4294967296\n-1\n' 1 'refused: line 2\n'
    becomes 'image i64' '-1\n1:1\n' 1 'refused: line 2\n'
    becomes 'image f32' '0.5 1e38 | -inf\n1e39\n' 1 'refused: line 2\n'
    becomes 'image f64' '0.5 1e39\n1:1\n' 1 'refused: line 2\n'
    becomes 'image pair' '1:2 3:4 | 5:-6\n1\n' 1 'refused: line 2\n'
    becomes 'image flagged' '1:1 | 1:0\n1:-1\n' 1 'refused: line 2\n'
    becomes 'image bytes16' "$sixteen\n1:1\n" 1 'refused: line 2\n'
)

a_file_is_read_as_the_type_that_the_words_name() (
    becomes 'show i64' $greatest_u64 0 '-1\n'
    becomes 'show u64' $signed_numbers 0 '9223372036854775808\n9223372036854775807\n18446744073709551615\n0\n'
    becomes 'show u16' $numbers_of_1_byte 1 'refused: width 1\n'
    becomes 'show u64' $numbers_of_1_byte 1 'refused: width 1\n'
    becomes 'show u8' $numbers_of_2_bytes 1 'refused: width 2\n'
    becomes 'show u8' $signed_of_4_bytes 1 'refused: width 4\n'
    becomes 'show i64' $signed_of_4_bytes 1 'refused: width 4\n'
    becomes 'show i32' $greatest_u64 1 'refused: width 8\n'
    becomes 'show i32' $numbers_of_4_bytes 0 '0\n-1\n'
    becomes 'show u32' $signed_of_4_bytes 0 '2147483648\n2147483647\n4294967295\n0\n'
    becomes 'show u32' $greatest_u64 1 'refused: width 8\n'
    becomes 'show i64' $numbers_of_4_bytes 1 'refused: width 4\n'
    becomes 'show f64' $greatest_u64 0 'NaN:18446744073709551615\n'
    becomes 'show u64' $floats_of_8_bytes 0 '1\n18442240474082181120\n'
    becomes 'show f32' $numbers_of_4_bytes 0 '0.0\nNaN:4294967295\n'
    becomes 'show i32' $floats_of_4_bytes 0 '1056964608\n-2147483648\n2143289344\n'
    becomes 'show f64' $floats_of_4_bytes 1 'refused: width 4\n'
    becomes 'show f32' $floats_of_8_bytes 1 'refused: width 8\n'
    becomes 'show flagged' $small_pair 1 'refused: width 16\n'
    becomes 'show pair' $flagged_keys 1 'refused: width 9\n'
    becomes 'show bytes16' $small_pair 0 '0700000000000000fdffffffffffffff\n'
    becomes 'show pair' $bytes_16 0 '8603657889541918976:-4822678189205112\n'
    becomes 'show bytes24' $small_pair 1 'refused: width 16\n'
    becomes 'show bytes64' $bytes_32 1 'refused: width 32\n'
)

# Where a record has one byte, any payload has whole records. So their number must be that of its head.
records_of_one_byte_are_as_many_as_the_head_has() (
    # A growth of 2 with 3 bytes, and with 1; changes from position 1 on, of none, one and two.
    becomes 'show u8' 014356454353454701010001010b000000010000000200000000ff0700 1 'refused: damaged at 17: layout\n'
    becomes 'show u8' 01435645435345470101000101090000000100000002000000ff00 1 'refused: damaged at 17: layout\n'
    before=${numbers_of_1_byte%00}
    becomes 'show u8' "${before}010208000000010000000000000000" 1 'refused: damaged at 33: layout\n'
    becomes 'show u8' "${before}01020900000001000000000000008000" 0 '0\n128\n'
    becomes 'show u8' "${before}01020a0000000100000000000000800900" 1 'refused: damaged at 33: range\n'
)

# Steps of `play` take and write them as lines do.
records_of_numbers_are_played() (
    becomes 'play u8' 'create\nresize 2 255\nchange 0 0\nlist\n' 0 'ok\nok\nok\n0 255\n'
    becomes 'play u16' 'create 2\nresize 2 65535\nchanges 0 256\nlist\n' 0 'ok\nok\nok\n256 65535\n'
    becomes 'play i32' 'create\nshare 1 1\nput 0 -2147483648 2147483647\nview 0\n' 0 \
        'ok\nok\ngrowth 0 start 0 len 2\n-2147483648 2147483647\n'
    becomes 'play f32' 'create\nresize 2 .1\nchange 1 -1e-45\nlist\n' 0 'ok\nok\nok\n0.1 -1e-45\n'
    becomes 'play u8' 'create\nresize 2 256\n' 1 'refused: line 2\n'
    becomes 'play u16' 'create\nresize 2 65536\n' 1 'refused: line 2\n'
    becomes 'play i32' 'create\nresize 2 -2147483649\n' 1 'refused: line 2\n'
    becomes 'play f32' 'create\nresize 2 1e39\n' 1 'refused: line 2\n'
)
