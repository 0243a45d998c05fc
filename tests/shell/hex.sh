# `cvec_hex`, which `./cvec` runs for `image` and `show` until the whole program is built.

# ---- the small program of two commands

# Records of 0 and 255 in a byte each, and of -1 and -2147483648 in four.
of_bytes=014356454353454701010001010a000000010000000200000000ff00
of_signed=01435645435345470104000101100000000100000002000000ffffffff0000008000

the_small_program_answers_as_the_whole_one() (
    hex=$top/crates/cvec_hex/out/cvec_hex
    build_older cvec_hex
    while IFS='=' read -r words input; do
        given "$input"
        status=0
        "$top/crates/cvec/out/cvec" $words <"$in" >"$out" 2>"$err" || status=$?
        answered=0
        "$hex" $words <"$in" >"$work/answer" 2>"$err" || answered=$?
        [ "$answered" -eq "$status" ]
        cmp "$out" "$work/answer"
    done <<ROWS
=5\n
image u64=1 2 | 3\n
image u8=0 255 | 7\n
image u8=255\n256\n
image u16=65535\n65536\n
image u16=256\n
image u32=0\n4294967296\n
image i32=-2147483648 2147483647\n
image i32=-1\n-2147483649\n
image pair=7:-3\n
image flagged=5:1 5:2\n
image bytes16=00112233445566778899aabbccddeeff\n
image bytes24=000102030405060708090a0b0c0d0e0f1011121314151617 5\n
image bytes32=$(printf '%064d' 5)\n
image bytes64=$(printf '%0128d' 5)\n
show bytes16=$small_pair
show bytes24=$small_pair
image i64=
image u24=5\n
image=5\n
list u64=5\n
show u64=$three
show u64=014
show u64=$(edited $five 12 05)
show pair=$small_pair
show u64=$small_pair
show u8=$of_bytes
show u16=$of_bytes
show i32=$of_signed
show u8=$of_signed
show u64 u64=$three
ROWS
    "$hex" image u24 <"$in" >"$out" 2>"$err" || :
    for type in u8 u16 u32 u64 i32 i64 pair flagged bytes16 bytes24 bytes32 bytes64; do grep -qw "$type" "$err"; done
    given '5\n'
    status=0
    "$hex" image u64 <"$in" >/dev/full 2>"$err" || status=$?
    [ "$status" -eq 1 ]
    tells 'cvec: standard output: '
)
