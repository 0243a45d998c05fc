# `cvec stat`: what a file of any records holds.

# ---- commands over files

a_file_of_any_records_is_told_of() (
    run create pair "$work/t.cv" --format=2
    run stat "$work/t.cv"
    did 'version 2\nwidth 16\nbytes 12\ngroups 0\nchanges 0\nshrinks 0\nfolds 0\ngrowths 0\nrecords 0\nsize 0\nlive 0\ngate 11\nbehind 0\n'
    run create u64 "$work/u.cv"
    given '5 6 7\n'
    run load u64 "$work/u.cv"
    run stat "$work/u.cv"
    did 'version 1\nwidth 8\nbytes 50\ngroups 1\nchanges 0\nshrinks 0\nfolds 0\ngrowths 1\nrecords 3\nsize 3\nlive 0\ngate 49\nbehind 0\n'
    run set u64 "$work/u.cv" 1 --records=8,9
    run stat "$work/u.cv" --json
    [ "$status" -eq 0 ]
    grep -q '"groups":1,"changes":1,"shrinks":0,"folds":0,"growths":1,"records":3,"size":3,"live":1,' "$out"
    python3 -c 'import json, os, sys; assert json.load(open(sys.argv[1]))["bytes"] == os.path.getsize(sys.argv[2])' "$out" "$work/u.cv"
    run fold u64 "$work/u.cv"
    run clear u64 "$work/u.cv"
    run stat "$work/u.cv"
    grep -qx 'shrinks 1' "$out"
    grep -qx 'folds 1' "$out"
    grep -qx 'size 0' "$out"
    grep -qx 'live 0' "$out"
)

a_file_that_cannot_be_told_of_is_refused() (
    run stat "$work/none.cv"
    was_refused file 'there is no such file'
    : >"$work/t.cv"
    run stat "$work/t.cv"
    was_refused unborn 'no vector was made'
    run create u64 "$work/u.cv"
    given '1 2 3\n'
    run load u64 "$work/u.cv"
    printf '\011' | dd of="$work/u.cv" bs=1 seek=12 conv=notrunc 2>/dev/null
    before=$(cksum <"$work/u.cv")
    run stat "$work/u.cv"
    was_refused 'damaged at 12: kind 9' 'the frames before that leave 0 records'
    run stat "$work/u.cv" --json
    [ "$status" -eq 1 ]
    echo '{"refused":"damaged at 12: kind 9"}' | cmp - "$out"
    tells 'the frames before that leave 0 records'
    [ "$before" = "$(cksum <"$work/u.cv")" ]
    run create u64 "$work/v.cv"
    head -c 11 "$work/v.cv" >"$work/w.cv"
    run stat "$work/w.cv"
    was_refused 'damaged at 11: no gate' 'the frames before that leave 0 records'
    for words in '' '--jsn' 'u64'; do
        run stat $words "$work/u.cv" --quiet --json more
        ends_with_usage 'error: '
    done
)

# It takes no more memory for a file of 80 MB than for one of 80 KB.
a_long_file_is_told_of_in_little_memory() (
    seq 1 10000000 | sed 's/.*/7/' >"$in"
    run create u64 "$work/t.cv"
    run append u64 "$work/t.cv" --block=100000
    status=0
    (ulimit -v 200000 && "$top/crates/cvec/out/cvec" stat "$work/t.cv") >"$out" 2>"$err" || status=$?
    [ "$status" -eq 0 ]
    for field in 'version 1' 'width 8' 'changes 0' 'growths 100' 'records 10000000' 'size 10000000' 'live 0' 'behind 0'; do
        grep -qx "$field" "$out"
    done
    [ ! -s "$err" ]
)

# Short frames and long ones, in a file that another process has: read by pieces, also where a read gives a part of one.
frames_are_told_beside_a_writer_by_few_reads() (
    command -v flock >/dev/null || lacks 'there is no flock to lock a file with' || exit $is_skipped
    has_calls || exit $is_skipped
    build_calls
    t=$work/t.cv
    python3 - "$t" >"$work/wanted" <<'END'
import struct, sys
lengths = [10000 if i % 4000 == 3999 else i * i % 5 + 1 for i in range(20000)]
frame = lambda n: struct.pack("<BBIII", 1, 1, 8 + 8 * n, 1, n) + bytes(8 * n)
data = b"\1CVECSEG\1\10\0" + b"".join(map(frame, lengths)) + b"\0"
open(sys.argv[1], "wb").write(data)
print(f"version 1\nwidth 8\nbytes {len(data)}\ngroups 20000\nchanges 0\nshrinks 0\nfolds 0\ngrowths 20000")
print(f"records {sum(lengths)}\nsize {sum(lengths)}\nlive 0\ngate {len(data) - 1}\nbehind 0")
END
    second stat "$t"
    cmp "$out" "$work/wanted"
    exec 9<"$t"
    flock --exclusive 9
    # Of 100 reads the last one fails.
    for does in CALLS_FAIL=pread:100 CALLS_PART=1000; do
        run_with $does stat "$t"
        cmp "$out" "$work/wanted"
    done
)
