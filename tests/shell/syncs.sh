# The calls by which commands write their files: what is written where, and what is synced before what. They are noted by
# the library of tests/calls.c.

# ---- the calls of a command

# Runs a command, and notes its calls in $work/calls.
is_noted() {
    rm -f "$work/calls"
    run_with "CALLS_LOG=$work/calls" "$@"
    [ "$status" -eq 0 ]
    [ ! -s "$err" ]
}

# The noted calls are these.
made() { printf '%s\n' "$@" | diff - "$work/calls"; }

# The calls of a commit whose gate is here, with a body of so many bytes, of a frame of this kind.
commit() {
    printf '%s\n' "write $1 $(($2 + 1)) $3 $4 00" "sync $1" "write $1 $2 1 01 01" "sync $1"
}

# The calls that make a file. Where there is none a closed byte comes first.
creation() {
    printf '%s\n' "sync $1" "write $1 0 1 00 00" "sync $1" "write $1 1 11 43 00" "sync $1" "write $1 0 1 01 01" "sync $1"
}

# The noted calls, without the opening syncs and the answer, are those of commits from this gate on: each body stands behind
# the gate before it, and the last gate ends the file. Prints how many there are.
commits_from() {
    sed '$d' "$work/calls" | awk '/^write/ { begun = 1 } begun' | awk -v file="$1" -v gate="$2" '
        function fail() { print "line " NR ", gate " gate ": " $0; bad = 1; exit 1 }
        NR % 4 == 1 { if ($1 != "write" || $2 != file || $3 != gate + 1 || $4 < 7 || $6 != "00") fail(); next_gate = gate + $4 }
        NR % 4 == 2 && $0 != "sync " file { fail() }
        NR % 4 == 3 { if ($0 != "write " file " " gate " 1 01 01") fail(); gate = next_gate }
        NR % 4 == 0 && $0 != "sync " file { fail() }
        END { if (!bad && NR % 4) fail(); if (!bad) print NR / 4, gate }
    '
}

# Growths of a command were committed so, at least so many times, from the gate of an empty file on. The file is synced
# before it is read, and the answer comes last.
are_commits() {
    [ "$(head -n 1 "$work/calls")" = 'sync t.cv' ]
    [ "$(tail -n 1 "$work/calls")" = "answer $(wc -c <"$out")" ]
    commits_from t.cv 11 >"$work/commits" || { cat "$work/commits"; return 1; }
    read -r frames gate <"$work/commits"
    [ "$frames" -ge "$1" ]
    [ "$gate" -eq $(($(stat -c %s "$work/t.cv") - 1)) ]
    run check u64 "$work/t.cv"
    [ "$(cut -d ' ' -f 8,9 "$out")" = "frames $frames" ]
}

# ---- commands

# The folder too, since the name of the file is new.
a_file_is_made_behind_its_first_byte() (
    has_calls || exit $is_skipped
    build_calls
    mkdir "$work/folder"
    is_noted create u64 "$work/folder/t.cv"
    made 'sync folder' "$(creation t.cv)" 'answer 8'
)

# A growth of three u64: 6 bytes of a frame's head but for its gate, 8 of counts, 24 of records, and the next gate.
a_command_commits_one_frame() (
    has_calls || exit $is_skipped
    build_calls
    t=$work/t.cv
    run create u64 "$t"
    given '5 6 7\n'
    is_noted load u64 "$t"
    made 'sync t.cv' "$(commit t.cv 11 38 01)" 'answer 25'
    is_noted append u64 "$t"
    made 'sync t.cv' "$(commit t.cv 49 38 01)" 'answer 27'
    is_noted set u64 "$t" 1 --records=8,9
    made 'sync t.cv' "$(commit t.cv 87 30 02)" 'answer 3'
    is_noted resize u64 "$t" 8 --record=4
    made 'sync t.cv' "$(commit t.cv 117 30 01)" 'answer 3'
    run fold u64 "$t"
    is_noted resize u64 "$t" 2 --record=4
    made 'sync t.cv' "$(commit t.cv 161 14 03)" 'answer 3'
    is_noted clear u64 "$t"
    made 'sync t.cv' "$(commit t.cv 175 14 03)" 'answer 3'
)

# Home bytes are synced before the fold's frame, which ends the change, is written.
a_fold_syncs_home_bytes_before_its_frame() (
    has_calls || exit $is_skipped
    build_calls
    t=$work/t.cv
    run create u64 "$t"
    given '5 6 7\n'
    run load u64 "$t"
    run set u64 "$t" 0 --records=2
    run set u64 "$t" 2 --records=3
    is_noted fold u64 "$t"
    # The two changes end at 93. The homes of positions 0 and 2 are at 25 and at 41.
    uniq "$work/calls" >"$work/once"
    mv "$work/once" "$work/calls"
    made 'sync t.cv' 'write t.cv 25 8 02 00' 'write t.cv 41 8 03 00' 'sync t.cv' "$(commit t.cv 93 14 04)" 'answer 9'
)

an_upgrade_commits_to_a_new_file() (
    has_calls || exit $is_skipped
    build_calls
    mkdir "$work/folder"
    run create u64 "$work/t.cv"
    given '5 6 7\n'
    run load u64 "$work/t.cv"
    is_noted upgrade u64 "$work/t.cv" "$work/folder/n.cv"
    # FILE is read before NEW is made.
    [ "$(head -n 1 "$work/calls")" = 'sync t.cv' ]
    grep -vx 'sync t.cv' "$work/calls" >"$work/of_new"
    mv "$work/of_new" "$work/calls"
    made 'sync folder' "$(creation n.cv)" "$(commit n.cv 11 38 01)" 'answer 16'
)

# Each of its growths is one commit.
a_copy_commits_to_a_new_file() (
    has_calls || exit $is_skipped
    build_calls
    mkdir "$work/folder"
    run create u64 "$work/t.cv"
    given '5\n6 7\n'
    run load u64 "$work/t.cv"
    is_noted copy u64 "$work/t.cv" "$work/folder/n.cv" --block=2
    grep -vx 'sync t.cv' "$work/calls" >"$work/of_new"
    mv "$work/of_new" "$work/calls"
    made 'sync folder' "$(creation n.cv)" "$(commit n.cv 11 30 01)" "$(commit n.cv 41 22 01)" 'answer 14'
)

# Not even the bytes that are there already.
commands_that_read_write_nothing() (
    has_calls || exit $is_skipped
    build_calls
    a_changed_file
    for words in 'check u64 FILE' 'list u64 FILE' 'count u64 FILE --record=7' 'find u64 FILE --record=7' 'stat FILE'; do
        # shellcheck disable=SC2046 # each word is one
        is_noted $(echo "$words" | sed "s|FILE|$work/t.cv|")
        if grep -q '^write' "$work/calls"; then return 1; fi
    done
)

# A growth that a client was told is settled is on the device then: the second answer, of the wait, comes behind the syncs.
a_server_answers_a_wait_behind_the_syncs() (
    has_calls || exit $is_skipped
    build_calls
    run create u64 "$work/t.cv"
    {
        printf '\1\0\0\0\1\0\0\0\0\0\0\0\0\0\0\0\5\0\0\0\0\0\0\0'
        printf '\2\0\0\0\0\0\0\0\0\0\0\0\0\0\0\0'
    } >"$work/requests"
    : >"$work/answers"
    is_noted serve u64 "$work/t.cv" --seats=1 3<"$work/requests" 4>"$work/answers"
    [ "$(wc -c <"$work/answers")" -eq 48 ]
    last_sync=$(grep -n '^sync t.cv' "$work/calls" | tail -n 1 | cut -d : -f 1)
    last_tell=$(grep -n '^tell answers' "$work/calls" | tail -n 1 | cut -d : -f 1)
    [ "$last_tell" -gt "$last_sync" ]
    grep -v '^tell' "$work/calls" >"$work/rest"
    mv "$work/rest" "$work/calls"
    made 'sync t.cv' "$(commit t.cv 11 22 01)" 'answer 17'
)

# ---- the same where much is written

growths_of_many_lines_are_committed_frame_by_frame() (
    has_calls || exit $is_skipped
    build_calls
    t=$work/t.cv
    seq 1 300000 >"$in"
    for words in 'append --block=1000' 'append --block=20000' 'load --seats=1' 'load --seats=3'; do
        rm -f "$t"
        run create u64 "$t"
        is_noted "${words% *}" u64 "$t" "${words#* }"
        # 2.4 MB of records, and at most 1 MiB in a frame.
        are_commits 3
    done
)

# 20,000 records in one frame are 160,000 bytes of records.
a_long_change_is_one_commit() (
    has_calls || exit $is_skipped
    build_calls
    t=$work/t.cv
    run create u64 "$t"
    is_noted resize u64 "$t" 20000 --record=5
    made 'sync t.cv' "$(commit t.cv 11 160014 01)" 'answer 3'
    is_noted set u64 "$t" 100 "--records=$(yes 7 | head -n 15000 | paste -sd ,)"
    made 'sync t.cv' "$(commit t.cv 160025 120014 02)" 'answer 3'
    # A home write has at most 4,096 records. The home of position 100 is at 825.
    is_noted fold u64 "$t"
    uniq "$work/calls" >"$work/once"
    mv "$work/once" "$work/calls"
    made 'sync t.cv' 'write t.cv 825 32768 07 00' 'write t.cv 33593 32768 07 00' 'write t.cv 66361 32768 07 00' \
        'write t.cv 99129 21696 07 00' 'sync t.cv' "$(commit t.cv 280039 14 04)" 'answer 9'
    is_noted upgrade u64 "$t" "$work/n.cv"
    grep -v '^sync t.cv$\|^write t.cv' "$work/calls" | sed 1d >"$work/of_new"
    grep 't.cv' "$work/calls" | sort -u >"$work/of_old"
    [ "$(cat "$work/of_old")" = 'sync t.cv' ]
    mv "$work/of_new" "$work/calls"
    made "$(creation n.cv)" "$(commit n.cv 11 160014 01)" 'answer 20'
)
