# Threads of C that grow one vector (`cvec_threads`), by vector.c and the files beside it in bindings/c/src.

# ---- programs, each built once, beside the folder of a test's files

built=$work-built

make_threads() {
    has_c || exit $is_skipped
    make_threads_library
    mkdir -p "$built"
    [ -e "$built/use" ] || compile_threads "$c/use_vector.c" -o "$built/use"
    [ -e "$built/behaviours" ] || compile_over_library "$top/tests/threads/behaviours.c" "-I$c_sources" -Wl,--wrap=malloc,--wrap=realloc -o "$built/behaviours"
    [ -e "$built/pauses" ] || compile_over_library "$top/tests/threads/pauses.c" "-I$c_sources" -Wl,--wrap=malloc,--wrap=realloc -o "$built/pauses"
    [ -e "$built/borrowed" ] || compile_over_library "$top/tests/threads/borrowed.c" "-I$c_sources" -Wl,--wrap=malloc,--wrap=realloc -o "$built/borrowed"
    [ -e "$built/fill" ] || compile_threads "$top/tests/threads/fill.c" -o "$built/fill"
    [ -e "$built/writer" ] || compile_threads "$top/tests/threads/writer.c" -o "$built/writer"
}

# ---- the programs of the page and the example

# The program of this number on the page.
shown_program() { shown_in use/threads.md c | awk -v wanted="$1" '/^#include "cvec.h"$/ { at++ } at == wanted'; }

the_c_programs_of_the_page_grow_and_read() (
    has_c || exit $is_skipped
    make_threads_library
    for number in 1 2; do
        shown_program $number >"$work/shown.c"
        compile_threads "$work/shown.c" -o "$work/shown$number"
    done
    timeout 60 "$work/shown1" "$work/t.cv" >"$out"
    [ "$(cat "$out")" = '3 at 0' ]
    run list u64 "$work/t.cv"
    did '5\n7\n11\n'
    rm "$work/t.cv"
    timeout 60 "$work/shown2" "$work/t.cv" >"$out"
    [ "$(cat "$out")" = 499500 ]
    run list u64 "$work/t.cv"
    seq 0 999 | cmp - "$out"
)

a_wait_of_the_library_for_threads_is_as_long_as_it_says() (
    has_c && has_calls && has flock 'a file that a reader has' || exit $is_skipped
    make_threads
    waits_for_readers_by_the_clock "$built/use" "$work/held.cv" 1 1
    # CVEC_IN_USE.
    [ "$(cat "$out")" = 33 ]
)

# Eight threads, 3 records a growth, each awaited and read back; then opened again and grown further.
threads_of_c_grow_one_vector() (
    make_threads
    for growths in 500 1000; do
        [ "$(timeout 60 "$built/use" "$work/t.cv" 8 500)" = 0 ]
        run list u64 "$work/t.cv"
        [ "$(wc -l <"$out")" -eq $((growths * 8 * 3)) ]
        # Each growth in one row, and of each thread its growths in order.
        paste -d ' ' - - - <"$out" >"$work/blocks"
        [ "$(awk '$1 + $2 != $3' "$work/blocks" | wc -l)" -eq 0 ]
        for thread in 0 1 2 3 4 5 6 7; do
            awk -v t=$thread '$1 == t { print $2 }' "$work/blocks" >"$work/turns"
            { for _ in $(seq 500 500 "$growths"); do seq 0 499; done; } | cmp - "$work/turns"
        done
    done
    run check u64 "$work/t.cv"
    [ "$status" -eq 0 ]
)

# The system makes no third thread: the two before go on to their ends, and it is told (CVEC_MEMORY).
a_thread_of_c_that_is_not_made_is_told() (
    make_threads
    cat >"$work/refused.c" <<'REFUSED'
#include <errno.h>
#include <pthread.h>
int __real_pthread_create(pthread_t *, const pthread_attr_t *, void *(*)(void *), void *);
int __wrap_pthread_create(pthread_t *thread, const pthread_attr_t *how, void *(*run)(void *), void *with) {
    static int asked;
    return ++asked == 3 ? EAGAIN : __real_pthread_create(thread, how, run, with);
}
REFUSED
    compile_threads "$c/use_vector.c" "$work/refused.c" -Wl,--wrap=pthread_create -o "$work/use"
    status=0
    timeout 60 "$work/use" "$work/t.cv" 8 5 >"$out" || status=$?
    [ "$status" -eq 1 ]
    [ "$(cat "$out")" = 6 ]
    run list u64 "$work/t.cv"
    [ "$(paste -d ' ' - - - <"$out" | sort -n | cut -d ' ' -f -2 | tr '\n' ';')" = '0 0;0 1;0 2;0 3;0 4;1 0;1 1;1 2;1 3;1 4;' ]
)

# Builds this program of examples/c.
make_example() {
    has_c || exit $is_skipped
    make_threads_library
    compile_threads "$c/$1.c" -Wconversion -o "$work/$1"
}

samples_of_sensors_go_on_in_c() (
    make_example samples
    goes_on_with_its_samples "$work/samples"
)

words_are_indexed_in_c() (
    make_example word_index
    indexes_words u64 4 "$work/word_index"
)

results_of_a_pool_are_kept_in_c() (
    make_example pool
    has_results_of_a_pool pair 1 "$work/pool"
)

# A file of version 2 that the program made, with a record that was changed.
threads_of_c_go_on_with_a_file_of_the_program() (
    make_threads
    run create u64 "$work/t.cv" --format=2
    given '1\n2\n3\n'
    run load u64 "$work/t.cv"
    run set u64 "$work/t.cv" 0 --records=9
    did 'ok\n'
    [ "$(timeout 60 "$built/use" "$work/t.cv" 2 10)" = 0 ]
    run check u64 "$work/t.cv"
    [ "$(cut -d ' ' -f -7 "$out")" = 'ok version 2 width 8 size 63' ]
    run list u64 "$work/t.cv"
    [ "$(head -n 3 "$out" | tr '\n' ' ')" = '9 2 3 ' ]
    [ "$(tail -n +4 "$out" | paste -d ' ' - - - | sort -n | awk '$1 + $2 == $3' | wc -l)" -eq 20 ]
)

# Files of each type that the program made, of either version, are grown by threads of C; one of another width is refused.
threads_of_c_grow_files_of_each_type() (
    make_threads
    goes_on() {
        for version in 1 2; do
            rm -f "$work/t.cv"
            run create "$1" "$work/t.cv" --format=$version
            given "$2"
            run load "$1" "$work/t.cv"
            [ "$status" -eq 0 ]
            timeout 60 "$built/behaviours" "goes_on_$1" "$work/t.cv"
            run check "$1" "$work/t.cv"
            [ "$status" -eq 0 ]
            run list "$1" "$work/t.cv"
            did "$2$3"
        done
    }
    goes_on u32 '1\n2\n' '4294967295\n4294967294\n'
    if timeout 60 "$built/behaviours" goes_on_u64 "$work/t.cv" >"$out"; then exit 1; fi
    goes_on u64 '1\n2\n' '18446744073709551615\n18446744073709551614\n'
    if timeout 60 "$built/behaviours" goes_on_u32 "$work/t.cv" >"$out"; then exit 1; fi
    goes_on i64 '1\n-2\n' '-1\n-2\n'
    goes_on pair '1:2\n' '18446744073709551615:-9223372036854775808\n18446744073709551615:1\n'
    if timeout 60 "$built/behaviours" goes_on_flagged "$work/t.cv" >"$out"; then exit 1; fi
    goes_on flagged '1:0\n' '18446744073709551615:1\n18446744073709551615:0\n'
    if timeout 60 "$built/behaviours" goes_on_pair "$work/t.cv" >"$out"; then exit 1; fi
)

a_vector_in_c_has_records_of_each_type() (
    a_behaviour_of_a_vector_in_c typed
)

a_flag_that_is_none_gets_into_no_vector_in_c() (
    a_behaviour_of_a_vector_in_c flags
)

bytes_that_are_no_records_of_a_handle_are_refused_in_c() (
    a_behaviour_of_a_vector_in_c widths
)

a_flag_of_another_byte_is_none_by_the_librarys_call() (
    a_behaviour_of_a_vector_in_c flags_by_bytes
)

# What was told to be durable stands, at whatever moment the process is killed.
threads_of_c_that_are_killed_lose_nothing_settled() (
    has python3 'what compares a file with blocks' || exit $is_skipped
    make_threads
    PYTHONDONTWRITEBYTECODE=1 timeout 120 python3 "$top/tests/bindings/vector_killed.py" "$work/t.cv" 12 "$built/writer"
)

# A behaviour of the shell around the library, by its name.
a_behaviour_of_a_vector_in_c() {
    make_threads
    timeout 60 "$built/behaviours" "$1" "$work/t.cv"
}

a_vector_in_c_is_open_once() (
    a_behaviour_of_a_vector_in_c lock
    rm "$work/t.cv"
    a_behaviour_of_a_vector_in_c readers
)

a_vector_in_c_stands_in_memory_alone() (
    a_behaviour_of_a_vector_in_c in_memory
    [ ! -e "$work/t.cv" ]
)

a_vector_in_c_is_that_of_its_name() (
    a_behaviour_of_a_vector_in_c replaced
)

a_vector_in_c_is_beside_the_standard_streams() (
    a_behaviour_of_a_vector_in_c streams
)

a_seat_in_c_is_in_one_call() (
    a_behaviour_of_a_vector_in_c busy
)

a_forked_process_has_no_vector_in_c() (
    a_behaviour_of_a_vector_in_c fork
)

a_vector_in_c_that_is_closed_is_locked_no_more() (
    a_behaviour_of_a_vector_in_c unlocks
    rm "$work/t.cv"
    a_behaviour_of_a_vector_in_c unlocks_beside_programs
)

a_vector_in_c_is_locked_until_its_last_commit() (
    a_behaviour_of_a_vector_in_c closes_locked
)

a_write_of_a_vector_in_c_that_is_cut_goes_on() (
    a_behaviour_of_a_vector_in_c parts
)

a_call_of_a_vector_in_c_that_fails_breaks_it() (
    a_behaviour_of_a_vector_in_c faults
)

memory_that_a_vector_in_c_is_refused_loses_nothing() (
    a_behaviour_of_a_vector_in_c memory
)

# 64 MB of records: while they are opened the file's bytes stand beside them, and then they alone.
opening_in_c_holds_the_bytes_of_a_file_once() (
    make_threads
    compile_threads "$top/tests/threads/opening.c" -o "$work/opening"
    seq 0 7999999 >"$in"
    run create u64 "$work/t.cv"
    run append u64 "$work/t.cv" --block=131071
    [ "$status" -eq 0 ]
    timeout 120 "$work/opening" "$work/t.cv" 8000000 >"$out"
    read -r most stays <"$out"
    [ "$most" -lt 240 ]
    [ "$stays" -lt 140 ]
)

a_vector_in_c_that_is_full_goes_on_by_its_seats() (
    a_behaviour_of_a_vector_in_c full
)

# Three phases of growths of one record each, by 1, 4 and 16 threads, beside a flusher, waits and calls of the whole vector.
threads_of_c_fill_phases() (
    make_threads
    for threads in 1 4 16; do
        rm -f "$work/t.cv"
        timeout 60 "$built/fill" "$work/t.cv" "$threads" 240000 100000 >"$out"
        [ "$(cat "$out")" = '240000 growths, each there once' ]
        run check u32 "$work/t.cv"
        [ "$(cut -d ' ' -f -7 "$out")" = 'ok version 2 width 4 size 240000' ]
    done
)

# What is in the file after a kill: of each thread a row from 0 on, with what it was told. The numbers of its growths are printed.
holds_what_was_told() {
    PYTHONDONTWRITEBYTECODE=1 PYTHONPATH=$top/examples/python python3 - "$work/t.cv" "$out" <<'PY'
import array
import sys

import beside

records = array.array("I", beside.Reader(sys.argv[1], "u32").look())
rows = [[] for _ in range(16)]
for record in records:
    rows[record >> 24].append(record & 0xffffff)
assert all(row == list(range(len(row))) for row in rows)
with open(sys.argv[2]) as told:
    for line in told:
        name, settled = map(int, line.split())
        assert len(rows[name]) >= settled
print(len(records))
PY
}

# Killed in place of each sync, of which some are those of a phase that ends, it leaves what was settled.
threads_of_c_that_are_killed_as_a_phase_ends_lose_nothing_settled() (
    has python3 'what reads a file' || exit $is_skipped
    make_threads
    cc -shared -fPIC -o "$work/syncs.so" "$top/tests/bindings/syncs.c"
    kill_at=6 # the first five make the file
    while
        rm -f "$work/t.cv"
        status=0
        KILL_AT=$kill_at LD_PRELOAD=$work/syncs.so timeout 60 "$built/fill" "$work/t.cv" 4 110000 100000 told >"$out" || status=$?
        [ "$status" -ne 0 ]
    do
        [ "$status" -eq 137 ]
        holds_what_was_told >>"$work/left"
        kill_at=$((kill_at + 1))
        [ "$kill_at" -lt 40 ]
    done
    # Some were killed before the first phase was durable, and some behind it.
    [ "$(awk '$1 < 100000' "$work/left" | wc -l)" -gt 0 ]
    [ "$(awk '$1 >= 100000' "$work/left" | wc -l)" -gt 0 ]
)

a_phase_of_c_that_ends_beside_calls_refuses_none() (
    for behaviour in renewal_waits renewal_after_commit renewal_after_call renewal_before_call renewals; do
        rm -f "$work/t.cv"
        a_behaviour_of_a_vector_in_c $behaviour
    done
)

a_phase_of_c_that_can_not_end_loses_nothing() (
    for behaviour in renewal_fails renewal_memory renewal_is_killed; do
        rm -f "$work/t.cv"
        a_behaviour_of_a_vector_in_c $behaviour
    done
)

a_seat_in_c_is_waited_for() (
    for behaviour in seat_within seats_in_line seat_within_change; do
        rm -f "$work/t.cv"
        a_behaviour_of_a_vector_in_c $behaviour
    done
)

more_threads_of_c_than_seats_work() (
    a_behaviour_of_a_vector_in_c pool
)

a_vector_in_c_past_the_greatest_file_lives() (
    a_behaviour_of_a_vector_in_c too_large
)

a_vector_in_c_is_refused_by_name() (
    a_behaviour_of_a_vector_in_c refusals
)

a_vector_in_c_is_made_over_nothing_of_others() (
    a_behaviour_of_a_vector_in_c foreign
)

a_vector_in_c_commits_for_all_who_wait() (
    a_behaviour_of_a_vector_in_c leader
)

a_commit_in_c_waits_for_those_that_the_last_one_woke() (
    a_behaviour_of_a_vector_in_c gathers
    rm "$work/t.cv"
    a_behaviour_of_a_vector_in_c gathers_no_large
)

records_that_are_pushed_in_c_are_grown_by_blocks() (
    for behaviour in pushes push_threads push_closes push_blocks pushes_typed; do
        rm -f "$work/t.cv"
        a_behaviour_of_a_vector_in_c $behaviour
    done
)

a_push_in_c_that_is_refused_may_be_made_again() (
    for behaviour in push_memory push_full push_broken; do
        rm -f "$work/t.cv"
        a_behaviour_of_a_vector_in_c $behaviour
    done
)

one_record_is_read_in_c() (
    a_behaviour_of_a_vector_in_c at
)

a_wait_in_c_has_a_deadline() (
    a_behaviour_of_a_vector_in_c late
    rm "$work/t.cv"
    a_behaviour_of_a_vector_in_c late_between
)

a_flusher_in_c_commits_what_nobody_awaits() (
    a_behaviour_of_a_vector_in_c flusher
    rm "$work/t.cv"
    a_behaviour_of_a_vector_in_c flusher_takes_all
    rm "$work/t.cv"
    a_behaviour_of_a_vector_in_c flusher_once
)

a_flusher_in_c_commits_blocks() (
    a_behaviour_of_a_vector_in_c flusher_takes_blocks
)

a_flusher_in_c_ends_by_what_is_refused() (
    a_behaviour_of_a_vector_in_c flusher_fails
)

a_whole_vector_in_c_is_changed() (
    a_behaviour_of_a_vector_in_c alone
    run list u64 "$work/t.cv"
    did '0\n'
    rm "$work/t.cv"
    a_behaviour_of_a_vector_in_c alone_forks
    rm "$work/t.cv"
    a_behaviour_of_a_vector_in_c alone_waits
    rm "$work/t.cv"
    a_behaviour_of_a_vector_in_c seat_again
    rm "$work/t.cv"
    a_behaviour_of_a_vector_in_c alone_late
    rm "$work/t.cv"
    a_behaviour_of_a_vector_in_c alone_flushes
)

a_change_of_a_whole_vector_in_c_that_fails_breaks_it() (
    a_behaviour_of_a_vector_in_c alone_faults
)

# ---- calls of the whole vector beside seats; seats that are borrowed; what settles without one

# Behaviours of this program, by their names.
behaves() {
    make_threads
    program_of_behaviours=$1
    shift
    for behaviour in "$@"; do
        rm -f "$work/t.cv"
        timeout 120 "$built/$program_of_behaviours" "$behaviour" "$work/t.cv" || { echo "$behaviour" && exit 1; }
    done
}

a_whole_vector_in_c_is_changed_beside_seats() (
    behaves pauses beside_seats waits_for_calls keeps holds_off
)

nobody_starves_in_c_beside_changes_in_a_loop() (
    behaves pauses nobody_starves
)

memory_that_a_change_in_c_is_refused_beside_seats_loses_nothing() (
    behaves pauses change_memory
)

a_vector_in_c_settles_without_a_seat() (
    behaves pauses settles
)

a_flusher_of_the_librarys_own_ends_with_its_vector() (
    behaves pauses own_flusher
)

a_forked_process_borrows_no_seat_and_settles_nothing() (
    behaves pauses forks
)

a_vector_in_c_is_opened_or_made() (
    behaves pauses opens_or_creates
)

a_seat_in_c_is_borrowed() (
    behaves borrowed beside_takes idle_beside_line keeps_nothing borrow_memory detached
)

more_threads_of_c_than_seats_borrow_them() (
    behaves borrowed more_threads one_each waits_in_line
)

a_wait_in_c_for_the_device_keeps_no_borrowed_seat_from_others() (
    behaves borrowed settle_lends settle_lends_twice settle_keeps
)

a_vector_in_c_is_ended_beside_calls() (
    behaves borrowed ends closes_beside_end
)

# The same under this sanitizer, but for what refuses memory and forks.
behaves_under() {
    has_c || exit $is_skipped
    has_sanitizer "$1" || exit $is_skipped
    make_threads_library
    while read -r name behaviours; do
        compile_over_library "$top/tests/threads/$name.c" "-I$c_sources" -g "-fsanitize=$1" -fno-sanitize-recover=all \
            -Wl,--wrap=malloc,--wrap=realloc -o "$work/$name"
        for behaviour in $behaviours; do
            rm -f "$work/t.cv"
            timeout 300 "$work/$name" "$behaviour" "$work/t.cv" 2>"$err" || { cat "$err" && echo "$behaviour" && exit 1; }
            [ ! -s "$err" ]
        done
    done <<'BEHAVIOURS'
pauses beside_seats waits_for_calls nobody_starves keeps holds_off settles own_flusher opens_or_creates
borrowed beside_takes keeps_nothing more_threads one_each waits_in_line detached settle_lends settle_lends_twice settle_keeps ends closes_beside_end idle_beside_line
BEHAVIOURS
}

pauses_and_borrowed_seats_in_c_use_memory_rightly() (
    behaves_under address,undefined
)

pauses_and_borrowed_seats_in_c_are_in_order() (
    behaves_under thread
)

# Rounds of random calls by 1 to 16 threads, of which half are killed, under this sanitizer.
makes_random_calls_under() {
    has_c || exit $is_skipped
    has_sanitizer "$1" || exit $is_skipped
    make_threads_library
    compile_threads "$top/tests/threads/random_calls.c" -g "-fsanitize=$1" -fno-sanitize-recover=all -o "$work/calls"
    seed=$(od -An -N4 -tu4 /dev/urandom | tr -d ' ')
    echo "seed $seed"
    timeout 300 "$work/calls" "$work/t.cv" "$seed" 8 2>"$err" ||
        { cat "$err" && exit 1; }
    [ ! -s "$err" ]
    run check u64 "$work/t.cv"
    [ "$status" -eq 0 ]
}

random_calls_in_c_use_memory_rightly() (
    makes_random_calls_under address,undefined
)

random_calls_in_c_are_in_order() (
    makes_random_calls_under thread
)

# ---- what is lent

while_a_vector_in_c_is_held_nobody_has_it_whole() (
    for behaviour in hold_refuses hold_waits hold_comes_first hold_renews hold_broken hold_forks; do
        rm -f "$work/t.cv"
        a_behaviour_of_a_vector_in_c $behaviour
    done
)

memory_that_is_refused_in_c_takes_nothing_lent() (
    a_behaviour_of_a_vector_in_c compaction_memory
    rm "$work/t.cv"
    a_behaviour_of_a_vector_in_c seats_are_lost
)

make_lent() {
    has_c || exit $is_skipped
    make_threads_library
    mkdir -p "$built"
    [ -e "$built/lent" ] || compile_threads "$top/tests/threads/lent.c" -Wconversion -o "$built/lent"
}

# A behaviour of what is lent, by its name.
lends_in_c() {
    make_lent
    timeout 120 "$built/lent" "$1" "$work/t.cv"
}

pieces_of_a_vector_in_c_are_where_they_are_said() (
    lends_in_c pieces
)

what_is_lent_in_c_stays_while_threads_grow() (
    lends_in_c stays
)

a_seat_in_c_counts_and_finds_beside_growers() (
    lends_in_c counts
)

a_block_in_c_is_grown_in_place() (
    lends_in_c blocks
    run check bytes64 "$work/t.cv"
    [ "$(cut -d ' ' -f -7 "$out")" = 'ok version 2 width 64 size 15' ]
)

a_block_in_c_that_is_refused_stays() (
    lends_in_c blocks_refused
)

a_block_in_c_is_published_in_the_next_phase() (
    lends_in_c blocks_renewed
)

a_vector_in_c_that_lends_nothing_goes_on() (
    lends_in_c goes_on
)

a_vector_in_c_that_lends_is_full_until_it_is_compacted() (
    for behaviour in full full_by_blocks full_by_pushes stays_beside_refusals; do lends_in_c $behaviour; done
)

options_of_a_vector_in_c_are_refused_by_name() (
    lends_in_c options
)

options_of_a_vector_in_c_have_defaults() (
    lends_in_c defaults
)

# 4 bytes of addresses for each growth of the room, for each seat and who commits: 1 GiB together by default. Built with a sanitizer
# a phase isn't wide.
a_wide_phase_in_c_reserves_addresses() (
    lends_in_c reserves >"$out"
    read -r one all narrow <"$out"
    for wide in "$one" "$all"; do
        [ "$wide" -gt 1000000 ]
        [ "$wide" -lt 1300000 ]
    done
    [ "$narrow" -lt 200000 ]
    for sanitizer in address thread; do
        has_sanitizer $sanitizer || exit $is_skipped
        compile_threads "$top/tests/threads/lent.c" -fsanitize=$sanitizer -o "$work/lent"
        timeout 120 "$work/lent" reserves "$work/t.cv" >"$out"
        read -r one all narrow <"$out"
        [ "$one" -lt 200000 ]
        [ "$all" -lt 600000 ]
    done
)

a_program_in_c_forks_beside_a_vector_as_it_is_by_default() (
    lends_in_c forks_by_default
)

# Without addresses for a wide phase one takes 1,048,568 growths.
what_is_lent_in_c_stays_where_a_phase_is_narrow() (
    make_lent
    (ulimit -v 1500000 && exec timeout 120 "$built/lent" narrow "$work/t.cv")
)

# What threads lend and read beside growers, under this sanitizer.
lends_under() {
    has_c || exit $is_skipped
    has_sanitizer "$1" || exit $is_skipped
    make_threads_library
    compile_threads "$top/tests/threads/lent.c" -g "-fsanitize=$1" -fno-sanitize-recover=all -o "$work/lent"
    for behaviour in pieces stays counts blocks blocks_refused blocks_renewed goes_on full full_by_blocks; do
        timeout 300 "$work/lent" $behaviour "$work/t.cv" 2>"$err" ||
            { cat "$err" && exit 1; }
        [ ! -s "$err" ]
    done
}

what_is_lent_in_c_is_memory_that_is_had() (
    lends_under address,undefined
)

what_is_lent_in_c_is_in_order() (
    lends_under thread
)
