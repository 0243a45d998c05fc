# The vector that threads of Python grow (cvec.Vector), over the library for threads of C.

# ---- the shared library, built once as docs/use/threads.md builds a program, beside the folder of a test's files

built=$work-built

# The Python that has numpy: the one that the path finds, or Debian's own. Where none has it, the former.
python=python3
for it in python3 /usr/bin/python3; do
    if "$it" -c 'import numpy' 2>/dev/null; then
        python=$it
        break
    fi
done

has_python_vector() { has_c && has python3 'the vector for Python'; }

make_python_vector() {
    make_threads_library
    mkdir -p "$built"
    if [ -e "$built/libcvec.so" ]; then return; fi
    compile_c cvec_vector "$built"
    cc -shared -o "$built/libcvec.so" "$built/cvec_vector.o" "$threads_library" "$kit_library" -lpthread
}

# Runs this program in Python with further words.
python_vector_runs() {
    CVEC_LIB=$built PYTHONDONTWRITEBYTECODE=1 \
        PYTHONPATH=$top/bindings/python:$top/tests/bindings${PYTHONPATH:+:$PYTHONPATH} timeout 120 "$python" "$@"
}

# A test of tests/bindings/vector_cases.py, without numpy.
is_so_without_numpy() {
    has_python_vector || exit $is_skipped
    make_python_vector
    mkdir "$work/files"
    python_vector_runs "$top/tests/bindings/vector_cases.py" "$work/files" "$1" plain >"$out"
    [ "$(cat "$out")" = 'without numpy' ]
}

# The same with numpy.
is_so_with_numpy() {
    has_python_vector || exit $is_skipped
    "$python" -c 'import numpy' 2>/dev/null || lacks 'there is no numpy for arrays for Python' || exit $is_skipped
    make_python_vector
    rm -rf "$work/files"
    mkdir "$work/files"
    python_vector_runs "$top/tests/bindings/vector_cases.py" "$work/files" "$1" >"$out"
    [ "$(cat "$out")" = 'with numpy' ]
}

is_so_with_and_without_numpy() {
    is_so_without_numpy "$1"
    is_so_with_numpy "$1"
}

# ---- its programs

# 4 threads grow 3 blocks of 3 records each, and an appender 250 numbers by blocks of 100.
the_python_example_grows_by_threads() (
    has_python_vector || exit $is_skipped
    make_python_vector
    python_vector_runs "$top/examples/python/use_vector.py" "$work/t.cv" >"$out"
    printf '286 records of 15 growths\n286 records, the last 249, in all 31185\n' | cmp - "$out"
    run list u64 "$work/t.cv"
    head -n 36 "$out" | paste -d ' ' - - - | sort >"$work/blocks"
    for name in 0 1 2 3; do for turn in 0 1 2; do echo "$name $turn $((name + turn))"; done; done | cmp - "$work/blocks"
    tail -n +37 "$out" >"$work/rest"
    seq 0 249 | cmp - "$work/rest"
)

# The page has two programs, each of which begins with what it uses.
run_program_of_the_page() {
    shown_in use/python.md python | awk -v wanted="$1" '/^import sys/ { at++ } at == wanted' >"$work/shown.py"
    python_vector_runs "$work/shown.py" "$work/t.cv" >"$out"
}

the_python_program_of_the_page_grows_by_threads() (
    has_python_vector || exit $is_skipped
    make_python_vector
    run_program_of_the_page 1
    echo '16 records, 8 growths durable' | cmp - "$out"
    run list u64 "$work/t.cv"
    paste -d ' ' - - <"$out" | sort >"$work/blocks"
    for name in 0 1 2 3 4 5 6 7; do echo "$name $((name + 100))"; done | cmp - "$work/blocks"
)

# A sample is a sensor, a second, and half the second as a double.
the_python_program_of_the_page_writes_rows_in_place() (
    has_python_vector || exit $is_skipped
    "$python" -c 'import numpy' 2>/dev/null || lacks 'there is no numpy for arrays for Python' || exit $is_skipped
    make_python_vector
    run_program_of_the_page 2
    echo '60 samples up to 29.5, the last (7, 59, 29.5)' | cmp - "$out"
    run list bytes24 "$work/t.cv"
    [ "$(wc -l <"$out")" -eq 60 ]
    [ "$(sed -n 3p "$out")" = 07000000000000000200000000000000000000000000f03f ]
)

# The commands of the page, in a copy of the repository over the crates as they are built: the page's program runs by what pip puts into
# an empty prefix.
the_first_program_of_the_python_page_runs_by_its_lines() (
    has_python_vector && has make 'the libraries' || exit $is_skipped
    python3 -c 'import ensurepip, venv' 2>/dev/null || lacks 'there is no venv with pip for the package of Python' || exit $is_skipped
    make_c_library
    make_threads_library
    mkdir "$work/there"
    cd "$work/there"
    cp -Rp "$top/bindings" "$top/tools" "$top/Makefile" "$top/crates.txt" .
    ln -s "$top/crates" .
    shown_in use/python.md python | awk '/^import sys/ { at++ } at == 1' >first.py
    sed -n '/^```sh$/,/^```$/p' "$top/docs/use/python.md" | sed '/^```/d' >"$work/build.sh"
    unset CVEC_LIB PYTHONPATH
    sh -e "$work/build.sh" >"$out" 2>"$err" || { cat "$out" "$err" && exit 1; }
    [ "$(tail -n 1 "$out")" = '16 records, 8 growths durable' ]
)

samples_of_sensors_go_on_in_python() (
    has_python_vector || exit $is_skipped
    make_python_vector
    export "CVEC_LIB=$built" "PYTHONPATH=$top/bindings/python" PYTHONDONTWRITEBYTECODE=1
    goes_on_with_its_samples "$python" "$top/examples/python/samples.py"
)

words_are_indexed_in_python() (
    has_python_vector || exit $is_skipped
    make_python_vector
    export "CVEC_LIB=$built" "PYTHONPATH=$top/bindings/python" PYTHONDONTWRITEBYTECODE=1
    indexes_words u64 1 "$python" "$top/examples/python/word_index.py"
)

results_of_a_pool_are_kept_in_python() (
    has_python_vector || exit $is_skipped
    make_python_vector
    export "CVEC_LIB=$built" "PYTHONPATH=$top/bindings/python" PYTHONDONTWRITEBYTECODE=1
    has_results_of_a_pool u64 2 "$python" "$top/examples/python/pool.py"
)

# ---- what the vector is

a_python_vector_grows_and_reads() (
    is_so_with_and_without_numpy grows_and_reads
)

a_python_vector_has_indices_and_slices() (
    is_so_with_and_without_numpy indices_and_slices
    rm -rf "$work/files"
    is_so_with_and_without_numpy a_slice_beside_a_shrink
)

a_python_vector_takes_no_other_values() (
    is_so_with_and_without_numpy what_is_no_record
)

a_python_vector_takes_arrays_of_numpy() (
    is_so_with_numpy arrays
    is_so_with_numpy arrays_with_a_mask
)

rows_of_some_sizes_are_one_record_of_python() (
    is_so_with_numpy rows_that_are_one_record
)

a_python_vector_has_rows_of_a_dtype() (
    is_so_with_numpy rows_of_a_dtype
    is_so_with_numpy rows_with_padding
    is_so_with_numpy tuples_for_a_dtype
)

a_python_vector_has_records_of_each_type() (
    is_so_with_and_without_numpy records_of_each_type
    is_so_with_numpy arrays_of_each_type
)

a_dtype_without_numpy_is_refused() (
    is_so_without_numpy dtype_without_numpy
)

a_python_appender_grows_by_blocks() (
    is_so_with_and_without_numpy appenders
)

growths_of_python_that_are_interrupted_are_made_once() (
    is_so_with_and_without_numpy growths_are_interrupted
)

interrupted_calls_of_a_python_vector_leave_it() (
    is_so_without_numpy interrupts_come_at_any_moment
    rm -rf "$work/files"
    is_so_without_numpy an_interrupt_comes_as_soon_as_c_has_begun
    rm -rf "$work/files"
    is_so_without_numpy the_turn_is_interrupted
    rm -rf "$work/files"
    is_so_without_numpy a_close_is_interrupted_at_any_moment
    rm -rf "$work/files"
    is_so_without_numpy calls_are_interrupted_at_any_moment
)

# ---- the whole vector

a_whole_python_vector_is_changed_and_searched() (
    is_so_with_and_without_numpy the_whole_vector
    run check u64 "$work/files/vector.cvec"
    grep -q '^ok version 1 width 8 size 131072 .* live 2$' "$out"
    run list u64 "$work/files/vector.cvec"
    { echo 8 && seq 0 131070; } | cmp - "$out"
)

a_whole_python_vector_has_rows_of_a_dtype() (
    is_so_with_numpy rows_of_the_whole_vector
)

a_call_of_a_whole_python_vector_waits_for_others() (
    is_so_without_numpy the_whole_vector_beside_threads
    run list u64 "$work/files/vector.cvec"
    did '7\n'
)

a_refused_call_of_a_whole_python_vector_leaves_it() (
    is_so_without_numpy refused_memory_loses_nothing
    run list u64 "$work/files/vector.cvec"
    did '5\n11\n'
    rm -rf "$work/files"
    is_so_without_numpy a_call_of_the_whole_vector_is_interrupted
    rm -rf "$work/files"
    is_so_without_numpy a_change_that_fails_breaks_it
    run list u64 "$work/files/vector.cvec"
    seq 0 299 | cmp - "$out"
    rm -rf "$work/files"
    is_so_without_numpy a_call_within_a_call_is_refused
)

calls_of_a_whole_python_vector_that_are_killed_are_made_or_not() (
    has_python_vector || exit $is_skipped
    make_python_vector
    cc -shared -fPIC -o "$work/syncs.so" "$top/tests/bindings/syncs.c"
    python_vector_runs "$top/tests/bindings/vector_steps.py" "$work/t.cv" "$work/syncs.so" "$python" "$top/tests/bindings/vector_steps_writer.py"
    run list u64 "$work/t.cv"
    did '40\n'
)

# ---- what is lent

what_a_python_vector_lends_stays() (
    is_so_with_and_without_numpy what_is_lent_stays
)

what_a_python_vector_lends_is_read_alone() (
    is_so_with_and_without_numpy what_is_lent_is_read_alone
)

what_a_python_vector_lends_holds_it() (
    is_so_with_and_without_numpy what_is_lent_holds_the_vector
    rm -rf "$work/files"
    is_so_with_and_without_numpy an_exception_goes_on_where_records_are_lent
)

a_python_vector_is_searched_beside_calls() (
    is_so_with_and_without_numpy count_and_find_need_nobody_out
    rm -rf "$work/files"
    is_so_with_and_without_numpy what_equals_is_found
)

no_call_of_python_is_made_for_each_record() (
    is_so_with_and_without_numpy no_call_is_made_for_each_record
    rm -rf "$work/files"
    is_so_with_and_without_numpy passes_go_over_any_growths
    rm -rf "$work/files"
    is_so_with_and_without_numpy short_growths_are_copied_by_c
    rm -rf "$work/files"
    is_so_with_and_without_numpy a_pass_copies_no_more_than_it_takes
)

a_pass_of_python_holds_a_vector_no_longer() (
    is_so_with_and_without_numpy nobody_waits_for_what_was_read
    rm -rf "$work/files"
    is_so_with_and_without_numpy records_stay_under_a_pass
)

numpy_takes_a_python_vector() (
    is_so_with_numpy numpy_takes_a_vector
)

a_python_vector_is_compacted() (
    is_so_with_and_without_numpy each_piece_is_put_behind_the_others
)

a_python_vector_makes_room_where_nothing_is_lent() (
    is_so_with_and_without_numpy a_room_of_eight
)

threads_of_python_read_where_records_stand() (
    is_so_with_and_without_numpy threads_lend_and_change
)

a_forked_python_process_reads_what_was_lent() (
    is_so_with_and_without_numpy a_forked_process_reads_what_was_lent
)

what_is_lent_outlives_a_python_vector() (
    is_so_with_and_without_numpy what_is_lent_outlives_the_vector
    rm -rf "$work/files"
    is_so_with_and_without_numpy cycles_of_what_is_lent_are_collected
    rm -rf "$work/files"
    is_so_without_numpy a_vector_of_a_cycle_is_closed_behind_all_of_it
    rm -rf "$work/files"
    is_so_with_and_without_numpy a_program_ends_with_what_is_lent
)

# ---- growth in place

rows_of_a_python_vector_are_written_in_place() (
    is_so_with_and_without_numpy rows_are_written_in_place
)

a_block_of_python_that_is_left_by_an_exception_is_dropped() (
    is_so_with_and_without_numpy a_block_that_is_left_by_an_exception_is_dropped
)

what_is_kept_of_a_block_of_python_writes_no_record() (
    is_so_with_and_without_numpy what_is_kept_of_a_block_writes_no_record
)

a_block_of_python_is_refused_as_a_growth_is() (
    is_so_with_and_without_numpy a_block_is_refused_as_a_growth_is
)

blocks_of_python_that_are_interrupted_are_grown_once() (
    is_so_with_and_without_numpy blocks_are_interrupted
)

threads_of_python_grow_in_place() (
    is_so_with_and_without_numpy threads_grow_in_place
)

# ---- more growths than a phase has room for

a_full_python_vector_goes_on() (
    has_python_vector || exit $is_skipped
    cc -O1 -shared -fPIC -o "$work/often.so" "$top/tests/bindings/often.c"
    export OFTEN="$work/often.so"
    is_so_without_numpy a_full_phase_goes_on
    run list u64 "$work/files/vector.cvec"
    seq 0 1048568 | cmp - "$out"
    rm -rf "$work/files"
    is_so_without_numpy threads_fill_phases
    rm -rf "$work/files"
    is_so_without_numpy phases_end_beside_threads
    rm -rf "$work/files"
    is_so_without_numpy random_calls_beside_threads
)

# ---- refusals

each_status_in_python_has_the_sentence_of_c() (
    is_so_without_numpy each_status_has_the_sentence_of_c
)

a_python_vector_names_each_refusal() (
    is_so_with_and_without_numpy each_refusal
)

what_the_system_refused_to_a_python_vector_is_an_os_error() (
    is_so_without_numpy what_the_system_refused_is_an_os_error
)

a_python_vector_shows_what_it_is() (
    is_so_with_and_without_numpy a_vector_shows_what_it_is
)

a_python_vector_is_opened_or_created() (
    is_so_without_numpy a_vector_is_opened_or_created
)

a_refusal_of_a_python_vector_goes_to_another_process() (
    is_so_without_numpy a_refusal_goes_to_another_process
)

a_python_vector_is_not_copied() (
    is_so_without_numpy no_copy_is_made
)

a_python_vector_is_in_use_by_another_program() (
    is_so_without_numpy grows_and_reads
    (
        flock -n 9
        python_vector_runs "$top/tests/bindings/vector_cases.py" "$work/files" is_locked_by_another plain
    ) 9<"$work/files/vector.cvec"
)

a_forked_python_process_is_refused_by_a_vector() (
    is_so_without_numpy a_forked_process_is_refused
    rm -r "$work/files"
    is_so_without_numpy a_forked_process_with_its_parents_number_is_refused
)

a_full_device_leaves_what_python_settled() (
    is_so_without_numpy a_full_device_leaves_what_is_settled
)

# ---- threads, and a process that is killed

threads_of_python_grow_whole_blocks() (
    is_so_with_and_without_numpy threads_grow_whole_blocks
)

more_threads_of_python_than_seats_work() (
    is_so_without_numpy more_threads_than_seats_work
)

a_wait_for_a_seat_in_python_ends() (
    is_so_without_numpy an_interrupt_ends_a_wait_for_a_seat
    rm -rf "$work/files"
    is_so_without_numpy a_close_ends_a_wait_for_a_seat
)

a_seat_of_python_settles_its_own_growths() (
    is_so_without_numpy a_seat_settles_its_own_growths
)

a_call_of_a_python_vector_lets_threads_run() (
    has_python_vector || exit $is_skipped
    printf '#include <unistd.h>\nint fdatasync(int fd) { sleep(1); return fsync(fd); }\n' >"$work/slow.c"
    cc -shared -fPIC -o "$work/slow.so" "$work/slow.c"
    export LD_PRELOAD="$work/slow.so"
    is_so_without_numpy a_call_lets_other_threads_run
)

a_wait_has_a_deadline_in_python() (
    has_python_vector || exit $is_skipped
    cc -shared -fPIC -o "$work/syncs.so" "$top/tests/bindings/syncs.c"
    export LD_PRELOAD="$work/syncs.so" GATE="$work/gate"
    is_so_without_numpy a_wait_has_a_deadline
)

a_flusher_in_python_commits_what_nobody_settles() (
    is_so_without_numpy a_flusher_commits_what_nobody_settles
    rm -rf "$work/files"
    is_so_without_numpy a_flusher_may_be_late
    rm -rf "$work/files"
    is_so_without_numpy a_close_that_is_interrupted_is_made_again
)

a_flusher_in_python_lasts_as_long_as_its_block() (
    is_so_without_numpy a_flusher_lasts_as_long_as_its_block
    rm -rf "$work/files"
    is_so_without_numpy a_block_of_a_flusher_reports_what_is_refused
    rm -rf "$work/files"
    is_so_without_numpy a_vector_that_is_given_up_ends_its_flusher
    rm -rf "$work/files"
    is_so_without_numpy a_forked_process_leaves_the_block_of_a_flusher
)

a_flusher_in_python_ends_with_its_program() (
    is_so_without_numpy an_interrupt_ends_a_flusher_of_the_main_thread
    rm -rf "$work/files"
    is_so_without_numpy a_program_ends_beside_flushers
)

a_python_vector_that_is_closed_waits_for_calls() (
    is_so_without_numpy a_close_waits_for_calls
)

a_python_program_ends_beside_a_thread_in_a_call() (
    is_so_without_numpy a_program_ends_beside_a_thread
)

threads_of_python_that_are_killed_lose_nothing_settled() (
    has_python_vector || exit $is_skipped
    make_python_vector
    python_vector_runs "$top/tests/bindings/vector_killed.py" "$work/t.cv" 12 "$python" "$top/tests/bindings/vector_writer.py"
)
