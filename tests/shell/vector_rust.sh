# The vector that threads of Rust, as rustc compiles it, grow (bindings/rust), over the library for threads of C.

# ---- its programs, built as docs/use/threads.md says; what several tests take once, beside the folder of a test's files

built=$work-built

has_rust_vector() { has_c && has rustc 'the vector for plain Rust'; }

make_rust_vector() { make_rust_crate "$built"; }

make_rust_cases() {
    has_rust_vector || exit $is_skipped
    make_rust_vector
    if [ -e "$built/cases" ]; then return; fi
    cc -O1 -fPIC -c "$top/tests/bindings/refused.c" -o "$built/refused.o"
    make_rust_program "$top/tests/bindings/vector_cases.rs" "$built/cases" -C "link-arg=$built/refused.o" -C link-arg=-Wl,--wrap=cvec_vector_resize
}

# A test of tests/bindings/vector_cases.rs.
is_so_in_rust() {
    make_rust_cases
    mkdir "$work/files"
    timeout 120 "$built/cases" "$1" "$work/files/t.cv" >"$work/told_by_rust"
}

# The file of that test has these lines, as the program reads it.
has_lines() {
    run list u64 "$work/files/t.cv"
    [ "$status" -eq 0 ]
    cmp - "$out"
}

# The last of them has records of flagged.
a_rust_vector_has_records_of_each_type() (
    is_so_in_rust has_types
    run list flagged "$work/files/t.cv"
    did '1:1\n1:1\n18446744073709551615:0\n0:1\n0:1\n'
)

the_rust_example_grows_by_threads() (
    has_rust_vector || exit $is_skipped
    make_rust_vector
    make_rust_program "$top/examples/rust/use_vector.rs" "$work/use"
    timeout 120 "$work/use" "$work/t.cv" >"$out"
    printf '286 records of 15 growths\n286 records, the last 249, in all 31185\n' | cmp - "$out"
    run list u64 "$work/t.cv"
    head -n 36 "$out" | paste -d ' ' - - - | sort >"$work/blocks"
    for name in 0 1 2 3; do for turn in 0 1 2; do echo "$name $turn $((name + turn))"; done; done | cmp - "$work/blocks"
    tail -n +37 "$out" >"$work/rest"
    seq 0 249 | cmp - "$work/rest"
)

samples_of_sensors_go_on_in_rust() (
    has_rust_vector || exit $is_skipped
    make_rust_vector
    make_rust_program "$top/examples/rust/samples.rs" "$work/samples"
    goes_on_with_its_samples "$work/samples"
)

words_are_indexed_in_rust() (
    has_rust_vector || exit $is_skipped
    make_rust_vector
    make_rust_program "$top/examples/rust/word_index.rs" "$work/word_index"
    indexes_words u64 1 "$work/word_index"
)

results_of_a_pool_are_kept_in_rust() (
    has_rust_vector || exit $is_skipped
    make_rust_vector
    make_rust_program "$top/examples/rust/pool.rs" "$work/pool"
    has_results_of_a_pool u64 2 "$work/pool"
)

# The page has two programs, each of which begins with what it uses.
make_program_of_the_page() {
    has_rust_vector || exit $is_skipped
    make_rust_vector
    shown_in use/rust.md rust | awk -v wanted="$1" '/^use cvec/ { at++ } at == wanted' >"$work/shown.rs"
    make_rust_program "$work/shown.rs" "$work/shown"
    (cd "$work" && timeout 120 ./shown t.cv >"$out")
}

the_rust_program_of_the_page_grows_by_threads() (
    make_program_of_the_page 1
    echo '16 records, 8 growths durable' | cmp - "$out"
    run list u64 "$work/first.cv"
    paste -d ' ' - - <"$out" | sort >"$work/blocks"
    for name in 0 1 2 3 4 5 6 7; do echo "$name $((name + 100))"; done | cmp - "$work/blocks"
)

# A sensor and a second are the key, and half the second, as a double, is the value.
the_rust_program_of_the_page_writes_structs_in_place() (
    make_program_of_the_page 2
    echo '60 samples up to 29.5, the last Sample { sensor: 7, second: 59, value: 29.5 }' | cmp - "$out"
    run list pair "$work/t.cv"
    [ "$(wc -l <"$out")" -eq 60 ]
    [ "$(sed -n '1p;3p' "$out" | tr '\n' ' ')" = '7:0 8589934599:4607182418800017408 ' ]
)

# The commands of the page, in a copy of the repository over the crates as they are built.
the_build_of_the_page_makes_the_rust_example() (
    has_c && has make 'the libraries' && has cargo 'a crate of plain Rust' || exit $is_skipped
    make_c_library
    make_threads_library
    mkdir "$work/there"
    cd "$work/there"
    cp -Rp "$top/bindings" "$top/examples" "$top/tools" "$top/Makefile" "$top/crates.txt" .
    ln -s "$top/crates" .
    shown_in use/rust.md sh | sed -n '/^make/,$p' >"$work/build.sh"
    unset CVEC_LIB
    CARGO_NET_OFFLINE=true sh -e "$work/build.sh" >"$out" 2>"$err" || { cat "$err" && exit 1; }
    printf '286 records of 15 growths\n286 records, the last 249, in all 31185\n' | cmp - "$out"
)

the_rust_documents_compile() (
    has_rust_vector && has rustdoc 'the examples in documents of plain Rust' || exit $is_skipped
    make_rust_vector
    rustdoc --test --edition 2024 --crate-name cvec -L "$built" "$top/bindings/rust/src/lib.rs" >"$out"
    grep -q '^test result: ok. 2 passed; 0 failed; 0 ignored; ' "$out"
)

a_rust_vector_grows_and_reads() (
    is_so_in_rust grows_and_reads
    printf '%s\n' 5 7 11 18446744073709551615 0 13 17 | has_lines
    run check u64 "$work/files/t.cv"
    [ "$(cut -d ' ' -f -7 "$out")" = 'ok version 2 width 8 size 7' ]
)

# The last of them are five samples, of five words each.
a_rust_vector_has_own_structs_as_records() (
    is_so_in_rust has_own_structs
    run list u64 "$work/files/t.cv"
    [ "$(sed -n '11,13p' "$out" | tr '\n' ' ')" = '4294967296 4746794007248502784 562954248388608 ' ]
    [ "$(wc -l <"$out")" -eq 25 ]
)

own_structs_are_searched_and_resized_in_rust() (
    is_so_in_rust searches_and_resizes_own_structs
    run check u64 "$work/files/t.cv"
    [ "$(cut -d ' ' -f -7 "$out")" = 'ok version 1 width 8 size 10' ]
)

threads_of_rust_keep_what_they_are_lent() (
    is_so_in_rust lends
    run check u64 "$work/files/t.cv"
    [ "$(cut -d ' ' -f -7 "$out")" = 'ok version 1 width 8 size 19999' ]
)

a_rust_vector_that_has_lent_records_is_full() (
    is_so_in_rust is_full_where_it_lends
    seq 0 64 | has_lines
)

a_view_of_a_rust_vector_has_its_records_by_position() (
    is_so_in_rust views
    run check u64 "$work/files/t.cv"
    [ "$(cut -d ' ' -f -7 "$out")" = 'ok version 1 width 8 size 303889' ]
)

a_rust_vector_grows_in_place() (
    is_so_in_rust fills_in_place
    printf '%s\n' 1 2 3 3 2 | has_lines
)

a_rust_vector_is_searched_beside_growers() (
    is_so_in_rust searches_beside_growers
    run check u64 "$work/files/t.cv"
    [ "$(cut -d ' ' -f -7 "$out")" = 'ok version 1 width 8 size 27000' ]
)

a_rust_vector_takes_options() (
    is_so_in_rust has_options
    run check u64 "$work/files/t.cv"
    [ "$(cut -d ' ' -f -7 "$out")" = 'ok version 2 width 8 size 0' ]
)

a_rust_appender_grows_by_blocks() (
    is_so_in_rust appends
    seq 0 7 | has_lines
)

a_rust_vector_names_each_refusal() (
    is_so_in_rust each_refusal
    { yes 1 | head -n 131071; printf '3\n3\n3\n3\n'; } | has_lines
)

a_wait_has_a_deadline_in_rust() (
    make_rust_cases
    cc -shared -fPIC -o "$work/syncs.so" "$top/tests/bindings/syncs.c"
    export LD_PRELOAD="$work/syncs.so" GATE="$work/gate"
    is_so_in_rust has_a_deadline
    seq 5 7 | has_lines
)

a_flusher_in_rust_commits_what_nobody_settles() (
    is_so_in_rust flushes
    seq 0 9 | has_lines
)

a_full_rust_vector_goes_on_by_its_seats() (
    is_so_in_rust is_full
    seq 0 1048569 | has_lines
)

a_rust_vector_that_threads_fill_goes_on() (
    is_so_in_rust is_full_by_threads
    run check u32 "$work/files/t.cv"
    [ "$(cut -d ' ' -f -7 "$out")" = 'ok version 2 width 4 size 1120000' ]
)

more_threads_of_rust_than_seats_work() (
    is_so_in_rust waits_for_a_seat
    run list u64 "$work/files/t.cv"
    sort -n "$out" >"$work/sorted"
    { seq 0 1999; echo 1000000; } | cmp - "$work/sorted"
)

a_whole_rust_vector_is_changed_and_searched() (
    is_so_in_rust is_changed
    printf '5\n8\n' | has_lines
    run check u64 "$work/files/t.cv"
    grep -q '^ok version 1 width 8 size 2 .* live 1$' "$out"
)

# What was durable is there, and nothing of the change.
a_refused_call_of_a_whole_rust_vector_leaves_it() (
    export REFUSED=1
    is_so_in_rust is_refused
    printf '5\n11\n' | has_lines
    rm "$work/files/t.cv"
    unset REFUSED
    (
        ulimit -f 8
        exec timeout 120 "$built/cases" is_broken "$work/files/t.cv"
    )
    yes 5 | head -n 300 | has_lines
)

calls_of_a_whole_rust_vector_that_are_killed_are_made_or_not() (
    has python3 'what compares a file with steps' || exit $is_skipped
    make_rust_cases
    cc -shared -fPIC -o "$work/syncs.so" "$top/tests/bindings/syncs.c"
    PYTHONDONTWRITEBYTECODE=1 timeout 120 python3 "$top/tests/bindings/vector_steps.py" "$work/t.cv" "$work/syncs.so" "$built/cases" steps
    run list u64 "$work/t.cv"
    did '40\n'
)

a_rust_vector_is_in_use_by_another_program() (
    is_so_in_rust forks
    status=0
    flock "$work/files/t.cv" "$built/cases" write "$work/files/t.cv" 0 1 1 >"$out" 2>"$err" || status=$?
    [ "$status" -ne 0 ]
    tells InUse
    [ ! -s "$out" ]
)

a_forked_rust_process_is_refused_by_a_vector() (
    is_so_in_rust forks
    printf '5\n7\n' | has_lines
)

# The signal of a file that would be longer than `ulimit -f` allows doesn't end it.
a_full_device_leaves_what_rust_settled() (
    has python3 'what compares a file with blocks' || exit $is_skipped
    make_rust_cases
    (
        ulimit -f 8
        exec "$built/cases" fills "$work/t.cv" >"$out"
    )
    PYTHONDONTWRITEBYTECODE=1 PYTHONPATH=$top/tests/bindings python3 - "$work/t.cv" "$(cat "$out")" <<'PY'
import sys
from vector_blocks import block, records_of
turns = int(sys.argv[2])
assert turns > 3 and records_of(sys.argv[1]) == [it for turn in range(turns) for it in block(0, 1, turn)]
PY
)

compile_wrong() {
    rustc --edition 2024 --crate-type lib --emit=metadata -o "$work/wrong" "${1:-$work/wrong.rs}" \
        --extern "cvec=$built/libcvec.rlib" 2>"$err"
}

is_refused_by_rustc() {
    if compile_wrong "${2:-$work/wrong.rs}"; then return 1; fi
    tells "$1"
}

# The compiler sees to these: a seat is one thread's, no vector is closed before its seats, nor changed while one is there.
the_compiler_refuses_what_a_seat_is_not_for() (
    has_rust_vector || exit $is_skipped
    make_rust_vector
    {
        echo 'use cvec::{Error, Vector};'
        echo 'pub fn share(vector: &Vector) -> Result<(), Error> {'
        echo '    let seat = vector.seat()?;'
        echo '    std::thread::scope(|scope| { scope.spawn(|| seat.settled()); });'
        echo '    Ok(())'
        echo '}'
        echo 'pub fn close(vector: Vector) -> Result<u64, Error> {'
        echo '    let seat = vector.seat()?;'
        echo '    vector.close()?;'
        echo '    seat.settled()'
        echo '}'
    } >"$work/wrong.rs"
    is_refused_by_rustc 'cannot be shared between threads safely'
    sed -i '/scope/d' "$work/wrong.rs"
    is_refused_by_rustc 'cannot move out of `vector` because it is borrowed'
    for call in 'change(0, \&[5])' 'resize(0, 5)' 'clear()' 'fold()' 'compact()'; do
        sed "s/close(vector: Vector)/change(mut vector: Vector)/; s/vector\.close()/vector.$call/" "$work/wrong.rs" >"$work/changed.rs"
        sed '/seat\.settled/s/.*/    Ok(0)/; /let seat/d' "$work/changed.rs" >"$work/right.rs"
        compile_wrong "$work/right.rs"
        is_refused_by_rustc 'cannot borrow `vector` as mutable because it is also borrowed as immutable' "$work/changed.rs"
    done
    sed -i '/vector.close/d' "$work/wrong.rs"
    compile_wrong
)

# The numbers of the errors for which this program of tests/bindings isn't compiled, with these names, each once.
errors_of() {
    program_of_errors=$top/tests/bindings/$1.rs
    shift
    if rustc --edition 2024 --crate-type lib --emit=obj --error-format short -o "$work/wrong" "$program_of_errors" \
        --extern "cvec=$built/libcvec.rlib" "$@" 2>"$err"; then
        echo none
        return
    fi
    sed -n 's/^[^ ]* error\[\(E[0-9]*\)\].*/\1/p' "$err" | sort -u
}

# Each line has names, with which the program is refused for this error alone, in these words. With the other name besides it isn't.
is_refused_for_each() {
    [ "$(errors_of "$1")" = none ]
    while IFS='|' read -r names wanted sentence; do
        words=
        for name in $names; do words="$words --cfg $name"; done
        # shellcheck disable=SC2086 # several words
        [ "$(errors_of "$1" $words)" = "$wanted" ] && tells "$sentence" || { echo "$names" && cat "$err" && exit 1; }
        # shellcheck disable=SC2086
        [ "$(errors_of "$1" $words --cfg "$2")" = none ] || { echo "$names $2" && cat "$err" && exit 1; }
    done
}

the_compiler_keeps_what_is_lent() (
    has_rust_vector || exit $is_skipped
    make_rust_vector
    is_refused_for_each vector_lent used_before <<'NAMES'
change|E0502|cannot borrow `vector` as mutable
resize|E0502|cannot borrow `vector` as mutable
clear|E0502|cannot borrow `vector` as mutable
fold|E0502|cannot borrow `vector` as mutable
compact|E0502|cannot borrow `vector` as mutable
close|E0505|cannot move out of `vector`
end|E0505|cannot move out of `vector`
swap|E0502|cannot borrow `vector` as mutable
assign|E0506|cannot assign to `vector`
send|E0505|cannot move out of `vector`
outlive|E0597|`vector` does not live long enough
keep|E0521|borrowed data escapes
change of_pieces|E0502|cannot borrow `vector` as mutable
compact of_view|E0502|cannot borrow `vector` as mutable
close of_record|E0505|cannot move out of `vector`
NAMES
)

the_compiler_keeps_a_seat_in_its_thread() (
    has_rust_vector || exit $is_skipped
    make_rust_vector
    is_refused_for_each vector_shared here <<'NAMES'
seat_shared|E0277|cannot be shared between threads safely
pieces_sent|E0277|cannot be shared between threads safely
appender_sent|E0277|cannot be shared between threads safely
NAMES
)

the_compiler_refuses_structs_that_are_no_records() (
    has_rust_vector || exit $is_skipped
    make_rust_vector
    is_refused_for_each vector_records mended <<'NAMES'
padded|E0080|a record has no padding between its fields or behind them
padded_behind|E0080|a record has no padding between its fields or behind them
hidden|E0026|does not have a field named `other`
reference|E0277|`&'static u64` isn't plain: not any bytes are a value of it
boolean|E0277|`bool` isn't plain: not any bytes are a value of it
character|E0277|`char` isn't plain: not any bytes are a value of it
pointer|E0277|isn't plain: not any bytes are a value of it
machine|E0277|`usize` isn't plain: not any bytes are a value of it
unsaid|E0277|`Inner` isn't plain: not any bytes are a value of it
odd|E0080|a record has 1, 2 or 4 bytes, or 8, 16, 24, .. 256
large|E0080|a record has 1, 2 or 4 bytes, or 8, 16, 24, .. 256
overaligned|E0080|a record is aligned to 8 bytes at most
NAMES
)

# No round of kills: 8 threads with 20 growths each are all told.
threads_of_rust_grow_whole_blocks() (
    has python3 'what compares a file with blocks' || exit $is_skipped
    make_rust_cases
    PYTHONDONTWRITEBYTECODE=1 timeout 120 python3 "$top/tests/bindings/vector_killed.py" "$work/t.cv" 0 "$built/cases" write
)

threads_of_rust_that_are_killed_lose_nothing_settled() (
    has python3 'what compares a file with blocks' || exit $is_skipped
    make_rust_cases
    PYTHONDONTWRITEBYTECODE=1 timeout 120 python3 "$top/tests/bindings/vector_killed.py" "$work/t.cv" 12 "$built/cases" write
)
