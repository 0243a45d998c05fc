# cvec::concurrent_vector for C++ (bindings/cpp), over the C for threads (bindings/c/src) and cvec_threads.

cpp=$top/examples/cpp
cpp_headers=$top/bindings/cpp/include
cpp_tests=$top/tests/cpp

# ---- programs in C++, each built once, beside the folder of a test's files

built=$work-built

has_cpp() { has_c && has c++ 'the vector for C++'; }

# Compiles a file of C++ with these words to the compiler, which say what is made of it.
compile_cpp() {
    "${compiler-c++}" -std=c++17 -O1 -Wall -Wextra -Wpedantic -Wconversion -Werror "-I$cpp_headers" "-I$c_headers" "$@"
}

# Links what is compiled with the calls of the system, the library and these words.
link_cpp() {
    compile_cpp "$@" "$built/cvec_vector.o" "$threads_library" "$kit_library" -lpthread
}

make_cpp() {
    make_threads_library
    mkdir -p "$built"
    [ -e "$built/cvec_vector.o" ] || compile_c cvec_vector "$built"
    for name; do
        [ -e "$built/$name" ] || link_cpp -o "$built/$name" "$cpp_tests/$name.cc"
    done
}

# Each of these behaviours of the first program is as it is promised, on a new file.
behaves_by() {
    has_cpp || exit $is_skipped
    make_cpp "$1"
    tested=$built/$1
    shift
    each_behaves "$tested" "$@"
}

behaves() { behaves_by behaviours "$@"; }

each_behaves() {
    tested=$1
    shift
    for name; do
        rm -f "$work"/t.cv*
        status=0
        timeout 300 "$tested" "$name" "$work/t.cv" >"$work/said" 2>&1 || status=$?
        [ "$status" -eq 0 ] || { echo "${tested##*/} $name: status $status" && cat "$work/said" && return 1; }
    done
}

# This behaviour is as it is promised, and ends by a kill, behind what is durable.
ends_by_a_kill() {
    status=0
    timeout 300 "$built/behaviours" "$1" "$work/t.cv" >"$out" || status=$?
    cat "$out"
    [ "$status" -eq 137 ]
    [ ! -s "$out" ]
}

# ---- the header

compiles_without_a_warning() {
    has_c && has "$1" 'the vector for C++' || exit $is_skipped
    compiler=$1
    for name in behaviours lent views in_place idioms; do
        compile_cpp -O2 -Wshadow -Wnon-virtual-dtor -fsyntax-only "$cpp_tests/$name.cc"
    done
    for name in lent in_place idioms onetbb; do
        compile_cpp -std=c++20 -Wshadow -Wnon-virtual-dtor -fsyntax-only "$cpp_tests/$name.cc"
        compile_cpp -DCVEC_CHECKED -Wshadow -Wnon-virtual-dtor -fsyntax-only "$cpp_tests/$name.cc"
    done
    for name in threads sizes index; do
        compile_cpp -O2 -fsyntax-only "$cpp_tests/$name.cc"
    done
}

the_header_for_cpp_is_clean_by_gcc() (
    compiles_without_a_warning g++
)

the_header_for_cpp_is_clean_by_clang() (
    compiles_without_a_warning clang++
)

# Nor does any of those beside it.
each_header_for_cpp_stands_by_itself() (
    has_cpp || exit $is_skipped
    for header in "$cpp_headers"/cvec/*.hpp; do
        echo "header: $header"
        printf '#include "cvec/%s"\n' "${header##*/}" >"$work/other.cc"
        compile_cpp -Wshadow -fsyntax-only "$work/other.cc"
    done
)

# Two files of a program may have it, and need no other header before it.
the_header_for_cpp_is_in_many_files() (
    has_cpp || exit $is_skipped
    make_cpp
    cat >"$work/other.cc" <<'END'
#include "cvec/concurrent_vector.hpp"
std::size_t length_of(const char *path) { return cvec::concurrent_vector<double>(path).size(); }
END
    cat >"$work/main.cc" <<'END'
#include "cvec/concurrent_vector.hpp"
std::size_t length_of(const char *path);
int main(int, char **argv) {
    cvec::concurrent_vector<double>(argv[1]).push_back(0.5);
    return length_of(argv[1]) == 1 ? 0 : 1;
}
END
    link_cpp -o "$work/program" "$work/other.cc" "$work/main.cc"
    timeout 60 "$work/program" "$work/t.cv"
)

# A vector of this type isn't compiled, and the compiler says why.
is_refused_as() {
    printf '#include "cvec/concurrent_vector.hpp"\n%s\nint main() { cvec::concurrent_vector<%s> vector("t.cv"); }\n' \
        'template <int N> struct bytes { char all[N]; };' "$2" >"$work/other.cc"
    status=0
    compile_cpp -fsyntax-only "$work/other.cc" >"$out" 2>"$err" || status=$?
    [ "$status" -ne 0 ]
    tells "$1"
}

a_type_without_rows_is_refused_with_its_reason() (
    has_cpp || exit $is_skipped
    for type in 'bytes<257>' 'std::pair<bytes<256>, char>'; do
        is_refused_as 'T has 256 bytes at most' "$type"
    done
    for type in std::string 'std::vector<int>' 'const int' 'volatile double' 'std::unique_ptr<int>' \
        'std::pair<int, std::string>' 'std::pair<int &, int>' 'std::tuple<int, std::string>'; do
        is_refused_as 'T is copied to a file byte by byte' "$type"
    done
    printf '#include "cvec/concurrent_vector.hpp"\nstruct bytes { char all[256]; };\n%s\n' \
        'int main() { cvec::concurrent_vector<bytes> vector("t.cv"); }' >"$work/other.cc"
    compile_cpp -fsyntax-only "$work/other.cc"
)

# These lines, of a program with a vector of structs, are compiled. Further words go to the compiler.
compiles_with() {
    printf '#include "cvec/concurrent_vector.hpp"\nstruct sample {\n    double value;\n};\n' >"$work/other.cc"
    printf 'void use(cvec::concurrent_vector<sample> &v) {\n    %s\n}\n' "$1" >>"$work/other.cc"
    shift
    compile_cpp -fsyntax-only "$@" "$work/other.cc" >"$out" 2>"$err"
}

# Rows are lent.
nothing_is_assigned_to_a_row() (
    has_cpp || exit $is_skipped
    compiles_with 'sample copy = v[0]; copy = *v.begin(); v.change(0, copy);'
    compiles_with 'const sample &row = v[0]; auto &same = v.at(0); const sample *place = &row; static_cast<void>(place == &same);'
    compiles_with 'auto &row = v[0]; static_assert(std::is_same_v<decltype(row), const sample &>); static_cast<void>(row);'
    for line in 'v[0] = sample{};' '*v.begin() = sample{};' 'std::fill(v.begin(), v.end(), sample{});'; do
        status=0
        compiles_with "$line" || status=$?
        [ "$status" -ne 0 ]
        tells const
    done
)

# Compilers show no warning of an installed header, and g++ only warns of a field that is narrowed.
no_field_of_a_row_is_narrowed() (
    has_cpp || exit $is_skipped
    for standard in 17 20; do
        for appends in 'v' 'cvec::appender<sample>(v)'; do
            compiles_with "float one = 1; $appends.emplace_back(one);" -w "-std=c++$standard"
            status=0
            compiles_with "long one = 1; $appends.emplace_back(one);" -w "-std=c++$standard" || status=$?
            [ "$status" -ne 0 ]
            tells 'cvec: these are no fields of T, or one of them would be narrowed'
        done
    done
)

# ---- members

rows_are_grown_in_cpp() (
    behaves greatest_growth past_the_end structs other_types growing
    run list u64 "$work/t.cv"
    did '5\n7\n0\n0\n9\n9\n9\n20\n21\n22\n30\n31\n30\n31\n8\n8\n8\n0\n50\n51\n52\n53\n22\n21\n20\n'
)

# The words of files as they are by hand.
rows_in_cpp_have_any_size() (
    has_cpp || exit $is_skipped
    make_cpp
    link_cpp -O0 -o "$work/sizes" "$cpp_tests/sizes.cc"
    timeout 60 "$work/sizes" "$work/t.cv"
    run list u32 "$work/t.cv"
    printf '%s\n' 4294967295 5 2147483648 4294967294 4294967294 4294967292 4294967293 4294967294 4294967295 | cmp - "$out"
    run list u64 "$work/t.cv.u64"
    printf '%s\n' 4294967295 5 2147483648 18446744069414584327 | cmp - "$out"
    run list u8 "$work/t.cv.char"
    did '65\n'
    run list u16 "$work/t.cv.2"
    did '513\n'
    run list bytes24 "$work/t.cv.24"
    did '010000000000000002000000000000000300000000000000\n'
    run list bytes32 "$work/t.cv.32"
    did '0100000000000000020000000000000003000000000000000400000000000000\n'
    run list bytes64 "$work/t.cv.64"
    did "$(printf '%02x00000000000000' 1 2 3 4 5 6 7 8)\n"
    run list u32 "$work/t.cv.float"
    did '1065353216\n'
    run list pair "$work/t.cv.pair"
    did '5:-7\n'
    run list flagged "$work/t.cv.flagged"
    did '5:1\n6:0\n'
    run list u64 "$work/t.cv.3"
    did '197121\n'
    run list u64 "$work/t.cv.9"
    did '578437695752307201\n9\n'
    run list u64 "$work/t.cv.triple"
    did '8589934593\n3\n'
)

# It lists these words, and `check` says so of what was changed and isn't folded.
lists() {
    run check u64 "$work/t.cv"
    [ "$(cut -d ' ' -f 6-7,10- "$out")" = "size $1 live $2" ]
    run list u64 "$work/t.cv"
    did "$3"
}

rows_are_taken_away_in_cpp() (
    behaves shortening
    rm "$work/t.cv"
    run create u64 "$work/t.cv"
    given '5\n6\n7\n'
    run append u64 "$work/t.cv"
    run set u64 "$work/t.cv" 1 --records=9
    did 'ok\n'
    timeout 60 "$built/behaviours" shortened "$work/t.cv"
    lists 2 0 '5\n9\n'
)

rows_are_changed_in_cpp() (
    behaves changing changing_nothing changing_most changing_counts_on changing_has_seats_again changing_ends \
        changing_beside changing_comes_soon reading_beside_changes changing_breaks
    rm "$work/t.cv"
    ends_by_a_kill changed
    lists 3 1 '5\n8\n9\n'
    ends_by_a_kill folded
    lists 3 0 '5\n8\n9\n'
)

rows_are_rewritten_in_place_in_cpp() (
    behaves rewriting rewriting_beside rewriting_by_threads rewriting_is_refused
)

rows_are_read_in_cpp() (
    behaves reading iterators pieces shared_iterator ranges searching
)

growths_have_receipts_in_cpp() (
    has_cpp || exit $is_skipped
    make_cpp behaviours
    ends_by_a_kill receipts
    run list u64 "$work/t.cv"
    did '4\n5\n6\n7\n8\n'
)

programs_use_a_vector_as_one_in_memory_in_cpp() (
    behaves_by idioms own_addresses fields texts compared inserted two_iterators hints tuples
    link_cpp -std=c++20 -o "$work/idioms" "$cpp_tests/idioms.cc"
    each_behaves "$work/idioms" fields compared inserted ordered begun copied
)

a_vector_begins_with_rows_in_cpp() (
    behaves_by idioms begun copied assigned
)

a_vector_stands_in_memory_alone_in_cpp() (
    behaves_by idioms in_memory
    [ ! -e "$work/t.cv" ]
    behaves_by idioms saved a_save_is_refused
)

a_path_with_a_zero_byte_is_refused_in_cpp() (
    behaves_by idioms zero_bytes
)

an_appender_may_outlive_its_vector_in_cpp() (
    behaves_by idioms an_appender_is_left a_view_keeps_others
)

# Built so that this is looked at, a use behind the end of a vector aborts the program.
a_use_behind_the_end_of_a_vector_is_told_in_cpp() (
    has_cpp || exit $is_skipped
    make_cpp
    link_cpp -DCVEC_CHECKED -o "$work/idioms" "$cpp_tests/idioms.cc"
    each_behaves "$work/idioms" each_is_told own_addresses inserted an_appender_is_left a_view_keeps_others
)

a_wait_has_a_deadline_in_cpp() (
    behaves deadlines deadlines_for_a_seat
)

a_flusher_in_cpp_commits_what_nobody_settles() (
    behaves flushing own_flusher
)

a_wait_for_the_device_keeps_no_seat_from_others_in_cpp() (
    behaves settling_lends_seats
)

a_push_takes_no_long_time_in_cpp() (
    behaves pushing_long
)

an_appender_gathers_rows_in_cpp() (
    behaves appenders
)

a_vector_is_closed_in_cpp() (
    behaves closing closing_meanwhile moving opening_without_memory
)

a_refusal_has_its_reason_in_cpp() (
    behaves refusals versions forking closing_in_a_fork forking_meanwhile forking_beside_a_flusher forking_in_a_turn \
        forking_with_one_number breaking
    : >"$work/t.cv"
    timeout 60 flock "$work/t.cv" "$built/behaviours" locked "$work/t.cv"
)

# As a container has, whose first process forks into a further one.
a_process_that_is_forked_into_a_namespace_is_refused_in_cpp() (
    has_cpp || exit $is_skipped
    first='unshare --pid --fork --kill-child'
    $first true 2>/dev/null || lacks 'there is no leave to make a namespace of processes' || exit $is_skipped
    make_cpp behaviours
    timeout 60 $first "$built/behaviours" forking_into_a_namespace "$work/t.cv"
)

threads_share_seats_in_cpp() (
    behaves few_seats many_threads turns reading_beside_reads
)

# Past the growths that a phase takes, and by more threads than seats.
growths_have_no_end_in_cpp() (
    behaves renewing renewing_by_one_and_many renewing_beside_changes renewing_elsewhere more_threads_than_seats
)

# ---- threads

threads_grow_and_read_whole_rows_in_cpp() (
    has_cpp && has python3 'the rows of threads' || exit $is_skipped
    make_cpp threads
    timeout 60 "$built/threads" "$work/t.cv" 8 2000 2 >"$work/durable"
    [ "$(python3 "$cpp_tests/rows.py" "$work/t.cv" 8 "$work/durable")" -gt 1000 ]
    grep -q '^durable 7 ' "$work/durable"
    run check bytes24 "$work/t.cv"
    [ "$status" -eq 0 ]
)

# What was told to be durable stands, at whatever moment the process is killed.
rows_of_killed_threads_stand_in_cpp() (
    has_cpp && has python3 'what compares a file with blocks' || exit $is_skipped
    make_cpp writer
    PYTHONDONTWRITEBYTECODE=1 timeout 120 python3 "$top/tests/bindings/vector_killed.py" "$work/t.cv" 12 "$built/writer"
)

# ---- rows that are lent

# References, iterators and pieces, of each size of row, and beside threads that grow.
rows_are_lent_in_cpp() (
    behaves_by lent each_type many_growths early_references lent_anew
)

references_are_kept_in_cpp() (
    behaves_by lent a_part_is_kept a_member_is_kept the_greater_one_is_kept iterators_of_two_vectors
)

what_is_lent_is_never_moved_by_growing_in_cpp() (
    behaves_by lent room_for_eight
)

a_forked_child_reads_what_its_parent_knew_in_cpp() (
    behaves_by lent forked
)

# In C++20 as those of std::span too.
rows_are_a_span_in_cpp() (
    behaves_by lent spans
    behaves_by in_place what_it_gives
    for name in lent in_place; do
        link_cpp -std=c++20 -o "$work/$name" "$cpp_tests/$name.cc"
    done
    each_behaves "$work/lent" spans
    each_behaves "$work/in_place" what_it_gives
)

an_index_says_where_rows_stand_in_cpp() (
    has_cpp || exit $is_skipped
    compile_cpp -O2 -o "$work/index" "$cpp_tests/index.cc" -lpthread
    timeout 120 "$work/index" 60
)

views_keep_rows_from_calls_of_the_whole_vector_in_cpp() (
    behaves_by views each_call the_reason flushers_go_on no_view copies what_it_shows
)

calls_of_the_whole_vector_wait_for_views_in_cpp() (
    behaves_by views a_call_waits a_wait_ends calls_come_soon a_view_within_a_view
)

a_view_outlives_its_vector_in_cpp() (
    behaves_by views it_outlives_the_vector it_outlives_an_assignment what_was_grown_is_kept a_child_has_its_own
)

# ---- growth in place

# By hand: rows 0 and 1 of three numbers of 4 bytes, of which each has 4 bytes of zeros behind it, and of 27 bytes.
rows_are_grown_in_place_in_cpp() (
    behaves_by in_place each_type
    run list u64 "$work/t.cv.three"
    [ "$(head -n 4 "$out" | paste -sd ' ')" = '0 4294967295 12884901889 4294967294' ]
    run list u64 "$work/t.cv.odd"
    [ "$(head -n 4 "$out" | paste -sd ' ')" = '3615022833237690369 7666072512169984057 11717122191102277745 12038313' ]
    run list flagged "$work/t.cv.flagged"
    [ "$(head -n 4 "$out" | paste -sd ' ')" = '0:1 1:0 2:0 3:1' ]
)

a_growth_in_place_leaves_nothing_where_it_is_refused_in_cpp() (
    behaves_by in_place what_it_throws refusals a_fork_within_it
)

a_growth_in_place_is_beside_other_calls_in_cpp() (
    behaves_by in_place calls_within_it one_within_another whole_calls_within_it whole_calls_beside_it \
        a_whole_call_comes_as_it_begins threads
)

# ---- sanitizers

# Whether programs with this sanitizer are built and run here.
has_cpp_sanitizer() {
    echo 'int main() {}' >"$work/empty.cc"
    c++ "-fsanitize=$1" -o "$work/empty" "$work/empty.cc" 2>/dev/null && "$work/empty" || lacks "c++ has no -fsanitize=$1"
}

# Builds this program, in the shortest time.
sanitized() {
    compile_cpp -O0 -g "-fsanitize=$sanitizer" -fno-sanitize-recover=undefined -o "$work/$1" "$cpp_tests/$1.cc" \
        "$work/cvec_vector.o" "$threads_library" "$kit_library" -lpthread
}

# Programs below are built with this sanitizer.
has_cpp_under() {
    sanitizer=$1
    has_cpp && has_cpp_sanitizer "$sanitizer" || exit $is_skipped
    make_threads_library
    compile_c cvec_vector "$work" -O1 -g "-fsanitize=$sanitizer"
    export TSAN_OPTIONS="suppressions=$top/tests/threads/suppressed.txt"
}

# These behaviours of the first program, without a complaint.
no_complaint_by() {
    sanitized "$1"
    tested=$work/$1
    shift
    each_behaves "$tested" "$@"
}

# Threads over some seconds, and so many of them that read.
no_complaint_of_threads() {
    sanitized threads
    timeout 120 "$work/threads" "$work/t.cv" 8 3000 "$1" >/dev/null
}

memory_is_used_rightly_in_cpp() (
    has_cpp_under address,undefined
    no_complaint_of_threads 2
    no_complaint_by behaviours growing greatest_growth structs other_types reading iterators shared_iterator ranges changing \
        changing_counts_on changing_has_seats_again changing_ends changing_beside changing_breaks appenders closing \
        closing_meanwhile moving opening_without_memory refusals breaking few_seats many_threads renewing own_flusher \
        settling_lends_seats rewriting rewriting_beside rewriting_by_threads rewriting_is_refused
    rm -f "$work"/t.cv*
    sanitized sizes
    timeout 60 "$work/sizes" "$work/t.cv"
)

memory_that_is_lent_is_used_rightly_in_cpp() (
    has_cpp_under address,undefined
    no_complaint_by lent each_type many_growths a_part_is_kept a_member_is_kept the_greater_one_is_kept spans early_references \
        lent_anew room_for_eight forked
    no_complaint_by idioms own_addresses texts inserted an_appender_is_left a_view_keeps_others two_iterators hints tuples begun \
        copied assigned in_memory saved a_save_is_refused
    no_complaint_by views each_call copies a_call_waits calls_come_soon it_outlives_the_vector it_outlives_an_assignment \
        what_was_grown_is_kept a_child_has_its_own
    no_complaint_by in_place each_type what_it_gives what_it_throws refusals calls_within_it one_within_another \
        whole_calls_beside_it a_whole_call_comes_as_it_begins threads
    sanitized index
    timeout 120 "$work/index" 12
)

# The library isn't built for this sanitizer, which sees how it copies records, but not by what its threads are in order. Of what is
# lent it is told that, so readers are beside growers here.
threads_are_in_order_in_cpp() (
    has_cpp_under thread
    no_complaint_of_threads 2
    no_complaint_by behaviours deadlines_for_a_seat flushing shortening shared_iterator changing_beside closing_meanwhile \
        few_seats many_threads turns reading_beside_reads renewing own_flusher settling_lends_seats rewriting_beside \
        rewriting_by_threads
    no_complaint_by lent early_references
    no_complaint_by views a_call_waits calls_come_soon
    # As in a program whose C isn't built for it either.
    make_cpp
    compile_cpp -O0 -g -fsanitize=thread -o "$work/lent" "$cpp_tests/lent.cc" "$built/cvec_vector.o" "$threads_library" \
        "$kit_library" -lpthread
    each_behaves "$work/lent" early_references
    no_complaint_by in_place calls_within_it whole_calls_beside_it threads
    sanitized index
    timeout 120 "$work/index" 12
)

# ---- the page, the examples, and oneTBB

the_program_of_the_page_for_cpp_runs() (
    has_cpp || exit $is_skipped
    make_cpp
    shown_in use/cpp.md cpp >"$work/first.cpp"
    cd "$work"
    link_cpp -o first first.cpp
    [ "$(timeout 60 ./first numbers.cv)" = '3 rows from position 0' ]
    [ "$(timeout 60 ./first numbers.cv)" = '3 rows from position 3' ]
    run list u64 "$work/numbers.cv"
    did '5\n7\n11\n5\n7\n11\n'
)

# The program is refused, and one line has this text.
is_refused_in_a_line() {
    text=$1
    shift
    status=0
    timeout 60 "$@" >"$out" 2>"$err" || status=$?
    [ "$status" -eq 1 ]
    [ "$(wc -l <"$err")" -eq 1 ]
    grep -q "$text" "$err"
}

# The greatest size of a file stands for a full disk. Of threads that wait one is told the first, and others the second.
tells_of_a_full_disk() {
    (
        ulimit -f 8
        is_refused_in_a_line ": the file can't be written: File too large\$\|: a write or a sync has failed before: " "$@"
    )
}

samples_of_sensors_go_on_in_cpp() (
    has_cpp || exit $is_skipped
    make_cpp
    link_cpp -o "$work/samples" "$cpp/samples.cc"
    goes_on_with_its_samples "$work/samples"
    tells_of_a_full_disk "$work/samples" "$work/full.cv"
)

words_are_indexed_in_cpp() (
    has_cpp || exit $is_skipped
    make_cpp
    link_cpp -o "$work/word_index" "$cpp/word_index.cc"
    indexes_words bytes32 1 "$work/word_index"
    tells_of_a_full_disk "$work/word_index" "$work/full.cv" Thread "$work"/*.txt
    is_refused_in_a_line '^-2: this is no word$' "$work/word_index" "$work/t.cv" -2 "$work/c.txt"
    for text in none.txt .; do
        is_refused_in_a_line "/$text: this text can't be read\$" "$work/word_index" "$work/t.cv" Thread "$work/$text"
    done
)

results_of_a_pool_are_kept_in_cpp() (
    has_cpp || exit $is_skipped
    make_cpp
    link_cpp -o "$work/pool" "$cpp/pool.cc"
    has_results_of_a_pool pair 1 "$work/pool"
    tells_of_a_full_disk "$work/pool" "$work/full.cv" 5000
    # For fewer numbers there is nothing left to do.
    timeout 60 "$work/pool" "$work/t.cv" 10 >"$out"
    sed 1d "$out" | cmp "$work/wanted" -
)

has_tbb() {
    printf '#include <oneapi/tbb/concurrent_vector.h>\nint main() { tbb::concurrent_vector<int> vector; }\n' >"$work/empty.cc"
    c++ -std=c++17 -o "$work/empty" "$work/empty.cc" -ltbb 2>/dev/null || lacks 'there is no oneTBB (libtbb-dev)'
}

# The program of this name for oneTBB, with the include and the types that are here.
with_types_of_ours() {
    sed -e 's|<oneapi/tbb/concurrent_vector\.h>|<cvec/concurrent_vector.hpp>|' -e 's|tbb::concurrent_vector|cvec::concurrent_vector|' \
        "$cpp/$1_tbb.cc"
}

# But for its include, its type and its constructor the program is the one that is written for oneTBB.
a_program_for_onetbb_is_made_durable() (
    has_cpp || exit $is_skipped
    make_cpp
    with_types_of_ours primes | sed 's|> primes;|> primes("primes.cv");|' | cmp - "$cpp/primes.cc"
    link_cpp -o "$work/primes" "$cpp/primes.cc"
    cd "$work"
    timeout 60 ./primes >"$out"
    [ "$(cat "$out")" = '9592 primes, whose sum is 454396537' ]
    "$top/cvec" list u64 primes.cv | sort -n >"$work/found"
    seq 99999 | factor | awk 'NF == 2 { print $2 }' | cmp - "$work/found"
)

# Of this example so many lines differ, added and taken away, but for those. What it prints stands in the file $out.
is_ported_by() {
    with_types_of_ours "$2" | diff - "$cpp/$2.cc" >"$work/lines" || :
    [ "$(grep -c '^[<>]' "$work/lines")" -eq "$1" ]
    link_cpp -o "$work/$2" "$cpp/$2.cc"
    (cd "$work" && timeout 60 "./$2") >"$out"
}

# The first by another algorithm.
writes_corners() { echo '28 corners, twice the area is 2195051227153'; }

writes_alarms() {
    seq 0 9999 | awk '{ value = $1 * $1 % 9973 } value > 9966 { print "second " $1 ": " value }'
    echo '10000 samples'
}

sums_of_digits() {
    seq 0 9999 | awk '{ sum = 0; for (at = 1; at <= length($1); at++) sum += substr($1, at, 1); print sum, $1 }'
}

writes_buckets() {
    sums_of_digits | awk '{ ++count[$1] } END { for (sum = 0; sum <= 36; sum++) print sum ": " count[sum] " numbers" }'
}

# In memory alone; in a file, read by addresses that last; and many small ones, each of which gets a file.
programs_for_onetbb_are_ported_by_few_lines() (
    has_cpp || exit $is_skipped
    make_cpp
    is_ported_by 0 hull
    writes_corners | cmp - "$out"
    [ -z "$(find "$work" -name '*.cv')" ]
    is_ported_by 2 alarms
    writes_alarms | cmp - "$out"
    "$top/cvec" list pair "$work/alarms.cv" | sort -n >"$work/found"
    seq 0 9999 | awk '{ print $1 ":" $1 * $1 % 9973 }' | cmp - "$work/found"
    is_ported_by 4 buckets
    writes_buckets | cmp - "$out"
    "$top/cvec" list u64 "$work/bucket7.cv" | sort -n >"$work/found"
    sums_of_digits | sed -n 's/^7 //p' | cmp - "$work/found"
    [ "$(find "$work" -name 'bucket*.cv' | wc -l)" -eq 37 ]
)

the_programs_for_onetbb_print_the_same() (
    has_cpp && has_tbb || exit $is_skipped
    # Its headers have warnings of their own.
    for name in primes hull alarms buckets; do
        compile_cpp -w -o "$work/${name}_tbb" "$cpp/${name}_tbb.cc" -ltbb -lpthread
        timeout 60 "$work/${name}_tbb" >"$work/$name.out"
    done
    [ "$(cat "$work/primes.out")" = '9592 primes, whose sum is 454396537' ]
    writes_corners | cmp - "$work/hull.out"
    writes_alarms | cmp - "$work/alarms.out"
    writes_buckets | cmp - "$work/buckets.out"
)

behaviours_of_onetbb='types constructors deduction assignment swapping growing addresses threads access iterators ranges storage comparisons
    what_is_missing'

each_member_of_onetbb_is_here() (
    has_cpp || exit $is_skipped
    make_cpp
    link_cpp -std=c++20 -o "$work/onetbb" "$cpp_tests/onetbb.cc"
    # shellcheck disable=SC2086 # each is a word
    each_behaves "$work/onetbb" $behaviours_of_onetbb
)

# What is tested above is what oneTBB does.
each_member_of_onetbb_is_so_there() (
    has_cpp && has_tbb || exit $is_skipped
    compile_cpp -w -std=c++20 -DFOR_ONETBB -o "$work/onetbb" "$cpp_tests/onetbb.cc" -ltbb -lpthread
    # shellcheck disable=SC2086 # each is a word
    each_behaves "$work/onetbb" $behaviours_of_onetbb
)

ranges_are_for_the_algorithms_of_onetbb() (
    has_cpp && has_tbb || exit $is_skipped
    make_cpp
    link_cpp -w -o "$work/parallel" "$cpp_tests/parallel.cc" -ltbb
    timeout 60 "$work/parallel" "$work/t.cv"
)

# ---- the works of the bench

# What bench/native.cc has grown it compares itself, before it writes a figure. A frame has 32 blocks of 4,096.
the_bench_grows_by_threads_of_cpp() (
    has_cpp || exit $is_skipped
    make_cpp
    link_cpp -o "$work/native" "$top/bench/native.cc"
    for words in 'grow block=16' 'grow block=1' 'grow-in-place block=16' 'append block=64' 'beside block=16 preload=160 cap_ms=20' \
        'beside-pieces block=16 preload=160 cap_ms=20' 'durable mode=wait1 block=16' 'durable mode=wait64 block=1' \
        'durable mode=wait64 block=4096' 'durable mode=flow block=16'; do
        echo "work: $words"
        # shellcheck disable=SC2086 # each word is one
        timeout 120 "$work/native" $words threads=3 n=6000 box_ms=20 "dir=$work" >"$out"
        grep -q '"threads":3,"n":[1-9][0-9]*,"seconds":0\.[0-9]*[,}]' "$out"
    done
    [ -z "$(find "$work" -name '*.cvec')" ]
    for words in read read-mixed beside-pieces 'grow threads=1' 'grow threads=0 block=16' 'grow threads=3 block=0' \
        'grow-in-place threads=0 block=16' 'append threads=0 block=16' 'append threads=3 block=0' \
        'durable mode=wait1 threads=0 block=16' 'durable mode=flow threads=3 block=0'; do
        echo "work: $words"
        status=0
        # shellcheck disable=SC2086 # each word is one
        timeout 120 "$work/native" $words n=6000 box_ms=20 "dir=$work" >"$out" 2>"$err" || status=$?
        [ "$status" -eq 3 ]
        [ ! -s "$out" ]
        [ "$(wc -l <"$err")" -le 1 ]
    done
)

# In order by iterators and by pieces; at random by `[]`, by a view and by its visit, each by three numbers of threads.
the_bench_reads_in_each_way_of_cpp() (
    has_cpp || exit $is_skipped
    make_cpp
    link_cpp -o "$work/native" "$top/bench/native.cc"
    for words in 'read block=16' 'read-mixed growers=3 block=16'; do
        work_name=${words%% *}
        # shellcheck disable=SC2086 # each word is one
        timeout 120 "$work/native" $words n=6000 draws=500 "dir=$work" >"$out"
        [ "$(grep -c "\"work\":\"$work_name.seq\",.*[0-9]}\$" "$out")" -eq 1 ]
        [ "$(grep -c "\"work\":\"$work_name.seq\",.*,\"way\":\"pieces\"}\$" "$out")" -eq 1 ]
        [ "$(grep -c "\"work\":\"$work_name.random\",.*[0-9]}\$" "$out")" -eq 3 ]
        for way in view visit; do
            [ "$(grep -c "\"work\":\"$work_name.random\",.*,\"way\":\"$way\"}\$" "$out")" -eq 3 ]
        done
    done
    [ -z "$(find "$work" -name '*.cvec')" ]
)

# The greatest size of a file stands for a full disk.
the_bench_by_threads_of_cpp_tells_of_a_full_disk() (
    has_cpp || exit $is_skipped
    make_cpp
    link_cpp -o "$work/native" "$top/bench/native.cc"
    for words in 'grow block=16' 'append block=64' 'durable mode=wait1 block=16' 'durable mode=flow block=16'; do
        echo "work: $words"
        status=0
        # shellcheck disable=SC2086 # each word is one
        (ulimit -f 8 && exec timeout 120 "$work/native" $words threads=3 n=6000 box_ms=9999 "dir=$work") >"$out" 2>"$err" || status=$?
        [ "$status" -eq 1 ]
        [ ! -s "$out" ]
        # Of threads that wait one is told the first, and others the second.
        grep -q ": the file can't be written: File too large\$\|: a write or a sync has failed before: " "$err"
    done
    [ -z "$(find "$work" -name '*.cvec')" ]
)
