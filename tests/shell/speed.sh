# Programs that get no thread or little memory, and the works of bench/native.cc.

# ---- threads that can't be started, and memory that is refused

# Runs it with these words for so many seconds at most. Where it hangs its status is 124.
measure() {
    seconds=$1
    shift
    status=0
    timeout -k 1 "$seconds" "$@" <"$in" >"$out" 2>"$err" || status=$?
}

# Under this limit it loads 10,000 growths into a new file, as the user that the further words name.
load_under() {
    limit=$1
    shift
    rm -f "$work/t.cv"
    run create u64 "$work/t.cv"
    seq 1 10000 >"$in"
    cp "$top/crates/cvec/out/cvec" "$work/loader"
    chmod 755 "$work/loader"
    chmod 777 "$work"
    chmod 666 "$work/t.cv"
    measure 20 "$@" prlimit "$limit" "$work/loader" load u64 "$work/t.cv" --seats=4
    echo "status $status under $limit: load"
    cat "$out" "$err"
}

# Growers without a thread have made nothing, and say so; without a thread for the flusher the caller's serves.
a_load_that_gets_no_thread_ends() (
    if [ "$(id -u)" -eq 0 ]; then
        load_under --nproc=1 setpriv --reuid=65534 --regid=65534 --clear-groups
    else
        load_under --nproc=1
    fi
    [ "$status" -eq 1 ]
    [ "$(cat "$out")" = 'refused: memory' ]
    grep -qF ': the growth of line 1 of the input ' "$err"
    grep -qF 'the vector has 0 records' "$err"
)

# The file has the first lines of each of the four growers: $stand records.
has_the_first_lines_of_each_grower() {
    run list u64 "$work/t.cv"
    [ "$status" -eq 0 ]
    awk '{ seat = ($1 - 1) % 4; if ($1 != made[seat] * 4 + seat + 1) exit 1; made[seat]++ }' "$out"
    stand=$(wc -l <"$out")
}

# What was refused is said with how many records there are, and those that were made stand. Under 30 MB there is no room for
# the threads' stacks, and under 4 GB there is for all.
a_load_that_gets_little_memory_ends() (
    ends=
    for millions in 30 50 60 70 80 100 120 4000; do
        load_under --as=${millions}000000
        ends=$ends$status
        told=$(cat "$out")
        cp "$err" "$work/told_err"
        [ "$(wc -l <"$work/told_err")" -eq "$status" ]
        answered=$status-$told
        has_the_first_lines_of_each_grower
        case $answered in
            '0-loaded 10000 growths, size 10000') [ "$stand" -eq 10000 ] ;;
            '1-refused: memory') grep -q "the vector has $stand records\$" "$work/told_err" ;;
            '1-refused: unsettled '*) [ "$stand" -ge "${told##* }" ] ;;
            *) return 1 ;;
        esac
    done
    case $ends in 1*0) ;; *) return 1 ;; esac
)

# Each request for memory of a vector's growths, commits and opening in turn. The program says how many it refused.
each_request_of_a_vector_in_c_for_memory_may_be_refused() (
    has_c || exit "$is_skipped"
    make_threads_library
    compile_threads "$top/tests/threads/refused.c" -o "$work/refused"
    measure 60 "$work/refused" "$work/t.cv"
    cat "$out" "$err"
    [ "$status" -eq 0 ]
    [ "$(sed 's/ requests were refused$//' "$out")" -ge 50 ]
)

# ---- the works of the bench: each finds the content that it grew

built=$work-built

# Builds it once, beside the folder of a test's files.
make_native() {
    make_threads_library
    [ ! -e "$built/native" ] || return 0
    mkdir -p "$built"
    compile_c cvec_vector "$built"
    c++ -std=c++17 -O1 -Wall -Wextra -Werror "-I$top/bindings/cpp/include" "-I$c_headers" "$top/bench/native.cc" "$built/cvec_vector.o" \
        "$threads_library" "$kit_library" -lpthread -o "$built/native"
}

has_native() { has_c && has c++ 'the works of the bench'; }

# It does this work, in a folder of its own, and leaves no file there; its figures are of these numbers of records.
counts() {
    numbers=$1
    shift
    mkdir -p "$work/dir"
    measure 60 "$built/native" "$@" "dir=$work/dir"
    cat "$err" "$out"
    [ "$status" -eq 0 ]
    [ ! -s "$err" ]
    [ "$(sed 's/^{"work":"[a-z.-]*","threads":[1-9],"n":\([0-9]*\),"seconds":[0-9.]*[,}].*/\1/' "$out" | paste -sd ' ')" = "$numbers" ]
}

works_in_memory_count_what_they_made() (
    has_native || exit "$is_skipped"
    make_native
    # Learned, in order by references and by pieces, at random by references, a view and visits with 1, 2 and 4 threads, one by one.
    counts '1000 1000 1000 100 200 400 100 200 400 100 200 400 25' read block=16 n=1000 draws=100
    counts 992 memory block=16 n=1000
    counts 102400 memory block=1024 n=102400
    # A record has 8 bytes; the system may give memory by pages of 2 MiB.
    tr -d '{}' <"$out" | awk -F '[:,]' '{ exit !($9 == "\"bytes_per_record\"" && $10 >= 8 && $10 < 40 && $12 >= $10) }'
    [ -z "$(ls "$work/dir")" ]
)

# The first figure is of what was grown, the second of what was summed.
readers_sum_what_another_thread_grows() (
    has_native || exit "$is_skipped"
    make_native
    measure 90 "$built/native" beside threads=2 block=16 preload=1600 n=3200 cap_ms=60000 "dir=$work"
    cat "$err" "$out"
    [ "$status" -eq 0 ]
    [ "$(sed -n '1s/.*"work":"beside.grow","threads":2,"n":\([0-9]*\),.*/\1/p' "$out")" -eq 3200 ]
    [ "$(sed -n '2s/.*"work":"beside.sum","threads":2,"n":\([0-9]*\),.*/\1/p' "$out")" -ge 1600 ]
)

more_growths_than_an_open_vector_takes_are_no_work() (
    has_native || exit "$is_skipped"
    make_native
    for words in 'memory block=1 n=536870905' 'read block=1 n=536870905 draws=1' \
        'beside threads=1 block=1 preload=536870904 n=1 cap_ms=1'; do
        # shellcheck disable=SC2086 # each word is one
        measure 60 "$built/native" $words "dir=$work"
        [ "$status" -eq 3 ]
        [ ! -s "$out" ]
        tells 'more growths than an open vector takes'
    done
)

# The record at each place is splitmix64 of it: those of the first and the last place were worked out apart from this.
a_file_that_was_built_is_opened() (
    has_native || exit "$is_skipped"
    make_native
    counts '' open-build block=16 n=300001
    for name in open.warm open.cold; do
        counts 300001 open-read n=300001 "work=$name"
        grep -q "^{\"work\":\"$name\",\"threads\":1," "$out"
    done
    run list u64 "$work/dir/vector.cvec"
    [ "$status" -eq 0 ]
    [ "$(wc -l <"$out") $(sed -n 1p "$out") $(tail -n 1 "$out")" = '300001 16294208416658607535 1201034159031085146' ]
)

a_file_of_other_records_has_no_figure() (
    has_native || exit "$is_skipped"
    make_native
    run create u64 "$work/vector.cvec"
    given '5\n'
    run load u64 "$work/vector.cvec"
    for n in 1 2; do
        measure 60 "$built/native" open-read "dir=$work" n=$n work=open.warm
        [ "$status" -eq 1 ]
        [ ! -s "$out" ]
        tells "the vector hasn't what was grown"
    done
)
