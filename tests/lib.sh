# What the shell tests are written in. A script that reads this has set: `top`, the repository; `work`, the folder of a
# test's files; `reasons`, a file for what can't run and why; `passed`, `failed` and `skipped`, which `try` counts, and
# `tried`, the number of tests that it ran.
# shellcheck shell=sh disable=SC2154

# ---- what a test is written in

# This tool is there, or it is noted that what needs it is skipped.
has() { command -v "$1" >/dev/null || lacks "there is no $1 for $2"; }

# Notes why a test, or a part of one, can't run.
lacks() {
    printf '%s\n' "$1" >>"$reasons"
    return 1
}

# With this status a test ends that can't run.
is_skipped=77

# With this status a test ends that ran several, by `counted`.
is_counted=78

# Runs, as the last step of a test, a program that counts tests of its own, and leaves its status. Its counts stand in
# place of the test's.
counted() {
    status=0
    "$@" || status=$?
    echo "$status" >"$work/status"
    exit "$is_counted"
}

# Runs the program with these words on the file $in. What it writes goes to the file $out and, on standard error, to
# $err, and its status to $status.
run() {
    status=0
    "$top/cvec" "$@" <"$in" >"$out" 2>"$err" || status=$?
}

# The file $in has this text.
given() { printf '%b' "$1" >"$in"; }

# The program wrote this text, nothing on standard error, and ended with this status.
answers() {
    [ "$status" -eq "$1" ]
    printf '%b' "$2" | cmp - "$out"
    [ ! -s "$err" ]
}

# Standard error has a line with this text.
tells() { grep -qF -- "$1" "$err"; }

# The program ended with usage, of which this text tells what is wrong with the words; the last line says where to read on.
ends_with_usage() {
    [ "$status" -eq 2 ]
    [ ! -s "$out" ]
    [ "$(head -n 1 "$err")" = 'usage: cvec COMMAND TYPE ..' ]
    tells "$1"
    tail -n 1 "$err" | grep -q "'cvec help"
    [ "$(wc -l <"$err")" -lt 8 ]
}

# Who reads standard output has gone, of which nothing is told.
ends_with_a_closed_pipe() {
    [ "$status" -eq 1 ]
    [ ! -s "$err" ]
}

# Standard output can't be written, for this reason.
ends_with_a_failed_write() {
    [ "$status" -eq 1 ]
    tells "cvec: standard output: $1"
}

empty=014356454353454701080000
five=01435645435345470108000101100000000100000001000000050000000000000000

# ---- the program on its input

# The program, with these words on this input, ends with this status and this output; both as `printf %b` has them.
becomes() {
    given "$2"
    run $1
    [ "$status" -eq "$3" ]
    printf '%b' "$4" | cmp - "$out"
}

# A file's hex with another byte at this place.
edited() { printf '%s' "$1" | sed "s/^\(.\{$(($2 * 2))\}\)../\1$3/"; }

three=014356454353454701080001012400000002000000020000000100000001000000000000000200000000000000030000000000000000

# The program wrote just this refusal to standard output.
answers_refusal() {
    [ "$status" -eq 1 ]
    [ "$(cat "$out")" = "refused: $1" ]
}

# ---- the texts and files of each type of record

small_pair=014356454353454701100001011800000001000000010000000700000000000000fdffffffffffffff00

# ---- commands over files

# It wrote this text, and nothing else.
did() {
    [ "$status" -eq 0 ]
    printf '%b' "$1" | cmp - "$out"
    [ ! -s "$err" ]
}

# It was refused by this name, and one sentence has this text.
was_refused() {
    [ "$status" -eq 1 ]
    [ "$(cat "$out")" = "refused: $1" ]
    [ "$(wc -l <"$err")" -eq 1 ]
    tells "$2"
}

# A file of one record that was changed once: 56 bytes.
a_changed_file() {
    run create u64 "$work/t.cv"
    given '5\n'
    run load u64 "$work/t.cv"
    run set u64 "$work/t.cv" 0 --records=7
    did 'ok\n'
    [ "$(stat -c %s "$work/t.cv")" -eq 56 ]
}

# ---- the program over calls of the system that are noted, cut or refused

program=$top/crates/cvec/out/cvec

has_calls() { has cc 'calls of the system that are noted, cut or refused'; }

# Builds the library of tests/calls.c.
build_calls() {
    cc -std=gnu99 -Wall -Wextra -Werror -O1 -shared -fPIC "$top/tests/calls.c" -o "$work/calls.so" -ldl
}

# Ten seconds it is that this program waits for a reader that has a file, where each turn of its wait takes a tenth of a second
# more, as on a busy machine. Of these there are 500.
waits_for_readers_by_the_clock() {
    build_calls
    exec 9>>"$work/held.cv"
    flock --shared 9
    begun=$(date +%s%N)
    status=0
    CALLS_NAP=100000 LD_PRELOAD=$work/calls.so timeout 40 "$@" >"$out" 2>"$err" 9>&- || status=$?
    waited=$((($(date +%s%N) - begun) / 1000000))
    [ "$status" -eq 1 ]
    [ "$waited" -ge 9500 ]
    [ "$waited" -lt 30000 ]
}

# Runs the program with these words, behind what the library does (CALLS_LOG=FILE, CALLS_PART=N, CALLS_FAIL=CALL:N).
run_with() {
    does=$1
    shift
    status=0
    env "$does" LD_PRELOAD="$work/calls.so" "$program" "$@" <"$in" >"$out" 2>"$err" || status=$?
}

# ---- two devices

# Two devices, in the folders one and two, that number their files alike.
two_devices() {
    mkdir "$work/one" "$work/two"
    for name in one two; do
        mount -t tmpfs -o size=64k none "$work/$name" 2>/dev/null || lacks 'no devices may be mounted' || exit $is_skipped
        trap 'umount "$work/one" "$work/two" 2>/dev/null' EXIT
    done
}

# ---- a command beside one that has its file

# What the first command asks waits in a pipe: its answer in one that is full, or its input in one that gives nothing.
pipe() {
    rm -f "$work/pipe"
    mkfifo "$work/pipe"
    exec 8<>"$work/pipe"
}

# Waits until this file is locked for reading (READ) or alone (WRITE), as the system has it. Nothing is locked for that.
until_locked() {
    for _ in $(seq 1000); do
        if grep -q "FLOCK .* $1 .*:$(stat -c %i "$2" 2>/dev/null || echo none) " /proc/locks; then return 0; fi
        sleep 0.01
    done
    echo "no command has $2 ($1)"
    return 1
}

has_locks_listed() { [ -r /proc/locks ] || lacks 'there is no /proc/locks to see which files are locked'; }

# Runs a second command, which has a minute, with pipes for a client.
second() {
    status=0
    timeout 60 "$program" "$@" <"$in" >"$out" 2>"$err" 3</dev/null 4>/dev/null || status=$?
}

# Two files of the records 5 and 6, one that was changed since, and the input that a second command would take.
two_files() {
    for name in t other; do # of 64 bytes
        run create u64 "$work/$name.cv"
        given '5 6\n'
        run load u64 "$work/$name.cv"
        run set u64 "$work/$name.cv" 1 --records=7
        did 'ok\n'
    done
    given '8\n'
}

# An `append` has the file until its pipe ends.
is_taken_by_an_append() {
    pipe
    "$program" append u64 "$1" <"$work/pipe" >"$work/first_out" 2>"$work/first_err" 8>&- &
    first=$!
    until_locked WRITE "$1"
}

# ---- pages that show programs

# The lines of this page between the fences of this language.
shown_in() { sed -n "/^\`\`\`$2\$/,/^\`\`\`\$/p" "$top/docs/$1" | sed '/^```/d'; }

# ---- what is built of the crates

# The program or the archive of this crate is there, and is built again where it is older than its sources.
build_older() { "$top/tools/current" "$1" || "$top/build" "$1" </dev/null >&2; }

# ---- the library for C, and its callers, built as docs/use/c.md says

c=$top/examples/c
c_headers=$top/bindings/c/include
c_sources=$top/bindings/c/src
c_library=$top/crates/cvec_c/out/libcvec_c.a

has_c() { has cc 'the library for C' && has rt 'the library for C'; }

# The files of bindings/c/src that make the part of the library that has this name.
files_of_c() {
    case $1 in
    cvec_vector) set -- vector whole seats growing settling system types ;;
    cvec) set -- file vector whole seats growing settling system types ;;
    *) set -- "$1" system types ;;
    esac
    for file in "$@"; do echo "$c_sources/$file.c"; done
}

# Compiles them to one object in this folder, which has that name. Further words go to the compiler.
compile_c() {
    name=$1 folder=$2
    shift 2
    # shellcheck disable=SC2046
    cc -std=c99 -O2 -fPIC -Wall -Wextra -Werror -pedantic "$@" "-I$c_headers" -r -o "$folder/$name.o" $(files_of_c "$name")
}

# The library is built, and the file's calls are compiled.
make_c_library() {
    build_older cvec_c
    kit_library=$(dirname "$(rt doc)")/c/liblibc_c.a
    compile_c file "$work"
}

# What stands in this file, as the program takes it.
hex_of() { od -An -v -tx1 "$1" | tr -d ' \n'; }

make_python_library() {
    make_c_library
    cc -shared -o "$work/libcvec.so" "$work/file.o" -Wl,--whole-archive "$c_library" -Wl,--no-whole-archive "$kit_library"
}

# The program shows the same lines of the file as were written to $out.
is_shown_as_written() {
    hex_of "$2" >"$in"
    cp "$out" "$work/lines"
    run show "$1"
    [ "$status" -eq 0 ]
    cmp "$work/lines" "$out"
}

# The number of a processor that this process may use.
first_processor() { taskset -cp $$ | sed 's/.*: *\([0-9]*\).*/\1/'; }

# Tries this command again and again until it succeeds, for a minute at least; then the test fails.
await() {
    tries=0
    until "$@"; do
        tries=$((tries + 1))
        [ "$tries" -lt 1200 ] || return 1
        sleep 0.05
    done
}

# ---- the library for threads of C, built as docs/use/threads.md says

threads_library=$top/crates/cvec_threads/out/libcvec_threads.a

# Compiles this program over the library, with these words to the compiler.
compile_over_library() {
    program_file=$1
    shift
    cc -std=c99 -O2 -Wall -Wextra -Werror -pedantic "-I$c_headers" "$@" "$program_file" "$threads_library" "$kit_library" -lpthread -lm
}

# The same over the files of C between them.
# shellcheck disable=SC2046 # none of these names has a space
compile_threads() { compile_over_library "$@" $(files_of_c cvec_vector); }

make_threads_library() {
    build_older cvec_threads
    kit_library=$(dirname "$(rt doc)")/c/liblibc_c.a
}

# In this folder: the crate of plain Rust, and all of the C that it calls.
make_rust_crate() {
    rust_crate=$1
    build_older cvec_c
    make_threads_library
    if [ -e "$rust_crate/libcvec.rlib" ]; then return; fi
    mkdir -p "$rust_crate"
    compile_c cvec "$rust_crate"
    rustc --edition 2024 -D warnings --crate-type rlib --crate-name cvec -o "$rust_crate/libcvec.rlib" "$top/bindings/rust/src/lib.rs"
}

# Compiles this program over that crate, with further words to the compiler.
make_rust_program() {
    rust_file=$1 rust_program=$2
    shift 2
    rustc --edition 2024 -D warnings -o "$rust_program" "$rust_file" --extern "cvec=$rust_crate/libcvec.rlib" "$@" \
        -C "link-arg=$rust_crate/cvec.o" -C "link-arg=$c_library" -C "link-arg=$threads_library" -C "link-arg=$kit_library"
}

# Whether programs with this sanitizer are built and run here.
has_sanitizer() {
    printf 'int main(void) { return 0; }\n' >"$work/empty.c"
    cc "-fsanitize=$1" -o "$work/empty" "$work/empty.c" 2>/dev/null && "$work/empty" || lacks "cc has no -fsanitize=$1"
}

# Runs a program of examples, over this file of this type, of whose records so many are one of what it counts: thrice killed in
# place of a sync, and then to its end, where its output is $out. Its first line says how many it found there, and each kill leaves
# more. It has a time: with a wake-up that is lost it would hang.
goes_on_where_it_is_killed() {
    file=$1 type=$2 each=$3
    shift 3
    [ -e "$work/syncs.so" ] || cc -shared -fPIC -o "$work/syncs.so" "$top/tests/bindings/syncs.c"
    before=0
    for _ in 1 2 3; do
        status=0
        (
            export KILL_AT=9 "LD_PRELOAD=$work/syncs.so"
            exec timeout 300 "$@" >"$out" 2>"$err"
        ) || status=$?
        [ "$status" -eq 137 ]
        grep -q "^found $before " "$out"
        now=$(($("$top/cvec" list "$type" "$file" | wc -l) / each))
        [ "$now" -gt "$before" ]
        before=$now
    done
    timeout 300 "$@" >"$out"
    sed -n 1p "$out" | grep -q "^found $before "
}

# Pages as texts for the examples that index words, and the lines of them where a word stands.
make_texts() {
    for name in c commands cpp guide serve threads; do cp "$top/docs/use/$name.md" "$work/$name.txt"; done
    LC_ALL=C grep -aniE '(^|[^A-Za-z])thread([^A-Za-z]|$)' "$work"/*.txt | cut -d : -f -2 >"$work/wanted"
    [ "$(wc -l <"$work/wanted")" -gt 10 ]
}

# The example that indexes words, which is this command, goes on where it is killed, finds all, and each word once.
indexes_words() {
    make_texts
    type=$1 each=$2
    shift 2
    goes_on_where_it_is_killed "$work/t.cv" "$type" "$each" "$@" "$work/t.cv" Thread "$work"/*.txt
    sed 1d "$out" | cmp "$work/wanted" -
    timeout 300 "$@" "$work/t.cv" Thread "$work"/*.txt >"$out"
    sed -n 1p "$out" | grep -qx "found $(cat "$work"/*.txt | LC_ALL=C tr -cs A-Za-z '\n' | grep -c .) words"
}

# The example of a pool of threads, whose results are so many records of this type each, goes on where it is killed, and finds
# all. Further words are its command.
has_results_of_a_pool() {
    type=$1 each=$2
    shift 2
    goes_on_where_it_is_killed "$work/t.cv" "$type" "$each" "$@" "$work/t.cv" 5000
    awk 'BEGIN { for (n = 1; n <= 5000; n++) for (k = n; k != 1; sum++) k = k % 2 ? 3 * k + 1 : k / 2; print "5000 results, " sum " steps in all" }' \
        >"$work/wanted"
    sed 1d "$out" | cmp "$work/wanted" -
    [ "$("$top/cvec" list "$type" "$work/t.cv" | tr : '\n' | paste - - | sort -u | wc -l)" -eq 5000 ]
}

# The words of eight bytes of samples of three, from a sample on: of records of u64 or of 24 bytes, in hex digits, of which awk makes
# the first 53 bits.
words_of_samples() {
    case $("$top/cvec" stat "$work/t.cv") in
    *'width 24'*)
        "$top/cvec" list bytes24 "$work/t.cv" "--from=$1" | fold -w 16 | awk '
            function digit(at) { return index("0123456789abcdef", substr($0, at, 1)) - 1 }
            { word = 0; for (at = 15; at > 0; at -= 2) word = word * 256 + digit(at) * 16 + digit(at + 1); printf "%.0f\n", word }'
        ;;
    *) "$top/cvec" list u64 "$work/t.cv" "--from=$((3 * $1))" ;;
    esac
}

# What the example of eight sensors is to find, by the file as the program lists it: of each so many samples, in hundreds and in
# order. Of each hundred the last value is looked at: the bits of a double, of which awk has the first 53.
samples_there() {
    words_of_samples 0 | paste - - - | awk '
        function value_of(bits) {
            return (bits < 2 ^ 63 ? 1 : -1) * (1 + bits % 2 ^ 52 / 2 ^ 52) * 2 ^ (int(bits / 2 ^ 52) % 2048 - 1023)
        }
        NF != 3 || $1 > 7 || $2 != next_of[$1]++ || $2 % 100 == 99 && (value_of($3) - sin($2)) ^ 2 > 1e-18 {
            print "a wrong sample: " $0 >"/dev/stderr"
            exit wrong = 1
        }
        END {
            printf "found %d samples:", NR
            for (sensor = 0; sensor < 8; sensor++) {
                printf " %d", next_of[sensor]
                if (next_of[sensor] % 100 != 0) wrong = 1
            }
            print ""
            exit wrong
        }'
}

# Behind the first so many samples there are some of each of the eight sensors.
each_sensor_goes_on() {
    [ "$(words_of_samples "$1" | paste - - - | awk '!seen[$1]++' | wc -l)" -ge 8 ]
}

# The example of eight sensors, which is this command, goes on where it is killed, at whatever moment.
goes_on_with_its_samples() {
    goes_on_or_ended() { each_sensor_goes_on "$before" || ! kill -0 "$child" 2>/dev/null; }
    cc -shared -fPIC -o "$work/syncs.so" "$top/tests/bindings/syncs.c"
    before=0
    echo 'found 0 samples: 0 0 0 0 0 0 0 0' >"$work/wanted"
    for _ in 1 2 3 4; do
        status=0
        # It fills no disk where it isn't killed.
        (
            export KILL_AT=10000 "LD_PRELOAD=$work/syncs.so"
            exec "$@" "$work/t.cv" >"$out" 2>"$err"
        ) &
        child=$!
        trap 'kill -9 "$child"' EXIT
        # Also beside it the file shows what is there.
        await goes_on_or_ended
        trap - EXIT
        kill -9 "$child" || :
        wait "$child" || status=$?
        [ "$status" -eq 137 ]
        [ ! -s "$err" ]
        cmp "$work/wanted" "$out"
        each_sensor_goes_on "$before"
        samples_there >"$work/wanted"
        before=$(cut -d ' ' -f 2 "$work/wanted")
    done
}

# ---- all of them

count_reasons() { cat "$reasons" 2>/dev/null | wc -l; }

# Runs a test alone, with files of its own. A test is a function in parentheses, which ends at what first fails. One that is
# skipped has noted why: else what failed was a step that only seemed to ask for a tool.
try() {
    tried=$((tried + 1))
    noted=$(count_reasons)
    rm -rf "${work:?}"/*
    in=$work/in out=$work/out err=$work/err
    : >"$in"
    (
        set -e
        "$1"
    ) >"$work/told" 2>&1
    ended=$?
    if [ "$ended" -eq "$is_skipped" ] && [ "$(count_reasons)" -eq "$noted" ]; then
        echo 'skipped, and it says no reason' >>"$work/told"
        ended=1
    fi
    case $ended in
    0) passed=$((passed + 1)) ;;
    "$is_skipped") skipped=$((skipped + 1)) ;;
    "$is_counted")
        add_counts "$work/told" "$(cat "$work/status")"
        add_skipped "$work/told"
        grep -vx '[0-9]* passed, [0-9]* failed\|[0-9]* skipped: .*' "$work/told"
        ;;
    *)
        failed=$((failed + 1))
        echo "FAILED: $1"
        cat "$work/told"
        ;;
    esac
}

# Adds the counts of a run, by its last line and its status. Whatever else it says, a run that ends badly has failed.
add_counts() {
    counts=$(tail -n 1 "$1" | sed -n 's/^\([0-9][0-9]*\) passed, \([0-9][0-9]*\) failed$/\1 \2/p')
    [ -n "$counts" ] || counts='0 1'
    [ "$2" -eq 0 ] || [ "${counts#* }" -gt 0 ] || counts="${counts% *} 1"
    passed=$((passed + ${counts% *}))
    failed=$((failed + ${counts#* }))
}

# Adds how many a run skipped, by the line before its last one, and notes why.
add_skipped() {
    counts=$(tail -n 2 "$1" | sed -n '1s/^\([0-9][0-9]*\) skipped: ..*$/\1/p')
    [ -n "$counts" ] || return 0
    skipped=$((skipped + counts))
    tail -n 2 "$1" | sed -n '1s/^[0-9]* skipped: //p' | sed 's/; /\n/g' >>"$reasons"
}
