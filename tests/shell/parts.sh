# Calls of the system that do a part of what they are asked, or are interrupted: the answers are those of whole calls. The
# library of tests/calls.c cuts them.

# ---- commands by parts

# Runs a command whose reads and writes do at most so many bytes at once. Those of files are also interrupted.
by_parts() {
    most=$1
    shift
    run_with "CALLS_PART=$most" "$@"
}

# It ended well, with the lines of this file.
did_as_in() {
    [ "$status" -eq 0 ]
    [ ! -s "$err" ]
    cmp "$1" "$out"
}

input_is_taken_in_parts() (
    has_calls || exit $is_skipped
    build_calls
    seq 1 1000 >"$work/lines"
    for most in 1 7 4096; do
        for words in 'append --block=1' 'append --block=7' 'load --seats=1'; do
            rm -f "$work/t.cv"
            run create u64 "$work/t.cv"
            in=$work/lines
            by_parts $most "${words% *}" u64 "$work/t.cv" "${words#* }"
            growths=1000
            [ "$words" != 'append --block=7' ] || growths=143
            did "${words%% *}ed $growths growths, size 1000\n"
            run list u64 "$work/t.cv"
            did_as_in "$work/lines"
        done
    done
    given '1 2 | 3'
    by_parts 1 image u64
    did "$three\n"
    given "$three\n"
    by_parts 1 show u64
    did '1\n2\n3\n'
    given 'create\nresize 1 5\ncrash old\nopen\nlist\n'
    by_parts 1 play u64
    did 'ok\nok\ncrashed 34\nsize 1\n5\n'
)

# Builds a library that interrupts each second read before it is made, of descriptors of which this C is so.
build_interrupts() {
    cc -std=gnu99 "-DIS_INTERRUPTED=($1)" -Wall -Wextra -Werror -O1 -shared -fPIC -x c - -o "$work/interrupts.so" -ldl <<'C'
#define _GNU_SOURCE
#include <dlfcn.h>
#include <errno.h>
#include <unistd.h>

ssize_t read(int fd, void *bytes, size_t n) {
    static int reads;
    if (IS_INTERRUPTED && __atomic_fetch_add(&reads, 1, __ATOMIC_SEQ_CST) % 2 == 0) {
        errno = EINTR;
        return -1;
    }
    return ((__typeof__(&read))dlsym(RTLD_NEXT, "read"))(fd, bytes, n);
}
C
}

# A read that a signal interrupts neither ends the input nor fails: it is made again.
an_input_whose_reads_are_interrupted_is_appended_whole() (
    has_calls || exit $is_skipped
    build_calls
    build_interrupts 'fd == STDIN_FILENO'
    seq 1 100000 >"$in"
    for most in 1000 65536; do
        rm -f "$work/t.cv"
        run create u64 "$work/t.cv"
        status=0
        env "CALLS_PART=$most" "LD_PRELOAD=$work/interrupts.so $work/calls.so" \
            "$program" append u64 "$work/t.cv" <"$in" >"$out" 2>"$err" || status=$?
        did 'appended 100000 growths, size 100000\n'
        run list u64 "$work/t.cv"
        did_as_in "$in"
    done
)

# The compiler only seems one, and compiles nothing.
a_helper_that_does_not_compile_fails_its_test() (
    there=$work/there
    mkdir -p "$there/bin"
    printf '#!/bin/sh\necho "a fault of the compiler" >&2\nexit 1\n' >"$there/bin/cc"
    chmod +x "$there/bin/cc"
    PATH=$there/bin:$PATH "$top/tests/run" an_input_whose_reads_are_interrupted_is_appended_whole >"$out" || :
    grep -qx 'a fault of the compiler' "$out"
    [ "$(tail -n 1 "$out")" = '0 passed, 1 failed' ]
)

files_are_read_in_parts() (
    has_calls || exit $is_skipped
    build_calls
    seq 1 1000 >"$in"
    run create u64 "$work/t.cv"
    run append u64 "$work/t.cv" --block=100
    run set u64 "$work/t.cv" 500 --records=7,8
    cp "$in" "$work/lines"
    sed -i '501s/.*/7/; 502s/.*/8/' "$work/lines"
    for most in 1 7 4096; do
        by_parts $most list u64 "$work/t.cv"
        did_as_in "$work/lines"
        by_parts $most count u64 "$work/t.cv" --record=8
        did '2\n'
        by_parts $most find u64 "$work/t.cv" --record=8
        did '7\n'
        by_parts $most check u64 "$work/t.cv"
        [ "$status" -eq 0 ]
        grep -qx 'ok version 1 width 8 size 1000 frames [0-9]* live 1' "$out"
        by_parts $most stat "$work/t.cv"
        [ "$status" -eq 0 ]
        grep -qx 'growths 10' "$out"
        grep -qx 'records 1000' "$out"
    done
)

# A file that is made, changed, folded and copied by parts has the bytes of format.md.
files_are_written_in_parts() (
    has_calls || exit $is_skipped
    build_calls
    for most in 1 5; do
        rm -f "$work/t.cv" "$work/n.cv"
        by_parts $most create u64 "$work/t.cv"
        did 'created\n'
        given '5 6\n'
        by_parts $most load u64 "$work/t.cv"
        did 'loaded 1 growths, size 2\n'
        by_parts $most set u64 "$work/t.cv" 1 --records=6
        did 'ok\n'
        by_parts $most fold u64 "$work/t.cv"
        did 'folded 1\n'
        by_parts $most resize u64 "$work/t.cv" 1 --record=0
        did 'ok\n'
        [ "$(hex_of "$work/t.cv")" = 0143564543534547010800010118000000010000000200000005000000000000000600000000000000010210000000010000000000000006000000000000000104080000000100000000000000010308000000010000000000000000 ]
        by_parts $most upgrade u64 "$work/t.cv" "$work/n.cv"
        did 'upgraded size 1\n'
        [ "$(hex_of "$work/n.cv")" = 01435645435345470208000101100000000100000001000000050000000000000000 ]
        by_parts $most clear u64 "$work/t.cv"
        did 'ok\n'
    done
    given '5\n'
    by_parts 1 append u64 "$work/n.cv"
    did 'appended 1 growths, size 2\n'
    run list u64 "$work/n.cv"
    did '5\n5\n'
)

# A sync that was interrupted is made again: two of a commit and one before it, beside the gate and what it opens.
syncs_that_are_interrupted_are_made_again() (
    has_calls || exit $is_skipped
    build_calls
    run create u64 "$work/t.cv"
    given '5\n'
    export CALLS_LOG="$work/calls"
    by_parts 100 load u64 "$work/t.cv"
    did 'loaded 1 growths, size 1\n'
    printf '%s\n' 'sync t.cv' 'write t.cv 12 22 01 00' 'sync t.cv' 'write t.cv 11 1 01 01' 'sync t.cv' 'answer 25' |
        diff - "$work/calls"
)

# A client's growth of the record 5, its wait, and its end, byte by byte; and where each read of a request is interrupted before.
clients_are_served_in_parts() (
    has_calls || exit $is_skipped
    build_calls
    serves_a_client by_parts 1
    build_interrupts 'fd > STDERR_FILENO'
    serves_a_client with_interrupts
)

with_interrupts() {
    status=0
    LD_PRELOAD=$work/interrupts.so "$program" "$@" >"$out" 2>"$err" || status=$?
}

# With this in front of the program's words.
serves_a_client() {
    rm -f "$work/t.cv" "$work/answers"
    run create u64 "$work/t.cv"
    {
        printf '\1\0\0\0\1\0\0\0\0\0\0\0\0\0\0\0\5\0\0\0\0\0\0\0'
        printf '\2\0\0\0\0\0\0\0\0\0\0\0\0\0\0\0'
        printf '\0\0\0\0\0\0\0\0\0\0\0\0\0\0\0\0'
    } >"$work/requests"
    mkfifo "$work/answers"
    cat "$work/answers" >"$work/answered" &
    reader=$!
    "$@" serve u64 "$work/t.cv" --seats=1 3<"$work/requests" 4>"$work/answers"
    wait $reader
    did 'served 1 growths\n'
    {
        printf '\0\0\0\0\0\0\0\0\0\0\0\0\0\0\0\0\0\0\0\0\0\0\0\0'
        printf '\0\0\0\0\0\0\0\0\1\0\0\0\0\0\0\0\0\0\0\0\0\0\0\0'
        printf '\0\0\0\0\0\0\0\0\0\0\0\0\0\0\0\0\0\0\0\0\0\0\0\0'
    } | cmp - "$work/answered"
    run list u64 "$work/t.cv"
    did '5\n'
}
