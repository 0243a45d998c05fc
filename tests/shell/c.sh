# The library for C and C++ (`cvec_c`), by its examples in examples/c.

# ---- the library for C, and its callers, built as docs/use/c.md says

# Compiles this example in C.
compile() {
    cc -std=c99 -O2 -Wall -Wextra -Werror -pedantic "-I$c_headers" -o "$work/$1" "$c/$1.c" "$work/file.o" "$c_library" "$kit_library"
}

a_c_program_appends_and_reads() (
    has_c || exit $is_skipped
    make_c_library
    compile use
    "$work/use" "$work/file" >"$out"
    [ "$(tr '\n' ' ' <"$out")" = '5 7 11 13 ' ]
    is_shown_as_written u64 "$work/file"
    status=0
    "$work/use" "$work/file" >"$out" 2>"$err" || status=$?
    [ "$status" -eq 1 ]
    tells 'create: something is there already'
)

# The function that reads beside another process is compiled with it.
the_c_program_that_is_shown_appends_and_reads() (
    has_c || exit $is_skipped
    make_c_library
    shown_in use/c.md c >"$work/shown.c"
    cc -std=c99 -O2 -Wall -Wextra -Werror -pedantic "-I$c_headers" -o "$work/shown" "$work/shown.c" "$work/file.o" \
        "$c_library" "$kit_library"
    "$work/shown" "$work/file" >"$out"
    [ "$(tr '\n' ' ' <"$out")" = '5 7 11 ' ]
    is_shown_as_written u64 "$work/file"
)

a_c_program_has_records_of_each_type() (
    has_c || exit $is_skipped
    make_c_library
    compile types
    for type in u8 u16 u32 u64 i32 i64 pair flagged bytes16 bytes24 bytes32 bytes64; do
        "$work/types" $type "$work/file.$type" >"$out"
        [ "$(wc -l <"$out")" -eq 2 ]
        is_shown_as_written $type "$work/file.$type"
    done
)

# A type, the bytes of a record, what `types` lists of it, and the bytes of its two records; `check` knows the type too.
has_two() {
    payload=$((8 + 2 * $2))
    head=0143564543534547$(printf '01%02x00' "$2")$(printf '0101%02x000000' $payload)0100000002000000
    "$work/types" "$1" "$work/file.$1" >"$out"
    printf '%b' "$3" | cmp - "$out"
    [ "$(hex_of "$work/file.$1")" = "$head${4}00" ]
    "$work/check" "$1" "$work/file.$1" >"$out"
    [ "$(cat "$out")" = "version 1 width $2 size 2 frames 1 changes 0 folded 0 gate $((17 + payload))" ]
    if "$work/check" flagged "$work/file.$1" >"$out"; then exit 1; fi
    [ "$(cat "$out")" = "refused: the records have another width: $2" ]
}

# The bytes of a record are in C in the order of the file.
a_c_program_has_records_of_bytes() (
    has_c || exit $is_skipped
    make_c_library
    compile types
    compile check
    for width in 16 24 32 64; do
        zeros=$(printf "%0$((2 * width - 4))d" 0)
        has_two bytes$width $width "0102$zeros\n${zeros}feff\n" "0102$zeros${zeros}feff"
    done
)

# Of one byte, of two, and of 4 and 8, with a sign and with a fraction. The program has floats also as the numbers of their bits.
a_c_program_has_numbers_of_each_width() (
    has_c || exit $is_skipped
    make_c_library
    compile types
    compile check
    has_two u8 1 '1\n255\n' 01ff
    has_two u16 2 '258\n65535\n' 0201ffff
    has_two i32 4 '-2\n-2147483648\n' feffffff00000080
    has_two f32 4 '1.5\n-0\n' 0000c03f00000080
    has_two f64 8 '-2.5\n4.9406564584124654e-324\n' 00000000000004c00100000000000000
    run list u32 "$work/file.f32"
    did '1069547520\n2147483648\n'
    run list u64 "$work/file.f64"
    did '13836183955189006336\n1\n'
    run list f32 "$work/file.f32"
    did '1.5\n-0.0\n'
    run list f64 "$work/file.f64"
    did '-2.5\n5e-324\n'
)

# Each request for memory is refused in turn, until none is met: also that of the system for the path's real name. Refused that of the
# handle, nothing is made.
a_creation_in_c_names_memory_that_was_refused() (
    has_c || exit $is_skipped
    make_c_library
    cat >"$work/memory.c" <<'MEMORY'
#define _POSIX_C_SOURCE 200809L
#include "cvec.h"
#include <errno.h>
#include <stdbool.h>
#include <stdio.h>
#include <stdlib.h>
#include <unistd.h>

extern void *__libc_malloc(size_t), *__libc_calloc(size_t, size_t), *__libc_realloc(void *, size_t);

enum { OF_HANDLE = 2 }; /* the handle, and what it has for its first frame */

static unsigned seen, refused;

static bool is_refused(void) {
    if (++seen != refused) return false;
    errno = ENOMEM;
    return true;
}

void *malloc(size_t len) { return is_refused() ? NULL : __libc_malloc(len); }
void *calloc(size_t count, size_t len) { return is_refused() ? NULL : __libc_calloc(count, len); }
void *realloc(void *at, size_t len) { return is_refused() ? NULL : __libc_realloc(at, len); }

int main(int argc, char **argv) {
    if (argc != 2) return 2;
    for (refused = 1;; refused++) {
        cvec_file *file;
        seen = 0;
        const cvec_status answer = cvec_file_create(&file, argv[1], CVEC_U64, 1);
        const unsigned met = seen;
        if ((answer == CVEC_DONE) != (file != NULL)) return puts("a refusal that makes a handle"), 1;
        if (refused <= OF_HANDLE && (answer != CVEC_MEMORY || access(argv[1], F_OK) == 0)) return puts("a file is made for no handle"), 1;
        cvec_file_close(&file);
        if (met < refused) return answer == CVEC_DONE && refused > OF_HANDLE ? 0 : 1;
        if (answer != CVEC_DONE && answer != CVEC_MEMORY) return printf("request %u: %u\n", refused, (unsigned)answer), 1;
        unlink(argv[1]);
    }
}
MEMORY
    cc -std=c99 -O2 -Wall -Wextra -Werror -pedantic "-I$c_headers" -o "$work/memory" "$work/memory.c" "$work/file.o" \
        "$c_library" "$kit_library"
    "$work/memory" "$work/file"
)

# The sentence of C for this line of the program, which has names.
in_sentences() {
    sed -e 's/^refused: unborn$/refused: no vector was begun in the file/' -e 's/^refused: not a segment$/refused: it is no segment file/' \
        -e "s/^refused: version /refused: the version isn't known: /" -e 's/^refused: width /refused: the records have another width: /' \
        -e 's/^refused: damaged at /refused: a frame of the file is damaged at /' -e 's/: no gate$/: the file ends where a gate has to stand/' \
        -e 's/: short frame$/: the file ends inside a frame/' -e "s/: kind \([0-9]*\)$/: a kind of frame that isn't known: \1/" \
        -e 's/: too large$/: a payload past the limit/' -e 's/: layout$/: a payload without the form of its kind/' \
        -e 's/: range$/: a change outside the vector, or a shrink to more than it has/' \
        -e "s/: fold count$/: a fold's count that falls, or passes the changes so far/" "$1"
}

# Each front of a file, and a file with another byte at each place.
a_file_is_refused_in_c_as_by_the_program() (
    has_c || exit $is_skipped
    make_c_library
    compile use
    compile check
    "$work/use" "$work/file" >/dev/null
    for k in $(seq 0 71); do
        head -c "$k" "$work/file" >"$work/front"
        { head -c "$k" "$work/file" && printf '\005' && tail -c +$((k + 2)) "$work/file"; } >"$work/other"
        for image in front other; do
            hex_of "$work/$image" >"$in"
            run show u64
            [ "$status" -eq 0 ] || in_sentences "$out" >"$work/refusal"
            checked=0
            "$work/check" u64 "$work/$image" >"$work/told_by_c" || checked=$?
            [ "$checked" -eq "$status" ]
            if [ "$status" -eq 0 ]; then
                run check u64 "$work/$image"
                sed 's/^ok //; s/ live .*//' "$out" >"$work/front_of_c"
                sed 's/ changes .*//' "$work/told_by_c" | cmp "$work/front_of_c" -
            else
                cmp "$work/refusal" "$work/told_by_c"
            fi
        done
    done
)

# Nor does a forked process append where its parent does; and what is closed is locked no more.
a_call_that_fails_in_c_loses_nothing() (
    has_c || exit $is_skipped
    make_c_library
    cc -std=c99 -O2 -Wall -Wextra -Werror -pedantic "-I$c_headers" "-I$c_sources" -o "$work/faults" "$top/tests/bindings/file_faults.c" \
        "$c_library" "$kit_library" -lpthread
    "$work/faults" "$work/file" >"$out" || { cat "$out" && exit 1; }
    cat "$out"
    [ "$(tail -n 1 "$out")" = 'each of 16 calls failed once' ]
    # A frame behind its gate, a sync, the gate, a sync.
    [ "$(sed -n '9,16p' "$out" | tr '\n' ';')" = 'write 38 at 12;sync;write 1 at 11;sync;write 22 at 50;sync;write 1 at 49;sync;' ]
)

a_file_is_open_in_one_process() (
    has_c || exit $is_skipped
    make_c_library
    compile use
    status=0
    flock "$work/file" timeout 5 "$work/use" "$work/file" >"$out" 2>"$err" || status=$?
    [ "$status" -eq 1 ]
    tells 'create: the file is in use'
)

a_wait_of_the_library_for_c_is_as_long_as_it_says() (
    has_c && has_calls && has flock 'a file that a reader has' || exit $is_skipped
    make_c_library
    compile use
    waits_for_readers_by_the_clock "$work/use" "$work/held.cv"
    tells 'create: the file is in use'
)

make_looks() {
    make_c_library
    cc -std=c99 -O2 -Wall -Wextra -Werror "-I$c_headers" -o "$work/looks" "$top/tests/bindings/looks.c" "$work/file.o" \
        "$c_library" "$kit_library"
}

# By the user `nobody`, where the tests are run by one that may do all.
as_no_writer() {
    if [ "$(id -u)" -ne 0 ]; then "$@"; else setpriv --reuid=65534 --regid=65534 --clear-groups "$@"; fi
}

# A file, and a folder, without leave to write; through a link too.
a_c_program_reads_what_it_may_not_write() (
    has_c || exit $is_skipped
    [ "$(id -u)" -ne 0 ] || has setpriv 'a reader that is no superuser' || exit $is_skipped
    make_looks
    mkdir "$work/d"
    run create u64 "$work/d/t.cv"
    given '5\n7\n'
    run load u64 "$work/d/t.cv"
    ln -s t.cv "$work/d/link.cv"
    chmod 755 "$work"
    chmod 444 "$work/d/t.cv"
    chmod 555 "$work/d"
    if as_no_writer sh -c ": >>'$work/d/t.cv'" 2>/dev/null; then return 1; fi
    for name in t link; do
        printf 'r\no\n' | as_no_writer "$work/looks" "$work/d/$name.cv" >"$out"
        printf '5 7 \n5 7 \n' | cmp - "$out"
    done
    chmod 755 "$work/d"
)

# Also where that knows no sync, which a failure of the call stands for.
a_c_program_reads_a_file_system_that_is_read_only() (
    has_c || exit $is_skipped
    make_looks
    cc -std=gnu11 -O1 -Wall -Wextra -Werror -shared -fPIC -o "$work/plan.so" "$top/tests/bindings/calls.c" -ldl
    mkdir "$work/d" "$work/ro"
    run create u64 "$work/d/t.cv"
    given '5\n7\n'
    run load u64 "$work/d/t.cv"
    mounted='mount --bind "$1" "$2" && mount -o remount,ro,bind "$2"'
    unshare -m sh -c "$mounted" sh "$work/d" "$work/ro" 2>/dev/null ||
        lacks 'there is no leave to mount a file system that is read only' || exit $is_skipped
    for plan in 'sync 99 22' 'sync 1 22' 'sync 1 30'; do
        echo "$plan" >"$work/plan"
        (
            cd "$work"
            unshare -m sh -c "$mounted && ! touch \"\$2/t.cv\" 2>/dev/null &&
                printf 'r\no\n' | CALLS=plan LD_PRELOAD=\$3 \"\$4\" \"\$2/t.cv\"" \
                sh "$work/d" "$work/ro" "$work/plan.so" "$work/looks" >"$out"
        )
        [ ! -e "$work/plan" ]
        printf '5 7 \n5 7 \n' | cmp - "$out"
    done
)

# In memory alone, and what is refused by a type's number, or of bytes that are no records. A read or a write past what is lent ends it.
a_c_program_has_images_of_each_type() (
    has_c && has_sanitizer address || exit $is_skipped
    make_c_library
    cc -std=c99 -g -O1 -Wall -Wextra -Werror -pedantic -fsanitize=address,undefined -fno-sanitize-recover=all "-I$c_headers" \
        -o "$work/images" "$top/tests/bindings/images.c" "$c_sources/file.c" "$c_sources/system.c" "$c_sources/types.c" \
        "$c_library" "$kit_library"
    "$work/images" "$work/none" >"$out" || { cat "$out" && exit 1; }
    [ "$(cat "$out")" = '413 checks, 0 wrong' ]
)

# In C and in C++, each header alone and all of them, with what either finds to say.
the_headers_are_c_and_cpp() (
    has cc 'the headers in C' && has c++ 'the headers in C++' || exit $is_skipped
    words='-Wall -Wextra -Wconversion -Werror -pedantic -fsyntax-only'
    for headers in cvec.h cvec/proved.h 'cvec/proved.h cvec.h'; do
        printf '#include "%s"\n' $headers >"$work/use.c"
        echo 'cvec_status status_of(const char *path, cvec_file **file) { return cvec_file_open(file, path, CVEC_U64, NULL); }' >>"$work/use.c"
        cc -std=c99 $words "-I$c_headers" "$work/use.c"
        cp "$work/use.c" "$work/use.cc"
        c++ -std=c++17 $words "-I$c_headers" "$work/use.cc"
    done
)

# By what the header says. C++ takes no pointer to a record of another type.
the_header_has_numbers_of_each_type() (
    has c++ 'the header in C++' || exit $is_skipped
    {
        echo '#include "cvec.h"'
        for of in 'u8 uint8_t' 'u16 uint16_t' 'i32 int32_t' 'f32 float' 'f64 double' 'pair cvec_pair' 'flagged cvec_flagged' \
            'bytes24 cvec_bytes24'; do
            type=${of% *} record=${of#* }
            echo "cvec_status (*append_$type)(cvec_file *, const $record *, size_t) = cvec_file_append_$type;"
            echo "cvec_status (*read_$type)(cvec_file *, uint64_t, $record *, size_t, uint64_t *, cvec_fault *) = cvec_file_read_$type;"
            echo "cvec_status (*grow_$type)(cvec_client *, const $record *, size_t, cvec_receipt *) = cvec_client_grow_$type;"
            echo "cvec_status (*ask_$type)(cvec_client *, uint64_t, $record *, size_t, size_t *) = cvec_client_read_$type;"
        done
    } >"$work/use.cc"
    c++ -Wall -Wextra -Werror "-I$c_headers" -fsyntax-only "$work/use.cc"
)
