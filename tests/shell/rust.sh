# Files from plain Rust, as rustc compiles it (bindings/rust), over the library for C; and what its crate links.

# ---- the crate, built as docs/use/install.md says, once beside the folder of a test's files

built=$work-built

has_rust_crate() { has_c && has rustc 'the crate for plain Rust'; }

a_rust_program_appends_and_reads() (
    has_rust_crate || exit $is_skipped
    make_rust_crate "$built"
    make_rust_program "$top/examples/rust/use.rs" "$work/use"
    "$work/use" "$work/file" >"$out"
    [ "$(tr '\n' ' ' <"$out")" = '5 7 11 13 ' ]
    is_shown_as_written u64 "$work/file"
)

# The tests that cargo runs of this name in bindings/rust/tests: so many, and none is left out.
passes_in_rust() {
    has_rust_crate || exit $is_skipped
    make_rust_crate "$built"
    make_rust_program "$top/bindings/rust/tests/$1.rs" "$work/tests" --test
    timeout 120 "$work/tests" >"$out"
    grep -q "^test result: ok. $2 passed; 0 failed; 0 ignored; " "$out"
}

files_are_as_users_of_rust_want_them() (
    passes_in_rust file 4
)

vectors_are_as_users_of_rust_want_them() (
    passes_in_rust vector 11
)

# A test of tests/bindings/file_cases.rs, over a file of its own.
is_so_of_a_rust_file() {
    has_rust_crate || exit $is_skipped
    make_rust_crate "$built"
    cc -std=c99 -O2 -Wall -Wextra -Werror "-I$c_headers" -c "$top/tests/bindings/grows.c" -o "$work/grows.o"
    make_rust_program "$top/tests/bindings/file_cases.rs" "$work/cases" -C "link-arg=$work/grows.o" -C link-arg=-Wl,--wrap=cvec_file_read
    timeout 60 "$work/cases" "$1" "$work/t.cv"
}

a_rust_read_ends_beside_a_writer_that_does_not() (
    export GROWS="$work/t.cv"
    is_so_of_a_rust_file grows
)

a_rust_read_without_memory_is_refused() (
    is_so_of_a_rust_file is_refused
)

a_rust_file_is_made_of_either_version() (
    is_so_of_a_rust_file versions
)

# ---- which archive the crate links, with packages and archives that only seem them

# Makes libcvec.a in this folder, whose one function answers this number.
make_answer() {
    mkdir -p "$1"
    echo "int cvec_answer(void) { return $2; }" >"$work/answer.c"
    cc -c "$work/answer.c" -o "$work/answer.o"
    rm -f "$1/libcvec.a"
    ar rc "$1/libcvec.a" "$work/answer.o"
}

# A package with the build script, in this folder, which prints the answer.
make_asking() {
    mkdir -p "$1/src"
    cp "$top/bindings/rust/build.rs" "$1"
    printf '[package]\nname = "asks"\nversion = "1.0.0"\nedition = "2024"\n[workspace]\n' >"$1/Cargo.toml"
    printf '%s\n' 'unsafe extern "C" { safe fn cvec_answer() -> i32; }' 'fn main() { println!("{}", cvec_answer()); }' >"$1/src/main.rs"
}

# The package in this folder prints this answer.
asks() {
    CARGO_NET_OFFLINE=true cargo run --quiet --manifest-path "$1/Cargo.toml" --target-dir "$work/target" >"$out" 2>"$err" ||
        { cat "$err" && exit 1; }
    cat "$out"
    [ "$(cat "$out")" = "$2" ]
}

a_crate_links_the_archive_anew_that_has_changed() (
    has cc 'an archive' && has cargo 'a crate of plain Rust' || exit $is_skipped
    make_asking "$work/asks"
    export CVEC_LIB="$work/lib"
    for answer in 5 7 7; do
        make_answer "$work/lib" $answer
        asks "$work/asks" $answer
    done
)

# As in a checkout, beside which a folder `lib` may lie that is another's, and as below a prefix, where the list of an install is.
a_crate_links_the_archive_that_is_named_or_its_own() (
    has cc 'an archive' && has cargo 'a crate of plain Rust' || exit $is_skipped
    there=$work/there
    make_asking "$there/top/bindings/rust"
    make_asking "$there/prefix/share/cvec/rust"
    echo lib/libcvec.a >"$there/prefix/share/cvec/files"
    unset CVEC_LIB
    make_answer "$there/lib" 1
    make_answer "$there/top/out/lib" 2
    make_answer "$there/prefix/lib" 3
    make_answer "$work/named" 4
    asks "$there/top/bindings/rust" 2
    asks "$there/prefix/share/cvec/rust" 3
    export CVEC_LIB="$work/named"
    asks "$there/top/bindings/rust" 4
    rm "$work/named/libcvec.a"
    if (asks "$there/top/bindings/rust" 2) >"$work/told" 2>&1; then exit 1; fi
    tells "CVEC_LIB names $work/named, which has no libcvec.a"
    unset CVEC_LIB
    rm "$there/top/out/lib/libcvec.a"
    if (asks "$there/top/bindings/rust" 1) >"$work/told" 2>&1; then exit 1; fi
    tells 'there is no libcvec.a'
    rm "$there/prefix/lib/libcvec.a"
    if (asks "$there/prefix/share/cvec/rust" 3) >"$work/told" 2>&1; then exit 1; fi
    tells 'there is no libcvec.a'
)
