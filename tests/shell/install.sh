# What `make install` puts below a prefix: the program, its manual, and the library for callers in C, Python and Rust.

# ---- all of it, installed once, beside the folder of a test's files and below a name with a blank

prefix="$work-installed/a prefix"

make_there() { make -s --no-print-directory -C "$top" "$@"; }

can_install() { has make 'an install' && has_c; }

installs_once() { [ -e "$prefix/share/cvec/files" ] || make_there install "PREFIX=$prefix"; }

# The words of a text, with one blank between each two.
words_of() { printf ' %s ' "$(tr -s ' \n' '  ' <"$1" | sed 's/^ *//; s/ *$//')"; }

# What `find` finds below this folder, but for the folder.
found_in() { (cd "$1" && find . ! -name . | sort); }

commands() { { "$program" --help 2>&1 || :; } | sed -n '3,/^$/s/^\([a-z]\{1,\}\) .*/\1/p'; }

# ---- what is installed

the_installed_program_runs() (
    can_install || exit $is_skipped
    installs_once
    cd /
    echo 5 | env -i "$prefix/bin/cvec" image u64 >"$out"
    [ "$(cat "$out")" = "$five" ]
    cmp "$program" "$prefix/libexec/cvec/cvec"
)

# The greatest size of a file stands for a full disk. What is written past it is refused, and the file is as before.
the_installed_program_outlives_a_full_disk() (
    can_install || exit $is_skipped
    installs_once
    "$prefix/bin/cvec" create u64 "$work/t.cv" >"$out"
    status=0
    (ulimit -f 1 && seq 1 1000 | "$prefix/bin/cvec" append u64 "$work/t.cv") >"$out" 2>"$err" || status=$?
    answers_refusal 'disk write'
    tells "cvec: $work/t.cv: it may not become so long (File too large (os error 27))"
    "$prefix/bin/cvec" check u64 "$work/t.cv" >"$out"
    grep -q '^ok .* size 0 ' "$out"
)

# The page of this name below a folder has all words of the help, in their order, and nothing that man complains about.
has_the_help() {
    MANWIDTH=1000 man --warnings=all --no-hyphenation --no-justification -E ascii -M "$1" "$2" >"$out" 2>"$err"
    [ ! -s "$err" ]
    grep '^ ' "$out" >"$work/told"
    case $(words_of "$work/told") in
    *"$(words_of "$work/help")"*) ;;
    *) sed "s/^/$2: /" "$work/told" && exit 1 ;;
    esac
}

each_command_has_a_manual_page() (
    can_install && has man 'the manual' || exit $is_skipped
    installs_once
    pages=$prefix/share/man
    [ "$(commands | wc -l)" -ge 17 ]
    { echo cvec.1 && commands | sed 's/.*/cvec-&.1/'; } | sort >"$work/wanted"
    ls "$pages/man1" | sort | cmp - "$work/wanted"
    "$program" --help 2>&1 | sed 's/^usage: //' >"$work/help"
    has_the_help "$pages" cvec
    for command in $(commands); do
        "$program" help "$command" >"$work/help"
        has_the_help "$pages" "cvec-$command"
        grep -qF "cvec-$command - $("$program" --help 2>&1 | sed -n "s/^$command .*   *//p")" "$out"
    done
)

# What bash offers for the last of these words, one a line. An empty last word stands for none.
offered_in_bash() {
    bash -c '
        complete() { :; }
        compopt() { :; }
        . "$1"
        shift
        COMP_WORDS=("$@") COMP_CWORD=$(($# - 1)) COMPREPLY=()
        _cvec
        printf "%s\n" "${COMPREPLY[@]}"
    ' bash "$prefix/share/bash-completion/completions/cvec" "$@"
}

# It offers just these words.
offers() {
    sort -u "$out" >"$work/offered"
    printf '%s\n' "$@" | sort -u | cmp - "$work/offered"
}

bash_completes_the_words() (
    can_install && has bash 'completion' || exit $is_skipped
    installs_once
    offered_in_bash cvec co >"$out"
    offers copy count
    offered_in_bash cvec help f >"$out"
    offers follow find fold
    offered_in_bash cvec list u6 >"$out"
    offers u64
    offered_in_bash cvec list '' >"$out"
    offers u8 u16 u32 u64 i32 i64 f32 f64 pair flagged bytes16 bytes24 bytes32 bytes64
    offered_in_bash cvec list u64 t.cv --l >"$out"
    offers --last=
    offered_in_bash cvec create u64 t.cv --f >"$out"
    offers --format=1 --format=2
    offered_in_bash cvec follow u64 t.cv - >"$out"
    offers --from= --once --reopen --poll= --events --after= --quiet --refusals=stderr
    offered_in_bash cvec list u64 '' >"$out"
    offers ''
)

# What each shell is given names every command and its options, and no option of another one.
each_command_is_completed() (
    can_install || exit $is_skipped
    installs_once
    for command in $(commands); do
        for option in $(grep -o "^ *$command) options='[^']*'" "$prefix/share/zsh/site-functions/_cvec" | sed "s/.*options='//; s/'//"); do
            run "$command" "${option%%=*}"
            if tells 'unexpected argument'; then return 1; fi
            grep -q "__fish_seen_subcommand_from $command' -l $(echo "${option#--}" | sed 's/=.*//')\( \|$\)" \
                "$prefix/share/fish/vendor_completions.d/cvec.fish"
        done
        grep -q -- "-a $command -d " "$prefix/share/fish/vendor_completions.d/cvec.fish"
    done
    if has zsh 'its completion'; then zsh -n "$prefix/share/zsh/site-functions/_cvec"; fi
    if has fish 'its completion'; then fish -n "$prefix/share/fish/vendor_completions.d/cvec.fish"; fi
)

# A program that only seems one writes what roff takes for something else.
a_manual_page_has_any_character() (
    has man 'the manual' || exit $is_skipped
    mkdir -p "$work/man/man1"
    cat >"$work/help" <<'HELP'
cvec odd TYPE [--a='b']

.so it begins, 'and so', "so" \fBor\fR \n, `so` ^ ~ -- -1
'and a quote
..

  $ cvec odd '\n'
  .5

.a   table   of
'three   columns   \(dq

Refused: a-b, .c.
HELP
    printf 'usage: cvec COMMAND\n\nodd TYPE [--a='"'b'"']   does \\- "it", .or not\n' >"$work/usage"
    printf '#!/bin/sh\n[ "$2" = odd ] && exec cat "%s"\n[ "$1" != --version ] || exec echo cvec 1.0\ncat "%s" >&2\nexit 2\n' \
        "$work/help" "$work/usage" >"$work/cvec"
    chmod +x "$work/cvec"
    "$top/tools/manual" "$work/cvec" "$work/man/man1"
    has_the_help "$work/man" cvec-odd
    grep -qx " *'three   columns   .*" "$out"
    # Debian's man shows a dash for a hyphen too, others don't.
    grep -qxF 'cvec odd TYPE [\-\-a=\(aqb\(aq]' "$work/man/man1/cvec-odd.1"
    sed 's/^usage: //' "$work/usage" >"$work/help"
    has_the_help "$work/man" cvec
)

a_c_program_is_built_by_pkg_config() (
    can_install && has pkg-config 'the library for C' || exit $is_skipped
    installs_once
    export PKG_CONFIG_PATH="$prefix/lib/pkgconfig"
    for program_in_c in use append_blocks use_vector; do
        cp "$c/$program_in_c.c" "$work"
        eval "cc -std=c99 -Wall -Wextra -Werror -o '$work/$program_in_c' '$work/$program_in_c.c' \
            $(pkg-config --cflags --libs cvec)"
    done
    "$work/use" "$work/file" >"$out"
    [ "$(tr '\n' ' ' <"$out")" = '5 7 11 13 ' ]
    is_shown_as_written u64 "$work/file"
    [ "cvec $(pkg-config --modversion cvec)" = "$("$program" --version | head -n 1)" ]
    [ "$(timeout 120 "$work/use_vector" "$work/t.cv" 4 50)" = 0 ]
    run check u64 "$work/t.cv"
    [ "$(cut -d ' ' -f -7 "$out")" = 'ok version 1 width 8 size 600' ]
)

# What the files of C share with one another is none of a program's.
the_shared_library_has_what_its_headers_declare() (
    can_install && has nm 'the names in a library' || exit $is_skipped
    installs_once
    printf '#include "%s"\n' cvec.h cvec/proved.h >"$work/all.c"
    cc -E -P "-I$prefix/include" "$work/all.c" >"$work/declared"
    nm -D --defined-only "$prefix/lib/python3/dist-packages/cvec/libcvec.so" | sed -n 's/.* \(cvec_[a-z0-9_]*\)$/\1/p' >"$work/names"
    [ "$(wc -l <"$work/names")" -gt 90 ]
    while read -r name; do
        grep -qw "$name" "$work/declared" || { echo "$name is declared nowhere" && exit 1; }
    done <"$work/names"
)

a_cpp_program_is_built_by_pkg_config() (
    can_install && has pkg-config 'the library for C' && has c++ 'the vector for C++' || exit $is_skipped
    installs_once
    export PKG_CONFIG_PATH="$prefix/lib/pkgconfig"
    cp "$top/examples/cpp/primes.cc" "$work"
    cd "$work"
    eval "c++ -std=c++17 -Wall -Wextra -Werror -o primes primes.cc $(pkg-config --cflags --libs cvec)"
    [ "$(./primes)" = '9592 primes, whose sum is 454396537' ]
    run check u64 "$work/primes.cv"
    [ "$(cut -d ' ' -f 6-7 "$out")" = 'size 9592' ]
)

a_c_program_is_built_by_cmake() (
    can_install && has cmake 'a CMake project' || exit $is_skipped
    installs_once
    cp "$c/use.c" "$work"
    shown_in use/install.md cmake >"$work/CMakeLists.txt"
    cmake -S "$work" -B "$work/built" "-DCMAKE_PREFIX_PATH=$prefix" >"$work/log"
    cmake --build "$work/built" >>"$work/log"
    "$work/built/use" "$work/file" >"$out"
    [ "$(tr '\n' ' ' <"$out")" = '5 7 11 13 ' ]
    # A project of C++ alone finds it too.
    mkdir "$work/cpp"
    cp "$top/examples/cpp/primes.cc" "$work/cpp/use.cc"
    sed 's/use C)/use CXX)/; s/use\.c)/use.cc)/' "$work/CMakeLists.txt" >"$work/cpp/CMakeLists.txt"
    cmake -S "$work/cpp" -B "$work/cpp/built" "-DCMAKE_PREFIX_PATH=$prefix" >"$work/log"
    cmake --build "$work/cpp/built" >>"$work/log"
    [ "$(cd "$work" && cpp/built/use)" = '9592 primes, whose sum is 454396537' ]
    # No other first number of the version serves, and no later one.
    for version in 0.1 1.999 2.0; do
        sed -i "s/find_package(cvec.*/find_package(cvec $version REQUIRED)/" "$work/CMakeLists.txt"
        if cmake -S "$work" -B "$work/other" "-DCMAKE_PREFIX_PATH=$prefix" >"$work/log" 2>&1; then exit 1; fi
        grep -q 'that is compatible' "$work/log"
    done
)

a_python_program_finds_the_installed_modules() (
    can_install && has python3 'the modules of Python' || exit $is_skipped
    installs_once
    cp "$top/examples/python/use.py" "$work"
    cat >"$work/client.py" <<'CLIENT'
import sys
import cvec
found = [sys.modules[getattr(cvec, name).__module__] for name in ("Vector", "File", "Map", "Server", "Error")]
sys.exit(0 if all(it.__file__.startswith(sys.argv[1]) for it in [cvec, *found]) else "they are found elsewhere")
CLIENT
    unset CVEC_LIB
    export PYTHONPATH="$prefix/lib/python3/dist-packages" PYTHONDONTWRITEBYTECODE=1
    python3 "$work/client.py" "$prefix/"
    python3 "$work/use.py" "$work/file" >"$out"
    [ "$(tr '\n' ' ' <"$out")" = '5 7 11 13 ' ]
    is_shown_as_written u64 "$work/file"
    cp "$top/examples/python/use_vector.py" "$work"
    python3 "$work/use_vector.py" "$work/t.cv" >"$out"
    sed -n 1p "$out" | grep -qx '286 records of 15 growths'
)

# The folder of the repository as pip takes it, with no network: the package, and the library in it.
pip_installs_the_modules() (
    can_install && has python3 'the modules of Python' || exit $is_skipped
    python3 -m pip --version >/dev/null 2>&1 || lacks 'there is no pip for the modules of Python' || exit $is_skipped
    installs_once
    cp -R "$top/bindings/python" "$work/python"
    CVEC_LIB=$prefix/lib/python3/dist-packages/cvec python3 -m pip install --quiet --no-index --no-cache-dir \
        --disable-pip-version-check --target "$work/site" "$work/python" 2>"$err" || { cat "$err" && exit 1; }
    diff -r -x __pycache__ "$prefix/lib/python3/dist-packages/cvec" "$work/site/cvec"
    [ -e "$work/site/cvec/py.typed" ]
    [ -e "$work/site/cvec/libcvec.so" ]
    [ "cvec $(sed -n 's/^Version: //p' "$work/site"/cvec-*.dist-info/METADATA)" = "$("$program" --version | head -n 1)" ]
    unset CVEC_LIB
    export PYTHONPATH="$work/site" PYTHONDONTWRITEBYTECODE=1
    cp "$top/examples/python/use.py" "$top/examples/python/use_vector.py" "$work"
    python3 "$work/use.py" "$work/file" >"$out"
    [ "$(tr '\n' ' ' <"$out")" = '5 7 11 13 ' ]
    python3 "$work/use_vector.py" "$work/t.cv" >"$out"
    sed -n 1p "$out" | grep -qx '286 records of 15 growths'
    # Nothing is installed without the library.
    if CVEC_LIB=$work python3 -m pip install --quiet --no-index --no-cache-dir --disable-pip-version-check \
        --target "$work/other" "$work/python" >"$out" 2>&1; then exit 1; fi
    grep -q "CVEC_LIB names $work, which has no libcvec.so" "$out"
    [ ! -e "$work/other/cvec" ]
)

a_rust_program_is_built_by_rustc() (
    can_install && has rustc 'the library for plain Rust' || exit $is_skipped
    installs_once
    rust=$prefix/share/cvec/rust
    rustc --edition 2024 -D warnings --crate-type rlib --crate-name cvec -L "native=$prefix/lib" -l static=cvec \
        -o "$work/libcvec.rlib" "$rust/src/lib.rs"
    rustc --edition 2024 -D warnings -o "$work/use" "$top/examples/rust/use.rs" --extern "cvec=$work/libcvec.rlib"
    "$work/use" "$work/file" >"$out"
    [ "$(tr '\n' ' ' <"$out")" = '5 7 11 13 ' ]
)

# One program has both of what the crate has.
a_rust_program_is_built_by_cargo() (
    can_install && has cargo 'a crate of plain Rust' || exit $is_skipped
    installs_once
    mkdir -p "$work/src/bin"
    cp "$top/examples/rust/use.rs" "$work/src/bin"
    cp "$top/examples/rust/use_vector.rs" "$work/src/bin"
    cat >"$work/src/bin/both.rs" <<'RUST'
fn main() -> Result<(), cvec::Error> {
    let path = std::env::args().nth(1).unwrap();
    cvec::File::<u64>::create(&path)?.append(&[5, 7, 11])?;
    println!("{:?}", cvec::Vector::<u64>::open(&path)?.seat()?.read(..)?);
    Ok(())
}
RUST
    {
        printf '[package]\nname = "use"\nedition = "2024"\n[dependencies]\n'
        printf 'cvec = { path = "%s" }\n' "$prefix/share/cvec/rust"
    } >"$work/Cargo.toml"
    unset CVEC_LIB
    cargo build --quiet --offline --manifest-path "$work/Cargo.toml" --target-dir "$work/target"
    "$work/target/debug/use" "$work/file" >"$out"
    [ "$(tr '\n' ' ' <"$out")" = '5 7 11 13 ' ]
    [ "$(timeout 120 "$work/target/debug/both" "$work/other")" = '[5, 7, 11]' ]
    timeout 120 "$work/target/debug/use_vector" "$work/t.cv" >"$out"
    sed -n 1p "$out" | grep -qx '286 records of 15 growths'
)

# The first program of the page, by its lines, where the page has PREFIX.
the_first_program_in_rust_is_built_as_its_page_says() (
    can_install && has cargo 'a crate of plain Rust' || exit $is_skipped
    installs_once
    cd "$work"
    shown_in use/rust.md rust | awk '/^use cvec/ { at++ } at == 1' >first.rs
    shown_in use/rust.md sh | sed '/^make/,$d' >lines
    [ "$(wc -l <lines)" -eq 4 ]
    unset CVEC_LIB
    CARGO_NET_OFFLINE=true PREFIX=$prefix timeout 300 sh -e lines >"$out" 2>"$err" || { cat "$err" && exit 1; }
    grep -qx '16 records, 8 growths durable' "$out"
    "$prefix/bin/cvec" list u64 first.cv | paste -d ' ' - - | sort >blocks
    for name in 0 1 2 3 4 5 6 7; do echo "$name $((name + 100))"; done | cmp - blocks
)

# The folders of the repository as cargo takes them: the examples are built, its tests pass, and the programs of documents compile.
cargo_tests_the_crate() (
    can_install && has cargo 'a crate of plain Rust' || exit $is_skipped
    installs_once
    mkdir "$work/bindings" "$work/examples"
    cp -R "$top/bindings/rust" "$work/bindings"
    cp -R "$top/examples/rust" "$work/examples"
    CVEC_LIB=$prefix/lib cargo build --quiet --offline --manifest-path "$work/examples/rust/Cargo.toml" --target-dir "$work/target" \
        >"$out" 2>&1 || { cat "$out" && exit 1; }
    "$work/target/debug/use" "$work/file" >"$out"
    [ "$(tr '\n' ' ' <"$out")" = '5 7 11 13 ' ]
    cd "$work/bindings/rust"
    CVEC_LIB=$prefix/lib cargo test --quiet --offline --target-dir "$work/target" >"$out" 2>&1 || { cat "$out" && exit 1; }
    # Of files, of vectors, and of documents; the crate itself has none.
    sed -n 's/^test result: ok. \([0-9]*\) passed; 0 failed; 0 ignored; .*/\1/p' "$out" | sort -n | paste -sd ' ' | grep -qx '0 2 4 11'
    [ "cvec $(sed -n 's/^version = "\(.*\)\.0"$/\1/p' Cargo.toml)" = "$("$program" --version | head -n 1)" ]
    if CVEC_LIB=$work cargo build --quiet --offline --target-dir "$work/target" >"$out" 2>&1; then exit 1; fi
    grep -q "CVEC_LIB names $work, which has no libcvec.a" "$out"
)

# ---- where, over what, and how it is taken away

# What stood there stays: a file, and a folder with nothing in it. What Python keeps of the modules goes.
an_uninstall_takes_away_what_was_installed() (
    can_install && has python3 'the modules of Python' || exit $is_skipped
    mkdir -p "$work/there/include" "$work/there/lib/pkgconfig"
    echo other >"$work/there/include/other.h"
    found_in "$work/there" >"$work/before"
    make_there install "PREFIX=$work/there"
    unset PYTHONDONTWRITEBYTECODE PYTHONPYCACHEPREFIX
    PYTHONPATH=$work/there/lib/python3/dist-packages python3 -c 'import cvec; cvec.Vector, cvec.File, cvec.Map, cvec.Server'
    [ -d "$work/there/lib/python3/dist-packages/cvec/__pycache__" ]
    make_there uninstall "PREFIX=$work/there"
    found_in "$work/there" | diff "$work/before" -
    # Nor is there the prefix, where an install has made it.
    make_there install "PREFIX=$work/there/new"
    make_there uninstall "PREFIX=$work/there/new"
    found_in "$work/there" | diff "$work/before" -
    if make_there uninstall "PREFIX=$work/there" 2>"$err"; then exit 1; fi
    tells "nothing is installed at $work/there"
)

# Everything lies below DESTDIR, no file has its name, and all is for anybody to read.
a_package_is_made_below_destdir() (
    can_install || exit $is_skipped
    installs_once
    package=$work/package there=$work/there
    (umask 077 && make_there install "PREFIX=$there/" "DESTDIR=$package")
    [ ! -e "$there" ]
    found_in "$prefix" >"$work/wanted"
    found_in "$package$there" | diff "$work/wanted" -
    if grep -rlF "$package" "$package"; then exit 1; fi
    grep -qx "prefix=$there" "$package$there/lib/pkgconfig/cvec.pc"
    [ -z "$(find "$package$there" ! -perm -444)" ]
    [ -z "$(find "$package$there" -type d ! -perm -111)" ]
    make_there uninstall "PREFIX=$there" "DESTDIR=$package"
    [ ! -e "$package$there" ]
)

# An older install had a page and a folder more, and other bytes in a file.
an_older_install_is_replaced() (
    can_install || exit $is_skipped
    installs_once
    cp -R "$prefix" "$work/there"
    mkdir "$work/there/lib/old"
    : >"$work/there/lib/old/file" >"$work/there/share/man/man1/cvec-old.1" >"$work/there/include/cvec.h"
    printf '%s\n' lib/old/ lib/old/file share/man/man1/cvec-old.1 >>"$work/there/share/cvec/files"
    chmod -w "$work/there/bin/cvec"
    make_there install "PREFIX=$work/there"
    sed -i "s|$prefix|$work/there|" "$work/there/lib/pkgconfig/cvec.pc"
    found_in "$prefix" >"$work/wanted"
    found_in "$work/there" | diff "$work/wanted" -
    cmp "$c_headers/cvec.h" "$work/there/include/cvec.h"
    make_there uninstall "PREFIX=$work/there"
    [ ! -e "$work/there" ]
)

# The list of the files, the fifth file or the last list can't be put in its place.
an_install_that_is_cut_off_is_put_right() (
    can_install || exit $is_skipped
    installs_once
    found_in "$prefix" >"$work/wanted"
    mkdir "$work/tools"
    printf '#!/bin/sh\necho >>"%s"\n[ "$(wc -l <"%s")" -ne "$FAILS" ] || exit 1\nexec /bin/mv "$@"\n' \
        "$work/moves" "$work/moves" >"$work/tools/mv"
    chmod +x "$work/tools/mv"
    cuts_off() {
        : >"$work/moves"
        if FAILS=$1 PATH=$work/tools:$PATH make_there install "PREFIX=$work/there" 2>"$err"; then exit 1; fi
        tells "not all is installed at $work/there"
    }
    cuts_off 1
    [ ! -e "$work/there" ]
    for fails in 6 $(($(grep -vc '/$' "$prefix/share/cvec/files") + 2)); do
        cuts_off "$fails"
        cp -R "$work/there" "$work/cut"
        make_there install "PREFIX=$work/there"
        found_in "$work/there" | diff "$work/wanted" -
        for it in there cut; do
            make_there uninstall "PREFIX=$work/$it"
            [ ! -e "$work/$it" ]
        done
    done
)

nothing_of_others_is_overwritten() (
    can_install || exit $is_skipped
    refuses_to_install() {
        cp -a "$work/there" "$work/before"
        if make_there install "PREFIX=$work/there" 2>"$err"; then exit 1; fi
        tells "$work/there/$1: nothing was installed"
        diff -r --no-dereference "$work/before" "$work/there"
        rm -rf "$work/there" "$work/before"
        mkdir -p "$work/there/bin"
    }
    mkdir -p "$work/there/bin"
    echo other >"$work/there/bin/cvec"
    refuses_to_install 'bin/cvec is there, and no install has put it there'
    ln -s other "$work/there/bin/cvec"
    refuses_to_install 'bin/cvec is there, and no install has put it there'
    mkdir "$work/there/bin/cvec"
    refuses_to_install 'bin/cvec is a folder'
    echo other >"$work/there/share"
    refuses_to_install 'share is no folder'
)

# ---- what is refused, and what is built first

make_alone_tells_what_there_is() (
    has make 'an install' || exit $is_skipped
    make_there >"$out"
    for words in 'make build' 'make libraries' 'make install' 'make uninstall' 'PREFIX is /usr/local' DESTDIR docs/use/install.md; do
        grep -qF "$words" "$out"
    done
)

nothing_is_installed_where_not_all_can_be_made() (
    can_install || exit $is_skipped
    fails_to_install() {
        if make_there install "PREFIX=$work/there" "$@" 2>"$err"; then exit 1; fi
        [ ! -e "$work/there" ]
    }
    fails_to_install CC=false
    PATH=/usr/bin:/bin
    if ! command -v rt; then
        fails_to_install
        tells 'there is no toolchain (rt)'
    fi
)

a_prefix_is_a_whole_path() (
    has make 'an install' || exit $is_skipped
    for word in '' out '~/out' '/tmp/a"b' '/tmp/a\b' '/tmp/a`b'; do
        if make_there install "PREFIX=$word" "DESTDIR=$work/there" 2>"$err"; then exit 1; fi
        tells 'install: PREFIX '
    done
)

# A second run comes in the midst of the first, as it puts the first library in its place. The proved libraries only seem such.
libraries_are_made_by_two_at_once() (
    has make 'the libraries' && has cc 'the libraries' || exit $is_skipped
    there=$work/there
    mkdir -p "$there/bin" "$there/kit/c" "$there/crates/cvec_c/out" "$there/crates/cvec_threads/out"
    cp -R "$top/Makefile" "$top/tools" "$top/bindings" "$there"
    printf 'cvec_c staticlib: clap\ncvec_threads staticlib: clap\n' >"$there/crates.txt"
    for made in crates/cvec_c/out/libcvec_c.a crates/cvec_threads/out/libcvec_threads.a kit/c/liblibc_c.a; do
        echo "int $(basename "$made" .a);" | cc -x c -fPIC -c -o "$work/$(basename "$made" .a).o" -
        ar rc "$there/$made" "$work/$(basename "$made" .a).o"
    done
    printf '#!/bin/sh\necho "%s/kit/page"\n' "$there" >"$there/bin/rt"
    printf '#!/bin/sh\nif mkdir "%s/begun" 2>/dev/null; then make -s -C "%s" libraries || exit 9; fi\nexec /bin/mv "$@"\n' \
        "$work" "$there" >"$there/bin/mv"
    chmod +x "$there/bin/rt" "$there/bin/mv"
    PATH=$there/bin:$PATH make -s --no-print-directory -C "$there" libraries
    [ -e "$work/begun" ]
    [ "$(ls "$there/out/lib" | paste -sd ' ')" = 'libcvec.a libcvec.so' ]
)

# './build' only seems one, and tells what it was asked for.
an_older_library_is_built_again() (
    has make 'an install' || exit $is_skipped
    there=$work/there
    mkdir -p "$there/bin" "$there/crates/cvec_c/out" "$there/crates/cvec_threads/out"
    for name in low high beside; do mkdir -p "$there/crates/$name/src"; done
    cp -R "$top/Makefile" "$top/tools" "$there"
    printf 'low: clap\nhigh: low\nbeside: low\ncvec_c staticlib: low\ncvec_threads staticlib: low high\n' >"$there/crates.txt"
    printf '#!/bin/sh\n' >"$there/cvec"
    printf '#!/bin/sh\n' >"$there/bin/rt"
    cat >"$there/build" <<BUILD
#!/bin/sh
echo "\$1" >>"$work/asked"
echo 'a fault of the build' >&2
[ ! -e "$there/broken" ] && : >"$there/crates/\$1/out/lib\$1.a"
BUILD
    chmod +x "$there/cvec" "$there/bin/rt" "$there/build"
    touch -d '1 hour ago' "$there/crates/low/src/lib.rt"
    builds() {
        : >"$work/asked"
        status=0
        PATH=$there/bin:$PATH make -s -C "$there" build 2>"$err" || status=$?
        [ "$(paste -sd ' ' "$work/asked")" = "$1" ]
    }
    builds 'cvec_c cvec_threads'
    builds ''
    touch -d '1 hour' "$there/crates/beside/src/lib.rt"
    builds ''
    touch -d '1 hour' "$there/crates/high/src/lib.rt"
    builds cvec_threads
    touch -d '1 hour ago' "$there/crates/high/src/lib.rt"
    touch -d '1 hour' "$there/crates/low/src/lib.rt"
    builds 'cvec_c cvec_threads'
    [ "$status" -eq 0 ]
    : >"$there/broken"
    builds cvec_c
    [ "$status" -ne 0 ]
    tells 'a fault of the build'
    tells 'the library cvec_c was not built'
    echo 'exit 1' >"$there/cvec"
    builds ''
    [ "$status" -ne 0 ]
    tells 'there is no program to install'
)
