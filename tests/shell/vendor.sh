# `tools/vendor`, by which another repository takes crates of this one at a tag.

# ---- two repositories that only seem such

in_git() { git -C "$from" -c user.name=it -c user.email=it -c init.defaultBranch=main "$@" >>"$work/log" 2>&1; }

# One crate after the other, and one beside them. The tag 'one' has them all; at 'two' the middle one needs no other.
seeming_repositories() {
    has git 'crates at a tag' || exit $is_skipped
    from=$work/from there=$work/there
    mkdir -p "$from/tools"
    cp "$top/tools/vendor" "$top/tools/below" "$from/tools"
    for name in low middle high beside; do
        mkdir -p "$from/crates/$name/src"
        echo "$name at one" >"$from/crates/$name/src/lib.rt"
    done
    printf '%s\n' '# lowest first' 'low: thiserror # text' 'middle staticlib: low clap' 'high: low middle' 'beside: low' \
        >"$from/crates.txt"
    in_git init
    in_git add .
    in_git commit -m one
    in_git tag one
    sed -i 's/^middle.*/middle: clap/; s/^high.*/high: middle/' "$from/crates.txt"
    echo 'high at two' >"$from/crates/high/src/lib.rt"
    in_git commit -am two
    in_git tag -a -m two two
    echo 'high afterwards' >"$from/crates/high/src/lib.rt"
    mkdir -p "$there/crates/app/src"
    echo 'an app' >"$there/crates/app/src/main.rt"
    printf 'app: high' >"$there/crates.txt"
}

vendor() {
    status=0
    "$from/tools/vendor" "$@" >"$out" 2>"$err" || status=$?
}

# There are these crates, and their lines below the app's own.
has_crates() {
    [ "$(ls "$there/crates" | paste -sd ' ')" = "$1" ]
    shift
    grep -v '^#' "$there/crates.txt" >"$work/lines"
    printf '%s\n' 'app: high' "$@" | diff - "$work/lines"
    [ "$(grep -c '^#' "$there/crates.txt")" -eq 2 ]
    [ -z "$(find "$there" -maxdepth 1 -name '.vendor*')" ]
}

# ---- what is brought

crates_are_brought_with_those_below() (
    seeming_repositories
    vendor one "$there" high
    answers 0 'brought low middle high at one\n'
    has_crates 'app high low middle' 'low: thiserror' 'middle staticlib: low clap' 'high: low middle'
    for name in low middle high; do
        [ "$(cat "$there/crates/$name/src/lib.rt")" = "$name at one" ]
    done
    grep -qF "one, $(git -C "$from" rev-parse 'one^{commit}'), by its tools/vendor" "$there/crates.txt"
    [ "$(cat "$there/crates/app/src/main.rt")" = 'an app' ]
)

crates_of_another_tag_replace_them() (
    seeming_repositories
    vendor one "$there" high beside
    echo 'something more' >"$there/crates/high/src/more.rt"
    echo 'other: beside' >>"$there/crates.txt"
    vendor two "$there" high
    answers 0 'brought middle high at two\n'
    [ "$(ls "$there/crates" | paste -sd ' ')" = 'app high middle' ]
    [ "$(grep -v '^#' "$there/crates.txt" | paste -sd ';')" = 'app: high;other: beside;middle: clap;high: middle' ]
    [ "$(cat "$there/crates/high/src/"*)" = 'high at two' ]
)

# A folder can't be put in its place.
crates_that_were_brought_in_part_are_brought_again() (
    seeming_repositories
    mkdir "$work/tools"
    printf '#!/bin/sh\ncase $* in *middle) exit 1 ;; esac\nexec /bin/mv "$@"\n' >"$work/tools/mv"
    chmod +x "$work/tools/mv"
    PATH=$work/tools:$PATH vendor one "$there" high
    [ "$status" -eq 1 ]
    [ ! -e "$there/crates/middle" ]
    vendor one "$there" high
    answers 0 'brought low middle high at one\n'
    has_crates 'app high low middle' 'low: thiserror' 'middle staticlib: low clap' 'high: low middle'
)

what_cannot_be_brought_changes_nothing() (
    seeming_repositories
    refuses() {
        sentence=$1
        shift
        cp -R "$there" "$work/before"
        vendor "$@"
        [ "$status" -eq 1 ]
        [ ! -s "$out" ]
        tells "$sentence"
        diff -r "$work/before" "$there"
        rm -r "$work/before"
    }
    refuses "there is no tag or commit 'three'" three "$there" high
    refuses 'there is no crate higher' one "$there" high higher
    refuses 'it has no crates.txt' one "$there/crates" high
    mkdir "$there/crates/low"
    refuses 'has a crate low of its own: nothing was brought' one "$there" high
    rmdir "$there/crates/low"
    printf '\nlow: std\n' >>"$there/crates.txt"
    refuses 'has a crate low of its own: nothing was brought' one "$there" high
    printf 'app: high\n' >"$there/crates.txt"
    vendor one "$there" high
    sed -i '$d' "$there/crates.txt"
    refuses "a line '# end of cvec' is gone" one "$there" high
    vendor one "$there"
    [ "$status" -eq 2 ]
    tells 'usage: tools/vendor TAG FOLDER CRATE..'
)

# The crate is compiled without proofs: what was brought is all that it takes.
a_program_takes_a_crate_that_was_brought() (
    has git 'crates at a tag' && has rt 'a crate that was brought' || exit $is_skipped
    git -C "$top" rev-parse --quiet --verify HEAD >/dev/null || lacks 'there is no git history of crates' || exit $is_skipped
    there=$work/there
    mkdir -p "$there/crates/app/src"
    echo 'app: record_core' >"$there/crates.txt"
    cat >"$there/crates/app/src/main.rt" <<'MAIN'
//! The bytes of a record.
#![tactic(auto)]

use record_core::{Pair, width_of};
use std::io;

fn main(rt: HostRuntime) -> io::Result<()> {
    let width = width_of::<Pair>();
    println!(rt; "{width}")
}
MAIN
    "$top/tools/vendor" HEAD "$there" record_core
    cd "$there/crates/app"
    rt try >"$out" 2>"$err"
    [ "$(cat "$out")" = 16 ]
)

a_relative_folder_is_the_caller_s() (
    seeming_repositories
    cd "$work"
    vendor one there high
    answers 0 'brought low middle high at one\n'
    has_crates 'app high low middle' 'low: thiserror' 'middle staticlib: low clap' 'high: low middle'
)
