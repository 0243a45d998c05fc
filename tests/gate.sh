# The gate: `rt ci`, with the wrong bodies of one crate laid out beside it. A script that reads this has read lib.sh
# too, and takes the wrong bodies back when it ends.
# shellcheck shell=sh disable=SC2154

tried_edits=

# Runs a command that ends in a line of counts, and adds these.
count_of() {
    log=$(mktemp) || exit 1
    { (cd "$top" && "$@") 2>&1; echo $? >"$log.status"; } | tee "$log"
    add_counts "$log" "$(cat "$log.status" 2>/dev/null || echo 1)"
    rm -f "$log" "$log.status"
}

# ---- wrong bodies: those of one crate, another one with each commit, so that all come by

# The number of the commit. Where git doesn't tell it, the day's stands for it.
number_of_commit() {
    if [ "$(git -C "$top" rev-parse --is-shallow-repository 2>/dev/null)" = false ]; then
        git -C "$top" rev-list --count HEAD
    else
        echo $(($(date +%s) / 86400))
    fi
}

# The crate whose turn it is.
crate_of_edits() {
    set -- $(cd "$top/tests/wrong" && ls -d */ | tr -d /)
    shift $(($(number_of_commit) % $#))
    echo "$1"
}

# The edits lie beside the crate while the gate runs, with a note by which what a killed run left is known.
lay_edits_out() {
    for note in "$top"/crates/*/must-fail/laid-out.md; do
        [ ! -e "$note" ] || rm -rf "$(dirname "$note")"
    done
    crate=$(crate_of_edits)
    if [ -e "$top/crates/$crate/must-fail" ]; then return; fi
    tried_edits=$top/crates/$crate/must-fail
    mkdir "$tried_edits" && echo 'from tests/wrong/, while ./test runs' >"$tried_edits/laid-out.md"
    cp "$top/tests/wrong/$crate"/*.edit "$tried_edits"
    echo "wrong bodies are tried of $crate"
}

take_edits_back() {
    [ -z "$tried_edits" ] || rm -rf "$tried_edits"
    tried_edits=
}

# Prints the CPU minutes of all that has been waited for so far. They go by way of a file: a subshell has waited for nothing.
tell_minutes() {
    spent=$(mktemp) || return 0
    times >"$spent"
    awk '{ for (k = 1; k <= 2; k++) { split($k, part, "[ms]"); minutes += part[1] + part[2] / 60 } }
        END { printf "the proofs took %.1f CPU minutes\n", minutes }' "$spent"
    rm -f "$spent"
}

# Where the libraries for C can't be built over what was proved, none of an earlier run is left, and the tests that take them have
# them proved once more.
prove_all() {
    lay_edits_out
    RT_JOBS=${RT_JOBS-$("$top/tools/lanes")}
    export RT_JOBS
    began=$(mktemp) || exit 1
    count_of "$top/tools/prove" --gate
    take_edits_back
    tell_minutes
    if [ "$failed" -eq 0 ]; then
        find "$c_library" "$threads_library" ! -newer "$began" -delete 2>/dev/null
        "$top/tools/archives" "$began" || :
    fi
    rm -f "$began"
}
