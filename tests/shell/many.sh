# Many vectors on many hosts: cvec.cut and cvec.dask of Python (docs/use/many.md), by the programs of tests/many. Expected
# answers are those of the lists of tests/many/pen.py, which writes the files; the program writes them where that is said.

# The Python that has numpy and Dask: the one that the path finds, or Debian's own. Where none has them, the former.
python=python3
for it in python3 /usr/bin/python3; do
    if "$it" -c 'import numpy' 2>/dev/null; then
        python=$it
        "$it" -c 'import distributed' 2>/dev/null || continue
        break
    fi
done

has_numpy() { "$python" -c 'import numpy' 2>/dev/null || lacks 'there is no numpy (python3-numpy) for cuts'; }

has_dask() { has_numpy && { "$python" -c 'import distributed' 2>/dev/null || lacks 'there is no Dask (python3-distributed) for many hosts'; }; }

# What Dask logs is shown where the program fails.
many() {
    name=$1
    shift
    PYTHONDONTWRITEBYTECODE=1 timeout 600 "$python" "$top/tests/many/$name.py" "$work" "$@" 2>"$err" || {
        status=$?
        tail -n 30 "$err"
        return $status
    }
}

# ---- cuts

cuts_are_the_vector_of_one_moment() (
    has_numpy || exit "$is_skipped"
    counted many cuts
)

cuts_are_read_beside_the_program() (
    has_numpy && has_calls || exit "$is_skipped"
    build_calls
    for seed in 1 2; do
        PYTHONDONTWRITEBYTECODE=1 "$python" "$top/tests/mapped.py" "$program" "$work/calls.so" "$work" "${MAPPED_COMMANDS:-40}" $seed cut >"$out"
        cat "$out"
        grep -q ' looks, [1-9][0-9]* of them while a command ran, ' "$out"
        rm "$work/t.cv"
    done
)

cuts_have_what_the_program_writes() (
    has_numpy || exit "$is_skipped"
    many each_type "$program" >"$out"
    cat "$out"
    grep -qx '14 types, [1-9][0-9]* moments' "$out"
)

# ---- many hosts

queries_by_dask_are_exact() (
    has_dask || exit "$is_skipped"
    counted many queries
)

many_hosts_stay_exact_while_all_is_killed() (
    has_dask || exit "$is_skipped"
    many faults "$program" "${MANY_SECONDS:-12}" >"$out" || { cat "$out" && exit 1; }
    cat "$out"
    grep -q '^[1-9][0-9]* looks, each exact; .* workers killed [1-9][0-9]*, writers killed [1-9][0-9]*, compacted [1-9]' "$out"
)

# The block of the page makes both authorities. The units name the commands.
a_cluster_is_set_up_as_the_page_says() (
    has_dask && has openssl 'certificates of many hosts' || exit "$is_skipped"
    shown_in use/many.md sh >"$work/certificates.sh"
    shown_in use/many.md python >"$work/shown.py"
    for name in ours others; do
        mkdir "$work/$name"
        (cd "$work/$name" && sh -e "$work/certificates.sh" >"$work/log" 2>&1)
    done
    counted many secured "$work/ours/certificates" "$work/others/certificates" "$work/shown.py"
)

the_units_of_systemd_are_right() (
    has systemd-analyze 'units of systemd' || exit "$is_skipped"
    # Their programs are where Debian puts them.
    [ -x /usr/bin/dask-worker ] || lacks 'there is no Dask (python3-distributed) for many hosts' || exit "$is_skipped"
    systemd-analyze verify "$top"/examples/many/*.service >"$out" 2>&1 || { cat "$out" && exit 1; }
    if grep cvec- "$out"; then exit 1; fi
)

# Each module says which of Debian's packages it takes. What is there is hidden from it.
a_module_that_lacks_a_package_names_it() (
    has python3 'the modules of Python' || exit "$is_skipped"
    for row in 'cvec.cut numpy python3-numpy' 'cvec.dask distributed python3-distributed'; do
        # shellcheck disable=SC2086 # each word is one
        set -- $row
        status=0
        PYTHONDONTWRITEBYTECODE=1 PYTHONPATH=$top/bindings/python "$python" -c "
import sys
sys.modules['$2'] = None
import $1" >"$out" 2>"$err" || status=$?
        [ "$status" -eq 1 ]
        tail -n 1 "$err" | grep -q "^ImportError: $1 takes .* $3\$"
    done
)
