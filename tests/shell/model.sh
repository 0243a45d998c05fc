# The models of the C that shares a vector among threads (tests/model).

models=$top/tests/model

has_spin() { has spin 'the models of the C for threads' && has cc 'the models of the C for threads'; }

# ---- that they are models of the C as it is

# The functions of bindings/c/src that take the mutex or give it up, wait or wake: '?' where one isn't seen.
functions_with_the_mutex() {
    awk '
        /^[a-z].*\) \{/ { match($0, /[a-z0-9_]+\(/); name = substr($0, RSTART, RLENGTH - 1) }
        /pthread_mutex_(try|timed)?(un)?lock|pthread_cond_(timed)?wait|pthread_cond_(signal|broadcast)/ { print name == "" ? "?" : name }
        /^\}/ || /^[a-z].*\}$/ { name = "" }
    ' "$c_sources"/*.c | sort -u
}

# All that bindings/c/src defines, and what the library for threads exports.
functions_of_c() {
    cat "$c_sources"/*.[ch] | sed -n 's/^[a-z][^(]*[ *]\([a-z0-9_]*\)(.*) {.*/\1/p'
    sed -n 's/^uint32_t \([a-z0-9_]*\)(.*);/\1/p' "$c_headers/cvec/proved.h"
}

inlines_of() { sed -n 's/^inline \([a-z0-9_]*\)(.*/\1/p' "$@"; }

each_function_with_the_mutex_is_in_the_model() (
    functions_with_the_mutex >"$work/functions"
    [ "$(wc -l <"$work/functions")" -gt 20 ]
    inlines_of "$models/vector.pml" | sort -u | comm -23 "$work/functions" - | tee "$work/missing"
    [ ! -s "$work/missing" ]
)

no_model_names_a_function_that_is_gone() (
    functions_of_c | sort -u >"$work/functions"
    inlines_of "$models/vector.pml" "$models/fork.pml" | sort -u >"$work/inlines"
    [ "$(wc -l <"$work/inlines")" -gt 100 ]
    comm -13 "$work/functions" "$work/inlines" | tee "$work/gone"
    [ ! -s "$work/gone" ]
)

# A bug without a line of the table would never be looked for.
each_planted_bug_has_what_finds_it() (
    cat "$models"/*.pml | grep -o 'BUG [!=]= [0-9]*' | cut -d ' ' -f 3 | grep -vx 0 | sort -nu >"$work/planted"
    [ "$(wc -l <"$work/planted")" -gt 90 ]
    sed -n "s/^\([0-9][0-9]*\)|[a-z_]*|[a-z]*|..*/\1/p" "$models/run.sh" | sort -n >"$work/listed"
    diff "$work/planted" "$work/listed"
)

# ---- that they hold, and would be seen not to

the_protocol_of_threads_holds_in_each_schedule() (
    has_spin || exit $is_skipped
    "$models/run.sh" >"$out" || :
    cat "$out"
    [ "$(grep -c '[1-9][0-9]* states, .* holds$' "$out")" -eq 31 ]
    [ "$(tail -n 1 "$out")" = '31 passed, 0 failed' ]
)

# The planted bug of this number is found in a check of this scenario, by this property.
is_found_in_a_check() {
    mkdir "$work/planted"
    cp "$models"/*.pml "$models/run.sh" "$work/planted"
    sed -i "s/^#define BUG 0 /#define BUG $1 /" "$work/planted/vector.pml"
    status=0
    "$work/planted/run.sh" all "$2" >"$out" || status=$?
    cat "$out"
    [ "$status" -eq 1 ]
    grep -qF "$3" "$out"
    [ "$(grep -c 'holds$' "$out")" -eq 0 ]
    rm -r "$work/planted"
}

a_check_of_a_model_sees_a_planted_bug() (
    has_spin || exit $is_skipped
    is_found_in_a_check 53 hold 'a call of the whole vector has it alone'
    is_found_in_a_check 39 flush_by_one cycle
    is_found_in_a_check 54 hold deadlock
)

# The bug of this number, and the property that finds it.
planted_bugs_are_found() (
    has_spin || exit $is_skipped
    "$models/run.sh" bugs 1 46 50 62 71 75 92 99 >"$out" || :
    cat "$out"
    for found in '1 wait_twice .*what the mark tells is durable' '46 wait_twice .*: nothing' '50 lend .*what is lent stays' \
        '62 shared_seat .*one call at a time has a seat' "71 fork .*who has begun it isn't refused" \
        '75 whole_loop .*cycle' '92 borrow .*who is first in line was called' '99 settle .*a settle is for each growth'; do
        grep -q "^ *$found" "$out"
    done
    [ "$(tail -n 1 "$out")" = '8 passed, 0 failed' ]
)
