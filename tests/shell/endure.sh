# What runs for hours (tests/endure), for a short while; and that it finds planted faults, and what it has found again by a seed.

built=$work-built

make_endure() {
    for tool in python3 cc c++ rustc; do has $tool 'what runs for hours' || exit $is_skipped; done
    [ -n "${PLAY_TESTS-}" ] || build_older play_tests
    [ -e "$built/made" ] || "$top/tests/endure/programs" "$built" random_calls
    : >"$built/made"
    export ENDURE_BUILT="$built"
}

each_part_runs_for_a_while() (
    make_endure
    kept=$(mktemp -d)
    JOBS=2 "$top/tests/endure/run" 8s "$kept" "$(date +%s)" images cuts kills faults sanitizers hostile
    rm -r "$kept"
)

planted_faults_are_found() (
    make_endure
    "$top/tests/endure/planted.py" "$built"
)

# A program that shows a record too few in each image.
what_has_failed_is_kept_with_its_seed() (
    make_endure
    printf '#!/bin/sh\n"%s" | sed "/^images/s/ [0-9]*$//"\n' "${PLAY_TESTS-$top/crates/play_tests/out/play_tests}" >"$work/short"
    chmod +x "$work/short"
    status=0
    PLAY_TESTS=$work/short JOBS=1 "$top/tests/endure/run" 1s "$work/kept" 7 images >"$out" || status=$?
    [ "$status" -eq 1 ]
    tail -n 1 "$out" | grep -qx '0 passed, [1-9][0-9]* failed'
    read -r again <"$work/kept/images-1.told"
    [ "$again" = "tests/endure/run once $work/kept 7 images 1" ]
    status=0
    # shellcheck disable=SC2086 # words of a command
    PLAY_TESTS=$work/short "$top"/$again >"$out" || status=$?
    [ "$status" -eq 1 ]
    sed 1d "$out" >"$work/again"
    sed 1d "$work/kept/images-1.told" | cmp - "$work/again"
    "$top"/$again >"$out"
    tail -n 1 "$out" | grep -qx 'nothing is wrong'
)
