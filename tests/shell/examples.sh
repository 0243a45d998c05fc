# The programs of crates/examples, and the page that shows what they print.

# ---- the examples

examples=$top/crates/examples/out/examples

# Waits until a process has made this file longer than so many bytes, or has ended.
until_longer_than() {
    until [ "$(stat -c %s "$2" 2>/dev/null || echo 0)" -gt "$1" ]; do
        kill -0 "$3" 2>/dev/null || return 0
    done
}

# The example's store of samples is killed and opened again: it has whole batches, and goes on behind them. The 60 batches
# take 36,000 bytes and more, and at least 5 of 10 kills come before the last of them.
a_killed_store_of_samples_goes_on() (
    build_older examples
    stopped=0
    for k in $(seq 0 9); do
        rm -f "$work/samples.cv"
        "$examples" samples "$work/samples.cv" >"$out" &
        child=$!
        until_longer_than $((k * 3000)) "$work/samples.cv" $child
        kill -9 $child || true
        wait $child || true
        told=$(cat "$out")
        "$examples" samples "$work/samples.cv" >"$out"
        found=$(sed -n 's/ samples were there, 60 batches are new$//p' "$out")
        [ -n "$found" ]
        [ $((found % 50)) -eq 0 ]
        [ -z "$told" ] || [ "$found" -eq 3000 ]
        [ "$found" -eq 3000 ] || stopped=$((stopped + 1))
        "$examples" samples "$work/samples.cv" >"$out"
        [ "$(cat "$out")" = "$((found + 3000)) samples were there, 60 batches are new" ]
    done
    [ "$stopped" -ge 5 ]
)

# The page of the examples shows what they write, in blocks that tests/blocks leaves to this test.
the_page_of_the_examples_shows_what_they_write() (
    build_older examples
    cd "$work"
    rm -f samples.cv
    {
        "$examples" collect
        "$examples" samples samples.cv
        "$examples" samples samples.cv
        "$examples" postings vector block settled lock absent <"$top/crates/examples/stdin"
    } >"$out"
    [ "$(wc -l <"$out")" -eq 8 ]
    while read -r line; do
        grep -qxF "$line" "$top/examples/rattle/README.md"
    done <"$out"
)
