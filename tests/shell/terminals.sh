# What a terminal gets and what files get, where standard output or standard error is either.

# Runs the program so that these of its descriptors are terminals: `out`, `err`, or both. What they get goes to
# $work/terminal, and what the others get to the files $out and $err. Slow reads let the line of progress be due.
on_a_terminal() {
    which=$1
    shift
    status=0
    python3 - "$which" "$out" "$err" "$work/terminal" "$in" "$program" "$@" <<'PYTHON' || status=$?
import os, pty, sys

which, out, err, told, given, *words = sys.argv[1:]
master, terminal = pty.openpty()
read, write = os.pipe()
child = os.fork()
if child == 0:
    ends = {1: out, 2: err}
    for number, name in ends.items():
        to_terminal = {1: "out", 2: "err"}[number] in which
        os.dup2(terminal if to_terminal else os.open(name, os.O_WRONLY | os.O_CREAT | os.O_TRUNC, 0o666), number)
    os.dup2(read, 0)
    for other in (master, terminal, read, write):
        os.close(other)
    os.execv(words[0], words)
os.close(terminal)
os.close(read)
feeder = os.fork()
if feeder == 0:
    import time
    os.close(master)
    with open(given, "rb") as file:
        for piece in iter(lambda: file.read(16384), b""):
            os.write(write, piece)
            time.sleep(0.03)
    os._exit(0)
os.close(write)
got = b""
while True:
    try:
        piece = os.read(master, 65536)
    except OSError:  # all who had the terminal have ended
        break
    if not piece:
        break
    got += piece
os.waitpid(feeder, 0)
with open(told, "wb") as file:
    file.write(got)
sys.exit(os.waitstatus_to_exitcode(os.waitpid(child, 0)[1]))
PYTHON
}

# A line of progress, which is written over.
has_progress() { grep -q "$(printf '\r')[0-9]* .* a second" "$1"; }

an_empty_file_and_much_input() {
    has python3 'terminals' || exit $is_skipped
    rm -f "$work/t.cv"
    run create u64 "$work/t.cv"
    seq 1 30000 >"$in"
}

# Progress goes to standard error alone, and only where that is a terminal.
progress_is_for_a_standard_error_that_is_a_terminal() (
    an_empty_file_and_much_input
    on_a_terminal err append u64 "$work/t.cv"
    [ "$status" -eq 0 ]
    [ "$(cat "$out")" = 'appended 30000 growths, size 30000' ]
    has_progress "$work/terminal"
    # The line is taken away at the end.
    printf '\r\033[K' >"$work/taken_away"
    tail -c 4 "$work/terminal" | cmp - "$work/taken_away"
)

no_progress_is_in_a_file_of_standard_error() (
    an_empty_file_and_much_input
    on_a_terminal out append u64 "$work/t.cv"
    [ "$status" -eq 0 ]
    [ ! -s "$err" ]
    [ "$(tr -d '\r' <"$work/terminal")" = 'appended 30000 growths, size 30000' ]
    run list u64 "$work/t.cv"
    cmp "$in" "$out"
    # A refusal is there, and nothing else.
    { seq 1 30000; echo x; } >"$in"
    on_a_terminal out append u64 "$work/t.cv"
    [ "$status" -eq 1 ]
    [ "$(tr -d '\r' <"$work/terminal")" = 'refused: line 30001' ]
    [ "$(wc -l <"$err")" -eq 1 ]
    if has_progress "$err"; then return 1; fi
    [ "$(head -c 6 "$err")" = 'cvec: ' ]
)

nothing_of_progress_is_left_on_a_terminal_of_both() (
    an_empty_file_and_much_input
    on_a_terminal out,err append u64 "$work/t.cv"
    [ "$status" -eq 0 ]
    has_progress "$work/terminal"
    printf '\r\033[Kappended 30000 growths, size 30000\r\n' >"$work/last"
    tail -c "$(wc -c <"$work/last")" "$work/terminal" | cmp - "$work/last"
    an_empty_file_and_much_input
    on_a_terminal out,err append u64 "$work/t.cv" --quiet
    [ "$status" -eq 0 ]
    [ "$(tr -d '\r' <"$work/terminal")" = 'appended 30000 growths, size 30000' ]
)

# ---- what the line of progress says

# Runs a command whose reads of its file take a while, more than a second in all, with a terminal as its standard error.
is_watched() {
    on_a_terminal err "LD_PRELOAD=$work/calls.so" CALLS_WAIT=60000 "$slow" "$@"
    [ "$status" -eq 0 ]
}

# Each line of progress with an end has a part of a hundred, and the time that the rest takes at that rate.
its_numbers_fit() {
    python3 - "$1" <<'PYTHON'
import re, sys

line = re.compile(r"(\d+) of (\d+), (\d+) %, (\d+) a second, (\d+) seconds left\x1b\[K")
told = [tuple(map(int, it.groups())) for it in line.finditer(open(sys.argv[1], newline="").read())]
assert len(told) > 1, "no line of progress"
for done, end, part, rate, left in told:
    assert done <= end and part == 100 * done // end and left == (end - done) // max(1, rate), (done, end, part, rate, left)
assert max(rate for _, _, _, rate, _ in told) < 1e9, "nothing is so fast"
PYTHON
}

reading_is_watched_unless_it_is_to_be_quiet() (
    has python3 'terminals' && has_calls || exit $is_skipped
    build_calls
    slow=$program program=/usr/bin/env
    run create u64 "$work/t.cv"
    for k in $(seq 1 20); do
        run resize u64 "$work/t.cv" $((10000 * k)) --record=5
    done
    for words in 'stat FILE' 'check u64 FILE' 'count u64 FILE --record=5'; do
        # shellcheck disable=SC2046 # each word is one
        set -- $(echo "$words" | sed "s|FILE|$work/t.cv|")
        is_watched "$@"
        its_numbers_fit "$work/terminal"
        mv "$out" "$work/watched"
        is_watched "$@" --quiet
        [ ! -s "$work/terminal" ]
        cmp "$work/watched" "$out"
    done
)
