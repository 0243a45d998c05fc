# `cvec serve`, and its clients in C and Python.

# ---- a server for other programs

# Clients append by `serve` while it is killed and started again: what they were told is settled stands.
clients_of_a_server_find_what_they_were_told() (
    has python3 'the clients of a server' || exit $is_skipped
    if command -v cc >/dev/null; then
        compile_c client "$work"
        cc -std=c99 -Wall -Wextra -pedantic -Werror "-I$c_headers" "$c/append_blocks.c" "$work/client.o" -o "$work/append_blocks"
        set -- "$work/append_blocks"
    fi
    "$top/tests/serve.py" "$top/cvec" "$work" 1000000 "$@" >"$out"
    grep -q '4 clients' "$out"
)

a_server_without_pipes_is_refused() (
    run create u64 "$work/t.cv"
    before=$(cksum <"$work/t.cv")
    run serve u64 "$work/t.cv" --seats=64
    was_refused file 'a pipe of the clients'
    [ "$before" = "$(cksum <"$work/t.cv")" ]
    for seats in 0 65 x ''; do
        run serve u64 "$work/t.cv" "--seats=$seats"
        ends_with_usage 'error: '
    done
    run serve u64 "$work/t.cv"
    ends_with_usage 'error: '
)

# A growth of the records 5 and 6, a wait, a look, a read from 1 on, and the end, as bytes.
a_server_answers_what_is_asked() (
    run create u64 "$work/t.cv"
    mkfifo "$work/answers"
    {
        printf '\1\0\0\0\2\0\0\0\0\0\0\0\0\0\0\0\5\0\0\0\0\0\0\0\6\0\0\0\0\0\0\0'
        printf '\2\0\0\0\0\0\0\0\0\0\0\0\0\0\0\0'
        printf '\3\0\0\0\0\0\0\0\0\0\0\0\0\0\0\0'
        printf '\4\0\0\0\3\0\0\0\1\0\0\0\0\0\0\0'
        printf '\0\0\0\0\0\0\0\0\0\0\0\0\0\0\0\0'
    } >"$work/requests"
    cat "$work/answers" >"$work/answered" &
    reader=$!
    status=0
    "$top/cvec" serve u64 "$work/t.cv" --seats=1 3<"$work/requests" 4>"$work/answers" >"$out" 2>"$err" || status=$?
    wait $reader
    did 'served 1 growths\n'
    {
        printf '\0\0\0\0\0\0\0\0\0\0\0\0\0\0\0\0\0\0\0\0\0\0\0\0'
        printf '\0\0\0\0\0\0\0\0\1\0\0\0\0\0\0\0\0\0\0\0\0\0\0\0'
        printf '\0\0\0\0\0\0\0\0\2\0\0\0\0\0\0\0\1\0\0\0\0\0\0\0'
        printf '\0\0\0\0\1\0\0\0\1\0\0\0\0\0\0\0\0\0\0\0\0\0\0\0\6\0\0\0\0\0\0\0'
        printf '\0\0\0\0\0\0\0\0\0\0\0\0\0\0\0\0\0\0\0\0\0\0\0\0'
    } | cmp - "$work/answered"
    run list u64 "$work/t.cv"
    did '5\n6\n'
)

# The client has gone, or reads no answer, before the server opens its own ends of the named pipes.
a_server_whose_client_has_gone_before_ends() (
    run create u64 "$work/t.cv"
    mkfifo "$work/requests" "$work/answers"
    for answers in "$work/answers" /dev/null; do
        echo "answers to $answers"
        rm -f "$work/opened" "$work/gone"
        timeout 60 cat "$work/answers" >/dev/null &
        reader=$!
        (
            exec 3<"$work/requests" 4>"$answers" && : >"$work/opened"
            until [ -e "$work/gone" ]; do sleep 0.05; done
            exec timeout 20 "$program" serve u64 "$work/t.cv" --seats=1
        ) >"$out" 2>"$err" &
        server=$!
        printf '\1\0\0\0\1\0\0\0\0\0\0\0\0\0\0\0\5\0\0\0\0\0\0\0' >"$work/requests"
        until [ -e "$work/opened" ]; do sleep 0.05; done
        kill $reader 2>/dev/null || :
        wait $reader || :
        : >"$work/gone"
        wait $server
        [ "$(cat "$out")" = 'served 1 growths' ]
    done
    run list u64 "$work/t.cv"
    did '5\n5\n'
)

# A client goes away behind 5,000 looks, whose answers are more than a pipe holds: its seat ends, and the server with it.
a_client_that_reads_no_answer_holds_no_server() (
    run create u64 "$work/t.cv"
    head -c 80000 /dev/zero | sed 's/\x0\{16\}/\x3\x0\x0\x0\x0\x0\x0\x0\x0\x0\x0\x0\x0\x0\x0\x0/g' >"$work/requests"
    mkfifo "$work/answers"
    head -c 24 "$work/answers" >"$work/answered" &
    status=0
    (trap '' PIPE && exec timeout 20 "$program" serve u64 "$work/t.cv" --seats=1 3<"$work/requests" 4>"$work/answers") \
        >"$out" 2>"$err" || status=$?
    did 'served 0 growths\n'
    head -c 24 /dev/zero | cmp - "$work/answered"
)

# Serves one client that asks for 1,100,000 growths at once. What it is answered goes to a file, and the server is run behind
# what sets its bounds.
serves_many() {
    run create u64 "$work/t.cv"
    mkfifo "$work/answers"
    cat "$work/answers" >"$work/answered" &
    reader=$!
    status=0
    "$top/tests/serve_many.py" ask 1100000 |
        ("$@" && exec "$program" serve u64 "$work/t.cv" --seats=1 3<&0 4>"$work/answers") >"$out" 2>"$err" || status=$?
    wait $reader
}

# They are more than other phases take.
a_server_takes_more_growths_than_other_phases() (
    has python3 'a server of many growths' || exit $is_skipped
    serves_many true
    did 'served 1100000 growths\n'
    "$top/tests/serve_many.py" check 1100000 1100000 <"$work/answered"
    run list u64 "$work/t.cv"
    seq 0 1099999 | cmp - "$out"
)

# The seat's row of them wants 2 GiB of addresses. Where the system refuses these, the server takes as many as other phases.
a_server_of_few_addresses_takes_as_many_as_other_phases() (
    has python3 'a server of many growths' || exit $is_skipped
    serves_many ulimit -v 1500000
    did 'served 1048568 growths\n'
    "$top/tests/serve_many.py" check 1100000 1048568 <"$work/answered"
    run list u64 "$work/t.cv"
    seq 0 1048567 | cmp - "$out"
)

# Requests of a client: a growth of the record 5, a wait, a look, and the end.
ask_growth() { printf '\1\0\0\0\1\0\0\0\0\0\0\0\0\0\0\0\5\0\0\0\0\0\0\0'; }
ask_wait() { printf '\2\0\0\0\0\0\0\0\0\0\0\0\0\0\0\0'; }
ask_end() { printf '\0\0\0\0\0\0\0\0\0\0\0\0\0\0\0\0'; }

# Of three clients the second or the third gets no thread: one that was served would wait for a growth of one that never runs.
no_client_is_served_where_one_has_no_thread() (
    has_calls || exit $is_skipped
    build_calls
    run create u64 "$work/t.cv"
    before=$(cksum <"$work/t.cv")
    { ask_growth && ask_end; } >"$work/requests"
    for thread in 2 3; do
        for client in 1 2 3; do : >"$work/answers.$client"; done
        run_with "CALLS_FAIL=thread:$thread" serve u64 "$work/t.cv" --seats=3 3<"$work/requests" 4>"$work/answers.1" \
            5<"$work/requests" 6>"$work/answers.2" 7<"$work/requests" 8>"$work/answers.3"
        was_refused memory 'the system starts no thread for each client; no client was served'
        cat "$work"/answers.? | cmp - /dev/null
        [ "$(cksum <"$work/t.cv")" = "$before" ]
    done
    run_with CALLS_FAIL=thread:4 serve u64 "$work/t.cv" --seats=3 3<"$work/requests" 4>"$work/answers.1" \
        5<"$work/requests" 6>"$work/answers.2" 7<"$work/requests" 8>"$work/answers.3"
    did 'served 3 growths\n'
)

# Behind a commit the server sleeps until those that it woke wait again, 100 microseconds at most: what they grow by in between is
# then one commit. Where nobody was woken it doesn't.
a_server_waits_shortly_for_those_that_it_woke() (
    has_calls || exit $is_skipped
    build_calls
    run create u64 "$work/t.cv"
    { for _ in $(seq 50); do ask_growth && ask_wait; done && ask_end; } >"$work/requests"
    run_with "CALLS_NAPS=$work/naps" serve u64 "$work/t.cv" --seats=1 3<"$work/requests" 4>"$work/answers"
    did 'served 50 growths\n'
    [ "$(sort -u "$work/naps")" = 100 ]
    rm "$work/naps"
    { for _ in $(seq 50); do ask_growth; done && ask_end; } >"$work/requests"
    run_with "CALLS_NAPS=$work/naps" serve u64 "$work/t.cv" --seats=1 3<"$work/requests" 4>"$work/answers"
    did 'served 50 growths\n'
    [ ! -s "$work/naps" ]
)

# The hundredths of a second of a processor that this process has had.
processor_time() {
    # shellcheck disable=SC2046 # each number is a word
    set -- $(sed 's/.*) //' "/proc/$1/stat")
    echo $((${12} + ${13}))
}

# While its client asks for nothing the server sleeps, before the first growth and behind it.
a_server_that_nobody_asks_sleeps() (
    [ -r /proc/self/stat ] || lacks 'there is no /proc to see the time of a process' || exit $is_skipped
    run create u64 "$work/t.cv"
    mkfifo "$work/requests"
    "$program" serve u64 "$work/t.cv" --seats=1 3<"$work/requests" 4>"$work/answers" >"$out" 2>"$err" &
    server=$!
    exec 9>"$work/requests"
    for _ in 1 2; do
        sleep 0.2
        before=$(processor_time $server)
        sleep 1
        [ $(($(processor_time $server) - before)) -lt 30 ]
        { ask_growth && ask_wait; } >&9
    done
    ask_end >&9
    exec 9>&-
    wait $server
    [ "$(cat "$out")" = 'served 2 growths' ]
)

the_client_in_c_is_one_for_cpp() (
    has c++ 'the client in C++' || exit $is_skipped
    printf '#include "cvec.h"\nint main() { cvec_server *server = nullptr; return cvec_server_wait(&server, nullptr, nullptr) == CVEC_NOT_SO ? 0 : 1; }\n' \
        >"$work/use.cc"
    compile_c client "$work"
    c++ -Wall -Wextra -pedantic -Werror "-I$c_headers" "$work/use.cc" "$work/client.o" -o "$work/use"
    "$work/use"
)

# The program of the examples appends a growth to a new file, and without a server says so, and ends with 1. The client in
# Python that the README shows is run by the section blocks.
the_client_that_is_shown_appends() (
    has cc 'the client that is shown' || exit $is_skipped
    compile_c client "$work"
    cc -std=c99 -Wall -Wextra -pedantic -Werror "-I$c_headers" "$c/use_server.c" "$work/client.o" -o "$work/use_server"
    ln -s "$top/cvec" "$work/cvec"
    cd "$work"
    run create u64 numbers.cvec
    ./use_server ./cvec numbers.cvec
    run list u64 numbers.cvec
    did '5\n7\n11\n'
    rm cvec
    status=0
    ./use_server ./cvec numbers.cvec >/dev/null 2>"$err" || status=$?
    [ "$status" -eq 1 ]
    tells "each growth that isn't settled stands in the file whole, or not at all"
)

the_client_in_python_that_is_shown_appends() (
    has python3 'the client that is shown' || exit $is_skipped
    run create u64 "$work/t.cv"
    PYTHONPATH=$top/bindings/python PYTHONDONTWRITEBYTECODE=1 \
        python3 "$top/examples/python/use_server.py" "$top/cvec" "$work/t.cv" >"$out"
    did '5 7 11\n'
    run list u64 "$work/t.cv"
    did '5\n7\n11\n'
)
