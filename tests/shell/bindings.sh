# The callers of the library for C, in C, Python and Rust: each follows one table of cases, and has the same answers. So do the
# clients of a server. The tables, and what follows them, stand in tests/bindings.

bindings=$top/tests/bindings

# ---- the callers, each built once, beside the folder of a test's files

built=$work-built

has_tables() {
    for tool in cc python3 flock prlimit timeout; do
        has $tool 'tables of cases' || return 1
    done
}

has_caller() {
    has_tables && has_c || return 1
    [ "$1" != rust ] || has rustc 'the library for plain Rust'
}

make_caller() {
    kit_library=$(dirname "$(rt doc)")/c/liblibc_c.a
    mkdir -p "$built"
    if [ ! -e "$built/file.o" ]; then
        make_c_library
        cp "$work/file.o" "$built"
    fi
    "make_$1"
}

make_c() {
    [ -e "$built/c" ] || cc -std=c99 -O2 -Wall -Wextra -Werror "-I$c_headers" "-I$c_sources" -o "$built/c" "$bindings/driver.c" \
        "$c_sources/system.c" "$c_sources/types.c" "$c_library" "$kit_library"
}

make_python() {
    [ -e "$built/libcvec.so" ] || cc -shared -o "$built/libcvec.so" "$built/file.o" -Wl,--whole-archive "$c_library" \
        -Wl,--no-whole-archive "$kit_library"
}

make_client() {
    mkdir -p "$built"
    [ -e "$built/client_c" ] || cc -std=c99 -O2 -Wall -Wextra -Werror "-I$c_headers" "-I$c_sources" -o "$built/client_c" \
        "$bindings/client.c" "$c_sources/system.c" "$c_sources/types.c"
}

# What tables and clients start: the program, and two programs in Python.
make_programs() {
    python=$(python3 -c 'import sys; print(sys.executable)')
    ln -sf "$top/cvec" "$built/cvec"
    for name in other false_server; do
        { echo "#!$python" && tail -n +2 "$bindings/$name.py"; } >"$built/$name"
        chmod +x "$built/$name"
    done
}

# The Python that has numpy, where there is one.
make_arrays() {
    for arrays in "$python" /usr/bin/python3; do
        "$arrays" -c 'import numpy' 2>/dev/null && return
    done
    lacks 'there is no numpy for arrays for Python'
}

make_rust() {
    [ -e "$built/rust" ] && return
    make_rust_crate "$built"
    make_rust_program "$bindings/driver.rs" "$built/rust"
}

# Stands between a caller and the system.
make_calls() {
    [ -e "$built/calls.so" ] ||
        cc -std=gnu11 -O1 -Wall -Wextra -Werror -shared -fPIC -o "$built/calls.so" "$bindings/calls.c" -ldl
}

# ---- tables

# Ranges and repeated words of a table are written out.
write_out() {
    awk '/^#/ { print; next }
        {
            for (k = 1; k <= NF; k++) {
                if (k > 1) printf " "
                if ($k ~ /^[0-9]+\.\.[0-9]+$/) {
                    split($k, ends, /\.\./)
                    for (n = ends[1] + 0; n <= ends[2] + 0; n++) printf "%s%d", (n > ends[1] + 0 ? " " : ""), n
                } else if ($k ~ /^[0-9:-]+\*[0-9]+$/) {
                    split($k, parts, "*")
                    for (n = 1; n <= parts[2] + 0; n++) printf "%s%s", (n > 1 ? " " : ""), parts[1]
                } else printf "%s", $k
            }
            print ""
        }' "$1"
}

# The caller gives a table back, in an empty folder. A third word says how its calls are meddled with: they are those of the
# interpreter itself, since a program that starts it would have the preloaded library in its place.
follows() {
    rm -rf "$work/here"
    mkdir "$work/here"
    write_out "$bindings/$2" >"$work/table"
    make_programs
    caller=$1 table=$2
    set -- "CALLS=${3-}"
    [ "$*" = CALLS= ] || set -- "$@" "LD_PRELOAD=$built/calls.so"
    case $caller in
    python) set -- "$@" "$python" "$bindings/driver.py" ;;
    client_python) set -- "$@" "$python" "$bindings/client.py" ;;
    client_arrays) set -- "$@" "$arrays" "$bindings/client.py" ;;
    *) set -- "$@" "$built/$caller" ;;
    esac
    ended=0
    (
        cd "$work/here"
        umask 022
        export "PATH=$built:$PATH" "CVEC_LIB=$built"
        export "PYTHONPATH=$top/bindings/python:$top/tests/fuzz" PYTHONDONTWRITEBYTECODE=1
        exec timeout 600 env "$@" "$work/table"
    ) <"$work/table" >"$work/answered" || ended=$?
    echo "$table by $caller, with $1:"
    diff "$work/table" "$work/answered" | cut -c 1-200
    cmp "$work/table" "$work/answered"
    [ "$ended" -eq 0 ]
    [ "$1" = CALLS= ] || [ -e "$work/here/meddled" ]
}

# ---- tests

# The tables of the header, written out by hand, and the numbers that callers have of them.
each_type_and_each_status_has_one_number() (
    for tool in cc python3; do has $tool 'the tables of the header' || exit $is_skipped; done
    cc -std=c99 -Wall -Wextra -Werror -pedantic "-I$c_headers" -o "$work/tables" "$bindings/tables.c" "$c_sources/types.c"
    for name in types statuses causes; do
        "$work/tables" $name >"$out"
        diff "$bindings/$name.txt" "$out"
    done
    PYTHONDONTWRITEBYTECODE=1 python3 "$bindings/tables.py"
)

answers_are_right() {
    has_caller "$1" || exit $is_skipped
    make_caller "$1"
    follows "$1" cases.txt
    follows "$1" reads.txt
    follows "$1" names.txt
}

answers_are_right_in_c() (
    answers_are_right c
    follows c bytes.txt
    follows c bytes_map.txt
    follows c numbers.txt
    follows c numbers_map.txt
    follows c often.txt
    follows c shared.txt
)

# Each front of a file of two groups and a shrink, and a file with another byte at each place: a reader answers of it what an
# opener does.
fronts_are_told_alike() (
    has_caller c || exit $is_skipped
    make_caller c
    head=0143564543534547020800 seven=0700000000000000
    group=01011800000001000000020000000500000000000000$seven shrink=01030800000001$(printf '%014d' 0)
    file=$head$group${shrink}01011000000001000000010000000900000000000000
    file=${file}00
    for k in $(seq 0 $((${#file} / 2))); do
        front=$(printf %s "$file" | head -c $((2 * k)))
        back=$(printf %s "$file" | tail -c +$((2 * k + 3)))
        for image in "$front" "${front}05$back"; do
            echo "> put $work/t.cv $image"
            for how in open open-to-read; do
                printf '> %s a u64 %s\n> read a 0 9\n> stat a\n> close a\n' $how "$work/t.cv"
            done
        done
    done >"$work/table"
    "$built/c" "$work/table" >"$out"
    sed 's/^> open-to-read /> open /' "$out" | awk '/^> put/ { turn = 0 } /^> open/ { turn++ } turn == 1' >"$work/opened"
    sed 's/^> open-to-read /> open /' "$out" | awk '/^> put/ { turn = 0 } /^> open/ { turn++ } turn == 2' >"$work/seen"
    [ "$(grep -c '^> open' "$work/opened")" -eq $((2 * (${#file} / 2 + 1))) ]
    grep -q '^refused 5' "$work/seen"
    grep -q '^2: 5 9' "$work/seen"
    diff "$work/opened" "$work/seen"
)

# Two that open a file wait for a reader that shares its lock, and neither keeps it from the other meanwhile.
openers_wait_for_a_reader() (
    has_caller c || exit $is_skipped
    make_caller c
    "$top/cvec" create u64 "$work/t.cv" >/dev/null
    echo "> often 1 u64 $work/t.cv" >"$work/table"
    sh -c 'exec 8<"$1"; flock -s 8; : >"$2"; exec sleep 1' sh "$work/t.cv" "$work/held" &
    until [ -e "$work/held" ]; do sleep 0.05; done
    timeout 6 "$built/c" "$work/table" >"$work/first" &
    timeout 6 "$built/c" "$work/table" >"$work/second"
    wait $!
    cat "$work/first" "$work/second"
    # Which of them meets the other is refused.
    grep -qx 'done' "$work/first" "$work/second"
)

answers_are_right_in_python() (
    answers_are_right python
    follows python python.txt
    follows python bytes.txt
    follows python bytes_map.txt
    follows python numbers.txt
    follows python numbers_map.txt
)

answers_are_right_in_rust() (
    answers_are_right rust
    follows rust rust.txt
    follows rust bytes.txt
    follows rust numbers.txt
)

records_are_found_where_they_stand() (
    has_caller c || exit $is_skipped
    for caller in c python; do
        make_caller $caller
        follows $caller maps.txt
    done
)

# Each call is interrupted once, and then does a part of what it is asked.
parts_make_a_whole() {
    has_caller "$1" || exit $is_skipped
    make_caller "$1"
    make_calls
    follows "$1" cases.txt part
    follows "$1" reads.txt part
}

parts_make_a_whole_in_c() (
    parts_make_a_whole c
)

parts_make_a_whole_in_python() (
    parts_make_a_whole python
)

parts_make_a_whole_in_rust() (
    parts_make_a_whole rust
)

# What a caller asks of the system, in which order, and what it does where it is refused.
calls_come_in_order() {
    has_caller "$1" || exit $is_skipped
    make_caller "$1"
    make_calls
    follows "$1" faults.txt plan
}

calls_come_in_order_in_c() (
    calls_come_in_order c
)

calls_come_in_order_in_python() (
    calls_come_in_order python
)

calls_come_in_order_in_rust() (
    calls_come_in_order rust
)

# A caller holds the whole of a file in memory, and a map may be counted as that.
has_memory() {
    [ "$(awk '/^MemAvailable/ { print $2 }' /proc/meminfo 2>/dev/null || echo 0)" -gt 5000000 ] ||
        lacks 'there are no 5 GB of memory for files past 2 and 4 GiB'
}

# In parts, since one call of the system reads 2 GiB at most.
a_file_may_pass_2_gib() (
    has_caller c && has_memory || exit $is_skipped
    make_caller c
    make_calls
    follows c long.txt part
    make_caller python
    follows python long_map.txt
    rm -r "$work/here"
)

# ---- clients of a server

a_table_holds_for_clients() (
    has_tables || exit $is_skipped
    make_client
    for caller in client_c client_python; do
        follows $caller clients.txt
        follows $caller limits.txt
    done
    follows client_c client_c.txt
    follows client_python client_python.txt
    # Records are arrays where there is numpy, which may be that of another Python.
    make_arrays || exit 0
    follows client_arrays clients.txt
    follows client_arrays client_python.txt
)

a_client_in_c_without_memory_loses_nothing() (
    has cc 'clients of a server' || exit $is_skipped
    cc -std=c99 -O2 -Wall -Wextra -Werror "-I$c_headers" -o "$work/faults" "$bindings/client_faults.c" "$c_sources/client.c" \
        "$c_sources/system.c" "$c_sources/types.c"
    timeout 60 "$work/faults"
)

# Also where each call is interrupted once, and does a part of what it is asked.
growths_of_a_client_in_c_are_answered_in_turn() (
    has_tables || exit $is_skipped
    make_client
    make_calls
    follows client_c sent.txt
    follows client_c sent.txt part
)

clients_start_servers() (
    has_tables || exit $is_skipped
    make_client
    for caller in client_c client_python; do
        follows $caller starts.txt
    done
)

# No pipe has the number of a standard stream, which the server gets of its own.
a_python_client_may_have_closed_streams() (
    has python3 'clients of a server' || exit $is_skipped
    cat >"$work/client.py" <<'CLIENT'
import sys
import cvec
with cvec.Server(sys.argv[2], "u64", seats=2, program=sys.argv[1]) as server:
    for number in (5, 6, 7):
        server.seats[number % 2].grow([number])
        server.seats[number % 2].settle()
CLIENT
    client() {
        rm -f "$work/t.cv"
        run create u64 "$work/t.cv"
        PYTHONPATH=$top/bindings/python PYTHONDONTWRITEBYTECODE=1 timeout 60 python3 "$work/client.py" "$top/cvec" "$work/t.cv"
    }
    client <&-
    has_records 5 7
    client >&-
    has_records 5 7
    client <&- >&-
    has_records 5 7
    client <&- >&- 2>&-
    has_records 5 7
)

# There are too few descriptors for all pipes, at each number of them; no server is started then.
a_python_client_without_descriptors_loses_none() (
    has python3 'clients of a server' || exit $is_skipped
    PYTHONPATH=$top/bindings/python PYTHONDONTWRITEBYTECODE=1 timeout 60 python3 - <<'CLIENT'
import os
import resource
import cvec
opened = lambda: set(os.listdir("/proc/self/fd"))
os.close(0)
before = opened()
for limit in range(4, 24):
    resource.setrlimit(resource.RLIMIT_NOFILE, (limit, resource.getrlimit(resource.RLIMIT_NOFILE)[1]))
    try:
        cvec.Server("/nowhere", "u64", seats=8, program="/nowhere")
        raise SystemExit("it was started")
    except OSError:
        pass
    resource.setrlimit(resource.RLIMIT_NOFILE, (64, resource.getrlimit(resource.RLIMIT_NOFILE)[1]))
    if opened() != before:
        raise SystemExit(f"limit {limit}: {sorted(opened() - before)} stay")
CLIENT
)

# Ctrl-C comes at each moment at which it ends a seat or a server: what is left of the pipes is closed by another call.
a_python_client_that_is_interrupted_leaves_no_pipe() (
    has python3 'clients of a server' || exit $is_skipped
    run create u64 "$work/t.cv"
    PYTHONPATH=$top/bindings/python PYTHONDONTWRITEBYTECODE=1 timeout 200 python3 "$bindings/client_interrupts.py" "$top/cvec" "$work/t.cv" \
        >"$work/records"
    run list u64 "$work/t.cv"
    [ "$(wc -l <"$out")" -eq "$(cat "$work/records")" ]
)

# A client's words, of which the first is `c` or `python`, at a terminal of its own.
at_a_terminal() {
    how=$1
    case $2 in
    c) client=$built/waits ;;
    python) client="$python $bindings/waits.py" ;;
    esac
    shift 2
    rm -f "$work/t.cv"
    run create u64 "$work/t.cv"
    PYTHONPATH=$top/bindings/python PYTHONDONTWRITEBYTECODE=1 \
        python3 "$bindings/terminal.py" "$how" $client "$built/cvec" "$work/t.cv" "$@" >"$out"
}

# The file has the records from one to another.
has_records() {
    seq "$1" "$2" >"$work/wanted"
    run list u64 "$work/t.cv"
    cmp "$work/wanted" "$out"
}

# The file has the records from 0 on, so many.
has_first() { has_records 0 $(($1 - 1)); }

make_terminal() {
    make_client
    make_programs
    cc -std=c99 -O2 -Wall -Wextra -Werror "-I$c_headers" "-I$c_sources" -o "$built/waits" "$bindings/waits.c" "$c_sources/system.c" \
        "$c_sources/types.c"
}

# Ctrl-C reaches the client alone: its growths are settled while it waits for that, or leaves.
a_client_is_interrupted_and_told_what_is_settled() (
    has_tables || exit $is_skipped
    make_terminal
    for client in c python; do
        at_a_terminal interrupt $client
        printf 'settled 200\nended 0\n' | cmp - "$out"
        has_first 200
    done
    at_a_terminal interrupt python leaves
    cat "$out"
    answered=$(sed -n '1s/^answered //p' "$out")
    [ "$(sed 1d "$out")" = 'ended 0' ]
    run list u64 "$work/t.cv"
    # The request that was left may have been done.
    [ "$answered" -ge 200 ]
    stands=$(wc -l <"$out")
    [ $((stands - answered)) -ge 0 ]
    [ $((stands - answered)) -le 1 ]
    has_first "$stands"
)

# A client that is killed, and the terminal with it, ends its server, which has settled what was grown.
a_client_that_is_killed_ends_its_server() (
    has_tables || exit $is_skipped
    make_terminal
    for client in c python; do
        at_a_terminal kill $client
        printf 'ended 0\n' | cmp - "$out"
        has_first 200
    done
)

a_client_in_c_is_beside_the_standard_streams() (
    has_tables || exit $is_skipped
    cc -std=c99 -O2 -Wall -Wextra -Werror "-I$c_headers" "-I$c_sources" -o "$work/closed" "$bindings/closed.c"
    run create u64 "$work/t.cv"
    status=0
    timeout 20 "$work/closed" "$top/cvec" "$work/t.cv" || status=$?
    echo "status $status"
    [ "$status" -eq 0 ]
    run list u64 "$work/t.cv"
    did '7\n7\n7\n'
)

parts_make_a_whole_for_clients() (
    has_tables || exit $is_skipped
    make_client
    make_calls
    for caller in client_c client_python; do
        follows $caller clients.txt part
    done
)

# A server whose pipes are there in part is refused before it opens the file, and answers nobody.
a_server_whose_pipes_are_half_there_is_refused() (
    run create u64 "$work/t.cv"
    before=$(cksum <"$work/t.cv")
    printf '\3\0\0\0\0\0\0\0\0\0\0\0\0\0\0\0' >"$work/asked"
    refuses_pipes() {
        status=0
        "$@" >"$out" 2>"$err" || status=$?
        was_refused file 'a pipe of the clients'
        [ ! -s "$work/answers" ]
        [ "$before" = "$(cksum <"$work/t.cv")" ]
    }
    serve() { "$top/cvec" serve u64 "$work/t.cv" "--seats=$1"; }
    : >"$work/answers"
    refuses_pipes serve 1 3<"$work/asked" 4>&-
    refuses_pipes serve 1 3<&- 4>"$work/answers"
    refuses_pipes serve 2 3<"$work/asked" 4>"$work/answers" 5<"$work/asked" 6>&-
    refuses_pipes serve 2 3<"$work/asked" 4>"$work/answers" 5<&- 6>"$work/answers"
)
