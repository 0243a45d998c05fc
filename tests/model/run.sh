#!/bin/sh
# run.sh [all [NAME..] | deep [NAME..] | bugs [N..] | trail N]: explores the models by spin, as README.md tells.
#
# run.sh            the checks: of each, how many states there are, the depth, the seconds and the memory
# run.sh deep       the checks that take longer
# run.sh bugs       each planted bug: it has to be found, by the property that the table below names
# run.sh trail N    a schedule that finds the bug of this number, statement by statement
#
# With names of scenarios, or numbers of bugs: these alone.
#
# It needs spin and a C compiler, one processor and less than 3 GB. The last line is 'N passed, N failed'.
here=$(cd "$(dirname "$0")" && pwd) || exit 1
passed=0
failed=0

# ---- what there is

# Name, model and options. Each has one wait that ends for nothing, where it says nothing else.
scenarios() {
    cat <<'TABLE'
wait_three|commit.pml|-DTHREADS=3 -DROUNDS=1 -DREFUSALS=1 -DFAILURES=1
wait_twice|commit.pml|-DTHREADS=2 -DROUNDS=2 -DREFUSALS=1 -DFAILURES=1
wait_sound|commit.pml|-DTHREADS=2 -DROUNDS=2
wait_often|commit.pml|-DTHREADS=3 -DROUNDS=2 -DSPURIOUS=0
shared_seat|shared.pml|-DTHREADS=2 -DROUNDS=2
flush_by_one|flusher.pml|-DGROWERS=1 -DFLUSHERS=1 -DROUNDS=1 -DREFUSALS=1 -DFAILURES=1
flush_twice|flusher.pml|-DGROWERS=1 -DFLUSHERS=1 -DROUNDS=2 -DREFUSALS=1 -DFAILURES=1
flush_by_two|flusher.pml|-DGROWERS=1 -DFLUSHERS=2 -DROUNDS=1 -DREFUSALS=1 -DFAILURES=1
flush_for_two|flusher.pml|-DGROWERS=2 -DFLUSHERS=1 -DROUNDS=1 -DSPURIOUS=0
flush_once|flusher.pml|-DGROWERS=1 -DFLUSHERS=2 -DROUNDS=1 -DREFUSALS=1 -DFAILURES=1 -DONCE
renew|seats.pml|-DSEATS=2 -DLIMIT=1 -DWORKERS=2 -DREFUSALS=1 -DFAILURES=1 -DAHEAD -DNO_LINE
renew_often|seats.pml|-DSEATS=2 -DLIMIT=1 -DWORKERS=2 -DGROWTHS=2 -DNO_LINE
renew_refused|seats.pml|-DSEATS=2 -DLIMIT=1 -DWORKERS=2 -DGROWTHS=2 -DREFUSALS=1 -DNO_LINE
renew_in_line|seats.pml|-DSEATS=1 -DLIMIT=1 -DWORKERS=3 -DGROWTHS=2
line|seats.pml|-DSEATS=2 -DWORKERS=4 -DGROWTHS=0 -DSPURIOUS=0
whole_flush|seats.pml|-DSEATS=1 -DLIMIT=2 -DWORKERS=1 -DWHOLES=1 -DFLUSHERS=1 -DREFUSALS=1 -DFAILURES=1
whole_flush_sound|seats.pml|-DSEATS=1 -DLIMIT=2 -DWORKERS=1 -DWHOLES=1 -DFLUSHERS=1 -DNO_LINE
whole_two|seats.pml|-DSEATS=1 -DLIMIT=2 -DWORKERS=1 -DWHOLES=2 -DREFUSALS=1 -DFAILURES=1
whole_late|seats.pml|-DSEATS=1 -DWORKERS=1 -DWHOLES=1 -DFLUSHERS=2 -DGROWTHS=2 -DREFUSALS=1 -DSPURIOUS=0 -DNO_LINE -DTIMED=0
renew_all|seats.pml|-DSEATS=2 -DLIMIT=1 -DWORKERS=2 -DGROWTHS=2 -DREFUSALS=1 -DFAILURES=1 -DAHEAD
renew_flush|seats.pml|-DSEATS=2 -DLIMIT=1 -DWORKERS=2 -DFLUSHERS=1 -DREFUSALS=1 -DFAILURES=1
renew_whole|seats.pml|-DSEATS=2 -DLIMIT=1 -DWORKERS=2 -DWHOLES=1 -DREFUSALS=1 -DFAILURES=1
lend|seats.pml|-DSEATS=2 -DLIMIT=1 -DWORKERS=2 -DGROWTHS=2 -DLENDS -DNO_LINE
lend_refused|seats.pml|-DSEATS=2 -DLIMIT=1 -DWORKERS=2 -DGROWTHS=2 -DLENDS -DNO_LINE -DREFUSALS=1
lend_often|seats.pml|-DSEATS=2 -DLIMIT=1 -DWORKERS=2 -DGROWTHS=3 -DLENDS -DNO_LINE
lend_compact|seats.pml|-DSEATS=1 -DLIMIT=1 -DWORKERS=2 -DWHOLES=1 -DGROWTHS=2 -DLENDS -DCOMPACTS -DNO_LINE
hold|seats.pml|-DSEATS=1 -DLIMIT=1 -DWORKERS=1 -DHOLDERS=1 -DWHOLES=1 -DREFUSALS=1 -DFAILURES=1 -DNO_LINE
hold_compact|seats.pml|-DSEATS=1 -DLIMIT=1 -DWORKERS=1 -DHOLDERS=1 -DWHOLES=1 -DREFUSALS=1 -DCOMPACTS -DRELEASES
hold_lend|seats.pml|-DSEATS=2 -DLIMIT=1 -DWORKERS=1 -DHOLDERS=1 -DWHOLES=1 -DGROWTHS=2 -DREFUSALS=1 -DLENDS -DCOMPACTS -DRELEASES -DNO_LINE
hold_by_two|seats.pml|-DSEATS=2 -DLIMIT=1 -DWORKERS=1 -DHOLDERS=2 -DGROWTHS=2 -DNO_LINE
hold_by_two_whole|seats.pml|-DSEATS=1 -DLIMIT=1 -DWORKERS=0 -DHOLDERS=2 -DWHOLES=1 -DFLUSHERS=1 -DREFUSALS=1
push|seats.pml|-DSEATS=2 -DLIMIT=1 -DWORKERS=2 -DREFUSALS=1 -DFAILURES=1 -DPUSHES -DNO_LINE
push_refused|seats.pml|-DSEATS=1 -DLIMIT=1 -DWORKERS=1 -DGROWTHS=3 -DREFUSALS=2 -DPUSHES -DNO_LINE
push_often|seats.pml|-DSEATS=2 -DLIMIT=1 -DWORKERS=2 -DGROWTHS=2 -DREFUSALS=1 -DPUSHES -DNO_LINE
push_whole|seats.pml|-DSEATS=1 -DLIMIT=1 -DWORKERS=1 -DWHOLES=1 -DGROWTHS=2 -DREFUSALS=1 -DPUSHES -DNO_LINE
borrow|borrowed.pml|-DSEATS=1 -DBORROWERS=2 -DTURNS=2 -DTIMED=0 -DSPURIOUS=0
borrow_late|borrowed.pml|-DSEATS=1 -DBORROWERS=2
borrow_three|borrowed.pml|-DSEATS=1 -DBORROWERS=3 -DNO_WORK -DREFUSALS=1 -DTIMED=0
borrow_often|borrowed.pml|-DSEATS=1 -DBORROWERS=3 -DTIMED=0 -DSPURIOUS=0
borrow_two|borrowed.pml|-DSEATS=2 -DBORROWERS=3 -DNO_WORK -DTIMED=0 -DLOOKS=1
borrow_refused|borrowed.pml|-DSEATS=2 -DBORROWERS=2 -DNO_WORK -DREFUSALS=2
borrow_own|borrowed.pml|-DSEATS=1 -DBORROWERS=1 -DOWNERS=1 -DTURNS=2 -DLIMIT=2
borrow_whole|borrowed.pml|-DSEATS=1 -DLIMIT=1 -DBORROWERS=1 -DWHOLES=1 -DREFUSALS=1 -DFAILURES=1
borrow_all|borrowed.pml|-DSEATS=1 -DLIMIT=1 -DBORROWERS=2 -DWHOLES=1 -DTIMED=0 -DSPURIOUS=0
borrow_push|borrowed.pml|-DSEATS=1 -DBORROWERS=2 -DPUSHES -DREFUSALS=1 -DTIMED=0
end|borrowed.pml|-DSEATS=1 -DBORROWERS=2 -DENDS -DTIMED=0 -DSPURIOUS=0 -DFAILURES=1
end_own|borrowed.pml|-DSEATS=1 -DBORROWERS=1 -DOWNERS=1 -DENDS -DTIMED=0 -DREFUSALS=1
end_settle|borrowed.pml|-DSEATS=1 -DBORROWERS=1 -DSETTLERS=1 -DWHOLES=1 -DENDS -DTIMED=0 -DSPURIOUS=0 -DSETTLES
settle|borrowed.pml|-DSEATS=1 -DBORROWERS=1 -DSETTLERS=1 -DTURNS=2 -DSETTLES -DFAILURES=1
settle_own|borrowed.pml|-DSEATS=1 -DOWNERS=1 -DSETTLERS=1 -DTURNS=2 -DLIMIT=1 -DSETTLES -DREFUSALS=1
settle_whole|borrowed.pml|-DSEATS=1 -DLIMIT=1 -DBORROWERS=1 -DWHOLES=1 -DSETTLERS=1 -DSETTLES -DREFUSALS=1 -DFAILURES=1
own_flusher|borrowed.pml|-DSEATS=1 -DBORROWERS=1 -DSTARTS=1 -DREFUSALS=1 -DFAILURES=1 -DTURNS=2
borrow_loop|borrowed.pml|-DSEATS=1 -DBORROWERS=3 -DLOOPS=1 -DFIFO -DLOOKS=255 -DTIMED=0 -DSPURIOUS=0
whole_loop|seats.pml|-DSEATS=1 -DWORKERS=1 -DWHOLES=1 -DLOOPS=1 -DFIFO -DCOMPACTS -DNO_LINE -DTIMED=0 -DSPURIOUS=0
whole_loop_line|seats.pml|-DSEATS=1 -DWORKERS=2 -DWHOLES=1 -DGROWTHS=0 -DLOOPS=1 -DFIFO -DCOMPACTS -DTIMED=0 -DSPURIOUS=0
fork|fork.pml|
TABLE
}

# Scenario and what is asked of it. all: no assertion fails in any state, and none is a deadlock. finite: no run goes on for ever.
# fair: each run ends in which no thread that could go on is left out for ever.
checks() {
    cat <<'TABLE'
wait_three|all
wait_twice|all
shared_seat|all
flush_twice|all
flush_once|all
flush_by_one|fair
renew|all
line|all
whole_loop|fair
lend|all
lend_compact|all
hold|all
hold_compact|all
push|all
push_refused|all
push_whole|all
borrow|all
borrow_three|all
borrow_two|all
borrow_refused|all
borrow_own|all
borrow_whole|all
borrow_all|all
borrow_loop|fair
borrow_push|all
end|all
end_settle|all
settle|all
settle_own|all
own_flusher|all
fork|all
TABLE
}

deep_checks() {
    cat <<'TABLE'
wait_often|all
wait_three|finite
flush_by_two|all
flush_by_two|fair
flush_for_two|all
whole_two|finite
fork|finite
renew_in_line|all
renew_in_line|finite
line|finite
renew_all|all
renew_flush|all
renew_whole|all
whole_late|all
renew|finite
lend|finite
lend_refused|all
lend_often|all
hold|finite
hold_compact|fair
hold_lend|all
hold_by_two|all
hold_by_two_whole|all
push_often|all
wait_twice|finite
borrow_late|all
end_own|all
renew_refused|all
whole_flush|all
whole_flush_sound|fair
whole_two|all
settle_whole|all
borrow_often|all
whole_loop_line|fair
TABLE
}

# Number, scenario, what is asked, and what finds it: words of the assertion's line; a deadlock; a cycle; or nothing.
bugs() {
    cat <<'TABLE'
1|wait_twice|all|what the mark tells is durable
2|wait_twice|all|finds the vector broken
3|wait_twice|all|deadlock
4|wait_three|all|deadlock
5|wait_three|all|one thread at a time commits
6|wait_sound|all|one thread at a time commits
7|wait_twice|all|finds the vector broken
8|wait_twice|all|deadlock
9|wait_twice|all|no write follows a call that failed
10|wait_twice|all|what a wait tells to be durable is
11|wait_twice|all|what a wait tells to be durable is
12|wait_twice|all|deadlock
13|renew|all|one thread at a time commits, by a committer
14|wait_twice|all|nothing
15|whole_two|all|nobody is inside a vector that is closed
16|renew_often|all|nobody has all handles
17|renew_often|all|one thread at a time commits
18|renew_in_line|all|deadlock
19|whole_flush|all|who is first in line was called
20|renew|all|each other handle is closed
21|renew_refused|all|a seat's grower is open
22|renew|all|no write follows a call that failed
23|whole_flush|all|nobody is inside a vector that is closed
24|whole_flush|all|no write follows a call that failed
25|whole_flush|all|no write follows a call that failed
26|flush_by_two|all|nobody is inside a vector that is closed
27|flush_by_one|all|one thread at a time commits
28|flush_by_one|all|the file is locked
29|flush_by_one|all|a close that answers DONE lost nothing
30|line|all|who is first in line was called
31|whole_flush|all|each other handle is closed
32|line|all|who is first in line was called
33|line|all|who waits for a seat is late for a reason
34|line|all|nothing
35|renew|all|deadlock
36|renew_often|all|nobody has all handles
37|renew_often|all|nobody walks through the seats
38|whole_late|all|one thread at a time commits, by a committer
39|flush_by_one|fair|cycle
40|flush_by_one|all|deadlock
41|flush_by_one|all|deadlock
42|fork|all|CVEC_FORKED
43|fork|all|deadlock
44|fork|all|no child gives the lock up
45|fork|all|CVEC_FORKED
46|wait_twice|all|nothing
47|hold_compact|all|the vector is there
48|whole_two|all|nobody has all handles
49|hold|all|a call of the whole vector has it alone
50|lend|all|what is lent stays
51|lend|all|nothing
52|lend_compact|all|a phase is full where something of it is lent
53|hold|all|a call of the whole vector has it alone
54|hold|all|deadlock
55|hold_compact|all|deadlock
56|hold|all|nobody uses a vector that is closed
57|hold|all|nobody is inside a vector that is closed
58|hold|all|deadlock
59|hold|all|no call has all handles when a hold begins
60|hold|all|nobody is inside a vector that is closed
61|hold_compact|all|deadlock
62|shared_seat|all|one call at a time has a seat
63|lend_often|all|a phase is full where something of it is lent
64|lend|all|what is lent stays
65|lend|all|what is lent stays
66|push_often|all|nobody has all handles
67|push_refused|all|nobody has all handles
68|push|all|deadlock
69|lend_often|all|a block is there
70|flush_once|all|nobody is inside a vector that is closed
71|fork|all|who has begun it isn't refused
72|renew_refused|all|there is a vault to share
73|push_whole|all|what was pushed is kept
74|whole_loop_line|fair|cycle
75|whole_loop|fair|cycle
76|whole_two|all|deadlock
77|whole_loop|fair|cycle
78|borrow|all|a borrowed seat that is idle holds up no close
79|own_flusher|all|a close leaves no thread
80|borrow|all|the vector is there
81|end|all|nothing
82|settle_own|all|a settle is for each growth
83|borrow|all|no seat is lent to two
84|borrow_own|all|who is first in line was called
85|borrow|all|who waits to borrow was called
86|end|all|the file is locked
88|borrow|all|who is first in line was called
89|borrow|all|who wants it back was called
90|borrow_often|all|who waits to borrow was called
91|borrow|all|who is first in line was called
92|borrow|all|who is first in line was called
93|borrow_push|all|a seat that is given back keeps nothing
94|borrow|all|one thread at a time commits, by a committer
95|borrow_push|all|a seat that is borrowed keeps nothing
96|borrow|all|one thread at a time commits, by a committer
97|borrow|all|who waits to borrow was called
98|borrow|all|no seat is lent to two
99|settle|all|a settle is for each growth
100|settle|all|a growth that had returned is known
101|settle|all|nobody is inside a vector that is closed
102|end|all|the vector is there
103|borrow|all|who wants it back was called
104|borrow_own|all|a borrowed seat that is idle holds up no take
106|borrow_often|all|who wants a seat back has it before
107|end|all|nobody is inside a vector that is given up
108|borrow_loop|fair|cycle
109|borrow_refused|all|who is first in line was called where one is idle
TABLE
}

# ---- one exploration, in a folder of its own

# The field of that number of the line of a table that begins with this word.
field() { "$1" | awk -F '|' -v first="$2" -v field="$3" '$1 == first { print $field; exit }'; }

# explore SCENARIO KIND [OPTION]: leaves what pan says in $work/told, and the first fault in $fault.
explore() {
    model=$(field scenarios "$1" 2)
    options="$(field scenarios "$1" 3) ${3-}"
    case $2 in
    all) how=-DSAFETY run= ;;
    finite) how='-DNP -DNOFAIR' run=-l ;;
    fair) how=-DNFAIR=3 run='-a -f' options="$options -DFAIR" ;;
    esac
    rm -rf "${work:?}"/*
    cp "$here"/*.pml "$work"
    # shellcheck disable=SC2086 # options are words
    (cd "$work" && spin -a $options "$model" && cc -w -O0 $how -DMEMLIM=3000 -o pan pan.c && ./pan $run -m1000000 -w22) \
        >"$work/told" 2>&1
    fault=$(fault_told)
}

# An assertion by its line, which says what it says; empty where there is no fault.
fault_told() {
    if ! grep -q 'errors: [0-9]' "$work/told"; then
        echo 'not explored'
    elif grep -q '^pan:1: assertion violated' "$work/told"; then
        # shellcheck disable=SC2086
        at=$(cd "$work" && spin -t $options "$model" | sed -n 's/^spin: \([a-z]*\.pml:[0-9]*\), Error: assertion violated.*/\1/p')
        sed -n "${at#*:}{s/^ *//;p;}" "$work/${at%:*}"
    elif grep -q '^pan:1: invalid end state' "$work/told"; then
        echo 'deadlock'
    elif grep -q '^pan:1: .* cycle' "$work/told"; then
        echo 'cycle'
    elif grep -q '^pan: reached\|too small' "$work/told"; then
        echo 'not all states'
    elif ! grep -q 'errors: 0' "$work/told"; then
        grep -m 1 '^pan:1' "$work/told"
    fi
}

# States, depth, seconds, megabytes.
size_told() {
    awk '/states, stored/ { states = $1 } /depth reached/ { depth = $6 + 0 }
        /actual memory usage/ { memory = $1 } /elapsed time/ { time = $4 }
        END { printf "%9d states, depth %4d, %5.1f s, %4d MB", states, depth, time, memory }' "$work/told"
}

# ---- all of a table

count() {
    if [ "$1" -eq 0 ]; then passed=$((passed + 1)); else failed=$((failed + 1)); fi
}

check_all() {
    "$1" >"$session/table"
    shift
    while IFS='|' read -r scenario kind; do
        case " ${*:-$scenario} " in *" $scenario "*) ;; *) continue ;; esac
        explore "$scenario" "$kind"
        printf '%-18s %-6s %s  %s\n' "$scenario" "$kind" "$(size_told)" "${fault:-holds}"
        [ -z "$fault" ]
        count $?
    done <"$session/table"
}

find_bugs() {
    bugs >"$session/table"
    while IFS='|' read -r number scenario kind expected; do
        case " ${*:-$number} " in *" $number "*) ;; *) continue ;; esac
        begun=$(date +%s)
        explore "$scenario" "$kind" "-DBUG=$number"
        case ${fault:-nothing} in
        *"$expected"*) found=0 told='as expected' ;;
        *) found=1 told="FAILED, expected: $expected" ;;
        esac
        printf '%3d %-14s %3d s  %s: %s\n' "$number" "$scenario" $(($(date +%s) - begun)) "$told" "${fault:-nothing}"
        count "$found"
    done <"$session/table"
}

show_trail() {
    explore "$(field bugs "$1" 2)" "$(field bugs "$1" 3)" "-DBUG=$1"
    # shellcheck disable=SC2086
    (cd "$work" && spin -t -p $options "$model" | sed 's/ (state [0-9-]*)//')
    echo "$fault"
}

command -v spin >/dev/null || {
    echo 'run.sh: there is no spin' >&2
    exit 2
}
session=$(mktemp -d) || exit 1
trap 'rm -rf "$session"' EXIT
trap 'exit 1' HUP INT TERM
work=$session/work
mkdir "$work"
does=${1-all}
[ $# -eq 0 ] || shift
case $does in
all) check_all checks "$@" ;;
deep) check_all deep_checks "$@" ;;
bugs) find_bugs "$@" ;;
trail)
    show_trail "${1-}"
    exit
    ;;
*)
    echo 'usage: run.sh [all [NAME..] | deep [NAME..] | bugs [N..] | trail N]' >&2
    exit 2
    ;;
esac
echo "$passed passed, $failed failed"
[ "$failed" -eq 0 ] && [ "$passed" -gt 0 ]
