# Copies that `cvec follow --events` keeps elsewhere, by the scripts of examples/shipping, and what reads beside a writer.

shipping=$top/examples/shipping

# The copy of this way, of records of this type, stays exact while what keeps it is killed: SHIPPING_KILLS times, or 12.
stays_exact() {
    PYTHONDONTWRITEBYTECODE=1 "$top/tests/shipping.py" "$program" "$shipping" "$work" "$1" "$2" "${SHIPPING_KILLS:-12}" >"$out"
    cat "$out"
    grep -q "^$1: [1-9][0-9]* kills, " "$out"
}

# ---- copies that are killed

a_copy_in_another_file_stays_exact() (
    has python3 'copies by follow' || exit "$is_skipped"
    stays_exact apply pair
)

a_copy_of_bytes_stays_exact() (
    has python3 'copies by follow' || exit "$is_skipped"
    stays_exact apply bytes24
)

a_copy_of_floats_stays_exact() (
    has python3 'copies by follow' || exit "$is_skipped"
    stays_exact apply f64
)

a_copy_in_sqlite_stays_exact() (
    has python3 'copies by follow' && has sqlite3 'a copy in SQLite' || exit "$is_skipped"
    stays_exact sqlite u64
)

has_redis() { has python3 'copies by follow' && has redis-server 'a copy in Redis' && has redis-cli 'a copy in Redis'; }

a_copy_in_redis_stays_exact() (
    has_redis || exit "$is_skipped"
    stays_exact redis i64
)

# The parts are in slots of a cluster, of one node.
a_copy_in_three_parts_stays_exact() (
    has_redis || exit "$is_skipped"
    redis-server --version | grep -q 'v=\([7-9]\|[1-9][0-9]\)[.]' || lacks 'Redis is older than 7 for a copy in parts' || exit "$is_skipped"
    stays_exact parts u32
)

# Its server runs as no root: root takes the user that Debian's package makes.
has_postgres() {
    has python3 'copies by follow' && has psql 'a copy in PostgreSQL' || return 1
    for initdb in /usr/lib/postgresql/*/bin/initdb "$(command -v initdb)"; do
        [ ! -x "$initdb" ] || break
    done
    [ -x "$initdb" ] || lacks 'there is no initdb for a copy in PostgreSQL' || return 1
    [ "$(id -u)" -ne 0 ] || id postgres >/dev/null 2>&1 || lacks 'there is no user postgres for a copy in PostgreSQL'
}

a_copy_in_postgres_stays_exact() (
    has_postgres || exit "$is_skipped"
    stays_exact postgres flagged
)

# ---- what a copy refuses

# A command in place of a follower, which writes this text to whoever starts behind this PLACE.
follows() {
    printf '#!/bin/sh\n[ "$*" = "%s" ] || exit 9\nprintf "%s"\n%s\n' "$1" "$2" "${3-}" >"$work/follower"
    chmod +x "$work/follower"
}

# A command in place of a follower, which leaves a file, and then writes a step.
leaves_a_file() {
    printf '#!/bin/sh\ntouch "%s/begun"\nprintf "+ 5\\\\n. 9\\\\n"\n' "$work" >"$work/follower"
    chmod +x "$work/follower"
}

# Keeps the table of SQLite by that command.
keeps() {
    status=0
    PYTHONDONTWRITEBYTECODE=1 "$shipping/to_sqlite" "$work/t.db" "$work/follower" >"$out" 2>"$err" || status=$?
    [ ! -s "$out" ]
}

# The table has these records, and PLACE is this.
has_kept() {
    [ "$(sqlite3 "$work/t.db" 'select record from vector order by position' | paste -sd ' ')" = "$1" ]
    [ "$(sqlite3 "$work/t.db" 'select place from place')" = "$2" ]
}

# What a kill cuts is no line: `. 12` may have been `. 123`.
a_step_that_is_cut_is_none() (
    has python3 'copies by follow' && has sqlite3 'a copy in SQLite' || exit "$is_skipped"
    follows '' '+ 5\\n+ 6\\n. 1:2\\n= 0 7\\n+ 8\\n. 12'
    keeps
    [ "$status" -eq 0 ]
    has_kept '5 6' 1:2
    follows --after=1:2 '= 0 7\\n+ 8\\n. 123\\n< 1\\n' 'kill -9 $$'
    keeps
    [ "$status" -eq 1 ]
    tells 'ended with status -9'
    has_kept '7 6 8' 123
    follows --after=123 '< 1\\n. 9\\n'
    keeps
    [ "$status" -eq 0 ]
    has_kept 7 9
)

what_is_no_line_of_a_step_is_refused() (
    has python3 'copies by follow' && has sqlite3 'a copy in SQLite' || exit "$is_skipped"
    follows '' '+ 5\\n. 1\\n'
    keeps
    bytes=00112233445566778899aabbccddeeff
    for line in '+' '+ ' '+ x' '+ 5 6' '= 1' '= 0 5;drop' '= -1 5' '< ' '< -1' '. ' '. 1 2' '. --once' '+ 5\\r' ' + 5' 5 '' '+ ff' \
        '+ .5' '+ 1.' '+ +1.5' '+ 1e' '+ 1e+5' '+ 1.5e1.5' '+ nan' '+ -NaN' '+ NaN:' '+ NaN:-1' '+ infinity' '+ inf:1' '+ 1.5:2' \
        '+ 0.5;drop' '= 0.5 1' '= inf 1' '< 1.0' '. 1.5' '. NaN:1' \
        "+ ${bytes#0}" "+ a$bytes" "= 0 -$bytes" "= 0 $bytes:1" "+ $(echo $bytes | tr a-f A-F)" "+ $bytes$bytes$bytes" "< $bytes" ". $bytes"; do
        follows --after=1 "+ 6\\\\n$line\\\\n. 2\\\\n"
        keeps
        [ "$status" -eq 3 ]
        tells 'no line of a step'
        has_kept 5 1
    done
    follows --after=1 '+ 6\\nrefused: replaced\\n' 'exit 1'
    keeps
    [ "$status" -eq 3 ]
    tells 'refused: replaced'
    has_kept 5 1
)

# Also where all digits of a record are decimal, and the first ones 0: it is no number.
records_of_bytes_are_text_in_sqlite() (
    has python3 'copies by follow' && has sqlite3 'a copy in SQLite' || exit "$is_skipped"
    bytes16=00000000000000000000000000000012 other16=00112233445566778899aabbccddeeff
    bytes24=000000000000000000000000000000000000000000000013 other24=${other16}a0b1c2d3e4f50617
    bytes32=$other16$bytes16 bytes64=$bytes16$bytes16$bytes16$bytes16 other64=$bytes32$bytes32
    follows '' "+ $bytes16\\\\n+ $bytes24\\\\n+ $bytes32\\\\n+ $bytes64\\\\n+ 12\\\\n. 1\\\\n"
    keeps
    [ "$status" -eq 0 ]
    has_kept "$bytes16 $bytes24 $bytes32 $bytes64 12" 1
    follows --after=1 "= 3 $other64\\\\n= 1 $other24\\\\n= 0 $other16\\\\n. 2\\\\n"
    keeps
    [ "$status" -eq 0 ]
    has_kept "$other16 $other24 $bytes32 $other64 12" 2
    [ "$(sqlite3 "$work/t.db" 'select typeof(record) from vector order by position' | paste -sd ' ')" = 'text text text text integer' ]
)

# Also the least of i32 and of i64. Of u64 those from 2^63 on are none that SQLite has.
numbers_are_integers_in_sqlite() (
    has python3 'copies by follow' && has sqlite3 'a copy in SQLite' || exit "$is_skipped"
    numbers='255 65535 -2147483648 2147483647 -9223372036854775808 9223372036854775807 9223372036854775808'
    # shellcheck disable=SC2086 # each word is one
    follows '' "$(printf '+ %s\\\\n' $numbers). 1\\\\n"
    keeps
    [ "$status" -eq 0 ]
    has_kept "$numbers" 1
    [ "$(sqlite3 "$work/t.db" 'select typeof(record) from vector order by position' | uniq -c | tr -s ' \n' ' ')" = ' 6 integer 1 text ' ]
)

# SQLite's own REAL has no NaN, and none of these texts.
floats_are_text_in_sqlite() (
    has python3 'copies by follow' && has sqlite3 'a copy in SQLite' || exit "$is_skipped"
    floats='0.5 -0.0 1.0 1e300 -5e-324 1.7976931348623157e308 3.4028235e38 inf -inf NaN NaN:18446744073709551615'
    # shellcheck disable=SC2086 # each word is one
    follows '' "$(printf '+ %s\\\\n' $floats). 1\\\\n"
    keeps
    [ "$status" -eq 0 ]
    has_kept "$floats" 1
    follows --after=1 '= 0 NaN:9221120237041090561\\n= 2 1e16\\n. 2\\n'
    keeps
    [ "$status" -eq 0 ]
    [ "$(sqlite3 "$work/t.db" 'select record from vector order by position limit 3' | paste -sd ' ')" = 'NaN:9221120237041090561 -0.0 1e16' ]
    [ "$(sqlite3 "$work/t.db" 'select distinct typeof(record) from vector')" = text ]
)

# PostgreSQL takes 63 bytes of a name. That of the table with PLACE must be another.
a_long_name_of_a_table_is_refused() (
    has python3 'copies by follow' && has psql 'a copy in PostgreSQL' || exit "$is_skipped"
    export PYTHONDONTWRITEBYTECODE=1 PGHOST="$work"
    name=$(printf '%062d' 0 | tr 0 a)
    for name in "$name" "${name}b" "${name}bc"; do
        status=0
        "$shipping/to_postgres" "$name" false >"$out" 2>"$err" || status=$?
        if [ "${#name}" -eq 62 ]; then
            # There is no server.
            [ "$status" -eq 1 ]
            tells 'psql'
        else
            [ "$status" -eq 2 ]
            tells 'a name of a table has 62 bytes at most'
        fi
    done
)

# So `again` ends too. The follower isn't begun.
words_of_a_part_are_checked() (
    has python3 'copies by follow' || exit "$is_skipped"
    export PYTHONDONTWRITEBYTECODE=1
    leaves_a_file
    for words in 'x 3' '0 x' '0 0' '3 3' '5 3' '-1 3' '0 -3' '1.0 3' '0_1 3'; do
        status=0
        # shellcheck disable=SC2086 # each word is one
        timeout 10 "$shipping/again" "$shipping/part" $words "$work/follower" >"$out" 2>"$err" || status=$?
        [ "$status" -eq 2 ]
        tells 'usage: part K N COMMAND ..'
        [ ! -s "$out" ]
    done
    [ ! -e "$work/begun" ]
    "$shipping/part" 2 3 "$work/follower"
    [ -e "$work/begun" ]
)

# Nothing is made, and `again` ends.
a_copy_of_a_wrong_type_is_refused() (
    has python3 'copies by follow' || exit "$is_skipped"
    export CVEC="$program" PYTHONDONTWRITEBYTECODE=1
    leaves_a_file
    for type in u65 u24 i8 f16 F64 float U64 bytes bytes8 bytes24.0 ''; do
        status=0
        timeout 10 "$shipping/again" "$shipping/apply" "$type" "$work/copy.cv" "$work/follower" >"$out" 2>"$err" || status=$?
        [ "$status" -eq 2 ]
        tells 'a TYPE is one of u8, u16, u32, u64, i32, i64, f32, f64, pair, flagged, bytes16, bytes24, bytes32, bytes64'
        [ -z "$(find "$work" -name 'copy.cv*' -o -name begun)" ]
    done
    "$shipping/apply" u64 "$work/copy.cv" "$work/follower"
    [ -e "$work/begun" ]
)

# Its step cuts the copy, for which `apply` takes a record of its own, and appends.
a_copy_may_be_of_each_type() (
    has python3 'copies by follow' || exit "$is_skipped"
    export CVEC="$program" PYTHONDONTWRITEBYTECODE=1
    while read -r type one two; do
        echo "$type"
        follows '' "+ $one\\\\n+ $one\\\\n. 1\\\\n"
        "$shipping/apply" "$type" "$work/$type.cv" "$work/follower"
        follows --after=1 "= 0 $two\\\\n. 2\\\\n< 1\\\\n+ $one\\\\n. 3\\\\n"
        "$shipping/apply" "$type" "$work/$type.cv" "$work/follower"
        run list "$type" "$work/$type.cv"
        did "$two\n$one\n"
    done <<ROWS
u8 0 255
u16 256 65535
u32 0 4294967295
u64 0 18446744073709551615
i32 -2147483648 2147483647
i64 -9223372036854775808 9223372036854775807
f32 -0.0 3.4028235e38
f64 NaN:18446744073709551615 -inf
pair 7:-3 8:0
flagged 5:1 6:0
bytes16 $(printf '%032d %032d' 5 6)
bytes24 $(printf '%048d %048d' 5 6)
bytes32 $(printf '%064d %064d' 5 6)
bytes64 $(printf '%0128d %0128d' 5 6)
ROWS
)

# The command that a killed script has begun ends before another script goes on, which does that step once more.
what_a_killed_script_has_begun_is_waited_for() (
    has python3 'copies by follow' || exit "$is_skipped"
    printf '#!/bin/sh\n[ "$1" != append ] || { touch "%s/begun"; sleep 1; }\nexec "%s" "$@"\n' "$work" "$program" >"$work/slow"
    chmod +x "$work/slow"
    export CVEC="$work/slow" PYTHONDONTWRITEBYTECODE=1
    follows '' '+ 5\\n. 1\\n'
    "$shipping/apply" u64 "$work/copy.cv" "$work/follower" &
    child=$!
    until [ -e "$work/begun" ]; do sleep 0.01; done
    kill -9 $child
    follows --after=1 '+ 6\\n. 2\\n'
    "$shipping/apply" u64 "$work/copy.cv" "$work/follower"
    run list u64 "$work/copy.cv"
    did '5\n6\n'
)

# Starts a server, which ends with the test.
begins_redis() {
    redis-server --port 0 --unixsocket "$work/s" --save '' --daemonize yes >/dev/null
    export REDIS_CLI="redis-cli -e -s $work/s" PYTHONDONTWRITEBYTECODE=1
    await $REDIS_CLI ping
    trap '$REDIS_CLI shutdown nosave' EXIT
}

# Keeps the list of this name, or `t`, by that command.
ships() {
    status=0
    timeout 60 "$shipping/to_redis" "${1-t}" "$work/follower" >"$out" 2>"$err" || status=$?
}

# The list has these records, and this is what stands at PLACE's key.
has_shipped() {
    [ "$($REDIS_CLI lrange '{t}:records' 0 -1 | paste -sd ' ')" = "$1" ]
    [ "$($REDIS_CLI get '{t}:place')" = "$2" ]
}

# A script that is begun refuses it, and neither begins to follow nor changes what there is.
refuses_what_changed() {
    leaves_a_file
    ships
    [ "$status" -eq 3 ]
    tells 'another program has changed this copy'
    [ ! -e "$work/begun" ]
}

a_copy_in_redis_that_was_changed_is_refused() (
    has_redis || exit "$is_skipped"
    begins_redis
    follows '' '+ 5\\n+ 6\\n. 1:2\\n'
    ships
    [ "$status" -eq 0 ]
    has_shipped '5 6' '1:2 2'
    $REDIS_CLI rename '{t}:records' '{t}:evicted'
    refuses_what_changed
    has_shipped '' '1:2 2'
    $REDIS_CLI rename '{t}:evicted' '{t}:records'
    $REDIS_CLI rename '{t}:place' '{t}:evicted'
    refuses_what_changed
    has_shipped '5 6' ''
    $REDIS_CLI rename '{t}:evicted' '{t}:place'
    follows --after=1:2 '< 0\\n. 2:0\\n'
    ships
    [ "$status" -eq 0 ]
    has_shipped '' '2:0 0'
    follows --after=2:0 '+ 7\\n+ 8\\n. 3:2\\n'
    ships
    [ "$status" -eq 0 ]
    has_shipped '7 8' '3:2 2'
    $REDIS_CLI lpop '{t}:records'
    refuses_what_changed
    has_shipped 8 '3:2 2'
    # Both are taken away, as the page says: the copy begins anew.
    $REDIS_CLI del '{t}:records' '{t}:place'
    follows '' '+ 7\\n. 4:1\\n'
    ships
    [ "$status" -eq 0 ]
    has_shipped 7 '4:1 1'
)

# Copies had PLACE alone before they had the number of records.
an_older_copy_in_redis_is_gone_on_with() (
    has_redis || exit "$is_skipped"
    begins_redis
    $REDIS_CLI rpush '{t}:records' 5 6
    $REDIS_CLI set '{t}:place' 1:2
    follows --after=1:2 '+ 7\\n. 2:3\\n+ 8\\n. 3:4\\n'
    ships
    [ "$status" -eq 0 ]
    has_shipped '5 6 7 8' '3:4 4'
)

# So `again` ends too, and the follower isn't begun.
a_name_in_redis_is_of_ascii() (
    has_redis || exit "$is_skipped"
    begins_redis
    leaves_a_file
    ships "$(printf '\303\251')"
    [ "$status" -eq 2 ]
    tells 'a name has ASCII alone'
    [ "$(wc -l <"$err")" -eq 1 ]
    [ ! -e "$work/begun" ]
    [ "$($REDIS_CLI dbsize)" -eq 0 ]
)

# Once the server has taken a part of a step, another program changes PLACE. Nothing is done then, for which Redis has no error.
a_step_that_redis_leaves_undone_is_none() (
    has_redis || exit "$is_skipped"
    begins_redis
    is_halfway() { $REDIS_CLI client list | grep -q ' multi=[1-9]'; }
    follows '' '+ 5\\n. 1\\n'
    ships
    [ "$status" -eq 0 ]
    {
        echo '#!/bin/sh'
        echo "seq 5000 | sed 's/^/+ /'"
        echo "until [ -e '$work/goes_on' ]; do sleep 0.05; done"
        echo "printf '. 2\\n'"
    } >"$work/follower"
    { await is_halfway && $REDIS_CLI set '{t}:place' other && touch "$work/goes_on"; } >/dev/null &
    ships
    wait $!
    [ "$status" -eq 1 ]
    tells 'another program has changed this copy'
    [ "$($REDIS_CLI lrange '{t}:records' 0 -1)" = 5 ]
    [ "$($REDIS_CLI get '{t}:place')" = other ]
)

# A file that is there is nobody's copy, and stays.
a_file_that_is_no_copy_stays() (
    has python3 'copies by follow' || exit "$is_skipped"
    a_changed_file
    before=$(cksum <"$work/t.cv")
    follows '' '+ 5\\n. 1\\n'
    status=0
    "$shipping/apply" u64 "$work/t.cv" "$work/follower" >"$out" 2>"$err" || status=$?
    [ "$status" -eq 3 ]
    tells 'no copy'
    [ "$before" = "$(cksum <"$work/t.cv")" ]
)

a_command_runs_again_while_it_was_stopped() (
    printf '#!/bin/sh\necho x >>"%s/runs"\n[ "$(wc -l <"%s/runs")" -gt 2 ] || exit 1\nexit "$1"\n' "$work" "$work" >"$work/stopped"
    chmod +x "$work/stopped"
    for end in 0 3; do
        rm -f "$work/runs"
        status=0
        "$shipping/again" "$work/stopped" $end || status=$?
        [ "$status" -eq $end ]
        [ "$(wc -l <"$work/runs")" -eq 3 ]
    done
)

# As for want of memory. What is stopped on purpose isn't begun anew.
a_command_runs_again_where_it_was_killed() (
    for signal in KILL SEGV ABRT TERM INT; do
        rm -f "$work/runs"
        printf '#!/bin/sh\necho x >>"%s/runs"\n[ "$(wc -l <"%s/runs")" -gt 2 ] || kill -s %s $$\nexit 3\n' "$work" "$work" $signal >"$work/killed"
        chmod +x "$work/killed"
        status=0
        timeout 20 "$shipping/again" sh -c "'$work/killed'" || status=$?
        case $signal in
        TERM) wanted='143 1' ;;
        INT) wanted='130 1' ;;
        *) wanted='3 3' ;;
        esac
        [ "$status $(wc -l <"$work/runs")" = "$wanted" ]
    done
)

# As where ssh finds no `cvec` on the other machine.
a_follower_that_is_not_there_is_not_asked_for_again() (
    has python3 'copies by follow' || exit "$is_skipped"
    export PYTHONDONTWRITEBYTECODE=1
    for end in 126 127; do
        status=0
        timeout 20 "$shipping/again" "$shipping/to_sqlite" "$work/t.db" sh -c "exit $end" >"$out" 2>"$err" || status=$?
        [ "$status" -eq 2 ]
        tells "ended with status $end"
    done
)

# Another file has the name, with the same records, while nobody follows and while one does.
a_copy_of_a_file_that_was_replaced_is_refused() (
    has python3 'copies by follow' && has sqlite3 'a copy in SQLite' || exit "$is_skipped"
    export PYTHONDONTWRITEBYTECODE=1
    keeps_same() {
        status=0
        "$shipping/to_sqlite" "$work/t.db" "$shipping/same" "$work/t.cv" "$work/follower" >"$out" 2>"$err" || status=$?
        [ ! -s "$out" ]
    }
    echo 5 >"$work/t.cv"
    follows '' '+ 5\\n+ 6\\n. 33:1:0\\n'
    keeps_same
    [ "$status" -eq 0 ]
    place=$(sqlite3 "$work/t.db" 'select place from place')
    [ "$place" = "33:1:0:$(stat -c '%d:%i:%.9W' "$work/t.cv" | tr . :)" ]
    # It may grow.
    echo 6 >>"$work/t.cv"
    follows --after=33:1:0 '+ 7\\n. 40:2:0\\n'
    keeps_same
    [ "$status" -eq 0 ]
    cp "$work/t.cv" "$work/other"
    mv "$work/other" "$work/t.cv"
    leaves_a_file
    keeps_same
    [ "$status" -eq 3 ]
    tells 'refused: replaced'
    [ ! -e "$work/begun" ]
    [ "$(sqlite3 "$work/t.db" 'select record from vector order by position' | paste -sd ' ')" = '5 6 7' ]
    # So too where the copy was begun without `same`, and where the file goes as its steps come.
    rm "$work/t.db"
    follows '' '+ 5\\n. 33:1:0\\n'
    keeps
    keeps_same
    [ "$status" -eq 3 ]
    rm "$work/t.db"
    follows '' '+ 5\\n. 33:1:0\\n' "mv '$work/t.cv' '$work/gone'; printf '+ 6\\n. 40:2:0\\n'"
    keeps_same
    [ "$status" -eq 3 ]
    tells 'refused: replaced'
)

# In place of redis-cli, what a cluster answers. The slots of t0, t1 and t2 are 13006, 8943 and 4748.
the_node_of_a_part_is_asked_for() (
    cat >"$work/cli" <<'CLI'
#!/bin/sh
case "$*" in
*'cluster keyslot {t0}') echo 13006 ;;
*'cluster keyslot {t1}') echo 8943 ;;
*'cluster keyslot {t2}') echo 4748 ;;
*'cluster keyslot {none}') echo 16383 ;;
*'cluster nodes')
    echo '07c3 10.0.0.1:7000@17000 myself,master - 0 1426238316232 1 connected 0-4747 4748 4750-5460'
    echo '6ec2 10.0.0.2:7001@17001,host2 master - 0 1426238318243 2 connected 5461-10922 [13006-<-e7d1]'
    echo 'e7d1 fd00::3:7002@17002 master - 0 1426238317239 3 connected 10923-16382'
    echo '292f 10.0.0.4:7003@17003 slave e7d1 0 1426238317741 4 connected'
    ;;
*) exit 1 ;;
esac
CLI
    chmod +x "$work/cli"
    while read -r name words; do
        [ "$("$shipping/node" "$name" "$work/cli" -h any)" = "$words" ]
    done <<'ROWS'
t0 -h fd00::3 -p 7002
t1 -h 10.0.0.2 -p 7001
t2 -h 10.0.0.1 -p 7000
ROWS
    status=0
    "$shipping/node" none "$work/cli" >"$out" || status=$?
    [ "$status" -eq 1 ]
    [ ! -s "$out" ]
    if "$shipping/node" other "$work/cli" >"$out"; then exit 1; fi
)

# The first step is what was there. Two records come about a second later.
the_rate_of_growth_is_shown() (
    has python3 'copies by follow' || exit "$is_skipped"
    # What takes the lines may begin late.
    { printf '+ 1\n+ 2\n. 1\n'; await [ -s "$out" ]; sleep 1; printf '+ 3\n= 0 9\n+ 4\n. 2\n'; } | "$shipping/rate" >"$out"
    [ "$(head -n 1 "$out")" = '2 records are there' ]
    tail -n +2 "$out" | grep -qx '[1-9] records a second'
    [ "$(wc -l <"$out")" -eq 2 ]
    status=0
    printf '+ 1\n. 1\nrefused: cut\n' | "$shipping/rate" >"$out" 2>"$err" || status=$?
    [ "$status" -eq 1 ]
    tells 'refused: cut'
)

# ---- beside a writer

a_python_reader_sees_the_vector_at_a_moment() (
    has python3 'a reader in Python' && has_calls || exit "$is_skipped"
    build_calls
    for seed in 1 2; do
        PYTHONDONTWRITEBYTECODE=1 "$top/tests/mapped.py" "$program" "$work/calls.so" "$work" "${MAPPED_COMMANDS:-200}" $seed >"$out"
        cat "$out"
        grep -q ' looks, [1-9][0-9]* of them while a command ran, ' "$out"
        rm "$work/t.cv"
    done
)

# The file of this type and hex, and the lines that its records are.
is_read_as() {
    python3 -c 'import sys; open(sys.argv[1], "wb").write(bytes.fromhex(sys.argv[2]))' "$work/t.cv" "$2"
    PYTHONDONTWRITEBYTECODE=1 python3 "$top/examples/python/beside.py" "$1" "$work/t.cv" >"$out" 2>"$err"
    printf '%b' "$3" | cmp - "$out"
}

a_python_reader_has_each_type() (
    has python3 'a reader in Python' || exit "$is_skipped"
    head=0143564543534547 one=00112233445566778899aabbccddeeff two=000000000000000000000000000000f0
    is_read_as u8 "${head}01010001010a0000000100000002000000ff8000" '255\n128\n'
    is_read_as u16 "${head}01020001010c0000000100000002000000fffe000100" '65279\n256\n'
    is_read_as i32 "${head}0104000101100000000100000002000000fffffffe0000008000" '-16777217\n-2147483648\n'
    is_read_as u32 "${head}01040001010c0000000100000001000000fffffffe00" '4278190079\n'
    is_read_as u64 "${head}010800010110000000010000000100000000000000000000ff00" '18374686479671623680\n'
    is_read_as i64 "${head}010800010110000000010000000100000000000000000000ff00" '-72057594037927936\n'
    is_read_as f32 "${head}0104000101140000000100000003000000""0000003f00000080cdcccc3d00" '0.5\n-0.0\n0.10000000149011612\n'
    is_read_as f64 "${head}0108000101200000000100000003000000""0000000000000440000000000000f0ff9c7500883ce4377e00" '2.5\n-inf\n1e+300\n'
    is_read_as pair "${head}0110000101180000000100000001000000ffffffffffffffff010000000000000000" '18446744073709551615:1\n'
    is_read_as flagged "${head}01090001011a000000010000000200000005000000000000000105000000000000000000" '5:1\n5:0\n'
    is_read_as bytes16 "${head}0110000101280000000100000002000000$one${two}00" "$one\\n$two\\n"
    # The first record is changed.
    change=010220000000
    is_read_as bytes24 "${head}0118000101200000000100000001000000${one}ffffffffffffffff${change}0000000000000000${two}123456789abcdef000" \
        "${two}123456789abcdef0\\n"
    is_read_as bytes32 "${head}0220000101280000000100000001000000$one${two}00" "$one$two\\n"
    is_read_as bytes64 "${head}0140000101480000000100000001000000$one$two$two${one}00" "$one$two$two$one\\n"
    # It has records of 64 bytes still.
    if python3 "$top/examples/python/beside.py" bytes32 "$work/t.cv" >"$out" 2>"$err"; then exit 1; fi
    tells 'width 64 at 9'
)
