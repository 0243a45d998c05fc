# The sentences of refusals: each row of tests/complaints.txt brings one about.

table=$top/tests/complaints.txt

# ---- what a row begins with

none() { :; }

empty() { run create u64 "$work/t.cv"; }

changed() { a_changed_file; }

# A vector of 100,000 records, in a file of a group.
long() {
    empty
    run resize u64 "$work/t.cv" 100000 --record=5
}

# One of 131,072, which are more than a frame takes.
longer() {
    long
    run resize u64 "$work/t.cv" 131072 --record=5
}

of_version_2() { run create u64 "$work/t.cv" --format=2; }

folder() { mkdir "$work/t.cv"; }
fifo() { mkfifo "$work/t.cv"; }

link_to_itself() { ln -s t.cv "$work/t.cv"; }

# A file of these bytes, in the form of printf.
bytes() { printf '%b' "$1" >"$2"; }

nothing() { : >"$work/t.cv"; }

other() { bytes 'secret=abc1' "$work/t.cv"; }

not_a_segment() { bytes 'no segment at all' "$work/t.cv"; printf '\001' | dd of="$work/t.cv" conv=notrunc 2>/dev/null; }

of_version_3() { bytes '\0001CVECSEG\0003\0010\0000\0000' "$work/t.cv"; }

of_no_width() { bytes '\0001CVECSEG\0001\0000\0000\0000' "$work/t.cv"; }

of_kind_9() { bytes '\0001CVECSEG\0001\0010\0000\0001\0011\0010\0000\0000\0000\0000\0000\0000\0000\0000\0000\0000\0000\0000' "$work/t.cv"; }

closed() { bytes '\0000CVECSEG\0001\0010\0000\0000' "$work/t.cv"; }

new_closed() { bytes '\0000CVECSEG\0002\0010\0000\0000' "$work/n.cv"; }

new_empty() { run create u64 "$work/n.cv"; }

taken() {
    exec 9<"$work/t.cv"
    flock --exclusive 9
}

new_taken() {
    new_empty
    exec 9<"$work/n.cv"
    flock --exclusive 9
}

lines() { given '5 6\n7\n'; }

no_growth() { given '5\n6 x\n'; }

a_tab() { given '5\n6\t7\n'; }

of_windows() { given '5 6\r\n'; }

a_blank_between() { given '5  6\n'; }

a_blank_behind() { given '5\n6 \n'; }

an_empty_line() { given '5\n\n6\n'; }

long_line() { seq -s ' ' 1 131072 >"$in"; }

long_input() { head -c 67108865 /dev/zero >"$in"; }

folder_as_input() { in=$work; }

# A client's growth of the record 4.
growth() { printf '\1\0\0\0\1\0\0\0\0\0\0\0\0\0\0\0\4\0\0\0\0\0\0\0' >"$work/requests"; }

# ---- the rows

# Begins a row, and runs its words with what the library is to do.
bring_about() {
    does=CALLS_LOG=/dev/null
    pipes=yes
    : >"$work/in"
    : >"$work/requests"
    rm -rf "$work/t.cv" "$work/n.cv"
    for word in $1; do
        case $word in
            CALLS_*) does=$word ;;
            no_pipes) pipes= ;;
            *) $word ;;
        esac
    done
    # shellcheck disable=SC2046 # each word is one
    set -- $(echo "$2" | sed "s|FILE|$work/t.cv|; s|NEW|$work/n.cv|")
    if [ -n "$pipes" ]; then
        run_with "$does" "$@" 3<"$work/requests" 4>"$work/answers"
    else
        run_with "$does" "$@" 3<&- 4>&-
    fi
}

each_sentence_is_brought_about() (
    has_calls || exit $is_skipped
    build_calls
    rows=0 wrong=0
    while IFS= read -r row; do
        case $row in
            '' | '#'*) continue ;;
            'NOT: '*) continue ;;
        esac
        rest=${row#*: }
        sentence=$(printf '%s\n' "${rest#* = }" | sed "s|FILE|$work/t.cv|g; s|NEW|$work/n.cv|g")
        in=$work/in
        bring_about "${row%%: *}" "${rest%% = *}" 9<&-
        in=$work/in
        rows=$((rows + 1))
        if [ "$status" -ne 1 ] || [ "$(cat "$err")" != "cvec: $sentence" ] || ! grep -q '^refused: ' "$out"; then
            printf '%s\n' "$row" "status $status" "$(head -c 300 "$out")" "$(cat "$err")" ''
            wrong=$((wrong + 1))
        fi
    done <"$table"
    echo "$rows rows, $wrong wrong"
    [ "$rows" -gt 60 ]
    [ "$wrong" -eq 0 ]
)

# The pieces of text of the source's sentences, without what is written between them.
pieces_of_sentences() {
    python3 - "$top"/crates/sentences/src/*.rt <<'PYTHON'
import re, sys

text = re.sub(r"(?m)^\s*//.*$", "", "".join(open(name).read() for name in sys.argv[1:]))
for literal in re.findall(r'"((?:[^"\\]|\\.)*)"', text):
    for piece in re.split(r"\{\w*\}", literal):
        if len(piece.strip(" :;()")) > 3:
            print(piece.strip(" :;"))
PYTHON
}

# A sentence that is new in the source needs a row, or a reason why there is none.
each_sentence_of_the_source_has_a_row() (
    has python3 'the sentences of the source' || exit $is_skipped
    pieces_of_sentences >"$work/pieces"
    [ "$(wc -l <"$work/pieces")" -gt 80 ]
    while IFS= read -r piece; do
        grep -qF -- "$piece" "$table" || { echo "no row has: $piece"; exit 1; }
    done <"$work/pieces"
)

# It was refused by this name with the sentence of the row that begins so.
is_told_as() {
    answers_refusal "$2"
    sentence=$(sed -n "s|^NOT: $1 = ||p" "$table" | sed "s|FILE|$work/t.cv|g")
    [ -n "$sentence" ]
    echo "cvec: $sentence" | cmp - "$err"
}

# As who may not use it. The superuser may, so another one is asked.
a_file_that_may_not_be_used_has_its_sentence() (
    a_changed_file
    chmod 755 "$work"
    chmod 0 "$work/t.cv"
    set -- "$program"
    if [ "$(id -u)" -eq 0 ]; then
        cp "$program" "$work/cvec"
        set -- setpriv --reuid=65534 --regid=65534 --clear-groups "$work/cvec"
    fi
    status=0
    "$@" list u64 "$work/t.cv" >"$out" 2>"$err" || status=$?
    is_told_as 'as another user who reads' file
    status=0
    "$@" clear u64 "$work/t.cv" >"$out" 2>"$err" || status=$?
    is_told_as 'as another user' file
)

# Runs the program as who may start no thread. Of the superuser no thread is refused, so another one is asked.
without_a_thread() {
    [ "$(id -u)" -ne 0 ] || set -- setpriv --reuid=65534 --regid=65534 --clear-groups "$@"
    status=0
    "$@" <"$in" 3</dev/null 4>/dev/null >"$out" 2>"$err" || status=$?
}

what_gets_no_thread_has_its_sentence() (
    run create u64 "$work/t.cv"
    chmod 755 "$work"
    chmod 666 "$work/t.cv"
    cp "$program" "$work/cvec"
    given '5\n'
    without_a_thread prlimit --nproc=1 "$work/cvec" serve u64 "$work/t.cv" --seats=1
    is_told_as 'without a thread' memory
    without_a_thread prlimit --nproc=1 "$work/cvec" load u64 "$work/t.cv"
    is_told_as 'a growth without a thread' memory
)

# ---- what is wrong with a line

# A line is refused, and standard error says this of it.
line_is_told_as() {
    given "$2"
    run load "$1" "$work/t.cv"
    answers_refusal 'line 1'
    tells "line 1 of the input is no growth: $3; a growth is"
}

# Each text is that of a first line, and what is said of it follows from the form of the type alone.
what_is_wrong_with_a_line_is_told() (
    line_is_told_as u64 '5 007\n' '"007" at its byte 3 has a zero in front'
    line_is_told_as u64 '00\n' '"00" at its byte 1 has a zero in front'
    line_is_told_as u64 '5 -6 x\n' '"-6" at its byte 3 has a sign that no such number has'
    line_is_told_as i64 '+6\n' '"+6" at its byte 1 has a sign that no such number has'
    line_is_told_as i64 '-06\n' '"-06" at its byte 1 has a zero in front'
    line_is_told_as i64 '-0\n' '"-0" at its byte 1 is no record'
    line_is_told_as u32 '4294967295 4294967296\n' '"4294967296" at its byte 12 is out of range'
    line_is_told_as u64 '18446744073709551616\n' '"18446744073709551616" at its byte 1 is out of range'
    line_is_told_as i64 '-9223372036854775809\n' '"-9223372036854775809" at its byte 1 is out of range'
    line_is_told_as u64 '5.0\n' '"5.0" at its byte 1 is no record'
    line_is_told_as u64 '5,6\n' '"5,6" at its byte 1 is no record'
    line_is_told_as u64 '\n5\n' 'it is empty'
    line_is_told_as u64 ' 5 6\n' '" 5 6" at its byte 1 begins with a blank too many, which --lenient takes'
    line_is_told_as u64 '5 6\r7 8\n' '"6\r7" at its byte 3 is no record'
    line_is_told_as f32 '.5 1e39 x\n' '"1e39" is no record'
    line_is_told_as f64 '0.5 1_0\n' '"1_0" is no record'
    line_is_told_as f64 ' 5 6\n' 'it has a blank too many, which --lenient takes'
    line_is_told_as f64 '5 6 \n' 'it ends with a blank too many, which --lenient takes'
    line_is_told_as f64 '\n5\n' 'it is empty'
    line_is_told_as f64 '0.5 1\r2 3\n' '"1\r2" is no record'
    line_is_told_as pair '1:1 2:+3\n' '"2:+3" at its byte 5 has a sign that no such number has'
    line_is_told_as pair '-1:5\n' '"-1:5" at its byte 1 has a sign that no such number has'
    line_is_told_as pair '1:2:3\n' '"1:2:3" at its byte 1 is no record'
    line_is_told_as flagged '07:1\n' '"07:1" at its byte 1 has a zero in front'
    line_is_told_as flagged '7:2\n' '"7:2" at its byte 1 is no record'
    line_is_told_as bytes16 '00112233445566778899AABBCCDDEEFF\n' '"00112233445566778899AABBCCDDEEFF" at its byte 1 is no record'
)

# Forty bytes are shown at most, and what no terminal shows is told by its number.
a_line_is_shown_as_text() (
    line_is_told_as u64 '5\0001\n' '"5\x01" at its byte 1 is no record'
    line_is_told_as u64 '\0303\0244"\\\n' '"\xC3\xA4\"\\" at its byte 1 is no record'
    a=1234567890
    line_is_told_as u64 "x$a$a$a$a 5\n" '"x123456789012345678901234567890123456789".. at its byte 1 is no record'
    line_is_told_as u64 "$a$a$a$a$a$a$a$a$a$a" '"1234567890123456789012345678901234567890".. at its byte 1 is no record'
    line_is_told_as f64 "1 x$a$a$a$a 5\n" '"x123456789012345678901234567890123456789".. is no record'
    line_is_told_as f64 '0.5 5\0001\n' '"5\x01" is no record'
    line_is_told_as u64 "  $a$a$a$a$a" '"  12345678901234567890123456789012345678".. at its byte 1 begins with a blank too many, which --lenient takes'
)

# The line that is shown is the one that is refused: that of the batch that it came with, behind those that stand.
append_shows_the_line_that_it_refuses() (
    run create u64 "$work/t.cv"
    { seq 1 200000; printf '7 008 9\n'; seq 1 200000; echo x; } >"$in"
    run append u64 "$work/t.cv"
    answers_refusal 'line 200001'
    tells 'line 200001 of the input is no growth: "008" at its byte 3 has a zero in front; a growth is'
    run append u64 "$work/t.cv" --block=3
    answers_refusal 'line 200001'
    tells '"008" at its byte 3 has a zero in front'
)
