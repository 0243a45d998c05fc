# The library for C from Python, by its examples in examples/python.

# ---- the library for C, and its callers, built as docs/use/c.md says

# The Python that has numpy: the one that the path finds, or Debian's own. Where none has it, the former.
python=python3
for it in python3 /usr/bin/python3; do
    if "$it" -c 'import numpy' 2>/dev/null; then
        python=$it
        break
    fi
done

# Runs this program in Python with further words.
python_runs() {
    CVEC_LIB=$work PYTHONPATH=$top/bindings/python PYTHONDONTWRITEBYTECODE=1 "$python" "$@" >"$out" 2>"$err"
}

a_python_program_appends_and_reads() (
    has_c && has python3 'the library for Python' || exit $is_skipped
    make_python_library
    python_runs "$top/examples/python/use.py" "$work/file"
    [ "$(tr '\n' ' ' <"$out")" = '5 7 11 13 ' ]
    is_shown_as_written u64 "$work/file"
)

the_python_program_that_is_shown_reads() (
    has_c && has python3 'the library for Python' || exit $is_skipped
    make_python_library
    python_runs "$top/examples/python/use.py" "$work/numbers.cvec"
    shown_in use/c.md python >"$work/shown.py"
    (cd "$work" && flock numbers.cvec env "CVEC_LIB=$work" "PYTHONPATH=$top/bindings/python" PYTHONDONTWRITEBYTECODE=1 \
        "$python" shown.py >"$out")
    [ "$(tr '\n' ' ' <"$out")" = '4 records 5 7 11 13 ' ]
)

# What is no record is refused, threads lose nothing, a forked process appends nothing, and what is closed is let go: with
# numpy, where it is there, and without it.
a_python_program_loses_nothing() (
    has_c && has python3 'the library for Python' || exit $is_skipped
    make_python_library
    python_runs "$top/tests/bindings/file_faults.py" "$work" plain
    [ "$(cat "$out")" = 'without numpy' ]
    "$python" -c 'import numpy' 2>/dev/null || lacks 'there is no numpy for arrays for Python' || exit $is_skipped
    python_runs "$top/tests/bindings/file_faults.py" "$work"
    [ "$(cat "$out")" = 'with numpy' ]
)

# The file of this type and hex is listed this way.
lists() {
    python3 -c 'import sys; open(sys.argv[1], "wb").write(bytes.fromhex(sys.argv[2]))' "$work/file" "$3"
    python_runs "$top/examples/python/list.py" "$2" "$work/file"
    tells "by $1"
}

# The file of this hex is listed this way, as the program shows it.
is_listed() {
    lists "$1" u64 "$2"
    is_shown_as_written u64 "$work/file"
}

# A growth of 5 that is changed to 7; then a fold of a change to 5; 5 and 6, of which a fold and a shrink leave 5; and of
# version 2 four times 5, changed by two runs.
a_mapped_file_is_read_where_no_change_is_live() (
    has_c && has python3 'the library for Python' || exit $is_skipped
    make_python_library
    changed=01435645435345470108000101100000000100000001000000050000000000000001021000000000000000000000000700000000000000
    shrunk=014356454353454701080001011800000001000000020000000500000000000000060000000000000001021000000001000000000000000600000000000000
    fold=0104080000000100000000000000
    runs=0143564543534547020800010128000000010000000400000005000000000000000500000000000000050000000000000005000000000000000102340000000200000000000000000000000100000002000000000000000200000007000000000000000800000000000000090000000000000000
    is_listed copy "${changed}00"
    is_listed map "$changed${fold}00"
    is_listed map "$shrunk${fold}010308000000010000000000000000"
    is_listed copy "$runs"
)

# A growth of two records, of which the second is changed, and then a fold of that change.
records_of_bytes_are_listed_in_hexadecimal() (
    has_c && has python3 'the library for Python' || exit $is_skipped
    make_python_library
    one=00112233445566778899aabbccddeeff two=ff000000000000000000000000000000 three=0a0b0c0d0e0f00000000000000000000
    head=01435645435345470110000101280000000100000002000000
    change=0102180000000100000000000000$three
    lists copy bytes16 "$head$one$two${change}00"
    printf '%s\n' $one $three | cmp - "$out"
    lists map bytes16 "$head$one$three${change}0104080000000100000000000000""00"
    printf '%s\n' $one $three | cmp - "$out"
    four=$one$two eight=$one$two$three$one
    lists map bytes32 "01435645435345470120000101280000000100000001000000${four}00"
    printf '%s\n' $four | cmp - "$out"
    lists map bytes24 "01435645435345470118000101200000000100000001000000${one}ff00000000000000""00"
    printf '%s\n' ${one}ff00000000000000 | cmp - "$out"
    lists map bytes64 "01435645435345470140000101480000000100000001000000${eight}00"
    printf '%s\n' $eight | cmp - "$out"
)

# A growth of two records.
numbers_are_listed_in_decimal() (
    has_c && has python3 'the library for Python' || exit $is_skipped
    make_python_library
    lists map u8 014356454353454701010001010a000000010000000200000000ff00
    printf '0\n255\n' | cmp - "$out"
    lists map u16 014356454353454701020001010c0000000100000002000000ffff020100
    printf '65535\n258\n' | cmp - "$out"
    lists map i32 0143564543534547010400010110000000010000000200000000000080feffffff00
    printf '%d\n' -2147483648 -2 | cmp - "$out"
    lists map f32 014356454353454701040001011000000001000000020000000000c03f0000008000
    printf '1.5\n-0.0\n' | cmp - "$out"
    tenth=014356454353454701080001011000000001000000010000009a9999999999b93f
    lists map f64 "${tenth}00"
    printf '0.1\n' | cmp - "$out"
    lists copy f64 "${tenth}0102100000000000000000000000000000000000e03f00"
    printf '0.5\n' | cmp - "$out"
)

# One library of all of C, as `make libraries` makes it, in a folder of its own.
make_whole_library() {
    make_c_library
    make_threads_library
    mkdir -p "$work/lib" "$work/bin"
    cc -std=c99 -O2 -fPIC -shared -Wl,-Bsymbolic "-I$c_headers" -o "$work/lib/libcvec.so" "$c_sources"/*.c -Wl,--whole-archive "$c_library" \
        "$threads_library" -Wl,--no-whole-archive "$kit_library" -lpthread
    ln -sf "$top/cvec" "$work/bin/cvec"
}

# Of each dtype, by a vector, a file and a server, which is found in PATH; and a seat of a server in processes of pools.
a_struct_has_one_format_in_python() (
    has_c && has python3 'the library for Python' || exit $is_skipped
    "$python" -c 'import numpy' 2>/dev/null || lacks 'there is no numpy for arrays for Python' || exit $is_skipped
    make_whole_library
    mkdir "$work/files"
    CVEC_LIB=$work/lib PATH=$work/bin:$PATH PYTHONPATH=$top/bindings/python PYTHONDONTWRITEBYTECODE=1 \
        timeout 120 "$python" "$top/tests/bindings/formats.py" "$work/files" >"$out"
    [ "$(cat "$out")" = 'one format' ]
)

# A client of a server takes none, nor does what only asks for a name.
a_missing_library_is_named_where_it_is_taken() (
    has python3 'the modules of Python' || exit $is_skipped
    mkdir "$work/none"
    CVEC_LIB=$work/none PYTHONPATH=$top/bindings/python PYTHONDONTWRITEBYTECODE=1 python3 - >"$out" <<'PROGRAM'
import cvec
print(cvec.Server.__name__, cvec.Error.__name__, cvec.Status(66).name, sorted(set(cvec.__all__) - set(dir(cvec))))
for name in ("Vector", "File", "Map"):
    try:
        getattr(cvec, name)
    except ImportError as fault:
        print(name, "CVEC_LIB names" in str(fault))
try:
    cvec.nothing
except AttributeError as fault:
    print(fault)
PROGRAM
    printf "Server Error FULL []\nVector True\nFile True\nMap True\nmodule 'cvec' has no attribute 'nothing'\n" | cmp - "$out"
)

# pip makes a wheel by the backend, here with libraries that only seem such: the one of the folder that CVEC_LIB names, or the
# repository's own.
a_wheel_has_the_library_that_is_named_or_its_own() (
    has python3 'the modules of Python' || exit $is_skipped
    mkdir -p "$work/top/out/lib" "$work/top/bindings" "$work/named" "$work/wheels"
    cp -R "$top/bindings/python" "$work/top/bindings"
    echo own >"$work/top/out/lib/libcvec.so"
    echo named >"$work/named/libcvec.so"
    has_library() {
        (
            cd "$work/top/bindings/python"
            wheel=$(PYTHONDONTWRITEBYTECODE=1 python3 -c 'import backend, sys; print(backend.build_wheel(sys.argv[1]))' "$work/wheels")
            python3 -c 'import sys, zipfile; print(zipfile.ZipFile(sys.argv[1]).read("cvec/libcvec.so").decode(), end="")' "$work/wheels/$wheel"
        ) >"$out" 2>"$err"
        [ "$(cat "$out")" = "$1" ]
    }
    unset CVEC_LIB
    has_library own
    export CVEC_LIB="$work/named"
    has_library named
    rm "$work/named/libcvec.so"
    if has_library own; then exit 1; fi
    tells "CVEC_LIB names $work/named, which has no libcvec.so"
    unset CVEC_LIB
    rm "$work/top/out/lib/libcvec.so"
    if has_library own; then exit 1; fi
    tells 'there is no libcvec.so'
)
