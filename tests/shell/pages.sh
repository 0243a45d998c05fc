# The pages of README.md and docs.

# ---- the pages: no sentence above 35 words, no word that has a better one, no link that leads nowhere, no page above its
# size, each call in its table

the_pages_can_be_read() (
    has python3 'the pages' || exit "$is_skipped"
    "$top/tests/pages"
)

# ---- what checks the pages, on pages that are wrong

# A repository of small pages, of which one has these lines.
seeming_pages() {
    there=$work/there
    rm -rf "$there"
    mkdir -p "$there/tests/model" "$there/docs/deep" "$there/bench" "$there/crates" "$there/examples/rattle"
    cp "$top/tests/pages" "$there/tests"
    for page in README.md bench/README.md crates/README.md examples/rattle/README.md tests/model/README.md docs/other.md; do
        printf '# A page\n\n## What it `holds`\n\nText.\n' >"$there/$page"
    done
    printf '%s\n' '# A page' '' '## Words' '' '| `behind`, `, else` | after |' '| `Who` | a caller |' '' '## Next' '' '| `text` | no |' \
        >"$there/CONTRIBUTING.md"
    printf '%s\n' "$@" >"$there/docs/deep/page.md"
    status=0
    "$there/tests/pages" >"$out" 2>"$err" || status=$?
    cat "$out" "$err"
}

# A sentence of so many words.
sentence_of() { echo "$(yes word | head -n "$1" | paste -sd ' ')."; }

pages_that_are_right_pass() (
    seeming_pages '# Here' '' "$(sentence_of 35)" "\`$(sentence_of 50)\` is one word." '```' "$(sentence_of 50)" '[no](link)' '```' \
        "| $(sentence_of 50) |" '`behind` words. Callers who ask? Who asks? A foolbehind, or elsewhere.' '[a](../other.md) [b](../other.md#what-it-holds) [c](#here) [d](https://example.org/#none)'
    answers 0 '28 passed, 0 failed\n'
)

# The line is all that is found.
finds() {
    [ "$status" -eq 1 ]
    printf '%s\n' "$1" "${2:-27} passed, 1 failed" | cmp - "$out"
}

what_is_wrong_with_a_page_is_found() (
    seeming_pages "$(sentence_of 36)"
    finds "docs/deep/page.md: 36 words: $(sentence_of 36)"
    seeming_pages '[a](../none.md)'
    finds 'docs/deep/page.md: no file: ../none.md'
    seeming_pages '# Here' '[a](#there)'
    finds 'docs/deep/page.md: no heading: #there'
    seeming_pages '[a](../other.md#here)'
    finds 'docs/deep/page.md: no heading: ../other.md#here'
    seeming_pages Text.
    mkdir -p "$there/docs/use"
    { echo '# A page'; echo; sentence_of 40; echo; sentence_of 41; } >"$there/docs/use/python.md"
    status=0
    "$there/tests/pages" >"$out" || status=$?
    finds "docs/use/python.md: 41 words: $(sentence_of 41)" 29
    seeming_pages Text.
    { echo '# A page'; head -c 9300 /dev/zero | tr '\0' '\n'; } >"$there/README.md"
    status=0
    "$there/tests/pages" >"$out" || status=$?
    finds 'README.md: 9309 bytes, at most 9216'
)

# In a sentence, a cell of a table, a list, and in what documents code.
words_that_have_better_ones_are_found() (
    seeming_pages 'It stands' 'behind it, here.'
    finds "docs/deep/page.md: 'behind', write after: It stands behind it, here."
    seeming_pages '| one | put Behind that |'
    finds "docs/deep/page.md: 'behind', write after: put Behind that"
    seeming_pages '- One. **Who asks** is answered.'
    finds "docs/deep/page.md: 'Who', write a caller: Who asks** is answered."
    seeming_pages 'Then this, else that.'
    finds "docs/deep/page.md: ', else', write after: Then this, else that."
    seeming_pages Text.
    mkdir -p "$there/bindings/python"
    printf '%s\n' '"""What stands behind it."""' 'behind = 5  # and behind that' >"$there/bindings/python/backend.py"
    status=0
    "$there/tests/pages" >"$out" || status=$?
    [ "$status" -eq 1 ]
    printf '%s\n' "bindings/python/backend.py: 'behind', write after: What stands behind it." '28 passed, 1 failed' | cmp - "$out"
    printf '%s\n' '/* Stands' ' * behind. */' 'int behind;' >"$there/one.h"
    printf '%s\n' '/// # Head' '/// Stands' '/// behind.' '// behind' >"$there/two.rs"
    status=0
    (cd "$there" && tests/pages one.h two.rs) >"$out" || status=$?
    [ "$status" -eq 1 ]
    printf '%s\n' "one.h: 'behind', write after: Stands behind." "two.rs: 'behind', write after: Stands behind." '0 passed, 2 failed' |
        cmp - "$out"
    seeming_pages Text.
    sed -i 's/## Words/## Terms/' "$there/CONTRIBUTING.md"
    status=0
    "$there/tests/pages" >"$out" || status=$?
    finds 'CONTRIBUTING.md: no table of words'
)

# Of a crate that gives on a type and a function, whose calls are named in a table and below it.
calls_that_the_table_lacks_are_found() (
    seeming_pages Text.
    mkdir -p "$there/docs/use" "$there/crates/concurrent_vector/src" "$there/crates/low/src"
    echo 'pub use low::{Thing, make};' >"$there/crates/concurrent_vector/src/lib.rt"
    cat >"$there/crates/low/src/thing.rt" <<'RATTLE'
impl<R: Record> Thing<R> {
    /// A part.
    pub fn part<E: Wait>(
        &self,
        rt: &E,
    ) -> u64
        requires { 0 < 1 }
    {
        self.len()
    }

    pub fn len(&self) -> u64 {
        0
    }

    fn own(&self) {}
}

impl<R: Record> Record for Thing<R> {
    pub fn put(&self) {}
}

impl Other {
    pub fn other(&self) {}
}

pub fn make(n: u64) -> Thing {
    Thing
}
RATTLE
    printf '%s\n' '| `len()`, part |' '' '`part(), make(n)`' >"$there/docs/use/calls.md"
    status=0
    "$there/tests/pages" >"$out" || status=$?
    [ "$status" -eq 1 ]
    printf 'docs/use/calls.md: no call: %s\n' 'part, of Thing' 'make, of a function' >"$work/wanted"
    echo '30 passed, 1 failed' >>"$work/wanted"
    cmp "$work/wanted" "$out"
)

# ---- a block that is a part of a file

# Runs the blocks of a page, whose lines are given, beside a file of three lines.
blocks_beside_a_file() {
    seeming_pages "$@"
    mkdir -p "$there/tests/shell"
    cp "$top/tests/blocks" "$there/tests"
    printf '    one\n      two\n    three\n' >"$there/code"
    status=0
    "$there/tests/blocks" docs/deep/page.md >"$out" 2>"$err" || status=$?
    cat "$out" "$err"
}

a_block_that_stands_in_a_file_is_a_part_of_it() (
    blocks_beside_a_file '<!-- stands in: code -->' '```c' one '  two' '```'
    answers 0 '1 passed, 0 failed\n'
    for lines in 'one two' 'one   three' 'two   three' 'ne   two'; do
        # shellcheck disable=SC2086 # each word is a line, and blanks before it are lost
        blocks_beside_a_file '<!-- stands in: code -->' '```c' $lines '```'
        [ "$status" -eq 1 ]
        [ "$(head -n 1 "$out")" = 'FAILED: docs/deep/page.md:2' ]
        [ "$(tail -n 1 "$out")" = '0 passed, 1 failed' ]
    done
)
