#!/bin/sh
# Tests tools/documents.py and tools/words.py in a copy of what is committed: each kind of fault is planted by itself
# and has to be refused by its name and line, what is no fault passes, and in the end so does the copy as it is.
set -eu
cd "$(dirname "$0")/.."
copy=$(mktemp -d)
trap 'rm -rf "$copy"' EXIT
tools/clone.sh "$copy"
rm -rf "$copy/.git"
document=SECURITY.md
cp "$copy/$document" "$copy.md"
trap 'rm -rf "$copy" "$copy.md" "$copy.told" "$copy.planted"' EXIT

checked() {
    "$copy/tools/documents.py" --check > "$copy.told" 2>&1
}
# Puts text at the end of the document, after an empty line.
plant() {
    printf '\n%s\n' "$1" >> "$copy/$document"
}
restore() {
    cp "$copy.md" "$copy/$document"
}
fail() {
    grep "^$document:" "$copy.told" >&2 || true
    echo "$1" >&2
    exit 1
}
# Plants a fault to be refused with others, each by its own line.
plants() {
    at=$(($(wc -l < "$copy/$document") + 2))
    plant "$2"
    echo "$document:$at: $1" >> "$copy.planted"
}
all_refused() {
    ! checked || fail "not refused: $(cat "$copy.planted")"
    while read -r fault; do
        grep -qF "$fault" "$copy.told" || fail "not refused: $fault"
        echo "refused: ${fault#*:*: }"
    done < "$copy.planted"
    rm "$copy.planted"
    restore
}
refuses() {
    plants "$@"
    all_refused
}
passes() {
    plant "$1"
    checked || true
    ! grep -q "^$document:" "$copy.told" || fail "refused: $1"
    restore
}

plants 'broken link: docs/NOWHERE.md' '[a page](docs/NOWHERE.md)'
plants 'broken link: ../README.md' '[outside](../README.md)'
plants 'broken anchor: README.md#nowhere' '[a heading](README.md#nowhere)'
plants 'broken anchor: #nowhere' '[a heading](#nowhere)'
plants 'broken anchor: crates.txt#L1000' '[a line](crates.txt#L1000)'
plants 'unknown file: docs/NOWHERE.md' 'See `docs/NOWHERE.md`.'
plants 'unknown file: nowhere.rs' 'See `nowhere.rs`.'
plants 'unknown file: crates/NAME/nowhere' 'See `crates/NAME/nowhere`.'
plants 'unknown identifier: Directory::nowhere' 'Call `Directory::nowhere`.'
plants 'unknown identifier: no_such_call()' 'Call `no_such_call()`.'
plants 'unknown identifier: NoWhere' 'A `NoWhere` is made.'
plants 'private word: spelled' 'A key is spelled in 32 bytes.'
plants 'private word: want of memory' 'It fails for want
of memory.'
plants 'private word: Beside' '| Beside | it |'
plants 'wrong number: worked-examples is ' '<!-- count:worked-examples -->1<!-- /count -->'
plants 'unknown count: nowhere' '<!-- count:nowhere -->1<!-- /count -->'
all_refused

refuses 'no row: docs/' '<!-- folders -->'
refuses 'row of nothing: nowhere/' '<!-- folders -->
| `nowhere/` | nothing |'
refuses 'no row: p2p_tracker' '<!-- crates -->
| `p2p_directory` | runs |'

example=rust/p2p-directory/examples/two_nodes.rs
second=$(sed -n 2p "$copy/$example")
excerpt() {
    printf '<!-- excerpt: %s %s -->\n```rust\n%s\n```' "$example" "$1" "$2"
}
plants "changed excerpt: not lines 2..2 of $example" "$(excerpt 2..2 'fn nowhere() {}')"
plants "changed excerpt: not lines 3..3 of $example; the lines stand at 2..2" "$(excerpt 3..3 "$second")"
plants "changed excerpt: $example has no lines 1..100000" "$(excerpt 1..100000 "$second")"
all_refused

passes "$(excerpt 2..2 "$second")"
passes '[a page](https://example.invalid/NOWHERE.md), `crates/NAME/src`, `crates/*/src`, `record.rt`'
passes 'Call `Directory::dial`, `track()` or `BTreeMap`, and `docs/` for more.'
passes 'It is `spelled`.

> It is spelled.

```text
It is spelled. [a page](docs/NOWHERE.md)
```'

# What it writes.
plant '<!-- count:worked-examples -->1<!-- /count -->'
plant "$(excerpt 3..3 "$second")"
"$copy/tools/documents.py" > "$copy.told"
grep -qx "written: $document" "$copy.told" || fail 'not written'
grep -qF "<!-- excerpt: $example 2..2 -->" "$copy/$document" || fail 'the excerpt has its old place'
checked || true
! grep -q "^$document:" "$copy.told" || fail 'what is written is refused'
restore
echo 'written: numbers and excerpts'

# What it counts.
printf '%s\n' '# A heading' '' 'Four words stand here. `One span of code` counts once, and so does' \
    '0. Then 2 - 1 is one.' '' '| a table |' '' "- $(seq 41 | tr '\n' ' ')." '' '```' 'code' '```' > "$copy.md"
"$copy/tools/words.py" "$copy.md" > "$copy.told"
grep -Eq '^total +57 +4 +1$' "$copy.told" || { cat "$copy.told" >&2; echo 'words are counted otherwise' >&2; exit 1; }
echo 'counted: words and sentences'

checked || { cat "$copy.told" >&2; echo 'the documents as they are committed do not pass' >&2; exit 1; }
echo 'the documents as they are committed pass'
