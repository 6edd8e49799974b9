#!/bin/sh
# Tests which pairs of sizes and calls tools/exports/exports.py takes: a table with one of them changed or added is refused
# with a sentence, or everything is written from it. Each header has at most 500 lines. It proves nothing.
set -eu
cd "$(dirname "$0")/.."
folder=$(mktemp -d)
trap 'rm -rf "$folder"' EXIT

# Writes the exports from the table, changed by a command of sed.
generates() {
    sed "$1" tools/exports/session.table > "$folder/session.table"
    ! cmp -s tools/exports/session.table "$folder/session.table" || {
        echo "the table is the same after $1" >&2
        exit 1
    }
    python3 tools/exports/exports.py "$folder/session.table" "$folder/root" > "$folder/told" 2>&1
}

# Sees that a change is refused in these words, on the one line that is printed, and that nothing was written.
refuses() {
    ! generates "$2" || { echo "not refused: $2" >&2; exit 1; }
    if ! grep -qF "$1" "$folder/told" || [ "$(wc -l < "$folder/told")" != 1 ] || [ -e "$folder/root" ]; then
        cat "$folder/told" >&2
        echo "refused in other words than: $1" >&2
        exit 1
    fi
    echo "refused: $(cat "$folder/told")"
}

# Puts a line for a pair behind the second one.
adds() {
    echo "/^pair 33 64/a $1"
}

# Sees that a pair is taken, with its sizes in its header and in Rust, and room for a byte and a key or 8 bytes.
takes() {
    generates "$(adds "pair $1 $2: Another.")" || { cat "$folder/told" >&2; exit 1; }
    header=$folder/root/include/p2p_session_$1_$2.h
    grep -qx "#define P2P_SESSION_$1_$2_KEY_SIZE $1" "$header"
    grep -qx "#define P2P_SESSION_$1_$2_SIGNATURE_SIZE $2" "$header"
    grep -qx "#define P2P_SESSION_$1_$2_RECEIVE_ROOM $3" "$header"
    exports=$folder/root/rust/p2p-directory-sys/src/exports.rs
    sed -n "/^pub mod keys$1_$2 {/,/^}/p" "$exports" | grep -qx "    pub const KEY_SIZE: usize = $1;"
    sed -n "/^pub mod keys$1_$2 {/,/^}/p" "$exports" | grep -qx "    pub const SIGNATURE_SIZE: usize = $2;"
    grep -qx "pub mod keys$1_$2;" "$folder/root/rust/p2p-directory/src/pairs.rs"
    rm -r "$folder/root"
    echo "taken: keys of $1 bytes with signatures of $2"
}

sizes='keys and signatures have 4 to 65,535 bytes.'
refuses "$sizes" "$(adds 'pair 3 64: Another.')"
refuses "$sizes" "$(adds 'pair 65536 64: Another.')"
refuses "$sizes" "$(adds 'pair 64 3: Another.')"
refuses "$sizes" "$(adds 'pair 64 65536: Another.')"
refuses 'a first byte is at most 255.' "$(adds 'pair 64 64 first 256: Another.')"
refuses 'each first byte is above the one before.' "$(adds 'pair 64 64 first 2 first 2: Another.')"
refuses 'each first byte is above the one before.' "$(adds 'pair 64 64 first 3 first 2: Another.')"
refuses 'it stands there twice.' "$(adds 'pair 48 96: Another.')"
refuses 'it stands there twice.' "$(adds 'pair 048 96 first 4: Another.')"
refuses 'this is no line of a table' "$(adds 'pair 64 64 starts 2: Another.')"
refuses 'this is no line of a table' "$(adds 'pair -64 64: Another.')"
refuses 'There is no pair of sizes.' '/^pair /d'
refuses 'the first pair is that of crates/p2p_session/src/key.rt, 32 64.' '/^pair 32 64/d'
refuses 'the first pair has no first bytes' 's/^pair 32 64:/pair 32 64 first 2:/'
refuses 'the number of this call is 7.' 's/^7 connect/8 connect/'
refuses 'the number of this call is 7.' '/^7 connect/d'
taken='a call takes u64, u32, bool, at most three &[u8] and one &mut [u8].'
refuses "$taken" 's/dialer: bool/dialer: i64/'
refuses "$taken" 's/^9 update_peers(&mut self/&, one: \&[u8], two: \&[u8], three: \&[u8]/'
refuses "$taken" 's/^19 all(&self/&, other: \&mut [u8]/'
refuses 'this is no line of a table' 's/^7 connect/connect/'
takes 4 4 9
takes 65535 65535 65536

for header in include/*.h; do
    [ "$(wc -l < "$header")" -le 500 ] || { echo "$header has more than 500 lines" >&2; exit 1; }
done
echo 'each header has at most 500 lines'
