#!/bin/sh
# Compiles examples/session.c as tools/host_compilers.sh does, links it with the archive and runs it. For each pair of sizes in
# tools/exports/session.table it
# - runs it under valgrind, and looks that the program has the code of its pair alone;
# - runs it, as C99, where an export that is handed a null pointer ends the program;
# - runs it, and calls with 1,000 peers, with half of the stack that the header tells of.
#
# Then it runs a program that uses all pairs, and examples/session.py with a shared library, by which it also looks whether
# each call answers in the forms of tools/exports/forms.txt. It sees that the compiler refuses a session of one pair to the
# calls of another, and that no host links that was compiled for another interface.
#
# usage: tools/host_c.sh [FOLDER], the folder with libp2p_session.a, by default the one in which the Rust crates carry it
set -eu
cd "$(dirname "$0")/.."
. tools/pairs_in_c.sh
archives=${1:-rust/p2p-directory-sys/prebuilt/x86_64-unknown-linux-gnu}
tools/installed.sh cc:gcc g++ nm:binutils python3 valgrind
tools/host_compilers.sh "$archives"
folder=$(mktemp -d)
trap 'rm -rf "$folder"' EXIT
export LC_ALL=C

table=tools/exports/session.table
strict='-g -Wall -Wextra -pedantic -Werror'
linked="-L $archives -lp2p_session"

fail() {
    echo "$1" >&2
    exit 1
}
under_valgrind() {
    valgrind --quiet --error-exitcode=9 --leak-check=full --errors-for-leak-kinds=definite,indirect "$1"
}

pairs_in_c > "$folder/pairs"

# Whether a program has calls of this pair, and neither a call nor any other code of another one.
has_only() {
    own="^$2_"
    [ "$2" != p2p_session ] || own='^p2p_session_[a-z]'
    nm "$1" | sed -n -e 's/.* T p2p_session_/p2p_session_/p' -e 's/.*\bkeys\([0-9]*_[0-9]*\)::.*/p2p_session_\1_keys/p' \
        > "$folder/symbols"
    grep -q "$own" "$folder/symbols" || fail "a program of $2 has no symbol of it"
    ! grep -v -e "$own" -e '^p2p_session_interface_' -e '^p2p_session_is_' "$folder/symbols" ||
        fail "a program of $2 has these of another pair"
}

mkdir "$folder/nonnull"
for header in include/*.h; do
    sed '/^uint64_t /,/;$/s/;$/ __attribute__((nonnull));/' "$header" > "$folder/nonnull/${header##*/}"
done
while read -r pair key signature firsts; do
    first=${firsts:+-D FIRST_BYTE=${firsts##* }}
    of_pair examples/session.c "$pair" > "$folder/session.c"
    of_pair tools/host_stack.c "$pair" > "$folder/stack.c"
    # shellcheck disable=SC2086 # lists of words
    {
        cc -std=c11 $strict $first -I include "$folder/session.c" $linked -Wl,--gc-sections -o "$folder/session"
        cc -std=c99 $strict $first -fsanitize=nonnull-attribute -fsanitize-undefined-trap-on-error -I "$folder/nonnull" \
            "$folder/session.c" $linked -o "$folder/nonnull/session"
        cc -std=c11 $strict $first -I include -D main=session_main -c "$folder/session.c" -o "$folder/session.o"
        cc -std=c11 $strict $first -I include "$folder/stack.c" "$folder/session.o" $linked -o "$folder/stack"
    }
    echo "examples/session.c as C99 and C11 with keys of $key bytes and signatures of $signature:"
    under_valgrind "$folder/session" > "$folder/told"
    cat "$folder/told"
    has_only "$folder/session" "$pair"
    "$folder/nonnull/session" > "$folder/lines" || fail "an export of $pair is handed a null pointer"
    cmp "$folder/lines" "$folder/told" || fail "C99 and C11 print other lines for $pair"
    "$folder/stack" > "$folder/lines" || fail "the stack is not enough for $pair"
    grep 'bytes of stack' "$folder/lines"
done < "$folder/pairs"

# All pairs at once.
while read -r pair _ _ first _; do
    echo "PAIR($pair, $(echo "$pair" | tr '[:lower:]' '[:upper:]'), ${first:-0})"
done < "$folder/pairs" > "$folder/pairs.h"
sed 's/\([^ ]*\).*/#include "\1.h"/' "$folder/pairs" > "$folder/headers.h"
# shellcheck disable=SC2086 # lists of words
cc -std=c11 $strict -I include -I "$folder" tools/host_pairs.c $linked -o "$folder/all"
under_valgrind "$folder/all"

# A language that links at run time, and the bytes of each answer.
# shellcheck disable=SC2086 # a list of words
tools/release/shared.sh "$folder" "$archives/libp2p_session.a"
nm -D --defined-only "$folder/libp2p_session.so" > "$folder/symbols"
! grep -v ' T p2p_session_' "$folder/symbols" || fail 'the shared library exports other names'
python3 examples/session.py "$folder/libp2p_session.so"
tools/exports/forms.py "$folder/libp2p_session.so"

# A session of one pair doesn't go where one of another is wanted.
compiles() {
    printf '#include "headers.h"\nuint64_t mixed(struct %s *session) { return %s_%s; }\n' "$1" "$2" "$3" > "$folder/mixed.c"
    cc -std=c11 -fsyntax-only -Werror=incompatible-pointer-types -I include "$folder/mixed.c" 2> "$folder/c11.told" && echo c11
    g++ -std=c++17 -fsyntax-only -I include -x c++ "$folder/mixed.c" 2> "$folder/c++17.told" && echo c++17
}
while read -r given _; do
    while read -r wanted _; do
        for call in 'tracked(session)' 'ask(session, 0, NULL, 0)'; do
            taken=$(compiles "$given" "$wanted" "$call" || true)
            if [ "$given" = "$wanted" ]; then
                [ "$taken" = "$(printf 'c11\nc++17')" ] || fail "$call of $wanted doesn't compile"
            else
                [ -z "$taken" ] || fail "a session of $given is taken by a call of $wanted"
                grep -q 'incompatible-pointer-types' "$folder/c11.told"
                grep -q 'cannot convert' "$folder/c++17.told"
            fi
        done
    done < "$folder/pairs"
done < "$folder/pairs"
echo 'a session of one pair of sizes is refused by the calls of each other one'

if [ -f "$archives/libp2p_session.a" ]; then
    tools/licences.sh "$archives/libp2p_session.a" x86_64
    tools/stack.py "$archives/libp2p_session.a" 16000000 26624 > "$folder/told" || { cat "$folder/told" >&2; exit 1; }
    sed 's/^/bytes of stack with 16,000,000 peers, at most:/;q' "$folder/told"
fi

# A host that was compiled for another interface doesn't link: the name with the hash is all that it lacks.
refuses() {
    sed "$2" $table > "$folder/session.table"
    ! cmp -s $table "$folder/session.table" || fail "the table is the same: $1"
    python3 tools/exports/exports.py "$folder/session.table" "$folder/other"
    hash=$(grep -o 'p2p_session_interface_[0-9a-f]*' "$folder/other/include/p2p_session.h")
    # shellcheck disable=SC2086 # lists of words
    ! cc -std=c11 -I "$folder/other/include" examples/session.c $linked -o "$folder/host" 2> "$folder/lines" ||
        fail "a host links that was compiled for $1"
    grep 'undefined reference' "$folder/lines" | grep -q "$hash" || { cat "$folder/lines" >&2; exit 1; }
    ! grep 'undefined reference' "$folder/lines" | grep -v "$hash" >&2 || exit 1
    rm -r "$folder/other"
    echo "does not link: a host that was compiled for $1"
}
last=$(grep -n '^pair ' $table | tail -n 1 | cut -d : -f 1)
refuses 'one pair of sizes more' "${last}a pair 40 64: Another."
refuses 'one pair of sizes less' "${last}d"
refuses 'other first bytes' 's/^\(pair .*\) first [0-9]*:/\1:/'
refuses 'a call with one more argument' 's/^\([0-9]*\) next_cooled(&self/&, seconds: u64/'
refuses 'one refusal less' '/^refusal BAD_CALL:/d'
refuses 'other forms of answers' 's/^forms: .*/forms: 0/'
