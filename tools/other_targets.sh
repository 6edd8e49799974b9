#!/bin/sh
# Tests the archives on other processors than this machine's, whose programs qemu runs. For each such target of tools/targets
# - the example prints for each pair of sizes, as C and as C++, what it prints on this machine, and on half of the stack;
# - the logs of this machine, recorded from the tests of the Rust crates, are answered alike, byte for byte, by a player in C,
#   which also says how much stack the calls took; the answers that it got are played on this machine, by p2p-replay, too;
# - each request for memory in these logs is refused in turn, as often as on this machine.
# An answer that was changed in a log is seen. The logs are also played on an x86-64 that has nothing of later ones.
#
# usage: tools/other_targets.sh [FOLDER], with TARGET/libp2p_session.a, by default the one in which the Rust crates carry them
set -eu
cd "$(dirname "$0")/.."
. tools/pairs_in_c.sh
archives=$(realpath "${1:-rust/p2p-directory-sys/prebuilt}")
tools/installed.sh cargo cc:gcc objcopy:binutils python3
folder=$(mktemp -d)
trap 'rm -rf "$folder"' EXIT
export CARGO_PROFILE_DEV_DEBUG=0
here=x86_64-unknown-linux-gnu
strict='-O1 -g -Wall -Wextra -pedantic -Werror'

fail() {
    echo "$1" >&2
    exit 1
}

# Compiles a program in C, or C++, for a target: its name, and then what the compiler is told.
compile() {
    case $1 in
    "$here") compilers='cc g++' ;;
    *) compilers="${1%%-*}-linux-gnu-gcc ${1%%-*}-linux-gnu-g++" ;;
    esac
    compiler=${compilers% *} standard='-std=c11'
    [ "$2" = c ] || { compiler=${compilers#* } standard='-std=c++17 -x c++'; }
    target=$1 program=$folder/$1/$3
    shift 3
    # shellcheck disable=SC2086 # lists of words
    "$compiler" $standard $strict -I include -I "$folder" "$@" -x none -L "$archives/$target" -lp2p_session -o "$program"
}

# Runs a program that was compiled for a target.
run() {
    target=$1 program=$folder/$1/$2
    shift 2
    case $target in
    "$here") "$program" "$@" ;;
    *) "qemu-${target%%-*}" -L "/usr/${target%%-*}-linux-gnu" "$program" "$@" ;;
    esac
}

pairs_in_c > "$folder/pairs"
sed 's/^\([^ ]*\) \([0-9]*\) \([0-9]*\).*/PAIR(\1, \2, \3)/' "$folder/pairs" > "$folder/pairs.h"
sed 's/^\([^ ]*\).*/#include "\1.h"/' "$folder/pairs" > "$folder/headers.h"
sed -n -E -e '/^[0-9]+ /{s/^([0-9]+) \w+\(&(mut )?self(, )?(.*)\)$/\1 \4/; s/\w+: (u64|u32|bool)/n/g; s/\w+: &mut \[u8\]/o/g' \
    -e 's/\w+: &\[u8\]/b/g; s/, //g; s/^([0-9]+) (.*)$/CALL(\1, "\2")/p}' tools/exports/session.table > "$folder/calls.h"

# Whether there is an export for calls with one slice at most.
has=
! nm "$archives/$here/libp2p_session.a" | grep -q ' T p2p_session_call_peer$' || has=-DCALL_PEER

# An archive whose calls are recorded: its exports have other names, by which the recorder calls them.
make_recorder() {
    mkdir "$folder/recorder"
    while read -r pair _; do
        for export in new free call call_peer; do
            echo "${pair}_$export library_${pair}_$export"
        done
    done < "$folder/pairs" > "$folder/recorder/names"
    ! nm "$archives/$here/libp2p_session.a" 2> /dev/null | sed -n 's/.* T \(p2p_session_.*\)/\1/p' |
        grep -v -E '_(new|free|size|call|call_peer|interface_[0-9a-f]*|is_global|is_valid)$' || fail 'these are not recorded'
    # shellcheck disable=SC2086 # lists of words
    cc -std=c11 $strict $has -I include -I "$folder" -c tools/replay/recorder.c -o "$folder/recorder/recorder.o"
    (
        cd "$folder/recorder"
        ar x "$archives/$here/libp2p_session.a"
        objcopy --redefine-syms=names p2p_session_c.o
        ar rcsD libp2p_session.a ./*.o
    )
}

# Records what tests of the Rust crate call.
recorded() {
    mkdir "$folder/logs"
    (
        cd rust
        export LOGS="$folder/logs" P2P_SESSION_LIB="$folder/recorder" CARGO_TARGET_DIR="$folder/target"
        tests=$(printf ' --test %s' model corpus spoilt_frames sessions scripts exchange directory record bit_set pairs bad_keys \
            reservations verification types verifier)
        # shellcheck disable=SC2086 # a list of words
        cargo test --offline -p p2p-directory --features record,testing $tests -- --skip valgrind
        cargo test --offline -p p2p-directory --features record,testing --test recording -- random_calls
    ) > "$folder/told" 2>&1 || { cat "$folder/told" >&2; exit 1; }
    cat "$folder"/logs/*.logs > "$folder/all"
    rm -r "$folder/logs"
    echo "recorded: $(wc -c < "$folder/all") bytes of logs"
}

# The example, and calls with 1,000 peers, for each pair of sizes.
examples() {
    while read -r pair key signature firsts; do
        first=${firsts:+-DFIRST_BYTE=${firsts##* }}
        of_pair examples/session.c "$pair" > "$folder/session.c"
        of_pair tools/host_stack.c "$pair" > "$folder/stack.c"
        # shellcheck disable=SC2086 # no word where all first bytes are allowed
        for target in "$here" "$1"; do
            compile "$target" c c11 $first "$folder/session.c"
            compile "$target" c++ c++17 $first "$folder/session.c"
            compile "$target" c stack $first -Dmain=session_main -c "$folder/session.c"
            mv "$folder/$target/stack" "$folder/$target/session.o"
            compile "$target" c stack $first "$folder/stack.c" -x none "$folder/$target/session.o"
            run "$target" c11 > "$folder/$target/c11.told"
            run "$target" c++17 > "$folder/$target/c++17.told"
            run "$target" stack > "$folder/$target/stack.told" || fail "the stack is not enough for $pair on $target"
        done
        for told in "$folder/$1/c11.told" "$folder/$1/c++17.told"; do
            cmp "$folder/$here/c11.told" "$told" || fail "examples/session.c prints other lines on $1"
        done
        echo "examples/session.c as C and C++ on $1, with keys of $key bytes and signatures of $signature"
        grep 'bytes of stack' "$folder/$1/stack.told"
    done < "$folder/pairs"
}

logs() {
    for target in "$here" "$1"; do
        # shellcheck disable=SC2086 # no word where there is no such export
        compile "$target" c player $has tools/replay/player.c
        run "$target" player "$folder/all" "$folder/$target/answers" > "$folder/$target/told" || fail "$target answers otherwise"
        run "$target" player --refuse "$folder/all" > "$folder/$target/refused" || fail "$target answers otherwise"
    done
    cmp "$folder/$here/answers" "$folder/$1/answers"
    run "$here" player "$folder/$1/answers" > "$folder/lines" || fail "the answers of $1 are others on this machine"
    sed "s/^/the answers of $1, on this machine: /;q" "$folder/lines"
    sed "s/^/$1: /" "$folder/$1/told" "$folder/$1/refused"
    for file in told refused; do
        sed 's/, [0-9]* bytes of stack.*//' "$folder/$1/$file" > "$folder/lines"
        sed 's/, [0-9]* bytes of stack.*//' "$folder/$here/$file" | cmp - "$folder/lines"
    done
    mkdir "$folder/$1/longest"
    tools/replay/logs.py longest "$folder/$1/answers" "$folder/$1/longest"
    [ "$(ls "$folder/$1/longest")" = "$(sed 's/^[^ ]* \([0-9]*\) \([0-9]*\).*/\1_\2.log/' "$folder/pairs" | LC_ALL=C sort)" ] ||
        fail "$1 has no log of a pair of sizes"
    for log in "$folder/$1"/longest/*.log; do
        said=$("$folder/target/debug/p2p-replay" "$log" 2> "$folder/lines") || fail "p2p-replay, ${log##*/} of $1: $said"
        echo "p2p-replay, ${log##*/} of $1: $said"
    done
    tools/replay/logs.py spoil "$folder/all" "$folder/spoilt"
    ! run "$1" player "$folder/spoilt" > "$folder/lines" 2>&1 || fail 'a changed answer is not seen'
    grep 'in the log' "$folder/lines" > "$folder/told" || { cat "$folder/lines" >&2; exit 1; }
    echo "a changed answer is seen on $1"
}

# The logs on an x86-64 with no more than each of them has. On that one an instruction of later ones ends a program.
oldest() {
    tools/installed.sh qemu-x86_64:qemu-user
    oldest='qemu-x86_64 -cpu qemu64,-sse3,-cx16,-lahf-lm'
    # shellcheck disable=SC2086 # no word where there is no such export
    compile "$here" c player $has tools/replay/player.c -static
    $oldest "$folder/$here/player" "$folder/all" > "$folder/told" || fail 'the oldest x86-64 answers otherwise'
    sed 's/^/the oldest x86-64: /;q' "$folder/told"
    for instruction in 'haddps %xmm0, %xmm0' 'pabsb %xmm0, %xmm0' 'popcnt %eax, %eax'; do
        echo "int main(void) { __asm__ volatile(\"$instruction\"); return 0; }" > "$folder/later.c"
        compile "$here" c later "$folder/later.c" -static
        ! $oldest "$folder/$here/later" 2> "$folder/told" || fail "the oldest x86-64 has $instruction"
    done
}

tools/stack_test.sh
make_recorder
mkdir "$folder/$here"
recorded
oldest
for target in $(cut -d ' ' -f 1 tools/targets); do
    [ "$target" != "$here" ] || continue
    processor=${target%%-*}
    packaged=$(echo "$processor" | tr _ -)
    tools/installed.sh "qemu-$processor:qemu-user" "$processor-linux-gnu-gcc:gcc-$packaged-linux-gnu" \
        "$processor-linux-gnu-g++:g++-$packaged-linux-gnu"
    mkdir "$folder/$target"
    tools/licences.sh "$archives/$target/libp2p_session.a" "$processor"
    tools/stack.py "$archives/$target/libp2p_session.a" 16000000 26624 > "$folder/told" || { cat "$folder/told" >&2; exit 1; }
    sed "s/^/bytes of stack on $target with 16,000,000 peers, at most:/;q" "$folder/told"
    examples "$target"
    logs "$target"
done
