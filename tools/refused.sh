#!/bin/sh
# Refuses each request for memory in turn: the first, the second, .., until nothing is refused. Each time
# the program refusals has to answer want of memory, once and nothing else, and then as if that had never
# been asked. A list that grows asks for just what it needs where twice its room is refused: then nothing is
# answered. That is so of the lists of nodes in a network, at three requests.
#
# usage: tools/refused.sh [PROGRAM], by default the one that `rt run` or `rt ci` built
set -eu
cd "$(dirname "$0")/.."
program=$(realpath "${1:-crates/refusals/out/refusals}")
folder=$(mktemp -d)
trap 'rm -rf "$folder"' EXIT
"${CC:-cc}" -O1 -fno-builtin -shared -fPIC -o "$folder/refused.so" tools/refused.c

# Does one thing with the Nth request refused; leaves its status, its lines, and how many requests it made.
refuse() {
    rm -f "$folder/counted"
    ended=0
    REFUSE=$2 COUNTED="$folder/counted" LD_PRELOAD="$folder/refused.so" \
        "$program" "$1" >"$folder/lines" || ended=$?
    requests=$(cat "$folder/counted") || fail "$1: no marks"
    wants=$(grep -c -x -E 'OutOfMemory|Memory|out of memory' "$folder/lines" || true)
}

fail() {
    echo "$1"
    cat "$folder/lines"
    exit 1
}

for thing in init node encoded exchange run7 run9 run12 run14 run19 pair16a network; do
    number=1
    asked_again=0
    refuse "$thing" "$number"
    while [ "$requests" -ge "$number" ]; do
        [ "$ended" = 0 ] || fail "$thing, request $number: status $ended"
        case "$thing $wants" in
            "network 0") asked_again=$((asked_again + 1)) ;;
            *" 1") ;;
            *) fail "$thing, request $number: want of memory is answered $wants times" ;;
        esac
        number=$((number + 1))
        refuse "$thing" "$number"
    done
    [ "$asked_again" = 0 ] || [ "$asked_again" = 3 ] || fail "$thing: $asked_again requests are refused in silence"
    [ "$ended" = 0 ] || fail "$thing, nothing refused: status $ended"
    [ "$wants" = 0 ] || fail "$thing, nothing refused: want of memory is answered"
    [ "$number" -gt 1 ] || fail "$thing: it makes no request"
    echo "$thing: $((number - 1)) requests, each refused"
done
