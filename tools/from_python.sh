#!/bin/sh
# Runs the Python of docs/PLAY.md over the program that `rt ci` or `rt run` built, and compares what it prints.
set -eu
cd "$(dirname "$0")/.."
printed=$(sed -n '/^```python$/,/^```$/p' docs/PLAY.md | sed '1d;$d' | python3 -)
expected='ready Some([]) done
1 granted
2 refused'
[ "$printed" = "$expected" ] || {
    printf 'the Python of docs/PLAY.md prints otherwise:\n%s\n' "$printed" >&2
    exit 1
}
echo 'the Python of docs/PLAY.md prints what it should'
