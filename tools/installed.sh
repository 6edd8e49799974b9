#!/bin/sh
# Fails where a program or a library is not installed, and names the package of Debian that has it. With --install, and
# as root where apt-get is, it installs what is missing first.
#
# usage: tools/installed.sh [--install] PROGRAM[:PACKAGE].. lib:LIBRARY[:PACKAGE]..
# A package that isn't told has the name of the program, and a library is one that pkg-config knows.
set -eu
installs=no
if [ "${1:-}" = --install ]; then
    shift
    [ "$(id -u)" != 0 ] || ! command -v apt-get > /dev/null || installs=yes
fi

is_there() {
    case $1 in
        lib:*) pkg-config --exists "$(name_of "$1")" 2> /dev/null ;;
        *) command -v "$(name_of "$1")" > /dev/null ;;
    esac
}

name_of() {
    word=${1#lib:}
    echo "${word%%:*}"
}

for wanted in "$@"; do
    package=${wanted##*:}
    is_there "$wanted" && continue
    if [ "$installs" = yes ]; then
        DEBIAN_FRONTEND=noninteractive apt-get install -y --no-install-recommends "$package" > /dev/null 2>&1 \
            || { apt-get update > /dev/null 2>&1 && DEBIAN_FRONTEND=noninteractive \
                apt-get install -y --no-install-recommends "$package" > /dev/null 2>&1; } || true
    fi
    is_there "$wanted" || {
        echo "$(name_of "$wanted") is not installed (Debian's package $package): install it, or set SKIP_HOST=1 for the gates" >&2
        exit 1
    }
done
