#!/bin/sh
# Clones what is committed of this repository into an empty or new folder. If this isn't a checkout, its files are
# committed there to a repository of their own.
#
# usage: tools/clone.sh FOLDER
set -eu
cd "$(dirname "$0")/.."
if git rev-parse --quiet --verify HEAD > /dev/null 2>&1; then
    exec git clone --quiet . "$1"
fi
mkdir -p "$1"
tar -c --exclude=./.git --exclude=./rust/target --exclude='./crates/*/out' --exclude=./dist . | tar -x -C "$1"
cd "$1"
git init --quiet --initial-branch=main .
git add --all
git -c user.name=copy -c user.email=copy@example.invalid commit --quiet --message 'the files of a copy'
