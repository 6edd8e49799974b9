#!/bin/sh
# Simulates the networks of docs/SIMULATION.md and draws its pictures into docs/simulation/. It takes a quarter of an
# hour on one processor, and 2 GB of memory.
#
# usage: tools/simulate.sh [PICTURE..], of share, connections, bytes and churn; by default all
#
# runs/ gets the CSV of each run, and costs.csv what each took: seconds of a processor, and its
# greatest memory in megabytes.
set -eu
cd "$(dirname "$0")/.."
(cd rust/p2p-node && cargo build --offline --release --quiet)
program=rust/p2p-node/target/release/p2p-node
folder=docs/simulation
mkdir -p $folder/runs
[ -f $folder/costs.csv ] || echo 'run,seconds,megabytes' >$folder/costs.csv

# A run and its flags.
simulate() {
    name=$1
    shift
    cost=$($program simulate "$@" --csv "$folder/runs/$name.csv" --cost 2>&1)
    kept=$(grep -v "^$name," $folder/costs.csv)
    printf '%s\n%s,%s\n' "$kept" "$name" "$cost" >$folder/costs.csv
    echo "$name: $cost"
}

# The flags for a percentage of liars, a quarter of them of each kind that no frame gives away.
liars() {
    share=$(awk "BEGIN { print $1 / 400 }")
    echo "--liars-true $share --liars-empty $share --liars-oldest $share --liars-silent $share"
}

# Nodes of several sizes, whose connections end after ten ticks or last. With 10,000 nodes each is in two of 160 groups
# of 125.
share() {
    groups='--sets 2 --set-size 125'
    for percent in 0 10 30; do
        # shellcheck disable=SC2046,SC2086 # lists of words
        simulate share-100-$percent --nodes 100 --connections 32 --lifetime 10 --ticks 40 $(liars $percent)
        # shellcheck disable=SC2046,SC2086
        simulate share-1000-$percent --nodes 1000 --connections 32 --lifetime 10 --ticks 40 $(liars $percent)
        # shellcheck disable=SC2046,SC2086
        simulate share-10000-$percent --nodes 10000 $groups --connections 32 --lifetime 10 --ticks 40 $(liars $percent)
    done
    simulate share-100-lasting --nodes 100 --connections 32 --ticks 40
    simulate share-1000-lasting --nodes 1000 --connections 32 --ticks 40
    # shellcheck disable=SC2086
    simulate share-10000-lasting --nodes 10000 $groups --connections 32 --ticks 20
}

# 300 nodes by the most connections of a node.
connections() {
    for percent in 0 10 30; do
        for most in 1 2 4 8 16 24 32 48 64 96; do
            # shellcheck disable=SC2046
            simulate connections-$most-$percent-lasting --nodes 300 --connections $most --ticks 30 $(liars $percent)
        done
        for most in 4 8 16 24 32 48; do
            # shellcheck disable=SC2046
            simulate connections-$most-$percent --nodes 300 --connections $most --lifetime 10 --ticks 100 \
                $(liars $percent)
        done
    done
}

# Further numbers of nodes for the bytes of a node, and another limit of failed dials; the others are those of `share`.
bytes() {
    for percent in 0 10 30; do
        # shellcheck disable=SC2046
        simulate bytes-40-$percent --nodes 40 --connections 32 --lifetime 10 --ticks 40 $(liars $percent)
        # shellcheck disable=SC2046
        simulate bytes-300-$percent --nodes 300 --connections 32 --lifetime 10 --ticks 40 $(liars $percent)
    done
    for nodes in 40 100 300 1000; do
        simulate bytes-$nodes-limit --nodes $nodes --connections 32 --lifetime 10 --ticks 40 --dial-fail-limit 10
    done
    simulate bytes-3000-0 --nodes 3000 --sets 2 --set-size 125 --connections 32 --lifetime 10 --ticks 40
}

# 300 nodes of which some restart in each tick, with another address.
churn() {
    for percent in 0 30; do
        for restarts in 0.002 0.01 0.05; do
            # shellcheck disable=SC2046
            simulate churn-$restarts-$percent --nodes 300 --connections 32 --lifetime 10 --ticks 60 \
                --churn $restarts $(liars $percent)
        done
    done
    # In no picture: what another limit of failed dials changes.
    simulate limit-0.01 --nodes 300 --connections 32 --lifetime 10 --ticks 60 --churn 0.01 --dial-fail-limit 10
}

for picture in "${@:-share connections bytes churn}"; do
    for each in $picture; do
        case $each in
        share | connections | bytes | churn) $each ;;
        *)
            echo "$each is no picture: choose of share, connections, bytes and churn" >&2
            exit 2
            ;;
        esac
    done
done
$program simulate draw $folder
