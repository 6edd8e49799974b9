# shellcheck shell=sh
# What scripts share that compile hosts in C for each pair of sizes. They read it at the top of the repository.

# Prints a line for each pair of tools/exports/session.table: what its calls begin with, its sizes, and the first bytes that a
# key may have.
pairs_in_c() {
    sed -n -e 's/:.*//' -e 's/ first / /g' -e 's/^pair \([0-9]*\) \([0-9]*\)/p2p_session_\1_\2 \1 \2/p' \
        tools/exports/session.table | sed '1s/^[^ ]*/p2p_session/'
}

# A source that is written for the first pair, for another: its header, calls, type and sizes have these in their names.
of_pair() {
    [ "$2" != p2p_session ] || { cat "$1"; return; }
    sed -e "s/p2p_session_\([a-z_]*\)(/$2_\1(/g" -e "s/$2_\(is_\|refusal_\)/p2p_session_\1/g" \
        -e "s/struct p2p_session\b/struct $2/g" -e "s/\"p2p_session\.h\"/\"$2.h\"/" \
        -e "s/P2P_SESSION_\(KEY_SIZE\|SIGNATURE_SIZE\|RECEIVE_ROOM\)/$(echo "$2" | tr '[:lower:]' '[:upper:]')_\1/g" "$1"
}
