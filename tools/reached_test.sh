#!/bin/sh
# Tests tools/reached.py in a copy of what is committed: a page has as many definitions and lines as are counted, each once,
# with the names that are listed and where it stands; what no clause leads to isn't on it, and what one leads to is.
set -eu
cd "$(dirname "$0")/.."
copy=$(mktemp -d)
trap 'rm -rf "$copy"' EXIT
tools/clone.sh "$copy/of"
cd "$copy/of"
fail() {
    echo "$1" >&2
    exit 1
}

for function in run run_pair run_network; do
    tools/reached.py --text "$function" > ../page
    counted=$(tools/reached.py "$function")
    [ "$(head -n 1 ../page)" = "-- $counted" ] || fail "the page of $function begins otherwise than $counted"
    # Each definition: FILE:LINE, its lines without comments, and the first of them.
    awk '
        /^-- \[/ { at = substr($0, 5, length($0) - 5); next }
        at == "" || /^ *--/ || /^$/ { next }
        !(at in first) { order[++n] = at; first[at] = $0 }
        { lines[at]++ }
        END { for (i = 1; i <= n; i++) print order[i] "\t" lines[order[i]] "\t" first[order[i]] }
    ' ../page > ../found
    [ "$(grep -c '^-- \[' ../page)" = "$(wc -l < ../found)" ] || fail "$function: a definition is there twice, or has no text"
    said="$function: $(awk -F '\t' '{ n += $2 } END { print n }' ../found) lines of $(wc -l < ../found) definitions"
    [ "$said" = "$counted" ] || fail "the page has $said, and counted is $counted"
    while IFS='	' read -r at lines first; do
        there=$(sed -n "${at##*:}p" "${at%:*}" | sed 's/^ *//')
        [ "$there" = "$first" ] || fail "at $at stands $there, and not $first"
    done < ../found
    # By file, name and number of lines.
    tools/reached.py -v "$function" | sed -n 's|^ *\([0-9]*\) Rattle\.\([^ ]*\)$|\2 \1|p' | sort > ../listed
    sed 's|^crates/||; s|\.antt:[0-9]*||' ../found | awk -F '\t' '{
        sub(/^(abbrev |unfoldable )?(pub )?((record|data) )?/, "", $3); split($3, word, " ")
        gsub("/", ".", $1); print $1 "." word[1], $2
    }' | sort | diff ../listed - || fail "the page of $function has other definitions than are listed"
    echo "$said, each on the page once"
done

specs=crates/p2p_directory/specs/Run.antt
tools/reached.py --text run > ../page
printf '\n-- what is planted\nabbrev pub planted : Type 0\nplanted = Unit {0}\n' >> "$specs"
tools/reached.py --text run | diff ../page - || fail 'what no clause leads to is on the page'
sed -i 's/^  cmp = cmp;$/  cmp = planted;/' "$specs"
tools/reached.py --text run | grep -A 2 -x -e '-- what is planted' > ../planted || fail 'what a clause leads to is not on the page'
[ "$(sed -n 2,3p ../planted)" = "$(tail -n 2 "$specs")" ] || fail 'its text is another'
echo 'what a clause leads to is on the page, and nothing else'
