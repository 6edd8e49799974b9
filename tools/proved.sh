#!/bin/sh
# Prints what was proved of the archive for a target, which stands beside it as PROVED: the toolchain, the target, the verdict
# on each of the five crates and the axioms that they rest on, by what the prover printed, and the hash of the sources.
#
# usage: tools/proved.sh TARGET LOG.., what tools/archive.sh, `rt lib` or `rt ci` printed; of two verdicts on a crate the last
# counts, on p2p_session_c the last for this target. A log of `rt ci` has none on a crate that it says to be kept from an
# earlier run.
set -eu
cd "$(dirname "$0")/.."
toolchain=$(rt version)
target=$1
shift
echo "$toolchain"
echo "target $target"
for name in p2p_discovery p2p_tracker p2p_directory p2p_session p2p_session_c; do
    awk -v name="$name" -v target="$target" '
        match($0, /(fn|enum|struct|trait|impl) [a-z0-9_]+::[^ ]*: proved/) { split(substr($0, RSTART), word, /[ :]/); of = word[2] }
        match($0, /crate [a-z0-9_]+: modules/) { of = substr($0, RSTART + 6, RLENGTH - 15) }
        of == name && match($0, /axioms [a-z0-9_]+: /) { axioms = axioms name ": " substr($0, RSTART) "\n" }
        of == name && !/ tests=/ && match($0, /logic=proved/) {
            verdict = substr($0, RSTART)
            if (!match(verdict, / target=[^ ]*/) || substr(verdict, RSTART + 8, RLENGTH - 8) == target)
                said = axioms name ": " verdict
            axioms = ""; of = ""
        }
        END { print said == "" ? name ": no verdict" : said }
    ' "$@"
done
tools/sources.sh "$toolchain" | sha256sum | sed 's/-$/sources/'
