#!/bin/sh
# Tests by what tools/try_mutants.py says that a mutant was refused, over lines as the prover prints them: a clause, an
# invariant and a condition count, with and without a written answer; what only names something that is gone doesn't.
set -eu
cd "$(dirname "$0")"
folder=$(mktemp -d)
trap 'rm -rf "$folder"' EXIT
mkdir -p "$folder/proofs/of/take"
cat > "$folder/proofs/of/take/Answers.antt" << 'END'
lemma : A
lemma = a

pub returns-clause-ok : goal.returns-clause-ok
returns-clause-ok c = lemma

pub invariant_of-self : goal.invariant_of-self
invariant_of-self c = lemma

pub push-requires-room : goal.push-requires-room
push-requires-room c = lemma
END
python3 - "$folder" << 'END'
import sys
from pathlib import Path

sys.dont_write_bytecode = True
sys.path.insert(0, ".")
from try_mutants import refusal  # noqa: E402

CRATE = Path(sys.argv[1])
UNPROVED = "it is not proved that what the function ensures holds when it returns"
ANSWERS = "./proofs/of/take/Answers.antt:5:1: error:"
WRITTEN = "whose written proof fits no more"
NONE = "of which there is no proof"


def said(*lines, status=1, counts="only=1 proved=0"):
    by, why = refusal(status, [*lines, counts], CRATE)
    return f"refused by {by}" if by else f"not refused: {why}"


def expect(start, *lines, **more):
    if not said(*lines, **more).startswith(start):
        sys.exit(f"{said(*lines, **more)}\nwas to begin with {start}")
    print(start)


clause = f"note: src/of.rt:3:1: {UNPROVED} (`returns-in_err-clause-err`)"
sum_ = "note: src/of.rt:4:1: it is not proved that the sum fits (`overflow_add`)"
answer = f"{ANSWERS} `returns-clause-ok`: `rw`: no occurrence"
moved = f"{ANSWERS} `returns-clause-ok`: `c` has no `take-2` that can be named"
expect(f"refused by a clause, {NONE}", clause)
expect(f"refused by a condition, {NONE}", sum_)
expect(f"refused by an invariant, {NONE}", "note: src/of.rt:5:1: it is not proved that it holds (`loop-at-preserved`)")
expect(f"refused by a condition, {NONE}", "note: src/of.rt:5:1: it is not proved that the loop ends, by its measure")
expect(f"refused by a clause, {WRITTEN}", answer)
expect(f"refused by an invariant, {WRITTEN}", f"{ANSWERS} `invariant_of-self`: the two types differ")
expect(f"refused by a condition, {WRITTEN}", f"{ANSWERS} `push-requires-room`: the two types differ")
# The strongest is said, in whatever order.
expect(f"refused by a clause, {NONE}", answer, sum_, clause)
expect(f"refused by a condition, {NONE}", answer, sum_)
expect("not refused: only files of proofs", moved)
expect("not refused: only files of proofs", f"{ANSWERS} `lemma`: the two types differ")
expect("not refused: only files of proofs", "./proofs/Lemmas.antt:5:1: error: `returns-clause-ok`: the two types differ")
expect(f"refused by a clause, {NONE}", moved, clause)
expect("not refused: it is proved", status=0)
expect("not refused: the prover can't read it", "src/of.rt:3:1: error: expected the end", clause)
expect("not refused: the prover didn't judge it", clause, counts="only=1 proved=1")
END
