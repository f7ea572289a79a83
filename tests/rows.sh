#!/bin/bash
# Test the rows of the crates, by a program that is compiled for them from the crates' sources, unproved (rows/tried). Each module of
# rows/ converts its rows to numbers, the program answers all of them in one run, and each module converts the replies back and
# compares them with the wanted answers. The rows are the hand-written ones (rows/*.row) and those that model/make_rows.py makes.
# Fails where an answer differs or is missing, the sources don't compile, a run doesn't end, fewer rows were tried than are listed
# below, or a question is too long for the program. Then the requests for memory of some rows are refused, each in turn
# (hostile/refused_calls.py).
#
#     tests/rows.sh          with the program etcs that rt ci leaves in crates/, for the rows that ask it
#     tests/rows.sh ETCS     with another one
#     SEED=7 tests/rows.sh   with other pseudo-random rows, whose number isn't compared
#
# The variable ROWS may name a folder in which all rows were made before.
ETCS=$(realpath "${1:-$(dirname "$(readlink -f -- "$0")")/../crates/etcs/out/etcs}") || exit 1
export ETCS PYTHONDONTWRITEBYTECODE=1
cd "$(dirname "$(readlink -f -- "$0")")/rows" || exit 1
[ -x "$ETCS" ] || { echo "rows: no program $ETCS"; exit 1; }
made=$(mktemp -d) || exit 1
trap 'rm -rf "$made"' EXIT
mkdir "$made/cases" "$made/answers" || exit 1
[ -n "$ROWS" ] || { ROWS=$made/rows && python3 ../model/make_rows.py "$ROWS" ${SEED:-} >/dev/null; } || exit 1
ROWS=$(realpath "$ROWS") || exit 1
export ROWS
modules=(test_decode test_parts test_onboard test_kernel test_track test_guard)
status=0

# rows NAME FLOOR: the rows of a module
rows() {
    local found count
    found=$(python3 "$1.py" --compare "$made/answers") || status=1
    echo "$found"
    count=$(sed -n '$s/.*: \([0-9]*\) rows, .*/\1/p' <<< "$found")
    [ -n "$SEED" ] && [ "${count:-0}" -gt 0 ] || [ "${count:-0}" -ge "$2" ] || { echo "$1: fewer rows than $2"; status=1; }
}

for name in "${modules[@]}"; do
    python3 "$name.py" --ask "$made/cases" || exit 1
done
./tried "$made/cases" "$made/answers" "$made/program" || exit 1
rows test_decode 293
rows test_parts 2762
rows test_onboard 34580
rows test_kernel 713
rows test_track 50
rows test_guard 181
python3 ../hostile/refused_calls.py "$made/program" || status=1
exit $status
