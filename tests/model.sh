#!/bin/bash
# Test the plain programs. They have to answer the kernel's rows, the program's rows and the examples as wanted, with as many rows,
# events and answers as are listed below. The reader that was written only from docs/reference/format.md lists what the plain unit
# wrote. The tables of the plain program are those of the definitions.
#
#     tests/model.sh           the variable ROWS may name a folder in which model/make_rows.py made all rows before
#     SEED=7 tests/model.sh    with other pseudo-random rows, whose numbers aren't compared
[ -z "$ROWS" ] || ROWS=$(realpath "$ROWS") || exit 1
cd "$(dirname "$(readlink -f -- "$0")")/model" || exit 1
export PYTHONDONTWRITEBYTECODE=1
status=0
made=$(mktemp -d) || exit 1
trap 'rm -rf "$made"' EXIT
[ -n "$ROWS" ] || { ROWS=$made/rows && python3 make_rows.py "$ROWS" ${SEED:-} || status=1; }
export ROWS
found=$(python3 check_rows.py) || status=1
echo "$found"
wanted="713 rows, 24451 events, 25068 answers, 0 differences"
[ -n "$SEED" ] || [ "$found" = "$wanted" ] || { echo "the kernel's rows are to be: $wanted"; status=1; }
python3 program_rows.py --check || status=1
python3 format_rows.py || status=1
python3 table_rows.py || status=1
python3 guard.py || status=1
exit $status
