#!/bin/bash
# Test the program etcs and the scripts ./etcs and ./etcs_lab.
#
#     tests/etcs.sh            all parts
#     tests/etcs.sh rows       the program's rows, and the examples
#     tests/etcs.sh examples   each example as ./etcs --example runs it
#     tests/etcs.sh scripts    ./etcs and ./etcs_lab with stand-ins for the programs; what ./etcs refuses
#
# ETCS names another program than the one that the full check leaves.
export PYTHONDONTWRITEBYTECODE=1
top=$(cd "$(dirname "$(readlink -f -- "$0")")/.." && pwd) || exit 1
ETCS=$(realpath "${ETCS:-$top/crates/etcs/out/etcs}") && [ -x "$ETCS" ] || { echo "there is no program ${ETCS:-etcs}: rt ci or ./etcs --prove makes it"; exit 1; }
cd "$top" || exit 1
rows() { python3 tests/model/program_rows.py "$ETCS"; }
scripts() { tests/etcs/scripts.sh "$ETCS"; }

# The lines of an example's rows, each command as a user types it at the top.
wanted() {
    sed -e '/^#/d' -e '/^$/d' -e '/^= 0$/d' -e "s|^\\\$ run |\$ run examples/$1/|" -e 's|^\$ |$ ./etcs |' "examples/$1/session.row"
}
examples() {
    local status=0 row name
    # Where the program is of other sources, ./etcs would compile these for each command, and run them unproved.
    ./etcs --is-proved || { echo "the program isn't of these sources, so ./etcs --example isn't tried: rt ci or ./etcs --prove makes it"; return 1; }
    for row in examples/*/session.row; do
        name=$(basename "$(dirname "$row")")
        [ "$(./etcs --example "$name")" = "$(wanted "$name")" ] || { echo "./etcs --example $name prints something else than examples/$name/session.row"; status=1; }
    done
    return $status
}
case ${1:-all} in
    rows | examples | scripts) "$1" ;;
    all) status=0; for part in rows examples scripts; do "$part" || status=1; done; exit $status ;;
    *) echo "there is no part $1: rows, examples, scripts"; exit 1 ;;
esac
