#!/bin/bash
# Test the built programs under hostile use: each request for memory is refused in turn, output can't be written, power is lost
# at each write of an image file, syncs fail and power is lost after them, bytes are altered; the bytes and the calls of image
# files over random lives; random telegrams and scenarios. The wanted answers come from the plain programs, or from the tests.
#
#     tests/hostile.sh                                        all parts, in parallel
#     tests/hostile.sh memory | lab | cuts | syncs | bytes    one part; lab is memory and output of the program etcs_lab
#     tests/hostile.sh files [LIVES [SEED]]                   lives on image files, more or others
#     tests/hostile.sh inputs [TELEGRAMS SCENARIOS [SEED]]    random inputs, more or others
#
# ETCS=PROGRAM and ETCS_LAB=PROGRAM name other programs than those that the full check leaves.
[ -z "$ETCS" ] || ETCS=$(realpath "$ETCS") || exit 1
[ -z "$ETCS_LAB" ] || ETCS_LAB=$(realpath "$ETCS_LAB") || exit 1
cd "$(dirname "$(readlink -f -- "$0")")" || exit 1
export PYTHONDONTWRITEBYTECODE=1
memory() { python3 hostile/refused_memory.py ../examples/*/scenario.json 2>&1; }
lab() {
    local status=0
    [ -x "${ETCS_LAB:-../crates/etcs_lab/out/etcs_lab}" ] || { echo "there is no program etcs_lab: rt ci or ./etcs_lab --prove makes it"; return 1; }
    python3 hostile/lab_memory.py 2>&1 || status=1
    python3 hostile/lab_unwritten.py 2>&1 || status=1
    return $status
}
cuts() { python3 hostile/cut_files.py 2>&1; }
syncs() { python3 hostile/failed_syncs.py 2>&1 && python3 hostile/failed_syncs_on_ext4.py 2>&1; }
bytes() { python3 hostile/altered_bytes.py 2>&1; }
files() { python3 hostile/lives_in_files.py "$@" 2>&1; }
inputs() { python3 hostile/random_inputs.py "$@" 2>&1; }
[ -x "${ETCS:-../crates/etcs/out/etcs}" ] || { echo "there is no program ${ETCS:-crates/etcs/out/etcs}: rt ci or ./etcs --prove makes it"; exit 1; }
case ${1:-all} in
    memory | lab | cuts | syncs | bytes | files | inputs) "$@"; exit ;;
    all) ;;
    *) echo "there is no part $1: memory, lab, cuts, syncs, bytes, files, inputs"; exit 1 ;;
esac
said=$(mktemp -d) || exit 1
trap 'rm -rf "$said"' EXIT
parts=()
for part in memory lab cuts syncs bytes files inputs; do
    "$part" >"$said/$part" & parts+=($!)
done
status=0
for part in "${parts[@]}"; do
    wait "$part" || status=1
done
cat "$said"/{memory,lab,cuts,syncs,bytes,files,inputs}
exit $status
