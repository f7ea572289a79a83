#!/bin/bash
# Test the page of tools/page in headless Chromium, on the programs that the full check leaves: its types; driving, compared with
# `etcs run`, also with cuts of power, and with the library for C; journal images, compared with `etcs_lab`, also altered ones;
# parsed telegrams; hostile files and texts; that it connects to nobody; contrast and names.
#
#     tests/page.sh [PAGE [NAME..]]    test an existing page, only these checks
#
# ETCS and ETCS_LAB name other programs, GAKNIFUR_ETCS_UNIT an existing library for C. MORE=10 tries ten times as many altered and forged images.
. "$(dirname "$(readlink -f -- "$0")")/both_programs" || exit 1
cd "$top" || exit 1
folder=$(mktemp -d) || exit 1
trap 'rm -rf "$folder"' EXIT
if [ -z "$GAKNIFUR_ETCS_UNIT" ]; then
    tools/library "$folder/prefix" >"$folder/said" 2>&1 || { cat "$folder/said"; echo "page: the library isn't built"; exit 1; }
    export GAKNIFUR_ETCS_UNIT=$folder/prefix/lib/libetcs_unit.so
fi
page=${1:-}
if [ -z "$page" ]; then
    page=$folder/gaknifur.html
    printf 'a letter\n' >"$page"
    tools/page "$page" >"$folder/said" 2>&1 && { echo "page: tools/page wrote over a letter without --force"; exit 1; }
    [ "$(cat "$page")" = "a letter" ] || { echo "page: the letter is gone"; exit 1; }
    tools/page --force "$page" >"$folder/said" 2>&1 || { cat "$folder/said"; exit 1; }
fi
/usr/bin/python3 -I -B tests/page/check.py "$page" "${@:2}"
