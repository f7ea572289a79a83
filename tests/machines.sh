#!/bin/bash
# Test the library for C on each machine that it is built for: one script of lives, power losses, wrong numbers and telegrams has the same
# answers, outputs and bytes as on x86-64.
#
#     tests/machines.sh                                       both parts
#     tests/machines.sh targets [LIVES CALLS TELEGRAMS]       aarch64, under Linux and on a bare board, and WebAssembly; find_package,
#                                                             pkg-config and Meson (default: 40 2000 300; the long form: 400 20000 20000)
#     tests/machines.sh narrow [LIVES CALLS TELEGRAMS]        32 bits, highest byte first, C source (default: 100 6000 2000)
here=$(dirname "$(readlink -f -- "$0")")/machines || exit 1
case ${1:-all} in
    targets | narrow) exec "$here/$1.sh" "${@:2}" ;;
    all) status=0; for part in targets narrow; do "$here/$part.sh" || status=1; done; exit $status ;;
    *) echo "there is no part $1: targets, narrow"; exit 1 ;;
esac
