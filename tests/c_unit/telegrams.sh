#!/bin/bash
# Test the C library from C and C++: telegrams with hand-written answers (check.c), the program of its README, and random
# telegrams compared with the plain decoder. Each program is compiled as C and as C++. Needs gcc, g++ and Python.
#
#     tests/c_unit/telegrams.sh LIBRARY    (tests/c_unit.sh calls it)
export PYTHONDONTWRITEBYTECODE=1
top=$(cd "$(dirname "$(readlink -f -- "$0")")/../.." && pwd) || exit 1
readme=$top/crates/etcs_unit/README.md
library=$(realpath "${1:?}") || exit 1
made=$(mktemp -d) || exit 1
trap 'rm -rf "$made"' EXIT
status=0

fails() { echo "$*"; status=1; }

strict=(-Wall -Wextra -Werror -Wconversion -Wsign-conversion)
# compiled NAME FILE: makes NAME.c and NAME.cpp of a file.
compiled() {
    gcc -x c -O2 "${strict[@]}" -I "$top/c/include" "$2" -x none "$library" -o "$made/$1.c" || fails "$1 doesn't compile as C"
    g++ -x c++ -O2 "${strict[@]}" -I "$top/c/include" "$2" -x none "$library" -o "$made/$1.cpp" || fails "$1 doesn't compile as C++"
}

sed -n '/^```c$/,/^```$/{/^```/d;p}' "$readme" >"$made/readme"
wanted=$(sed -n 's/^prints `\(.*\)`\.$/\1/p' "$readme")
[ -s "$made/readme" ] && [ -n "$wanted" ] || fails "crates/etcs_unit/README.md has no program, or no line that it prints"
compiled check "$top/tests/c_unit/check.c"
compiled readme "$made/readme"
compiled answers "$top/tests/c_unit/answers.c"
for language in c cpp; do
    [ -x "$made/check.$language" ] && [ -x "$made/readme.$language" ] && [ -x "$made/answers.$language" ] || continue
    "$made/check.$language" || fails "check.$language: answers that were worked out by hand are others"
    printed=$("$made/readme.$language") || fails "readme.$language ends with another status than 0"
    [ "$printed" = "$wanted" ] || fails "readme.$language prints \"$printed\", and crates/etcs_unit/README.md says \"$wanted\""
    "$top/tests/c_unit/random_telegrams.py" "$made/answers.$language" || fails "answers.$language: random telegrams have other answers"
done
echo "C library: $([ $status -eq 0 ] && echo "no failures" || echo "failures, see above")"
exit $status
