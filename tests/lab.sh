#!/bin/bash
# Test ./lab and the package python/gaknifur, on the programs and the library that the full check leaves.
#
#     tests/lab.sh                            all parts
#     tests/lab.sh package [IMAGES [SEED]]    types, the package's own tests, exit statuses, the page of all commands; tables and database
#                                             compared with plain readers; reports, anonymous ones, seals, campaigns, cases of journals
#     tests/lab.sh suites                     the corpus of test cases: each expected result comes, each section and transition has a case or a
#                                             reason, lint finds weak tracks, and a search over random lives finds no fault
#     tests/lab.sh oracle [all]               a unit in C, one in Python and `./lab serve` replay the journals of the examples; the corpus runs
#                                             against the unit in C; each unit that is wrong on purpose is found; wrong properties (the first
#                                             ones, or all) are found and shrunk, and the safety laws hold
#     tests/lab.sh drive                      trains in a closed loop with the unit: each expected result comes, and each planted fault is found
#
# ETCS_LAB, ETCS and PREFIX name other programs and another library. The commands of the pages for laboratories run with the part of their subject.
. "$(dirname "$(readlink -f -- "$0")")/both_programs" || exit 1
cd "$top" || exit 1
python=/usr/bin/python3 # Debian's packages belong to this one
least_results=800 least_against=1010 # (against another unit each case counts once more)
made=$(mktemp -d) || exit 1
trap 'rm -rf "$made"' EXIT
tools/python --checks || exit 1

# passed NAME LEAST WORDS..: so many results at least of ./lab test WORDS.., and none that isn't as expected
passed() {
    local output status=0 count
    output=$(./lab test "${@:3}" 2>&1) || status=1
    count=$(sed -n 's/^\([0-9]*\) passed in .*/\1/p' <<< "$output")
    [ "${count:-0}" -ge "$2" ] || status=1
    [ $status = 0 ] || echo "$output"
    echo "$1: ${count:-no} results passed"
    return $status
}

package() {
    local status=0
    (cd python && "$python" -m mypy) || status=1
    (cd python && "$python" -m unittest -q) || status=1
    "$python" tests/lab/table_rows.py "$lab" "$@" || status=1
    "$python" tests/lab/report_rows.py "$etcs" "$lab" || status=1
    "$python" tests/lab/seal_rows.py "$lab" || status=1
    "$python" tests/lab/anonymous_rows.py "$etcs" "$lab" || status=1
    "$python" tests/lab/verdict_rows.py "$lab" || status=1
    "$python" tests/lab/case_rows.py "$etcs" "$lab" || status=1
    "$python" tests/lab/status_rows.py "$etcs" "$lab" || status=1
    tools/dev/commands "$lab" || status=1
    "$python" tests/lab/campaign_rows.py "$etcs" "$lab" || status=1
    return $status
}

suites() {
    local status=0 covered
    find_library "$made" # its guard judges telegrams that the unit skips or refuses
    passed suites $least_results examples/suites || status=1
    covered=$(./lab coverage examples/suites 2>&1) || { status=1; echo "$covered"; }
    tail -n 1 <<< "$covered"
    "$python" tests/lab/lint_rows.py "$etcs" "$lab" || status=1
    "$python" tests/documents.py start/tests howto/write-test-cases howto/telegrams howto/lint || status=1
    "$python" tests/lab/search.py "$etcs" "$lab" || status=1
    return $status
}

oracle() {
    local status=0 strict=(-Wall -Wextra -Werror -Wconversion -Wsign-conversion -pedantic)
    find_library "$made"
    gcc -std=c99 -O2 "${strict[@]}" -I "$prefix/include" examples/oracle/unit.c "$prefix/lib/libetcs_unit.a" -o "$made/unit" ||
        { echo "examples/oracle/unit.c doesn't compile"; return 1; }
    gcc -std=c99 -O1 -g "${strict[@]}" -fsanitize=address,undefined -fno-sanitize-recover=all -static-libasan -I "$prefix/include" \
        examples/oracle/unit.c "$prefix/lib/libetcs_unit.a" -o "$made/unit.checked" || status=1
    gcc -std=c99 -O2 "${strict[@]}" examples/oracle/least.c -o "$made/least" || { echo "examples/oracle/least.c doesn't compile"; status=1; }
    "$python" tests/lab/unit_rows.py "$etcs" "$lab" "$made/unit" "$made/least" || status=1
    "$etcs" format "$made/image" 64 >/dev/null && "$etcs" run examples/trip/scenario.json "$made/image" >/dev/null || status=1
    GAKNIFUR_UNIT_MEMORY=0 ./lab against "$made/image" "$made/unit.checked" >"$made/said" 2>&1 || { cat "$made/said"; echo "unit.c, with sanitizers, differs"; status=1; }
    passed "suites against unit.c" $least_against examples/suites --against "$made/unit" || status=1
    "$python" tests/lab/search_rows.py "$etcs" "$lab" "$made/unit" "$@" || status=1
    "$python" tests/documents.py howto/oracle howto/searching || status=1
    return $status
}

drive() {
    local status=0
    find_library "$made"
    "$python" tests/lab/drive_rows.py "$etcs" "$lab" || status=1
    "$python" tests/documents.py howto/closed-loop || status=1
    ./lab lint examples/closed_loop || { status=1; echo "lab lint finds more in examples/closed_loop than the cases list under shows"; }
    return $status
}
run "package suites oracle drive" "$@"
