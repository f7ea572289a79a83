#!/bin/bash
# Test the library on each machine that tools/library supports: built and installed for it, it has to answer as here. A driver executes
# a script of lives with losses of power, of calls in any order with random numbers, and of telegrams (tests/machines/scripts.py) on
# x86-64, on aarch64 under Linux (by qemu-user), on a bare board of aarch64 (by qemu-system), and in WebAssembly (by node); each answer,
# output and byte of the medium has to be the same. Then the tests of the unit from C, and the examples, on aarch64; and find_package,
# pkg-config and Meson.
#
#     tests/machines/targets.sh [LIVES CALLS TELEGRAMS]    (default: 40 2000 300; the long form is 400 20000 20000)
#
# Needs gcc, gcc-aarch64-linux-gnu, qemu-user, qemu-system-arm, nodejs, cmake, meson, pkg-config and valgrind. $TARGETS names a folder that has
# the libraries already, one folder for each target.
export PYTHONDONTWRITEBYTECODE=1
top=$(cd "$(dirname "$(readlink -f -- "$0")")/../.." && pwd) || exit 1
python=/usr/bin/python3
here=$top/tests/machines
made=$(mktemp -d) || exit 1
trap 'rm -rf "$made"' EXIT
status=0
lives=${1:-40} calls=${2:-2000} telegrams=${3:-300}

fails() { echo "$*"; status=1; }

targets=(x86_64-linux-gnu aarch64-linux-gnu aarch64-none-elf wasm64)
libraries=${TARGETS:-$made}
if [ -z "$TARGETS" ]; then
    for target in "${targets[@]}"; do
        "$top/tools/library" --target "$target" "$made/$target" >"$made/said" 2>&1 || { cat "$made/said"; echo "targets: the library for $target isn't built"; exit 1; }
        tail -n 1 "$made/said"
    done
fi
here_prefix=$libraries/x86_64-linux-gnu arm=$libraries/aarch64-linux-gnu bare=$libraries/aarch64-none-elf wasm=$libraries/wasm64
strict=(-Wall -Wextra -Werror -Wconversion -Wsign-conversion -pedantic)
cross=aarch64-linux-gnu-gcc
bare_words=(-ffreestanding -nostdlib -static -no-pie -Wl,--build-id=none,--no-warn-rwx-segments -I "$bare/include" -I "$top/examples/bare_metal"
    "$top/examples/bare_metal/start.S" -T "$top/examples/bare_metal/board.ld")

clock=()
# board FILE [SCRIPT]: runs a program on the board, and prints what comes on its serial line
board() {
    rm -f "$made/serial"
    timeout 600 qemu-system-aarch64 -M virt -cpu cortex-a53 -m 256 "${clock[@]}" -display none -monitor none -nic none -serial "file:$made/serial" -kernel "$1" \
        ${2:+-device loader,file="$2",addr=0x48000000,force-raw=on} || fails "the board ends with another status than 0"
    cat "$made/serial"
}

# ---- the same script everywhere

"$python" "$here/scripts.py" members >"$made/members.h" || fails "there are no members"
for one in "gcc here $here_prefix/lib/libetcs_unit.a" "gcc here_static $here_prefix/lib/libetcs_unit_no_malloc.a -DOWN_MEMORY" \
    "$cross aarch64 $arm/lib/libetcs_unit.a -static" "$cross aarch64_static $arm/lib/libetcs_unit_no_malloc.a -static -DOWN_MEMORY"; do
    read -r compiler name library words <<<"$one"
    # shellcheck disable=SC2086
    "$compiler" -std=c99 -O2 "${strict[@]}" $words -I "$made" -I "$here_prefix/include" -I "$here" "$here/driver.c" "$here/hosted.c" "$library" -o "$made/$name" ||
        fails "the driver doesn't compile: $name"
done
"$cross" -std=c11 -O2 "${strict[@]}" "${bare_words[@]}" -I "$made" -I "$here" "$here/driver.c" "$here/bare.c" "$bare/lib/libetcs_unit_no_malloc.a" -o "$made/board.elf" ||
    fails "the driver doesn't compile for the board"
# (without a C library, and with all of the archive; bytes.c has memcpy and the like, which no archive for a machine with a C library has)
for one in "gcc $here_prefix $top/c/platform/bytes.c" "$cross $arm $top/c/platform/bytes.c" "$cross $bare"; do
    read -r compiler prefix more <<<"$one"
    # shellcheck disable=SC2086
    "$compiler" -std=c99 -O2 "${strict[@]}" -ffreestanding -fno-builtin -nostdlib -static -I "$prefix/include" -I "$top/c/platform" "$here/least.c" $more \
        "$prefix/lib/libetcs_unit_no_malloc.a" -o "$made/least" || fails "a program without a C library doesn't link: $prefix"
done
"$python" "$here/scripts.py" script "$lives" "$calls" "$telegrams" >"$made/script" || fails "there is no script"
"$made/here" <"$made/script" >"$made/printed.x86_64" || fails "the driver ends with another status than 0"
"$made/here_static" <"$made/script" >"$made/printed.x86_64_own_memory" || fails "the driver over a buffer ends with another status than 0"
qemu-aarch64 "$made/aarch64" <"$made/script" >"$made/printed.aarch64" || fails "the driver on aarch64 ends with another status than 0"
qemu-aarch64 "$made/aarch64_static" <"$made/script" >"$made/printed.aarch64_own_memory" || fails "the driver over a buffer on aarch64 ends with another status than 0"
board "$made/board.elf" "$made/script" >"$made/printed.board"
# (after a version of node that has such memories as they are, the word is unknown)
wide=--experimental-wasm-memory64
node $wide -e '' 2>/dev/null || wide=
node $wide --no-warnings "$here/driver.mjs" "$wasm/lib/etcs.wasm" <"$made/script" >"$made/printed.wasm64" || fails "the driver in WebAssembly ends with another status than 0"
"$python" "$here/scripts.py" compare "$made/script" "$made"/printed.{x86_64,x86_64_own_memory,aarch64,aarch64_own_memory,board,wasm64} || status=1

# ---- the tests of the unit from C, on aarch64

rows=0
for name in misuse two reading executive; do
    "$cross" -x c -std=c99 -O2 "${strict[@]}" -static -I "$arm/include" -I "$top/tests/c_unit" "$top/tests/c_unit/$name.c" -x none "$arm/lib/libetcs_unit.a" -pthread -o "$made/$name" ||
        fails "$name.c doesn't compile for aarch64"
    qemu-aarch64 "$made/$name" >"$made/said" 2>&1 && rows=$((rows + 1)) || { cat "$made/said"; fails "$name.c on aarch64"; }
    tail -n 1 "$made/said"
done
"$cross" -std=c11 -O2 "${strict[@]}" -static -fno-builtin -I "$arm/include" -I "$top/c/platform" -I "$top/tests/c_unit" "$top/tests/c_unit/pieces.c" "$top/c/platform/pieces.c" \
    "$arm/lib/libetcs_unit.a" -o "$made/pieces" && qemu-aarch64 "$made/pieces" >"$made/said" 2>&1 && rows=$((rows + 1)) || { cat "$made/said"; fails "pieces.c on aarch64"; }
"$python" "$top/tests/c_unit/layout.py" --program >"$made/places.c" && "$cross" -std=c99 "${strict[@]}" -static -I "$arm/include" "$made/places.c" -o "$made/layout.elf" &&
    printf '#!/bin/bash\nexec qemu-aarch64 %q\n' "$made/layout.elf" >"$made/layout" && chmod +x "$made/layout" && "$python" "$top/tests/c_unit/layout.py" "$made/layout" && rows=$((rows + 1)) ||
    fails "sizes and places on aarch64"
[ $rows -eq 6 ] || fails "of the tests from C there are 6 to be run on aarch64"

# ---- the examples; the board's time is counted by its instructions, of which there are 62.5 million a second, and no sleep is waited for

clock=(-icount "shift=4,sleep=off")
"$cross" -std=c11 -O2 "${strict[@]}" "${bare_words[@]}" "$top/examples/bare_metal/main.c" "$bare/lib/libetcs_unit_no_malloc.a" -o "$made/example.elf" || fails "the example for a bare board doesn't compile"
board "$made/example.elf" >"$made/said"
"$python" "$here/examples.py" board "$made/said" || { cat "$made/said"; fails "the example on the board"; }
# (an hour of cycles, in which power is lost more than 100 times)
"$cross" -std=c11 -O2 "${strict[@]}" "${bare_words[@]}" -DCYCLES=36000 -DLIFE_CYCLES=675 "$top/examples/bare_metal/main.c" "$bare/lib/libetcs_unit_no_malloc.a" -o "$made/hour.elf" &&
    board "$made/hour.elf" >"$made/said" && tail -n 2 "$made/said" && "$python" "$here/examples.py" hour "$made/said" || { tail -n 3 "$made/said"; fails "an hour on the board"; }
for fault in hangs crashes overflows; do
    "$cross" -std=c11 -O2 "${strict[@]}" "${bare_words[@]}" "-D${fault^^}" -include "$here/board_faults.h" "$top/examples/bare_metal/main.c" "$bare/lib/libetcs_unit_no_malloc.a" \
        -o "$made/example.elf" || fails "the example for a bare board doesn't compile with a fault"
    board "$made/example.elf" >"$made/said"
    "$python" "$here/examples.py" "$fault" "$made/said" || { cat "$made/said"; fails "the example on the board $fault, and doesn't brake"; }
done
gcc -std=c99 -O2 "${strict[@]}" -I "$here_prefix/include" "$top/examples/cortex_a/cyclic.c" "$here_prefix/lib/libetcs_unit_no_malloc.a" -pthread -o "$made/cyclic" &&
    "$cross" -std=c99 -O2 "${strict[@]}" -static -I "$arm/include" "$top/examples/cortex_a/cyclic.c" "$arm/lib/libetcs_unit_no_malloc.a" -pthread -o "$made/cyclic.aarch64" ||
    fails "the cyclic task doesn't compile"
# (on a machine that has other work a cycle may be late by any time)
"$made/cyclic" "$made/image" 20 5 600000 >"$made/said.here" 2>/dev/null || fails "the cyclic task"
qemu-aarch64 "$made/cyclic.aarch64" "$made/image.aarch64" 20 5 600000 >"$made/said.aarch64" 2>/dev/null || fails "the cyclic task on aarch64"
for one in here aarch64; do "$python" "$here/examples.py" cyclic "$made/said.$one" || { cat "$made/said.$one"; fails "the cyclic task says other things ($one)"; }; done
cmp "$made/image" "$made/image.aarch64" || fails "the cyclic tasks leave other bytes"
"$made/cyclic" "$made/image.late" 20 5 0 >"$made/said" 2>/dev/null && fails "a cycle that is late ends with status 0"
grep -qx '1 cycles, event 2: brake 2; LATE; fed 1 times' "$made/said" ||
    { cat "$made/said"; fails "a cycle that is late doesn't brake"; }
valgrind -q --tool=drd --error-exitcode=9 "$made/cyclic" "$made/image.drd" 10 5 600000 >/dev/null 2>"$made/said" || { cat "$made/said"; fails "the unit isn't handed from task to task in order"; }

# ---- find_package, pkg-config and Meson

mkdir "$made/project"
cp "$top/examples/embedding/why.c" "$made/project/why.c"
cat >"$made/project/CMakeLists.txt" <<'CMAKE'
cmake_minimum_required(VERSION 3.16)
project(own C)
find_package(etcs_unit 0.1 REQUIRED)
foreach(kind etcs_unit no_malloc shared)
    add_executable(why_${kind} why.c)
    target_link_libraries(why_${kind} PRIVATE etcs_unit::${kind})
endforeach()
CMAKE
packages=0
for one in "$here_prefix gcc" "$arm $cross"; do
    read -r prefix compiler <<<"$one"
    rm -rf "$made/build"
    if cmake -S "$made/project" -B "$made/build" -DCMAKE_PREFIX_PATH="$prefix" -DCMAKE_C_COMPILER="$compiler" \
        $([ "$compiler" = gcc ] || echo -DCMAKE_SYSTEM_NAME=Linux -DCMAKE_SYSTEM_PROCESSOR=aarch64) >"$made/said" 2>&1 && cmake --build "$made/build" >>"$made/said" 2>&1; then
        packages=$((packages + $(find "$made/build" -maxdepth 1 -name 'why_*' | wc -l)))
    else
        cat "$made/said"
    fi
done
sed -i 's/etcs_unit 0.1/etcs_unit 9.0/' "$made/project/CMakeLists.txt"
rm -rf "$made/build"
! cmake -S "$made/project" -B "$made/build" -DCMAKE_PREFIX_PATH="$here_prefix" >/dev/null 2>&1 || fails "find_package takes a version that isn't there"
for name in etcs_unit etcs_unit_no_malloc; do
    # shellcheck disable=SC2046
    gcc "$made/project/why.c" $(PKG_CONFIG_PATH=$here_prefix/lib/pkgconfig pkg-config --cflags --libs "$name") -o "$made/by_$name" && packages=$((packages + 1))
done
export PKG_CONFIG_PATH=$here_prefix/lib/pkgconfig
{ meson setup "$made/meson" "$top/examples/embedding" && meson compile -C "$made/meson"; } >"$made/said" 2>&1 || cat "$made/said"
packages=$((packages + $(find "$made/meson" -maxdepth 1 -type f -perm -u+x | wc -l)))
proof=$(pkg-config --variable=proof etcs_unit)
[ "$proof" = proved ] || grep -q "this library is for no train: its proof is $proof" "$made/said" || fails "Meson doesn't warn of a library that isn't proved"
echo "programs by find_package, pkg-config and Meson: $packages"
[ "$packages" -eq 14 ] || fails "there are 14 programs to be made by find_package, pkg-config and Meson"
times >"$made/times"
echo "targets: processor time in programs and in the system $(tail -n 1 "$made/times")"
echo "targets: $([ $status -eq 0 ] && echo "no failures" || echo "failures, see above")"
exit $status
