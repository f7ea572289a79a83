#!/bin/bash
# Test the library on machines that the toolchain doesn't compile for: with pointers of 32 bits, with the highest byte first, and
# by other compilers. The driver of tests/machines.sh targets executes its script over the proved library on x86-64, and over what
# tools/library makes from its module: for ARMv7, Cortex-M7 and Cortex-R52 (by qemu-user), for Cortex-M7 on a bare board (by
# qemu-system), and as C source on x86-64 by gcc and by clang, and on PowerPC (by qemu-user). Each answer, output and byte of the
# medium has to be the same, and so have the sizes and offsets of the structs.
#
#     tests/machines/narrow.sh [LIVES CALLS TELEGRAMS]    (default: 100 6000 2000; the long form is 400 20000 20000)
#
# Needs gcc, gcc-arm-none-eabi, gcc-arm-linux-gnueabihf, gcc-powerpc-linux-gnu, qemu-user, qemu-system-arm, wabt and
# python3-pycparser. $NARROW names a folder that has the libraries already, one folder for each. UNPROVED=yes makes them without
# proof.
export PYTHONDONTWRITEBYTECODE=1
top=$(cd "$(dirname "$(readlink -f -- "$0")")/../.." && pwd) || exit 1
kit=$(dirname "$(rt doc)") || exit 1
python=/usr/bin/python3
here=$top/tests/machines
made=$(mktemp -d) || exit 1
trap 'rm -rf "$made"' EXIT
status=0
lives=${1:-100} calls=${2:-6000} telegrams=${3:-2000}

fails() { echo "$*"; status=1; }

# side_by_side NAME COMMAND..: a command in the background, which may fail; ended NAME waits for those that run, and says what this one said
side_by_side() {
    while [ "$(jobs -rp | wc -l)" -ge 3 ]; do wait -n; done
    { "${@:2}" >"$made/$1.said" 2>&1; echo $? >"$made/$1.status"; } &
}
ended() { wait; [ "$(cat "$made/$1.status")" = 0 ] || { cat "$made/$1.said"; fails "$1 failed"; }; }

# ---- a module with a form that isn't known is refused

good='%v = load i64, ptr %p, align 8'
module() {
    printf 'target datalayout = "e"\ntarget triple = "x"\n@t = private unnamed_addr constant [4 x i8] c"\\00abc", align 1\ndefine internal void @f(ptr noundef %%p) #0 {\nstart:\n'
    printf '  %s\n' '%a = alloca ptr, align 8' 'store ptr %p, ptr %a, align 8' '%b = load { ptr, i64 }, ptr %a, align 8' '%c = ptrtoaddr ptr %p to i64' "$1" 'ret void'
    printf '}\n%s\nattributes #0 = { nounwind "target-cpu"="x86-64-v2" }\n' "$2"
}
layout='e-m:e-p:32:32-i64:64-n32-S64' refused=0
module "$good" | "$top/tools/dev/narrow" "$layout" armv7 >"$made/narrow" 2>"$made/said" || { cat "$made/said"; fails "a module of known forms is refused"; }
# All members of a pair, and the 8 bytes of a pointer.
[ "$(grep -c 'alloca i64\|store i64 %narrow\|load { i64, i64 }\|inttoptr i64 %narrow[.0-9]* to ptr\|insertvalue { ptr, i64 }\|ptrtoint ptr %p to i64' "$made/narrow")" = 8 ] || {
    cat "$made/narrow"; fails "a module of known forms becomes something else"; }
while IFS='|' read -r inside outside; do
    module "$inside" "$outside" | "$top/tools/dev/narrow" "$layout" armv7 >"$made/narrow" 2>"$made/said" && fails "a form that isn't known is taken: $inside$outside"
    [ -s "$made/narrow" ] && fails "a module that is refused is written: $inside$outside"
    grep -q "a form that isn't known" "$made/said" && refused=$((refused + 1)) || fails "the form that isn't known isn't reported: $inside$outside"
done <<'FORMS'
%v = alloca { ptr, i64 }, align 8|
%v = alloca [2 x ptr], align 8|
%v = getelementptr ptr, ptr %p, i64 1|
%v = getelementptr { ptr, i64 }, ptr %p, i64 0, i32 1|
%v = load <2 x i64>, ptr %p, align 16|
%v = load volatile i64, ptr %p, align 8|
%v = load { i8, [7 x i8] }, ptr %p, align 8|
%v = load { i8, i128 }, ptr %p, align 16|
%v = load atomic i64, ptr %p seq_cst, align 8|
store { ptr, [2 x i8] } %x, ptr %p, align 8|
%v = inttoptr i64 %x to ptr|
%v = fadd double %x, %y|
%v = bitcast i64 %x to double|
call void asm sideeffect "nop", ""()|
call void @g(ptr byval({ ptr, i64 }) %p)|
%v = atomicrmw add ptr %p, i64 1 seq_cst, align 8|
%v = cmpxchg ptr %p, i64 0, i64 1 seq_cst seq_cst, align 8|
FORMS
while IFS= read -r outside; do
    module "$good" "$outside" | "$top/tools/dev/narrow" "$layout" armv7 >"$made/narrow" 2>"$made/said" && fails "a form that isn't known is taken: $outside"
    refused=$((refused + 1))
done <<'FORMS'
@u = private constant { ptr, i64 } { ptr @t, i64 4 }, align 8
@u = private constant ptr @t, align 8
@u = thread_local global i64 0, align 8
%pair = type { ptr, i64 }
declare { ptr, i64 } @g(ptr)
define void @g(<2 x i64> %x) {
FORMS
for other in 'E-m:e-p:32:32-i64:64' 'e-m:e-p:32:32-f64:32:64' 'e-m:e-i64:64'; do
    module "$good" | "$top/tools/dev/narrow" "$other" armv7 >"$made/narrow" 2>/dev/null && fails "a layout that isn't for it is taken: $other"
    refused=$((refused + 1))
done
echo "modules that are refused: $refused"
[ $refused -eq 26 ] || fails "there are 26 modules to be refused"

# ---- the libraries

words=()
[ -z "$UNPROVED" ] || words+=(--unproved)
libraries=${NARROW:-$made}
built=(x86_64-linux-gnu armv7-none-eabi thumbv7em-none-eabi armv8r-none-eabi c)
if [ -z "$NARROW" ]; then
    # (the first one makes the module that the others take)
    for target in c x86_64-linux-gnu armv7-none-eabi thumbv7em-none-eabi armv8r-none-eabi; do
        if [ "$target" = c ]; then kind=(--c); else kind=(--target "$target"); fi
        side_by_side "$target" "$top/tools/library" "${words[@]}" "${kind[@]}" "$made/$target"
        [ "$target" != c ] || wait
    done
    for target in "${built[@]}"; do ended "$target"; tail -n 1 "$made/$target.said"; done
    [ $status -eq 0 ] || exit 1
fi

# ---- the driver, by each compiler

"$python" "$here/scripts.py" members >"$made/members.h" || fails "there are no members"
"$python" "$here/scripts.py" script "$lives" "$calls" "$telegrams" >"$made/script" || fails "there is no script"
"$python" "$top/tests/c_unit/layout.py" --program >"$made/places.c" || fails "layout.py prints no program"
strict=(-std=c99 -Wall -Wextra -Werror -Wconversion -Wsign-conversion -pedantic)

# over ARCHIVE.. -- COMPILER WORDS..: the driver, and a program that says sizes and places, over a library for 32 bits
arm() {
    local from=$libraries/$1
    arm-linux-gnueabihf-gcc "${strict[@]}" -O2 -static -DOWN_MEMORY -I "$made" -I "$from/include" -I "$here" "$here/driver.c" "$here/hosted.c" "$from/lib/libetcs_unit_no_malloc.a" \
        -Wl,--gc-sections -o "$made/driver.$1" && arm-linux-gnueabihf-gcc "${strict[@]}" -O2 -static -DOWN_MEMORY -I "$from/include" -I "$top/tests/c_unit" \
        "$top/tests/c_unit/executive.c" "$from/lib/libetcs_unit_no_malloc.a" -Wl,--gc-sections -o "$made/executive.$1" && arm-linux-gnueabihf-gcc "${strict[@]}" -static -I "$from/include" "$made/places.c" -o "$made/places.$1"
}
board() {
    local from=$libraries/thumbv7em-none-eabi
    arm-none-eabi-gcc "${strict[@]}" -std=c11 -O2 -mcpu=cortex-m7 -mthumb -mfloat-abi=soft -ffreestanding -nostdlib -static -Wl,--build-id=none,--gc-sections,-z,noexecstack \
        -Wl,--no-warn-rwx-segments -I "$made" -I "$from/include" -I "$here" -T "$here/m7.ld" "$here/driver.c" "$here/m7.c" "$from/lib/libetcs_unit_no_malloc.a" -lgcc -o "$made/m7.elf"
}
# least TARGET WORDS..: a program without a C library, which links all of the archive, since nothing is left out of it
least() {
    arm-none-eabi-gcc "${strict[@]}" -O2 "${@:2}" -mfloat-abi=soft -ffreestanding -nostdlib -static -I "$libraries/$1/include" "$here/least.c" \
        "$libraries/$1/lib/libetcs_unit_no_malloc.a" -lgcc -o "$made/least.$1"
}
# as_c NAME LINKER COMPILER WORDS..: the same over the C source
as_c() {
    local from=$libraries/c name=$1 file objects=()
    for file in etcs_wasm etcs_calls etcs_source; do
        # (what wabt writes isn't written for each warning)
        local warned=("${strict[@]}")
        [ $file != etcs_wasm ] || warned=(-std=c99)
        "${@:3}" "${warned[@]}" -O1 -I "$from/include" -isystem "$from/src" -c "$from/src/$file.c" -o "$made/$name.$file.o" || return 1
        objects+=("$made/$name.$file.o")
    done
    for file in "$here/driver.c" "$here/hosted.c" "$made/places.c" "$top/tests/c_unit/executive.c"; do
        "${@:3}" "${strict[@]}" -O1 -DOWN_MEMORY -DAS_SOURCE -I "$made" -I "$from/include" -I "$here" -I "$top/tests/c_unit" -c "$file" -o "$made/$name.$(basename "$file" .c).o" || return 1
    done
    "$2" -static "$made/$name.driver.o" "$made/$name.hosted.o" "${objects[@]}" -lm -o "$made/driver.$name" &&
        "$2" -static "$made/$name.executive.o" "${objects[@]}" -lm -o "$made/executive.$name" && "$2" -static "$made/$name.places.o" -o "$made/places.$name"
}
own=(-nostdinc -isystem "$(gcc -print-file-name=include)" -isystem /usr/include/x86_64-linux-gnu -isystem /usr/include)
side_by_side source_clang as_c source_clang gcc "$kit/toolchain/bin/clang" --target=x86_64-linux-gnu "${own[@]}"
side_by_side source_powerpc as_c source_powerpc powerpc-linux-gnu-gcc powerpc-linux-gnu-gcc
side_by_side source_gcc as_c source_gcc gcc gcc
for target in armv7-none-eabi thumbv7em-none-eabi armv8r-none-eabi; do side_by_side "driver_$target" arm "$target"; done
side_by_side board board
side_by_side least_armv7 least armv7-none-eabi -march=armv7-a
side_by_side least_thumbv7em least thumbv7em-none-eabi -mcpu=cortex-m7 -mthumb
side_by_side least_armv8r least armv8r-none-eabi -mcpu=cortex-r52
first=$libraries/x86_64-linux-gnu
gcc "${strict[@]}" -O2 -I "$made" -I "$first/include" -I "$here" "$here/driver.c" "$here/hosted.c" "$first/lib/libetcs_unit.a" -o "$made/driver.first" || fails "the driver doesn't compile"
"$made/driver.first" <"$made/script" >"$made/printed.x86_64" || fails "the driver ends with another status than 0"
for name in source_clang source_powerpc source_gcc driver_{armv7,thumbv7em,armv8r}-none-eabi board least_{armv7,thumbv7em,armv8r}; do ended $name; done
[ $status -eq 0 ] || exit 1

# ---- the same script everywhere

# runs NAME COMMAND..: carries out the script
runs() { "${@:2}" <"$made/script" >"$made/printed.$1"; }
side_by_side run_powerpc runs source_powerpc qemu-ppc "$made/driver.source_powerpc"
side_by_side run_m7 timeout 600 qemu-system-arm -M mps2-an500 -cpu cortex-m7 -semihosting-config enable=on,target=native -display none -monitor none \
    -serial "file:$made/printed.board_m7" -kernel "$made/m7.elf" -device loader,file="$made/script",addr=0x60D00000,force-raw=on
side_by_side run_armv7 runs armv7 qemu-arm -cpu cortex-a9 "$made/driver.armv7-none-eabi"
side_by_side run_thumbv7em runs thumbv7em qemu-arm -cpu cortex-a15 "$made/driver.thumbv7em-none-eabi"
side_by_side run_armv8r runs armv8r qemu-arm -cpu max "$made/driver.armv8r-none-eabi"
for name in source_gcc source_clang; do side_by_side run_$name runs $name "$made/driver.$name"; done
for name in run_{powerpc,m7,armv7,thumbv7em,armv8r,source_gcc,source_clang}; do ended $name; done
"$python" "$here/scripts.py" compare "$made/script" "$made"/printed.{x86_64,armv7,thumbv7em,armv8r,board_m7,source_gcc,source_clang,source_powerpc} || status=1
echo "narrow: $(wc -l <"$made/printed.x86_64") lines compared on each machine"

# ---- the executive

for one in "qemu-arm armv7-none-eabi" "qemu-ppc source_powerpc"; do
    read -r by name <<<"$one"
    "$by" "$made/executive.$name" >"$made/said" 2>&1 || { cat "$made/said"; fails "the executive ($name)"; }
done

# ---- sizes and places

for one in "armv7-none-eabi qemu-arm" "source_powerpc qemu-ppc"; do
    read -r name by <<<"$one"
    printf '#!/bin/bash\nexec %s %q\n' "$by" "$made/places.$name" >"$made/places" && chmod +x "$made/places"
    "$python" "$top/tests/c_unit/layout.py" "$made/places" || fails "sizes and places on $name"
done
times >"$made/times"
echo "narrow: processor time in programs and in the system $(tail -n 1 "$made/times")"
echo "narrow: $([ $status -eq 0 ] && echo "no failures" || echo "failures, see above")"
exit $status
