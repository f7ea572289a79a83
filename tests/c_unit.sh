#!/bin/bash
# Test the unit from C, C++, Python, Rust and Ada, all built from the folder that tools/library makes: each header by itself, the names that
# the library exports, sizes and offsets, wrong calls, files, starts of slots, two units at once, the
# executive, media that lose power, the examples, images compared with `etcs journal`, random lives compared with `etcs run`, instructions
# compared with kept counts and bounds, the stack of each call compared with the headers, a disk that is full, memory that is refused, and the commands of the pages for makers. Needs gcc, g++, valgrind, cargo, gnat and Debian's Python; clang
# is used where it is installed.
#
#     tests/c_unit.sh [PREFIX [LIVES]]    test the library below PREFIX (default: build and install it first) with LIVES lives (default: 400);
#                                       $ETCS and $ETCS_LAB name other programs than those of the full check
export PYTHONDONTWRITEBYTECODE=1
top=$(cd "$(dirname "$(readlink -f -- "$0")")/.." && pwd) || exit 1
python=/usr/bin/python3 # Debian's packages belong to this one
made=$(mktemp -d) || exit 1
trap 'rm -rf "$made"' EXIT
export ETCS=${ETCS:-$top/crates/etcs/out/etcs}
lab=${ETCS_LAB:-$top/crates/etcs_lab/out/etcs_lab}
status=0

fails() { echo "$*"; status=1; }

# counted WHAT NUMBER LEAST: how many were tried
counted() {
    echo "$1: $2"
    [ "$2" -ge "$3" ] || fails "$1: there are $3 to be tried"
}

for program in "$ETCS" "$lab"; do
    [ -x "$program" ] || { echo "there is no program $program: rt ci makes it"; exit 1; }
done
if [ $# -gt 0 ]; then
    prefix=$(cd "$1" && pwd) || exit 1
else
    prefix=$made/prefix
    "$top/tools/library" "$prefix" >"$made/said" 2>&1 || { cat "$made/said"; echo "the unit: the library isn't built"; exit 1; }
fi
include=$prefix/include
archive=$prefix/lib/libetcs_unit.a
shared=$prefix/lib/libetcs_unit.so
export GAKNIFUR_ETCS_UNIT=$shared LD_LIBRARY_PATH=$prefix/lib
"$top/tests/c_unit/telegrams.sh" "$archive" || status=1

compilers=(gcc)
! command -v clang >/dev/null || compilers+=(clang)
strict=(-Wall -Wextra -Werror -Wconversion -Wsign-conversion -pedantic)
# (static, since lives.py loads a library of its own first)
sanitizers=(-fsanitize=address,undefined -fno-sanitize-recover=all -static-libasan)

# ---- the headers alone, in each language

printf '#include "etcs.h"\n#include "etcs_unit.h"\n#include "etcs_image.h"\n#include "etcs_guard.h"\n' >"$made/all.c"
tried=0
for header in etcs etcs_unit etcs_file etcs_image etcs_guard etcs_memory etcs_executive etcs_nor; do
    echo "#include \"$header.h\"" >"$made/alone"
    echo "typedef int something;" >>"$made/alone"
    for words in "c -std=c99" "c -std=c11" "c -std=c17" "c++ -std=c++17" "c++ -std=c++20"; do
        for compiler in "${compilers[@]}"; do
            # shellcheck disable=SC2086
            "$compiler" -x $words "${strict[@]}" -I "$include" -fsyntax-only "$made/alone" || fails "$compiler $words: $header.h doesn't compile alone"
            tried=$((tried + 1))
        done
    done
done
counted "headers alone" $tried 40
# a dropped answer that may mean the brake is a warning
dropped=$top/tests/c_unit/dropped.c
sed -n '/from here on/,/up to here/=' "$dropped" | sed '1d;$d' >"$made/drops"
for words in "gcc -x c -std=c99" "gcc -x c -std=c11" "g++ -x c++ -std=c++17" "g++ -x c++ -std=c++11" "clang -x c -std=c99"; do
    command -v "${words%% *}" >/dev/null || continue
    # shellcheck disable=SC2086
    LC_ALL=C $words -Wunused-result -I "$include" -c "$dropped" -o /dev/null 2>&1 | sed -n 's/^.*dropped\.c:\([0-9]*\):.* warning: ignoring return value.*/\1/p' >"$made/warned"
    diff "$made/drops" "$made/warned" >"$made/said" || { cat "$made/said"; fails "$words doesn't warn just of each answer that may mean the brake"; }
done
counted "answers that aren't dropped" "$(wc -l <"$made/drops")" 33
# so do they for a machine of 32 bits, where a length of C has 32 too (etcs_file.h is for POSIX, and wants its headers)
cat "$made/all.c" - <<<$'#include "etcs_executive.h"\n#include "etcs_nor.h"' >"$made/narrow.c"
gcc -m32 -std=c99 -ffreestanding "${strict[@]}" -I "$include" -fsyntax-only "$made/narrow.c" || fails "the headers don't compile for a machine of 32 bits"

# ---- the names that the library shows are those that the headers declare or define, as gcc reads them

gcc -std=c99 -I "$include" -aux-info "$made/declared" -c "$made/all.c" -o "$made/all.o" || fails "the headers don't compile"
named() { sed -n 's@^/\* [^ ]*/etcs[a-z_]*\.h:[0-9]*:N[CF] \*/ \(extern\|static\) .*[ *]\(etcs_[a-z_]*\) (.*@\2@p' "$made/declared" | LC_ALL=C sort -u; }
named >"$made/names"
nm -D --defined-only "$shared" | sed 's/.* //' | LC_ALL=C sort >"$made/shown"
nm --defined-only --extern-only "$archive" | sed -n 's/^[0-9a-f]* . //p' | LC_ALL=C sort >"$made/in_archive"
diff "$made/names" "$made/shown" || fails "the shared library shows other names than the headers declare"
diff "$made/names" "$made/in_archive" || fails "the static library shows other names than the headers declare"
static=$prefix/lib/libetcs_unit_no_malloc.a
echo '#include "etcs_memory.h"' >>"$made/all.c"
gcc -std=c99 -I "$include" -aux-info "$made/declared" -c "$made/all.c" -o "$made/all.o" || fails "the headers don't compile"
named >"$made/names"
nm --defined-only --extern-only "$static" | sed -n 's/^[0-9a-f]* . //p' | LC_ALL=C sort >"$made/in_archive"
diff "$made/names" "$made/in_archive" || fails "the library without malloc shows other names than the headers declare"
# (Ada has one name for one thing, also where only the case of a letter differs)
sed -n -e 's/^enum \(etcs_[a-z_0-9]*\) {.*/\1/p' -e 's/^} \(etcs_[a-z_0-9]*\);$/\1/p' "$include"/etcs*.h | LC_ALL=C sort >"$made/types"
[ "$(wc -l <"$made/types")" -ge 45 ] || fails "few types are found in the headers: $(wc -l <"$made/types")"
twice=$(LC_ALL=C comm -12 "$made/types" "$made/names" | tr '\n' ' ')
[ -z "$twice" ] || fails "a type and a call have one name: $twice"
asked=$(nm -u "$static" | sed -n 's/^ *U //p' | LC_ALL=C sort -u | tr '\n' ' ')
[ "$asked" = "memcpy memmove memset " ] || fails "the library without malloc asks for $asked"
counted "names of the library" "$(wc -l <"$made/shown")" 117
"$python" "$top/tests/c_unit/symbols.py" "$shared" $(cat "$made/shown") || fails "the calls as symbols"
"$python" "$top/tests/c_unit/names.py" "$shared" $(cat "$made/shown") || fails "names of numbers"

# ---- what a build says of itself; over a named archive that no build left it is unknown whether that is proved

case $(sed -n 's/^Description: .*, for C\(.*\)$/\1/p' "$prefix/lib/pkgconfig/etcs_unit.pc") in '') proof=proved ;; ', unproved') proof=unproved ;; *) proof=unknown ;; esac
"$python" "$top/tests/c_unit/build.py" "$prefix" "$proof" || status=1
raw=${ETCS_UNIT_ARCHIVE:-$top/crates/etcs_unit/out/libetcs_unit.a}
cp "$raw" "$made/named.a"
ETCS_UNIT_ARCHIVE=$made/named.a "$top/tools/library" "$made/named" >"$made/said" 2>&1 && grep -q '^installed etcs_unit .*, proof unknown, interface' "$made/said" ||
    { cat "$made/said"; fails "a library over an archive that nobody knows passes as proved"; }
"$python" "$top/tests/c_unit/build.py" "$made/named" unknown unknown || status=1

needed=$(objdump -p "$shared" | sed -n 's/^ *NEEDED *//p' | tr '\n' ' ')
soname=$(objdump -p "$shared" | sed -n 's/^ *SONAME *//p')
[ "$needed" = "libc.so.6 " ] || fails "the shared library needs $needed"
[ "$soname" = "libetcs_unit.so.$(sed -n 's/^#define ETCS_UNIT_ABI //p' "$include/etcs_unit.h")" ] || fails "the shared library's name is $soname"
[ -r "$prefix/lib/$soname" ] || fails "there is no $soname"

# ---- the programs: in C by each compiler, and as C++; with the static library and with the shared one

# build NAME FILE COMPILER WORDS..
build() {
    "$3" "${@:4}" -g "${strict[@]}" -I "$include" -I "$top/tests/c_unit" "$2" -x none "${link[@]}" -pthread -o "$made/$1" && built=$((built + 1)) ||
        fails "$1 doesn't compile ($3 ${*:4})"
}

built=0
link=("$archive")
"$python" "$top/tests/c_unit/layout.py" --program >"$made/places.c" || fails "layout.py prints no program"
for name in layout misuse sectors media files two life reading starts listing again explained driver_info preview telegrams guard executive; do
    source=$top/tests/c_unit/$name.c
    [ "$name" != layout ] || source=$made/places.c
    for compiler in "${compilers[@]}"; do build "$name.$compiler" "$source" "$compiler" -x c -std=c99 -O2; done
    build "$name.cpp" "$source" g++ -x c++ -std=c++17 -O2 -Wno-missing-field-initializers
done
for name in misuse sectors media files two life reading starts listing again explained driver_info preview telegrams guard executive; do
    build "$name.checked" "$top/tests/c_unit/$name.c" gcc -x c -std=c99 -O1 "${sanitizers[@]}"
done
for name in brake flash why; do
    for compiler in "${compilers[@]}"; do build "$name.$compiler" "$top/examples/embedding/$name.c" "$compiler" -x c -std=c99 -O2; done
    build "$name.checked" "$top/examples/embedding/$name.c" gcc -x c -std=c99 -O1 "${sanitizers[@]}"
done
build brake.cpp "$top/examples/embedding/brake.cpp" g++ -x c++ -std=c++17 -O2
for name in brake flash why; do
    g++ -x c++ -std=c++17 "${strict[@]}" -Wno-missing-field-initializers -I "$include" -fsyntax-only "$top/examples/embedding/$name.c" ||
        fails "examples/embedding/$name.c isn't C++ too"
done
for compiler in "${compilers[@]}"; do build "stops.$compiler" "$top/examples/embedding/guard.c" "$compiler" -x c -std=c99 -O2; done
build stops.cpp "$top/examples/embedding/guard.cpp" g++ -x c++ -std=c++17 -O2
link=("$archive" -Wl,--wrap=malloc,--wrap=realloc,--wrap=free)
build refused.gcc "$top/tests/c_unit/refused.c" gcc -x c -std=c99 -O2
build refused.checked "$top/tests/c_unit/refused.c" gcc -x c -std=c99 -O1 "${sanitizers[@]}"
link=(-L "$prefix/lib" -letcs_unit)
for name in misuse two reading starts; do build "$name.shared" "$top/tests/c_unit/$name.c" gcc -x c -std=c99 -O2; done
ETCS_UNIT_LIB=$prefix/lib RUSTFLAGS='-D warnings' cargo build --quiet --offline --locked --manifest-path "$top/examples/embedding/rust/Cargo.toml" --target-dir "$made/rust" ||
    fails "examples/embedding/rust doesn't compile"
ETCS_UNIT_LIB=$prefix/lib RUSTFLAGS='-D warnings' cargo test --quiet --offline --locked --manifest-path "$top/c/rust/etcs-unit/Cargo.toml" --target-dir "$made/rust" --test refusals --test images \
    >"$made/said" 2>&1 && grep -q '^test result: ok. 5 passed' "$made/said" && grep -q '^test result: ok. 3 passed' "$made/said" ||
    { cat "$made/said"; fails "the tests of c/rust/etcs-unit: failures, or other than 5 and 3"; }
mkdir "$made/ada"
"$top/tools/dev/bindings" || fails "tools/dev/bindings fails"
for one in "$top"/examples/embedding/ada/{brake,read_image}.adb "$top"/tests/c_unit/{limits,image_limits}.adb; do
    name=$(basename "${one%b}a")
    gnatmake -q -gnat2012 -gnata -gnatwa -gnatwe -I"$top/c/ada" -I"$top/examples/embedding/ada" -D "$made/ada" "$one" -o "$made/$name" -largs "$archive" && built=$((built + 1)) ||
        fails "$(basename "$one") doesn't compile"
done
for name in brake guard read_image; do cp "$made/rust/debug/$name" "$made/${name/guard/stops}.rs" && built=$((built + 1)); done
counted "programs built" $built 72

# ---- what they answer

runs=0
# runs_well PROGRAM WORDS..: it ends with 0; its last line is shown
runs_well() {
    runs=$((runs + 1))
    "$@" >"$made/said" 2>&1 || { cat "$made/said"; fails "$(basename "$1") ends with another status than 0"; }
}

"$python" "$top/tests/c_unit/layout.py" "$made"/layout.* || fails "sizes and places differ"
for program in "$made"/misuse.* "$made"/sectors.* "$made"/two.* "$made"/reading.* "$made"/starts.* "$made"/telegrams.* "$made"/guard.* "$made"/executive.*; do runs_well "$program"; done
for program in "$made"/files.*; do
    rm -rf "$made/room"
    mkdir "$made/room"
    runs_well "$program" "$made/room"
done
runs_well "$made/media.gcc"
for program in "$made"/media.*; do runs_well "$program" 37; done
runs_well "$made/limits.ada" 1
grep -q '^Ada: 23 tried, 0 of them wrong$' "$made/said" || { cat "$made/said"; fails "of what Ada refuses there are 23 to be tried"; }
runs_well "$made/image_limits.ada"
grep -q '^Ada, images: 21 tried, 0 of them wrong$' "$made/said" || { cat "$made/said"; fails "of images in Ada there are 21 to be tried"; }
for program in "$made"/flash.*; do runs_well "$program"; done
mv "$made/said" "$made/flash"
for program in misuse.gcc sectors.gcc "media.gcc 2003" two.gcc reading.gcc starts.gcc telegrams.gcc guard.gcc executive.gcc "files.gcc $made/room" "brake.gcc $made/image.valgrind" flash.gcc "why.gcc $made/image.valgrind" \
    "again.gcc $made/image.valgrind why 7"; do
    rm -rf "$made/room"
    mkdir "$made/room"
    # shellcheck disable=SC2086
    runs_well valgrind -q --error-exitcode=9 --leak-check=full --errors-for-leak-kinds=all --show-leak-kinds=all $(echo "$made/$program")
done
counted "runs of them, 14 of them under valgrind" $runs 51

# ---- the examples: the same train in each language, over the same file

trains=0
for program in "$made"/brake.*; do
    name=$(basename "$program")
    "$program" "$made/image.$name" >"$made/lines.$name" || fails "$name ends with another status than 0"
done
PYTHONPATH=$top/python "$python" "$top/examples/embedding/use.py" "$made/image.py" >"$made/lines.py" || fails "use.py ends with another status than 0"
for lines in "$made"/lines.*; do
    "$python" "$top/tests/c_unit/brake_lines.py" "$lines" >"$made/said" || { cat "$made/said"; fails "$(basename "$lines") has other lines"; }
    trains=$((trains + 1))
done
for image in "$made"/image.*; do cmp "$image" "$made/image.brake.gcc" || fails "the journals of the examples differ"; done
counted "trains that brake" $trains 6

# ---- a program that is started again goes on with its journal: each example adds a life, and that of the page changes nothing

twice=0
build display.gcc "$top/examples/embedding/display.c" gcc -x c -std=c99 -O2
sed -n '/^```c$/,/^```$/{/^```/d;p}' "$top/docs/howto/c-static-memory.md" >"$made/buffer.c"
link=("$static")
build buffer.gcc "$made/buffer.c" gcc -x c -std=c99 -O2
for program in brake.gcc brake.cpp display.gcc use.py buffer.gcc; do
    cp "$made/image.brake.gcc" "$made/twice"
    case $program in
        use.py) PYTHONPATH=$top/python "$python" "$top/examples/embedding/use.py" "$made/twice" ;;
        *) "$made/$program" "$made/twice" ;;
    esac >"$made/said" || { cat "$made/said"; fails "$program on a journal ends with another status than 0"; }
    if [ $program = buffer.gcc ]; then cmp "$made/image.brake.gcc" "$made/twice"; else
        PYTHONPATH=$top/python "$python" -c 'import sys; from gaknifur.unit import journal; sys.exit([*journal(sys.argv[1])][-1].life != 2)' "$made/twice"
    fi && twice=$((twice + 1)) || fails "$program loses its journal"
done
counted "programs that go on with their journal" $twice 5

# ---- the guard of the examples: by packet 137 it stops in Staff Responsible, and in no other mode (SUBSET-026, 4.6.3)

guards=0
printf '%s\n' 'FS: none' 'OS: none' 'SR: emergency' 'SH: none' 'UN: none' 'packet 137: trip, 4.6.3, sure' >"$made/stops"
for program in "$made"/stops.* "$python $top/examples/embedding/guard.py"; do
    # shellcheck disable=SC2086
    PYTHONPATH=$top/python $program >"$made/said" 2>&1 && diff "$made/stops" "$made/said" && guards=$((guards + 1)) || fails "${program##*/} has other lines"
done
counted "guards of the examples" $guards 4

# ---- a disk that another file fills

"$python" "$top/tests/c_unit/full_disk.py" "$made/life.gcc" || status=1

# ---- images: what is listed by the calls is what the program lists

"$python" "$top/tests/c_unit/images.py" "$made/listing.gcc" "$made/listing.checked" "$made"/image.* || status=1

# ---- the same in Rust and Ada, with the causes of brake commands: compared with etcs_lab and the plain program

"$python" "$top/tests/c_unit/bound_images.py" "$lab" "$made"/read_image.* || status=1

# ---- lives that are run again: compared with the plain programs and etcs_lab; and memory that is refused

gcc -std=gnu11 -O2 -fPIC -shared "$top/tests/hostile/refuse.c" -o "$made/refuse.so" || fails "tests/hostile/refuse.c doesn't compile"
"$python" "$top/tests/c_unit/again.py" "$lab" "$made/refuse.so" "$made"/again.gcc "$made"/again.checked "$made"/again.cpp || status=1

# ---- why an output is what it is, of a unit that runs: compared with the plain program, and along with the image

"$python" "$top/tests/c_unit/explained.py" "$made"/explained.gcc "$made"/explained.checked "$made"/explained.cpp || status=1

# ---- what the driver entered, and which actions would be accepted: compared with the plain program

"$python" "$top/tests/c_unit/driver_info.py" "$made"/driver_info.gcc "$made"/driver_info.checked "$made"/driver_info.cpp || status=1

# ---- what the next input would do: compared with the plain program

"$python" "$top/tests/c_unit/preview.py" "$made"/preview.gcc "$made"/preview.checked "$made"/preview.cpp || status=1

# ---- lives along with the program

"$python" "$top/tests/c_unit/lives.py" "$made/life.gcc" "${2:-400}" || status=1
"$python" "$top/tests/c_unit/lives.py" "$made/life.checked" "$((${2:-400} / 20))" 7 || status=1

# ---- instructions: rows along with kept ones, and readings before long tracks along with their bounds

gcc -std=gnu11 -O2 -Wl,-z,now,--wrap=malloc,--wrap=realloc,--wrap=free -I "$include" "$top/tests/c_unit/counts.c" "$archive" -o "$made/counts" ||
    fails "tests/c_unit/counts.c doesn't compile"
"$python" "$top/tests/c_unit/counts.py" "$made/counts" || status=1

# ---- the stack of each call, compared with the numbers of the headers

mkdir "$made/outer"
for header in etcs_file etcs_executive etcs_nor; do
    sed 's/^static inline //' "$include/$header.h" >"$made/outer/$header.h"
    echo "#include \"$header.h\"" >>"$made/outer.c"
done
echo 'int main(void) { return 0; }' >>"$made/outer.c"
gcc -std=c99 -O2 -I "$made/outer" -I "$include" "$made/outer.c" "$archive" -o "$made/outer.gcc" || fails "the calls of the headers as functions don't compile"
"$python" "$top/tests/c_unit/stacks.py" "$made/counts" "$made/outer.gcc" || status=1

# ---- memory that is refused

others=$(nm -u "$archive" | grep -Ew 'calloc|aligned_alloc|posix_memalign|memalign|mmap|sbrk' | tr -s ' \n' ' ')
[ -z "$others" ] || fails "the library takes memory in a way that no test refuses:$others"

# ---- memory of the maker's own: the allocator compared with a plain model, what a unit needs at most, and refusals by the buffer

link=("$archive")
for name in pieces string_calls; do
    words=(-I "$top/c/platform" -fno-builtin)
    [ "$name" != pieces ] || words+=("$top/c/platform/pieces.c")
    build "$name.gcc" "$top/tests/c_unit/$name.c" gcc -x c -std=c11 -O2 "${words[@]}"
    build "$name.checked" "$top/tests/c_unit/$name.c" gcc -x c -std=c11 -O1 "${sanitizers[@]}" "${words[@]}"
done
runs_well "$made/pieces.gcc" 1000 7
runs_well "$made/pieces.checked"
runs_well "$made/string_calls.gcc"
runs_well "$made/string_calls.checked"
link=("$static")
build capped.gcc "$top/tests/c_unit/capped.c" gcc -x c -std=c99 -O2
"$python" "$top/tests/c_unit/capped.py" "$made/capped.gcc" || status=1
build bounded.gcc "$top/tests/c_unit/bounded.c" gcc -x c -std=c99 -O2
"$python" "$top/tests/c_unit/bounded_lives.py" "$made/bounded.gcc" || status=1
"$python" "$top/tests/c_unit/bounded_lives.py" "$made/bounded.gcc" hours 24 || status=1

# ---- which sectors a unit reads, and that its memory is the same over any ring

build sized.buffer "$top/tests/c_unit/sized.c" gcc -x c -std=c99 -O2 -DOWN_MEMORY
link=("$archive")
build sized.malloc "$top/tests/c_unit/sized.c" gcc -x c -std=c99 -O2
"$python" "$top/tests/c_unit/sized.py" "$made/sized.malloc" "$made/sized.buffer" || status=1
# (the archive as the toolchain built it, which asks for memory by three names)
link=("$raw" -Wl,--wrap=rattle_alloc,--wrap=rattle_realloc,--wrap=rattle_dealloc)
build refused.pieces "$top/tests/c_unit/refused.c" gcc -x c -std=c99 -O2 -DOVER_PIECES -I "$top/c/platform" "$top/c/platform/pieces.c" "$top/c/platform/heap_of_pieces.c"

# ---- refused memory, by malloc and by the buffer

for program in "$made"/refused.*; do "$python" "$top/tests/c_unit/refused_lives.py" "$program" || status=1; done

# ---- the package in Python, and the pages

(cd "$top/python" && "$python" -m unittest -q tests.test_unit tests.test_guard) >"$made/said" 2>&1 && grep -q '^Ran 31 tests' "$made/said" && ! grep -q skipped "$made/said" ||
    { cat "$made/said"; fails "python/tests/test_{unit,guard}.py: failures, or other than 31 tests"; }
"$python" "$top/tests/c_unit/integration.py" || status=1
ETCS_LAB=$lab ETCS_UNIT_ARCHIVE=$raw "$python" "$top/tests/documents.py" start/c howto/c-loop howto/c-flash \
    howto/c-static-memory howto/c-display howto/c-guard howto/c-journal howto/languages || status=1
echo "the unit: $([ $status -eq 0 ] && echo "no failures" || echo "failures, see above")"
exit $status
