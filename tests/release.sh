#!/bin/bash
# Test a release of this folder. Made twice, in two folders with other names and times, it is the same byte for byte; tools/verify
# finds what is altered in it; and where its packages are unpacked, without the kit and these sources, the commands of README.md
# run, a report is made, the package is imported, and a program in C is built with the library.
#
#     tests/release.sh    on the programs and the library that the full check leaves; else on unproved programs, and the library that
#                         ETCS_UNIT_ARCHIVE names
self=$(readlink -f -- "$0" && echo .) || exit 1
top=${self%/*/*}
python=/usr/bin/python3
cd "$top" || exit 1
room=$(mktemp -d) || exit 1
trap 'rm -rf "$room"' EXIT
failed=0 tried=0
fails() { echo "tests/release.sh: $1"; failed=1; }

# ends STATUS NAME WANTED COMMAND..: a command that ends with this status, and whose output, on both streams, has this text
ends() {
    tried=$((tried + 1))
    "${@:4}" >"$room/printed" 2>&1 </dev/null
    local got=$?
    [ $got = "$1" ] && { [ -z "$3" ] || grep -qF -e "$3" "$room/printed"; } || { fails "$2: status $got, and not $1 with \"$3\":"; head -n 20 "$room/printed"; }
}

# ---- two folders with this folder's files, of one commit, and with what was built of them
first=$room/first second="$room/the second"
mkdir "$first"
git ls-files -z --cached --others --exclude-standard | xargs -0 sh -c 'for one; do [ ! -e "$one" ] || printf "%s\0" "$one"; done' sh |
    tar --null --files-from=- -cf - | tar -C "$first" -xf -
export GIT_AUTHOR_DATE='2001-02-03T04:05:06Z' GIT_COMMITTER_DATE='2001-02-03T04:05:06Z' GIT_CONFIG_GLOBAL=/dev/null GIT_CONFIG_NOSYSTEM=1
git -C "$first" init -q && git -C "$first" add -A && git -C "$first" -c user.name=a -c user.email=b commit -qm "tried" || exit 1
git clone -q "$first" "$second" && find "$second" -path '*/.git' -prune -o -exec touch -h -d '2011-12-13' {} + || exit 1
words=--unproved state="not proved: the program is not of a proved build"
if ./etcs --is-proved && ./etcs_lab --is-proved && [ -r crates/etcs_unit/out/libetcs_unit.a.sources ]; then words=--this-machine state="proved: the program is that of the release"; fi
for folder in "$first" "$second"; do
    for name in etcs etcs_lab etcs_unit; do
        mkdir -p "$folder/crates/$name/out"
        find "crates/$name/out" -maxdepth 1 -type f \( -name "$name" -o -name "$name.*" -o -name "lib$name.a*" \) -exec cp {} "$folder/crates/$name/out" \; 2>/dev/null
    done
done
ends 1 "no full check" "no full check passed on commit" "$first/tools/release" "$room/none"
commit=$(git -C "$first" rev-parse HEAD)
for folder in "$first" "$second"; do mkdir -p "$folder/out" && printf '%s\nthe kit\nran: all\n' "$commit" >"$folder/out/gate"; done
[ "$words" != --unproved ] || ends 1 "no proved program" "isn't the one that the full check proved" "$first/tools/release" "$room/none"
[ ! -e "$room/none" ] || fails "a refused release leaves a folder"
ssh-keygen -q -t ed25519 -N '' -C '' -f "$room/key" && printf 'maker %s\n' "$(cat "$room/key.pub")" >"$room/signers" || exit 1
"$first/tools/release" $words --key "$room/key" "$room/one" >"$room/said.1" 2>&1 &
"$second/tools/release" $words --key "$room/key" "$room/two" >"$room/said.2" 2>&1
wait
for number in 1 2; do grep -q '^made ' "$room/said.$number" || { fails "no release is made:"; cat "$room/said.$number"; exit 1; }; done
diff -rq "$room/one" "$room/two" || fails "two releases of one commit differ"
ends 1 "a folder that is there" "is there already, and stays as it is" "$first/tools/release" $words "$room/one"
echo more >>"$first/README.md"
ends 1 "a folder with changes" "uncommitted changes" "$first/tools/release" $words "$room/none"

# ---- what is altered is found, and the statements have each file
version=$(dpkg-deb -f "$room"/one/gaknifur_*.deb Version)
deb=gaknifur_${version}_amd64.deb
ends 0 "a release" "signature for maker" tools/verify --signers "$room/signers" "$room/one"
ends 0 "a release" "the signature isn't checked, since no signers are named" tools/verify "$room/one"
for alter in "printf x >>$deb" "rm $deb" "echo >more" "sed -i s/^./0/ SHA256SUMS" "rm SHA256SUMS.sig" "mkfifo pipe"; do
    rm -rf "$room/altered" && cp -r "$room/one" "$room/altered" && (cd "$room/altered" && eval "$alter") || fails "not altered: $alter"
    ends 4 "$alter" "tools/verify: " tools/verify --signers "$room/signers" "$room/altered"
done
while read -r digest name; do
    case $name in *.json) continue ;; esac
    for statement in provenance.json sbom.spdx.json; do grep -q "$digest" "$room/one/$statement" || fails "$statement doesn't have $name"; done
done <"$room/one/SHA256SUMS"

# ---- unpacked, without the kit and the sources (who may mount hides both)
root="$room/a root" lib="$room/a root/usr/lib/x86_64-linux-gnu" hides=()
for one in "$room"/one/*.deb; do dpkg-deb -x "$one" "$root" || fails "$one can't be unpacked"; done
ends 0 "apt-get" "Inst gaknifur " apt-get install --simulate "$room"/one/gaknifur_*.deb "$room"/one/libetcs-unit*.deb
mkdir "$room/work"
kit=$(dirname "$(rt doc)")
if unshare -m mount -t tmpfs none "$kit" 2>/dev/null; then
    hides=(unshare -m sh -c 'for one in "$1" "$2"; do mount -t tmpfs none "$one" || exit 1; done; shift 2; exec "$@"' sh "$kit" "$top")
fi
inside() { (cd "$room/work" && env -i "HOME=$room/work" "PATH=$root/usr/bin:/usr/bin:/bin" "PYTHONPATH=$root/usr/lib/python3/dist-packages" PYTHONDONTWRITEBYTECODE=1 "LD_LIBRARY_PATH=$lib" "${hides[@]}" "$@"); }
inside sh -c 'command -v rt' && fails "the kit is on the path"
site=$root/usr/share/doc/gaknifur/html
for one in "$site"/{index,search,docs/python,c/index,docs/howto/c-loop,out/docs/tables,out/docs/commands}.html "$root"/usr/share/man/man1/{etcs,etcs_lab,lab}.1.gz \
    "$root"/usr/share/{zsh/vendor-completions/_lab,fish/vendor_completions.d/lab.fish,gaknifur/c/rust/etcs-unit-sys/src/declared.rs}; do
    [ -s "$one" ] || fails "there is no $one"
done
! grep -rlE --include='*.html' --include='*.css' --include='*.js' 'src="(https?:)?//|<link [^>]*href="(https?:)?//|@import url\((/|http)|"/javascript/' "$site" || fails "these pages ask for files of other places"
ends 0 "etcs --version" "$state" inside etcs --version
ends 0 "etcs_lab --version" "etcs_lab $version, commit $commit" inside etcs_lab --version
for name in lab "$python -m gaknifur"; do ends 0 "$name --version" "lab $version, commit $commit" inside $name --version; done
ends 0 "etcs --example" "\$ etcs journal image" inside etcs --example trip
ends 0 "etcs format" "formatted 16 blocks" inside etcs format image 16
ends 0 "etcs run" "event 8 mode FS level 1 brake emergency limit 0 ind 64" inside etcs run "$root/usr/share/gaknifur/examples/trip/scenario.json" image
ends 0 "etcs journal" "block 2 event 8 odometer FS 1 emergency 64 0000271000003a98 at 30000 unc 2000 limit 0" inside etcs journal image
ends 0 "etcs_lab check" "the image is whole, and the kernel agrees with each event that is replayed" inside etcs_lab check image
ends 0 "lab report" "" inside lab report image report.html
grep -q 'generator" content="gaknifur lab"' "$room/work/report.html" || fails "lab report makes no report"
ends 0 "lab test" " passed" inside lab test "$root/usr/share/gaknifur/examples/suites" -k trip
ends 0 "import gaknifur" "agrees" inside "$python" -c 'import gaknifur; print(*{one.verdict.name.lower() for one in gaknifur.replay("image")})'
ends 2 "etcs --prove" "its repository proves" inside etcs --prove
completed='. "$1"; COMP_WORDS=(etcs_lab ""); COMP_CWORD=1; $(complete -p etcs_lab | sed "s/.*-F \([^ ]*\).*/\1/") etcs_lab; echo "${COMPREPLY[@]}"'
ends 0 "completion" " replay " inside bash -c "$completed" bash "$root/usr/share/bash-completion/completions/etcs_lab"
echo >>"$root/usr/lib/gaknifur/programs/etcs"
ends 0 "an altered program" "not proved: the program is not of a proved build" inside etcs --version

# ---- a program in C, by pkg-config; and the tarball, wherever it is unpacked
build='eval gcc -std=c99 -Wall -Werror $(pkg-config --cflags etcs_unit) "\"\$1\"" $(pkg-config --libs etcs_unit) -o brake'
ends 0 "a program in C" "" inside env "PKG_CONFIG_PATH=$lib/pkgconfig" sh -c "$build" sh "$root/usr/share/gaknifur/examples/embedding/brake.c"
ends 0 "a program in C" "the train stands after 77000 ms" inside ./brake image.c
ends 0 "its library" "libetcs_unit.so.$(sed -n 's/^#define ETCS_UNIT_ABI \([0-9]*\)$/\1/p' c/include/etcs_unit.h)" readelf -d "$room/work/brake"
mkdir "$room/elsewhere" && tar -C "$room/elsewhere" -xzf "$room/one/gaknifur-$version-x86_64-linux.tar.gz" || fails "the tarball can't be unpacked"
ends 0 "the tarball" "whole" env PATH=/usr/bin:/bin "$room/elsewhere/gaknifur-$version/bin/lab" check "$room/work/image"
[ "$tried" -ge 30 ] || fails "only $tried tries"
[ $failed -ne 0 ] || echo "a release: $tried tried, no failures"
exit $failed
