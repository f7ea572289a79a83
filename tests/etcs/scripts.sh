#!/bin/bash
# Test the scripts ./etcs and ./etcs_lab in a copy of the repository whose programs and compiler are stand-ins: which program they run, on which
# arguments, and which exit status they pass on; with the real etcs what they refuse; and that ./lab runs only its own modules.
#
#     tests/etcs/scripts.sh [ETCS]
self=$(readlink -f -- "$0" && echo .) || exit 1
here=${self%/*/*/*}
real=$(realpath "${1:-$here/crates/etcs/out/etcs}") && [ -x "$real" ] || { echo "tests/etcs/scripts.sh: there is no program etcs: rt ci makes it"; exit 1; }
room=$(mktemp -d) || exit 1
trap 'rm -rf "$room"' EXIT
failed=0 count=0
top="$room/a b
c'\"\$d:#%" work=$room/work
mkdir -p "$top"/crates/etcs/{src,out} "$top"/crates/etcs_lab/{src,out} "$top/examples/story" "$room/bin" "$room/kit/bin" "$work" "$room/elsewhere"
cp -r "$here/etcs" "$here/etcs_lab" "$here/tools" "$here/crates.txt" "$here/HANDLES" "$here/VERSION" "$top"
for name in etcs etcs_lab; do echo 'fn main() {}' >"$top/crates/$name/src/main.rt"; done
for tool in sh bash awk cat chmod cp cut find flock git grep head mkdir mktemp mv readlink rm sed sha256sum sort tr xargs; do ln -s "$(command -v $tool)" "$room/bin/$tool"; done
compiled=$top/crates/etcs/out/etcs.tried program=$top/crates/etcs/out/etcs
# The stand-in of the program prints its arguments, each in brackets. rt reports where the kit is, or builds the program; tools/dev/tried compiles it.
cat >"$room/program" <<'END'
#!/bin/sh
for word in "$@"; do printf '[%s]' "$word"; done
exit 6
END
cat >"$room/kit/rt" <<END
#!/bin/sh
case \$1 in doc) echo "$room/kit/first.md" ;; run) cp "$room/program" "out/\${PWD##*/}" ;; esac
END
cat >"$top/tools/dev/tried" <<END
#!/bin/sh
echo "\$3" >>"$room/compiled"
[ ! -e "$room/compiles_not" ] && cp "$room/program" "\$2"
END
printf '#!/bin/sh\nwhile [ "$1" != -o ]; do shift; done\ncp "$3" "$2"\n' >"$room/kit/bin/rattle-link"
printf '#!/bin/sh\nprintf "%%s," "$1" >>"%s"\n[ ! -e "%s" ]\n' "$room/settled" "$room/settles_not" >"$top/tools/settle"
chmod +x "$room/program" "$room/kit/rt" "$room/kit/bin/rattle-link"

# wants NAME PRINTED SAID STATUS SCRIPT ARGUMENT..: a run prints this, says on standard error something that matches (nothing: -), and ends so.
wants() {
    local name=$1 wanted=$2 text=$3 status=$4 printed got
    count=$((count + 1))
    printed=$(cd "$work" && CDPATH=$room/elsewhere PATH=$path "${@:5}" 2>"$room/said")
    got=$?
    [ "$printed" = "$wanted" ] && [ $got = "$status" ] && { if [ "$text" = - ]; then [ ! -s "$room/said" ]; else grep -q -- "$text" "$room/said"; fi; } && return
    echo "tests/etcs/scripts.sh: $name: status $got, printed \"$printed\", said \"$(cat "$room/said")\"; wanted status $status, \"$wanted\", \"$text\""
    failed=1
}

# ---- no program
path=$room/bin
for script in "$top/etcs" "$top/etcs_lab"; do
    wants "no toolchain" "" "isn't on the PATH" 3 "$script" journal image
    wants "no toolchain for a proof" "" "isn't on the PATH" 3 "$script" --prove
    wants "not proved" "" - 1 "$script" --is-proved
done
not_proved="etcs 1.2.3, commit unknown
not proved: there is no proved program of these sources"
echo 1.2.3 >"$top/VERSION"
wants "the version" "$not_proved" - 0 "$top/etcs" --version

# ---- unproved: compiled once for these sources, and run on the arguments as they are
path=$room/kit:$room/bin
touch "$room/compiles_not"
wants "sources that don't compile" "" "this run is unproved" 3 "$top/etcs" decode 90
rm "$room/compiles_not" "$room/compiled"
wants "the first run" "[decode][90]" "compiling it without proof, once" 6 "$top/etcs" decode 90
wants "arguments as they are" "[run][-x][--][scenario][ ][]" "this run is unproved" 6 "$top/etcs" run -x -- scenario " " ""
wants "its path" "$compiled" "this run is unproved" 0 "$top/etcs" --tried
wants "the version" "$not_proved" - 0 "$top/etcs" --version
echo '// more' >>"$top/crates/etcs/src/main.rt"
touch -d "2000-01-01" "$top/crates/etcs/src/main.rt"
wants "an altered source with an old time" "[decode][90]" "compiling it" 6 "$top/etcs" decode 90
echo '# more' >>"$compiled"
wants "another program" "[decode][90]" "this run is unproved" 6 "$top/etcs" decode 90
wants "the other script" "[why][image]" "compiling it" 6 "$top/etcs_lab" why image
[ "$(tr '\n' , <"$room/compiled")" = etcs,etcs,etcs,etcs_lab, ] || { echo "tests/etcs/scripts.sh: compiled: $(tr '\n' , <"$room/compiled")"; failed=1; }

# ---- proved: by the digests of the sources and of the program
path=$room/bin
digest=$("$top/tools/version" --sources)
cp "$room/program" "$program"
wants "a program without digests" "" "isn't on the PATH" 3 "$top/etcs" decode 90
cp "$compiled.sources" "$program.sources"
wants "the digests of the unproved one" "" - 1 "$top/etcs" --is-proved
wants "a wrong digest isn't noted" "" "Nothing was noted" 1 "$top/etcs" --note-proved "${digest%?}"
wants "a digest is noted" "" - 0 "$top/etcs" --note-proved "$digest"
wants "the proved program" "[journal][--][image]" - 6 "$top/etcs" journal -- image
wants "the version" "etcs 1.2.3, commit unknown
proved: the program is of these sources" - 0 "$top/etcs" --version
ln -s "$top/etcs" "$work/linked"
for script in ./linked "$work/linked"; do wants "a link" "[decode][90]" - 6 "$script" decode 90; done
echo '// more' >>"$top/crates/etcs/src/main.rt"
wants "an altered source" "" - 1 "$top/etcs" --is-proved
sed -i '$d' "$top/crates/etcs/src/main.rt"
wants "the source as it was" "" - 0 "$top/etcs" --is-proved
echo '# more' >>"$program"
wants "another program" "" - 1 "$top/etcs" --is-proved
path=$room/kit:$room/bin:/usr/bin:/bin
wants "a proof" "" - 0 "$top/etcs" --prove
wants "proved" "" - 0 "$top/etcs" --is-proved

# ---- the image of run and journal is settled before the program reads it
touch "$work/image" "$work/-image"
: >"$room/settled"
for words in "run scenario image" "journal -- -image" "decode image" "format image 16" "journal missing"; do wants "$words" "[${words// /][}]" - 6 "$top/etcs" $words; done
[ "$(cat "$room/settled")" = "image,-image," ] || { echo "tests/etcs/scripts.sh: settled: $(cat "$room/settled")"; failed=1; }
touch "$room/settles_not"
wants "an image that can't be settled" device "can't be synced" 3 "$top/etcs" journal image
rm "$room/settles_not"

# ---- the real program: what the script refuses, and what it says where the program answers `usage` or `device`
cp "$real" "$program" && "$top/etcs" --note-proved "$digest" || failed=1
name=$'a\\tb\033c'
printf 'a note' >"$work/$name"
wants "an empty file" "formatted 16 blocks 49664 bytes" - 0 "$top/etcs" format image 16
for words in "" "--"; do wants "content" device '^etcs: a\\tb?c: the file isn.t empty, so it wasn.t formatted. Nothing was changed.$' 3 "$top/etcs" format $words "$name" 16; done
[ "$(cat "$work/$name")" = "a note" ] || { echo "tests/etcs/scripts.sh: format changed a file that has content"; failed=1; }
wants "an image" device "wasn't formatted" 3 "$top/etcs" format image 16
wants "usage" usage "wrong arguments" 2 "$top/etcs" journal
wants "device" device "a file is missing" 3 "$top/etcs" journal nosuch
wants "refused" "refused hex" - 1 "$top/etcs" decode zz
wants "no such example" "" "no such example" 2 "$top/etcs" --example none

# ---- the version's commit is that of the repository itself, and nothing that its settings name is run
git -C "$room" init -q && git -C "$room" -c user.name=a -c user.email=b commit -q --allow-empty -m "around it" || failed=1
wants "a repository around it" "1.2.3, commit unknown" - 0 "$top/tools/version"
git -C "$top" init -q && git -C "$top" -c user.name=a -c user.email=b commit -q --allow-empty -m "its own" && git -C "$top" config core.fsmonitor "touch '$room/ran'; false" || failed=1
wants "its own" "1.2.3, commit $(git -C "$top" rev-parse --short HEAD), and changes" - 0 env "GIT_DIR=$room/.git" "$top/tools/version"
[ ! -e "$room/ran" ] || { echo "tests/etcs/scripts.sh: git ran what the settings name"; failed=1; }

# ---- ./lab runs nothing of the current folder, nor of PYTHONPATH
for name in click json yaml sitecustomize; do echo 'open("ran", "w")' >"$work/$name.py"; done
(cd "$work" && PYTHONPATH=$work "$here/lab" --version >"$room/said" 2>&1) || { echo "tests/etcs/scripts.sh: lab --version: $(cat "$room/said")"; failed=1; }
[ ! -e "$work/ran" ] || { echo "tests/etcs/scripts.sh: ./lab runs modules of the current folder"; failed=1; }
[ "$count" -ge 40 ] || { echo "tests/etcs/scripts.sh: only $count runs"; failed=1; }
exit $failed
