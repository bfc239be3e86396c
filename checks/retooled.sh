#!/usr/bin/env bash
# Names in the heads of linked images are changed: the bytes are those of a plain twin, and those of the first image when the name is
# changed back; refusals are the twin's, too, of images with a changed byte as well. LLVM's readers print the same of our image as of
# llvm-install-name-tool's. Programs with renamed libraries run on the emulated processor at eight slides, with the libraries at their new
# places. ld64.lld's images are refused, or changed. Words are another program and another linker to try. Where a package isn't installed,
# what asks for it is skipped.
top=$(cd "$(dirname "$0")/.." && pwd) || exit 1
folder=$(mktemp -d) || exit 1
trap 'rm -rf "$folder"' EXIT
cd "$top" || exit 1

source "$top/checks/installed.bash" || exit 1

retool=$(realpath -s "${1:-./retool}") link=$(realpath -s "${2:-./link}")
[ -x "$retool" ] && command -v python3 >/dev/null || {
    echo "retooled: SKIPPED, since there is no $retool or no python3"
    exit 0
}
export PYTHONDONTWRITEBYTECODE=1
programs=checks/emulated
stubs=("$programs/libSystem.tbd" "$programs/libc++.tbd")

# Links an image of a name by words, with room for longer names.
linked() {
    "$link" -headerpad_max_install_names -o "$folder/$1" "${@:2}" || fail "$1: the link ended with status $?"
    images+=("$folder/$1")
}

# Changes a name in an image of a name, by words, in place.
renamed() {
    "$retool" "${@:2}" "$folder/$1" "$folder/$1" || fail "$1: '${*:2}' ended with status $?"
}

# A program prints what a file holds, with libraries that are PATH=IMAGE.
wanted() {
    (IFS=$'\t' && echo "$*") >>"$folder/cases"
}

images=()
"$link" -o "$folder/hello" examples/hello/hello.o &&
    "$link" -o "$folder/greeting" examples/greeting/{main,greet}.o examples/libSystem.tbd &&
    "$link" -o "$folder/libgreet.dylib" -dylib -rpath /a -rpath /b examples/greeting/greet.o examples/libSystem.tbd ||
    fail "a link ended with status $?"
leaves=(examples/leaves/leaves.o examples/leaves/libSystem.tbd)
"$link" -o "$folder/leaves" "${leaves[@]}" && "$link" -headerpad_max_install_names -o "$folder/wide" "${leaves[@]}" ||
    fail "a link ended with status $?"
python3 checks/retooled.py rows "$retool" "$folder/leaves" "$folder/wide" || fail "a name that just fits, or doesn't"
linked libshapes.dylib -dylib -install_name @rpath/libshapes.dylib -exported_symbols_list examples/shapes/shapes.exports \
    examples/shapes/shapes.o
linked shapes -rpath @executable_path/lib -rpath /nowhere "$programs/shapes/main.o" "$folder/libshapes.dylib" "${stubs[@]}"
for name in throws threads starts; do
    linked "lib$name.dylib" -dylib -install_name "/lib/lib$name.dylib" "$programs/$name"/[!m]*.o "${stubs[@]}"
    linked "$name" "$programs/$name/main.o" "$folder/lib$name.dylib" "${stubs[@]}"
done
linked libbase.dylib -dylib -install_name @rpath/libbase.dylib "$programs/pair/base.o" "${stubs[@]}"
linked libcount.dylib -dylib -install_name @rpath/libcount.dylib -rpath @loader_path -exported_symbols_list "$programs/pair/count.exports" \
    "$programs/pair/count.o" "$folder/libbase.dylib" "${stubs[@]}"
linked pair -rpath /nowhere -rpath @executable_path/../lib "$programs/pair/main.o" "$folder"/lib{count,base}.dylib "${stubs[@]}"

images+=("$folder"/{hello,greeting,libgreet.dylib})
python3 checks/retooled.py plain "$retool" "${images[@]}" || fail "a name isn't changed as the twin does"
python3 checks/retooled.py changed "$retool" "$folder/greeting" || fail "an image with a changed byte is another one"
python3 checks/retooled.py large "$retool" || fail "an image of 200 MB"

if tool=$(command -v llvm-install-name-tool-19); then
    python3 checks/retooled.py tools "$retool" "$tool" llvm-{objdump,nm,readobj}-19 "${images[@]}" ||
        fail "LLVM's readers print something else"
else
    echo "retooled: llvm-install-name-tool is SKIPPED, since it isn't installed"
fi

if lld=$(command -v ld64.lld-19); then
    others=()
    for words in "hello examples/hello/hello.o" "greeting examples/greeting/main.o examples/greeting/greet.o examples/libSystem.tbd" \
        "thrown examples/thrown/thrown.o examples/libc++.tbd examples/libSystem.tbd" \
        "libshapes.dylib -dylib -install_name @rpath/libshapes.dylib examples/shapes/shapes.o"; do
        read -ra words <<<"$words"
        "$lld" -arch arm64 -platform_version macos 14.0 14.0 -adhoc_codesign -w -o "$folder/lld_${words[0]}" "${words[@]:1}" ||
            fail "ld64.lld ended with status $?"
        others+=("$folder/lld_${words[0]}")
    done
    python3 checks/retooled.py of-lld "$retool" "${others[@]}" || fail "an image of ld64.lld"
else
    echo "retooled: ld64.lld's images are SKIPPED, since it isn't installed"
fi

for python in python3 /usr/bin/python3 none; do
    "$python" -c 'import unicorn' 2>/dev/null && break
done
[ "$python" = none ] && {
    echo "retooled: changed; running is SKIPPED, since unicorn isn't installed for python3"
    exit 0
}
renamed libshapes.dylib -id /elsewhere/a_longer_place/libother.dylib
renamed shapes -library 1 /elsewhere/a_longer_place/libother.dylib
printf '25 27\nstatus 0\n' >"$folder/shapes.wanted"
wanted shapes "$folder/shapes.wanted" /elsewhere/a_longer_place/libother.dylib=libshapes.dylib
cp "$folder/shapes" "$folder/shapes_by_rpath"
renamed shapes_by_rpath -library 1 @rpath/s
renamed shapes_by_rpath -rpath 2 @executable_path/elsewhere
wanted shapes_by_rpath "$folder/shapes.wanted" /programs/elsewhere/s=libshapes.dylib
for name in throws threads; do
    renamed "lib$name.dylib" -id "/l/$name"
    renamed "$name" -library 1 "/l/$name"
    wanted "$name" "$programs/$name/wanted" "/l/$name=lib$name.dylib"
done
renamed starts -library 1 /a/folder/for/all/the/libraries/libstarts.dylib
printf '* the second file\n** the first file, with its words\n*** the first file again
the program, behind 3\nthe end of 3\nthe end\nstatus 43\n' >"$folder/starts.wanted"
wanted starts "$folder/starts.wanted" /a/folder/for/all/the/libraries/libstarts.dylib=libstarts.dylib
renamed libbase.dylib -id @rpath/b
renamed libcount.dylib -id @rpath/c
renamed libcount.dylib -library 1 @loader_path/below/b
renamed libcount.dylib -rpath 1 /unused
renamed pair -library 1 @rpath/c
renamed pair -library 2 @executable_path/../libraries/below/b
renamed pair -rpath 2 @executable_path/../libraries
wanted pair "$programs/pair/wanted" /libraries/c=libcount.dylib /libraries/below/b=libbase.dylib
timeout 300 "$python" checks/retooled.py run "$folder/cases" "$folder" || fail "a program with renamed libraries does something else"
echo "retooled: all as wanted"
