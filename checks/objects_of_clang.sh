#!/usr/bin/env bash
# Objects that clang makes of C and C++ files, with and without optimization, and one that rustc made, are linked with stubs of the
# system's libraries. An object that is cut is refused for a broken rule. Where LLVM's tools are installed, they read as many
# functions to unwind in each image as in its object, with the same encodings. Where clang isn't installed, nothing is compiled.
top=$(cd "$(dirname "$0")/.." && pwd) || exit 1
folder=$(mktemp -d) || exit 1
trap 'rm -rf "$folder"' EXIT

source "$top/checks/installed.bash" || exit 1

clang=$(tool clang) || {
    echo "objects_of_clang: SKIPPED, since clang isn't installed"
    exit 0
}
objdump=$(tool llvm-objdump)

# What is said of an object that is linked.
said() {
    "$top/link" "${macos[@]}" -o "$folder/image" "$1" "$top/checks/objects/libSystem.tbd" "$top/examples/libc++.tbd" 2>&1
}

# Places and encodings, one a line: the encodings by rising places, without the bits that number a personality function.
in_order() {
    while read -r place encoding; do
        printf '%d %08x\n' "$((place))" "$((encoding & ~0x30000000))"
    done | sort -n | cut -d ' ' -f 2
}

# The encodings of all functions of an object, and of an image, as a tool reads them.
of_object() {
    "$objdump" --macho --unwind-info "$1" 2>&1 | awk '/start:/ { place = $2 } /compact encoding:/ { print place, $3 }' | in_order
}
of_image() {
    "$objdump" --macho --unwind-info "$1" 2>&1 | sed -nE 's/.*function offset=(\S+), encoding\[[0-9]+\]=(\S+).*/\1 \2/p' | in_order
}

# Links an object, compares what unwinds it, and cuts it.
try() {
    line=$(said "$1")
    status=$?
    case $status:$line in
    0:*) ;;
    *) fail "$(basename "$1"): status $status, '$line'" ;;
    esac
    if [ -n "$objdump" ] && [ "$(of_object "$1")" != "$(of_image "$folder/image")" ]; then
        fail "$(basename "$1"): its image unwinds other functions"
    fi
    head -c -1 "$1" >"$folder/cut.o"
    case $(said "$folder/cut.o") in
    *": rule O"*) ;;
    *) fail "$(basename "$1") is taken without its last byte" ;;
    esac
    count=$((count + 1))
}

count=0 unread=
for source in "$top"/checks/objects/*.c "$top"/checks/objects/*.cpp; do
    for level in -O0 -O2; do
        object=$folder/$(basename "$source")$level.o
        "$clang" --target=arm64-apple-macos14 "$level" -c -o "$object" "$source" 2>"$folder/complaints" ||
            fail "clang $level failed: $(cat "$folder/complaints")"
        try "$object"
    done
done
try "$top/checks/objects/dropped.o"
[ "$count" -gt 8 ] || fail "there are only $count objects"
[ -n "$objdump" ] || unread="; their unwind information is SKIPPED, since llvm-objdump isn't installed"
echo "objects_of_clang: $count objects linked$unread"
