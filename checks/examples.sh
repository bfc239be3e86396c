#!/usr/bin/env bash
# Links the examples of several files and libraries, and reads the images with LLVM's tools: neither may complain, and what they
# read is what is wanted. Where no such tool is installed, the reading is skipped.
top=$(cd "$(dirname "$0")/.." && pwd) || exit 1
folder=$(mktemp -d) || exit 1
trap 'rm -rf "$folder"' EXIT
cd "$top" || exit 1

source "$top/checks/installed.bash" || exit 1

# Links an image of a name by words.
linked() {
    ./link "${macos[@]}" -o "$folder/$1" "${@:2}" || fail "$1: the link ended with status $?"
    [ -s "$folder/$1" ] || fail "$1: no image was written"
}

linked greeting examples/greeting/main.o examples/greeting/greet.o examples/libSystem.tbd
linked thrown examples/thrown/thrown.o examples/libc++.tbd examples/libSystem.tbd
linked libshapes.dylib -dylib -install_name @rpath/libshapes.dylib -exported_symbols_list examples/shapes/shapes.exports \
    examples/shapes/shapes.o examples/libSystem.tbd

nm=$(tool llvm-nm) && objdump=$(tool llvm-objdump) || {
    echo "examples: linked; the reading is SKIPPED, since llvm-nm or llvm-objdump isn't installed"
    exit 0
}

# A line is sought in what a tool reads of an image.
wanted() {
    tr -s ' \t' ' ' <"$folder/$1.$2" | grep -qF -- "$3" || fail "$1: $2 lacks '$3'"
}

for image in greeting thrown libshapes.dylib; do
    "$objdump" --macho --private-headers "$folder/$image" >"$folder/$image.headers" 2>"$folder/complaints" ||
        fail "$image: llvm-objdump failed: $(cat "$folder/complaints")"
    "$nm" "$folder/$image" >"$folder/$image.names" 2>>"$folder/complaints" || fail "$image: llvm-nm failed: $(cat "$folder/complaints")"
    [ -s "$folder/complaints" ] && fail "$image: a tool complains: $(cat "$folder/complaints")"
done
wanted greeting headers 'name /usr/lib/libSystem.B.dylib'
wanted greeting headers 'sectname __stubs'
wanted greeting names 'T _greet'
wanted thrown headers 'name /usr/lib/libc++.1.dylib'
wanted thrown headers 'sectname __unwind_info'
wanted thrown names 'T _main'
wanted libshapes.dylib headers 'name @rpath/libshapes.dylib'
wanted libshapes.dylib names 'T _shape_cube'
wanted libshapes.dylib names 't _count_calls'
echo "examples: linked and read"
