#!/usr/bin/env bash
# Images of C, C++ and Rust objects and a dynamic library are read by the tools of LLVM 19: headers, chained fixups, exports, unwind
# information, symbols. None may complain, and what they read is what is wanted. Where they aren't installed, nothing is read.
top=$(cd "$(dirname "$0")/.." && pwd) || exit 1
folder=$(mktemp -d) || exit 1
trap 'rm -rf "$folder"' EXIT
cd "$top" || exit 1

source "$top/checks/installed.bash" || exit 1

objdump=$(command -v llvm-objdump-19) && nm=$(command -v llvm-nm-19) && readobj=$(command -v llvm-readobj-19) || {
    echo "readers: SKIPPED, since the tools of LLVM 19 aren't installed"
    exit 0
}

# Runs a tool on an image, and keeps what it reads.
read_by() {
    "${@:3}" "$folder/$2" >"$folder/$2.$1" 2>"$folder/complaints" || fail "$2: ${*:3} failed: $(cat "$folder/complaints")"
    [ -s "$folder/complaints" ] && fail "$2: ${*:3} complains: $(cat "$folder/complaints")"
    [ -s "$folder/$2.$1" ] || fail "$2: ${*:3} read nothing"
}

# Links an image of a name by words, and reads it.
linked() {
    ./link "${macos[@]}" -o "$folder/$1" "${@:2}" || fail "$1: the link ended with status $?"
    read_by headers "$1" "$objdump" --macho --private-headers
    read_by fixups "$1" "$objdump" --macho --chained-fixups
    read_by exports "$1" "$objdump" --macho --exports-trie
    read_by unwind "$1" "$objdump" --macho --unwind-info
    read_by code "$1" "$objdump" --macho --disassemble
    read_by names "$1" "$nm"
    read_by parts "$1" "$readobj" --file-headers --sections --symbols --macho-segment
}

# A line is sought in what was read of an image.
wanted() {
    tr -s ' \t' ' ' <"$folder/$1.$2" | grep -qF -- "$3" || fail "$1: $2 lacks '$3'"
}

linked greeting examples/greeting/main.o examples/greeting/greet.o examples/libSystem.tbd
linked thrown examples/thrown/thrown.o examples/libc++.tbd examples/libSystem.tbd
linked greetings examples/rust/greetings.o examples/libSystem.tbd
linked libshapes.dylib -dylib -install_name @rpath/libshapes.dylib -exported_symbols_list examples/shapes/shapes.exports \
    examples/shapes/shapes.o examples/libSystem.tbd

# What the sources say: which names come from which library, which are shown to others, which functions have a personality function.
wanted greeting fixups 'lib_ordinal = 1 (libSystem)'
wanted greeting fixups '(_printf)'
wanted greeting exports ' _greet'
wanted greeting exports ' _main'
wanted greeting code 'bl'
wanted greeting unwind 'Number of personality functions in array: 0x0'
wanted thrown fixups 'lib_ordinal = 1 (libc++)'
wanted thrown fixups '(___gxx_personality_v0)'
wanted thrown fixups '(___cxa_throw)'
wanted thrown unwind 'Number of personality functions in array: 0x1'
wanted greetings fixups '(_fputs)'
wanted greetings fixups '(___stdoutp)'
wanted greetings names 'D _FIRST'
wanted greetings exports ' _main'
wanted libshapes.dylib headers 'name @rpath/libshapes.dylib'
wanted libshapes.dylib exports ' _shape_cube'
wanted libshapes.dylib exports ' _shape_square'
wanted libshapes.dylib names 't _count_calls'
wanted libshapes.dylib parts 'FileType: DynamicLibrary (0x6)'
if grep -q count_calls "$folder/libshapes.dylib.exports"; then
    fail "libshapes.dylib: a function that the export list leaves out is exported"
fi
echo "readers: four images are linked and read"
