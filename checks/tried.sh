#!/usr/bin/env bash
# What `./link --try` compiles without proofs links the examples into the images that the proved program links them into, prints the
# line of a fault, and says each time that it is a try. It is compiled anew here, which takes one to three minutes.
top=$(cd "$(dirname "$0")/.." && pwd) || exit 1
folder=$(mktemp -d) || exit 1
trap 'rm -rf "$folder"' EXIT
cd "$top" || exit 1

source "$top/checks/installed.bash" || exit 1

command -v rt >/dev/null || {
    echo "tried: SKIPPED, since rt isn't installed"
    exit 0
}
mkdir "$folder/proved" "$folder/tried"
./link -x 2>/dev/null
./link --try --build 2>"$folder/said" || fail "it isn't compiled: $(cat "$folder/said")"

# Both programs link an image of a name by words.
count=0
linked() {
    ./link "${macos[@]}" -o "$folder/proved/$1" "${@:2}" || fail "$1: the link ended with status $?"
    ./link --try "${macos[@]}" -o "$folder/tried/$1" "${@:2}" 2>"$folder/said" || fail "$1: a try ended with status $?"
    [ "$(cat "$folder/said")" = 'link: tried, not proved: compiled without proofs, with checks at run time' ] || fail "$1: $(cat "$folder/said")"
    cmp -s "$folder/proved/$1" "$folder/tried/$1" || fail "$1: a try links another image"
    count=$((count + 1))
}

stub=examples/libSystem.tbd
linked hello examples/hello/hello.o $stub
linked greeting examples/greeting/main.o examples/greeting/greet.o $stub
linked thrown examples/thrown/thrown.o examples/libc++.tbd $stub
linked greetings examples/rust/greetings.o $stub
linked libshapes.dylib -dylib -install_name @rpath/libshapes.dylib -exported_symbols_list examples/shapes/shapes.exports \
    examples/shapes/shapes.o $stub
linked many_kinds checks/many_kinds/{main,names,locals,guarded,scaled}.o checks/many_kinds/libSystem.tbd
./link --try "${macos[@]}" -o "$folder/none" examples/greeting/main.o $stub 2>"$folder/said" && fail "a name that isn't defined is linked"
[ "$(tail -1 "$folder/said")" = 'wild_macho: undefined symbol _greet in examples/greeting/main.o' ] || fail "$(cat "$folder/said")"
echo "tried: $count images are those of the proved program"
