#!/usr/bin/env bash
# The stub generator: of libraries of all kinds of names it writes what a plain writer does; our linker gives the same bytes with a library
# and with its stub, of the programs here and of 200 random links; llvm-readtapi reads each stub and finds the names that llvm-nm finds in
# the library; ld64.lld links against the stubs, and binds the same imports. Words are another stub generator and another linker to try.
top=$(cd "$(dirname "$0")/.." && pwd) || exit 1
folder=$(mktemp -d) || exit 1
trap 'rm -rf "$folder"' EXIT
cd "$top" || exit 1

source "$top/checks/installed.bash" || exit 1

tbd=$(realpath -s "${1:-./tbd}") link=$(realpath -s "${2:-./link}")
[ -x "$tbd" ] && command -v python3 >/dev/null || {
    echo "stubs: SKIPPED, since there is no $tbd or no python3"
    exit 0
}
export PYTHONDONTWRITEBYTECODE=1
programs=checks/emulated
stubs=("$programs/libSystem.tbd" "$programs/libc++.tbd")
uuid=00112233445566778899aabbccddeeff
lld=$(command -v ld64.lld-19)
objdump=$(command -v llvm-objdump-19)

python3 checks/stubs.py plain "$tbd" 200 || fail "a stub isn't that of the plain writer"
python3 checks/stubs.py many "$tbd" || fail "200,000 names"
python3 checks/stubs.py links "$tbd" "$link" 200 || fail "a random link is another one with stubs"

# Links a library of a name by words, and writes its stub.
library() {
    "$link" -uuid "$uuid" -dylib -install_name "/lib/$1.dylib" -o "$folder/$1.dylib" "${@:2}" || fail "$1: the link ended with status $?"
    "$tbd" "$folder/$1.dylib" "$folder/$1.tbd" || fail "$1: tbd ended with status $?"
    libraries+=("$folder/$1.dylib")
}

# What ld64.lld makes of words, and what of it is read: the libraries and the imports.
linked_by_lld() {
    "$lld" -arch arm64 -platform_version macos 14.0 14.0 -w -o "$folder/$1" "${@:2}" 2>"$folder/said" ||
        fail "$1: ld64.lld ended with status $?: $(cat "$folder/said")"
    "$objdump" --macho --dylibs-used "$folder/$1" | sed 's/ (compat.*//; 1d' >"$folder/$1.read" &&
        "$objdump" --macho --chained-fixups "$folder/$1" | sed -n '/^dyld chained import/,$p' >>"$folder/$1.read" ||
        fail "$1: llvm-objdump ended with status $?"
}

# Links a program with libraries, and with their stubs.
program() {
    local name=$1 inputs=() texts=()
    for word in "${@:2}"; do
        case $word in
        lib*.dylib) inputs+=("$folder/$word") texts+=("$folder/${word%.dylib}.tbd") ;;
        *) inputs+=("$word") texts+=("$word") ;;
        esac
    done
    "$link" -uuid "$uuid" -o "$folder/out" "${inputs[@]}" || fail "$name: the link with libraries ended with status $?"
    mv "$folder/out" "$folder/first" || exit 1
    "$link" -uuid "$uuid" -o "$folder/out" "${texts[@]}" || fail "$name: the link with stubs ended with status $?"
    cmp "$folder/first" "$folder/out" || fail "$name: another image with stubs"
    count=$((count + 1))
    [ -n "$lld" ] && [ -n "$objdump" ] || return 0
    # a stub doesn't say which names are thread-local variables: our linker doesn't ask, and ld64.lld refuses a program that uses one
    case $name in threads | pair) return ;; esac
    linked_by_lld by_library "${inputs[@]}"
    linked_by_lld by_stub "${texts[@]}"
    cmp "$folder/by_library.read" "$folder/by_stub.read" || fail "$name: ld64.lld binds something else with stubs"
}

libraries=() count=0
library libshapes -exported_symbols_list examples/shapes/shapes.exports examples/shapes/shapes.o
for name in throws threads starts; do
    library "lib$name" "$programs/$name"/[!m]*.o "${stubs[@]}"
done
library libbase "$programs/pair/base.o" "${stubs[@]}"
library libcount -exported_symbols_list "$programs/pair/count.exports" "$programs/pair/count.o" "$folder/libbase.dylib" "${stubs[@]}"
library libgreet examples/greeting/greet.o examples/libSystem.tbd
program shapes "$programs/shapes/main.o" libshapes.dylib "${stubs[@]}"
for name in throws threads starts; do
    program "$name" "$programs/$name/main.o" "lib$name.dylib" "${stubs[@]}"
done
program pair "$programs/pair/main.o" libcount.dylib libbase.dylib "${stubs[@]}"
program greeting examples/greeting/main.o libgreet.dylib examples/libSystem.tbd
program all -dead_strip_dylibs examples/greeting/main.o libshapes.dylib libthrows.dylib libthreads.dylib libgreet.dylib "${stubs[@]}"

readtapi=$(command -v llvm-readtapi-19) && nm=$(command -v llvm-nm-19) || {
    echo "stubs: $count programs are the same with stubs; the reading is SKIPPED, since LLVM 19 isn't installed"
    exit 0
}
python3 checks/stubs.py names "$folder/libnames.dylib" || exit 1
libraries+=("$folder/libnames.dylib")
by_lld="ld64.lld's libraries and links are SKIPPED, since it isn't installed"
if [ -n "$lld" ]; then
    by_lld="ld64.lld's, too"
    for name in throws threads starts; do
        "$lld" -arch arm64 -platform_version macos 14.0 14.0 -w -dylib -install_name "/lib/l$name.dylib" -o "$folder/l$name.dylib" \
            "$programs/$name"/[!m]*.o "${stubs[@]}" 2>"$folder/said" || fail "$name: ld64.lld ended with status $?: $(cat "$folder/said")"
        libraries+=("$folder/l$name.dylib")
    done
fi
python3 checks/stubs.py read "$tbd" "$readtapi" "$nm" "${libraries[@]}" || fail "a stub isn't read as its library"
echo "stubs: $count programs and 200 random links are the same with stubs, and ${#libraries[@]} stubs are read as their libraries; $by_lld"
