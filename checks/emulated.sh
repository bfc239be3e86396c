#!/usr/bin/env bash
# Runs linked images on an emulated arm64 processor (Unicorn), with a loader and a system written from the public formats, at several
# slides and with other addresses of the imports each time. What a program prints, and its status, are what its sources say: where a C
# compiler for this machine is installed, what the same sources print here. Then images are changed in one place each, and that is noticed.
# `emulated/README.md` has the programs. Where Python can't import unicorn, nothing is run. A first argument is another linker to try.
top=$(cd "$(dirname "$0")/.." && pwd) || exit 1
folder=$(mktemp -d) || exit 1
trap 'rm -rf "$folder"' EXIT
cd "$top" || exit 1

source "$top/checks/installed.bash" || exit 1

for python in python3 /usr/bin/python3 none; do
    "$python" -c 'import unicorn' 2>/dev/null && break
done
[ "$python" = none ] && {
    echo "emulated: SKIPPED, since unicorn isn't installed for python3"
    exit 0
}
export PYTHONDONTWRITEBYTECODE=1

link=${1:-./link}
programs=checks/emulated
stubs=("$programs/libSystem.tbd" "$programs/libc++.tbd")

# Links an image of a name by words.
linked() {
    "$link" "${macos[@]}" -o "$folder/$1" "${@:2}" >"$folder/said" || fail "$1: the link ended with status $?"
}

# A linked program prints what a file holds; its libraries are PATH=IMAGE.
wanted() {
    (IFS=$'\t' && echo "$*") >>"$folder/cases"
}

# A linked program prints this text; its libraries are PATH=IMAGE.
prints() {
    printf '%b' "$2" >"$folder/$1.wanted"
    wanted "$1" "$folder/$1.wanted" "${@:3}"
}

# What a folder's program prints here, where a compiler makes it of the same sources, is what the folder's file `wanted` holds.
compared() {
    command -v cc >/dev/null || return 0
    runtime=
    if [ -e "$programs/$1/main.cpp" ]; then
        command -v c++ >/dev/null || return 0
        runtime=-lstdc++
    fi
    cc -w -O1 -fcommon -fexceptions -pthread -o "$folder/here" "${@:2}" $runtime || fail "$1: cc ended with status $?"
    {
        "$folder/here"
        echo "status $?"
    } | cmp -s - "$programs/$1/wanted" || fail "$1: compiled by cc, it prints something else than $programs/$1/wanted says"
}

# The program of a folder.
program() {
    linked "$1" -dead_strip_dylibs "$programs/$1"/*.o "${stubs[@]}"
    wanted "$1" "$programs/$1/wanted"
    compared "$1" "$programs/$1"/*.c*
}

# The program of a folder of which all but `main` is a library.
apart() {
    linked "lib$1.dylib" -dylib -install_name "/lib/lib$1.dylib" "$programs/$1"/[!m]*.o "${stubs[@]}"
    linked "$1_apart" "$programs/$1/main.o" "$folder/lib$1.dylib" "${stubs[@]}"
}

linked hello examples/hello/hello.o examples/libSystem.tbd
prints hello 'status 0\n'
linked leaves examples/leaves/leaves.o examples/leaves/libSystem.tbd
prints leaves 'status 1\n' # what it was started with: one word
linked greeting examples/greeting/main.o examples/greeting/greet.o examples/libSystem.tbd
prints greeting 'Hello, world!\nstatus 0\n'
linked greetings examples/rust/greetings.o examples/libSystem.tbd
prints greetings 'hello\nworld\nstatus 6\n' # what `fputs` answers
linked thrown examples/thrown/thrown.o examples/libc++.tbd examples/libSystem.tbd
prints thrown 'status 0\n'
linked libshapes.dylib -dylib -install_name @rpath/libshapes.dylib -exported_symbols_list examples/shapes/shapes.exports \
    examples/shapes/shapes.o examples/libSystem.tbd
linked shapes -rpath @executable_path/lib "$programs/shapes/main.o" "$folder/libshapes.dylib" "${stubs[@]}"
prints shapes '25 27\nstatus 0\n' /programs/lib/libshapes.dylib=libshapes.dylib

linked many_kinds -exported_symbols_list checks/many_kinds/counted.exports checks/many_kinds/{main,names,locals,guarded,scaled}.o \
    checks/many_kinds/libSystem.tbd
prints many_kinds '0: none, 0\n1: one, 3\n2: two, 9\nstatus 0\n'
for count in 1 2 3 100 1000; do
    linked "generated_$count" -generate "$count"
    prints "generated_$count" 'status 0\n'
done

for name in pointers data threads starts system classes throws; do
    program "$name"
done

# Another entry, and room for longer names.
linked weak_here -e _weak_here -headerpad_max_install_names -platform_version macos 14.0 15.0 "$programs"/data/*.o "${stubs[@]}"
prints weak_here 'status 2\n'

# Exceptions and thread-local variables across images. Initializers of a library come first.
apart throws
wanted throws_apart "$programs/throws/wanted" /lib/libthrows.dylib=libthrows.dylib
apart threads
wanted threads_apart "$programs/threads/wanted" /lib/libthreads.dylib=libthreads.dylib
apart starts
prints starts_apart '* the second file\n** the first file, with its words\n*** the first file again
the program, behind 3\nthe end of 3\nthe end\nstatus 43\n' /lib/libstarts.dylib=libstarts.dylib

# A program with a library that stands on another one.
linked libbase.dylib -dylib -install_name @rpath/libbase.dylib "$programs/pair/base.o" "${stubs[@]}"
linked libcount.dylib -dylib -install_name @rpath/libcount.dylib -rpath @loader_path -exported_symbols_list "$programs/pair/count.exports" \
    "$programs/pair/count.o" "$folder/libbase.dylib" "${stubs[@]}"
linked pair -rpath /nowhere -rpath @executable_path/../lib "$programs/pair/main.o" "$folder"/lib{count,base}.dylib "${stubs[@]}"
wanted pair "$programs/pair/wanted" /lib/libcount.dylib=libcount.dylib /lib/libbase.dylib=libbase.dylib
if command -v cc >/dev/null; then
    cc -shared -fPIC -o "$folder/libbase.so" "$programs/pair/base.c" &&
        cc -shared -fPIC -Wl,-Bsymbolic-functions -o "$folder/libcount.so" "$programs/pair/count.c" || fail "pair: cc ended with status $?"
    compared pair "$programs/pair/main.c" "$folder"/lib{count,base}.so -Wl,-rpath,"$folder"
fi

command -v cc >/dev/null && command -v c++ >/dev/null ||
    echo "emulated: comparing with programs that are made here is SKIPPED, since cc or c++ isn't installed"
timeout 300 "$python" checks/emulated.py "$folder/cases" "$folder"
