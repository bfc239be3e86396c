#!/usr/bin/env bash
# The inspector prints of linked images what llvm-objdump reads of them: segments, libraries, imports, exports and fixups, of the examples,
# of C, C++ and Rust, of a link of many files, and of ld64.lld's images of the same objects. Of each it prints what a plain reader in Python
# says, too, and of images that are changed byte by byte or are made to cost much. Words are another inspector and another linker to try.
top=$(cd "$(dirname "$0")/.." && pwd) || exit 1
folder=$(mktemp -d) || exit 1
trap 'rm -rf "$folder"' EXIT
cd "$top" || exit 1

source "$top/checks/installed.bash" || exit 1

inspect=${1:-./inspect} link=${2:-./link}
[ -x "$inspect" ] && command -v python3 >/dev/null || {
    echo "inspected: SKIPPED, since there is no $inspect or no python3"
    exit 0
}
export PYTHONDONTWRITEBYTECODE=1
"$link" -o "$folder/leaves" examples/leaves/leaves.o examples/leaves/libSystem.tbd || fail "leaves: the link ended with status $?"
python3 checks/inspect_hostile.py --program "$inspect" --linked "$folder/leaves" --thin 10 --random 1000 twice circle longer-circle \
    past far-past edges row row-of-names exports fixups long-imports || fail "an image that is made to cost much"

objdump=$(command -v llvm-objdump-19) || {
    echo "inspected: images are read as a plain reader reads them; LLVM's reading is SKIPPED, since it isn't installed"
    exit 0
}
lld=$(command -v ld64.lld-19)
clang=$(command -v clang-19)
programs=checks/emulated
stubs=("$programs/libSystem.tbd" "$programs/libc++.tbd")
mkdir "$folder/lld" || exit 1

# Links an image of a name by words, and by ld64.lld.
linked() {
    "$link" -o "$folder/$1" "${@:2}" >"$folder/said" || fail "$1: the link ended with status $?"
    images+=("$folder/$1")
    of_lld "$@"
}
of_lld() {
    [ -z "$lld" ] || "$lld" -arch arm64 -platform_version macos 14.0 14.0 -w -o "$folder/lld/$1" "${@:2}" 2>"$folder/said" ||
        fail "$1: ld64.lld ended with status $?: $(cat "$folder/said")"
    [ -z "$lld" ] || others+=("$folder/lld/$1")
}

# The same by our linker alone.
linked_here() {
    local lld=
    linked "$@"
}

images=() others=()
linked hello examples/hello/hello.o
linked leaves examples/leaves/leaves.o examples/leaves/libSystem.tbd
linked greeting examples/greeting/main.o examples/greeting/greet.o examples/libSystem.tbd
linked thrown examples/thrown/thrown.o examples/libc++.tbd examples/libSystem.tbd
linked greetings examples/rust/greetings.o examples/libSystem.tbd
linked libshapes.dylib -dylib -install_name @rpath/libshapes.dylib -exported_symbols_list examples/shapes/shapes.exports \
    examples/shapes/shapes.o
linked shapes -rpath @executable_path/lib "$programs/shapes/main.o" "$folder/libshapes.dylib" "${stubs[@]}"
for name in pointers data threads starts system classes throws; do
    linked "$name" -dead_strip_dylibs "$programs/$name"/*.o "${stubs[@]}"
done
linked libthrows.dylib -dylib -install_name /lib/libthrows.dylib "$programs"/throws/[!m]*.o "${stubs[@]}"
linked_here many_kinds -exported_symbols_list checks/many_kinds/counted.exports checks/many_kinds/{main,names,locals,guarded,scaled}.o \
    checks/many_kinds/libSystem.tbd
linked_here generated -generate 1000
printf '_main\n_printf\n' >"$folder/exports"
linked_here reexporting -exported_symbols_list "$folder/exports" examples/greeting/main.o examples/greeting/greet.o examples/libSystem.tbd

if [ -n "$clang" ]; then
    for source in checks/objects/*.c checks/objects/*.cpp; do
        for level in -O0 -O2; do
            object=$folder/$(basename "$source")$level.o
            "$clang" --target=arm64-apple-macos14 "$level" -c -o "$object" "$source" 2>"$folder/said" ||
                fail "clang failed: $(cat "$folder/said")"
            linked "$(basename "$source")$level" "$object" checks/objects/libSystem.tbd examples/libc++.tbd
        done
    done
    # Pointers to imports with addends that their words don't hold, and with some that they do.
    "$clang" --target=arm64-apple-macos14 -c -o "$folder/addends.o" -x assembler - <<'END' || fail "clang failed"
    .globl _main
_main: ret
    .data
    .p2align 3
    .quad _printf-8
    .quad _printf+5
    .quad _printf+100000
    .quad _printf+255
    .quad _main+4
END
    linked addends "$folder/addends.o" examples/libSystem.tbd
    # A link of many files: 10,000 functions with calls, strings, pointers and unwind entries.
    mkdir "$folder/files"
    python3 - "$folder/files" <<'END' >"$folder/words" || fail "the files of a large link aren't made"
import os, sys
sys.path.insert(0, "checks")
import bench
print("\n".join(bench.many_objects(bench.FIFTY, "_f000000_00")(sys.argv[1], 200)))
END
    mapfile -t words <"$folder/words"
    linked mixed "${words[@]}"
fi

python3 checks/inspected.py "$inspect" "$objdump" "${images[@]}" >"$folder/said" || fail "an image isn't read as LLVM reads it"
others_said="ld64.lld's are SKIPPED, since it isn't installed"
if [ -n "$lld" ]; then
    python3 checks/inspected.py "$inspect" "$objdump" --of-lld "${others[@]}" >"$folder/said" ||
        fail "an image of ld64.lld isn't read as LLVM reads it"
    others_said="and ${#others[@]} of ld64.lld"
fi
echo "inspected: ${#images[@]} images are read as LLVM 19 reads them, $others_said"
