#!/usr/bin/env bash
# A program of five files with many kinds of content is linked: strings, differences in `__eh_frame`, thread-local variables, an
# initializer, unwind entries with a personality function, lines for a debugger, a common variable. Then one thing at a time is wrong
# with its files, and each time the status, the line and what stands at the output path are those of that fault.
#
# The objects in `many_kinds/` were made by clang 14, from that folder:
#
#     for file in main.c locals.c scaled.s; do clang --target=arm64-apple-macos14 -O0 -c -o "${file%.*}.o" "$file"; done
#     clang --target=arm64-apple-macos14 -O1 -fcommon -c -o names.o names.c
#     clang --target=arm64-apple-macos14 -O0 -g -fexceptions -c -o guarded.o guarded.c
top=$(cd "$(dirname "$0")/.." && pwd) || exit 1
folder=$(mktemp -d) || exit 1
trap 'rm -rf "$folder"' EXIT

source "$top/checks/installed.bash" || exit 1

cp "$top"/checks/many_kinds/*.o "$top"/checks/many_kinds/libSystem.tbd "$top"/checks/many_kinds/counted.exports "$folder" || exit 1
cd "$folder" || exit 1

words=(-platform_version macos 14.0 15.0 -exported_symbols_list counted.exports main.o names.o locals.o guarded.o scaled.o libSystem.tbd)

# Links by the words, to a path; what it says goes to `said`.
linked() {
    "$top/link" -o "$1" "${words[@]}" >said 2>&1
}

# The link has this status and says this; the output path holds what it held.
refused() {
    linked out
    status=$?
    [ "$status" = "$1" ] && [ "$(cat said)" = "wild_macho: $2" ] || fail "for '$2': status $status, '$(cat said)'"
    [ "$(cat out)" = old ] || fail "for '$2': the output path doesn't hold what it held"
}

# Whether a fault is told, where one file has these bytes (or is made a folder, or is taken away), which then are as they were.
told_for() {
    cp "$1" kept
    "$2" "$1"
    refused "$3" "$4"
    rm -rf "$1"
    mv kept "$1"
}

remove() { rm "$1"; }
make_folder() { rm "$1" && mkdir "$1"; }
cut_names() { head -c -1 "$1" >shorter && mv shorter "$1"; }
make_archive() { printf '!<arch>\n' >"$1"; }

# Where an object's command of its symbol table (LC_SYMTAB, 2) stands: behind commands that each tell their size.
place_of_symbols() {
    place=32
    while read -r number size < <(od -An -tu4 -j"$place" -N8 "$1") && [ "$number" != 2 ]; do
        place=$((place + size))
    done
    echo "$place"
}

linked image || fail "status $?, '$(cat said)'"
[ -s said ] && fail "a plain link says '$(cat said)'"
[ -x image ] || fail "the image can't be run"

echo old >out
told_for locals.o make_folder 3 'cannot read locals.o'
told_for counted.exports make_folder 3 'cannot read counted.exports'
told_for names.o remove 1 'cannot find names.o'
told_for counted.exports remove 1 'cannot find counted.exports'
for object in main names locals guarded scaled; do
    told_for "$object.o" cut_names 1 "$object.o: rule O4 at $(place_of_symbols "$object.o")"
done
told_for guarded.o make_archive 1 'guarded.o: not an arm64 object, dynamic library or stub'

linked /dev/full && fail "a write to a full device has status 0"
status=$?
[ "$status" = 4 ] && [ "$(cat said)" = 'wild_macho: cannot write the output' ] || fail "of a full device: status $status, '$(cat said)'"
mkdir again && linked again/image && cmp -s image again/image || fail "a second link gives another image"

nm=$(tool llvm-nm) && objdump=$(tool llvm-objdump) && dwarfdump=$(tool llvm-dwarfdump) || {
    echo "many_kinds: linked and refused; the reading is SKIPPED, since llvm-nm, llvm-objdump or llvm-dwarfdump isn't installed"
    exit 0
}
"$objdump" --macho --private-headers image >headers 2>complaints || fail "llvm-objdump failed: $(cat complaints)"
"$nm" image >names 2>>complaints || fail "llvm-nm failed: $(cat complaints)"
"$dwarfdump" --eh-frame image >frames 2>>complaints || fail "llvm-dwarfdump failed: $(cat complaints)"
[ -s complaints ] && fail "a tool complains: $(cat complaints)"

# A line is sought in what a tool reads of the image.
wanted() {
    tr -s ' \t' ' ' <"$1" | grep -qE -- "$2" || fail "$1 lacks '$2'"
}

wanted headers 'minos 14.0'
wanted headers 'sdk 15.0'
wanted headers 'sectname __init_offsets'
wanted headers 'sectname __unwind_info'
wanted headers 'sectname __thread_vars'
wanted headers 'name /usr/lib/libSystem.B.dylib'
grep -q -e __debug -e __compact_unwind -e __mod_init_func headers && fail "a section is carried that is only for the linker or a debugger"
wanted names ' T _calls_so_far'
wanted names ' t _scaled$'
# the frame's place is that of its function
scaled=$(awk '$3 == "_scaled" { print $1 }' names)
wanted frames "pc=${scaled#0000000}\.\.\."
echo "many_kinds: linked, refused and read"
