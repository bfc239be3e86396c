#!/usr/bin/env bash
# Links the example and reads the executable with LLVM's tools: neither may complain, and what they read is what is
# wanted. Where no such tool is installed, the reading is skipped.
top=$(cd "$(dirname "$0")/.." && pwd) || exit 1
folder=$(mktemp -d) || exit 1
trap 'rm -rf "$folder"' EXIT
image=$folder/hello

source "$top/checks/installed.bash" || exit 1

"$top/link" "${macos[@]}" -o "$image" "$top/examples/hello/hello.o" "$top/examples/libSystem.tbd" || fail "the link ended with status $?"
[ -x "$image" ] || fail "no executable was written"

readobj=$(tool llvm-readobj) && objdump=$(tool llvm-objdump) || {
    echo "first_link: linked; the reading is SKIPPED, since llvm-readobj or llvm-objdump isn't installed"
    exit 0
}
"$readobj" --file-headers --sections --macho-segment "$image" >"$folder/read" 2>"$folder/complaints" ||
    fail "llvm-readobj failed: $(cat "$folder/complaints")"
"$objdump" --macho --private-headers --disassemble "$image" >"$folder/dump" 2>>"$folder/complaints" ||
    fail "llvm-objdump failed: $(cat "$folder/complaints")"
[ -s "$folder/complaints" ] && fail "a tool complains: $(cat "$folder/complaints")"

# Each line is sought in what the tools read.
wanted() {
    tr -s ' \t' ' ' <"$folder/$1" | grep -qF -- "$2" || fail "$1 lacks '$2'"
}

wanted read 'FileType: Executable (0x2)'
wanted read 'NumOfLoadCommands: 12'
wanted read 'SizeOfLoadCommands: 536'
wanted read 'Flags [ (0x200085)'
wanted read 'Address: 0x100000238'
wanted dump 'entryoff 568'
wanted dump 'minos 14.0'
wanted dump 'name /usr/lib/dyld (offset 12)'
wanted dump 'name /usr/lib/libSystem.B.dylib (offset 24)'
wanted dump 'cmd LC_DYLD_CHAINED_FIXUPS'
wanted dump 'cmd LC_CODE_SIGNATURE'
wanted dump 'ret'
echo "first_link: linked and read"
