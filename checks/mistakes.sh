#!/usr/bin/env bash
# Makes the mistakes that docs/USAGE.md tells of, and compares the lines that are printed. The inputs are made with clang: where it,
# llvm-ar, llvm-lipo or python3 isn't installed, nothing is tried.
top=$(cd "$(dirname "$0")/.." && pwd) || exit 1
folder=$(mktemp -d) || exit 1
trap 'rm -rf "$folder"' EXIT

source "$top/checks/installed.bash" || exit 1

clang=$(tool clang) && ar=$(tool llvm-ar) && lipo=$(tool llvm-lipo) && command -v python3 >/dev/null || {
    echo "mistakes: SKIPPED, since clang, llvm-ar, llvm-lipo or python3 isn't installed"
    exit 0
}
cd "$folder" || exit 1

# Compiles twice.c for a target.
compiled() {
    "$clang" --target="$1" -c -o "$2" "${@:3}" twice.c || fail "clang failed for $1"
}

# A stub of the system's library, whose head and lines are given.
stub() {
    printf '%s\n' "$@" "install-name: '/usr/lib/libSystem.B.dylib'" 'current-version: 1351' 'exports:'
}

mac=arm64-apple-macos14
printf 'int printf(const char *, ...);\nint twice(int);\nint main(void) { return printf("%%d", twice(21)); }\n' >main.c
printf 'int twice(int n) { return 2 * n; }\n' >twice.c
"$clang" --target=$mac -c main.c || fail "clang failed"
compiled $mac twice.o
compiled x86_64-apple-macos14 x86.o
compiled x86_64-linux-gnu elf.o
compiled $mac lto.o -flto
"$ar" rc libtwice.a twice.o && "$lipo" -create twice.o x86.o -output fat.o || fail "an archive or a universal file isn't made"
head -c -1 "$top/examples/greeting/greet.o" >cut.o && head -c 15 twice.o >stump.o || fail "there is no object to cut"
mkdir folder
both='[ arm64-macos, arm64e-macos ]'
{ stub '--- !tapi-tbd' 'tbd-version: 4' "targets: $both" && printf '  - targets: %s\n    symbols: [ _printf ]\n' "$both"; } >libSystem.tbd
sed 's/, arm64e-macos//' libSystem.tbd >plain.tbd
head -c -5 libSystem.tbd >cut.tbd
{ stub '--- !tapi-tbd-v3' 'archs: [ arm64 ]' 'platform: macosx' && printf '  - archs: [ arm64 ]\n    symbols: [ _printf ]\n'; } >v3.tbd
printf '{ "main_library": {}, "tapi_tbd_version": 5 }\n' >v5.tbd

# What is right, as in the first section of the page.
"$top/link" "${macos[@]}" -o right main.o twice.o libSystem.tbd || fail "what is right is refused"
"$top/link" "${macos[@]}" -dylib -install_name @rpath/libtwice.dylib -o libtwice.dylib twice.o libSystem.tbd || fail "the library is refused"
"$top/link" "${macos[@]}" -rpath @loader_path -o right main.o libtwice.dylib libSystem.tbd || fail "a program over the library is refused"
sed "s,'/usr.*','@rpath/libtwice.dylib',; s/_printf/_twice/" libSystem.tbd >libtwice.tbd
"$top/link" "${macos[@]}" -rpath @loader_path -o over main.o libtwice.tbd libSystem.tbd || fail "a program over a stub is refused"
python3 "$top/checks/mistakes.py" "$top/link" "$top/docs/USAGE.md" "${macos[@]}"
