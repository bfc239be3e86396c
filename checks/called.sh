#!/usr/bin/env bash
# Has clang call the linker, with the words of the tables of docs/USAGE.md, and compares what is printed: with each clang that is
# installed. Where none is, or no python3, nothing is tried.
top=$(cd "$(dirname "$0")/.." && pwd) || exit 1
folder=$(mktemp -d) || exit 1
trap 'rm -rf "$folder"' EXIT

source "$top/checks/installed.bash" || exit 1

# Each clang once, by the shortest name that it has.
installed() {
    for name in clang clang-{14..23}; do
        path=$(command -v "$name") && printf '%s %s\n' "$(readlink -f "$path")" "$path"
    done | awk '!seen[$1]++ { print $2 }'
}
mapfile -t compilers < <(installed)
[ "${#compilers[@]}" -gt 0 ] && command -v python3 >/dev/null || {
    echo "called: SKIPPED, since clang or python3 isn't installed"
    exit 0
}
cd "$folder" || exit 1

# C for clang, and C++ for clang++.
cat >main.c <<'END'
#ifdef __cplusplus
extern "C"
#endif
int printf(const char *, ...);
int twice(int);
int main(void) { return printf("%d", twice(21)); }
END
echo 'int twice(int n) { return 2 * n; }' >twice.c
echo _main >names
mkdir -p stubs sdk/usr/lib frameworks/Foo.framework
cp "$top/examples/libSystem.tbd" . && cp "$top/examples/libc++.tbd" stubs || fail "there are no stubs"
# A library without names will do where only the file is sought.
{ sed '/^exports:/,$d' libSystem.tbd && echo ...; } >libfoo.tbd
cp libfoo.tbd frameworks/Foo.framework/Foo.tbd && cp libfoo.tbd sdk/usr/lib/libm.tbd && cp libSystem.tbd sdk/usr/lib || exit 1

for clang in "${compilers[@]}"; do
    python3 "$top/checks/called.py" "$clang" "$top/link" "$top/docs/USAGE.md" || exit 1
done
