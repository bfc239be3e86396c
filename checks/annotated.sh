#!/usr/bin/env bash
# Links the smallest program with an import, and compares the image with the rows of docs/FORMATS.md, byte by byte.
# Where python3 isn't installed, nothing is compared.
top=$(cd "$(dirname "$0")/.." && pwd) || exit 1
folder=$(mktemp -d) || exit 1
trap 'rm -rf "$folder"' EXIT

source "$top/checks/installed.bash" || exit 1

command -v python3 >/dev/null || {
    echo "annotated: SKIPPED, since python3 isn't installed"
    exit 0
}
inputs=("$top/examples/leaves/leaves.o" "$top/examples/leaves/libSystem.tbd")
"$top/link" "${macos[@]}" -o "$folder/out" "${inputs[@]}" || fail "the link ended with status $?"
python3 "$top/checks/annotated.py" "$top/docs/FORMATS.md" "$folder/out" "${inputs[@]}"
