#!/usr/bin/env bash
# Compares images that the linker writes, byte by byte, with those of a plain linker in Python: known ones, and 300 random ones.
top=$(cd "$(dirname "$0")/.." && pwd) || exit 1
folder=$(mktemp -d) || exit 1
trap 'rm -rf "$folder"' EXIT

source "$top/checks/installed.bash" || exit 1

command -v python3 >/dev/null || {
    echo "whole_images: SKIPPED, since python3 isn't installed"
    exit 0
}
export PYTHONDONTWRITEBYTECODE=1
python3 "$top/checks/whole_images.py" "$top/link" "$folder" 300 || fail "an image isn't that of the plain linker"
echo "whole_images: the same"
