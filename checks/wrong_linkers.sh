#!/usr/bin/env bash
# Each edit that docs/WRONG_LINKERS.md names is there.
top=$(cd "$(dirname "$0")/.." && pwd) || exit 1
source "$top/checks/installed.bash" || exit 1

count=0
crate=
while read -r name; do
    # A name without its crate is of the crate named before it.
    case $name in
    */*) crate=${name%/*} ;;
    esac
    edit=$top/crates/$crate/must-fail/${name##*/}.edit
    [ -f "$edit" ] || fail "docs/WRONG_LINKERS.md names $name, and there is no ${edit#"$top/"}"
    count=$((count + 1))
done < <(sed -n 's/^| .* | \(.*\) |$/\1/p' "$top/docs/WRONG_LINKERS.md" | grep -o '`[a-z0-9_/]*`' | tr -d '`')
[ "$count" -gt 20 ] || fail "docs/WRONG_LINKERS.md names $count edits alone"
echo "wrong_linkers: $count edits are there"
