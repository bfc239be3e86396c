#!/usr/bin/env bash
# Plants faults in links, alone and several at once, and compares the line that is printed with the first fault by the order of refusals.
top=$(cd "$(dirname "$0")/.." && pwd) || exit 1
folder=$(mktemp -d) || exit 1
trap 'rm -rf "$folder"' EXIT

source "$top/checks/installed.bash" || exit 1

command -v python3 >/dev/null || {
    echo "orders: SKIPPED, since python3 isn't installed"
    exit 0
}
export PYTHONDONTWRITEBYTECODE=1
python3 "$top/checks/orders.py" "$top/link" "$folder" 300 || fail "another fault than the first is told"
