#!/usr/bin/env bash
# Compares pages of docs/ with the sources that they list: options, rules, crates. Where python3 isn't installed, nothing is read.
top=$(cd "$(dirname "$0")/.." && pwd) || exit 1
command -v python3 >/dev/null || {
    echo "pages: SKIPPED, since python3 isn't installed"
    exit 0
}
exec python3 "$top/checks/pages.py"
