#!/usr/bin/env bash
# Prints the definitions under the clauses of `run`, in reading order, with their lines, and those under the `run` of each tool. Fails where
# the linker's are more than 3,500 without comments (`MOST_LINES` of believed.py), where a clause of a public function of any crate rests on
# a file of specs/steps/, where a table of docs/PROVED.md names a function or clause that isn't there, where no row names a clause of `run` or
# `link`, or where the table of public sources in docs/THEOREMS.md lacks one of the files of the linker's list.
# Where python3 isn't installed, nothing is read.
top=$(cd "$(dirname "$0")/.." && pwd) || exit 1
command -v python3 >/dev/null || {
    echo "believed: SKIPPED, since python3 isn't installed"
    exit 0
}
exec python3 "$top/checks/believed.py" "$@"
