"""Tries the planted edits of crates: changes of our own code that the prover has to refuse, beyond those of must-fail/ that each gate
tries. They stand in crates/CRATE/planted/, in the form of those of must-fail/.

planted.py CRATE..        the edits of these crates
planted.py --since REV    those of all crates whose sources, definitions, proofs or edits have changed since then
planted.py --all          those of all crates: about as long as the gate itself

They are tried on a copy in which the planted edits of these crates stand in must-fail/ and no others. If the kit's `rt ci` takes names of
crates, it tries them: what an earlier `rt ci` proved of the same files is taken as it is, and its last line counts what was refused. Else
(kit 13b) `rt must-fail` tries them, over the libraries that prove.py has kept in out/ of the same files. Each edit has a line, and the
status is 0 if all are refused. It is no part of the gate.
"""
import argparse
import os
import shutil
import subprocess
import sys
import tempfile

import prove

TOP = os.path.dirname(os.path.dirname(os.path.abspath(__file__)))


def planted_in(crate):
    return os.path.join(TOP, "crates", crate, "planted")


def crates_with_edits():
    return sorted(name for name in os.listdir(os.path.join(TOP, "crates")) if os.path.isdir(planted_in(name)))


def changed_since(revision):
    """The crates with a file that differs from a revision's."""
    told = subprocess.run(["git", "diff", "--name-only", revision, "--", "crates"], cwd=TOP, capture_output=True, text=True)
    if told.returncode:
        sys.exit(f"planted: {told.stderr.strip()}")
    return {path.split("/")[1] for path in told.stdout.splitlines()}


def copy_with(crates, to):
    """Copies the crates' files, with the planted edits of some as those that are tried, and no others."""
    shutil.copytree(os.path.join(TOP, "crates"), os.path.join(to, "crates"), ignore=shutil.ignore_patterns("out", "must-fail", "planted"))
    for crate in crates:
        shutil.copytree(planted_in(crate), os.path.join(to, "crates", crate, "must-fail"))
    for name in ("crates.txt", "HANDLES"):
        shutil.copy(os.path.join(TOP, name), to)


def ci_takes_names():
    """Whether `rt ci` takes names of crates. One that doesn't says at once how `rt` is called."""
    with tempfile.TemporaryDirectory(prefix="planted-") as empty:
        told = subprocess.run(["rt", "ci", "a_name"], cwd=empty, stdout=subprocess.PIPE, stderr=subprocess.STDOUT, text=True)
    return not told.stdout.startswith("usage:")


def take_libraries(crates, to):
    """Takes the libraries below some crates that were kept here of the same files. `rt must-fail` builds those that are missing."""
    known = prove.crates()
    for library in {below for crate in crates for below in known[crate].below() if below.is_built()}:
        shutil.copytree(f"{library.folder}/out/rlib", os.path.join(to, "crates", library.name, "out", "rlib"))


def main():
    parser = argparse.ArgumentParser(description=__doc__, formatter_class=argparse.RawDescriptionHelpFormatter)
    parser.add_argument("--since", metavar="REV")
    parser.add_argument("--all", action="store_true")
    parser.add_argument("crates", nargs="*", metavar="CRATE")
    asked = parser.parse_args()
    known = crates_with_edits()
    wanted = set(known if asked.all else asked.crates) | (changed_since(asked.since) & set(known) if asked.since else set())
    for name in wanted - set(known):
        sys.exit(f"planted: crates/{name} has no planted edits")
    if not wanted:
        return 0 if asked.since else parser.error("name a crate")
    with tempfile.TemporaryDirectory(prefix="planted-") as room:
        copy_with(sorted(wanted), room)
        command = "ci" if ci_takes_names() else "must-fail"
        if command == "must-fail":
            take_libraries(wanted, room)
        return subprocess.run(["rt", command, *sorted(wanted)], cwd=room).returncode


if __name__ == "__main__":
    sys.exit(main())
