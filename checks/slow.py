"""Tells what takes longest in the proof of a crate. It gives no verdict: that is `rt ci`'s.

slow.py CRATE         the modules of the crate that took longest, from nothing, with one job
slow.py --test CRATE  the same with its tests

A check writes a file for each module as that is done; the seconds of a module are those since the file before it. `F.Lts` is the body of
the function F with all that is dropped where it ends, `F.Proof` its goals. The libraries below have to be built: by
`python3 checks/prove.py CRATE`, or by an `rt ci` of this checkout that has ended. Other work on the machine makes each number larger.
"""
import os
import subprocess
import sys
import tempfile
import time

from prove import crates

MOST = 15


def files_in(folder):
    """The modules' files below a folder with the times at which they were written, first to last."""
    found = [os.path.join(at, name) for at, _, names in os.walk(folder) for name in names if name.endswith(".oantt")]
    return sorted((os.stat(path).st_mtime, os.path.basename(path)) for path in found)


def seconds(begun, files):
    """The seconds of each module, most first."""
    times = [begun, *[time for time, _ in files]]
    spent = [(now - before, name) for before, (now, name) in zip(times, files)]
    return sorted(spent, reverse=True)


def main(words):
    tests = words[:1] == ["--test"]
    name = words[-1] if words else ""
    crate = crates().get(name)
    if crate is None or len(words) != 1 + tests:
        sys.exit(__doc__)
    with tempfile.TemporaryDirectory(prefix="slow-") as kept:
        flags = [*crate.words(["--jobs", "1"], keeps=False), *["--test"] * tests, "--incremental", kept]
        begun = time.time()
        ran = subprocess.run([sys.modules["rtlib"].RATTLE, "check", *flags], cwd=crate.folder, capture_output=True, text=True)
        for spent, module in seconds(begun, files_in(kept))[:MOST]:
            print(f"{spent:7.1f} s  {module.removesuffix('.oantt')}")
    print(f"{time.time() - begun:7.1f} s  in all: {ran.stdout.strip().splitlines()[-1][:80] if ran.stdout.strip() else ran.stderr[:200]}")
    return ran.returncode


if __name__ == "__main__":
    sys.exit(main(sys.argv[1:]))
