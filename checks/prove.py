"""Proves crates side by side, each over what its earlier checks kept in out/, while a change is written. It gives no verdict: that is
`rt ci`'s.

prove.py [--lanes N] [CRATE..]    the crates and those below them, or all; N at a time, else as many as processors and memory allow
prove.py --over FOLDER [CRATE..]  first takes the libraries that an `rt ci` built in another checkout, where the files are the same
prove.py --program CRATE          builds a program whose crates are proved, as out/CRATE, which takes the place of an old one when it is
                                  whole; --tests CRATE builds and runs its tests

`rt check` of an upper crate sums up the files of all crates below once for each path to them, which takes minutes; here each sum is
made once. What a crate's check said stands in its out/prove.log. The libraries in out/ are those that `rt check` takes.
"""
import argparse
import filecmp
import os
import shutil
import sys
import threading
import time
from concurrent.futures import FIRST_COMPLETED, ThreadPoolExecutor, wait

TOP = os.path.dirname(os.path.dirname(os.path.abspath(__file__)))
sys.path.insert(0, os.path.dirname(os.path.realpath(shutil.which("rt") or sys.exit("prove: there is no rt"))))
import rtlib  # noqa: E402  (the kit's own module, beside `rt`)


def once(method, lock=threading.RLock()):
    """A method of a crate whose answer is kept: the files stay as they are meanwhile."""
    name = f"_{method.__name__}_once"

    def kept(self):
        with lock:
            if not hasattr(self, name):
                setattr(self, name, method(self))
            return getattr(self, name)

    return kept


def crates():
    """All crates by their names."""
    rtlib.Crate.below, rtlib.Crate.stamp = once(rtlib.Crate.below), once(rtlib.Crate.stamp)
    # (its first call sets a signal's handler, which only the main thread may)
    rtlib.guarded()
    os.chdir(TOP)
    return {crate.name: crate for crate in rtlib.crates_below(TOP)}


def is_same(crate, folder):
    """Whether a crate and those below it have the same files in another checkout."""
    there = os.path.join(folder, os.path.relpath(crate.folder, TOP))
    for top, other in [(crate.folder, there), (there, crate.folder)]:
        for file in rtlib.files_of(top):
            twin = os.path.join(other, os.path.relpath(file, top))
            if not os.path.isfile(twin) or not filecmp.cmp(file, twin, shallow=False):
                return False
    return True


def take(chosen, folder):
    """Takes the libraries that an `rt ci` built in another checkout, which have no stamp there. They hold statements alone, so they fit
    only those below that are taken with them."""
    taken = set()
    for crate in sorted(chosen, key=lambda it: len(it.below())):
        here = f"{crate.folder}/out/rlib"
        made = os.path.join(folder, os.path.relpath(here, TOP))
        if not os.path.isdir(f"{made}/{crate.name}.rlib") or not all(below in taken for below in crate.below()):
            continue
        if is_same(crate, folder):
            taken.add(crate)
            if not crate.is_built() or rtlib.text_of(f"{here}/from") != folder:
                shutil.rmtree(here, ignore_errors=True)
                shutil.copytree(made, here)
                for name, text in [("stamp", crate.stamp()), ("from", folder)]:
                    with open(f"{here}/{name}", "w", encoding="utf-8") as it:
                        it.write(text)
    print(f"{len(taken)} of {len(chosen)} crates are taken from {folder}", flush=True)


def prove(crate):
    """Proves a crate, and builds it where it is a library; whether that went well."""
    os.makedirs(f"{crate.folder}/out", exist_ok=True)
    with open(f"{crate.folder}/out/prove.log", "w", encoding="utf-8", errors="replace") as crate.out:
        try:
            flags = ["--jobs", "1"]
            return not (crate.build_rlib(flags, anew=False) if crate.makes_rlib() else crate.check(flags))
        except SystemExit:
            return False


def behind(chosen):
    """For each crate how many lines the longest chain of crates has that wait for it."""
    lines = {}
    for crate in sorted(chosen, key=lambda it: -len(it.below())):
        lines[crate] = lines.get(crate, 0) + crate.count(rb"\n") + 300
        for library in crate.below():
            lines[library] = max(lines.get(library, 0), lines[crate])
    return lines


def prove_all(chosen, lanes):
    """Proves crates, each once all below it are proved, those first that most others wait for. The names of those that aren't."""
    lines = behind(chosen)
    left, running, proved, failed = sorted(chosen, key=lambda it: -lines[it]), {}, set(), set()
    with ThreadPoolExecutor(lanes) as pool:
        while left or running:
            for crate in [it for it in left if all(below in proved for below in it.below())][: lanes - len(running)]:
                left.remove(crate)
                running[pool.submit(prove, crate)] = crate, time.monotonic()
            if not running:
                break
            for done in wait(running, return_when=FIRST_COMPLETED).done:
                crate, begun = running.pop(done)
                (proved if done.result() else failed).add(crate)
                told = "" if done.result() else f": NOT PROVED, see {os.path.relpath(crate.folder)}/out/prove.log"
                print(f"{len(proved):3} of {len(chosen)}  {time.monotonic() - begun:4.0f} s  {crate.name}{told}", flush=True)
    return sorted(it.name for it in [*failed, *left])


def most_lanes():
    """One for each processor, as far as there are 5 GB of memory for each."""
    with open("/proc/meminfo", encoding="utf-8") as file:
        free = next((int(line.split()[1]) for line in file if line.startswith("MemAvailable:")), 0)
    return max(1, min(len(os.sched_getaffinity(0)), free // 5_000_000))


def build(crate, tests):
    """Builds a program, or tests, and runs these."""
    made = f"out/{crate.name}{'_tests' if tests else ''}"
    status = crate.compile(["--jobs", "1"], f"{made}.o", tests)
    words = ["--target", "x86_64-unknown-linux-gnu", "--toolchain", f"{rtlib.KIT}/toolchain", "-o", f"{made}.new", f"{made}.o"]
    words += [f"{rtlib.KIT}/c/libos_c.a", f"{rtlib.KIT}/c/liblibc_c.a"]
    status = status or crate.call(f"{rtlib.KIT}/bin/rattle-link", *words)
    if not status:
        # the program that is there may be running meanwhile
        os.replace(os.path.join(crate.folder, f"{made}.new"), os.path.join(crate.folder, made))
    if tests and not status:
        status = crate.call(rtlib.RUNNER, "--seconds", "60", made)
    return status


def main():
    parser = argparse.ArgumentParser(description=__doc__, formatter_class=argparse.RawDescriptionHelpFormatter)
    parser.add_argument("--lanes", type=int, default=most_lanes())
    parser.add_argument("--over", metavar="FOLDER")
    parser.add_argument("--program", metavar="CRATE")
    parser.add_argument("--tests", metavar="CRATE")
    parser.add_argument("crates", nargs="*", metavar="CRATE")
    asked = parser.parse_args()
    known = crates()
    for name in [*asked.crates, *filter(None, [asked.program, asked.tests])]:
        if name not in known:
            sys.exit(f"prove: crates.txt has no crate '{name}'")
    if asked.program or asked.tests:
        return build(known[asked.program or asked.tests], bool(asked.tests))
    tops = [known[name] for name in asked.crates] or list(known.values())
    chosen = {it for top in tops for it in [top, *top.below()]}
    if asked.over:
        take(chosen, os.path.abspath(asked.over))
    unproved = prove_all(chosen, asked.lanes)
    print(f"not proved: {', '.join(unproved)}" if unproved else "all proved, over what was kept")
    return 1 if unproved else 0


if __name__ == "__main__":
    sys.exit(main())
