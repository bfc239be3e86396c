"""Times the linker on made inputs, beside ld64.lld where it is installed, and prints rows of docs/FIGURES.md.

bench.py [--program PATH] [--runs R] [--size N] [CASE..]

PATH is the program that `./link` builds where none is given, N the size of each case, else its own sizes.

Objects are made by clang of assembly; many files are copies of one object, each with names of its own. The linkers take turns: ours,
ld64.lld with its threads, and ld64.lld with one thread. Of R links each, three where nothing is said, the one of least wall time is told,
with its processor time (user and system) and memory (the greatest resident set). Nothing here is part of the gate: a machine under load
tells other times.
"""
import argparse
import os
import shutil
import subprocess
import sys
import tempfile
import time

TOP = os.path.dirname(os.path.dirname(os.path.abspath(__file__)))
TEXT = "    .section __TEXT,__text,regular,pure_instructions\n    .globl _main\n    .p2align 2\n_main:\n"
LAST = "    .subsections_via_symbols\n"
PLATFORM = ["-arch", "arm64", "-platform_version", "macos", "14.0", "14.0"]


def calls(n):
    return TEXT + "    bl _f\n" * n + "    ret\n    .globl _f\n_f: ret\n" + LAST


def sections(n):
    """Calls in 200 sections of different names, so none is merged with another."""
    many = f"    .rept {n // 200}\n    bl _f\n    .endr\n"
    rest = "".join(f"    .section __TEXT,__s{i},regular,pure_instructions\n    .p2align 2\n{many}" for i in range(200))
    return TEXT + "    bl _f\n    ret\n    .globl _f\n_f: ret\n" + rest + LAST


def globals_(n):
    return TEXT + "    ret\n" + "".join(f"    .globl _g{i}\n_g{i}: ret\n" for i in range(n)) + LAST


def code(n):
    return TEXT + f"    ret\n    .fill {n // 4}, 4, 0xd503201f\n" + LAST


def data(n):
    return TEXT + "    ret\n    .data\n_d: .fill {}, 1, 0x5a\n".format(n) + LAST


def functions(n):
    """Functions that call the next one and add up the address of a word: three relocations each."""
    bodies = "".join(f"    .globl _g{i}\n_g{i}: bl _g{(i + 1) % n}\n    adrp x0, _d{i % 1000}@PAGE\n"
                     f"    add x0, x0, _d{i % 1000}@PAGEOFF\n    ret\n" for i in range(n))
    return TEXT + "    bl _g0\n    ret\n" + bodies + "    .data\n" + "".join(f"_d{i}: .quad {i}\n" for i in range(1000)) + LAST


# In a file that is copied, the names of its own and of the next file have these letters in place of their numbers.
OWN, NEXT = "AAAAAA", "BBBBBB"

ONE = f"    .text\n    .globl _f{OWN}\n    .p2align 2\n_f{OWN}: bl _f{NEXT}\n    ret\n" + LAST

FRAME = """    .cfi_startproc
    stp x29, x30, [sp, #-16]!
    mov x29, sp
    .cfi_def_cfa w29, 16
    .cfi_offset w30, -8
    .cfi_offset w29, -16
"""
FIFTY = "    .text\n" + "".join(
    f"    .globl _f{OWN}_{k:02}\n    .p2align 2\n_f{OWN}_{k:02}:\n{FRAME}    adrp x0, l_s{k}@PAGE\n    add x0, x0, l_s{k}@PAGEOFF\n"
    f"    bl _f{NEXT}_{k:02}\n    ldp x29, x30, [sp], #16\n    ret\n    .cfi_endproc\n" for k in range(50)) + (
    "    .section __TEXT,__cstring,cstring_literals\n" + "".join(f'l_s{k}: .asciz "text {k} of {OWN}"\n' for k in range(50))
    + "    .data\n    .p2align 3\n" + "".join(f"    .quad l_s{k}\n    .quad _f{NEXT}_{k:02}\n" for k in range(50)) + LAST)


def object_of(folder, text, name="in"):
    source, made = os.path.join(folder, name + ".s"), os.path.join(folder, name + ".o")
    with open(source, "w", encoding="ascii") as file:
        file.write(text)
    subprocess.run(["clang", "--target=arm64-apple-macos14", "-c", "-o", made, source], check=True)
    return made


def one_object(make):
    return lambda folder, n: [object_of(folder, make(n))]


def many_objects(text, first):
    """Files of one text, each of which refers to the next, and the last to the first."""

    def make(folder, n):
        with open(object_of(folder, text, "one"), "rb") as file:
            one = file.read()
        made = [object_of(folder, TEXT + f"    bl {first}\n    ret\n" + LAST)]
        for i in range(n):
            made.append(os.path.join(folder, f"{i:06}.o"))
            with open(made[-1], "wb") as file:
                file.write(one.replace(OWN.encode(), b"%06d" % i).replace(NEXT.encode(), b"%06d" % ((i + 1) % n)))
        return made

    return make


def listed(pattern):
    """An object of 50,000 names, of which a list of n patterns exports some."""

    def make(folder, n):
        names = "".join(f"    .globl _n{i:05}_y{i:05}\n_n{i:05}_y{i:05}: ret\n" for i in range(50_000))
        listing = os.path.join(folder, "list")
        with open(listing, "w", encoding="ascii") as file:
            file.write("".join(pattern.format(i) + "\n" for i in range(n)))
        return ["-exported_symbols_list", listing, object_of(folder, TEXT + "    ret\n" + names + LAST)]

    return make


# A case: what it is, its sizes, and what makes the words of its inputs; -generate has none.
CASES = {
    "made": ("N made objects (`-generate N`)", (10_000,), None),
    "calls": ("one object of N calls", (1_000_000,), one_object(calls)),
    "sections": ("one object of 200 sections with N calls", (2_000_000,), one_object(sections)),
    "globals": ("one object of N global functions", (1_000_000,), one_object(globals_)),
    "code": ("one object of N bytes of code", (200_000_000,), one_object(code)),
    "data": ("one object of N bytes of data", (200_000_000,), one_object(data)),
    "functions": ("one object of N functions with three relocations each", (2_000, 20_000, 200_000), one_object(functions)),
    "files": ("N files of one function", (100, 1_000, 10_000), many_objects(ONE, "_f000000")),
    "mixed": ("N files of 50 functions with strings, pointers, calls and unwind entries", (20, 200, 2_000),
              many_objects(FIFTY, "_f000000_00")),
    "names": ("50,000 names, a list of N names", (2_000,), listed("_n{0:05}_y{0:05}")),
    "ends": ("50,000 names, a list of N patterns `*_y00017`", (2_000,), listed("*_y{:05}")),
    "middles": ("50,000 names, a list of N patterns `_*_y00017`", (2_000,), listed("_*_y{:05}")),
    "runs": ("50,000 names, a list of N patterns `*y00017*`", (2_000,), listed("*y{:05}*")),
}


def made_apart(make, folder, n):
    """The words that `make` answers. A process of its own makes the inputs, since a child's memory counts from that of its parent."""
    reads, writes = os.pipe()
    child = os.fork()
    if child == 0:
        with os.fdopen(writes, "w", encoding="utf-8") as pipe:
            pipe.write("\n".join(make(folder, n)))
        os._exit(0)
    os.close(writes)
    with os.fdopen(reads, encoding="utf-8") as pipe:
        words = pipe.read().split("\n")
    if os.waitpid(child, 0)[1]:
        sys.exit("bench: the inputs aren't made")
    return words


def run(words, error):
    """Seconds of the clock, seconds of a processor, and bytes of the run of words; None where it fails."""
    begun = time.monotonic()
    child = subprocess.Popen(words, stdout=subprocess.DEVNULL, stderr=error)
    _, status, usage = os.wait4(child.pid, 0)
    return None if status else (time.monotonic() - begun, usage.ru_utime + usage.ru_stime, usage.ru_maxrss * 1024)


def told(measured):
    if None in measured:
        return "fails"
    seconds, processor, memory = min(measured)
    return f"{seconds:.3f} s, {processor:.3f}, {memory // 1_000_000} MB"


def bench(name, program, size, runs):
    what, sizes, make = CASES[name]
    lld = shutil.which("ld64.lld-19") or shutil.which("ld64.lld-14") or shutil.which("ld64.lld")
    for n in (size,) if size else sizes:
        with tempfile.TemporaryDirectory() as folder:
            out = ["-o", os.path.join(folder, "out")]
            words = ["-generate", str(n)] if make is None else made_apart(make, folder, n)
            linkers = [[program, *out, *words]]
            if lld and make is not None:
                linkers += [[lld, *PLATFORM, *out, *words], [lld, "--threads=1", *PLATFORM, *out, *words]]
            measured = [[] for _ in linkers]
            for _ in range(runs):
                for linker, row in zip(linkers, measured):
                    row.append(run(linker, None if linker[0] == program else subprocess.DEVNULL))
            if None in measured[0]:
                sys.exit(f"bench: {program} fails")
            cells = [told(row) for row in measured] + ["-"] * (3 - len(measured))
            print(f"| {what.replace('N', f'{n:,}', 1)} | `{name}` | {' | '.join(cells)} |", flush=True)


if __name__ == "__main__":
    parser = argparse.ArgumentParser(description=__doc__, formatter_class=argparse.RawDescriptionHelpFormatter)
    parser.add_argument("--program", default=os.path.join(TOP, "crates", "wild_macho_main", "out", "wild_macho_main"))
    parser.add_argument("--runs", type=int, default=3)
    parser.add_argument("--size", type=int, default=0)
    parser.add_argument("cases", nargs="*", default=list(CASES))
    asked = parser.parse_args()
    for case in asked.cases:
        if case not in CASES:
            sys.exit(f"bench: there is no case '{case}', but {', '.join(CASES)}")
        bench(case, os.path.abspath(asked.program), asked.size, asked.runs)
