"""Compares images that the linker writes, byte by byte, with those of a plain linker that shares nothing with it.

`checks/whole_images.py` prints the digests of some images, which tests name. With a program, a folder and a count behind it, as
`checks/whole_images.sh` gives them, it links the inputs of these and so many random ones there, and compares. Where a link is refused for a
name, the line has to tell a name and the files of which that is true.
"""

import hashlib
import os
import subprocess
import sys

import link_kinds
from plain_linker import Library, Object, Options, Section, Symbol, link, object_bytes, stub_bytes
from random_links import BRANCH, INSTRUCTIONS, POINTER, SECTION_POINTER, random_link

UUID = bytes.fromhex("00112233445566778899aabbccddeeff")
COUNTED = bytes(range(16))
MAIN, CALL, RETURN, FORWARD = (bytes.fromhex(text) for text in ("00008052c0035fd6", "00000094c0035fd6", "c0035fd6", "00000014c0035fd6"))
F, F_OUT = Symbol(b"_f", 0x0F, 1, 0, 8), Symbol(b"_f", 1, 0, 0, 0)
SYSTEM = Library(b"/usr/lib/libSystem.B.dylib", [b"_exit", b"_write"])
STUB = b"""--- !tapi-tbd
tbd-version:     4
targets:         [ x86_64-macos, arm64-macos,
                   arm64e-macos ]
install-name:    '/usr/lib/libSystem.B.dylib'
current-version: 1351
exports:
  - targets:         [ x86_64-macos, arm64-macos, arm64e-macos ]
    symbols:         [ _exit,
                       _write ]
    objc-classes:    [ Skipped ]
...
"""


def code(data, relocations=()):
    return Section(b"__TEXT", b"__text", 2, INSTRUCTIONS, data, len(data), 0, list(relocations))


def pointer_to(symbol):
    return Section(b"__DATA", b"__data", 3, 0, bytes(8), 8, 8, [(0, symbol | POINTER << 24)])


def entry_of(section):
    """An unwind entry of the 8 bytes at 0 of a section: no frame, no personality function, no language data."""
    data = bytes(8) + bytes.fromhex("0800000000000002") + bytes(16)
    return Section(b"__LD", b"__compact_unwind", 3, 0x02000000, data, 32, 8, [(0, section | SECTION_POINTER << 24)])


def uuid_of(files):
    return hashlib.sha256(b"".join(files)).digest()[:16]


def made(number, count):
    """An object of `-generate`: a function that goes on to the next one, and a pointer to it."""
    name, is_last = b"_f%d" % number if number else b"_main", number == count - 1
    branch = [] if is_last else [(0, 2 | BRANCH << 24)]
    symbols = [Symbol(name, 0x0F, 1, 0, 0), Symbol(b"_p%d" % number, 0x0F, 2, 0, 8)]
    symbols += [] if is_last else [Symbol(b"_f%d" % (number + 1), 0x01, 0, 0, 0)]
    return Object([code(MAIN if is_last else FORWARD, branch), pointer_to(0)], symbols)


def known_links():
    """Names, files by their paths, words, and the image."""
    start = Symbol(b"_main", 0x0F, 1, 0, 0)
    alone = Object([code(MAIN)], [start])
    words = ["-o", "out", "in.o", "-uuid", UUID.hex()]
    yield "alone", {"in.o": object_bytes(alone)}, words, link([alone], Options(b"out", UUID))
    start_and_exit = [start, Symbol(b"_exit", 1, 0, 0, 0)]
    caller = Object([code(CALL, [(0, 1 | BRANCH << 24)])], start_and_exit)
    files = {"in.o": object_bytes(caller), "s.tbd": STUB}
    options = Options(b"out", uuid_of(files.values()))
    yield "through a stub", files, ["-o", "out", "in.o", "s.tbd"], link([caller, SYSTEM], options)
    bare = Object([code(RETURN)], [])
    files = {"in.o": object_bytes(bare)}
    options = Options(b"out", uuid_of(files.values()), True)
    yield "a library", files, ["-dylib", "-o", "out", "in.o"], link([bare], options)
    pointing = Object([code(CALL, [(0, 1 | BRANCH << 24)]), pointer_to(0)], start_and_exit)
    unwound = Object([code(MAIN), entry_of(1)], [start])
    words = ["-o", "out", "in.o", "-uuid", COUNTED.hex()]
    options = Options(b"out", COUNTED)
    yield "a call and a pointer", {"in.o": object_bytes(pointing), "s.tbd": STUB}, words + ["s.tbd"], link([pointing, SYSTEM], options)
    yield "an unwind entry", {"in.o": object_bytes(unwound)}, words, link([unwound], options)
    library = Library(b"/usr/lib/libf.dylib", [b"_f"])
    calls, calls_out = (Object([code(CALL + RETURN, [(0, 1 | BRANCH << 24)])], [start, other]) for other in (F, F_OUT))
    files = {"calls.o": object_bytes(calls)}
    yield "a call", files, ["calls.o"], link([calls], Options(b"a.out", uuid_of(files.values())))
    options = Options(b"libcalls.dylib", uuid_of(files.values()), True)
    yield "a call in a library", files, ["-dylib", "-o", "libcalls.dylib", "calls.o"], link([calls], options)
    files = {"out.o": object_bytes(calls_out), "libf.tbd": stub_bytes(library)}
    options = Options(b"a.out", uuid_of(files.values()))
    yield "a call out", files, ["out.o", "libf.tbd"], link([calls_out, library], options)
    for count in (1, 2, 100, 500, 10_000):
        objects = [made(number, count) for number in range(count)]
        options = Options(b"a.out", uuid_of(object_bytes(one, 0x2000, 1) for one in objects))
        yield "made objects, %d" % count, {}, ["-generate", str(count)], link(objects, options)


def ran(program, folder, files, words):
    """The image that the program writes, or None, with what it prints."""
    for path, content in files.items():
        with open(os.path.join(folder, path), "wb") as file:
            file.write(content)
    run = subprocess.run([program, *words], cwd=folder, capture_output=True, text=True)
    if run.returncode:
        return None, run.stderr
    output = words[words.index("-o") + 1] if "-o" in words else "a.out"
    with open(os.path.join(folder, output), "rb") as file:
        return file.read(), run.stdout


def compare(program, folder, name, files, words, want):
    got, printed = ran(program, folder, files, words)
    if isinstance(want, list) and got is None:
        if want and printed not in want:
            sys.exit("%s: %r is told; wanted one of %r" % (name, printed, want))
        return
    if got != want:
        if got is None or isinstance(want, list):
            sys.exit("%s: %s" % (name, "an image is written of a link that is refused" if isinstance(want, list) else printed.strip()))
        same = [one == other for one, other in zip(got, want)]
        place = same.index(False) if False in same else len(same)
        sys.exit("%s: the image of %d bytes differs from that of %d at %#x" % (name, len(got), len(want), place))
    if not files and hashlib.sha256(want).hexdigest() not in printed:
        sys.exit("%s: another digest is printed" % name)


def compare_random(program, folder, count):
    """Compares random links, and asks that all that `link_kinds` names occurs."""
    counts = dict.fromkeys(link_kinds.ALL, 0)
    for seed in range(count):
        plain, files, words, want, told = random_link(seed)
        compare(program, folder, "random link %d" % seed, files, words, want)
        for kind in link_kinds.what_occurs(plain, told) & counts.keys():
            counts[kind] += 1
    never = [kind for kind, number in counts.items() if not number]
    if never:
        sys.exit("of %d random links none has: %s" % (count, ", ".join(never)))


def main():
    for name, files, words, want in known_links():
        if len(sys.argv) < 4:
            print(hashlib.sha256(want).hexdigest(), len(want), name)
        else:
            compare(sys.argv[1], sys.argv[2], name, files, words, want)
    if len(sys.argv) > 3:
        compare_random(*sys.argv[1:3], int(sys.argv[3]))


if __name__ == "__main__":
    main()
