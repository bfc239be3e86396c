"""Compares the text stubs of dynamic libraries with what a plain writer makes of them, what LLVM's tools read, and what links make of them.

stubs.py plain TBD COUNT              libraries of all kinds of names, and those of COUNT random links: the very text, or the refusal
stubs.py read TBD READTAPI NM LIB..   llvm-readtapi reads each stub, and finds the names that llvm-nm finds in the library
stubs.py links TBD LINK COUNT         COUNT random links with Mach-O libraries give the same bytes, or say the same, with their stubs
stubs.py many TBD                     a library of 200,000 names, whose time and memory are told
stubs.py names PATH                   writes a library of names that a text can hold

The plain writer is written from the formats: the library's symbol table in order, and the grammar of stubs.
"""
import json
import os
import re
import subprocess
import sys
import tempfile
from struct import pack, unpack_from

from image_maker import image_of, with_path
from inspect_hostile import run, run_here
from plain_linker import Library, Symbol, library_bytes, section_header, segment_command, symbol_bytes
from random_links import random_link

EXTERNAL, ABSOLUTE, PRIVATE, WEAK = 0x0F, 0x03, 0x1F, 0x80


class Unwritable(Exception):
    """The symbol whose name no text can hold, or None for the install name."""


def quoted(name, symbol):
    try:
        name.decode()
    except UnicodeDecodeError:
        raise Unwritable(symbol) from None
    if any(byte < 0x20 or byte == 0x7F for byte in name) or (b"'" in name and (b'"' in name or b"\\" in name)):
        raise Unwritable(symbol)
    quote = b'"' if b"'" in name else b"'"
    return quote + name + quote


def commands_of(library):
    place = 32
    for _ in range(unpack_from("<I", library, 16)[0]):
        kind, size = unpack_from("<II", library, place)
        yield kind, place, size
        place += size


def offered_by(library):
    """The install name; and of each symbol that is defined and that others see its number, its name, and whether it is weak."""
    install_name, symbols = None, []
    for kind, place, size in commands_of(library):
        if kind == 0xD:
            install_name = library[place + unpack_from("<I", library, place + 8)[0] : place + size].split(b"\0")[0]
        if kind == 2:
            rows, count, names, _ = unpack_from("<IIII", library, place + 8)
            for number in range(count):
                at, kind, _, description, _ = unpack_from("<IBBHQ", library, rows + 16 * number)
                if kind & 0xE0 == 0 and kind & 0x11 == 1 and kind & 0xE in (2, 0xE):
                    end = library.index(b"\0", names + at)
                    symbols.append((number, library[names + at : end], description & WEAK != 0))
    return install_name, symbols


def plain_stub(library):
    install_name, symbols = offered_by(library)
    seen, lists = set(), ([], [])
    text = b"--- !tapi-tbd\ntbd-version: 4\ntargets: [ arm64e-macos ]\ninstall-name: %s\ncurrent-version: 1\n" % quoted(install_name, None)
    for number, name, is_weak in symbols:
        written = quoted(name, number)
        if name not in seen:
            lists[is_weak].append(written)
            seen.add(name)
    if seen:
        text += b"exports:\n  - targets: [ arm64e-macos ]\n"
    for key, names in zip((b"symbols", b"weak-symbols"), lists):
        if names:
            text += b"    %s: [ %s ]\n" % (key, b", ".join(names))
    return text + b"...\n"


def stub_of(program, library, folder):
    """The stub by the program, or what it says."""
    given, out = os.path.join(folder, "library"), os.path.join(folder, "stub")
    with open(given, "wb") as file:
        file.write(library)
    if os.path.exists(out):
        os.remove(out)
    made = subprocess.run([program, given, out], capture_output=True)
    if made.returncode:
        if os.path.exists(out) or made.stdout:
            sys.exit("stubs: a refused library leaves a stub")
        return None, (made.returncode, made.stderr)
    with open(out, "rb") as file:
        return file.read(), (0, made.stderr)


def named_libraries():
    """Libraries of all kinds of names, each with what it is."""
    path = b"/usr/lib/libq.dylib"

    def library(*rows, path=path):
        return library_bytes(Library(path, [], [Symbol(*row) for row in rows]))

    here = (EXTERNAL, 1, 0, 0)
    yield "a name and a weak one", library((b"_a", *here), (b"_b", EXTERNAL, 1, WEAK, 0))
    yield "no names", library()
    yield "a single quote", library((b"_it's", *here))
    yield "a double quote", library((b'_"x"', *here))
    yield "a backslash", library((b"_a\\n", *here))
    yield "a single and a double quote", library((b"_a", *here), (b"_a'\"", *here))
    yield "a single quote and a backslash", library((b"_a'\\", *here))
    for byte in [*range(1, 0x20), 0x7F]:
        yield "the control character %#x" % byte, library((b"_a", *here), (b"_%c_" % byte, *here))
    yield "a control character behind ASCII", library((b"_\xc2\x85_", *here))
    for name in (b"_\xff", b"_\xc3", b"_\xed\xa0\x80", b"_\xc0\x80", b"_\xf4\x90\x80\x80", b"\x80"):
        yield "bytes that aren't UTF-8: %r" % name, library((b"_a", *here), (name, *here))
    yield "letters of many kinds", library(*((("_%s" % text).encode(), *here) for text in ("é", "日本", "\u2028", "😀")))
    signs = (b" ", b"_a b", b",", b"[ _a ]", b"{}", b"#", b"_a #b", b": ", b"-", b"...", b"---")
    yield "spaces, commas and brackets", library(*((name, *here) for name in signs))
    yield "weak, then strong", library((b"_a", EXTERNAL, 1, WEAK, 0), (b"_a", *here))
    yield "strong, then weak", library((b"_a", *here), (b"_a", EXTERNAL, 1, WEAK, 0))
    yield "a common", library((b"_c", 1, 0, 0x300, 8), (b"_a", *here))
    yield "an undefined name, then the same defined", library((b"_a", 1, 0, 0, 0), (b"_a", EXTERNAL, 1, WEAK, 0))
    yield "absolute symbols", library((b"_x", ABSOLUTE, 0, 0, 42), (b"_y", ABSOLUTE, 0, WEAK, 1 << 63))
    others = ((b"_h", PRIVATE, 1, 0, 0), (b"_l", 0xE, 1, 0, 0), (b"_s", 0x24, 1, 0, 0), (b"_i", 0xB, 0, 0, 1))
    yield "hidden, local and debugging symbols", library(*others)
    yield "a hidden one, then the same seen", library((b"_h", PRIVATE, 1, WEAK, 0), (b"_h", *here))
    yield "a bad name that is hidden", library((b"_\xff", PRIVATE, 1, 0, 0), (b"_a", *here))
    yield "a bad name that is there already", library((b"_'\"", *here), (b"_'\"", *here))
    yield "an install name with a quote", library((b"_a", *here), path=b"/it's/lib")
    yield "an install name that can't be written", library((b"_'\"", *here), path=b"/it's/\"lib\"")
    yield "an install name that isn't UTF-8", library((b"_a", *here), path=b"/\xff")
    yield "an empty install name", library((b"_a", *here), path=b"")


def libraries_of(seed):
    """The Mach-O libraries among the inputs of a random link, by their paths."""
    plain, files, _, _, _ = random_link(seed)
    return {path: content for path, content in files.items() if content[:4] == b"\xcf\xfa\xed\xfe" and content[12] == 6}


def compare_text(program, what, library, folder):
    text, (status, said) = stub_of(program, library, folder)
    try:
        wanted = plain_stub(library)
    except Unwritable as fault:
        symbol = fault.args[0]
        words = rb"install name" if symbol is None else rb"symbol\b.*\b%d\b" % symbol
        lines = said.split(b"\n")
        if status != 1 or lines[0] != b"macho_tbd: status 1" or not re.search(words, lines[1]):
            sys.exit("stubs: %s: status %d, %r; wanted is the refusal of %r" % (what, status, said, words))
        return
    if text != wanted or said:
        sys.exit("stubs: %s: the text is %r (%d, %r), and not %r" % (what, text, status, said, wanted))


def compare_plain(program, count):
    with tempfile.TemporaryDirectory() as folder:
        libraries = list(named_libraries())
        for seed in range(count):
            libraries += [("%s of random link %d" % (path, seed), content) for path, content in libraries_of(seed).items()]
        for what, library in libraries:
            compare_text(program, what, library, folder)
        one = libraries[0][1]
        for end in range(0, len(one), 7):
            text, (status, said) = stub_of(program, one[:end], folder)
            if text is not None or status != 1 or not said.startswith(b"macho_tbd: status 1\n"):
                sys.exit("stubs: a library that is cut at %d: status %d, %r" % (end, status, said))
    print("%d libraries" % len(libraries))


def names_by_nm(nm, path):
    """The names that are defined in a library and that others see."""
    listed = subprocess.run([nm, "-m", "--defined-only", path], capture_output=True, check=True).stdout
    seen = set()
    for line in listed.split(b"\n"):
        head, _, name = line.partition(b" external ")
        if name and b"private" not in head and b"(common)" not in head:
            seen.add(name.removeprefix(b"automatically hidden "))
    return seen


def compare_read(program, readtapi, nm, paths):
    with tempfile.TemporaryDirectory() as folder:
        for path in paths:
            stub, read = os.path.join(folder, "stub.tbd"), os.path.join(folder, "read")
            made = subprocess.run([program, path, stub], capture_output=True)
            if made.returncode:
                sys.exit("stubs: %s: status %d, %r" % (path, made.returncode, made.stderr))
            taken = subprocess.run([readtapi, "--filetype=tbd-v5", "-o", read, stub], capture_output=True)
            if taken.returncode or taken.stderr:
                sys.exit("stubs: %s: llvm-readtapi: %r" % (path, taken.stderr))
            with open(read, encoding="utf-8") as file:
                library = json.load(file)["main_library"]
            names = [name for item in library.get("exported_symbols", []) for kind in item["data"].values() for name in kind]
            by_nm = names_by_nm(nm, path)
            if len(names) != len(set(names)) or {name.encode() for name in names} != by_nm:
                sys.exit("stubs: %s: llvm-readtapi finds %s, llvm-nm finds %s" % (path, sorted(names), sorted(by_nm)))
    print("%d stubs are read" % len(paths))


def linked(link, folder, words):
    """The image, or the status and what is said."""
    out = os.path.join(folder, "out")
    if os.path.exists(out):
        os.remove(out)
    ran = subprocess.run([link, *words], cwd=folder, capture_output=True)
    if ran.returncode:
        return ran.returncode, ran.stderr
    with open(out, "rb") as file:
        return file.read(), ran.stdout


def compare_links(program, link, count):
    tried, seed, refused = 0, -1, 0
    with tempfile.TemporaryDirectory() as folder:
        while tried < count:
            seed += 1
            _, files, words, _, _ = random_link(seed)
            libraries = libraries_of(seed)
            if not libraries:
                continue
            tried += 1
            for path, content in files.items():
                with open(os.path.join(folder, path), "wb") as file:
                    file.write(content)
            by_library = linked(link, folder, words)
            for path, content in libraries.items():
                with open(os.path.join(folder, path), "wb") as file:
                    file.write(stub_of(program, content, folder)[0])
            by_stub = linked(link, folder, words)
            refused += isinstance(by_stub[0], int)
            if by_library != by_stub:
                sys.exit("stubs: random link %d is another one with the stubs" % seed)
    print("%d random links, of which %d are refused" % (tried, refused))


def many_names():
    names = [b"_name_%07d_of_a_function" % number for number in range(200_000)]
    size = len(names[0]) + 1
    rows = b"".join(pack("<IBBHQ", 1 + size * number, EXTERNAL, 1, 0, 0) for number in range(len(names)))
    own = with_path(0xD, b"/usr/lib/libmany.dylib", (1, 0, 0))
    start = 32 + len(own) + 24
    table = pack("<IIIIII", 2, 24, start, len(names), start + len(rows), 1 + size * len(names))
    return image_of([own, table], rows + b"\0" + b"".join(name + b"\0" for name in names))


def tell_many(program):
    with tempfile.TemporaryDirectory() as folder:
        given, out = os.path.join(folder, "given"), os.path.join(folder, "stub")
        with open(given, "wb") as file:
            file.write(many_names())
        status, said, took, peak = run([program, given, out], os.path.join(folder, "out"))
        with open(given, "rb") as library, open(out, "rb") as stub:
            if status or said or stub.read() != plain_stub(library.read()):
                sys.exit("stubs: 200,000 names: status %d, %r" % (status, said))
        print("| the stub of 200,000 names | %.1f MB | a stub of %.1f MB | %.2f s, %d MB |"
              % (os.path.getsize(given) / 1e6, os.path.getsize(out) / 1e6, took, peak))
        if took > 10 or peak > 400:
            sys.exit("stubs: 200,000 names take too much")


def write_names(path):
    """Writes a library that LLVM's tools read, too: it has a section with bytes."""
    rows = [(b"_it's", 0), (b'_"x"', 0), (b"_a\\n", 0), (b"_a b", WEAK), ("_日本".encode(), 0)]
    rows += [(b"_w", WEAK), (b"_w", 0), (b"_s", 0), (b"_s", WEAK)]
    symbols = [Symbol(name, EXTERNAL, 1, description, 0x1000) for name, description in rows]
    symbols += [Symbol(b"_x", ABSOLUTE, 0, 0, 42), Symbol(b"_h", PRIVATE, 1, 0, 0x1000), Symbol(b"_u", 1, 0, 0, 0)]
    strings, names = symbol_bytes(symbols, 4)
    own = with_path(0xD, b"/usr/lib/libnames.dylib", (1, 0, 0))
    start = 32 + 72 + 80 + len(own) + 24
    end = start + 16 + len(strings) + len(names)
    text = segment_command(b"__TEXT", 0, 0x4000, 0, end, 5, 1) + section_header(b"__text", b"__TEXT", 0x1000, 16, start, 2, 0x80000400)
    table = pack("<IIIIII", 2, 24, start + 16, len(symbols), start + 16 + len(strings), len(names))
    with open(path, "wb") as file:
        file.write(image_of([text, own, table], bytes(16) + strings + names))


if __name__ == "__main__":
    what, *words = sys.argv[1:]
    if what == "--run":
        run_here(*words)
    elif what == "plain":
        compare_plain(words[0], int(words[1]))
    elif what == "read":
        compare_read(*words[:3], words[3:])
    elif what == "links":
        compare_links(*words[:2], int(words[2]))
    elif what == "many":
        tell_many(words[0])
    elif what == "names":
        write_names(words[0])
