"""Links objects that are made to cost much, and tells what each answers, its processor time and its memory. One of them has 32 MB, and the
others have at most 16 MB.

hostile.py [--program PATH] [CASE..]    PATH is ./link where none is given; all cases where none is named

Of an object nothing says that its parts stand apart: sections may share their bytes and their relocations, and symbols their names.
So a small object may ask for much work, or for an image of gigabytes. A case fails where the answer isn't the one wanted, or where it
takes more than the seconds (user and system) or the memory that stand with it: both have ample room, so that a slow machine passes.
"""
import argparse
import itertools
import os
import subprocess
import sys
import tempfile
from struct import pack

from plain_linker import section_header, segment_command

TOP = os.path.dirname(os.path.dirname(os.path.abspath(__file__)))
LARGEST = 16_000_000
POINTER, BRANCH = 0x0E, 0x2D
CODE = 0x80000400
RETURN = b"\xc0\x03\x5f\xd6"
MAIN = (b"_main", 0x0F, 1, 0, 0)


def relocations(places, symbol, kind):
    return b"".join(pack("<II", place, symbol | kind << 24) for place in places)


def object_of(sections, data, moved, symbols, names=None, commands=b"", count=0):
    """An object of sections (segment, name, address, size, offset in data, exponent, flags, offset in moved, relocations) over the
    bytes `data` and the relocations `moved`; symbols (name or place in names, kind, section, description, value); `count` more commands."""
    size = 72 + 80 * len(sections) + 24 + len(commands)
    start = 32 + size
    behind = start + len(data)
    headers, end = bytearray(), 0
    for segment, name, address, length, at, exponent, flags, table, number in sections:
        in_file = 0 if flags & 0xFF == 1 else start + at
        where = (behind + table, number) if number else (0, 0)
        headers += section_header(name, segment, address, length, in_file, exponent, flags, 0, where)
        end = max(end, address + length)
    rows, strings = bytearray(), bytearray(names or b"\0")
    for symbol in symbols:
        place = symbol[0]
        if isinstance(place, bytes):
            place = len(strings)
            strings += symbol[0] + b"\0"
        rows += pack("<IBBHQ", place, *symbol[1:])
    table = behind + len(moved)
    out = pack("<IIIIIIII", 0xFEEDFACF, 0x0100000C, 0, 1, 2 + count, size, 0, 0)
    out += segment_command(b"", 0, end, start, len(data), 7, len(sections)) + headers + commands
    out += pack("<IIIIII", 2, 24, table, len(symbols), table + len(rows), len(strings))
    return out + data + moved + rows + strings


def text_alone():
    return (b"__TEXT", b"__text", 0, 4, 0, 2, CODE, 0, 0)


def one_name():
    """100,000 local symbols that share one name of 10 MB."""
    names = b"\0_main\0" + b"l" * 10_000_000 + b"\0"
    symbols = [(1, *MAIN[1:])] + [(7, 0x0E, 1, 0, 0)] * 100_000
    return object_of([text_alone()], RETURN, b"", symbols, names)


def tails():
    """100,000 local symbols that are named by tails of one name of 10 MB."""
    names = b"\0_main\0" + b"l" * 10_000_000 + b"\0"
    symbols = [(1, *MAIN[1:])] + [(7 + 100 * number, 0x0E, 1, 0, 0) for number in range(100_000)]
    return object_of([text_alone()], RETURN, b"", symbols, names)


def few_tails():
    """3,000 local symbols that are named by tails of one name of 1 MB: the image has each name."""
    names = b"\0_main\0" + b"l" * 1_000_000 + b"\0"
    symbols = [(1, *MAIN[1:])] + [(7 + number, 0x0E, 1, 0, 0) for number in range(3_000)]
    return object_of([text_alone()], RETURN, b"", symbols, names)


def offered():
    """100,000 global functions that are named by tails of one name of 10 MB: exports of 900 GB."""
    names = b"\0_main\0" + b"g" * 10_000_000 + b"\0"
    symbols = [(1, *MAIN[1:])] + [(7 + number, 0x0F, 1, 0, 0) for number in range(100_000)]
    return object_of([text_alone()], RETURN, b"", symbols, names)


def sought():
    """100,000 global symbols that aren't defined and share one name of 10 MB, which nothing uses."""
    names = b"\0_main\0" + b"g" * 10_000_000 + b"\0"
    symbols = [(1, *MAIN[1:])] + [(7, 1, 0, 0, 0)] * 100_000
    return object_of([text_alone()], RETURN, b"", symbols, names)


def used(step):
    """30,000 symbols named by one string of 4 MB, each so many bytes further on: the first defines it, others use it or are local."""
    names = b"\0_main\0" + b"g" * 4_000_000 + b"\0"
    others = ((0x0E, 1, 0, 0), (1, 0, 0, 0))
    symbols = [(7 + step * number, *others[number % 2]) for number in range(1, 30_000)]
    return object_of([text_alone()], RETURN, b"", [(1, *MAIN[1:]), (7, 0x0F, 1, 0, 0), *symbols], names)


def bucket():
    """524,286 undefined symbols, and one function: their hashes by FNV-1a, without a seed, leave one rest by 2^19, the number of rows
    and one. A name's end is looked up by the low bits of the hash so far, which it brings to 0."""
    prime, modulus = 0x100000001B3, 1 << 19
    inverse = pow(prime, -1, modulus)
    letters, ends = range(48, 112), {}
    for end in itertools.product(letters, repeat=3):
        low = 0
        for byte in reversed(end):
            low = low * inverse % modulus ^ byte
        ends[low] = bytes(end)
    symbols = [MAIN]
    for front in itertools.product(letters, repeat=4):
        low = 0xCBF29CE484222325 % modulus
        for byte in (95, *front):
            low = (low ^ byte) * prime % modulus
        if low in ends:
            symbols.append((b"_" + bytes(front) + ends[low], 1, 0, 0, 0))
        if len(symbols) == modulus - 1:
            return object_of([text_alone()], RETURN, b"", symbols)


def alike():
    """3,800 undefined symbols whose names of 4,104 bytes differ in the middle alone."""
    symbols = [MAIN] + [(b"_" + b"a" * 2_050 + b"%04d" % number + b"a" * 2_049, 1, 0, 0, 0) for number in range(3_800)]
    return object_of([text_alone()], RETURN, b"", symbols)


def letters(choices, count):
    """So many texts of different letters in a row, the first ones in the order of the alphabet."""
    rows = itertools.chain.from_iterable(itertools.combinations(choices, number) for number in (5, 6, 4, 7))
    return list(itertools.islice(map("".join, rows), count))


def backwards():
    """20,000 global functions, each named by letters in the order against the alphabet."""
    names = [text[::-1].encode() for text in letters("abcdefghijklmnopqrstuvwxyz", 20_000)]
    return object_of([text_alone()], RETURN, b"", [MAIN, *((b"_" + name, 0x0F, 1, 0, 0) for name in names)])


def starred():
    """20,000 patterns of letters in the order of the alphabet, with a star on each side of each: none matches."""
    return "".join("*" + "*".join(text) + "*\n" for text in letters("abcdefghijklmnopqrstuvwxyz", 20_000))


def shared(sections, count, section=b"__data"):
    """Sections of one name that share one table of `count` pointers to `_main`, and their bytes."""
    moved = relocations(range(0, 8 * count, 8), 0, POINTER)
    headers = [text_alone()]
    for number in range(sections):
        headers.append((b"__DATA", section, 8 + number * 8 * count, 8 * count, 8, 3, 0, 0, count))
    return object_of(headers, RETURN + bytes(4 + 8 * count), moved, [MAIN])


def overlapping():
    """2,000 sections that share one table of 100,000 pointers, all at one place."""
    moved = relocations([0] * 100_000, 0, POINTER)
    headers = [text_alone()] + [(b"__DATA", b"__data", 8 + number * 8, 8, 8, 3, 0, 0, 100_000) for number in range(2_000)]
    return object_of(headers, RETURN + bytes(12), moved, [MAIN])


def branches(sections):
    """Sections that share one table of 100,000 branches to `_main`, and their instructions: of 320 the last ones are in reach."""
    moved = relocations(range(0, 400_000, 4), 0, BRANCH)
    headers = [text_alone()]
    headers += [(b"__TEXT", b"__text", 4 + number * 400_000, 400_000, 4, 2, CODE, 0, 100_000) for number in range(sections)]
    return object_of(headers, RETURN + b"\0\0\0\x94" * 100_000, moved, [MAIN])


def commands(count):
    """Load commands that nobody knows."""
    return object_of([text_alone()], RETURN, b"", [MAIN], None, pack("<II", 0x7F, 8) * count, count)


def mapped():
    """A million load commands that nobody knows, and 95,000 sections."""
    headers = [(b"__TEXT", b"__text", 4 * number, 4, 0, 2, CODE, 0, 0) for number in range(95_000)]
    return object_of(headers, RETURN, b"", [MAIN], None, pack("<II", 0x7F, 8) * 1_000_000, 1_000_000)


def sections():
    """255 sections of one name, each aligned to 16 KiB, with a pointer."""
    headers = [text_alone()]
    headers += [(b"__DATA", b"__data", 0x4000 * (number + 1), 8, 8, 14, 0, 0, 1) for number in range(255)]
    return object_of(headers, RETURN + bytes(12), relocations([0], 0, POINTER), [MAIN])


def pages(sections, last=0):
    """Sections that share 512 KiB, with one pointer in each of their 32 pages; and one behind them with so many of these pages."""
    size = 0x4000 * 32
    moved = relocations(range(0, size, 0x4000), 0, POINTER)
    headers = [text_alone()]
    for number in range(sections + (last > 0)):
        count = 32 if number < sections else last
        headers.append((b"__DATA", b"__data", 0x4000 + number * size, 0x4000 * count, 8, 14, 0, 0, count))
    return object_of(headers, RETURN + bytes(4 + size), moved, [MAIN])


# A case: what it is, what makes it, the end of the line that is wanted (None for an image), and its limits in seconds and MB.
CASES = {
    "one-name": ("100,000 local symbols that share one name of 10 MB", one_name, "image too large", 20, 400),
    "tails": ("100,000 local symbols named by tails of one name of 10 MB", tails, "image too large", 20, 400),
    "few-tails": ("3,000 local symbols named by tails of one name of 1 MB", few_tails, None, 240, 6_000),
    "offered": ("100,000 global functions named by tails of one name of 10 MB", offered, "memory", 20, 400),
    "sought": ("100,000 undefined symbols that share one name of 10 MB", sought, None, 20, 400),
    "used": ("30,000 symbols, half of them undefined, that share one name of 4 MB with its definition", lambda: used(0), "image too large", 20, 400),
    "used-tails": ("30,000 symbols, half of them undefined, named by tails of one name of 4 MB", lambda: used(1), "image too large", 20, 400),
    "bucket": ("524,286 undefined symbols whose names share a bucket, were it chosen without a seed", bucket, None, 20, 400),
    "alike": ("3,800 undefined symbols whose names of 4,104 bytes differ in the middle", alike, None, 20, 400),
    "stars": ("20,000 functions, and a list of 20,000 patterns with five stars or more that none matches", backwards, None, 120, 400),
    "overlap": ("2,000 sections that share one table of 100,000 relocations at one place", overlapping, "overlap", 60, 400),
    "branches": ("2,000 sections that share one table of 100,000 branches", lambda: branches(2_000), "out of range", 240, 3_000),
    "reach": ("320 sections that share one table of 100,000 branches", lambda: branches(320), None, 240, 3_000),
    "pointers": ("200 sections that share one table of 100,000 pointers", lambda: shared(200, 100_000), None, 240, 3_000),
    "commands": ("2,000,000 load commands that nobody knows", lambda: commands((LARGEST - 1_000) // 8), None, 20, 400),
    "more-commands": ("4,000,000 load commands that nobody knows, in 32 MB", lambda: commands((2 * LARGEST - 1_000) // 8), None, 20, 400),
    "map": ("the map of 95,000 sections behind 1,000,000 load commands", mapped, None, 20, 400),
    "sections": ("255 sections of one name", sections, None, 20, 400),
    "pages": ("a chain of 65,535 pages, of an image of 1 GB", lambda: pages(2047, 31), None, 240, 3_000),
    "more-pages": ("a chain of 65,536 pages", lambda: pages(2048), "pages", 60, 400),
}

# What a case gives the linker beside its object: words, and the text of an export list.
WORDS = {"map": ["-map"]}
LISTS = {"stars": starred}


def run(words):
    """Status, last line of standard error, seconds of the processor, MB."""
    child = subprocess.Popen(words, stdout=subprocess.DEVNULL, stderr=subprocess.PIPE, text=True)
    lines = child.stderr.read().strip().split("\n")
    _, status, usage = os.wait4(child.pid, 0)
    return os.waitstatus_to_exitcode(status), lines[-1], usage.ru_utime + usage.ru_stime, usage.ru_maxrss // 1_000


def is_as_wanted(status, line, want):
    return status == 0 if want is None else status == (5 if want == "memory" else 1) and want in line


if __name__ == "__main__":
    parser = argparse.ArgumentParser(description=__doc__, formatter_class=argparse.RawDescriptionHelpFormatter)
    parser.add_argument("--program", default=os.path.join(TOP, "link"))
    parser.add_argument("--make", metavar="PATH", help="write the object of the one case named, and link nothing")
    parser.add_argument("cases", nargs="*", default=list(CASES))
    asked = parser.parse_args()
    if asked.make:
        with open(asked.make, "wb") as file:
            file.write(CASES[asked.cases[0]][1]())
        sys.exit()
    bad = []
    for name in asked.cases:
        what, _, want, seconds, memory = CASES[name]
        with tempfile.TemporaryDirectory() as folder:
            given, out = os.path.join(folder, "in.o"), os.path.join(folder, "out")
            # by a process of its own: a child's greatest memory is told with what its parent had
            subprocess.run([sys.executable, __file__, "--make", given, name], check=True)
            length = os.path.getsize(given)
            assert length <= (2 * LARGEST if name == "more-commands" else LARGEST), f"{name} has {length} bytes"
            words = [*WORDS.get(name, []), "-o", out, given]
            if name in LISTS:
                listed = os.path.join(folder, "list")
                with open(listed, "w", encoding="utf-8") as file:
                    file.write(LISTS[name]())
                words += ["-exported_symbols_list", listed]
            status, line, took, peak = run([os.path.abspath(asked.program), *words])
            size = os.path.getsize(out) if os.path.exists(out) else 0
        answer = f"an image of {size / 1e6:.1f} MB" if status == 0 else line.replace(folder + "/", "")
        print(f"| {what} | {length / 1e6:.1f} MB | {answer[:100]} | {took:.1f} s, {peak} MB |", flush=True)
        if not is_as_wanted(status, line, want) or took > seconds or peak > memory:
            bad.append(name)
    if bad:
        sys.exit(f"hostile: not as wanted: {', '.join(bad)}")
