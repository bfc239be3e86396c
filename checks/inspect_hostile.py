"""Images that are made to cost much, or are changed byte by byte, and what the inspector says of them.

inspect_hostile.py [--program PATH] [--linked IMAGE] [--thin N] [--random N] [CASE..]

PATH is ./inspect where none is given; all cases are tried where none is named.

Nothing says that the parts of an image stand apart: nodes of a trie may be reached on several ways, names may share long beginnings, and
segments may share bytes of the file. A case fails where the answer isn't what the plain reader says (`plain_inspector.py`), or, of images
too large for that, the one that stands with it; or where it takes more than the seconds (user and system) or the memory that stand with
it: both have ample room, so that a slow machine passes. With `--linked IMAGE` each byte of a made image of 828 bytes is changed in nine
ways, it is cut behind each byte, it is changed in several bytes at once, and each byte of the linked image is changed that isn't far from
all its parts; with `--thin N` only each Nth of these is tried. With `--random N` the images of `random_images.py` are, too.
"""
import argparse
import os
import random
import re
import resource
import subprocess
import sys
import tempfile
from struct import pack

from image_maker import (BASE, bind, dense_image, image_of, library_of, names_of_imports, range_of, rebase, segment, starts_of, table_of,
                         trie_of, uleb, value_of)
from plain_inspector import CHAINED_FIXUPS, NO_START, PAGE, Rejected, report
from random_images import random_image

TOP = os.path.dirname(os.path.dirname(os.path.abspath(__file__)))
NODES = 1 << 22
# no run gets more memory than this
MOST = 6_000_000_000


def with_trie(trie):
    return library_of(bytes(8), None, trie)


def wide(value):
    """A number in four bytes."""
    return bytes([value & 0x7F | 0x80, value >> 7 & 0x7F | 0x80, value >> 14 & 0x7F | 0x80, value >> 21 & 0x7F])


def row_of(exported):
    """A trie of 2^22 nodes in a row, each with one edge of one letter: by the bytes of a node up to its edge. The last one exports."""
    out = bytearray()
    # a place has four bytes, whatever its value
    size = len(exported) + 3 + 4
    for number in range(1, NODES):
        out += exported + b"\x01a\0" + wide(size * number)
    return with_trie(bytes(out) + LEAF)


def edges(*children):
    """A node that exports nothing, by its edges."""
    return b"\0" + bytes([len(children)]) + b"".join(label + b"\0" + uleb(child) for label, child in children)


LEAF = value_of(0, 1) + b"\0"


def many_edges():
    """A node of 255 edges, in falling order, whose names are one byte each."""
    # each place has two bytes
    first = 2 + 255 * 4
    return with_trie(edges(*((bytes([number]), first + len(LEAF) * (number - 1)) for number in range(255, 0, -1))) + LEAF * 255)


def many_exports(count):
    return with_trie(trie_of({b"_name_%07d_of_a_function" % number: value_of(0, 16 * number) for number in range(count)}))


def many_fixups(count):
    """Pages full of words, each eighth a bind."""
    text, places = names_of_imports([b"_import%d" % number for number in range(1_000)])
    imports = [(1, 0, place, 0) for place in places]
    words, pages = bytearray(), []
    per_page = PAGE // 8
    for number in range(count):
        last = number % per_page == per_page - 1 or number == count - 1
        step = 0 if last else 2
        words += bind(number % 1_000, 0, step) if number % 8 == 0 else rebase(number, step)
        if number % per_page == 0:
            pages.append(0)
    return library_of(bytes(words), lambda starts: table_of([None, starts], imports, text), trie_of({b"_a": value_of(0, 1)}), pages=pages)


def many_imports():
    """1,000,000 imports, each named by a tail of one name of 1,000 bytes, with addends."""
    names = b"\0" + b"n" * 1_000 + b"\0"
    imports = [(1, 0, 1 + number % 1_000, number) for number in range(1_000_000)]
    return library_of(bytes(8), lambda starts: table_of([None, None], imports, names, 2), b"")


def long_imports():
    """500,000 imports, each named by one name of 8 MB."""
    names = b"\0" + b"n" * 8_000_000 + b"\0"
    return library_of(bytes(8), lambda starts: table_of([None, None], [(1, 0, 1, 0)] * 500_000, names), b"")


def many_pages():
    """65,535 pages of one word each; the words are zeros, which are rebases of the base, so that the file has holes."""
    count = 65_535
    made = table_of([None, starts_of(PAGE, [8] * count)], [])
    end = PAGE * (count + 1)
    link = -(-len(made) // PAGE) * PAGE
    commands = [segment(b"__TEXT", BASE, PAGE, 0, PAGE, 5), segment(b"__DATA", BASE + PAGE, PAGE * count, PAGE, PAGE * count, 3)]
    commands += [segment(b"__LINKEDIT", BASE + end, link, end, len(made), 1), range_of(CHAINED_FIXUPS, end, len(made))]
    return image_of(commands, b""), end, made


def empty_segments(count):
    """Segments of size 0 at one address, which share one record of 65,535 pages without words."""
    size = 32 + 72 * (count + 1) + 16
    text = -(-size // PAGE) * PAGE
    starts = starts_of(text, [NO_START] * 65_535)
    made = bytearray(table_of([None, starts], []))
    # as many segments as there are, with one record behind all offsets
    first = 4 + 4 * (count + 1)
    made[28:] = pack("<III", count + 1, 0, first) + pack("<I", first) * (count - 1) + starts
    made[8:24] = pack("<IIII", len(made), len(made), 0, 1)
    commands = [segment(b"__TEXT", BASE, text, 0, text, 5)]
    commands += [segment(b"__DATA", BASE + text, 0, 0, 0, 3)] * count
    commands.append(range_of(CHAINED_FIXUPS, text, len(made)))
    return image_of(commands, bytes(made), at=text)


def reexport_tails():
    """216,000 reexports in a row: the name of each runs on through all nodes behind it, up to one NUL. Three edges lead to each."""
    letters, size, count = range(1, 61), 2 + 60 * 6, 60**3
    first = size * (1 + 60 + 60 * 60)
    end = first + 5 * count + (1 << 14)
    out = bytearray()
    places = [[size * (1 + number) for number in range(60 + 60 * 60)], [first + 5 * number for number in range(count)]]
    children = places[0] + places[1]
    for number in range(0, len(children), 60):
        out += bytes([0, 60]) + b"".join(bytes([letter, 0]) + wide(child) for letter, child in zip(letters, children[number : number + 60]))
    for place in range(first, first + 5 * count, 5):
        out += wide(end - place - 2)[:2] + bytes([end - place - 2 >> 14]) + b"\x08\x01"
    return with_trie(bytes(out).ljust(end, b"x") + b"\0\0")


def write(path, image):
    with open(path, "wb") as file:
        if isinstance(image, tuple):
            head, end, made = image
            file.write(head)
            file.seek(end)
            file.write(made)
        else:
            file.write(image)


def overlapped(count, pages):
    """Segments that share the same pages of the file, each page full of words that overlap, 4,095 of them."""
    size = 32 + 72 * (count + 1) + 16
    text = -(-size // PAGE) * PAGE
    starts = [starts_of(text + number * pages * PAGE, [0] * pages) for number in range(count)]
    made = table_of([None, *starts], [])
    commands = [segment(b"__TEXT", BASE, text, 0, text, 5)]
    for number in range(count):
        commands.append(segment(b"__DATA", BASE + text + number * pages * PAGE, pages * PAGE, text, pages * PAGE, 3))
    commands.append(range_of(CHAINED_FIXUPS, text + pages * PAGE, len(made)))
    page = pack("<I", 0x00080000) * (PAGE // 4 - 1) + bytes(4)
    return image_of(commands, page * pages + made, at=text)


# A case: what it is, what makes it, what is wanted (None for what the plain reader says), and its limits in seconds and MB.
CASES = {
    "row": ("a trie of 4,194,304 nodes in a row, whose last node exports a name", lambda: row_of(b"\0"), "one name", 20, 400),
    "row-of-names": ("the same, and each node exports its name: names of 8.8 TB", lambda: row_of(value_of(0, 1)), "memory", 20, 800),
    "twice": ("a node that is reached by two names", lambda: with_trie(edges((b"a", 8), (b"b", 8)) + LEAF), None, 5, 100),
    "circle": ("a node whose edge leads back to it", lambda: with_trie(edges((b"a", 0))), None, 5, 100),
    "longer-circle": ("a node whose edge leads to that above it", lambda: with_trie(edges((b"a", 5)) + edges((b"bc", 0))), None, 5, 100),
    "past": ("a child past the end", lambda: with_trie(edges((b"a", 1 << 40))), None, 5, 100),
    "far-past": ("a child at the last place of 64 bits", lambda: with_trie(edges((b"a", (1 << 64) - 1))), None, 5, 100),
    "edges": ("a node of 255 edges", many_edges, None, 5, 100),
    "pages": ("65,535 pages of one word each, in a file of 1 GB", many_pages, "65,535 words", 60, 3_000),
    "exports": ("200,000 exports", lambda: many_exports(200_000), None, 10, 400),
    "fixups": ("1,000,000 fixups", lambda: many_fixups(1_000_000), None, 10, 400),
    "imports": ("1,000,000 imports", many_imports, None, 20, 2_000),
    "long-imports": ("500,000 imports that share a name of 8 MB", long_imports, "memory", 20, 400),
    "empty": ("4,000 segments of size 0 that share one record of 65,535 pages", lambda: empty_segments(4_000), "segments", 20, 400),
    "reexports": ("216,000 reexports whose names share their ends: names of 116 GB", reexport_tails, "memory", 20, 400),
    "overlapped": ("2,000 segments that share a page of 4,095 words that overlap", lambda: overlapped(2_000, 1), "memory", 20, 100),
    "few-overlapped": ("two segments that share a page of such words", lambda: overlapped(2, 1), None, 20, 100),
}
# a case that is tried only where it is named: the rules of the loader ask each word, here 196,560,000 of them, and a hundred times as many
# in a file of 16 MB
MORE = {"more-overlapped": ("480 segments that share 100 pages of such words", lambda: overlapped(480, 100), "memory", 240, 100)}


def run(words, out):
    """Status, standard error, seconds of the processor, MB; what is printed goes to a file. By a process of its own, since a child's
    greatest memory is told with what its parent had."""
    run = subprocess.run([sys.executable, __file__, "--run", out, *words], capture_output=True, check=True)
    status, seconds, memory = run.stdout.split()
    return int(status), run.stderr, float(seconds), int(memory)


def run_here(out, *words):
    # what asks for all memory is told that there is none
    resource.setrlimit(resource.RLIMIT_AS, (MOST, MOST))
    with open(out, "wb") as file:
        child = subprocess.Popen(words, stdout=file)
        _, status, usage = os.wait4(child.pid, 0)
    print(os.waitstatus_to_exitcode(status), usage.ru_utime + usage.ru_stime, usage.ru_maxrss // 1_000)


def told(said):
    """The rule and the place of a refusal's second line."""
    lines = said.split(b"\n")
    if len(lines) < 2 or lines[0] != b"macho_inspect: status 1":
        return None
    rule, place = re.search(rb"rule L(\d+)", lines[1]), re.search(rb"(?:at|offset) (\d+)", lines[1])
    return rule and place and (int(rule[1]), int(place[1]))


def is_as_plain(image, status, said, printed):
    """Whether an answer is what the plain reader says of an image."""
    try:
        wanted = report(image)
    except Rejected as fault:
        return status == 1 and printed == b"" and told(said) == (fault.rule, fault.place)
    return status == 0 and said == b"" and printed == wanted


def is_as_wanted(name, image, status, said, path):
    want = (CASES | MORE)[name][2]
    if want == "memory":
        return status == 5 and said.startswith(b"macho_inspect: status 5\n")
    with open(path, "rb") as file:
        printed = file.read()
    if want is None:
        return is_as_plain(image, status, said, printed)
    lines = printed.split(b"\n")
    if want == "segments":
        return status == 0 and len(lines) == 4_002 and all(line.startswith(b"segment ") for line in lines[:-1])
    if want == "one name":
        return status == 0 and lines[-2] == b"export 0 0x%016x %s" % (1, b"a" * (NODES - 1))
    fixups = [line for line in lines if line.startswith(b"fixup ")]
    wanted = [b"fixup 0x%016x rebase 0x%016x" % (BASE + PAGE * number + 8, BASE) for number in range(1, 65_536)]
    return status == 0 and fixups == wanted


class Changes:
    """Images that are changed a little, one by one."""

    def __init__(self, program, folder, thin):
        self.program, self.thin, self.count, self.bad, self.accepted = program, thin, 0, 0, 0
        self.given, self.out = os.path.join(folder, "changed"), os.path.join(folder, "out")

    def ask(self, what, image):
        self.count += 1
        if self.count % self.thin:
            return
        write(self.given, image)
        child = subprocess.run([self.program, self.given], capture_output=True)
        self.accepted += child.returncode == 0
        if not is_as_plain(image, child.returncode, child.stderr, child.stdout):
            self.bad += 1
            print("changed: %s: status %d, %r" % (what, child.returncode, child.stderr), flush=True)

    def ask_all(self, linked):
        dense = dense_image()
        for at, byte in enumerate(dense):
            for other in [byte ^ 1 << bit for bit in range(8)] + [0, 0xFF]:
                if other != byte:
                    self.ask("byte %d is %#x" % (at, other), dense[:at] + bytes([other]) + dense[at + 1 :])
        for end in range(len(dense)):
            self.ask("cut at %d" % end, dense[:end])
        chance = random.Random(61)
        for turn in range(2_000):
            image = bytearray(dense)
            for _ in range(chance.randint(2, 4)):
                image[chance.randrange(len(image))] = chance.choice([0, 1, 2, 8, 0x40, 0x7F, 0x80, 0xFF, chance.randrange(256)])
            self.ask("random change %d" % turn, bytes(image))
        for at, byte in enumerate(linked):
            # most of a linked image is room between its parts
            if any(linked[max(at - 8, 0) : at + 9]):
                self.ask("byte %d of a linked image" % at, linked[:at] + bytes([byte ^ chance.randint(1, 255)]) + linked[at + 1 :])


def run_changes(program, folder, asked):
    changes = Changes(program, folder, asked.thin)
    if asked.linked:
        with open(asked.linked, "rb") as file:
            changes.ask_all(file.read())
    print("| changed images | %d, of which %d are accepted |" % (changes.count // asked.thin, changes.accepted), flush=True)
    others = Changes(program, folder, 1)
    for seed in range(asked.random):
        others.ask("random image %d" % seed, random_image(seed))
    print("| random images | %d, of which %d are accepted |" % (others.count, others.accepted), flush=True)
    return not changes.bad and not others.bad


def run_case(program, folder, name):
    what, _, want, seconds, memory = (CASES | MORE)[name]
    given, out = os.path.join(folder, "image"), os.path.join(folder, "out")
    subprocess.run([sys.executable, __file__, "--make", given, name], check=True)
    status, said, took, peak = run([program, given], out)
    answer = "a report of %.1f MB" % (os.path.getsize(out) / 1e6) if status == 0 else said.decode().strip().replace("\n", ", ")
    print("| %s | %.1f MB | %s | %.2f s, %d MB |" % (what, os.path.getsize(given) / 1e6, answer, took, peak), flush=True)
    image = b""
    if want is None:
        with open(given, "rb") as file:
            image = file.read()
    return is_as_wanted(name, image, status, said, out) and took <= seconds and peak <= memory


def main():
    if sys.argv[1:2] == ["--run"]:
        run_here(*sys.argv[2:])
        return
    parser = argparse.ArgumentParser(description=__doc__, formatter_class=argparse.RawDescriptionHelpFormatter)
    parser.add_argument("--program", default=os.path.join(TOP, "inspect"))
    parser.add_argument("--linked", help="a linked image, which is changed byte by byte, too")
    parser.add_argument("--thin", type=int, default=1)
    parser.add_argument("--random", type=int, default=0)
    parser.add_argument("--make", metavar="PATH", help="write the image of the one case named, and inspect nothing")
    parser.add_argument("cases", nargs="*", default=list(CASES))
    asked = parser.parse_args()
    if asked.make:
        write(asked.make, (CASES | MORE)[asked.cases[0]][1]())
        return
    program, bad = os.path.abspath(asked.program), []
    for name in asked.cases:
        with tempfile.TemporaryDirectory() as folder:
            if not run_case(program, folder, name):
                bad.append(name)
    with tempfile.TemporaryDirectory() as folder:
        if not run_changes(program, folder, asked):
            bad.append("changed or random images")
    if bad:
        sys.exit("inspect_hostile: not as wanted: %s" % ", ".join(bad))


if __name__ == "__main__":
    main()
