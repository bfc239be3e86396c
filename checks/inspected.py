"""Compares what the inspector prints of an image with what llvm-objdump reads of it: segments, libraries, imports, exports, fixups.

inspected.py INSPECT OBJDUMP IMAGE..             compares both, and the plain reader (`plain_inspector.py`)
inspected.py INSPECT OBJDUMP --of-lld IMAGE..    the same of images of ld64.lld, which are first brought into the form that is read here

Images of ld64.lld are refused as they are: the size in memory of `__LINKEDIT` isn't a multiple of 16 KiB (rule L5), and with that rounded
up the fixup table has pointer format 2 (rule L8), where these rules take format 6 alone: there a pointer says an offset from the image's
first byte, and in format 2 an address. And an import of C++ may be sought in all images, which has no library's number (rule L9). Each
refusal is asked for; then the number is rounded up, each pointer is changed from an address to an offset, and such an import gets the first
library.
"""
import os
import re
import subprocess
import sys
import tempfile
from struct import pack_into, unpack_from

from inspect_hostile import told
from plain_inspector import CHAINED_FIXUPS, PAGE, SEGMENT, Rejected, report

ANY = 1 << 64
KINDS = {"weak_def": 4, "per-thread": 1, "absolute": 2}


def read(objdump, image, *options):
    run = subprocess.run([objdump, "--macho", *options, image], capture_output=True, text=True)
    if run.returncode or run.stderr:
        sys.exit("inspected: %s %s: status %d, %s" % (image, " ".join(options), run.returncode, run.stderr))
    return run.stdout.split("\n")


def segments_and_libraries(objdump, image):
    """Name, address, size and protection of each segment, and the paths of libraries."""
    segments, libraries, kind = [], [], None
    for line in read(objdump, image, "--private-headers"):
        words = line.split()
        if words[:1] == ["cmd"]:
            kind = words[1]
        elif words[:1] == ["Section"]:
            kind = None
        elif kind == "LC_SEGMENT_64" and words[:1] == ["segname"]:
            segments.append([words[1]])
        elif kind == "LC_SEGMENT_64" and words[:1] in (["vmaddr"], ["vmsize"]):
            segments[-1].append(int(words[1], 16))
        elif kind == "LC_SEGMENT_64" and words[:1] == ["initprot"]:
            segments[-1].append(sum(bit for letter, bit in zip(words[1], (1, 2, 4)) if letter != "-"))
        elif kind == "LC_LOAD_DYLIB" and words[:1] == ["name"]:
            libraries.append(line.strip()[5:].rsplit(" (offset", 1)[0])
    return segments, libraries


def imports(objdump, image):
    """Number of the library, its short name, name and addend of each import."""
    listed = []
    for line in read(objdump, image, "--chained-fixups"):
        if found := re.match(r"  lib_ordinal = (-?\d+) \((.*)\)$", line):
            listed.append([int(found[1]), found[2], None, 0])
        elif found := re.match(r"  name_offset = \d+ \((.*)\)$", line):
            listed[-1][2] = found[1]
        elif found := re.match(r"  addend +=( -?\d+)$", line):
            listed[-1][3] = int(found[1])
    return listed


def short_name(path):
    return os.path.basename(path).split(".")[0]


def exports(objdump, image, base, libraries):
    """Name, flags and value of each export, by rising names. To an absolute symbol's value, too, LLVM adds the base."""
    listed = []
    for line in read(objdump, image, "--exports-trie"):
        if found := re.match(r"\[re-export\] (\S+) \((?:(\S+) )?from (\S+)\)$", line):
            listed.append((found[1], 8, 1 + [short_name(path) for path in libraries].index(found[3])))
        elif found := re.match(r"0x([0-9A-F]+)  (\S+)(?: \[(.*)\])?$", line):
            flags = sum(KINDS[kind] for kind in (found[3] or "").split(", ") if kind)
            listed.append((found[2], flags, (int(found[1], 16) - base) % ANY))
    return sorted(listed, key=lambda row: row[0].encode())


def fixups(objdump, image, named):
    """The lines of the fixups, in the order of LLVM. It tells an import by its name: the number is the word's, and has that name."""
    for line in read(objdump, image, "--dyld-info"):
        if found := re.match(r"\S+ +\S+ +0x([0-9A-F]+) +0x([0-9A-F]{16}) rebase +0x([0-9A-F]+)$", line):
            yield "fixup 0x%016x rebase 0x%016x" % (int(found[1], 16), int(found[3], 16))
        elif found := re.match(r"\S+ +\S+ +0x([0-9A-F]+) +0x([0-9A-F]{16}) bind +0x([0-9A-F]+) +(\S+) +(\S+)(?: \(weak import\))?$", line):
            number, addend = int(found[2], 16) & 0xFFFFFF, int(found[3], 16)
            if [found[4], found[5]] != named[number][1:3]:
                sys.exit("inspected: %s: import %d isn't %s" % (image, number, found[5]))
            # LLVM tells an addend below 0 as a number of 64 bits
            yield "fixup 0x%016x bind %d %d" % (int(found[1], 16), number, addend - ANY * (addend >> 63))
        elif "bind" in line or "rebase" in line:
            sys.exit("inspected: %s: LLVM's line isn't understood: %s" % (image, line))


def lines_of_llvm(objdump, image):
    segments, libraries = segments_and_libraries(objdump, image)
    base = next(row[1] for row in segments if row[0] == "__TEXT")
    named = imports(objdump, image)
    lines = ["segment %s 0x%016x 0x%016x %d" % tuple(row) for row in segments]
    lines += ["library %d %s" % row for row in enumerate(libraries, 1)]
    lines += ["import %d %s %d" % (number, name, addend) for number, _, name, addend in named]
    lines += ["export %d 0x%016x %s" % (flags, value, name) for name, flags, value in exports(objdump, image, base, libraries)]
    return lines + list(fixups(objdump, image, named))


def inspected(program, image):
    run = subprocess.run([program, image], capture_output=True)
    return run.returncode, run.stdout, run.stderr


def compare(program, objdump, image):
    status, printed, said = inspected(program, image)
    if status or said:
        sys.exit("inspected: %s: status %d, %s" % (image, status, said.decode()))
    with open(image, "rb") as file:
        if printed != report(file.read()):
            sys.exit("inspected: %s: the plain reader says something else" % image)
    lines, wanted = printed.decode().split("\n")[:-1], lines_of_llvm(objdump, image)
    if lines != wanted:
        ours = [line for line in lines if line not in set(wanted)]
        theirs = [line for line in wanted if line not in set(lines)]
        sys.exit("inspected: %s: here %s, and by LLVM %s" % (image, ours[:5] or "another order", theirs[:5] or "another order"))
    return len(lines)


def refused_by(program, image, rule):
    """Whether an image is refused for a rule, by the inspector and by the plain reader."""
    status, _, said = inspected(program, image)
    with open(image, "rb") as file:
        try:
            report(file.read())
        except Rejected as fault:
            return status == 1 and fault.rule == rule and told(said) == (rule, fault.place)
    return False


def commands_of(image):
    place = 32
    for _ in range(unpack_from("<I", image, 16)[0]):
        kind, size = unpack_from("<II", image, place)
        yield kind, place
        place += size


def rounded(image):
    """Rounds the size in memory of `__LINKEDIT` up; answers by how much."""
    for kind, place in commands_of(image):
        if kind == SEGMENT and image[place + 8 : place + 24].rstrip(b"\0") == b"__LINKEDIT":
            size = unpack_from("<Q", image, place + 32)[0]
            pack_into("<Q", image, place + 32, size + -size % PAGE)
            return -size % PAGE


def with_offsets(image):
    """Changes pointers of format 2, which say addresses, to those of format 6, which say offsets from `__TEXT`; answers how many words."""
    segments = [unpack_from("<16sQQQ", image, place + 8) for kind, place in commands_of(image) if kind == SEGMENT]
    base = next(row[1] for row in segments if row[0].rstrip(b"\0") == b"__TEXT")
    changed = 0
    for kind, place in commands_of(image):
        if kind == CHAINED_FIXUPS:
            table = unpack_from("<I", image, place + 8)[0]
            starts = table + unpack_from("<I", image, table + 4)[0]
            for number in range(unpack_from("<I", image, starts)[0]):
                offset = unpack_from("<I", image, starts + 4 + 4 * number)[0]
                if offset:
                    changed += change_segment(image, starts + offset, segments[number][3], base)
    return changed


def change_segment(image, at, file_offset, base):
    changed = 0
    assert unpack_from("<H", image, at + 6)[0] == 2
    pack_into("<H", image, at + 6, 6)
    for page in range(unpack_from("<H", image, at + 20)[0]):
        start = unpack_from("<H", image, at + 22 + 2 * page)[0]
        place, step = file_offset + PAGE * page + start, start != 0xFFFF
        while step:
            word = unpack_from("<Q", image, place)[0]
            if not word >> 63:
                pack_into("<Q", image, place, word - base)
            step = word >> 51 & 0xFFF
            place, changed = place + 4 * step, changed + 1
    return changed


def with_libraries(image):
    """Gives imports that are sought in all images (library number 0xfd) the first library; answers how many there are."""
    changed = 0
    for kind, place in commands_of(image):
        if kind == CHAINED_FIXUPS:
            table = unpack_from("<I", image, place + 8)[0]
            _, _, entries, _, count, form, _ = unpack_from("<7I", image, table)
            for number in range(count):
                at = table + entries + 4 * form * number
                if image[at] == 0xFD:
                    image[at], changed = 1, changed + 1
    return changed


def compare_lld(program, objdump, path, folder):
    """Brings an image of ld64.lld step by step into the form that is read, each time with the refusal before it."""
    with open(path, "rb") as file:
        image = bytearray(file.read())
    changed = os.path.join(folder, "changed")
    for rule, change in ((5, rounded), (8, with_offsets), (9, with_libraries)):
        with open(changed, "wb") as file:
            file.write(image)
        if change(image) and not refused_by(program, changed, rule):
            sys.exit("inspected: %s: not refused by rule L%d" % (path, rule))
    with open(changed, "wb") as file:
        file.write(image)
    return compare(program, objdump, changed)


def main():
    program, objdump, *images = sys.argv[1:]
    of_lld = images[0] == "--of-lld"
    with tempfile.TemporaryDirectory() as folder:
        for image in images[of_lld:]:
            count = compare_lld(program, objdump, image, folder) if of_lld else compare(program, objdump, image)
            print("%s: %d lines" % (os.path.basename(image), count))


if __name__ == "__main__":
    main()
