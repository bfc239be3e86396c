"""Compares images of which one name was changed with what a plain twin makes of them, and with what llvm-install-name-tool does.

retooled.py plain RETOOL IMAGE..                the very bytes or the refusal, for many changes of each image; and each is changed back
retooled.py changed RETOOL IMAGE                the same of images of which bytes of commands and signature are changed in turn
retooled.py tools RETOOL TOOL OBJDUMP NM READOBJ IMAGE..    LLVM's readers print the same of our image and of LLVM's
retooled.py of-lld RETOOL IMAGE..               what is said of ld64.lld's images, as they are and with `__LINKEDIT` rounded up
retooled.py large RETOOL                        an image of 200 MB, whose time and memory are told
retooled.py rows RETOOL IMAGE WIDE              names that just fit, and that don't, in examples/leaves without and with room for longer names
retooled.py run CASES FOLDER                    runs programs on the emulated processor (`emulated.py` says what the words are)
"""
import os
import random
import re
import subprocess
import sys
import tempfile
from struct import pack, pack_into, unpack_from

from image_maker import BASE, segment, signed_library
from inspect_hostile import run, run_here
from plain_inspector import Image, Rejected
from plain_retool import KINDS, Refused, changed

NAMES = [b"", b"/a", b"/usr/lib/libOther.dylib", b"/usr/lib/libabcdefghijklmnop.dylib", "/ein/Näme".encode()]
NAMES += [b"x" * 200, b"y" * 1_015, b"z" * 4_000]
# changes that are asked of images with a changed byte: some fit, and some don't
ASKED = [("-library", b"/usr/lib/libOther.dylib"), ("-library", b"l" * 56), ("-rpath", b"/r" * 12), ("-id", b"/i")]
# a word of the line that tells a refusal; its numbers stand there, too
LINES = {"rejected": b"rejected", "bad name": b"name", "not there": b"no", "unsigned": b"sign", "no room": b"room"}


def retooled(program, image, kind, number, name, folder):
    """The new bytes, or None, with what is said."""
    given, out = os.path.join(folder, "given"), os.path.join(folder, "changed")
    with open(given, "wb") as file:
        file.write(image)
    if os.path.exists(out):
        os.remove(out)
    words = [kind] + [b"%d" % number] * (kind != "-id")
    made = subprocess.run([program, *words, name, given, out], capture_output=True)
    if made.returncode:
        if os.path.exists(out):
            sys.exit("retooled: a refused change leaves a file")
        return None, (made.returncode, made.stderr)
    with open(out, "rb") as file:
        return file.read(), (0, made.stderr)


def is_told(said, fault):
    """Whether a refusal is told: status 1 by the first line, and the refusal with its numbers by the second one."""
    what, *numbers = fault.args
    status, text = said
    lines = text.split(b"\n")
    if status != 1 or lines[0] != b"macho_retool: status 1" or len(lines) < 2:
        return False
    return LINES.get(what, b"") in lines[1] and set(numbers) <= {int(number) for number in re.findall(rb"\d+", lines[1])}


def compare(program, told, image, kind, number, name, folder):
    """Whether the image is changed, as the plain twin says; the new bytes."""
    got, said = retooled(program, image, kind, number, name, folder)
    try:
        wanted = changed(image, kind, number, name)
    except Refused as fault:
        if got is not None or not is_told(said, fault):
            sys.exit("retooled: %s: %s %d %r: %r is said; wanted is %r" % (told, kind, number, name, said, fault.args))
        return None
    if got != wanted or said[1]:
        sys.exit("retooled: %s: %s %d %r: %r, or another image" % (told, kind, number, name, said))
    return got


def old_name(image, kind, number):
    wanted, record = KINDS[kind]
    place, size = [(place, size) for command, place, size in Image(image).commands if command == wanted][number - 1]
    return image[place + unpack_from("<I", image, place + 8)[0] : place + size].split(b"\0")[0]


def compare_plain(program, paths):
    count = refused = 0
    with tempfile.TemporaryDirectory() as folder:
        for path in paths:
            with open(path, "rb") as file:
                image = file.read()
            for kind, number in (("-id", 1), ("-library", 1), ("-library", 2), ("-library", 4_294_967_295), ("-rpath", 1), ("-rpath", 2)):
                for name in NAMES:
                    got = compare(program, path, image, kind, number, name, folder)
                    count, refused = count + 1, refused + (got is None)
                    if got is not None and compare(program, path, got, kind, number, old_name(image, kind, number), folder) != image:
                        sys.exit("retooled: %s: %s %d %r isn't the first image when it is changed back" % (path, kind, number, name))
    print("%d changes of %d images, of which %d are refused; each other one changed back is the first image" % (count, len(paths), refused))


def changed_images(image, chance):
    """The image with one byte of load commands or signature changed, in turn; and with numbers there that are other places of the file."""
    end = 32 + unpack_from("<I", image, 20)[0]
    begin = next(unpack_from("<I", image, place + 8)[0] for kind, place, _ in Image(image).commands if kind == 0x1D)
    for at in [*range(end + 40), *range(begin, min(begin + 200, len(image)))]:
        for other in (image[at] ^ 1 << chance.randrange(8), 0 if image[at] else 0xFF, chance.randrange(256)):
            yield "byte %d is %#x" % (at, other), image[:at] + bytes([other]) + image[at + 1 :]
    places = [0, 8, end - 8, end - 1, end, end + 8, end + 16, 0x4000, begin - 1, begin, begin + 8, len(image) - begin, len(image)]
    for _ in range(2_000):
        out = bytearray(image)
        for _ in range(chance.randint(1, 2)):
            is_signature = chance.random() < 0.2
            at = begin + 4 * chance.randrange(28) if is_signature else 4 * chance.randrange(8, end // 4)
            pack_into(">I" if is_signature else "<I", out, at, chance.choice(places))
        yield "other numbers", bytes(out)


def compare_changed(program, path):
    """Asks images that are changed a little for a name that fits and for one that is too long."""
    with open(path, "rb") as file:
        images = [file.read(), signed_library(b"", 24)]
    images.append(signed_library(b"", 8, (b"/a", b"/b"), (b"/c",), [pack("<IIIIII", 2, 24, 0x8000, 1, 0x8010, 1)]))
    chance, answers = random.Random(63), []
    with tempfile.TemporaryDirectory() as folder:
        for image in images:
            for told, other in changed_images(image, chance):
                kind, name = chance.choice(ASKED)
                answers.append(compare(program, told, other, kind, 1, name, folder) is not None)
    print("%d images that are changed a little, of which %d get their name" % (len(answers), sum(answers)))


# what llvm-install-name-tool lays out anew: the symbol table with its strings, the signature, and so the end of `__LINKEDIT`
MOVED = re.compile(r" *(symoff|stroff|strsize|dataoff|datasize) ")
SEGMENT_NAME = re.compile(r" *(?:segname|Name:) (__\w+)$")


def read(words):
    """The lines that a reader prints, without those of what is laid out anew, and without the file's name."""
    ran = subprocess.run(words, capture_output=True, text=True)
    if ran.returncode or ran.stderr:
        sys.exit("retooled: %s: status %d, %s" % (" ".join(words), ran.returncode, ran.stderr))
    lines, segment = [], None
    for line in ran.stdout.split("\n"):
        found = SEGMENT_NAME.match(line)
        segment = found[1] if found else segment
        is_moved = MOVED.match(line) or segment == "__LINKEDIT" and line.strip().startswith("filesize")
        if not is_moved and words[-1] not in line:
            # of a symbol's name the place in the strings stands behind it
            lines.append(re.sub(r"^( *Name: .*) \(\d+\)$", r"\1", line))
    return lines


def readers_of(objdump, nm, readobj):
    options = [["--private-headers"], ["--chained-fixups", "--exports-trie", "--dyld-info"], ["--disassemble"], ["--unwind-info"]]
    readers = [[objdump, "--macho", *asked] for asked in options]
    return readers + [[nm], [readobj, "--file-headers", "--sections", "--symbols", "--macho-segment"]]


def write(path, content):
    with open(path, "wb") as file:
        file.write(content)


def is_read_alike(program, tool, readers, image, change, folder):
    """Whether readers print the same of our image and of LLVM's; None where the change is refused."""
    kind, asked, name = change
    try:
        changed(image, kind, 1, name)
    except Refused:
        return None
    ours, theirs = os.path.join(folder, "ours"), os.path.join(folder, "theirs")
    write(ours, retooled(program, image, kind, 1, name, folder)[0])
    write(theirs, image)
    old = [old_name(image, kind, 1)] * (kind != "-id")
    made = subprocess.run([tool, asked, *old, name, theirs], capture_output=True)
    if made.returncode:
        sys.exit("retooled: llvm-install-name-tool: %r" % made.stderr)
    return all(read([*reader, ours]) == read([*reader, theirs]) for reader in readers)


def compare_tools(program, tool, objdump, nm, readobj, paths):
    readers, answers = readers_of(objdump, nm, readobj), []
    with tempfile.TemporaryDirectory() as folder:
        for path in paths:
            with open(path, "rb") as file:
                image = file.read()
            for kind, asked in (("-id", "-id"), ("-library", "-change"), ("-rpath", "-rpath")):
                for name in (b"/short", b"/usr/lib/a_name_that_is_longer_than_before.dylib"):
                    answers.append(is_read_alike(program, tool, readers, image, (kind, asked, name), folder))
                    if answers[-1] is False:
                        sys.exit("retooled: %s: %s %r: a reader prints something else" % (path, kind, name))
    print("%d changes are read as those of llvm-install-name-tool" % answers.count(True))


def compare_lld(program, paths):
    """ld64.lld's images are refused by rule L5, and with `__LINKEDIT` rounded up by rule L8 where there are fixups: tells what is said."""
    from inspected import rounded
    said_of = {}
    with tempfile.TemporaryDirectory() as folder:
        for path in paths:
            with open(path, "rb") as file:
                image = file.read()
            with_pages = bytearray(image)
            rounded(with_pages)
            for what, content in (("as it is", image), ("rounded up", bytes(with_pages))):
                for kind in KINDS:
                    compare(program, "%s %s" % (path, what), content, kind, 1, b"/a", folder)
                kind = "-id" if image[12] == 6 else "-library"
                try:
                    changed(content, kind, 1, b"/a")
                    answer = "changed"
                except Refused as fault:
                    answer = " ".join(map(str, fault.args[:2]))
                said_of.setdefault((what, answer), []).append(os.path.basename(path))
    for (what, answer), names in sorted(said_of.items()):
        print("of ld64.lld, %s: %s: %s" % (what, answer, ", ".join(names)))


def large_head():
    """An image of 17 MB with 100,000 run paths, 20,000 segments and 50,000 sections."""
    sections = b"".join(pack("<16s16sQQIIIIIIII", b"__s", b"__MORE", 0, 4, 0xC00000 + 16 * number, *[0] * 7) for number in range(50_000))
    more = pack("<II16sQQQQIIII", 0x19, 72 + len(sections), b"__MORE", BASE + (1 << 40), 0, 0, 0, 3, 3, 50_000, 0) + sections
    extra = [more] + [segment(b"__X", BASE + (2 << 40), 0, 0, 0, 3)] * 20_000
    return signed_library(b"", 2_000, rpaths=(b"/abcdefgh",) * 100_000, extra=extra, text=1 << 24)


def tell(program, what, image, kind, number, name, limits):
    """Changes a large image, and tells its time and memory."""
    with tempfile.TemporaryDirectory() as folder:
        given, out = os.path.join(folder, "given"), os.path.join(folder, "changed")
        write(given, image)
        status, said, took, peak = run([program, kind, str(number), name, given, out], os.path.join(folder, "printed"))
        with open(out, "rb") as file:
            if status or said or file.read() != changed(image, kind, number, name.encode()):
                sys.exit("retooled: %s: status %d, %r" % (what, status, said))
    print("| %s | %.1f MB | %.2f s, %d MB |" % (what, len(image) / 1e6, took, peak))
    if took > limits[0] or peak > limits[1]:
        sys.exit("retooled: %s: that is too much" % what)


def tell_large(program):
    image = signed_library(bytes(range(256)) * (200_000_000 // 256), 1_000)
    tell(program, "a library's name in an image of 200 MB", image, "-library", 1, "/usr/lib/libOther.dylib", (20, 1_000))
    what = "the last of 100,000 run paths, behind 20,000 segments and 50,000 sections"
    tell(program, what, large_head(), "-rpath", 100_000, "/x" * 40, (20, 400))


def compare_rows(program, path, wide):
    """Names for the one library of an image whose load commands, of 736 bytes, end where its first section begins, at 768."""
    with tempfile.TemporaryDirectory() as folder:
        def asked(image, kind, name):
            return retooled(program, image, kind, 1, name, folder)

        with open(path, "rb") as file:
            image = file.read()
        with open(wide, "rb") as file:
            roomy = file.read()
        short, _ = asked(image, "-library", b"/usr/lib/libOther.dylib")
        same, _ = asked(image, "-library", b"x" * 31)
        long, said = asked(image, "-library", b"x" * 32)
        taken, _ = asked(roomy, "-library", b"x" * 32)
        own, refused = asked(image, "-id", b"x")
    told = [
        unpack_from("<I", image, 20)[0] == 736 and unpack_from("<I", short, 20)[0] == 728 and short[760:768] == bytes(8),
        unpack_from("<I", same, 20)[0] == 736,
        long is None and is_told(said, Refused("no room", 776, 768)),
        taken is not None,
        own is None and is_told(refused, Refused("not there")),
    ]
    if not all(told):
        sys.exit("retooled: rows of one image: %s" % told)
    print("five names in one image")


def run_programs(cases, folder):
    from emulated import Case, read as text_of, run_whole, slides
    listed = [Case(line, folder) for line in text_of(cases).decode().splitlines()]
    for case in listed:
        for number, slide in enumerate(slides()):
            run_whole(case, number, slide)
    print("%d programs run at %d slides" % (len(listed), len(slides())))


if __name__ == "__main__":
    what, *words = sys.argv[1:]
    if what == "--run":
        run_here(*words)
    elif what == "rows":
        compare_rows(*words)
    elif what == "plain":
        compare_plain(words[0], words[1:])
    elif what == "changed":
        compare_changed(*words)
    elif what == "tools":
        compare_tools(*words[:5], words[5:])
    elif what == "of-lld":
        compare_lld(words[0], words[1:])
    elif what == "large":
        tell_large(words[0])
    elif what == "run":
        run_programs(*words)
