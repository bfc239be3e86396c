"""Makes images by hand, from their segments, libraries, imports, chains and trie: small ones of which every byte counts, and others that
are made to cost much.

Segments may share bytes of the file, so an image of a page or less has all kinds of parts. `trie_of` is the exports trie of names,
`starts_of` and `table_of` are the table of chained fixups (`mach-o/fixup-chains.h`).
"""
from hashlib import sha256
from struct import pack

from plain_inspector import CHAINED_FIXUPS, EXPORTS_TRIE, LOAD_DYLIB, NO_START, PAGE

BASE = 1 << 32


def up(value, to):
    return -(-value // to) * to


def segment(name, address, size, offset, length, protection):
    return pack("<II16sQQQQIIII", 0x19, 72, name, address, size, offset, length, protection, protection, 0, 0)


def with_path(number, path, numbers=(2, 0x10000, 0x10000)):
    """A command with a path: of a library by three numbers, of a run path by none."""
    record = 12 + 4 * len(numbers)
    size = up(record + len(path) + 1, 8)
    return pack("<III%dI" % len(numbers), number, size, record, *numbers) + path + bytes(size - record - len(path))


def library(path):
    return with_path(LOAD_DYLIB, path)


def range_of(number, offset, size):
    return pack("<IIII", number, 16, offset, size)


def image_of(commands, rest, kind=6, at=None):
    """A header and commands, and from a file offset on the rest."""
    whole = b"".join(commands)
    head = pack("<IIIIIIII", 0xFEEDFACF, 0x0100000C, 0, kind, len(commands), len(whole), 0x85, 0)
    room = 0 if at is None else at - len(head) - len(whole)
    assert room >= 0
    return head + whole + bytes(room) + rest


# numbers, tries, tables


def uleb(value):
    out = bytearray()
    while value >= 0x80:
        out.append(value & 0x7F | 0x80)
        value >>= 7
    return bytes(out) + bytes([value])


def value_of(flags, address):
    """The bytes of a node that exports a value, up to its edges."""
    part = uleb(flags) + uleb(address)
    return uleb(len(part)) + part


def reexport_of(flags, ordinal, name):
    part = uleb(flags) + uleb(ordinal) + name + b"\0"
    return uleb(len(part)) + part


def shared_length(first, last, behind):
    """How many bytes two names share, of which so many are shared."""
    length = behind
    while length < min(len(first), len(last)) and first[length] == last[length]:
        length += 1
    return length


class Node:
    """A node of a trie: its bytes up to its edges, and the edges."""

    def __init__(self):
        self.exported, self.edges, self.at = b"\0", [], 0

    def size(self):
        return len(self.exported) + 1 + sum(len(label) + 1 + len(uleb(child.at)) for label, child in self.edges)

    def bytes(self):
        edges = b"".join(label + b"\0" + uleb(child.at) for label, child in self.edges)
        return self.exported + bytes([len(self.edges)]) + edges


def trie_of(names):
    """The trie of names, each with the bytes of its node up to its edges."""
    listed = sorted(names.items())
    nodes, coming = [], [(Node(), 0, len(listed), 0)]
    while coming:
        node, first, end, behind = coming.pop()
        nodes.append(node)
        if first < end and len(listed[first][0]) == behind:
            node.exported = listed[first][1]
            first += 1
        parts = []
        while first < end:
            letter, last = listed[first][0][behind], first + 1
            while last < end and listed[last][0][behind] == letter:
                last += 1
            length = shared_length(listed[first][0], listed[last - 1][0], behind)
            child = Node()
            node.edges.append((listed[first][0][behind:length], child))
            parts.append((child, first, last, length))
            first = last
        coming += reversed(parts)
    while True:
        at, changed = 0, False
        for node in nodes:
            changed, node.at = changed or node.at != at, at
            at += node.size()
        if not changed:
            return b"".join(node.bytes() for node in nodes)


def rebase(target, step, high=0):
    return pack("<Q", target | high << 36 | step << 51)


def bind(number, addend, step):
    return pack("<Q", number | addend << 24 | step << 51 | 1 << 63)


def starts_of(offset, pages):
    """The starts of a segment's pages, whose address is the base's and an offset."""
    return pack("<IHHQIH", 22 + 2 * len(pages), PAGE, 6, offset, 0, len(pages)) + pack("<%dH" % len(pages), *pages)


def table_of(segments, imports, names=b"\0", form=1):
    """A table by the starts of each segment, None for none, and its imports: library, whether weak, offset of the name, addend."""
    records, offsets = bytearray(), []
    first = 4 + 4 * len(segments)
    for starts in segments:
        offsets.append(first + len(records) if starts else 0)
        records += starts or b""
    records += bytes(-len(records) % 4)
    entries = bytearray()
    for number, weak, name, addend in imports:
        entries += pack("<I", number | weak << 8 | name << 9) + (pack("<i", addend) if form == 2 else b"")
    at = 28 + first + len(records)
    head = pack("<7I", 0, 28, at, at + len(entries), len(imports), form, 0)
    return head + pack("<%dI" % (len(segments) + 1), len(segments), *offsets) + records + entries + names


def names_of_imports(names):
    """The text of names, and where each begins."""
    text, places = bytearray(b"\0"), []
    for name in names:
        places.append(len(text))
        text += name + b"\0"
    return bytes(text), places


def library_of(words, table, trie, libraries=(b"/usr/lib/libSystem.B.dylib",), pages=None):
    """A dynamic library whose `__DATA` has these bytes, with a table made by a function of the starts of its pages, and a trie."""
    length = up(len(words), PAGE)
    pages = pages if pages is not None else [NO_START] * (length // PAGE)
    made = table(starts_of(PAGE, pages)) if table else b""
    link = up(len(made) + len(trie), PAGE)
    end = PAGE + length
    commands = [segment(b"__TEXT", BASE, PAGE, 0, PAGE, 5), segment(b"__DATA", BASE + PAGE, length, PAGE, length, 3)]
    commands.append(segment(b"__LINKEDIT", BASE + end, link, end, len(made) + len(trie), 1))
    commands += [library(path) for path in libraries]
    commands += [range_of(CHAINED_FIXUPS, end, len(made))] if table else []
    commands += [range_of(EXPORTS_TRIE, end + len(made), len(trie))]
    return image_of(commands, words.ljust(length, b"\0") + made + trie, at=PAGE)


def dense_image():
    """An image of less than a page of which nearly every byte counts: its writable segments have the file's own bytes in memory, with
    chains of rebases and binds, imports with addends, and a trie with values, a reexport, and a name that begins another."""
    text, places = names_of_imports([b"_printf", b"_exit"])
    imports = [(1, 0, places[0], 0), (2, 1, places[1], -8), (1, 0, places[0] + 1, 1 << 20)]
    values = {b"_main": value_of(0, 0x300), b"_ma": value_of(4, 0x20), b"_weak": value_of(2, 1 << 63)}
    trie = trie_of({**values, b"_exit": reexport_of(8, 2, b""), b"_other": reexport_of(8, 1, b"_printf")})
    words = rebase(0x300, 2) + bind(1, 0, 3) + bytes(4) + rebase(0x10, 2, 0x80) + bind(2, 255, 0)
    paths = [b"/usr/lib/libSystem.B.dylib", b"/usr/lib/libb.dylib"]

    def made(at, length, table_at, table_size):
        commands = [segment(b"__PAGEZERO", 0, BASE, 0, 0, 0), segment(b"__TEXT", BASE, PAGE, 0, length, 5)]
        commands += [segment(b"__DATA_CONST", BASE + PAGE, 2 * PAGE, 0, length, 3), segment(b"__DATA", BASE + 4 * PAGE, PAGE, 0, length, 3)]
        commands.append(segment(b"__LINKEDIT", BASE + 5 * PAGE, PAGE, 0, length, 1))
        commands += [*map(library, paths), with_path(0x8000001C, b"@loader_path", ())]
        commands += [range_of(CHAINED_FIXUPS, table_at, table_size), range_of(EXPORTS_TRIE, table_at + table_size, len(trie))]
        commands += [pack("<IIQQ", 0x80000028, 24, 0x300, 0)]
        table = table_of([None, None, starts_of(PAGE, [at]), starts_of(4 * PAGE, [at + 20])], imports, text, 2)
        return image_of(commands, words + table + trie, 2), len(table)

    whole, size = made(0, 0, 0, 0)
    at = len(whole) - len(words) - size - len(trie)
    return made(at, len(whole), at + len(words), size)[0]


def signature_of(code, identifier, text_size):
    """The signature of a file's bytes: a super blob, and a code directory with a SHA-256 digest of each page of 4 KiB."""
    pages = [sha256(code[at : at + 4096]).digest() for at in range(0, len(code), 4096)]
    name = identifier.ljust(up(len(identifier) + 1, 16), b"\0")
    length = 88 + len(name) + 32 * len(pages)
    head = pack(">5I", 0xFADE0CC0, 20 + length, 1, 0, 20)
    numbers = pack(">9I", 0xFADE0C02, length, 0x20400, 0x20002, 88 + len(name), 88, 0, len(pages), len(code))
    return head + numbers + bytes([32, 2, 0, 12]) + pack(">IIIIQQQQ", 0, 0, 0, 0, 0, 0, text_size, 0) + name + b"".join(pages)


def signed_library(words, room=0, libraries=(b"/usr/lib/libSystem.B.dylib",), rpaths=(b"@loader_path",), extra=(), text=PAGE):
    """A signed dynamic library whose `__TEXT` has so many bytes, whose code begins so many bytes behind its load commands, and whose
    `__DATA` has these bytes, behind a bind and a rebase."""
    code = b"\xc0\x03\x5f\xd6"
    trie = trie_of({b"_f": value_of(0, 0x800)})
    names, places = names_of_imports([b"_exit"])
    words = bind(0, 0, 2) + rebase(0x800, 0) + words
    length = up(len(words), PAGE)
    made = table_of([None, starts_of(text, [0] + [NO_START] * (length // PAGE - 1))], [(1, 0, places[0], 0)], names)
    end = text + length
    begin = up(end + len(made) + len(trie), 16)
    body = words.ljust(length, b"\0") + (made + trie).ljust(begin - end, b"\0")
    taken = 20 + 88 + 16 + 32 * up(begin, 4096) // 4096

    def image(at):
        section = pack("<16s16sQQIIIIIIII", b"__text", b"__TEXT", BASE + at, len(code), at, 2, 0, 0, 0x80000400, 0, 0, 0)
        commands = [pack("<II16sQQQQIIII", 0x19, 152, b"__TEXT", BASE, text, 0, text, 5, 5, 1, 0) + section]
        commands.append(segment(b"__DATA", BASE + text, length, text, length, 3))
        commands.append(segment(b"__LINKEDIT", BASE + end, up(begin + taken - end, PAGE), end, begin + taken - end, 1))
        commands += [with_path(0xD, b"/lib/made.dylib", (1, 0, 0)), *map(library, libraries)]
        commands += [with_path(0x8000001C, path, ()) for path in rpaths]
        commands += [range_of(CHAINED_FIXUPS, end, len(made)), range_of(EXPORTS_TRIE, end + len(made), len(trie)), *extra]
        commands.append(range_of(0x1D, begin, taken))
        head = image_of(commands, b"")
        return (head + bytes(at - len(head)) if at else head) + code

    head = image(len(image(0)) - len(code) + room)
    whole = head.ljust(text, b"\0") + body
    return whole + signature_of(whole, b"made", text)
