"""An image of arm64 macOS as its loader reads it: load commands, segments, chained fixups, exports, initializers, signature.

Written from the public headers alone: `mach-o/loader.h` (commands, sections, the exports trie), `mach-o/fixup-chains.h` (chained fixups)
and `kern/cs_blobs.h` (the signature). What a loader wouldn't take raises `Fault`.
"""

import hashlib
from dataclasses import dataclass
from struct import unpack_from

PAGE = 0x4000
READ, WRITE, EXECUTE = 1, 2, 4

HEADER_MAGIC, ARM64, EXECUTABLE, LIBRARY = 0xFEEDFACF, 0x0100000C, 2, 6
HAS_THREAD_LOCALS = 0x800000
REQUIRED = 0x80000000
LOAD_LIBRARY, INSTALL_NAME, DYLINKER, SEGMENT, SIGNATURE = 0xC, 0xD, 0xE, 0x19, 0x1D
LOAD_WEAK_LIBRARY, RUN_PATH, REEXPORT_LIBRARY, ENTRY = 0x18 | REQUIRED, 0x1C | REQUIRED, 0x1F | REQUIRED, 0x28 | REQUIRED
EXPORTS_TRIE, CHAINED_FIXUPS = 0x33 | REQUIRED, 0x34 | REQUIRED
LIBRARIES = (LOAD_LIBRARY, LOAD_WEAK_LIBRARY, REEXPORT_LIBRARY)
READ_ONLY_AFTER_FIXUPS = 0x10

ZEROFILL, LARGE_ZEROFILL, INIT_OFFSETS = 1, 0xC, 0x16
THREAD_DATA, THREAD_ZEROFILL, THREAD_VARIABLES = 0x11, 0x12, 0x13

CHAINED_POINTER, CHAINED_OFFSET, NO_FIXUPS = 2, 6, 0xFFFF
EXPORT_REEXPORT, EXPORT_RESOLVER, EXPORT_KINDS, EXPORT_ABSOLUTE = 8, 0x10, 3, 2
SUPER_BLOB, CODE_DIRECTORY, SHA256 = 0xFADE0CC0, 0xFADE0C02, 2


class Fault(Exception):
    """An image isn't one that a loader takes, or its program goes astray."""


def want(holds, text):
    if not holds:
        raise Fault(text)


@dataclass(frozen=True)
class Section:
    segment: bytes
    name: bytes
    address: int
    size: int
    offset: int
    alignment: int
    flags: int

    def kind(self):
        return self.flags & 0xFF


@dataclass(frozen=True)
class Segment:
    """A segment; its size is that of whole pages."""

    name: bytes
    address: int
    size: int
    offset: int
    file_size: int
    protection: int
    flags: int
    sections: tuple

    def end(self):
        return self.address + self.size

    def is_const(self):
        """Whether the loader makes it read-only behind the fixups (SG_READ_ONLY)."""
        return self.flags & READ_ONLY_AFTER_FIXUPS != 0


@dataclass(frozen=True)
class Import:
    name: bytes
    ordinal: int
    addend: int


@dataclass(frozen=True)
class Fixup:
    """A word that the loader writes, at an address without slide: an import with an addend, or a place in the image."""

    address: int
    number: int | None
    value: int
    high: int = 0


@dataclass(frozen=True)
class Export:
    """Where a name leads: to an offset from the base, to a plain number, or to a name of a library."""

    value: int = 0
    is_absolute: bool = False
    ordinal: int | None = None
    name: bytes = b""


def text_at(data, place):
    end = data.find(b"\0", place)
    want(0 <= place <= end, "a text has no end")
    return bytes(data[place:end])


def plain_name(data):
    return data.split(b"\0")[0]


def read_uleb(data, place):
    """A number of seven bits a byte, low bits first, and the place behind it."""
    value = shift = 0
    while True:
        want(place < len(data) and shift < 64, "a ULEB128 number has no end")
        byte = data[place]
        value |= (byte & 0x7F) << shift
        place, shift = place + 1, shift + 7
        if byte < 0x80:
            return value, place


class Image:
    """An image whose head, signature, fixups and exports were read."""

    def __init__(self, data):
        self.data = data
        self.segments, self.libraries, self.run_paths = [], [], []
        self.install_name = self.entry = None
        self.has_loader = False
        self.ranges = {}
        self.read_head()
        self.check_segments()
        self.check_signature()
        self.imports, self.fixups = self.read_fixups() if CHAINED_FIXUPS in self.ranges else ([], [])
        self.exports = dict(self.read_exports())

    # Load commands

    def read_head(self):
        magic, processor, subtype, self.file_type, count, size, self.flags = unpack_from("<7I", self.data)
        want((magic, processor, subtype) == (HEADER_MAGIC, ARM64, 0), "not an arm64 file")
        want(self.file_type in (EXECUTABLE, LIBRARY), f"file type {self.file_type}")
        self.head_end, place = 32 + size, 32
        for _ in range(count):
            command, length = unpack_from("<II", self.data, place)
            want(length >= 8 and length % 8 == 0 and place + length <= self.head_end, "a load command passes the head")
            self.read_command(command, self.data[place : place + length])
            place += length
        want(place == self.head_end, "the load commands have another size")
        want(self.file_type == EXECUTABLE or self.install_name, "a library has no install name")

    def read_command(self, command, data):
        if command == SEGMENT:
            self.segments.append(self.read_segment(data))
        elif command in LIBRARIES:
            self.libraries.append((text_at(data, unpack_from("<I", data, 8)[0]), command == REEXPORT_LIBRARY))
        elif command == INSTALL_NAME:
            self.install_name = text_at(data, unpack_from("<I", data, 8)[0])
        elif command == RUN_PATH:
            self.run_paths.append(text_at(data, unpack_from("<I", data, 8)[0]))
        elif command == DYLINKER:
            self.has_loader = text_at(data, unpack_from("<I", data, 8)[0]) == b"/usr/lib/dyld"
        elif command == ENTRY:
            self.entry = unpack_from("<Q", data, 8)[0]
        elif command in (SIGNATURE, EXPORTS_TRIE, CHAINED_FIXUPS):
            place, size = unpack_from("<II", data, 8)
            want(command not in self.ranges and place + size <= len(self.data), "a range of __LINKEDIT isn't in the file")
            self.ranges[command] = place, size

    def read_segment(self, data):
        name, address, size, offset, file_size, greatest, protection, count, flags = unpack_from("<16s4Q4I", data, 8)
        want(protection & ~greatest == 0, "a segment's first protection passes its greatest")
        want(len(data) == 72 + 80 * count, "a segment's command has another size")
        sections = tuple(self.read_section(data, 72 + 80 * number) for number in range(count))
        return Segment(plain_name(name), address, -(-size // PAGE) * PAGE, offset, file_size, protection, flags, sections)

    def read_section(self, data, place):
        name, segment, address, size, offset, alignment, _, _, flags = unpack_from("<16s16s2Q5I", data, place)
        want(address % (1 << alignment) == 0, f"section {plain_name(name)} isn't aligned")
        return Section(plain_name(segment), plain_name(name), address, size, offset, alignment, flags)

    def check_segments(self):
        """Segments stand in whole pages, apart from each other; none may be written to and executed; sections stand in theirs."""
        end = 0
        for segment in self.segments:
            want((segment.address | segment.offset) % PAGE == 0, f"{segment.name} doesn't begin at a page")
            want(segment.address >= end, f"{segment.name} begins inside another segment")
            want(segment.file_size <= segment.size, f"{segment.name} has less memory than bytes")
            want(segment.offset + segment.file_size <= len(self.data), f"{segment.name} passes the file")
            want(segment.protection & (WRITE | EXECUTE) != WRITE | EXECUTE, f"{segment.name} may be written and executed")
            end = segment.end()
            for section in segment.sections:
                self.check_section(segment, section)
        text = self.segment(b"__TEXT")
        want(text.offset == 0 and self.head_end <= text.file_size, "the head isn't in __TEXT")
        want(self.segments[-1].name == b"__LINKEDIT", "__LINKEDIT isn't the last segment")
        self.base = text.address

    def check_section(self, segment, section):
        place = section.address - segment.address
        want(section.segment == segment.name, f"{section.name} has another segment's name")
        want(0 <= place and place + section.size <= segment.size, f"{section.name} passes its segment")
        if section.kind() not in (ZEROFILL, LARGE_ZEROFILL, THREAD_ZEROFILL) and section.size:
            want(section.offset == segment.offset + place, f"{section.name} is at another place of the file")
            want(place + section.size <= segment.file_size, f"{section.name} has no bytes in the file")

    def segment(self, name):
        found = [segment for segment in self.segments if segment.name == name]
        want(len(found) == 1, f"there are {len(found)} segments {name}")
        return found[0]

    def segment_of(self, address):
        """The segment that holds an address without slide."""
        found = [segment for segment in self.segments if segment.address <= address < segment.end()]
        want(found, f"{address:#x} is in no segment")
        return found[0]

    def sections(self, *kinds):
        return [section for segment in self.segments for section in segment.sections if section.kind() in kinds]

    def section_named(self, name):
        found = [section for segment in self.segments for section in segment.sections if section.name == name]
        return found[0] if found else None

    def bytes_of(self, segment):
        """What a segment holds of the file, before the fixups; zeros stand behind it."""
        return bytearray(self.data[segment.offset : segment.offset + segment.file_size])

    def entry_address(self):
        want(self.file_type == EXECUTABLE and self.entry is not None, "there is no LC_MAIN")
        want(self.has_loader, "no loader is asked for")
        return self.base + self.entry

    # The signature

    def check_signature(self):
        """Each page of what is signed has the digest that the code directory tells (SHA-256)."""
        want(SIGNATURE in self.ranges, "there is no signature")
        start, size = self.ranges[SIGNATURE]
        magic, length, count = unpack_from(">III", self.data, start)
        want(magic == SUPER_BLOB and length <= size and start % 16 == 0, "there is no super blob")
        blobs = [unpack_from(">II", self.data, start + 12 + 8 * number) for number in range(count)]
        directories = [start + place for kind, place in blobs if kind == 0]
        want(len(directories) == 1, "there isn't one code directory")
        self.check_code_directory(directories[0], start)

    def check_code_directory(self, start, limit):
        magic, _, version, _, digests, _, _, count, signed = unpack_from(">9I", self.data, start)
        digest_size, kind, _, exponent = unpack_from(">4B", self.data, start + 36)
        want((magic, digest_size, kind) == (CODE_DIRECTORY, 32, SHA256) and version >= 0x20400, "the code directory is another one")
        want(signed == limit, "what is signed doesn't end at the signature")
        want(self.segments[-1].offset + self.segments[-1].file_size == limit + self.ranges[SIGNATURE][1], "__LINKEDIT doesn't end the file")
        text = self.segment(b"__TEXT")
        told = unpack_from(">3Q", self.data, start + 64)
        want(told == (text.offset, text.file_size, self.file_type == EXECUTABLE), "the executable segment is told otherwise")
        page = 1 << exponent
        want(count == -(-signed // page), "the number of digests is another one")
        for number in range(count):
            place = start + digests + 32 * number
            digest = hashlib.sha256(self.data[number * page : min(signed, number * page + page)]).digest()
            want(digest == self.data[place : place + 32], f"page {number} has another digest")

    # Chained fixups

    def read_fixups(self):
        place, size = self.ranges[CHAINED_FIXUPS]
        table = self.data[place : place + size]
        version, starts, imports, names, count, kind, packing = unpack_from("<7I", table)
        want((version, packing) == (0, 0), "the fixups are of another version")
        found = [self.read_import(table, imports, names, kind, number) for number in range(count)]
        return found, list(self.read_starts(table, starts, len(found)))

    def read_import(self, table, place, names, kind, number):
        """An import of format 1 (DYLD_CHAINED_IMPORT), or 2, with an addend. The ordinal is a signed byte."""
        want(kind in (1, 2), f"imports of format {kind}")
        word, addend = (unpack_from("<I", table, place + 4 * number)[0], 0) if kind == 1 else unpack_from("<Ii", table, place + 8 * number)
        ordinal = (word & 0xFF) - (0x100 if word & 0x80 else 0)
        want(0 < ordinal <= len(self.libraries), f"import {number} is of library {ordinal}")
        want(not word >> 8 & 1, f"import {number} is weak")
        return Import(text_at(table, names + (word >> 9)), ordinal, addend)

    def read_starts(self, table, start, num_imports):
        count = unpack_from("<I", table, start)[0]
        want(count == len(self.segments), "the fixups have another number of segments")
        for segment, place in zip(self.segments, unpack_from(f"<{count}I", table, start + 4)):
            if place:
                yield from self.read_segment_starts(table, start + place, segment, num_imports)

    def read_segment_starts(self, table, start, segment, num_imports):
        size, page, kind, offset, _, count = unpack_from("<IHHQIH", table, start)
        want(size >= 22 + 2 * count and page == PAGE and kind in (CHAINED_POINTER, CHAINED_OFFSET), "starts of a kind that isn't known")
        want(offset == segment.address - self.base, f"the fixups of {segment.name} tell another place")
        want(segment.protection & WRITE, f"{segment.name} has fixups and may not be written to")
        for number, first in enumerate(unpack_from(f"<{count}H", table, start + 22)):
            if first != NO_FIXUPS:
                yield from self.read_chain(segment, number * PAGE, first, kind, num_imports)

    def read_chain(self, segment, page, place, kind, num_imports):
        """The words of a page's chain: a bind (bit 63) has an import's number and an addend, a rebase 36 low bits and 8 high ones."""
        while True:
            want(place + 8 <= PAGE and page + place + 8 <= segment.file_size, f"a chain leaves its page in {segment.name}")
            word = unpack_from("<Q", self.data, segment.offset + page + place)[0]
            address = segment.address + page + place
            if word >> 63:
                want(word & 0xFFFFFF < num_imports, "a bind of no import")
                yield Fixup(address, word & 0xFFFFFF, word >> 24 & 0xFF)
            else:
                target = word & (1 << 36) - 1
                yield Fixup(address, None, target + (self.base if kind == CHAINED_OFFSET else 0), word >> 36 & 0xFF)
            step = (word >> 51 & 0xFFF) * 4
            if not step:
                return
            place += step

    # Exports

    def read_exports(self):
        """The names of the exports trie with where they lead: each node has what ends there, and labelled ways to its children."""
        place, size = self.ranges.get(EXPORTS_TRIE, (0, 0))
        trie = self.data[place : place + size]
        ways, seen = [(b"", 0)] if trie else [], set()
        while ways:
            name, node = ways.pop()
            want(node not in seen and node < len(trie), "the exports trie leads in a circle")
            seen.add(node)
            length, start = read_uleb(trie, node)
            if length:
                yield name, self.read_export(trie, start)
            count, child = trie[start + length], start + length + 1
            for _ in range(count):
                label = text_at(trie, child)
                target, child = read_uleb(trie, child + len(label) + 1)
                ways.append((name + label, target))

    def read_export(self, trie, place):
        flags, place = read_uleb(trie, place)
        want(not flags & EXPORT_RESOLVER, "an export with a resolver")
        value, place = read_uleb(trie, place)
        if flags & EXPORT_REEXPORT:
            return Export(ordinal=value, name=text_at(trie, place))
        return Export(value, flags & EXPORT_KINDS == EXPORT_ABSOLUTE)

    # What runs before the program

    def initializer_offsets(self):
        """Offsets of initializers from the base (S_INIT_FUNC_OFFSETS), in their order."""
        for section in self.sections(INIT_OFFSETS):
            want(section.size % 4 == 0, "offsets of initializers that aren't whole")
            for place in range(section.offset, section.offset + section.size, 4):
                offset = unpack_from("<I", self.data, place)[0]
                want(self.segment_of(self.base + offset).protection & EXECUTE, "an initializer isn't code")
                yield offset

    def thread_template(self):
        """Address, size and alignment of what each thread has a copy of: from the first thread-local section to the end of the last."""
        parts = self.sections(THREAD_DATA, THREAD_ZEROFILL)
        if not parts:
            return self.base, 0, 0
        start = min(part.address for part in parts)
        return start, max(part.address + part.size for part in parts) - start, max(part.alignment for part in parts)

    def thread_variables(self):
        """Addresses of the descriptors of thread-local variables, 24 bytes each."""
        parts = self.sections(THREAD_VARIABLES)
        want(not parts or self.flags & HAS_THREAD_LOCALS, "the header tells no thread-local variables")
        for part in parts:
            want(part.size % 24 == 0, "descriptors that aren't whole")
            yield from range(part.address, part.address + part.size, 24)
