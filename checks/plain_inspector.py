"""Reads an image as the loader does, and prints what it says, line by line: segments, libraries, imports, exports, fixups.

plain_inspector.py IMAGE    prints the lines, or the rule that the image breaks and a file offset on standard error, with status 1

It is written from the public formats alone (`mach-o/loader.h`, `mach-o/fixup-chains.h`, and the trie of `LC_DYLD_EXPORTS_TRIE`) and
shares nothing with the inspector, which has to print the very same. Records are read one after the other into lists, and a chain is
followed word by word.
"""
import sys
from struct import unpack_from

PAGE = 0x4000
NO_START = 0xFFFF
SEGMENT, SYMTAB, LOAD_DYLIB, ID_DYLIB, LOAD_DYLINKER, UUID = 0x19, 0x2, 0xC, 0xD, 0xE, 0x1B
CODE_SIGNATURE, BUILD_VERSION, RPATH, MAIN = 0x1D, 0x32, 0x8000001C, 0x80000028
EXPORTS_TRIE, CHAINED_FIXUPS = 0x80000033, 0x80000034
# the bytes of the records of known commands, without section headers
RECORDS = {SEGMENT: 72, LOAD_DYLINKER: 12, RPATH: 12, CODE_SIGNATURE: 16, EXPORTS_TRIE: 16, CHAINED_FIXUPS: 16}
RECORDS |= dict.fromkeys((SYMTAB, LOAD_DYLIB, ID_DYLIB, UUID, BUILD_VERSION, MAIN), 24)
PROTECTIONS = {b"__PAGEZERO": 0, b"__TEXT": 5, b"__LINKEDIT": 1}
ANY = 1 << 64


class Rejected(Exception):
    """A rule of the loader that the image breaks, by its number, and a file offset."""

    def __init__(self, rule, place):
        super().__init__("rule L%d at %d" % (rule, place))
        self.rule, self.place = rule, place


class Malformed(Exception):
    """A file offset where the exports trie is no right one."""


class Segment:
    def __init__(self, image, place):
        self.place = place
        self.name = unpack_from("16s", image, place + 8)[0].split(b"\0")[0]
        self.address, self.size, self.offset, self.length = unpack_from("<QQQQ", image, place + 24)
        self.most, self.protection, self.sections = unpack_from("<III", image, place + 56)


class Image:
    """What an image says; a file that the loader doesn't accept is rejected."""

    def __init__(self, image):
        self.image = image
        self.read_header()
        self.commands = list(self.read_commands())
        self.segments = [Segment(image, place) for kind, place, _ in self.commands if kind == SEGMENT]
        self.ask_segments()
        self.libraries = [self.path_at(place, size) for kind, place, size in self.commands if kind == LOAD_DYLIB]
        self.base = next(one.address for one in self.segments if one.name == b"__TEXT")
        self.imports, self.pages = [], []
        self.read_table()
        self.fixups = list(self.read_fixups())

    # the header and the load commands

    def read_header(self):
        head = self.image[:16]
        magic = b"\xcf\xfa\xed\xfe\x0c\x00\x00\x01"
        if len(self.image) < 32 or head[:8] != magic or unpack_from("<I", head, 12)[0] not in (2, 6):
            raise Rejected(1, 0)

    def read_commands(self):
        """Each command's number, place and size."""
        count, size = unpack_from("<II", self.image, 16)
        end = 32 + size
        if end > len(self.image):
            raise Rejected(2, 0)
        place = 32
        for _ in range(count):
            if place + 8 > end:
                raise Rejected(2, place)
            kind, length = unpack_from("<II", self.image, place)
            if length < 8 or place + length > end or length < RECORDS.get(kind, 8):
                raise Rejected(2, place)
            if kind == SEGMENT and length < 72 + 80 * unpack_from("<I", self.image, place + 64)[0]:
                raise Rejected(2, place)
            yield kind, place, length
            place += length

    def path_at(self, place, size):
        """The path of a command: the bytes from its offset on, up to a NUL or the command's end."""
        offset = unpack_from("<I", self.image, place + 8)[0]
        return self.image[place + offset : place + size].split(b"\0")[0] if offset < size else b""

    def ranges(self, wanted):
        """The commands of a kind that give a range: place, file offset and size."""
        return [(place, *unpack_from("<II", self.image, place + 8)) for kind, place, _ in self.commands if kind == wanted]

    # segments

    def ask_segments(self):
        for one in self.segments:
            if {one.most, one.protection} != {PROTECTIONS.get(one.name, 3)}:
                raise Rejected(3, one.place)
        for one in self.segments:
            if one.offset + one.length > len(self.image) or one.length > one.size:
                raise Rejected(4, one.place)
        for one in self.segments:
            if one.address % PAGE or one.size % PAGE or one.offset % PAGE:
                raise Rejected(5, one.place)
        for one in self.segments:
            if one.address + one.size > ANY:
                raise Rejected(6, one.place)
        for one, other in zip(self.segments, self.segments[1:]):
            if other.address < one.address + one.size:
                raise Rejected(6, other.place)
        texts = [one for one in self.segments if one.name == b"__TEXT"]
        if len(texts) != 1:
            raise Rejected(7, texts[1].place if texts else 0)
        if texts[0].offset or texts[0].length < 32 + unpack_from("<I", self.image, 20)[0]:
            raise Rejected(7, texts[0].place)

    # the table of chained fixups

    def read_table(self):
        tables = self.ranges(CHAINED_FIXUPS)
        if len(tables) > 1:
            raise Rejected(8, tables[1][0])
        if not tables:
            return
        place, start, size = tables[0]
        try:
            self.read_starts(start, size)
        except ValueError:
            raise Rejected(8, place) from None
        self.read_imports(start, size)

    @staticmethod
    def ask(condition):
        if not condition:
            raise ValueError

    def read_starts(self, start, size):
        """Where the chains of each segment start, page by page."""
        self.ask(start + size <= len(self.image) and size >= 28)
        version, starts, self.entries, self.names, self.count, self.format, names_format = unpack_from("<7I", self.image, start)
        self.ask(version == 0 and self.format in (1, 2) and names_format == 0)
        self.ask(starts + 4 <= size)
        count = unpack_from("<I", self.image, start + starts)[0]
        self.ask(starts + 4 + 4 * count <= size and count <= len(self.segments))
        self.ask(self.entries + 4 * self.format * self.count <= size and self.names <= size)
        for number in range(count):
            offset = unpack_from("<I", self.image, start + starts + 4 + 4 * number)[0]
            if offset:
                self.read_segment_starts(self.segments[number], start, starts + offset, size)

    def read_segment_starts(self, segment, start, at, size):
        self.ask(at + 22 <= size)
        _, page_size, pointer_format, offset, _, count = unpack_from("<IHHQIH", self.image, start + at)
        self.ask(at + 22 + 2 * count <= size and page_size == PAGE and pointer_format == 6)
        self.ask(offset == (segment.address - self.base) % ANY)
        self.pages.append((segment, unpack_from("<%dH" % count, self.image, start + at + 22)))

    def read_imports(self, start, size):
        names = self.image[start + self.names : start + size]
        for number in range(self.count):
            place = start + self.entries + 4 * self.format * number
            word = unpack_from("<I", self.image, place)[0]
            library, name = word & 0xFF, word >> 9
            addend = unpack_from("<i", self.image, place + 4)[0] if self.format == 2 else 0
            end = names.find(b"\0", name)
            if not 1 <= library <= len(self.libraries) or end < 0:
                raise Rejected(9, place)
            self.imports.append((library, names[name:end], addend))

    # the words on the chains

    def read_fixups(self):
        """The words' addresses, what each is, and its numbers: by rising addresses, since segments and pages rise."""
        for segment, starts in self.pages:
            for page, start in enumerate(starts):
                if start != NO_START:
                    yield from self.read_chain(segment, PAGE * page, start)

    def read_chain(self, segment, page, at):
        while True:
            place = segment.offset + page + at
            if at + 8 > PAGE or page + at + 8 > segment.length or not segment.protection & 2:
                raise Rejected(10, place)
            word = unpack_from("<Q", self.image, place)[0]
            if word >> 63:
                number = word & 0xFFFFFF
                if number >= len(self.imports):
                    raise Rejected(10, place)
                yield segment.address + page + at, True, number, self.imports[number][2] + (word >> 24 & 0xFF)
            else:
                value = (word & 0xFFFFFFFFF) + (word >> 36 & 0xFF) * (1 << 56) + self.base
                yield segment.address + page + at, False, value % ANY, 0
            step = word >> 51 & 0xFFF
            if not step:
                return
            at += 4 * step

    # the exports trie

    def exports(self):
        """The names with their flags and values, in rising order."""
        tries = self.ranges(EXPORTS_TRIE)
        if len(tries) > 1:
            raise Malformed(tries[1][0])
        if not tries or not tries[0][2]:
            return []
        place, start, size = tries[0]
        if start + size > len(self.image):
            raise Malformed(place)
        return list(names_of(self.image[start : start + size], start))


def number_at(trie, at):
    """A number in the form ULEB128, and the place behind it; ValueError where none stands there."""
    value = 0
    for length in range(10):
        if at + length >= len(trie):
            raise ValueError
        byte = trie[at + length]
        value |= (byte & 0x7F) << 7 * length
        if byte < 0x80:
            if value >= ANY:
                raise ValueError
            return value, at + length + 1
    raise ValueError


def text_at(trie, at):
    end = trie.find(b"\0", at)
    if end < 0:
        raise ValueError
    return trie[at:end], end + 1


def node_at(trie, at):
    """The flags and the value of a node, or None, and its edges."""
    size, at = number_at(trie, at)
    if at + size >= len(trie):
        raise ValueError
    exported = None
    if size:
        part = trie[at : at + size]
        flags, behind = number_at(part, 0)
        value, behind = number_at(part, behind)
        if flags & 8:
            text_at(part, behind)
        exported = flags, value
    count, at = trie[at + size], at + size + 1
    edges = []
    for _ in range(count):
        label, at = text_at(trie, at)
        child, at = number_at(trie, at)
        edges.append((label, child))
    return exported, edges


def names_of(trie, start):
    """Each name with its flags and value, in rising order; Malformed at the first place that is met where the trie is no right one."""
    seen, coming = set(), [(0, b"")]
    while coming:
        at, name = coming.pop()
        try:
            if at in seen:
                raise ValueError
            seen.add(at)
            exported, edges = node_at(trie, at)
            firsts = {label[:1] for label, _ in edges}
            if b"" in firsts or len(firsts) < len(edges):
                raise ValueError
        except ValueError:
            raise Malformed(min(start + at, ANY - 1)) from None
        if exported:
            yield name, *exported
        coming += [(child, name + label) for label, child in sorted(edges, reverse=True)]


def lines_of(image):
    """The lines of an image's report, one by one, each with its LF."""
    said = Image(image)
    for one in said.segments:
        yield b"segment %s 0x%016x 0x%016x %d\n" % (one.name, one.address, one.size, one.protection)
    for number, path in enumerate(said.libraries, 1):
        yield b"library %d %s\n" % (number, path)
    for library, name, addend in said.imports:
        yield b"import %d %s %d\n" % (library, name, addend)
    try:
        for name, flags, value in said.exports():
            yield b"export %d 0x%016x %s\n" % (flags, value, name)
    except Malformed as place:
        yield b"exports malformed %d\n" % place.args
    for address, is_bind, number, addend in said.fixups:
        if is_bind:
            yield b"fixup 0x%016x bind %d %d\n" % (address, number, addend)
        else:
            yield b"fixup 0x%016x rebase 0x%016x\n" % (address, number)


def report(image):
    """The text of an image's report."""
    return b"".join(lines_of(image))


if __name__ == "__main__":
    with open(sys.argv[1], "rb") as given:
        try:
            sys.stdout.buffer.write(report(given.read()))
        except Rejected as fault:
            sys.exit("rejected: %s" % fault)
