"""A plain linker: what an image of given inputs is, put together from the formats alone.

It is slow and direct, shares nothing with the linker, and knows valid inputs only: where it finds that a link is refused, it raises
`Refused`, but it doesn't look for all that could be wrong.
"""

import hashlib
import os
import re
from dataclasses import dataclass, field
from struct import pack

PAGE = 0x4000
TEXT, CONST, DATA, LINKEDIT = b"__TEXT", b"__DATA_CONST", b"__DATA", b"__LINKEDIT"
REGULAR, ZEROFILL, LARGE_ZEROFILL, INITIALIZERS = 0, 1, 0xC, 9
THREAD_DATA, THREAD_ZEROFILL, THREAD_VARIABLES, INIT_OFFSETS = 0x11, 0x12, 0x13, 0x16
ZEROFILLS = (ZEROFILL, LARGE_ZEROFILL, THREAD_ZEROFILL)
INSTRUCTIONS, DEBUG = 0x80000400, 0x02000000


class Refused(Exception):
    """The link is refused: why, and what may be told of names, as a word, a name and the numbers of files."""

    def __init__(self, why, *told):
        super().__init__(why)
        self.told = told


@dataclass
class Section:
    """A section of an object; relocations are pairs of a place and a word."""

    segment: bytes
    name: bytes
    exponent: int
    flags: int
    data: bytes
    size: int = 0
    address: int = 0
    relocations: list = field(default_factory=list)

    def kind(self):
        return self.flags & 0xFF

    def is_zerofill(self):
        return self.kind() in ZEROFILLS

    def is_carried(self):
        if self.flags & DEBUG and self.name != b"__compact_unwind":
            return False
        if self.segment in (b"__PAGEZERO", LINKEDIT, b"__LLVM") or self.kind() in (6, 7, 8, 0x10, 0x14):
            return False
        return self.name not in (b"__mod_init_func", b"__compact_unwind")


@dataclass
class Symbol:
    name: bytes
    kind: int
    section: int
    description: int
    value: int

    def is_stab(self):
        return self.kind & 0xE0 != 0

    def is_global(self):
        return not self.is_stab() and self.kind & 1 == 1

    def is_common(self):
        return self.is_global() and self.kind & 0xE == 0 and self.value != 0

    def is_weak(self):
        return self.description & 0x80 != 0

    def exponent(self):
        return self.description >> 8 & 15

    def is_offered(self):
        """Whether a library with the symbol offers its name: the symbol is defined there, and others see it."""
        return self.is_global() and self.kind & 0x10 == 0 and self.kind & 0xE in (2, 0xE)


@dataclass
class Object:
    sections: list
    symbols: list


@dataclass
class Library:
    """A library with the names that it offers: a text stub, or a Mach-O file where it has symbols."""

    name: bytes
    offered: list
    symbols: list = None


@dataclass
class Options:
    output: bytes = b"out"
    uuid: bytes = bytes(16)
    dylib: bool = False
    lists: list = None
    strip: bool = False
    room: bool = False


def up(number, step):
    return -(-number // step) * step


def padded(text, step):
    return text.ljust(up(len(text), step), b"\0")


def uleb(number):
    out = b""
    while number >= 128:
        out, number = out + bytes([number & 127 | 128]), number >> 7
    return out + bytes([number])


def fits(value, bits):
    return -(1 << bits - 1) <= value < 1 << bits - 1


def segment_command(name, address, size, place, taken, protection, count, flags=0):
    numbers = pack("<QQQQIIII", address, size, place, taken, protection, protection, count, flags)
    return pack("<II", 0x19, 72 + 80 * count) + name.ljust(16, b"\0") + numbers


def section_header(name, segment, address, size, place, exponent, flags, second=0, relocations=(0, 0)):
    numbers = pack("<QQIIIIIIII", address, size, place, exponent, *relocations, flags, 0, second, 0)
    return name.ljust(16, b"\0") + segment.ljust(16, b"\0") + numbers


def symbol_bytes(symbols, step):
    """The rows of symbols, and the table of their names."""
    names, rows = b"\0", b""
    for symbol in symbols:
        rows += pack("<IBBHQ", len(names) if symbol.name else 0, *(symbol.kind, symbol.section, symbol.description, symbol.value))
        names += symbol.name + b"\0" if symbol.name else b""
    return rows, padded(names, step)


def object_bytes(thing, flags=0, step=4):
    """The bytes of an object; contents are padded to 8 and names to `step`, or neither where that is 1."""
    start = 32 + 72 + 80 * len(thing.sections) + 24
    data = b"".join(one.data for one in thing.sections if not one.is_zerofill())
    taken, data = len(data), padded(data, 8 if step > 1 else 1)
    moved = b"".join(pack("<II", *pair) for one in thing.sections for pair in one.relocations)
    place, behind, headers = start, start + len(data), b""
    for one in thing.sections:
        in_file = 0 if one.is_zerofill() else one.size
        count = len(one.relocations)
        at = place if in_file else 0
        where = (behind if count else 0, count)
        headers += section_header(one.name, one.segment, one.address, one.size, at, one.exponent, one.flags, 0, where)
        place, behind = place + in_file, behind + 8 * count
    rows, names = symbol_bytes(thing.symbols, step)
    end = max([one.address + one.size for one in thing.sections], default=0)
    out = pack("<IIIIIIII", 0xFEEDFACF, 0x0100000C, 0, 1, 2, start - 32, flags, 0)
    out += segment_command(b"", 0, end, start, taken, 7, len(thing.sections)) + headers
    out += pack("<IIIIII", 2, 24, behind, len(thing.symbols), behind + len(rows), len(names))
    return out + data + moved + rows + names


def library_bytes(library):
    """The bytes of a library: a stub, or a Mach-O file with a section that has no contents there, its name and its symbols."""
    if library.symbols is None:
        return stub_bytes(library)
    rows, names = symbol_bytes(library.symbols, 4)
    path = padded(library.name + b"\0", 8)
    head = segment_command(TEXT, 0, PAGE, 0, 0, 5, 1) + section_header(b"__text", TEXT, 0x1000, 0x100, 0, 2, INSTRUCTIONS)
    head += pack("<IIIIII", 0xD, 24 + len(path), 24, 1, 0x10000, 0x10000) + path
    start = 32 + len(head) + 24
    head += pack("<IIIIII", 2, 24, start, len(library.symbols), start + len(rows), len(names))
    return pack("<IIIIIIII", 0xFEEDFACF, 0x0100000C, 0, 6, 3, len(head), 0x100085, 0) + head + rows + names


def stub_bytes(library):
    """A stub of a library."""
    text = b"--- !tapi-tbd\ntbd-version: 4\ntargets: [ arm64e-macos ]\ninstall-name: '%s'\ncurrent-version: 1\n" % library.name
    if library.offered:
        text += b"exports:\n  - targets: [ arm64e-macos ]\n    symbols: [ %s ]\n" % b", ".join(library.offered)
    return text + b"...\n"


def trie(exports):
    """The exports trie of names with their terminal parts: nodes before their children, those by their labels."""
    rows = []

    def add(names, depth):
        row, number = [exports.get(names[0]) if len(names[0]) == depth else None, []], len(rows)
        rows.append(row)
        rest = [name for name in names if len(name) > depth]
        for first in sorted({name[depth] for name in rest}):
            group = [name for name in rest if name[depth] == first]
            end = len(os.path.commonprefix(group))
            row[1].append((group[0][depth:end], add(group, end)))
        return number

    def text(row, places):
        edges = b"".join(label + b"\0" + uleb(places[child]) for label, child in row[1])
        part = row[0] or b""
        return uleb(len(part)) + part + bytes([len(row[1])]) + edges

    if not exports:
        return b""
    add(sorted(exports), 0)
    places, last = [0] * len(rows), None
    while places != last:
        last, at, places = places, 0, []
        for row in rows:
            places.append(at)
            at += len(text(row, last))
    return b"".join(text(row, places) for row in rows)


def signed(body, name, text_size, executable):
    """A file with its signature behind it."""
    name = padded(name + b"\0", 16)
    pages = [body[at : at + 4096] for at in range(0, len(body), 4096)]
    size = 88 + len(name) + 32 * len(pages)
    out = pack(">IIIII", 0xFADE0CC0, 20 + size, 1, 0, 20)
    out += pack(">IIIIIIIII", 0xFADE0C02, size, 0x20400, 0x20002, 88 + len(name), 88, 0, len(pages), len(body))
    out += pack(">BBBBIIIIQQQQ", 32, 2, 0, 12, 0, 0, 0, 0, 0, 0, text_size, executable)
    return body + out + name + b"".join(hashlib.sha256(page).digest() for page in pages)


@dataclass
class Part:
    """An output section: its members, or the size of one that the linker makes."""

    segment: bytes
    name: bytes
    kind: int
    flags: int = 0
    exponent: int = 0
    members: list = field(default_factory=list)
    made: int = None
    address: int = 0
    place: int = 0
    size: int = 0
    number: int = 0

    def is_zerofill(self):
        return self.kind in ZEROFILLS


class Link:
    """A link of inputs, in their order: `Object`s and `Library`s."""

    def __init__(self, inputs, options):
        self.inputs, self.options = inputs, options
        self.objects = [(number, one) for number, one in enumerate(inputs) if isinstance(one, Object)]
        self.libraries = [(number, one) for number, one in enumerate(inputs) if isinstance(one, Library)]
        self.executable = not options.dylib
        self.base = 0x100000000 if self.executable else 0
        self.imports, self.slots, self.stubs, self.own_entries, self.fields = [], [], [], [], []

    def image(self):
        self.define()
        self.walk()
        self.read_initializers()
        self.read_unwind()
        self.read_lists()
        self.choose()
        self.merge()
        self.place()
        return self.write()

    # names

    def define(self):
        """The definitions of names: strong, weak, common, in a library."""
        self.strong, self.weak, self.commons, self.offered, twice = {}, {}, {}, {}, {}
        for number, one in self.objects:
            for index, symbol in enumerate(one.symbols):
                if not symbol.is_global():
                    continue
                if self.place_of(number, index)[0] in ("section", "absolute"):
                    table = self.weak if symbol.is_weak() else self.strong
                    if symbol.name in self.strong and not symbol.is_weak():
                        twice.setdefault(symbol.name, ("duplicate symbol", symbol.name, self.strong[symbol.name][0], number))
                    table.setdefault(symbol.name, (number, index))
                elif symbol.is_common():
                    other = self.commons.get(symbol.name)
                    if other is None or symbol.value > self.symbol(*other).value:
                        self.commons[symbol.name] = (number, index)
        for number, library in self.libraries:
            for name in library.offered:
                self.offered.setdefault(name, number)
        if twice:
            raise Refused("two definitions", *twice.values())

    def symbol(self, number, index):
        return self.inputs[number].symbols[index]

    def definition(self, name):
        return self.strong.get(name) or self.weak.get(name) or self.commons.get(name)

    def is_chosen_common(self, name):
        return name in self.commons and name not in self.strong and name not in self.weak

    def place_of(self, number, index):
        """Where a symbol itself stands."""
        symbol, sections = self.symbol(number, index), self.inputs[number].sections
        if symbol.kind & 0xE == 0xE and sections[symbol.section - 1].is_carried():
            return ("section", number, symbol.section - 1, symbol.value - sections[symbol.section - 1].address)
        return ("absolute", symbol.value) if symbol.kind & 0xE == 2 else ("none",)

    def target(self, number, index):
        """What a use of a symbol leads to; a library's name is noted."""
        symbol = self.symbol(number, index)
        if symbol.is_stab():
            return ("none",)
        if not symbol.is_global():
            return self.place_of(number, index)
        if self.is_chosen_common(symbol.name):
            return ("common", symbol.name)
        if self.definition(symbol.name):
            return self.place_of(*self.definition(symbol.name))
        if symbol.name in self.offered:
            return self.note(symbol.name)
        if symbol.name == b"___dso_handle":
            return ("base",)
        raise Refused("no definition", ("undefined symbol", symbol.name, number))

    def note(self, name):
        if name not in self.imports:
            self.imports.append(name)
        return ("import", name)

    def slot(self, target):
        if target not in self.slots:
            self.slots.append(target)
        return self.slots.index(target)

    # what the inputs ask for

    def walk(self):
        """All fields of carried sections, with what they need."""
        for number, one in self.objects:
            for index, section in enumerate(one.sections):
                if section.is_carried():
                    self.walk_section(number, index, section)

    def walk_section(self, number, index, section):
        subtrahend, addend = None, 0
        for place, word in section.relocations:
            symbol, kind, width, by_symbol = word & 0xFFFFFF, word >> 28, 1 << (word >> 25 & 3), word >> 27 & 1
            if kind == 1:
                subtrahend = self.target(number, symbol)
                continue
            if kind == 10:
                addend = symbol - (1 << 24) if symbol >> 23 else symbol
                continue
            target = self.target(number, symbol) if by_symbol else ("section", number, symbol - 1, 0)
            if kind == 0:
                addend = int.from_bytes(section.data[place : place + width], "little", signed=True)
                if not by_symbol:
                    addend -= self.inputs[number].sections[symbol - 1].address
            self.need(kind, target, addend if subtrahend is None else 0)
            self.fields.append((number, index, place, kind, width, target, subtrahend, addend))
            subtrahend, addend = None, 0

    def need(self, kind, target, addend):
        is_import = target[0] == "import"
        if kind == 7 or kind in (2, 5, 6, 8, 9) and is_import:
            self.slot(target)
        if kind == 2 and is_import and target not in self.stubs:
            self.stubs.append(target)
        if kind == 0 and is_import and not 0 <= addend <= 255:
            if not fits(addend, 32):
                raise Refused("an addend of %d" % addend)
            if (target[1], addend) not in self.own_entries:
                self.own_entries.append((target[1], addend))

    def read_initializers(self):
        self.initializers = []
        for number, one in self.objects:
            for section in one.sections:
                if section.name == b"__mod_init_func":
                    for _, word in sorted(section.relocations):
                        self.initializers.append(self.target(number, word & 0xFFFFFF))

    def read_unwind(self):
        """Entries of 32 bytes: start, length, encoding, and by relocation a personality and language data."""
        self.entries = []
        for number, one in self.objects:
            for section in one.sections:
                if section.name == b"__compact_unwind":
                    for at in range(0, section.size, 32):
                        self.read_entry(number, section, at, dict(section.relocations))

    def read_entry(self, number, section, at, relocations):
        def placed(place):
            owner = (relocations[place] & 0xFFFFFF) - 1
            value = int.from_bytes(section.data[place : place + 8], "little")
            return (number, owner, value - self.inputs[number].sections[owner].address)

        length = int.from_bytes(section.data[at + 8 : at + 12], "little")
        encoding = int.from_bytes(section.data[at + 12 : at + 16], "little")
        personality = data = None
        if at + 16 in relocations:
            personality = self.slot(self.target(number, relocations[at + 16] & 0xFFFFFF))
        if at + 24 in relocations:
            data = placed(at + 24)
        self.entries.append((placed(at), length, encoding, personality, data))

    def read_lists(self):
        self.listed = None
        if self.options.lists is None:
            return
        lines = [line.split(b"#")[0].strip(b" \t\r") for text in self.options.lists for line in text.split(b"\n")]
        self.listed = [line for line in lines if line]
        for name in self.listed:
            if b"*" in name or self.definition(name) or name == b"___dso_handle" and name not in self.offered:
                continue
            if name not in self.offered:
                raise Refused("%r is listed and not defined" % name)
            self.note(name)

    def is_listed(self, name):
        forms = [b".*".join(re.escape(part) for part in one.split(b"*")) for one in self.listed]
        return any(re.fullmatch(form, name, re.S) for form in forms)

    def choose(self):
        """Needed libraries, exports, chosen commons, personalities and encodings."""
        used = {self.inputs[self.offered[name]].name for name in self.imports}
        self.needed = []
        for _, library in self.libraries:
            if library.name not in self.needed and (library.name in used or not self.options.strip):
                self.needed.append(library.name)
        self.exports = []
        for name in sorted({*self.strong, *self.weak, *self.commons}):
            if not self.symbol(*self.definition(name)).kind & 0x10 and (self.listed is None or self.is_listed(name)):
                self.exports.append(name)
        self.onward = [name for name in self.imports if self.listed is not None and self.is_listed(name)]
        self.chosen = []
        for number, one in self.objects:
            for index, symbol in enumerate(one.symbols):
                if self.is_chosen_common(symbol.name) and self.commons[symbol.name] == (number, index):
                    self.chosen.append(symbol)
        self.personalities = sorted({entry[3] for entry in self.entries if entry[3] is not None})
        if len(self.personalities) > 3:
            raise Refused("too many personalities")
        codes = [self.code(entry) for entry in self.entries]
        self.codes = sorted(set(codes), key=lambda code: (-codes.count(code), -code))
        start = self.definition(b"_main")
        if self.executable and (not start or self.is_chosen_common(b"_main") or self.place_of(*start)[0] != "section"):
            raise Refused("no entry")

    def code(self, entry):
        number = 0 if entry[3] is None else self.personalities.index(entry[3]) + 1
        return entry[2] | number << 28

    # where things are

    def merge(self):
        """Output sections by segment, in the order in which they stand."""
        self.parts = []
        for number, one in self.objects:
            for index, section in enumerate(one.sections):
                if section.is_carried():
                    part = self.part(section.segment, section.name, section.kind())
                    part.flags |= section.flags & ~0x3FF | section.flags & 0x400
                    part.members.append([(number, index), section.exponent, section.size])
        for symbol in self.chosen:
            size = up(symbol.value, 1 << symbol.exponent())
            self.part(DATA, b"__common", ZEROFILL).members.append([symbol.name, symbol.exponent(), size])
        template = [part for part in self.parts if part.kind in (THREAD_DATA, THREAD_ZEROFILL)]
        greatest = max([member[1] for part in template for member in part.members], default=0)
        for part in self.parts:
            for member in part.members:
                if part in template:
                    member[1] = greatest
                elif part.kind == THREAD_VARIABLES:
                    member[1] = max(member[1], 3)
            part.exponent = max(member[1] for member in part.members)
        names = [name for name in (TEXT, CONST, DATA) if name == TEXT or self.has_part(name)]
        names += [part.segment for part in self.parts]
        self.order = {name: self.ordered(name) for name in names}
        if len(self.order) + (2 if self.executable else 1) > 6:
            raise Refused("too many segments")

    def part(self, segment, name, kind):
        for part in self.parts:
            if (part.segment, part.name, part.kind) == (segment, name, kind):
                return part
        self.parts.append(Part(segment, name, kind))
        return self.parts[-1]

    def has_part(self, name):
        return any(part.segment == name for part in self.parts) or name == CONST and self.slots != []

    def ordered(self, name):
        mine = [part for part in self.parts if part.segment == name]
        full, empty = [one for one in mine if not one.is_zerofill()], [one for one in mine if one.is_zerofill()]
        if name == TEXT:
            code = [one for one in full if one.flags & INSTRUCTIONS]
            return code + self.made_text() + [one for one in full if not one.flags & INSTRUCTIONS] + empty
        if name == CONST and self.slots:
            return [Part(CONST, b"__got", 6, 0, 3, made=8 * len(self.slots))] + full + empty
        if name == DATA:
            rank = lambda one: 0 if one.kind == THREAD_ZEROFILL else 1 if (one.name, one.kind) == (b"__common", ZEROFILL) else 2
            full.sort(key=lambda one: one.kind == THREAD_DATA)
            empty.sort(key=rank)
        return full + empty

    def made_text(self):
        made = []
        if self.initializers:
            made.append(Part(TEXT, b"__init_offsets", INIT_OFFSETS, 0, 2, made=4 * len(self.initializers)))
        if self.entries:
            data = sum(1 for entry in self.entries if entry[4])
            size = 28 + 4 * len(self.codes) + 4 * len(self.personalities) + 8 * data + 24 + 12 + 4 * len(self.entries)
            made.append(Part(TEXT, b"__unwind_info", REGULAR, 0, 2, made=size))
        if self.stubs:
            made.append(Part(TEXT, b"__stubs", 8, INSTRUCTIONS, 2, made=12 * len(self.stubs)))
        return made

    def commands_size(self):
        size = 72 * (len(self.order) + (2 if self.executable else 1)) + 80 * sum(map(len, self.order.values()))
        size += 24 + 32 if self.executable else 24 + len(padded(self.options.output + b"\0", 8))
        return size + sum(24 + len(padded(name + b"\0", 8)) for name in self.needed) + 24 + 16 + 16 + 24 + 16

    def place(self):
        """Addresses and file offsets."""
        room = 1024 * (len(self.needed) + (0 if self.executable else 1)) if self.options.room else 0
        address, place, number = self.base, 0, 0
        self.at, self.numbers, self.segments, self.made_parts = {}, {}, [], {}
        for name, parts in self.order.items():
            end = address + (32 + self.commands_size() + room if name == TEXT else 0)
            file_end = end
            for part in parts:
                number += 1
                end = up(end, 1 << part.exponent)
                part.address, part.number = end, number
                for key, exponent, size in part.members:
                    end = up(end, 1 << exponent)
                    self.at[key], self.numbers[key] = end, number
                    end += size
                if part.made is not None:
                    self.made_parts[part.name] = part
                    end += part.made
                part.size, part.place = end - part.address, 0 if part.is_zerofill() else place + part.address - address
                file_end = file_end if part.is_zerofill() else end
            sizes = up(end - address, PAGE), up(file_end - address, PAGE)
            self.segments.append((name, address, sizes[0], place, sizes[1]))
            address, place = address + sizes[0], place + sizes[1]
        self.end, self.tables = address, place

    def address(self, target):
        if target[0] == "section":
            return self.at[target[1:3]] + target[3]
        if target[0] == "common":
            return self.at[target[1]]
        return {"base": self.base, "absolute": target[-1]}[target[0]]

    def slot_address(self, target):
        return self.made_parts[b"__got"].address + 8 * self.slots.index(target)

    # the file

    def write(self):
        self.bytes, self.words = bytearray(self.tables), []
        for number, one in self.objects:
            for index, section in enumerate(one.sections):
                if section.is_carried() and not section.is_zerofill():
                    self.put(self.at[number, index], section.data)
        for target in self.slots:
            self.pointer(self.slot_address(target), target, 0)
        for one in self.fields:
            self.write_field(*one)
        self.write_made()
        self.write_chains()
        self.write_tables()
        commands, count = self.commands()
        kind, flags = (2, 0x200085) if self.executable else (6, 0x85)
        flags |= 0x800000 if any(part.kind == THREAD_VARIABLES for part in self.parts) else 0
        head = pack("<IIIIIIII", 0xFEEDFACF, 0x0100000C, 0, kind, count, len(commands), flags, 0) + commands
        self.bytes[: len(head)] = head
        return signed(bytes(self.bytes) + self.linkedit, self.options.output, self.segments[0][4], self.executable)

    def put(self, address, content):
        for _, start, _, place, taken in self.segments:
            if start <= address < start + taken:
                at = place + address - start
                self.bytes[at : at + len(content)] = content

    def number(self, address, value, width):
        self.put(address, (value % (1 << 8 * width)).to_bytes(width, "little"))

    def pointer(self, address, target, addend):
        """A word of eight bytes: a value that stays, or one that the loader writes."""
        if target[0] == "absolute":
            self.number(address, target[1] + addend, 8)
        elif target[0] == "import":
            own = (target[1], addend) in self.own_entries
            ordinal = len(self.imports) + self.own_entries.index((target[1], addend)) if own else self.imports.index(target[1])
            self.words.append((address, ordinal | (0 if own else addend) << 24 | 1 << 63))
        else:
            value = self.address(target) + addend - self.base
            if value < 0 or value & ~(0xFF << 56 | (1 << 36) - 1):
                raise Refused("a pointer to %#x" % value)
            self.words.append((address, value & (1 << 36) - 1 | value >> 56 << 36))

    def write_field(self, number, index, place, kind, width, target, subtrahend, addend):
        section = self.inputs[number].sections[index]
        address, is_import = self.at[number, index] + place, target[0] == "import"
        if subtrahend is not None:
            value = self.address(target) - self.address(subtrahend) + addend
            if width == 4 and not fits(value, 32):
                raise Refused("a difference of %d" % value)
            return self.number(address, value, width)
        if kind == 0:
            template = [part.address for part in self.parts if part.kind in (THREAD_DATA, THREAD_ZEROFILL)]
            into = target[0] == "section" and self.inputs[target[1]].sections[target[2]].kind() in (THREAD_DATA, THREAD_ZEROFILL)
            if section.kind() == THREAD_VARIABLES and into:
                return self.number(address, self.address(target) + addend - min(template), 8)
            return self.pointer(address, target, addend)
        if kind == 7:
            return self.number(address, self.slot_address(target) - address, 4)
        word = int.from_bytes(section.data[place : place + 4], "little")
        if kind == 2:
            stub = self.made_parts[b"__stubs"].address + 12 * self.stubs.index(target) if is_import else None
            distance = (stub if is_import else self.address(target)) + addend - address
            if distance % 4 or not fits(distance, 28):
                raise Refused("a branch over %d" % distance)
            word = word & 0xFC000000 | distance >> 2 & 0x3FFFFFF
        else:
            led = self.slot_address(target) if is_import else self.address(target) + addend
            word = page(word, led, address) if kind in (3, 5, 8) else low(word, led, kind in (6, 9) and not is_import)
        return self.number(address, word, 4)

    def write_made(self):
        for number, target in enumerate(self.stubs):
            stub, slot = self.made_parts[b"__stubs"].address + 12 * number, self.slot_address(target)
            self.number(stub, page(0x90000010, slot, stub), 4)
            self.number(stub + 4, low(0xF9400210, slot, False), 4)
            self.number(stub + 8, 0xD61F0200, 4)
        for number, target in enumerate(self.initializers):
            self.number(self.made_parts[b"__init_offsets"].address + 4 * number, self.address(target) - self.base, 4)
        if self.entries:
            self.put(self.made_parts[b"__unwind_info"].address, self.unwind())

    def unwind(self):
        """One page of entries by their starts, behind encodings, personalities, the pages' row, language data."""
        offset = lambda place: self.at[place[:2]] + place[2] - self.base
        rows = sorted((offset(entry[0]), entry[1], self.code(entry), entry[4]) for entry in self.entries)
        slots = [self.slot_address(self.slots[number]) - self.base for number in self.personalities]
        data = [pack("<II", row[0], offset(row[3])) for row in rows if row[3]]
        slots_at = 28 + 4 * len(self.codes)
        pages_at = slots_at + 4 * len(slots)
        data_at, end = pages_at + 24, rows[-1][0] + rows[-1][1]
        page_at = data_at + 8 * len(data)
        out = pack("<IIIIIII", 1, 28, len(self.codes), slots_at, len(slots), pages_at, 2)
        out += b"".join(pack("<I", number) for number in self.codes + slots)
        out += pack("<IIIIII", rows[0][0], page_at, data_at, end, 0, page_at) + b"".join(data)
        out += pack("<IHHHH", 3, 12, len(rows), 12 + 4 * len(rows), 0)
        return out + b"".join(pack("<I", self.codes.index(row[2]) << 24 | row[0] - rows[0][0]) for row in rows)

    def write_chains(self):
        """The words of the loader, each with the steps to the next one of its page."""
        self.words.sort()
        self.starts = {}
        for number, (address, word) in enumerate(self.words):
            if address % 4 or address % PAGE + 8 > PAGE:
                raise Refused("a word at %#x" % address)
            if number + 1 < len(self.words) and self.words[number + 1][0] // PAGE == address // PAGE:
                word |= (self.words[number + 1][0] - address) // 4 << 51
            self.number(address, word, 8)
            self.starts.setdefault(address // PAGE, address % PAGE)

    def fixups(self):
        """The table of starts and imports, with the room behind it."""
        names = ([b"__PAGEZERO"] if self.executable else []) + [one[0] for one in self.segments] + [LINKEDIT]
        offsets, records = [0] * len(names), b""
        for name, address, size, _, _ in self.segments:
            pages = [number for number in self.starts if address <= number * PAGE < address + size]
            if pages:
                offsets[names.index(name)] = 4 + 4 * len(names) + len(records)
                count = max(pages) - address // PAGE + 1
                records += pack("<IHHQIH", 22 + 2 * count, PAGE, 6, address - self.base, 0, count)
                records += b"".join(pack("<H", self.starts.get(address // PAGE + at, 0xFFFF)) for at in range(count))
        starts = pack("<I", len(names)) + b"".join(pack("<I", offset) for offset in offsets) + records
        texts, places = b"", {}
        for name in self.imports:
            places[name] = len(texts)
            texts += name + b"\0"
        table, wide = b"", self.own_entries != []
        for name, addend in [(name, 0) for name in self.imports] + self.own_entries:
            table += pack("<I", self.library(name) | places[name] << 9) + (pack("<i", addend) if wide else b"")
        count, behind = len(self.imports) + len(self.own_entries), 28 + len(starts)
        out = pack("<IIIIIII", 0, 28, behind, behind + len(table), count, 2 if wide else 1, 0) + starts + table + texts
        pages = sum(one[4] // PAGE for one in self.segments if one[0] in (CONST, DATA))
        return out.ljust(up(188 + len(table) + len(texts), 8) + up(2 * pages, 8), b"\0")

    def library(self, name):
        return self.needed.index(self.inputs[self.offered[name]].name) + 1

    def export_tries(self):
        """The trie, and the room that is kept for it."""
        given, kept = {}, {}
        for name in self.exports:
            number, index = self.definition(name)
            target = ("common", name) if self.is_chosen_common(name) else self.place_of(number, index)
            kind = 2 if target[0] == "absolute" else 0
            if target[0] == "section" and self.inputs[target[1]].sections[target[2]].kind() == THREAD_VARIABLES:
                kind = 1
            if target[0] != "common" and self.symbol(number, index).is_weak():
                kind += 4
            value = target[1] if kind & 3 == 2 else self.address(target) - self.base
            given[name], kept[name] = uleb(kind) + uleb(value), uleb(0) + uleb(2**64 - 1)
        for name in self.onward:
            given[name] = kept[name] = uleb(8) + uleb(self.library(name)) + b"\0"
        return trie(given), len(trie(kept))

    def symbol_table(self):
        rows, names = b"", b"\0"
        for number, one in self.objects:
            for index, symbol in enumerate(one.symbols):
                row = self.symbol_row(number, index, symbol)
                if row:
                    rows += pack("<IBBHQ", len(names), *row)
                    names += symbol.name + b"\0"
        return rows, names

    def symbol_row(self, number, index, symbol):
        kind, description = symbol.kind, symbol.description
        if symbol.is_stab() or not symbol.name or not symbol.is_global() and symbol.name.startswith(b"ltmp"):
            return None
        if symbol.is_global() and self.definition(symbol.name) != (number, index):
            return None
        target = self.place_of(number, index)
        if symbol.is_common():
            target, kind, description = ("common", symbol.name), kind | 0xE, description & ~0xF00
        if target[0] == "none":
            return None
        if kind & 1 and (kind & 0x10 or self.listed is not None and symbol.name not in self.exports):
            kind = kind & ~1 | 0x10
        key = {"section": target[1:3], "common": target[1], "absolute": None}[target[0]]
        return kind, self.numbers.get(key, 0), description, self.address(target)

    def write_tables(self):
        fixups, (given, kept), (rows, names) = self.fixups(), self.export_tries(), self.symbol_table()
        trie_at = self.tables + len(fixups)
        rows_at = up(trie_at + kept, 8)
        end = up(rows_at + len(rows) + len(names), 16)
        self.linkedit = ((fixups + given).ljust(rows_at - self.tables, b"\0") + rows + names).ljust(end - self.tables, b"\0")
        size = 20 + 88 + len(padded(self.options.output + b"\0", 16)) + 32 * (up(end, 4096) // 4096)
        self.size = end + size - self.tables
        self.last_commands = pack("<IIII", 0x80000034, 16, self.tables, len(fixups))
        self.last_commands += pack("<IIII", 0x80000033, 16, trie_at, len(given))
        self.last_commands += pack("<IIIIII", 2, 24, rows_at, len(rows) // 16, rows_at + len(rows), len(names))
        self.last_commands += pack("<IIII", 0x1D, 16, end, size)

    def commands(self):
        out, count = [], 0
        if self.executable:
            out.append(segment_command(b"__PAGEZERO", 0, self.base, 0, 0, 0, 0))
        for name, address, size, place, taken in self.segments:
            parts, flags = self.order[name], 0x10 if name == CONST else 0
            text = segment_command(name, address, size, place, taken, 5 if name == TEXT else 3, len(parts), flags)
            for one in parts:
                second = 12 if one.made is not None and one.name == b"__stubs" else 0
                text += section_header(one.name, name, one.address, one.size, one.place, one.exponent, one.flags | one.kind, second)
            out.append(text)
        out.append(segment_command(LINKEDIT, self.end, up(self.size, PAGE), self.tables, self.size, 1, 0))
        if self.executable:
            start = self.address(self.place_of(*self.definition(b"_main"))) - self.base
            out.append(pack("<IIQQ", 0x80000028, 24, start, 0))
        uuid = bytearray(self.options.uuid)
        uuid[6], uuid[8] = uuid[6] & 15 | 0x30, uuid[8] & 63 | 0x80
        out.append(pack("<II", 0x1B, 24) + uuid)
        if self.executable:
            out.append(pack("<III", 0xE, 32, 12) + b"/usr/lib/dyld".ljust(20, b"\0"))
        else:
            own = padded(self.options.output + b"\0", 8)
            out.append(pack("<IIIIII", 0xD, 24 + len(own), 24, 1, 0, 0) + own)
        for name in self.needed:
            path = padded(name + b"\0", 8)
            out.append(pack("<IIIIII", 0xC, 24 + len(path), 24, 2, 0x054C0000, 0x10000) + path)
        return b"".join(out) + self.last_commands, len(out) + 4


def page(word, target, address):
    """An ADRP to the target's page."""
    pages = (target >> 12) - (address >> 12)
    return word & 0x9F00001F | (pages & 3) << 29 | (pages >> 2 & 0x7FFFF) << 5


def low(word, target, becomes_sum):
    """The low bits of a target in a sum, a load or a store; a load of a slot becomes a sum where its target is known."""
    if becomes_sum:
        word = 0x91000000 | word & 0x3FF
    scale = 1 if word & 0xFFC00000 == 0x91000000 else 1 << (word >> 30)
    if word & 0x3B000000 == 0x39000000 and word >> 30 == 0 and word & 0x04800000 == 0x04800000:
        scale = 16
    if target % 4096 % scale:
        raise Refused("a place of %#x" % target)
    return word & 0xFFC003FF | target % 4096 // scale << 10


def link(inputs, options):
    return Link(inputs, options).image()
