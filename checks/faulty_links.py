"""Links in which faults are planted: two or three objects that would link, with the parts that recipes for faults need.

While a link is made, relocations name symbols and sections themselves, and symbols stand at offsets in sections. Numbers and addresses
come last, when the sections and symbols of each object are put in a random order.
"""

import random
from dataclasses import dataclass
from struct import pack, pack_into

from hostile import object_of
from plain_linker import DATA, TEXT, ZEROFILL, ZEROFILLS, Library, Object, Options, Section, Symbol, object_bytes, stub_bytes, up
from random_links import BRANCH, INSTRUCTIONS, POINTER, SECTION_POINTER

NOP, CALL = 0xD503201F, 0x94000000
UNUSED = [b"__LLVM", b"__DWARF"]
SYSTEM = Library(b"/usr/lib/libSystem.B.dylib", [b"_exit", b"_write", b"_p0", b"_p1", b"_p2", b"_p3"])


class Part:
    """A section: `asked` has places, highest bytes of relocations and what they name; `pointed` places, sections and offsets whose
    addresses in the object are written there."""

    def __init__(self, segment, name, exponent, flags, data=b"", size=None):
        self.segment, self.name, self.exponent, self.flags = segment, name, exponent, flags
        self.data, self.size = bytearray(data), len(data) if size is None else size
        self.asked, self.pointed, self.address, self.is_last = [], [], 0, False

    def ask(self, place, kind, named):
        """Adds a relocation; its number is answered."""
        self.asked.append((place, kind, named))
        return len(self.asked) - 1

    def grow(self, data):
        self.data += data
        self.size += len(data)

    def put(self, place, byte):
        self.data[place] = byte

    def is_zerofill(self):
        return self.flags & 0xFF in ZEROFILLS

    def is_carried(self):
        return self.segment not in UNUSED and self.name not in (b"__mod_init_func", b"__compact_unwind")


class Name:
    """A symbol, at an offset in a part where it has one."""

    def __init__(self, name, kind, part=None, value=0, description=0):
        self.name, self.kind, self.part, self.value, self.description = name, kind, part, value, description


class Unit:
    """An object that is made, with a section of code and a symbol at its start."""

    def __init__(self):
        self.parts, self.names = [], []
        self.text = self.add(Part(TEXT, b"__text", 3, INSTRUCTIONS, pack("<III", CALL, NOP, NOP)))
        self.here = self.name(b"l_here", 0x0E, self.text)

    def add(self, part):
        self.parts.append(part)
        return part

    def name(self, *parts):
        self.names.append(Name(*parts))
        return self.names[-1]

    def outside(self, name):
        """A symbol for a name that is defined elsewhere, or nowhere."""
        return next((one for one in self.names if one.name == name and one.kind == 1), None) or self.name(name, 1)

    def number(self, part):
        return next(number for number, one in enumerate(self.parts) if one is part)

    def row(self, name):
        return next(number for number, one in enumerate(self.names) if one is name)

    def shuffle(self, pick):
        """Puts sections, but for those that come last, and symbols in another order, and gives addresses."""
        pick.shuffle(self.names)
        first, end = [one for one in self.parts if not one.is_last], 0
        pick.shuffle(first)
        self.parts = first + [one for one in self.parts if one.is_last]
        for part in self.parts:
            part.address = up(end, 1 << part.exponent)
            end = end if part.is_zerofill() else part.address + part.size

    def named(self, one):
        if isinstance(one, Part):
            return self.number(one) + 1
        return self.row(one) if isinstance(one, Name) else one

    def finished(self):
        """The object with its numbers and addresses."""
        sections, symbols = [], []
        for part in self.parts:
            for place, owner, offset in part.pointed:
                pack_into("<Q", part.data, place, owner.address + offset)
            words = [(place, self.named(one) | kind << 24) for place, kind, one in part.asked]
            row = part.segment, part.name, part.exponent, part.flags, bytes(part.data), part.size, part.address
            sections.append(Section(*row, words))
        for one in self.names:
            place = (0, one.value) if one.part is None else (self.number(one.part) + 1, one.part.address + one.value)
            symbols.append(Symbol(one.name, one.kind, place[0], one.description, place[1]))
        return Object(sections, symbols)


class Bulk:
    """An object of many sections that share their bytes, so that an image is asked for which is larger than its inputs."""

    def __init__(self, segment, name, size, count):
        self.row, self.size, self.count = (segment, name), size, count

    def text(self):
        return object_of([(*self.row, 0, self.size, 0, 0, 0, 0, 0)] * self.count, bytes(self.size), b"", [])

    def finished(self):
        return Object([Section(*self.row, 0, 0, b"", self.size * self.count)], [])


@dataclass
class Fault:
    """A fault that is planted: its family, its number in the order of refusals, its line, and where it stands.

    Line and `at` may be functions of the finished link. A phase tells apart what has one number and stands one behind the other: names that
    relocations, initializers or personalities use; values of fields, slots and stubs.
    """

    family: str
    number: int
    line: object
    unit: Unit = None
    part: Part = None
    at: object = ()
    phase: int = 0

    def line_in(self, link):
        if callable(self.line):
            return self.line(link)
        file = link.paths[link.file(self.unit)] if self.unit else ""
        return self.line.format(file=file, section=self.unit.number(self.part) if self.part else "")

    def place_in(self, link):
        """Where it stands among those of its number: phase, file, section, and what stands there."""
        file = link.file(self.unit) if self.unit else -1
        section = self.unit.number(self.part) if self.part else -1
        return self.phase, file, section, *(self.at(link) if callable(self.at) else self.at)


class Maker:
    """A link that is made: `is_far` where its slots are to stand beyond 4 GiB, so that none is used but by a stub."""

    def __init__(self, seed, is_far=False):
        self.random = random.Random(seed)
        self.pick, self.is_far, self.count = self.random.choice, is_far, 0
        self.units = [Unit() for _ in range(self.random.randint(2, 3))]
        self.bulk, self.libraries, self.entry, self.is_dylib = [], [SYSTEM], None, self.random.random() < 0.2
        self.lists = self.pick([[], [[b"_main"]], [[b"_exit", b"_m*"], [b"_main"]]])
        for unit in self.units:
            self.add_good(unit)
        start = self.unit()
        start.name(b"_main", 0x0F, start.text)
        start.text.ask(0, BRANCH, start.outside(b"_exit"))

    def unit(self):
        return self.pick(self.units)

    def fresh(self, name):
        """A name that nothing else has."""
        self.count += 1
        return b"%s%d" % (name, self.count)

    def add_good(self, unit):
        """What recipes break, whole."""
        part, place = self.data(unit, 8)
        part.ask(place, POINTER, unit.here)
        if self.random.random() < 0.5:
            self.initializers(unit, self.random.randint(1, 3))
        if self.random.random() < 0.5:
            part = self.unwind(unit, self.random.randint(1, 3))
            if not self.is_far:
                part.ask(16, POINTER, unit.outside(b"_p0"))
            data = unit.add(Part(TEXT, b"__gcc_except_tab", 2, 0, bytes(8)))
            part.ask(24, SECTION_POINTER, data)
            part.pointed.append((24, data, 4))

    # parts: each with the place where what is asked for begins

    def code(self, unit, *words):
        """A section of code with such words, behind some calls."""
        before = self.random.randint(0, 2)
        part = unit.add(Part(TEXT, b"__text", 2, INSTRUCTIONS, pack("<%dI" % (before + len(words)), *[CALL] * before, *words)))
        for number in range(before):
            part.ask(4 * number, BRANCH, unit.here)
        return part, 4 * before

    def data(self, unit, size, segment=DATA, name=b"__data"):
        """A section of data with so many zeros, in `__DATA` behind some pointers."""
        before = self.random.randint(0, 2) if segment == DATA else 0
        part = unit.add(Part(segment, name, 3, 0, bytes(8 * before + size)))
        for number in range(before):
            part.ask(8 * number, POINTER, unit.here)
        return part, 8 * before

    def room(self, unit, size, segment=DATA):
        """A symbol near the end of so many bytes that stand in no file."""
        return unit.name(self.fresh(b"l_room"), 0x0E, unit.add(Part(segment, b"__bss", 3, ZEROFILL, b"", size)), size - 8)

    def initializers(self, unit, count):
        part = unit.add(Part(DATA, b"__mod_init_func", 3, 9, bytes(8 * count)))
        for slot in range(count):
            part.ask(8 * slot, POINTER, unit.here)
        return part

    def unwind(self, unit, count):
        """Entries of functions of one instruction; the relocation of a start has the number of its entry."""
        code = unit.add(Part(TEXT, b"__text", 2, INSTRUCTIONS, pack("<I", NOP) * count))
        part = unit.add(Part(b"__LD", b"__compact_unwind", 3, 0x02000000, pack("<QIIQQ", 0, 4, 0x02000000, 0, 0) * count))
        for entry in range(count):
            part.ask(32 * entry, SECTION_POINTER, code)
            part.pointed.append((32 * entry, code, 4 * entry))
        return part

    def who(self, unit, what):
        """A symbol by what it leads to; another thing is itself."""
        make = {
            "here": lambda: unit.here,
            "odd": lambda: unit.name(self.fresh(b"l_odd"), 0x0E, unit.text, 2),
            "import": lambda: unit.outside(self.pick([b"_exit", b"_write"])),
            "base": lambda: unit.outside(b"___dso_handle"),
            "absolute": lambda: unit.name(self.fresh(b"_absolute"), 3, None, 0x1000),
            "common": lambda: unit.name(self.fresh(b"_common"), 1, None, 16),
            "nothing": lambda: unit.name(self.fresh(b"l_none"), 0x0E, unit.add(Part(UNUSED[0], b"__bitcode", 0, 0, bytes(8)))),
            "undefined": lambda: unit.outside(self.fresh(b"_gone")),
            "section": lambda: unit.text,
        }
        return make[what]() if what in make else what

    # the link

    def finish(self):
        """Numbers and addresses; the inputs stand in a random order."""
        for unit in self.units:
            unit.shuffle(self.random)
        self.inputs = self.units + self.libraries + self.bulk
        self.random.shuffle(self.inputs)
        self.paths = ["in%d.%s" % (number, "tbd" if isinstance(one, Library) else "o") for number, one in enumerate(self.inputs)]
        self.made = [one if isinstance(one, Library) else one.finished() for one in self.inputs]
        self.options = Options(dylib=self.is_dylib, lists=[b"\n".join(lines) for lines in self.lists])

    def file(self, unit):
        return next(number for number, one in enumerate(self.inputs) if one is unit)

    def files(self):
        """The files by their paths."""
        files = {path: self.text(one, made) for path, one, made in zip(self.paths, self.inputs, self.made)}
        return files | {"list%d" % number: text for number, text in enumerate(self.options.lists)}

    def text(self, one, made):
        if isinstance(one, Library):
            return stub_bytes(one)
        return one.text() if isinstance(one, Bulk) else object_bytes(made, 0x2000)

    def words(self):
        words = ["-o", "out", "-uuid", "00" * 16, *self.paths]
        for number in range(len(self.lists)):
            words += ["-exported_symbols_list", "list%d" % number]
        words += ["-e", self.entry.decode()] if self.entry else []
        return words + ["-dylib"] * self.is_dylib
