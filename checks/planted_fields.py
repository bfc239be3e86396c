"""Recipes of faults of relocations, numbers, sizes and values: each gives the faults that it makes stand."""

from struct import pack, pack_into

from faulty_links import Bulk, Fault, Part
from plain_linker import DATA, TEXT, Library, Link, Refused
from random_links import POINTER, SECTION_POINTER, TO_SLOT

GREAT = 5 << 30  # past 32 bits, and past what a page reaches
FURTHER = 70 << 30  # past what a word of the loader holds


# relocations


def relocation(family, number, text, unit, part, at):
    return Fault(family, number, "{file}: section {section}, relocation %d: %s" % (at, text), unit, part, (at,))


def unsupported(word, asked, at=0):
    """Relocations at one place, at a word of code or else in data, of which one is not supported."""

    def plant(m):
        unit = m.unit()
        part, place = m.data(unit, 8) if word is None else m.code(unit, word)
        numbers = [part.ask(place, kind, m.who(unit, what)) for kind, what in asked]
        return [relocation("unsupported", 8, "unsupported", unit, part, numbers[at])]

    return plant


def overlap(places, pairs):
    """Pointers at places, and the pairs of them that overlap."""

    def plant(m):
        unit, faults = m.unit(), []
        part, place = m.data(unit, 24)
        numbers = [part.ask(place + one, POINTER, unit.here) for one in places]
        for pair in pairs:
            first, second = (numbers[one] for one in pair)
            line = "{file}: section {section}, relocations %d and %d overlap" % (first, second)
            faults.append(Fault("overlap", 9, line, unit, part, (first, second)))
        return faults

    return plant


def far_addend(addend):
    def plant(m):
        unit = m.unit()
        part, place = m.data(unit, 8)
        pack_into("<q", part.data, place, addend)
        return [relocation("addend", 10, "bad addend", unit, part, part.ask(place, POINTER, m.who(unit, "import")))]

    return plant


def pointer_in(segment, name, what):
    def plant(m):
        unit = m.unit()
        part, place = m.data(unit, 8, segment, name)
        return [relocation("place by segment", 11, "bad place", unit, part, part.ask(place, POINTER, m.who(unit, what)))]

    return plant


def pointer_at(offset, exponent=3):
    """A pointer between multiples of four, or over the end of a page."""

    def plant(m):
        unit = m.unit()
        part = unit.add(Part(DATA, b"__data", exponent, 0, bytes(offset + 16)))
        return [relocation("place by address", 11, "bad place", unit, part, part.ask(offset, POINTER, unit.here))]

    return plant


# numbers and sizes


def many_segments(m):
    for number in range(m.random.randint(3, 6)):
        m.unit().add(Part(b"__S%d" % number, b"__x", 0, 0, bytes(4)))
    # those of the parts, of the header and slots, and before and behind all
    made = {TEXT, b"__DATA_CONST", b"__LINKEDIT"}
    count = lambda link: len(made | {part.segment for unit in link.units for part in unit.parts if part.is_carried()}) + (not link.is_dylib)
    return [Fault("number", 12, lambda link: "too many segments: %d" % count(link), at=(0,))]


def many_libraries(m):
    m.libraries += [Library(b"/usr/lib/lib%d.dylib" % number, []) for number in range(240)]
    return [Fault("number", 12, "too many libraries: 241", at=(1,))]


def many_sections(m):
    unit = m.unit()
    for number in range(254):
        unit.add(Part(DATA, b"__n%d" % number, 0, 0, bytes(1))).is_last = True

    def line(link):
        parts = [part for unit in link.units for part in unit.parts]
        merged = {(part.segment, part.name, part.flags & 0xFF) for part in parts if part.is_carried()}
        commons = any(one.kind == 1 and one.value for unit in link.units for one in unit.names)
        made = [any(part.name == name for part in parts) for name in (b"__mod_init_func", b"__compact_unwind")]
        return "too many sections: %d" % (len(merged) + 2 + commons + sum(made))

    return [Fault("number", 12, line, at=(2,))]


def many_personalities(m):
    unit = m.unit()
    part = m.unwind(unit, 4)
    for entry in range(4):
        part.ask(32 * entry + 16, POINTER, unit.outside(b"_p%d" % entry))

    def line(link):
        parts = [part for unit in link.units for part in unit.parts if part.name == b"__compact_unwind"]
        named = [one for part in parts for place, _, one in part.asked if place % 32 == 16]
        return "too many personalities: %d" % len({one.name for one in named})

    return [Fault("number", 12, line, at=(3,))]


def huge_section(m):
    m.room(m.unit(), 0xFFFFFFFF00000000)
    return [Fault("sum", 13, "image too large")]


def plain(link, look):
    """What is looked up in a plain link that is placed. Where a lesser fault stops that, it isn't asked for."""
    one = Link(link.made, link.options)
    try:
        one.define()
        for turn in (one.walk, one.read_initializers, one.read_unwind, one.read_lists, one.choose, one.merge, one.place):
            turn()
        return look(one)
    except (Refused, KeyError, IndexError, ValueError):
        return 0


def many_pages(m):
    """More than 1 GiB of data."""
    m.bulk.append(Bulk(DATA, b"__data", 1 << 20, 1025))
    count = lambda one: next(size // 0x4000 for name, _, _, _, size in one.segments if name == DATA)
    return [Fault("pages", 12, lambda link: "too many pages: %d" % plain(link, count), at=(7,))]


def large_file(m):
    """4 GiB of constants."""
    m.bulk.append(Bulk(TEXT, b"__const", 1 << 20, 1 << 12))
    return [Fault("file", 13, "image too large")]


def far_initializer(m):
    unit = m.unit()
    part, slot = m.initializers(unit, 2), m.random.randrange(2)
    part.asked[slot] = (8 * slot, POINTER, m.room(unit, GREAT))
    return [Fault("offset", 13, "image too large")]


def far_data(m):
    unit = m.unit()
    part, data = m.unwind(unit, 1), m.room(unit, GREAT).part
    part.ask(24, SECTION_POINTER, data)
    part.pointed.append((24, data, GREAT - 8))
    return [Fault("offset", 13, "image too large")]


def far_slots(m):
    """The first stub doesn't reach its slot."""
    m.room(m.unit(), GREAT, TEXT)
    return [Fault("stub's range", 15, "stub 0: out of range", phase=2)]


def far_personality(m):
    unit = m.unit()
    m.unwind(unit, 1).ask(16, POINTER, unit.outside(b"_p0"))
    return [Fault("offset", 13, "image too large"), *far_slots(m)]


# values


def far_pointer(addend, size=None, what="here"):
    def plant(m):
        unit = m.unit()
        part, place = m.data(unit, 8)
        pack_into("<q", part.data, place, addend)
        at = part.ask(place, POINTER, m.room(unit, size) if size else m.who(unit, what))
        return [relocation("field's target", 14, "bad target", unit, part, at)]

    return plant


def misplaced_far_pointer(m):
    """Two faults of one pointer: its place, and its target."""
    unit = m.unit()
    part = unit.add(Part(DATA, b"__data", 3, 0, pack("<HqHI", 0, -(2**44), 0, 0)))
    at = part.ask(2, POINTER, unit.here)
    told = ("place by address", 11, "bad place"), ("field's target", 14, "bad target")
    return [relocation(*row, unit, part, at) for row in told]


def far_slot(by_personality):
    def plant(m):
        unit = m.unit()
        name = m.room(unit, FURTHER)
        part, place = (m.unwind(unit, 1), 16) if by_personality else m.data(unit, 8)
        part.ask(place, POINTER if by_personality else TO_SLOT, name)
        number = lambda link: plain(link, lambda one: one.slots.index(one.target(link.file(unit), unit.row(name))))
        line = lambda link: "slot %d: bad target" % number(link)
        return [Fault("slot's target", 14, line, at=lambda link: (number(link),), phase=1)]

    return plant


def out_of_range(word, asked, size=None):
    """A field whose value doesn't fit: its target is in so much room, or as told."""

    def plant(m):
        unit = m.unit()
        part, place = m.code(unit, word)
        room = m.room(unit, size) if size else None
        numbers = [part.ask(place, kind, room if what == "room" else m.who(unit, what)) for kind, what in asked]
        return [relocation("field's range", 15, "out of range", unit, part, numbers[-1])]

    return plant
