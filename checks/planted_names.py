"""Recipes of faults of names, initializers and unwind entries: each gives the faults that it makes stand."""

from faulty_links import UNUSED, Fault, Part
from plain_linker import DATA, TEXT, ZEROFILL
from random_links import INSTRUCTIONS, POINTER, SECTION_POINTER


# names


def undefined(unit, part, at, name, phase):
    """A name that is used by a relocation: of a carried section, of initializers, or of entries, by the phase."""
    return Fault("undefined name", 2, "undefined symbol %s in {file}" % name.name.decode(), unit, part, (at,), phase)


def defined_in(m, units):
    """Strong definitions of one name in these objects: the fault of the first two."""
    name = m.fresh(b"_twice")
    for unit in units:
        unit.name(name, 0x0F, unit.text, 4)

    def files(link):
        return sorted(link.file(unit) for unit in units)[:2]

    def line(link):
        first, second = files(link)
        return "duplicate symbol %s in %s and %s" % (name.decode(), link.paths[first], link.paths[second])

    def at(link):
        first, second = files(link)
        return first, second, next(row for row, one in enumerate(link.inputs[second].names) if one.name == name)

    return Fault("two definitions", 1, line, at=at)


def two_definitions(m):
    """Two strong definitions, or three."""
    return [defined_in(m, m.random.sample(m.units, m.random.randint(2, len(m.units))))]


def crossed_definitions(m):
    """A name in the first and the last object, and another in two of them."""
    return [defined_in(m, [m.units[0], m.units[-1]]), defined_in(m, m.units[-2:])]


def missing_entry(what):
    def plant(m):
        unit, m.is_dylib = m.unit(), False
        m.entry = m.who(unit, what).name
        return [Fault("entry", 3, "entry symbol %s is not defined" % m.entry.decode())]

    return plant


def missing_listed(m):
    m.lists = m.lists or [[]]
    number, name = m.random.randrange(len(m.lists)), m.fresh(b"_nope")
    m.lists[number].append(name)
    return [Fault("listed name", 4, "exported symbol not defined: " + name.decode(), at=(number, len(m.lists[number])))]


def undefined_in_code(word, kind):
    def plant(m):
        unit = m.unit()
        part, place = m.code(unit, word)
        name = m.who(unit, "undefined")
        return [undefined(unit, part, part.ask(place, kind, name), name, 0)]

    return plant


def undefined_in_data(kinds, segment=DATA):
    def plant(m):
        unit = m.unit()
        part, place = m.data(unit, 8, segment)
        name, faults = m.who(unit, "undefined"), []
        for kind, what in kinds:
            at = part.ask(place, kind, name if what == "undefined" else m.who(unit, what))
            faults += [undefined(unit, part, at, name, 0)] * (what == "undefined")
        return faults

    return plant


def undefined_initializer(breaks=lambda part, slot: None):
    def plant(m):
        unit, count = m.unit(), m.random.randint(1, 3)
        part, slot, name = m.initializers(unit, count), m.random.randrange(count), m.who(unit, "undefined")
        part.asked[slot] = (8 * slot, POINTER, name)
        breaks(part, slot)
        return [undefined(unit, part, slot, name, 1)]

    return plant


def undefined_personality(breaks=lambda part, entry: None):
    def plant(m):
        unit, count = m.unit(), m.random.randint(1, 3)
        part, entry, name = m.unwind(unit, count), m.random.randrange(count), m.who(unit, "undefined")
        at = part.ask(32 * entry + 16, POINTER, name)
        breaks(part, entry)
        return [undefined(unit, part, at, name, 2)]

    return plant


def undefined_twice(is_personality):
    """Two uses in one section, whose relocations stand in falling order: the first of them is told."""

    def plant(m):
        unit = m.unit()
        part, size, place = (m.unwind(unit, 2), 32, 16) if is_personality else (m.initializers(unit, 2), 8, 0)
        part.asked, faults = part.asked if is_personality else [], []
        for number in (1, 0):
            name = m.who(unit, "undefined")
            at = part.ask(size * number + place, POINTER, name)
            faults.append(undefined(unit, part, at, name, 1 + is_personality))
        return faults

    return plant


# consumed sections


def initializer(breaks):
    """One broken slot, or a broken section; `breaks` gives the offset that is told."""

    def plant(m):
        unit, count = m.unit(), m.random.randint(2, 4)
        part, slot = m.initializers(unit, count), m.random.randrange(count - 1)
        offset = breaks(m, unit, part, slot)
        return [Fault("initializer", 6, "{file}: bad initializer at %d in section {section}" % offset, unit, part, (offset,))]

    return plant


def slot_asks(kind, what):
    def breaks(m, unit, part, slot):
        part.asked[slot] = (8 * slot, kind, m.who(unit, what))
        return 8 * slot

    return breaks


def slot_asks_more(offset):
    def breaks(m, unit, part, slot):
        part.ask(8 * slot + offset, POINTER, unit.here)
        return 8 * slot + offset

    return breaks


def of_another_type(m, unit, part, slot):
    part.flags = 0
    return 0


def cut_slots(m, unit, part, slot):
    part.grow(bytes(4))
    return 0


def empty_slot(m, unit, part, slot):
    del part.asked[slot]
    return 8 * slot


def slot_with_content(m, unit, part, slot):
    part.put(8 * slot + m.random.randrange(8), 1)
    return 8 * slot


def empty_before_misplaced(m):
    """Two faults of one section: a slot without a pointer, and a pointer behind it between slots."""
    unit = m.unit()
    part = m.initializers(unit, 3)
    del part.asked[0]
    part.ask(12, POINTER, unit.here)
    line = "{file}: bad initializer at %d in section {section}"
    return [Fault("initializer", 6, line % at, unit, part, (at,)) for at in (0, 12)]


def bad_entry(unit, part, entry, rule, family="unwind entry"):
    return Fault(family, 7, "{file}: unwind entry %d breaks rule U%d" % (entry, rule), unit, part, (entry, rule))


def entry(rule, breaks):
    """One entry that breaks a rule."""

    def plant(m):
        unit, count = m.unit(), m.random.randint(2, 4)
        part, number = m.unwind(unit, count), m.random.randrange(count)
        breaks(m, unit, part, number)
        return [bad_entry(unit, part, number, rule)]

    return plant


def cut_entries(m):
    unit, count = m.unit(), m.random.randint(1, 3)
    part = m.unwind(unit, count)
    part.grow(bytes(m.pick([4, 8, 31])))
    return [bad_entry(unit, part, count, 1)]


def entry_asks(offset, kind, what, times=1):
    def breaks(m, unit, part, entry):
        for _ in range(times):
            part.ask(32 * entry + offset, kind, m.who(unit, what))

    return breaks


def start_by_symbol(m, unit, part, entry):
    part.asked[entry] = (32 * entry, POINTER, unit.here)


def start_in(make):
    def breaks(m, unit, part, entry):
        owner = unit.add(make())
        part.asked[entry], part.pointed[entry] = (32 * entry, SECTION_POINTER, owner), (32 * entry, owner, 0)

    return breaks


def start_behind(m, unit, part, entry):
    part.pointed[entry] = (32 * entry, part.pointed[entry][1], 1000)


def no_start(m, unit, part, entry):
    del part.asked[entry], part.pointed[entry]


def long_function(m, unit, part, entry):
    part.put(32 * entry + 8, 100)


def data_in(make, offset):
    def breaks(m, unit, part, entry):
        data = unit.add(make())
        part.ask(32 * entry + 24, SECTION_POINTER, data)
        part.pointed.append((32 * entry + 24, data, offset))

    return breaks


def equal_starts(m):
    """Two entries with one start: each of them breaks the rule."""
    unit, count = m.unit(), m.random.randint(2, 4)
    part, (first, second) = m.unwind(unit, count), sorted(m.random.sample(range(count), 2))
    part.pointed[second] = (32 * second, part.pointed[first][1], part.pointed[first][2])
    return [bad_entry(unit, part, first, 6, "first of two starts"), bad_entry(unit, part, second, 6, "second of two starts")]


def entry_of_cut_section(m):
    """Two faults of one section: an entry, and that the section is cut behind it."""
    unit = m.unit()
    part = m.unwind(unit, 2)
    part.put(15, 0x12)
    part.grow(bytes(8))
    return [bad_entry(unit, part, 0, 8), bad_entry(unit, part, 2, 1)]


def entry_before_misplaced(m):
    """Two faults of one section: an entry, and a pointer between the words of a later one."""
    unit = m.unit()
    part = m.unwind(unit, 2)
    part.put(15, 0x12)
    part.ask(36, POINTER, unit.here)
    return [bad_entry(unit, part, 0, 8), bad_entry(unit, part, 1, 2)]


def some_data():
    return Part(DATA, b"__data", 3, 0, bytes(8))


def no_bits():
    return Part(TEXT, b"__zeros", 2, INSTRUCTIONS | ZEROFILL, b"", 8)


def other_code():
    return Part(b"__MORE", b"__text", 2, INSTRUCTIONS, bytes(8))


def unused():
    return Part(UNUSED[0], b"__bitcode", 0, 0, bytes(8))
