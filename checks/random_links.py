"""Random links, each by its number: inputs by their paths, words, and the image by `plain_linker`, or the lines of a refusal.

There are one to three objects and up to three libraries, in any order. Objects have sections of all kinds in `KINDS`, carried, consumed or
left out, relocations of all forms, initializers and unwind entries. Libraries are text stubs, or Mach-O files with symbols that they offer
and others. In three of five links the names `_a`, `_b` and `___dso_handle` meet: each object and each Mach-O library has a few symbols of
any kinds in `CROSSING` with them, also several of one name, and libraries offer them too. So a name has strong, weak and common definitions
in objects, those that libraries offer or only have, and uses; commons are of one size or several, and of several alignments. Two strong
definitions are a link that is refused. In some links a name is used that nothing defines; in others there are such names without a use.
`link_kinds` names what occurs.
"""

import random
from struct import pack

from plain_linker import Library, Link, Object, Options, Refused, Section, Symbol, library_bytes, object_bytes, up

# the highest bytes of relocation words
POINTER, SECTION_POINTER, SHORT, SHORT_LESS, LESS = 0x0E, 0x06, 0x0C, 0x1C, 0x1E
BRANCH, PAGE, PAGE_OFFSET, SLOT_PAGE, SLOT_OFFSET, TO_SLOT = 0x2D, 0x3D, 0x4C, 0x5D, 0x6C, 0x7D
VARIABLE_PAGE, VARIABLE_OFFSET, ADDEND = 0x8D, 0x9C, 0xA4
INSTRUCTIONS = 0x80000400

# segment, name, exponents, flags
KINDS = [
    (b"__TEXT", b"__const", (0, 2, 4), 0),
    (b"__TEXT", b"__cstring", (0,), 2),
    (b"__TEXT", b"__more", (2,), 0x80000000),
    (b"__TEXT", b"__room", (4,), 1),
    (b"__TEXT", b"__gcc_except_tab", (2,), 0),
    (b"__DATA", b"__data", (3, 4, 5), 0),
    (b"__DATA", b"__data", (3,), 0x10000300),
    (b"__DATA", b"__bss", (0, 3, 6), 1),
    (b"__DATA", b"__large", (2,), 0xC),
    (b"__DATA", b"__common", (2, 4), 1),
    (b"__DATA", b"__thread_vars", (0, 3), 0x13),
    (b"__DATA", b"__thread_data", (2, 3, 4), 0x11),
    (b"__DATA", b"__thread_bss", (2, 3, 5), 0x12),
    (b"__DATA", b"__mod_init_func", (3,), 9),
    (b"__DATA", b"__la_ptr", (3,), 7),
    (b"__DATA_CONST", b"__const", (3,), 0),
    (b"__MORE", b"__x", (0, 3, 14), 0),
    (b"__MORE", b"__z", (2,), 1),
    (b"__DWARF", b"__debug_info", (0,), 0x02000000),
    (b"__LLVM", b"__bitcode", (0,), 0),
    (b"__LD", b"__compact_unwind", (3,), 0x02000000),
]

# symbols whose names meet in several files: what they are, types, descriptions and values; None for a place in a section
CROSSING = [
    ("undefined", 0x01, 0, 0),
    ("undefined", 0x01, 0, 0),
    ("undefined", 0x01, 0, 0),
    ("local", 0x0E, 0, None),
    ("absolute local", 0x02, 0, 5),
    ("debugger's", 0x24, 0, None),
    ("indirect", 0x0B, 0, 1),
    ("common of 8", 0x01, 0x300, 8),
    ("common of 9", 0x01, 0x400, 9),
    ("common of 12", 0x01, 0, 12),
    ("aligned common of 12", 0x01, 0x300, 12),
    ("weak", 0x0F, 0x80, None),
    ("hidden weak", 0x1F, 0x80, None),
    ("absolute weak", 0x03, 0x80, 78),
    ("strong", 0x0F, 0, None),
    ("hidden", 0x1F, 0, None),
    ("absolute", 0x03, 0, 77),
]
HANDLE, NOWHERE = b"___dso_handle", b"_nowhere"
CROSSED = [b"_a", b"_b", HANDLE]


class Maker:
    """Makes one link."""

    def __init__(self, seed):
        self.random = random.Random(seed)
        self.pick = self.random.choice
        self.crosses, self.misses = self.chance(0.6), self.chance(0.12)
        self.libraries = [self.library(b"/usr/lib/lib%s.dylib" % self.pick([b"a", b"bb", b"cccc"])) for _ in range(self.random.randint(0, 3))]
        self.offered = sorted({name for library in self.libraries for name in library.offered})
        self.objects = [self.frame(number) for number in range(self.random.randint(1, 3))]
        told = {symbol.name for one in self.objects for symbol in one.symbols if symbol.is_global()}
        self.names = sorted(told - {b"_unused"})
        for one in self.objects:
            self.add_uses(one)
        self.inputs = self.objects + self.libraries
        self.random.shuffle(self.inputs)
        self.options = self.choose_options()
        # what symbols lead to is looked up by a link that asks for nothing yet
        self.look = Link(self.inputs, self.options)
        try:
            self.look.define()
        except Refused:
            pass
        for one in self.objects:
            self.ask(one)

    def chance(self, part):
        return self.random.random() < part

    # libraries, sections and symbols

    def library(self, path):
        """A library: a stub, or a Mach-O file with symbols that are offered and others."""
        names = [b"_i%d" % number for number in range(6)]
        offered = [name for name in names + CROSSED * self.crosses if self.chance(0.5 if name in names else 0.3)]
        if self.chance(0.5):
            return Library(path, offered)
        kinds = [row for row in CROSSING if Symbol(b"", row[1], 1, *row[2:]).is_offered()]
        symbols = [self.crossing(name, self.pick(kinds), 1, self.random.randrange(0x100)) for name in offered]
        for _ in range(self.random.randint(0, 9)):
            name = self.pick(names + CROSSED * self.crosses)
            symbols.append(self.crossing(name, self.pick(CROSSING), 1, self.random.randrange(0x100)))
        self.random.shuffle(symbols)
        return Library(path, [symbol.name for symbol in symbols if symbol.is_offered()], symbols)

    def crossing(self, name, row, section, place):
        """A symbol of a kind; a place in a section is given for those that stand in one."""
        _, kind, description, value = row
        return Symbol(name, kind, 0 if value is not None else section, description, place if value is None else value)

    def crossed(self, sections):
        """A few symbols of any kinds with the names that meet; a name may have several in one object."""
        symbols = []
        fixed = [index for index, one in enumerate(sections) if one.name not in (b"__mod_init_func", b"__compact_unwind")]
        for _ in range(self.random.randint(0, 6) if self.crosses else 0):
            index = self.pick(fixed)
            offset = self.random.randint(0, sections[index].size) & (~3 if sections[index].flags & 0x80000000 else ~0)
            symbols.append(self.crossing(self.pick(CROSSED), self.pick(CROSSING), index + 1, sections[index].address + offset))
        return symbols

    def frame(self, number):
        sections = [Section(b"__TEXT", b"__text", self.pick([2, 3, 4, 5]), INSTRUCTIONS, b"")]
        for segment, name, exponents, flags in self.random.sample(KINDS, self.random.randint(0, 9)):
            sections.append(Section(segment, name, self.pick(exponents), flags, b""))
        if self.chance(0.3):
            self.random.shuffle(sections)
        end = self.pick([0, 16])
        for one in sections:
            one.size = self.size_of(one)
            one.data = bytes(self.random.randrange(256) for _ in range(one.size)) if one.kind() != 2 else b"a" * one.size
            one.address = up(end, 1 << one.exponent)
            end = one.address + one.size
        return Object(sections, self.symbols(number, sections))

    def size_of(self, section):
        if section.name == b"__mod_init_func":
            return 8 * self.random.randint(0, 3)
        if section.name == b"__compact_unwind":
            return 32 * self.random.randint(0, 4)
        size = self.pick([0, 4, 8, 12, 16, 24, 40, 64, 100]) if self.chance(0.97) else self.pick([0x4000, 0x4004, 0x8010])
        return max(8, size & ~3) if section.name == b"__text" else size

    def symbols(self, number, sections):
        symbols = []
        if number == 0:
            at = next(index for index, one in enumerate(sections) if one.name == b"__text")
            symbols.append(Symbol(b"_main", 0x0F, at + 1, 0, sections[at].address))
        for index, section in enumerate(sections):
            # the size of a consumed section changes with what is asked for
            is_fixed = section.name not in (b"__mod_init_func", b"__compact_unwind")
            for turn in range(self.random.randint(0, 3) if is_fixed else 0):
                symbols.append(self.symbol(number, index, turn, section))
        if self.chance(0.4):
            symbols.append(Symbol(b"_absolute%d" % number, self.pick([3, 2, 0x13]), 0, 0, self.pick([0, 42, 0x1234567890])))
        for _ in range(self.random.randint(0, 2)):
            sizes = self.pick([0, 1, 3, 5]) << 8, self.pick([1, 4, 8, 33, 100])
            symbols.append(Symbol(self.pick([b"_c0", b"_c1", b"_w1"]), self.pick([1, 1, 0x11]), 0, *sizes))
        symbols += [Symbol(b"_stab", 0x24, 1, 0, 0)] * self.chance(0.2) + [Symbol(b"_unused", 1, 0, 0, 0)] * self.chance(0.2)
        told, kept = set(), []
        for symbol in symbols:
            if not symbol.is_global() or symbol.name not in told:
                kept.append(symbol)
            if symbol.is_global():
                told.add(symbol.name)
        return kept + self.crossed(sections)

    def symbol(self, number, index, turn, section):
        offset = self.random.randint(0, section.size) & (~3 if section.flags & 0x80000000 else ~0)
        kind, name, weak = self.pick([0x0F, 0x0F, 0x0E, 0x1F, 0x1E]), b"_g%d_%d_%d" % (number, index, turn), 0
        if not kind & 1:
            name = self.pick([b"_l%d" % turn, b"ltmp%d" % turn, name, b""])
        elif self.chance(0.3):
            name, weak = self.pick([name, b"_w%d" % self.random.randint(0, 2)]), 0x80
        return Symbol(name, kind, index + 1, weak | self.pick([0, 0x20]), section.address + offset)

    def add_uses(self, one):
        """Names that the object uses and doesn't define."""
        names = self.random.sample(self.names, min(len(self.names), self.random.randint(0, 3)))
        names += self.random.sample(self.offered, min(len(self.offered), self.random.randint(0, 4)))
        names += [HANDLE] * self.chance(0.3) + [NOWHERE] * (self.misses and self.chance(0.7))
        for name in names:
            if not any(symbol.name == name and symbol.is_global() for symbol in one.symbols):
                one.symbols.append(Symbol(name, 1, 0, self.pick([0, 0x40]), 0))
        if self.chance(0.3):
            self.random.shuffle(one.symbols)

    def choose_options(self):
        lists = None
        if self.chance(0.4):
            lines = [b"_main", b"_g0_*", b"_*", b"*_1", b"_c*", b"# x", b"  _i* ", b"_g*_0 # y", b"_a*", b"_b*"] + self.offered
            lists = [b"\n".join(self.random.sample(lines, self.random.randint(1, 4))) for _ in range(self.random.randint(1, 2))]
        uuid = bytes(self.random.randrange(256) for _ in range(16))
        return Options(b"out", uuid, self.chance(0.3), lists, self.chance(0.3), self.chance(0.3))

    # relocations

    def ask(self, one):
        number = self.inputs.index(one)
        led = []
        for index, symbol in enumerate(one.symbols):
            try:
                led.append(self.look.target(number, index))
            except Refused:
                led.append(("import", symbol.name) if self.misses else ("none",))
        pick = lambda test: [index for index, target in enumerate(led) if test(target)]
        owner = lambda target: self.inputs[target[1]].sections[target[2]]
        self.here = pick(lambda target: target[0] in ("section", "common", "base"))
        self.called = pick(lambda t: t[0] == "import" or t[0] == "section" and owner(t).flags & 0x80000000 and t[3] % 4 == 0)
        self.known = pick(lambda target: target[0] != "none")
        self.slotted = pick(lambda target: target[0] not in ("none", "absolute"))
        self.variables = pick(lambda t: t[0] == "import" or t[0] == "section" and owner(t).kind() == 0x13)
        self.placed = pick(lambda target: target[0] == "section")
        self.led, self.owner, self.sections = led, owner, one.sections
        self.carried = [index for index, section in enumerate(one.sections) if section.is_carried()]
        for section in one.sections:
            self.ask_of(section)

    def ask_of(self, section):
        groups = []
        if section.name == b"__mod_init_func":
            section.size = section.size if self.placed else 0
            section.data = bytes(section.size)
            groups = [[(place, self.pick(self.placed) | POINTER << 24)] for place in range(0, section.size, 8)]
        elif section.name == b"__compact_unwind":
            groups = self.unwind(section)
        elif section.is_carried() and not section.is_zerofill():
            data = bytearray(section.data)
            groups = self.code(section, data) if section.flags & 0x80000000 else self.data(section, data)
            section.data = bytes(data)
        elif section.is_zerofill():
            section.data = b""
        order = self.pick([list, lambda groups: groups[::-1], lambda groups: self.random.sample(groups, len(groups))])
        section.relocations = [pair for group in order(groups) for pair in group]

    def code(self, section, data):
        groups, at = [], 0
        while at + 8 <= section.size:
            kind, first, second = self.random.random(), self.random.randrange(31), self.random.randrange(31)
            words, adds = [0xD503201F], []
            if kind < 0.15 and self.called:
                words, symbol = [self.pick([0x94000000, 0x14000000])], self.pick(self.called)
                adds = [self.pick([4, 8, 0xFFFFFC])] * (self.led[symbol][0] != "import" and self.chance(0.2))
                groups.append(self.with_addend(at, adds, symbol | BRANCH << 24))
            elif kind < 0.3 and self.here:
                words = [0x90000000 | first, self.pick([0x91000000, 0x39400000]) | first << 5 | second]
                symbol, adds = self.pick(self.here), [self.pick([1, 5, 0x1000, 0xFFFFFF])] * self.chance(0.3)
                groups.append(self.with_addend(at, adds, symbol | PAGE << 24))
                groups.append(self.with_addend(at + 4, adds, symbol | PAGE_OFFSET << 24))
            elif kind < 0.5 and self.slotted:
                words = [0x90000000 | first, 0xF9400000 | first << 5 | second]
                is_variable = kind < 0.35 and self.variables
                symbol = self.pick(self.variables if is_variable else self.slotted)
                groups.append([(at, symbol | (VARIABLE_PAGE if is_variable else SLOT_PAGE) << 24)])
                groups.append([(at + 4, symbol | (VARIABLE_OFFSET if is_variable else SLOT_OFFSET) << 24)])
            elif kind < 0.55 and self.slotted:
                groups.append([(at, self.pick(self.slotted) | TO_SLOT << 24)])
            elif kind < 0.6 and self.here:
                words = [self.pick([0, 16, 0xFFFFFFFF])]
                groups.append([(at, self.pick(self.here) | SHORT_LESS << 24), (at, self.pick(self.here) | SHORT << 24)])
            for word in words:
                data[at : at + 4] = pack("<I", word)
                at += 4
        return groups

    def with_addend(self, place, addends, word):
        return [(place, addend | ADDEND << 24) for addend in addends] + [(place, word)]

    def data(self, section, data):
        pointers = section.segment in (b"__DATA", b"__DATA_CONST") and (section.exponent >= 3 or section.kind() == 0x13)
        groups = []
        for at in range(0, min(section.size, 2000) - 7, 8):
            kind = self.random.random()
            if kind < 0.45 and pointers and self.known:
                symbol = self.pick(self.known)
                data[at : at + 8] = pack("<q", self.addend(self.led[symbol]))
                groups.append([(at, symbol | POINTER << 24)])
            elif kind < 0.5 and pointers:
                index = self.pick(self.carried)
                owner = self.sections[index]
                data[at : at + 8] = pack("<q", owner.address + self.random.randint(0, owner.size))
                groups.append([(at, index + 1 | SECTION_POINTER << 24)])
            elif kind < 0.7 and self.here:
                less, kept, form = (SHORT_LESS, SHORT, "<i") if kind < 0.6 else (LESS, POINTER, "<q")
                text = pack(form, self.pick([0, 5, -7]))
                data[at : at + len(text)] = text
                groups.append([(at, self.pick(self.here) | less << 24), (at, self.pick(self.here) | kept << 24)])
            elif kind < 0.75 and self.slotted:
                groups.append([(at, self.pick(self.slotted) | TO_SLOT << 24)])
        return groups

    def addend(self, target):
        if target[0] == "import":
            return self.pick([0, 0, 1, 255, 256, -8, -(2**31), 2**31 - 1, 4096])
        if target[0] == "absolute":
            return self.pick([0, 5, -1])
        return self.pick([0, 0, self.owner(target).size - target[3]]) if target[0] == "section" else 0

    def unwind(self, section):
        """Entries at places of the object's code, each once."""
        code = [index for index in self.carried if self.sections[index].flags & INSTRUCTIONS and self.sections[index].data]
        starts = [(index, at) for index in code for at in range(0, self.sections[index].size, 4)]
        starts = self.random.sample(starts, min(len(starts), section.size // 32))
        section.size, section.data, groups = 32 * len(starts), b"", []
        filled = [index for index in self.carried if self.sections[index].size > 0]
        for number, (index, offset) in enumerate(starts):
            owner, data, place = self.sections[index], 0, 32 * number
            groups.append([(place, index + 1 | SECTION_POINTER << 24)])
            if self.slotted and self.chance(0.4):
                groups.append([(place + 16, self.pick(self.slotted) | POINTER << 24)])
            if self.chance(0.4):
                told = self.pick(filled)
                data = self.sections[told].address + self.random.randrange(self.sections[told].size)
                groups.append([(place + 24, told + 1 | SECTION_POINTER << 24)])
            length = self.pick([4, 0, owner.size - offset])
            encoding = self.pick([0x02000000, 0x04000000, 0x02001000, 0x04000001, 0x44000000, 0])
            section.data += pack("<QIIQQ", owner.address + offset, length, encoding, 0, data)
        return groups


def random_link(seed):
    """The plain link, files, words, and the image; or, where the link is refused, what may be told of names and the lines."""
    made = Maker(seed)
    files, words = {}, ["-o", "out", "-uuid", made.options.uuid.hex()]
    for number, one in enumerate(made.inputs):
        path = "input%d" % number
        files[path] = object_bytes(one, 0x2000) if isinstance(one, Object) else library_bytes(one)
        words.append(path)
    for number, text in enumerate(made.options.lists or []):
        path = "list%d" % number
        files[path] = text
        words += ["-exported_symbols_list", path]
    asked = (made.options.dylib, "-dylib"), (made.options.strip, "-dead_strip_dylibs"), (made.options.room, "-headerpad_max_install_names")
    words += [word for is_set, word in asked if is_set]
    plain = Link(made.inputs, made.options)
    try:
        return plain, files, words, plain.image(), None
    except Refused as refused:
        return plain, files, words, [line(*told) for told in refused.told], refused.told


def line(what, name, *numbers):
    """The line that tells of a name in files."""
    return "wild_macho: %s %s in %s\n" % (what, name.decode(), " and ".join("input%d" % number for number in numbers))
