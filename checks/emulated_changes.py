"""Images with one mistake of a linker each, signed anew: what runs them has to notice it."""

import hashlib
from struct import pack_into, unpack_from

from emulated_image import CHAINED_FIXUPS, ENTRY, EXPORTS_TRIE, PAGE, SEGMENT, SIGNATURE, Image

ADRP, CALL = (0x9F000000, 0x90000000), (0xFC000000, 0x94000000)
LIBRARY = b"/lib/libcount.dylib"


class Changed:
    """The bytes of an image, and where its parts are."""

    def __init__(self, data):
        self.data, self.image = bytearray(data), Image(data)

    def place(self, address):
        segment = self.image.segment_of(address)
        return segment.offset + address - segment.address

    def section(self, name):
        return self.image.section_named(name).offset

    def add(self, form, place, number):
        pack_into(form, self.data, place, unpack_from(form, self.data, place)[0] + number)

    def exchange(self, form, one, other):
        first, second = unpack_from(form, self.data, one), unpack_from(form, self.data, other)
        pack_into(form, self.data, one, *second)
        pack_into(form, self.data, other, *first)

    def exported(self, name):
        return self.place(self.image.base + self.image.exports[name].value)

    def instruction(self, function, kind):
        """Where the first instruction of a kind stands in a function that is exported."""
        place = self.exported(function)
        while unpack_from("<I", self.data, place)[0] & kind[0] != kind[1]:
            place += 4
        return place

    def fixups(self, is_bind):
        return [fixup for fixup in self.image.fixups if (fixup.number is not None) == is_bind]

    def fixup(self, section, is_bind=False):
        """Where the first fixup of a section stands."""
        found = self.image.section_named(section)
        return next(self.place(fixup.address) for fixup in self.fixups(is_bind) if 0 <= fixup.address - found.address < found.size)

    def imports(self, *names):
        """Where imports stand in the table (of format 1, 4 bytes each)."""
        start = self.image.ranges[CHAINED_FIXUPS][0]
        first = start + unpack_from("<I", self.data, start + 8)[0]
        listed = [wanted.name for wanted in self.image.imports]
        return [first + 4 * listed.index(name) for name in names]

    def segment_starts(self, name):
        """Where the starts of a segment's chains are told."""
        start = self.image.ranges[CHAINED_FIXUPS][0]
        start += unpack_from("<I", self.data, start + 4)[0]
        number = [segment.name for segment in self.image.segments].index(name)
        return start + unpack_from("<I", self.data, start + 4 + 4 * number)[0]

    def command(self, wanted, number=0):
        """Where a load command stands."""
        place = 32
        while True:
            command, size = unpack_from("<II", self.data, place)
            if command == wanted and number == 0:
                return place
            number -= command == wanted
            place += size

    def export_place(self, name):
        """Where the trie has the offset that a name leads to, in ULEB128 behind its flags, which are 0."""
        start, size = self.image.ranges[EXPORTS_TRIE]
        value, told = self.image.exports[name].value, bytearray(1)
        while value >= 0x80:
            told.append(value & 0x7F | 0x80)
            value >>= 7
        told.append(value)
        return self.data.index(told, start, start + size) + 1

    def unwind(self, field):
        """Where a part of the unwind information stands that a word of its header tells."""
        start = self.section(b"__unwind_info")
        return start + unpack_from("<I", self.data, start + field)[0]

    def first_language_data(self):
        return self.section(b"__unwind_info") + unpack_from("<I", self.data, self.unwind(20) + 8)[0]

    def sign(self):
        """Writes the digests that the pages have now."""
        start = self.image.ranges[SIGNATURE][0]
        start += unpack_from(">I", self.data, start + 16)[0]
        digests, count, signed = (unpack_from(">I", self.data, start + place)[0] for place in (16, 28, 32))
        page = 1 << self.data[start + 39]
        for number in range(count):
            digest = hashlib.sha256(self.data[number * page : min(signed, number * page + page)]).digest()
            self.data[start + digests + 32 * number : start + digests + 32 * number + 32] = digest


def end_chain(changed):
    """Clears the distance to the next word of a chain."""
    place = changed.fixup(b"__data")
    word = unpack_from("<Q", changed.data, place)[0]
    pack_into("<Q", changed.data, place, word & ~(0xFFF << 51))


def other_type(changed):
    """The handlers' types of a function's language data are read one word further."""
    data = changed.place(changed.image.base + unpack_from("<I", changed.data, changed.first_language_data() + 4)[0])
    changed.add("<B", data + 2, 4)


def second_page(changed):
    """Where the first fixup stands on the second page of __DATA."""
    start = changed.image.segment(b"__DATA").address + PAGE
    return next(changed.place(fixup.address) for fixup in changed.fixups(False) if fixup.address >= start)


def exchange_initializers(changed):
    place = changed.section(b"__init_offsets")
    changed.exchange("<I", place, place + 4)


def protect(changed, name):
    """Makes a segment one that may only be read."""
    number = [segment.name for segment in changed.image.segments].index(name)
    pack_into("<I", changed.data, changed.command(SEGMENT, number) + 60, 1)


def drop_kept_registers(changed):
    """The encodings with pairs of kept registers lose the lowest pair."""
    start = changed.section(b"__unwind_info")
    place, count = unpack_from("<II", changed.data, start + 4)
    for number in range(count):
        encoding = unpack_from("<I", changed.data, start + place + 4 * number)[0]
        pack_into("<I", changed.data, start + place + 4 * number, encoding & ~1)


# What is changed, the program, the image that is changed where it isn't the program, and how.
CHANGES = (
    ("a pointer leads 8 bytes further", "pointers", None, lambda it: it.add("<Q", it.fixup(b"__data"), 8)),
    ("a pointer on the second page of a table leads 4 bytes further", "pointers", None, lambda it: it.add("<Q", second_page(it), 4)),
    ("a chain ends behind its first word", "pointers", None, end_chain),
    ("a page's chain is left out", "pointers", None, lambda it: pack_into("<H", it.data, it.segment_starts(b"__DATA") + 24, 0xFFFF)),
    ("two imports have each other's names", "system", None, lambda it: it.exchange("<I", *it.imports(b"_malloc", b"_strlen"))),
    ("an import is of another library", "throws", None, lambda it: it.add("<B", *it.imports(b"_printf"), 1)),
    ("a pointer is bound to the next import", "system", None, lambda it: it.add("<Q", it.fixup(b"__data", True), 1)),
    ("a bind has an addend 4 more", "pair", None, lambda it: it.add("<Q", it.fixup(b"__data", True), 4 << 24)),
    ("a stub jumps by the next slot", "system", None, lambda it: it.add("<I", it.section(b"__stubs") + 4, 1 << 10)),
    ("a call goes to the next stub", "shapes", None, lambda it: it.add("<I", it.instruction(b"_main", CALL), 3)),
    ("a call goes one instruction further", "data", None, lambda it: it.add("<I", it.instruction(b"_main", CALL), 1)),
    ("a page's address is 4 KiB more", "data", None, lambda it: it.add("<I", it.instruction(b"_title", ADRP), 1 << 29)),
    ("the low part of an address is 8 more", "pointers", None, lambda it: it.add("<I", it.instruction(b"_chosen", ADRP) + 4, 8 << 10)),
    ("a distance between two places is 4 more", "pointers", None, lambda it: it.add("<I", it.exported(b"_distance"), 4)),
    ("the distance to a slot is 8 more", "pointers", None, lambda it: it.add("<I", it.exported(b"_to_slot"), 8)),
    ("the program begins one instruction further", "greeting", None, lambda it: it.add("<Q", it.command(ENTRY) + 8, 4)),
    ("an initializer begins one instruction further", "starts", None, lambda it: it.add("<I", it.section(b"__init_offsets"), 4)),
    ("two initializers are exchanged", "starts", None, exchange_initializers),
    ("a variable's place in the template is 4 more", "threads", None, lambda it: it.add("<Q", it.section(b"__thread_vars") + 16, 4)),
    ("a library's exported name leads 4 bytes further", "pair", LIBRARY, lambda it: it.add("<B", it.export_place(b"_numbers"), 4)),
    ("what is written to is read-only", "data", None, lambda it: protect(it, b"__DATA")),
    ("code is told as data", "hello", None, lambda it: protect(it, b"__TEXT")),
    ("language data is told 4 bytes further", "throws", None, lambda it: it.add("<I", it.first_language_data() + 4, 4)),
    ("a handler's type is another one", "throws", None, other_type),
    ("a personality function is that of the next slot", "throws", None, lambda it: it.add("<I", it.unwind(12), 8)),
    ("functions keep fewer registers in their frames", "throws", None, drop_kept_registers),
)


def changed_image(data, change):
    """The bytes of an image behind a change, signed anew."""
    changed = Changed(data)
    change(changed)
    changed.sign()
    return bytes(changed.data)


def with_other_digest(data):
    """An image of which a page isn't that of its digest."""
    changed = Changed(data)
    changed.data[changed.section(b"__text")] ^= 1
    return bytes(changed.data)
