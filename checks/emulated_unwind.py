"""Compact unwind information of an image, and the language data of C++.

`mach-o/compact_unwind_encoding.h` has the tables and what an encoding says of a function's frame. The language data is that of the
Linux Standard Base ('Exception Frames', `.gcc_except_table`): where a call is, where it lands, and by which chain of actions.
"""

from dataclasses import dataclass
from struct import calcsize, unpack

import emulated_frames
from emulated_image import want

MODE, DWARF, FRAME = 0x0F000000, 0x03000000, 0x04000000
GENERAL_PAIRS = ((0x001, 19), (0x002, 21), (0x004, 23), (0x008, 25), (0x010, 27))
DOUBLE_PAIRS = ((0x100, 8), (0x200, 10), (0x400, 12), (0x800, 14))
HAS_DATA, COMPRESSED = 0x40000000, 3
OMITTED, FORMS = 0xFF, {0x00: "Q", 0x02: "H", 0x03: "I", 0x04: "Q", 0x0A: "h", 0x0B: "i", 0x0C: "q"}
ULEB, RELATIVE, INDIRECT = 0x01, 0x10, 0x80


@dataclass
class Frame:
    """A function that waits for one that it called: where it goes on, and the registers that it has then."""

    pc: int
    sp: int
    general: dict
    doubles: dict


@dataclass
class Entry:
    """What unwinds a function: addresses of its start, its personality function and its language data (0: none), and in which way."""

    start: int
    personality: int
    data: int
    encoding: int
    function: emulated_frames.Function | None = None


class Reader:
    """Numbers in memory, one behind the other."""

    def __init__(self, process, place):
        self.process, self.place = process, place

    def number(self, form):
        size = calcsize("<" + form)
        self.place += size
        return unpack("<" + form, self.process.read(self.place - size, size))[0]

    def numbers(self, form, count):
        return [self.number(form) for _ in range(count)]

    def leb(self, is_signed=False):
        value = shift = 0
        while True:
            byte = self.number("B")
            value |= (byte & 0x7F) << shift
            shift += 7
            if byte < 0x80:
                return value - (1 << shift) if is_signed and byte & 0x40 else value

    def encoded(self, encoding):
        """A number in the way that a byte tells: its form, whether it counts from its own place, whether it is an address to look at."""
        place = self.place
        if encoding & 0x0F == ULEB:
            return self.leb()
        want(encoding & 0x0F in FORMS, f"a number of language data in the way {encoding:#x}")
        value = self.number(FORMS[encoding & 0x0F])
        if not value:
            return 0
        value = value + (place if encoding & 0x70 == RELATIVE else 0) & (1 << 64) - 1
        return self.process.word(value) if encoding & INDIRECT else value


def last_at_most(items, value):
    """The number of the last of rising items that doesn't pass a value, or None."""
    found = [number for number, item in enumerate(items) if item <= value]
    return found[-1] if found else None


def entry_of(process, loaded, pc):
    """The entry of the function at an address, or None."""
    section = loaded.image.section_named(b"__unwind_info")
    if section is None:
        return None
    start, offset = section.address + loaded.slide, pc - loaded.base()
    version, common, num_common, personalities, num_personalities, index, num_index = Reader(process, start).numbers("I", 7)
    want(version == 1, "unwind information of another version")
    rows = Reader(process, start + index).numbers("I", 3 * num_index)
    number = last_at_most(rows[::3], offset)
    if number is None or number == num_index - 1 or not rows[3 * number + 1]:
        return None
    shared = Reader(process, start + common).numbers("I", num_common)
    function, encoding = in_page(process, start + rows[3 * number + 1], rows[3 * number], shared, offset)
    if encoding & MODE == DWARF:
        return entry_of_frames(process, loaded, pc, encoding)
    which = encoding >> 28 & 3
    want(which <= num_personalities, "an encoding with a personality function that isn't there")
    slot = loaded.base() + Reader(process, start + personalities).numbers("I", num_personalities)[which - 1] if which else 0
    data = language_data(process, start, rows[3 * number + 2], rows[3 * number + 5], function) if encoding & HAS_DATA else 0
    base = loaded.base()
    return Entry(base + function, process.word(slot) if which else 0, base + data if data else 0, encoding)


def entry_of_frames(process, loaded, pc, encoding):
    """The entry of a function that is unwound by `__eh_frame`: the offset there in the encoding is a hint, and 0 is none."""
    section = loaded.image.section_named(b"__eh_frame")
    want(section, "there is no __eh_frame")
    reader = Reader(process, section.address + loaded.slide)
    function = emulated_frames.function_at(reader, reader.place + section.size, pc)
    want(function, f"no call frame information for {process.told(pc)}")
    return Entry(function.start, function.common.personality, function.data, encoding, function)


def in_page(process, page, first, shared, offset):
    """The function that holds an offset, by its page, and its encoding."""
    reader = Reader(process, page)
    kind = reader.number("I")
    want(kind == COMPRESSED, f"a page of unwind entries of kind {kind}")
    place, count, own, num_own = reader.numbers("H", 4)
    encodings = shared + Reader(process, page + own).numbers("I", num_own)
    words = Reader(process, page + place).numbers("I", count)
    number = last_at_most([first + (word & 0xFFFFFF) for word in words], offset)
    want(number is not None and words[number] >> 24 < len(encodings), "a page of unwind entries that leads to nothing")
    return first + (words[number] & 0xFFFFFF), encodings[words[number] >> 24]


def language_data(process, start, first, end, function):
    """The offset of a function's language data, of rows in a part of the section."""
    rows = Reader(process, start + first).numbers("I", (end - first) // 4)
    found = dict(zip(rows[::2], rows[1::2]))
    want(function in found, f"the function at {function:#x} has no language data")
    return found[function]


def caller(process, entry, frame):
    """The frame of the caller, by the entry of a function that called."""
    if entry.function:
        rules = emulated_frames.Rules(entry.function)
        for place, end in (entry.function.common.instructions, entry.function.instructions):
            rules.run(Reader(process, place), end, frame.pc - 1)
        return Frame(*rules.caller(process, frame))
    want(entry.encoding & MODE == FRAME, f"a function is unwound by {entry.encoding:#x}, which isn't by a frame")
    return caller_by_frame(process, entry.encoding, frame)


def caller_by_frame(process, encoding, frame):
    """The frame of the caller of a function whose frame pointer leads to the caller's, with pairs of registers below it."""
    general, doubles = dict(frame.general), dict(frame.doubles)
    place = general[29]
    pairs = [(bit, number, general) for bit, number in GENERAL_PAIRS] + [(bit, number, doubles) for bit, number in DOUBLE_PAIRS]
    for bit, number, kept in pairs:
        if encoding & bit:
            kept[number], kept[number + 1] = process.word(place - 8), process.word(place - 16)
            place -= 16
    base = general[29]
    general[29] = process.word(base)
    return Frame(process.word(base + 8), base + 16, general, doubles)


def landing_pad(process, data, start, pc, catches):
    """The landing pad for a call by a function's language data, and the selector; 0 where there is none or no handler catches."""
    reader = Reader(process, data)
    landings = reader.number("B")
    base = reader.encoded(landings) if landings != OMITTED else start
    types_encoding = reader.number("B")
    types = 0
    if types_encoding != OMITTED:
        distance = reader.leb()
        types = reader.place + distance
    encoding, size = reader.number("B"), reader.leb()
    actions = reader.place + size
    while reader.place < actions:
        begin, length, landing = (reader.encoded(encoding) for _ in range(3))
        action = reader.leb()
        if start + begin <= pc < start + begin + length:
            if not landing:
                return 0, 0
            taken, selector = action_of(process, actions, action, types, types_encoding, catches)
            return (base + landing if taken else 0), selector
    want(False, f"a call at {process.told(pc)} isn't in the language data")


def action_of(process, actions, action, types, encoding, catches):
    """Whether a landing pad is taken, and with which selector: 0 for a clean-up, else the number of the handler's type."""
    clean = action == 0
    place = actions + action - 1
    while action:
        reader = Reader(process, place)
        number, link = reader.leb(True), reader.place
        step = reader.leb(True)
        want(number >= 0, "a specification of exceptions isn't known")
        if number == 0:
            clean = True
        elif catches(type_of(process, types, encoding, number)):
            return True, number
        if not step:
            break
        place = link + step
    return clean, 0


def type_of(process, types, encoding, number):
    """The type of a handler: the tables are read backwards."""
    size = 4 if encoding & 0x0F in (0x03, 0x0B) else 8
    return Reader(process, types - number * size).encoded(encoding)
