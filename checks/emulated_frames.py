"""Call frame information in `__eh_frame`, for functions whose compact unwind entry sends there.

The entries are those of the Linux Standard Base ('Exception Frames'), their instructions those of DWARF 4 (section 6.4.2), and the numbers
of registers those of 'DWARF for the Arm 64-bit Architecture'.
"""

from dataclasses import dataclass, field

from emulated_image import want

STACK_POINTER, RETURN_ADDRESS, FIRST_DOUBLE = 31, 30, 64
# Instructions: with a number in the low 6 bits, and without.
ADVANCE, OFFSET, RESTORE = 1, 2, 3
NOTHING, LONG_OFFSET, DEFINE_START, DEFINE_REGISTER, DEFINE_OFFSET = 0, 0x05, 0x0C, 0x0D, 0x0E
ADVANCES = {0x02: "B", 0x03: "H", 0x04: "I"}


@dataclass
class Common:
    """What several functions have in common: units of code and data, how addresses are told, a personality function, instructions."""

    code_unit: int = 0
    data_unit: int = 0
    personality: int = 0
    forms: dict = field(default_factory=dict)
    instructions: tuple = (0, 0)


@dataclass
class Function:
    """The information on one function; `data` is the address of its language data, or 0."""

    start: int
    data: int
    common: Common
    instructions: tuple


def read_common(reader, end):
    common = Common()
    want(reader.number("B") == 1, "call frame information of another version")
    letters = bytes(iter(lambda: reader.number("B"), 0)).decode()  # up to a NUL
    common.code_unit, common.data_unit = reader.leb(), reader.leb(True)
    want(reader.leb() == RETURN_ADDRESS and letters.startswith("z"), "call frame information that isn't known")
    reader.leb()  # how much is told by the letters
    for letter in letters[1:]:
        form = reader.number("B")
        if letter == "P":
            common.personality = reader.encoded(form)
        common.forms[letter] = form
    common.instructions = reader.place, end
    return common


def read_function(reader, end, common):
    """A function's start and end, and the information on it."""
    start = reader.encoded(common.forms["R"])
    size = reader.encoded(common.forms["R"] & 0x0F)
    behind = reader.leb() + reader.place
    data = reader.encoded(common.forms["L"]) if "L" in common.forms else 0
    return start + size, Function(start, data, common, (behind, end))


def function_at(reader, end, pc):
    """The information on the function at an address, of those that stand from a reader's place on, or None."""
    commons = {}
    while reader.place < end:
        start, size = reader.place, reader.number("I")
        if size == 0:
            return None
        field_place = reader.place
        distance, behind = reader.number("I"), field_place + size
        if distance == 0:
            commons[start] = read_common(reader, behind)
        else:
            want(field_place - distance in commons, "information on a function that leads to nothing")
            function_end, function = read_function(reader, behind, commons[field_place - distance])
            if function.start <= pc < function_end:
                return function
        reader.place = behind
    return None


class Rules:
    """Where a frame begins, and where registers stand, counted from there."""

    def __init__(self, function):
        self.function, self.register, self.offset, self.saved = function, STACK_POINTER, 0, {}

    def run(self, reader, end, pc):
        """Runs instructions up to those of an address."""
        common, place = self.function.common, self.function.start
        while reader.place < end and place <= pc:
            kind = reader.number("B")
            high, low = kind >> 6, kind & 0x3F
            if high == ADVANCE:
                place += low * common.code_unit
            elif high == OFFSET:
                self.saved[low] = reader.leb() * common.data_unit
            elif high == RESTORE:
                self.saved.pop(low, None)
            elif kind in ADVANCES:
                place += reader.number(ADVANCES[kind]) * common.code_unit
            else:
                self.define(kind, reader, common)

    def define(self, kind, reader, common):
        if kind == DEFINE_START:
            self.register, self.offset = reader.leb(), reader.leb()
        elif kind == DEFINE_REGISTER:
            self.register = reader.leb()
        elif kind == DEFINE_OFFSET:
            self.offset = reader.leb()
        elif kind == LONG_OFFSET:
            number = reader.leb()
            self.saved[number] = reader.leb() * common.data_unit
        else:
            want(kind == NOTHING, f"an instruction {kind:#x} on a frame")

    def caller(self, process, frame):
        """The place, the stack pointer and the registers of the caller."""
        start = (frame.sp if self.register == STACK_POINTER else frame.general[self.register]) + self.offset
        general, doubles = dict(frame.general), dict(frame.doubles)
        for number, offset in self.saved.items():
            value = process.word(start + offset)
            if number >= FIRST_DOUBLE:
                doubles[number - FIRST_DOUBLE] = value
            else:
                general[number] = value
        return general.pop(RETURN_ADDRESS, 0), start, general, doubles
