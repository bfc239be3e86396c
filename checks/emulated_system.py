"""What libSystem and libc++ offer a program on an emulated processor: functions in Python, and variables.

A function takes the process and what stands in x0, x1 and so on; what it answers goes into x0. Variadic arguments stand on the stack, in
8 bytes each ('Writing ARM64 code for Apple platforms'). Of a variable only its size is told. Exceptions are those of the C++ ABI for
Itanium, levels I and II.
"""

import re
from dataclasses import dataclass
from functools import cmp_to_key, partial
from struct import pack, unpack

from unicorn import arm64_const as registers

import emulated_unwind
from emulated_image import Fault, want

SYSTEM, RUNTIME = b"/usr/lib/libSystem.B.dylib", b"/usr/lib/libc++.1.dylib"
LIBRARIES = {SYSTEM: {}, RUNTIME: {}}
BOOTSTRAP = SYSTEM, b"__tlv_bootstrap"
FORMAT = re.compile(rb"%([-+ 0#]*)(\d*)(\.\d*)?(hh|h|ll|l|z|j|t)?([diuxXcspgf%])")
HEADER = 32
SEVERAL = 1 << 63


class Ended(Exception):
    """The program ended itself."""

    def __init__(self, status):
        super().__init__(status)
        self.status = status


@dataclass
class Jump:
    """A function of the system doesn't return, but goes on elsewhere."""

    place: int


@dataclass
class Thrown:
    """An object that was thrown, with its type, what destroys it, in how many handlers it is, and whether it is on its way."""

    object: int
    type: int
    destructor: int
    handlers: int = 0
    is_on_its_way: bool = True


def offered(*names, library=SYSTEM):
    """Puts a function into a library under its names."""

    def put(function):
        for name in names:
            LIBRARIES[library][name.encode()] = function
        return function

    return put


def signed(value, bits):
    value &= (1 << bits) - 1
    return value - (1 << bits) if value >> bits - 1 else value


# Text


def formatted(process, text, place):
    """What `printf` makes of a text and the arguments that stand from a place on."""

    def put(found):
        nonlocal place
        flags, width, precision, length, kind = (part.decode() if part else "" for part in found.groups())
        if kind == "%":
            return b"%"
        word, place = process.word(place), place + 8
        shown = "%" + flags + width + precision
        if kind == "s":
            return (shown + "s").encode() % process.text(word)
        if kind in "gf":
            return (shown + kind).encode() % unpack("<d", pack("<Q", word))
        if kind == "p":
            return b"%#x" % word
        bits = 64 if length in ("l", "ll", "z", "j", "t") else 32
        value = signed(word, bits) if kind in "di" else word & (1 << bits) - 1
        return (shown + kind).encode() % (value & 0xFF if kind == "c" else value)

    return FORMAT.sub(put, text)


@offered("_printf")
def printf(process, text):
    return say(process, formatted(process, process.text(text), process.cpu.reg_read(registers.UC_ARM64_REG_SP)))


@offered("_snprintf")
def snprintf(process, place, size, text):
    data = formatted(process, process.text(text), process.cpu.reg_read(registers.UC_ARM64_REG_SP))
    if size:
        process.write(place, data[: size - 1] + b"\0")
    return len(data)


def say(process, data):
    process.output += data
    return len(data)


def stdout(process):
    """The stream that the variable of the standard output points to."""
    return process.word(process.system_address(SYSTEM, b"___stdoutp"))


@offered("_puts")
def puts(process, text):
    return say(process, process.text(text) + b"\n")


@offered("_putchar")
def putchar(process, byte):
    say(process, bytes([byte & 0xFF]))
    return byte & 0xFF


@offered("_fputs")
def fputs(process, text, stream):
    want(stream == stdout(process), "a text is written to another stream")
    return say(process, process.text(text))


@offered("_fwrite")
def fwrite(process, place, size, count, stream):
    want(stream == stdout(process), "bytes are written to another stream")
    say(process, process.read(place, size * count))
    return count


@offered("_write")
def write(process, descriptor, place, size):
    want(descriptor == 1, f"descriptor {descriptor} is written to")
    return say(process, process.read(place, size))


@offered("_strlen")
def strlen(process, text):
    return len(process.text(text))


@offered("_strcmp")
def strcmp(process, one, other):
    one, other = process.text(one), process.text(other)
    return (one > other) - (one < other)


@offered("_abs")
def absolute(process, number):
    return abs(signed(number, 32))


# Memory


@offered("_malloc")
def malloc(process, size):
    return process.allocate(size)


@offered("_calloc")
def calloc(process, count, size):
    return process.allocate(count * size)


@offered("_realloc")
def realloc(process, place, size):
    want(not place or place in process.sizes, f"{place:#x} grows and wasn't allocated")
    data = process.read(place, min(size, process.sizes[place])) if place else b""
    process.sizes.pop(place, None)
    place = process.allocate(size)
    process.write(place, data)
    return place


@offered("_free")
def free(process, place):
    want(not place or place in process.sizes, f"{place:#x} is freed and wasn't allocated")
    process.sizes.pop(place, None)


@offered("_memcpy", "_memmove")
def memcpy(process, place, source, size):
    process.write(place, process.read(source, size))


@offered("_memset")
def memset(process, place, byte, size):
    process.write(place, bytes([byte & 0xFF]) * size)


@offered("_qsort")
def qsort(process, place, count, size, compare):
    """Sorts by a function of the program, which looks at two items that stand in memory of their own."""
    pair = process.allocate(2 * size)

    def compared(one, other):
        process.write(pair, one + other)
        return signed(process.call(compare, pair, pair + size), 32)

    data = process.read(place, count * size)
    items = [data[start : start + size] for start in range(0, len(data), size)]
    process.write(place, b"".join(sorted(items, key=cmp_to_key(compared))))


# The end, and threads


@offered("_exit")
def leave(process, status):
    process.leave()
    raise Ended(status)


@offered("_abort", "___stack_chk_fail")
def abort(process):
    raise Fault("the program aborts")


@offered("_atexit")
def atexit(process, function):
    process.at_exit.append((function,))
    return 0


@offered("___cxa_atexit")
def cxa_atexit(process, function, argument, _):
    process.at_exit.append((function, argument))
    return 0


@offered("_pthread_create")
def pthread_create(process, place, _, function, argument):
    """Runs a thread to its end, with its own copies of thread-local variables."""
    number, process.thread = process.thread, len(process.results) + 1
    process.write(place, pack("<Q", process.thread))
    process.results[process.thread] = 0
    process.results[process.thread] = process.call(function, argument)
    process.thread = number
    return 0


@offered("_pthread_join")
def pthread_join(process, thread, place):
    if place:
        process.write(place, pack("<Q", process.results[thread]))
    return 0


@offered("__tlv_bootstrap")
def tlv_bootstrap(process):
    raise Fault("the thunk of a thread-local variable wasn't set")


# Exceptions


@offered("___cxa_allocate_exception", library=RUNTIME)
def allocate_exception(process, size):
    return process.allocate(HEADER + size) + HEADER


@offered("___cxa_throw", library=RUNTIME)
def cxa_throw(process, place, type_info, destructor):
    process.thrown[place - HEADER] = Thrown(place, type_info, destructor)
    return unwind(process, place - HEADER)


@offered("__Unwind_Resume")
def unwind(process, exception):
    """Goes back through the frames of the program up to one with a landing pad for an exception."""
    frame = process.frame()
    while True:
        loaded = next((loaded for loaded in process.loaded.values() if loaded.holds(frame.pc)), None)
        want(loaded, "an exception isn't caught")
        entry = emulated_unwind.entry_of(process, loaded, frame.pc - 1)
        want(entry, f"no entry unwinds {process.told(frame.pc)}")
        landing, selector = landing_of(process, entry, frame, thrown_by(process, exception))
        if landing:
            return process.land(frame, landing, exception, selector)
        frame = emulated_unwind.caller(process, entry, frame)


def thrown_by(process, exception):
    want(exception in process.thrown, f"{exception:#x} isn't an exception")
    return process.thrown[exception]


def landing_of(process, entry, frame, thrown):
    """The landing pad of a frame for an exception by its personality function, and the selector; 0 where the exception passes."""
    if not entry.personality:
        return 0, 0
    typed = process.system_address(RUNTIME, b"___gxx_personality_v0")
    plain = process.system_address(SYSTEM, b"___gcc_personality_v0")
    want(entry.personality in (typed, plain), f"a personality function that isn't known, at {process.told(entry.personality)}")
    want(entry.data, f"there is no language data for {process.told(frame.pc)}")
    catches = partial(is_caught, process, thrown)
    return emulated_unwind.landing_pad(process, entry.data, entry.start, frame.pc - 1, catches)


def is_caught(process, thrown, type_info):
    """Whether a handler of a type catches a thrown object: of its own type, or of one that it has as its first base."""
    one_base = process.system_address(RUNTIME, b"__ZTVN10__cxxabiv120__si_class_type_infoE") + 16
    found = thrown.type
    while type_info and not is_one_type(process, found, type_info):
        if process.word(found) != one_base:
            return False
        found = process.word(found + 16)
    return True


def is_one_type(process, one, other):
    """Whether two descriptions are of one type: it is one description, or bit 63 of both names' addresses says that there may be
    several, and the names are alike (libc++'s `typeinfo`, for Apple's arm64)."""
    if one == other:
        return True
    names = [process.word(place + 8) for place in (one, other)]
    return all(name & SEVERAL for name in names) and len({process.text(name & SEVERAL - 1) for name in names}) == 1


@offered("___gxx_personality_v0", library=RUNTIME)
def gxx_personality(process):
    raise Fault("a personality function is called by the program")


@offered("___gcc_personality_v0")
def gcc_personality(process):
    raise Fault("a personality function is called by the program")


@offered("___cxa_begin_catch", library=RUNTIME)
def begin_catch(process, exception):
    thrown = thrown_by(process, exception)
    thrown.handlers += 1
    thrown.is_on_its_way = False
    process.caught.append(exception)
    return thrown.object


@offered("___cxa_end_catch", library=RUNTIME)
def end_catch(process):
    want(process.caught, "no exception is caught")
    exception = process.caught.pop()
    thrown = process.thrown[exception]
    thrown.handlers -= 1
    if thrown.handlers == 0 and not thrown.is_on_its_way:
        del process.thrown[exception]
        if thrown.destructor:
            process.call(thrown.destructor, thrown.object)
        free(process, thrown.object - HEADER)


@offered("___cxa_rethrow", library=RUNTIME)
def rethrow(process):
    want(process.caught, "no exception is caught")
    exception = process.caught[-1]
    process.thrown[exception].is_on_its_way = True
    return unwind(process, exception)


@offered("__ZSt9terminatev", library=RUNTIME)
def terminate(process):
    raise Fault("the program terminates")


@offered("___cxa_guard_acquire", library=RUNTIME)
def guard_acquire(process, guard):
    return int(process.read(guard, 1) == b"\0")


@offered("___cxa_guard_release", library=RUNTIME)
def guard_release(process, guard):
    process.write(guard, b"\1")


@offered("__Znwm", library=RUNTIME)
def new(process, size):
    return process.allocate(size)


@offered("__ZdlPvm", library=RUNTIME)
def delete(process, place):
    return free(process, place)


LIBRARIES[SYSTEM] |= {b"___stdoutp": 8, b"___stack_chk_guard": 8}
LIBRARIES[RUNTIME] |= {
    b"__ZTIi": 16,
    b"__ZTIPKc": 32,
    b"__ZTVN10__cxxabiv117__class_type_infoE": 64,
    b"__ZTVN10__cxxabiv120__si_class_type_infoE": 64,
}
