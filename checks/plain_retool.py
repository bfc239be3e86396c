"""Changes one name in the head of an image and signs it again, from the formats alone: a plain twin of the program, to compare with.

`changed(image, kind, number, name)` answers the new bytes, or raises `Refused` with the line that the program says of it. Kinds are
`-id`, `-library` and `-rpath`.
"""
from hashlib import sha256
from struct import pack, pack_into, unpack_from

from plain_inspector import CHAINED_FIXUPS, EXPORTS_TRIE, ID_DYLIB, LOAD_DYLIB, RPATH, SYMTAB, Image, Rejected

SIGNATURE = 0x1D
KINDS = {"-id": (ID_DYLIB, 24), "-library": (LOAD_DYLIB, 24), "-rpath": (RPATH, 12)}
ZEROS = (1, 0xC, 0x12)


class Refused(Exception):
    """Why the image isn't changed: a word, and numbers that are kept."""


def sections_of(image, place):
    """File offset and size of each section of a segment's command; none of those that are zeros."""
    for number in range(unpack_from("<I", image, place + 64)[0]):
        at = place + 72 + 80 * number
        size, offset = unpack_from("<QI", image, at + 40)
        if image[at + 64] not in ZEROS:
            yield offset, size


class Signed:
    """An accepted image, its parts, and the one signature that ends it."""

    def __init__(self, image):
        self.image, said = image, Image(image)
        self.commands, self.segments = said.commands, said.segments
        self.end = 32 + unpack_from("<I", image, 20)[0]
        self.text = next(one for one in self.segments if one.name == b"__TEXT")
        self.text_end = self.text.offset + self.text.length

    def ranges(self, kind, at=8, scale=1):
        for number, place, _ in self.commands:
            if number == kind:
                offset, size = unpack_from("<II", self.image, place + at)
                yield offset, size * scale

    def parts(self):
        """The file ranges of all that isn't empty: where each begins and ends, and whether the loader writes there, or reads where to."""
        parts = []
        for one in self.segments:
            if one is not self.text:
                parts.append((one.offset, one.length, bool(one.protection & 2)))
            parts += [(offset, size, False) for offset, size in sections_of(self.image, one.place)]
        parts += [(*part, True) for part in self.ranges(CHAINED_FIXUPS)]
        for kind, at, scale in ((EXPORTS_TRIE, 8, 1), (SYMTAB, 8, 16), (SYMTAB, 16, 1), (SIGNATURE, 8, 1)):
            parts += [(*part, False) for part in self.ranges(kind, at, scale)]
        return [(offset, offset + size, writes) for offset, size, writes in parts if size]

    def read_signature(self):
        """Where the signature begins, and where its digests do; Refused where it isn't in the linker's form."""
        signatures = list(self.ranges(SIGNATURE))
        if len(signatures) != 1 or sum(signatures[0]) != len(self.image) or signatures[0][0] < self.text_end:
            raise Refused("unsigned")
        begin, size = signatures[0]
        if size < 20 + 88:
            raise Refused("unsigned")
        magic, length, count, kind, at = unpack_from(">5I", self.image, begin)
        directory = unpack_from(">9I4B4IQ", self.image, begin + 20)
        own, own_length, version, _, hashes, name, special, slots, limit = directory[:9]
        if (magic, count, kind, at, own, version, name, special) != (0xFADE0CC0, 1, 0, 20, 0xFADE0C02, 0x20400, 88, 0):
            raise Refused("unsigned")
        if directory[9:] != (32, 2, 0, 12, 0, 0, 0, 0, 0) or limit != begin or slots != -(-begin // 4096):
            raise Refused("unsigned")
        if length != 20 + own_length or length > size or hashes < 88 or hashes + 32 * slots > own_length:
            raise Refused("unsigned")
        return begin, begin + 20 + hashes

    def room(self):
        return min([self.text_end, *(begin for begin, _, _ in self.parts() if begin >= self.end)])


def command_with(old, record, name):
    """A command with another path: its number, and the numbers between its record's offset and the path, stay."""
    size = -(-(record + len(name) + 1) // 8) * 8
    return old[:4] + pack("<II", size, record) + old[12:record] + name.ljust(size - record, b"\0")


def changed(image, kind, number, name):
    try:
        one = Signed(image)
    except Rejected as fault:
        raise Refused("rejected", fault.rule, fault.place) from None
    wanted, record = KINDS[kind]
    named = [(place, size) for command, place, size in one.commands if command == wanted]
    if b"\0" in name:
        raise Refused("bad name")
    if kind == "-id":
        if len(named) == 0:
            raise Refused("not there")
        number = 1
    if not 1 <= number <= len(named):
        raise Refused("not there")
    begin, digests = one.read_signature()
    for at, end, writes in one.parts():
        if at < one.end or writes and end > begin:
            raise Refused("tangled", at)
    place, size = named[number - 1]
    text = command_with(image[place : place + size], record, name)
    end = one.end + len(text) - size
    if end > one.room():
        raise Refused("no room", end, one.room())
    for at in range(one.end, end):
        if image[at]:
            raise Refused("padding used", at)
    out = bytearray(image)
    head = text + image[place + size : one.end]
    out[place : max(end, one.end)] = head.ljust(max(end, one.end) - place, b"\0")
    pack_into("<I", out, 20, end - 32)
    for page in range(0, begin, 4096):
        at = digests + 32 * (page // 4096)
        out[at : at + 32] = sha256(out[page : min(page + 4096, begin)]).digest()
    return bytes(out)
