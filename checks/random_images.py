"""Random images, each by its number: most of them the loader accepts, and the others break a rule in one place or two.

They have up to five segments, libraries, imports in both formats, chains over several pages with words that may overlap, and a trie that
is right, or a graph of nodes by chance. `inspect_hostile.py` compares what the inspector prints.
"""
import random
from struct import pack

from image_maker import (BASE, bind, image_of, library, names_of_imports, range_of, rebase, reexport_of, segment, starts_of, table_of,
                         trie_of, uleb, value_of, with_path)
from plain_inspector import CHAINED_FIXUPS, EXPORTS_TRIE, NO_START, PAGE

NAMES = [b"__DATA", b"__DATA_CONST", b"__LINKEDIT", b"__MORE", b"__PAGEZERO", b"", b"__TEXT"]
PROTECTIONS = {b"__TEXT": 5, b"__LINKEDIT": 1, b"__PAGEZERO": 0}
EDGES = [0, 1, 2, 7, 8, 0x7F, 0x80, 0x3FFF, 0x4000, (1 << 31) - 1, 1 << 31, (1 << 32) - 1, (1 << 63) - 1, 1 << 63, (1 << 64) - 1]


class Maker:
    """Makes one image; `breaks` is how likely a number is another one than it has to be."""

    def __init__(self, seed):
        self.random = random.Random(seed)
        self.pick = self.random.choice
        self.breaks = self.pick([0, 0, 0.01, 0.05])
        self.body = b""

    def chance(self, part):
        return self.random.random() < part

    def number(self, right, bits=64):
        """The number, or now and then another one."""
        if not self.chance(self.breaks):
            return right
        return self.pick([*EDGES, right + 1, right - 1, right + 8, self.random.getrandbits(bits)]) % (1 << bits)

    # what chains and tries have

    def words(self, pages, imports):
        """Pages with chains: their bytes, and their starts."""
        data, starts = bytearray(self.random.randbytes(PAGE * pages)), []
        for page in range(pages):
            if self.chance(0.3):
                starts.append(NO_START)
                continue
            places = sorted(self.random.sample(range(0, PAGE - 7, 4 if self.chance(self.breaks) else 8), self.random.randint(1, 12)))
            starts.append(self.number(places[0], 16))
            for at, behind in zip(places, places[1:] + [None]):
                step = 0 if behind is None else self.number((behind - at) // 4, 12)
                if imports and self.chance(0.5):
                    word = bind(self.number(self.random.randrange(imports), 24), self.random.randrange(256), step)
                else:
                    word = rebase(self.random.getrandbits(self.pick([8, 36])), step, self.pick([0, 0x80, 0xFF]))
                # of words that overlap the later one is written: the first one then says something else
                data[PAGE * page + at : PAGE * page + at + 8] = word
        return bytes(data), starts

    def imports(self, libraries):
        names = [b"_" + bytes(self.random.choices(b"abz_$\xff", k=self.random.randint(0, 6))) for _ in range(self.random.randint(0, 6))]
        text, places = names_of_imports(names)
        form, entries = self.pick([1, 2]), []
        for place in places:
            addend = self.pick([0, 1, -1, 255, -(1 << 31), (1 << 31) - 1]) if form == 2 else 0
            number = self.number(self.random.randint(1, max(libraries, 1)), 8)
            entries.append((number, self.pick([0, 1]), self.number(place, 23), addend))
        return (entries if libraries else []), text, form

    def right_trie(self):
        names = {bytes(self.random.choices(b"_ab\xfe", k=self.random.randint(0, 5))) for _ in range(self.random.randint(0, 8))}
        values = [value_of(flags, address) for flags in (0, 1, 2, 4) for address in EDGES]
        values += [reexport_of(8, number, name) for number in (0, 1, 300) for name in (b"", b"_x") for _ in range(5)]
        return trie_of({name: self.pick(values) for name in sorted(names)})

    def chance_trie(self):
        """Nodes at places that others may name, some of them more than once."""
        out, places = bytearray(), [0]
        for _ in range(self.random.randint(1, 6)):
            places.append(len(out))
            out += self.pick([b"\0", value_of(0, 5), reexport_of(8, 1, b"_x"), b"\x03\x01\x02\x00", b"\x02\x80\x80", b"\x80\x00"])
            labels = self.random.sample([b"a", b"b", b"ab", b"ba", b"\xff", b""], self.pick([0, 1, 1, 2, 2, 3]))
            out.append(self.number(len(labels), 8))
            for label in labels:
                child = self.pick([*places, len(out) + 4, len(out) + 5, len(out) + 8, self.random.randrange(60), 1 << 40])
                out += label + b"\0" + uleb(child)
        return bytes(out)

    # the image

    def image(self):
        paths = [b"/lib/%d" % number for number in range(self.random.randint(0, 3))]
        entries, text, form = self.imports(len(paths))
        parts, starts, address, offset = [], [], BASE, PAGE
        for number in range(self.random.randint(1, 5)):
            name = b"__TEXT" if number == 0 else self.pick(NAMES[:4]) if not self.chance(self.breaks) else self.pick(NAMES)
            pages = 1 if number == 0 else self.pick([0, 1, 1, 2, 3])
            writable = PROTECTIONS.get(name, 3) & 2
            data, at = self.words(pages, len(entries)) if number else (b"", [])
            starts.append(starts_of(self.number(address - BASE), at) if at and (writable or self.chance(self.breaks)) else None)
            length = len(data) - self.pick([0, 0, 0, 8, PAGE // 2]) * self.chance(self.breaks) if data else PAGE * (number == 0)
            parts.append((name, address, PAGE * (pages + self.pick([0, 0, 1])), offset if number else 0, length))
            address, offset = parts[-1][1] + parts[-1][2] + self.pick([0, 0, PAGE]), offset + len(data)
            self.body += data
        made = self.changed(table_of(starts[: self.pick([None, None, -1])], entries, text, form), range(0, 28, 4))
        trie = self.right_trie() if self.chance(0.6) else self.chance_trie()
        return self.whole(parts, paths, made, trie, offset)

    def changed(self, data, places):
        """The bytes, now and then with other numbers at places."""
        out = bytearray(data)
        for place in places:
            out[place : place + 4] = pack("<I", self.number(int.from_bytes(out[place : place + 4], "little"), 32))
        return bytes(out)

    def whole(self, parts, paths, made, trie, end):
        commands = []
        for name, address, size, offset, length in parts:
            protection = self.number(PROTECTIONS.get(name, 3), 32)
            commands.append(segment(name, self.number(address), self.number(size), self.number(offset), self.number(length), protection))
        commands += [library(path) for path in paths] + [with_path(0x8000001C, b"@loader_path", ())] * self.chance(0.2)
        tables = [range_of(CHAINED_FIXUPS, self.number(end, 32), self.number(len(made), 32))]
        tries = [range_of(EXPORTS_TRIE, self.number(end + len(made), 32), self.number(len(trie), 32))]
        commands += tables * (2 if self.chance(self.breaks) else self.chance(0.9)) + tries * (2 if self.chance(0.05) else self.chance(0.9))
        if self.chance(0.3):
            behind = commands[len(parts) :]
            self.random.shuffle(behind)
            commands[len(parts) :] = behind
        return self.changed(image_of(commands, self.body + made + trie, self.pick([2, 6]), PAGE), (0, 4, 12, 16, 20))


def random_image(seed):
    return Maker(seed).image()
