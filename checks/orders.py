"""Plants faults in links, and compares the line that the linker prints with the first of them by the order of refusals.

orders.py LINK FOLDER COUNT [--all]    links in FOLDER: good ones, each recipe alone, the rows of KNOWN, and COUNT random ones, each with
                                       one to four faults; with --all each link that differs is told, and none ends the run

The order: names with two strong definitions, names without one, the entry, listed names, initializers, unwind entries, relocations that
aren't supported, fields that overlap, addends, places of pointers, numbers, sizes, targets of pointers and slots, values out of range. Of
one number the first by file, section and relocation, offset or entry is told; of names those that relocations use come before those that
initializers use, and these before personalities.
"""

import os
import random
import subprocess
import sys

from faulty_links import Maker
from recipes import FAR, ONCE, RECIPES, SLOTS

# Where the linker looks for a family of faults: behind others of its number, or of a greater one.
LATER = {
    "first of two starts": (7, 1),
    "second of two starts": (7, 1),
    "pages": (13, 1),
    "file": (13, 2),
    "place by address": (13, 3),
    "offset": (13, 4),
}
# Faults that are told in place of the first by the order: recipes, the family of the first and of the one that is told, and why.
KNOWN = [
    (
        ["entry: long function", "entries: one start"],
        ("first of two starts", "unwind entry"),
        "starts are compared when all entries are read",
    ),
    (
        ["place: in __TEXT", "place: odd"],
        ("place by address", "place by segment"),
        "segments of pointers are looked at before there are addresses",
    ),
    (["number: segments", "place: odd"], ("place by address", "number"), "where a number passes its limit there are no addresses"),
    (["size: sum", "place: odd"], ("place by address", "sum"), "where the sum of sizes passes its limit there are no addresses"),
    (["number: pages", "place: odd"], ("place by address", "pages"), "where pages are too many nothing is written at an address"),
    (["size: sum", "number: pages"], ("pages", "sum"), "where the sum of sizes passes its limit there are no addresses"),
    (["size: file", "place: odd"], ("place by address", "file"), "where the file is too large nothing is written at an address"),
    (["definitions: crossed"], ("two definitions", "two definitions"), "of such names that with the first second definition is told"),
    (["overlap: crossed"], ("overlap", "overlap"), "of fields that overlap the two whose second comes first are told"),
]


def order(link, fault):
    """The place of a fault in the order of refusals."""
    return fault.number, 0, *fault.place_in(link)


def order_of_linker(link, fault):
    """The same with what the linker is known to tell later."""
    phase, file, section, *at = fault.place_in(link)
    if fault.family in ("two definitions", "overlap"):
        at = [at[1], at[0], *at[2:]] if fault.family == "overlap" else [at[1], at[2], at[0]]
    return *LATER.get(fault.family, (fault.number, 0)), phase, file, section, *at


class Run:
    """Runs the linker, and counts what it told."""

    def __init__(self, program, folder, is_whole):
        self.program, self.folder, self.is_whole = program, folder, is_whole
        self.links, self.known, self.differ = 0, dict.fromkeys((row[1] for row in KNOWN), 0), 0

    def answer(self, link):
        """Status and line, and whether there is an output."""
        for path in os.listdir(self.folder):
            os.remove(os.path.join(self.folder, path))
        for path, content in link.files().items():
            with open(os.path.join(self.folder, path), "wb") as file:
                file.write(content)
        ran = subprocess.run([self.program, *link.words()], cwd=self.folder, capture_output=True, check=False)
        return ran.returncode, ran.stderr.decode(), os.path.exists(os.path.join(self.folder, "out"))

    def try_link(self, name, link, faults):
        """Links, and compares; the families of the first fault and of the one that is told are answered."""
        self.links += 1
        link.finish()
        first, told = (min(faults, key=lambda one: by(link, one), default=None) for by in (order, order_of_linker))
        wanted = (1, "wild_macho: %s\n" % told.line_in(link), False) if told else (0, "", True)
        got = self.answer(link)
        if got != wanted:
            self.tell("%s: %r; wanted %r" % (name, got, wanted), [(one.family, one.line_in(link)) for one in faults])
        if first is told or first.line_in(link) == told.line_in(link):
            return None
        if (first.family, told.family) not in self.known:
            sys.exit("orders: KNOWN lacks %s before %s" % (first.family, told.family))
        self.known[first.family, told.family] += 1
        return first.family, told.family

    def tell(self, text, faults):
        self.differ += 1
        print("orders: %s of %s" % (text, faults), file=sys.stderr)
        if not self.is_whole:
            sys.exit(1)


def planted(seed, recipes):
    """A link with faults by these recipes."""
    link = Maker(seed, any(name in FAR for name in recipes))
    return link, [fault for name in recipes for fault in RECIPES[name](link)]


def drawn(seed):
    """One to four recipes, from a kind on that is drawn first, so that each kind is the first of a link."""
    pick, chosen = random.Random(-seed - 1), []
    kinds = list(dict.fromkeys(name.split(":")[0] for name in RECIPES))
    first = pick.randrange(len(kinds))
    for turn in range(pick.randint(1, 4)):
        kind = kinds[pick.randrange(first, len(kinds)) if turn else first]
        name = pick.choice([name for name in RECIPES if name.split(":")[0] == kind])
        if fits(name, {*chosen}):
            chosen.append(name)
    return pick.sample(chosen, len(chosen))


def fits(name, others):
    """Some recipes may stand once in a link, and none that needs slots within reach where they are far."""
    if any(name in group and group & others for group in ONCE):
        return False
    return not (name in FAR and SLOTS & others or name in SLOTS and FAR & others)


def known_rows(run):
    """Each row of `KNOWN`, in some link."""
    for recipes, families, why in KNOWN:
        if not any(run.try_link(" and ".join(recipes), *planted(seed, recipes)) == families for seed in range(40)):
            sys.exit("orders: no link shows that %s" % why)


def main(program, folder, count, is_whole):
    run = Run(os.path.abspath(program), folder, is_whole)
    for seed in range(10):
        run.try_link("good link %d" % seed, Maker(seed), [])
    for name in RECIPES:
        run.try_link(name, *planted(1, [name]))
    known_rows(run)
    for seed in range(count):
        recipes = drawn(seed)
        run.try_link("random link %d, with %s" % (seed, ", ".join(recipes)), *planted(seed, recipes))
    if run.differ:
        sys.exit("orders: %d of %d links differ" % (run.differ, run.links))
    print("orders: of %d links the first fault is told, but for %d of known reasons" % (run.links, sum(run.known.values())))


if __name__ == "__main__":
    main(sys.argv[1], sys.argv[2], int(sys.argv[3]), "--all" in sys.argv)
