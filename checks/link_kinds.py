"""What occurs in a random link: kinds of sections, relocations, options and symbols, and how names are chosen.

`whole_images.py` counts it over all random links, and asks that all of `ALL` occurs.
"""

from plain_linker import Object
from random_links import ADDEND, BRANCH, CROSSED, CROSSING, HANDLE, KINDS, LESS, PAGE, PAGE_OFFSET, POINTER, SECTION_POINTER, SHORT
from random_links import SHORT_LESS, SLOT_OFFSET, SLOT_PAGE, TO_SLOT, VARIABLE_OFFSET, VARIABLE_PAGE

FORMS = {
    POINTER: "a pointer",
    SECTION_POINTER: "a pointer by a section",
    SHORT: "a short pointer",
    SHORT_LESS: "a short subtrahend",
    LESS: "a subtrahend",
    BRANCH: "a branch",
    PAGE: "a page",
    PAGE_OFFSET: "an offset in a page",
    SLOT_PAGE: "the page of a slot",
    SLOT_OFFSET: "the offset of a slot",
    TO_SLOT: "a distance to a slot",
    VARIABLE_PAGE: "the page of a variable's slot",
    VARIABLE_OFFSET: "the offset of a variable's slot",
    ADDEND: "an addend",
}
OPTIONS = ["an executable", "a dynamic library", "export lists", "unused libraries taken out", "room for names"]
CHOICES = [
    "a strong definition before a weak one",
    "a strong definition before a common",
    "a weak definition before a common",
    "the first of weak definitions",
    "the greatest of commons, not the first",
    "the first of equal commons",
    "a definition before a library",
    "a common before a library",
    "the first of libraries",
    "a stub before a Mach-O file",
    "a Mach-O file before a stub",
    "a name that an earlier library has and doesn't offer",
    "the handle of the image",
    "the handle of an object",
    "the handle of a library",
    "a hidden definition",
    "an absolute definition",
    "an undefined name without a use",
]
REFUSALS = ["refused: duplicate symbol", "refused: undefined symbol"]
NAMES = list(dict.fromkeys(row[0] for row in CROSSING))
ALL = [name.decode() for _, name, _, _ in KINDS] + list(FORMS.values()) + OPTIONS + CHOICES + REFUSALS
ALL += ["%s in an object" % name for name in NAMES] + ["%s in a library" % name for name in NAMES]
ALL += ["%s, used" % name for name in NAMES if name != "debugger's"]


def kind_of(symbol):
    """The kind of a symbol with one of the names that meet, or None."""
    for name, kind, description, value in CROSSING:
        if symbol.name in CROSSED and (symbol.kind, symbol.description) == (kind, description) and value in (None, symbol.value):
            return name
    return None


def used(one):
    """The symbols of an object that relocations name."""
    words = [word for section in one.sections for _, word in section.relocations]
    return [one.symbols[word & 0xFFFFFF] for word in words if word >> 27 & 1 and word >> 24 != ADDEND]


def what_occurs(link, told):
    """What occurs in a link: `link` once its image is made, or once it is refused with `told`."""
    if told is not None:
        return {"refused: %s" % what for what, *_ in told}
    found = {OPTIONS[not link.executable]}
    are_set = link.options.lists is not None, link.options.strip, link.options.room
    found |= {name for is_set, name in zip(are_set, OPTIONS[2:]) if is_set}
    for _, one in link.objects:
        found |= {section.name.decode() for section in one.sections}
        found |= {FORMS[word >> 24] for section in one.sections for _, word in section.relocations}
        found |= {"%s in an object" % kind_of(symbol) for symbol in one.symbols}
        found |= {"%s, used" % kind_of(symbol) for symbol in used(one)}
    for _, library in link.libraries:
        found |= {"%s in a library" % kind_of(symbol) for symbol in library.symbols or []}
    for name in {symbol.name for _, one in link.objects for symbol in one.symbols if symbol.is_global()}:
        found |= {choice for choice, holds in choices(link, name) if holds}
    return found


def choices(link, name):
    """How the definition of a name is chosen: each way, and whether it is that."""
    rows = [(number, index, symbol) for number, one in link.objects for index, symbol in enumerate(one.symbols)]
    rows = [row for row in rows if row[2].is_global() and row[2].name == name]
    defined = [row for row in rows if link.place_of(*row[:2])[0] != "none"]
    weak, commons = [row for row in defined if row[2].is_weak()], [row[2].value for row in rows if row[2].is_common()]
    strong, own = len(weak) < len(defined), link.definition(name)
    offering = [library for _, library in link.libraries if name in library.offered]
    is_import, is_stub = name in link.imports, [library.symbols is None for library in offering[:2]]
    having = [number for number, one in link.libraries for symbol in one.symbols or [] if symbol.name == name and name not in one.offered]
    yield "a strong definition before a weak one", strong and weak != []
    yield "a strong definition before a common", strong and commons != []
    yield "a weak definition before a common", not strong and weak != [] and commons != []
    yield "the first of weak definitions", not strong and len(weak) > 1
    yield "the greatest of commons, not the first", not defined and commons != [] and max(commons) > commons[0]
    yield "the first of equal commons", not defined and len(commons) > 1 and commons.count(max(commons)) > 1
    yield "a definition before a library", defined != [] and offering != []
    yield "a common before a library", not defined and commons != [] and offering != []
    yield "the first of libraries", is_import and len({library.name for library in offering}) > 1
    yield "a stub before a Mach-O file", is_import and is_stub == [True, False]
    yield "a Mach-O file before a stub", is_import and is_stub == [False, True]
    yield "a name that an earlier library has and doesn't offer", is_import and min(having, default=link.offered[name]) < link.offered[name]
    is_base = name == HANDLE and not own and not offering
    yield "the handle of the image", is_base and any(field[5] == ("base",) for field in link.fields)
    yield "the handle of an object", name == HANDLE and own is not None
    yield "the handle of a library", name == HANDLE and is_import
    yield "a hidden definition", own is not None and link.symbol(*own).kind & 0x10 != 0
    yield "an absolute definition", own is not None and link.place_of(*own)[0] == "absolute"
    yield "an undefined name without a use", not own and not offering and name in CROSSED and name != HANDLE
