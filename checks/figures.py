"""The lines of each crate, counted from the sources.

figures.py          prints the table of docs/FIGURES.md
figures.py --write  writes it there, between its two marks

A line is a line of a file, comments and empty lines too. Source is src/*.rt; specs are the definitions that public clauses
rest on (specs/, without specs/steps/); steps are the code's own (specs/steps/); edits are the files of must-fail/, planted those of
planted/.
"""
import os
import sys

TOP = os.path.dirname(os.path.dirname(os.path.abspath(__file__)))
PAGE = os.path.join(TOP, "docs", "FIGURES.md")
BEGIN, END = "<!-- lines of crates -->\n", "<!-- end of lines -->\n"
HEAD = ["crate", "source", "specs", "steps", "proofs", "edits", "planted"]


def crates():
    """The crates of crates.txt in its order, each with those that it stands on."""
    with open(os.path.join(TOP, "crates.txt"), encoding="utf-8") as file:
        lines = [line.split("#")[0] for line in file]
    return {line.split(":")[0].split()[0]: line.split(":")[1].split() for line in lines if ":" in line}


def under(name, known):
    """A crate and all that it stands on."""
    found = {name}
    for below in known[name]:
        if below in known and below not in found:
            found |= under(below, known)
    return found


def files(folder, ending):
    """The files below a folder with an ending."""
    for place, folders, names in os.walk(folder):
        folders[:] = sorted(name for name in folders if name != "out")
        yield from (os.path.join(place, name) for name in sorted(names) if name.endswith(ending))


def lines(paths):
    total = 0
    for path in paths:
        with open(path, encoding="utf-8") as file:
            total += file.read().count("\n")
    return total


def is_step(path, specs):
    parts = os.path.relpath(path, specs).split(os.sep)
    return parts[0] in ("steps", "steps.antt")


def row(name):
    """The counts of one crate."""
    top = os.path.join(TOP, "crates", name)
    specs = os.path.join(top, "specs")
    stated = list(files(specs, ".antt"))
    return [
        lines(files(os.path.join(top, "src"), ".rt")),
        lines(path for path in stated if not is_step(path, specs)),
        lines(path for path in stated if is_step(path, specs)),
        lines(files(os.path.join(top, "proofs"), ".antt")),
        len(list(files(os.path.join(top, "must-fail"), ".edit"))),
        len(list(files(os.path.join(top, "planted"), ".edit"))),
    ]


def told(cells):
    return "| " + " | ".join(cell if isinstance(cell, str) else f"{cell:,}" for cell in cells) + " |"


def table():
    known = crates()
    rows = [(name, row(name)) for name in known]
    program = under("wild_macho_main", known)
    own = [counts for name, counts in rows if name in program]
    text = [told(HEAD), "|---" + "|--:" * (len(HEAD) - 1) + "|"]
    text += [told([f"`{name}`"] + counts) for name, counts in rows]
    text.append(told([f"**the program's {len(own)} crates**"] + [sum(column) for column in zip(*own)]))
    text.append(told([f"**all {len(rows)} crates**"] + [sum(column) for column in zip(*(counts for _, counts in rows))]))
    return "\n".join(text) + "\n"


def write():
    with open(PAGE, encoding="utf-8") as file:
        page = file.read()
    front, rest = page.split(BEGIN)
    back = rest.split(END)[1]
    with open(PAGE, "w", encoding="utf-8") as file:
        file.write(front + BEGIN + table() + END + back)


if __name__ == "__main__":
    if sys.argv[1:] == ["--write"]:
        write()
    elif not sys.argv[1:]:
        print(table(), end="")
    else:
        sys.exit(__doc__)
