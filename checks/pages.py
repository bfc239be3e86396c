"""Compares pages of docs/ with the sources that they list.

docs/USAGE.md has each option, each rule on inputs, and the words of each line that is printed; docs/ARCHITECTURE.md has each crate once,
and no other; each page that README.md names is there, and each file of docs/ is named there; crates.txt names for a crate the libraries
that its files name, and no other, and those that its edits name; each edit of must-fail/ and planted/ fits its files; little is read along
the paths down from its crates. No line of a crate is wider than MOST_WIDE, but for imports and attributes, and no line of a page, but for
tables and what is indented as code. README.md has at most MOST_FRONT lines. A sentence of README.md, or of a table of docs/PROVED.md, has
at most MOST_WORDS words. A command that links has a version of macOS and the stub of libSystem, which a Mac wants of a program. Each tool
whose program is a crate is called by a symbolic link to ./link. `pages.py --paths` prints the libraries that cost most.
"""
import os
import re
import sys

TOP = os.path.dirname(os.path.dirname(os.path.abspath(__file__)))


def read(*path):
    with open(os.path.join(TOP, *path), encoding="utf-8") as file:
        return file.read()


def options():
    """The names of the option table."""
    table = read("crates", "macho_args", "src", "options.rt").split("const OPTIONS")[1].split("\n];")[0]
    return re.findall(r'"(-\w+)"', table)


def rules():
    """The names of the rules on inputs and on unwind entries: variants of these enums."""
    text = read("crates", "macho_model", "src", "rules.rt") + read("crates", "macho_stub_lines", "src", "fault.rt")
    bodies = re.findall(r"pub enum (?:ObjectRule|StubRule|UnwindRule) \{(.*?)\n\}", text, re.S)
    return [name for body in bodies for name in re.findall(r"^    (\w+),", body, re.M)]


def faults():
    """The kinds of refused words: variants of an enum, but for want of memory."""
    body = read("crates", "macho_args", "src", "fault.rt").split("pub enum ArgsFault {")[1].split("\n}")[0]
    return [name for name in re.findall(r"^    (\w+)(?: \{.*)?,", body, re.M) if name != "OutOfMemory"]


def texts():
    """The words of the lines that a refusal or a fault prints, piece by piece, and what may be too many."""
    lines = read("crates", "macho_report", "specs", "Lines.antt")
    told = lines[lines.index("abbrev pub limit_name"):lines.index("abbrev pub line_of")]
    return [text for text in (text.strip(": ") for text in re.findall(r'codes "([^"]*)"', told)) if len(text) > 3]


def crates():
    return [line.split(":")[0].split()[0] for line in read("crates.txt").split("\n") if ":" in line.split("#")[0]]


def lacking(page, found, wanted):
    return [f"docs/{page} lacks '{name}'" for name in wanted if name not in found]


def wrong_usage():
    usage = read("docs", "USAGE.md")
    told = set(re.findall(r"`(-\w+)", usage)) | set(re.findall(r"^\| ((?:[OSU]\d+(?:, )?)+) \|", usage, re.M))
    told |= {name for names in list(told) for name in names.split(", ")} | set(re.findall(r"`bad word \d: (\w+)`", usage))
    wanted = options() + rules() + faults()
    lines = texts()
    if len(wanted) < 60 or len(lines) < 30:
        return ["the options, rules, faults or lines can't be read"]
    return lacking("USAGE.md", told, wanted) + lacking("USAGE.md", usage, lines)


def wrong_crates():
    told = re.findall(r"^\| `(\w+)` \|", read("docs", "ARCHITECTURE.md"), re.M)
    wrong = lacking("ARCHITECTURE.md", told, crates())
    odd = [name for name in told if name not in crates() or told.count(name) > 1]
    return wrong + [f"docs/ARCHITECTURE.md: '{name}' is no crate, or stands twice" for name in odd]


def text_of(crate):
    """All sources, definitions and proofs of a crate."""
    folders = (os.walk(os.path.join(TOP, "crates", crate, part)) for part in ("src", "specs", "proofs"))
    return "".join(read(at, name) for folder in folders for at, _, names in folder for name in names)


def wrong_libraries():
    wrong = []
    for line in read("crates.txt").split("\n"):
        crate, _, libraries = line.split("#")[0].partition(":")
        text = text_of(crate.split()[0]) if libraries else ""
        unnamed = [name for name in libraries.split() if not re.search(rf"\b{name}::|Rattle\.{name}\b", text)]
        wrong += [f"crates.txt: {crate} names nothing of {name}" for name in unnamed]
    return wrong


def edits_of(crate):
    """The edits of a crate, those that the gate tries and those that it doesn't."""
    folders = [os.path.join("crates", crate, kind) for kind in ("must-fail", "planted")]
    there = [folder for folder in folders if os.path.isdir(os.path.join(TOP, folder))]
    return [os.path.join(folder, name) for folder in there for name in sorted(os.listdir(os.path.join(TOP, folder)))]


def misplaced(crate, edit):
    """What is wrong with the places that an edit changes: each old text stands once in its file, as the edit's earlier lines left it."""
    path, old, texts, wrong = "", "", {}, []
    for line in read(edit).split("\n"):
        kind, _, text = line.partition(": ")
        if kind == "file":
            path = text.strip()
            texts.setdefault(path, read("crates", crate, path))
        elif kind == "old":
            old = text
            if texts[path].count(old) != 1:
                wrong.append(f"{edit}: an old text stands {texts[path].count(old)} times in {path}")
        elif kind == "new" and old:
            texts[path] = texts[path].replace(old, text)
    return wrong if old else [f"{edit} changes nothing"]


def wrong_edits():
    """Edits that don't fit their files, or name a crate which their own doesn't stand on: they reach no prover."""
    wrong = []
    for crate, libraries in libraries_of_crates().items():
        for edit in edits_of(crate):
            wrong += misplaced(crate, edit)
            named = set(re.findall(r"(?<![\w:])(\w+)::", read(edit))) & set(crates())
            wrong += [f"{edit} names '{name}', which crates.txt doesn't" for name in named - {crate, *libraries}]
    return wrong


# More megabytes than these make the gate slow: `rt ci` sums up the files of a crate once for each path from a crate above it.
MOST_READ = 19_800


def libraries_of_crates():
    """The libraries of this repository that each crate names."""
    lines = (line.split("#")[0].partition(":") for line in read("crates.txt").split("\n"))
    named = {crate.split()[0]: libraries.split() for crate, _, libraries in lines if crate.strip()}
    return {crate: [name for name in libraries if name in named] for crate, libraries in named.items()}


def read_along(below, size):
    """The megabytes of all crates' files, those of a crate once for each path that leads down to it, from itself too."""
    found = {}

    def of(crate):
        if crate not in found:
            found[crate] = size[crate] + sum(of(library) for library in below[crate])
        return found[crate]

    return sum(of(crate) for crate in below)


def sizes():
    return {crate: len(text_of(crate).encode()) / 1e6 for crate in libraries_of_crates()}


def wrong_paths():
    found = read_along(libraries_of_crates(), sizes())
    return [f"crates.txt: {found:,.0f} MB are read along its paths, more than {MOST_READ:,}"] if found > MOST_READ else []


def print_paths():
    """Prints the libraries of crates without which least would be read."""
    below, size = libraries_of_crates(), sizes()
    print(f"{read_along(below, size):9,.0f} MB are read along the paths; without a library of a crate:")
    without = [
        (read_along({**below, crate: [it for it in libraries if it != name]}, size), crate, name)
        for crate, libraries in below.items()
        for name in libraries
    ]
    for left, crate, name in sorted(without)[:40]:
        print(f"{left:9,.0f} {crate}: {name}")


# A line of sources, definitions or proofs has at most so many characters, unless it is an import or an attribute.
MOST_WIDE = 140


def wrong_widths():
    wrong = []
    for crate in crates():
        for at, _, names in os.walk(os.path.join(TOP, "crates", crate)):
            for name in sorted(names):
                if not name.endswith((".antt", ".rt")) or {"declared", "out"} & set(at.split(os.sep)):
                    continue
                path = os.path.relpath(os.path.join(at, name), TOP)
                wrong += [
                    f"{path}:{number} has {len(line)} characters"
                    for number, line in enumerate(read(path).split("\n"), 1)
                    if len(line) > MOST_WIDE and not re.match(r"\s*(?:(?:pub |ghost )*use |#!?\[)", line)
                ]
    return wrong


# The page that is read first has at most so many lines.
MOST_FRONT = 90


def wrong_pages():
    told = set(re.findall(r"^\| `docs/(\w+\.md)` \|", read("README.md"), re.M))
    there = {name for name in os.listdir(os.path.join(TOP, "docs")) if name.endswith(".md")}
    wrong = [f"README.md and docs/ differ in {name}" for name in sorted(told ^ there)]
    for page in ["README.md"] + [os.path.join("docs", name) for name in sorted(there)]:
        lines = read(page).split("\n")
        wide = [number for number, line in enumerate(lines, 1) if len(line) > MOST_WIDE and not line.startswith(("|", "    "))]
        wrong += [f"{page}:{number} has {len(lines[number - 1])} characters" for number in wide]
        if page == "README.md" and len(lines) - 1 > MOST_FRONT:
            wrong.append(f"{page} has {len(lines) - 1} lines, more than {MOST_FRONT}")
    return wrong


# A sentence of the pages for users has at most so many words.
MOST_WORDS = 25


def parts_of(page):
    """The cells of tables, and the other paragraphs and points of a page, without what is indented as code."""
    lines = []
    for line in [*page.split("\n"), ""]:
        is_code, is_row = line.startswith("    "), line.startswith("|")
        if is_code or is_row or not line.strip() or re.match(r"#|- |\d+\. ", line):
            yield " ".join(lines)
            lines = []
        if is_row:
            yield from (cell.strip() for cell in line.strip("|").split(" | "))
        elif not is_code:
            lines.append(line.strip())


def long_sentences(path, parts):
    """Sentences of more words; what stands in backticks counts as one."""
    for part in parts:
        for sentence in re.split(r"(?<=[.!?])(?<!\.\.)[\"'*)]*\s+", re.sub(r"`[^`]*`", "`..`", part)):
            if len(sentence.split()) > MOST_WORDS:
                yield f"{path}: {len(sentence.split())} words in '{sentence[:80]}'"


def wrong_sentences():
    rows = [line for line in read("docs", "PROVED.md").split("\n") if line.startswith("|")]
    return [
        *long_sentences("README.md", parts_of(read("README.md"))),
        *long_sentences("docs/PROVED.md", parts_of("\n".join(rows))),
    ]


def wrong_commands():
    """Commands of ./link on a page that make an image which a Mac takes for one of iOS, or doesn't start."""
    wrong = []
    for at, _, names in [*os.walk(os.path.join(TOP, "docs")), *os.walk(os.path.join(TOP, "examples")), (TOP, [], ["README.md"])]:
        for path in (os.path.join(at, name) for name in sorted(names) if name.endswith(".md")):
            text = read(path)
            for command in re.findall(r"^    (\./link .*)$", text, re.M) + re.findall(r"`(\./link [^`]*)`", text):
                if re.search(r"\.(?:o|dylib)\b", command) and not re.search(r"-platform_version macos 14.0 14.0 .*\blibSystem\.tbd", command):
                    wrong.append(f"{os.path.relpath(path, TOP)}: '{command}' has no version, or no libSystem")
    return wrong


def wrong_tools():
    """Tools whose program is a crate, and that aren't called by a link to the script; and links without a program."""
    wrong = []
    for tool in ("inspect", "retool", "tbd", "verify"):
        path = os.path.join(TOP, tool)
        is_called = os.path.islink(path) and os.readlink(path) == "link"
        if is_called != (f"macho_{tool}_main" in crates()):
            wrong.append(f"./{tool} is no link to ./link (ln -s link {tool})" if not is_called else f"./{tool} has no crate macho_{tool}_main")
    return wrong


if __name__ == "__main__":
    if sys.argv[1:] == ["--paths"]:
        sys.exit(print_paths())
    wrong = wrong_usage() + wrong_crates() + wrong_libraries() + wrong_edits() + wrong_paths() + wrong_widths() + wrong_pages()
    wrong += wrong_sentences() + wrong_commands() + wrong_tools()
    for line in wrong:
        print(f"pages: {line}", file=sys.stderr)
    if not wrong:
        print(f"pages: {len(options())} options, {len(rules())} rules and {len(crates())} crates are in the pages")
    sys.exit(1 if wrong else 0)
