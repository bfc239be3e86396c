"""The definitions that the clauses of public functions rest on, read from the sources.

believed.py                 the definitions under the clauses of `run`, in reading order, with lines; those of each tool; then the rules below
believed.py --crate NAME    the files of a crate's specs/, and which definitions of each a public clause rests on
believed.py --shares        the definitions under `run` that take the most lines with them: what would go if nothing needed them
believed.py --lines         writes the reading list, its parts and the tools' lists into docs/THEOREMS.md, the lines of the files that its
                            tables name, and the number of all lines into README.md

The size of what must be believed is the lines of the definitions under `run`: types, equations, fields and cases. Comments are told apart:
no theorem rests on them. Each tool has a `run` of its own, and so a list of its own.

Refused are: more lines than MOST_LINES under the clauses of `run`, a file of specs/steps/ under a clause of a public function of any crate
(or under what a public type or trait stands for), a file of specs/ that imports one of specs/steps/, a row of a table of sentences
(docs/PROVED.md has these) that names a function or clause that isn't there, and a clause of `run`, of `link` or of a tool's `run` that no
such row names.
A table of sentences on another page is refused: its rows would be told twice. Refused is also a file of the reading list
that isn't in just one row of the table of public sources (docs/THEOREMS.md), and a row of that table that names a file that isn't
there, or no source.
"""
import os
import re
import sys

TOP = os.path.dirname(os.path.dirname(os.path.abspath(__file__)))
CRATES = os.path.join(TOP, "crates")
NAME = r"[^\s(){}\[\],;.]+"
BEGIN, END = "<!-- reading list -->\n", "<!-- end of the reading list -->\n"
PARTS, PARTS_END = "<!-- parts -->\n", "<!-- end of the parts -->\n"
SOURCES, SOURCES_END = "<!-- sources -->\n", "<!-- end of the sources -->\n"
TOOLS_BEGIN, TOOLS_END = "<!-- tools -->\n", "<!-- end of the tools -->\n"

# The most lines of definitions under `run`, without comments.
MOST_LINES = 3500

# The page whose tables say which clause carries a sentence, and the functions each clause of which has to be in them.
TABLES = os.path.join("docs", "PROVED.md")
TOLD_WHOLE = [("wild_macho", "run"), ("macho_linking", "link"), ("macho_inspect", "run"), ("macho_tbd", "run"),
              ("macho_retool", "run")]

# The tools: the script, its crate, and its call on bytes, which stands for `run` where the tool has no program.
TOOLS = [("inspect", "macho_inspect", "inspect"), ("tbd", "macho_tbd", "stub_text"), ("retool", "macho_retool", "retool")]

# What is promised, from the headline outwards: each part's last definition, and what it says.
PROMISED = [
    ("macho_model.specs.Stands", "IsLoadable", "the headline: parts have their places, the loader accepts the file, and at every slide and for every choice of import addresses the image stands in memory"),
    ("macho_promise.specs.Promise", "IsLinked", "the image whole: sizes and order, commands and tables, exports and unwind information by look-up, and every byte of what isn't a section's"),
    ("macho_answer.specs.Standing", "Stands", "why a link is refused"),
    ("macho_model.specs.Valid", "IsValid", "for which links the linker must write an image"),
    ("macho_job.specs.Job", "IsJob", "what words and files ask for: options, search, kinds of input, objects, libraries and text stubs, made objects"),
    ("wild_macho.specs.Runs", "IsRun", "a run: what it leaves, prints and answers, and the cause of every other status"),
]


def read(path):
    with open(path, encoding="utf-8") as file:
        return file.read()


def names_of(text):
    """The names of an import list, as {name here: name there}."""
    names = {}
    for part in text.split(","):
        words = part.split()
        if len(words) == 3 and words[1] == "as":
            names[words[2]] = words[0]
        elif words:
            names[words[0]] = words[0]
    return names


USE = re.compile(r"(?:pub )?(?:ghost )?use (Rattle\.[^\s{;]*?)(?:\.\{([^}]*)\}|(?: as (\S+?))?);?\s*$", re.M)


def imports_of(text):
    """Names that stand for an item, and names that stand for a module."""
    items, modules = {}, {}
    for use in USE.finditer(text):
        module, names, alias = use.group(1), use.group(2), use.group(3)
        if names is not None:
            for here, there in names_of(names).items():
                items[here] = (module, there)
        else:
            modules[alias or module.rsplit(".", 1)[1]] = module
    return items, modules


SIGNATURE = re.compile(r"(?:(?:abbrev|unfoldable|opaque|pub|record|data) )+(" + NAME + r")|(" + NAME + r") :(?:\s|$)")
NO_DEFINITION = re.compile(r"(?:pub )?(?:use|mod|ruleset|syntax)\b")


class Definition:
    def __init__(self, name, start):
        self.name = name
        self.start = start
        self.end = start
        self.text = ""

    def add(self, number, line):
        self.end = number
        self.text += line + "\n"


class Specs:
    """One file of definitions."""

    def __init__(self, module, path):
        self.module = module
        self.path = path
        self.text = read(path)
        self.items, self.modules = imports_of(self.text)
        self.lines = self.text.count("\n")
        self.definitions = {}
        self.owner = {}
        self.read_definitions()

    def read_definitions(self):
        comment, now, inside = None, None, False
        for number, line in enumerate(self.text.split("\n")):
            # what stands in a module with parameters stands two places in
            if line[:1].strip():
                inside = line.startswith("module ")
                if inside:
                    comment, now = None, None
                    continue
            elif inside:
                line = line[2:]
            if not line.strip():
                comment = None
            elif line.startswith(("--", "infix")):
                comment, now = (number if comment is None else comment), None
            elif line[0].isspace() or (line.startswith("unfolding ") and now):
                if now:
                    now.add(number, line)
            elif NO_DEFINITION.match(line):
                comment, now = None, None
            else:
                signature = SIGNATURE.match(line)
                if signature:
                    name = signature.group(1) or signature.group(2)
                    now = self.definitions.setdefault(name, Definition(name, number if comment is None else comment))
                    self.owner[name] = name
                else:
                    now = self.definitions.get(line.split(" ", 1)[0], now)
                comment = None
                if now:
                    now.add(number, line)
        for definition in self.definitions.values():
            if "data " in definition.text.split(":", 1)[0]:
                for cases in re.findall(r"^\s+([^:\n]+?) :", definition.text, re.M):
                    for case in cases.split():
                        self.owner.setdefault(case, definition.name)


class World:
    def __init__(self):
        self.files = {}
        self.handed = {}
        for crate in sorted(os.listdir(CRATES)):
            folder = os.path.join(CRATES, crate, "specs")
            for at, _, names in os.walk(folder):
                for name in sorted(names):
                    if not name.endswith(".antt"):
                        continue
                    path = os.path.join(at, name)
                    inner = os.path.relpath(path, folder)[: -len(".antt")].replace(os.sep, ".")
                    module = f"Rattle.{crate}.specs.{inner}"
                    if inner == "Lib":
                        for use, alias in re.findall(r"^pub use (Rattle\.\S+)(?: as (\w+))?$", read(path), re.M):
                            self.handed[f"Rattle.{crate}.specs.{alias or use.rsplit('.', 1)[1]}"] = use
                        continue
                    self.files[module] = Specs(module, path)

    def module(self, name):
        while name in self.handed:
            name = self.handed[name]
        return name

    def find(self, module, name):
        """The definition (module, name) that a name of a module stands for, or None."""
        module = self.module(module)
        file = self.files.get(module)
        if file is None:
            return None
        if name in file.owner:
            return (module, file.owner[name])
        if name in file.items:
            return self.find(*file.items[name])
        return None

    def uses(self, text, items, modules, module=None):
        """The definitions that a text names."""
        found = []
        text = re.sub(r"--.*", "", text)
        for match in re.finditer(r"(Rattle(?:\.\w+)+)\.\{?(" + NAME + r")\}?|(" + NAME + r")(?:\.(" + NAME + r"))?", text):
            if match.group(1):
                one = self.find(match.group(1), match.group(2))
            else:
                first, second = match.group(3), match.group(4)
                one = None
                if second and first in modules:
                    one = self.find(modules[first], second)
                elif first in items:
                    one = self.find(*items[first])
                elif module and first in self.files[module].owner:
                    one = (module, self.files[module].owner[first])
            if one:
                found.append(one)
        words = set(text.split())
        here = [(name, (module, name)) for name in self.files[module].owner] if module else []
        for name, place in list(items.items()) + here:
            signs = [sign for sign in name.split("◌") if sign]
            if "◌" in name and (words.issuperset(signs) or (signs == [">>="] and "←" in words)):
                one = self.find(*place)
                if one:
                    found.append(one)
        return found

    def uses_of(self, one):
        module, name = one
        file = self.files[module]
        return [use for use in self.uses(file.definitions[name].text, file.items, file.modules, module) if use != one]

    def closure(self, roots):
        """The definitions under some, each behind those that it rests on."""
        order, seen = [], set()
        for root in roots:
            stack = [(root, None)]
            while stack:
                one, rest = stack.pop()
                if rest is None:
                    if one in seen:
                        continue
                    seen.add(one)
                    rest = iter(self.uses_of(one))
                for use in rest:
                    if use not in seen:
                        stack.append((one, rest))
                        stack.append((use, None))
                        break
                else:
                    order.append(one)
        return order


def block(text, at, opening="{", closing="}"):
    """The place behind the bracket that closes the one at a place."""
    depth = 0
    while at < len(text):
        if text[at] == opening:
            depth += 1
        elif text[at] == closing:
            depth -= 1
            if depth == 0:
                return at + 1
        at += 1
    return at


CLAUSE = re.compile(r"\s*(?://[^\n]*\n\s*)*(requires|ensures)\s*([\w]*)\s*\{")


class Function:
    def __init__(self, crate, path, owner, name, is_public, clauses):
        self.crate, self.path, self.owner, self.name = crate, path, owner, name
        self.is_public, self.clauses = is_public, clauses


def exported_of(crate):
    """The names that a crate's root hands out."""
    root = os.path.join(CRATES, crate, "src", "lib.rt")
    if not os.path.exists(root):
        return set(), set()
    text = re.sub(r"//[^\n]*", "", read(root))
    names, modules = set(), set(re.findall(r"\bpub mod (\w+)", text))
    for path in re.findall(r"\bpub use ([^;]+);", text):
        for part in re.findall(r"\{([^}]*)\}", path) or [path.rsplit("::", 1)[-1]]:
            names |= {word.split()[-1].rsplit("::", 1)[-1] for word in part.split(",") if word.strip()}
    names |= set(re.findall(r"\bpub (?:fn|struct|enum|trait|type) (\w+)", text))
    return names, modules


def owners_of(text):
    """The impl, trait and struct blocks of a file: (start, end, type, is public by itself, words, kind)."""
    blocks = []
    for head in re.finditer(r"^(?:pub(?:\([a-z]+\))? )?(impl|trait|struct)\b([^{;]*)\{", text, re.M):
        start = text.index("{", head.start())
        words = head.group(2)
        words = re.sub(r"^<[^>]*(?:<[^>]*>[^>]*)*>", "", words)
        is_trait_impl = head.group(1) == "impl" and re.search(r"\bfor\b", words) is not None
        target = words.split(" for ")[-1] if is_trait_impl else words
        name = re.search(r"(\w+)", target.replace("&", "").replace("mut ", ""))
        blocks.append((start, block(text, start), name.group(1) if name else "", head.group(1) == "trait" or is_trait_impl,
                       words, head.group(1)))
    return blocks


def functions_of(crate):
    """The functions of a crate with their clauses, and its ghost members that callers see."""
    exported, modules = exported_of(crate)
    functions = []
    folder = os.path.join(CRATES, crate, "src")
    for at, _, names in os.walk(folder):
        for file in sorted(names):
            if not file.endswith(".rt") or "tests" in file:
                continue
            path = os.path.join(at, file)
            text = read(path)
            items, used = imports_of(text)
            blocks = owners_of(text)
            is_open = os.path.splitext(file)[0] in modules or file == "lib.rt"
            for head in re.finditer(r"^([ \t]*)(pub(?:\([a-z]+\))? )?(?:const )?(?:unsafe )?fn (\w+)", text, re.M):
                owner = next((b for b in blocks if b[0] < head.start() < b[1]), None)
                name = head.group(3)
                is_pub = (head.group(2) or "").strip() == "pub"
                if owner:
                    is_public = (is_pub or owner[3]) and owner[2] in exported
                else:
                    is_public = is_pub and (name in exported or is_open)
                at_clause = text.index("(", head.end())
                at_clause = block(text, at_clause, "(", ")")
                # (the length of an array in the type of the answer stands behind a semicolon)
                stop = re.compile(r"(?:[^{;\[]|\[[^\]]*\])*?(?=\s(?:requires|ensures)\b|\{|;)", re.S).match(text, at_clause)
                at_clause = stop.end() if stop else at_clause
                clauses = []
                while True:
                    clause = CLAUSE.match(text, at_clause)
                    if not clause:
                        break
                    end = block(text, clause.end() - 1)
                    clauses.append((clause.group(1), clause.group(2), text[clause.end(): end - 1]))
                    at_clause = end
                function = Function(crate, path, owner[2] if owner else None, name, is_public, clauses)
                function.items, function.modules = items, used
                functions.append(function)
            for head in re.finditer(r"^[ \t]+(pub )?ghost (\w+)\s*(?:=|:)\s*\{", text, re.M):
                owner = next((b for b in blocks if b[0] < head.start() < b[1]), None)
                start = text.index("{", head.start())
                # (what a struct keeps is for callers where its field is public)
                name, is_seen = head.group(2), bool(owner) and (owner[5] != "struct" or head.group(1) is not None)
                member = Function(crate, path, owner[2] if owner else None, name,
                                  is_seen and owner[2] in exported and name not in ("invariant", "from_gives"),
                                  [("ghost", name, text[start + 1: block(text, start) - 1])])
                member.items, member.modules = items, used
                functions.append(member)
    return functions


def roots_of(world, functions):
    roots = []
    for function in functions:
        for _, _, text in function.clauses:
            roots += world.uses(text, function.items, function.modules)
    return list(dict.fromkeys(roots))


def is_step(module):
    return ".specs.steps." in module


def parts_of(world, one):
    """Of a definition's lines how many are comments, how many only tell the type of a function or a constant, and how many are others."""
    file = world.files[one[0]]
    definition = file.definitions[one[1]]
    lines = [line.strip() for line in file.text.split("\n")[definition.start: definition.end + 1]]
    code = [line for line in lines if not line.startswith("--")]
    types = 0
    if code and not re.match(r"(?:pub )?(?:record|data)\b", code[0]):
        types = next((number for number, line in enumerate(code) if number and re.match(re.escape(one[1]) + r"(?:\s|$)|unfolding\s", line)), 0)
    return len(lines) - len(code), types, len(code) - types


def lines_of(world, one):
    """The lines of a definition, without its comments."""
    _, types, others = parts_of(world, one)
    return types + others


def kinds_of(world, files):
    """How many lines of all definitions of some files are comments, types, and others."""
    parts = [parts_of(world, one) for found in files.values() for one in found]
    return tuple(sum(numbers) for numbers in zip(*parts))


def short(module):
    return module.replace("Rattle.", "").replace(".specs.", "/specs/").replace("steps.", "steps/")


def print_crate(world, crates, crate):
    believed = set()
    for one in crates:
        believed |= set(world.closure(roots_of(world, [f for f in functions_of(one) if f.is_public])))
    for module, file in world.files.items():
        if not module.startswith(f"Rattle.{crate}.specs.") or not file.definitions:
            continue
        cited = [name for name in file.definitions if (module, name) in believed]
        rest = [name for name in file.definitions if (module, name) not in believed]
        print(f"{short(module)}: {file.lines} lines, {len(cited)} under public clauses, {len(rest)} not")
        if cited and rest:
            print("    cited:", " ".join(cited))
            print("    not:  ", " ".join(rest))


def call_of(crate, name):
    """A public function of a crate, if there is just one of the name."""
    functions = [f for f in functions_of(crate) if f.name == name and f.is_public and f.owner is None]
    return functions if len(functions) == 1 else []


def run_of(world):
    """The function `run`, if there is one."""
    return call_of("wild_macho", "run")


def tools():
    """The tools that are there, as (script, crate, call)."""
    found = ((script, crate, call_of(crate, "run") or call_of(crate, name)) for script, crate, name in TOOLS)
    return [(script, crate, functions[0]) for script, crate, functions in found if functions]


def reading_list(world, functions):
    """The files with definitions under functions, each with those definitions, behind the files that these rest on."""
    by_file = {}
    for one in world.closure(roots_of(world, functions)):
        by_file.setdefault(one[0], []).append(one)
    files = {}

    def visit(module):
        if module in files or module in seen:
            return
        seen.add(module)
        for one in by_file[module]:
            for use in world.uses_of(one):
                visit(use[0])
        files[module] = by_file[module]

    seen = set()
    for module in by_file:
        visit(module)
    return files


def print_list(world, files):
    """Prints a reading list; answers the lines of its definitions, those of its files, and the number of its definitions."""
    total = whole = count = 0
    for module, found in files.items():
        lines = sum(lines_of(world, one) for one in found)
        total, whole, count = total + lines, whole + world.files[module].lines, count + len(found)
        print(f"{lines:5}  {short(module)}: {', '.join(one[1] for one in found)}")
    return total, whole, count


def print_run(world):
    functions = run_of(world)
    if not functions:
        return ["there is no public function `run` in wild_macho"]
    files = reading_list(world, functions)
    print("lines  definitions under the clauses of `run`, in reading order")
    total, whole, count = print_list(world, files)
    comments, types, others = kinds_of(world, files)
    print(f"{total:5}  lines, of at most {MOST_LINES}: {others} of equations, fields and cases, {types} of types")
    print(f"{total + comments:5}  with the {comments} lines of their comments; {count} definitions in {len(files)} files, which have {whole} lines in all")
    return ([f"{total} lines of definitions under `run`, more than {MOST_LINES}"] if total > MOST_LINES else [])


def others_of(world, files):
    """Of a reading list what isn't on that of the linker's `run`, file by file."""
    known = {one for found in reading_list(world, run_of(world)).values() for one in found}
    others = {module: [one for one in found if one not in known] for module, found in files.items()}
    return {module: found for module, found in others.items() if found}


def count_of(world, files):
    """The lines of the definitions of a reading list."""
    return sum(lines_of(world, one) for found in files.values() for one in found)


def print_tools(world):
    for _, crate, function in tools():
        files = reading_list(world, [function])
        print(f"\nlines  definitions under the clauses of `{function.name}` of {crate}, in reading order")
        total, _, count = print_list(world, files)
        others = count_of(world, others_of(world, files))
        print(f"{total:5}  lines, {count} definitions in {len(files)} files; {total - others} of the lines are under the linker's `run`, too")


def shares_of(world):
    """For each definition under `run` how many lines are there for it alone: its own, and those of what nothing else needs."""
    roots = roots_of(world, run_of(world))
    uses = {one: set(world.uses_of(one)) for one in world.closure(roots)}
    shares = {}
    for left_out in uses:
        kept, todo = set(), [one for one in roots if one != left_out]
        while todo:
            one = todo.pop()
            if one not in kept:
                kept.add(one)
                todo += uses[one] - {left_out}
        shares[left_out] = sum(lines_of(world, one) for one in uses if one not in kept)
    return shares


def print_shares(world, most=60):
    shares = shares_of(world)
    for one in sorted(shares, key=lambda one: -shares[one])[:most]:
        print(f"{shares[one]:5}  {short(one[0])}: {one[1]}")


def wrong_imports(world):
    wrong = []
    for module, file in world.files.items():
        if is_step(module) or module.endswith(".specs.steps"):
            continue
        for used in [m for m, _ in file.items.values()] + list(file.modules.values()):
            if is_step(world.module(used)):
                wrong.append(f"{short(module)} imports {short(used)}")
    return sorted(set(wrong))


def steps_under(world, functions):
    return sorted({one[0] for one in world.closure(roots_of(world, functions)) if is_step(one[0])})


def wrong_steps(world, crates):
    """The public functions, types and traits of all crates that rest on steps."""
    wrong = []
    for crate in crates:
        public = [function for function in functions_of(crate) if function.is_public]
        if steps_under(world, public):
            for function in public:
                name = f"{function.owner}::{function.name}" if function.owner else function.name
                wrong += [f"{crate} {name} rests on {short(module)}" for module in steps_under(world, [function])]
    return wrong


def rows_of(page):
    """The rows of a page's tables of sentences."""
    rows = []
    for table in re.findall(r"^\| sentence \|.*?(?=^\s*$)", read(os.path.join(TOP, page)), re.M | re.S):
        rows += [row for row in table.split("\n")[2:] if row.strip()]
    return rows


def wrong_row(crates, row):
    """What is wrong with a row: its function or clause isn't there."""
    cells = [cell.strip() for cell in row.strip().strip("|").split(" | ")]
    if len(cells) != 3:
        return [f"a row of {len(cells)} cells: {row[:60]}"]
    words = re.findall(r"`([^`]+)`", cells[1])
    crate, functions = (words[0], words[1:]) if words else ("", [])
    if crate not in crates:
        return [f"there is no crate '{crate}'"]
    wrong = []
    known = [f for f in functions_of(crate) if f.is_public]
    clauses = set()
    if not functions:
        wrong.append(f"a row of {crate} names no function: {cells[0][:60]}")
    for function in functions:
        owner, _, name = function.rpartition("::")
        named = [f for f in known if f.name == name and (len(owner) <= 1 or f.owner == owner)]
        named += [f for f in known if not owner and f.owner == function]
        if not named:
            wrong.append(f"{crate} has no public '{function}'")
        for one in named:
            clauses |= {label or kind for kind, label, _ in one.clauses}
    for clause in re.findall(r"`([^`]+)`", cells[2]):
        if "/" in clause:
            if not os.path.exists(os.path.join(CRATES, clause + ".antt")):
                wrong.append(f"there is no file '{clause}'")
        elif clause not in clauses:
            wrong.append(f"{crate} {', '.join(functions)} has no clause '{clause}'")
    return wrong


def untold(rows):
    """The clauses of the functions of TOLD_WHOLE that no row of theirs names."""
    wrong = []
    for crate, name in TOLD_WHOLE:
        told = set()
        for row in rows:
            cells = row.strip().strip("|").split(" | ")
            words = re.findall(r"`([^`]+)`", cells[1]) if len(cells) == 3 else []
            if words[:1] == [crate] and name in words[1:]:
                told |= set(re.findall(r"`([^`]+)`", cells[2]))
        found = [function for function in functions_of(crate) if function.is_public and function.name == name and not function.owner]
        clauses = [label or kind for function in found for kind, label, _ in function.clauses if kind == "ensures"]
        if not clauses:
            wrong.append(f"{crate} {name} has no clauses")
        wrong += [f"no row names clause '{it}' of {crate} {name}" for it in clauses if it not in told]
    return wrong


def wrong_rows(crates):
    """What is wrong with the rows of the tables of sentences, and whether they are elsewhere."""
    rows = rows_of(TABLES)
    wrong = [f"{TABLES}: {it}" for row in rows for it in wrong_row(crates, row)] + [f"{TABLES}: {it}" for it in untold(rows)]
    if not rows:
        wrong.append(f"{TABLES} has no table of sentences")
    pages = ["README.md"] + sorted(os.path.join("docs", name) for name in os.listdir(os.path.join(TOP, "docs")) if name.endswith(".md"))
    return wrong + [f"{page} has a table of sentences, which {TABLES} should have" for page in pages if page != TABLES and rows_of(page)]


def rows_of_sources():
    """The rows of the table of public sources, as (crate, its files, source)."""
    table = read(os.path.join(TOP, "docs", "THEOREMS.md")).split(SOURCES)[1].split(SOURCES_END)[0]
    rows = []
    for line in table.strip().split("\n")[2:]:
        crate, files, source = (cell.strip() for cell in line.strip("|").split(" | ", 2))
        rows.append((crate.strip("`"), re.findall(r"`(\w+)`", files), source))
    return rows


def wrong_sources(world):
    """Files of the reading list that aren't in one row of the table of public sources; rows without a source or with other files."""
    wrong, told = [], {}
    for crate, files, source in rows_of_sources():
        if not source or not files:
            wrong.append(f"a row of {crate} in the table of public sources lacks files or a source")
        for file in files:
            module = f"Rattle.{crate}.specs.{file}"
            told[module] = told.get(module, 0) + 1
            if module not in world.files:
                wrong.append(f"there is no file '{short(module)}' of the table of public sources")
    wrong += [f"{short(module)} is in {count} rows of the table of public sources" for module, count in told.items() if count > 1]
    missing = [module for module in reading_list(world, run_of(world)) if module not in told]
    return wrong + [f"{short(module)} is in no row of the table of public sources" for module in missing]


def subject(text):
    """What a file says that it is: its first comment, up to the first full stop or colon."""
    words = []
    for line in text.split("\n"):
        if not line.startswith("--"):
            break
        words.append(line[2:].strip())
    return re.split(r"[.:](?:\s|$)", " ".join(words))[0]


def rows_of_run(world):
    """The reading list as rows of a table, their sum, and what kinds of lines these are."""
    rows, total, files = [], 0, reading_list(world, run_of(world))
    for module, found in files.items():
        lines = sum(lines_of(world, one) for one in found)
        total += lines
        crate, _, file = short(module).partition("/specs/")
        rows.append(f"| `{crate}` `{file}` | {lines} | {subject(world.files[module].text)} |")
    comments, types, others = kinds_of(world, files)
    return ["| crate and file | lines | it says |", "|---|--:|---|"] + rows + [
        f"| **all {len(rows)} files** | **{total:,}** | |",
        "",
        f"Of these {total:,} lines {others:,} are equations, fields and cases, and {types:,} are types of functions and constants, which the",
        f"checker compares with the equations. With the {comments:,} lines of comments between them it is {total + comments:,}.",
    ]


def rows_of_parts(world):
    """For each part of the promise how many lines it needs beyond those before it, and all so far."""
    rows, known, total = [], set(), 0
    for module, name, says in PROMISED:
        under = [one for one in world.closure([(f"Rattle.{module}", name)]) if one not in known]
        lines = sum(lines_of(world, one) for one in under)
        known, total = known | set(under), total + lines
        rows.append(f"| `{name}` | {says} | {lines:,} | {total:,} |")
    return ["| definition | it says | lines | with those above |", "|---|---|--:|--:|"] + rows


def rows_of_tools(world):
    """For each tool how many lines are under its `run`; and the files whose definitions aren't all under the linker's, with these lines."""
    lists = [(script, crate, function, reading_list(world, [function])) for script, crate, function in tools()]
    others = [others_of(world, files) for _, _, _, files in lists]
    rows = ["| tool | function | definitions | files | lines | of these not under the linker's `run` |", "|---|---|--:|--:|--:|--:|"]
    for (script, crate, function, files), rest in zip(lists, others):
        count = sum(len(found) for found in files.values())
        rows.append(f"| {script} | `{function.name}` of `{crate}` | {count} | {len(files)} | {count_of(world, files)} | {count_of(world, rest)} |")
    names = [script for script, _, _, _ in lists]
    rows += ["", f"| crate and file | {' | '.join(names)} | it says |", "|---" + "|--:" * len(names) + "|---|"]
    for module in dict.fromkeys(module for rest in others for module in rest):
        crate, _, file = short(module).partition("/specs/")
        counts = [str(sum(lines_of(world, one) for one in rest.get(module, ())) or "") for rest in others]
        rows.append(f"| `{crate}` `{file}` | {' | '.join(counts)} | {subject(world.files[module].text)} |")
    return rows


def with_rows(text, begin, end, rows):
    """A text with other rows between two marks."""
    front, rest = text.split(begin)
    return front + begin + "\n".join(rows) + "\n" + end + rest.split(end)[1]


def lines_of_row(names, missing):
    """The lines of the files that a row names: the first by crate and folder, or in macho_model."""
    folder, total = "macho_model/specs", 0
    for name in names:
        folder, name = name.rsplit("/", 1) if "/" in name else (folder, name)
        file = os.path.join(CRATES, folder, name + ".antt")
        if os.path.exists(file):
            total += read(file).count("\n")
        else:
            missing.append(f"docs/THEOREMS.md: there is no file '{folder}/{name}'")
    return total


def write_lines(world):
    """Writes the reading lists of `run` and of the tools into docs/THEOREMS.md, and the lines of the files that its other tables name."""
    path = os.path.join(TOP, "docs", "THEOREMS.md")
    text = with_rows(with_rows(read(path), BEGIN, END, rows_of_run(world)), PARTS, PARTS_END, rows_of_parts(world))
    text = with_rows(text, TOOLS_BEGIN, TOOLS_END, rows_of_tools(world))
    missing, lines = [], text.split("\n")
    for number, line in enumerate(lines):
        row = re.match(r"\| ((?:`[\w/]+`(?:, )?)+) \| \d+ \|", line)
        if row:
            total = lines_of_row(re.findall(r"`([\w/]+)`", row.group(1)), missing)
            lines[number] = f"| {row.group(1)} | {total} |" + line[row.end():]
    with open(path, "w", encoding="utf-8") as file:
        file.write("\n".join(lines))
    front = os.path.join(TOP, "README.md")
    total = sum(lines_of(world, one) for found in reading_list(world, run_of(world)).values() for one in found)
    text, count = re.subn(r"lists the [\d,]+ lines of", f"lists the {total:,} lines of", read(front))
    with open(front, "w", encoding="utf-8") as file:
        file.write(text)
    return missing if count == 1 else missing + ["README.md doesn't tell the lines of definitions once"]


def main():
    world = World()
    crates = [name for name in sorted(os.listdir(CRATES)) if os.path.isdir(os.path.join(CRATES, name, "src"))]
    if sys.argv[1:2] == ["--crate"]:
        print_crate(world, crates, sys.argv[2])
        return 0
    if sys.argv[1:2] == ["--shares"]:
        print_shares(world)
        return 0
    if sys.argv[1:2] == ["--lines"]:
        missing = write_lines(world)
        print("\n".join(missing) or "docs/THEOREMS.md: the lines are written")
        return 1 if missing else 0
    wrong = print_run(world)
    print_tools(world)
    wrong += wrong_imports(world) + wrong_steps(world, crates) + wrong_rows(crates) + wrong_sources(world)
    for line in dict.fromkeys(wrong):
        print(f"believed: {line}", file=sys.stderr)
    return 1 if wrong else 0


if __name__ == "__main__":
    sys.exit(main())
