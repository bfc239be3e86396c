"""Finds what is proved twice: statements of lemmas that are equal up to the names of what they bind.

It prints each such statement with its places, and fails if there is one.

A statement is what stands behind `NAME :`, up to the equation that proves it. Names that it binds, as in `(x y : X)`, `{A : Type 0}` or
`λ x.`, are numbered in the order in which they come; blanks don't count. The names of what it speaks of are taken as they are, so two
definitions of one name in two crates would be taken for one: then the places are looked at, and one of the definitions gets another name.
"""
import os
import re
import sys
from collections import defaultdict

TOP = os.path.dirname(os.path.dirname(os.path.abspath(__file__)))
# (the field of `x.field` is a token with its dot, so it is no name that is bound)
TOKEN = re.compile(r"\.?[^\s(){}\[\],;.]+|[(){}\[\],;.]")
NAME = re.compile(r"[^\W\d][\w']*")
# what a statement has, and the type of a list or a number of a row has not
SAYS = re.compile(r"[≡≢<≤⊥⊎×→(]")
OF_FUNCTIONS = {"Lib.antt", "Answers.antt", "Invariants.antt", "Proof.antt"}
HEAD = re.compile(r"^(pub )?([^\s:(){}]+) : (.*)$")


def proof_files():
    """The files of lemmas: those of `proofs/`, but for what is written for one function alone."""
    for folder, folders, names in os.walk(os.path.join(TOP, "crates")):
        folders[:] = sorted(it for it in folders if it != "out")
        for name in sorted(names):
            if name.endswith(".antt") and name not in OF_FUNCTIONS and "/proofs" in folder:
                yield os.path.join(folder, name)


def statements(path):
    """Each statement of a file at its outer level: its line, its name, its text."""
    with open(path, encoding="utf-8") as file:
        lines = file.read().split("\n")
    for number, line in enumerate(lines):
        head = HEAD.match(line)
        if not head or head.group(2) in ("use", "abbrev", "record", "data", "--"):
            continue
        text = [head.group(3)]
        for more in lines[number + 1 :]:
            if not more.startswith(" "):
                break
            text.append(more.strip())
        yield number + 1, head.group(2), " ".join(text)


def bound_names(tokens):
    """The names that a statement binds, in the order in which they come: `(x y : X)`, `{A : Type 0}`, `λ x y.`."""
    for at, token in enumerate(tokens):
        if token in "({λ":
            names = []
            for name in tokens[at + 1 :]:
                if not NAME.fullmatch(name):
                    if name == ("." if token == "λ" else ":"):
                        yield from names
                    break
                names.append(name)


def canonical(text):
    """A statement with the names that it binds by their numbers."""
    tokens = TOKEN.findall(text)
    numbers = {}
    for name in bound_names(tokens):
        numbers.setdefault(name, f"#{len(numbers)}")
    return " ".join(numbers.get(token, token) for token in tokens)


def main():
    places = defaultdict(list)
    for path in proof_files():
        for number, name, text in statements(path):
            if not SAYS.search(text):
                continue
            places[canonical(text)].append(f"{os.path.relpath(path, TOP)}:{number} {name}")
    wrong = sorted(at for at in places.values() if len(at) > 1)
    for at in wrong:
        print(f"proved {len(at)} times: {', '.join(at)}")
    print(f"repeated: {len(wrong)} statements are proved more than once")
    return 1 if wrong else 0


if __name__ == "__main__":
    sys.exit(main())
