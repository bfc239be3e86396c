"""Runs linked images on an emulated processor, each at several slides and with other addresses of its imports each time.

    emulated.py CASES FOLDER

Each line of CASES has words with tabs between: an image of FOLDER, a file with what its program has to print, behind that `status N`, and
its libraries, as PATH=IMAGE.
"""

import os
import random
import sys

from emulated_changes import CHANGES, changed_image, with_other_digest
from emulated_image import Fault, Image
from emulated_process import Process

SEED = 20
SLIDES = (0, 0x4000, 0x1_2345_4000)
BY_CHANCE = 5
GREATEST = 1 << 46


def slides():
    """Some slides of whole pages that are always tried, and some by chance."""
    chance = random.Random(SEED)
    return [*SLIDES, *(chance.randrange(0, GREATEST, 0x4000) for _ in range(BY_CHANCE))]


class Case:
    """A program with its libraries, and what it has to print."""

    def __init__(self, line, folder):
        program, wanted, *libraries = line.split("\t")
        self.name, self.program = program, f"/programs/{program}".encode()
        self.files = {self.program: read(folder, program)}
        for library in libraries:
            path, name = library.split("=")
            self.files[path.encode()] = read(folder, name)
        self.wanted = read("", wanted)

    def run(self, number, slide, files=None):
        """What the program prints at a slide; `files` stand in the place of the linked ones."""
        images = {path: Image(data) for path, data in (files or self.files).items()}
        output, status = Process(images, self.program, slide, random.Random(f"{self.name} {number}")).run()
        return output + b"status %d\n" % status


def read(*path):
    with open(os.path.join(*path), "rb") as file:
        return file.read()


def is_noticed(case, number, slide, files):
    """Whether a program does something else than is wanted."""
    try:
        return case.run(number, slide, files) != case.wanted
    except Fault:
        return True


def change_all(cases):
    """Changes an image in one place, again and again: each has to be noticed at each slide."""
    cases = {case.name: case for case in cases}
    greeting = cases["greeting"]
    changed = [("a page has another digest", greeting, {greeting.program: with_other_digest(greeting.files[greeting.program])})]
    for told, name, path, change in CHANGES:
        case = cases[name]
        path = path or case.program
        if changed_image(case.files[path], lambda it: None) != case.files[path]:
            sys.exit(f"emulated: {name} isn't the same when it is signed anew")
        changed.append((told, case, {**case.files, path: changed_image(case.files[path], change)}))
    for told, case, files in changed:
        for number, slide in enumerate(SLIDES):
            if not is_noticed(case, number, slide, files):
                sys.exit(f"emulated: in {case.name}, {told}, which isn't noticed")
    return len(changed)


def main(cases, folder):
    cases = [Case(line, folder) for line in read(cases).decode().splitlines()]
    for case in cases:
        for number, slide in enumerate(slides()):
            run_whole(case, number, slide)
    images = {data for case in cases for data in case.files.values()}
    runs = len(cases) * len(slides())
    changes = change_all(cases)
    print(f"emulated: {runs} runs of {len(images)} images at {len(slides())} slides give what was wanted, and {changes} changed ones don't")


def run_whole(case, number, slide):
    try:
        printed = case.run(number, slide)
    except Fault as fault:
        sys.exit(f"emulated: {case.name} at slide {slide:#x}: {fault}")
    if printed != case.wanted:
        sys.exit(f"emulated: {case.name} at slide {slide:#x} prints\n{printed.decode(errors='replace')}and not\n{case.wanted.decode()}")


if __name__ == "__main__":
    main(*sys.argv[1:])
