"""Calls clang with the words of docs/USAGE.md, and compares what the linker prints.

called.py CLANG LINK PAGE  tries each row of the two tables of 'Called by clang', in the folder where it is called

The page has the call of clang to which a row adds its words: `clang++` stands for clang's other name, and `no W` takes the word W out.
A row of the first table has the words, each between backticks a try of its own, and the line that is printed, where `N` is a number and
`..` a folder; if it has the number, the third cell has the word of that number, one for each try. With the words of a row of the
second table clang links. Each is tried with and without `-O2`.
"""
import os
import re
import shlex
import subprocess
import sys

SECTION = "## Called by clang\n"
CALL = "    clang --target"
WARNING = "warning: "


def fail(text):
    sys.exit("called: " + text)


def quoted(cell):
    """What stands between backticks in a cell, or one empty text."""
    return re.findall(r"`([^`]*)`", cell) or [""]


def tables(section):
    """The rows of each table, without its two lines of head."""
    for block in re.findall(r"^\|.*(?:\n\|.*)*", section, re.M):
        yield [[cell.strip() for cell in row.strip("|").split("|")] for row in block.split("\n")[2:]]


def call_of(section, clang, link):
    """The call that the page shows, with this clang and this linker."""
    line = next(line for line in section.split("\n") if line.startswith(CALL))
    words = line.split()
    path = words.index("--ld-path=$PWD/link")
    return [clang, *words[1:path], f"--ld-path={link}", *words[path + 1 :]]


def with_words(call, words, taken_out):
    """The call with a row's words at its end, or without one of its own."""
    if taken_out:
        if words not in call:
            fail(f"the call has no {words}")
        return [word for word in call if word != words]
    words = words.split()
    if words[:1] == ["clang++"]:
        folder, name = os.path.split(call[0])
        return [os.path.join(folder, name.replace("clang", "clang++", 1)), *call[1:], *words[1:]]
    return call + words


def linker_words(call):
    """The words that clang would give the linker, without its path."""
    shown = subprocess.run([*call, "-###"], capture_output=True, text=True, check=False).stderr.split("\n")
    lines = [shlex.split(line) for line in shown if line.startswith(' "')]
    path = next(word for word in call if word.startswith("--ld-path=")).split("=")[1]
    return next(words[1:] for words in lines if words[0] == path)


def pattern(line):
    """The line of a row as a regular expression."""
    text = re.escape(line).replace(r"word\ N:", r"word\ (\d+):").replace(re.escape(" ../"), r"\ /\S*/")
    return text if line.startswith(WARNING) else "wild_macho: " + text


def run(call):
    """Whether an image was written, as the status says, and what was printed, which has the status of a linker that failed."""
    if os.path.exists("prog"):
        os.remove("prog")
    ran = subprocess.run(call, capture_output=True, text=True, check=False)
    written = os.path.exists("prog")
    if ran.returncode and f"linker command failed with exit code {ran.returncode} " not in ran.stderr or written != (not ran.returncode):
        fail(f"{shlex.join(call)}: status {ran.returncode}, {ran.stderr!r}")
    return written, ran.stderr


def refused(call, line, word):
    """The linker prints the line, and its number is that of the word; only after a warning of another tool is there an image."""
    written, printed = run(call)
    found = [it for it in (re.fullmatch(pattern(line), it) for it in printed.split("\n")) if it]
    if len(found) != 1 or written != line.startswith(WARNING):
        fail(f"{shlex.join(call)}: {printed!r}; wanted '{line}'")
    if found[0].groups() and linker_words(call)[int(found[0][1])] != word:
        fail(f"{shlex.join(call)}: '{found[0][0]}'; wanted the number of {word}")


def taken(call):
    written, printed = run(call)
    if not written:
        fail(f"{shlex.join(call)}: {printed!r}")


def tries(rows):
    """For each try of the first table its words, whether they are taken out, the line and the word of the number."""
    for cells in rows:
        if len(cells) != 4:
            fail(f"a row of {len(cells)} cells: {cells}")
        words, line = quoted(cells[0]), quoted(cells[1])[0]
        names = quoted(cells[2]) if "N:" in line else [""] * len(words)
        if len(names) != len(words) or ("N:" in line) != ("`" in cells[2]):
            fail(f"{cells[0]}: the third cell has other words")
        for its, name in zip(words, names):
            yield its, cells[0].startswith("no "), line, name


def main(clang, link, page):
    section = page.split(SECTION)[1].split("\n## ")[0]
    wrong, right = tables(section)
    call = call_of(section, clang, link)
    count = 0
    for level in ([], ["-O2"]):
        for words, taken_out, line, word in tries(wrong):
            refused(with_words(call + level, words, taken_out), line, word)
            count += 1
        for cells in right:
            for words in quoted(cells[0]):
                taken(with_words(call + level, words, False))
                count += 1
    print(f"called: {os.path.basename(clang)} links, or fails, {count} times as docs/USAGE.md says")


if __name__ == "__main__":
    with open(sys.argv[3], encoding="utf-8") as file:
        main(sys.argv[1], sys.argv[2], file.read())
