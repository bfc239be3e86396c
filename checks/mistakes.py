"""Makes the mistakes of docs/USAGE.md, and compares what is printed.

mistakes.py LINK PAGE WORD..  gives LINK the words, and those of each row of 'Common mistakes', in the folder where it is called

A row has the words, the status and the line that are wanted. Nothing may be written, and the line is all that is printed.
"""
import os
import subprocess
import sys

SECTION = "## Common mistakes\n"


def fail(text):
    sys.exit("mistakes: " + text)


def rows(page):
    """The rows of the table: what went wrong, the words, the status, the line."""
    for row in page.split(SECTION)[1].split("\n## ")[0].split("\n"):
        if row.startswith("|") and not row.startswith(("| what went wrong", "|---")):
            cells = [cell.strip() for cell in row.strip("|").split("|")]
            if len(cells) != 5:
                fail(f"a row of {len(cells)} cells: {row}")
            yield cells[0], cells[1].strip("`").split(), int(cells[2]), cells[3].strip("`")


def main(call, page):
    count = 0
    for what, words, status, line in rows(page):
        ran = subprocess.run([*call, *words], capture_output=True, check=False)
        wanted = f"wild_macho: {line}\n".encode()
        if ran.stderr != wanted or ran.stdout or ran.returncode != status:
            fail(f"{what}: status {ran.returncode}, {ran.stderr!r}; wanted {status}, {wanted!r}")
        if os.path.exists("prog") or os.path.exists("a.out"):
            fail(f"{what}: an output was written")
        count += 1
    if count == 0:
        fail("the page has no rows")
    print(f"mistakes: {count} lines are as docs/USAGE.md says")


if __name__ == "__main__":
    with open(sys.argv[2], encoding="utf-8") as file:
        main([sys.argv[1], *sys.argv[3:]], file.read())
