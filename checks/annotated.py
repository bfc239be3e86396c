"""Compares an image with the rows of docs/FORMATS.md, byte by byte.

annotated.py PAGE IMAGE INPUT..  the rows are those of the section 'One image, byte by byte'; the inputs are those of the link

A row is four spaces, a place, two spaces, and bytes or a text in quotes; behind them stands what they say. Every byte that no row
names has to be 0, and the file ends with its last row. The identifier and the digests are computed here, too.
"""
import hashlib
import re
import sys

SECTION = "## One image, byte by byte\n"
ROW = re.compile(r'    0x([0-9a-f]{4})  (?:"([^"]+)"|((?:[0-9a-f]{2} )*[0-9a-f]{2}))(?:  |$)')
UUID, SIGNATURE, DIGESTS, DIGEST, PAGE = 0x250, 0x8100, 0x817C, 32, 4096


def fail(text):
    sys.exit("annotated: " + text)


def rows(page):
    """The rows of the section, as places with bytes."""
    section = page.split(SECTION)[1].split("\n## ")[0]
    for line in section.split("\n"):
        row = ROW.match(line)
        if row:
            yield int(row.group(1), 16), row.group(2).encode() if row.group(2) else bytes.fromhex(row.group(3))
        elif line.startswith("    0x"):
            fail(f"a row that can't be read: {line}")


def identifier(inputs):
    """The UUID of inputs (RFC 4122: a version and a variant stand in two of its bytes)."""
    digest = bytearray(hashlib.sha256(b"".join(inputs)).digest()[:16])
    digest[6] = digest[6] & 0x0F | 0x30
    digest[8] = digest[8] & 0x3F | 0x80
    return bytes(digest)


def main(page, image, inputs):
    told = bytearray(len(image))
    behind = 0
    for place, text in rows(page):
        if place < behind:
            fail(f"the row at {place:#06x} begins inside the one before it")
        behind = place + len(text)
        told[place:behind] = text
    if behind != len(image):
        fail(f"the rows end at {behind:#x}, the image at {len(image):#x}")
    for place, (want, have) in enumerate(zip(told, image)):
        if want != have:
            fail(f"at {place:#06x} the page says {want:02x}, the image has {have:02x}")
    if image[UUID:UUID + 16] != identifier(inputs):
        fail("the UUID is not that of the inputs")
    for number, place in enumerate(range(0, SIGNATURE, PAGE)):
        at = DIGESTS + DIGEST * number
        if image[at:at + DIGEST] != hashlib.sha256(image[place:min(place + PAGE, SIGNATURE)]).digest():
            fail(f"page {number} has another digest")
    print(f"annotated: {len(image)} bytes are as docs/FORMATS.md says")


if __name__ == "__main__":
    files = []
    for path in sys.argv[2:]:
        with open(path, "rb") as file:
            files.append(file.read())
    with open(sys.argv[1], encoding="utf-8") as file:
        main(file.read(), files[0], files[1:])
