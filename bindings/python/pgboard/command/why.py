"""What stands behind a line by which the program refuses a text: its place with a mark and, where it is known,
the cure; or what kind of file it is that Python's part reads. The script ./pgboard asks by the internal word
`why`, which takes the program's line, the file's path, and `true` where it can have Python's part read the file.
"""

# mypy: ignore-errors

import os
import re
import sys

from ..places import characters, place_of_vertex
from . import Refused
from .listings import HEAD
from .texts import UTF_16, packed_by

FAULT = re.compile(r"pgboard: (game|solution): ((?:byte|vertex) (\d+): )?(.*)")
AGAIN, AT_BYTE = ("specified twice", "written twice"), ("no token", "not expected")
# what only the Python command reads, by how the text begins
FORMS = {
    rb"\xef\xbb\xbf": "a byte order mark begins this text",
    rb"\s*HOA:": "this is the HOA format",
    rb"\s*(?:min|max)-?parity\b": "this header says which priority decides",
}
OTHER = {"game": (rb"\s*paritysol\b", "this is a solution"), "solution": (rb"\s*parity\b", "this is a game")}
ROW_WITHOUT_SUCCESSOR = re.compile(rb"(?:\A|;)\s*([0-9]+)\s+[0-9]+\s+[01]\s*\Z")


def main(words):
    said, path, may_read = words
    fault = FAULT.fullmatch(said.strip().rpartition("\n")[2])
    if not fault or not os.path.isfile(path):
        return
    with open(path, "rb") as file:
        data = file.read()
    is_byte = fault[2] and fault[2].startswith("byte") and fault[4] in AT_BYTE
    kind = kind_of(data, fault[1], int(fault[3])) if is_byte else None
    if kind and may_read == "true":
        print(kind)
    else:
        sys.stderr.write(refused(fault, path, data, kind).said("pgboard"))


def kind_of(data, asked, at):
    """What only Python's part reads, of which the program refuses a byte; None where it is nothing of that."""
    if packed_by(data):
        return f"this is a file that {packed_by(data)} has packed"
    if asked == "solution" and HEAD.search(data[: 1 << 20].decode("utf-8", "surrogateescape")):
        return "this is a solver's listing"
    found = (it for form, it in FORMS.items() if re.match(form, data))
    return next(found, "this is a comment" if data.startswith((b"#", b"//"), at) else None)


def refused(fault, path, data, kind):
    """Where a text is refused."""
    asked, where, number, why = fault.groups()
    at = int(number) if where and where.startswith("byte") else None
    if at is None and where:
        to = re.search(r"successor (\d+)", why)
        at = place_of_vertex(data, int(number), why in AGAIN, to and int(to[1]))
        why = where + why
    is_utf_16 = data.startswith((b"\xff\xfe", b"\xfe\xff"))
    if at is None or is_utf_16 or packed_by(data):
        return Refused(f"{path}: {kind or (UTF_16 if is_utf_16 else why)}")
    cure = kind or (cure_of(data, asked, at, why) if why in AT_BYTE else None)
    text = data.decode("utf-8", "surrogateescape")
    return Refused(f"{why}: {cure}" if cure else why, place=(path, text, characters(data, 0, at)))


def cure_of(data, kind, at, why):
    """What is meant by what stands at a byte, or what lacks there; None where it is not known."""
    before = data[:at].rstrip()
    form, other = OTHER[kind]
    if re.match(form, data):
        return other
    if re.compile(rb"[A-Za-z]").match(data, at):
        return "no such word begins a line"
    if at >= len(data.rstrip()):
        return "the text ends too early"
    if data[at : at + 1] == b'"':
        return "this quote is never closed" if why == "no token" else None
    alone = ROW_WITHOUT_SUCCESSOR.search(before[before.rfind(b";", 0, -1) + 1 :])
    if kind == "game" and data[at : at + 1] in b';"' and alone:
        return f"vertex {int(alone[1])} has no successor: with --dead-ends its owner loses there"
    if b"\n" in data[len(before) : at] and before[-1:] not in (b";", b""):
        return "there is no ; before this line"
    return None
