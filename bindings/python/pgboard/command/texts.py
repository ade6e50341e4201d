"""Texts as files have them, packed or not; as statements, of which each has the same parts; and as tokens,
for grammars in which the next token says what begins there.
"""

# mypy: ignore-errors

import importlib
import io
import re
import shutil
import subprocess
import zlib
from typing import NamedTuple

from . import Refused, called, end, in_memory, pieces, read, shown, undone

# how packed files begin, and the command that unpacks them, or else a module does
PACKED = {b"\x1f\x8b": "gzip", b"BZh": "bzip2", b"\xfd7zXZ\0": "xz", b"\x28\xb5\x2f\xfd": "zstd"}
UTF_16 = "it is UTF-16: `iconv -f UTF-16 -t UTF-8` turns it into UTF-8"
# the greatest number
MOST = 2_147_483_647
# what brackets and signs before an operand take, as far as they are inside each other
MOST_CALLS = 8_000
# these operators join from the right, and all others from the left
FROM_THE_RIGHT = ("=>", ".")


def unpacked(path, data, kind):
    if kind == "zstd":
        if not shutil.which(kind):
            raise Refused(f"{called(path)}: the command zstd, which unpacks it, is not on the PATH")
        return by_zstd(path, data)
    module = importlib.import_module({"bzip2": "bz2", "xz": "lzma"}.get(kind, kind))
    try:
        return pieces(path, module.open(io.BytesIO(data)))
    except (OSError, EOFError, zlib.error, getattr(module, "LZMAError", OSError)) as error:
        raise Refused(f"{called(path)}: it can't be unpacked: {error}") from error


def by_zstd(path, data):
    with in_memory(data) as given, in_memory() as said:
        # (it ends with us, since then nobody reads its pipe)
        how = {"stdin": given, "stdout": subprocess.PIPE, "stderr": said}
        with undone(lambda: subprocess.Popen(["zstd", "-dc"], **how), end) as process:
            data = pieces(path, process.stdout)
            if process.wait():
                said.seek(0)
                why = said.read().decode(errors="replace").strip()
                raise Refused(f"{called(path)}: it can't be unpacked: {why}")
    return data


def packed_by(data):
    return next((kind for begins, kind in PACKED.items() if data.startswith(begins)), None)


def bytes_of(*paths):
    """The bytes of files, of which one may be standard input, unpacked."""
    if paths.count("-") > 1:
        raise Refused("- is standard input, which can't be two files", 2)
    for path in paths:
        data = read(path)
        kind = packed_by(data)
        data = unpacked(path, data, kind) if kind else data
        if kind and packed_by(data):
            raise Refused(f"{called(path)}: it is packed twice: unpack it once, by {kind}")
        yield data


def decoded(path, data):
    if data.startswith((b"\xff\xfe", b"\xfe\xff")):
        raise Refused(f"{called(path)}: {UTF_16}")
    return data.decode("utf-8", "surrogateescape").lstrip("\ufeff")


def texts_of(*paths):
    return [decoded(*it) for it in zip(paths, bytes_of(*paths))]


def text_of(path):
    return texts_of(path)[0]


def blanked(text, pattern):
    """The text with blanks in place of what a pattern finds, so that all places stay, but for what begins
    with a quote.
    """
    kept, at = [], 0
    for found in pattern.finditer(text):
        begins, ends = found.span()
        if text[begins] != '"':
            kept += text[at:begins], " " * (ends - begins)
            at = ends
    kept.append(text[at:])
    return "".join(kept)


class Text:
    def __init__(self, path, text):
        self.path, self.text = path, text

    def refuse(self, why, at):
        raise Refused(why, place=(self.path, self.text, at))

    def expect(self, wanted, begins, ends):
        """Refuses what stands between two places, since something else is expected."""
        found = shown(self.text[begins:ends])
        if not found:
            # (the line that lacks something is the last one that has something)
            begins, found = min(begins, len(self.text.rstrip())), "the end of the text"
        self.refuse(f"expected {wanted}, found {found}", begins)

    def number(self, digits, at):
        if len(digits) > 9:
            # (`int` refuses thousands of zeros)
            digits = digits.lstrip("0") or "0"
            if len(digits) > 10 or int(digits) > MOST:
                self.refuse("number too large", at)
        return int(digits)


class Statement:
    """A kind of statement: how it is spelled, and its parts, (what is expected, how it is spelled, whether it
    may be left out). Blanks may stand before each part, and it is taken as the first match has it.
    """

    blank = r"[ \t\r\n]*"
    # (a group in a repeat would take some 100 bytes for each number: they are looked at again for a comma before
    # no number, and for blanks between two)
    numbers, wrong = r"[0-9][0-9, \t\r\n]*", re.compile(r",(?!\s*[0-9])|(?<=[0-9])\s+(?=[0-9])")

    def __init__(self, *parts):
        self.parts = parts
        each = enumerate(parts, 1)
        spelled = (rf"(?:{self.blank}(?=({part}))\{at}){'?' * may_lack}" for at, (_, part, may_lack) in each)
        self.pattern = re.compile("".join(spelled))
        self.listed = next((at for at, it in enumerate(parts, 1) if it[1] == self.numbers), 0)

    def match(self, text, at):
        found = self.pattern.match(text, at)
        is_wrong = found and self.listed and self.wrong.search(found[self.listed] or "")
        return None if is_wrong else found

    def missing(self, text, at):
        """The place of the first part that is not there, where the statement begins, and what is expected."""
        begins = None
        for what, part, may_lack in self.parts:
            at = re.compile(self.blank).match(text, at).end()
            begins = at if begins is None else begins
            found = re.compile(part).match(text, at)
            if found:
                wrong = part == self.numbers and self.wrong.search(text, at, found.end())
                at = wrong.start() if wrong else found.end()
            elif not may_lack:
                return at, begins, what


class Token(NamedTuple):
    """A token's text and place, and its kind: `a` and the name of its group in the pattern."""

    text: str
    kind: str
    at: int
    end: int


def kinds(**spelled):
    """The pattern of tokens of these kinds; `blank` is none."""
    return re.compile("|".join(f"(?P<{kind}>{it})" for kind, it in spelled.items()), re.DOTALL)


class Tokens(Text):
    """The tokens of a text, found one after the other. What is wanted of a token is its text or its kind."""

    # of the kinds of tokens; and how a text may spell the text of another token
    pattern, same = None, {}

    def __init__(self, path, text):
        super().__init__(path, text)
        # the next token, or None; and where the last one that was taken ends
        self.next, self.done, self.depth = None, 0, 0
        self.next = self.token(0)

    def token(self, at):
        """The first token that begins at a place or after it, or None."""
        while at < len(self.text):
            found = self.pattern.match(self.text, at)
            if not found:
                self.refuse("no token begins here", at)
            begins, at = at, self.end_of(found)
            if found[0] in self.same:
                return Token(self.same[found[0]], "a sign", begins, at)
            if found.lastgroup != "blank":
                return Token(self.text[begins:at], f"a {found.lastgroup}", begins, at)
        return None

    def end_of(self, found):
        """Where a token ends of which the pattern has found the beginning."""
        return found.end()

    def end_of_nested(self, pattern, at):
        """Where that ends which begins there and may have its like inside; the pattern finds each beginning,
        as a group, and each end.
        """
        depth = 0
        for found in pattern.finditer(self.text, at):
            depth += 1 if found[1] else -1
            if not depth:
                return found.end()
        self.refuse(f"this {self.text[at]} is never closed", at)

    def refuse(self, why, at=None):
        super().refuse(why, self.at() if at is None else at)

    def at(self):
        """The place of the next token, or where the last one ends."""
        return self.next.at if self.next else self.done

    def next_is(self, *wanted):
        return bool(self.next) and (self.next.text in wanted or self.next.kind in wanted)

    def take(self, *wanted):
        """The next token, which has to be one that is wanted."""
        if not self.next_is(*wanted):
            self.wants(" or ".join(wanted))
        token = self.next
        self.done = token.end
        self.next = self.token(token.end)
        return token

    def takes(self, *wanted):
        """Takes the next token where it is one that is wanted, and says whether."""
        return bool(self.next_is(*wanted) and self.take(*wanted))

    def wants(self, wanted):
        self.expect(wanted, self.at(), self.next.end if self.next else self.at())

    def chain(self, operators, part, join):
        """What operators join, of which the first one binds least; `join` gets the operator, where its left
        side begins, and both.
        """
        if not operators:
            return part()
        operator, at, before = operators[0], self.at(), []
        left = self.chain(operators[1:], part, join)
        while self.takes(operator):
            begins = self.at()
            right = self.chain(operators[1:], part, join)
            if operator in FROM_THE_RIGHT:
                before.append((at, left))
                at, left = begins, right
            else:
                left = join(operator, at, left, right)
        for begins, it in reversed(before):
            left = join(operator, begins, it, left)
        return left

    def inside(self, part, calls=2):
        """What a part is inside what was begun, which takes so many calls, and is refused alike by each Python."""
        self.depth += calls
        if self.depth > MOST_CALLS:
            self.refuse("nested too deeply")
        found = part()
        self.depth -= calls
        return found
