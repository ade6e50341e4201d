"""Listings of solutions, as PGSolver and Oink print them.

A part of a listing begins with `Player 0 wins from nodes:` or `won by even:`. There follow vertices and moves
as `0->1`, to the end of the line; or vertices in braces, and moves in brackets, also on lines of their own.
Lines between parts are passed over, unless they begin as a part does and name no player.
"""

# mypy: ignore-errors

import re

from .games import NUMBER, TOKEN, Solution
from .texts import Text

BEGINS = r"[^\w\n]*(?:won by|(?:player|winner)(?=[^\w\n]*(?:0|1|even|odd|\w+[^\w\n]*(?:wins|:))\b))[^\w\n]*(\w*)"
HERE, HEAD = re.compile(f"(?i){BEGINS}"), re.compile(f"(?im)^{BEGINS}")
WINS = re.compile(r"(?i)(?:[ \t]+wins)?(?:[ \t]+from)?(?:[ \t]+nodes)?:?")
STRATEGY, BLANK, SPACE = re.compile("(?i)with[ \t]+strategy:?"), re.compile(r"\s*"), re.compile(r"[^\S\n]*")
PLAYERS = {"0": 0, "even": 0, "1": 1, "odd": 1}
ENDS = re.compile(r"[ \t\r]*(?:\n|\Z)")


class Listing(Text):
    """The rows of a listing, as they are read."""

    def __init__(self, path, text):
        super().__init__(path, text)
        # what may stand between tokens here
        self.solution, self.at, self.blank = Solution({}, path, text), 0, BLANK
        head = HEAD.search(text)
        while head:
            if head[1].lower() not in PLAYERS:
                self.expect("a player: 0, 1, even or odd", head.start(1), head.end(1))
            self.at = WINS.match(text, head.end()).end()
            self.part(PLAYERS[head[1].lower()])
            # (another part may stand on the same line)
            head = HERE.match(text, self.at)
            if not head and not self.takes(ENDS):
                self.wants("the end of the line")
            head = head or HEAD.search(text, self.at)

    def takes(self, pattern):
        """What stands here in this form, which is passed."""
        found = pattern.match(self.text, self.at)
        self.at = found.end() if found else self.at
        return found

    def sign(self, text):
        """Whether a sign comes next, which is passed."""
        self.takes(self.blank)
        begins = self.text.startswith(text, self.at)
        self.at += len(text) * begins
        return begins

    def wants(self, what):
        at = self.blank.match(self.text, self.at).end()
        self.expect(what, at, TOKEN.match(self.text, at).end())

    def part(self, player):
        begins, self.blank = self.at, BLANK
        if self.sign("{"):
            self.items(player, "}", self.vertex)
            begins = self.at
            self.takes(BLANK)
            if self.takes(STRATEGY) or self.text.startswith("[", self.at):
                if not self.sign("["):
                    self.wants("[")
                self.items(player, "]", self.move)
            else:
                self.at = begins
            return
        self.at, self.blank = begins, SPACE
        self.takes(SPACE)
        while self.text[self.at : self.at + 1].isdigit():
            at = self.vertex(player)
            if self.sign("->"):
                self.choose(player, at)
            self.sign(",")
            self.takes(SPACE)

    def items(self, player, closing, item):
        is_empty = True
        while not self.sign(closing):
            if not is_empty and not self.sign(",") and not self.text[self.at : self.at + 1].isdigit():
                self.wants(f"a comma or {closing}")
            item(player)
            is_empty = False

    def number(self):
        at = self.blank.match(self.text, self.at).end()
        found = NUMBER_HERE.match(self.text, at)
        if not found:
            self.wants("a vertex")
        self.at = found.end()
        return super().number(found[0], at), at

    def vertex(self, player):
        id, at = self.number()
        if id in self.solution.rows:
            twice = "twice" if self.solution.rows[id][0] == player else "for both players"
            self.refuse(f"vertex {id} is listed {twice}", at)
        self.solution.add(id, player, None, at)
        return id

    def move(self, player):
        id, at = self.number()
        winner, choice = self.solution.rows.get(id, (None, None))
        if winner != player or choice is not None:
            self.refuse(f"vertex {id} {'is not in the list' if winner != player else 'has two choices'}", at)
        if not self.sign("->"):
            self.wants("->")
        self.choose(player, id)

    def choose(self, player, id):
        self.solution.rows[id] = player, self.number()[0]


NUMBER_HERE = re.compile(NUMBER)
