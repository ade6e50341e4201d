"""Games and solutions of many tools as texts, and games that scripts make.

Games are max-parity games, in which player 0 is Even, whatever the text says: where the least priority
decides, p becomes K - p, for the least even K that is no less than any priority. A vertex without successors
that its owner loses gets an edge to itself.
"""

# mypy: ignore-errors

import re
from array import array

from . import TEXT, WORDS, Refused, called, deep, line_of, printable, working
from .texts import MOST, Statement, Text, blanked, text_of

MOST_VERTICES, MOST_EDGES = 1_048_576, 16_777_216
PLAYERS = ("Even", "Odd")
# (before a semicolon the name ends, and its last letter is a backslash)
NAME = rf'"(?:[^"]*"(?<!\\")|[\s\S]*?(?:(?<!\\)"|"(?={Statement.blank};)))'
NUMBER, PLAYER = "[0-9]+(?![0-9A-Za-z_])", "0*[01](?![0-9A-Za-z_])"
REST = ("", NAME, True), ("a semicolon", ";", False)
ID = "an identifier", NUMBER, False
PRIORITY = "a priority", NUMBER, False
VERTEX = Statement(ID, PRIORITY, ("an owner, 0 or 1", PLAYER, False), ("", Statement.numbers, True), *REST)
CHOICE = Statement(ID, ("a winner, 0 or 1", PLAYER, False), ("", NUMBER, True), *REST)
START, HEADER, SOLUTION_HEADER = (
    Statement(("", f"(?:{word})(?![a-z])", False), ("a number", NUMBER, False), REST[1])
    for word in ("start", "(?:min-?|max-?)?parity", "paritysol")
)
TOKEN = re.compile(r"[0-9]+|[A-Za-z]+|\S|$|\s")
# (a quote that is never closed begins none)
COMMENT = re.compile(rf'{NAME}|"[\s\S]*|(?:#|//)[^\n]*')
# what a text is that is no game or no solution, by how it begins, and what to do
FOREIGN = {
    VERTEX: {
        r"paritysol\b|[^;\n]*(?i:player [01] wins|won by )": "this is a solution, and a game has to be here: "
        "`convert --solution` reads it",
        "[pc] ": "this is a line of the DIMACS formats, which are not read",
    },
    CHOICE: {
        rf"HOA:|(?:start|m..-?parity|parity)\b|{NUMBER}\s+{NUMBER}\s+{PLAYER}\s+[0-9]": "this is a game, and a "
        "solution has to be here"
    },
}


def statements(text, *kinds):
    """The kinds and matches of a text's statements; those of the first kind begin with no word."""
    at, end = 0, len(text.text.rstrip(" \t\r\n"))
    while at < end:
        for kind in kinds:
            found = kind.match(text.text, at)
            if found:
                break
        else:
            refuse_statement(text, at, *kinds)
        yield kind, found
        at = found.end()


def refuse_statement(text, at, line, *headers):
    """Refuses the statement that begins at a place, for the first of its parts that is not there."""
    missing = [it.missing(text.text, at) for it in headers]
    at, begins, what = next((it for it in missing if it[0] > it[1]), line.missing(text.text, at))
    for beginning, why in FOREIGN[line].items() if not text.text[:begins].strip() else ():
        if re.compile(beginning).match(text.text, begins):
            text.refuse(why, begins)
    found = TOKEN.match(text.text, at)
    if found[0] == '"':
        text.refuse("this quote is never closed", at)
    if found[0].isdigit() and what.endswith(", 0 or 1"):
        text.refuse(f"{what.split()[1][:-1]} is not 0 or 1", at)
    if what == "a semicolon" and found[0] and "\n" in text.text[len(text.text[:at].rstrip()) : at]:
        text.refuse("there is no ; before this line", at)
    text.expect(what, at, found.end())


def without_comments(text):
    """The text with blanks in place of its comments, so that all places stay."""
    if "#" not in text and "//" not in text:
        return text
    return blanked(text, COMMENT)


def check_size(path, vertices, edges):
    if vertices > MOST_VERTICES or edges > MOST_EDGES:
        sizes = f"more than {MOST_VERTICES:,} vertices or {MOST_EDGES:,} edges"
        raise Refused(f"{called(path)}: {sizes}")


class Game:
    """A game: of each identifier (priority, owner, successors, name), in the order of the text, and where
    what it came from says so.
    """

    def __init__(self, rows=(), path="the game", text="", start=None):
        self.rows, self.edges, self.path, self.start = {}, 0, path, start
        # where rows begin, in their order
        self.places = array("I")
        self.source = Text(path, text)
        # what the text says of priorities, where it is not the game's; which of them decides; and the same of
        # vertices without successors, which have an edge to themselves here
        self.given, self.decides, self.dead = {}, "greatest", {}
        # the vertices of the states of a text in the HOA format
        self.states = {}
        for id, row in dict(rows).items():
            self.put(id, *row)

    @classmethod
    def of_rows(cls, rows):
        """A game with the vertices 0, 1 and so on, which starts in 0; a row may lack a name."""
        return cls({v: (*row, "")[:4] for v, row in enumerate(rows)}, start=0)

    @classmethod
    def of_text(cls, path, text, rules):
        game = cls((), path, text)
        game.read(rules.min, rules.odd, rules.dead_ends)
        return game

    def put(self, id, priority, owner, successors, name=""):
        self.rows[id] = priority, owner, successors, name
        self.edges += len(successors)
        check_size(self.path, len(self.rows), self.edges)

    def close(self, id):
        """Gives a vertex without successors an edge to itself: no walk leaves it, so its priority decides."""
        priority, owner, _, name = self.rows[id]
        self.dead[id] = self.given.get(id, priority)
        self.put(id, 1 - owner, owner, (id,), name)

    def successors(self, id):
        """Those that the text has."""
        return [] if id in self.dead else self.rows[id][2]

    def priority(self, id):
        """What the text says of it."""
        given = self.dead[id] if id in self.dead else self.given.get(id, self.rows[id][0])
        return "none" if given is None else given

    def arrays(self):
        """The identifiers in rising order, and for these vertices owners, priorities, where each one's
        successors begin, and all successors.
        """
        ids = sorted(self.rows)
        numbers = ids if ids[-1] == len(ids) - 1 else {id: v for v, id in enumerate(ids)}
        rows = [self.rows[id] for id in ids]
        starts, targets = array("I", [0]), array("I")
        for row in rows:
            targets.extend([numbers[it] for it in row[2]])
            starts.append(len(targets))
        owners, priorities = array("B", [row[1] for row in rows]), array("I", [row[0] for row in rows])
        return ids, owners, priorities, starts, targets

    def read(self, least, odd, closes):
        text = Text(self.path, without_comments(self.source.text))
        # what the header or a flag says that decides
        says = "min" if least else ""
        for kind, found in statements(text, VERTEX, START, HEADER):
            if kind is VERTEX:
                self.add(found)
            elif kind is START:
                self.set_start(found)
            elif self.rows:
                text.refuse("a header comes before all vertices", found.start(1))
            else:
                word = found[1][:3].replace("par", says)
                if says and word != says:
                    other = "--min" if least else "another one"
                    text.refuse(f"this header contradicts {other}", found.start(1))
                says = word
        for id in self.dead if not closes else ():
            self.refuse(id, f"vertex {id} has no successor: with --dead-ends its owner loses there")
        self.check()
        if says == "min" or odd:
            self.turn(says == "min", odd)
        for id in self.dead:
            self.close(id)

    def add(self, found):
        id, priority = number_of(self.source, found, 1), number_of(self.source, found, 2)
        owner, to, name = found.group(3, 4, 5)
        check_size(self.path, 0, (to or "").count(","))
        each = to.split(",") if to else [""]
        # (numbers of few digits are not too large)
        is_short = to and len(max(each, key=len)) < 10
        targets = [*(map(int, each) if is_short else self.numbers(found, to))]
        each.clear()
        if len(targets) > 1 and len(set(targets)) < len(targets):
            targets = dict.fromkeys(targets)
        if id in self.rows:
            self.source.refuse(f"vertex {id}: specified twice", found.start(1))
        self.places.append(found.start(1))
        self.put(id, priority, int(owner[-1]), tuple(targets), name[1:-1].replace('\\"', '"') if name else "")
        if not to:
            self.dead[id] = priority

    def numbers(self, found, to):
        for it in re.finditer("[0-9]+", to or ""):
            yield self.source.number(it[0], found.start(4) + it.start())

    def set_start(self, found):
        start = number_of(self.source, found, 2)
        if self.start not in (None, start):
            why = f"a second line `start` names another vertex than {self.start}"
            self.source.refuse(why, found.start(2))
        self.start = start

    def check(self):
        if not self.rows:
            raise Refused(f"{called(self.path)}: no vertex")
        for id, row in self.rows.items():
            for to in row[2]:
                if to not in self.rows:
                    self.refuse(id, f"vertex {id}: successor {to} is not specified", to)

    def turn(self, least, odd):
        """Makes the greatest priority decide, and Even win by even ones."""
        top = max(row[0] for row in self.rows.values())
        top += top % 2
        self.given = {id: row[0] for id, row in self.rows.items()}
        self.decides = "least" if least else "greatest"
        for id, (priority, *row) in self.rows.items():
            priority = (top - priority if least else priority) + odd
            if priority > MOST:
                self.refuse(id, f"the priority of vertex {id} would be above {MOST}")
            self.rows[id] = (priority, *row)

    def refuse(self, id, why, number=None):
        """Refuses the game for a vertex, or for a number of its line."""
        at = place_of(self.places, self.rows, id)
        if at is None:
            raise Refused(f"{called(self.path)}: {why}")
        if number is not None:
            found = VERTEX.match(without_comments(self.source.text), at)
            at = re.compile(rf"(?<![0-9])0*{number}(?![0-9])").search(found.string, found.start(4)).start()
        self.source.refuse(why, at)

    def called(self, id):
        name = self.rows[id][3].replace('"', '\\"')
        return printable(" ".join(f'{id} "{name}"'.split())) if name else str(id)

    def written(self):
        """The game's text in PGSolver's format; a name can't hold quotes, so they become single ones."""
        lines = [f"parity {max(self.rows)};\n", f"start {self.start};\n" * (self.start is not None)]
        for id, (priority, owner, to, name) in self.rows.items():
            quoted = ' "{}"'.format(name.replace('"', "'")) if name else ""
            lines.append(f'{id} {priority} {owner} {",".join(map(str, to))}{quoted};\n')
        return "".join(lines)


def place_of(places, rows, id):
    """Where the row of an identifier begins, of those of all rows, or None."""
    return places[list(rows).index(id)] if places and id in rows else None


def game_of(path, rules):
    return game_of_text(path, text_of(path), rules)


def game_of_text(path, text, rules):
    with deep(), working(f"reads {called(path)}"):
        return read_game(path, text, rules)


def read_game(path, text, rules):
    if not text.lstrip().startswith("HOA:"):
        return Game.of_text(path, text, rules)
    if rules.min or rules.odd:
        why = "--min and --odd are for a game in PGSolver's format: one in the HOA format says what decides"
        raise Refused(why, WORDS)
    from . import hoa

    return hoa.game_of(hoa.Automaton(path, text), rules.dead_ends)


def reached(start, expand):
    """The vertices that are reached from one, by their numbers, and their rows: (priority, owner,
    successors' numbers, name).

    `expand` gives the row of a vertex, with vertices as successors. A vertex is anything that a dictionary
    takes.
    """
    numbers, vertices, rows, edges = {start: 0}, [start], [], 0
    for vertex in vertices:  # which grows on the way
        priority, owner, successors, name = expand(vertex)
        for to in successors:
            if to not in numbers:
                numbers[to] = len(vertices)
                vertices.append(to)
        rows.append((priority, owner, [numbers[to] for to in dict.fromkeys(successors)], name))
        edges += len(rows[-1][2])
        check_size("the game", len(vertices), edges)
    return vertices, rows


# (one pair for all that have no choice)
ALONE = (0, None), (1, None)


class Solution:
    """Of some vertices (winner, choice or None), and where the text that it came from says so."""

    def __init__(self, rows, path="the solution", text=""):
        self.rows, self.path, self.text, self.places = rows, path, text, array("I")

    def add(self, id, winner, choice, at):
        if id not in self.rows:
            self.places.append(at)
        self.rows[id] = ALONE[winner] if choice is None else (winner, choice)
        if len(self.rows) > MOST_VERTICES:
            raise Refused(f"{called(self.path)}: more than {MOST_VERTICES:,} vertices")

    def line(self, id):
        return line_of(self.text, place_of(self.places, self.rows, id))

    def refuse(self, id, why, status=TEXT):
        at = place_of(self.places, self.rows, id)
        raise Refused(why, status, (self.path, self.text, at))

    def check(self, game, is_part=False):
        """Refuses what has other vertices than the game, or unless it is a part lacks one."""
        for id, (_, choice) in self.rows.items():
            for it in (id, choice):
                if it is not None and it not in game.rows:
                    self.refuse(id, f"vertex {it}: not in the game")
        for id in game.rows if len(self.rows) < len(game.rows) and not is_part else ():
            if id not in self.rows:
                raise Refused(f"{called(self.path)}: vertex {id}: not written")

    def written(self, names=None):
        """The text, by rising identifiers; with the names of a game's vertices after their lines."""
        lines = [f"paritysol {max(self.rows, default=0)};\n"]
        for id, (winner, choice) in sorted(self.rows.items()):
            name = names and names[id][3].replace('"', "'")
            lines.append(
                f"{id} {winner}{'' if choice is None else f' {choice}'}"
                + (f' "{name}";\n' if name else ";\n")
            )
        return "".join(lines)


def solution_of(path, text):
    """The solution of a text: of one `paritysol`, after lines for people, or of a listing as PGSolver and
    Oink print it.
    """
    begun = re.search(r"(?m)^[ \t]*paritysol\b", text)
    from . import listings

    if not begun and listings.HEAD.search(text):
        return listings.Listing(path, text).solution
    begins = begun.start() if begun else 0
    lines = re.sub(r"[^\n]+", lambda it: " " * len(it[0]), text[:begins]) + without_comments(text[begins:])
    source, solution = Text(path, text), Solution({}, path, text)
    for kind, found in statements(Text(path, lines), CHOICE, SOLUTION_HEADER):
        if kind is CHOICE:
            id, choice = number_of(source, found, 1), number_of(source, found, 3)
            if id in solution.rows:
                source.refuse(f"vertex {id}: written twice", found.start(1))
            solution.add(id, int(found[2][-1]), choice, found.start(1))
        elif solution.rows:
            source.refuse("a header comes before all lines", found.start(1))
    return solution


def number_of(text, found, group):
    return None if found[group] is None else text.number(found[group], found.start(group))
