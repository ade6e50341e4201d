"""Reads formulas of the modal mu-calculus with regular modalities, as mCRL2 writes them, and makes them
games' subformulas.

Of mCRL2's formulas those without data are read: no val(..), no quantifiers, no time, and no parameters of
fixed points. An action is compared with the label's text.
"""

# mypy: ignore-errors

import re

from . import Refused, called, deep, shown
from .texts import FROM_THE_RIGHT, Tokens, blanked, kinds

OPERATORS = ("=>", "||", "&&")
VALUES = ("true", "false")
FIXED_POINTS = ("mu", "nu")
NOT_READ = ("val", "forall", "exists", "delay", "yaled", "nil")
QUOTED_OR_COMMENT = re.compile(r'"[^"]*"|%.*')
DATA = re.compile(r"\s*\(")
BRACKET = re.compile(r"(\()|\)")
# what is no set of actions
REGULAR = ("+", ".", "*", "plus")
NAME_LENGTH = 60
# (the tree of a formula takes up to 240 bytes for each)
MOST_CHARACTERS = 1 << 18
# so many signs * and + may stand in a row
MOST_REPEATED = 1000


def spelled(label):
    """A label, or an action of a formula, with blanks only between words, and with the actions of a
    multi-action in order.
    """
    parts, depth = [], 0
    for it in re.findall(r"[()|]|[^()|]+", re.sub(r"(?<![\w']) | (?![\w'])", "", " ".join(label.split()))):
        depth += (it == "(") - (it == ")")
        parts.append("\n" if it == "|" and not depth else it)
    return "|".join(sorted("".join(parts).split("\n")))


def chained(operator, at, left, right):
    first, after = (right, left) if operator in FROM_THE_RIGHT else (left, right)
    sides = first[2] if first[0] == operator else [first]
    sides.append(after)
    return operator, at, sides


class Parser(Tokens):
    """Reads a formula: a tree (operator, place, ..), in which negations and implications still stand.

    What a modality has in its brackets is a tree (operator, text, ..). Its leaves are actions, quoted
    labels, true and false. A chain, which may be long, is one tree; what joins from the right has its last
    side first.
    """

    pattern = kinds(
        blank=r"\s+", sign=r"&&|\|\||=>|[!.()<>\[\]*+|]", label='"[^"]*"', word="[A-Za-z_0-9][A-Za-z_0-9']*"
    )
    same = {"and": "&&", "or": "||", "not": "!"}

    def __init__(self, name, text):
        if len(text) > MOST_CHARACTERS:
            raise Refused(f"{called(name)}: a formula has at most {MOST_CHARACTERS:,} characters")
        # a comment is as good as blanks
        super().__init__(name, blanked(text, QUOTED_OR_COMMENT))

    def end_of(self, found):
        if found["word"] in NOT_READ:
            self.refuse(f"{found[0]} is not read: only formulas without data and time are", found.start())
        data = DATA.match(self.text, found.end())
        if not data or not found["word"] or found[0] in (*self.same, *VALUES, *FIXED_POINTS):
            return found.end()
        # an action's data are taken as they are
        return self.end_of_nested(BRACKET, data.end() - 1)

    def whole(self):
        tree = self.formula()
        return self.wants("the end of the formula") if self.next else tree

    def formula(self):
        return self.chain(OPERATORS, self.unary, chained)

    def unary(self):
        at = self.at()
        if self.takes("!"):
            return "!", at, self.inside(self.unary)
        if self.takes("("):
            tree = self.inside(self.formula, 7)
            self.take(")")
            return tree
        for begins, ends in ("<>", "[]"):
            if self.takes(begins):
                within = self.regular()
                self.take(ends)
                return begins, at, within, self.inside(self.unary)
        if self.next_is(*VALUES):
            return self.take(*VALUES).text, at
        if self.next_is(*FIXED_POINTS):
            operator, name = self.take(*FIXED_POINTS).text, self.variable("a variable")
            self.take(".")
            return operator, at, name, self.inside(self.formula, 7)
        return "variable", at, self.variable("a formula")

    def word(self, wanted):
        return self.take("a word") if self.next_is("a word") else self.wants(wanted)

    def variable(self, wanted):
        name = self.word(wanted).text
        if name in (*VALUES, *FIXED_POINTS) or name[0].isdigit():
            self.refuse(f"{shown(name)} can't be a variable", self.done - len(name))
        if "(" in name:
            self.refuse(
                "a fixed point with parameters is not read: only formulas without data are",
                self.done - len(name),
            )
        return name

    # --- what modalities have in their brackets ---

    def since(self, at):
        """The text from there to here, with single blanks, as long as names show it."""
        return " ".join(self.text[at : min(self.done, at + 4 * NAME_LENGTH)].split())

    def regular(self):
        return self.chain(("+", "."), self.repeated, self.joined)

    def repeated(self):
        at, tree, depth = self.at(), self.chain(OPERATORS, self.action, self.joined), 0
        while self.next_is("*") or self.next_is("+") and not self.goes_on():
            depth += 1
            if depth > MOST_REPEATED:
                self.refuse("nested too deeply")
            operator = "*" if self.take("*", "+").text == "*" else "plus"
            tree = operator, self.since(at), tree
        return tree

    def goes_on(self):
        """Whether something follows the next token that it joins."""
        after = self.token(self.next.end)
        return after and (after.text in ("!", "(") or after.kind in ("a word", "a label"))

    def joined(self, operator, at, left, right):
        for it in (left, right):
            if operator in OPERATORS and it[0] in REGULAR:
                self.refuse(f"{operator} joins sets of actions, and {shown(it[1])} is none", at)
        return chained(operator, self.since(at), left, right)

    def action(self):
        at = self.at()
        if self.takes("!"):
            tree = self.inside(self.action)
            if tree[0] in REGULAR:
                self.refuse(f"! is for a set of actions, and {shown(tree[1])} is none", at)
            return "!", self.since(at), tree
        if self.takes("("):
            operator, _, *parts = self.inside(self.regular, 11)
            self.take(")")
            return operator, self.since(at), *parts
        if self.next_is("a label"):
            label = self.take("a label").text
            return "label", label, label[1:-1]
        if self.next_is(*VALUES):
            return self.take(*VALUES).text, self.since(at)
        self.word("an action")
        while self.takes("|"):
            self.word("an action")
        return "action", self.since(at), spelled(self.text[at : self.done])


class Labels:
    """The labels of a model, by their numbers. A set of them is a number that has their bits."""

    def __init__(self, labels):
        self.numbers, self.spelled = {}, {}
        for label in labels:
            if label not in self.numbers:
                number = self.numbers[label] = len(self.numbers)
                self.spelled.setdefault(spelled(label), []).append(number)
        self.all = (1 << len(self.numbers)) - 1

    def taken(self, tree):
        operator, _, *parts = tree
        if operator in VALUES:
            return self.all if operator == "true" else 0
        if operator == "!":
            return self.all & ~self.taken(*parts)
        if operator == "label":
            return 1 << self.numbers[parts[0]] if parts[0] in self.numbers else 0
        if operator == "action":
            return sum(1 << it for it in self.spelled.get(parts[0], ()))
        found, *others = map(self.taken, parts[0])
        for it in others:
            it = self.all & ~it if operator == "=>" else it
            found = found & it if operator == "&&" else found | it
        return found


def turned_sides(operator, sides):
    """The sides of a chain, and whether a negation is before each: of => before all but the last, which is
    first.
    """
    return [(it, operator == "=>" and at > 0) for at, it in enumerate(sides)]


def named(tree):
    """The leaves that name an action in what a modality has in its brackets, but for those under an odd
    number of negations.
    """
    waiting, found = [(tree, False)], []
    while waiting:
        tree, negated = waiting.pop()
        operator, _, *parts = tree
        if operator in ("label", "action"):
            found += [] if negated else [tree]
        elif operator not in VALUES:
            is_chain = isinstance(parts[0], list)
            sides = turned_sides(operator, parts[0]) if is_chain else [(parts[0], operator == "!")]
            sides = [(it, negated != turned) for it, turned in sides]
            waiting += sides if operator in FROM_THE_RIGHT else sides[::-1]
    return found


DUAL = {"true": "false", "&&": "||", "<": "[", "mu": "nu"}
DUAL.update({value: key for key, value in DUAL.items()})


def greatest_of(some, others):
    """Both, and of what both have the greater value."""
    most, few = (some, others) if len(some) > len(others) else (others, some)
    return {**most, **{it: max(value, most.get(it, 0)) for it, value in few.items()}}


class Formula:
    """A formula without negations, as a list of subformulas (operator, priority, set of actions, parts), and
    the first one's number.

    A variable is no subformula of its own: where it is a part, its fixed point is. A fixed point's priority
    is the least that is odd for mu and even for nu, and no less than that of each fixed point inside it in
    which its variable is free: so it is as great as the formula's alternations ask for, and the greatest
    that is seen again and again is that of the outermost fixed point that is. A regular modality becomes
    plain ones by its fixed points, as <R*>F = mu X. (F || <R>X).
    """

    def __init__(self, name, text):
        self.parser = Parser(name, text)
        self.parts, self.texts = [], []
        # what the modalities have in their brackets, by their places
        self.regulars = {}
        with deep():
            self.first, *_ = self.add(self.parser.whole(), False, {})

    def new(self, operator=None, text="", parts=(), actions=None, number=None):
        """Adds a subformula of some parts: its number, its text, and of each fixed point whose variable is in
        it the greatest priority of those around the variable.
        """
        if number is None:
            number = len(self.parts)
            self.parts.append(None)
            self.texts.append(None)
        priority, free = int(operator == "false"), parts[0][2] if parts else {}
        for _, _, others in parts[1:]:
            free = free if free is others else greatest_of(free, others)
        if operator in FIXED_POINTS:
            priority = free.get(number, 0)
            priority += (priority + (operator == "mu")) % 2
            free = {it: max(inside, priority) for it, inside in free.items() if it != number}
        if operator:
            self.parts[number] = operator, priority, actions, [part for part, _, _ in parts]
            self.texts[number] = text if len(text) <= NAME_LENGTH else text[: NAME_LENGTH - 2] + ".."
        return number, self.texts[number], free

    def add(self, tree, negated, scope):
        operator, at, *rest = tree
        if operator == "!":
            return self.add(rest[0], not negated, scope)
        if operator == "variable":
            return self.variable(at, rest[0], negated, scope)
        kind, operator = operator, "||" if operator == "=>" else operator
        operator = DUAL[operator] if negated else operator
        if operator in ("<", "["):
            self.regulars[at] = rest[0]
            return self.step(operator, rest[0], self.add(rest[1], negated, scope))
        if operator in FIXED_POINTS:
            number, *_ = self.new()
            part = self.add(rest[1], negated, {**scope, rest[0]: (number, negated)})
            return self.new(operator, f"{operator} {rest[0]}. {part[1]}", [part], number=number)
        if operator in VALUES:
            return self.new(operator, operator)
        sides = [self.add(it, negated != turned, scope) for it, turned in turned_sides(kind, rest[0])]
        return self.join(operator, sides, kind in FROM_THE_RIGHT)

    def join(self, operator, sides, from_the_right=False):
        found, *others = sides
        for it in others:
            left, right = (it, found) if from_the_right else (found, it)
            found = self.new(operator, f"({left[1]} {operator} {right[1]})", [left, right])
        return found

    def step(self, modality, regular, after):
        """Adds a modality before a subformula that was added."""
        operator, text, *parts = regular
        join, fixed = ("||", "mu") if modality == "<" else ("&&", "nu")
        if operator == "+":
            return self.join(join, [self.step(modality, it, after) for it in parts[0]])
        if operator == ".":
            for it in parts[0]:
                after = self.step(modality, it, after)
            return after
        text = (f"<{text}> " if modality == "<" else f"[{text}] ") + after[1]
        if operator not in REGULAR:
            return self.new(modality, text, [after], regular)
        number, *_ = self.new()
        again = number, text, {number: 0}
        if operator == "*":
            part = self.join(join, [after, self.step(modality, parts[0], again)])
        else:
            part = self.step(modality, parts[0], self.join(join, [after, again]))
        return self.new(fixed, text, [part], number=number)

    def variable(self, at, name, negated, scope):
        if name not in scope:
            self.parser.refuse(f"the variable {shown(name)} is not bound by mu or nu", at)
        number, inside = scope[name]
        if inside != negated:
            self.parser.refuse(
                f"the variable {shown(name)} is under an odd number of negations inside its fixed point", at
            )
        return number, name, {number: 0}
