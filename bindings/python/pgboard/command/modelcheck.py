"""Says whether a formula of the modal mu-calculus holds in a transition system.

The model is a labelled transition system in the Aldebaran format, and the
formula is asked of its first state. Whether it holds is a parity game
(Emerson, Jutla and Sistla 1993): a vertex is a state and a subformula, Even
shows that the subformula holds there, and Odd that it does not. pgboard solves
the game and verifies the solution. Then `true` or `false` is written. The size
of the game is written before, to standard error.
"""

# mypy: ignore-errors

import os
import re
import sys

from . import Refused, engine, pictures, shown, working, write
from .formulas import Formula, Labels, named
from .games import MOST_VERTICES, Game
from .texts import Text, texts_of

HELP = """
formulas, as mCRL2 writes them, from what binds least to what binds most:
  mu X. F   nu X. F   the least, the greatest fixed point; as far as can be
  F => G    F || G    F && G    !F
  <R> F     [R] F     F after some, after each sequence of transitions of R
  true      false     X         (F)
R is one of
  A   R + R   R . R   R*   R+   (R)       the choice, one after the other, any
                                          number, any number but none
and A, a set of actions, one of
  a   !A   A && A   A || A   A => A   true   false   (A)
An action a is a label without blanks: a name, with data in brackets where the
label has some, or several joined by |. A label of another form stands between
double quotes. A variable stands under an even number of negations inside its
fixed point. The words or, and, not are the same as ||, && and !. % begins a
comment that ends with its line. At most 262,144 characters are read.

Standard error names each action that is no label of the model, since it may be
a typing error, but neither tau nor an action that inside its brackets stands
under an odd number of negations. The left side of => counts as one.

example, that two processes are never inside at a time, and that the first one
who asks doesn't wait for ever:
  model=examples/modelcheck/mutex.aut
  python3 -m pgboard modelcheck $model \\
      '[true*.enter_1.(!leave_1)*.enter_2] false'
  python3 -m pgboard modelcheck --picture wait.svg $model \\
      '[ask_1] mu X. (<true> true && [!enter_1] X)'

status: 0 where the formula holds, 1 where it doesn't, 2 or more where
something was refused
"""

MOST_STATES = 1 << 31
# blanks, but no line feed
BLANK = r"[^\S\n]*"
NUMBER, STATE = f"{BLANK}([0-9]+){BLANK}", f"{BLANK}([0-9]{{1,10}}){BLANK}"
LABEL = r'"[^"\n]*"|[^\s",](?:[^",\n]*[^\s",])?'
HEAD = re.compile(rf"\s*des{BLANK}\({NUMBER},{NUMBER},{NUMBER}\){BLANK}(?:\n|\Z)")
LINE = rf"{BLANK}\({STATE},(?:{BLANK}({LABEL}))?{BLANK},{STATE}\){BLANK}"
TRANSITION, TRANSITIONS, GIVEN = re.compile(LINE), re.compile(f"(?m)^{LINE}$"), re.compile(r"\S[^\n]*")
# what a word may be that is meant as a file's name
FILE_NAME = re.compile(r"[\w./~-]*(/[\w.-]+|\w\.[a-z]\w*)")
# after so many vertices their number is looked at
MANY = 1 << 16


class Model(Text):
    """A labelled transition system: of each state its transitions, (label, state)."""

    def __init__(self, path, text):
        super().__init__(path, text)
        head = HEAD.match(text)
        if not head:
            begins = re.search(r"\S|$", text).start()
            self.refuse("not of the form: des (first state, transitions, states)", begins)
        self.first, count, self.states = (int(it.lstrip("0")[:99] or 0) for it in head.groups())
        if self.states > MOST_STATES:
            self.refuse("too many states: at most 2147483648", head.start(3))
        self.check(head.start(1), self.first)
        self.next, kept, read, greatest = {}, {}, 0, 0
        for found in TRANSITIONS.finditer(text, head.end()):
            state, label, to = int(found[1]), found[2] or "", int(found[3])
            label = kept.setdefault(label, label[1:-1] if label[:1] == '"' else label)
            self.next.setdefault(state, []).append((label, to))
            read, greatest = read + 1, max(greatest, state, to)
        given = sum(1 for _ in GIVEN.finditer(text, head.end()))
        if read != given or greatest >= self.states:
            self.refuse_line(head.end())
        if count != given:
            self.refuse(f"{count} transitions are announced, and {given} follow", head.start(2))

    def refuse_line(self, at):
        """Refuses the first line that is no transition of these states."""
        for line in GIVEN.finditer(self.text, at):
            begins = self.text.rfind("\n", 0, line.start()) + 1
            found = TRANSITION.fullmatch(self.text, begins, line.end())
            if not found:
                self.refuse('not of the form: (state, "label", state)', line.start())
            self.check(found.start(1), int(found[1]))
            self.check(found.start(3), int(found[3]))

    def check(self, at, state):
        if state >= self.states:
            self.refuse(f"there is no state {state}, since there are {self.states}, from 0", at)


class Product:
    """The game of a model and a formula; a vertex is a state times the number of subformulas, plus a
    subformula's number.
    """

    def __init__(self, model, formula):
        self.model, self.formula, self.count = model, formula, len(formula.parts)
        labels = Labels(label for moves in model.next.values() for label, _ in moves)
        # what the formula names and no label is; without `tau`, which a model need not have
        leaves = [it for _, regular in sorted(formula.regulars.items()) for it in named(regular)]
        self.unknown = dict.fromkeys(it[1] for it in leaves if not labels.taken(it) and it[2] != "tau")
        # (by this name another tool writes it)
        has_i = "i" in labels.numbers and "tau" not in labels.numbers
        self.means_i = has_i and any(it[2] == "tau" for it in leaves)
        # of each modality its labels, and None of another subformula; equal sets are one
        self.numbers, known = labels.numbers, {}
        bits = lambda actions: labels.taken(actions).to_bytes(len(labels.numbers) // 8 + 1, "little")
        taken = (actions and bits(actions) for _, _, actions, _ in formula.parts)
        self.taken = [known.setdefault(it, it) for it in taken]
        self.vertices = [model.first * self.count + formula.first]
        with working("makes the game") as self.work:
            self.moves = list(self.found())

    def moves_of(self, state, part):
        """The transitions of a state that a modality looks at."""
        taken, moves = self.taken[part], self.model.next.get(state, ())
        numbers = (self.numbers[label] for label, _ in moves)
        return [it for it, number in zip(moves, numbers) if taken[number >> 3] >> (number & 7) & 1]

    def found(self):
        """Finds the vertices that are reached, and gives for each the row (priority, owner, successors'
        numbers).

        Where a modality has no transition, some has failed and each holds: the vertex is lost or won by
        staying.
        """
        vertices, count, numbers = self.vertices, self.count, {self.vertices[0]: 0}
        kinds = []
        for operator, priority, actions, parts in self.formula.parts:
            owner, lost = int(operator in ("&&", "[")), int(operator == "<")
            kinds.append((priority, owner, list(dict.fromkeys(parts)), lost, actions))
        for vertex in vertices:  # which grow on the way
            state, part = divmod(vertex, count)
            priority, owner, parts, lost, actions = kinds[part]
            if actions is None:
                successors = [vertex - part + it for it in parts] or [vertex]
            else:
                ends = dict.fromkeys(to for _, to in self.moves_of(state, part))
                successors = [to * count + parts[0] for to in ends] or [vertex]
                priority = priority if ends else lost
            for to in successors:
                if to not in numbers:
                    numbers[to] = len(numbers)
                    vertices.append(to)
                    if len(numbers) % MANY == 0:
                        self.check_size()
            yield priority, owner, [numbers[to] for to in successors]
        self.check_size()

    def check_size(self):
        self.work[0] = f"makes the game: {len(self.vertices):,} vertices"
        if len(self.vertices) > MOST_VERTICES:
            raise Refused(f"the game has more than {MOST_VERTICES:,} vertices")

    @property
    def rows(self):
        """The rows of the game, with names that say state and subformula."""
        texts = self.formula.texts
        return [
            (*row, f"{vertex // self.count}: {texts[vertex % self.count]}")
            for vertex, row in zip(self.vertices, self.moves)
        ]

    def evidence(self, solution):
        """The transitions that the winner's strategy reaches, whatever the opponent does, each once.

        The winner of the first vertex keeps to his choices there too: in that part of the model the answer
        is the same.
        """
        winner = solution[0][0]
        reached, seen, found = [0], {0}, {}
        for at in reached:
            state, part = divmod(self.vertices[at], self.count)
            _, owner, successors = self.moves[at]
            to = [solution[at][1]] if owner == winner else successors
            if self.taken[part] is not None:
                ends = {self.vertices[it] // self.count for it in to}
                moves = [it for it in self.moves_of(state, part) if it[1] in ends]
                found.update(((state, *move), None) for move in moves[: 1 if owner == winner else None])
            reached.extend(it for it in to if it not in seen)
            seen.update(to)
        return sorted(found)


def aldebaran(model, transitions):
    head = f"des ({model.first}, {len(transitions)}, {model.states})\n"
    return head + "".join(f'({state}, "{label}", {to})\n' for state, label, to in transitions)


def draw(path, model, transitions):
    states = sorted({model.first, *(state for state, _, _ in transitions), *(to for _, _, to in transitions)})
    arrows = ((state, to, label) for state, label, to in transitions)
    pictures.draw_machine(path, len(states), model.first, arrows, states)


def add_options(parser):
    parser.add_argument("model", metavar="MODEL.aut", help="a model; - is standard input")
    parser.add_argument(
        "formula",
        metavar="FORMULA",
        help="a formula, or a file of one that ends in .mcf; - is standard input",
    )
    parser.add_argument(
        "--evidence", metavar="FILE", help="write the part of the model that the winner's strategy reaches"
    )
    pictures.add_option(parser, "that part")
    parser.add_argument("--game", metavar="FILE", help="write the game, whose names say state and subformula")


def formula_of(word, text):
    if text is not None:
        return Formula(word, text)
    try:
        return Formula("formula", word)
    except Refused as refused:
        if os.path.isfile(word) or FILE_NAME.fullmatch(word):
            said = "the name of a formula's file ends in .mcf, or it is - for standard input"
            refused.args = (f"{refused}; {said}",)
        raise


def main(given):
    is_file = given.formula == "-" or given.formula.endswith(".mcf")
    texts = texts_of(given.model, *([given.formula] if is_file else []))
    formula = formula_of(given.formula, texts[1] if is_file else None)
    product = Product(Model(given.model, texts[0]), formula)
    edges = sum(len(it[2]) for it in product.moves)
    print(f"pgboard: size of the game: vertices {len(product.moves):,}, edges {edges:,}", file=sys.stderr)
    if given.game is not None:
        write(given.game, Game.of_rows(product.rows).written())
    for it in product.unknown:
        print(f"pgboard: the model has no label {shown(it)}", file=sys.stderr)
    if product.means_i:
        print("pgboard: the model has no label tau: its label i may be meant", file=sys.stderr)
    solution = engine.solved(Game.of_rows(product.moves)).solution.rows
    print("false" if solution[0][0] else "true", flush=True)
    is_drawn = given.evidence is not None or given.picture
    transitions = product.evidence(solution) if is_drawn else []
    if given.evidence is not None:
        write(given.evidence, aldebaran(product.model, transitions))
    if given.picture:
        draw(given.picture, product.model, transitions)
    return solution[0][0]

