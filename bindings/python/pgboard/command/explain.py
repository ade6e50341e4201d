"""Why a solution is none, in the vertices of the game."""

# mypy: ignore-errors

import re

from . import FILE, Refused, pictures
from .games import PLAYERS


class Claim:
    """A game, and who is said to win it, by which choices."""

    def __init__(self, game, solution):
        self.game, self.solution = game, solution

    def winner(self, id):
        return self.solution.rows[id][0]

    def choice(self, id):
        return self.solution.rows[id][1]

    def owner(self, id):
        return self.game.rows[id][1]

    def priority(self, id):
        return self.game.rows[id][0]

    def successors(self, id):
        return sorted(self.game.successors(id))

    def kept(self, id):
        """The successors to which a play may go on, where the winner of a vertex keeps to his choices."""
        return [self.choice(id)] if self.winner(id) == self.owner(id) else self.game.rows[id][2]

    def moves(self, id):
        return "chooses" if self.winner(id) == self.owner(id) else "may move to"

    def closed_walk(self, start):
        """A shortest closed walk of kept edges through a vertex, on which no priority is greater than the
        vertex's own.
        """
        before, reached = {}, [start]
        for id in reached:
            for to in self.kept(id):
                if (
                    to not in before
                    and self.priority(to) <= self.priority(start)
                    and self.winner(to) == self.winner(start)
                ):
                    before[to] = id
                    reached.append(to)
            if start in before:
                break
        if start not in before:
            raise Refused(f"no such closed walk leads through {start}", FILE)
        walk = [before[start]]
        while walk[-1] != start:
            walk.append(before[walk[-1]])
        return walk[::-1]


def cycle(claim, id):
    walk, game = claim.closed_walk(id), claim.game
    winner, other = PLAYERS[claim.winner(id)], PLAYERS[1 - claim.winner(id)]
    lines = [
        f"{winner} is said to win these vertices, "
        "and by the edges that are kept a play can go round them for ever:"
    ]
    edges = list(zip(walk, [*walk[1:], walk[0]]))
    for at, to in edges:
        mark = f"   <- the {game.decides}, and {other}'s" if at == id else ""
        lines.append(
            f"  {game.called(at)}: priority {game.priority(at)}, {PLAYERS[claim.owner(at)]} {claim.moves(at)} {to}{mark}"
        )
    return lines, edges


def leaving(claim, id, to):
    called, line, owner = claim.game.called, claim.solution.line, claim.owner(id)
    winner, other = PLAYERS[claim.winner(id)], PLAYERS[claim.winner(to)]
    lines = [
        f"{winner} is said to win {called(id)} (line {line(id)} of the solution), "
        f"and {other} {called(to)} (line {line(to)})."
    ]
    lines.append(f"  {id} -> {to}: {PLAYERS[owner]} owns {id}, and {claim.moves(id)} {to}")
    inside = [it for it in claim.successors(id) if claim.winner(it) == claim.winner(id)]
    lines.append(
        f"Successors of {id} that {winner} is said to win: {', '.join(map(called, inside)) or 'none'}"
    )
    return lines, [(id, to)]


def choosing(claim, id):
    choice, winner, called = claim.choice(id), PLAYERS[claim.winner(id)], claim.game.called
    line = f"Line {claim.solution.line(id)} of the solution says that {winner} wins {called(id)}, which {winner} owns"
    if id in claim.game.dead:
        return [f"{line}. It has no successor, so {winner} loses there."], [(id, id)]
    names = "names no choice" if choice is None else f"names {choice}, which is no successor"
    said = (f"{called(it)} (said to be {PLAYERS[claim.winner(it)]}'s)" for it in claim.successors(id))
    lines = [f"{line}, and {names}.", f"Successors of {id}: {', '.join(said)}"]
    return lines, [(id, to) for to in claim.successors(id)]


# what is said of a text that is no solution
FAULTS = {
    r"bad cycle at (\d+)": cycle,
    r"(\d+) leaves to (\d+)": leaving,
    r"(?:no|bad) choice at (\d+)": choosing,
}


def explained(claim, verdict):
    """What is printed below the verdict, and the edges that it is about."""
    for form, how in FAULTS.items():
        found = re.fullmatch(form, verdict)
        if found:
            places = [*map(int, found.groups())]
            return (choosing if places[0] in claim.game.dead else how)(claim, *places)
    raise Refused(f"this is no verdict of pgboard's: {verdict}", FILE)


def draw(path, claim, marked):
    """Draws edges, and what lies round them: what leads to their vertices and where these lead, as far as
    all fits.

    The vertex that `verify` names, from which the first edge leads, is marked.
    """
    core = list(dict.fromkeys(id for edge in marked for id in edge))
    inside = set(core)
    near = [it for it in claim.game.rows if it not in inside and inside.intersection(claim.successors(it))]
    near += [to for it in core for to in claim.successors(it) if to not in inside]
    drawn = dict.fromkeys([*core, *near][: max(len(core), pictures.MOST_DRAWN)])
    vertices = [
        pictures.vertex(claim.game, id, claim.winner(id), " penwidth=4 color=red" * (id == core[0]))
        for id in drawn
    ]
    edges, marked = [], set(marked)
    for id, to in ((id, to) for id in drawn for to in claim.successors(id) if to in drawn):
        style = (
            "color=red penwidth=3" if (id, to) in marked else "" if to in claim.kept(id) else "style=dotted"
        )
        edges.append(pictures.edge(id, to, style))
    pictures.write_picture(path, len(drawn), pictures.graph(vertices, edges))
