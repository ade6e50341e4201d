"""Numbers of a game."""

# mypy: ignore-errors

from collections import Counter

from .games import PLAYERS


def component_sizes(edges):
    """The sizes of the strongly connected components, by Gabow's search."""
    number, places, stack, bounds, done, sizes = {}, {}, [], [], set(), []
    for root in edges:
        todo = [] if root in number else [root]
        left = {}
        while todo:
            at = todo[-1]
            if at not in number:
                number[at], places[at] = len(number), len(stack)
                stack.append(at)
                bounds.append(at)
                left[at] = iter(edges[at])
            for to in left[at]:
                if to not in number:
                    todo.append(to)
                    break
                while to not in done and number[bounds[-1]] > number[to]:
                    bounds.pop()
            else:
                todo.pop()
                if bounds[-1] == at:
                    bounds.pop()
                    begins = places[at]
                    sizes.append(len(stack) - begins)
                    done.update(stack[begins:])
                    del stack[begins:]
    return sizes


def of_game(game):
    edges = {id: game.successors(id) for id in game.rows}
    priorities = [it for it in map(game.priority, game.rows) if it != "none"] or ["none"]
    into = Counter(to for row in edges.values() for to in row)
    sizes = component_sizes(edges)
    return {
        "vertices": len(edges),
        "edges": sum(map(len, edges.values())),
        "owners": by_player(row[1] for row in game.rows.values()),
        "priorities": {
            "least": min(priorities),
            "greatest": max(priorities),
            "different": len(set(priorities)),
        },
        "own loops": sum(id in row for id, row in edges.items()),
        "greatest degrees": {"out": max(map(len, edges.values())), "in": max(into.values(), default=0)},
        "components": {"number": len(sizes), "greatest": max(sizes), "least": min(sizes)},
    }


def of_solved(solved):
    found = {
        "winners": by_player(winner for winner, _ in solved.solution.rows.values()),
        "seconds": round(solved.seconds, 3),
    }
    return {**found, "entries": solved.entries} if solved.entries is not None else found


def by_player(players):
    counts = Counter(players)
    return {name: counts[player] for player, name in enumerate(PLAYERS)}


def text(numbers):
    said = (
        lambda it: ", ".join(f"{name} {value}" for name, value in it.items()) if isinstance(it, dict) else it
    )
    return "".join(f"{name}: {said(value)}\n" for name, value in numbers.items())
