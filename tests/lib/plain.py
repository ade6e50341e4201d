"""Games, solutions and both texts by their definitions, as plainly as can be: slow, for small games alone.

Nothing of it is taken from pgboard: tests compare the two.
"""

import itertools
import re

GREATEST = 2_147_483_647
TOKEN = re.compile(rb'[ \t\r\n]+|(?P<n>[0-9]+)|(?P<w>[A-Za-z]+)|(?P<q>"[^"]*")|(?P<c>,)|(?P<s>;)|(?P<none>.)')

# the letter of each token in turn: n number, p parity, t start, y paritysol, w other word, q name, c comma,
# s semicolon
GAME = re.compile(r"(pns)?(tns)?(nnnn(cn)*q?s)+")
SOLUTION = re.compile(r"(yns)?(nnn?s)*")
WORDS = {b"parity": "p", b"start": "t", b"paritysol": "y"}
# a text that was begun well ends well after at most a header's rest and one shortest line
HEADERS, SHORTEST = ("", "s", "ns", "pns", "tns", "yns"), ("", "s", "qs", "ns", "nns", "nnns", "nnnns")
ENDINGS = ["", *(a + b + c for a in HEADERS for b in SHORTEST for c in ("", "nnnns"))]


class Refused(Exception):
    """A text is refused, for these words of pgboard's line."""


def demand(holds, why):
    if not holds:
        raise Refused(why)


def tokens(text):
    found = []
    for token in TOKEN.finditer(text):
        letter, at = token.lastgroup, token.start()
        demand(letter != "none", f"byte {at}: no token")
        if letter:
            found.append((WORDS.get(token[0], "w") if letter == "w" else letter, at, token[0]))
    return found


def demand_syntax(found, length, whole):
    """Refuses the first token that no text goes on with, or the end of a text that ends too early."""
    letters = "".join(it[0] for it in found)
    if not whole.fullmatch(letters):
        for count in range(len(letters)):
            is_begun = any(whole.fullmatch(letters[: count + 1] + end) for end in ENDINGS)
            demand(is_begun, f"byte {found[count][1]}: not expected")
        raise Refused(f"byte {length}: not expected")


def lines_of(text, whole, headers):
    found = tokens(text)
    demand_syntax(found, len(text), whole)
    for token in found:
        demand(token[0] != "n" or int(token[2]) <= GREATEST, f"byte {token[1]}: number too large")
    lines = [
        list(line) for is_end, line in itertools.groupby(found, lambda token: token[0] == "s") if not is_end
    ]
    return [line for line in lines if line[0][0] not in headers]


def game_of(text):
    """Returns the game, a dictionary from identifiers to (priority, owner, set of successors)."""
    specs = lines_of(text, GAME, "pt")
    for line in specs:
        demand(int(line[2][2]) < 2, f"byte {line[2][1]}: owner is not 0 or 1")
    specs = [[int(it[2]) for it in line if it[0] == "n"] for line in specs]
    game = {}
    for id, priority, owner, *successors in specs:
        demand(id not in game, f"vertex {id}: specified twice")
        game[id] = priority, owner, set(successors)
    for id, _, _, *successors in specs:
        for successor in successors:
            demand(successor in game, f"vertex {id}: successor {successor} is not specified")
    return game


def known_of(game, text):
    """Returns what a solution text says that may leave vertices out, a dictionary from identifiers to
    (winner, choice or None).
    """
    rows = lines_of(text, SOLUTION, "y")
    for line in rows:
        demand(int(line[1][2]) < 2, f"byte {line[1][1]}: winner is not 0 or 1")
    rows = [[int(it[2]) for it in line] for line in rows]
    for id, _, *choice in rows:
        for it in (id, *choice):
            demand(it in game, f"vertex {it}: not in the game")
    solution = {}
    for id, winner, *choice in rows:
        demand(id not in solution, f"vertex {id}: written twice")
        solution[id] = winner, choice[0] if choice else None
    return solution


def solution_of(game, text):
    solution = known_of(game, text)
    for id in sorted(game):
        demand(id in solution, f"vertex {id}: not written")
    return solution


def kept(game, solution, id):
    _, owner, successors = game[id]
    winner, choice = solution[id]
    return {choice} if owner == winner else successors


def is_greatest_on_a_closed_walk(game, solution, id):
    """Whether a walk of kept edges leads from the vertex to itself over vertices of no greater priority that
    the solution names, which may be some of the game's.
    """
    reached, last = set(), {id}
    while last:
        last = {
            to
            for at in last
            for to in kept(game, solution, at)
            if to in solution and game[to][0] <= game[id][0]
        } - reached
        reached |= last
    return id in reached


def faults(game, solution):
    ids = sorted(game)
    chosen = [id for id in ids if game[id][1] == solution[id][0]]
    yield from (f"no choice at {id}" for id in chosen if solution[id][1] is None)
    yield from (f"bad choice at {id}" for id in chosen if solution[id][1] not in game[id][2])
    edges = ((id, to) for id in ids for to in sorted(kept(game, solution, id)))
    yield from (f"{id} leaves to {to}" for id, to in edges if solution[to][0] != solution[id][0])
    bad = (id for id in ids if game[id][0] % 2 != solution[id][0])
    yield from (f"bad cycle at {id}" for id in bad if is_greatest_on_a_closed_walk(game, solution, id))


def verdict(game, solution):
    fault = next(faults(game, solution), None)
    return f"not a solution: {fault}\n" if fault else "ok\n"


def region_faults(game, rows, player, lost=frozenset()):
    """What is wrong with the rows of a player as his region, in order; the lost vertices are the opponent's.
    """
    part = {id: rows[id] for id in sorted(rows) if rows[id][0] == player}
    owned = (id for id in part if game[id][1] == player)
    yield from (f"bad choice or none at {id}" for id in owned if part[id][1] not in game[id][2])
    bad = (id for id in part if game[id][0] % 2 != player)
    yield from (f"bad cycle at {id}" for id in bad if is_greatest_on_a_closed_walk(game, part, id))
    yield from (f"{id} is lost" for id in part if id in lost)
    yield from (
        f"{id} leaves to {to}" for id in part for to in sorted(kept(game, part, id)) if to not in part
    )


def known_faults(game, known):
    yield from region_faults(game, known, 0)
    yield from region_faults(game, known, 1, attracted(game, {id for id in known if known[id][0] == 0}, 0))


def attracted(game, target, player, inside=None, choices=None):
    """The attractor of a target, maybe inside a subgame; `choices` gets those that lead to it."""
    inside = game.keys() if inside is None else inside
    while True:
        some = lambda id: any if game[id][1] == player else all
        more = {id for id in inside - target if some(id)(to in target for to in game[id][2] & inside)}
        if not more:
            return target
        if choices is not None:
            choices.update((id, min(game[id][2] & target)) for id in more)
        target = target | more


def ladder(levels):
    """A game on which a recursion that keeps nothing takes time exponential in the levels (Friedmann 2011)."""
    rows = {}
    for i in range(1, levels + 1):
        rows["a", i] = 1 - i % 2, 1 - i % 2, [("b", i), ("d", i - 1)]
        rows["b", i] = 1 - i % 2, i % 2, [("a", i), ("c", i)][: 1 + (i < levels)]
    for i in range(levels):
        rows["c", i] = 3 * i + 5, 1 - i % 2, [("b", i + 1), ("d", i)]
        rows["d", i] = 3 * i + 4, i % 2, [("e", i), *(("d", j) for j in (i - 1, i + 1) if 0 <= j < levels)]
        rows["e", i] = 3 * i + 3, 1 - i % 2, [("d", i), ("b", i)][: 1 + (i > 0)]
    number = {name: v for v, name in enumerate(rows)}
    return {
        number[name]: (priority, owner, {number[to] for to in row})
        for name, (priority, owner, row) in rows.items()
    }


def solved(game, inside=None):
    """The winner of each vertex of a subgame, and a choice, by the plain recursion (Zielonka 1998)."""
    inside, rows = set(game) if inside is None else inside, {}
    while inside:
        top = max(game[id][0] for id in inside)
        player, greatest = top % 2, {id for id in inside if game[id][0] == top}
        choices = {id: min(game[id][2] & inside) for id in greatest}
        aside = attracted(game, greatest, player, inside, choices)
        found = solved(game, inside - aside)
        lost = {id: row for id, row in found.items() if row[0] != player}
        if not lost:
            return {**rows, **found, **{id: (player, choices[id]) for id in aside}}
        choices = {}
        taken = attracted(game, {*lost}, 1 - player, inside, choices)
        rows.update(lost)
        rows.update((id, (1 - player, choice)) for id, choice in choices.items())
        inside = inside - taken
    return rows


def winners(game):
    return {id: winner for id, (winner, _) in solved(game).items()}


def lines_of_rows(head, rows):
    return "".join(f"{it};\n" for it in [head, *(" ".join(map(str, row)) for row in rows)])


def written_game(game):
    rows = ((id, *game[id][:2], ",".join(map(str, sorted(game[id][2])))) for id in sorted(game))
    return lines_of_rows(f"parity {max(game)}", rows)


def written_winners(game, solution):
    return lines_of_rows(f"paritysol {max(game)}", ((id, solution[id][0]) for id in sorted(game)))


def written_solution(game, solution):
    """With a choice exactly where it is needed."""
    rows = ((id, *solution[id][: 1 + (game[id][1] == solution[id][0])]) for id in sorted(game))
    return lines_of_rows(f"paritysol {max(game)}", rows)


def refused(text, why):
    return 3, b"", f"pgboard: {text}: {why}\n".encode()


def tidied(text):
    try:
        return 0, written_game(game_of(text)).encode(), b""
    except Refused as why:
        return refused("game", why)


def verified(text, solution_text):
    try:
        game = game_of(text)
    except Refused as why:
        return refused("game", why)
    try:
        line = verdict(game, solution_of(game, solution_text))
    except Refused as why:
        return refused("solution", why)
    return (0 if line == "ok\n" else 1), line.encode(), b""


NOT_WRITTEN = "it is not the written form, or has a choice too many"


def written_fault(game, text):
    """What is wrong with a text as a written solution of the game that has choices exactly where they are
    needed, or None.
    """
    try:
        solution = solution_of(game, text)
    except Refused as why:
        return str(why)
    line = verdict(game, solution)
    if line != "ok\n":
        return line
    return None if written_solution(game, solution).encode() == text else NOT_WRITTEN


ENTRY, JOB = r"entry N N [01] N N\n(?:N(?: N)?;\n)+", r"job N (?:-|N) N N N N [01] [01]\n"
TRACE = re.compile(
    rf"journal N N\n(?:{ENTRY})*report N\n(?:{JOB})+total N N N N\n".replace("N", "(?:0|[1-9][0-9]*)")
)


def numbers(line):
    return [int(it) for it in re.findall("[0-9]+", line)]


def trace_fault(game, workers, text):
    """What is wrong with a trace of the game by so many workers, or None."""
    try:
        demand(TRACE.fullmatch(text.decode()), "it does not have the form of a trace")
        journal, report = text.decode().split("report ")
        judge_report(game, read_journal(game, workers, journal), report)
    except Refused as why:
        return str(why)
    return None


def read_journal(game, workers, text):
    head, *parts = text.split("entry ")
    entries = [[numbers(line) for line in part.splitlines()] for part in parts]
    solution, sizes = {}, {worker: [] for worker in range(workers + 1)}
    for at, ((number, worker, player, claimed, size), *rows) in enumerate(entries):
        demand(number == at and worker <= workers, f"entry {at} is of another number, or of no worker")
        demand(0 < claimed <= size == len(rows), f"entry {at} claims nothing, or has another number of rows")
        sizes[worker].append(size)
        solution.update({id: (player, choice[0] if choice else None) for id, *choice in rows})
    demand(numbers(head) == [len(entries), len(game)], "the first line has other numbers")
    demand(
        solution.keys() == game.keys() and sum(map(sum, sizes.values())) == len(game),
        "the entries don't give each vertex once",
    )
    demand(verdict(game, solution) == "ok\n", "the entries give no solution")
    return sizes


def judge_report(game, sizes, text):
    count, *jobs, total = text.splitlines()
    batch = 64
    while -(-len(game) // batch) > 2_046:
        batch *= 2
    rows = [line.split()[1:] for line in jobs]
    demand([int(it[0]) for it in rows] == list(range(int(count))), "the jobs have other numbers")
    demand(int(count) == 3 + 2 * -(-len(game) // batch), "there is another number of jobs")
    sums = lambda some: [sum(int(it[column]) for it in some) for column in range(2, 6)]
    demand(numbers(total) == sums(rows), "the last line has other sums")
    demand(not any(sums([it for it in rows if it[1] == "-"])), "a job of no worker has done something")
    demand({it[1] for it in rows} <= {"-", *(str(it) for it in sizes if it)}, "a job is of no worker")
    for worker in range(1, len(sizes)):
        reported = sums([it for it in rows if it[1] == str(worker)])[:2]
        demand(
            reported == [len(sizes[worker]), sum(sizes[worker])],
            f"worker {worker} posted {sizes[worker]}, and {reported} is reported",
        )
