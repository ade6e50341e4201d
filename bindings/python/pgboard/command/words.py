"""Solves, verifies, explains, converts and draws max-parity games, in files of many tools.

A game is a text in PGSolver's format, also with comments (from `#` or `//` to the end of a line), names,
vertices without successors, and a byte order mark; a file that gzip, bzip2, xz or zstd has packed; or an
automaton or a game in the HOA format. `-` is standard input. Results have the identifiers of the input.
"""

# mypy: ignore-errors

from . import LATE, WORDS, Parser, Refused, called, number, seconds, shown, write  # isort: skip

import contextlib
import io
import json
import re
import sys

from ..version import __version__
from . import engine, explain, generate, modelcheck, pictures, statistics, synthesise
from .games import PLAYERS, Game, Solution, game_of, game_of_text, solution_of
from .texts import Text, bytes_of, decoded, text_of, texts_of

# what --winners leaves out of a line
CHOICE = re.compile("(?<= [01]) [0-9]+(?=;)")
# (of a word, what its own statuses say comes before)
STATUSES = "2 where the command line was refused, 3 a text, 4 a file or the output, 5 memory, "
STATUSES += "7 where the command itself has a mistake"
DONE, JUDGED = "0 where it is done, ", "0 where it is a solution, 1 where it is none, "
CONVERT = """Writes a game in the form that pgboard reads, or with --solution a solution.

Names are kept; in them `\\"` becomes `'`, since pgboard's names have no escapes. Winners, and the choices of
winners at vertices with successors, are those of the game that was given. A game in the HOA format has the
header `spot-state-player`; each state is the vertex of its number, and an edge is a vertex of its own where
those of a state differ in priority. Without that header the input is a deterministic automaton, and Even is
the controller of its propositions `controllable-AP`."""
SOLVE = """Solves a game, verifies the solution, and writes it.

On a terminal, standard error shows how many vertices are settled, where the library is found."""
WINNER = """Says who wins a game from its `start` vertex, or from one that --vertex or --state names.

With --reach, --game or --picture the result is the part of the winner's strategy that a play from there can
reach: where the winner owns a vertex, the play takes his choice, and elsewhere it may take each edge."""
EXPLAIN = """Says why `verify` refuses a solution, in the vertices of the game.

For a bad cycle it shows a shortest closed walk that the other player wins, of edges that the solution keeps:
where the winner owns a vertex, the edge to his choice, and elsewhere all edges. For an edge that leaves what
its player is said to win, it shows the other ways. For a choice that is missing, or is no successor, it
shows the line and what could be there."""
VERIFY = "Says whether a solution is one, and if not, what is wrong first."
TIDY = "Writes a game as it was read, without names: one text for each game."
STATS = "Counts vertices, edges, owners, priorities, own loops, degrees and components."
NO_CHOICES = "without choices only winners can be compared, with those of `solve --winners`"
DRAW = """Draws a game as Graphviz text, or as a picture by Graphviz's `dot`, on standard output.

Even owns the diamonds and Odd the boxes. What Even wins is light with a plain border, what Odd wins is dark
with a double one, and what is open is white and dashed. The winner's choice is bold. At most 200 vertices
are drawn."""
JSON = {"json": "write JSON"}


def add_flags(word, **said):
    for name, it in said.items():
        word.add_argument(f"--{name.replace('_', '-')}", action="store_true", help=it)


def add_game(word, solution):
    count = None if solution == "one" else "?"
    word.add_argument("game", metavar="GAME", nargs=count, default="-", help="a game; - is standard input")
    if solution:
        said = "a solution, as PGSolver or Oink print it"
        word.add_argument("solution", metavar="SOLUTION", nargs=count, help=said)
    add_flags(
        word,
        min="the least priority that is seen again and again decides, as a header `minparity` says",
        odd="player 0 wins by odd priorities, and player 1 by even ones",
        dead_ends="the owner of a vertex without successors loses there",
    )


def add_timeout(word):
    said = "end the search after so many seconds, with status 6; to read, verify and write takes more"
    word.add_argument("--timeout", metavar="S", type=seconds, help=said)


def print_json(value):
    json.dump(value, sys.stdout)
    print()


def tidy(given):
    (data,) = bytes_of(given.game)
    text = None if has_rules(given) else engine.as_it_is("tidy_bytes", data)
    if text is None:
        game = game_of_text(given.game, decoded(given.game, data), given)
        text = engine.engine().tidy_bytes(engine.data_of(engine.plain(game)))
    print(text, end="")


def has_rules(given):
    return given.min or given.odd or given.dead_ends


def convert(given):
    if given.solution and has_rules(given):
        raise Refused("--min, --odd and --dead-ends are for a game, and --solution is for a solution", WORDS)
    if not given.solution:
        return print(game_of(given.game, given).written(), end="")
    solution = solution_of(given.game, text_of(given.game))
    if not solution.rows:
        raise Refused(f"{called(given.game)}: there is no solution in it")
    return print(solution.written(), end="")


def solve(given):
    if given.partial and not given.timeout:
        raise Refused("--partial comes with --timeout", WORDS)
    if not 1 <= given.workers <= 64:
        raise Refused(f"--workers: from 1 to 64 threads, not {given.workers}", WORDS)
    engine.engine().workers = given.workers
    data, *known = bytes_of(given.game, *([] if given.known is None else [given.known]))
    reads = known or has_rules(given) or given.stats or given.keep_names or given.partial
    text = None if reads else engine.as_it_is("solve_bytes", data, given.timeout)
    if text is None:
        return solve_read(given, data, *known)
    engine.check(engine.engine().verify_bytes(data, text.encode()))
    if given.json:
        rows = [[*map(int, it[:-1].split())] for it in text.splitlines()[1:]]
        rows = [{"vertex": it[0], "winner": it[1], "choice": it[2] if it[2:] else None} for it in rows]
        return print_json({"is_whole": True, "solution": rows})
    return print(CHOICE.sub("", text) if given.winners else text, end="")


def solve_read(given, data, *known):
    """Solves a game that this command has to read."""
    game = game_of_text(given.game, decoded(given.game, data), given)
    known = solution_of(given.known, decoded(given.known, known[0])) if known else None
    if known:
        known.check(game, is_part=True)
    found = engine.solved(game, known, given.timeout, given.partial)
    numbers = {**statistics.of_game(game), **statistics.of_solved(found)} if given.stats else {}
    if given.json:
        name = lambda id: {"name": game.rows[id][3]} if given.keep_names and game.rows[id][3] else {}
        rows = [
            {"vertex": id, "winner": it[0], "choice": it[1], **name(id)}
            for id, it in sorted(found.solution.rows.items())
        ]
        print_json({"is_whole": found.is_whole, "solution": rows, **({"stats": numbers} if numbers else {})})
    else:
        rows = found.solution.rows
        shown = Solution({id: (it[0], None) for id, it in rows.items()}) if given.winners else found.solution
        print(shown.written(game.rows if given.keep_names else None), end="", flush=True)
        print(statistics.text(numbers), end="", file=sys.stderr)
    if not found.is_whole:
        raise engine.late(given.timeout, len(found.solution.rows), len(game.rows))


def judged(given, data):
    texts = [decoded(*it) for it in zip((given.game, given.solution), data)]
    game, solution = game_of_text(given.game, texts[0], given), solution_of(given.solution, texts[1])
    solution.check(game)
    return game, solution, engine.verdict(game, solution)


def verify(given):
    data = [*bytes_of(given.game, given.solution)]
    said = None if has_rules(given) else engine.as_it_is("verify_bytes", *data)
    said = said or judged(given, data)[2]
    if said.startswith("no choice"):
        solution = solution_of(given.solution, decoded(given.solution, data[1]))
        if all(choice is None for _, choice in solution.rows.values()):
            print(f"pgboard: {NO_CHOICES}", file=sys.stderr)
    if given.json:
        fault = {} if said == "ok" else {"fault": said}
        print_json({"is_solution": said == "ok", **fault})
    else:
        print(said if said == "ok" else f"not a solution: {said}")
    return int(said != "ok")


def explains(given):
    game, solution, said = judged(given, bytes_of(given.game, given.solution))
    if said == "ok":
        print(said)
        return 0
    claim = explain.Claim(game, solution)
    lines, edges = explain.explained(claim, said)
    print("\n".join([f"not a solution: {said}", *lines]), flush=True)
    if given.picture:
        explain.draw(given.picture, claim, edges)
    return 1


def reached(game, solution, start):
    """The game of what a play from there can reach, in which the winner keeps to his choices."""
    winner, moves = solution[start][0], {start: None}
    vertices = [start]
    for id in vertices:
        _, owner, successors, _ = game.rows[id]
        moves[id] = [solution[id][1]] if owner == winner else successors
        new = [to for to in moves[id] if to not in moves]
        moves.update(dict.fromkeys(new))
        vertices += new
    part = Game({id: (*game.rows[id][:2], moves[id], game.rows[id][3]) for id in sorted(moves)}, start=start)
    part.given, part.dead = game.given, game.dead
    return part


def vertex_of(path, game, word):
    """The vertex that has this identifier, or else this name."""
    id = int(word) if re.fullmatch("[0-9]{1,10}", word, re.ASCII) else None
    found = [id] if id in game.rows else [it for it, row in game.rows.items() if word and row[3] == word]
    if len(found) != 1:
        word = shown(word) or "''"
        many = f"{len(found)} vertices have the name {word}: --vertex takes an identifier too"
        raise Refused(f"{called(path)}: {many if found else f'there is no vertex {word}'}")
    return found[0]


def winner(given):
    game = game_of(given.game, given)
    if given.state is not None and not game.states:
        raise Refused("--state is for a file in the HOA format", WORDS)
    if given.state is not None and given.state not in game.states:
        raise Refused(f"{called(given.game)}: no play reaches a state {given.state}")
    start = game.start if given.vertex is None else vertex_of(given.game, game, given.vertex)
    start = start if given.state is None else game.states[given.state]
    if start not in game.rows:
        lacks = "no line `start` names a vertex: --vertex does"
        why = lacks if start is None else f"there is no vertex {start}"
        raise Refused(f"{called(given.game)}: {why}")
    found = engine.solved(game, timeout=given.timeout, until=start)
    solution = found.solution.rows
    part, player = reached(game, solution, start), solution[start][0]
    rows = {id: solution[id] for id in part.rows}
    if not found.is_whole:
        engine.verify(part, Solution(rows))
    state = {"state": it for it, vertex in game.states.items() if vertex == start}
    if given.json:
        reach = {"reach": sorted(part.rows)} if given.reach else {}
        print_json({"vertex": start, **state, "winner": player, **reach})
    elif given.reach:
        print(Solution(rows).written(), end="", flush=True)
    else:
        has_name = game.states or given.vertex not in (None, str(start))
        by_name = f"vertex {game.called(start) if has_name else start}"
        named = f"state {state['state']}" if state and given.vertex is None else by_name
        print(f"{PLAYERS[player]} wins {named}", flush=True)
    if given.part is not None:
        write(given.part, part.written())
    if given.picture:
        pictures.write_picture(given.picture, len(rows), pictures.of_game(part, rows))
    return player


def journal_of(path, text):
    """The entries of a trace, each with the (winner, choice or None) of the vertices that it settles."""
    entries, at = [], 0
    for line in re.findall(r"[^\n]*\n|[^\n]+", text):
        head = re.fullmatch(r"entry \d+ \d+ ([01]) \d+ \d+\n", line)
        row = re.fullmatch(r"([0-9]{1,10})(?: ([0-9]{1,10}))?;\n", line)
        if head:
            player = int(head[1])
            entries.append(Solution({}, path, text))
        elif row and entries:
            entries[-1].add(int(row[1]), player, row[2] and int(row[2]), at)
        elif line.startswith("report "):
            return entries
        elif not line.startswith("journal "):
            Text(path, text).refuse("this is no line of a trace", at)
        at += len(line)
    raise Refused(f"{called(path)}: the trace has no report")


def draw(given):
    if given.trace is not None and given.solution is not None:
        raise Refused("--trace comes without a SOLUTION", WORDS)
    if given.entries is not None and given.trace is None:
        raise Refused("--entries comes with --trace", WORDS)
    if given.entries is not None and given.entries < 0:
        raise Refused(f"--entries: K is below 0: {given.entries}", WORDS)
    second = given.solution if given.trace is None else given.trace
    first, *rest = texts_of(given.game, *([] if second is None else [second]))
    game, solution = game_of_text(given.game, first, given), {}
    pictures.check_count(given.game, len(game.rows))
    if given.trace:
        parts = journal_of(second, *rest)[: given.entries]
    else:
        parts = [solution_of(second, it) for it in rest]
    for part in parts:
        part.check(game, is_part=True)
        for id, (winner, choice) in part.rows.items():
            if choice is not None and winner == game.rows[id][1] and choice not in game.rows[id][2]:
                part.refuse(id, f"{choice} is no successor of {id} in this game")
        solution.update(part.rows)
    text = pictures.of_game(game, solution)
    if given.kind:
        sys.stdout.buffer.write(pictures.made_by_dot(text, given.kind))
    else:
        print(text, end="")


def stats(given):
    numbers = statistics.of_game(game_of(given.game, given))
    if given.json:
        return print_json(numbers)
    return print(statistics.text(numbers), end="")


def add_solving(it):
    it.add_argument("--known", metavar="FILE", help="begin from a part of a solution")
    add_timeout(it)
    said = "over a program: so many threads, up to 64, look for what a player wins (1)"
    it.add_argument("--workers", metavar="N", type=number, default=1, help=said)
    add_flags(
        it,
        partial="with --timeout: write what is settled by then",
        winners="write winners alone, without choices",
        keep_names="write the name of a vertex after its line",
        stats="also write what `stats` does, winners, time and entries, to standard error",
    )


def add_start(it):
    by = it.add_mutually_exclusive_group()
    by.add_argument("--vertex", metavar="V", help="the vertex, by its identifier or its name")
    by.add_argument("--state", metavar="N", type=number, help="the state of a file in the HOA format")
    add_timeout(it)
    add_flags(it, reach="write the part that a play from there can reach, as a solution")
    it.add_argument("--game", dest="part", metavar="FILE", help="write that part as a game of one player")
    pictures.add_option(it, "that part")
    add_flags(it, **JSON)


def add_drawing(it):
    kinds = it.add_mutually_exclusive_group()
    for kind in pictures.KINDS[1:]:
        said = "write this picture, not Graphviz text"
        kinds.add_argument(f"--{kind}", dest="kind", action="store_const", const=kind, help=said)
    it.add_argument("--trace", metavar="TRACE", help="draw what an output of `pgboard trace` settles")
    it.add_argument("--entries", metavar="K", type=number, help="of its first K entries alone")


def parser():
    top = Parser(__doc__, "`WORD --help` says more of a word.", False, prog="pgboard")
    top.add_argument("--version", action="version", version=f"pgboard {__version__}")
    words = top.add_subparsers(metavar="WORD", required=True, parser_class=Parser)

    def word(call, name, about, status=DONE, solution=None):
        short, epilog = about.split("\n")[0], f"status: {status}{STATUSES}"
        made = words.add_parser(name, help=short, description=about, epilog=epilog, is_raw=False)
        made.set_defaults(call=call)
        add_game(made, solution)
        return made

    def game_of_its_own(module, name):
        """A word that makes its game itself, of what its module reads."""
        short, how = module.__doc__.split("\n")[0], {"description": module.__doc__, "epilog": module.HELP}
        made = words.add_parser(name, help=short, **how)
        made.set_defaults(call=module.main)
        module.add_options(made)

    late = "6 where --timeout was not enough, "
    it = word(solve, "solve", SOLVE, f"{DONE}1 where what is known does not hold, {late}")
    add_solving(it)
    add_flags(it, **JSON)
    add_flags(word(verify, "verify", VERIFY, JUDGED, "one"), **JSON)
    word(tidy, "tidy", TIDY)
    it = word(explains, "explain", EXPLAIN, JUDGED, "one")
    pictures.add_option(it, "what is wrong")
    add_start(word(winner, "winner", WINNER, f"0 where Even wins, 1 where Odd wins, {late}"))
    it = word(convert, "convert", CONVERT)
    add_flags(it, solution="the input is a solution, as PGSolver or Oink print it")
    add_drawing(word(draw, "draw", DRAW, solution="?"))
    add_flags(word(stats, "stats", STATS), **JSON)
    game_of_its_own(modelcheck, "modelcheck")
    game_of_its_own(synthesise, "synthesise")
    game_of_its_own(generate, "random")
    for it in words.choices.values():
        said = "write the result there; a file is replaced once all of it is written"
        it.add_argument("-o", "--output", metavar="FILE", help=said)
    return top, words.choices


def written(given):
    """Writes what a word prints to the file of -o, unless that is cut. Returns its status."""
    out = io.TextIOWrapper(io.BytesIO(), "utf-8", "surrogateescape")
    try:
        with contextlib.redirect_stdout(out):
            status, late = given.call(given), None
    except Refused as fault:
        if fault.status != LATE or not getattr(given, "partial", False):
            raise
        status, late = fault.status, fault
    out.flush()
    write(given.output, out.buffer.getvalue())
    if late:
        raise late
    return status


def main(words):
    if words[:1] == ["why"]:
        from . import why

        return why.main(words[1:])
    if words[:1] == ["trace"]:
        raise Refused("trace is the program's, which the wheel has not: a clone or a package has it", WORDS)
    top, each = parser()
    # (options may come between the words of one)
    if words and words[0] in each:
        given = each[words[0]].parse_intermixed_args(words[1:])
    else:
        given = top.parse_args(words)
    return given.call(given) if given.output in (None, "-") else written(given)
