"""The faults that calls raise: a class for each, with its text."""

from __future__ import annotations

# the arrays by the numbers of include/pgboard.h
ARRAYS = {1: "priorities", 2: "starts of rows", 3: "successors", 4: "winners", 5: "choices"}


class Fault(ValueError):
    """Why there is no answer: `at` and `to` are the vertices, the place in a text or the number of the array that it is about.
    `node` is the node of a graph that the vertex `at` is. `line` and `column` are where it stands in a text, counted from 1, and
    `text` is the text's file, or says whether it is the game or the solution."""

    words = "{at}"
    node: object = None
    line: int | None = None
    column: int | None = None
    text = "game"

    def __init__(self, at: int = 0, to: int = 0) -> None:
        super().__init__(at, to)
        self.at, self.to = at, to

    def __str__(self) -> str:
        vertex = f"vertex {self.at}" if self.node is None else f"node {self.node!r}"
        said = self.words.format(at=self.at, to=self.to, vertex=vertex, array=ARRAYS.get(self.at, "arrays"))
        return said if self.line is None else f"{self.text}:{self.line}:{self.column}: {said}"


class Refused(Fault):
    """A game, or winners and choices, or a text, that can't be taken as one."""


class NotASolution(Fault):
    """Winners and choices that are no solution."""


class NotKnown(Fault):
    """What is given as known of a game doesn't hold."""


class OutOfMemory(Fault, MemoryError):
    words = "memory was refused"


class BadLengths(Refused):
    words = "the {array} do not fit the owners: there is one owner, one priority and one row of successors for each vertex"


class BadRow(Refused):
    words = "{vertex}: its row is no part of the successors"


class BadOwner(Refused):
    words = "{vertex}: the owner is neither 0 nor 1"


class BadPriority(Refused):
    words = "{vertex}: the priority is not from 0 to 2147483647"


class BadResults(Refused):
    words = "the {array} have not one entry for each vertex"


class BadWinner(Refused):
    words = "{vertex}: the winner is neither 0 nor 1"


class MissingAttribute(Refused):
    """A node of a graph has no owner or no priority: it lacks this `attribute`. `at` is its place in the order of nodes."""

    def __init__(self, at: int, node: object, attribute: str) -> None:
        super().__init__(at)
        self.args = (at, node, attribute)
        self.node, self.attribute = node, attribute

    def __str__(self) -> str:
        return f"node {self.node!r} has no attribute {self.attribute!r}"


class NoVertex(Refused):
    words = "there is no vertex"


class TooManyVertices(Refused):
    words = "there are more than 1048576 vertices"


class SpecifiedTwice(Refused):
    words = "{vertex} is specified twice"


class NoSuccessor(Refused):
    words = "{vertex} has no successor"


class TooManyEdges(Refused):
    words = "there are more than 16777216 edges"


class UnknownSuccessor(Refused):
    words = "{vertex}: the successor {to} is no vertex"


class NoChoice(NotASolution):
    words = "{vertex}: its winner owns it and has no choice"


class BadChoice(NotASolution):
    words = "{vertex}: the choice is no successor"


class Leaves(NotASolution):
    words = "{vertex}: a kept edge leads to {to}, which the other player wins"


class BadCycle(NotASolution):
    words = "{vertex}: its priority is the loser's, and the greatest on a closed walk"


class KnownChoice(NotKnown):
    words = "{vertex}: its owner is known to win it, and has no choice that is a successor"


class KnownCycle(NotKnown):
    words = "{vertex}: its priority is the other player's, and the greatest on a closed walk in what is known"


class KnownLost(NotKnown):
    words = "{vertex} is known for player 1, and player 0 attracts it to what is known for him"


class KnownLeaves(NotKnown):
    words = "{vertex}: a kept edge leads to {to}, which is not known for the same player"


class BadText(Refused):
    """A text that is not of its format: `at` is the place, in bytes from 0."""


class TextTooLong(BadText):
    words = "the text is longer than 268435456 bytes"


class NoToken(BadText):
    words = "byte {at}: no token"


class NotExpected(BadText):
    words = "byte {at}: not expected"


class NumberTooLarge(BadText):
    words = "byte {at}: number too large"


class NoPlayer(BadText):
    words = "byte {at}: neither 0 nor 1"


class Stranger(Refused):
    words = "{vertex} is not in the game"


class WrittenTwice(Refused):
    words = "{vertex} is written twice"


class NotWritten(Refused):
    words = "{vertex} is not written"


class Closed(Fault):
    words = "the board is closed"


class Unsettled(Fault):
    words = "the number of unsettled vertices is {at}"


class RefusedClaim(Refused):
    """A claim that a board refuses. The board is as before."""


class BadPlayer(RefusedClaim):
    words = "player {at} is neither 0 nor 1"


class BadClaimLengths(RefusedClaim):
    words = "there are {at} vertices and {to} choices"


class BadShape(RefusedClaim):
    words = (
        "row {at}: there is none, or its vertex is not in the game or not greater than the one before, or has no choice that is a "
        "successor where the player owns it, or a choice where he does not"
    )


class ClaimCycle(RefusedClaim, BadCycle):
    words = "{vertex}: its priority is the other player's, and the greatest on a closed walk in the claim"


class Lost(RefusedClaim):
    words = "{vertex} is settled for the other player"


class Stale(RefusedClaim):
    words = "each vertex of the claim is settled for its player"


class Open(RefusedClaim):
    words = "{vertex}: a kept edge leads to {to}, which is neither in the claim nor settled for its player"


class GaveUp(Fault):
    words = "the recursion needs more steps than it may take"


class TimedOut(Fault, TimeoutError):
    words = "the call took longer than its timeout"


class Cancelled(Fault):
    words = "the call was cancelled"


# The exception of each answer of include/pgboard.h, as tools/faults makes it. Four are never handed on: the size of
# a struct (9), a board that is open (70) and the number of an entry (72), which are right here, and a buffer that is too small (50), which
# is asked for again.
FAULTS: dict[int, type[Fault]] = {
    1: OutOfMemory,
    2: BadLengths,
    3: BadRow,
    4: BadOwner,
    5: BadPriority,
    6: BadResults,
    7: BadWinner,
    8: BadResults,
    10: NoVertex,
    11: TooManyVertices,
    12: SpecifiedTwice,
    13: NoSuccessor,
    14: TooManyEdges,
    15: UnknownSuccessor,
    20: NoChoice,
    21: BadChoice,
    22: Leaves,
    23: BadCycle,
    30: TextTooLong,
    31: NoToken,
    32: NotExpected,
    33: NumberTooLarge,
    34: NoPlayer,
    40: TextTooLong,
    41: NoToken,
    42: NotExpected,
    43: NumberTooLarge,
    44: NoPlayer,
    45: Stranger,
    46: WrittenTwice,
    47: NotWritten,
    60: KnownChoice,
    61: KnownCycle,
    62: KnownLost,
    63: KnownLeaves,
    71: Closed,
    73: Unsettled,
    80: BadPlayer,
    81: BadClaimLengths,
    82: BadShape,
    83: ClaimCycle,
    84: Lost,
    85: Stale,
    86: Open,
    90: GaveUp,
}

# what the package has of this module
NAMES = [name for name, it in [*globals().items()] if isinstance(it, type) and issubclass(it, Fault)]
