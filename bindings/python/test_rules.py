"""Tests of other rules of games, by unittest: dead ends are lost, and the least priority decides."""

import itertools
import random
import unittest
from array import array

import pgboard
from test_pgboard import Tests, csr_of, with_one


class Rules(Tests):
    # a game, the rules, its winners and choices
    GAMES = [
        (
            [0, 1, 0, 1],
            [7, 8, 0, 0],
            [[], [], [0, 1], [0, 1]],
            {"dead_ends": True},
            [1, 0, 0, 1],
            [None, None, 1, 0],
        ),
        # a cycle of 1 and 2, and one of 2 and 3
        ([0, 0, 1, 1], [1, 2, 2, 3], [[1], [0], [3], [2]], {}, [0, 0, 1, 1], [1, 0, 3, 2]),
        ([0, 0, 1, 1], [1, 2, 2, 3], [[1], [0], [3], [2]], {"least": True}, [1, 1, 0, 0], [None] * 4),
        ([0, 0], [0, 2**31 - 1], [[0], [1]], {"least": True}, [0, 1], [0, None]),
        # Odd may go where he is lost, or round a cycle whose least priority is his
        (
            [1, 0, 1],
            [4, 1, 6],
            [[1, 2], [0], []],
            {"dead_ends": True, "least": True},
            [1, 1, 0],
            [1, None, None],
        ),
    ]

    def test_each_call_has_them(self):
        for *game, how, winners, choices in self.GAMES:
            csr = csr_of(*game)
            with self.subTest(game=game, how=how):
                self.assertEqual(pgboard.solve(*game, **how), (winners, choices))
                found = pgboard.solve_csr(*csr, **how)
                self.assertEqual(list(found.winners), winners)
                self.assertEqual(pgboard.solve_csr(*map(list, csr), **how), found)
                pgboard.verify(*game, winners, choices, **how)
                pgboard.verify_csr(*csr, *found, **how)
                for board in (pgboard.Board(*game, **how), pgboard.Board.from_csr(*csr, **how)):
                    board.finish()
                    self.assertEqual(board.solution(), found)
                for v, winner in enumerate(winners):
                    wrong = with_one(winners, v, 1 - winner)
                    with self.assertRaises(pgboard.NotASolution):
                        pgboard.verify(*game, wrong, choices, **how)

    def test_priorities_are_turned_round(self):
        for seed in range(300):
            chance = random.Random(seed)
            kinds = lambda: chance.choice(
                [0, 1, chance.randrange(9), chance.randrange(2**31), 2**31 - 2, 2**31 - 1]
            )
            given = [kinds() for _ in range(chance.randint(1, 12))]
            made = list(pgboard.arrays.with_greatest(memoryview(array("I", given))))
            self.assertEqual([it % 2 for it in made], [it % 2 for it in given])
            for v, w in itertools.product(range(len(given)), repeat=2):
                self.assertEqual(made[v] > made[w], given[v] < given[w], given)
            self.assertLess(max(made), 2 * len(given))

    def test_faults_are_those_of_what_is_given(self):
        both = {"dead_ends": True}, {"least": True}, {"dead_ends": True, "least": True}
        for fault, at, to, hows, *game in (
            (pgboard.BadLengths, 1, 0, both, [0], [0, 1], [0, 1], [0]),
            (pgboard.BadLengths, 2, 0, both, [0, 0], [0, 1], [0, 1], [0]),
            # (where a vertex leads nowhere, too, if the first row does not begin with 0)
            (pgboard.BadLengths, 2, 0, both, [0, 0], [0, 0], [1, 1, 2], [0, 1]),
            (pgboard.BadLengths, 3, 0, both, [0, 0], [0, 0], [0, 0, 1], [0, 1]),
            (pgboard.BadRow, 0, 0, both, [0, 0], [0, 0], [0, 3, 2], [0, 1]),
            (pgboard.BadRow, 0, 0, both, [0, 0, 0], [0, 0, 0], [0, 9, 9, 2], [0, 1]),
            (pgboard.BadOwner, 1, 0, both, [0, 2], [0, 1], [0, 1, 2], [0, 0]),
            (pgboard.BadPriority, 1, 0, both, [0, 0], [0, 2**31], [0, 1, 2], [0, 0]),
            # (at a vertex without successors, whose priority is not looked at, too)
            (pgboard.BadPriority, 0, 0, both[::2], [0] * 3, [2**31, 1, 2], [0, 0, 1, 2], [2, 1]),
            (pgboard.NoVertex, 0, 0, both, [], [], [0], []),
            (pgboard.UnknownSuccessor, 1, 7, both[::2], [0, 0], [0, 0], [0, 0, 1], [7]),
            (pgboard.NoSuccessor, 0, 0, both[1:2], [0, 0], [0, 0], [0, 0, 1], [0]),
            (pgboard.NoSuccessor, 0, 0, [{}], [0], [0], [0, 0], []),
        ):
            for how in hows:
                self.raises(fault(at, to), pgboard.solve_csr, *game, **how)


if __name__ == "__main__":
    unittest.main()
