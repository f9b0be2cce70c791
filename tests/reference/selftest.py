"""Worked examples: `python3 tests/reference/selftest.py`. Each figure here was found by hand from the rules."""

from __future__ import annotations

import unittest
from random import Random

from bfs import Space, distance_to_target, has_admissible_set
from model import Action, Entry, Feature, Problem, Refusal, Refused, Rule, Subproblem
from planner import Search, Tuples, answer, run
from reader import lines_of, numeral, read
from sieve import rules_left

TWO_LAMPS = b"""atom start goal
0 0 1
1 0 1

action role atom
0 a 0
1 a 1

feature kind atom
0 f 0
0 f 1

rule feature when then
0 0 + -

"""


def strips(atoms: int, start: set[int], goal: set[int], *actions: tuple[set[int], set[int], set[int]]) -> Problem:
    """A problem without a sketch; each action is (needs, adds, deletes)."""
    made = tuple(Action(frozenset(needs), frozenset(adds), frozenset(deletes)) for needs, adds, deletes in actions)
    return Problem(atoms, frozenset(start), frozenset(goal), made)


def chain(goal: int) -> Problem:
    """Atoms 0 to 3; action i needs and deletes i, and adds i + 1."""
    return strips(4, {0}, {goal}, *(({i}, {i + 1}, {i}) for i in range(3)))


SWITCHES = strips(3, set(), {2}, (set(), {0}, set()), (set(), {1}, set()), ({0, 1}, {2}, set()))


def search_of(problem: Problem, k: int) -> Search:
    """A search of the whole problem from its start."""
    return Search(Subproblem(problem, problem.start), Tuples(problem.atoms, k))


def sketch(kinds: str, *rules: dict[str, str]) -> tuple[tuple[Feature, ...], tuple[Rule, ...]]:
    """Features from words like `H:b n:t`, and rules from a condition and an effect for each feature that they name."""
    names = [word.split(":") for word in kinds.split()]
    features = tuple(Feature(kind, frozenset([number])) for number, (_, kind) in enumerate(names))
    made = tuple(
        Rule(tuple(Entry(*rule[name]) if name in rule else Entry() for name, _ in names)) for rule in rules
    )
    return features, made


class Searches(unittest.TestCase):
    """One search at a time."""

    def reply(self, problem: Problem, k: int) -> tuple:
        """The whole search's reply as (kind, expanded, kept, length), and the way."""
        search = search_of(problem, k)
        reply = search.work(65_536)
        way = search.way() if reply.kind == "found" else None
        return reply.kind, reply.expanded, reply.kept, reply.length, way

    def test_chain(self) -> None:
        self.assertEqual(self.reply(chain(3), 1), ("found", 3, 3, 3, [0, 1, 2]))
        self.assertEqual(self.reply(chain(3), 0), ("exhausted", 1, 1, 0, None))

    def test_a_target_needs_no_novelty(self) -> None:
        self.assertEqual(self.reply(chain(1), 0), ("found", 1, 1, 1, [0]))

    def test_two_switches(self) -> None:
        self.assertEqual(self.reply(SWITCHES, 1), ("exhausted", 3, 3, 0, None))
        self.assertEqual(self.reply(SWITCHES, 2), ("found", 4, 4, 3, [0, 1, 2]))

    def test_work_in_parts(self) -> None:
        search = search_of(SWITCHES, 2)
        replies = [search.work(n) for n in (0, 1, 1, 2)]
        self.assertEqual(
            [(reply.kind, reply.expanded, reply.kept) for reply in replies],
            [("open", 0, 1), ("open", 1, 3), ("open", 2, 4), ("found", 4, 4)],
        )

    def test_exhausted_is_told_when_none_waits(self) -> None:
        search = search_of(chain(3), 0)
        self.assertEqual(search.work(0).kind, "open")
        self.assertEqual(search.work(1).kind, "exhausted")
        self.assertEqual(search.work(0).kind, "exhausted")

    def test_deletions_come_first(self) -> None:
        action = Action(frozenset(), frozenset([1]), frozenset([0, 1]))
        self.assertEqual(action.after(frozenset([0, 1, 2])), frozenset([1, 2]))


class Keys(unittest.TestCase):
    """The measure of tuples."""

    def test_counts(self) -> None:
        self.assertEqual(Tuples(73, 3).count, 64_898)
        with self.assertRaises(Refused) as caught:
            Tuples(74, 3)
        self.assertEqual(caught.exception.refusal, Refusal(5, 0))
        self.assertEqual((Tuples(31, 2).count, Tuples(32, 2).count), (497, 529))

    def test_keys(self) -> None:
        self.assertEqual(Tuples(4, 2).key((3,)), 4)
        self.assertEqual(Tuples(4, 2).key((1, 3)), 9)

    def test_every_key_once(self) -> None:
        measure = Tuples(7, 3)
        self.assertEqual(sorted(measure.keys(frozenset(range(7)))), list(range(measure.count)))


class Sieve(unittest.TestCase):
    """Which rules are left."""

    def test_number_and_boolean(self) -> None:
        self.assertEqual(rules_left(*sketch("b:b n:t", {"b": "+-", "n": ".+"}, {"n": "+-", "b": ".?"})), [0, 1])

    def test_delivery(self) -> None:
        kinds = "H:b p:t t:t u:t"
        drop = {"H": "+-", "p": ".?", "t": ".?"}
        pick = {"H": "0+", "p": ".?", "t": ".?"}
        deliver = {"u": "+-", "H": ".?", "p": ".?", "t": ".?"}
        near = {"H": "0=", "p": "+-", "t": ".?"}
        home = {"H": "+=", "t": "+-", "p": ".?"}
        self.assertEqual(rules_left(*sketch(kinds, pick, deliver)), [])
        self.assertEqual(rules_left(*sketch(kinds, drop, pick)), [0, 1])
        self.assertEqual(rules_left(*sketch(kinds, pick, deliver, near, home)), [2, 3])

    def test_the_order_of_strikes_does_not_matter(self) -> None:
        random = Random(1)
        for _ in range(300):
            kinds = " ".join(f"f{number}:{random.choice('bt')}" for number in range(3))
            rules = [
                {f"f{number}": random.choice(".+0") + random.choice("=?+-") for number in range(3)}
                for _ in range(random.randint(1, 6))
            ]
            features, made = sketch(kinds, *rules)
            order = list(range(len(made)))
            random.shuffle(order)
            left = rules_left(features, tuple(made[number] for number in order))
            self.assertEqual(sorted(order[number] for number in left), rules_left(features, made))

    def test_an_empty_rule_is_left(self) -> None:
        self.assertEqual(rules_left(*sketch("n:t", {}, {"n": "+-"})), [0])
        self.assertEqual(rules_left(*sketch("n:t")), [])


class Text(unittest.TestCase):
    """The reader and the printed answer."""

    def test_lines(self) -> None:
        self.assertEqual(lines_of(b""), [])
        self.assertEqual(lines_of(b"\n"), [b""])
        self.assertEqual(lines_of(b"a\n\nb"), [b"a", b"", b"b"])

    def test_numerals(self) -> None:
        self.assertEqual([numeral(field) for field in (b"0", b"10", b"00", b"", b"-1", b"1a")], [0, 10] + [None] * 4)
        self.assertEqual(numeral(b"1" + b"0" * 9_000), 10**9_000)

    def test_whole_line_before_the_next_check(self) -> None:
        for line, refusal in ((b"64 p 01", 1), (b"64 x 0", 2), (b"64 p 999", 2), (b"64 p 0", 3)):
            self.assertEqual(read(TWO_LAMPS.replace(b"1 a 1", line)), Refusal(refusal, 7))

    def test_missing_lines(self) -> None:
        self.assertEqual(read(b""), Refusal(1, 1))
        self.assertEqual(read(TWO_LAMPS[:-1]), Refusal(1, 15))
        self.assertEqual(read(TWO_LAMPS + b"\n"), Refusal(1, 16))

    def test_printed(self) -> None:
        tables = "search k found expanded kept length\n1 0 1 1 1 1\n2 0 1 1 1 1\n\nstep action\n0 0\n1 1\n"
        self.assertEqual(answer(TWO_LAMPS), (tables, 0))
        self.assertEqual(answer(TWO_LAMPS.replace(b"+ -", b". +")), ("refusal place\n4 1\n", 1))
        none = "search k found expanded kept length\n\nstep action\n"
        self.assertEqual(answer(TWO_LAMPS.replace(b"0 0 1\n1 0 1", b"0 1 1\n1 1 1")), (none, 0))


class BreadthFirst(unittest.TestCase):
    """Plain breadth-first search and admissible sets."""

    def admissible(self, problem: Problem, k: int) -> bool:
        """Whether some set of keys is admissible for the whole problem."""
        model = Subproblem(problem, problem.start)
        return has_admissible_set(Space(model, 1_000), k)

    def test_distances(self) -> None:
        self.assertEqual(distance_to_target(Subproblem(chain(3), frozenset([0])), 100), 3)
        self.assertEqual(distance_to_target(Subproblem(SWITCHES, frozenset()), 100), 3)
        self.assertIsNone(distance_to_target(Subproblem(chain(0), frozenset([1])), 100))

    def test_admissible(self) -> None:
        self.assertEqual([self.admissible(chain(3), k) for k in range(3)], [False, True, True])
        self.assertEqual([self.admissible(SWITCHES, k) for k in range(3)], [False, False, True])
        self.assertTrue(self.admissible(chain(1), 0))

    def test_a_way_that_is_not_shortest(self) -> None:
        """Three switches show too few pairs for a search of width 2, which still finds a way round them."""
        steps = [(set(), {i}, set()) for i in range(3)] + [({0, 1, 2}, {3}, set())]
        detour = [(set(), {4}, set()), ({4}, {5}, {4}), ({5}, {6}, {5}), ({6}, {7}, {6}), ({7}, {3}, {7})]
        problem = strips(8, set(), {3}, *steps, *detour)
        done = run(problem)
        self.assertEqual([(search.k, search.reply.length) for search in done.searches], [(0, 0), (1, 5)])
        self.assertEqual(distance_to_target(Subproblem(problem, problem.start), 1_000), 4)
        self.assertFalse(self.admissible(problem, 1))


if __name__ == "__main__":
    unittest.main()
