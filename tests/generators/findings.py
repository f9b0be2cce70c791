"""Holds each run of the corpus against plain breadth-first search and against what must stand after every run."""

from __future__ import annotations

from typing import NamedTuple

from bfs import Space, TooLarge, distance_to_target, has_admissible_set
from model import Problem, Subproblem
from planner import Ended, Run

# up to so many states breadth-first search looks for a target, and the question of admissible sets is settled
MOST_FOR_DISTANCE = 200_000
MOST_FOR_KEYS = 2_500

COLUMNS = "problem searches found shortest longer sure exhausted excluded open"


class Counts(NamedTuple):
    """What was confirmed of the searches of a run.

    found: ended with a way, of which `shortest` are as short as breadth-first search's, `longer` are not, and `sure` had
    to be shortest because some set of keys is admissible. exhausted: ended without one, of which for `excluded` it was
    computed that no set of keys is admissible. open: too many states to settle whether some set of keys is admissible.
    """

    searches: int = 0
    found: int = 0
    shortest: int = 0
    longer: int = 0
    sure: int = 0
    exhausted: int = 0
    excluded: int = 0
    open: int = 0

    def plus(self, other: Counts) -> Counts:
        """Both together."""
        return Counts(*(a + b for a, b in zip(self, other)))


def end_of(problem: Problem, state: frozenset[int], way: tuple[int, ...]) -> frozenset[int]:
    """Where a way leads; each of its actions must apply."""
    for number in way:
        assert problem.actions[number].applies(state)
        state = problem.actions[number].after(state)
    return state


def space_of(model: Subproblem, spaces: dict[frozenset[int], Space | None]) -> Space | None:
    """The states of a subproblem, kept for its next search; None if they are too many."""
    if model.start not in spaces:
        try:
            spaces[model.start] = Space(model, MOST_FOR_KEYS)
        except TooLarge:
            spaces[model.start] = None
    return spaces[model.start]


def confirm_search(search: Ended, spaces: dict[frozenset[int], Space | None]) -> Counts:
    """One search: its counts, its way, its length against the distance, and what an admissible set of keys implies."""
    reply = search.reply
    assert 1 <= reply.expanded <= reply.kept <= search.measure.count
    space = space_of(search.model, spaces)
    admissible = None if space is None else has_admissible_set(space, search.k)
    if reply.kind == "exhausted":
        assert reply.expanded == reply.kept and reply.length == 0
        assert not admissible, "an admissible set of keys, and yet exhausted"
        return Counts(1, exhausted=1, excluded=int(admissible is False), open=int(admissible is None))
    assert search.model.is_target(end_of(search.model.problem, search.model.start, search.way))
    assert len(search.way) == reply.length >= 1
    distance = distance_to_target(search.model, MOST_FOR_DISTANCE)
    assert distance is not None and distance <= reply.length, "shorter than the shortest"
    shortest = distance == reply.length
    assert shortest or not admissible, "an admissible set of keys, and yet not shortest"
    return Counts(
        1, found=1, shortest=int(shortest), longer=int(not shortest), sure=int(admissible is True), open=int(admissible is None)
    )


def confirm_plan(done: Run) -> None:
    """The ways of the searches make the plan; it ends at a target or where the last three searches found nothing; no two
    segments begin at states that agree in every feature."""
    problem = done.problem
    ways = [search for search in done.searches if search.way]
    if done.refusal is not None and done.refusal.number == 11:
        assert len(done.plan) <= done.places < len(done.plan) + len(ways.pop().way)
    assert [action for search in ways for action in search.way] == done.plan
    starts = [tuple(problem.values(search.model.start)) for search in ways]
    assert len(set(starts)) == len(starts), "two segments begin at states that agree in every feature"
    assert end_of(problem, problem.start, tuple(done.plan)) == done.current
    assert [search.number for search in done.searches] == list(range(1, len(done.searches) + 1))
    if done.refusal is None and not problem.is_target(done.current):
        last = done.searches[-3:]
        assert [(search.k, search.reply.kind) for search in last] == [(k, "exhausted") for k in (0, 1, 2)]
        assert all(search.model.start == done.current for search in last)


def confirm(done: Run) -> Counts:
    """The whole run."""
    confirm_plan(done)
    spaces: dict[frozenset[int], Space | None] = {}
    counts = Counts()
    for search in done.searches:
        counts = counts.plus(confirm_search(search, spaces))
    return counts
