"""What a problem is: STRIPS actions, features, rules, and the subproblem at a state.

A state is the set of the numbers of its true atoms.
"""

from __future__ import annotations

from dataclasses import dataclass
from typing import NamedTuple

NOTHING: frozenset[int] = frozenset()


class Refusal(NamedTuple):
    """Why something is not done: the refusal's number and its place, 0 for no place."""

    number: int
    place: int


class Refused(Exception):
    """Raised where something is refused; carries the refusal."""

    def __init__(self, number: int, place: int = 0) -> None:
        super().__init__(f"refusal {number}, place {place}")
        self.refusal = Refusal(number, place)


@dataclass(frozen=True)
class Action:
    """An action: the atoms that it needs, adds and deletes."""

    needs: frozenset[int] = NOTHING
    adds: frozenset[int] = NOTHING
    deletes: frozenset[int] = NOTHING

    def applies(self, state: frozenset[int]) -> bool:
        """It applies where every atom that it needs is true."""
        return self.needs <= state

    def after(self, state: frozenset[int]) -> frozenset[int]:
        """The state that follows: deletions come first, then additions."""
        return (state - self.deletes) | self.adds


@dataclass(frozen=True)
class Feature:
    """A kind (b, t or f) and a set of atoms; an unnamed one is empty and of kind t."""

    kind: str = "t"
    atoms: frozenset[int] = NOTHING

    @property
    def is_boolean(self) -> bool:
        """Kind b is Boolean; t and f are numbers."""
        return self.kind == "b"

    def value(self, state: frozenset[int]) -> int:
        """b: 1 when some atom of the set is true; t: how many are true; f: how many are false."""
        true = len(self.atoms & state)
        if self.kind == "b":
            return 1 if true > 0 else 0
        if self.kind == "t":
            return true
        return len(self.atoms) - true


@dataclass(frozen=True)
class Entry:
    """What a rule says of one feature: a condition and an effect."""

    when: str = "."
    then: str = "="

    def condition_holds(self, before: int) -> bool:
        """`.` always, `+` above zero, `0` zero."""
        if self.when == "+":
            return before > 0
        if self.when == "0":
            return before == 0
        return True

    def effect_holds(self, boolean: bool, before: int, after: int) -> bool:
        """`=` unchanged, `?` free, `+` rises (a Boolean: 1 afterwards), `-` falls (a Boolean: 0 afterwards)."""
        if self.then == "=":
            return after == before
        if self.then == "?":
            return True
        if self.then == "+":
            return after == 1 if boolean else after > before
        return after == 0 if boolean else after < before


@dataclass(frozen=True)
class Rule:
    """One entry for each feature."""

    entries: tuple[Entry, ...]

    def accepts(self, features: tuple[Feature, ...], before: list[int], after: list[int]) -> bool:
        """A pair of states, given by their feature values, where every condition and every effect holds."""
        return all(
            entry.condition_holds(b) and entry.effect_holds(feature.is_boolean, b, a)
            for entry, feature, b, a in zip(self.entries, features, before, after, strict=True)
        )


@dataclass(frozen=True)
class Problem:
    """A STRIPS problem with its features and the rules of its sketch."""

    atoms: int
    start: frozenset[int]
    goal: frozenset[int]
    actions: tuple[Action, ...]
    features: tuple[Feature, ...] = ()
    rules: tuple[Rule, ...] = ()

    def is_target(self, state: frozenset[int]) -> bool:
        """A target has every goal atom true."""
        return self.goal <= state

    def successors(self, state: frozenset[int]) -> list[tuple[int, frozenset[int]]]:
        """Each action that applies, in rising order, with the state that follows."""
        return [(number, action.after(state)) for number, action in enumerate(self.actions) if action.applies(state)]

    def values(self, state: frozenset[int]) -> list[int]:
        """The value of each feature."""
        return [feature.value(state) for feature in self.features]


class Subproblem:
    """The same problem from another start, with more targets: the states to which some rule leads from that start."""

    def __init__(self, problem: Problem, start: frozenset[int]) -> None:
        self.problem = problem
        self.atoms = problem.atoms
        self.start = start
        self.before = problem.values(start)

    def is_target(self, state: frozenset[int]) -> bool:
        """A target of the problem, or a state that some rule accepts after the start."""
        if self.problem.is_target(state):
            return True
        after = self.problem.values(state)
        return any(rule.accepts(self.problem.features, self.before, after) for rule in self.problem.rules)

    def successors(self, state: frozenset[int]) -> list[tuple[int, frozenset[int]]]:
        """As in the problem."""
        return self.problem.successors(state)
