"""Plain breadth-first search, and by brute force the question whether some set of keys is admissible.

Nothing here is shared with the novelty search: these are the second figures that its replies are held against. A key
is here the tuple of atoms that it stands for.
"""

from __future__ import annotations

from collections import deque
from itertools import combinations

from model import Subproblem

Key = tuple[int, ...]


class TooLarge(Exception):
    """More states can be reached than were to be looked at."""


def distance_to_target(model: Subproblem, most_states: int) -> int | None:
    """The length of the shortest ways from the start to a target; None if no way leads to one."""
    if model.is_target(model.start):
        return 0
    seen = {model.start}
    waiting = deque([(model.start, 0)])
    while waiting:
        state, distance = waiting.popleft()
        for _, after in model.successors(state):
            if after in seen:
                continue
            if model.is_target(after):
                return distance + 1
            seen.add(after)
            waiting.append((after, distance + 1))
        if len(seen) > most_states:
            raise TooLarge
    return None


def keys_of(state: frozenset[int], k: int) -> list[Key]:
    """Every tuple of at most k true atoms."""
    return [key for size in range(k + 1) for key in combinations(sorted(state), size)]


class Space:
    """Every state that can be reached from the start, with its distance and the states that follow it."""

    def __init__(self, model: Subproblem, most_states: int) -> None:
        self.start = model.start
        self.distance = {model.start: 0}
        self.after: dict[frozenset[int], list[frozenset[int]]] = {}
        waiting = deque([model.start])
        while waiting:
            state = waiting.popleft()
            self.after[state] = [after for _, after in model.successors(state)]
            for after in self.after[state]:
                if after not in self.distance:
                    self.distance[after] = self.distance[state] + 1
                    waiting.append(after)
            if len(self.distance) > most_states:
                raise TooLarge
        targets = [state for state in self.distance if model.is_target(state)]
        least = min((self.distance[state] for state in targets), default=None)
        self.least_targets = {state for state in targets if self.distance[state] == least}

    def first_shown(self, k: int) -> dict[frozenset[int], set[Key]]:
        """For each state the keys that no state at a smaller distance has: its ways of least length are shortest ways to
        exactly these keys."""
        least: dict[Key, int] = {}
        shown: dict[frozenset[int], set[Key]] = {}
        for state, distance in sorted(self.distance.items(), key=lambda pair: pair[1]):
            keys = keys_of(state, k)
            for key in keys:
                least.setdefault(key, distance)
            shown[state] = {key for key in keys if least[key] == distance}
        return shown


def has_admissible_set(space: Space, k: int) -> bool:
    """Whether some set of keys, tuples of at most k atoms, is admissible.

    A set of keys is admissible when the start has a key in it, and each shortest way to one of its keys either is a
    shortest way to a target or can be lengthened by one action into a shortest way to one of its keys or to a target.
    The second part holds of a union of sets of which it holds. So begin with all keys, take away those that break it
    until none does, and ask whether the start still has one.
    """
    shown = space.first_shown(k)
    left = set().union(*shown.values())

    def goes_on(state: frozenset[int]) -> bool:
        """Of a way of least length to this state: it ends in a target at least distance, or can be lengthened."""
        if state in space.least_targets:
            return True
        further = [a for a in space.after[state] if space.distance[a] == space.distance[state] + 1]
        return any(after in space.least_targets or shown[after] & left for after in further)

    while True:
        broken = {key for state, keys in shown.items() if keys & left and not goes_on(state) for key in keys & left}
        if not broken:
            return bool(shown[space.start] & left)
        left -= broken
