"""Writes problem texts from named atoms."""

from __future__ import annotations

from collections.abc import Iterable
from random import Random


class Builder:
    """A problem that is put together by names; atoms are numbered in the order in which they are first named."""

    def __init__(self, *atoms: str) -> None:
        self.numbers: dict[str, int] = {}
        self.start: set[str] = set()
        self.goal: set[str] = set()
        self.actions: list[tuple[list[str], list[str], list[str]]] = []
        self.features: dict[str, tuple[str, list[str]]] = {}
        self.rules: list[dict[str, str]] = []
        for atom in atoms:
            self.atom(atom)

    def atom(self, name: str) -> str:
        """Number the atom if it is new."""
        self.numbers.setdefault(name, len(self.numbers))
        return name

    def action(self, needs: Iterable[str], adds: Iterable[str], deletes: Iterable[str] = ()) -> None:
        """The next action."""
        self.actions.append(tuple([self.atom(name) for name in names] for names in (needs, adds, deletes)))

    def feature(self, name: str, kind: str, atoms: Iterable[str]) -> None:
        """The next feature; it needs an atom at least, since the text names it by its atoms."""
        self.features[name] = (kind, [self.atom(atom) for atom in atoms])

    def rule(self, **entries: str) -> None:
        """The next rule: for each feature that it names, a condition and an effect."""
        self.rules.append(entries)

    def text(self, shuffle: Random | None = None) -> bytes:
        """The problem's text; the lines of the last three tables in another order if asked, which means the same."""
        tables = [self.atom_lines(), self.action_lines(), self.feature_lines(), self.rule_lines()]
        if shuffle is not None:
            for table in tables[1:]:
                shuffle.shuffle(table)
        names = ["atom start goal", "action role atom", "feature kind atom", "rule feature when then"]
        lines = [line for name, table in zip(names, tables) for line in [name, *table, ""]]
        return "".join(line + "\n" for line in lines).encode()

    def atom_lines(self) -> list[str]:
        """A line for each atom."""
        return [f"{number} {int(name in self.start)} {int(name in self.goal)}" for name, number in self.numbers.items()]

    def action_lines(self) -> list[str]:
        """A line for each atom that an action names."""
        return [
            f"{number} {role} {self.numbers[atom]}"
            for number, action in enumerate(self.actions)
            for role, atoms in zip("pad", action)
            for atom in atoms
        ]

    def feature_lines(self) -> list[str]:
        """A line for each atom of a feature."""
        return [
            f"{number} {kind} {self.numbers[atom]}"
            for number, (kind, atoms) in enumerate(self.features.values())
            for atom in atoms
        ]

    def rule_lines(self) -> list[str]:
        """A line for each entry of a rule."""
        order = list(self.features)
        return [
            f"{number} {order.index(name)} {entry[0]} {entry[1]}"
            for number, rule in enumerate(self.rules)
            for name, entry in rule.items()
        ]
