"""The reader of problem text: bytes to a problem, or to a refusal with its place.

A text has four tables. Each is a line of names, then lines of values, then an empty line:

    atom start goal
    action role atom
    feature kind atom
    rule feature when then

Every line is checked over its whole width for form (1), then for values out of range (2), then for limits (3); the
first faulty line decides. The sieve (4) comes after the whole text.
"""

from __future__ import annotations

from collections.abc import Callable

from model import Action, Entry, Feature, Problem, Refusal, Refused, Rule
from sieve import rules_left

MOST_BYTES = 16_384
MOST_ATOMS = 256
MOST_ACTIONS = 64
MOST_FEATURES = 8
MOST_RULES = 16

FORM, RANGE, LIMIT, RULES_LEFT = 1, 2, 3, 4


def lines_of(text: bytes) -> list[bytes]:
    """A newline ends a line; what stands behind the last newline is a line if it is not empty."""
    pieces = text.split(b"\n")
    return pieces if pieces[-1] else pieces[:-1]


def numeral(field: bytes) -> int | None:
    """The number that the digits stand for, however many they are; None for another field or a leading zero."""
    if not field or any(byte not in b"0123456789" for byte in field):
        return None
    if field.startswith(b"0") and field != b"0":
        return None
    value = 0
    for byte in field:
        value = 10 * value + (byte - ord("0"))
    return value


def letter(field: bytes) -> str | None:
    """The one byte of the field as a character; None for another length."""
    return chr(field[0]) if len(field) == 1 else None


NUMBER, LETTER = numeral, letter


def values_of(line: bytes, columns: list[Callable], place: int) -> list:
    """The values of a line, one for each column, with one space between; refuses any other form."""
    fields = line.split(b" ")
    if len(fields) != len(columns):
        raise Refused(FORM, place)
    values = [column(field) for column, field in zip(columns, fields)]
    if any(value is None for value in values):
        raise Refused(FORM, place)
    return values


def check(refuses: bool, number: int, place: int) -> None:
    """Refuse if told to."""
    if refuses:
        raise Refused(number, place)


class Reader:
    """Reads one text, line after line, and gathers what the four tables say."""

    def __init__(self, text: bytes, most_actions: int) -> None:
        self.lines = lines_of(text)
        self.place = 0
        self.most_actions = most_actions
        self.atoms = 0
        self.start: set[int] = set()
        self.goal: set[int] = set()
        self.roles: dict[int, dict[str, set[int]]] = {}
        self.kinds: dict[int, str] = {}
        self.members: dict[int, set[int]] = {}
        self.entries: dict[tuple[int, int], Entry] = {}

    def next_line(self) -> bytes:
        """The next line; a wanted line past the end is refused with the number that it would have."""
        self.place += 1
        check(self.place > len(self.lines), FORM, self.place)
        return self.lines[self.place - 1]

    def table(self, names: bytes, value_line: Callable[[bytes], None]) -> None:
        """The names line, the lines of values, and the empty line."""
        check(self.next_line() != names, FORM, self.place)
        line = self.next_line()
        while line:
            value_line(line)
            line = self.next_line()

    def atom_line(self, line: bytes) -> None:
        """`atom start goal`: atoms are numbered 0, 1, 2 ..; start and goal are 0 or 1."""
        atom, start, goal = values_of(line, [NUMBER, NUMBER, NUMBER], self.place)
        check(atom != self.atoms, FORM, self.place)
        check(start > 1 or goal > 1, RANGE, self.place)
        check(atom >= MOST_ATOMS, LIMIT, self.place)
        self.atoms += 1
        if start:
            self.start.add(atom)
        if goal:
            self.goal.add(atom)

    def action_line(self, line: bytes) -> None:
        """`action role atom`: a role is p, a or d."""
        action, role, atom = values_of(line, [NUMBER, LETTER, NUMBER], self.place)
        check(role not in ("p", "a", "d") or atom >= self.atoms, RANGE, self.place)
        check(action >= self.most_actions, LIMIT, self.place)
        self.roles.setdefault(action, {"p": set(), "a": set(), "d": set()})[role].add(atom)

    def feature_line(self, line: bytes) -> None:
        """`feature kind atom`: a kind is b, t or f, and one for each feature."""
        feature, kind, atom = values_of(line, [NUMBER, LETTER, NUMBER], self.place)
        is_kind = kind in ("b", "t", "f")
        check(is_kind and self.kinds.get(feature, kind) != kind, FORM, self.place)
        check(not is_kind or atom >= self.atoms, RANGE, self.place)
        check(feature >= MOST_FEATURES, LIMIT, self.place)
        self.kinds[feature] = kind
        self.members.setdefault(feature, set()).add(atom)

    def rule_line(self, line: bytes) -> None:
        """`rule feature when then`: each pair of rule and feature at most once."""
        rule, feature, when, then = values_of(line, [NUMBER, NUMBER, LETTER, LETTER], self.place)
        check((rule, feature) in self.entries, FORM, self.place)
        known = when in (".", "+", "0") and then in ("=", "?", "+", "-")
        check(feature >= count_of(self.kinds) or not known, RANGE, self.place)
        check(rule >= MOST_RULES, LIMIT, self.place)
        self.entries[rule, feature] = Entry(when, then)

    def four_tables(self) -> Problem:
        """Reads the whole text, and puts the sketch through the sieve."""
        self.table(b"atom start goal", self.atom_line)
        check(self.atoms == 0, FORM, self.place)
        self.table(b"action role atom", self.action_line)
        self.table(b"feature kind atom", self.feature_line)
        self.table(b"rule feature when then", self.rule_line)
        check(self.place < len(self.lines), FORM, self.place + 1)
        problem = self.problem()
        left = len(rules_left(problem.features, problem.rules))
        check(left > 0, RULES_LEFT, left)
        return problem

    def problem(self) -> Problem:
        """What the tables say; whatever they leave unnamed is empty, of kind t, `.` or `=`."""
        return Problem(
            atoms=self.atoms,
            start=frozenset(self.start),
            goal=frozenset(self.goal),
            actions=tuple(self.action(number) for number in range(count_of(self.roles))),
            features=tuple(self.feature(number) for number in range(count_of(self.kinds))),
            rules=tuple(self.rule(number) for number in range(count_of({rule: 0 for rule, _ in self.entries}))),
        )

    def action(self, number: int) -> Action:
        """The action of this number, with empty sets if it is unnamed."""
        sets = self.roles.get(number, {"p": set(), "a": set(), "d": set()})
        return Action(needs=frozenset(sets["p"]), adds=frozenset(sets["a"]), deletes=frozenset(sets["d"]))

    def feature(self, number: int) -> Feature:
        """The feature of this number, empty and of kind t if it is unnamed."""
        return Feature(self.kinds.get(number, "t"), frozenset(self.members.get(number, set())))

    def rule(self, number: int) -> Rule:
        """The rule of this number, `.` and `=` for every feature that it does not name."""
        return Rule(tuple(self.entries.get((number, feature), Entry()) for feature in range(count_of(self.kinds))))


def count_of(named: dict[int, object]) -> int:
    """One above the highest number named, 0 if there is none."""
    return max(named, default=-1) + 1


def read(text: bytes, most_bytes: int = MOST_BYTES, most_actions: int = MOST_ACTIONS) -> Problem | Refusal:
    """The problem that the text means, or the refusal of its first fault. Too many bytes is told before any line."""
    if len(text) > most_bytes:
        return Refusal(LIMIT, 0)
    try:
        return Reader(text, most_actions).four_tables()
    except Refused as refused:
        return refused.refusal
