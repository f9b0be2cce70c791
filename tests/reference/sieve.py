"""The sieve over the rules of a sketch."""

from __future__ import annotations

from model import Entry, Feature, Rule


def surely_lowers(feature: Feature, entry: Entry) -> bool:
    """A number with effect `-`; a Boolean with condition `+` and effect `-`."""
    if feature.is_boolean:
        return entry.when == "+" and entry.then == "-"
    return entry.then == "-"


def surely_raises(feature: Feature, entry: Entry) -> bool:
    """A Boolean with condition `0` and effect `+`; never a number."""
    return feature.is_boolean and entry.when == "0" and entry.then == "+"


def may_raise(feature: Feature, entry: Entry) -> bool:
    """Effect `+` or `?`, but not a Boolean that is 1 already."""
    return entry.then in ("+", "?") and not (feature.is_boolean and entry.when == "+")


def may_lower(feature: Feature, entry: Entry) -> bool:
    """A Boolean with effect `-` or `?`, unless it is 0 already."""
    return feature.is_boolean and entry.then in ("-", "?") and entry.when != "0"


def can_be_struck(features: tuple[Feature, ...], rule: Rule, remaining: list[Rule]) -> bool:
    """It surely changes a feature in a direction that no remaining rule may undo."""
    for number, feature in enumerate(features):
        entry = rule.entries[number]
        others = [other.entries[number] for other in remaining]
        if surely_lowers(feature, entry) and not any(may_raise(feature, other) for other in others):
            return True
        if surely_raises(feature, entry) and not any(may_lower(feature, other) for other in others):
            return True
    return False


def rules_left(features: tuple[Feature, ...], rules: tuple[Rule, ...]) -> list[int]:
    """The numbers of the rules that stand when none can be struck any more. A sketch is accepted when there are none."""
    left = list(range(len(rules)))
    while True:
        remaining = [rules[number] for number in left]
        struck = [number for number in left if can_be_struck(features, rules[number], remaining)]
        if not struck:
            return left
        left.remove(struck[0])
