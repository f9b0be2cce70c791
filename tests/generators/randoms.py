"""Random STRIPS problems with random sketches, chosen so that every way for a run to end is there several times."""

from __future__ import annotations

from collections import Counter
from random import Random

from bfs import TooLarge, distance_to_target
from builder import Builder
from model import Problem, Refusal
from planner import Run, run
from reader import read

# how many random problems of each ending are wanted
WANTED = {
    "target at the start": 3,
    "solved by k = 0": 10,
    "solved by k = 1": 24,
    "solved by k = 2": 30,
    "a way that is not shortest": 16,
    "stopped without a step": 14,
    "stopped after some steps": 16,
    "refused 4": 8,
    "refused 9": 8,
}


def subset(random: Random, names: list[str], least: int, most: int) -> list[str]:
    """Some of the names, in their order."""
    size = random.randint(least, min(most, len(names)))
    chosen = set(random.sample(names, size))
    return [name for name in names if name in chosen]


def random_model(random: Random, atoms: int, actions: int) -> Builder:
    """Random actions that mostly need some atoms and trade others for them."""
    names = [f"x{i}" for i in range(atoms)]
    made = Builder(*names)
    made.start = set(subset(random, names, 0, 3))
    made.goal = set(subset(random, names, 1, 3))
    for _ in range(actions):
        needs = subset(random, names, 0, 3)
        deletes = subset(random, needs, 0, 2) if random.random() < 0.7 else subset(random, names, 0, 3)
        made.action(needs, subset(random, names, 1, 2), deletes)
    return made


def random_sketch(random: Random, made: Builder) -> None:
    """Features of every kind, and rules that mostly change one feature for good and leave later ones free."""
    names = list(made.numbers)
    many = random.random() < 0.2
    for number in range(random.randint(6, 8) if many else random.randint(1, 5)):
        atoms = sorted(made.goal, key=made.numbers.get) if random.random() < 0.4 else subset(random, names, 1, 5)
        made.feature(f"f{number}", random.choice("btf"), atoms)
    kinds = {name: kind for name, (kind, _) in made.features.items()}
    for _ in range(random.randint(8, 16) if many else random.randint(1, 5)):
        head = random.choice(list(kinds))
        entries = {}
        for name, kind in kinds.items():
            if name == head:
                entries[name] = random.choice(["+-", "0+"]) if kind == "b" else random.choice(["+-", ".-"])
            elif name > head:
                entries[name] = random.choice(".+0.") + random.choice("=??+-")
            elif random.random() < 0.3:
                entries[name] = random.choice(".+0") + "="
            elif random.random() < 0.05:
                entries[name] = random.choice(".+0") + random.choice("?+-")
        made.rule(**entries)


def ending(problem: Problem | Refusal) -> str:
    """How the run of a problem ends."""
    if isinstance(problem, Refusal):
        return f"refused {problem.number}"
    done = run(problem)
    if done.refusal is not None:
        return f"refused {done.refusal.number}"
    if not done.searches:
        return "target at the start"
    if has_longer_way(done):
        return "a way that is not shortest"
    if done.searches[-1].reply.kind != "found":
        return "stopped after some steps" if done.plan else "stopped without a step"
    return f"solved by k = {max(search.k for search in done.searches)}"


def has_longer_way(done: Run) -> bool:
    """Whether some search found a way that is longer than the shortest; of large problems this is not asked."""
    try:
        return any(search.reply.length > distance_to_target(search.model, 2_000) for search in done.searches if search.way)
    except TooLarge:
        return False


def random_problems() -> list[tuple[str, bytes]]:
    """Tries random problems until each ending is there as often as wanted."""
    random = Random(7)
    missing = Counter(WANTED)
    made = []
    while missing.total() > 0:
        large = random.random() < 0.3
        atoms = random.randint(28, 45) if large else random.randint(2, 20)
        candidate = random_model(random, atoms, random.randint(20, 40) if large else random.randint(1, 24))
        if random.random() < 0.75:
            random_sketch(random, candidate)
        text = candidate.text(random if random.random() < 0.3 else None)
        ends = ending(read(text))
        if missing[ends] > 0:
            missing[ends] -= 1
            made.append((f"random-{len(made)}", text))
    return made
