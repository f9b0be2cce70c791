"""Novelty searches over tuples of atoms, and the run that joins them by the sketch.

The program has 512 places each for states, marks and steps. For each subproblem it tries k = 0, 1, 2 and takes over the
first way found. It stops at a target of the problem, or where k = 2 finds nothing either.
"""

from __future__ import annotations

from dataclasses import dataclass, field
from itertools import combinations
from math import comb

from model import Problem, Refusal, Refused, Subproblem
from reader import read

PLACES = 512
MOST_KEYS = 65_536
MOST_SEARCHES = 65_535
WIDTHS = (0, 1, 2)

MANY_KEYS, AT_TARGET, MANY_SEARCHES, FEW_PLACES, PLAN_FULL = 5, 6, 8, 9, 11


class Tuples:
    """The measure whose keys stand for the sets of at most k true atoms."""

    def __init__(self, atoms: int, k: int) -> None:
        self.atoms = atoms
        self.k = k
        self.count = sum(comb(atoms, size) for size in range(k + 1))
        if self.count > MOST_KEYS:
            raise Refused(MANY_KEYS)

    def key(self, members: tuple[int, ...]) -> int:
        """The key of the set i1 < .. < ir: C(N, 0) + .. + C(N, r - 1) + C(i1, 1) + .. + C(ir, r)."""
        below = sum(comb(self.atoms, size) for size in range(len(members)))
        return below + sum(comb(atom, place) for place, atom in enumerate(members, start=1))

    def keys(self, state: frozenset[int]) -> list[int]:
        """The keys of a state: one for each set of at most k of its true atoms."""
        true = sorted(atom for atom in state if atom < self.atoms)
        return [self.key(members) for size in range(self.k + 1) for members in combinations(true, size)]


@dataclass(frozen=True)
class Reply:
    """What work says: open, found or exhausted; and the counts of the whole search."""

    kind: str
    expanded: int
    kept: int
    length: int = 0


@dataclass
class Node:
    """A kept state with its link: the number of the state that it was reached from, and the action."""

    state: frozenset[int]
    parent: int = 0
    action: int = 0


class Search:
    """One search of a subproblem. The kept states are numbered from 0; those from `expanded` on wait."""

    def __init__(self, model: Subproblem, measure: Tuples) -> None:
        self.model = model
        self.measure = measure
        self.marks = [0] * measure.count
        self.nodes: list[Node] = []
        self.expanded = 0
        self.found: Node | None = None
        self.keep(Node(model.start))

    def is_novel(self, state: frozenset[int]) -> bool:
        """Some key of the state is unmarked."""
        return any(self.marks[key] == 0 for key in self.measure.keys(state))

    def keep(self, node: Node) -> None:
        """Keep it under the next number and mark each of its keys."""
        self.nodes.append(node)
        for key in self.measure.keys(node.state):
            self.marks[key] = 1

    def expand(self, number: int) -> None:
        """Try the actions that apply in rising order; a target ends the search, and is judged before novelty."""
        self.expanded += 1
        for action, state in self.model.successors(self.nodes[number].state):
            if self.model.is_target(state):
                self.found = Node(state, number, action)
                return
            if self.is_novel(state):
                self.keep(Node(state, number, action))

    def work(self, most: int) -> Reply:
        """Expand the lowest waiting numbers, at most so many in this call, until a target is found or none waits."""
        done = 0
        while done < most and self.found is None and self.expanded < len(self.nodes):
            self.expand(self.expanded)
            done += 1
        if self.found is not None:
            return Reply("found", self.expanded, len(self.nodes), len(self.way()))
        if self.expanded == len(self.nodes):
            return Reply("exhausted", self.expanded, len(self.nodes))
        return Reply("open", self.expanded, len(self.nodes))

    def way(self) -> list[int]:
        """The actions along the links from number 0 to the target that was found."""
        node = self.found
        actions = [node.action]
        while node.parent != 0:
            node = self.nodes[node.parent]
            actions.append(node.action)
        return actions[::-1]


@dataclass(frozen=True)
class Ended:
    """One ended search of a run: its number, its width, the subproblem, the last reply, and the way if it found one."""

    number: int
    k: int
    model: Subproblem
    measure: Tuples
    reply: Reply
    way: tuple[int, ...] = ()


@dataclass
class Run:
    """What the program does with a problem: its ended searches, its plan, where it stands, and a refusal if any."""

    problem: Problem
    current: frozenset[int]
    places: int = PLACES
    searches: list[Ended] = field(default_factory=list)
    plan: list[int] = field(default_factory=list)
    refusal: Refusal | None = None

    def begin(self, k: int) -> Search:
        """Open the next search at the current state."""
        measure = Tuples(self.problem.atoms, k)
        if len(self.searches) >= MOST_SEARCHES:
            raise Refused(MANY_SEARCHES)
        if self.problem.is_target(self.current):
            raise Refused(AT_TARGET)
        if self.places < measure.count:
            raise Refused(FEW_PLACES)
        return Search(Subproblem(self.problem, self.current), measure)

    def try_width(self, k: int) -> bool:
        """One whole search; a way that it finds is taken over. Says whether it found one."""
        search = self.begin(k)
        reply = search.work(search.measure.count)
        way = tuple(search.way()) if reply.kind == "found" else ()
        self.searches.append(Ended(len(self.searches) + 1, k, search.model, search.measure, reply, way))
        if reply.kind == "found":
            self.adopt(way)
        return reply.kind == "found"

    def adopt(self, way: tuple[int, ...]) -> None:
        """Write the way behind the plan and go to its end; refused if it has no room there."""
        if len(self.plan) + len(way) > self.places:
            raise Refused(PLAN_FULL)
        for number in way:
            self.current = self.problem.actions[number].after(self.current)
        self.plan.extend(way)

    def go(self) -> None:
        """Until a target, or until a subproblem has its third search without a find."""
        found = True
        while found and not self.problem.is_target(self.current):
            found = any(self.try_width(k) for k in WIDTHS)


def run(problem: Problem, places: int = PLACES) -> Run:
    """The whole run of a problem."""
    done = Run(problem, problem.start, places)
    try:
        done.go()
    except Refused as refused:
        done.refusal = refused.refusal
    return done


def refusal_lines(refusal: Refusal) -> list[str]:
    """The two lines that are printed on a refusal, and nothing else."""
    return ["refusal place", f"{refusal.number} {refusal.place}"]


def report_lines(done: Run) -> list[str]:
    """The two tables, with an empty line between; or only the refusal."""
    if done.refusal is not None:
        return refusal_lines(done.refusal)
    lines = ["search k found expanded kept length"]
    for search in done.searches:
        found = 1 if search.reply.kind == "found" else 0
        reply = search.reply
        lines.append(f"{search.number} {search.k} {found} {reply.expanded} {reply.kept} {reply.length}")
    lines += ["", "step action"]
    lines += [f"{step} {action}" for step, action in enumerate(done.plan)]
    return lines


def answer(text: bytes) -> tuple[str, int]:
    """What the program prints for a text, and its exit status."""
    problem = read(text)
    if isinstance(problem, Refusal):
        lines, refused = refusal_lines(problem), True
    else:
        done = run(problem)
        lines, refused = report_lines(done), done.refusal is not None
    return "".join(line + "\n" for line in lines), 1 if refused else 0
