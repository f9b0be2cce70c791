"""Planning domains as problem texts: deliveries on grids, gripper, blocks, switches, sliding puzzles and others.

Each maker gives a builder without a sketch; `sketches` of the same domain puts rules on it.
"""

from __future__ import annotations

from itertools import product
from random import Random

from builder import Builder


def neighbours(rows: int, columns: int) -> list[tuple[int, int]]:
    """The ordered pairs of cells side by side, row by row."""
    cells = [(row, column) for row in range(rows) for column in range(columns)]
    return [
        (r * columns + c, s * columns + d)
        for r, c in cells
        for s, d in ((r - 1, c), (r + 1, c), (r, c - 1), (r, c + 1))
        if 0 <= s < rows and 0 <= d < columns
    ]


def chain(length: int, goal: int, back: bool = False) -> Builder:
    """A walk along atoms 0 to `length`, one way, or both ways if asked."""
    made = Builder(*(f"at{i}" for i in range(length + 1)))
    made.start, made.goal = {"at0"}, {f"at{goal}"}
    for i in range(length):
        made.action([f"at{i}"], [f"at{i + 1}"], [f"at{i}"])
        if back:
            made.action([f"at{i + 1}"], [f"at{i}"], [f"at{i + 1}"])
    return made


def switches(count: int, needs_last: bool = False, spoils: bool = False) -> Builder:
    """Switches to be turned on, each by an action of its own; in order if asked, or each turning the last one off."""
    made = Builder(*(f"on{i}" for i in range(count)))
    made.goal = {f"on{i}" for i in range(count)}
    for i in range(count):
        needs = [f"on{i - 1}"] if needs_last and i else []
        deletes = [f"on{i - 1}"] if spoils and i else []
        made.action(needs, [f"on{i}"], deletes)
    return made


def switch_sketch(made: Builder, which: str) -> Builder:
    """Count down the switches that are off; or one Boolean and rule a switch; or count up, which the sieve leaves."""
    names = sorted(made.goal, key=made.numbers.get)
    if which == "count":
        made.feature("off", "f", names)
        made.rule(off="+-")
    if which == "each":
        for name in names:
            made.feature(name, "b", [name])
        for name in names:
            made.rule(**{name: "0+"})
    if which == "rising":
        made.feature("on", "t", names)
        made.rule(on=".+")
    return made


def counter(bits: int, phases: int = 1, tail: int = 0, sketch: bool = True) -> Builder:
    """A binary counter that is to reach all ones, each tick taking `phases` actions; then `tail` steps more.

    The sketch has a rule for each bit: it turns to 1, lower ones are free.
    """
    made = Builder(*(f"{v}{i}" for i in range(bits) for v in ("zero", "one")))
    made.start = {f"zero{i}" for i in range(bits)} | ({"phase0"} if phases > 1 else set())
    made.goal = {f"one{i}" for i in range(bits)} if tail == 0 else {f"tail{tail}"}
    for i in range(bits):
        lower = range(i)
        needs = [f"one{j}" for j in lower] + [f"zero{i}"]
        adds = [f"zero{j}" for j in lower] + [f"one{i}"]
        deletes = list(needs)
        if phases > 1:
            needs.append(f"phase{phases - 1}")
            adds.append("phase0")
            deletes.append(f"phase{phases - 1}")
        made.action(needs, adds, deletes)
    for phase in range(phases - 1):
        made.action([f"phase{phase}"], [f"phase{phase + 1}"], [f"phase{phase}"])
    for step in range(tail):
        needs = [f"tail{step}"] if step else [f"one{i}" for i in range(bits)]
        made.action(needs, [f"tail{step + 1}"], [f"tail{step}"] if step else [])
    if sketch:
        for i in range(bits):
            made.feature(f"one{i}", "b", [f"one{i}"])
        for i in range(bits):
            made.rule(**{f"one{j}": ".?" for j in range(i)}, **{f"one{i}": "0+"})
    return made


def delivery(rows: int, columns: int, robot: int, packages: list[int], target: int, drop_anywhere: bool = True) -> Builder:
    """A robot on a grid that carries one package at a time to the target cell."""
    cells = range(rows * columns)
    made = Builder(*(f"robot{cell}" for cell in cells), "free")
    made.start = {f"robot{robot}", "free"} | {f"p{i}at{cell}" for i, cell in enumerate(packages)}
    made.goal = {f"p{i}at{target}" for i in range(len(packages))}
    for a, b in neighbours(rows, columns):
        made.action([f"robot{a}"], [f"robot{b}"], [f"robot{a}"])
    for i, cell in product(range(len(packages)), cells):
        made.action([f"robot{cell}", f"p{i}at{cell}", "free"], [f"held{i}"], [f"p{i}at{cell}", "free"])
    for i, cell in product(range(len(packages)), cells if drop_anywhere else [target]):
        made.action([f"robot{cell}", f"held{i}"], [f"p{i}at{cell}", "free"], [f"held{i}"])
    return made


def delivery_sketch(made: Builder, which: str) -> Builder:
    """Rules over holding a package (H) and the number of undelivered packages (u)."""
    goal = sorted(made.goal)
    made.feature("H", "b", [f"held{i}" for i in range(len(goal))])
    made.feature("u", "f", goal)
    if which in ("drop", "drop-pick"):
        made.rule(H="+-")
    if which in ("pick", "drop-pick", "pick-deliver"):
        made.rule(H="0+")
    if which in ("deliver", "pick-deliver"):
        made.rule(u="+-", H=".?")
    return made


def gripper(balls: int, at_goal: int = 0, free: int = 2) -> Builder:
    """Balls to be carried from room a to room b by two grippers; some are there already."""
    made = Builder("robot-a", "robot-b", "free0", "free1")
    made.start = {"robot-a"} | {f"free{g}" for g in range(free)}
    made.start |= {f"ball{i}b" if i < at_goal else f"ball{i}a" for i in range(balls)}
    made.goal = {f"ball{i}b" for i in range(balls)}
    made.action(["robot-a"], ["robot-b"], ["robot-a"])
    made.action(["robot-b"], ["robot-a"], ["robot-b"])
    for i, room, g in product(range(balls), "ab", range(2)):
        made.action([f"robot-{room}", f"ball{i}{room}", f"free{g}"], [f"held{i}by{g}"], [f"ball{i}{room}", f"free{g}"])
    for i, room, g in product(range(balls), "ab", range(2)):
        made.action([f"robot-{room}", f"held{i}by{g}"], [f"ball{i}{room}", f"free{g}"], [f"held{i}by{g}"])
    return made


def gripper_sketch(made: Builder, which: str) -> Builder:
    """Rules over the balls that are not in room b (u), the free places (c for atoms of holding that are false), the room."""
    balls = len(made.goal)
    held = [f"held{i}by{g}" for i in range(balls) for g in range(2)]
    made.feature("u", "f", [f"ball{i}b" for i in range(balls)])
    made.feature("c", "f", held)
    made.feature("B", "b", ["robot-b"])
    if which in ("deliver", "pick-deliver", "room"):
        made.rule(u="+-", c=".?", B=".?")
    if which == "pick-deliver":
        made.rule(c="+-", B=".?")
    if which == "room":
        made.rule(B="0+", c=".?")
    if which == "to-and-fro":
        made.rule(u="+-", c=".+", B="+=")
        made.rule(c="+-", B="0=")
        made.rule(B="0+")
        made.rule(B="+-")
    return made


def tower_atoms(towers: list[list[int]]) -> set[str]:
    """What is true of towers of blocks, each from the table up, with a free hand."""
    atoms = {"hand"}
    for tower in towers:
        atoms.add(f"table{tower[0]}")
        atoms.add(f"clear{tower[-1]}")
        atoms |= {f"on{above}-{below}" for below, above in zip(tower, tower[1:])}
    return atoms


def blocks(count: int, start: list[list[int]], goal: set[str]) -> Builder:
    """Blocks, a table and one hand; pick up, put down, stack and take off."""
    pairs = [(x, y) for x in range(count) for y in range(count) if x != y]
    made = Builder(*(f"{word}{x}" for word in ("clear", "table", "held") for x in range(count)), "hand")
    for x, y in pairs:
        made.atom(f"on{x}-{y}")
    made.start, made.goal = tower_atoms(start), goal
    for x in range(count):
        needs = [f"clear{x}", f"table{x}", "hand"]
        made.action(needs, [f"held{x}"], needs)
    for x in range(count):
        made.action([f"held{x}"], [f"clear{x}", f"table{x}", "hand"], [f"held{x}"])
    for x, y in pairs:
        needs = [f"held{x}", f"clear{y}"]
        made.action(needs, [f"clear{x}", f"on{x}-{y}", "hand"], needs)
    for x, y in pairs:
        needs = [f"clear{x}", f"on{x}-{y}", "hand"]
        made.action(needs, [f"held{x}", f"clear{y}"], needs)
    return made


def block_sketch(made: Builder, which: str, count: int) -> Builder:
    """Rules over the missing goal atoms (g), the blocks off the table (n), and the free hand (h)."""
    made.feature("g", "f", sorted(made.goal))
    made.feature("n", "f", [f"table{x}" for x in range(count)])
    made.feature("h", "b", ["hand"])
    if which in ("goals", "goals-then-table"):
        made.rule(g="+-", n=".?", h=".?")
    if which == "goals-free-hand":
        made.rule(g="+-", n=".?", h=".+")
    if which in ("table", "goals-then-table"):
        made.rule(n="+-", h=".?")
    if which == "hand":
        made.rule(h="0+", n=".?")
        made.rule(g="+-", n=".?", h="+?")
    return made


def towers(random: Random, count: int) -> list[list[int]]:
    """Random towers of all the blocks."""
    order = list(range(count))
    random.shuffle(order)
    made = [[order[0]]]
    for x in order[1:]:
        if random.random() < 0.5:
            made[-1].append(x)
        else:
            made.append([x])
    return made


def sliding(rows: int, columns: int, start: str, goal: dict[int, str]) -> Builder:
    """A sliding puzzle with tiles of several letters, `.` being the gap; the goal wants letters in some cells."""
    cells = range(rows * columns)
    letters = sorted(set(start) - {"."})
    made = Builder(*(f"{letter}{cell}" for letter in ["."] + letters for cell in cells))
    made.start = {f"{letter}{cell}" for cell, letter in enumerate(start)}
    made.goal = {f"{letter}{cell}" for cell, letter in goal.items()}
    for letter, (a, b) in product(letters, neighbours(rows, columns)):
        made.action([f"{letter}{a}", f".{b}"], [f"{letter}{b}", f".{a}"], [f"{letter}{a}", f".{b}"])
    return made


def slid(random: Random, rows: int, columns: int, board: str, moves: int) -> str:
    """The board after so many random moves of the gap."""
    cells = list(board)
    for _ in range(moves):
        gap = cells.index(".")
        other = random.choice([b for a, b in neighbours(rows, columns) if a == gap])
        cells[gap], cells[other] = cells[other], cells[gap]
    return "".join(cells)


def misplaced_sketch(made: Builder) -> Builder:
    """Count down the goal atoms that are false."""
    made.feature("m", "f", sorted(made.goal))
    made.rule(m="+-")
    return made


def hanoi(discs: int, start: list[int], goal: list[int]) -> Builder:
    """Discs 0 (least) to `discs` - 1 on three pegs; start and goal give each disc's peg."""
    made = Builder(*(f"{word}{d}-{p}" for d in range(discs) for p in range(3) for word in ("on", "off")))
    made.start = {f"{'on' if start[d] == p else 'off'}{d}-{p}" for d in range(discs) for p in range(3)}
    made.goal = {f"on{d}-{goal[d]}" for d in range(discs)}
    for d, p, q in product(range(discs), range(3), range(3)):
        if p != q:
            clear = [f"off{e}-{peg}" for e in range(d) for peg in (p, q)]
            made.action([f"on{d}-{p}", *clear], [f"on{d}-{q}", f"off{d}-{p}"], [f"on{d}-{p}", f"off{d}-{q}"])
    return made


def hanoi_sketch(made: Builder, goal: list[int]) -> Builder:
    """The largest disc first: a rule for each disc puts it on its peg, smaller ones are free."""
    for d, peg in enumerate(goal):
        made.feature(f"d{d}", "b", [f"on{d}-{peg}"])
    for d in range(len(goal)):
        made.rule(**{f"d{e}": ".?" for e in range(d)}, **{f"d{d}": "0+"})
    return made


def visit_all(rows: int, columns: int, robot: int, wanted: list[int]) -> Builder:
    """A robot that is to visit the wanted cells of a grid."""
    cells = range(rows * columns)
    made = Builder(*(f"{word}{cell}" for word in ("robot", "seen") for cell in cells))
    made.start = {f"robot{robot}", f"seen{robot}"}
    made.goal = {f"seen{cell}" for cell in wanted}
    for a, b in neighbours(rows, columns):
        made.action([f"robot{a}"], [f"robot{b}", f"seen{b}"], [f"robot{a}"])
    return made


def lamps(count: int, lit: list[int]) -> Builder:
    """Lamps in a row; pressing one turns it and those beside it; all are to be lit."""
    made = Builder(*(f"{word}{i}" for i in range(count) for word in ("lit", "dark")))
    made.start = {f"{'lit' if i in lit else 'dark'}{i}" for i in range(count)}
    made.goal = {f"lit{i}" for i in range(count)}
    for i in range(count):
        turned = [j for j in (i - 1, i, i + 1) if 0 <= j < count]
        for words in product(("dark", "lit"), repeat=len(turned)):
            needs = [f"{word}{j}" for word, j in zip(words, turned)]
            adds = [f"{'lit' if word == 'dark' else 'dark'}{j}" for word, j in zip(words, turned)]
            made.action(needs, adds, needs)
    return made


def lift(floors: int, riders: list[tuple[int, int]], start: int = 0) -> Builder:
    """A lift with riders, each waiting at a floor for another."""
    made = Builder(*(f"lift{f}" for f in range(floors)))
    made.start = {f"lift{start}"}
    made.goal = {f"served{i}" for i in range(len(riders))}
    for a, b in neighbours(1, floors):
        made.action([f"lift{a}"], [f"lift{b}"], [f"lift{a}"])
    for i, (origin, _) in enumerate(riders):
        made.action([f"lift{origin}"], [f"boarded{i}"])
    for i, (_, wanted) in enumerate(riders):
        made.action([f"lift{wanted}", f"boarded{i}"], [f"served{i}"])
    return made


def lift_sketch(made: Builder, which: str) -> Builder:
    """Serve one more; or board one more first."""
    riders = range(len(made.goal))
    made.feature("s", "f", [f"served{i}" for i in riders])
    made.feature("w", "f", [f"boarded{i}" for i in riders])
    made.rule(s="+-", w=".?")
    if which == "board":
        made.rule(w="+-")
    return made


def journey(length: int, fuel: int, refill: int | None) -> Builder:
    """A road whose every step burns a unit of fuel; it may be filled up at one place."""
    made = Builder(*(f"at{i}" for i in range(length + 1)), *(f"fuel{i}" for i in range(fuel + 1)))
    made.start, made.goal = {"at0", f"fuel{fuel}"}, {f"at{length}"}
    for a, b in neighbours(1, length + 1):
        for unit in range(1, fuel + 1):
            made.action([f"at{a}", f"fuel{unit}"], [f"at{b}", f"fuel{unit - 1}"], [f"at{a}", f"fuel{unit}"])
    if refill is not None:
        for unit in range(fuel):
            made.action([f"at{refill}", f"fuel{unit}"], [f"fuel{fuel}"], [f"fuel{unit}"])
    return made


def round_trip(length: int) -> Builder:
    """A robot fetches a thing from a road's far end. Its place is told by thermometers, so distances are features."""
    made = Builder(*(f"{word}{i}" for i in range(1, length + 1) for word in ("past", "before")))
    made.start = {f"before{i}" for i in range(1, length + 1)} | {"away"}
    made.goal = {"home"}
    for i in range(1, length + 1):
        below = [f"past{i - 1}"] if i > 1 else []
        above = [f"before{i + 1}"] if i < length else []
        made.action([*below, f"before{i}"], [f"past{i}"], [f"before{i}"])
        made.action([*above, f"past{i}"], [f"before{i}"], [f"past{i}"])
    made.action([f"past{length}", "away"], ["held"], ["away"])
    made.action(["before1", "held"], ["home"], ["held"])
    return made


def round_trip_sketch(made: Builder, which: str) -> Builder:
    """Rules over holding (H), the distance to the far end (p), to the near end (t), and what is not home (u)."""
    length = (len(made.numbers) - 3) // 2
    made.feature("H", "b", ["held"])
    made.feature("p", "f", [f"past{i}" for i in range(1, length + 1)])
    made.feature("t", "t", [f"past{i}" for i in range(1, length + 1)])
    made.feature("u", "f", ["home"])
    if which in ("pick", "pick-deliver", "near", "all-four"):
        made.rule(H="0+", p=".?", t=".?")
    if which in ("deliver", "pick-deliver", "all-four"):
        made.rule(u="+-", H=".?", p=".?", t=".?")
    if which in ("near", "all-four"):
        made.rule(H="0=", p="+-", t=".?")
    if which in ("home", "all-four"):
        made.rule(H="+=", t="+-", p=".?")
    return made
