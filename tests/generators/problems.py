"""The corpus of problems: named texts, most of them small, each with its whole run."""

from __future__ import annotations

from random import Random

import domains as d
from builder import Builder
from cases import Case
from randoms import random_problems

SWITCH_SKETCHES = ("none", "count", "each", "rising")
DELIVERY_SKETCHES = ("none", "drop", "pick", "drop-pick", "deliver", "pick-deliver")
GRIPPER_SKETCHES = ("none", "deliver", "pick-deliver", "room", "to-and-fro")
BLOCK_SKETCHES = ("none", "goals", "goals-free-hand", "table", "goals-then-table", "hand")
ROUND_TRIP_SKETCHES = ("none", "pick", "deliver", "pick-deliver", "near", "home", "all-four")


def chains() -> list[Case]:
    """Walks along a line."""
    cases = [Case(f"chain-{n}-to-{goal}", d.chain(n, goal).text()) for n, goal in ((3, 3), (3, 1), (1, 1), (12, 12), (63, 63))]
    cases += [Case(f"road-{n}-to-{goal}", d.chain(n, goal, True).text()) for n, goal in ((4, 4), (20, 13), (31, 31))]
    backwards = d.chain(4, 0)
    backwards.start = {"at2"}
    cases.append(Case("chain-no-way-back", backwards.text()))
    return cases


def switch_cases() -> list[Case]:
    """Switches in any order, in a fixed order, and ones that spoil each other."""
    cases = []
    for count in (1, 2, 3, 5, 8):
        for which in SWITCH_SKETCHES:
            cases.append(Case(f"switches-{count}-{which}", d.switch_sketch(d.switches(count), which).text()))
    for count in (3, 6):
        for which in SWITCH_SKETCHES[:3]:
            made = d.switch_sketch(d.switches(count, needs_last=True), which)
            cases.append(Case(f"ladder-{count}-{which}", made.text()))
            made = d.switch_sketch(d.switches(count, spoils=True), which)
            cases.append(Case(f"spoiling-{count}-{which}", made.text()))
    cases.append(Case("switches-31-none", d.switches(31).text()))
    cases.append(Case("switches-32-none", d.switches(32).text()))
    some = d.switches(40)
    some.feature("off", "f", [f"on{i}" for i in range(5)])
    some.rule(off="+-")
    cases.append(Case("switches-40-stopped-by-places", some.text()))
    cases.append(Case("switches-64-count", d.switch_sketch(d.switches(64), "count").text()))
    cases.append(Case("switches-64-none", d.switches(64).text()))
    cases.append(Case("switches-65-count", d.switch_sketch(d.switches(65), "count").text()))
    return cases


def counter_cases() -> list[Case]:
    """Binary counters: short ones, ones whose plan fills all 512 steps, and ones that need more."""
    cases = [Case(f"counter-{bits}-alone", d.counter(bits, sketch=False).text()) for bits in range(1, 7)]
    cases += [Case(f"counter-{bits}-bits", d.counter(bits).text()) for bits in range(1, 9)]
    cases += [Case(f"counter-{b}-by-{p}", d.counter(b, p).text()) for b, p in ((2, 2), (3, 3), (4, 2), (4, 5), (5, 4))]
    cases += [Case(f"counter-3-tail-{tail}", d.counter(3, 1, tail).text()) for tail in (1, 2, 5)]
    cases.append(Case("counter-511-steps", d.counter(8, 2, 1).text()))
    cases.append(Case("counter-512-steps", d.counter(8, 2, 2).text()))
    cases.append(Case("counter-513-steps", d.counter(8, 2, 3).text()))
    cases.append(Case("counter-765-steps", d.counter(8, 3).text()))
    cases.append(Case("counter-635-steps", d.counter(7, 5).text()))
    return cases


def delivery_cases() -> list[Case]:
    """Deliveries on grids, each problem with every sketch or with some."""
    cases = []
    for name, made in [
        ("1x3", lambda: d.delivery(1, 3, 0, [2], 0)),
        ("1x5-two", lambda: d.delivery(1, 5, 2, [0, 4], 2)),
        ("2x2-three", lambda: d.delivery(2, 2, 0, [1, 2, 3], 0)),
        ("2x3-two", lambda: d.delivery(2, 3, 0, [5, 4], 2)),
        ("3x3", lambda: d.delivery(3, 3, 4, [8], 0)),
    ]:
        for which in DELIVERY_SKETCHES:
            cases.append(Case(f"delivery-{name}-{which}", d.delivery_sketch(made(), which).text()))
    random = Random(11)
    for number, (rows, columns, packages, anywhere) in enumerate(
        [(1, 4, 1, True), (1, 6, 2, True), (2, 2, 2, True), (2, 3, 2, False), (2, 4, 1, True), (2, 4, 2, False)] * 2
        + [(3, 3, 1, True), (3, 3, 2, False), (3, 4, 1, False), (2, 3, 3, False), (2, 2, 4, False), (3, 3, 2, False)]
    ):
        cells = range(rows * columns)
        robot, target = random.choice(cells), random.choice(cells)
        places = [random.choice([cell for cell in cells if cell != target]) for _ in range(packages)]
        for which in ("none", "deliver", "pick-deliver") if packages > 1 else ("none", "pick", "pick-deliver"):
            made = d.delivery_sketch(d.delivery(rows, columns, robot, places, target, anywhere), which)
            cases.append(Case(f"delivery-random-{number}-{which}", made.text()))
    for which in ("none", "pick-deliver"):
        walled = d.delivery_sketch(d.delivery(1, 4, 0, [3], 0), which)
        walled.actions = [action for action in walled.actions if action[1] != ["robot2"]]
        cases.append(Case(f"delivery-walled-{which}", walled.text()))
    return cases


def gripper_cases() -> list[Case]:
    """Gripper with one to seven balls; with seven the measure of pairs has no room."""
    cases = []
    for balls in (1, 2, 3):
        for which in GRIPPER_SKETCHES:
            cases.append(Case(f"gripper-{balls}-{which}", d.gripper_sketch(d.gripper(balls), which).text()))
    for balls in (4, 6, 7):
        for which in ("none", "deliver", "pick-deliver"):
            cases.append(Case(f"gripper-{balls}-{which}", d.gripper_sketch(d.gripper(balls), which).text()))
    cases.append(Case("gripper-4-some-there", d.gripper_sketch(d.gripper(4, 2), "deliver").text()))
    cases.append(Case("gripper-3-all-there", d.gripper_sketch(d.gripper(3, 3), "deliver").text()))
    cases.append(Case("gripper-3-one-hand", d.gripper_sketch(d.gripper(3, 0, 1), "pick-deliver").text()))
    cases.append(Case("gripper-2-no-hand", d.gripper_sketch(d.gripper(2, 0, 0), "deliver").text()))
    cases.append(Case("gripper-8-too-many-actions", d.gripper(8).text()))
    return cases


def block_cases() -> list[Case]:
    """Blocks: known problems with every sketch, and random towers."""
    cases = []
    for name, count, start, goal in [
        ("sussman", 3, [[0, 2], [1]], {"on0-1", "on1-2"}),
        ("sussman-four", 4, [[0, 2], [1], [3]], {"on0-1", "on1-2"}),
        ("tower", 4, [[0, 1], [2, 3]], {"on0-1", "on1-2", "on2-3"}),
    ]:
        for which in BLOCK_SKETCHES:
            cases.append(Case(f"blocks-{name}-{which}", d.block_sketch(d.blocks(count, start, goal), which, count).text()))
    random = Random(13)
    for number in range(8):
        count = random.choice([3, 4, 4])
        start, wanted = d.towers(random, count), d.towers(random, count)
        goal = d.tower_atoms(wanted) if number % 2 else {atom for atom in d.tower_atoms(wanted) if atom.startswith("on")}
        goal = goal or {"table0"}
        for which in ("none", "goals", "goals-then-table"):
            cases.append(Case(f"blocks-random-{number}-{which}", d.block_sketch(d.blocks(count, start, goal), which, count).text()))
    for x in range(4):
        made = d.blocks(4, [[0, 1, 2, 3]], {f"clear{x}"})
        cases.append(Case(f"blocks-clear-{x}", made.text()))
    made = d.block_sketch(d.blocks(5, [[0, 1, 2, 3, 4]], {f"table{x}" for x in range(5)}), "table", 5)
    cases.append(Case("blocks-five-to-the-table", made.text()))
    cases.append(Case("blocks-five-clear", d.blocks(5, [[0, 1, 2], [3, 4]], {"clear0"}).text()))
    cases.append(Case("blocks-five-tower", d.blocks(5, [[0, 1, 2], [3, 4]], {"on0-3", "on3-1"}).text()))
    cases.append(Case("blocks-no-such-tower", d.blocks(3, [[0, 1], [2]], {"on0-1", "on1-0"}).text()))
    cases.append(Case("blocks-six-too-many-actions", d.blocks(6, [[0, 1, 2, 3, 4, 5]], {"clear0"}).text()))
    return cases


def sliding_cases() -> list[Case]:
    """Sliding puzzles of two rows and of three, with tiles that have names of their own or only letters."""
    cases = []
    random = Random(17)
    for number, (rows, columns, board, moves, wanted) in enumerate(
        [(2, 2, ".abc", 16, 4), (2, 2, ".abc", 19, 2), (2, 2, ".abb", 15, 4)]
        + [(2, 3, ".abcdd", 17, 6), (2, 3, ".abcdd", 32, 3), (2, 3, ".aabbb", 45, 6), (2, 3, ".aabbc", 60, 4), (2, 3, ".abbbb", 41, 2)]
        + [(3, 3, ".aaaabbbb", 28, 9), (3, 3, ".aaaabbbb", 54, 4), (3, 3, "a.bbbbbbb", 61, 2), (3, 3, ".aaabbbaa", 90, 3)]
    ):
        start = d.slid(random, rows, columns, board, moves)
        goal = {cell: letter for cell, letter in enumerate(board) if cell < wanted}
        cases.append(Case(f"sliding-{number}-none", d.sliding(rows, columns, start, goal).text()))
        cases.append(Case(f"sliding-{number}-misplaced", d.misplaced_sketch(d.sliding(rows, columns, start, goal)).text()))
    cases.append(Case("sliding-odd", d.sliding(2, 2, ".bac", dict(enumerate(".abc"))).text()))
    cases.append(Case("sliding-odd-misplaced", d.misplaced_sketch(d.sliding(2, 2, ".bac", dict(enumerate(".abc")))).text()))
    cases.append(Case("sliding-done", d.sliding(2, 3, ".aabbb", dict(enumerate(".aabbb"))).text()))
    return cases


def hanoi_cases() -> list[Case]:
    """Towers of Hanoi."""
    cases = []
    for discs in (1, 2, 3, 4, 5):
        goal = [2] * discs
        cases.append(Case(f"hanoi-{discs}-none", d.hanoi(discs, [0] * discs, goal).text()))
        cases.append(Case(f"hanoi-{discs}-largest-first", d.hanoi_sketch(d.hanoi(discs, [0] * discs, goal), goal).text()))
        made = d.misplaced_sketch(d.hanoi(discs, [0] * discs, goal))
        cases.append(Case(f"hanoi-{discs}-misplaced", made.text()))
    cases.append(Case("hanoi-3-mixed", d.hanoi(3, [0, 1, 2], [2, 0, 1]).text()))
    return cases


def walk_cases() -> list[Case]:
    """Walks that are to visit cells, lifts, journeys with fuel, and round trips."""
    cases = []
    for rows, columns, robot in ((1, 5, 0), (1, 7, 3), (2, 3, 1), (3, 3, 4), (3, 5, 7), (4, 4, 0)):
        every = list(range(rows * columns))
        cases.append(Case(f"visit-{rows}x{columns}-none", d.visit_all(rows, columns, robot, every).text()))
        cases.append(Case(f"visit-{rows}x{columns}-unseen", d.misplaced_sketch(d.visit_all(rows, columns, robot, every)).text()))
        some = every[:: max(2, columns - 1)]
        cases.append(Case(f"visit-{rows}x{columns}-some", d.misplaced_sketch(d.visit_all(rows, columns, robot, some)).text()))
    for name, floors, riders in (("one", 3, [(2, 1)]), ("three", 4, [(1, 3), (2, 0), (3, 1)]), ("four", 6, [(5, 0), (0, 5), (2, 3), (4, 4)])):
        cases.append(Case(f"lift-{name}-none", d.lift(floors, riders).text()))
        for which in ("serve", "board"):
            cases.append(Case(f"lift-{name}-{which}", d.lift_sketch(d.lift(floors, riders), which).text()))
    for length, fuel, refill in ((3, 3, None), (4, 3, None), (4, 3, 2), (5, 3, 3), (6, 4, 4), (6, 3, 2)):
        cases.append(Case(f"journey-{length}-{fuel}-{'dry' if refill is None else refill}", d.journey(length, fuel, refill).text()))
    for length in (2, 5):
        for which in ROUND_TRIP_SKETCHES:
            cases.append(Case(f"round-trip-{length}-{which}", d.round_trip_sketch(d.round_trip(length), which).text()))
    return cases


def lamp_cases() -> list[Case]:
    """Lamps that turn their neighbours."""
    cases = []
    for count, lit in ((2, []), (3, []), (3, [0]), (4, [1]), (4, []), (5, [0, 1]), (6, [5])):
        name = f"lamps-{count}-{''.join(map(str, lit)) or 'dark'}"
        cases.append(Case(f"{name}-none", d.lamps(count, lit).text()))
        cases.append(Case(f"{name}-count", d.misplaced_sketch(d.lamps(count, lit)).text()))
    return cases


def detour(branches: int, length: int) -> Builder:
    """So many switches open the door at once; a longer way round needs none of them."""
    made = Builder(*(f"s{i}" for i in range(branches)), "door")
    made.goal = {"door"}
    for i in range(branches):
        made.action([], [f"s{i}"])
    made.action([f"s{i}" for i in range(branches)], ["door"])
    for step in range(length):
        needs = [f"w{step}"] if step else []
        made.action(needs, [f"w{step + 1}"] if step + 1 < length else ["door"], needs)
    return made


def wide(sketch: bool) -> Builder:
    """All of 256 atoms and of 64 actions: each action makes four atoms true, and needs one of those before it."""
    made = Builder(*(f"x{i}" for i in range(256)))
    made.goal = {f"x{i}" for i in range(256)}
    for i in range(64):
        made.action([f"x{4 * i - 1}"] if i else [], [f"x{4 * i + j}" for j in range(4)])
    if sketch:
        made.feature("off", "f", [f"x{i}" for i in range(256)])
        made.rule(off="+-")
    return made


def filled(text: bytes, size: int) -> bytes:
    """The text with its first action line (of 6 bytes) or a line of action 10 repeated, up to this many bytes."""
    missing = size - len(text)
    sevens = missing % 6
    more = b"10 p 9\n" * sevens + b"0 a 0\n" * ((missing - 7 * sevens) // 6)
    return text.replace(b"action role atom\n", b"action role atom\n" + more)


def size_cases() -> list[Case]:
    """Problems at the limits of atoms, actions and bytes."""
    ladder = d.switch_sketch(d.switches(12, needs_last=True), "count").text()
    return [
        Case("wide-256-count", wide(True).text()),
        Case("wide-256-none", wide(False).text()),
        Case("bytes-16384", filled(ladder, 16_384)),
        Case("bytes-16385", filled(ladder, 16_385)),
    ]


def shape_cases() -> list[Case]:
    """Small texts of odd shape: nothing to do, nothing that can be done, gaps, actions that change nothing."""
    cases = [Case(f"detour-{b}-{n}", detour(b, n).text()) for b, n in ((2, 4), (3, 5), (3, 9), (4, 6), (4, 12))]
    for name, text in {
        "start-is-target": "0 1 1|1 0 0//0 a 1//",
        "no-goal": "0 0 0|1 1 0//0 a 0//",
        "no-goal-with-sketch": "0 0 0//0 a 0//0 f 0//0 0 + -",
        "target-and-rules-left": "0 1 1//0 a 0//0 t 0//0 0 . +",
        "no-actions": "0 0 1////",
        "no-actions-with-sketch": "0 0 1|1 1 0////0 f 0|1 b 1//0 0 + -",
        "empty-action": "0 0 1//1 a 0////",
        "only-empty-actions": "0 0 1|1 1 0//9 p 0////",
        "action-that-changes-nothing": "0 1 0|1 0 1//0 p 0|0 a 0|0 d 0|1 p 0|1 a 1////",
        "deletes-what-it-adds": "0 1 0|1 0 1//0 p 0|0 a 1|0 d 1|0 d 0////",
        "adds-after-deletes": "0 1 1|1 0 1//0 p 0|0 d 0|0 a 0|0 a 1////",
        "deletes-for-the-goal": "0 1 0|1 1 1|2 0 1//0 d 1|0 a 2|1 a 1////",
        "boolean-stays-one": "0 1 0|1 0 0|2 0 1//0 a 1|1 d 0|2 p 1|2 a 2//0 b 0|0 b 1|1 f 2//0 1 + -|0 0 + +",
        "boolean-plus-from-one": "0 1 0|1 0 0|2 0 1//0 a 1|1 p 1|1 a 2//0 b 0|1 f 1|2 f 2//0 1 + -|0 0 . +|1 2 + -|1 1 . ?",
        "boolean-minus-from-zero": "0 0 0|1 0 0|2 0 1//0 a 1|1 p 1|1 a 2//0 b 0|1 f 1|2 f 2//0 1 + -|0 0 . -|1 2 + -|1 1 . ?",
        "number-minus-at-zero": "0 0 1|1 0 0//0 a 0//0 t 1//0 0 0 -",
        "unnamed-feature": "0 0 1|1 0 1//0 a 0|1 a 1//2 f 0|2 f 1//0 2 + -",
        "unnamed-feature-falls": "0 0 1|1 0 1//0 a 0|1 a 1//1 f 0|1 f 1//0 1 + -|1 0 + -",
        "unnamed-feature-at-zero": "0 0 1|1 0 1//0 a 0|1 a 1//1 f 0|1 f 1//0 1 + -|0 0 0 =",
        "unnamed-feature-above-zero": "0 0 1|1 0 1//0 a 0|1 a 1//1 f 0|1 f 1//0 1 + -|0 0 + =",
        "gap-rule": "0 0 1|1 0 1//0 a 0|1 a 1//0 f 0|0 f 1//1 0 + -",
        "rule-that-cannot-fire": "0 0 1|1 0 1//0 a 0|1 a 1//0 f 0|0 f 1//0 0 0 -",
        "rule-below-the-goal": "0 0 1|1 0 1|2 0 0//0 a 2|1 p 2|1 a 0|2 p 0|2 a 1//0 f 2//0 0 + -",
        "two-rules-one-step": "0 0 1|1 0 1//0 a 0|1 a 1|2 a 0|2 a 1//0 f 0|1 f 1//0 0 + -|1 1 + -|1 0 . ?",
        "dead-end-after-a-rule": "0 1 0|1 0 0|2 0 1//0 p 0|0 d 0|0 a 1|1 p 0|1 p 1|1 a 2//0 f 1//0 0 + -",
        "lowest-action-first": "0 0 0|1 0 0|2 0 1//0 a 0|1 a 1|2 p 1|2 a 2|3 p 0|3 a 2////",
        "lowest-number-first": "0 0 0|1 0 0|2 0 0|3 0 0|4 0 1//0 a 1|0 a 0|1 a 0|2 p 0|2 a 2|3 p 2|3 a 4|4 p 1|4 a 3|5 p 3|5 a 4////",
        "lines-in-another-order": "0 1 0|1 0 1//1 a 1|0 d 0|1 p 0|0 a 1|0 d 0//1 b 1|0 f 1|0 f 1//0 1 . ?|0 0 + -",
        "three-of-width-two": "0 0 0|1 0 0|2 0 0|3 0 1//0 a 0|1 a 1|2 a 2|3 p 0|3 p 1|3 p 2|3 a 3////",
    }.items():
        tables = [table.split("|") if table else [] for table in (text.split("//") + [""] * 4)[:4]]
        cases.append(Case(f"shape-{name}", text_of(tables)))
    return cases


def text_of(tables: list[list[str]]) -> bytes:
    """A text from the value lines of its four tables."""
    names = ["atom start goal", "action role atom", "feature kind atom", "rule feature when then"]
    return "".join("".join(line + "\n" for line in [name, *table, ""]) for name, table in zip(names, tables)).encode()


def fault_cases() -> list[Case]:
    """A few texts that are refused before any search."""
    good = d.switch_sketch(d.switches(3), "count").text()
    return [
        Case("fault-empty", b""),
        Case("fault-names", good.replace(b"action role atom", b"action atom role")),
        Case("fault-leading-zero", good.replace(b"\n1 a 1\n", b"\n01 a 1\n")),
        Case("fault-role", good.replace(b"\n1 a 1\n", b"\n1 q 1\n")),
        Case("fault-atom-past-the-table", good.replace(b"\n1 a 1\n", b"\n1 a 3\n")),
        Case("fault-action-64", good.replace(b"\n1 a 1\n", b"\n64 a 1\n")),
        Case("fault-feature-8", good.replace(b"\n0 f 1\n", b"\n8 f 1\n")),
        Case("fault-second-kind", good.replace(b"\n0 f 1\n", b"\n0 t 1\n")),
        Case("fault-feature-past-the-table", good.replace(b"\n0 0 + -\n", b"\n0 1 + -\n")),
        Case("fault-doubled-rule", good.replace(b"\n0 0 + -\n", b"\n0 0 + -\n0 0 + -\n")),
        Case("fault-last-line-missing", good[:-1]),
        Case("fault-line-behind-the-end", good + b"\n"),
        Case("fault-too-many-bytes", good + b"\n" * 16_384),
        Case("fault-carriage-returns", good.replace(b"\n", b"\r\n")),
    ]


def shuffled_cases() -> list[Case]:
    """Problems whose lines stand in another order, which changes nothing."""
    random = Random(19)
    return [
        Case("shuffled-blocks", d.block_sketch(d.blocks(4, [[0, 1], [2, 3]], {"on0-1", "on1-2", "on2-3"}), "goals", 4).text(random)),
        Case("shuffled-gripper", d.gripper_sketch(d.gripper(3), "deliver").text(random)),
        Case("shuffled-counter", d.counter(4, 2).text(random)),
        Case("shuffled-hanoi", d.hanoi(3, [0, 0, 0], [2, 2, 2]).text(random)),
    ]


def problem_cases() -> list[Case]:
    """All of them, under names that are each given once."""
    cases = chains() + switch_cases() + counter_cases() + delivery_cases() + gripper_cases() + block_cases()
    cases += sliding_cases() + hanoi_cases() + walk_cases() + lamp_cases() + size_cases() + shape_cases()
    cases += shuffled_cases() + fault_cases()
    cases += [Case(name, text) for name, text in random_problems()]
    assert len({case.name for case in cases}) == len(cases)
    long = [case.name for case in cases if len(case.text) > 16_384]
    assert long == ["bytes-16385", "fault-too-many-bytes"]
    return cases
