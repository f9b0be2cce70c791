"""Shows that the corpora tell: `python3 tests/slips.py`.

Each slip below is planted in a copy of the reference, one at a time, and the copy answers the stored cases. A slip that
changes no answer would go unnoticed in any program that the corpora are to check; the last line counts those.
"""

from __future__ import annotations

import shutil
import subprocess
import sys
import tempfile
from pathlib import Path
from typing import NamedTuple

HERE = Path(__file__).resolve().parent
LONGEST = 120


class Slip(NamedTuple):
    """A file of the reference, a piece of it that stands there once, and what stands there with the slip."""

    file: str
    old: str
    new: str


SLIPS = {
    # the reader
    "a leading zero let through": Slip("reader.py", 'field.startswith(b"0") and field != b"0"', "False"),
    "numerals wrap at 8 bits": Slip("reader.py", "    return value\n\n\ndef letter", "    return value % 256\n\n\ndef letter"),
    "numerals wrap at 32 bits": Slip("reader.py", "    return value\n\n\ndef letter", "    return value % 2**32\n\n\ndef letter"),
    "numerals wrap at 64 bits": Slip("reader.py", "    return value\n\n\ndef letter", "    return value % 2**64\n\n\ndef letter"),
    "long numerals are of no form": Slip("reader.py", "if not field or any", "if not field or len(field) > 19 or any"),
    "the first of several letters": Slip("reader.py", "if len(field) == 1 else", "if len(field) >= 1 else"),
    "any white space between fields": Slip("reader.py", 'line.split(b" ")', "line.split()"),
    "carriage returns dropped": Slip("reader.py", 'pieces = text.split(b"\\n")', 'pieces = text.replace(b"\\r", b"").split(b"\\n")'),
    "a last piece is no line": Slip("reader.py", "return pieces if pieces[-1] else pieces[:-1]", "return pieces[:-1]"),
    "a last piece is always a line": Slip("reader.py", "return pieces if pieces[-1] else pieces[:-1]", "return pieces"),
    "the missing line told one lower": Slip("reader.py", "> len(self.lines), FORM, self.place)", "> len(self.lines), FORM, self.place - 1)"),
    "lines counted from 0": Slip("reader.py", "raise Refused(number, place)", "raise Refused(number, max(0, place - 1))"),
    "one byte too few": Slip("reader.py", "len(text) > most_bytes", "len(text) >= most_bytes"),
    "one byte too many": Slip("reader.py", "len(text) > most_bytes", "len(text) > most_bytes + 1"),
    "no atoms let through": Slip("reader.py", "check(self.atoms == 0, FORM", "check(False, FORM"),
    "atoms in any order": Slip("reader.py", "check(atom != self.atoms, FORM", "check(False, FORM"),
    "257 atoms": Slip("reader.py", "atom >= MOST_ATOMS", "atom > MOST_ATOMS"),
    "255 atoms": Slip("reader.py", "atom >= MOST_ATOMS", "atom >= MOST_ATOMS - 1"),
    "start past 1 let through": Slip("reader.py", "start > 1 or goal > 1", "goal > 1"),
    "goal past 1 let through": Slip("reader.py", "start > 1 or goal > 1", "start > 1"),
    "65 actions": Slip("reader.py", "action >= self.most_actions", "action > self.most_actions"),
    "63 actions": Slip("reader.py", "action >= self.most_actions", "action >= self.most_actions - 1"),
    "9 features": Slip("reader.py", "feature >= MOST_FEATURES", "feature > MOST_FEATURES"),
    "7 features": Slip("reader.py", "feature >= MOST_FEATURES", "feature >= MOST_FEATURES - 1"),
    "17 rules": Slip("reader.py", "rule >= MOST_RULES", "rule > MOST_RULES"),
    "15 rules": Slip("reader.py", "rule >= MOST_RULES", "rule >= MOST_RULES - 1"),
    "an action's atom one past": Slip("reader.py", '("p", "a", "d") or atom >=', '("p", "a", "d") or atom >'),
    "a feature's atom one past": Slip("reader.py", "not is_kind or atom >=", "not is_kind or atom >"),
    "a rule's feature one past": Slip("reader.py", "feature >= count_of(self.kinds) or", "feature > count_of(self.kinds) or"),
    "range and limit swapped": Slip(
        "reader.py",
        'check(role not in ("p", "a", "d") or atom >= self.atoms, RANGE, self.place)\n',
        'check(action >= self.most_actions, LIMIT, self.place)\n'
        '        check(role not in ("p", "a", "d") or atom >= self.atoms, RANGE, self.place)\n',
    ),
    "a second kind let through": Slip("reader.py", "is_kind and self.kinds.get(feature, kind) != kind", "False"),
    "any letter is a second kind": Slip("reader.py", "is_kind and self.kinds.get", "self.kinds.get"),
    "a doubled rule let through": Slip("reader.py", "check((rule, feature) in self.entries", "check(False"),
    "a doubled rule after its range": Slip(
        "reader.py", "check((rule, feature) in self.entries", 'check(when in ".+0" and then in "=?+-" and (rule, feature) in self.entries'
    ),
    "lines behind the fourth table": Slip("reader.py", "check(self.place < len(self.lines), FORM", "check(False, FORM"),
    "the sieve left out": Slip("reader.py", "check(left > 0, RULES_LEFT, left)", "check(False, RULES_LEFT, left)"),
    "all rules counted as left": Slip("reader.py", "check(left > 0, RULES_LEFT, left)", "check(left > 0, RULES_LEFT, len(problem.rules))"),
    "an unnamed feature is Boolean": Slip("reader.py", 'self.kinds.get(number, "t")', 'self.kinds.get(number, "b")'),
    "gaps closed": Slip("reader.py", "return max(named, default=-1) + 1", "return len(named)"),
    # the sieve
    "a number's fall without effect": Slip("sieve.py", 'return entry.then == "-"', 'return entry.when == "+" and entry.then == "-"'),
    "a Boolean's - taken for a fall": Slip("sieve.py", 'return entry.when == "+" and entry.then == "-"', 'return entry.then == "-"'),
    "a number surely raised": Slip("sieve.py", 'feature.is_boolean and entry.when == "0"', 'entry.when == "0"'),
    "a Boolean surely raised from 1": Slip("sieve.py", 'feature.is_boolean and entry.when == "0" and', "feature.is_boolean and"),
    "? forgotten in may raise": Slip("sieve.py", 'entry.then in ("+", "?")', 'entry.then in ("+",)'),
    "? forgotten in may lower": Slip("sieve.py", 'entry.then in ("-", "?")', 'entry.then in ("-",)'),
    "may raise a Boolean that is 1": Slip("sieve.py", 'and not (feature.is_boolean and entry.when == "+")', ""),
    "may not raise a number above 0": Slip("sieve.py", 'not (feature.is_boolean and entry.when == "+")', 'not entry.when == "+"'),
    "may lower a Boolean that is 0": Slip("sieve.py", 'and entry.when != "0"', ""),
    "one strike only": Slip("sieve.py", "left.remove(struck[0])", "left.remove(struck[0])\n        return left"),
    "struck rules still raise": Slip("sieve.py", "remaining = [rules[number] for number in left]", "remaining = list(rules)"),
    # the model, features and rules
    "deletions after additions": Slip("model.py", "(state - self.deletes) | self.adds", "(state | self.adds) - self.deletes"),
    "any precondition is enough": Slip("model.py", "return self.needs <= state", "return not self.needs or bool(self.needs & state)"),
    "any goal atom is enough": Slip("model.py", "return self.goal <= state", "return not self.goal or bool(self.goal & state)"),
    "Boolean of all atoms": Slip("model.py", "1 if true > 0 else 0", "1 if true == len(self.atoms) else 0"),
    "false atoms counted as true": Slip("model.py", "return len(self.atoms) - true", "return true"),
    "condition + always": Slip("model.py", "return before > 0", "return True"),
    "condition 0 always": Slip("model.py", "return before == 0", "return True"),
    "unchanged taken for free": Slip("model.py", "return after == before", "return True"),
    "a Boolean's + as a rise": Slip("model.py", "after == 1 if boolean else after > before", "after > before"),
    "a Boolean's - as a fall": Slip("model.py", "after == 0 if boolean else after < before", "after < before"),
    "a number's + as not falling": Slip("model.py", "else after > before", "else after >= before"),
    "a number's - as not rising": Slip("model.py", "else after < before", "else after <= before"),
    "rules judged from the first start": Slip("model.py", "problem.values(start)", "problem.values(problem.start)"),
    "the goal is no target below a rule": Slip("model.py", "if self.problem.is_target(state):", "if self.problem.is_target(state) and not self.problem.rules:"),
    "rules forgotten": Slip("model.py", "for rule in self.problem.rules)", "for rule in ())"),
    "only the first rule": Slip("model.py", "for rule in self.problem.rules)", "for rule in self.problem.rules[:1])"),
    # searches
    "novelty before the target": Slip(
        "planner.py", "if self.model.is_target(state):", "if self.is_novel(state) and self.model.is_target(state):"
    ),
    "the target judged on expansion": Slip(
        "planner.py", "if self.model.is_target(state):", "if self.model.is_target(self.nodes[number].state):"
    ),
    "one new key marked": Slip(
        "planner.py",
        "for key in self.measure.keys(node.state):",
        "for key in [key for key in self.measure.keys(node.state) if self.marks[key] == 0][:1]:",
    ),
    "only the largest tuples": Slip("planner.py", "for size in range(self.k + 1) for members", "for size in [self.k] for members"),
    "tuples of k - 1": Slip("planner.py", "for size in range(self.k + 1) for members", "for size in range(max(1, self.k)) for members"),
    "keys of different sizes mixed": Slip("planner.py", "return below + sum(", "return min(1, below) + sum("),
    "every key new": Slip("planner.py", "if self.is_novel(state):", "if len(self.nodes) < self.measure.count:"),
    "only a wholly new state kept": Slip(
        "planner.py",
        "return any(self.marks[key] == 0 for key in self.measure.keys(state))",
        "return all(self.marks[key] == 0 for key in self.measure.keys(state) if key)",
    ),
    "the start unmarked": Slip("planner.py", "self.keep(Node(model.start))", "self.nodes.append(Node(model.start))"),
    "actions in falling order": Slip("planner.py", "self.model.successors(self.nodes[number].state):", "self.model.successors(self.nodes[number].state)[::-1]:"),
    "only the first action": Slip("planner.py", "self.model.successors(self.nodes[number].state):", "self.model.successors(self.nodes[number].state)[:1]:"),
    "the last expansion uncounted": Slip(
        "planner.py", 'Reply("found", self.expanded,', 'Reply("found", self.expanded - 1,'
    ),
    "the target counted as kept": Slip("planner.py", "len(self.nodes), len(self.way()))", "len(self.nodes) + 1, len(self.way()))"),
    "the length one lower": Slip("planner.py", "len(self.nodes), len(self.way()))", "len(self.nodes), len(self.way()) - 1)"),
    "the way backwards": Slip("planner.py", "return actions[::-1]", "return actions"),
    # runs
    "no k = 0": Slip("planner.py", "WIDTHS = (0, 1, 2)", "WIDTHS = (1, 2)"),
    "no k = 2": Slip("planner.py", "WIDTHS = (0, 1, 2)", "WIDTHS = (0, 1)"),
    "the narrowest last": Slip("planner.py", "WIDTHS = (0, 1, 2)", "WIDTHS = (2, 1, 0)"),
    "511 steps": Slip("planner.py", "len(self.plan) + len(way) > self.places", "len(self.plan) + len(way) >= self.places"),
    "513 steps": Slip("planner.py", "len(self.plan) + len(way) > self.places", "len(self.plan) + len(way) > self.places + 1"),
    "room asked for one step": Slip("planner.py", "len(self.plan) + len(way) > self.places", "len(self.plan) + 1 > self.places"),
    "places for 496 keys": Slip("planner.py", "if self.places < measure.count", "if 496 < measure.count"),
    "places for 529 keys": Slip("planner.py", "if self.places < measure.count", "if 529 < measure.count"),
    "each search from the first start": Slip("planner.py", "Search(Subproblem(self.problem, self.current)", "Search(Subproblem(self.problem, self.problem.start)"),
    "one way only": Slip("planner.py", "found = any(self.try_width(k) for k in WIDTHS)", "any(self.try_width(k) for k in WIDTHS)\n            found = False"),
    "all widths always": Slip("planner.py", "any(self.try_width(k) for k in WIDTHS)", "any([self.try_width(k) for k in WIDTHS])"),
    "searches numbered from 0": Slip("planner.py", "Ended(len(self.searches) + 1", "Ended(len(self.searches)"),
    "searches numbered by width": Slip("planner.py", "Ended(len(self.searches) + 1", "Ended(k + 1"),
    "a refusal behind the tables": Slip("planner.py", "        return refusal_lines(done.refusal)\n    lines =", "        pass\n    lines ="),
    "a search at a target": Slip("planner.py", "while found and not self.problem.is_target(self.current):", "while found:"),
    "no empty line between the tables": Slip("planner.py", 'lines += ["", "step action"]', 'lines += ["step action"]'),
    "steps counted from 1": Slip("planner.py", "in enumerate(done.plan)]", "in enumerate(done.plan, start=1)]"),
}

ANSWERS = """
import sys
from pathlib import Path

sys.path[:0] = [sys.argv[1], sys.argv[2] + "/generators"]
from cases import Case, split
from model import Refusal
from planner import answer
from reader import read

corpus = Path(sys.argv[2]) / "corpus"


def guarded(call, text):
    try:
        return call(text)
    except Exception as error:
        return repr(error)


def text_answer(text):
    made = read(text)
    if isinstance(made, Refusal):
        return f"{made.number} {made.place}"
    return f"0 0 {made.atoms} {len(made.actions)} {len(made.features)} {len(made.rules)}"


def printed(text):
    return answer(text)[0]


expected = [line.split(" ", 1)[1] for line in (corpus / "texts.expected").read_text().splitlines()]
texts = sum(guarded(text_answer, case.text) != was for case, was in zip(split((corpus / "texts.cases").read_bytes()), expected))
cases = split((corpus / "problems.cases").read_bytes())
stored = (corpus / "problems.expected").read_text()
problems = 0
for case in cases:
    head = f"case {case.name}\\n"
    at = stored.index(head) + len(head)
    end = stored.find("\\ncase ", at)
    was = stored[at:end] if end >= 0 else stored[at:-1]
    problems += guarded(printed, case.text) != was
print(texts, problems)
"""


def caught(slip: Slip | None) -> str:
    """How many texts and problems are answered otherwise with the slip."""
    with tempfile.TemporaryDirectory() as folder:
        copy = Path(folder) / "reference"
        shutil.copytree(HERE / "reference", copy, ignore=shutil.ignore_patterns("__pycache__"))
        if slip is not None:
            source = (copy / slip.file).read_text()
            assert source.count(slip.old) == 1, slip
            (copy / slip.file).write_text(source.replace(slip.old, slip.new))
        command = [sys.executable, "-c", ANSWERS, str(copy), str(HERE)]
        try:
            done = subprocess.run(command, capture_output=True, text=True, timeout=LONGEST)
        except subprocess.TimeoutExpired:
            return "no end"
        return done.stdout.strip() or "no answer"


def main() -> int:
    """Try each slip; the reference itself must answer as stored."""
    assert caught(None) == "0 0"
    missed = 0
    print("texts problems slip")
    for name, slip in SLIPS.items():
        counts = caught(slip)
        missed += counts == "0 0"
        print(counts, name, flush=True)
    print(f"{len(SLIPS) - missed} noticed, {missed} missed")
    return 1 if missed else 0


if __name__ == "__main__":
    sys.exit(main())
