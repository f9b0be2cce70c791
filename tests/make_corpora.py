"""Makes the two corpora and their expected answers anew: `python3 tests/make_corpora.py`.

With `--check` nothing is written; it says whether the stored files are what would be made.
"""

from __future__ import annotations

import sys
from pathlib import Path

HERE = Path(__file__).resolve().parent
sys.path[:0] = [str(HERE / "reference"), str(HERE / "generators")]

from cases import Case, split, stored  # noqa: E402
from findings import COLUMNS, Counts, confirm  # noqa: E402
from model import Refusal  # noqa: E402
from planner import answer, run  # noqa: E402
from problems import problem_cases  # noqa: E402
from reader import read  # noqa: E402
from texts import text_cases  # noqa: E402

# where each file lies: a corpus is what its program reads in the gate, and its answers are what that program must write
CRATES = HERE.parent / "crates"
PLACES = {
    "texts.cases": CRATES / "reader_corpus" / "stdin",
    "texts.expected": CRATES / "reader_corpus" / "stdout",
    "problems.cases": CRATES / "solver_corpus" / "stdin",
    "problems.expected": CRATES / "solver_corpus" / "stdout",
    "problems.summary": HERE / "problems.summary",
}

# what the corpora must hold at least, so that no change of a generator quietly empties them
LEAST_TEXTS = 600
LEAST_PROBLEMS = 500
LEAST_CONFIRMED = Counts(searches=4_600, found=2_500, shortest=2_500, longer=20, sure=2_400, exhausted=2_000, excluded=2_000)


def text_answer(case: Case) -> str:
    """`NAME refusal place`, and for a good text `NAME 0 0 atoms actions features rules`."""
    read_as = read(case.text)
    if isinstance(read_as, Refusal):
        return f"{case.name} {read_as.number} {read_as.place}\n"
    counts = (read_as.atoms, len(read_as.actions), len(read_as.features), len(read_as.rules))
    return f"{case.name} 0 0 {' '.join(map(str, counts))}\n"


def make_texts() -> dict[str, bytes]:
    """The corpus of texts and its answers; where a case states its answer, the reader must give that one."""
    cases = []
    answers = []
    for name, text, stated in text_cases():
        case = Case(name, text)
        line = text_answer(case)
        if stated is not None:
            assert line.split()[1:3] == [str(number) for number in stated], f"{line.strip()}, but stated is {stated}"
        cases.append(case)
        answers.append(line)
    assert len(cases) >= LEAST_TEXTS
    return {"texts.cases": stored(cases), "texts.expected": "".join(answers).encode()}


def summary_line(name: str, counts: Counts) -> str:
    """A line of the summary."""
    return f"{name} {' '.join(map(str, counts))}\n"


def make_problems() -> dict[str, bytes]:
    """The corpus of problems, what the program prints for each, and what breadth-first search confirmed of each."""
    cases = problem_cases()
    answers = []
    summary = [COLUMNS + "\n"]
    total = Counts()
    for case in cases:
        printed, _ = answer(case.text)
        answers.append(f"case {case.name}\n{printed}\n")
        problem = read(case.text)
        if not isinstance(problem, Refusal):
            counts = confirm(run(problem))
            total = total.plus(counts)
            summary.append(summary_line(case.name, counts))
    summary.append(summary_line("all", total))
    assert len(cases) >= LEAST_PROBLEMS
    assert total.shortest + total.longer == total.found
    assert all(count >= least for count, least in zip(total, LEAST_CONFIRMED)), total
    return {
        "problems.cases": stored(cases),
        "problems.expected": "".join(answers).encode(),
        "problems.summary": "".join(summary).encode(),
    }


def main(arguments: list[str]) -> int:
    """Make the files, and write them or compare them."""
    files = make_texts() | make_problems()
    for name in ("texts.cases", "problems.cases"):
        print(f"{name}: {len(split(files[name]))} cases")
    print(COLUMNS)
    print(files["problems.summary"].decode().splitlines()[-1])
    if arguments[1:] == ["--check"]:
        other = [name for name, content in files.items() if not same(PLACES[name], content)]
        print("the stored files differ: " + " ".join(other) if other else "the stored files are what is made")
        return 1 if other else 0
    for name, content in files.items():
        PLACES[name].write_bytes(content)
    return 0


def same(path: Path, content: bytes) -> bool:
    """Whether the file has this content."""
    return path.exists() and path.read_bytes() == content


if __name__ == "__main__":
    sys.exit(main(sys.argv))
