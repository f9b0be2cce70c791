"""Prints what the program prints for a problem text: `python3 tests/reference/run.py FILE`, or from standard input."""

from __future__ import annotations

import sys

from planner import answer


def main(arguments: list[str]) -> int:
    """Read the text, print the answer, give the exit status."""
    if len(arguments) > 1:
        with open(arguments[1], "rb") as file:
            text = file.read()
    else:
        text = sys.stdin.buffer.read()
    printed, status = answer(text)
    sys.stdout.write(printed)
    return status


if __name__ == "__main__":
    sys.exit(main(sys.argv))
