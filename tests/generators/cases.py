"""How a corpus is stored: every text behind a line that tells its name and its number of bytes."""

from __future__ import annotations

from typing import NamedTuple


class Case(NamedTuple):
    """A named text."""

    name: str
    text: bytes


def stored(cases: list[Case]) -> bytes:
    """For each case a line `case NAME LENGTH`, exactly that many bytes of text, and a newline."""
    parts = []
    for case in cases:
        parts += [f"case {case.name} {len(case.text)}\n".encode(), case.text, b"\n"]
    return b"".join(parts)


def split(corpus: bytes) -> list[Case]:
    """The cases of a stored corpus."""
    cases = []
    at = 0
    while at < len(corpus):
        end = corpus.index(b"\n", at)
        word, name, length = corpus[at:end].decode().split(" ")
        assert word == "case"
        cases.append(Case(name, corpus[end + 1 : end + 1 + int(length)]))
        at = end + 1 + int(length)
        assert corpus[at : at + 1] == b"\n"
        at += 1
    return cases
