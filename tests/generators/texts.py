"""The corpus of texts, good and damaged.

Each damage is made together with the answer that the rules give it, so that the reader is held against a statement of its own.
Where a case states no answer (None), the reader's is taken.
"""

from __future__ import annotations

from random import Random
from typing import NamedTuple

NAMES = [b"atom start goal", b"action role atom", b"feature kind atom", b"rule feature when then"]
TABLES = ["atom", "action", "feature", "rule"]
GOOD = (0, 0)
HUGE = b"9" * 400


class TextCase(NamedTuple):
    """A name, a text, and the refusal and place that it must get; (0, 0) for a good text, None where none is stated."""

    name: str
    text: bytes
    answer: tuple[int, int] | None


class Tables:
    """The value lines of the four tables, to be changed and written out."""

    def __init__(self, *tables: str) -> None:
        self.tables = [[line.encode() for line in table.split("|") if line] for table in tables]

    def place(self, table: int, line: int) -> int:
        """The number in the text of a value line; the line behind the last one is the table's empty line."""
        return sum(len(before) + 2 for before in self.tables[:table]) + 2 + line

    def text(self) -> bytes:
        """The whole text."""
        lines = []
        for names, values in zip(NAMES, self.tables):
            lines += [names, *values, b""]
        return b"".join(line + b"\n" for line in lines)


def base() -> Tables:
    """The good text that most cases damage: 3 atoms, 2 actions, a feature of each kind, 2 rules."""
    return Tables(
        "0 1 0|1 0 1|2 0 0",
        "0 p 0|0 d 0|0 a 1|1 p 1|1 a 2",
        "0 f 1|1 b 2|2 t 0",
        "0 0 + -|0 1 . ?|1 1 0 +",
    )


def with_line(name: str, table: int, line: int, new: bytes, number: int) -> TextCase:
    """The base text with one value line replaced; its refusal stands at that line."""
    tables = base()
    tables.tables[table][line] = new
    return TextCase(name, tables.text(), (number, tables.place(table, line)) if number else GOOD)


def with_field(name: str, table: int, line: int, column: int, new: bytes, number: int) -> TextCase:
    """The base text with one field replaced."""
    fields = base().tables[table][line].split(b" ")
    fields[column] = new
    return with_line(name, table, line, b" ".join(fields), number)


# what is no numeral, in any number column
NO_NUMERALS = {
    "empty": b"",
    "letter": b"x",
    "two-zeros": b"00",
    "leading-zero": b"01",
    "minus": b"-1",
    "plus": b"+1",
    "point": b"1.0",
    "hex": b"0x1",
    "carriage-return": b"1\r",
    "tab": b"\t1",
    "nul": b"1\x00",
    "high-byte": b"\xb2",
    "foreign-digit": b"\xd9\xa1",
    "underscore": b"1_0",
    "zero-huge": b"0" + HUGE,
}

# what has another length than one byte, in any letter column
NO_LETTERS = {"empty": b"", "two": b"pp", "accent": b"\xc3\xa9", "with-return": b"p\r", "long": b"p" * 300}

NUMBER_COLUMNS = {0: [0, 1, 2], 1: [0, 2], 2: [0, 2], 3: [0, 1]}
LETTER_COLUMNS = {1: [1], 2: [1], 3: [2, 3]}

# (table, column) -> fields with the refusal that each gets there; 0 for none
VALUES = {
    (0, 0): [(b"1", 1), (b"3", 1), (b"256", 1), (b"4294967296", 1), (HUGE, 1)],
    (0, 1): [(b"2", 2), (b"10", 2), (b"256", 2), (b"4294967296", 2), (HUGE, 2)],
    (0, 2): [(b"2", 2), (b"11", 2), (b"257", 2), (b"18446744073709551616", 2), (HUGE, 2)],
    (1, 0): [(b"63", 0), (b"64", 3), (b"65", 3), (b"256", 3), (b"1024", 3), (b"65536", 3), (b"4294967296", 3),
             (b"18446744073709551616", 3), (HUGE, 3)],
    (1, 1): [(b"x", 2), (b"P", 2), (b"b", 2), (b"0", 2), (b".", 2), (b"\r", 2), (b"\xe9", 2), (b"\x00", 2), (b"q", 2)],
    (1, 2): [(b"2", 0), (b"3", 2), (b"64", 2), (b"256", 2), (b"65536", 2), (b"4294967296", 2),
             (b"18446744073709551616", 2), (HUGE, 2)],
    (2, 0): [(b"7", 0), (b"8", 3), (b"9", 3), (b"256", 3), (b"4294967296", 3), (b"18446744073709551616", 3), (HUGE, 3)],
    (2, 1): [(b"x", 2), (b"T", 2), (b"p", 2), (b"1", 2), (b"?", 2), (b"\r", 2), (b"\xe9", 2), (b"\x00", 2)],
    (2, 2): [(b"2", 0), (b"3", 2), (b"8", 2), (b"256", 2), (b"4294967296", 2), (b"18446744073709551616", 2), (HUGE, 2)],
    (3, 0): [(b"1", 0), (b"16", 3), (b"17", 3), (b"256", 3), (b"4294967296", 3), (b"18446744073709551616", 3), (HUGE, 3)],
    (3, 1): [(b"3", 2), (b"8", 2), (b"16", 2), (b"256", 2), (b"4294967296", 2),
             (b"18446744073709551616", 2), (HUGE, 2)],
    (3, 2): [(b"-", 2), (b"=", 2), (b"?", 2), (b"x", 2), (b"1", 2), (b"\r", 2), (b"\xe9", 2), (b"\x00", 2)],
    (3, 3): [(b".", 2), (b"0", 2), (b"x", 2), (b"1", 2), (b"\r", 2), (b"\xff", 2), (b"\x00", 2)],
}


def label(field: bytes) -> str:
    """A field as a part of a name."""
    if len(field) > 30:
        return "huge"
    return "".join(chr(byte) if chr(byte).isalnum() and byte < 128 else f"x{byte:02x}" for byte in field)


def column_cases() -> list[TextCase]:
    """Every fault at every column of every table, at the first and at the last line of values in turn."""
    cases = []
    for table, columns in NUMBER_COLUMNS.items():
        for column in columns:
            for turn, (what, field) in enumerate(NO_NUMERALS.items()):
                line = 0 if turn % 2 == 0 else len(base().tables[table]) - 1
                cases.append(with_field(f"{TABLES[table]}-{column}-no-numeral-{what}", table, line, column, field, 1))
    for table, columns in LETTER_COLUMNS.items():
        for column in columns:
            for turn, (what, field) in enumerate(NO_LETTERS.items()):
                line = 0 if turn % 2 == 0 else len(base().tables[table]) - 1
                cases.append(with_field(f"{TABLES[table]}-{column}-no-letter-{what}", table, line, column, field, 1))
    for (table, column), fields in VALUES.items():
        last = len(base().tables[table]) - 1
        for turn, (field, number) in enumerate(fields):
            line = 0 if turn % 2 == 0 and column == 0 and table == 0 else last
            name = f"{TABLES[table]}-{column}-value-{label(field)}"
            cases.append(with_field(name, table, line, column, field, number))
    return cases


def line_cases() -> list[TextCase]:
    """Faults of a whole line of values: fields too many or too few, spaces, other white space."""
    cases = []
    for table, name in enumerate(TABLES):
        last = len(base().tables[table]) - 1
        for line, which in ((0, "first"), (last, "last")):
            good = base().tables[table][line]
            fields = good.split(b" ")
            for what, new in {
                "one-field-more": good + b" 0",
                "one-field-less": b" ".join(fields[:-1]),
                "two-spaces": good.replace(b" ", b"  ", 1),
                "space-before": b" " + good,
                "space-behind": good + b" ",
                "return-behind": good + b"\r",
            }.items():
                cases.append(with_line(f"{name}-{which}-line-{what}", table, line, new, 1))
        good = base().tables[table][last]
        for what, new in {
            "tab": good.replace(b" ", b"\t"),
            "comma": good.replace(b" ", b","),
            "only-space": b" ",
            "only-return": b"\r",
            "one-field": b"0",
            "names-again": NAMES[table],
            "comment": b"# " + good,
            "byte-order-mark": b"\xef\xbb\xbf" + good,
        }.items():
            cases.append(with_line(f"{name}-line-{what}", table, last, new, 1))
    return cases


def names_cases() -> list[TextCase]:
    """Faults of the names lines and of the empty lines between the tables."""
    cases = []
    for table, name in enumerate(TABLES):
        place = base().place(table, -1)
        good = NAMES[table]
        for what, new in {
            "capital": good.capitalize(),
            "space-behind": good + b" ",
            "space-before": b" " + good,
            "return-behind": good + b"\r",
            "short": good[:-1],
            "long": good + b"s",
            "two-spaces": good.replace(b" ", b"  ", 1),
            "other-table": NAMES[(table + 1) % 4],
            "empty-before": b"\n" + good,
        }.items():
            lines = base().text().split(b"\n")
            lines[place - 1] = new
            cases.append(TextCase(f"{name}-names-{what}", b"\n".join(lines), (1, place)))
        lines = base().text().split(b"\n")
        del lines[place - 1]
        cases.append(TextCase(f"{name}-names-missing", b"\n".join(lines), (1, place)))
        if table < 3:
            lines = base().text().split(b"\n")
            end = base().place(table, len(base().tables[table]))
            del lines[end - 1]
            cases.append(TextCase(f"{name}-empty-line-missing", b"\n".join(lines), (1, end)))
    return cases


def end_cases() -> list[TextCase]:
    """Texts cut behind each line, with and without its newline, and texts that go on behind the fourth table."""
    cases = []
    good = base().text()
    lines = good.split(b"\n")[:-1]
    for count in range(len(lines)):
        text = b"".join(line + b"\n" for line in lines[:count])
        cases.append(TextCase(f"cut-behind-line-{count}", text, (1, count + 1)))
        if text.endswith(b"\n") and lines[count - 1]:
            cases.append(TextCase(f"cut-before-newline-{count}", text[:-1], (1, count + 1)))
    for cut in (1, 5, 15, 17, 40, len(good) - 3, len(good) - 4):
        cases.append(TextCase(f"cut-to-{cut}-bytes", good[:cut], None))
    last = len(lines) + 1
    for what, more in {
        "newline": b"\n",
        "two-newlines": b"\n\n",
        "space": b" ",
        "return": b"\r\n",
        "letter": b"x",
        "rule-line": b"2 0 + -\n",
        "names": b"atom start goal\n",
        "whole-text": good,
        "nul": b"\x00",
    }.items():
        cases.append(TextCase(f"behind-the-end-{what}", good + more, (1, last)))
    cases.append(TextCase("return-for-the-last-line", good[:-1] + b"\r\n", (1, last - 1)))
    cases.append(TextCase("returns-everywhere", good.replace(b"\n", b"\r\n"), (1, 1)))
    cases.append(TextCase("returns-for-newlines", good.replace(b"\n", b"\r"), (1, 1)))
    cases.append(TextCase("byte-order-mark", b"\xef\xbb\xbf" + good, (1, 1)))
    cases.append(TextCase("empty-text", b"", (1, 1)))
    for count in (1, 2, 3, 8, 16_384):
        cases.append(TextCase(f"only-{count}-newlines", b"\n" * count, (1, 1)))
    cases.append(TextCase("only-a-space", b" ", (1, 1)))
    cases.append(TextCase("only-a-nul", b"\x00", (1, 1)))
    cases.append(TextCase("every-byte", bytes(range(256)), (1, 1)))
    return cases


def with_tables(name: str, tables: Tables, answer: tuple[int, int] | None) -> TextCase:
    """The text of the tables."""
    return TextCase(name, tables.text(), answer)


def order_cases() -> list[TextCase]:
    """Several faults in one line, or in several: form before range before limit, and the first faulty line decides."""
    cases = []
    for name, table, line, new, number in [
        ("action-64-form", 1, 4, b"64 p 01", 1),
        ("action-64-role", 1, 4, b"64 x 0", 2),
        ("action-64-atom", 1, 4, b"64 p 999", 2),
        ("action-64-limit", 1, 4, b"64 p 0", 3),
        ("action-64-role-and-form", 1, 4, b"64 x 00", 1),
        ("action-role-long-and-atom", 1, 4, b"0 pp 999", 1),
        ("action-number-form-and-role", 1, 4, b"x y 9", 1),
        ("atom-start-range-and-goal-form", 0, 1, b"1 2 x", 1),
        ("atom-number-and-start-range", 0, 1, b"2 2 2", 1),
        ("feature-8-form", 2, 2, b"8 t 01", 1),
        ("feature-8-kind", 2, 2, b"8 x 0", 2),
        ("feature-8-atom", 2, 2, b"8 t 3", 2),
        ("feature-8-limit", 2, 2, b"8 t 2", 3),
        ("second-kind", 2, 2, b"1 t 2", 1),
        ("second-kind-other-atom", 2, 2, b"0 t 0", 1),
        ("second-kind-number-again", 2, 2, b"0 b 1", 1),
        ("second-kind-and-atom", 2, 2, b"1 f 999", 1),
        ("no-kind-of-a-named-feature", 2, 2, b"1 x 2", 2),
        ("no-kind-of-a-named-feature-and-atom", 2, 2, b"1 x 999", 2),
        ("rule-16-form", 3, 2, b"16 1 00 +", 1),
        ("rule-16-feature", 3, 2, b"16 3 0 +", 2),
        ("rule-16-when", 3, 2, b"16 1 x +", 2),
        ("rule-16-then", 3, 2, b"16 1 0 x", 2),
        ("rule-16-limit", 3, 2, b"16 1 0 +", 3),
        ("doubled-same", 3, 2, b"0 0 + -", 1),
        ("doubled-other-entry", 3, 2, b"0 0 0 ?", 1),
        ("doubled-plain-entry", 3, 2, b"0 1 . =", 1),
        ("doubled-and-when", 3, 2, b"0 0 x -", 1),
        ("doubled-and-then", 3, 2, b"0 1 . x", 1),
        ("rule-feature-huge-and-rule-huge", 3, 2, HUGE + b" " + HUGE + b" 0 +", 2),
    ]:
        cases.append(with_line("order-" + name, table, line, new, number))
    for name, faults, answer in [
        ("range-then-form", [(0, 1, b"1 2 0"), (1, 0, b"00 p 0")], (2, 3)),
        ("limit-then-form", [(1, 4, b"64 p 0"), (2, 0, b"x")], (3, 11)),
        ("limit-then-range", [(2, 2, b"8 b 0"), (3, 0, b"0 0 x x")], (3, 16)),
        ("form-then-form", [(3, 0, b"0 0"), (3, 1, b"0 1")], (1, 19)),
        ("range-and-limit-lines-apart", [(1, 0, b"0 p 3"), (1, 1, b"64 p 0")], (2, 7)),
        ("form-then-rules-left", [(3, 0, b"0 0 . +"), (3, 2, b"1 1 0 + ")], (1, 21)),
    ]:
        tables = base()
        for table, line, new in faults:
            tables.tables[table][line] = new
        cases.append(with_tables("order-" + name, tables, answer))
    tables = base()
    tables.tables[3][0] = b"0 0 . +"
    cases.append(TextCase("order-rules-left-then-a-line-more", tables.text() + b"\n", (1, 23)))
    cases.append(TextCase("order-rules-left-and-last-line-missing", tables.text()[:-1], (1, 22)))
    tables = base()
    tables.tables[2] = []
    cases.append(with_tables("order-rule-without-features", tables, (2, 16)))
    tables.tables[3][0] = b"0 0 + "
    cases.append(with_tables("order-rule-without-features-form", tables, (1, 16)))
    return cases


def atoms_table(count: int) -> list[bytes]:
    """So many atom lines; atom 0 is true at the start, the last is the goal."""
    return [b"%d %d %d" % (atom, atom == 0, atom == count - 1) for atom in range(count)]


def limit_cases() -> list[TextCase]:
    """Texts at a limit and one past it: atoms, actions, features, rules, bytes."""
    cases = []
    for count in (1, 2, 10, 255, 256):
        tables = base()
        tables.tables = [atoms_table(count), [], [], []]
        cases.append(with_tables(f"atoms-{count}", tables, GOOD))
    for what, line, answer in [
        ("257-atoms", b"256 0 0", (3, 258)),
        ("257-atoms-start", b"256 2 0", (2, 258)),
        ("257-atoms-form", b"256 0 0 ", (1, 258)),
        ("257-atoms-other-number", b"257 0 0", (1, 258)),
        ("257-atoms-wrapped", b"0 0 0", (1, 258)),
    ]:
        tables.tables[0] = atoms_table(256) + [line]
        cases.append(with_tables(what, tables, answer))
    for atom, answer in ((255, GOOD), (256, (2, 260))):
        tables.tables = [atoms_table(256), [b"0 a %d" % atom], [], []]
        cases.append(with_tables(f"atoms-256-action-names-{atom}", tables, answer))
        tables.tables = [atoms_table(256), [], [b"0 t %d" % atom], []]
        cases.append(with_tables(f"atoms-256-feature-names-{atom}", tables, GOOD if atom == 255 else (2, 262)))
    for count in (1, 63, 64):
        tables = base()
        tables.tables[1] = [b"%d a 1" % action for action in range(count)]
        cases.append(with_tables(f"actions-{count}", tables, GOOD))
    tables.tables[1].append(b"64 a 1")
    cases.append(with_tables("actions-65", tables, (3, 71)))
    tables.tables[1].append(b"65 a 1")
    cases.append(with_tables("actions-66", tables, (3, 71)))
    tables.tables[1] = [b"64 a 1", b"0 a 1"]
    cases.append(with_tables("actions-64-first", tables, (3, 7)))
    for count in (1, 7, 8):
        tables = base()
        tables.tables[2] = [b"%d t %d" % (feature, feature % 3) for feature in range(count)]
        tables.tables[3] = [b"0 %d + -" % (count - 1)]
        cases.append(with_tables(f"features-{count}", tables, GOOD))
    tables.tables[2].append(b"8 t 0")
    cases.append(with_tables("features-9", tables, (3, 22)))
    for count in (1, 2, 15, 16):
        tables = base()
        tables.tables[3] = [b"%d 0 + -" % rule for rule in range(count)]
        cases.append(with_tables(f"rules-{count}", tables, GOOD))
    tables.tables[3].append(b"16 0 + -")
    cases.append(with_tables("rules-17", tables, (3, 35)))
    return cases + byte_cases()


def filled(size: int) -> bytes:
    """A good text of exactly this many bytes: the base text with harmless repeated lines in its action table."""
    tables = base()
    missing = size - len(tables.text())
    sevens = missing % 6
    sixes = (missing - 7 * sevens) // 6
    tables.tables[1] += [b"10 p 0"] * sevens + [b"0 p 0"] * sixes
    text = tables.text()
    assert len(text) == size
    return text


def long_numeral(table: int, column: int, number: int) -> TextCase:
    """A text of exactly 16,384 bytes, nearly all of them one numeral."""
    tables = base()
    fields = tables.tables[table][0].split(b" ")
    fields[column] = b"1" * (16_384 - len(tables.text()) + len(fields[column]))
    tables.tables[table][0] = b" ".join(fields)
    answer = (number, tables.place(table, 0))
    return with_tables(f"long-numeral-{TABLES[table]}-{column}", tables, answer)


def byte_cases() -> list[TextCase]:
    """The limit of 16,384 bytes, which is checked before any line."""
    full, over = filled(16_384), filled(16_385)
    return [
        TextCase("bytes-16383", filled(16_383), GOOD),
        TextCase("bytes-16384", full, GOOD),
        TextCase("bytes-16385", over, (3, 0)),
        TextCase("bytes-16384-without-last-newline", full[:-1], (1, full.count(b"\n"))),
        TextCase("bytes-16385-by-a-line-more", full + b"\n", (3, 0)),
        TextCase("bytes-16385-faulty-first-line", b"x" + full, (3, 0)),
        TextCase("bytes-16385-all-newlines", b"\n" * 16_385, (3, 0)),
        TextCase("bytes-16384-one-line", b"x" * 16_384, (1, 1)),
        TextCase("bytes-20000", filled(20_000), (3, 0)),
        long_numeral(0, 0, 1),
        long_numeral(0, 1, 2),
        long_numeral(1, 0, 3),
        long_numeral(1, 2, 2),
        long_numeral(2, 0, 3),
        long_numeral(3, 0, 3),
        long_numeral(3, 1, 2),
    ]


def good_cases() -> list[TextCase]:
    """Good texts, and texts with gaps, repetitions and other orders of lines."""
    cases = []
    for name, tables, answer in [
        ("base", base(), GOOD),
        ("one-atom", Tables("0 0 0", "", "", ""), GOOD),
        ("one-atom-start-goal", Tables("0 1 1", "", "", ""), GOOD),
        ("start-is-target", Tables("0 1 1|1 1 0", "0 d 0", "", ""), GOOD),
        ("no-actions", Tables("0 0 1|1 1 0", "", "0 b 0", "0 0 0 +"), GOOD),
        ("no-features", Tables("0 0 1|1 1 0", "0 a 0", "", ""), GOOD),
        ("features-without-rules", Tables("0 0 1|1 1 0", "0 a 0", "0 b 0|1 t 1|2 f 0", ""), GOOD),
        ("action-repeated-lines", Tables("0 0 1", "0 a 0|0 a 0|0 a 0", "", ""), GOOD),
        ("feature-repeated-lines", Tables("0 0 1", "0 a 0", "0 f 0|0 f 0", "0 0 + -"), GOOD),
        ("action-every-role-of-one-atom", Tables("0 0 1", "0 p 0|0 a 0|0 d 0", "", ""), GOOD),
        ("action-lines-mixed", Tables("0 1 0|1 0 1", "1 a 1|0 d 0|1 p 0|0 p 1|1 d 0", "", ""), GOOD),
        ("action-gap", Tables("0 0 1", "5 a 0", "", ""), GOOD),
        ("action-gap-63", Tables("0 0 1", "63 a 0", "", ""), GOOD),
        ("feature-gap", Tables("0 0 1", "0 a 0", "3 f 0", "0 3 + -"), GOOD),
        ("feature-gap-is-a-number", Tables("0 0 1", "0 a 0", "1 f 0", "0 0 . -"), GOOD),
        ("feature-gap-is-no-boolean", Tables("0 0 1", "0 a 0", "1 f 0", "0 0 0 +"), (4, 1)),
        ("feature-7-only", Tables("0 0 1", "0 a 0", "7 b 0", "0 7 0 +"), GOOD),
        ("rule-gap", Tables("0 0 1", "0 a 0", "0 f 0", "1 0 + -"), (4, 1)),
        ("rule-gap-15", Tables("0 0 1", "0 a 0", "0 f 0", "15 0 + -"), (4, 15)),
        ("rule-lines-mixed", Tables("0 0 1|1 0 1", "0 a 0", "0 f 0|1 f 1", "1 1 + -|0 1 . ?|1 0 . =|0 0 + -"), GOOD),
        ("rule-every-entry-named", Tables("0 0 1", "", "0 f 0|1 b 0", "0 0 + -|0 1 . ?"), GOOD),
        ("rule-plain-entries", Tables("0 0 1", "", "0 f 0|1 b 0", "0 0 . =|0 1 . ="), (4, 1)),
        ("rule-feature-unnamed", Tables("0 0 1", "", "0 f 0|2 b 0", "0 1 . -|0 2 0 +"), GOOD),
        ("goal-of-all-atoms", Tables("0 0 1|1 0 1|2 0 1", "0 a 0|0 a 1|0 a 2", "", ""), GOOD),
        ("eight-features", Tables("0 0 1", "", "|".join(f"{i} {'btf'[i % 3]} 0" for i in range(8)), ""), GOOD),
        ("action-63-and-feature-7", Tables("0 0 1", "63 p 0", "7 t 0", "0 7 . -"), GOOD),
        ("start-true-rules-left", Tables("0 1 1", "", "0 t 0", "0 0 . +"), (4, 1)),
        ("no-atoms", Tables("", "0 a 0", "", ""), (1, 2)),
        ("no-atoms-nothing", Tables("", "", "", ""), (1, 2)),
        ("atoms-from-1", Tables("1 0 0|2 0 0", "", "", ""), (1, 2)),
        ("atoms-leave-one-out", Tables("0 0 0|2 0 0", "", "", ""), (1, 3)),
        ("atoms-repeated", Tables("0 0 0|0 0 0", "", "", ""), (1, 3)),
        ("atoms-falling", Tables("1 0 0|0 0 0", "", "", ""), (1, 2)),
        ("atom-10-by-letters", Tables("|".join(f"{i} 0 0" for i in range(10)) + "|a 0 0", "", "", ""), (1, 12)),
    ]:
        cases.append(with_tables(name, tables, answer))
    return cases


def sieve_cases() -> list[TextCase]:
    """Sketches: every entry alone in a rule, the known examples, and random rules of every size."""
    cases = []
    struck = {("t", "-"): ".+0", ("f", "-"): ".+0", ("b", "-"): "+", ("b", "+"): "0"}
    words = {".": "any", "+": "plus", "0": "zero", "=": "same", "?": "free", "-": "minus"}
    for kind in "btf":
        for when in ".+0":
            for then in "=?+-":
                tables = Tables("0 0 1", "0 a 0", f"0 {kind} 0", f"0 0 {when} {then}")
                answer = GOOD if when in struck.get((kind, then), "") else (4, 1)
                cases.append(with_tables(f"sieve-{kind}-{words[when]}-{words[then]}", tables, answer))
    features = "0 b 0|1 t 1|2 t 2|3 t 0"
    pick, drop = ["0 0 +", "1 . ?", "2 . ?"], ["0 + -", "1 . ?", "2 . ?"]
    deliver, near, home = ["3 + -", "0 . ?", "1 . ?", "2 . ?"], ["0 0 =", "1 + -", "2 . ?"], ["0 + =", "2 + -", "1 . ?"]
    for name, rules, answer in [
        ("delivery-drop", [drop], GOOD),
        ("delivery-pick", [pick], GOOD),
        ("delivery-drop-and-pick", [drop, pick], (4, 2)),
        ("delivery-deliver", [deliver], GOOD),
        ("delivery-pick-and-deliver", [pick, deliver], GOOD),
        ("delivery-near", [near], GOOD),
        ("delivery-home", [home], GOOD),
        ("delivery-all-four", [pick, deliver, near, home], (4, 2)),
        ("delivery-drop-pick-deliver", [drop, pick, deliver], (4, 2)),
    ]:
        lines = "|".join(f"{number} {entry}" for number, rule in enumerate(rules) for entry in rule)
        cases.append(with_tables(f"sieve-{name}", Tables("0 0 1|1 0 0|2 0 0", "", features, lines), answer))
    tables = Tables("0 0 1|1 0 0", "", "0 b 0|1 t 1", "0 0 + -|0 1 . +|1 1 + -|1 0 . ?")
    cases.append(with_tables("sieve-boolean-and-number", tables, (4, 2)))
    tables.tables[3] = [b"%d 0 . =" % rule for rule in range(16)]
    cases.append(with_tables("sieve-sixteen-left", tables, (4, 16)))
    return cases + random_sketches()


def random_sketches() -> list[TextCase]:
    """Random rules whose features are mostly used in one direction, so that many are struck and some are left."""
    random = Random(4)
    cases = []
    for number in range(48):
        count = random.randint(1, 8)
        kinds = [random.choice("btf") for _ in range(count)]
        lines = []
        for rule in range(random.choice([1, 2, 3, 4, 6, 9, 12, 16])):
            head = random.randrange(count)
            for feature in range(count):
                if feature == head:
                    entry = random.choice(["+ -", "0 +", "+ -"]) if kinds[feature] == "b" else random.choice(["+ -", ". -"])
                elif feature > head or random.random() < 0.14:
                    entry = f"{random.choice('.+0')} {random.choice('=?+-')}"
                else:
                    entry = f"{random.choice('.+0')} ="
                if entry != ". =" or random.random() < 0.3:
                    lines.append(f"{rule} {feature} {entry}")
        features = "|".join(f"{feature} {kind} {feature % 3}" for feature, kind in enumerate(kinds))
        tables = Tables("0 0 1|1 0 0|2 1 0", "0 a 0", features, "|".join(lines))
        cases.append(with_tables(f"sieve-random-{number}", tables, None))
    return cases


def text_cases() -> list[TextCase]:
    """All of them, under names that are each given once."""
    cases = good_cases() + column_cases() + line_cases() + names_cases() + end_cases()
    cases += order_cases() + limit_cases() + sieve_cases()
    assert len({case.name for case in cases}) == len(cases)
    return cases
