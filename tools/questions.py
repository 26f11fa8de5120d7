"""Tells from reports what the formulas of `cnf` ask, and makes these formulas as docs/FORMATS.md has them.

It is a module of tools/templates and tools/reports, and shares nothing with the crates: scenarios are told from the lines
has and arcs of a report, and their columns, the classes of these, the variables and the clauses by what the document
says of them.
"""
import itertools
import math
from dataclasses import dataclass
from functools import cached_property
from typing import Iterator, NamedTuple


class Fault(Exception):
    """Why a text or a run of the program is not as it must be."""


# ---- scenarios

@dataclass(frozen=True)
class Order:
    """A scenario: for each of its operations all that are before it."""

    before: dict[str, frozenset[str]]

    def covers(self, u: str, v: str) -> bool:
        """u is before v, and no operation lies between them."""
        return u in self.before[v] and not any(u in self.before[between] for between in self.before[v])


class Report(NamedTuple):
    """What this script needs of a report: the operations, the scenarios, the bits of a code and the number of gates."""

    operations: list[str]
    orders: list[Order]
    bits: int
    gates: int


def closure(operations: list[str], arcs: list[list[str]]) -> dict[str, frozenset[str]]:
    """For each operation all that are before it, over walks of any length."""
    before = {v: {a for a, b in arcs if b == v} for v in operations}
    for middle in operations:
        for v in operations:
            if middle in before[v]:
                before[v] |= before[middle]
    return {v: frozenset(before[v]) for v in operations}


def read_order(has: list[str], arcs: list[str]) -> Order:
    """The scenario of its lines has and arcs, whose pairs must be the covering pairs of what they lead to."""
    operations, pairs = has[1:], [pair.split(">") for pair in arcs[1:]]
    are_pairs = all(len(pair) == 2 and set(pair) <= set(operations) for pair in pairs)
    if (has[0], arcs[0]) != ("has", "arcs") or not are_pairs:
        raise Fault("the lines has and arcs of a scenario can't be read")
    order = Order(closure(operations, pairs))
    covering = [[u, v] for u in operations for v in operations if order.covers(u, v)]
    if covering != pairs:
        raise Fault(f"the line arcs has {' '.join(arcs[1:])}, which is not the covering pairs of its order")
    return order


def read_report(text: str) -> Report:
    """Reads what this module needs of a report; other lines are passed over."""
    rows = [line.split(" ") for line in text.partition("\nnetlist\n")[0].split("\n")]
    heads = {row[0]: row[1:] for row in rows if row[0] in ("bits", "operations", "gates")}
    try:
        orders = [read_order(*rows[i + 1 : i + 3]) for i, row in enumerate(rows) if row[0] == "scenario"]
        return Report(heads["operations"], orders, int(*heads["bits"]), int(*heads["gates"]))
    except (KeyError, TypeError, ValueError):
        raise Fault("a line of the report is missing or can't be read") from None


# ---- columns and their classes

# What each scenario asks of a condition: 1, 0 or nothing.
Column = tuple[bool | None, ...]


def pair_entry(order: Order, u: str, v: str) -> bool | None:
    """What a scenario asks of the condition of a pair."""
    if not {u, v} <= order.before.keys():
        return None
    if u not in order.before[v]:
        return False
    return True if order.covers(u, v) else None


def open_columns(report: Report) -> dict[str, Column]:
    """The columns that ask for a 1 and for a 0, each by its name: operations by their numbers, and then pairs."""
    columns = {v: tuple(v in order.before for order in report.orders) for v in report.operations}
    for u, v in itertools.product(report.operations, repeat=2):
        columns[f"{u}>{v}"] = tuple(pair_entry(order, u, v) for order in report.orders)
    return {name: column for name, column in columns.items() if {True, False} <= set(column)}


def agrees(values: Column, column: Column) -> bool:
    """Wherever the column asks for something the values are that, or throughout they are the opposite."""
    asked = [(value, entry) for value, entry in zip(values, column) if entry is not None]
    return all(value is entry for value, entry in asked) or all(value is (not entry) for value, entry in asked)


def classes_of(columns: list[Column]) -> list[Column]:
    """Those of the open columns that no earlier one serves, and that serve each later one by which they are served."""
    return [
        column
        for place, column in enumerate(columns)
        if not any(agrees(earlier, column) for earlier in columns[:place])
        and all(agrees(column, later) for later in columns[place + 1 :] if agrees(later, column))
    ]


@dataclass(frozen=True)
class Question:
    """What the formulas of a text ask about: its scenarios by their open columns, and the gates of its report."""

    scenarios: int
    bits: int
    columns: dict[str, Column]
    classes: list[Column]
    gates: int


def question_of(report: Report) -> Question:
    """The question of a report's scenarios over as many bits."""
    columns = open_columns(report)
    return Question(len(report.orders), report.bits, columns, classes_of(list(columns.values())), report.gates)


# ---- formulas

Clause = list[int]


@dataclass(frozen=True)
class Formula:
    """A formula: the comment, the two numbers of the line p, and the clauses."""

    comment: str
    variables: int
    count: int
    clauses: list[Clause]


def formula_text(formula: Formula) -> str:
    """The text of a formula."""
    lines = [f"c {formula.comment}", f"p cnf {formula.variables} {formula.count}"]
    lines += [" ".join(map(str, [*clause, 0])) for clause in formula.clauses]
    return "".join(line + "\n" for line in lines)


def read_formula(text: str) -> Formula:
    """Reads a formula as the program writes it: a comment, the line p and a clause a line."""
    lines = text.split("\n")
    if lines.pop() != "" or len(lines) < 2 or not lines[0].startswith("c ") or not lines[1].startswith("p cnf "):
        raise Fault("the formula has no comment, no line p or no last line end")
    try:
        variables, count = map(int, lines[1].split(" ")[2:])
        clauses = [list(map(int, line.split(" "))) for line in lines[2:]]
    except ValueError:
        raise Fault("the formula has a word that is no number") from None
    formula = Formula(lines[0][2:], variables, count, [clause[:-1] for clause in clauses])
    if formula_text(formula) != text:
        raise Fault("the formula is not written as one clause a line, each with a 0 at its end")
    return formula


# ---- the template of docs/FORMATS.md

# A variable: its block, and then its indices.
Variable = tuple[str | int, ...]


@dataclass(frozen=True)
class Template:
    """A template of so many scenarios, bits, gates and classes, with its number and the given bits of the codes.

    A pattern has a 0, a 1 or a dash for each bit of a code. Without patterns no bit is given.
    """

    scenarios: int
    bits: int
    gates: int
    classes: int
    kind: int = 2
    patterns: tuple[str, ...] = ()

    def comment(self) -> str:
        front = f"cpog template {self.kind} scenarios {self.scenarios} bits {self.bits}"
        return f"{front} gates {self.gates} classes {self.classes}"

    def signals(self) -> range:
        """The inputs and then the gates."""
        return range(self.bits + self.gates)

    def pairs(self) -> Iterator[tuple[int, int]]:
        """The pairs of scenarios."""
        return itertools.combinations(range(self.scenarios), 2)

    def inputs(self, gate: int) -> Iterator[tuple[int, int]]:
        """The pairs of signals that a gate may read."""
        return itertools.combinations(range(self.bits + gate), 2)

    def variables(self) -> Iterator[Variable]:
        """The variables in their order."""
        yield from itertools.product("x", range(self.scenarios), range(self.bits))
        yield from (("d", s, t, i) for s, t in self.pairs() for i in range(self.bits))
        yield from (("sel", g, j, k) for g in range(self.gates) for j, k in self.inputs(g))
        yield from itertools.product("t", range(self.gates), (1, 2, 3))
        yield from itertools.product("v", range(self.gates), range(self.scenarios))
        yield from itertools.product("o", range(self.classes), self.signals())
        yield from itertools.product("p", range(self.classes))

    @cached_property
    def number(self) -> dict[Variable, int]:
        """The number of each variable."""
        return {variable: number for number, variable in enumerate(self.variables(), 1)}

    def value(self, signal: int, scenario: int) -> int:
        """The variable that is a signal's value in a scenario."""
        if signal < self.bits:
            return self.number["x", scenario, signal]
        return self.number["v", signal - self.bits, scenario]

    # ---- the four families of clauses

    def distinct_clauses(self) -> Iterator[Clause]:
        """Any two codes differ in a bit."""
        for s, t in self.pairs():
            for i in range(self.bits):
                d, a, b = self.number["d", s, t, i], self.value(i, s), self.value(i, t)
                yield from ([-d, a, b], [-d, -a, -b])
            yield [self.number["d", s, t, i] for i in range(self.bits)]

    def gate_clauses(self) -> Iterator[Clause]:
        """Each gate reads a pair, and has the value that its table gives."""
        for g in range(self.gates):
            yield [self.number["sel", g, j, k] for j, k in self.inputs(g)]
            for (j, k), s in itertools.product(self.inputs(g), range(self.scenarios)):
                sel, a, b, v = self.number["sel", g, j, k], self.value(j, s), self.value(k, s), self.number["v", g, s]
                yield [-sel, a, b, -v]
                for row in (1, 2, 3):
                    t, off = self.number["t", g, row], [-sel, -a if row & 2 else a, -b if row & 1 else b]
                    yield from ([*off, -v, t], [*off, v, -t])

    def class_clauses(self, classes: list[Column]) -> Iterator[Clause]:
        """Each class is taken from a signal that is as its column asks."""
        for c, column in enumerate(classes):
            yield [self.number["o", c, n] for n in self.signals()]
            for n, (s, entry) in itertools.product(self.signals(), enumerate(column)):
                if entry is not None:
                    o, p = self.number["o", c, n], self.number["p", c]
                    value = self.value(n, s) if entry else -self.value(n, s)
                    yield from ([-o, value, p], [-o, -value, -p])

    def given_bits(self) -> list[tuple[int, int, bool]]:
        """The bits that the third template gives: the scenario, the bit and its value."""
        places = ((s, i, bit) for s, pattern in enumerate(self.patterns) for i, bit in enumerate(pattern))
        return [(s, i, bit == "1") for s, i, bit in places if bit != "-"] if self.kind == 3 else []

    def zero_bits(self) -> list[int]:
        """The bits of the first code that are 0: none of the first template, and those that no pattern gives."""
        given = {i for _, i, _ in self.given_bits()}
        return [i for i in range(self.bits) if i not in given] if self.kind > 1 else []

    def further_clauses(self) -> Iterator[Clause]:
        """The given bits, and the zeros of the first code."""
        yield from ([self.number["x", s, i] if bit else -self.number["x", s, i]] for s, i, bit in self.given_bits())
        yield from ([-self.number["x", 0, i]] for i in self.zero_bits())

    def clauses(self, classes: list[Column]) -> Iterator[Clause]:
        """All clauses, in their order."""
        families = (self.distinct_clauses(), self.gate_clauses(), self.class_clauses(classes), self.further_clauses())
        return itertools.chain.from_iterable(families)

    # ---- how many there are

    def variable_count(self) -> int:
        """How many variables the blocks have, one block after the other."""
        pairs, places = math.comb(self.scenarios, 2), self.bits + self.gates
        codes = self.scenarios * self.bits + pairs * self.bits
        gates = self.selections() + 3 * self.gates + self.gates * self.scenarios
        return codes + gates + self.classes * places + self.classes

    def clause_count(self, entries: int) -> int:
        """How many clauses the families have, where the columns of the classes ask for so many bits."""
        pairs, places = math.comb(self.scenarios, 2), self.bits + self.gates
        gates = self.gates + 7 * self.scenarios * self.selections()
        return pairs * (2 * self.bits + 1) + gates + self.classes + 2 * places * entries + self.further_count()

    def literal_count(self, entries: int) -> int:
        """How many literals the clauses have together."""
        pairs, places = math.comb(self.scenarios, 2), self.bits + self.gates
        gates = (34 * self.scenarios + 1) * self.selections()
        return 7 * self.bits * pairs + gates + self.classes * places + 6 * places * entries + self.further_count()

    def further_count(self) -> int:
        """How many clauses of one literal stand behind the others."""
        return len(self.given_bits()) + len(self.zero_bits())

    def selections(self) -> int:
        """How many pairs all gates may read."""
        return sum(math.comb(self.bits + g, 2) for g in range(self.gates))


def template_of(question: Question, gates: int) -> Template:
    """The template that asks the question for so many gates."""
    return Template(question.scenarios, question.bits, gates, len(question.classes))


def reference(question: Question, gates: int) -> Formula:
    """The formula of the question as the document has it."""
    template = template_of(question, gates)
    clauses = list(template.clauses(question.classes))
    return Formula(template.comment(), len(template.number), len(clauses), clauses)
