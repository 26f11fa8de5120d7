"""Reads reports and judges them part by part, as docs/FORMATS.md has both, with nothing of the crates.

It is a module of tools/reports. Scenarios, columns, classes and templates are those of tools/questions.py, and the rule
of logs is that of tools/steps.py.
"""
import itertools
import re
from dataclasses import dataclass
from functools import cached_property
from typing import Callable, Iterator, NamedTuple

from questions import Column, Order, Template, classes_of, closure
from steps import Addition, Deletion, Step, after, broken_hint, is_lawful, live_clauses, old_line, read_step, spent

NAME = re.compile(r"[A-Za-z_][A-Za-z0-9_]{0,31}")
KEYWORDS = {"params", "graph", "scenario", "with", "empty", "code"}
MOST_OPERATIONS = 64
MOST_SCENARIOS = 64
MOST_BITS = 8
MOST_BUDGET = 1 << 23
# The numbers of gates and of bounds are below this.
GATES_END = 1 << 16
MOST_LITERALS = 1 << 24
MOST_VARIABLES = 1 << 24


class BadLine(Exception):
    """The number of the first line that may not stand where it does."""


# ---- what a report says

class Gate(NamedTuple):
    """A function of two signals, by its values where they are 00, 01, 10 and 11."""

    j: int
    k: int
    table: str


class Reference(NamedTuple):
    """A signal or none, and whether it is turned: without a signal this is the constant itself."""

    signal: int | None
    turned: bool

    def value(self, signals: list[bool]) -> bool:
        return self.turned if self.signal is None else signals[self.signal] != self.turned


ZERO = Reference(None, False)


class Scenario(NamedTuple):
    """A scenario: its name, its code, its given bits or nothing, its operations and its arcs."""

    name: str
    code: str
    pattern: str | None
    operations: list[str]
    arcs: list[tuple[str, str]]


# An operation, or an ordered pair of two.
Place = tuple[str, ...]


class Log(NamedTuple):
    """A log that a report holds, or a template that is told to be too large: its number, its gates and its lines."""

    kind: int
    gates: int
    steps: list[Step] | None


@dataclass(frozen=True)
class Report:
    """A report. Evidence is nothing, a list of places or a log; the open part is nothing or a log."""

    bits: int
    budget: int
    operations: list[str]
    scenarios: list[Scenario]
    gates: list[Gate]
    conditions: dict[Place, Reference]
    lower: int
    upper: int
    is_minimum: bool
    evidence: list[Place] | Log | None
    open_part: Log | None
    module: list[str]

    def condition(self, *place: str) -> Reference:
        """The condition of an operation or a pair; 0 for a pair that has no line."""
        return self.conditions.get(place, ZERO)

    def patterns(self) -> tuple[str, ...]:
        """The given bits of each scenario."""
        return tuple(scenario.pattern or "-" * self.bits for scenario in self.scenarios)

    @cached_property
    def orders(self) -> list[Order]:
        """The scenarios, by what their arcs lead to."""
        return [Order(closure(scenario.operations, scenario.arcs)) for scenario in self.scenarios]

    def column(self, place: Place) -> Column:
        """What the scenarios ask of the condition at a place."""
        if len(place) == 1:
            return tuple(place[0] in order.before for order in self.orders)
        return tuple(pair_entry(order, *place) for order in self.orders)

    @cached_property
    def classes(self) -> list[Column]:
        """The classes of the columns, operations first and then pairs."""
        places = [*itertools.product(self.operations), *itertools.permutations(self.operations, 2)]
        ordered = sorted(places, key=lambda place: [len(place), *map(self.operations.index, place)])
        columns = map(self.column, ordered)
        return classes_of([column for column in columns if {True, False} <= set(column)])

    def template(self, kind: int, gates: int) -> Template:
        """The template with this number and so many gates."""
        return Template(len(self.scenarios), self.bits, gates, len(self.classes), kind, self.patterns())

    def literals(self, kind: int, gates: int) -> int:
        """How many literals that template has."""
        entries = sum(entry is not None for column in self.classes for entry in column)
        return self.template(kind, gates).literal_count(entries)

    def signals(self, code: str) -> list[bool]:
        """The values of all signals under a code."""
        values = [digit == "1" for digit in code]
        for gate in self.gates:
            values.append(gate.table[2 * values[gate.j] + values[gate.k]] == "1")
        return values


def pair_entry(order: Order, u: str, v: str) -> bool | None:
    """What a scenario asks of the condition of a pair."""
    if not {u, v} <= order.before.keys():
        return None
    if u not in order.before[v]:
        return False
    return True if order.covers(u, v) else None


# ---- reading

def need(holds: bool) -> None:
    """Ends the reading of a line that is not as it has to be."""
    if not holds:
        raise ValueError


def number(word: str, least: int, most: int) -> int:
    """The number that a word says in decimal digits, without a leading zero."""
    need(re.fullmatch(r"0|[1-9][0-9]{0,9}", word) is not None and least <= int(word) <= most)
    return int(word)


class Lines:
    """The lines of a text, taken one by one. A line that can't be read is the bad one."""

    def __init__(self, text: str) -> None:
        self.lines = text.split("\n")
        if self.lines[-1] == "":
            self.lines.pop()
        self.taken = 0

    def next_is(self, *words: str) -> bool:
        """The next line begins with one of these words."""
        return self.taken < len(self.lines) and self.lines[self.taken].partition(" ")[0] in words

    def take(self, read: Callable[[str], object]) -> object:
        """What the next line is read as."""
        self.taken += 1
        try:
            need(self.taken <= len(self.lines))
            return read(self.lines[self.taken - 1])
        except ValueError:
            raise BadLine(self.taken) from None

    def words(self, first: str, read: Callable[..., object]) -> object:
        """The same for a line of words with one blank between, the first of which is this one."""
        def split(line: str) -> object:
            front, *others = line.split(" ")
            need(front == first)
            try:
                return read(*others)
            except TypeError:
                raise ValueError from None
        return self.take(split)

    def exactly(self, line: str) -> None:
        """The next line is this one."""
        self.take(lambda told: need(told == line))


def read_names(*words: str, known: list[str] | None = None) -> list[str]:
    """Distinct names; where some are known, these alone and in their order."""
    need(len(set(words)) == len(words))
    if known is None:
        need(all(NAME.fullmatch(word) and word not in KEYWORDS for word in words))
        return list(words)
    need([name for name in known if name in words] == list(words))
    return list(words)


def read_bits(word: str, length: int, signs: str = "01") -> str:
    """A word of so many signs."""
    need(len(word) == length and set(word) <= set(signs))
    return word


def read_signal(word: str, inputs: int, end: int) -> int:
    """A signal of which the number is below an end."""
    need(re.fullmatch(r"[xg](0|[1-9][0-9]*)", word) is not None)
    signal = int(word[1:]) if word[0] == "x" else inputs + int(word[1:])
    need(signal < (min(inputs, end) if word[0] == "x" else end))
    return signal


def read_reference(word: str, inputs: int, end: int) -> Reference:
    """A constant, a signal, or `!` and a signal."""
    if word in ("0", "1"):
        return Reference(None, word == "1")
    return Reference(read_signal(word.removeprefix("!"), inputs, end), word.startswith("!"))


def read_scenario(lines: Lines, bits: int, operations: list[str], names: list[str]) -> Scenario:
    """The three lines of a scenario, whose name is none of these."""
    def head(name: str, code: str, *pattern: str) -> tuple[str, str, str | None]:
        read_names(name)
        need(name not in names and len(pattern) < 2)
        given = read_bits(*pattern, bits, "01-") if pattern else None
        need(given is None or set(given) != {"-"})
        return name, read_bits(code, bits), given

    def pairs(*words: str) -> list[tuple[str, str]]:
        ends = [tuple(word.split(">")) for word in words]
        need(all(len(pair) == 2 and set(pair) <= set(has) for pair in ends))
        places = [(operations.index(u), operations.index(v)) for u, v in ends]
        need(places == sorted(set(places)))
        return ends

    name, code, pattern = lines.words("scenario", head)
    has = lines.words("has", lambda *words: read_names(*words, known=operations))
    return Scenario(name, code, pattern, has, lines.words("arcs", pairs))


def read_scenarios(lines: Lines, bits: int, operations: list[str]) -> list[Scenario]:
    """The scenarios, of which there are 1 to 64."""
    scenarios = []
    while not scenarios or (len(scenarios) < MOST_SCENARIOS and lines.next_is("scenario")):
        scenarios.append(read_scenario(lines, bits, operations, [scenario.name for scenario in scenarios]))
    return scenarios


def read_gates(lines: Lines, bits: int) -> list[Gate]:
    """The gates; over one bit there is none."""
    count = lines.words("gates", lambda word: number(word, 0, 0 if bits == 1 else GATES_END - 1))

    def gate(g: int, j: str, k: str, table: str) -> Gate:
        ends = read_signal(j, bits, bits + g), read_signal(k, bits, bits + g)
        need(ends[0] < ends[1])
        return Gate(*ends, read_bits(table, 4))

    return [lines.words(f"g{g}", lambda *words, g=g: gate(g, *words)) for g in range(count)]


def read_conditions(lines: Lines, bits: int, operations: list[str], end: int) -> dict[Place, Reference]:
    """The conditions of the operations, and of the pairs in their order."""
    conditions: dict[Place, Reference] = {}

    def operation(wanted: str, name: str, word: str) -> Reference:
        need(name == wanted)
        return read_reference(word, bits, end)

    def pair(u: str, v: str, word: str) -> tuple[int, int]:
        place = operations.index(u), operations.index(v)
        reference = read_reference(word, bits, end)
        need(u != v and place > last and reference != ZERO)
        conditions[u, v] = reference
        return place

    for name in operations:
        conditions[(name,)] = lines.words("op", lambda *words, name=name: operation(name, *words))
    last = (-1, -1)
    while lines.next_is("arc"):
        last = lines.words("arc", pair)
    return conditions


def read_log(lines: Lines) -> list[Step]:
    """The lines of a log, to the line `end`."""
    steps: list[Step] = []
    last = 0

    def step(line: str) -> Step:
        need(not re.search(r"^ |  | $|\t", line))
        told = read_step(line)
        need(is_lawful(told, MOST_VARIABLES, last))
        return told

    while not lines.next_is("end"):
        steps.append(lines.take(step))
        last = steps[-1].id if isinstance(steps[-1], Addition) else last
    lines.exactly("end")
    return steps


def read_place(operations: list[str], line: str) -> Place:
    """The place of a line `op NAME` or `arc U V`."""
    front, *place = line.split(" ")
    need(set(place) <= set(operations) and len(set(place)) == len(place) == {"op": 1, "arc": 2}.get(front))
    return tuple(place)


def read_kind(kind: str, gates: str) -> tuple[int, int]:
    """The number of a template, and its gates."""
    return number(kind, 1, 3), number(gates, 0, GATES_END - 1)


def read_evidence(lines: Lines, operations: list[str]) -> list[Place] | Log | None:
    """The evidence of the lower bound."""
    def head(word: str, *others: str) -> tuple[int, int] | str:
        if word == "refutation":
            return read_kind(*others)
        need(word in ("zero", "count") and not others)
        return word

    told = lines.words("evidence", head)
    if told == "zero":
        return None
    if told == "count":
        places = []
        while lines.next_is("op", "arc"):
            places.append(lines.take(lambda line: read_place(operations, line)))
        return places
    return Log(*told, read_log(lines))


def read_open_part(lines: Lines) -> Log | None:
    """What is left open."""
    def head(word: str, *others: str) -> tuple[str, tuple[int, int] | None]:
        need(word in ("none", "log", "size") and (word != "none" or not others))
        return word, None if word == "none" else read_kind(*others)

    word, told = lines.words("open", head)
    if told is None:
        return None
    return Log(*told, read_log(lines) if word == "log" else None)


def read_bound(lines: Lines) -> tuple[int, int, bool]:
    """The two bounds, and whether the line says that they are one."""
    if lines.next_is("between"):
        bounds = lines.words("between", lambda a, b: (number(a, 0, GATES_END - 1), number(b, 0, GATES_END - 1)))
        return *bounds, False
    least = lines.words("minimum", lambda word: number(word, 0, GATES_END - 1))
    return least, least, True


def read_report(text: str) -> Report:
    """The report that a text is. Its module is not read, but for that it stands there."""
    lines = Lines(text)
    lines.exactly("cpog report 1")
    bits = lines.words("bits", lambda word: number(word, 1, MOST_BITS))
    budget = lines.words("budget", lambda word: number(word, 1, MOST_BUDGET))
    operations = lines.words("operations", read_names)
    if len(operations) > MOST_OPERATIONS:
        raise BadLine(lines.taken)
    scenarios = read_scenarios(lines, bits, operations)
    gates = read_gates(lines, bits)
    conditions = read_conditions(lines, bits, operations, bits + len(gates))
    bound = read_bound(lines)
    evidence = read_evidence(lines, operations)
    open_part = read_open_part(lines)
    lines.exactly("netlist")
    module = lines.lines[lines.taken :]
    return Report(bits, budget, operations, scenarios, gates, conditions, *bound, evidence, open_part, module)


# ---- the module

# What a gate is by its table, of its signals p and q.
FUNCTIONS = {
    "0000": "1'b0", "0001": "p & q", "0010": "p & ~q", "0011": "p", "0100": "~p & q", "0101": "q", "0110": "p ^ q",
    "0111": "p | q", "1000": "~p & ~q", "1001": "p ^ ~q", "1010": "~q", "1011": "p | ~q", "1100": "~p",
    "1101": "~p | q", "1110": "~p | ~q", "1111": "1'b1",
}


def module_lines(report: Report) -> list[str]:
    """The lines of the module of a report's names, gates and conditions."""
    names, bits = report.operations, report.bits
    signals = [*(f"x{i}" for i in range(bits)), *(f"g{g}" for g in range(len(report.gates)))]
    wires = [pair for pair in itertools.product(names, repeat=2) if report.condition(*pair) != ZERO and pair[0] != pair[1]]
    places = {name: v for v, name in enumerate(names)}

    def equation(gate: Gate) -> str:
        function = FUNCTIONS[gate.table]
        whole = re.sub("[pq]", lambda sign: signals[gate.j if sign[0] == "p" else gate.k], function)
        shows = "p" in function and "q" in function
        return whole if shows else f"{whole} /* {signals[gate.j]} {signals[gate.k]} */"

    def reference(told: Reference) -> str:
        if told.signal is None:
            return f"1'b{int(told.turned)}"
        return "~" * told.turned + signals[told.signal]

    def arc(u: str, v: str) -> str:
        return f"e{places[u]}_{places[v]}"

    def request(v: str) -> str:
        waits = (f" & (a_{u} | ~c_{u} | ~{arc(u, v)})" for u in names if (u, v) in wires)
        return f"  assign r_{v} = go & c_{v}{''.join(waits)};"

    inputs = [*signals[:bits], "go", *(f"a_{v}" for v in names)]
    outputs = [*(f"r_{v}" for v in names), "done", "idle"]
    inner = [*signals[bits:], *(f"c_{v}" for v in names), *(arc(*pair) for pair in wires)]
    return [
        f"module cpog({', '.join([*inputs, *outputs])});",
        f"  input {', '.join(inputs)};",
        f"  output {', '.join(outputs)};",
        *([f"  wire {', '.join(inner)};"] if inner else []),
        *(f"  assign g{g} = {equation(gate)};" for g, gate in enumerate(report.gates)),
        *(f"  assign c_{v} = {reference(report.condition(v))};" for v in names),
        *(f"  assign {arc(*pair)} = {reference(report.condition(*pair))};" for pair in wires),
        *map(request, names),
        "  assign done = go" + "".join(f" & (a_{v} | ~c_{v})" for v in names) + ";",
        "  assign idle = ~go" + "".join(f" & ~a_{v}" for v in names) + ";",
        "endmodule",
    ]


# ---- judging

def same_order(a: Order, b: Order) -> bool:
    """The same operations, and the same before the same."""
    return a.before == b.before


def cyclic_fault(report: Report) -> str:
    """The first scenario with an operation before itself."""
    for scenario, order in zip(report.scenarios, report.orders):
        for v in report.operations:
            if v in order.before.get(v, ()):
                return f"cyclic {scenario.name} {v}"
    return ""


def repeated(report: Report, word: str, same: Callable[[int, int], bool]) -> str:
    """The least later scenario for which an earlier one is the same, and the first such."""
    for later in range(len(report.scenarios)):
        for earlier in range(later):
            if same(later, earlier):
                return f"{word} {report.scenarios[later].name} {report.scenarios[earlier].name}"
    return ""


def given_fault(report: Report) -> str:
    """The first scenario whose code hasn't the given bits."""
    for scenario, pattern in zip(report.scenarios, report.patterns()):
        if any(bit not in ("-", digit) for bit, digit in zip(pattern, scenario.code)):
            return f"given {scenario.name}"
    return ""


def fit_fault(report: Report) -> str:
    """The first scenario that the conditions don't leave under its code, and the first operation or pair."""
    names = report.operations
    for scenario, order in zip(report.scenarios, report.orders):
        values = report.signals(scenario.code)
        kept = {v for v in names if report.condition(v).value(values)}
        wrong = [v for v in names if (v in kept) != (v in scenario.operations)]
        if wrong:
            return f"operation {scenario.name} {wrong[0]}"
        pairs = [pair for pair in itertools.permutations(kept, 2) if report.condition(*pair).value(values)]
        walks = closure(names, pairs)
        for u, v in itertools.product(names, repeat=2):
            if (u in walks[v]) != (u in order.before.get(v, ())):
                return f"order {scenario.name} {u} {v}"
    return ""


def are_incompatible(a: Column, b: Column) -> bool:
    """Two columns that agree somewhere and differ elsewhere, where both ask for something."""
    both = {x == y for x, y in zip(a, b) if x is not None and y is not None}
    return both == {True, False}


def count_fault(report: Report, places: list[Place]) -> str:
    """The first place of a count whose column isn't open, or goes with an earlier one."""
    columns = [report.column(place) for place in places]
    for place, column in enumerate(columns):
        is_open = {True, False} <= set(column)
        if not is_open or not all(are_incompatible(earlier, column) for earlier in columns[:place]):
            return f"evidence condition {place + 1}"
    return ""


def step_fault(template: Template, live: dict, step: Step, clauses: int) -> int | None:
    """The hint of a step that doesn't follow over a template of so many clauses, or nothing."""
    if isinstance(step, Deletion):
        return None
    if step.id <= clauses or max(map(abs, step.literals), default=0) > template.variable_count():
        return 0
    return broken_hint(live, step)


def follow_fault(report: Report, log: Log, word: str) -> str:
    """The first line of a log that doesn't follow from its template."""
    template = report.template(log.kind, log.gates)
    clauses = list(template.clauses(report.classes))
    live = live_clauses(clauses)
    for place, step in enumerate(log.steps, 1):
        hint = step_fault(template, live, step, len(clauses))
        if hint is not None:
            return f"{word} line {place} hint {hint}"
        after(live, step)
    return ""


def evidence_fault(report: Report) -> str:
    """What is wrong with the evidence."""
    lower, told = report.lower, report.evidence
    if told is None:
        return "" if lower == 0 else "evidence"
    if isinstance(told, list):
        return count_fault(report, told) if len(told) == lower + report.bits else "evidence"
    if lower < 1 or told.gates != lower - 1 or report.bits < 2 or report.literals(told.kind, told.gates) > MOST_LITERALS:
        return "evidence"
    fault = follow_fault(report, told, "refutation")
    is_refuted = any(isinstance(step, Addition) and not step.literals for step in told.steps)
    return fault or ("" if is_refuted else "refutation no empty clause")


def open_fault(report: Report) -> str:
    """What is wrong with the open part."""
    told = report.open_part
    if told is None or report.lower == report.upper:
        return "" if told is None and report.lower == report.upper else "open"
    if told.gates != report.lower or report.bits < 2:
        return "open"
    if (report.literals(told.kind, told.gates) > MOST_LITERALS) != (told.steps is None):
        return "open"
    if told.steps is None:
        return ""
    numbers = sum(map(spent, told.steps))
    return follow_fault(report, told, "open") or ("" if numbers >= report.budget else "open short")


def bound_fault(report: Report) -> str:
    """What is wrong with the bounds."""
    is_good = report.upper == len(report.gates) and (report.is_minimum or report.lower < report.upper)
    return "" if is_good else "count"


def module_fault(report: Report) -> str:
    """Whether the module is another one."""
    return "" if report.module == module_lines(report) else "netlist"


# The parts of a good report, in the order in which they are judged.
PARTS: list[Callable[[Report], str]] = [
    cyclic_fault,
    lambda report: repeated(report, "equal", lambda a, b: same_order(report.orders[a], report.orders[b])),
    lambda report: repeated(report, "codes", lambda a, b: report.scenarios[a].code == report.scenarios[b].code),
    given_fault,
    fit_fault,
    module_fault,
    bound_fault,
    evidence_fault,
    open_fault,
]


def report_fault(report: Report) -> str:
    """The first part of a report that isn't good, or nothing."""
    return next(filter(None, (part(report) for part in PARTS)), "")


# ---- what a search owes beside that its report is good

def greedy_number(report: Report) -> int:
    """How many classes are taken in order, each where it is incompatible with all before it."""
    taken: list[Column] = []
    for column in report.classes:
        if all(are_incompatible(earlier, column) for earlier in taken):
            taken.append(column)
    return len(taken)


def progress_fault(report: Report) -> str:
    """What is wrong with an open log as one that a search leaves: its lines are new, and it ends where it is spent."""
    log = report.open_part
    if log is None or log.steps is None:
        return ""
    for place, step in enumerate(log.steps, 1):
        if isinstance(step, Deletion) or not step.literals or len(set(map(abs, step.literals))) < len(step.literals):
            return f"line {place} is a deletion, empty, or holds a variable twice"
    old = old_line(list(report.template(log.kind, log.gates).clauses(report.classes)), log.steps)
    if old is not None:
        return f"the clause {old} is not new to propagation"
    is_spent = sum(map(spent, log.steps[:-1])) < report.budget
    return "" if is_spent else "the log goes on behind the budget"


# ---- the first encoding

def matches(values: list[bool], column: Column, turned: bool) -> bool:
    """Wherever the column asks for something the values are that, or the opposite where turned."""
    return all(entry is None or (value != turned) == entry for value, entry in zip(values, column))


class FirstEncoding:
    """The gates that are appended class by class on given codes, where no signal and no pair of bits serves."""

    def __init__(self, codes: list[str]) -> None:
        self.bits = len(codes[0])
        self.codes = codes
        self.gates: list[Gate] = []
        self.values = [[code[i] == "1" for code in codes] for i in range(self.bits)]

    def gate(self, j: int, k: int, table: str) -> int:
        """The signal of this gate, which is appended where it isn't there."""
        gate = Gate(j, k, table)
        if gate not in self.gates:
            self.gates.append(gate)
            self.values.append([table[2 * a + b] == "1" for a, b in zip(self.values[j], self.values[k])])
        return self.bits + self.gates.index(gate)

    def take(self, column: Column) -> Reference:
        """The reference of a class: a signal, a gate of two bits, or minterms that are joined."""
        for signal, values in enumerate(self.values):
            for turned in (False, True):
                if matches(values, column, turned):
                    return Reference(signal, turned)
        for j, k in itertools.combinations(range(self.bits), 2):
            table = self.table(j, k, column)
            if table:
                return Reference(self.gate(j, k, table), False)
        return self.joined(column)

    def table(self, j: int, k: int, column: Column) -> str:
        """The values of a gate of two bits that serves, or nothing."""
        asked = {(a, b, entry) for a, b, entry in zip(self.values[j], self.values[k], column) if entry is not None}
        if any((a, b, not entry) in asked for a, b, entry in asked):
            return ""
        return "".join(str(int((bool(row & 2), bool(row & 1), True) in asked)) for row in range(4))

    def joined(self, column: Column) -> Reference:
        """The minterms of the smaller set of scenarios, joined."""
        ones = [s for s, entry in enumerate(column) if entry is True]
        zeros = [s for s, entry in enumerate(column) if entry is False]
        chosen, turned = (zeros, True) if len(zeros) < len(ones) else (ones, False)
        terms = [self.minterm(self.codes[s]) for s in chosen]
        whole = terms[0]
        for term in terms[1:]:
            whole = self.gate(min(whole, term), max(whole, term), "0111")
        return Reference(whole, turned)

    def minterm(self, code: str) -> int:
        """The gate that is 1 under this code alone."""
        row = int(code[:2], 2)
        signal = self.gate(0, 1, "".join(str(int(place == row)) for place in range(4)))
        for i in range(2, self.bits):
            signal = self.gate(i, signal, "0001" if code[i] == "1" else "0100")
        return signal


def first_fault(report: Report) -> str:
    """What is wrong where the bounds differ: codes and gates are then those of the first encoding on these codes."""
    if report.lower == report.upper:
        return ""
    codes = [scenario.code for scenario in report.scenarios]
    if not any(scenario.pattern for scenario in report.scenarios):
        wanted = [format(s, f"0{report.bits}b")[::-1] for s in range(len(codes))]
        if codes != wanted:
            return "the codes are not the numbers of the scenarios"
    first = FirstEncoding(codes)
    for column in report.classes:
        first.take(column)
    return "" if first.gates == report.gates else "the gates are not those of the first encoding"


def search_faults(report: Report, tries_lines: bool) -> Iterator[tuple[str, str]]:
    """What a search owes, by its name, and what is wrong with it or nothing. An open log's lines need not be tried."""
    greedy = greedy_number(report)
    yield "greedy", "" if report.lower >= greedy - report.bits else f"{greedy} classes are incompatible"
    yield "progress", progress_fault(report) if tries_lines else ""
    yield "first", first_fault(report)
