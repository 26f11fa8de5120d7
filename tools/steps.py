"""The lines of logs, and the rule by which an addition follows: docs/FORMATS.md, a second time, with nothing of the crates.

It is a module of tools/logs and tools/reports.
"""
import re
from typing import NamedTuple

ID = r"[1-9][0-9]{0,9}"
NUMBER = re.compile(r"-?[0-9]+")
MOST_ID = (1 << 32) - 1
ADDITION = re.compile(rf"[ \t]*({ID})((?:[ \t]+-?{ID})*)[ \t]+0((?:[ \t]+{ID})*)[ \t]+0[ \t]*")
DELETION = re.compile(rf"[ \t]*({ID})[ \t]+d((?:[ \t]+{ID})*)[ \t]+0[ \t]*")


class Addition(NamedTuple):
    """A line that adds a clause."""

    id: int
    literals: list[int]
    hints: list[int]


class Deletion(NamedTuple):
    """A line that deletes clauses."""

    id: int
    ids: list[int]


Step = Addition | Deletion


def numbers(words: str) -> list[int]:
    """The numbers of a list."""
    return list(map(int, words.split()))


def read_step(line: str) -> Step | None:
    """The step of a line that is no comment, as far as its words tell; nothing where it is neither."""
    if match := ADDITION.fullmatch(line):
        return Addition(int(match[1]), numbers(match[2]), numbers(match[3]))
    if match := DELETION.fullmatch(line):
        return Deletion(int(match[1]), numbers(match[2]))
    return None


def is_lawful(step: Step | None, variables: int, last: int) -> bool:
    """The step's numbers are within their limits, and the id of an addition is above the last one."""
    if step is None:
        return False
    if isinstance(step, Deletion):
        return max([step.id, *step.ids]) <= MOST_ID
    return (
        last < step.id <= MOST_ID
        and max(step.hints, default=0) <= MOST_ID
        and max(map(abs, step.literals), default=0) <= variables
    )


def spent(step: Step) -> int:
    """How many literals, hints and deleted ids a step has."""
    return len(step.ids) if isinstance(step, Deletion) else len(step.literals) + len(step.hints)


# The clause of each live id, as a set.
Live = dict[int, frozenset[int]]


def live_clauses(clauses: list[list[int]]) -> Live:
    """A formula's clauses under the ids from 1 on."""
    return dict(enumerate(map(frozenset, clauses), 1))


def broken_hint(live: Live, step: Addition) -> int | None:
    """The first hint that breaks the rule, counted from 1, or 0 for the clause; nothing where the addition follows."""
    false = set(step.literals)
    if not step.hints or any(-literal in false for literal in false):
        return 0
    for place, hint in enumerate(step.hints, 1):
        if hint not in live:
            return place
        left = live[hint] - false
        if place == len(step.hints):
            return place if left else None
        if len(left) != 1:
            return place
        (literal,) = left
        if -literal in false:
            return place
        false.add(-literal)
    return None


def after(live: Live, step: Step) -> None:
    """Makes live what is live after the step."""
    if isinstance(step, Addition):
        live[step.id] = frozenset(step.literals)
    else:
        for clause in step.ids:
            live.pop(clause, None)


# ---- what propagation knows already

class Known:
    """Clauses by which unit propagation goes."""

    def __init__(self, clauses: list[list[int]]) -> None:
        self.clauses: list[frozenset[int]] = []
        self.units: list[int] = []
        self.holders: dict[int, list[int]] = {}
        self.has_empty = False
        for clause in clauses:
            self.add(clause)

    def add(self, clause: list[int]) -> None:
        """One clause more."""
        literals = frozenset(clause)
        for literal in literals:
            self.holders.setdefault(literal, []).append(len(self.clauses))
        if len(literals) == 1:
            self.units += literals
        self.has_empty = self.has_empty or not literals
        self.clauses.append(literals)

    def propagated(self, start: list[int]) -> set[int] | None:
        """What unit propagation makes true from these literals; nothing where a clause is false throughout."""
        if self.has_empty:
            return None
        true: set[int] = set()
        waiting = [*start, *self.units]
        while waiting:
            literal = waiting.pop()
            if -literal in true:
                return None
            if literal in true:
                continue
            true.add(literal)
            for place in self.holders.get(-literal, []):
                left = [other for other in self.clauses[place] if -other not in true]
                if not left:
                    return None
                if len(left) == 1:
                    waiting += left
        return true

    def is_new(self, clause: list[int]) -> bool:
        """From the complements of all its literals but one, propagation fails nowhere and gives that one no value."""
        for literal in clause:
            true = self.propagated([-other for other in clause if other != literal])
            if true is not None and true.isdisjoint((literal, -literal)):
                return True
        return False


def old_line(formula: list[list[int]], additions: list[Addition]) -> int | None:
    """The id of the first addition that tells unit propagation nothing new; nothing where there is none."""
    known = Known(formula)
    for addition in additions:
        if not known.is_new(addition.literals):
            return addition.id
        known.add(addition.literals)
    return None
