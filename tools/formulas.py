#!/usr/bin/env python3
"""Makes formulas in DIMACS CNF: tools/formulas.py KIND .. , or as a module of the other scripts.

Each is made of its words alone, so that a failure can be seen again.

- small SEED: at most twelve variables, of all kinds: without a clause, with empty ones, units, tautologies, literals that
  repeat, or many clauses; half of the texts have comments and words that stand as they may.
- threshold N RATIO SEED: random clauses of three distinct ones of N variables, RATIO for each variable.
- pigeons N: one pigeon more than N holes, each in a hole of its own.
- cycle N: implications through N variables in one cycle, and its first variable.
"""
import functools
import itertools
import random
import sys
from dataclasses import dataclass
from typing import Iterator

# The small formulas have at most so many variables.
MOST_SMALL = 12
# Places in the cycle of implications are so far apart, so that no pass over its clauses gains more than a few of them.
STRIDE = 618_033

Clause = list[int]


@dataclass(frozen=True)
class Formula:
    """A formula, and the text in which it is given to the programs."""

    name: str
    variables: int
    clauses: list[Clause]
    text: str


def plain(name: str, variables: int, clauses: list[Clause]) -> Formula:
    """The formula with one clause a line."""
    lines = [f"p cnf {variables} {len(clauses)}", *(" ".join(map(str, [*clause, 0])) for clause in clauses)]
    return Formula(name, variables, clauses, "".join(line + "\n" for line in lines))


def strewn(name: str, variables: int, clauses: list[Clause], draw: random.Random) -> Formula:
    """The formula with comments, and with words that stand as they may."""
    gaps = (" ", " ", " ", "  ", "\t", "\n", "\r\n", "\n\n", "\nc 1 0\n")
    words = [str(number) + draw.choice(gaps) for clause in clauses for number in [*clause, 0]]
    front = draw.choice(("", "c a formula\n", "\n", "c\nc 2\n \n"))
    return Formula(name, variables, clauses, f"{front}p cnf {variables} {len(clauses)}\n{''.join(words)}\n")


def literals(draw: random.Random, variables: int, width: int) -> Clause:
    """So many literals, which may repeat and contradict each other."""
    return [draw.choice((1, -1)) * draw.randint(1, variables) for _ in range(width)]


def small(seed: int) -> Formula:
    """A formula of at most twelve variables: without a clause, with empty ones, units, tautologies, or many clauses."""
    draw = random.Random(seed)
    variables = draw.randint(0, MOST_SMALL)
    count = draw.choice((draw.randint(0, 3), draw.randint(0, 20), 4 * variables, 6 * variables, draw.randint(50, 200)))
    widths = draw.choice(((1, 2), (2,), (2, 3), (3,), (3,), (1, 2, 3, 4, 5)))
    if variables == 0:
        count, widths = draw.randint(0, 3), (0,)
    clauses = [literals(draw, variables, draw.choice(widths)) for _ in range(count)]
    if draw.random() < 0.03:
        clauses.insert(draw.randint(0, len(clauses)), [])
    made = plain if draw.random() < 0.5 else functools.partial(strewn, draw=draw)
    return made(f"the small formula {seed}", variables, clauses)


def threshold(variables: int, ratio: float, seed: int) -> Formula:
    """Clauses of three distinct variables; near 4.26 clauses a variable half of such formulas are satisfiable."""
    draw = random.Random(seed)
    names = range(1, variables + 1)
    clauses = [[draw.choice((1, -1)) * v for v in draw.sample(names, 3)] for _ in range(round(ratio * variables))]
    return plain(f"{len(clauses)} clauses over {variables} variables, seed {seed}", variables, clauses)


def pigeons(holes: int) -> Formula:
    """One pigeon more than there are holes, each in a hole of its own."""
    birds, places = range(holes + 1), range(holes)
    clauses = [[bird * holes + place + 1 for place in places] for bird in birds]
    clauses += [[-(a * holes + place + 1), -(b * holes + place + 1)]
                for place in places for a, b in itertools.combinations(birds, 2)]
    return plain(f"{holes + 1} pigeons in {holes} holes", (holes + 1) * holes, clauses)


def large(seed: int) -> Formula:
    """Pigeons, or a random formula of 50 to 150 variables near the threshold."""
    if seed % 8 == 7:
        return pigeons(3 + seed // 8 % 4)
    draw = random.Random(seed)
    return threshold(draw.randint(50, 150), draw.uniform(3.9, 4.7), seed)


def cycle(variables: int) -> Iterator[str]:
    """The lines of a formula: each variable implies another one, all in one cycle, and the first one is true."""
    yield f"p cnf {variables} {variables + 1}\n"
    for v in range(variables):
        yield f"-{v + 1} {(v + STRIDE) % variables + 1} 0\n"
    yield "1 0\n"


def main() -> int:
    match sys.argv[1:]:
        case ["small", seed]:
            print(small(int(seed)).text, end="")
        case ["threshold", variables, ratio, seed]:
            print(threshold(int(variables), float(ratio), int(seed)).text, end="")
        case ["pigeons", holes]:
            print(pigeons(int(holes)).text, end="")
        case ["cycle", variables]:
            sys.stdout.writelines(cycle(int(variables)))
        case _:
            print("usage: tools/formulas.py small SEED | threshold N RATIO SEED | pigeons N | cycle N", file=sys.stderr)
            return 2
    return 0


if __name__ == "__main__":
    sys.exit(main())
