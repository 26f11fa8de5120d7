#!/usr/bin/env python3
"""Makes graph texts: tools/texts.py KIND .. SEED, or as a module of the other scripts.

Each text is made of its seed alone, so that a failure can be seen again.

- small: a text in all of the notation, with parameters, named graphs, scenarios, bindings and comments, whose names
  are in order. It has a graph or a scenario.
- controller N M: N scenarios over M operations, none cyclic. Each is drawn on its own, so that any two differ but by
  chance. Most pairs of operations have a condition of their own.
- instructions N: N different instructions of a small processor. Each is fetched and decoded, and then does a few of the
  same steps, stage after stage.
- full: a megabyte of one graph and a scenario, in all of the notation and with names of ordinary length.
"""
import random
import sys
from typing import Iterator

MOST_BYTES = 1 << 20
PARAMS = ["x", "y", "is_long", "z0", "mode", "w"]
OPERATIONS = ["a", "b", "c", "d", "fetch", "decode", "x", "load_2", "_", "write_back"]
LONG_OPERATIONS = [f"{verb}_{noun}" for verb in ("read", "write", "shift", "clear") for noun in ("operand", "result", "address", "flags")]
LONG_PARAMS = ["is_long", "is_signed", "is_store", "is_byte"]
BLANKS = ["", " ", "  ", "\t"]


# ---- small texts in all of the notation

class Writer:
    """Writes the expressions of one text: what may be used so far, and a source of choices."""

    def __init__(self, draw: random.Random, operations: list[str]) -> None:
        self.draw = draw
        self.operations = operations
        self.params: list[str] = []
        self.graphs: list[str] = []

    def blank(self) -> str:
        return self.draw.choice(BLANKS)

    def joined(self, sign: str, members: list[str]) -> str:
        return members[0] + "".join(f"{self.blank()}{sign}{self.blank()}{member}" for member in members[1:])

    def several(self, depth: int, member) -> list[str]:
        return [member(depth - 1) for _ in range(self.draw.choice((1, 1, 2, 3)))]

    def condition(self, depth: int) -> str:
        """Members joined by `|`."""
        return self.joined("|", self.several(depth, self.conjunction))

    def conjunction(self, depth: int) -> str:
        return self.joined("&", self.several(depth, self.literal))

    def literal(self, depth: int) -> str:
        kind = self.draw.random()
        if depth > 0 and kind < 0.2:
            return "!" + self.blank() + self.literal(depth - 1)
        if depth > 0 and kind < 0.35:
            return f"({self.blank()}{self.condition(depth - 1)}{self.blank()})"
        return self.draw.choice(self.params) if self.params and kind < 0.9 else self.draw.choice("01")

    def expression(self, depth: int) -> str:
        """Members joined by `+`."""
        return self.joined("+", self.several(depth, self.sequence))

    def sequence(self, depth: int) -> str:
        return self.joined("->", self.several(depth, self.governed))

    def governed(self, depth: int) -> str:
        kind = self.draw.random()
        if depth > 0 and kind < 0.25:
            return f"[{self.blank()}{self.condition(2)}{self.blank()}]{self.blank()}{self.governed(depth - 1)}"
        if depth > 0 and kind < 0.4:
            return f"({self.blank()}{self.expression(depth - 1)}{self.blank()})"
        if self.graphs and kind < 0.55:
            return "@" + self.blank() + self.draw.choice(self.graphs)
        return "empty" if kind < 0.6 else self.draw.choice(self.operations)

    def bindings(self) -> str:
        bound = self.draw.sample(self.params, self.draw.randint(0, len(self.params)))
        if not bound:
            return ""
        return " with " + self.joined(",", [f"{name}{self.blank()}={self.blank()}{self.draw.choice('01')}" for name in bound])


def small_statements(writer: Writer) -> Iterator[str]:
    """The statements of a small text, in order."""
    draw = writer.draw
    names = PARAMS[:]
    draw.shuffle(names)
    count = draw.randint(1, 8)
    for i in range(count):
        # The last statement has an expression.
        kind = draw.random() if i < count - 1 else 1 - draw.random() / 2
        if kind < 0.35 and names:
            new = [names.pop() for _ in range(draw.randint(1, len(names)))]
            writer.params += new
            yield "params " + writer.joined(",", new)
        elif kind < 0.7:
            name = draw.choice(OPERATIONS) + str(i)
            yield f"graph {name}{writer.blank()}={writer.blank()}{writer.expression(4)}"
            writer.graphs.append(name)
        else:
            yield f"scenario {draw.choice(OPERATIONS)}{i}{writer.blank()}={writer.blank()}{writer.expression(4)}{writer.bindings()}"


def small(seed: int) -> str:
    """A small text in all of the notation."""
    writer = Writer(random.Random(seed), OPERATIONS)
    lines = []
    for statement in small_statements(writer):
        lines += writer.draw.choice(([], [], [""], ["# a line without a statement"]))
        lines.append(writer.blank() + statement + writer.draw.choice(("", "", " # the rest of the line")))
    end = writer.draw.choice(("\n", "\n", "\r\n"))
    return "".join(line + end for line in lines)


# ---- large texts

def full(seed: int) -> str:
    """A megabyte in all of the notation: one graph and a scenario, with names of ordinary length."""
    writer = Writer(random.Random(seed), LONG_OPERATIONS)
    writer.params = LONG_PARAMS[:]
    front = f"params {', '.join(LONG_PARAMS)}\ngraph whole = read_operand"
    end = "\nscenario first = read_operand -> write_result\n"
    parts = [front, end]
    size = len(front) + len(end)
    while True:
        more = " + " + writer.sequence(3)
        size += len(more)
        if size > MOST_BYTES:
            return "".join([front, *parts[2:], end])
        parts.append(more)


def controller(scenarios: int, operations: int, seed: int) -> str:
    """So many scenarios over so many operations, none cyclic."""
    draw = random.Random(seed)
    names = [f"op{v}" for v in range(operations)]
    lines = []
    for s in range(scenarios):
        order = draw.sample(names, operations - draw.randint(0, operations // 4))
        arcs = [f"{u} -> {v}" for i, u in enumerate(order) for v in order[i + 1 : i + 4] if draw.random() < 0.6]
        lines.append(f"scenario s{s} = " + " + ".join(order + arcs))
    return "".join(line + "\n" for line in lines)


# What an instruction may do behind its decoding, stage by stage.
STAGES = [
    ["read_first", "read_second", "extend"],
    ["add", "subtract", "shift", "mask"],
    ["read_memory", "write_memory"],
    ["write_register", "set_flags", "set_counter"],
]


def instruction(draw: random.Random) -> str:
    """The graph of an instruction: some of each stage, side by side, behind those of the stage before."""
    chosen = [draw.sample(stage, draw.choice((0, 1, 1, 2))) for stage in STAGES]
    groups = [sorted(steps) for steps in chosen if steps]
    stages = ["(" + " + ".join(steps) + ")" if len(steps) > 1 else steps[0] for steps in groups]
    return " -> ".join(["fetch", "decode", *stages])


def instructions(scenarios: int, seed: int) -> str:
    """So many instructions of a small processor, any two different."""
    draw = random.Random(f"instructions {scenarios} {seed}")
    graphs: dict[str, None] = {}
    while len(graphs) < scenarios:
        graphs[instruction(draw)] = None
    return "".join(f"scenario i{number} = {graph}\n" for number, graph in enumerate(graphs))


def main() -> int:
    match sys.argv[1:]:
        case ["small", seed]:
            print(small(int(seed)), end="")
        case ["full", seed]:
            print(full(int(seed)), end="")
        case ["controller", scenarios, operations, seed]:
            print(controller(int(scenarios), int(operations), int(seed)), end="")
        case ["instructions", scenarios, seed]:
            print(instructions(int(scenarios), int(seed)), end="")
        case _:
            print("usage: tools/texts.py small SEED | controller N M SEED | instructions N SEED | full SEED", file=sys.stderr)
            return 2
    return 0


if __name__ == "__main__":
    sys.exit(main())
