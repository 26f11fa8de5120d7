"""Times the searches of `synth` for the least number of gates. It is a module of tools/bench.

The texts are the examples and instructions of small processors (tools/texts.py). For each it tells what the report says
of the least number of gates, the seconds, and the lines and numbers of the log that the search ended with. Where
CaDiCaL is installed and a converter of its proofs to logs is named, CaDiCaL decides the same formulas, plainly and as
long as the numbers of its log stay below the same budget. `minimum` must be printed for at least as many texts as it
decides, and the default budget must be spent within the limit of seconds.
"""
import pathlib
import re
import shutil
import subprocess
import tempfile
from typing import NamedTuple

import texts
from report_rule import GATES_END, Log, Report, read_report
from runs import TOP, run_once, said_file
from steps import Step, spent

BUDGET = 2_000_000
# How long a search of the default budget may take on so few scenarios, and how long CaDiCaL may.
MOST_SECONDS = 5.0
FEW_SCENARIOS = range(5, 9)
MOST_FOREIGN_SECONDS = 60
# How many texts are made, of 2 scenarios and on.
MADE = 20
MIN_MADE, MAX_MADE = 2, 12


class Case(NamedTuple):
    """A text that is searched."""

    name: str
    text: bytes


def cases() -> list[Case]:
    """The examples, and instructions of small processors."""
    found = [Case(path.stem, path.read_bytes()) for path in sorted((TOP / "examples").glob("*.cpog"))]
    counts = [MIN_MADE + seed % (MAX_MADE - MIN_MADE + 1) for seed in range(MADE)]
    made = [(f"instructions {count} {seed}", texts.instructions(count, seed)) for seed, count in enumerate(counts)]
    return found + [Case(name, text.encode("ascii")) for name, text in made]


class Searched(NamedTuple):
    """What a search came to: its report, and its seconds of processor time."""

    report: Report
    seconds: float

    def bound(self) -> str:
        """What is known of the least number of gates."""
        lower, upper = self.report.lower, self.report.upper
        return f"minimum {lower}" if lower == upper else f"between {lower} and {upper}"

    def last_log(self) -> list[Step]:
        """The lines of the log with which the search ended, or else of the evidence; none where there is no log."""
        told = [self.report.open_part, self.report.evidence]
        return next((log.steps for log in told if isinstance(log, Log) and log.steps is not None), [])


def search(program: str, case: Case) -> Searched:
    """Runs the program on a text."""
    with tempfile.TemporaryDirectory() as folder:
        path = pathlib.Path(folder) / "text"
        path.write_bytes(case.text)
        run = run_once([program, "synth"], str(path))
        return Searched(read_report(said_file(str(path)).read_text(encoding="latin-1")), run.seconds)


# ---- another solver

def foreign_numbers(converter: str, formula: pathlib.Path, proof: pathlib.Path) -> int | None:
    """How many numbers the log has that a proof is converted to, or nothing where they pass the budget."""
    words = [converter, "-b", str(BUDGET), formula, proof]
    said = subprocess.run(words, stdout=subprocess.DEVNULL, stderr=subprocess.PIPE, text=True).stderr
    numbers = int(re.search(r"\bnumbers=(\d+)", said)[1])
    return numbers if numbers < BUDGET else None


def decides(program: str, converter: str, case: Case, gates: int, folder: pathlib.Path) -> bool | None:
    """Whether the formula for so many gates is satisfiable, as far as CaDiCaL decides it within the budget."""
    formula, proof = folder / "formula.cnf", folder / "proof"
    with formula.open("wb") as file:
        subprocess.run([program, "cnf", str(gates)], input=case.text, stdout=file, check=True)
    words = ["cadical", "-q", "--plain", "--no-binary", "-t", str(MOST_FOREIGN_SECONDS), formula, proof]
    status = subprocess.run(words, stdout=subprocess.DEVNULL).returncode
    if status not in (10, 20) or foreign_numbers(converter, formula, proof) is None:
        return None
    return status == 10


def is_decided(program: str, converter: str, case: Case, report: Report) -> bool:
    """Whether CaDiCaL finds the least number of gates of a text, each formula within the budget."""
    if report.bits < 2 or report.upper == 0:
        return True
    first = report.lower if not isinstance(report.evidence, Log) else report.evidence.gates
    with tempfile.TemporaryDirectory() as folder:
        for gates in range(first, GATES_END):
            answer = decides(program, converter, case, gates, pathlib.Path(folder))
            if answer is not False:
                return answer is True
    return False


# ---- all searches

def measure(program: str, converter: str | None) -> bool:
    """Runs all searches, prints what they took, and says whether all is within the limits."""
    has_foreign = converter is not None and shutil.which("cadical") is not None
    if not has_foreign:
        print("searches: CaDiCaL or a converter of its proofs is missing, so nothing stands beside them")
    good, own, foreign = True, 0, 0
    for case in cases():
        searched = search(program, case)
        scenarios, steps = len(searched.report.scenarios), searched.last_log()
        is_late = scenarios in FEW_SCENARIOS and searched.seconds > MOST_SECONDS
        good = good and not is_late
        own += searched.report.lower == searched.report.upper
        beside = ""
        if has_foreign:
            decided = is_decided(program, converter, case, searched.report)
            foreign += decided
            beside = f"; CaDiCaL: {'decided' if decided else 'open'}"
        print(
            f"synth, {case.name}: {scenarios} scenarios, {searched.bound()}, {searched.seconds:.2f} s, "
            f"last log {len(steps)} lines and {sum(map(spent, steps))} numbers{beside}: "
            f"{'NOT WITHIN' if is_late else 'ok'}",
            flush=True,
        )
    if has_foreign:
        good = good and own >= foreign
        print(f"a minimum for {own} texts, by CaDiCaL within the same numbers for {foreign}: {'ok' if own >= foreign else 'NOT WITHIN'}")
    return good
