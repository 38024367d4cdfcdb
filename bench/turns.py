"""Programs that run turn about on the same inputs, and what the ratios of their costs come to."""

import math
import os
import statistics
import sys
import tempfile
from collections.abc import Callable
from typing import NamedTuple

import program

# What a program's cost is held against. ITSELF: the cost is a ratio already. ALONE: the same, and of the product alone.
PEER, OLD, ITSELF, ALONE = "peer", "old", "itself", "alone"


class Programs(NamedTuple):
    """The program that is measured, the peer, an older program, and one that takes copies: the last two where given."""

    product: str
    peer: str
    old: str | None = None
    copies: str | None = None


class Case(NamedTuple):
    """What is measured in one row of the table. `cost` is what a program takes; the ratio is that of the product over
    that of the peer or of the older program, or where it is held against itself, the cost is the ratio."""

    name: str
    cost: Callable[[str], float]
    over: str = PEER


class Ratios(NamedTuple):
    """One ratio for each round: of the product, of the older program, and of the costs of both."""

    product: list[float]
    old: list[float]
    both: list[float]


class Bench:
    """A folder with inputs, each written once, and the runs over them."""

    def __init__(self, folder, programs, rounds, is_counted):
        self.folder, self.programs, self.rounds, self.is_counted = folder, programs, rounds, is_counted
        self.inputs, self.counts, self.compared = {}, {}, set()

    def input(self, make, *given):
        """The run that `make` writes into a folder of its own, from what is given."""
        key = make, *given
        if key not in self.inputs:
            self.inputs[key] = make(tempfile.mkdtemp(dir=self.folder), *given)
        return self.inputs[key]

    def compare(self, run, *others):
        """Stops where a program's report isn't that of the product, or a run fails. Each run is compared once."""
        key = tuple(run.words), others
        if key in self.compared:
            return
        given = [one for one in (self.programs.product, self.programs.peer, self.programs.old, *others) if one]
        sums = set()
        for one in given:
            with open(os.path.join(self.folder, "report"), "wb") as out:
                succeed(one, run, program.launch(run.words, out, one)[0])
            sums.add(program.sum_of(self.folder))
        if len(sums) > 1:
            sys.exit(f"bench: the reports differ; words {' '.join(run.words)}")
        self.compared.add(key)

    def seconds(self, one, run):
        """Seconds of the processor, with a report that nobody keeps."""
        return self.spent(one, run).processor

    def memory(self, one, run):
        """Peak memory in bytes. It is at least that of the small process that starts the program, some 9 MB."""
        return self.spent(one, run).memory

    def spent(self, one, run):
        self.compare(run)
        with open(os.devnull, "wb") as out:
            status, cost = program.launch(run.words, out, one)
        succeed(one, run, status)
        return cost

    def instructions(self, one, run):
        """Instructions, which are counted once: they hardly change from run to run."""
        self.compare(run)
        key = one, tuple(run.words)
        if key not in self.counts:
            with open(os.devnull, "wb") as out:
                status, self.counts[key] = program.count(run.words, out, one)
            succeed(one, run, status)
        return self.counts[key]

    def cost(self, one, run):
        """Instructions where they are asked for, and else seconds."""
        return (self.instructions if self.is_counted else self.seconds)(one, run)

    def ratios(self, case, rounds=None):
        """The ratios of a case, round by round."""
        here = self.programs
        given = [here.product]
        given += [here.peer] if case.over == PEER else []
        given += [here.old] if here.old and case.over != ALONE else []
        rounds = [{one: case.cost(one) for one in given} for _ in range(rounds or self.rounds)]
        return ratios_of(rounds, case.over, here)


def succeed(one, run, status):
    if status != 0:
        sys.exit(f"bench: status {status}; {one} {' '.join(run.words)}")


def quotient(one, other):
    """No number where it says nothing, as where a difference of two runs came out below nothing."""
    return one / other if one > 0 and other > 0 else math.nan


def ratios_of(rounds, over, programs):
    """The ratios from what the programs took, round by round. A round that says nothing is left out."""
    def all_of(ratio):
        return [found for found in map(ratio, rounds) if not math.isnan(found)]

    def over_reference(one):
        reference = {PEER: programs.peer, OLD: programs.old}.get(over)
        return all_of(lambda costs: quotient(costs[one], costs[reference] if reference else 1))

    product = over_reference(programs.product)
    if not programs.old or over in (OLD, ALONE):
        return Ratios(product, [], [])
    both = all_of(lambda costs: quotient(costs[programs.product], costs[programs.old]))
    return Ratios(product, over_reference(programs.old), both)


def each(more, less, times):
    """What one of so many takes, from a run with them and one without."""
    return (more - less) / times


def power(few, many, less, more):
    """How a cost grows, as a power of the number of updates, where it goes from `less` to `more`."""
    return math.log(more / less) / math.log(many / few)


# ---- the table

HEAD = ("row", "input", "bound", "least", "median", "held", "old, least", "old, median", "new over old")


def verdict(ratios, bound):
    """Whether a bound is held, by the median of the rounds."""
    if not ratios:
        return "unclear"
    if statistics.median(ratios) <= bound:
        return "yes"
    return "in the least round" if min(ratios) <= bound else "no"


def two(ratios, pick):
    return f"{pick(ratios):.2f}" if ratios else ""


def line_of(word, name, bound, ratios):
    """A line of the table."""
    both = f"{statistics.median(ratios.both):.3f}" if ratios.both else ""
    return (word, name, f"{bound:g}", two(ratios.product, min), two(ratios.product, statistics.median),
            verdict(ratios.product, bound), two(ratios.old, min), two(ratios.old, statistics.median), both)


def shown(cells):
    return f"| {' | '.join(cells)} |"


def head():
    return f"{shown(HEAD)}\n|{'---|' * len(HEAD)}"
