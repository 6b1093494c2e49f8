"""Small instances made by chance, and the least cost of all sets of hubs, worked out as plainly as may be."""

import random
import subprocess
from dataclasses import dataclass
from itertools import combinations
from pathlib import Path

from checking import Problem


@dataclass(frozen=True)
class Made:
    """An instance, its file in the layout `cab-matrix`, and the options that go with it but for limits."""

    problem: Problem
    text: str
    options: list[str]


def made(chance: random.Random, most_nodes: int) -> Made:
    """An instance; distances need not be symmetric, nor keep to the triangle inequality, and some flows are 0."""
    size = chance.randint(1, most_nodes)
    nodes = range(size)
    flows = [[chance.choice([0, 1, 2, 5, 40]) for _ in nodes] for _ in nodes]
    lengths = [[0 if i == j else chance.choice([1, 3, 7, 10, 25, 26]) for j in nodes] for i in nodes]
    fixed, trunk = chance.choice([0, 5, 60, 900]), chance.choice([0, 200, 750, 1000])
    candidates = sorted(chance.sample(range(1, size + 1), chance.choice([size, size, chance.randint(1, size)])))
    problem = Problem(
        [[flow * 10**6 for flow in row] for row in flows],
        [[length * 10**3 for length in row] for row in lengths],
        (1000, trunk, 1000),
        [fixed * 10**12] * size,
        candidates,
    )
    text = "\n".join(" ".join(map(str, row)) for row in [[size], *flows, *lengths]) + "\n"
    listed = ",".join(map(str, candidates))
    return Made(problem, text, [f"--fixed={fixed}", f"--trunk=0.{trunk:03}" if trunk < 1000 else "--trunk=1", f"--candidates={listed}"])


def lacked(problem: Problem, hubs: tuple[int, ...]) -> tuple[int, int] | None:
    """The first commodity that the hubs lack."""
    nodes = range(1, len(problem.flows) + 1)
    return next(
        ((i, j) for i in nodes for j in nodes if not any(problem.allowed(i, j, k, m) for k in hubs for m in hubs)),
        None,
    )


def set_cost(problem: Problem, hubs: tuple[int, ...]) -> int:
    """The least cost of a plan with just these hubs, which lack nothing."""
    nodes = range(1, len(problem.flows) + 1)
    routes = sum(
        min(problem.route(i, j, k, m) for k in hubs for m in hubs if problem.allowed(i, j, k, m)) for i in nodes for j in nodes
    )
    return routes + sum(problem.fixed[k - 1] for k in hubs)


def least(problem: Problem) -> int:
    """The least cost of all sets that may be."""
    sizes = [problem.wanted] if problem.wanted else range(1, len(problem.candidates) + 1)
    sets = (hubs for size in sizes for hubs in combinations(problem.candidates, size))
    return min(set_cost(problem, hubs) for hubs in sets if lacked(problem, hubs) is None)


def run(program: str, words: list[str], where: Path) -> tuple[int, bytes, bytes]:
    """How a run of the program ends, and what it wrote."""
    ended = subprocess.run([program, *words], cwd=where, capture_output=True, timeout=600)
    return ended.returncode, ended.stdout, ended.stderr
