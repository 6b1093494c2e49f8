"""Certificates of the third version of the text: those of the second with marked cuts behind their own.

The Pareto-optimal dual of a commodity is found by exact fractions, with no regard to time, as the best solution of its linear program;
its objective row proves it. The program's own way to make them plays no part here.
"""

from fractions import Fraction
from itertools import combinations_with_replacement
from math import lcm

from checking import Problem

Way = tuple[int, int]


def length(problem: Problem, i: int, j: int, k: int, m: int) -> int:
    """What a unit of flow from i to j costs by both hubs, in the cheaper direction."""
    collect, trunk, deliver = problem.factors
    d = problem.lengths
    return min(
        collect * d[i - 1][first - 1] + trunk * d[first - 1][last - 1] + deliver * d[last - 1][j - 1]
        for first, last in ((k, m), (m, k))
    )


def best(
    rows: list[list[Fraction]], rights: list[Fraction], worth: list[int], whole: bool = False
) -> tuple[list[Fraction], list[Fraction]]:
    """Values of the variables that are worth most within rows that are at most their right sides, and what each row is worth, or the
    whole last row of the objective.

    The simplex method from the slacks, with the first column that gains, so that it ends.
    """
    many, count = len(worth), len(rows)
    table = [row + [Fraction(at == other) for other in range(count)] + [right] for at, (row, right) in enumerate(zip(rows, rights))]
    objective = [Fraction(-each) for each in worth] + [Fraction(0)] * (count + 1)
    basis = list(range(many, many + count))
    while True:
        enters = next((column for column in range(many + count) if objective[column] < 0), None)
        if enters is None:
            break
        leaves = min(
            (row for row in range(count) if table[row][enters] > 0),
            key=lambda row: (table[row][-1] / table[row][enters], basis[row]),
        )
        pivot = table[leaves][enters]
        table[leaves] = [number / pivot for number in table[leaves]]
        for row in [*(row for row in range(count) if row != leaves), None]:
            old = objective if row is None else table[row]
            new = [number - old[enters] * own for number, own in zip(old, table[leaves])]
            if row is None:
                objective = new
            else:
                table[row] = new
        basis[leaves] = enters
    values = [Fraction(0)] * many
    for row, variable in enumerate(basis):
        if variable < many:
            values[variable] = table[row][-1]
    return values, objective if whole else objective[many : many + count]


def core_dual(problem: Problem, i: int, j: int, hubs: list[int]) -> tuple[list[Fraction], int, list[tuple[Way, int]]]:
    """Price and values by unit of flow, the scale of the proof, and its ways."""
    candidates = problem.candidates
    turns = len(candidates)
    ways = list(combinations_with_replacement(candidates, 2))
    flow = problem.flows[i - 1][j - 1]
    rows = [[Fraction(1), *(Fraction(-(k in way)) for k in candidates)] for way in ways]
    rights = [Fraction(length(problem, i, j, *way) if flow else 0) for way in ways]
    worth = [2 + 2 * turns, *(-(1 + 2 * turns if k in hubs else 1) for k in candidates)]
    values, weights = best(rows, rights, worth)
    scale = lcm(*(weight.denominator for weight in weights))
    return values, scale, [(way, int(weight * scale)) for way, weight in zip(ways, weights) if weight]


def marked_cut(problem: Problem, number: int, hubs: list[int]) -> bytes:
    """The lines of a marked cut."""
    size = len(problem.flows)
    found = {
        (i, j): core_dual(problem, i, j, hubs) for i in range(1, size + 1) for j in range(1, size + 1)
    }
    part = lcm(*(value.denominator for values, _, _ in found.values() for value in values))
    lines = [f"cut {number} {part} core {' '.join(map(str, hubs))}"]
    for (i, j), (values, scale, ways) in found.items():
        flow = problem.flows[i - 1][j - 1]
        price, *rest = [int(value * part) * flow for value in values]
        listed = [f"{k} {value}" for k, value in zip(problem.candidates, rest) if value]
        lines.append(" ".join([f"dual {i} {j} {price}", *listed]))
        told = [f"{k} {m} {often}" for (k, m), often in ways]
        lines.append(" ".join([f"proof {len(problem.candidates)} {scale}", *told]))
    return "".join(line + "\n" for line in lines).encode()


def marked(problem: Problem, text: bytes, sets: list[list[int]]) -> bytes:
    """A certificate of the second version with a marked cut more for each of these hub sets, which no leaf names."""
    lines = text.splitlines(keepends=True)
    cuts = next(at for at, line in enumerate(lines) if line.startswith(b"cuts "))
    nodes = next(at for at, line in enumerate(lines) if line.startswith(b"nodes "))
    many = int(lines[cuts].split()[1])
    lines[0] = b"HUBCERT 3\n"
    lines[cuts] = b"cuts %d\n" % (many + len(sets))
    more = [marked_cut(problem, many + 1 + at, hubs) for at, hubs in enumerate(sets)]
    return b"".join([*lines[:nodes], *more, *lines[nodes:]])
