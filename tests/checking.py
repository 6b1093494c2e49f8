"""What `hub check` is to say of a text, computed independently from docs/FORMATS.md, for small instances.

Written apart from the program, as plainly as may be: the whole text is read, then each condition is tried in the order
of the lines.
"""

import re
from dataclasses import dataclass, field

NUMBER = re.compile(rb"0|[1-9][0-9]{0,32}")
MOST_CUTS, MOST_TREE_LINES, MOST_PARTS = 67_108_864, 268_435_456, 1_000_000
MOST_NODES, MOST_SUM, MOST_CUT_PART = 200, 10**29, 1000
MOST_TURNS, MOST_SCALE, MOST_TAKEN, MOST_BY_FLOW = 1000, 10**9, 10**12, 10**20
SHORT, LONG = 10**30 - 1, 10**33 - 1
Dual = tuple[int, int, int, int, int, list[tuple[int, int]]]
"""Line, i, j, run, price, values: the dual of the commodities from i to j, to j + 1, .., as many as the run has."""
Proof = tuple[int, int, int, list[tuple[int, int, int]]]
"""Line, turns, scale, ways: two nodes each, and how often."""


@dataclass(frozen=True)
class Problem:
    """An instance in the units that are held: flows 10^-6, lengths and factors 10^-3, fixed costs 10^-12."""

    flows: list[list[int]]
    lengths: list[list[int]]
    factors: tuple[int, int, int]
    fixed: list[int]
    candidates: list[int]
    """Nodes from 1."""
    longest: int | None = None
    """How long a route may be, in 10^-3, if that is limited."""
    wanted: int | None = None
    """How many hubs are wanted, if a number is."""

    def route(self, i: int, j: int, k: int, m: int) -> int:
        """What the flow from i to j costs by k first and m last; nodes from 1."""
        collect, trunk, deliver = self.factors
        d = self.lengths
        length = collect * d[i - 1][k - 1] + trunk * d[k - 1][m - 1] + deliver * d[m - 1][j - 1]
        return self.flows[i - 1][j - 1] * length

    def allowed(self, i: int, j: int, k: int, m: int) -> bool:
        """Whether the flow from i to j may go by k first and m last: there is none, or the way is short enough."""
        d = self.lengths
        length = d[i - 1][k - 1] + d[k - 1][m - 1] + d[m - 1][j - 1]
        return self.longest is None or self.flows[i - 1][j - 1] == 0 or length <= self.longest

    def has_room(self, path: dict[int, bool]) -> bool:
        """Whether as many hubs as are wanted can be had on a path."""
        inside = sum(path.values())
        free = len(self.candidates) - len(path)
        return self.wanted is None or inside <= self.wanted <= inside + free


class Bad(Exception):
    """The text breaks the format: `BadLine` or `Ended`, and the line."""


class Fails(Exception):
    """A condition fails: its kind, and the line."""


@dataclass
class Lines:
    """The lines of a text from first to last."""

    text: bytes
    at: int = 0
    number: int = 0

    def next(self) -> list[bytes]:
        """The words of the next line."""
        self.number += 1
        stop = self.text.find(b"\n", self.at)
        if stop < 0:
            raise Bad("Ended", self.number)
        words = self.text[self.at : stop].split(b" ")
        self.at = stop + 1
        return words

    def want(self, holds: bool) -> None:
        """The line at hand is bad unless this holds."""
        if not holds:
            raise Bad("BadLine", self.number)

    def numbers(self, word: bytes) -> list[int]:
        """The numbers of the next line, behind this word."""
        first, *rest = self.next()
        self.want(first == word and all(map(NUMBER.fullmatch, rest)))
        return [int(number) for number in rest]

    def one(self, word: bytes, least: int, most: int) -> int:
        """The one number of the next line."""
        found = self.numbers(word)
        self.want(len(found) == 1 and least <= found[0] <= most)
        return found[0]

    def pairs(self, found: list[int], most: int, greatest: int) -> list[tuple[int, int]]:
        """What stands in pairs at a line's end: firsts ascending, from 1 to a limit, seconds from 1 to another."""
        self.want(len(found) % 2 == 0)
        pairs = list(zip(found[::2], found[1::2]))
        self.want(ascends([first for first, _ in pairs], most) and all(1 <= second <= greatest for _, second in pairs))
        return pairs


def ascends(numbers: list[int], most: int) -> bool:
    """Whether these go up from 1 at least to a limit at most."""
    return all(low < high for low, high in zip([0, *numbers], numbers)) and max(numbers, default=1) <= most


@dataclass
class Cut:
    """A cut, its line, its part and its duals; where it is marked the hubs of its mark, and a proof for each dual."""

    line: int
    part: int
    duals: list[Dual]
    hubs: list[int] | None = None
    proofs: list[Proof] = field(default_factory=list)


@dataclass
class Certificate:
    """What a text spells; each part with the line where it stands."""

    size: tuple[int, int]
    cost: int
    bound: int
    hubs: list[int]
    routes: list[tuple[int, int, int, int, int]] = field(default_factory=list)
    """Line, i, j, k, m."""
    cuts: list[Cut] = field(default_factory=list)
    tree: list[tuple[int, bytes, list[int]]] = field(default_factory=list)
    """Line, word, numbers."""


def spelled(text: bytes) -> Certificate:
    """The certificate that a text spells."""
    lines = Lines(text)
    first = lines.next()
    lines.want(first in ([b"HUBCERT", b"1"], [b"HUBCERT", b"2"], [b"HUBCERT", b"3"]))
    version = int(first[1])
    size = lines.numbers(b"size")
    lines.want(len(size) == 2 and 1 <= size[0] <= MOST_NODES and 1 <= size[1] <= size[0])
    n = size[0]
    cost, bound = (lines.one(word, 0, SHORT) for word in (b"cost", b"bound"))
    hubs = lines.numbers(b"hubs")
    lines.want(hubs != [] and ascends(hubs, n))
    found = Certificate((n, size[1]), cost, bound, hubs)
    pairs = [(i, j) for i in range(1, n + 1) for j in range(1, n + 1)]
    for i, j in pairs:
        route = lines.numbers(b"route")
        lines.want(len(route) == 4 and route[:2] == [i, j] and all(1 <= hub <= n for hub in route[2:]))
        found.routes.append((lines.number, i, j, *route[2:]))
    for cut in range(1, lines.one(b"cuts", 0, MOST_CUTS) + 1):
        found.cuts.append(read_cut(lines, version, cut, n))
    read_tree(lines, version, found, n)
    lines.want(lines.next() == [b"end"])
    if lines.at < len(text):
        raise Bad("BadLine", lines.number + 1)
    return found


def read_cut(lines: Lines, version: int, number: int, n: int) -> Cut:
    """The lines of the cut of this number."""
    first, *rest = lines.next()
    is_marked = version == 3 and rest[2:3] == [b"core"]
    behind = rest[3:] if is_marked else []
    rest = rest[:2] if is_marked else rest
    lines.want(first == b"cut" and all(map(NUMBER.fullmatch, [*rest, *behind])))
    said = [int(digits) for digits in rest]
    lines.want(len(said) == min(version, 2) and said[0] == number)
    cut = Cut(lines.number, said[1] if version > 1 else 1, [])
    lines.want(1 <= cut.part <= MOST_CUT_PART)
    if is_marked:
        cut.hubs = [int(digits) for digits in behind]
        lines.want(cut.hubs != [] and ascends(cut.hubs, n))
        read_proved(lines, cut, n)
        return cut
    for i in range(1, n + 1):
        j, before = 1, None
        while j <= n:
            dual = read_dual(lines, version, i, j, n)
            lines.want(version == 1 or dual[4:] != before)
            cut.duals.append(dual)
            j, before = j + dual[3], dual[4:]
    return cut


def read_proved(lines: Lines, cut: Cut, n: int) -> None:
    """The duals of a marked cut, each on a line of its own, with the line of its proof behind it."""
    for i in range(1, n + 1):
        for j in range(1, n + 1):
            # Only the first version has no word for a run, and it has less room for numbers.
            dual = read_dual(lines, 2, i, j, n)
            lines.want(dual[3] == 1)
            cut.duals.append(dual)
            numbers = lines.numbers(b"proof")
            lines.want(len(numbers) >= 2 and len(numbers) % 3 == 2)
            turns, scale, *told = numbers
            lines.want(turns <= MOST_TURNS and 1 <= scale <= MOST_SCALE)
            ways = list(zip(told[::3], told[1::3], told[2::3]))
            lines.want(all(1 <= k <= m <= n and 1 <= often <= MOST_TAKEN for k, m, often in ways))
            lines.want(all(way[:2] < later[:2] for way, later in zip(ways, ways[1:])))
            cut.proofs.append((lines.number, turns, scale, ways))


def read_dual(lines: Lines, version: int, i: int, j: int, n: int) -> Dual:
    """The next line, of a dual or of a run of equal ones, the first of them that of the commodity from i to j."""
    word, *rest = lines.next()
    lines.want(word in (b"dual", b"duals")[: min(version, 2)] and all(map(NUMBER.fullmatch, rest)))
    numbers = [int(digits) for digits in rest]
    lines.want(len(numbers) >= (3 if word == b"dual" else 4) and numbers[:2] == [i, j])
    run = 1 if word == b"dual" else numbers.pop(2)
    lines.want((run >= 2) == (word == b"duals") and j + run - 1 <= n)
    greatest = SHORT if version == 1 else LONG
    lines.want(numbers[2] <= greatest)
    return lines.number, i, j, run, numbers[2], lines.pairs(numbers[3:], n, greatest)


def read_tree(lines: Lines, version: int, found: Certificate, n: int) -> None:
    """The lines of the tree."""
    left, places = lines.one(b"nodes", 1, MOST_TREE_LINES), 1
    words = (b"branch", b"leaf", b"empty", b"block", b"count")[: 3 if version == 1 else 5]
    while left:
        word, *rest = lines.next()
        lines.want(word in words and all(map(NUMBER.fullmatch, rest)))
        numbers = [int(number) for number in rest]
        if word == b"branch":
            lines.want(len(numbers) == 1 and 1 <= numbers[0] <= n)
        elif word == b"leaf":
            lines.want(numbers != [] and 1 <= numbers[0] <= MOST_PARTS)
            lines.pairs(numbers[1:], SHORT, SHORT)
        elif word == b"block":
            lines.want(len(numbers) == 2 and all(1 <= number <= n for number in numbers))
        else:
            lines.want(numbers == [])
        left -= 1
        places += 1 if word == b"branch" else -1
        lines.want(places <= left and (places > 0 or left == 0))
        found.tree.append((lines.number, word, numbers))


def fail_unless(holds: bool, kind: str, line: int) -> None:
    """A condition at a line."""
    if not holds:
        raise Fails(kind, line)


def holds(problem: Problem, found: Certificate) -> None:
    """Tries each condition."""
    n, candidates = len(problem.flows), problem.candidates
    fail_unless(found.size == (n, len(candidates)), "Size", 2)
    fail_unless(found.bound <= found.cost, "BoundOverCost", 4)
    fail_unless(set(found.hubs) <= set(candidates), "Hubs", 5)
    fail_unless(problem.wanted in (None, len(found.hubs)), "Number", 5)
    for line, i, j, k, m in found.routes:
        fail_unless(k in found.hubs and m in found.hubs, "Route", line)
        fail_unless(problem.allowed(i, j, k, m), "Length", line)
    cost = sum(problem.fixed[k - 1] for k in found.hubs) + sum(problem.route(*route[1:]) for route in found.routes)
    fail_unless(found.cost == cost, "Cost", found.routes[-1][0])
    sums = [sums_of(problem, cut, True) for cut in found.cuts]
    closed_or_open: list[dict[int, bool]] = [{}]
    for line, word, numbers in found.tree:
        path = closed_or_open.pop()
        if word == b"branch":
            k = numbers[0]
            fail_unless(k in candidates and k not in path, "Branch", line)
            closed_or_open += [path | {k: False}, path | {k: True}]
        elif word == b"empty":
            fail_unless(all(path.get(k) is False for k in candidates), "Empty", line)
        elif word == b"block":
            unclosed = [k for k in candidates if path.get(k) is not False]
            fail_unless(not any(problem.allowed(*numbers, k, m) for k in unclosed for m in unclosed), "Block", line)
        elif word == b"count":
            fail_unless(not problem.has_room(path), "Count", line)
        else:
            try_leaf(problem, found.bound, sums, path, line, numbers)


def sums_of(problem: Problem, cut: Cut, marks: bool) -> tuple[int, int, dict[int, int]]:
    """The part of a cut, its prices together, and each candidate's values together, its mark tried too if `marks` is set."""
    part, total = cut.part, 0
    loads = dict.fromkeys(problem.candidates, 0)
    asked = marks and cut.hubs is not None
    if asked:
        may = problem.longest is None and problem.wanted is None and 3 <= len(loads) <= 20
        fail_unless(may and set(cut.hubs) <= set(loads), "Core", cut.line)
    for at, (line, i, j, run, price, pairs) in enumerate(cut.duals):
        values = dict.fromkeys(problem.candidates, 0)
        fail_unless(all(k in values for k, _ in pairs), "Dual", line)
        values.update(pairs)
        for k in values:
            for m in values:
                by_both = values[k] + (values[m] if m != k else 0)
                for to in range(j, j + run):
                    if problem.allowed(i, to, k, m):
                        fail_unless(price <= part * problem.route(i, to, k, m) + by_both, "Dual", line)
            loads[k] += run * values[k]
        total += run * price
        if at + 1 == len(cut.duals):
            fail_unless(max(total, *loads.values()) <= part * MOST_SUM, "Sum", line)
        if asked:
            proof = cut.proofs[at]
            fail_unless(is_core(problem, cut, i, j, price, values, proof), "Core", proof[0])
    return part, total, loads


def is_core(problem: Problem, cut: Cut, i: int, j: int, price: int, values: dict[int, int], proof: Proof) -> bool:
    """Whether the dual of the commodity from i to j is best at the hubs of the mark, by this proof."""
    _, turns, scale, ways = proof
    flow = problem.flows[i - 1][j - 1]
    least = min(problem.route(i, j, k, m) for k in cut.hubs for m in cut.hubs)
    taken = sum(often for _, _, often in ways)
    through = {node: sum(often for k, m, often in ways if node in (k, m)) for node in values}
    costs = sum(often * min(problem.route(i, j, k, m), problem.route(i, j, m, k)) for k, m, often in ways)
    return (
        all(k in values and m in values for k, m, _ in ways)
        and all(amount % flow == 0 if flow else amount == 0 for amount in (price, *values.values()))
        and all(amount <= MOST_BY_FLOW * flow for amount in (price, *values.values()))
        and price == cut.part * least + sum(values[k] for k in cut.hubs)
        and taken >= scale * (2 + 2 * turns)
        and all(through[k] <= scale * (1 + 2 * turns if k in cut.hubs else 1) for k in values)
        and scale * (2 * price + 2 * turns * cut.part * least) == cut.part * costs + scale * sum(values.values())
    )


def try_leaf(
    problem: Problem,
    target: int,
    sums: list[tuple[int, int, dict[int, int]]],
    path: dict[int, bool],
    line: int,
    numbers: list[int],
) -> None:
    """The five conditions of a leaf."""
    parts, weights = numbers[0], list(zip(numbers[1::2], numbers[2::2]))
    fail_unless(problem.has_room(path), "Count", line)
    fail_unless(all(cut <= len(sums) for cut, _ in weights), "CutNumber", line)
    fail_unless(all(weight % sums[cut - 1][0] == 0 for cut, weight in weights), "Multiple", line)
    fail_unless(sum(weight for _, weight in weights) <= parts, "Weight", line)
    shares = [(sums[cut - 1], weight // sums[cut - 1][0]) for cut, weight in weights]
    bound = sum(share * total for (_, total, _), share in shares)
    gains = {
        k: parts * problem.fixed[k - 1] - sum(share * loads[k] for (_, _, loads), share in shares)
        for k in problem.candidates
    }
    bound += sum(gains[k] for k in gains if path.get(k))
    free = sorted(gains[k] for k in gains if k not in path)
    if problem.wanted is None:
        bound += sum(min(0, gain) for gain in free)
    else:
        bound += sum(free[: problem.wanted - sum(path.values())])
    fail_unless(bound > parts * (target - 1), "Leaf", line)


def line_for(problem: Problem, text: bytes) -> tuple[int, str]:
    """The status of `hub check` and the line that it is to write."""
    try:
        found = spelled(text)
        holds(problem, found)
    except (Bad, Fails) as no:
        kind, line = no.args
        return 2, f"no {kind} {line}"
    if found.bound == found.cost:
        return 0, f"optimal {printed(found.cost)}"
    return 1, f"bounds {printed(found.bound)} {printed(found.cost)}"


def older_line(problem: Problem, text: bytes, cuts: bool = True) -> str | None:
    """The line with which `hub resolve` is to refuse the text as an older certificate, if it is.

    With `cuts` False it is that of `hub optimize --from`, which tries the text and the size alone.
    """
    try:
        found = spelled(text)
        fail_unless(found.size == (len(problem.flows), len(problem.candidates)), "Size", 2)
        for cut in found.cuts if cuts else ():
            sums_of(problem, cut, False)
    except (Bad, Fails) as no:
        kind, line = no.args
        return f"no {kind} {line}"
    return None


def printed(cost: int) -> str:
    """A cost with 12 decimals."""
    return f"{cost // 10**12}.{cost % 10**12:012}"
