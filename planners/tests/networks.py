"""Networks of invented nodes for the tests of pictures and pages."""

from __future__ import annotations

import random

import numpy as np

from . import helper  # noqa: F401, which makes `planning` to be found
from planning.certificate import Plan
from planning.instance import Instance
from planning.loads import network_of
from planning.program import Verdict
from planning.tables import Named


def made(size: int, hubs: int) -> tuple[Named, np.ndarray]:
    """A network of invented nodes, the first of which are hubs, with routes by the nearest ones; and its places."""
    chance = random.Random(size)
    places = [(chance.uniform(0, 900), chance.uniform(0, 900)) for _ in range(size)]
    lengths = [[round(1000 * abs(complex(a - c, b - d))) for c, d in places] for a, b in places]
    flows = [[chance.randint(0, 10**7) for _ in range(size)] for _ in range(size)]
    nearest = [min(range(hubs), key=lambda hub: lengths[node][hub]) for node in range(size)]
    routes = [[(nearest[i], nearest[j]) for j in range(size)] for i in range(size)]
    instance = Instance(flows, lengths, (1000, 500, 1000), [0] * size, None)
    cost = sum(
        flows[i][j] * (1000 * lengths[i][k] + 500 * lengths[k][m] + 1000 * lengths[m][j])
        for i in range(size)
        for j in range(size)
        for k, m in [routes[i][j]]
    )
    network = network_of(instance, Plan(cost, cost, list(range(hubs)), routes))
    return Named(network, Verdict(cost, cost), [f"Place {node}" for node in range(size)]), np.array(places)
