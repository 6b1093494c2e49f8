"""What each part of a network carries and costs, worked out exactly from an instance and a plan."""

from __future__ import annotations

from dataclasses import dataclass, field

from .certificate import Plan
from .faults import Fault
from .instance import Instance

FIXED_UNITS = 10**6
"""A fixed cost is held in 10^-6, a cost in 10^-12."""


@dataclass
class Load:
    """What goes over a link: flow in 10^-6, cost in 10^-12."""

    flow: int = 0
    cost: int = 0

    def add(self, flow: int, cost: int) -> None:
        """Adds the share of one route."""
        self.flow += flow
        self.cost += cost


Links = dict[tuple[int, int], Load]
"""Loads by the node where a link begins and the one where it ends."""


@dataclass
class Network:
    """A plan with its loads. Links from a node to itself carry at no cost and are not listed."""

    plan: Plan
    instance: Instance
    trunks: Links = field(default_factory=dict)
    collection: Links = field(default_factory=dict)
    delivery: Links = field(default_factory=dict)
    collected: dict[int, int] = field(default_factory=dict)
    """The flow whose first hub this is."""
    delivered: dict[int, int] = field(default_factory=dict)
    """The flow whose last hub this is."""
    route_costs: list[list[int]] = field(default_factory=list)

    def costs(self) -> dict[str, int]:
        """The parts of the cost, in the order in which `hub report` tells them."""
        return {
            "collection": sum(load.cost for load in self.collection.values()),
            "trunk": sum(load.cost for load in self.trunks.values()),
            "delivery": sum(load.cost for load in self.delivery.values()),
            "fixed": sum(self.instance.fixed[hub] * FIXED_UNITS for hub in self.plan.hubs),
        }

    def add_route(self, i: int, j: int) -> None:
        """Adds the route from i to j."""
        first, last = self.plan.routes[i][j]
        flow = self.instance.flows[i][j]
        lengths = self.instance.distances
        collect, trunk, deliver = self.instance.factors
        self.collected[first] += flow
        self.delivered[last] += flow
        total = 0
        for links, start, stop, factor in (
            (self.collection, i, first, collect),
            (self.trunks, first, last, trunk),
            (self.delivery, last, j, deliver),
        ):
            cost = flow * factor * lengths[start][stop]
            total += cost
            if flow and start != stop:
                links.setdefault((start, stop), Load()).add(flow, cost)
        self.route_costs[i].append(total)


def network_of(instance: Instance, plan: Plan) -> Network:
    """The loads of a plan; a fault where their sum is not the plan's cost."""
    size, hubs = instance.size(), set(plan.hubs)
    if len(plan.routes) != size or any(not hubs.issuperset(way) for row in plan.routes for way in row):
        raise Fault("the certificate is not one of this instance")
    network = Network(plan, instance, route_costs=[[] for _ in range(size)])
    network.collected = dict.fromkeys(plan.hubs, 0)
    network.delivered = dict.fromkeys(plan.hubs, 0)
    for i in range(size):
        for j in range(size):
            network.add_route(i, j)
    if sum(network.costs().values()) != plan.cost:
        raise Fault("the parts of the network do not add up to the certificate's cost")
    return network
