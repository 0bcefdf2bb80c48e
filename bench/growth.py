"""Graphs for how the cost grows: by blank nodes, by triples and by leaves."""

import random

from families import NAMES, PREDICATES, pairs, random_triples, renamed, write
from shapes import blank, name


def by_blank_nodes(rng, count):
    return count, random_triples(rng, count, 6 * count, NAMES, PREDICATES)


def by_triples(rng, wanted):
    """32 blank nodes, each with a name of its own that it tells, and random triples beside."""
    triples = {(blank(node), 9, name(100 + node)) for node in range(32)}
    while len(triples) < wanted:
        triples.update(random_triples(rng, 32, 1, NAMES, PREDICATES))
    return 32, sorted(triples)


def by_leaves(_rng, exponent):
    """20 blank nodes and 20 triples, whatever the leaves: so many pairs of two that nothing tells apart, and the others told apart by a name."""
    count, triples = pairs(exponent)
    return 20, triples + [(blank(node), 9, name(100 + node)) for node in range(count, 20)]


# The name of a plot, its points, the graph for a point, and how many leaves it has.
GROWTH = [
    ("blank-nodes", [1, 2, 3, 4, 6, 8, 12, 16, 20, 24, 28, 32], by_blank_nodes, lambda point: 1),
    ("triples", [32, 48, 64, 96, 128, 160, 192, 224, 256], by_triples, lambda point: 1),
    ("leaves", list(range(11)), by_leaves, lambda point: 2 ** point),
]
GRAPHS_A_POINT = 10


def write_growth(folder, plot, seed):
    """Writes a file for each point of a plot, and returns for each the point, its leaves and the path."""
    title, points, graph, leaves = plot
    written = []
    for point in points:
        rng = random.Random(f"{seed} {title} {point}")
        path = folder / f"by-{title}-{point}.graphs"
        write(path, [renamed(rng, graph(rng, point)) for _ in range(GRAPHS_A_POINT)])
        written.append((point, leaves(point), path))
    return written
