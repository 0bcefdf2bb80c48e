"""Graphs that are known by name, as lists of triples, with one predicate where nothing else is said.

A term is a pair: (0, name) or (1, number of a blank node). A triple is (subject, predicate, object), a graph (count of blank nodes, triples).
"""

import itertools

P = 3  # the predicate of graphs that have one


def blank(number):
    return (1, number)


def name(number):
    return (0, number)


def arcs(pairs, predicate=P):
    return [(blank(x), predicate, blank(y)) for x, y in pairs]


def both_ways(edges, predicate=P):
    return arcs([(x, y) for x, y in edges] + [(y, x) for x, y in edges], predicate)


def rings(lengths, predicate=P, first=0):
    """Rings that lead one way round, one after the other."""
    pairs = []
    for length in lengths:
        pairs += [(first + i, first + (i + 1) % length) for i in range(length)]
        first += length
    return arcs(pairs, predicate)


def generalized_petersen(n, k):
    """GP(5, 2) is Petersen's graph, GP(5, 1) a prism, GP(10, 2) the dodecahedron, and GP(10, 3) Desargues's graph."""
    edges = []
    for i in range(n):
        edges += [(i, (i + 1) % n), (i, n + i), (n + i, n + (i + k) % n)]
    return 2 * n, both_ways(edges)


def four_by_four(adjacent):
    cells = list(itertools.product(range(4), repeat=2))
    edges = [(i, j) for (i, x), (j, y) in itertools.combinations(enumerate(cells), 2) if adjacent((x[0] - y[0]) % 4, (x[1] - y[1]) % 4)]
    return 16, both_ways(edges)


def rook():
    """Fields of a board of four by four, joined where a rook can move. It is strongly regular with the same numbers as Shrikhande's graph."""
    return four_by_four(lambda rows, columns: (rows == 0) != (columns == 0))


def shrikhande():
    return four_by_four(lambda rows, columns: (rows, columns) in {(0, 1), (0, 3), (1, 0), (3, 0), (1, 1), (3, 3)})


def cfi_k4(twisted, coloured):
    """The graphs of Cai, Fürer and Immerman over the complete graph of four nodes. Each edge becomes two nodes, each node one for every even set of
    its edges; a twist takes the odd sets of one node. No colouring tells the two apart. Coloured: each node has a predicate of its own."""
    edges = list(itertools.combinations(range(4), 2))
    triples, count = [], 2 * len(edges)
    for node in range(4):
        mine = [e for e in range(len(edges)) if node in edges[e]]
        for chosen in itertools.product((0, 1), repeat=3):
            if sum(chosen) % 2 != (1 if twisted and node == 0 else 0):
                continue
            triples += arcs([(count, 2 * e + c) for e, c in zip(mine, chosen)], 7 + node if coloured else 7)
            count += 1
    return count, triples
