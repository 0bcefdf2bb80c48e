"""The families of graphs that are compared and timed, made from a seed.

A family gives pairs. The first of each two pairs is a graph and a renamed twin of it: blank nodes numbered another way, triples in another order,
one of them written twice. The second is a graph beside another that is close to it: with one triple changed, or, where the family has such, one that
no count and no colour tells from it. What is known of a pair goes with it: `isomorphic`, `not isomorphic`, or None where a change may still give a
twin.
"""

import random
import struct

import shapes
from shapes import P, blank, name

NAMES, PREDICATES = 20, 4


def renamed(rng, graph, repeat=False):
    count, triples = graph
    places = list(range(count))
    rng.shuffle(places)
    moved = [tuple(blank(places[t[1]]) if isinstance(t, tuple) and t[0] else t for t in triple) for triple in triples]
    if repeat and moved:
        moved.append(rng.choice(moved))
    rng.shuffle(moved)
    return count, moved


def changed(rng, graph):
    """The graph with one triple changed: turned round, with another predicate, or with another object."""
    count, triples = graph
    if not triples:
        return count - 1, triples
    triples = list(triples)
    at = rng.randrange(len(triples))
    subject, predicate, object_ = triples[at]
    other = blank(rng.randrange(count)) if count else name(rng.randrange(NAMES))
    triples[at] = rng.choice([(object_, predicate, subject), (subject, predicate + 1, object_), (subject, predicate, other)])
    return count, triples


# Families whose graphs are drawn at random: each function gives one graph.

def museum(rng):
    """Objects by makers and in boxes; makers have a year of birth, boxes a sum that they are insured for."""
    makers, boxes = rng.randint(1, 6), rng.randint(0, 4)
    triples = [(blank(m), 3, name(100 + rng.randrange(3))) for m in range(makers)]
    triples += [(blank(makers + b), 4, name(200 + rng.randrange(3))) for b in range(boxes)]
    for thing in range(4711, 4711 + rng.randint(3, 10)):
        triples.append((name(thing), 1, blank(rng.randrange(makers))))
        if boxes:
            triples.append((name(thing), 2, blank(makers + rng.randrange(boxes))))
    return makers + boxes, triples


def any_term(rng, count, names, blanks=0.75):
    return blank(rng.randrange(count)) if rng.random() < blanks else name(rng.randrange(names))


def different(wanted, draw):
    """So many different ones of what is drawn, of which there must be enough."""
    found = set()
    while len(found) < wanted:
        found.add(draw())
    return sorted(found)


def random_triples(rng, count, wanted, names, predicates):
    return different(wanted, lambda: (any_term(rng, count, names), rng.randrange(predicates), any_term(rng, count, names)))


def sparse(rng):
    count = rng.randint(3, 24)
    return count, random_triples(rng, count, rng.randint(count, 2 * count), 6, PREDICATES)


def dense(rng):
    count = rng.randint(3, 12)
    return count, random_triples(rng, count, rng.randint(20, 70), 3, 2)


def full(rng):
    return 32, random_triples(rng, 32, 250, NAMES, PREDICATES)


def hub(rng):
    """One node that says a lot, and nodes that hang on it."""
    count = rng.randint(4, 24)
    triples = [(blank(0), 4, name(i)) for i in range(rng.randint(5, 40))]
    for node in range(1, count):
        triples.append((blank(0), 1, blank(node)) if rng.random() < 0.8 else (blank(node), 1, blank(0)))
        if rng.random() < 0.9:
            triples.append((blank(node), 2, name(rng.randrange(60))))
    return count, triples


def tree(rng):
    count = rng.randint(2, 24)
    triples = [(blank(rng.randrange(node)), 1, blank(node)) for node in range(1, count)]
    triples += [(blank(node), 2, name(rng.randrange(4))) for node in range(count) if rng.random() < 0.4]
    return count, triples


def one_predicate(rng):
    count = rng.randint(2, 9)
    return count, different(rng.randint(count, 2 * count), lambda: (any_term(rng, count, 1, 0.9), P, any_term(rng, count, 1, 0.9)))


def names_only(rng):
    """No blank nodes; in some graphs each triple has a predicate of its own."""
    own = rng.random() < 0.5
    triples = {(name(rng.randrange(6)), index if own else rng.randrange(2), name(rng.randrange(6))) for index in range(rng.randint(1, 12))}
    return 0, sorted(triples)


def regular(rng, count, degree):
    """As many triples from each node as to each, of one predicate: all nodes see the same, but for loops."""
    while True:
        pairs = set()
        for _ in range(degree):
            images = list(range(count))
            rng.shuffle(images)
            pairs |= set(enumerate(images))
        if len(pairs) == degree * count:
            return count, shapes.arcs(sorted(pairs))


def cubic(rng, count):
    """A random graph without loops in which each node has three neighbours."""
    while True:
        ends = list(range(count)) * 3
        rng.shuffle(ends)
        edges = {tuple(sorted(ends[i:i + 2])) for i in range(0, len(ends), 2)}
        if len(edges) == 3 * count // 2 and all(x != y for x, y in edges):
            return count, shapes.both_ways(sorted(edges))


def marked(rng, graph, marks):
    count, triples = graph
    return count, triples + [(blank(node), 1, name(5)) for node in rng.sample(range(count), marks)]


def pairs(predicates):
    return 2 * predicates, [t for k in range(predicates) for t in shapes.rings([2], 10 + k, 2 * k)]


def rings_of(length, predicates):
    return length * predicates, [t for k in range(predicates) for t in shapes.rings([length], 10 + k, length * k)]


def one_arc_turned(length, predicates):
    count, triples = rings_of(length, predicates)
    return count, triples[1:] + shapes.arcs([(1, 0)], 10)


def makers(names):
    """So many makers, each of whom says a name."""
    return len(names), [(blank(node), 1, name(each)) for node, each in enumerate(names)]


# Pairs of a family.

def twins_and_changes(draw):
    """Pairs of a family where every graph is drawn, and a close one is the graph with a triple changed."""
    def pair(rng, alike):
        graph = draw(rng)
        return (graph, graph, "isomorphic") if alike else (graph, changed(rng, graph), None)
    return pair


def twins_and_others(graph, other):
    """Pairs of two known graphs that are not isomorphic."""
    def pair(rng, alike):
        return (graph, graph, "isomorphic") if alike else (graph, other, "not isomorphic")
    return pair


def regular_pair(rng, alike):
    count, degree = rng.randint(3, 14), rng.randint(1, 3)
    graph = regular(rng, count, degree)
    return (graph, graph, "isomorphic") if alike else (graph, regular(rng, count, degree), None)


def cubic_pair(rng, alike):
    graph = cubic(rng, 20)
    return (graph, graph, "isomorphic") if alike else (graph, cubic(rng, 20), None)


def marked_pair(rng, alike):
    marks = rng.randint(1, 2)
    first, other = rng.sample([shapes.shrikhande(), shapes.rook()], 2)
    graph = marked(rng, first, marks)
    return (graph, graph, "isomorphic") if alike else (graph, marked(rng, other, marks), "not isomorphic")


def one_change(graph):
    return twins_and_changes(lambda rng: graph)


CFI = [shapes.cfi_k4(twisted, False) for twisted in (False, True)]
CFI_COLOURED = [shapes.cfi_k4(twisted, True) for twisted in (False, True)]
RING, TWO_RINGS = (32, shapes.rings([32])), (32, shapes.rings([16, 16]))
PAIRS = pairs(10)
ONE_PAIR_LOOPS = 20, PAIRS[1][2:] + shapes.arcs([(0, 0), (1, 1)], 10)
ONE_PREDICATE_TWICE = 22, PAIRS[1] + shapes.rings([2], 10, 20)

# The name of a family, how many pairs it has, and how they are made.
FAMILIES = [
    ("museum", 100, twins_and_changes(museum)),
    ("sparse", 100, twins_and_changes(sparse)),
    ("dense", 100, twins_and_changes(dense)),
    ("hub", 100, twins_and_changes(hub)),
    ("tree", 100, twins_and_changes(tree)),
    ("one predicate", 100, twins_and_changes(one_predicate)),
    ("names only", 20, twins_and_changes(names_only)),
    ("regular one way", 100, regular_pair),
    ("full: 32 nodes, 250 triples", 20, twins_and_changes(full)),
    ("marked strongly regular", 100, marked_pair),
    ("ring of 32", 10, twins_and_others(RING, TWO_RINGS)),
    ("two rings of 16", 10, twins_and_others(TWO_RINGS, RING)),
    ("five rings of 4", 4, twins_and_others(rings_of(4, 5), one_arc_turned(4, 5))),
    ("ten pairs", 4, twins_and_others(PAIRS, ONE_PAIR_LOOPS)),
    ("six makers alike", 4, twins_and_others(makers([5] * 6), makers([5] * 5 + [6]))),
    ("6 isolated nodes", 4, twins_and_others((6, []), (5, []))),
    ("Petersen", 10, twins_and_others(shapes.generalized_petersen(5, 2), shapes.generalized_petersen(5, 1))),
    ("dodecahedron", 10, twins_and_others(shapes.generalized_petersen(10, 2), shapes.generalized_petersen(10, 3))),
    ("random cubic, 20 nodes", 20, cubic_pair),
    ("Shrikhande", 4, one_change(shapes.shrikhande())),
    ("CFI over K4", 4, twins_and_others(*CFI)),
    ("CFI over K4, coloured", 8, twins_and_others(*CFI_COLOURED)),
    ("six rings of 4", 4, twins_and_others(rings_of(4, 6), one_arc_turned(4, 6))),
    ("eleven pairs", 4, twins_and_others(pairs(11), ONE_PREDICATE_TWICE)),
    ("seven makers alike", 4, twins_and_others(makers([5] * 7), makers([5] * 6 + [6]))),
    ("rook, 4 by 4", 4, twins_and_others(shapes.rook(), shapes.shrikhande())),
    ("32 isolated nodes", 4, twins_and_others((32, []), (31, []))),
]


def numbers(graph):
    count, triples = graph
    return [count, len(triples)] + [n for s, p, o in triples for n in (*s, p, *o)]


def write(path, graphs):
    path.write_bytes(b"".join(struct.pack(f"<{len(row)}I", *row) for row in map(numbers, graphs)))


def file_name(family):
    return "-".join("".join(c if c.isalnum() else " " for c in family).split())


def write_family(folder, family, seed):
    """Writes the pairs of a family to a file, and the first of each pair to another, for times. Returns both paths and what is known of each pair."""
    title, count, pair = family
    rng = random.Random(f"{seed} {title}")
    graphs, known = [], []
    for index in range(count):
        first, second, told = pair(rng, index % 2 == 0)
        graphs += [renamed(rng, first), renamed(rng, second, repeat=True)]
        known.append(told)
    pairs_path, first_path = folder / f"{file_name(title)}.pairs", folder / f"{file_name(title)}.graphs"
    write(pairs_path, graphs)
    write(first_path, graphs[::2])
    return pairs_path, first_path, known
