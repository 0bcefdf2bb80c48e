"""Good graphs of several families, and the bytes that they are written down in.

A graph is a count of blank nodes and a list of triples, each five numbers: kind and number of the subject, predicate, kind and number of the
object.
"""

import os
import struct

MOST_BLANKS = 32
MOST_WRITTEN = 65536
MOST_DIFFERENT = 256
TOP = 2**32 - 1
EXAMPLES = os.path.join(os.path.dirname(os.path.abspath(__file__)), "..", "..", "examples")


def numbers_of(graph):
    blanks, triples = graph
    return [blanks, len(triples), *(number for triple in triples for number in triple)]


def to_bytes(numbers):
    return struct.pack(f"<{len(numbers)}I", *numbers)


def graph_bytes(graph):
    return to_bytes(numbers_of(graph))


def name(rng):
    return rng.choice([rng.randrange(4), rng.randrange(1000), rng.randrange(TOP + 1), 0, TOP])


def term(rng, blanks):
    if blanks > 0 and rng.random() < 0.7:
        return 1, rng.randrange(blanks)
    return 0, name(rng)


def triple(rng, blanks, predicates):
    return *term(rng, blanks), rng.randrange(predicates), *term(rng, blanks)


def random_graph(rng):
    blanks = rng.randrange(MOST_BLANKS + 1)
    count = rng.choice([0, 1, 2, 5, 10, 20, 40, 250])
    return blanks, [triple(rng, blanks, 3) for _ in range(rng.randrange(count + 1))]


def names_only(rng):
    return 0, [(0, name(rng), name(rng), 0, name(rng)) for _ in range(rng.randrange(12))]


def chain(rng):
    blanks = rng.randrange(1, MOST_BLANKS + 1)
    return blanks, [(1, 0, 1, 0, 5)] + [(1, k, 2, 1, k + 1) for k in range(blanks - 1)]


def tree(rng):
    blanks = rng.randrange(1, MOST_BLANKS + 1)
    return blanks, [(1, rng.randrange(k), 1, 1, k) for k in range(1, blanks)]


def rings(rng):
    """One ring or several of one length, which no colour tells apart."""
    size = rng.randrange(1, 9)
    count = rng.randrange(1, 5 if rng.random() < 0.9 else MOST_BLANKS // size + 1)
    blanks = min(size * count, MOST_BLANKS)
    return blanks, [(1, k, 3, 1, k - k % size + (k + 1) % size) for k in range(blanks - blanks % size)]


def boxes(rng):
    """Named things in nameless boxes, which are insured for a sum."""
    blanks = rng.randrange(1, 9)
    triples = [(0, 101 + k, 1, 1, k) for k in range(blanks)]
    return blanks, triples + [(1, k, 2, 0, rng.choice([400, 90000])) for k in range(blanks)]


def complete(rng):
    blanks = rng.randrange(1, 8 if rng.random() < 0.8 else 17)
    return blanks, [(1, j, 1, 1, k) for j in range(blanks) for k in range(blanks) if j != k]


def isolated(rng):
    return rng.randrange(9 if rng.random() < 0.8 else MOST_BLANKS + 1), []


def twins(rng):
    """Pairs that look alike, told from other pairs by a name: 2 to the number of pairs leaves, so that 10 pairs are allowed, and 11 too many."""
    pairs = rng.randrange(1, 13)
    return 2 * pairs, [(1, k, 1, 0, k // 2) for k in range(2 * pairs)]


def dense(rng):
    """As many different triples as are allowed, or one less, or more."""
    blanks = rng.randrange(4, MOST_BLANKS + 1)
    count = rng.choice([MOST_DIFFERENT - 1, MOST_DIFFERENT, MOST_DIFFERENT, MOST_DIFFERENT + 1, MOST_DIFFERENT + 44])
    found = {}
    while len(found) < count:
        found[triple(rng, blanks, 50)] = None
    return blanks, list(found)


def repeated(rng):
    """Few triples, written as often as is allowed, or once more."""
    blanks = rng.randrange(1, 5)
    few = [triple(rng, blanks, 3) for _ in range(rng.randrange(1, 300))]
    count = rng.choice([MOST_WRITTEN - 1, MOST_WRITTEN, MOST_WRITTEN, MOST_WRITTEN + 1])
    return blanks, (few * (count // len(few) + 1))[:count]


SMALL = [random_graph, random_graph, names_only, chain, tree, rings, boxes, complete, isolated, twins]
MANY_LEAVES = [rings, complete, isolated, twins]


def written_anew(rng, graph):
    """The same graph with other numbers for its blank nodes, its triples in another order, and some of them repeated."""
    blanks, triples = graph
    places = list(range(blanks))
    rng.shuffle(places)

    def moved(kind, number):
        return (1, places[number]) if kind == 1 else (kind, number)

    again = [(*moved(t[0], t[1]), t[2], *moved(t[3], t[4])) for t in triples]
    again += [rng.choice(again) for _ in range(rng.randrange(3)) if again]
    rng.shuffle(again)
    return blanks, again


def small_graph(rng):
    return rng.choice(SMALL)(rng)


def examples():
    """The bytes of the files in examples/."""
    names = sorted(file for file in os.listdir(EXAMPLES) if file.endswith(".graph"))
    found = []
    for file in names:
        with open(os.path.join(EXAMPLES, file), "rb") as opened:
            found.append(opened.read())
    return found
