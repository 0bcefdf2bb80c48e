"""Damaged inputs, each made from a seed and its index alone."""

import random

from . import families
from .families import MOST_BLANKS, MOST_WRITTEN, TOP, graph_bytes, numbers_of, small_graph, to_bytes

EXAMPLE_FILES = families.examples()
COUNTS = [0, 1, 31, 32, 33, 255, 256, 257, MOST_WRITTEN - 1, MOST_WRITTEN, MOST_WRITTEN + 1, 2**31 - 1, 2**31, TOP // 5, TOP // 5 + 1, TOP - 1, TOP]


def good(rng):
    """The bytes of one graph, or of several, or of a file in examples/."""
    if rng.random() < 0.2:
        return rng.choice(EXAMPLE_FILES)
    return b"".join(graph_bytes(small_graph(rng)) for _ in range(rng.choice([1, 1, 1, 2, 3])))


def whole(rng):
    return good(rng)


def anew(rng):
    """One graph written down in two ways, so that both have the same answer."""
    graph = small_graph(rng)
    return graph_bytes(graph) + graph_bytes(families.written_anew(rng, graph))


def truncated(rng):
    data = good(rng)
    return data[: rng.randrange(len(data) + 1)]


def flipped(rng):
    data = bytearray(good(rng))
    for _ in range(rng.randrange(1, 5) if data else 0):
        data[rng.randrange(len(data))] ^= 1 << rng.randrange(8)
    return bytes(data)


def huge_blanks(rng):
    numbers = numbers_of(small_graph(rng))
    numbers[0] = rng.choice(COUNTS)
    return to_bytes(numbers)


def huge_triples(rng):
    numbers = numbers_of(small_graph(rng))
    numbers[1] = rng.choice(COUNTS)
    if rng.random() < 0.3:
        numbers[0] = rng.choice(COUNTS)
    return to_bytes(numbers)


def lying(rng):
    """A triple more or less is told than there is, or some numbers are missing or too many."""
    numbers = numbers_of(small_graph(rng))
    change = rng.randrange(4)
    if change == 0:
        numbers[1] += 1
    elif change == 1:
        numbers[1] = max(numbers[1] - 1, 0)
    elif change == 2:
        del numbers[len(numbers) - rng.randrange(min(len(numbers), 6)) :]
    else:
        numbers += [rng.choice(numbers) for _ in range(rng.randrange(1, 6))]
    return to_bytes(numbers)


def with_row(rng, change):
    """A graph in which one row, if there is any, is changed."""
    blanks, triples = small_graph(rng)
    triples = [list(triple) for triple in triples] or [[0, 1, 2, 0, 3]]
    change(rng.choice(triples), blanks)
    return graph_bytes((blanks, triples))


def no_kind(rng):
    def change(row, blanks):
        row[rng.choice([0, 3])] = rng.choice([2, 3, 255, 256, 2**31, TOP, rng.randrange(2, TOP)])

    return with_row(rng, change)


def no_number(rng):
    def change(row, blanks):
        at = rng.choice([0, 3])
        row[at : at + 2] = [1, rng.choice([blanks, blanks + 1, max(blanks - 1, 0), MOST_BLANKS, 255, TOP, TOP - 1])]

    return with_row(rng, change)


def junk(rng):
    if rng.random() < 0.5:
        return rng.randbytes(rng.randrange(200))
    return to_bytes([rng.randrange(rng.choice([2, 3, 8, 40])) for _ in range(rng.randrange(60))])


def empty(rng):
    return rng.randbytes(rng.choice([0, 0, 1, 2, 3, 4, 5, 7, 8]))


def shifted(rng):
    """Bytes or numbers taken out or put in, so that all behind them mean something else, or the bytes of each number the other way round."""
    data = good(rng)
    change = rng.randrange(3)
    if change == 0:
        return b"".join(data[i : i + 4][::-1] for i in range(0, len(data), 4))
    width = rng.choice([1, 2, 4, 4, 20])
    at = rng.randrange(len(data) // width + 1) * width
    if change == 1:
        return data[:at] + data[at + width :]
    return data[:at] + rng.randbytes(width) + data[at:]


def spliced(rng):
    first, second = good(rng), good(rng)
    return first[: rng.randrange(len(first) + 1)] + second[rng.randrange(len(second) + 1) :]


def between(rng):
    """Several graphs, with a damaged one between."""
    inner = rng.choice([truncated, flipped, huge_blanks, huge_triples, lying, no_kind, no_number, no_number, junk])(rng)
    return good(rng) + inner + good(rng)


def many_leaves(rng):
    graph = rng.choice(families.MANY_LEAVES)(rng)
    return graph_bytes(families.written_anew(rng, graph))


def many_different(rng):
    return graph_bytes(families.dense(rng))


def many_written(rng):
    data = graph_bytes(families.repeated(rng))
    return rng.choice([data, data, data[:-1], data + b"\0", data + to_bytes([0, 0])])


# each with how often it is taken
KINDS = {
    whole: 60,
    anew: 90,
    truncated: 150,
    flipped: 150,
    huge_blanks: 60,
    huge_triples: 60,
    lying: 100,
    no_kind: 70,
    no_number: 70,
    junk: 60,
    empty: 20,
    shifted: 60,
    spliced: 40,
    between: 80,
    many_leaves: 40,
    many_different: 18,
    many_written: 2,
}


def damaged_input(seed, index):
    """The kind of the input and its bytes."""
    rng = random.Random(f"{seed} {index}")
    kind = rng.choices(list(KINDS), KINDS.values())[0]
    return kind.__name__, kind(rng)
