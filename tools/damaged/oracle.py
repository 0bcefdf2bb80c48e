"""What README.md says of the bytes of an input, told without a search.

Which graphs the bytes hold, which of them are refused by 1, 2 or 3 and where, and of the others what is certain of the form: its length, the
count of blank nodes, its rows in order, and that names, predicates and what each blank node is part of are as in the graph. Whether there are too
many leaves is known where nodes that can be exchanged have more than 1,024 orders, or where colours leave no more than that.
"""

import collections
import math
import struct

from .families import MOST_BLANKS, MOST_DIFFERENT, MOST_WRITTEN

WIDTH = 5
LARGEST_FORM = 1 + WIDTH * MOST_DIFFERENT
MOST_LEAVES = 1024
TOO_MANY_LEAVES = (5, MOST_LEAVES + 1)

# refusal: number and place, or None where a form is sought; different: the different triples
Encoded = collections.namedtuple("Encoded", "refusal blanks different")


def rows_of(numbers):
    return list(zip(*[iter(numbers)] * WIDTH))


def graphs_in(data):
    """The numbers of each graph in the bytes. One that is cut short is the last, and so is one that is missing behind a rest of bytes."""
    numbers = struct.unpack(f"<{len(data) // 4}I", data[: len(data) // 4 * 4])
    trailing = len(data) % 4 != 0
    graphs = []
    while True:
        needed = 2 + WIDTH * numbers[1] if len(numbers) >= 2 else 2
        if len(numbers) < needed:
            return graphs + [numbers]
        graphs.append(numbers[:needed])
        numbers = numbers[needed:]
        if not numbers and not trailing:
            return graphs


def fits(kind, number, blanks):
    return number < (2**32 if kind == 0 else blanks) if kind in (0, 1) else False


def row_fits(row, blanks):
    return fits(row[0], row[1], blanks) and row[2] < 2**32 and fits(row[3], row[4], blanks)


def encoded(numbers, room=LARGEST_FORM):
    """What is told of a graph without a search, with room for so many numbers of its form."""
    if len(numbers) < 2 or len(numbers) < 2 + WIDTH * numbers[1]:
        return Encoded((1, len(numbers)), 0, [])
    blanks, count = numbers[:2]
    if blanks > MOST_BLANKS:
        return Encoded((1, blanks), 0, [])
    if count > MOST_WRITTEN:
        return Encoded((1, count), 0, [])
    rows = rows_of(numbers[2 : 2 + WIDTH * count])
    different = list(dict.fromkeys(rows))
    for row in different:
        if not row_fits(row, blanks):
            return Encoded((2, rows.index(row)), blanks, [])
    if len(different) > MOST_DIFFERENT:
        return Encoded((3, MOST_DIFFERENT), blanks, [])
    if 1 + WIDTH * len(different) > room:
        return Encoded((3, room), blanks, different)
    return Encoded(None, blanks, different)


def shape(row):
    """The row without the numbers of its blank nodes, but with whether they are one."""
    subject, object_ = (None if row[0] == 1 else row[1]), (None if row[3] == 1 else row[4])
    return row[0], subject, row[2], row[3], object_, row[0] == row[3] == 1 and row[1] == row[4]


def incidences(row):
    if row[0] == 1:
        yield row[1], 0
    if row[3] == 1:
        yield row[4], 1


def shapes_seen(blanks, rows):
    """For each blank node the shapes of its triples, in an order that no numbering changes."""
    seen = [[] for _ in range(blanks)]
    for row in rows:
        for node, role in incidences(row):
            seen[node].append(repr((role, shape(row))))
    return sorted(sorted(one) for one in seen)


def form_fault(graph, form):
    """What is wrong with a form of the graph, or None."""
    rows = rows_of(form[1:])
    if len(form) != 1 + WIDTH * len(graph.different):
        return "is of another length"
    if form[0] != graph.blanks:
        return "has another count of blank nodes"
    if any(first >= second for first, second in zip(rows, rows[1:])):
        return "has rows out of order"
    if not all(row_fits(row, graph.blanks) for row in rows):
        return "has a row that is no triple"
    if collections.Counter(map(shape, rows)) != collections.Counter(map(shape, graph.different)):
        return "has other names or predicates"
    if shapes_seen(graph.blanks, rows) != shapes_seen(graph.blanks, graph.different):
        return "has blank nodes in other triples"
    if has_too_many_leaves(graph):
        return "is found where there are too many leaves"
    return None


def mapping_fault(first, second, places):
    """What is wrong with a mapping of the first graph to the second, or None."""
    if sorted(places) != list(range(first.blanks)) or first.blanks != second.blanks:
        return "is not one to one"

    def moved(kind, number):
        return (1, places[number]) if kind == 1 else (kind, number)

    mapped = {(*moved(row[0], row[1]), row[2], *moved(row[3], row[4])) for row in first.different}
    return None if mapped == set(second.different) else "leads to other triples"


def orders(sizes):
    return math.prod(math.factorial(size) for size in sizes)


def has_too_many_leaves(graph):
    """Whether that is certain: nodes in the same triples can be exchanged, and each way to do so has a leaf of its own."""
    seen = [set() for _ in range(graph.blanks)]
    for row in graph.different:
        for node in {node for node, role in incidences(row)}:
            seen[node].add(tuple("itself" if row[at] == 1 and row[at + 1] == node else row[at : at + 2] for at in (0, 3)) + (row[2],))
    return orders(collections.Counter(map(frozenset, seen)).values()) > MOST_LEAVES


def has_few_leaves(graph):
    """Whether that is certain: the nodes have no more than 1,024 orders that keep to their colours, and no leaf occurs twice."""
    colours = [0] * graph.blanks
    while True:
        seen = [[] for _ in range(graph.blanks)]
        for row in graph.different:
            for node, role in incidences(row):
                kind, number = row[3:] if role == 0 else row[:2]
                end = (kind, number) if kind == 0 else (2, 0) if number == node else (1, colours[number])
                seen[node].append((role, row[2], end))
        keys = [(colours[node], tuple(sorted(seen[node]))) for node in range(graph.blanks)]
        ranks = {key: rank for rank, key in enumerate(sorted(set(keys)))}
        refined = [ranks[key] for key in keys]
        if refined == colours:
            return orders(collections.Counter(colours).values()) <= MOST_LEAVES
        colours = refined


def answer_fault(graph, refusal, form):
    """What is wrong with an answer, a refusal or a form, or None."""
    if graph.refusal is not None:
        return None if refusal == graph.refusal else f"is not refused {graph.refusal[0]} at {graph.refusal[1]}"
    if refusal is None:
        return form_fault(graph, form)
    if refusal != TOO_MANY_LEAVES:
        return "is refused without a cause"
    return "is refused where there are few leaves" if has_few_leaves(graph) else None
