"""rdflib_times.py FILE PAIRS SECONDS: how long rdflib takes for pairs of graphs, and what it tells of them.

For each pair a line of JSON: its index, what `isomorphic` answers, the seconds that it took, and those that `to_canonical_graph` took for the first.
It stops after so many pairs, or at the first pair that begins after so many seconds. Pairs with a graph of isolated blank nodes alone are passed
over, since what has no triples rdflib cannot hold. It is run by the system's Python, which has Debian's rdflib.
"""

import json
import struct
import sys
import time

from rdflib import BNode, Graph, URIRef
from rdflib.compare import isomorphic, to_canonical_graph


def read_graphs(path):
    with open(path, "rb") as file:
        data = file.read()
    numbers = struct.unpack(f"<{len(data) // 4}I", data)
    at = 0
    while at < len(numbers):
        count = numbers[at + 1]
        yield [numbers[at + 2 + 5 * i:at + 7 + 5 * i] for i in range(count)]
        at += 2 + 5 * count


def term(kind, number):
    return BNode(f"b{number}") if kind else URIRef(f"urn:name:{number}")


def graph_of(rows):
    graph = Graph()
    for subject_kind, subject, predicate, object_kind, object_ in rows:
        graph.add((term(subject_kind, subject), URIRef(f"urn:predicate:{predicate}"), term(object_kind, object_)))
    return graph


def timed(function, *given):
    start = time.perf_counter()
    answer = function(*given)
    return answer, time.perf_counter() - start


def main(path, pairs, seconds):
    graphs = [graph_of(rows) for rows in read_graphs(path)]
    start = time.perf_counter()
    for pair, (first, second) in enumerate(list(zip(graphs[::2], graphs[1::2]))[:pairs]):
        if time.perf_counter() - start > seconds:
            break
        if not len(first) or not len(second):
            continue
        same, compare = timed(isomorphic, first, second)
        _, canonical = timed(to_canonical_graph, first)
        print(json.dumps({"pair": pair, "isomorphic": same, "compare": compare, "canonical": canonical}), flush=True)


if __name__ == "__main__":
    main(sys.argv[1], int(sys.argv[2]), float(sys.argv[3]))
