// Graphs as coloured directed graphs, which is what nauty and bliss take.
//
// Both encodings are exact: two graphs are isomorphic if and only if their tables are equal and there is an isomorphism of the coloured directed
// graphs that keeps colours. Why, is said at each.
#pragma once

#include "graphs.h"

struct Encoding {
    std::vector<int> colour;                 // of each vertex, from 0 to at most the count of vertices; blank nodes are the first vertices
    std::vector<std::pair<int, int>> arcs;
    std::vector<uint32_t> table;             // what the colours stand for, and what no vertex and no arc says
    int vertices() const { return static_cast<int>(colour.size()); }
    void clear();
};

// Encoders keep their room from one graph to the next, so that encoding does not pay for the heap.
class PlainEncoder {
public:
    void encode(const Numbers &graph, Encoding &to);
private:
    std::vector<Triple> triples;
    std::vector<uint32_t> names, predicates;
};

class LeanEncoder {
public:
    void encode(const Numbers &graph, Encoding &to);
private:
    struct Incidence {
        uint32_t node, role, predicate, name;
        auto operator<=>(const Incidence &) const = default;
    };
    std::vector<Triple> triples, named, inner;
    std::vector<Incidence> seen;
    std::vector<uint32_t> predicates, seen_at, order;
    void sort_triples(const Numbers &graph);
    void find_starts(uint32_t nodes);
    std::strong_ordering compare_seen(uint32_t first, uint32_t second) const;
    int colour_nodes(uint32_t nodes, Encoding &to);
    void write_seen(uint32_t node, Encoding &to) const;
    void add_inner(int colours, Encoding &to);
};

// The canonical row of an encoding whose vertices have these places: its table, the colours in the order of places, and the arcs between places.
std::vector<uint32_t> canonical_row(const Encoding &encoding, const std::vector<int> &place);
