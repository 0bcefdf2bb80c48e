#include "canonisers.h"

#include <bliss/graph.hh>

// bliss has no way to empty a graph, so each call makes one, as a program that uses it would.
void bliss_digraph(const Encoding &e, std::vector<int> &place) {
    bliss::Digraph graph;
    for (int colour : e.colour) graph.add_vertex(static_cast<unsigned>(colour));
    for (const auto &[from, to] : e.arcs) graph.add_edge(static_cast<unsigned>(from), static_cast<unsigned>(to));
    bliss::Stats stats;
    const unsigned *labelling = graph.canonical_form(stats, nullptr, nullptr);
    place.assign(labelling, labelling + e.vertices());
}
