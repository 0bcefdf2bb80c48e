// Graphs as encoded numbers, and their triples.
#pragma once

#include <compare>
#include <cstdint>
#include <string>
#include <utility>
#include <vector>

using Numbers = std::vector<uint64_t>;  // count of blank nodes, count of triples, five numbers a triple

struct Term {
    uint32_t is_blank, number;
    auto operator<=>(const Term &) const = default;
};

struct Triple {
    Term subject;
    uint32_t predicate;
    Term object;
    auto operator<=>(const Triple &) const = default;
};

// The graphs of a file: four bytes a number, low byte first, one graph after the other.
std::vector<Numbers> read_graphs(const std::string &path);

// The triples of a graph in order, each once.
void read_triples(const Numbers &graph, std::vector<Triple> &triples);
