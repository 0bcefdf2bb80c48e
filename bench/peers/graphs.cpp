#include "graphs.h"

#include <algorithm>
#include <fstream>
#include <stdexcept>

static std::vector<uint64_t> read_numbers(const std::string &path) {
    std::ifstream file(path, std::ios::binary);
    if (!file) throw std::runtime_error("cannot read " + path);
    std::vector<uint64_t> numbers;
    unsigned char bytes[4];
    while (file.read(reinterpret_cast<char *>(bytes), 4))
        numbers.push_back(bytes[0] | uint64_t{bytes[1]} << 8 | uint64_t{bytes[2]} << 16 | uint64_t{bytes[3]} << 24);
    return numbers;
}

std::vector<Numbers> read_graphs(const std::string &path) {
    const auto numbers = read_numbers(path);
    std::vector<Numbers> graphs;
    for (size_t at = 0; at < numbers.size();) {
        const size_t left = numbers.size() - at;
        if (left < 2 || (left - 2) / 5 < numbers[at + 1]) throw std::runtime_error(path + " is cut short");
        const size_t length = 2 + 5 * numbers[at + 1];
        graphs.emplace_back(numbers.begin() + at, numbers.begin() + at + length);
        at += length;
    }
    return graphs;
}

void read_triples(const Numbers &graph, std::vector<Triple> &triples) {
    triples.resize(graph[1]);
    for (size_t i = 0; i < triples.size(); i++) {
        const uint64_t *row = &graph[2 + 5 * i];
        const auto number = [row](int at) { return static_cast<uint32_t>(row[at]); };
        triples[i] = {{number(0), number(1)}, number(2), {number(3), number(4)}};
    }
    std::sort(triples.begin(), triples.end());
    triples.erase(std::unique(triples.begin(), triples.end()), triples.end());
}
