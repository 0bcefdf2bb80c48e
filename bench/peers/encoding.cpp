// What both encodings share.
#include "encoding.h"

#include <algorithm>

void Encoding::clear() {
    colour.clear();
    arcs.clear();
    table.clear();
}

std::vector<uint32_t> canonical_row(const Encoding &encoding, const std::vector<int> &place) {
    const size_t vertices = encoding.colour.size();
    std::vector<uint32_t> row = {static_cast<uint32_t>(encoding.table.size())};
    row.insert(row.end(), encoding.table.begin(), encoding.table.end());
    row.push_back(static_cast<uint32_t>(vertices));
    const size_t colours = row.size();
    row.resize(colours + vertices);
    for (size_t v = 0; v < vertices; v++) row[colours + place[v]] = static_cast<uint32_t>(encoding.colour[v]);
    auto arcs = encoding.arcs;
    for (auto &[from, to] : arcs) from = place[from], to = place[to];
    std::sort(arcs.begin(), arcs.end());
    for (const auto &[from, to] : arcs) {
        row.push_back(static_cast<uint32_t>(from));
        row.push_back(static_cast<uint32_t>(to));
    }
    return row;
}
