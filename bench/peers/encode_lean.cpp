// The lean encoding, with as few vertices as is easy. Triples between names are in the table alone. What a blank node says of names and of itself is
// its colour: nodes get the rank of that list, and the table has the lists. Only a triple between two different blank nodes has a vertex, with a
// colour for its predicate and arcs as in the plain encoding; and where all of these triples have one predicate, arcs take their place.
//
// It is exact, as the plain one is: table, colours and arcs give the graph back but for the numbers of blank nodes and the order of triples. The
// table alone says whether arcs stand for triples, since it has the predicates of the triples between different blank nodes.
#include "encoding.h"

#include <algorithm>

enum Role : uint32_t { SUBJECT, SELF, OBJECT };

void LeanEncoder::sort_triples(const Numbers &graph) {
    read_triples(graph, triples);
    named.clear();
    inner.clear();
    seen.clear();
    predicates.clear();
    for (const Triple &t : triples) {
        if (!t.subject.is_blank && !t.object.is_blank) {
            named.push_back(t);
        } else if (!t.object.is_blank) {
            seen.push_back({t.subject.number, SUBJECT, t.predicate, t.object.number});
        } else if (!t.subject.is_blank) {
            seen.push_back({t.object.number, OBJECT, t.predicate, t.subject.number});
        } else if (t.subject == t.object) {
            seen.push_back({t.subject.number, SELF, t.predicate, 0});
        } else {
            inner.push_back(t);
            predicates.push_back(t.predicate);
        }
    }
    std::sort(seen.begin(), seen.end());
    std::sort(predicates.begin(), predicates.end());
    predicates.erase(std::unique(predicates.begin(), predicates.end()), predicates.end());
}

void LeanEncoder::find_starts(uint32_t nodes) {
    seen_at.assign(nodes + 1, 0);
    for (const Incidence &i : seen) seen_at[i.node + 1]++;
    for (uint32_t node = 0; node < nodes; node++) seen_at[node + 1] += seen_at[node];
}

std::strong_ordering LeanEncoder::compare_seen(uint32_t first, uint32_t second) const {
    const uint32_t count = seen_at[first + 1] - seen_at[first], other = seen_at[second + 1] - seen_at[second];
    for (uint32_t i = 0; i < std::min(count, other); i++) {
        const Incidence &x = seen[seen_at[first] + i], &y = seen[seen_at[second] + i];
        if (const auto order = x.role <=> y.role; order != 0) return order;
        if (const auto order = x.predicate <=> y.predicate; order != 0) return order;
        if (const auto order = x.name <=> y.name; order != 0) return order;
    }
    return count <=> other;
}

void LeanEncoder::write_seen(uint32_t node, Encoding &to) const {
    to.table.push_back(seen_at[node + 1] - seen_at[node]);
    for (uint32_t i = seen_at[node]; i < seen_at[node + 1]; i++) to.table.insert(to.table.end(), {seen[i].role, seen[i].predicate, seen[i].name});
}

// Gives nodes their colours, writes what these stand for, and returns how many there are.
int LeanEncoder::colour_nodes(uint32_t nodes, Encoding &to) {
    order.resize(nodes);
    for (uint32_t node = 0; node < nodes; node++) order[node] = node;
    std::sort(order.begin(), order.end(), [this](uint32_t x, uint32_t y) { return compare_seen(x, y) < 0; });
    to.colour.assign(nodes, 0);
    const size_t count_at = to.table.size();
    to.table.push_back(0);
    int colours = 0;
    for (uint32_t i = 0; i < nodes; i++) {
        if (i == 0 || compare_seen(order[i - 1], order[i]) != 0) {
            write_seen(order[i], to);
            colours++;
        }
        to.colour[order[i]] = colours - 1;
    }
    to.table[count_at] = static_cast<uint32_t>(colours);
    return colours;
}

void LeanEncoder::add_inner(int colours, Encoding &to) {
    for (const Triple &t : inner) {
        const int subject = static_cast<int>(t.subject.number), object = static_cast<int>(t.object.number);
        if (predicates.size() == 1) {
            to.arcs.push_back({subject, object});
            continue;
        }
        const int at = to.vertices();
        const auto rank = std::lower_bound(predicates.begin(), predicates.end(), t.predicate) - predicates.begin();
        to.colour.push_back(colours + static_cast<int>(rank));
        to.arcs.push_back({subject, at});
        to.arcs.push_back({at, object});
    }
}

void LeanEncoder::encode(const Numbers &graph, Encoding &to) {
    const auto nodes = static_cast<uint32_t>(graph[0]);
    sort_triples(graph);
    find_starts(nodes);
    to.clear();
    to.table = {nodes, static_cast<uint32_t>(named.size())};
    for (const Triple &t : named) to.table.insert(to.table.end(), {t.subject.number, t.predicate, t.object.number});
    const int colours = colour_nodes(nodes, to);
    to.table.insert(to.table.end(), predicates.begin(), predicates.end());
    add_inner(colours, to);
}
