// The plain encoding. A vertex for each blank node, all of one colour; for each name, with a colour of its own; and for each triple, with a colour
// for its predicate. Arcs lead from the subject to the triple, and from there to the object.
//
// It is exact: the graph can be read back from the table and the coloured directed graph, but for the numbers of blank nodes and the order of
// triples; and names, predicates and their order depend on neither.
#include "encoding.h"

#include <algorithm>

static void sort_unique(std::vector<uint32_t> &numbers) {
    std::sort(numbers.begin(), numbers.end());
    numbers.erase(std::unique(numbers.begin(), numbers.end()), numbers.end());
}

static int rank(const std::vector<uint32_t> &sorted, uint32_t number) {
    return static_cast<int>(std::lower_bound(sorted.begin(), sorted.end(), number) - sorted.begin());
}

void PlainEncoder::encode(const Numbers &graph, Encoding &to) {
    const int nodes = static_cast<int>(graph[0]);
    read_triples(graph, triples);
    names.clear();
    predicates.clear();
    for (const Triple &t : triples) {
        if (!t.subject.is_blank) names.push_back(t.subject.number);
        if (!t.object.is_blank) names.push_back(t.object.number);
        predicates.push_back(t.predicate);
    }
    sort_unique(names);
    sort_unique(predicates);

    const int named = static_cast<int>(names.size());
    const auto vertex = [&](Term term) { return term.is_blank ? static_cast<int>(term.number) : nodes + rank(names, term.number); };
    to.clear();
    to.colour.assign(nodes, 0);
    for (int i = 0; i < named; i++) to.colour.push_back(1 + i);
    for (const Triple &t : triples) {
        const int at = to.vertices();
        to.colour.push_back(1 + named + rank(predicates, t.predicate));
        to.arcs.push_back({vertex(t.subject), at});
        to.arcs.push_back({at, vertex(t.object)});
    }
    to.table = {static_cast<uint32_t>(nodes), static_cast<uint32_t>(named)};
    to.table.insert(to.table.end(), names.begin(), names.end());
    to.table.insert(to.table.end(), predicates.begin(), predicates.end());
}
