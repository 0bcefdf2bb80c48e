#include "forget.h"

// All predicates become 0.
static void forget_predicates(Numbers &graph) {
    for (size_t at = 2; at < graph.size(); at += 5) graph[at + 2] = 0;
}

// Each triple is there the other way round too.
static void forget_directions(Numbers &graph) {
    for (size_t at = 2, end = graph.size(); at < end; at += 5)
        graph.insert(graph.end(), {graph[at + 3], graph[at + 4], graph[at + 2], graph[at], graph[at + 1]});
    graph[1] *= 2;
}

// All names become 0.
static void forget_names(Numbers &graph) {
    for (size_t at = 2; at < graph.size(); at += 5)
        for (size_t term : {at, at + 3})
            if (graph[term] == 0) graph[term + 1] = 0;
}

Numbers forget(Numbers graph, Forgotten forgotten) {
    switch (forgotten) {
    case Forgotten::NOTHING: break;
    case Forgotten::PREDICATES: forget_predicates(graph); break;
    case Forgotten::DIRECTIONS: forget_directions(graph); break;
    case Forgotten::NAMES: forget_names(graph); break;
    }
    return graph;
}
