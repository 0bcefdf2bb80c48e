#include "library.h"

static uint64_t room[COLLWYFA_LARGEST_FORM];

Answer library_form(const Numbers &graph) {
    const collwyfa_answer answer = collwyfa_form(graph.data(), graph.size(), room, COLLWYFA_LARGEST_FORM);
    if (answer.refusal != 0) return {answer.refusal, answer.value, {}};
    return {0, 0, Numbers(room, room + answer.value)};
}

Comparison library_compare(const Numbers &first, const Numbers &second) {
    uint64_t places[COLLWYFA_MOST_PLACES];
    const collwyfa_comparison told = collwyfa_compare(first.data(), first.size(), second.data(), second.size(), places);
    Comparison result = {static_cast<collwyfa_kind>(told.kind), told.refusal, 0, {}};
    if (told.kind == COLLWYFA_ISOMORPHIC) result.mapping.assign(places, places + told.value);
    else result.place = told.value;
    return result;
}

void run_library(const Numbers &graph) { collwyfa_form(graph.data(), graph.size(), room, COLLWYFA_LARGEST_FORM); }
