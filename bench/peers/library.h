// The library by its C entry, and plain C, as the checks and the times ask them.
#pragma once

#include "../plain/plain_c.h"
#include "graphs.h"

#include <collwyfa.h>

struct Answer {
    uint64_t refusal = 0, place = 0;
    Numbers form;
    bool operator==(const Answer &) const = default;
};

struct Comparison {
    collwyfa_kind kind;
    uint64_t refusal, place;
    std::vector<uint64_t> mapping;
};

Answer library_form(const Numbers &graph);
Comparison library_compare(const Numbers &first, const Numbers &second);

// For taking times: the form goes into room that is lent, and nothing else is done.
void run_library(const Numbers &graph);
