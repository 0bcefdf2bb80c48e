// What nauty and bliss make of an encoding: the place of each vertex in the canonical graph.
#pragma once

#include "encoding.h"

using Canoniser = void (*)(const Encoding &encoding, std::vector<int> &place);

void nauty_dense(const Encoding &encoding, std::vector<int> &place);   // densenauty, by a matrix of bits
void nauty_sparse(const Encoding &encoding, std::vector<int> &place);  // sparsenauty, by lists of neighbours
void bliss_digraph(const Encoding &encoding, std::vector<int> &place);
