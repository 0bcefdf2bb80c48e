// What an encoding can be made to forget, so that the check of agreement is seen to fail.
#pragma once

#include "graphs.h"

enum class Forgotten { NOTHING, PREDICATES, DIRECTIONS, NAMES };

// The graph as an encoding sees it that forgets this.
Numbers forget(Numbers graph, Forgotten forgotten);
