/*
 * Collwyfa as C calls it: the canonical form of a graph with blank nodes, and whether two graphs are isomorphic.
 *
 * A graph is lent as a row of 64-bit numbers: the count of blank nodes, the count of triples, and five numbers a triple, which are the subject, the
 * predicate and the object. A subject or an object is 0 and its name, or 1 and the number of a blank node, from 0. Names and predicates are below
 * 2^32. Numbers behind the last triple are not looked at. A graph has at most 32 blank nodes, 65,536 triples as written, and 256 different ones.
 *
 * A refusal is a number and a place, and of several that apply the first is told:
 *
 *   1   the numbers end too early; more than 32 blank nodes;          how many numbers there are; the count;
 *       more than 65,536 triples                                      the count
 *   2   a triple with a term that is none, or with a number out       the triple, from 0
 *       of its bounds
 *   3   more than 256 different triples; too little room              256; the room
 *   5   more than 1,024 leaves of the search tree                     1,025
 *
 * What the caller has to see to, and no function can check:
 *
 *   - Each pointer is aligned for uint64_t and not null, even where 0 numbers are lent, and is valid for as many numbers as are said behind it,
 *     for places for 32.
 *   - What a function writes to, out or places, overlaps with nothing else that is lent to it. Two graphs that are only read may be the same memory.
 *   - No other thread writes, during a call, to what is lent to it, or reads what the call may write.
 *   - 256 KiB of stack are left, which is more than either function takes.
 *
 * A call allocates nothing, keeps nothing, blocks on nothing and always returns. Calls on several threads at once are independent.
 *
 * examples/entry.c is a whole program.
 */
#ifndef COLLWYFA_H
#define COLLWYFA_H

#include <stddef.h>
#include <stdint.h>

#ifdef __cplusplus
extern "C" {
#endif

/* How many numbers a form has at most, and how many places a mapping. */
#define COLLWYFA_LARGEST_FORM 1281
#define COLLWYFA_MOST_PLACES 32

/*
 * If refusal is 0, value says how many numbers were written to the beginning of out. Else refusal is the number of the refusal, and value its place.
 */
struct collwyfa_answer {
    uint64_t refusal;
    uint64_t value;
};

/*
 * Finds the form of a graph: the count of blank nodes, and five numbers for each different triple. Two graphs have the same form exactly if they are
 * isomorphic.
 *
 * The form stands at the beginning of out, and what lies behind it is as it was. On a refusal all of out is as it was. graph is only read. A room of
 * COLLWYFA_LARGEST_FORM numbers is enough for any form; where the room is too little for this one, the refusal is 3 at room.
 */
struct collwyfa_answer collwyfa_form(const uint64_t *graph, size_t graph_length, uint64_t *out, size_t room);

enum collwyfa_kind {
    COLLWYFA_NOT_ISOMORPHIC = 0,
    COLLWYFA_ISOMORPHIC = 1,
    COLLWYFA_FIRST_REFUSED = 2,
    COLLWYFA_SECOND_REFUSED = 3
};

/*
 * kind is one of collwyfa_kind. If a graph is refused, refusal is the number of the refusal and value its place. Else refusal is 0, and value says
 * how many places were written: the count of blank nodes where the graphs are isomorphic, and 0 where they are not.
 */
struct collwyfa_comparison {
    uint64_t kind;
    uint64_t refusal;
    uint64_t value;
};

/*
 * Tells whether two graphs are isomorphic. A refusal of the first, by 1, 2, 3 or 5, is told before one of the second.
 *
 * If they are isomorphic, places[k] is the blank node of the second graph that blank node k of the first is mapped to, and what lies behind these
 * places is as it was. Else all 32 places are as they were. first and second are only read.
 */
struct collwyfa_comparison collwyfa_compare(const uint64_t *first, size_t first_length, const uint64_t *second, size_t second_length,
                                            uint64_t places[COLLWYFA_MOST_PLACES]);

#ifdef __cplusplus
}
#endif

#endif
