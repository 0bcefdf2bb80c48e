/* What the files of this folder hand to each other. The order in which they work: graph.c, view.c, refine.c, search.c, form.c.
 *
 * Sets of blank nodes are masks of 32 bits. A colouring is an ordered partition: a cell's colour is how many nodes are in the cells before it.
 * The definition's ranks come in the same order, and where each node has a colour of its own both are the same numbers.
 */
#ifndef PARTS_H
#define PARTS_H

#include "plain_c.h"

/* A term is its kind (0 a name, 1 a blank node) << 32 | its number, so that terms are ordered as rows order them. */
#define BLANK ((uint64_t)1 << 32)

typedef struct { uint64_t subject, object; uint32_t predicate; } triple;

/* A graph with each triple once. Subjects are in order: first all names, as one block, then blank node 0, 1, .. */
typedef struct {
    int nodes, count;
    triple triples[MAX_TRIPLES];
    int subject_at[MAX_NODES + 2];  /* where each block begins, and where the last ends */
} simple_graph;

/* A triple as one of its blank nodes sees it: role << 32 | predicate, and the other end, which is a term but for its number where that is a
 * blank node: SELF or OTHER. */
#define SELF BLANK
#define OTHER ((uint64_t)2 << 32)
typedef struct { uint64_t role_predicate, end; } incidence;

/* What blank nodes see. It is found once for a graph; rounds only ask how many nodes of a cell are in a group. */
typedef struct {
    int nodes;
    incidence seen[2 * MAX_TRIPLES];    /* node by node, in order */
    uint8_t end_node[2 * MAX_TRIPLES];  /* the number of the other end where it is OTHER */
    int seen_at[MAX_NODES + 1];
    uint32_t group[2 * MAX_TRIPLES];    /* the others that a node sees by one role and predicate, node by node */
    int group_at[MAX_NODES + 1];
    uint32_t near[MAX_NODES];           /* all others that a node sees */
    uint8_t keys[2 * MAX_TRIPLES * MAX_NODES];  /* room for the keys of one cell */
} view;

typedef struct { uint32_t cell[MAX_NODES]; } partition;  /* cell[c]: the nodes of colour c; where no cell has colour c it means nothing */

static inline int lowest(uint32_t mask) { return __builtin_ctz(mask); }
static inline int size(uint32_t mask) { return __builtin_popcount(mask); }
static inline uint32_t only(int node) { return (uint32_t)1 << node; }
static inline bool is_blank(uint64_t term) { return term >> 32 != 0; }

static inline int compare_triples(const triple *x, const triple *y) {
    if (x->subject != y->subject) return x->subject < y->subject ? -1 : 1;
    if (x->predicate != y->predicate) return x->predicate < y->predicate ? -1 : 1;
    if (x->object != y->object) return x->object < y->object ? -1 : 1;
    return 0;
}

/* The names of these functions begin with `plain_` since nauty has a `refine` of its own, which would be taken for ours or ours for it. */

/* graph.c: false, with the refusal in the answer, where the numbers are no graph or too large a one. */
bool plain_read_graph(const uint64_t *numbers, size_t length, simple_graph *graph, plain_answer *answer);

/* view.c */
void plain_view(const simple_graph *graph, view *view);
int plain_compare_seen(const view *view, int first, int second);

/* refine.c: the stable colouring of a graph; and that below a partition of which the cells of `fresh` colours are new. */
void plain_colour(view *view, partition *cells);
void plain_refine(view *view, partition *cells, uint32_t fresh);

/* search.c: the leaves of the search tree, or one more than MAX_LEAVES where there are more. The labelling is that of the first leaf that writes
 * the least certificate. */
int plain_search(const simple_graph *graph, view *view, const partition *root, bool prune, uint8_t *labelling);

#endif
