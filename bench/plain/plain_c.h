/* The same canonical form as the library's, in plain C: without proofs, and written for speed. It shows what the machine allows. */
#ifndef PLAIN_C_H
#define PLAIN_C_H

#include <stdbool.h>
#include <stddef.h>
#include <stdint.h>

#ifdef __cplusplus
extern "C" {
#endif

enum { MAX_NODES = 32, MAX_WRITTEN = 65536, MAX_TRIPLES = 256, MAX_LEAVES = 1024, ROW = 5, MAX_FORM = 1 + ROW * MAX_TRIPLES };

typedef struct {
    int refusal;                   /* 0, or the refusal's number */
    uint64_t place;                /* the refusal's place */
    int leaves;                    /* of the whole search tree, also of branches that were left out */
    int length;                    /* how many numbers the form has */
    uint64_t form[MAX_FORM];
    int nodes;                     /* blank nodes */
    uint8_t labelling[MAX_NODES];  /* the place of each blank node in the form */
} plain_answer;

/* The form of an encoded graph, or the first refusal that applies. `prune` leaves out branches that a known automorphism leads to, which changes
 * no answer. */
void plain_form(const uint64_t *graph, size_t length, bool prune, plain_answer *answer);

#ifdef __cplusplus
}
#endif
#endif
