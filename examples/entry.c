/*
 * The form of a graph, and a mapping of its blank nodes to those of the same graph, written otherwise. It prints:
 *
 *     2 1 0 1 0 5 1 0 2 1 1 1 1 1 0 5
 *     1 0
 */
#include "collwyfa.h"

#include <inttypes.h>
#include <stdio.h>

static void print_row(const uint64_t *row, uint64_t length) {
    for (uint64_t i = 0; i < length; i++)
        printf("%s%" PRIu64, i == 0 ? "" : " ", row[i]);
    printf("\n");
}

int main(void) {
    /* x0 1 5, x0 2 x1, x1 1 5; and x0 1 5, x1 2 x0, x1 1 5 twice */
    const uint64_t chain[] = {2, 3, 1, 0, 1, 0, 5, 1, 0, 2, 1, 1, 1, 1, 1, 0, 5};
    const uint64_t again[] = {2, 4, 1, 0, 1, 0, 5, 1, 1, 2, 1, 0, 1, 1, 1, 0, 5, 1, 1, 1, 0, 5};

    uint64_t form[COLLWYFA_LARGEST_FORM];
    struct collwyfa_answer found = collwyfa_form(chain, 17, form, COLLWYFA_LARGEST_FORM);
    if (found.refusal != 0)
        return 1;
    print_row(form, found.value);

    uint64_t places[COLLWYFA_MOST_PLACES];
    struct collwyfa_comparison compared = collwyfa_compare(chain, 17, again, 22, places);
    if (compared.kind != COLLWYFA_ISOMORPHIC)
        return 1;
    print_row(places, compared.value);
    return 0;
}
