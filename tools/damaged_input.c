/*
 * Prints a line with the numbers that collwyfa.h declares, makes the calls that standard input tells, and prints what was answered, a line for each.
 * tools/damaged_input.py builds it against the static library.
 *
 * A call is a row of 64-bit numbers: 0, the room, and the length of a graph and its numbers; or 1, and the length and numbers of a first and of a
 * second graph. Each is made twice. Once every row is lent as a block that ends where the row does, so that valgrind sees what lies beyond. Once it
 * lies between guard numbers, in a block that is filled with other marks. Afterwards the guards, the graphs, all behind an answer, and on a refusal
 * the whole row must be as they were, and both calls must have answered the same. Else the program says what was touched and ends with status 1.
 */
#include "collwyfa.h"

#include <inttypes.h>
#include <stdio.h>
#include <stdlib.h>
#include <string.h>

enum { GUARD = 8 };

struct lent {
    uint64_t *block;
    uint64_t *row;
    size_t length;
    size_t guard;
    uint64_t seed;
};

struct answered {
    uint64_t kind;
    uint64_t refusal;
    uint64_t value;
    uint64_t *written;
    size_t count;
};

static void fail(const char *what) {
    printf("touched: %s\n", what);
    exit(1);
}

static void *block_of(size_t numbers) {
    void *block = malloc(numbers * sizeof(uint64_t));
    if (block == NULL)
        fail("nothing, there is no memory");
    return block;
}

static uint64_t mark(uint64_t seed, size_t at) {
    return (at + 1) * 0x9e3779b97f4a7c15u ^ seed;
}

static struct lent lend(size_t length, size_t guard, uint64_t seed) {
    struct lent lent = {block_of(length + 2 * guard), NULL, length, guard, seed};
    lent.row = lent.block + guard;
    for (size_t at = 0; at < length + 2 * guard; at++)
        lent.block[at] = mark(seed, at);
    return lent;
}

static struct lent lend_graph(const uint64_t *numbers, size_t length, size_t guard, uint64_t seed) {
    struct lent lent = lend(length, guard, seed);
    memcpy(lent.row, numbers, length * sizeof(uint64_t));
    return lent;
}

static void see_kept(const struct lent *lent, size_t from, size_t to, const char *what) {
    for (size_t at = from; at < to; at++)
        if (lent->block[at] != mark(lent->seed, at))
            fail(what);
}

/* The first numbers of the row may have been written; all else of its block is as it was. */
static void take_back(struct lent *lent, size_t written) {
    if (written > lent->length)
        fail("more than the row, by the answer");
    see_kept(lent, 0, lent->guard, "the numbers before the row");
    see_kept(lent, lent->guard + written, lent->guard + lent->length, "what lies behind the answer");
    see_kept(lent, lent->guard + lent->length, 2 * lent->guard + lent->length, "the numbers behind the row");
    free(lent->block);
}

static void take_graph_back(struct lent *lent, const uint64_t *numbers) {
    if (memcmp(lent->row, numbers, lent->length * sizeof(uint64_t)) != 0)
        fail("a graph");
    take_back(lent, lent->length);
}

static uint64_t *copy_of(const uint64_t *row, size_t length) {
    uint64_t *copy = block_of(length);
    memcpy(copy, row, length * sizeof(uint64_t));
    return copy;
}

static struct answered call_form(const uint64_t *numbers, size_t length, size_t room, size_t guard, uint64_t seed) {
    struct lent graph = lend_graph(numbers, length, guard, seed + 1);
    struct lent out = lend(room, guard, seed);
    struct collwyfa_answer answer = collwyfa_form(graph.row, length, out.row, room);
    size_t count = answer.refusal == 0 ? answer.value : 0;
    if (count > room)
        fail("more than the row, by the answer");
    struct answered answered = {0, answer.refusal, answer.value, copy_of(out.row, count), count};
    take_back(&out, count);
    take_graph_back(&graph, numbers);
    return answered;
}

static struct answered call_compare(const uint64_t *one, size_t one_length, const uint64_t *other, size_t other_length, size_t guard, uint64_t seed) {
    struct lent first = lend_graph(one, one_length, guard, seed + 1);
    struct lent second = lend_graph(other, other_length, guard, seed + 2);
    struct lent places = lend(COLLWYFA_MOST_PLACES, guard, seed);
    struct collwyfa_comparison answer = collwyfa_compare(first.row, one_length, second.row, other_length, places.row);
    size_t count = answer.kind == COLLWYFA_ISOMORPHIC ? answer.value : 0;
    if (count > COLLWYFA_MOST_PLACES)
        fail("more than the row, by the answer");
    struct answered answered = {answer.kind, answer.refusal, answer.value, copy_of(places.row, count), count};
    take_back(&places, count);
    take_graph_back(&second, other);
    take_graph_back(&first, one);
    return answered;
}

/* Prints what both calls answered. */
static void tell(struct answered one, struct answered other) {
    if (one.kind != other.kind || one.refusal != other.refusal || one.value != other.value || one.count != other.count ||
        memcmp(one.written, other.written, one.count * sizeof(uint64_t)) != 0)
        fail("nothing, but the same call was answered otherwise");
    printf("%" PRIu64 " %" PRIu64 " %" PRIu64, one.kind, one.refusal, one.value);
    for (size_t at = 0; at < one.count; at++)
        printf(" %" PRIu64, one.written[at]);
    printf("\n");
    fflush(stdout);
    free(one.written);
    free(other.written);
}

static uint64_t *read_row(size_t length) {
    uint64_t *row = block_of(length);
    if (fread(row, sizeof(uint64_t), length, stdin) != length)
        fail("nothing, the calls are cut short");
    return row;
}

static uint64_t read_number(void) {
    uint64_t *row = read_row(1);
    uint64_t number = row[0];
    free(row);
    return number;
}

static void tell_header(void) {
    printf("%d %d %d %d %d %d\n", COLLWYFA_LARGEST_FORM, COLLWYFA_MOST_PLACES, COLLWYFA_NOT_ISOMORPHIC, COLLWYFA_ISOMORPHIC, COLLWYFA_FIRST_REFUSED,
           COLLWYFA_SECOND_REFUSED);
}

int main(void) {
    tell_header();
    uint64_t what;
    for (uint64_t seed = 1; fread(&what, sizeof what, 1, stdin) == 1; seed += 10) {
        size_t room = what == 0 ? read_number() : 0;
        size_t length = read_number();
        uint64_t *first = read_row(length);
        if (what == 0) {
            tell(call_form(first, length, room, 0, seed), call_form(first, length, room, GUARD, seed + 5));
        } else {
            size_t second_length = read_number();
            uint64_t *second = read_row(second_length);
            tell(call_compare(first, length, second, second_length, 0, seed), call_compare(first, length, second, second_length, GUARD, seed + 5));
            free(second);
        }
        free(first);
    }
    return 0;
}
