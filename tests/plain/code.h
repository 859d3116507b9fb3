/*
 * The layer in plain C, written from document 01: what its files share.
 *
 * It serves the benchmark as the other side of the comparison, and the harness can be linked with it instead of the proved
 * archive, to try the tests themselves. Nothing here is proved.
 */
#ifndef PLAIN_CODE_H
#define PLAIN_CODE_H

#include "orbitspinet.h"

enum {
    MOST_Q = 4,
    MOST_SYMBOLS = 16,
    MOST_N = 64
};

/* A code that document 01 allows, with all that its rows are worked on by. */
struct code {
    size_t q;
    size_t u;
    size_t n;
    size_t k;
    size_t reach;
    size_t step_count;
    /* coefficients of a polynomial in x, and symbols of the work area */
    size_t width;
    size_t area;
    /* row a holds the products of a */
    const uint8_t (*product)[MOST_SYMBOLS];
    const uint8_t *inverse;
    /* by weight: where its symbol stands in a message; no meaning for gaps */
    uint8_t place_of[MOST_N];
};

/* Whether a weight has no monomial. */
int is_gap(size_t q, size_t weight);

/* The code named by q and u: 0, or the number of the refusal. */
int find_code(uint64_t q, uint64_t u, struct code *code);

/* The power of a symbol; the power 0 is 1 also for the symbol 0. */
uint8_t power_of(const struct code *code, uint8_t symbol, size_t exponent);

/* The q ordinates of the points above an abscissa, rising. */
const uint8_t *ordinates_of(const struct code *code, size_t x);

/* The n symbols of a message's row. */
void write_row(const struct code *code, const uint8_t *message, uint8_t *row);

/* The state before the first step, in document 01's layout. */
void start_state(const struct code *code, const uint8_t *row, uint8_t *work);

/* Takes steps from the start state; votes holds the k votes, 0 where not yet voted. */
void take_steps(const struct code *code, size_t steps, uint8_t *work, uint8_t *votes);

#endif
