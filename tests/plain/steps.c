/* The decoder's steps in plain C, in place in the work area. */
#include "code.h"

/* What f_i and its partner g_to do in one step, in document 01's names. */
struct pair {
    size_t to;
    int64_t c;
    uint8_t w;
    uint8_t mu;
    uint8_t nu;
};

/* Where a polynomial in x stands: polynomial 0 to q-1 is g, q to 2q-1 is f; line 0 to q-1 is upper, q to 2q-1 lower. */
static uint8_t *line_at(const struct code *code, uint8_t *work, size_t polynomial, size_t line)
{
    return work + (polynomial * 2 * code->q + line) * code->width;
}

/* Adds x^shift times a multiple of one line to another. */
static void add_shifted(size_t width, uint8_t *to, const uint8_t *from, size_t shift, const uint8_t *times)
{
    for (size_t x = shift; x < width; x++)
        to[x] ^= times[from[x - shift]];
}

/* Adds x^a y^b times a multiple of the q lines of one part to those of another; y^q is x^(q+1) + y. */
static void add_monomial_multiple(const struct code *code, uint8_t *to, const uint8_t *from, size_t a, size_t b,
                                  const uint8_t *times)
{
    size_t q = code->q, width = code->width;
    for (size_t j = 0; j < q; j++) {
        const uint8_t *line = from + j * width;
        if (j + b < q) {
            add_shifted(width, to + (j + b) * width, line, a, times);
        } else {
            add_shifted(width, to + (j + b - q) * width, line, a + q + 1, times);
            add_shifted(width, to + (j + b - q + 1) * width, line, a, times);
        }
    }
}

/* h into the lower part of f_0: for each abscissa a polynomial in y through its symbols, then those along x. */
static void interpolate(const struct code *code, const uint8_t *row, uint8_t *lower)
{
    size_t q = code->q, size = q * q;
    for (size_t a = 0; a < size; a++) {
        const uint8_t *ordinates = ordinates_of(code, a);
        uint8_t column[MOST_Q] = {0};
        for (size_t m = 0; m < q; m++) {
            const uint8_t *times = code->product[row[a * q + m]];
            for (size_t j = 0; j < q; j++)
                column[j] ^= times[power_of(code, ordinates[m], q - 1 - j) ^ (j == 0)];
        }
        for (size_t k = 0; k < size; k++) {
            const uint8_t *times = code->product[power_of(code, (uint8_t)a, size - 1 - k) ^ (k == 0)];
            for (size_t j = 0; j < q; j++)
                lower[j * code->width + k] ^= times[column[j]];
        }
    }
}

void start_state(const struct code *code, const uint8_t *row, uint8_t *work)
{
    size_t q = code->q;
    const uint8_t *once = code->product[1];
    for (size_t at = 0; at < code->area; at++)
        work[at] = 0;
    uint8_t *lower_of_f0 = line_at(code, work, q, q);
    interpolate(code, row, lower_of_f0);
    for (size_t i = 0; i < q; i++) {
        uint8_t *g = line_at(code, work, i, q + i);
        g[q * q] = 1;
        g[1] = 1;
        line_at(code, work, q + i, i)[0] = 1;
        if (i > 0)
            add_monomial_multiple(code, line_at(code, work, q + i, q), lower_of_f0, 0, i, once);
    }
}

static size_t degree_of(size_t width, const uint8_t *line)
{
    size_t degree = width - 1;
    while (degree > 0 && line[degree] == 0)
        degree--;
    return degree;
}

static struct pair pair_up(const struct code *code, uint8_t *work, size_t s, size_t i, int votes)
{
    size_t q = code->q, to = (i + s) % q;
    const uint8_t *f = line_at(code, work, q + i, i), *g = line_at(code, work, to, q + to);
    size_t f_degree = degree_of(code->width, f), g_degree = degree_of(code->width, g);
    int64_t k = ((int64_t)(q * f_degree + (q + 1) * i + s) - (int64_t)((q + 1) * to)) / (int64_t)q;
    struct pair pair = {to, (int64_t)g_degree - k, 0, 1, g[g_degree]};
    if (k < 0)
        return pair;
    uint8_t b = (size_t)k < code->width ? line_at(code, work, q + i, q + to)[k] : 0;
    if (votes)
        pair.mu = f[f_degree];
    pair.w = code->product[code->inverse[pair.mu]][b];
    return pair;
}

/* The first symbol whose score no other passes. */
static uint8_t vote_of(const struct code *code, const struct pair *pairs)
{
    int64_t scores[MOST_SYMBOLS] = {0};
    for (size_t i = 0; i < code->q; i++)
        if (pairs[i].c > 0)
            scores[pairs[i].w] += pairs[i].c;
    size_t best = 0;
    for (size_t symbol = 1; symbol < code->q * code->q; symbol++)
        if (scores[symbol] > scores[best])
            best = symbol;
    return (uint8_t)best;
}

/* z becomes z + w times the monomial of s, in all polynomials. */
static void substitute(const struct code *code, uint8_t *work, size_t s, uint8_t w)
{
    size_t q = code->q, b = s % q, a = (s - (q + 1) * b) / q;
    for (size_t polynomial = 0; polynomial < 2 * q; polynomial++)
        add_monomial_multiple(code, line_at(code, work, polynomial, q), line_at(code, work, polynomial, 0), a, b,
                              code->product[w]);
}

/* The new g is f, and the new f is x^c f + r g, in one pass from above. */
static void exchange(size_t width, uint8_t *f, uint8_t *g, size_t c, const uint8_t *times)
{
    for (size_t x = width; x-- > 0;) {
        uint8_t old = f[x];
        f[x] = (x < c ? 0 : f[x - c]) ^ times[g[x]];
        g[x] = old;
    }
}

static void update(const struct code *code, uint8_t *work, size_t i, const struct pair *pair, uint8_t w)
{
    size_t q = code->q;
    uint8_t scaled = code->product[pair->mu][w ^ pair->w];
    const uint8_t *times = code->product[code->product[scaled][code->inverse[pair->nu]]];
    for (size_t line = 0; line < 2 * q; line++) {
        uint8_t *f = line_at(code, work, q + i, line), *g = line_at(code, work, pair->to, line);
        if (pair->c > 0)
            exchange(code->width, f, g, (size_t)pair->c, times);
        else
            add_shifted(code->width, f, g, (size_t)-pair->c, times);
    }
}

void take_steps(const struct code *code, size_t steps, uint8_t *work, uint8_t *votes)
{
    for (size_t at = 0; at < code->k; at++)
        votes[at] = 0;
    for (size_t taken = 0; taken < steps; taken++) {
        size_t s = code->step_count - 1 - taken;
        int voting = s <= code->u && !is_gap(code->q, s);
        struct pair pairs[MOST_Q];
        for (size_t i = 0; i < code->q; i++)
            pairs[i] = pair_up(code, work, s, i, voting);
        uint8_t w = voting ? vote_of(code, pairs) : 0;
        if (voting)
            votes[code->place_of[s]] = w;
        if (w != 0)
            substitute(code, work, s, w);
        for (size_t i = 0; i < code->q; i++)
            if (pairs[i].w != w)
                update(code, work, i, &pairs[i], w);
    }
}
