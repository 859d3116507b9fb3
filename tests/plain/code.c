/* The two codes in plain C: symbols, gaps, points, and the row of a message. */
#include "code.h"

static const uint8_t product_for_2[4][MOST_SYMBOLS] = {
    {0, 0, 0, 0},
    {0, 1, 2, 3},
    {0, 2, 3, 1},
    {0, 3, 1, 2},
};

static const uint8_t product_for_4[16][MOST_SYMBOLS] = {
    {0, 0, 0, 0, 0, 0, 0, 0, 0, 0, 0, 0, 0, 0, 0, 0},
    {0, 1, 2, 3, 4, 5, 6, 7, 8, 9, 10, 11, 12, 13, 14, 15},
    {0, 2, 4, 6, 8, 10, 12, 14, 3, 1, 7, 5, 11, 9, 15, 13},
    {0, 3, 6, 5, 12, 15, 10, 9, 11, 8, 13, 14, 7, 4, 1, 2},
    {0, 4, 8, 12, 3, 7, 11, 15, 6, 2, 14, 10, 5, 1, 13, 9},
    {0, 5, 10, 15, 7, 2, 13, 8, 14, 11, 4, 1, 9, 12, 3, 6},
    {0, 6, 12, 10, 11, 13, 7, 1, 5, 3, 9, 15, 14, 8, 2, 4},
    {0, 7, 14, 9, 15, 8, 1, 6, 13, 10, 3, 4, 2, 5, 12, 11},
    {0, 8, 3, 11, 6, 14, 5, 13, 12, 4, 15, 7, 10, 2, 9, 1},
    {0, 9, 1, 8, 2, 11, 3, 10, 4, 13, 5, 12, 6, 15, 7, 14},
    {0, 10, 7, 13, 14, 4, 9, 3, 15, 5, 8, 2, 1, 11, 6, 12},
    {0, 11, 5, 14, 10, 1, 15, 4, 7, 12, 2, 9, 13, 6, 8, 3},
    {0, 12, 11, 7, 5, 9, 14, 2, 10, 6, 1, 13, 15, 3, 4, 8},
    {0, 13, 9, 4, 1, 12, 8, 5, 2, 15, 11, 6, 3, 14, 10, 7},
    {0, 14, 15, 1, 13, 3, 2, 12, 9, 7, 6, 8, 4, 10, 11, 5},
    {0, 15, 13, 2, 9, 6, 4, 11, 1, 14, 12, 3, 8, 7, 5, 10},
};

static const uint8_t inverse_for_2[4] = {0, 1, 3, 2};
static const uint8_t inverse_for_4[16] = {0, 1, 9, 14, 13, 11, 7, 6, 15, 2, 12, 5, 10, 4, 3, 8};

/* The ordinates above x, for each value of x^(q+1). */
static const uint8_t ordinates_for_2[2][MOST_Q] = {{0, 1}, {2, 3}};
static const uint8_t ordinates_for_4[4][MOST_Q] = {{0, 1, 6, 7}, {2, 3, 4, 5}, {10, 11, 12, 13}, {8, 9, 14, 15}};

int is_gap(size_t q, size_t weight)
{
    return weight < (q + 1) * (weight % q);
}

static void number_message_places(struct code *code)
{
    code->k = 0;
    for (size_t weight = 0; weight <= code->u; weight++) {
        code->place_of[weight] = (uint8_t)code->k;
        code->k += !is_gap(code->q, weight);
    }
}

/* The distance of a code, with u = aq + b: n - aq where b ≤ a - (q² - q), and n - u where not. */
static size_t distance_of(size_t q, size_t u)
{
    size_t a = u / q, b = u % q;
    if (b + q * q - q <= a)
        return q * q * q - a * q;
    return q * q * q - u;
}

int find_code(uint64_t q, uint64_t u, struct code *code)
{
    if (q != 2 && q != 4)
        return TAPE_UNKNOWN_Q;
    if (u < q || u >= q * q * q || is_gap(q, u))
        return TAPE_NO_CODE;
    code->q = q;
    code->u = u;
    code->n = q * q * q;
    code->reach = (distance_of(q, u) - 1) / 2;
    code->step_count = code->n + q * q - q;
    code->width = q * q + 2 * q - 1;
    code->area = 4 * q * q * code->width;
    code->product = q == 2 ? product_for_2 : product_for_4;
    code->inverse = q == 2 ? inverse_for_2 : inverse_for_4;
    number_message_places(code);
    return 0;
}

uint8_t power_of(const struct code *code, uint8_t symbol, size_t exponent)
{
    uint8_t power = 1;
    while (exponent-- > 0)
        power = code->product[symbol][power];
    return power;
}

const uint8_t *ordinates_of(const struct code *code, size_t x)
{
    uint8_t right_side = power_of(code, (uint8_t)x, code->q + 1);
    if (code->q == 2)
        return ordinates_for_2[right_side];
    switch (right_side) {
    case 0:
        return ordinates_for_4[0];
    case 1:
        return ordinates_for_4[1];
    case 6:
        return ordinates_for_4[2];
    default:
        return ordinates_for_4[3];
    }
}

/* The sum of a message's monomials with y^j, without their y^j, at x. */
static uint8_t column_at(const struct code *code, const uint8_t *message, size_t x, size_t j)
{
    const uint8_t *times_x = code->product[x];
    size_t weight = (code->q + 1) * j;
    uint8_t sum = 0;
    if (weight > code->u)
        return 0;
    for (size_t i = (code->u - weight) / code->q + 1; i-- > 0;)
        sum = times_x[sum] ^ message[code->place_of[weight + code->q * i]];
    return sum;
}

void write_row(const struct code *code, const uint8_t *message, uint8_t *row)
{
    size_t q = code->q;
    for (size_t x = 0; x < q * q; x++) {
        const uint8_t *ordinates = ordinates_of(code, x);
        uint8_t column[MOST_Q];
        for (size_t j = 0; j < q; j++)
            column[j] = column_at(code, message, x, j);
        for (size_t m = 0; m < q; m++) {
            const uint8_t *times_y = code->product[ordinates[m]];
            uint8_t sum = 0;
            for (size_t j = q; j-- > 0;)
                sum = times_y[sum] ^ column[j];
            *row++ = sum;
        }
    }
}
