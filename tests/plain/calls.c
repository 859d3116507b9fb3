/* The layer's calls in plain C: refusals, lent areas, and blocks. */
#include "code.h"

static int any_beyond(const struct code *code, const uint8_t *symbols, size_t count)
{
    for (size_t at = 0; at < count; at++)
        if (symbols[at] >= code->q * code->q)
            return 1;
    return 0;
}

static void copy(uint8_t *to, const uint8_t *from, size_t count)
{
    for (size_t at = 0; at < count; at++)
        to[at] = from[at];
}

int64_t tape_encode(uint64_t q, uint64_t u, const uint8_t *message, size_t message_len, uint8_t *row, size_t row_len)
{
    struct code code;
    int refusal = find_code(q, u, &code);
    if (refusal)
        return -refusal;
    if (message_len != code.k)
        return -TAPE_WRONG_LENGTH;
    if (any_beyond(&code, message, code.k))
        return -TAPE_NO_SYMBOL;
    if (row_len < code.n)
        return -TAPE_SHORT_OUTPUT;
    write_row(&code, message, row);
    return 0;
}

int64_t tape_stop(uint64_t q, uint64_t u, uint64_t steps, const uint8_t *row, size_t row_len, uint8_t *work,
                  size_t work_len, uint8_t *votes, size_t votes_len)
{
    struct code code;
    int refusal = find_code(q, u, &code);
    if (refusal)
        return -refusal;
    if (steps > code.step_count)
        return -TAPE_TOO_MANY_STEPS;
    if (row_len != code.n)
        return -TAPE_WRONG_LENGTH;
    if (any_beyond(&code, row, code.n))
        return -TAPE_NO_SYMBOL;
    if (work_len < code.area)
        return -TAPE_SHORT_WORK;
    if (votes_len < code.k)
        return -TAPE_SHORT_OUTPUT;
    start_state(&code, row, work);
    take_steps(&code, steps, work, votes);
    return 0;
}

/* Decodes a full row of symbols: the count, or -TAPE_BEYOND_REACH. */
static int64_t decode_row(const struct code *code, const uint8_t *row, uint8_t *work, uint8_t *message,
                          uint8_t *corrected)
{
    uint8_t votes[MOST_N], votes_row[MOST_N];
    size_t count = 0;
    start_state(code, row, work);
    take_steps(code, code->step_count, work, votes);
    write_row(code, votes, votes_row);
    for (size_t at = 0; at < code->area; at++)
        work[at] = 0;
    for (size_t place = 0; place < code->n; place++)
        count += votes_row[place] != row[place];
    if (count > code->reach)
        return -TAPE_BEYOND_REACH;
    copy(message, votes, code->k);
    copy(corrected, votes_row, code->n);
    return (int64_t)count;
}

int64_t tape_decode(uint64_t q, uint64_t u, const uint8_t *row, size_t row_len, uint8_t *work, size_t work_len,
                    uint8_t *message, size_t message_len, uint8_t *corrected, size_t corrected_len)
{
    struct code code;
    int refusal = find_code(q, u, &code);
    if (refusal)
        return -refusal;
    if (row_len != code.n)
        return -TAPE_WRONG_LENGTH;
    if (any_beyond(&code, row, code.n))
        return -TAPE_NO_SYMBOL;
    if (work_len < code.area)
        return -TAPE_SHORT_WORK;
    if (message_len < code.k || corrected_len < code.n)
        return -TAPE_SHORT_OUTPUT;
    return decode_row(&code, row, work, message, corrected);
}

int64_t tape_pass_on(uint64_t q, int64_t decoded, const uint8_t *received, size_t received_len, const uint8_t *corrected,
                     size_t corrected_len, uint64_t *from)
{
    size_t n = q == 2 ? TAPE_ROW_Q2 : q == 4 ? TAPE_ROW_Q4 : 0;
    size_t length = decoded >= 0 ? corrected_len : received_len;
    (void)received, (void)corrected;
    *from = decoded >= 0 ? TAPE_PASS_CORRECTED : TAPE_PASS_RECEIVED;
    return length < n ? 0 : (int64_t)n;
}

/* The rows of a block, or 0 if it is not as document 01 says. */
static size_t rows_of(const uint8_t *block, size_t block_len)
{
    if (block_len < TAPE_HEADER_BYTES)
        return 0;
    size_t length = (size_t)block[0] << 24 | (size_t)block[1] << 16 | (size_t)block[2] << 8 | block[3];
    size_t rows = (size_t)block[6] << 8 | block[7];
    int as_said = length == 4 + TAPE_ROW_BYTES * rows && block_len == length + 4 && block[4] == 1 &&
                  block[5] == TAPE_U && rows <= TAPE_MOST_ROWS;
    return as_said ? rows : 0;
}

static uint8_t symbol_in(const uint8_t *bytes, size_t at)
{
    return at % 2 == 0 ? bytes[at / 2] >> 4 : bytes[at / 2] & 15;
}

/* Encodes a packed message and packs its row. */
static void write_packed_row(const struct code *code, const uint8_t *original, uint8_t *packed)
{
    uint8_t message[TAPE_K], row[TAPE_N];
    for (size_t at = 0; at < TAPE_K; at++)
        message[at] = symbol_in(original, at);
    write_row(code, message, row);
    for (size_t at = 0; at < TAPE_ROW_BYTES; at++)
        packed[at] = (uint8_t)(row[2 * at] << 4 | row[2 * at + 1]);
}

static void write_header(uint8_t *block, size_t rows)
{
    size_t length = 4 + TAPE_ROW_BYTES * rows;
    block[0] = (uint8_t)(length >> 24);
    block[1] = (uint8_t)(length >> 16);
    block[2] = (uint8_t)(length >> 8);
    block[3] = (uint8_t)length;
    block[4] = 1;
    block[5] = TAPE_U;
    block[6] = (uint8_t)(rows >> 8);
    block[7] = (uint8_t)rows;
}

int64_t tape_write(const uint8_t *payload, size_t payload_len, uint8_t *block, size_t block_len)
{
    struct code code;
    size_t rows = payload_len / TAPE_PAYLOAD_BYTES;
    if (payload_len % TAPE_PAYLOAD_BYTES != 0 || rows == 0 || rows > TAPE_MOST_ROWS)
        return -TAPE_WRONG_PAYLOAD;
    if (block_len < TAPE_HEADER_BYTES + TAPE_ROW_BYTES * rows)
        return -TAPE_SHORT_OUTPUT;
    find_code(TAPE_Q, TAPE_U, &code);
    write_header(block, rows);
    for (size_t r = 0; r < rows; r++)
        write_packed_row(&code, payload + TAPE_PAYLOAD_BYTES * r, block + TAPE_HEADER_BYTES + TAPE_ROW_BYTES * r);
    return (int64_t)(TAPE_HEADER_BYTES + TAPE_ROW_BYTES * rows);
}

/* Decodes one row, compares it with its part of the payload and records the outcome. */
static void verify_row(const struct code *code, const uint8_t *packed, const uint8_t *original, uint8_t *record,
                       uint8_t *work)
{
    uint8_t row[TAPE_N], message[TAPE_K], corrected[TAPE_N];
    for (size_t at = 0; at < TAPE_N; at++)
        row[at] = symbol_in(packed, at);
    int64_t count = decode_row(code, row, work, message, corrected);
    if (count < 0) {
        record[0] = TAPE_ROW_UNREADABLE;
        record[1] = 0;
        return;
    }
    record[0] = TAPE_ROW_EQUAL;
    record[1] = (uint8_t)count;
    for (size_t at = 0; at < TAPE_K; at++)
        if (message[at] != symbol_in(original, at))
            record[0] = TAPE_ROW_OTHER;
}

int64_t tape_verify(const uint8_t *block, size_t block_len, const uint8_t *payload, size_t payload_len,
                    uint8_t *records, size_t records_len, uint8_t *work, size_t work_len, uint64_t *at)
{
    struct code code;
    size_t rows = rows_of(block, block_len), total = 0;
    if (rows == 0)
        return -TAPE_BAD_BLOCK;
    if (payload_len != TAPE_PAYLOAD_BYTES * rows)
        return -TAPE_WRONG_PAYLOAD;
    if (records_len / TAPE_RECORD_BYTES < rows)
        return -TAPE_FEW_RECORDS;
    if (work_len < TAPE_WORK_Q4)
        return -TAPE_SHORT_WORK;
    find_code(TAPE_Q, TAPE_U, &code);
    for (size_t r = 0; r < rows; r++)
        verify_row(&code, block + TAPE_HEADER_BYTES + TAPE_ROW_BYTES * r, payload + TAPE_PAYLOAD_BYTES * r,
                   records + TAPE_RECORD_BYTES * r, work);
    for (size_t r = 0; r < rows; r++) {
        *at = r;
        if (records[TAPE_RECORD_BYTES * r] != TAPE_ROW_EQUAL)
            return records[TAPE_RECORD_BYTES * r] == TAPE_ROW_OTHER ? TAPE_DIFFERS : TAPE_UNREADABLE;
        total += records[TAPE_RECORD_BYTES * r + 1];
    }
    *at = total;
    return TAPE_COPIED;
}
