/* Compiled only, as C11 and as C++17: the header stands alone, its constants are constants, its calls can be called. */
#include "orbitspinet.h"

struct lent {
    uint8_t work[TAPE_WORK_Q4];
    uint8_t small_work[TAPE_WORK_Q2];
    uint8_t row[TAPE_N];
    uint8_t message[TAPE_K];
    uint8_t records[TAPE_RECORD_BYTES * TAPE_MOST_ROWS];
    uint8_t block[TAPE_HEADER_BYTES + TAPE_ROW_BYTES];
};

int64_t decode_and_encode_again(struct lent *lent, uint8_t corrected[TAPE_N]);
int64_t decode_and_encode_again(struct lent *lent, uint8_t corrected[TAPE_N])
{
    int64_t answer = tape_decode(TAPE_Q, TAPE_U, lent->row, TAPE_N, lent->work, TAPE_WORK_Q4, lent->message, TAPE_K,
                                 corrected, TAPE_N);
    if (answer == -TAPE_BEYOND_REACH)
        return tape_stop(2, 4, TAPE_STEPS_Q2, lent->row, TAPE_ROW_Q2, lent->small_work, TAPE_WORK_Q2, lent->message, 4);
    return tape_encode(TAPE_Q, TAPE_U, lent->message, TAPE_K, lent->row, TAPE_N);
}

const uint8_t *row_passed_on(const struct lent *lent, const uint8_t corrected[TAPE_N], int64_t decoded);
const uint8_t *row_passed_on(const struct lent *lent, const uint8_t corrected[TAPE_N], int64_t decoded)
{
    uint64_t from = TAPE_PASS_RECEIVED;
    int64_t length = tape_pass_on(TAPE_Q, decoded, lent->row, TAPE_N, corrected, TAPE_N, &from);
    return length == TAPE_N && from == TAPE_PASS_CORRECTED ? corrected : lent->row;
}

int64_t write_one_row(struct lent *lent, const uint8_t payload[TAPE_PAYLOAD_BYTES]);
int64_t write_one_row(struct lent *lent, const uint8_t payload[TAPE_PAYLOAD_BYTES])
{
    return tape_write(payload, TAPE_PAYLOAD_BYTES, lent->block, sizeof lent->block);
}

int is_copied(struct lent *lent, const uint8_t *block, size_t block_len, const uint8_t *payload, size_t payload_len);
int is_copied(struct lent *lent, const uint8_t *block, size_t block_len, const uint8_t *payload, size_t payload_len)
{
    uint64_t at = 0;
    int64_t verdict = tape_verify(block, block_len, payload, payload_len, lent->records, sizeof lent->records,
                                  lent->work, sizeof lent->work, &at);
    return verdict == TAPE_COPIED && lent->records[0] == TAPE_ROW_EQUAL;
}
