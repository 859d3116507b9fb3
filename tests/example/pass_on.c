/*
 * pass_on BLOCK: tells of each row of a block which row goes on, the corrected one or the one that was received, and how many of
 * its symbols differ from the received ones.
 */
#include "orbitspinet.h"
#include <stdio.h>

enum {
    MOST_BYTES = TAPE_HEADER_BYTES + TAPE_ROW_BYTES * TAPE_MOST_ROWS
};

/* Decodes a row and passes it on; the row's symbols are then told as they are, and none is copied. */
static void pass_row(size_t number, const uint8_t *packed)
{
    uint8_t received[TAPE_N], corrected[TAPE_N], message[TAPE_K], work[TAPE_WORK_Q4];
    uint64_t from = 0;
    int differ = 0;
    for (size_t at = 0; at < TAPE_N; at++)
        received[at] = at % 2 == 0 ? packed[at / 2] >> 4 : packed[at / 2] & 15;
    int64_t decoded = tape_decode(TAPE_Q, TAPE_U, received, TAPE_N, work, sizeof work, message, TAPE_K, corrected, TAPE_N);
    int64_t length = tape_pass_on(TAPE_Q, decoded, received, TAPE_N, corrected, TAPE_N, &from);
    const uint8_t *row = from == TAPE_PASS_CORRECTED ? corrected : received;
    for (int64_t at = 0; at < length; at++)
        differ += row[at] != received[at];
    printf("row %d: %s, %d of %d differ\n", (int)number, row == corrected ? "corrected" : "received", differ, (int)length);
}

int main(int count, char **words)
{
    static uint8_t block[MOST_BYTES];
    FILE *file = count == 2 ? fopen(words[1], "rb") : NULL;
    if (file == NULL)
        return 1;
    size_t length = fread(block, 1, sizeof block, file);
    for (size_t r = 0; TAPE_HEADER_BYTES + TAPE_ROW_BYTES * (r + 1) <= length; r++)
        pass_row(r, block + TAPE_HEADER_BYTES + TAPE_ROW_BYTES * r);
    return 0;
}
