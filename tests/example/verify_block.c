#include "orbitspinet.h"
#include <stdio.h>

int main(int words, char **word)
{
    static uint8_t block[TAPE_HEADER_BYTES + TAPE_ROW_BYTES * TAPE_MOST_ROWS + 1], work[TAPE_WORK_Q4];
    static uint8_t payload[TAPE_PAYLOAD_BYTES * TAPE_MOST_ROWS + 1], records[TAPE_RECORD_BYTES * TAPE_MOST_ROWS];
    FILE *tape = fopen(words > 2 ? word[1] : "", "rb"), *disk = fopen(words > 2 ? word[2] : "", "rb");
    size_t block_len = tape ? fread(block, 1, sizeof block, tape) : 0;
    size_t payload_len = disk ? fread(payload, 1, sizeof payload, disk) : 0;
    uint64_t at = 0;
    int64_t verdict = tape_verify(block, block_len, payload, payload_len, records, sizeof records, work, sizeof work, &at);
    printf("verdict %d, at %u\n", (int)verdict, (unsigned)at);
    return verdict != TAPE_COPIED;
}
