#include "orbitspinet.h"
#include <stdio.h>

int main(int words, char **word)
{
    static uint8_t payload[TAPE_PAYLOAD_BYTES * TAPE_MOST_ROWS + 1], records[TAPE_RECORD_BYTES * TAPE_MOST_ROWS];
    static uint8_t block[TAPE_HEADER_BYTES + TAPE_ROW_BYTES * TAPE_MOST_ROWS], work[TAPE_WORK_Q4];
    FILE *disk = fopen(words > 1 ? word[1] : "", "rb");
    size_t payload_len = disk ? fread(payload, 1, sizeof payload, disk) : 0;
    int64_t length = tape_write(payload, payload_len, block, sizeof block);
    if (length < 0) {
        printf("refuse %d\n", (int)-length);
        return 1;
    }
    block[TAPE_HEADER_BYTES] ^= 0x10; /* one symbol goes wrong on the tape */
    uint64_t at = 0;
    int64_t verdict = tape_verify(block, (size_t)length, payload, payload_len, records, sizeof records, work,
                                  sizeof work, &at);
    printf("wrote %d, verdict %d, at %u\n", (int)length, (int)verdict, (unsigned)at);
    return verdict != TAPE_COPIED;
}
