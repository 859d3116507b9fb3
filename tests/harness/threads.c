/*
 * Calls the layer from several threads at once, each over areas of its own but with the same block and payload to read: every
 * answer and every byte must be what one thread alone gets. Prints one line.
 */
#include "orbitspinet.h"
#include <pthread.h>
#include <stdio.h>

enum {
    THREADS = 4,
    ROUNDS = 12,
    ROWS = 24,
    BLOCK_BYTES = TAPE_HEADER_BYTES + TAPE_ROW_BYTES * ROWS,
    PAYLOAD_BYTES = TAPE_PAYLOAD_BYTES * ROWS
};

/* All that one thread's calls write to. */
struct written {
    uint8_t work[TAPE_WORK_Q4];
    uint8_t picture[TAPE_WORK_Q4];
    uint8_t votes[TAPE_K];
    uint8_t row[TAPE_N];
    uint8_t message[TAPE_K];
    uint8_t corrected[TAPE_N];
    uint8_t records[TAPE_RECORD_BYTES * ROWS];
    uint8_t block[BLOCK_BYTES];
    uint64_t at;
    uint64_t from;
    int64_t answers[6];
};

struct thread {
    pthread_t id;
    uint8_t seed;
    struct written alone; /* what the same calls gave with no other thread running */
    int same;
};

static uint8_t payload[PAYLOAD_BYTES], block[BLOCK_BYTES];

static int is_same(const struct written *one, const struct written *other)
{
    const uint8_t *a = (const uint8_t *)one, *b = (const uint8_t *)other;
    for (size_t at = 0; at < sizeof *one; at++)
        if (a[at] != b[at])
            return 0;
    return 1;
}

/* Every call once, on a message that the seed makes and its row with a few places changed. */
static void call_all(uint8_t seed, struct written *to)
{
    uint8_t message[TAPE_K], received[TAPE_N];
    for (size_t at = 0; at < TAPE_K; at++)
        message[at] = (uint8_t)((seed * 7 + at * (seed + 3)) % 16);
    to->answers[0] = tape_encode(TAPE_Q, TAPE_U, message, TAPE_K, to->row, TAPE_N);
    for (size_t at = 0; at < TAPE_N; at++)
        received[at] = at % 9 == seed % 9 ? to->row[at] ^ (1 + seed % 15) : to->row[at];
    to->answers[1] = tape_stop(TAPE_Q, TAPE_U, 20 + seed, received, TAPE_N, to->picture, TAPE_WORK_Q4, to->votes, TAPE_K);
    to->answers[2] = tape_decode(TAPE_Q, TAPE_U, received, TAPE_N, to->work, TAPE_WORK_Q4, to->message, TAPE_K,
                                 to->corrected, TAPE_N);
    to->answers[3] = tape_pass_on(TAPE_Q, to->answers[2], received, TAPE_N, to->corrected, TAPE_N, &to->from);
    to->answers[4] = tape_write(payload, PAYLOAD_BYTES, to->block, BLOCK_BYTES);
    to->answers[5] = tape_verify(block, BLOCK_BYTES, payload, PAYLOAD_BYTES, to->records, sizeof to->records, to->work,
                                 TAPE_WORK_Q4, &to->at);
}

static void *run_thread(void *argument)
{
    static struct written all[THREADS];
    struct thread *thread = argument;
    struct written *mine = &all[thread->seed];
    thread->same = 1;
    for (int round = 0; round < ROUNDS; round++) {
        *mine = (struct written){.at = 0};
        call_all(thread->seed, mine);
        thread->same &= is_same(mine, &thread->alone);
    }
    return NULL;
}

int main(void)
{
    static struct thread threads[THREADS];
    int same = 1;
    for (size_t at = 0; at < PAYLOAD_BYTES; at++)
        payload[at] = (uint8_t)(at * at + at / 3);
    tape_write(payload, PAYLOAD_BYTES, block, BLOCK_BYTES);
    for (size_t at = TAPE_HEADER_BYTES; at < BLOCK_BYTES; at += 11)
        block[at] ^= 5;
    for (uint8_t seed = 0; seed < THREADS; seed++) {
        threads[seed].seed = seed;
        call_all(seed, &threads[seed].alone);
    }
    for (size_t at = 0; at < THREADS; at++)
        if (pthread_create(&threads[at].id, NULL, run_thread, &threads[at]))
            return 1;
    for (size_t at = 0; at < THREADS; at++) {
        pthread_join(threads[at].id, NULL);
        same &= threads[at].same;
    }
    printf("%d threads, %d rounds of every call: %s\n", THREADS, ROUNDS, same ? "the same" : "NOT the same");
    return 0;
}
