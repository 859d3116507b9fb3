/*
 * The proved archive and the plain C version side by side: the same inputs, in one run, by turns.
 *
 *   bench                      rows a second of both and their ratio, for each workload
 *   bench WORKLOAD SIDE        one round of a workload by one side, for counting its instructions
 *
 * Both sides must leave the same bytes, or it ends badly.
 */
#include "orbitspinet.h"

enum {
    ROWS = 64,
    MOST_DAMAGE = TAPE_REACH + 3,
    ROUNDS = 40,
    BLOCK_BYTES = TAPE_HEADER_BYTES + ROWS * TAPE_ROW_BYTES
};

int printf(const char *format, ...);
int atoi(const char *text);
int main(int count, char **words);

/* The processor's time of this program alone, since others may run beside it. */
struct time {
    int64_t seconds;
    int64_t nanoseconds;
};
int clock_gettime(int clock, struct time *now);

/* The plain version's functions bear other names here, so that both sides are in one program. */
int64_t plain_encode(uint64_t q, uint64_t u, const uint8_t *message, size_t message_len, uint8_t *row, size_t row_len);
int64_t plain_decode(uint64_t q, uint64_t u, const uint8_t *row, size_t row_len, uint8_t *work, size_t work_len,
                     uint8_t *message, size_t message_len, uint8_t *corrected, size_t corrected_len);
int64_t plain_verify(const uint8_t *block, size_t block_len, const uint8_t *payload, size_t payload_len,
                     uint8_t *records, size_t records_len, uint8_t *work, size_t work_len, uint64_t *at);
int64_t plain_write(const uint8_t *payload, size_t payload_len, uint8_t *block, size_t block_len);

struct side {
    const char *name;
    int64_t (*encode)(uint64_t, uint64_t, const uint8_t *, size_t, uint8_t *, size_t);
    int64_t (*decode)(uint64_t, uint64_t, const uint8_t *, size_t, uint8_t *, size_t, uint8_t *, size_t, uint8_t *,
                      size_t);
    int64_t (*verify)(const uint8_t *, size_t, const uint8_t *, size_t, uint8_t *, size_t, uint8_t *, size_t,
                      uint64_t *);
    int64_t (*write)(const uint8_t *, size_t, uint8_t *, size_t);
};

static const struct side sides[2] = {
    {"archive", tape_encode, tape_decode, tape_verify, tape_write},
    {"plain C", plain_encode, plain_decode, plain_verify, plain_write},
};

/* What every workload reads: made once, before any is timed. */
static struct {
    uint8_t messages[ROWS][TAPE_K];
    uint8_t rows[MOST_DAMAGE + 1][ROWS][TAPE_N];
    uint8_t block[BLOCK_BYTES];
    uint8_t payload[ROWS * TAPE_PAYLOAD_BYTES];
} given;

/* What every workload writes: cleared before each round. */
static struct lent {
    int64_t results[ROWS];
    uint64_t at;
    uint8_t work[TAPE_WORK_Q4];
    uint8_t messages[ROWS][TAPE_K];
    uint8_t rows[ROWS][TAPE_N];
    uint8_t records[ROWS * TAPE_RECORD_BYTES];
    uint8_t block[BLOCK_BYTES];
} lent, kept;

/* Workload 0 encodes, 1 verifies a block, 2 writes one, 3 + d decodes rows with d damaged places. */
enum {
    ENCODE,
    VERIFY,
    WRITE,
    DECODE,
    WORKLOADS = DECODE + MOST_DAMAGE + 1
};

/* A fixed random generator: every run has the same inputs. */
static uint64_t random_below(uint64_t end)
{
    static uint64_t state = 88172645463325252;
    state ^= state << 13;
    state ^= state >> 7;
    state ^= state << 17;
    return (state >> 16) % end;
}

/* Each row with one place more damaged than in the list before: the places are different. */
static void make_rows(size_t r)
{
    uint8_t order[TAPE_N];
    for (size_t at = 0; at < TAPE_K; at++)
        given.messages[r][at] = (uint8_t)random_below(16);
    plain_encode(TAPE_Q, TAPE_U, given.messages[r], TAPE_K, given.rows[0][r], TAPE_N);
    for (size_t at = 0; at < TAPE_N; at++)
        order[at] = (uint8_t)at;
    for (size_t damage = 1; damage <= MOST_DAMAGE; damage++) {
        size_t other = damage - 1 + random_below(TAPE_N - damage + 1);
        uint8_t place = order[other];
        order[other] = order[damage - 1];
        for (size_t at = 0; at < TAPE_N; at++)
            given.rows[damage][r][at] = given.rows[damage - 1][r][at];
        given.rows[damage][r][place] ^= (uint8_t)(1 + random_below(15));
    }
}

static void pack(const uint8_t *symbols, size_t bytes, uint8_t *packed)
{
    for (size_t at = 0; at < bytes; at++)
        packed[at] = (uint8_t)(symbols[2 * at] << 4 | symbols[2 * at + 1]);
}

/* A block whose row r has r mod 4 damaged places: most rows of a tape have few. */
static void make_inputs(void)
{
    size_t length = BLOCK_BYTES - 4;
    uint8_t header[TAPE_HEADER_BYTES] = {0, 0, (uint8_t)(length >> 8), (uint8_t)length, 1, TAPE_U, 0, ROWS};
    for (size_t at = 0; at < TAPE_HEADER_BYTES; at++)
        given.block[at] = header[at];
    for (size_t r = 0; r < ROWS; r++) {
        make_rows(r);
        pack(given.rows[r % 4][r], TAPE_ROW_BYTES, given.block + TAPE_HEADER_BYTES + TAPE_ROW_BYTES * r);
        pack(given.messages[r], TAPE_PAYLOAD_BYTES, given.payload + TAPE_PAYLOAD_BYTES * r);
    }
}

/* One round of a workload: what is timed, and what instructions are counted of. */
__attribute__((noinline)) void measured(size_t workload, const struct side *side);
__attribute__((noinline)) void measured(size_t workload, const struct side *side)
{
    if (workload == VERIFY) {
        lent.results[0] = side->verify(given.block, BLOCK_BYTES, given.payload, sizeof given.payload, lent.records,
                                       sizeof lent.records, lent.work, sizeof lent.work, &lent.at);
        return;
    }
    if (workload == WRITE) {
        lent.results[0] = side->write(given.payload, sizeof given.payload, lent.block, sizeof lent.block);
        return;
    }
    for (size_t r = 0; r < ROWS; r++)
        lent.results[r] =
            workload == ENCODE
                ? side->encode(TAPE_Q, TAPE_U, given.messages[r], TAPE_K, lent.rows[r], TAPE_N)
                : side->decode(TAPE_Q, TAPE_U, given.rows[workload - DECODE][r], TAPE_N, lent.work, sizeof lent.work,
                               lent.messages[r], TAPE_K, lent.rows[r], TAPE_N);
}

static void clear(void)
{
    for (size_t at = 0; at < sizeof lent; at++)
        ((uint8_t *)&lent)[at] = 0;
}

/* Whether this round left what the other side's round left. */
static int same_as_kept(void)
{
    for (size_t at = 0; at < sizeof lent; at++)
        if (((uint8_t *)&lent)[at] != ((uint8_t *)&kept)[at])
            return 0;
    return 1;
}

static int64_t nanoseconds_of(size_t workload, const struct side *side)
{
    struct time from, to;
    clear();
    clock_gettime(2, &from);
    measured(workload, side);
    clock_gettime(2, &to);
    return (to.seconds - from.seconds) * 1000000000 + to.nanoseconds - from.nanoseconds;
}

/* Both sides by turns; the best of many rounds, which disturbances lengthen and nothing shortens. */
static int compare(size_t workload, int64_t best[2])
{
    best[0] = best[1] = INT64_C(1) << 62;
    for (size_t round = 0; round < ROUNDS; round++)
        for (size_t turn = 0; turn < 2; turn++) {
            size_t which = (round + turn) % 2;
            int64_t taken = nanoseconds_of(workload, &sides[which]);
            if (taken < best[which])
                best[which] = taken;
            if (turn == 0)
                kept = lent;
            else if (!same_as_kept())
                return 0;
        }
    return 1;
}

static int compare_all(void)
{
    static const char *const names[DECODE] = {"encode", "verify a block", "write a block"};
    printf("workload (%d rows)   archive rows/s   plain C rows/s   archive / plain C\n", ROWS);
    for (size_t workload = 0; workload < WORKLOADS; workload++) {
        int64_t best[2];
        if (!compare(workload, best)) {
            printf("the two sides differ in workload %d\n", (int)workload);
            return 1;
        }
        double archive = ROWS * 1e9 / (double)best[0], plain = ROWS * 1e9 / (double)best[1];
        if (workload < DECODE)
            printf("%-18s", names[workload]);
        else
            printf("decode, damage %2d ", (int)(workload - DECODE));
        printf(" %15.0f  %15.0f   %16.2f\n", archive, plain, archive / plain);
    }
    return 0;
}

int main(int count, char **words)
{
    make_inputs();
    if (count != 3)
        return compare_all();
    size_t workload = (size_t)atoi(words[1]), side = (size_t)atoi(words[2]);
    if (workload >= WORKLOADS || side > 1)
        return 1;
    measured(workload, &sides[side]);
    return 0;
}
