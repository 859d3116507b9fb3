/*
 * The tape layer for C11 and C++17: the functions of the archive libtape.a, their sizes and their refusals.
 *
 * A symbol is a number below q², one a byte; q is 2 or 4. Its bits are a polynomial in a, bit i the coefficient of a^i.
 * Two symbols are added by exclusive or. They are multiplied as such polynomials over bits, and the product is reduced
 * by a² + a + 1 for q = 2 and by a⁴ + a + 1 for q = 4: so 2·2 = 3 for q = 2, and 2·9 = 1 and 8·8 = 12 for q = 4.
 *
 * A code is named by q and u. Its rows have n = q³ symbols, one for each pair (x, y) of symbols with y^q + y = x^(q+1),
 * by x and then by y as numbers. With j = s mod q, a number s is a gap if (q + 1) j > s: so is 1 for q = 2, and so are 1,
 * 2, 3, 6, 7, 11 for q = 4. If not, its monomial is x^i y^j with i = (s - (q + 1) j) / q. u is from q to n - 1 and no
 * gap. A message has a symbol for each s from 0 to u that is no gap, in this order; there are k. With u = aq + b and b
 * below q, the distance d is n - aq if b ≤ a - (q² - q), else n - u; the reach is (d - 1) / 2, rounded down. Tapes have
 * the code q = 4, u = 45.
 *
 * Each area is lent as a pointer and the number of its bytes. It must hold that many bytes, and an area that is written to
 * may share no byte with another area of the call; nor may the 8 bytes of *at or of *from. No pointer may be null, also
 * where the number is 0. Nothing else is asked: every call ends and answers for all numbers and all bytes. What an area
 * that is written to held before does not show in the answer. Nothing is kept from one call to the next, so calls over
 * different areas may run at once.
 *
 * Of what is read the length must be exact, but for the rows of tape_pass_on; of what is written to it may be more than is
 * needed. Each call says how much.
 *
 * Every call answers a number. It is negative exactly where the call is refused: minus one of enum tape_refusal, the first
 * in the order that the call names. A refused call has written nothing, except that TAPE_BEYOND_REACH leaves its part of
 * the work area zero. Bytes of an area beyond those that a call names stay as they were.
 */
#ifndef ORBITSPINET_H
#define ORBITSPINET_H

#include <stddef.h>
#include <stdint.h>

#ifdef __cplusplus
extern "C" {
#endif

enum tape_size {
    /* bytes of the work area: 4q²(q² + 2q - 1) */
    TAPE_WORK_Q2 = 112,
    TAPE_WORK_Q4 = 1472,
    /* steps of the decoder: q³ + q² - q */
    TAPE_STEPS_Q2 = 10,
    TAPE_STEPS_Q4 = 76,
    /* symbols of a row: q³ */
    TAPE_ROW_Q2 = 8,
    TAPE_ROW_Q4 = 64,
    /* the tape code: its numbers q and u, symbols of a row, symbols of a message, reach */
    TAPE_Q = 4,
    TAPE_U = 45,
    TAPE_N = 64,
    TAPE_K = 40,
    TAPE_REACH = 9,
    /* bytes of a block's header, of each of its rows, and of the payload for each row; most rows of a block */
    TAPE_HEADER_BYTES = 8,
    TAPE_ROW_BYTES = 32,
    TAPE_PAYLOAD_BYTES = 20,
    TAPE_MOST_ROWS = 1024,
    /* bytes of the record of a row: first its state, then its count */
    TAPE_RECORD_BYTES = 2
};

enum tape_refusal {
    TAPE_UNKNOWN_Q = 1,      /* q is not 2 or 4 */
    TAPE_NO_CODE = 2,        /* u is a gap, or not from q to n - 1 */
    TAPE_TOO_MANY_STEPS = 3, /* the decoder has not so many steps */
    TAPE_WRONG_LENGTH = 4,   /* row_len is not n, or message_len is not k */
    TAPE_NO_SYMBOL = 5,      /* a byte that should be a symbol is q² or more */
    TAPE_SHORT_WORK = 6,     /* work area too short */
    TAPE_SHORT_OUTPUT = 7,   /* an output too short */
    TAPE_BEYOND_REACH = 8,   /* more places differ than the reach */
    TAPE_BAD_BLOCK = 9,      /* block header or total length not as tape_verify says */
    TAPE_WRONG_PAYLOAD = 10, /* payload not TAPE_PAYLOAD_BYTES for each row; for tape_write, of 1 to TAPE_MOST_ROWS rows */
    TAPE_FEW_RECORDS = 11    /* fewer records than rows */
};

/* What tape_verify answers where it does not refuse. */
enum tape_verdict {
    TAPE_COPIED = 0,
    TAPE_DIFFERS = 1,
    TAPE_UNREADABLE = 2
};

/* The state in the record of a row. */
enum tape_state {
    TAPE_ROW_EQUAL = 0,      /* the row gives its part of the payload */
    TAPE_ROW_OTHER = 1,      /* the row gives another message */
    TAPE_ROW_UNREADABLE = 2  /* more places differ than the reach; the count is then 0 */
};

/* The row that tape_pass_on tells. */
enum tape_passed {
    TAPE_PASS_RECEIVED = 0,
    TAPE_PASS_CORRECTED = 1
};

/*
 * Writes the row of a message: at each (x, y) the sum over the message's symbols of the symbol times its monomial there.
 * message_len is exactly k, row_len at least n.
 * Answers 0. Refuses with 1, 2, 4, 5, 7, checked in this order.
 */
int64_t tape_encode(uint64_t q, uint64_t u, const uint8_t *message, size_t message_len, uint8_t *row, size_t row_len);

/*
 * Takes that many steps of the decoder on a row. The work area then begins with the decoder's 2q polynomials after these
 * steps: g_0 to g_(q-1), then f_0 to f_(q-1). A polynomial is 2q rows, first those of its upper part (which z multiplies)
 * by power of y, then those of its lower part alike; a row is q² + 2q - 1 coefficients, that of x^0 first. The first k
 * bytes of votes are the votes, in a message's order, 0 for those to come.
 * row_len is exactly n, work_len at least TAPE_WORK_Q2 or TAPE_WORK_Q4, votes_len at least k.
 * Answers 0. Refuses with 1, 2, 3, 4, 5, 6, 7, checked in this order.
 */
int64_t tape_stop(uint64_t q, uint64_t u, uint64_t steps, const uint8_t *row, size_t row_len, uint8_t *work,
                  size_t work_len, uint8_t *votes, size_t votes_len);

/*
 * Takes all steps on a row and compares the row of the votes with it. If at most the reach's places differ, writes the
 * votes (k symbols) to message and their row (n symbols) to corrected, and answers how many differ; an undamaged row thus
 * gives its message and 0. Its part of the work area, TAPE_WORK_Q2 or TAPE_WORK_Q4 bytes, ends zero.
 * Whichever message's row differs from row in at most the reach's places is the one that is written, with that number; there
 * is never a second such message, and where 8 is given there is none. A row damaged beyond reach of the message that was sent
 * may be within reach of another, which is then written.
 * row_len is exactly n; work_len is at least that part, message_len at least k, corrected_len at least n.
 * Refuses with 1, 2, 4, 5, 6, 7, 8, checked in this order; 8 where more places differ.
 */
int64_t tape_decode(uint64_t q, uint64_t u, const uint8_t *row, size_t row_len, uint8_t *work, size_t work_len,
                    uint8_t *message, size_t message_len, uint8_t *corrected, size_t corrected_len);

/*
 * Tells which row goes on from here after a decoding, and how much of it. decoded is what tape_decode answered, and is taken
 * as said: a count means the corrected row, a negative number the received one, and *from becomes TAPE_PASS_CORRECTED or
 * TAPE_PASS_RECEIVED. What goes on are the first symbols of that area, where they stand; nothing is copied.
 * Answers how many they are: n, or 0 where q is not 2 or 4 or that area is shorter than n. Refuses nothing. Each area may
 * have any length; the 8 bytes of *from are in neither.
 */
int64_t tape_pass_on(uint64_t q, int64_t decoded, const uint8_t *received, size_t received_len, const uint8_t *corrected,
                     size_t corrected_len, uint64_t *from);

/*
 * Writes the block of a payload: the header, then for each TAPE_PAYLOAD_BYTES of the payload the packed row of their message.
 * What tape_verify says of a block holds of it, and as long as no byte of it changes, tape_verify of it against the same
 * payload answers TAPE_COPIED with 0 in *at, and each record is TAPE_ROW_EQUAL and 0.
 * payload_len is exactly R times TAPE_PAYLOAD_BYTES, for an R from 1 to TAPE_MOST_ROWS; block_len is at least the block's.
 * Answers how many bytes the block has: TAPE_HEADER_BYTES, and TAPE_ROW_BYTES for each row.
 * Refuses with 10 (no such R), then 7 (the area is shorter than the block).
 */
int64_t tape_write(const uint8_t *payload, size_t payload_len, uint8_t *block, size_t block_len);

/*
 * Decodes each row of a block and compares its message with the row's part of the payload. A block begins with, in bytes 0
 * to 3, how many bytes are behind these four; byte 4 is the version, 1; byte 5 is u, 45; bytes 6 and 7 are R, the number of
 * rows, from 1 to 1,024. Row r is the 32 bytes from byte 8 + 32r on, and nothing is behind the last. Numbers are big-endian.
 * The message of row r is the payload's 20 bytes from 20r on. Of a byte's two symbols the high four bits are the first.
 * block_len is exactly 8 + 32R, payload_len exactly 20R, records_len at least 2R, work_len at least TAPE_WORK_Q4.
 * Writes a record of TAPE_RECORD_BYTES for every row, wherever the answer is no refusal: its state, one of enum tape_state,
 * then how many of its places differ. The first TAPE_WORK_Q4 bytes of the work area end zero.
 * Answers TAPE_COPIED where every row is equal, with the sum of the counts in *at. Else answers for the first row that is
 * not, whose number (from 0) is in *at: TAPE_DIFFERS or TAPE_UNREADABLE by its state. So the answer is TAPE_COPIED exactly if
 * no row differs in more than TAPE_REACH places from the row that tape_encode makes of its message in the payload, and *at is
 * then how many places differ in all rows together.
 * Refuses with 9, 10, 11, 6, checked in this order; nothing is then stored to *at. records_len is in bytes.
 */
int64_t tape_verify(const uint8_t *block, size_t block_len, const uint8_t *payload, size_t payload_len,
                    uint8_t *records, size_t records_len, uint8_t *work, size_t work_len, uint64_t *at);

#ifdef __cplusplus
}
#endif

#endif
