/*
 * Lets another program call the layer: reads requests on standard input and writes answers on standard output.
 *
 * A request is a number of four bytes, how long its body is, and the body. The body begins with struct request; the bytes
 * that are lent to the call stand in the body too, at the places that the request names. The answer is the whole body after
 * the call, with the call's result in the place of the call's number. So every byte of every lent area comes back, and every
 * other byte of the body is a guard that must come back unchanged. Numbers are little-endian, as x86-64 has them.
 *
 * For the call the areas can stand against pages that nobody may touch, or the whole body on pages that nobody may write to. A
 * call that does so all the same is answered by the result FAULT, and the harness ends.
 */
#include "orbitspinet.h"
#include <signal.h>
#include <sys/mman.h>
#include <unistd.h>

enum {
    ENCODE = 1,  /* areas: message, row */
    STOP = 2,    /* areas: row, work, votes */
    DECODE = 3,  /* areas: row, work, message, corrected */
    VERIFY = 4,  /* areas: block, payload, records, work; the first number is *at */
    WRITE = 5,   /* areas: payload, block */
    PASS_ON = 6  /* areas: received, corrected; the third number is *from */
};

/* Where the areas stand during the call. */
enum {
    IN_THE_BODY = 0,
    READ_ONLY = 1,      /* in the body, of which no byte may be written */
    BEFORE_A_GUARD = 2, /* the byte after the last may not be touched */
    BEHIND_A_GUARD = 3  /* the byte before the first may not be touched */
};

enum {
    AREAS = 4,
    PAGE = 4096,
    LONGEST_BODY = 1 << 18,
    LONGEST_AREA = 1 << 17,
    EDGE = 8 /* bytes of the body beside an area that go with it to its guard */
};

#define FAULT (-INT64_C(0x7fffffffffffffff) - 1)
/* Behind the room of an area come so many bytes more that may not be touched, so that an area can be told as that long. */
#define BEYOND ((size_t)1 << 32)
#define ROOM (PAGE + LONGEST_AREA + BEYOND + PAGE)

struct area {
    uint32_t start;
    uint32_t length;
};

struct request {
    int64_t call; /* in the answer: the result */
    uint64_t numbers[3];
    uint64_t placing;
    uint64_t told[AREAS]; /* the length that the call is told, or 0: as long as the area is */
    struct area areas[AREAS];
};

int main(void);

static union {
    struct request request;
    uint8_t bytes[LONGEST_BODY];
} body __attribute__((aligned(PAGE)));
static size_t body_length;
static uint8_t *rooms;
static uint8_t input[LONGEST_BODY], output[2 * LONGEST_BODY];
static size_t input_used, input_filled, output_filled;

static void copy(uint8_t *to, const uint8_t *from, size_t length)
{
    for (size_t at = 0; at < length; at++)
        to[at] = from[at];
}

/* Whether all answers so far went out. */
static int flush(void)
{
    for (size_t gone = 0; gone < output_filled;) {
        long more = write(1, output + gone, output_filled - gone);
        if (more <= 0)
            return 0;
        gone += (size_t)more;
    }
    output_filled = 0;
    return 1;
}

/* Whether all bytes came; answers go out before more is waited for. */
static int read_all(uint8_t *to, size_t length)
{
    while (length > 0) {
        if (input_used == input_filled) {
            long got = flush() ? read(0, input, sizeof input) : 0;
            if (got <= 0)
                return 0;
            input_used = 0;
            input_filled = (size_t)got;
        }
        size_t part = input_filled - input_used < length ? input_filled - input_used : length;
        copy(to, input + input_used, part);
        input_used += part;
        to += part;
        length -= part;
    }
    return 1;
}

static int answer(int64_t result)
{
    body.request.call = result;
    if (output_filled + body_length > sizeof output && !flush())
        return 0;
    copy(output + output_filled, body.bytes, body_length);
    output_filled += body_length;
    return 1;
}

/* A call touched what it may not: told as an answer. Any other fault ends the harness as it would end any program. */
static void on_fault(int number, siginfo_t *info, void *context)
{
    (void)context;
    size_t in_rooms = (size_t)((uint8_t *)info->si_addr - rooms), in_body = (size_t)((uint8_t *)info->si_addr - body.bytes);
    if (in_rooms < AREAS * ROOM || in_body < sizeof body) {
        mprotect(body.bytes, sizeof body, PROT_READ | PROT_WRITE);
        answer(FAULT);
        flush();
        _exit(0);
    }
    signal(number, SIG_DFL);
}

/* Whether every area stands in the body with its edges, and the call is one of the six. */
static int is_request(size_t length)
{
    if (length < sizeof(struct request) || body.request.call < ENCODE || body.request.call > PASS_ON)
        return 0;
    for (size_t at = 0; at < AREAS; at++) {
        struct area area = body.request.areas[at];
        if (area.start > length || area.length > length - area.start || area.length > LONGEST_AREA - EDGE)
            return 0;
        if (area.start > 0 && (area.start < EDGE || length - area.start - area.length < EDGE))
            return 0;
    }
    return 1;
}

/* The first byte that may be touched in the room of an area. */
static uint8_t *room_of(size_t number)
{
    return rooms + number * ROOM + PAGE;
}

/* The area in its room, against the guard that is asked for. */
static uint8_t *place_in_room(size_t number)
{
    struct area area = body.request.areas[number];
    uint8_t *room = room_of(number);
    return body.request.placing == BEFORE_A_GUARD ? room + LONGEST_AREA - area.length : room;
}

/* Moves an area with the edge that is not a guard into its room, or back. */
static void move_area(size_t number, int back)
{
    struct area area = body.request.areas[number];
    size_t before = body.request.placing == BEFORE_A_GUARD ? EDGE : 0;
    uint8_t *here = body.bytes + area.start - before, *there = place_in_room(number) - before;
    if (area.start == 0)
        return;
    if (back)
        copy(here, there, area.length + EDGE);
    else
        copy(there, here, area.length + EDGE);
}

static int64_t call_layer(uint8_t *const lent[AREAS], const size_t length[AREAS])
{
    struct request *asked = &body.request;
    uint64_t q = asked->numbers[0], u = asked->numbers[1], steps = asked->numbers[2];
    switch (asked->call) {
    case ENCODE:
        return tape_encode(q, u, lent[0], length[0], lent[1], length[1]);
    case STOP:
        return tape_stop(q, u, steps, lent[0], length[0], lent[1], length[1], lent[2], length[2]);
    case DECODE:
        return tape_decode(q, u, lent[0], length[0], lent[1], length[1], lent[2], length[2], lent[3], length[3]);
    case VERIFY:
        return tape_verify(lent[0], length[0], lent[1], length[1], lent[2], length[2], lent[3], length[3],
                           &asked->numbers[0]);
    case WRITE:
        return tape_write(lent[0], length[0], lent[1], length[1]);
    default:
        return tape_pass_on(q, (int64_t)asked->numbers[1], lent[0], length[0], lent[1], length[1], &asked->numbers[2]);
    }
}

/* Puts the areas where they are to stand, calls, and puts them back. */
static int64_t call_placed(void)
{
    int in_rooms = body.request.placing >= BEFORE_A_GUARD, read_only = body.request.placing == READ_ONLY;
    uint8_t *lent[AREAS];
    size_t length[AREAS];
    for (size_t at = 0; at < AREAS; at++) {
        struct area area = body.request.areas[at];
        lent[at] = in_rooms ? place_in_room(at) : body.bytes + area.start;
        length[at] = body.request.told[at] ? body.request.told[at] : area.length;
        if (in_rooms)
            move_area(at, 0);
    }
    if (read_only)
        mprotect(body.bytes, sizeof body, PROT_READ);
    int64_t result = call_layer(lent, length);
    if (read_only)
        mprotect(body.bytes, sizeof body, PROT_READ | PROT_WRITE);
    for (size_t at = 0; in_rooms && at < AREAS; at++)
        move_area(at, 1);
    return result;
}

/* Whether the rooms are there, with nothing to touch between them. */
static int make_rooms(void)
{
    rooms = mmap(NULL, AREAS * ROOM, PROT_NONE, MAP_PRIVATE | MAP_ANONYMOUS | MAP_NORESERVE, -1, 0);
    if (rooms == MAP_FAILED)
        return 0;
    for (size_t at = 0; at < AREAS; at++)
        if (mprotect(room_of(at), LONGEST_AREA, PROT_READ | PROT_WRITE))
            return 0;
    return 1;
}

int main(void)
{
    struct sigaction action = {.sa_sigaction = on_fault, .sa_flags = SA_SIGINFO};
    uint32_t length;
    if (!make_rooms() || sigaction(SIGSEGV, &action, NULL))
        return 1;
    while (read_all((uint8_t *)&length, sizeof length)) {
        if (length > LONGEST_BODY || !read_all(body.bytes, length) || !is_request(length))
            return 1;
        body_length = length;
        if (!answer(call_placed()))
            return 1;
    }
    return flush() ? 0 : 1;
}
