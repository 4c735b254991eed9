/*
 * The far side of the boundary, for tests on a machine that is not x86-64: answers calls that
 * src/ffi.rs sends over standard input, with the exported functions and those written by hand linked in.
 *
 * A request is fourteen numbers (function, times, seven arguments, the size of each of four buffers, and
 * how many guard bytes each has at either end), then the four buffers' bytes. The answer is the
 * outcome's eight numbers, the nanoseconds of the processor that the calls took, and the four buffers as they are now.
 */
#define _POSIX_C_SOURCE 200809L
#include "../hand/hand.h"

#include <stdlib.h>
#include <string.h>
#include <time.h>
#include <unistd.h>

enum { READ_JOB, WRITE_JOB, CHECK, WRITE_GERBER, READ_GERBER, FINAL_SETS, PLAIN_FINAL_SETS, COVERS };

/* How many fields the longest outcome has, and how many numbers and buffers the call with the most of them takes. */
enum { NUMBERS = 8, ARGUMENTS = 7, BUFFERS = 4 };

/* The covers, whose numbers follow. */
static struct keekaboor_outcome (*const covers[])(uint64_t, uint64_t, uint64_t, const uint8_t *, size_t, uint8_t *, size_t,
                                                  uint8_t *, size_t) = {keekaboor_cover, keekaboor_cover_plain,
                                                                     quick_cover, bytes_cover, plain_cover};

/* The crate timed, for the benchmark alone. */
uint64_t timed_final_sets(uint64_t width, uint64_t height, const uint8_t *raster, size_t raster_len, uint64_t plain, uint64_t more);

struct request {
    uint64_t function, times, number[ARGUMENTS], size[BUFFERS], guard;
};

static int get(void *to, size_t size) {
    uint8_t *at = to;
    while (size > 0) {
        ssize_t n = read(0, at, size);
        if (n <= 0)
            return 0;
        at += n;
        size -= (size_t)n;
    }
    return 1;
}

static int put(const void *from, size_t size) {
    const uint8_t *at = from;
    while (size > 0) {
        ssize_t n = write(1, at, size);
        if (n <= 0)
            return 0;
        at += n;
        size -= (size_t)n;
    }
    return 1;
}

static uint64_t now(void) {
    struct timespec t;
    clock_gettime(CLOCK_PROCESS_CPUTIME_ID, &t);
    return (uint64_t)t.tv_sec * 1000000000u + (uint64_t)t.tv_nsec;
}

static void call(const struct request *r, uint8_t *const buffer[BUFFERS], uint64_t outcome[NUMBERS]) {
    const uint64_t *n = r->number, *size = r->size;
    switch (r->function) {
    case READ_JOB: {
        struct keekaboor_read_outcome o = keekaboor_read_job(buffer[0], size[0], buffer[1], size[1]);
        uint64_t all[NUMBERS] = {o.answer, o.place_x, o.place_y, o.width, o.height, o.allowance};
        memcpy(outcome, all, sizeof all);
        break;
    }
    case WRITE_JOB: {
        struct keekaboor_write_outcome o =
            keekaboor_write_job(n[0], n[1], n[2], buffer[0], size[0], buffer[1], size[1]);
        uint64_t all[NUMBERS] = {o.answer, o.place_x, o.place_y, o.length};
        memcpy(outcome, all, sizeof all);
        break;
    }
    case CHECK: {
        struct keekaboor_check_outcome o =
            keekaboor_check(n[0], n[1], n[2], buffer[0], size[0], buffer[1], size[1], buffer[2], size[2]);
        uint64_t all[NUMBERS] = {o.answer, o.place_x, o.place_y, o.verdict, o.flashes, o.above, o.marks};
        memcpy(outcome, all, sizeof all);
        break;
    }
    case WRITE_GERBER: {
        struct keekaboor_gerber_outcome o =
            keekaboor_write_gerber(n[0], n[1], n[2], buffer[0], size[0], buffer[1], size[1], buffer[2], size[2], n[3],
                                   n[4], (int64_t)n[5], (int64_t)n[6], buffer[3], size[3]);
        uint64_t all[NUMBERS] = {o.answer, o.place_x, o.place_y, o.flashes, o.marks, o.copper, o.flashed, o.length};
        memcpy(outcome, all, sizeof all);
        break;
    }
    case READ_GERBER: {
        struct keekaboor_gerber_read_outcome o = keekaboor_read_gerber(buffer[0], size[0], n[3], n[4],
                                                                       (int64_t)n[5], (int64_t)n[6], buffer[1], size[1]);
        uint64_t all[NUMBERS] = {o.answer, o.place_x, o.place_y, o.flashes};
        memcpy(outcome, all, sizeof all);
        break;
    }
    case FINAL_SETS:
    case PLAIN_FINAL_SETS:
        outcome[0] = timed_final_sets(n[0], n[1], buffer[0], size[0], r->function == PLAIN_FINAL_SETS, n[2]);
        break;
    default: {
        if (r->function - COVERS >= sizeof covers / sizeof *covers)
            exit(2);
        struct keekaboor_outcome o = covers[r->function - COVERS](n[0], n[1], n[2], buffer[0], size[0], buffer[1],
                                                                  size[1], buffer[2], size[2]);
        uint64_t all[NUMBERS] = {o.answer, o.place_x, o.place_y, o.flashes, o.marks, o.copper, o.flashed};
        memcpy(outcome, all, sizeof all);
    }
    }
}

/* The answer's numbers stand before the buffers, so that both go out at once. */
int main(void) {
    struct request r;
    while (get(&r, sizeof r)) {
        uint64_t reply[NUMBERS + 1] = {0};
        size_t total = sizeof reply;
        for (int i = 0; i < BUFFERS; i++)
            total += r.size[i] + 2 * r.guard;
        uint8_t *message = malloc(total);
        if (message == NULL || !get(message + sizeof reply, total - sizeof reply))
            return 1;
        uint8_t *buffer[BUFFERS], *at = message + sizeof reply;
        for (int i = 0; i < BUFFERS; i++) {
            buffer[i] = at + r.guard;
            at += r.size[i] + 2 * r.guard;
        }
        uint64_t start = now();
        for (uint64_t i = 0; i < r.times; i++)
            call(&r, buffer, reply);
        reply[NUMBERS] = now() - start;
        memcpy(message, reply, sizeof reply);
        if (!put(message, total))
            return 1;
        free(message);
    }
    return 0;
}
