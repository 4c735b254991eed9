/*
 * Document 01's rules in C, over sorted lists of intervals, as rust/src/rules.rs has them in Rust: the benchmark's plain
 * method where the proved code runs under an emulator and Rust cannot be had for it. rust/tests/hand.rs compares.
 */
#include "hand.h"

#include <string.h>

enum { SIDE = KEEKABOOR_LIMIT, MOST = SIDE * (SIDE + 1) / 2 };

/* From a left line to a right line. */
struct interval {
    int left, right;
};

/* Sorted by left line, then by right line; each once. */
struct set {
    int count;
    struct interval at[MOST];
};

struct area {
    int width, height;
    const uint8_t *raster;
};

static int copper(const struct area *a, int column, int row) { return a->raster[row * a->width + column] == 1; }

static int holds(struct interval i, int column) { return i.left <= column && column < i.right; }
static int contains(struct interval i, struct interval j) { return i.left <= j.left && j.right <= i.right; }
static int same(struct interval i, struct interval j) { return i.left == j.left && i.right == j.right; }
static int precedes(struct interval i, struct interval j) {
    return i.left < j.left || (i.left == j.left && i.right < j.right);
}

static void add(struct set *s, struct interval i) {
    int k = s->count;
    while (k > 0 && precedes(i, s->at[k - 1]))
        k--;
    if (k > 0 && same(s->at[k - 1], i))
        return;
    memmove(s->at + k + 1, s->at + k, (size_t)(s->count - k) * sizeof i);
    s->at[k] = i;
    s->count++;
}

/* The next slice of a row from a column on; its left line is the width where there is none. */
static struct interval slice(const struct area *a, int row, int column) {
    struct interval i = {column, column};
    while (i.left < a->width && !copper(a, i.left, row))
        i.left++;
    for (i.right = i.left; i.right < a->width && copper(a, i.right, row);)
        i.right++;
    return i;
}

static int shows(const struct area *a, int row, struct interval of) {
    for (struct interval i = slice(a, row, 0); i.left < a->width; i = slice(a, row, i.right))
        if (same(i, of))
            return 1;
    return 0;
}

static void start(const struct area *a, struct set *s) {
    s->count = 0;
    for (int row = 0; row < a->height; row++)
        for (struct interval i = slice(a, row, 0); i.left < a->width; i = slice(a, row, i.right))
            add(s, i);
}

static int dependent(const struct set *s, struct interval bracket) {
    for (int column = bracket.left; column < bracket.right; column++) {
        int count = 0;
        for (int k = 0; k < s->count && count < 2; k++)
            count += contains(bracket, s->at[k]) && holds(s->at[k], column);
        if (count < 2)
            return 0;
    }
    return 1;
}

static int search(const struct set *s, int width, struct interval *found) {
    for (int right = 1; right <= width; right++)
        for (int left = right - 1; left >= 0; left--) {
            *found = (struct interval){left, right};
            if (dependent(s, *found))
                return 1;
        }
    return 0;
}

static int outermost(const struct set *s, struct interval bracket, struct interval i) {
    for (int k = 0; k < s->count; k++)
        if (contains(bracket, s->at[k]) && contains(s->at[k], i) && !same(s->at[k], i))
            return 0;
    return contains(bracket, i);
}

static void reduce(struct set *s, struct interval bracket) {
    static _Thread_local struct set kept, dropped;
    kept.count = dropped.count = 0;
    for (int k = 0; k < s->count; k++) {
        struct set *to = outermost(s, bracket, s->at[k]) ? &dropped : &kept;
        to->at[to->count++] = s->at[k];
    }
    for (int k = 0; k + 1 < dropped.count; k++)
        add(&kept, (struct interval){dropped.at[k + 1].left, dropped.at[k].right});
    s->count = kept.count;
    memcpy(s->at, kept.at, (size_t)kept.count * sizeof *s->at);
}

static void finish(struct set *s, int width) {
    for (struct interval bracket; search(s, width, &bracket);)
        reduce(s, bracket);
}

/* The marks' rule: the lowest row that shows the interval. */
static int mark_row(const struct area *a, struct interval of) {
    int row = 0;
    while (!shows(a, row, of))
        row++;
    return row;
}

/* The row of each column's mark, or -1. */
static void mark(const struct area *a, const struct set *from, int row[SIDE]) {
    static _Thread_local struct set left, final;
    memset(row, -1, SIDE * sizeof *row);
    for (left = *from; left.count > 0;) {
        final = left;
        finish(&final, a->width);
        int column = 0;
        for (int count = 0; count != 1; column++) {
            count = 0;
            for (int k = 0; k < final.count; k++)
                count += holds(final.at[k], column);
        }
        column--;
        int kept = 0, first = 1;
        for (int k = 0; k < left.count; k++) {
            if (!holds(left.at[k], column)) {
                left.at[kept++] = left.at[k];
            } else if (first) {
                row[column] = mark_row(a, left.at[k]);
                first = 0;
            }
        }
        left.count = kept;
    }
}

static int full(const struct area *a, struct interval of, int row) {
    for (int column = of.left; column < of.right; column++)
        if (!copper(a, column, row))
            return 0;
    return 1;
}

static uint64_t copper_number(const struct area *a) {
    uint64_t count = 0;
    for (int row = 0; row < a->height; row++)
        for (int column = 0; column < a->width; column++)
            count += (uint64_t)copper(a, column, row);
    return count;
}

/* Gives the flashed area: the sum of the flashes' areas. */
static uint64_t put_flashes(const struct area *a, const struct set *final, uint8_t *room) {
    uint64_t flashed = 0;
    for (int k = 0; k < final->count; k++) {
        struct interval of = final->at[k];
        int bottom = 0, top = a->height - 1;
        while (!full(a, of, bottom))
            bottom++;
        while (!full(a, of, top))
            top--;
        room[4 * k] = (uint8_t)of.left, room[4 * k + 1] = (uint8_t)(of.right - 1);
        room[4 * k + 2] = (uint8_t)bottom, room[4 * k + 3] = (uint8_t)top;
        flashed += (uint64_t)((of.right - of.left) * (top - bottom + 1));
    }
    return flashed;
}

static uint64_t put_marks(const int row[SIDE], uint64_t most, uint8_t *room) {
    uint64_t count = 0;
    for (int column = 0; column < SIDE && count < most; column++)
        if (row[column] >= 0) {
            room[2 * count] = (uint8_t)column;
            room[2 * count + 1] = (uint8_t)row[column];
            count++;
        }
    return count;
}

static struct keekaboor_outcome outcome(uint64_t answer, int x, int y) {
    return (struct keekaboor_outcome){.answer = answer, .place_x = (uint64_t)x, .place_y = (uint64_t)y};
}

/* The refusals 7 and 8, or 0. */
static struct keekaboor_outcome raster_checked(const struct area *a) {
    for (int at = 0; at < a->width * a->height; at++)
        if (a->raster[at] > 1)
            return outcome(KEEKABOOR_RASTER_BYTE, at % a->width, at / a->width);
    for (int column = 0; column < a->width; column++) {
        int below = -1;
        for (int row = 0; row < a->height; row++) {
            if (!copper(a, column, row))
                continue;
            if (below >= 0 && below != row - 1)
                return outcome(KEEKABOOR_BROKEN_COLUMN, column, below + 1);
            below = row;
        }
    }
    return outcome(KEEKABOOR_DONE, 0, 0);
}

struct keekaboor_outcome plain_cover(uint64_t width, uint64_t height, uint64_t allowance,
                                     const uint8_t *raster, size_t raster_len,
                                     uint8_t *flash_room, size_t flash_len,
                                     uint8_t *mark_room, size_t mark_len) {
    if (width < 1 || width > SIDE || height < 1 || height > SIDE)
        return outcome(KEEKABOOR_SIZE, 0, 0);
    if (raster_len != width * height)
        return outcome(KEEKABOOR_RASTER_LENGTH, 0, 0);
    if (flash_len < KEEKABOOR_FLASH_ROOM)
        return outcome(KEEKABOOR_FLASH_ROOM_SHORT, 0, 0);
    if (mark_len < KEEKABOOR_MARK_ROOM)
        return outcome(KEEKABOOR_MARK_ROOM_SHORT, 0, 0);
    if (allowance > SIDE)
        return outcome(KEEKABOOR_ALLOWANCE, 0, 0);
    const struct area a = {(int)width, (int)height, raster};
    struct keekaboor_outcome o = raster_checked(&a);
    if (o.answer != KEEKABOOR_DONE)
        return o;
    static _Thread_local struct set slices, final;
    start(&a, &slices);
    final = slices;
    finish(&final, a.width);
    int row[SIDE];
    mark(&a, &slices, row);
    if ((uint64_t)final.count > allowance) {
        o.answer = KEEKABOOR_ALLOWANCE_SHORT;
        o.marks = put_marks(row, allowance + 1, mark_room);
        return o;
    }
    o.flashes = (uint64_t)final.count;
    o.marks = put_marks(row, SIDE, mark_room);
    o.copper = copper_number(&a);
    o.flashed = put_flashes(&a, &final, flash_room);
    return o;
}
