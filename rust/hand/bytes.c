/*
 * The cover by hand over bytes: a row sweep, the two greatest right lines of each left line kept, marks by counts. What a
 * programmer would write who looks at a square at a time; the benchmark's second yardstick beside quick.c's words. It has
 * the checks, refusals and bytes in the rooms of keekaboor_cover, as rust/tests/hand.rs compares; nothing of it is proved.
 */
#include "hand.h"

#include <string.h>

enum { SIDE = KEEKABOOR_LIMIT, LINES = SIDE + 1 };

/* How often each interval is there, by its left and right line: 0 or 1 in a set, more in a bag. */
typedef uint8_t table[LINES][LINES];

struct area {
    int width, height;
    const uint8_t *raster;
    uint8_t bottom[SIDE], end[SIDE]; /* a column's copper is in the rows from bottom up to end; none where end is 0 */
};

static struct keekaboor_outcome refused(uint64_t answer, uint64_t x, uint64_t y) {
    return (struct keekaboor_outcome){.answer = answer, .place_x = x, .place_y = y};
}

static struct keekaboor_outcome bad_byte(const struct area *a) {
    int at = 0;
    while (a->raster[at] <= 1)
        at++;
    return refused(KEEKABOOR_RASTER_BYTE, (uint64_t)(at % a->width), (uint64_t)(at / a->width));
}

/* The first column that goes on above a gap, and the gap's lowest row. */
static struct keekaboor_outcome broken_column(const struct area *a) {
    for (int c = 0;; c++) {
        int gap = -1;
        for (int y = 0, seen = 0; y < a->height; y++) {
            const int copper = a->raster[y * a->width + c];
            if (copper && gap >= 0)
                return refused(KEEKABOOR_BROKEN_COLUMN, (uint64_t)c, (uint64_t)gap);
            if (!copper && seen && gap < 0)
                gap = y;
            seen |= copper;
        }
    }
}

/*
 * One pass over the raster: what its bytes are, where each column's copper begins and ends, the starting set and the
 * lowest row that shows each of its intervals. How many intervals; or -1 for a byte above 1, -2 for a broken column.
 */
static int start(struct area *a, table set, table row) {
    const int width = a->width;
    const uint8_t *at = a->raster;
    uint8_t above = 0;
    int count = 0, broken = 0;
    for (int y = 0; y < a->height; y++, at += width)
        for (int c = 0; c < width; c++) {
            above |= at[c];
            if (!at[c])
                continue;
            const int left = c;
            for (; c < width && at[c]; c++) {
                above |= at[c];
                if (a->end[c] == 0)
                    a->bottom[c] = (uint8_t)y;
                else
                    broken |= a->end[c] != y;
                a->end[c] = (uint8_t)(y + 1);
            }
            if (!set[left][c]) {
                set[left][c] = 1;
                row[left][c] = (uint8_t)y;
                count++;
            }
        }
    return above > 1 ? -1 : broken ? -2 : count;
}

/* For each left line the two greatest right lines of its intervals up to the line that is gone through; 0 for none. */
struct tops {
    uint8_t first[LINES], second[LINES];
};

static void keep(struct tops *t, const table set, int left, int last) {
    int r = last;
    while (r > left && !set[left][r])
        r--;
    t->first[left] = (uint8_t)(r > left ? r : 0);
    if (r > left)
        r--;
    while (r > left && !set[left][r])
        r--;
    t->second[left] = (uint8_t)(r > left ? r : 0);
}

/* The greatest left line of a dependent bracket that ends at a line, or -1. */
static int dependent(const struct tops *t, int last) {
    int twice = last, once = last;
    for (int left = last - 1; left >= 0; left--) {
        if (t->first[left] >= twice) {
            if (t->second[left] >= once)
                return left;
            twice = once;
            once = left;
        } else if (t->first[left] >= once)
            once = left;
    }
    return -1;
}

/* Rule 4 in one pass: each interval that reaches further than those before it gives way to its meet with the last such. */
static void reduce(table set, struct tops *t, int left, int last) {
    int reach = t->first[left];
    set[left][reach] = 0;
    keep(t, (const uint8_t(*)[LINES])set, left, last);
    for (int l = left + 1; reach != last; l++) {
        const int top = t->first[l];
        if (top <= reach)
            continue;
        set[l][top] = 0;
        if (l < reach)
            set[l][reach] = 1;
        keep(t, (const uint8_t(*)[LINES])set, l, last);
        reach = top;
    }
}

/* Rule 5. How many brackets were reduced. */
static int finish(table set, table bag, int width) {
    struct tops t = {{0}, {0}};
    int count = 0;
    for (int last = 1; last <= width; last++) {
        for (int l = 0; l < last; l++)
            if (set[l][last]) {
                t.second[l] = t.first[l];
                t.first[l] = (uint8_t)last;
            }
        for (int left; (left = dependent(&t, last)) >= 0; count++) {
            reduce(set, &t, left, last);
            bag[left][last]++;
        }
    }
    return count;
}

/*
 * Marks by counts: the leftmost column that one more interval holds than brackets; both lose what holds it. `turn` has by
 * how much the count changes at a line, `reach` a right line that nothing from a left line goes beyond any more.
 */
static void mark(table set, table bag, const table final, int count, int width, const table shown, uint8_t row[SIDE]) {
    int turn[LINES] = {0}, held[LINES];
    uint8_t reach[SIDE];
    for (int l = 0; l < width; l++)
        for (int r = l + 1; r <= width; r++)
            if (final[l][r]) {
                turn[l]++;
                turn[r]--;
            }
    memset(reach, width, (size_t)width);
    held[0] = 0; /* held[c + 1] is the count of column c */
    for (int c = 0; count > 0; count--) {
        while ((held[c + 1] = held[c] + turn[c]) != 1)
            c++;
        int back = c, found = 0;
        for (int l = 0; l <= c; l++) {
            for (int r = c + 1; r <= reach[l]; r++) {
                const int change = bag[l][r] - set[l][r];
                if (set[l][r] && !found) {
                    row[c] = (uint8_t)(shown[l][r] + 1);
                    found = 1;
                }
                turn[l] += change;
                turn[r] -= change;
                if (change && l < back)
                    back = l;
                set[l][r] = bag[l][r] = 0;
            }
            if (reach[l] > c)
                reach[l] = (uint8_t)c;
        }
        c = back;
    }
}

static uint64_t put_marks(const uint8_t row[SIDE], int width, uint64_t most, uint8_t *room) {
    uint64_t count = 0;
    for (int c = 0; c < width && count < most; c++)
        if (row[c]) {
            room[2 * count] = (uint8_t)c;
            room[2 * count + 1] = (uint8_t)(row[c] - 1);
            count++;
        }
    return count;
}

static uint64_t copper_number(const struct area *a) {
    uint64_t count = 0;
    for (int c = 0; c < a->width; c++)
        count += a->end[c] ? (uint64_t)(a->end[c] - a->bottom[c]) : 0;
    return count;
}

/* Rules 6 and 7. Gives the flashed area: the sum of the flashes' areas. */
static uint64_t put_flashes(const struct area *a, const table final, uint8_t *room) {
    uint64_t flashed = 0;
    for (int l = 0; l < a->width; l++) {
        int bottom = 0, end = SIDE;
        for (int r = l + 1; r <= a->width && a->end[r - 1]; r++) {
            bottom = a->bottom[r - 1] > bottom ? a->bottom[r - 1] : bottom;
            end = a->end[r - 1] < end ? a->end[r - 1] : end;
            if (!final[l][r])
                continue;
            const uint8_t record[4] = {(uint8_t)l, (uint8_t)(r - 1), (uint8_t)bottom, (uint8_t)(end - 1)};
            memcpy(room, record, sizeof record);
            room += sizeof record;
            flashed += (uint64_t)((r - l) * (end - bottom));
        }
    }
    return flashed;
}

struct keekaboor_outcome bytes_cover(uint64_t width, uint64_t height, uint64_t allowance,
                                     const uint8_t *raster, size_t raster_len,
                                     uint8_t *flash_room, size_t flash_len,
                                     uint8_t *mark_room, size_t mark_len) {
    if (width - 1 >= SIDE || height - 1 >= SIDE)
        return refused(KEEKABOOR_SIZE, 0, 0);
    if (raster_len != width * height)
        return refused(KEEKABOOR_RASTER_LENGTH, 0, 0);
    if (flash_len < KEEKABOOR_FLASH_ROOM)
        return refused(KEEKABOOR_FLASH_ROOM_SHORT, 0, 0);
    if (mark_len < KEEKABOOR_MARK_ROOM)
        return refused(KEEKABOOR_MARK_ROOM_SHORT, 0, 0);
    if (allowance > SIDE)
        return refused(KEEKABOOR_ALLOWANCE, 0, 0);
    struct area a = {.width = (int)width, .height = (int)height, .raster = raster};
    table set, shown, final, bag;
    const size_t used = width * sizeof *set;
    memset(set, 0, used);
    memset(bag, 0, used);
    const int slices = start(&a, set, shown);
    if (slices < 0)
        return slices == -1 ? bad_byte(&a) : broken_column(&a);
    memcpy(final, set, used);
    const int count = slices - finish(final, bag, a.width);
    uint8_t row[SIDE] = {0};
    mark(set, bag, (const uint8_t(*)[LINES])final, count, a.width, (const uint8_t(*)[LINES])shown, row);
    struct keekaboor_outcome o = {.answer = KEEKABOOR_DONE};
    if ((uint64_t)count > allowance) {
        o.answer = KEEKABOOR_ALLOWANCE_SHORT;
        o.marks = put_marks(row, a.width, allowance + 1, mark_room);
        return o;
    }
    o.flashes = (uint64_t)count;
    o.marks = put_marks(row, a.width, SIDE, mark_room);
    o.copper = copper_number(&a);
    o.flashed = put_flashes(&a, (const uint8_t(*)[LINES])final, flash_room);
    return o;
}
