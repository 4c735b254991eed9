/*
 * The cover as quick as it could be written by hand, whatever the method: the benchmark's yardstick. It has the checks,
 * refusals and bytes in the rooms of keekaboor_cover, as rust/tests/hand.rs compares; nothing of it is proved.
 *
 * An interval is named by its first and last column, so that 64 bits hold a row of squares, and also the last columns of
 * all intervals that begin in one column. Each pass then looks at words, and takes from them only what has changed.
 */
#include "hand.h"

#include <string.h>

enum { SIDE = KEEKABOOR_LIMIT };

typedef uint64_t word;

static inline int lowest(word w) { return __builtin_ctzll(w); }
static inline int highest(word w) { return 63 - __builtin_clzll(w); }
static inline word bit(int at) { return (word)1 << at; }
static inline word up_to(int at) { return ~(word)0 >> (63 - at); }
static inline word from(int at) { return ~(word)0 << at; }

/* An area: a word for each row; the columns with copper, and the bottom and top row of each one's. */
struct area {
    int width, height;
    word row[SIDE], columns;
    uint8_t bottom[SIDE], top[SIDE];
};

/* For each first column the last columns of its intervals, and for each last column the first columns. */
struct set {
    word last[SIDE], first[SIDE];
};

static struct keekaboor_outcome refused(uint64_t answer, uint64_t x, uint64_t y) {
    return (struct keekaboor_outcome){.answer = answer, .place_x = x, .place_y = y};
}

typedef uint8_t bytes16 __attribute__((vector_size(16)));
typedef uint16_t lanes8 __attribute__((vector_size(16)));
typedef char chars16 __attribute__((vector_size(16)));

/* The lowest bits of sixteen bytes. */
static inline word low_bits(bytes16 b) { return (word)(unsigned)__builtin_ia32_pmovmskb128((chars16)((lanes8)b << 7)); }

/* Packs the raster's bytes into words, sixteen at a time, then eight. Whether each is 0 or 1. */
static int pack(struct area *a, const uint8_t *raster, size_t length) {
    const size_t width = (size_t)a->width;
    const uint8_t *at = raster;
    bytes16 seen = {0};
    word bits = 0;
    for (int y = 0; y < a->height; y++, at += width) {
        word row = 0;
        size_t c = 0;
        for (; c + 16 <= width; c += 16) {
            bytes16 sixteen;
            memcpy(&sixteen, at + c, 16);
            seen |= sixteen;
            row |= low_bits(sixteen) << c;
        }
        for (; c < width; c += 8) {
            const size_t left = length - (size_t)(at - raster) - c;
            word eight = 0;
            if (left >= 8)
                memcpy(&eight, at + c, 8);
            else
                memcpy(&eight, at + c, left);
            if (c + 8 > width)
                eight &= up_to((int)(8 * (width - c)) - 1);
            bits |= eight;
            /* byte i's lowest bit comes to bit 56 + i */
            row |= eight * 0x0102040810204080 >> 56 << c;
        }
        a->row[y] = row;
    }
    word halves[2];
    memcpy(halves, &seen, sizeof halves);
    return ((bits | halves[0] | halves[1]) & 0xfefefefefefefefe) == 0;
}

static struct keekaboor_outcome bad_byte(const uint8_t *raster, uint64_t width) {
    uint64_t at = 0;
    while (raster[at] <= 1)
        at++;
    return refused(KEEKABOOR_RASTER_BYTE, at % width, at / width);
}

static struct keekaboor_outcome broken_column(const struct area *a) {
    for (int c = 0;; c++) {
        int y = 0;
        while (y < a->height && !(a->row[y] >> c & 1))
            y++;
        while (y < a->height && (a->row[y] >> c & 1))
            y++;
        for (int above = y; above < a->height; above++)
            if (a->row[above] >> c & 1)
                return refused(KEEKABOOR_BROKEN_COLUMN, (uint64_t)c, (uint64_t)y);
    }
}

/*
 * The starting set, the mark's row of each of its intervals (the lowest that shows it: rows are gone through upward), and
 * where each column's copper begins and ends. Only runs beside a square that has changed since the row before are new. How
 * many intervals, or -1 where a column is broken.
 */
static int start(struct area *a, struct set *s, uint8_t shown[SIDE][SIDE]) {
    word before = 0, seen = 0;
    int count = 0;
    for (int y = 0; y < a->height; y++) {
        const word now = a->row[y], change = now ^ before;
        if (change == 0)
            continue;
        if (now & seen & ~before)
            return -1;
        for (word w = now & ~before; w; w &= w - 1)
            a->bottom[lowest(w)] = (uint8_t)y;
        for (word w = before & ~now; w; w &= w - 1)
            a->top[lowest(w)] = (uint8_t)(y - 1);
        for (word touched = (change | change << 1 | change >> 1) & now; touched;) {
            const int c = lowest(touched);
            const word below = ~now & (bit(c) - 1), above = ~now & from(c);
            const int first = below ? highest(below) + 1 : 0, last = above ? lowest(above) - 1 : 63;
            touched &= ~up_to(last);
            if (!(s->last[first] & bit(last))) {
                s->last[first] |= bit(last);
                s->first[last] |= bit(first);
                shown[first][last] = (uint8_t)y;
                count++;
            }
        }
        seen |= now;
        before = now;
    }
    for (word w = before; w; w &= w - 1)
        a->top[lowest(w)] = (uint8_t)(a->height - 1);
    a->columns = seen;
    return count;
}

/*
 * The greatest first column of a dependent bracket whose last column is d, or -1. `twice` has the last columns that reach
 * what is held twice up to d by intervals that begin further right, `once` those that reach what is held once.
 */
static inline int dependent(const struct set *s, int d) {
    const word inside = up_to(d), ending = s->first[d];
    if (!(ending & (ending - 1)))
        return -1;
    word twice = bit(d), once = bit(d);
    for (int first = highest(ending); first >= 0; first--) {
        const word reach = s->last[first] & once;
        if (!reach)
            continue;
        if (reach & twice) {
            if (reach & (reach - 1))
                return first;
            twice = once;
        }
        once = inside & ~((bit(first) >> 1) - 1);
    }
    return -1;
}

/* Rule 4 in one pass: each interval that reaches further than those before it gives way to its meet with the last such. */
static inline void reduce(struct set *s, int a, int d) {
    const word inside = up_to(d);
    int reach = highest(s->last[a] & inside);
    s->last[a] ^= bit(reach);
    s->first[reach] ^= bit(a);
    for (int first = a + 1; reach != d; first++) {
        const word further = s->last[first] & inside & ~up_to(reach);
        if (!further)
            continue;
        const int top = highest(further);
        s->last[first] ^= bit(top) | bit(reach);
        s->first[top] ^= bit(first);
        s->first[reach] ^= bit(first);
        reach = top;
    }
}

/* The brackets that were reduced, each with how often. */
struct bag {
    word last[SIDE];
    uint8_t times[SIDE][SIDE];
};

/* Rule 5. How many brackets were reduced. */
static int finish(struct set *s, struct bag *b, int width) {
    int count = 0;
    for (int d = 0; d < width; d++)
        for (int a; (a = dependent(s, d)) >= 0; count++) {
            reduce(s, a, d);
            if (!(b->last[a] & bit(d))) {
                b->last[a] |= bit(d);
                b->times[a][d] = 0;
            }
            b->times[a][d]++;
        }
    return count;
}

/*
 * Marks by counts: a column's count in a final set is its count in the set less the brackets reduced that hold it, and
 * striking a column takes from both what holds it. `turn` has by how much the count changes from the column before.
 */
static void mark(struct set *s, struct bag *b, const struct set *final, int count, int width,
                 const uint8_t shown[SIDE][SIDE], word *marked, uint8_t row[SIDE]) {
    int turn[SIDE + 1], held[SIDE + 1];
    word over[SIDE]; /* the first columns of all that holds, or has held, a column */
    memset(turn, 0, (size_t)(width + 1) * sizeof *turn);
    memset(over, 0, (size_t)width * sizeof *over);
    for (int first = 0; first < width; first++) {
        for (word w = final->last[first]; w; w &= w - 1) {
            turn[first]++;
            turn[lowest(w) + 1]--;
        }
        const word all = s->last[first] | b->last[first];
        for (int c = first, last = all ? highest(all) : -1; c <= last; c++)
            over[c] |= bit(first);
    }
    held[0] = 0; /* held[c + 1] is the count of column c */
    for (int c = 0; count > 0; count--) {
        while ((held[c + 1] = held[c] + turn[c]) != 1)
            c++;
        int back = SIDE, found = 0;
        for (word firsts = over[c]; firsts; firsts &= firsts - 1) {
            const int first = lowest(firsts);
            const word struck = s->last[first] & from(c), brackets = b->last[first] & from(c);
            if (!(struck | brackets))
                continue;
            back = first < back ? first : back;
            if (struck && !found)
                row[c] = shown[first][lowest(struck)];
            found |= struck != 0;
            for (word w = struck; w; w &= w - 1) {
                turn[first]--;
                turn[lowest(w) + 1]++;
            }
            for (word w = brackets; w; w &= w - 1) {
                turn[first] += b->times[first][lowest(w)];
                turn[lowest(w) + 1] -= b->times[first][lowest(w)];
            }
            s->last[first] ^= struck;
            b->last[first] ^= brackets;
        }
        *marked |= bit(c);
        c = back;
    }
}

static uint64_t put_marks(word marked, const uint8_t row[SIDE], uint64_t most, uint8_t *room) {
    uint64_t count = 0;
    for (; marked && count < most; marked &= marked - 1, count++) {
        room[2 * count] = (uint8_t)lowest(marked);
        room[2 * count + 1] = row[lowest(marked)];
    }
    return count;
}

/* The columns are unbroken, so each one's ends tell how many of its squares are copper. */
static uint64_t copper_number(const struct area *a) {
    uint64_t count = 0;
    for (word w = a->columns; w; w &= w - 1)
        count += (uint64_t)(a->top[lowest(w)] - a->bottom[lowest(w)] + 1);
    return count;
}

/* Rules 6 and 7. Gives the flashed area: the sum of the flashes' areas. */
static uint64_t put_flashes(const struct area *a, const struct set *final, uint8_t *room) {
    uint64_t flashed = 0;
    for (int first = 0; first < a->width; first++) {
        int bottom = 0, top = SIDE, c = first;
        for (word w = final->last[first]; w; w &= w - 1, room += 4) {
            const int last = lowest(w);
            for (; c <= last; c++) {
                bottom = a->bottom[c] > bottom ? a->bottom[c] : bottom;
                top = a->top[c] < top ? a->top[c] : top;
            }
            const uint8_t record[4] = {(uint8_t)first, (uint8_t)last, (uint8_t)bottom, (uint8_t)top};
            memcpy(room, record, sizeof record);
            flashed += (uint64_t)((last - first + 1) * (top - bottom + 1));
        }
    }
    return flashed;
}

struct keekaboor_outcome quick_cover(uint64_t width, uint64_t height, uint64_t allowance,
                                     const uint8_t *raster, size_t raster_len,
                                     uint8_t *flash_room, size_t flash_len,
                                     uint8_t *mark_room, size_t mark_len) {
    if (width - 1 >= SIDE || height - 1 >= SIDE)
        return refused(KEEKABOOR_SIZE, 0, 0);
    if (raster_len != width * height)
        return refused(KEEKABOOR_RASTER_LENGTH, 0, 0);
    if (flash_len < KEEKABOOR_FLASH_ROOM)
        return refused(KEEKABOOR_FLASH_ROOM_SHORT, 0, 0);
    if (mark_len < KEEKABOOR_MARK_ROOM)
        return refused(KEEKABOOR_MARK_ROOM_SHORT, 0, 0);
    if (allowance > SIDE)
        return refused(KEEKABOOR_ALLOWANCE, 0, 0);
    struct area a;
    a.width = (int)width, a.height = (int)height;
    if (!pack(&a, raster, raster_len))
        return bad_byte(raster, width);
    struct set s, final;
    struct bag b;
    uint8_t shown[SIDE][SIDE], row[SIDE];
    const size_t used = width * sizeof(word);
    memset(s.last, 0, used), memset(s.first, 0, used), memset(b.last, 0, used);
    const int slices = start(&a, &s, shown);
    if (slices < 0)
        return broken_column(&a);
    memcpy(final.last, s.last, used), memcpy(final.first, s.first, used);
    const int count = slices - finish(&final, &b, a.width);
    word marked = 0;
    mark(&s, &b, &final, count, a.width, shown, &marked, row);
    struct keekaboor_outcome o = {.answer = KEEKABOOR_DONE};
    if ((uint64_t)count > allowance) {
        o.answer = KEEKABOOR_ALLOWANCE_SHORT;
        o.marks = put_marks(marked, row, allowance + 1, mark_room);
        return o;
    }
    o.flashes = (uint64_t)count;
    o.marks = put_marks(marked, row, SIDE, mark_room);
    o.copper = copper_number(&a);
    o.flashed = put_flashes(&a, &final, flash_room);
    return o;
}
