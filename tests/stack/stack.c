/*
 * How much stack the covers take, by the engine and by the plain search: the stack below this program's own frames is
 * painted, a cover is called, and what is no longer paint was used. Prints both numbers of bytes, on the worst of a few areas
 * of 64 columns.
 */
#include <keekaboor.h>

#include <stdio.h>
#include <string.h>

enum { SIDE = KEEKABOOR_LIMIT, REACH = 1 << 18, OWN = 1024, PAINT = 0xa5 };

static uint8_t raster[SIDE * SIDE], flashes[KEEKABOOR_FLASH_ROOM], marks[KEEKABOOR_MARK_ROOM];

static void full(void) { memset(raster, 1, sizeof raster); }

static void stair(void) {
    memset(raster, 0, sizeof raster);
    for (int c = 0; c < SIDE; c++)
        for (int r = c / 2; r <= c / 2 + 31; r++)
            raster[r * SIDE + c] = 1;
}

static void comb(void) {
    memset(raster, 0, sizeof raster);
    for (int c = 0; c < SIDE; c++)
        for (int r = 0; r < (c % 2 ? 1 : 1 + c); r++)
            raster[r * SIDE + c] = 1;
}

/* Paints from REACH to OWN bytes below the frame at `top`. */
__attribute__((noinline)) static void paint(uintptr_t top) {
    for (uintptr_t at = top - REACH; at < top - OWN; at++)
        *(volatile uint8_t *)at = PAINT;
}

/* How far below `top` the paint is gone. */
__attribute__((noinline)) static size_t used(uintptr_t top) {
    uintptr_t at = top - REACH;
    while (at < top - OWN && *(volatile uint8_t *)at == PAINT)
        at++;
    return (size_t)(top - at);
}

int main(void) {
    void (*const draw[])(void) = {full, stair, comb};
    struct keekaboor_outcome (*const covers[])(uint64_t, uint64_t, uint64_t, const uint8_t *, size_t, uint8_t *, size_t, uint8_t *,
                                               size_t) = {keekaboor_cover, keekaboor_cover_plain};
    volatile uint8_t here = 0;
    uintptr_t top = (uintptr_t)&here;
    size_t most[] = {0, 0};
    for (size_t i = 0; i < sizeof draw / sizeof *draw; i++) {
        for (size_t j = 0; j < sizeof covers / sizeof *covers; j++) {
            draw[i]();
            paint(top);
            covers[j](SIDE, SIDE, SIDE, raster, sizeof raster, flashes, sizeof flashes, marks, sizeof marks);
            size_t now = used(top);
            most[j] = now > most[j] ? now : most[j];
        }
    }
    printf("%zu %zu\n", most[0], most[1]);
}
