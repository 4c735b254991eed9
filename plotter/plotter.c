/*
 * A small plotter: covers an area with the fewest flashes and prints them, as a control program would
 * send them to the lamp. It also shows a refusal, and an area's job text written and read back.
 */
#include <keekaboor.h>

#include <inttypes.h>
#include <stdio.h>

enum { WIDTH = 12, HEIGHT = 9 };

/* Supply copper: two planes and the neck that joins them. The top row stands first. */
static const char *const neck[HEIGHT] = {
    ".......#####",
    ".......#####",
    ".....#######",
    ".....#######",
    "############",
    "#######.....",
    "#######.....",
    "#####.......",
    "#####.......",
};

/* The raster of a drawing: row 0, the lowest, comes first. */
static void rastered(const char *const drawing[HEIGHT], uint8_t raster[WIDTH * HEIGHT]) {
    for (int row = 0; row < HEIGHT; row++)
        for (int column = 0; column < WIDTH; column++)
            raster[row * WIDTH + column] = drawing[HEIGHT - 1 - row][column] == '#';
}

static void plot(const char *name, const uint8_t raster[WIDTH * HEIGHT], uint64_t allowance) {
    uint8_t flashes[KEEKABOOR_FLASH_ROOM], marks[KEEKABOOR_MARK_ROOM];
    struct keekaboor_outcome o = keekaboor_cover(WIDTH, HEIGHT, allowance, raster, WIDTH * HEIGHT,
                                                 flashes, sizeof flashes, marks, sizeof marks);
    if (o.answer == KEEKABOOR_DONE)
        printf("%s: %" PRIu64 " flashes, copper number %" PRIu64 ", flashed area %" PRIu64 "\n", name, o.flashes, o.copper,
               o.flashed);
    else
        printf("%s: refused %" PRIu64 " at %" PRIu64 ", %" PRIu64 "\n", name, o.answer, o.place_x, o.place_y);
    for (uint64_t i = 0; i < o.flashes; i++) {
        const uint8_t *f = flashes + 4 * i;
        printf("  flash columns %d to %d, rows %d to %d\n", f[0], f[1], f[2], f[3]);
    }
    for (uint64_t i = 0; i < o.marks; i++)
        printf("  mark column %d, row %d\n", marks[2 * i], marks[2 * i + 1]);
}

/* Writes the job text of an area, prints it, and reads it back. */
static void as_text(const uint8_t raster[WIDTH * HEIGHT]) {
    uint8_t text[KEEKABOOR_TEXT_ROOM], again[KEEKABOOR_RASTER_ROOM];
    struct keekaboor_write_outcome w =
        keekaboor_write_job(WIDTH, HEIGHT, 64, raster, WIDTH * HEIGHT, text, sizeof text);
    printf("job text of %" PRIu64 " bytes:\n%.*s", w.length, (int)w.length, (const char *)text);
    struct keekaboor_read_outcome r = keekaboor_read_job(text, w.length, again, sizeof again);
    int same = r.answer == KEEKABOOR_DONE && r.width == WIDTH && r.height == HEIGHT && r.allowance == 64;
    for (int i = 0; i < WIDTH * HEIGHT; i++)
        same = same && again[i] == raster[i];
    printf("read back: %s\n", same ? "the same" : "another job");
    r = keekaboor_read_job(text, w.length - 1, again, sizeof again);
    printf("without its last line feed: refused %" PRIu64 " at line %" PRIu64 "\n", r.answer, r.place_x);
}

int main(void) {
    uint8_t raster[WIDTH * HEIGHT];
    rastered(neck, raster);
    plot("neck", raster, 64);
    plot("neck with an allowance of 2", raster, 2);
    as_text(raster);
    raster[3 * WIDTH + 2] = 0; /* a hole in column 2 */
    plot("neck with a hole", raster, 64);
    return 0;
}
