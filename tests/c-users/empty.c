/*
 * keekaboor.h: a pointer may be NULL where its length is 0. Every buffer of every function in turn, also all of them at
 * once. Prints what went wrong; its exit status says whether anything did.
 */
#include <keekaboor.h>

#include <inttypes.h>
#include <stdio.h>

static int wrong;

static void gives(const char *call, uint64_t answer, uint64_t wanted) {
    if (answer == wanted)
        return;
    wrong = 1;
    printf("%s: answer %" PRIu64 ", wanted %" PRIu64 "\n", call, answer, wanted);
}

#define GIVES(call, wanted) gives(#call, (call).answer, wanted)

int main(void) {
    static const uint8_t square[1] = {1};
    static const uint8_t job[] = "shape\t1\t1\t1\nrow\t0\t#\n";
    uint8_t flashes[KEEKABOOR_FLASH_ROOM], marks[KEEKABOOR_MARK_ROOM];
    uint8_t raster[KEEKABOOR_RASTER_ROOM], text[KEEKABOOR_TEXT_ROOM];

    GIVES(keekaboor_cover(1, 1, 1, square, 1, flashes, sizeof flashes, marks, sizeof marks), KEEKABOOR_DONE);
    GIVES(keekaboor_cover(1, 1, 1, NULL, 0, flashes, sizeof flashes, marks, sizeof marks), KEEKABOOR_RASTER_LENGTH);
    GIVES(keekaboor_cover(1, 1, 1, square, 1, NULL, 0, marks, sizeof marks), KEEKABOOR_FLASH_ROOM_SHORT);
    GIVES(keekaboor_cover(1, 1, 1, square, 1, flashes, sizeof flashes, NULL, 0), KEEKABOOR_MARK_ROOM_SHORT);
    GIVES(keekaboor_cover(1, 1, 1, NULL, 0, NULL, 0, NULL, 0), KEEKABOOR_RASTER_LENGTH);
    GIVES(keekaboor_cover(0, 0, 0, NULL, 0, NULL, 0, NULL, 0), KEEKABOOR_SIZE);

    GIVES(keekaboor_read_job(job, sizeof job - 1, raster, sizeof raster), KEEKABOOR_DONE);
    GIVES(keekaboor_read_job(NULL, 0, raster, sizeof raster), KEEKABOOR_TEXT_LINE);
    GIVES(keekaboor_read_job(job, sizeof job - 1, NULL, 0), KEEKABOOR_RASTER_ROOM_SHORT);
    GIVES(keekaboor_read_job(NULL, 0, NULL, 0), KEEKABOOR_RASTER_ROOM_SHORT);

    GIVES(keekaboor_write_job(1, 1, 1, square, 1, text, sizeof text), KEEKABOOR_DONE);
    GIVES(keekaboor_write_job(1, 1, 1, NULL, 0, text, sizeof text), KEEKABOOR_RASTER_LENGTH);
    GIVES(keekaboor_write_job(1, 1, 1, square, 1, NULL, 0), KEEKABOOR_TEXT_ROOM_SHORT);
    GIVES(keekaboor_write_job(1, 1, 1, NULL, 0, NULL, 0), KEEKABOOR_RASTER_LENGTH);
    return wrong;
}
