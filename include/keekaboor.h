/*
 * Keekaboor: copper areas in the fewest flashes, with evidence; jobs as text, lists from outside, Gerber files.
 *
 * A copper area is a set of unit squares in a grid of `width` columns and `height` rows, each 1 to 64.
 * Columns count from 0 at the left, rows from 0 at the bottom. A raster is width times height bytes,
 * row 0 first, each row from column 0; byte 1 is copper, 0 is none. The allowance, 0 to 64, is the
 * largest number of flashes that the caller wants.
 *
 * keekaboor_cover gives the least number of rectangles whose union is the area (overlap is allowed),
 * and as many marked squares, no two of which fit into one rectangle of copper: so no shorter list
 * exists. Every column of the area must be unbroken.
 *
 *     static const uint8_t plus[] = {0, 1, 0,
 *                                    1, 1, 1,
 *                                    0, 1, 0};
 *     uint8_t flashes[KEEKABOOR_FLASH_ROOM], marks[KEEKABOOR_MARK_ROOM];
 *     struct keekaboor_outcome o = keekaboor_cover(3, 3, 64, plus, sizeof plus,
 *                                                  flashes, sizeof flashes, marks, sizeof marks);
 *     if (o.answer == KEEKABOOR_DONE)
 *         for (uint64_t i = 0; i < o.flashes; i++) {
 *             const uint8_t *f = flashes + 4 * i;
 *             printf("columns %d to %d, rows %d to %d\n", f[0], f[1], f[2], f[3]);
 *         }
 *
 * prints `columns 0 to 2, rows 1 to 1` and `columns 1 to 1, rows 0 to 2`.
 *
 * The library has code for the System V x86-64 calling convention (Linux and others): each struct below is returned by
 * value as that convention says. tools/archives builds it; the README shows how to compile and link.
 *
 * What holds for every function here:
 *
 * - It checks its own input: any numbers, lengths and bytes get an answer, and every call returns.
 *   It keeps nothing between calls, allocates nothing and may be called from several threads at once.
 * - A pointer has as many bytes behind it as the length says; it may be NULL where the length is 0. What is
 *   only read and the lent rooms must not overlap each other. Neither is or can be checked.
 * - A refusal has an answer other than 0, its place where the list below names one (else 0, 0), and 0
 *   in every other field. It changes no byte of any lent room. KEEKABOOR_ALLOWANCE_SHORT alone also
 *   reports and writes marks.
 * - Room may be larger than is asked for. Bytes past what is written stay as they were.
 * - Numbers have 64 bits, so that no caller's value is cut before it is checked.
 */
#ifndef KEEKABOOR_H
#define KEEKABOOR_H

#include <stddef.h>
#include <stdint.h>

#ifdef __cplusplus
extern "C" {
#endif

/* The limits. */
enum {
    KEEKABOOR_LIMIT = 64,          /* the largest width, height and allowance */
    KEEKABOOR_FLASH_ROOM = 256,    /* bytes lent for flashes, at least: 64 records of four bytes */
    KEEKABOOR_MARK_ROOM = 128,     /* bytes lent for marks, at least: 64 records of two bytes */
    KEEKABOOR_RASTER_ROOM = 4096,  /* bytes lent for a raster that is read in, at least */
    KEEKABOOR_TEXT_ROOM = 4613,    /* bytes lent for a job written out, at least; also the longest text of a job */
    KEEKABOOR_LIST_LIMIT = 1024,   /* the most flashes of a list that is checked */
    KEEKABOOR_FILE_ROOM = 8192     /* bytes lent for a Gerber file, at least */
};

/* The answers, and the place that goes with each. A place not named is 0, 0. */
enum {
    KEEKABOOR_DONE = 0,
    KEEKABOOR_SIZE = 1,            /* width or height is not 1 to 64 */
    KEEKABOOR_RASTER_LENGTH = 2,   /* the raster's length is not width times height */
    KEEKABOOR_FLASH_ROOM_SHORT = 3,
    KEEKABOOR_MARK_ROOM_SHORT = 4,
    KEEKABOOR_TEXT_ROOM_SHORT = 5,
    KEEKABOOR_ALLOWANCE = 6,       /* the allowance is above 64 */
    KEEKABOOR_RASTER_BYTE = 7,     /* a raster byte is not 0 or 1; place: column and row of the first in raster order */
    KEEKABOOR_BROKEN_COLUMN = 8,   /* place: the lowest such column; its lowest empty square with copper below and above */
    KEEKABOOR_ALLOWANCE_SHORT = 9, /* the least number of flashes exceeds the allowance */
    KEEKABOOR_TEXT_LONG = 10,      /* the text has over 4,613 bytes */
    KEEKABOOR_TEXT_LINE = 11,      /* a line of text is not as ruled; place: its number, counted from 1, and 0 */
    KEEKABOOR_RASTER_ROOM_SHORT = 12,
    KEEKABOOR_PITCH = 13,          /* the pitch is odd or not 2 to 1,000,000 */
    KEEKABOOR_CENTRE = 14,         /* a centre coordinate has more than ten digits */
    KEEKABOOR_FILE_ROOM_SHORT = 15,
    KEEKABOOR_LIST_LINE = 16,      /* a line of a list is not as ruled; place: its number, counted from 1, and 0 */
    KEEKABOOR_LIST_LONG = 17,      /* a list has over 1,024 flashes */
    KEEKABOOR_VERSION = 21,        /* the version is not 1 or 2 */
    KEEKABOOR_FILE_LINE = 30       /* a line of a Gerber file is not as ruled; place: its number, counted from 1, and 0 */
};

/* What keekaboor_cover returns. */
struct keekaboor_outcome {
    uint64_t answer;
    uint64_t place_x, place_y;
    uint64_t flashes; /* how many flash records were written */
    uint64_t marks;   /* how many mark records were written */
    uint64_t copper;  /* the copper number, from which plating sets its current: the raster's copper squares, each once */
    uint64_t flashed; /* the flashed area: the sum of the flashes' areas, a square once for each flash that holds it */
};

/*
 * Covers an area. On success flash_room begins with `flashes` records of four bytes: first column, last
 * column, bottom row, top row, all inclusive, in the order of first column, then last column; mark_room
 * begins with `marks` records of two bytes: column and row, in the order of columns; and `marks` equals
 * `flashes`. A mark stands for a slice, a run of copper along a row that cannot be made longer, and lies on the
 * lowest row that has this slice. `copper` is at most `flashed`, and equal to it exactly where no two flashes
 * share a square. An area without copper has no flashes and no marks, and both are 0.
 *
 * Refusals, the first that applies: 1, 2, 3, 4, 6, 7, 8, 9. With 9, and an allowance of k, mark_room
 * begins with k + 1 marks, no two in one rectangle of copper, `marks` says so, and the other counts are 0.
 */
struct keekaboor_outcome keekaboor_cover(uint64_t width, uint64_t height, uint64_t allowance,
                                         const uint8_t *raster, size_t raster_len,
                                         uint8_t *flash_room, size_t flash_len,
                                         uint8_t *mark_room, size_t mark_len);

/*
 * The same promise, outcome for outcome and byte for byte, by the plain search, which begins anew after each step and takes
 * longer on wide areas: to compare with, or for whoever wants the plainest form.
 */
struct keekaboor_outcome keekaboor_cover_plain(uint64_t width, uint64_t height, uint64_t allowance,
                                               const uint8_t *raster, size_t raster_len,
                                               uint8_t *flash_room, size_t flash_len,
                                               uint8_t *mark_room, size_t mark_len);

/*
 * The text of a job: `shape`, width, height, allowance; then for each row, from the top row down, `row`,
 * its number and one character for each column, `#` copper and `.` none. Fields are parted by one tab,
 * each line ends with one line feed, numbers are decimal without sign or leading zero.
 */

/* What keekaboor_read_job returns. */
struct keekaboor_read_outcome {
    uint64_t answer;
    uint64_t place_x, place_y;
    uint64_t width, height, allowance;
};

/*
 * Reads a job. On success raster_room begins with the raster of width times height bytes.
 * Refusals, the first that applies: 12, 10, 11 for line 1, 1, 6, 11 for the other lines in their order.
 * A broken column is no refusal here.
 */
struct keekaboor_read_outcome keekaboor_read_job(const uint8_t *text, size_t text_len,
                                                 uint8_t *raster_room, size_t raster_len);

/* What keekaboor_write_job returns. */
struct keekaboor_write_outcome {
    uint64_t answer;
    uint64_t place_x, place_y;
    uint64_t length; /* how many bytes of text were written */
};

/*
 * Writes a job: on success text_room begins with its text, of `length` bytes and without a closing 0.
 * Refusals, the first that applies: 1, 2, 5, 6, 7. A broken column can be written.
 */
struct keekaboor_write_outcome keekaboor_write_job(uint64_t width, uint64_t height, uint64_t allowance,
                                                   const uint8_t *raster, size_t raster_len,
                                                   uint8_t *text_room, size_t text_len);

/* The verdicts on a list. A refusal has none of them: 0. */
enum {
    KEEKABOOR_SOUND = 1, /* every flash lies in the copper and every copper square lies in a flash */
    KEEKABOOR_BAD = 2,   /* a flash is reversed, off the grid or not in the copper; place: the first one's line, and 0 */
    KEEKABOOR_BARE = 3   /* a copper square lies in no flash; place: column and row of the first in raster order */
};

/* What keekaboor_check returns. */
struct keekaboor_check_outcome {
    uint64_t answer;
    uint64_t place_x, place_y; /* of the refusal, or of the verdict */
    uint64_t verdict;
    uint64_t flashes; /* how many flashes the list has */
    uint64_t above;   /* sound: how many of them are above the least number */
    uint64_t marks;   /* sound: how many mark records were written */
};

/*
 * Checks a list from outside against a job. A list is text: a line for each flash in any order, `flash`, first column,
 * last column, bottom row, top row, each 0 to 9999, in the form of a job's text; at most 1,024 of them, and no line at
 * all is a list too. A sound list has as many flashes as the least number and `above` more; mark_room then begins with
 * our marks, as many as the least number, no two in one rectangle of copper. On bad and bare nothing is written. A bad
 * flash is told before a bare square. The allowance has no effect, but it must be one.
 *
 * Refusals, the first that applies: 1, 2, 4, 6, 7, 8, 16, 17. A last line without line feed is 16, and so is a line past
 * the 1,024th that is not as ruled.
 */
struct keekaboor_check_outcome keekaboor_check(uint64_t width, uint64_t height, uint64_t allowance,
                                               const uint8_t *raster, size_t raster_len,
                                               const uint8_t *list, size_t list_len,
                                               uint8_t *mark_room, size_t mark_len);

/* What keekaboor_write_gerber returns: the cover's numbers and the file's length. */
struct keekaboor_gerber_outcome {
    uint64_t answer;
    uint64_t place_x, place_y;
    uint64_t flashes, marks, copper, flashed; /* as keekaboor_cover returns them */
    uint64_t length;                          /* how many bytes of the file were written */
};

/*
 * Covers an area and writes the cover as a Gerber file: millimetres, format 4.6, a rectangular aperture for each distinct
 * size of a flash, numbered from D10 in order of first use, and each flash at the centre of its rectangle. In version 2 its
 * first line is an X2 attribute command; in version 1, for machines that stop at these, it is a comment with the same words,
 * and no other line differs. The pitch of the grid is an even number of nanometres, 2 to 1,000,000; x and y, in nanometres,
 * are the bottom left corner of square (0, 0), on either side of panel zero. On success flash_room and mark_room are as
 * keekaboor_cover leaves them, and file_room begins with the file, of `length` bytes and without a closing 0.
 *
 * Refusals, the first that applies: those of keekaboor_cover (9 writes its marks), 21, 13, 14, 15. With these four the
 * cover's rooms stay as they were too.
 */
struct keekaboor_gerber_outcome keekaboor_write_gerber(uint64_t width, uint64_t height, uint64_t allowance,
                                                       const uint8_t *raster, size_t raster_len,
                                                       uint8_t *flash_room, size_t flash_len,
                                                       uint8_t *mark_room, size_t mark_len,
                                                       uint64_t version, uint64_t pitch, int64_t x, int64_t y,
                                                       uint8_t *file_room, size_t file_len);

/* What keekaboor_read_gerber returns. */
struct keekaboor_gerber_read_outcome {
    uint64_t answer;
    uint64_t place_x, place_y;
    uint64_t flashes; /* how many flash records were written */
};

/*
 * Reads a Gerber file back that was written with this pitch and this origin: on success flash_room begins with the records
 * of its flashes, in the file's order, which may be any. A file is accepted only in the form that keekaboor_write_gerber
 * gives to its flashes, 64 of them at most, each on the grid of 64 by 64 squares; that they cover an area is not asked.
 * Under either version the first line may be that of either.
 *
 * Refusals, the first that applies: 3, 21, 13, 30. Each line is judged by those before it. A missing `M02*` is told under
 * the number that its line would have, text after it and a last line without line feed under their own.
 */
struct keekaboor_gerber_read_outcome keekaboor_read_gerber(const uint8_t *text, size_t text_len,
                                                           uint64_t version, uint64_t pitch, int64_t x, int64_t y,
                                                           uint8_t *flash_room, size_t flash_len);

#ifdef __cplusplus
}
#endif

#endif
