/* The cover written by hand, for the benchmark: called as keekaboor_cover is, with the same outcome. */
#ifndef HAND_H
#define HAND_H

#include "../../include/keekaboor.h"

/* As quick as it could be written. */
struct keekaboor_outcome quick_cover(uint64_t width, uint64_t height, uint64_t allowance,
                                     const uint8_t *raster, size_t raster_len,
                                     uint8_t *flash_room, size_t flash_len,
                                     uint8_t *mark_room, size_t mark_len);

/* The same over bytes, a square at a time: a row sweep, tops kept, marks by counts. */
struct keekaboor_outcome bytes_cover(uint64_t width, uint64_t height, uint64_t allowance,
                                     const uint8_t *raster, size_t raster_len,
                                     uint8_t *flash_room, size_t flash_len,
                                     uint8_t *mark_room, size_t mark_len);

/* The rules as they stand in the document, plainly: rust/src/rules.rs in C, where Rust cannot be had for x86-64. */
struct keekaboor_outcome plain_cover(uint64_t width, uint64_t height, uint64_t allowance,
                                     const uint8_t *raster, size_t raster_len,
                                     uint8_t *flash_room, size_t flash_len,
                                     uint8_t *mark_room, size_t mark_len);

#endif
