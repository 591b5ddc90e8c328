/* The check of a road sheet, for C programs. Link with target/staticlib/libsheet.a, which examples/c/run.sh
 * makes of the crate sheet_c. */
#ifndef ROAD_SHEET_H
#define ROAD_SHEET_H

#include <stddef.h>
#include <stdint.h>

#ifdef __cplusplus
extern "C" {
#endif

/*
 * Checks the `length` bytes at `bytes` as a road sheet. `bytes` points to that many readable bytes and is not null,
 * also where `length` is 0. Nothing is written and no memory is allocated.
 *
 * Answers 0 for a sheet without a fault, and else the number of the first refusal times 2^32 and the place: the first
 * byte of what is at fault, counted from the sheet's start. docs/SHEET.md has the numbers and places.
 */
uint64_t road_sheet_check(const uint8_t *bytes, size_t length);

static inline uint32_t road_sheet_refusal(uint64_t answer) {
    return (uint32_t)(answer >> 32);
}

static inline uint32_t road_sheet_place(uint64_t answer) {
    return (uint32_t)answer;
}

#ifdef __cplusplus
}
#endif

#endif
