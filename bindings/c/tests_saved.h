/* Bytes of saved series and samples as docs/formats.md says, laid out by loops: for tests to compare with. */
#ifndef TESTS_SAVED_H
#define TESTS_SAVED_H

#include "livevec.h"

enum { TWIN_ROOM = 2500, ROOM = 88 + 16 * TWIN_ROOM };

/* What a slot should be saved as: so many elements from `first` on after so many edits, with times or without. */
typedef struct twin {
    uint64_t first, size, edits;
    bool timed;
    int64_t values[TWIN_ROOM], times[TWIN_ROOM];
} twin;

/* Puts a number at a place, and tells the place behind it. */
uint64_t put_number(uint8_t *bytes, uint64_t at, uint64_t number);

uint64_t checksum_of(const uint8_t *bytes, uint64_t length);

/* Its bytes, and how many they are. */
uint64_t laid_out(const twin *t, uint8_t *bytes);

#endif
