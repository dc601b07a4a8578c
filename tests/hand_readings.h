/* Readings of the second bench, each with what it is, and small blocks of them with the answers for their counts and
   their mesh. All were worked out by hand, for the plain implementation and for the library.
   Assumes floats of 32 bits by IEEE 754. */
#ifndef PARSNIPROW_HAND_READINGS_H
#define PARSNIPROW_HAND_READINGS_H

#include <stddef.h>
#include <stdint.h>

enum { HAND_READINGS = 50, HAND_READING_BLOCKS = 47, MOST_HAND_READINGS = 28, MOST_ODD_READINGS = 3 };

/* One reading by its bits. Either it has a grey value, or a number refuses it. */
struct hand_reading {
    const char *name;
    uint32_t bits, number, grey;
};

extern const struct hand_reading hand_readings[HAND_READINGS];

/* The float that has these bits. */
float reading_of(uint32_t bits);

/* All readings are alike but for up to three, the odd ones. */
struct hand_reading_block {
    const char *name;
    uint32_t length[3];
    size_t readings_len;
    uint16_t t;
    float others;
    unsigned odd_count;
    struct {
        size_t at;
        float reading;
    } odd[MOST_ODD_READINGS];
    size_t vertices, quads;         /* so many have room */
    uint32_t counted[3], meshed[3]; /* the answers */
};

extern const struct hand_reading_block hand_reading_blocks[HAND_READING_BLOCKS];

void fill_hand_reading_block(const struct hand_reading_block *block, float *readings);

#endif
