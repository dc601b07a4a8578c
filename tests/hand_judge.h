/* Small foreign meshes and what is to be said of them, worked out by hand, for the plain implementation and for the
   library.
   Assumes nothing. */
#ifndef PARSNIPROW_HAND_JUDGE_H
#define PARSNIPROW_HAND_JUDGE_H

#include <stddef.h>
#include <stdint.h>

enum { HAND_JUDGED = 74, MOST_JUDGED_SAMPLES = 27, MOST_JUDGED_VERTICES = 10, MOST_JUDGED_QUADS = 8 };
enum { MOST_JUDGED_ODD = 2 };

/* All samples are alike but for the odd ones, and all offsets but for one. */
struct hand_judged {
    const char *name;
    uint32_t length[3];
    size_t samples_len; /* which decides about a refusal, as do the other lengths */
    uint16_t t;
    uint32_t noise;
    unsigned odd_count;
    struct {
        uint32_t index;
        uint16_t value;
    } odd[MOST_JUDGED_ODD]; /* the others are 0 */
    size_t words_len;
    uint32_t words[2 * MOST_JUDGED_VERTICES];
    size_t offsets_len;
    struct {
        size_t at;
        double value;
    } odd_offset; /* the others are 0.5 */
    size_t quads_len;
    uint32_t quads[4 * MOST_JUDGED_QUADS];
    uint32_t answer[4];
};

extern const struct hand_judged hand_judged[HAND_JUDGED];

void fill_judged_samples(const struct hand_judged *judged, uint16_t samples[MOST_JUDGED_SAMPLES]);
void fill_judged_offsets(const struct hand_judged *judged, double offsets[3 * MOST_JUDGED_VERTICES]);

#endif
