/* What the parts of the comparison of foreign meshes share: a question about such a mesh, and how it is asked.
   Assumes nothing more than compare.h. */
#ifndef PARSNIPROW_COMPARE_JUDGE_H
#define PARSNIPROW_COMPARE_JUDGE_H

#include "compare.h"
#include "foreign.h"

/* The rows of refusals in the order in which they are tried, and their numbers. */
enum { AXIS, COUNT, THRESHOLD, LENGTHS, REST, NUMBER, ROWS };

extern const uint32_t judge_refusals[ROWS];

enum { JUDGE_ANSWER = 4 };

#define ITEMS(list) (sizeof(list) / sizeof *(list))

/* ---- questions ---- */

struct judging {
    const char *name;
    uint32_t length[3];
    uint16_t t;
    uint32_t noise;
    const uint16_t *samples;
    const struct foreign *foreign;
    size_t samples_there; /* the lent ones behind them hold a pattern */
    size_t samples_len, words_len, offsets_len, quads_len, answer_len;
    const uint32_t *far_words; /* where given these are lent, and not the words and offsets of the mesh */
    const double *far_offsets;
    struct lying lying;
    unsigned faults; /* bit r: row r is due, were it not for earlier ones */
};

/* Is this row due? */
int judge_due(const struct judging *judging, unsigned row);

/* A question about a mesh with nothing wrong and all lengths exact. */
struct judging good_judging(const char *name, const uint32_t length[3], const uint16_t *samples, uint16_t t,
                            uint32_t noise, const struct foreign *foreign, struct lying lying);

/* Asks plain and the library, and compares. Gives plain's answer. */
const uint32_t *ask_judged(const struct judging *judging);

/* The same with a question whose answer is known: plain is held against it too. */
void expect_judged(const struct judging *judging, const uint32_t wanted[JUDGE_ANSWER]);

/* The same without plain. */
void expect_judged_by_library(const struct judging *judging, const uint32_t wanted[JUDGE_ANSWER]);

/* Gives back what was lent, so that long meshes do not slow short ones. */
void give_back_judged(void);

/* What was asked once: the library looks for repeats in ranges of its own, so these were made for their borders. */
struct judge_once {
    uint64_t by_hand, vertex_borders, quad_borders, several_ranges, later_range_first, among_far, largest;
};

extern struct judge_once judge_once;

#endif
