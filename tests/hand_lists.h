/* Small lists of quads with their pieces, worked out by hand, for the plain implementation and for the library.
   Assumes nothing. */
#ifndef PARSNIPROW_HAND_LISTS_H
#define PARSNIPROW_HAND_LISTS_H

#include <stddef.h>
#include <stdint.h>

enum { HAND_LISTS = 28, MOST_HAND_VERTICES = 8, MOST_HAND_ITEMS = 28 };

struct hand_list {
    const char *name;
    uint32_t n;
    size_t quads_len;
    uint32_t quads[MOST_HAND_ITEMS];
    size_t piece_len, size_len; /* which decide about a refusal */
    uint32_t answer[3];
    uint32_t piece[MOST_HAND_VERTICES], size[MOST_HAND_VERTICES]; /* of n vertices, where the list is not refused */
};

extern const struct hand_list hand_lists[HAND_LISTS];

#endif
