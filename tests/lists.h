/* Random lists of quads for the closed question, and ways to damage a list.
   Assumes nothing; the same chance gives the same lists on every machine. */
#ifndef PARSNIPROW_LISTS_H
#define PARSNIPROW_LISTS_H

#include "blocks.h"

enum { MOST_PIECES = 6, BOX_QUADS = 6, MOST_LIST_QUADS = BOX_QUADS * (MOST_PIECES + 1) + 8 };
enum { MOST_LIST = 4 * MOST_LIST_QUADS + 3 };

enum list_kind { FEW_NUMBERS, CLOSED_PIECES, PIECE_AGAIN, LONE_QUAD, EQUAL_ENDS, EMPTY_LIST, LIST_KINDS };

extern const char *const list_kind_names[LIST_KINDS];

struct list {
    uint32_t item[MOST_LIST];
    size_t length;
};

/* A list of whole quads. It has room for one quad more, and three numbers. */
void choose_list(struct chance *chance, enum list_kind kind, struct list *list);

/* What may happen to one quad of a list. */
enum damage { NUMBER_CHANGED, QUAD_TURNED, QUAD_LEFT_OUT, QUAD_DOUBLED, DAMAGES };

extern const char *const damage_names[DAMAGES];

/* Damages a list of at least one quad, which has room for one more, and gives its length. It may still be closed. */
size_t damage_list(struct chance *chance, enum damage damage, uint32_t *items, size_t length);

/* Where the vertex stands that the side at this place runs to. */
size_t end_of(size_t side);

#endif
