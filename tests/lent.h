/* Buffers to lend to a function, made so that what it does outside them is noticed: by patterns around them, by pages
   beside them that nobody may touch, and where a checker of memory runs by marks.
   Assumes POSIX with anonymous mappings. Built with -DMEMCHECK the marks are Valgrind's, with -fsanitize=address those
   of the sanitizer. */
#ifndef PARSNIPROW_LENT_H
#define PARSNIPROW_LENT_H

#include <stddef.h>
#include <stdint.h>

enum { PATTERN = 8, MARGIN = 16 };

/* What lies beside the lent items: patterns on both sides, or on one side a page where every access crashes. */
enum beside { PATTERNS, PAGE_BEHIND, PAGE_BEFORE, BESIDES };

extern const char *const beside_names[BESIDES];

/* Patterns of eight bytes. That of the offsets is a number above 1, so that it is no offset and no NaN. */
extern const unsigned char byte_pattern[PATTERN], offset_pattern[PATTERN], ceiling_pattern[PATTERN];

/* How long an answer place was lent, beside the number of items of its answer. */
enum reach { EMPTY, SHORTER, EXACT, LONGER, REACHES };

extern const char *const reach_names[REACHES];

struct lent {
    const char *name;
    size_t item;                  /* bytes of an item */
    size_t need;                  /* items of the answer, where this is an answer place, else 0 */
    const unsigned char *pattern; /* what it holds before the call, also beside the lent items */
    uint64_t reaches[REACHES];    /* how often it was lent so long */
    unsigned char *mapping, *room, *whole;
    size_t mapping_len, room_len, before, inside, after;
};

#define LENT(name, item, need, pattern) {name, item, need, pattern, {0, 0, 0, 0}, NULL, NULL, NULL, 0, 0, 0, 0, 0}

/* How a buffer lies: what is beside it, and by how many items it starts later, so that its alignment varies. */
struct lying {
    enum beside beside;
    size_t shift;
};

/* Makes place for so many items and fills it, and what is beside it, with the pattern. */
void lend(struct lent *lent, size_t count, struct lying lying);

/* Gives all of its place back, so that after a long lending short ones do not have long pages opened and closed. */
void give_back(struct lent *lent);

/* The first lent item. */
void *start(const struct lent *lent);

/* Hands the buffer to a function that may write to it, and does not hang on what stands there; that may read and change
   it; or that only reads it: then every writing crashes. */
void hand_out(struct lent *lent);
void hand_out_to_change(struct lent *lent);
void hand_out_to_read(struct lent *lent);

/* Takes the buffer back; the function should have written its first items, so many, as far as it reaches. */
void take_back(struct lent *lent, size_t written);
void take_back_read(struct lent *lent);

/* Does it hold these items from its start on, as far as it reaches, and its pattern everywhere else? */
int holds(const struct lent *lent, const void *items, size_t count);

/* Prints the first item that differs from what holds asks for, in hexadecimal, highest byte first. */
void print_wrong(const struct lent *lent, const void *items, size_t count);

/* Address space that takes no memory: nobody may touch it, or where is_open is set it is all zeros and read only. */
void *space(size_t bytes, int is_open);
void give_space_back(void *at, size_t bytes);

#endif
