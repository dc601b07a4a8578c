/* Random lists of quads: closed ones, put together from pieces that are closed by themselves, such with one fault, and
   such with a damaged quad.
   Assumes nothing. */
#include "lists.h"

#include <string.h>

const char *const list_kind_names[LIST_KINDS] = {
    "few numbers", "closed pieces", "and a piece once more", "and a lone quad", "and equal ends", "empty",
};
const char *const damage_names[DAMAGES] = {"a number changed", "a quad turned round", "a quad left out",
                                           "a quad doubled"};

/* ---- vertex numbers ---- */

/* How the vertices 0, 1, 2, ... are numbered: no two alike, but some alike in their lower or upper bits. */
enum numbering { AS_THEY_ARE, WITH_GAPS, FROM_ABOVE, UPPER_BITS, SCATTERED, NUMBERINGS };

static uint32_t number_of(enum numbering numbering, uint32_t vertex)
{
    switch (numbering) {
    case WITH_GAPS:
        return 7 * vertex + 3;
    case FROM_ABOVE:
        return UINT32_MAX - vertex;
    case UPPER_BITS:
        return vertex << 16;
    case SCATTERED:
        return vertex * UINT32_C(2654435761);
    default:
        return vertex;
    }
}

/* Small numbers in half of the cases, since the closed question with work takes an item for each number. */
static enum numbering choose_numbering(struct chance *chance)
{
    return (enum numbering)chance_below(chance, chance_in_100(chance, 50) ? WITH_GAPS + 1 : NUMBERINGS);
}

/* ---- pieces ---- */

static void add_quad(struct list *list, uint32_t a, uint32_t b, uint32_t c, uint32_t d)
{
    uint32_t *quad = list->item + list->length;
    quad[0] = a;
    quad[1] = b;
    quad[2] = c;
    quad[3] = d;
    list->length += 4;
}

static void add_both_ways(struct list *list, uint32_t a, uint32_t b, uint32_t c, uint32_t d)
{
    add_quad(list, a, b, c, d);
    add_quad(list, d, c, b, a);
}

/* The six sides of a box whose corners are numbered from v on, corner x + 2y + 4z. */
static void add_box(struct list *list, uint32_t v)
{
    add_quad(list, v, v + 2, v + 3, v + 1);
    add_quad(list, v + 4, v + 5, v + 7, v + 6);
    add_quad(list, v, v + 1, v + 5, v + 4);
    add_quad(list, v + 2, v + 6, v + 7, v + 3);
    add_quad(list, v, v + 4, v + 6, v + 2);
    add_quad(list, v + 1, v + 3, v + 7, v + 5);
}

/* A piece of at most 8 vertices, from v on, that is closed. */
static void add_piece(struct chance *chance, struct list *list, uint32_t v)
{
    switch (chance_below(chance, 8)) {
    case 0:
        add_both_ways(list, v, v + 1, v + 2, v + 3);
        break;
    case 1: /* folded together */
        add_quad(list, v, v + 1, v + 2, v + 1);
        break;
    case 2: /* one side, walked twice each way */
        add_quad(list, v, v + 1, v, v + 1);
        break;
    case 3: /* a book of two leaves: its back is walked twice each way */
        add_both_ways(list, v, v + 1, v + 2, v + 3);
        add_both_ways(list, v, v + 1, v + 4, v + 5);
        break;
    case 4: /* a book of three leaves */
        add_both_ways(list, v, v + 1, v + 2, v + 3);
        add_both_ways(list, v, v + 1, v + 4, v + 5);
        add_both_ways(list, v, v + 1, v + 6, v + 7);
        break;
    case 5: /* a star: half of its sides start at one vertex */
        add_quad(list, v, v + 1, v, v + 2);
        add_quad(list, v, v + 3, v, v + 4);
        add_quad(list, v + 5, v, v + 6, v);
        break;
    default:
        add_box(list, v);
    }
}

/* ---- order ---- */

static void swap_items(uint32_t *a, uint32_t *b)
{
    uint32_t kept = *a;
    *a = *b;
    *b = kept;
}

/* Begins a quad at another of its vertices. Its sides stay the same. */
static void begin_elsewhere(struct chance *chance, uint32_t quad[4])
{
    for (uint64_t turns = chance_below(chance, 4); turns > 0; turns--) {
        swap_items(&quad[0], &quad[1]);
        swap_items(&quad[1], &quad[2]);
        swap_items(&quad[2], &quad[3]);
    }
}

/* Each side of the quad runs the other way. */
static void turn_round(uint32_t quad[4])
{
    swap_items(&quad[1], &quad[3]);
}

/* The quads up to here in another order, each begun elsewhere; in half of the cases all of them turned round. */
static void mix(struct chance *chance, struct list *list)
{
    int is_turned = chance_in_100(chance, 50);
    for (size_t quad = 0; quad < list->length / 4; quad++) {
        uint32_t *here = list->item + 4 * quad, *there = list->item + 4 * (size_t)chance_below(chance, quad + 1);
        for (unsigned i = 0; i < 4; i++)
            swap_items(here + i, there + i);
    }
    for (size_t quad = 0; quad < list->length / 4; quad++) {
        begin_elsewhere(chance, list->item + 4 * quad);
        if (is_turned)
            turn_round(list->item + 4 * quad);
    }
}

/* ---- lists ---- */

static void few_numbers(struct chance *chance, struct list *list)
{
    uint64_t quads = 1 + chance_below(chance, 8), numbers = 2 + chance_below(chance, 5);
    for (uint64_t i = 0; i < 4 * quads; i++)
        list->item[list->length++] = (uint32_t)chance_below(chance, numbers);
}

/* What the list is named after. Vertices from v on are not in the list. */
static void add_what_is_named(enum list_kind kind, struct list *list, size_t first_piece, uint32_t v)
{
    switch (kind) {
    case PIECE_AGAIN: /* closed: each of its sides is walked twice as often, both ways */
        memcpy(list->item + list->length, list->item, first_piece * sizeof *list->item);
        list->length += first_piece;
        break;
    case LONE_QUAD:
        add_quad(list, v, v + 1, v + 2, v + 3);
        break;
    case EQUAL_ENDS: /* as often one way as the other, as all sides are */
        add_both_ways(list, v, v, v + 1, v + 2);
        break;
    default:
        break;
    }
}

/* Pieces stand apart, share some vertices, or stand all on the same ones: closed pieces are closed together too. */
static void closed_pieces(struct chance *chance, enum list_kind kind, struct list *list)
{
    enum numbering numbering = choose_numbering(chance);
    uint64_t pieces = 1 + chance_below(chance, MOST_PIECES);
    uint32_t step = chance_in_100(chance, 50) ? 8 : (uint32_t)chance_below(chance, 8), v = 0;
    size_t first_piece = 0;
    int is_mixed_last = chance_in_100(chance, 40);
    for (uint64_t piece = 0; piece < pieces; piece++, v += step) {
        add_piece(chance, list, v);
        if (piece == 0)
            first_piece = list->length;
    }
    if (!is_mixed_last && kind != PIECE_AGAIN)
        mix(chance, list);
    add_what_is_named(kind, list, first_piece, v + 8);
    if (is_mixed_last)
        mix(chance, list);
    for (size_t i = 0; i < list->length; i++)
        list->item[i] = number_of(numbering, list->item[i]);
}

void choose_list(struct chance *chance, enum list_kind kind, struct list *list)
{
    list->length = 0;
    if (kind == FEW_NUMBERS)
        few_numbers(chance, list);
    else if (kind != EMPTY_LIST)
        closed_pieces(chance, kind, list);
}

/* ---- damage ---- */

size_t damage_list(struct chance *chance, enum damage damage, uint32_t *items, size_t length)
{
    size_t at = (size_t)chance_below(chance, length);
    uint32_t *quad = items + at / 4 * 4;
    switch (damage) {
    case QUAD_TURNED:
        turn_round(quad);
        return length;
    case QUAD_LEFT_OUT:
        memmove(quad, quad + 4, (length - at / 4 * 4 - 4) * sizeof *items);
        return length - 4;
    case QUAD_DOUBLED:
        memcpy(items + length, quad, 4 * sizeof *items);
        return length + 4;
    default: /* another number of the list, or one that may not be there */
        items[at] = items[chance_below(chance, length)] + (uint32_t)chance_in_100(chance, 50);
        return length;
    }
}

/* ---- sides ---- */

size_t end_of(size_t side)
{
    return side / 4 * 4 + (side + 1) % 4;
}
