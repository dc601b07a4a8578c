/* Compares the PLY file of a mesh with the plain implementation: with each block its own mesh, where it has one, and a
   made-up one. One thing or several may be wrong about them, so that every refusal and every order of two refusals
   occurs. What is asked once stands in compare_ply_once.c.
   Assumes nothing more than compare.h. */
#include "compare_ply.h"

#include "crash.h"

#include <stdio.h>
#include <string.h>

enum { HEAD = 170, MOST_MADE_UP = 128, MOST_OWN = 4000, COUNTED_VERTICES = 64, PRINTED_VERTICES = 12 };

const uint32_t ply_refusals[ROWS] = {1, 22, 23, 24, 7, 13, 14, 15};

static struct lent words_place = LENT("words of the file", sizeof(uint32_t), 0, byte_pattern);
static struct lent offsets_place = LENT("offsets of the file", sizeof(double), 0, offset_pattern);
static struct lent quads_place = LENT("quads of the file", sizeof(uint32_t), 0, byte_pattern);
static struct lent file_place = LENT("file", sizeof(uint8_t), 0, byte_pattern);
static struct lent length_place = LENT("length of the file", sizeof(uint64_t), LENGTH, byte_pattern);
static struct lent answer_place = LENT("answer of the file", sizeof(uint32_t), ANSWER, byte_pattern);
static struct lent plain_file = LENT("file of plain", sizeof(uint8_t), 0, byte_pattern);

/* What plain answers. */
static uint32_t answer[ANSWER];
static uint64_t file_bytes;


int due(const struct call *call, unsigned row)
{
    return call->faults >> row & 1;
}

static size_t smaller(size_t a, size_t b)
{
    return a < b ? a : b;
}

size_t cubes_of(const uint32_t length[3])
{
    return (size_t)(length[0] - 1) * (length[1] - 1) * (length[2] - 1);
}

static size_t digits(size_t number)
{
    return number < 10 ? 1 : 1 + digits(number / 10);
}

size_t bytes_needed(size_t vertices, size_t quads)
{
    return HEAD + digits(vertices) + digits(quads) + BYTES_A_VERTEX * vertices + BYTES_A_QUAD * quads;
}

/* ---- doubles by their bits ---- */

static const uint64_t minus = UINT64_C(1) << 63, bits_of_1 = UINT64_C(0x3FF0000000000000);
static const uint64_t bits_of_1000 = UINT64_C(0x408F400000000000);

const uint64_t good_offsets[GOOD_OFFSETS] = {
    UINT64_C(0x0000000000000000), UINT64_C(0x8000000000000000), UINT64_C(0x0000000000000001),
    UINT64_C(0x0010000000000000), UINT64_C(0x3FB999999999999A), UINT64_C(0x3FEFFFFFFFFFFFFF),
    UINT64_C(0x3FF0000000000000)};
const uint64_t bad_offsets[BAD_OFFSETS] = {
    UINT64_C(0x3FF0000000000001), UINT64_C(0x4000000000000000), UINT64_C(0x8000000000000001),
    UINT64_C(0xBFF0000000000000), UINT64_C(0x7FF0000000000000), UINT64_C(0xFFF0000000000000),
    UINT64_C(0x7FF8000000000000), UINT64_C(0xFFF8000000000000), UINT64_C(0x7FF0000000000001)};
const uint64_t good_spacings[GOOD_SPACINGS] = {
    UINT64_C(0x0000000000000001), UINT64_C(0x0010000000000000), UINT64_C(0x3FB999999999999A),
    UINT64_C(0x3FF0000000000000), UINT64_C(0x408F3FFFFFFFFFFF), UINT64_C(0x408F400000000000)};
const uint64_t bad_spacings[BAD_SPACINGS] = {
    UINT64_C(0x0000000000000000), UINT64_C(0x8000000000000000), UINT64_C(0x408F400000000001),
    UINT64_C(0x8000000000000001), UINT64_C(0xBFF0000000000000), UINT64_C(0x7FF0000000000000),
    UINT64_C(0xFFF0000000000000), UINT64_C(0x7FF8000000000000), UINT64_C(0xFFF8000000000000),
    UINT64_C(0x7FF0000000000001)};

double of_bits(uint64_t bits)
{
    double number;
    memcpy(&number, &bits, sizeof number);
    return number;
}

static uint64_t bits_of(double number)
{
    uint64_t bits;
    memcpy(&bits, &number, sizeof bits);
    return bits;
}

/* Special ones, all bit patterns alike, or all numbers alike. */
static double choose_offset(struct chance *chance)
{
    uint64_t how = chance_below(chance, 4);
    if (how == 0)
        return of_bits(good_offsets[chance_below(chance, GOOD_OFFSETS)]);
    if (how == 1)
        return of_bits(chance_below(chance, bits_of_1 + 1));
    return (double)chance_below(chance, UINT64_C(1) << 53) / (double)(UINT64_C(1) << 53);
}

static double choose_spacing(struct chance *chance)
{
    uint64_t how = chance_below(chance, 4);
    if (how == 0)
        return of_bits(good_spacings[chance_below(chance, GOOD_SPACINGS)]);
    if (how == 1)
        return of_bits(1 + chance_below(chance, bits_of_1000));
    return (double)(1 + chance_below(chance, 1000000)) / 1000.0;
}

static double choose_bad_offset(struct chance *chance)
{
    uint64_t bits = chance_below(chance, UINT64_MAX);
    int is_good = bits <= bits_of_1 || bits == minus;
    if (is_good || chance_in_100(chance, 60))
        bits = bad_offsets[chance_below(chance, BAD_OFFSETS)];
    return of_bits(bits);
}

static double choose_bad_spacing(struct chance *chance)
{
    uint64_t bits = chance_below(chance, UINT64_MAX);
    int is_good = bits > 0 && bits <= bits_of_1000;
    if (is_good || chance_in_100(chance, 60))
        bits = bad_spacings[chance_below(chance, BAD_SPACINGS)];
    return of_bits(bits);
}

/* ---- what occurred ---- */

static struct {
    uint64_t files, own, own_empty, made_up, accepted, refused[ROWS], orders[ROWS][ROWS];
    uint64_t bad_axis[3], bad_spacing[3], rest[4], words_odd, offsets_odd, counts_differ, too_many, words_cut;
    uint64_t vertex_first[2], vertex_later[2], vertices_several[2], quad_first, quad_later, quads_several;
    uint64_t vertex_digits[6], quad_digits[6], exact, longer, one_short, no_room, other_short, bytes_cut;
    uint64_t offset_zero, offset_minus_zero, offset_one, offset_subnormal;
    uint64_t spacing_least, spacing_subnormal, spacing_most;
    uint64_t sum_rounded, other_product, vanished, equal_corners, last_cube, cube_beyond_16_bits;
} tally;

static size_t bad_cubes(const struct call *call)
{
    size_t bad = 0, end = cubes_of(call->length);
    for (size_t at = 0; at < call->words_len; at += 2)
        bad += call->words[at] >= end;
    return bad;
}

static size_t bad_offset_vertices(const struct call *call)
{
    size_t bad = 0;
    for (size_t at = 0; at + 3 <= call->offsets_len; at += 3) {
        int is_good = 1;
        for (size_t axis = 0; axis < 3; axis++)
            is_good &= call->offsets[at + axis] >= 0.0 && call->offsets[at + axis] <= 1.0;
        bad += !is_good;
    }
    return bad;
}

static size_t bad_quads(const struct call *call)
{
    size_t bad = 0;
    for (size_t at = 0; at + 4 <= call->quads_len; at += 4) {
        int is_good = 1;
        for (size_t side = 0; side < 4; side++)
            is_good &= call->quads[at + side] < call->words_len / 2;
        bad += !is_good;
    }
    return bad;
}

static void count_vertex(unsigned which, size_t bad)
{
    tally.vertex_first[which] += answer[1] == 0;
    tally.vertex_later[which] += answer[1] > 0;
    tally.vertices_several[which] += bad > 1;
}

static void count_lengths(const struct call *call)
{
    int words_odd = call->words_len % 2 != 0, offsets_odd = call->offsets_len % 3 != 0;
    int is_equal = call->words_len / 2 == call->offsets_len / 3;
    tally.words_odd += words_odd && !offsets_odd;
    tally.offsets_odd += !words_odd && offsets_odd;
    tally.counts_differ += !words_odd && !offsets_odd && !is_equal;
    tally.too_many += !words_odd && !offsets_odd && is_equal;
    tally.words_cut += call->words_len > UINT32_MAX;
}

static void count_refused(const struct call *call)
{
    unsigned row = AXIS;
    while (row + 1 < ROWS && ply_refusals[row] != answer[0])
        row++;
    tally.refused[row]++;
    for (unsigned later = row + 1; due(call, row) && later < ROWS; later++)
        tally.orders[row][later] += due(call, later);
    if (row == AXIS)
        tally.bad_axis[answer[1]]++;
    else if (row == LENGTHS)
        count_lengths(call);
    else if (row == PAST && call->words_len <= 2 * MOST_OWN)
        count_vertex(0, bad_cubes(call));
    else if (row == OFFSET)
        count_vertex(1, bad_offset_vertices(call));
    else if (row == REST)
        tally.rest[answer[1]]++;
    else if (row == SPACING)
        tally.bad_spacing[answer[1]]++;
    tally.quad_first += row == QUAD && answer[1] == 0;
    tally.quad_later += row == QUAD && answer[1] > 0;
    tally.quads_several += row == QUAD && bad_quads(call) > 1;
    tally.one_short += row == ROOM && call->file_len + 1 == answer[1];
    tally.no_room += row == ROOM && call->file_len == 0;
    tally.other_short += row == ROOM && call->file_len > 0 && call->file_len + 1 < answer[1];
    tally.bytes_cut += row == ROOM && bytes_needed(call->words_len / 2, call->quads_len / 4) > UINT32_MAX;
}

/* What a coordinate is made of, and whether another way to work it out would show. */
static void count_coordinate(size_t cube, double offset, double spacing)
{
    double place = (double)cube, sum = place + offset, product = sum * spacing;
    tally.offset_zero += bits_of(offset) == 0;
    tally.offset_minus_zero += bits_of(offset) == minus;
    tally.offset_one += offset == 1.0;
    tally.offset_subnormal += offset > 0.0 && offset < 0x1p-1022;
    tally.sum_rounded += sum - place != offset;
    tally.other_product += place * spacing + offset * spacing != product;
    tally.vanished += sum > 0.0 && product == 0.0;
}

static void count_vertices(const struct call *call)
{
    size_t across = call->length[0] - 1, down = call->length[1] - 1;
    for (size_t vertex = 0; vertex < call->words_len / 2 && vertex < COUNTED_VERTICES; vertex++) {
        size_t number = call->words[2 * vertex];
        const double *offset = call->offsets + 3 * vertex;
        count_coordinate(number % across, offset[0], call->spacing[0]);
        count_coordinate(number / across % down, offset[1], call->spacing[1]);
        count_coordinate(number / across / down, offset[2], call->spacing[2]);
        tally.last_cube += number + 1 == cubes_of(call->length);
        tally.cube_beyond_16_bits += number > UINT16_MAX;
    }
}

static void count_accepted(const struct call *call)
{
    size_t vertices = call->words_len / 2, quads = call->quads_len / 4;
    tally.accepted++;
    tally.vertex_digits[digits(vertices) - 1]++;
    tally.quad_digits[digits(quads) - 1]++;
    tally.exact += call->file_len == file_bytes;
    tally.longer += call->file_len > file_bytes;
    for (unsigned axis = 0; axis < 3; axis++) {
        tally.spacing_least += bits_of(call->spacing[axis]) == 1;
        tally.spacing_subnormal += call->spacing[axis] < 0x1p-1022;
        tally.spacing_most += call->spacing[axis] == 1000.0;
    }
    for (size_t at = 0; at < call->quads_len && at < 4 * COUNTED_VERTICES; at += 4)
        tally.equal_corners += call->quads[at] == call->quads[at + 1];
    count_vertices(call);
}

static void count_call(const struct call *call)
{
    tally.files++;
    if (answer[0] == 0)
        count_accepted(call);
    else
        count_refused(call);
}

/* ---- telling a difference ---- */

static void print_call(const struct call *call)
{
    printf("  %s; axes %lu, %lu, %lu; spacing %a, %a, %a\n", call->name, (unsigned long)call->length[0],
           (unsigned long)call->length[1], (unsigned long)call->length[2], call->spacing[0], call->spacing[1],
           call->spacing[2]);
    printf("  lengths: words %zu, offsets %zu, quads %zu, file %zu, length %zu, answer %zu\n", call->words_len,
           call->offsets_len, call->quads_len, call->file_len, call->length_len, call->answer_len);
    printf("  plain: %lu, %lu, %lu, length %llu\n", (unsigned long)answer[0], (unsigned long)answer[1],
           (unsigned long)answer[2], (unsigned long long)file_bytes);
    if (call->words_len > 2 * PRINTED_VERTICES || call->offsets_len > 3 * PRINTED_VERTICES ||
        call->quads_len > 4 * PRINTED_VERTICES)
        return;
    printf("  words:");
    for (size_t at = 0; at < call->words_len; at++)
        printf(" %lu", (unsigned long)call->words[at]);
    printf("\n  offsets:");
    for (size_t at = 0; at < call->offsets_len; at++)
        printf(" %a", call->offsets[at]);
    printf("\n  quads:");
    for (size_t at = 0; at < call->quads_len; at++)
        printf(" %lu", (unsigned long)call->quads[at]);
    printf("\n");
}

/* ---- running ---- */

/* Plain's own room is of the same length, since it decides about a refusal. */
static void run_plain(const struct call *c)
{
    struct lying lying = {PATTERNS, 0};
    lend(&plain_file, c->file_len, lying);
    asking("plain_ply");
    plain_ply(c->length[0], c->length[1], c->length[2], c->words, c->words_len, c->offsets, c->offsets_len, c->quads,
              c->quads_len, c->spacing[0], c->spacing[1], c->spacing[2], start(&plain_file), c->file_len, &file_bytes,
              LENGTH, answer, ANSWER);
    if (!holds(&plain_file, start(&plain_file), (size_t)file_bytes) && first_to_fail("plain wrote where it must keep"))
        print_call(c);
}

static void run_library(const struct call *c)
{
    struct wanted wanted[] = {{&file_place, start(&plain_file), (size_t)file_bytes},
                              {&length_place, &file_bytes, LENGTH},
                              {&answer_place, answer, ANSWER}};
    lend(&file_place, c->file_len, c->lying);
    lend(&length_place, c->length_len, c->lying);
    lend(&answer_place, c->answer_len, c->lying);
    hand_out_to_read(&words_place);
    hand_out_to_read(&offsets_place);
    hand_out_to_read(&quads_place);
    hand_out_all(PLY, c->lying, wanted, 3);
    parsniprow_ply(c->length[0], c->length[1], c->length[2], c->words, c->words_len, c->offsets, c->offsets_len,
                   c->quads, c->quads_len, c->spacing[0], c->spacing[1], c->spacing[2], start(&file_place), c->file_len,
                   start(&length_place), c->length_len, start(&answer_place), c->answer_len);
    take_back_read(&words_place);
    take_back_read(&offsets_place);
    take_back_read(&quads_place);
    if (first_to_differ(PLY, wanted, 3))
        print_call(c);
}

void run_call(const struct call *call)
{
    run_plain(call);
    run_library(call);
    count_call(call);
}

void expect(const struct call *call, uint32_t number, uint32_t value)
{
    run_call(call);
    if (answer[0] == number && answer[1] == value && answer[2] == 0 && (number == 0 || file_bytes == 0))
        return;
    if (first_to_fail("plain does not answer as the request says")) {
        print_call(call);
        printf("  wanted: %lu, %lu, 0\n", (unsigned long)number, (unsigned long)value);
    }
}

void expect_of_library(const struct call *call, uint32_t number, uint32_t value)
{
    answer[0] = number;
    answer[1] = value;
    answer[2] = 0;
    file_bytes = 0;
    run_library(call);
    count_call(call);
}

void expect_bytes(const struct call *call, size_t length, size_t at, const void *bytes, size_t count)
{
    const uint8_t *file = start(&plain_file);
    if ((file_bytes != length || memcmp(file + at, bytes, count) != 0) &&
        first_to_fail("plain does not write what the request says"))
        print_call(call);
}

static void copy_into(const struct lent *lent, const void *items, size_t bytes)
{
    bytes = smaller(bytes, lent->inside);
    if (bytes > 0)
        memcpy(start(lent), items, bytes);
}

void lend_mesh(struct call *call, const struct source *source)
{
    lend(&words_place, call->words_len, call->lying);
    lend(&offsets_place, call->offsets_len, call->lying);
    lend(&quads_place, call->quads_len, call->lying);
    copy_into(&words_place, source->words, 2 * source->vertices * sizeof *source->words);
    copy_into(&offsets_place, source->offsets, 3 * source->vertices * sizeof *source->offsets);
    copy_into(&quads_place, source->quads, 4 * source->quad_count * sizeof *source->quads);
    call->words = start(&words_place);
    call->offsets = start(&offsets_place);
    call->quads = start(&quads_place);
}

void give_back_mesh(void)
{
    give_back(&words_place);
    give_back(&offsets_place);
    give_back(&quads_place);
    give_back(&file_place);
    give_back(&plain_file);
}

struct call good_call(const struct source *source, struct lying lying)
{
    struct call call;
    memset(&call, 0, sizeof call);
    call.name = source->name;
    memcpy(call.length, source->length, sizeof call.length);
    call.words_len = 2 * source->vertices;
    call.offsets_len = 3 * source->vertices;
    call.quads_len = 4 * source->quad_count;
    call.file_len = bytes_needed(source->vertices, source->quad_count);
    call.length_len = LENGTH;
    call.answer_len = ANSWER;
    call.spacing[0] = 0.1;
    call.spacing[1] = 0.2;
    call.spacing[2] = 0.5;
    call.lying = lying;
    return call;
}

/* ---- files with a block ---- */

static unsigned choose_faults(struct chance *chance)
{
    unsigned how = (unsigned)chance_below(chance, 100), faults = 0, wanted;
    wanted = how < 40 ? 0 : how < 60 ? 1 : how < 95 ? 2 : 3 + (unsigned)chance_below(chance, ROWS - 2);
    while (wanted > 0) {
        unsigned bit = 1u << chance_below(chance, ROWS);
        if (!(faults & bit)) {
            faults |= bit;
            wanted--;
        }
    }
    return faults;
}

/* Some vertices, by chance in the last cube or in the first; some quads among them. */
static struct source make_up(struct chance *chance)
{
    static uint32_t words[2 * MOST_MADE_UP], quads[4 * MOST_MADE_UP];
    static double offsets[3 * MOST_MADE_UP];
    static const size_t counts[] = {0, 1, 9, 10, 99, 100};
    struct source source = {"a made-up mesh", {0, 0, 0}, words, quads, offsets, 0, 0};
    size_t end;
    for (unsigned axis = 0; axis < 3; axis++)
        source.length[axis] = 2 + (uint32_t)chance_below(chance, chance_in_100(chance, 50) ? 255 : 6);
    end = cubes_of(source.length);
    source.vertices = chance_in_100(chance, 30) ? counts[chance_below(chance, ITEMS(counts))]
                                                : (size_t)chance_below(chance, 20);
    source.quad_count = chance_in_100(chance, 30) ? counts[chance_below(chance, ITEMS(counts))]
                                                  : (size_t)chance_below(chance, 20);
    if (source.vertices == 0)
        source.quad_count = 0;
    for (size_t vertex = 0; vertex < source.vertices; vertex++) {
        uint64_t how = chance_below(chance, 10);
        words[2 * vertex] = (uint32_t)(how == 0 ? 0 : how == 1 ? end - 1 : chance_below(chance, end));
        words[2 * vertex + 1] = (uint32_t)chance_below(chance, UINT32_MAX);
    }
    for (size_t at = 0; at < 3 * source.vertices; at++)
        offsets[at] = choose_offset(chance);
    for (size_t at = 0; at < 4 * source.quad_count; at++)
        quads[at] = (uint32_t)chance_below(chance, source.vertices);
    return source;
}

static void spoil_axes(struct chance *chance, struct call *call)
{
    static const uint32_t bad[] = {0, 1, 257, UINT32_MAX, 65536, UINT32_C(1) << 31, 258, 512};
    do
        call->length[chance_below(chance, 3)] = bad[chance_below(chance, ITEMS(bad))];
    while (chance_in_100(chance, 30));
}

static void spoil_lengths(struct chance *chance, struct call *call)
{
    switch (chance_below(chance, 6)) {
    case 0:
        call->words_len += 1 + chance_below(chance, 5);
        break;
    case 1:
        call->offsets_len += 1 + chance_below(chance, 7);
        break;
    case 2:
        call->words_len -= smaller(call->words_len, 1 + chance_below(chance, 5));
        break;
    case 3:
        call->offsets_len -= smaller(call->offsets_len, 1 + chance_below(chance, 7));
        break;
    case 4:
        call->words_len += 2;
        break;
    default:
        call->offsets_len = call->words_len;
    }
    if (call->words_len % 2 == 0 && call->words_len / 2 * 3 == call->offsets_len)
        call->words_len++;
}

/* One of the items, which stand in groups of so many; often in the first group or in the last. */
static size_t choose_item(struct chance *chance, size_t items, size_t group)
{
    size_t groups = items / group;
    uint64_t how = chance_below(chance, 4);
    size_t which = how == 0 ? 0 : how == 1 ? groups - 1 : (size_t)chance_below(chance, groups);
    return which * group + (size_t)chance_below(chance, group);
}

static void spoil_cubes(struct chance *chance, struct call *call, const struct source *source)
{
    uint32_t end = (uint32_t)cubes_of(source->length);
    do {
        uint32_t past = (uint32_t)chance_below(chance, UINT32_MAX - end + UINT64_C(1));
        size_t at = choose_item(chance, call->words_len, 2) / 2 * 2;
        call->words[at] = chance_in_100(chance, 40) ? end : chance_in_100(chance, 20) ? UINT32_MAX : end + past;
    } while (chance_in_100(chance, 40));
}

static void spoil_offsets(struct chance *chance, struct call *call)
{
    do
        call->offsets[choose_item(chance, call->offsets_len, 3)] = choose_bad_offset(chance);
    while (chance_in_100(chance, 40));
}

static void spoil_quads(struct chance *chance, struct call *call, const struct source *source)
{
    uint32_t end = (uint32_t)source->vertices;
    do {
        uint32_t past = (uint32_t)chance_below(chance, UINT32_MAX - end + UINT64_C(1));
        size_t at = choose_item(chance, call->quads_len, 4);
        call->quads[at] = chance_in_100(chance, 40) ? end : chance_in_100(chance, 20) ? UINT32_MAX : end + past;
    } while (chance_in_100(chance, 40));
}

/* The lengths, the spacing and what else is not in a buffer. */
static struct call choose_call(struct chance *chance, const struct source *source)
{
    struct call call = good_call(source, choose_lying(chance));
    call.faults = choose_faults(chance);
    for (unsigned axis = 0; axis < 3; axis++)
        call.spacing[axis] = choose_spacing(chance);
    call.file_len = choose_room(chance, call.file_len, due(&call, ROOM));
    call.length_len = choose_reach(chance, LENGTH);
    call.answer_len = choose_reach(chance, ANSWER);
    if (due(&call, AXIS))
        spoil_axes(chance, &call);
    if (due(&call, LENGTHS))
        spoil_lengths(chance, &call);
    if (due(&call, REST))
        call.quads_len += 1 + chance_below(chance, 3);
    while (due(&call, SPACING)) {
        call.spacing[chance_below(chance, 3)] = choose_bad_spacing(chance);
        if (chance_in_100(chance, 60))
            break;
    }
    /* where there is no vertex or no quad, none is bad */
    if (call.words_len < 2)
        call.faults &= ~(1u << PAST);
    if (call.offsets_len < 3)
        call.faults &= ~(1u << OFFSET);
    if (call.quads_len < 4)
        call.faults &= ~(1u << QUAD);
    return call;
}

static void try_source(struct chance *chance, const struct source *source)
{
    struct call call = choose_call(chance, source);
    lend_mesh(&call, source);
    if (due(&call, PAST))
        spoil_cubes(chance, &call, source);
    if (due(&call, OFFSET))
        spoil_offsets(chance, &call);
    if (due(&call, QUAD))
        spoil_quads(chance, &call, source);
    run_call(&call);
}

void try_files(struct trial *trial)
{
    struct source source = make_up(&trial->chance);
    try_source(&trial->chance, &source);
    tally.made_up++;
    if (!trial->words || trial->vertex_count > MOST_OWN)
        return;
    source.name = "the block's own mesh";
    memcpy(source.length, trial->length, sizeof source.length);
    source.words = trial->words;
    source.offsets = trial->offsets;
    source.quads = trial->quads;
    source.vertices = trial->vertex_count;
    source.quad_count = trial->quad_count;
    try_source(&trial->chance, &source);
    tally.own += source.vertices > 0;
    tally.own_empty += source.vertices == 0;
}

/* ---- printing ---- */

static void tally_refusals(void)
{
    static const char *const vertex_rows[2] = {"23", "24"};
    char name[60];
    tally_title("answers to files");
    tally_case("a file", tally.accepted);
    for (unsigned row = 0; row < ROWS; row++) {
        sprintf(name, "refusal %lu", (unsigned long)ply_refusals[row]);
        tally_case(name, tally.refused[row]);
    }
    tally_title("two of them due, the earlier given");
    for (unsigned row = 0; row < ROWS; row++)
        for (unsigned later = row + 1; later < ROWS; later++) {
            sprintf(name, "%lu-%lu", (unsigned long)ply_refusals[row], (unsigned long)ply_refusals[later]);
            tally_case(name, tally.orders[row][later]);
        }
    tally_title("why files are refused");
    for (unsigned axis = 0; axis < 3; axis++) {
        sprintf(name, "axis %c", "xyz"[axis]);
        tally_case(name, tally.bad_axis[axis]);
        sprintf(name, "spacing %c", "xyz"[axis]);
        tally_case(name, tally.bad_spacing[axis]);
        sprintf(name, "quads modulo 4 are %u", axis + 1);
        tally_case(name, tally.rest[axis + 1]);
    }
    tally_case("half a vertex in words", tally.words_odd);
    tally_case("a part of one in offsets", tally.offsets_odd);
    tally_case("counts that differ", tally.counts_differ);
    tally_case("too many vertices", tally.too_many);
    tally_case("more words than 32 bits can say", tally.words_cut);
    for (unsigned which = 0; which < 2; which++) {
        sprintf(name, "%s at vertex 0", vertex_rows[which]);
        tally_case(name, tally.vertex_first[which]);
        sprintf(name, "%s at a later vertex", vertex_rows[which]);
        tally_case(name, tally.vertex_later[which]);
        sprintf(name, "%s at several", vertex_rows[which]);
        tally_case(name, tally.vertices_several[which]);
    }
    tally_case("14 at quad 0", tally.quad_first);
    tally_case("14 at a later quad", tally.quad_later);
    tally_case("14 at several", tally.quads_several);
    tally_case("room one byte short", tally.one_short);
    tally_case("no room", tally.no_room);
    tally_case("room shorter still", tally.other_short);
    tally_case("more bytes than 32 bits can say", tally.bytes_cut);
}

static void tally_accepted(void)
{
    char name[60];
    tally_title("files that were written");
    for (unsigned count = 0; count < ITEMS(tally.vertex_digits); count++) {
        sprintf(name, "vertices of %u digit(s)", count + 1);
        tally_case(name, tally.vertex_digits[count]);
        sprintf(name, "quads of %u", count + 1);
        tally_case(name, tally.quad_digits[count]);
    }
    tally_case("room exact", tally.exact);
    tally_case("room longer", tally.longer);
    tally_case("spacing 1000", tally.spacing_most);
    tally_case("subnormal spacing", tally.spacing_subnormal);
    tally_case("the least spacing", tally.spacing_least);
    tally_case("offset 0", tally.offset_zero);
    tally_case("offset -0", tally.offset_minus_zero);
    tally_case("offset 1", tally.offset_one);
    tally_case("subnormal offset", tally.offset_subnormal);
    tally_case("last cube", tally.last_cube);
    tally_case("cube beyond 16 bits", tally.cube_beyond_16_bits);
    tally_case("quad with equal corners", tally.equal_corners);
    tally_case("sum that is rounded", tally.sum_rounded);
    tally_case("coordinate that differs if each part is multiplied", tally.other_product);
    tally_case("product too small for a double", tally.vanished);
}

uint64_t tally_files(void)
{
    tally_title("meshes that become files");
    tally_case("a block's own", tally.own);
    tally_case("a block's own, empty", tally.own_empty);
    tally_case("made up", tally.made_up);
    tally_refusals();
    tally_accepted();
    tally_reaches(&length_place);
    tally_reaches(&answer_place);
    return tally.files;
}
