/* Compares the crossed edges of blocks with the plain implementation. Once: blocks that were worked out by hand, and
   boards, boxes and grains, whose crossed edges a formula gives. With each block: its own samples; now and then a block
   with one long axis; and one about which one thing or several may be wrong, so that every refusal and every order of
   two refusals occurs. Where the library counts the crossed edges, its vertices and quads must keep both bounds. For
   blocks of up to 300000 samples its mesh must be accepted in rooms that are reserved by the crossed edges alone, and
   so must what is asked of a short mesh afterwards. Vertices, quads and mesh are those with some noise figure, of which
   the crossed edges know nothing.
   Assumes nothing more than compare.h. */
#include "compare.h"

#include "crash.h"
#include "hand_blocks.h"

#include <stdio.h>
#include <stdlib.h>
#include <string.h>

enum { REFUSALS = 3, ALL_DUE = 1 << 1 | 1 << 2 | 1 << 3, SAMPLE_EDGES = 6 };
enum { PRINTED_SAMPLES = 128, SHORT_BLOCK = 4000, MESHED_SAMPLES = 300000 };

/* A short mesh: plain takes the square of its quads. FILE_REST is what a file has besides vertices and quads. */
enum { SHORT_EDGES = 2048, SHORT_VERTICES = 4 * SHORT_EDGES / 3, FILE_REST = 186, FILE_VERTEX = 24, FILE_QUAD = 17 };

/* The longest that is asked once, of 256 by 256 by 2 samples, and all that there can be. */
enum { FIXED_SAMPLES = LONGEST_AXIS * LONGEST_AXIS * 2, MOST_SAMPLES = LONGEST_AXIS * LONGEST_AXIS * LONGEST_AXIS };

struct question {
    const char *name;
    uint32_t length[3];
    uint16_t t;
    uint32_t noise; /* of the mesh, and not of the crossed edges */
    const uint16_t *samples;
    size_t samples_len, answer_len;
    struct lying lying;
    int ceilings_beside; /* so that a reading beside the samples changes the answer */
};

static struct lent samples_place = LENT("samples of the crossed edges", sizeof(uint16_t), 0, byte_pattern);
static struct lent answer_place = LENT("answer of the crossed edges", sizeof(uint32_t), ANSWER, byte_pattern);
static struct lent words_place = LENT("reserved words", sizeof(uint32_t), 0, byte_pattern);
static struct lent offsets_place = LENT("reserved offsets", sizeof(double), 0, offset_pattern);
static struct lent quads_place = LENT("reserved quads", sizeof(uint32_t), 0, byte_pattern);
static struct lent mesh_place = LENT("answer of the mesh in reserved rooms", sizeof(uint32_t), ANSWER, byte_pattern);

/* What plain answers; and what the library counts, where plain does not refuse. */
static uint32_t answer[ANSWER], counted[ANSWER];

/* Lengths around the words of 64 samples and at the limit. */
static const uint32_t long_axes[] = {63, 64, 65, 127, 128, 129, 191, 192, 193, 255, 256};

enum { LONG_AXES = sizeof long_axes / sizeof *long_axes };

/* ---- what occurred ---- */

static struct {
    uint64_t blocks, by_hand, boards, boxes, grains, largest, own, long_blocks, bad_blocks;
    uint64_t last_sample[2], last_row[2], last_plane[2]; /* where ny is under 256, and where it is 256 */
    uint64_t none, all_on_faces, some_on_faces, no_multiple, ceilings, long_axes[3][LONG_AXES];
    uint64_t most_vertices, most_of_many, most_quads, fewer_vertices, fewer_quads, meshed, asked_after;
    struct noise_tally noise;
    uint64_t held, more_by_noise, fewer_by_noise, most_by_noise;
    uint64_t answers[REFUSALS + 1], orders[REFUSALS + 1][REFUSALS + 1], all_three;
    uint64_t zero, top;
    struct block_faults faults;
} tally;

static int has_ceiling(const struct question *question)
{
    for (size_t index = 0; index < question->samples_len; index++)
        if (question->samples[index] == CEILING)
            return 1;
    return 0;
}

static void count_answered(const struct question *question)
{
    uint64_t edges = answer[1], vertices = counted[1], quads = counted[2];
    tally.none += edges == 0;
    tally.all_on_faces += edges > 0 && quads == 0;
    tally.some_on_faces += quads > 0 && quads < edges;
    tally.no_multiple += edges % 3 != 0;
    tally.ceilings += edges > 0 && has_ceiling(question);
    tally.most_vertices += edges > 0 && 3 * vertices == 4 * edges;
    tally.most_of_many += edges > SAMPLE_EDGES && 3 * vertices == 4 * edges;
    tally.most_quads += edges > 0 && quads == edges;
    tally.fewer_vertices += 3 * vertices < 4 * edges;
    tally.fewer_quads += quads < edges;
    for (unsigned axis = 0; axis < 3; axis++)
        for (unsigned i = 0; i < LONG_AXES; i++)
            tally.long_axes[axis][i] += edges > 0 && question->length[axis] == long_axes[i];
}

/* The refusals that are due, were it not for lower ones: bit n for refusal n. */
static unsigned due(const struct question *question)
{
    unsigned refusals = 0;
    for (unsigned axis = 0; axis < 3; axis++)
        if (question->length[axis] < SHORTEST_AXIS || question->length[axis] > LONGEST_AXIS)
            refusals |= 1u << 1;
    if (question->samples_len != sample_product(question->length))
        refusals |= 1u << 2;
    if (question->t == 0 || question->t == CEILING)
        refusals |= 1u << 3;
    return refusals;
}

static void count_refused(const struct question *question)
{
    unsigned refusals = due(question);
    for (unsigned later = answer[0] + 1; later <= REFUSALS; later++)
        tally.orders[answer[0]][later] += refusals >> later & 1;
    tally.all_three += refusals == ALL_DUE;
    count_block_fault(&tally.faults, answer, question->length, question->samples_len);
    tally.zero += answer[0] == 3 && answer[1] == 0;
    tally.top += answer[0] == 3 && answer[1] == CEILING;
}

static void count_question(const struct question *question)
{
    tally.answers[answer[0]]++;
    if (answer[0] == 0)
        count_answered(question);
    else
        count_refused(question);
}

/* ---- one block ---- */

static void print_question(const struct question *question)
{
    printf("  %s; axes %lu, %lu, %lu; t %u; noise of the mesh %lu; lengths: samples %zu, answer %zu; "
           "plain: %lu, %lu, %lu",
           question->name, (unsigned long)question->length[0], (unsigned long)question->length[1],
           (unsigned long)question->length[2], (unsigned)question->t, (unsigned long)question->noise,
           question->samples_len, question->answer_len, (unsigned long)answer[0], (unsigned long)answer[1],
           (unsigned long)answer[2]);
    if (counted[1] > 0)
        printf("; counts of the library: %lu, %lu", (unsigned long)counted[1], (unsigned long)counted[2]);
    printf("; samples");
    for (size_t index = 0; index < question->samples_len && index < PRINTED_SAMPLES; index++)
        printf(" %u", (unsigned)question->samples[index]);
    printf("%s\n", question->samples_len > PRINTED_SAMPLES ? " ..." : "");
}

static void run_crossed(const struct question *q)
{
    struct wanted wanted[] = {{&answer_place, answer, ANSWER}};
    asking("plain_crossed");
    plain_crossed(q->length[0], q->length[1], q->length[2], q->samples, q->samples_len, q->t, answer, ANSWER);
    samples_place.pattern = q->ceilings_beside ? ceiling_pattern : byte_pattern;
    lend(&samples_place, q->samples_len, q->lying);
    if (q->samples_len > 0)
        memcpy(start(&samples_place), q->samples, q->samples_len * sizeof *q->samples);
    lend(&answer_place, q->answer_len, q->lying);
    hand_out_to_read(&samples_place);
    hand_out_all(CROSSED, q->lying, wanted, 1);
    parsniprow_crossed(q->length[0], q->length[1], q->length[2], start(&samples_place), q->samples_len, q->t,
                       start(&answer_place), q->answer_len);
    take_back_read(&samples_place);
    if (first_to_differ(CROSSED, wanted, 1))
        print_question(q);
}

/* What is true of the library's vertices and quads, whatever plain says of them. */
static void check_bounds(const struct question *q)
{
    uint64_t edges = answer[1];
    asking("parsniprow_counts");
    parsniprow_counts(q->length[0], q->length[1], q->length[2], q->samples, q->samples_len, q->t, q->noise, counted,
                      ANSWER);
    asking("the comparison");
    if (counted[0] != 0 || 3 * (uint64_t)counted[1] > 4 * edges || counted[2] > edges)
        if (first_to_fail("more vertices or quads than the crossed edges allow"))
            print_question(q);
}

/* What the noise figure does to a short block that has been counted, beside noise 0. */
static void check_noise(const struct question *q)
{
    uint32_t without[ANSWER];
    struct noise_effect effect;
    count_figure(&tally.noise, q->noise);
    if (q->noise == 0 || q->samples_len > SHORT_BLOCK)
        return;
    effect = effect_of(q->length, q->t, q->noise, q->samples);
    count_effect(&tally.noise, &effect);
    asking("parsniprow_counts");
    parsniprow_counts(q->length[0], q->length[1], q->length[2], q->samples, q->samples_len, q->t, 0, without, ANSWER);
    asking("the comparison");
    if (first_to_change(&effect, without, counted))
        print_question(q);
    tally.held++;
    tally.more_by_noise += counted[1] > without[1];
    tally.fewer_by_noise += counted[1] < without[1];
    tally.most_by_noise += counted[1] > without[1] && 3 * (uint64_t)counted[1] == 4 * (uint64_t)answer[1];
}

/* As a caller does who knows the crossed edges and nothing else of the mesh. */
static void reserve_rooms(const struct question *q)
{
    size_t edges = answer[1], vertices = 4 * edges / 3;
    lend(&words_place, 2 * vertices, q->lying);
    lend(&offsets_place, 3 * vertices, q->lying);
    lend(&quads_place, 4 * edges, q->lying);
    lend(&mesh_place, ANSWER, q->lying);
}

/* The mesh must be accepted, and what lies behind it must be kept. Which mesh it is, other parts compare. */
static void run_mesh(const struct question *q)
{
    struct wanted wanted[] = {{&mesh_place, counted, ANSWER},
                              {&words_place, start(&words_place), 2 * (size_t)counted[1]},
                              {&offsets_place, start(&offsets_place), 3 * (size_t)counted[1]},
                              {&quads_place, start(&quads_place), 4 * (size_t)counted[2]}};
    hand_out_to_read(&samples_place);
    hand_out_all(MESH, q->lying, wanted, 4);
    parsniprow_mesh(q->length[0], q->length[1], q->length[2], start(&samples_place), q->samples_len, q->t, q->noise,
                    start(&words_place), words_place.inside / words_place.item, start(&offsets_place),
                    offsets_place.inside / offsets_place.item, start(&quads_place),
                    quads_place.inside / quads_place.item, start(&mesh_place), ANSWER);
    take_back_read(&samples_place);
    if (first_to_differ(MESH, wanted, 4))
        print_question(q);
    tally.meshed++;
}

/* What is asked of a short mesh afterwards, in memory that is reserved by the crossed edges alone. */
static void ask_afterwards(const struct question *q)
{
    static uint64_t work[SHORT_VERTICES + 4 * SHORT_EDGES], length;
    static uint32_t piece[SHORT_VERTICES], size[SHORT_VERTICES];
    static uint8_t file[FILE_REST + FILE_VERTEX * SHORT_VERTICES + FILE_QUAD * SHORT_EDGES];
    uint32_t closed[CLOSED_ANSWER], pieces[ANSWER], ply[ANSWER];
    size_t edges = answer[1], vertices = 4 * edges / 3, quads_len = 4 * (size_t)counted[2];
    asking("what is asked of a mesh in reserved rooms");
    parsniprow_closed_with(start(&quads_place), quads_len, work, vertices + 4 * edges, closed, CLOSED_ANSWER);
    parsniprow_pieces(counted[1], start(&quads_place), quads_len, piece, vertices, size, vertices, pieces, ANSWER);
    parsniprow_ply(q->length[0], q->length[1], q->length[2], start(&words_place), 2 * (size_t)counted[1],
                   start(&offsets_place), 3 * (size_t)counted[1], start(&quads_place), quads_len, 1.0, 1.0, 1.0, file,
                   FILE_REST + FILE_VERTEX * vertices + FILE_QUAD * edges, &length, 1, ply, ANSWER);
    asking("the comparison");
    if (closed[0] != 0 || pieces[0] != 0 || ply[0] != 0)
        if (first_to_fail("too little memory for what is asked of a mesh in reserved rooms"))
            print_question(q);
    tally.asked_after++;
}

/* After a long block, so that with short ones no long pages are opened and closed. */
static void give_all_back(void)
{
    give_back(&samples_place);
    give_back(&words_place);
    give_back(&offsets_place);
    give_back(&quads_place);
}

/* Where the library's answer differs, no room is reserved by it. */
static void try_question(const struct question *question)
{
    memset(counted, 0, sizeof counted);
    run_crossed(question);
    tally.blocks++;
    if (answer[0] == 0 && holds(&answer_place, answer, ANSWER)) {
        check_bounds(question);
        check_noise(question);
        if (question->samples_len <= MESHED_SAMPLES) {
            reserve_rooms(question);
            run_mesh(question);
            if (answer[1] <= SHORT_EDGES && counted[2] <= SQUARE_QUADS)
                ask_afterwards(question);
        }
    }
    if (question->samples_len > SHORT_BLOCK)
        give_all_back();
}

/* ---- what is asked once ---- */

static uint16_t fixed_samples[FIXED_SAMPLES];

/* A block of these axes in the samples, with an answer place of the right length. Patterns and pages beside them take
   turns. */
static struct question next_question(const char *name, const uint32_t length[3], const uint16_t *samples)
{
    static unsigned turn;
    struct question question;
    memset(&question, 0, sizeof question);
    question.name = name;
    memcpy(question.length, length, sizeof question.length);
    question.t = 100;
    question.samples = samples;
    question.samples_len = (size_t)sample_product(length);
    question.answer_len = ANSWER;
    question.lying.beside = (enum beside)(turn % BESIDES);
    question.lying.shift = turn % MOST_SHIFT;
    question.ceilings_beside = turn / BESIDES % 2;
    turn++;
    return question;
}

/* Asks, and the library must have counted so many crossed edges. */
static void try_known(const struct question *question, uint32_t edges)
{
    uint32_t wanted[ANSWER] = {0, edges, 0};
    try_question(question);
    if (!holds(&answer_place, wanted, ANSWER) && first_to_fail("not the crossed edges that the formula gives"))
        print_question(question);
}

/* The library must have counted so many vertices and quads. */
static void expect_mesh(const struct question *question, uint32_t vertices, uint32_t quads)
{
    if ((counted[1] != vertices || counted[2] != quads) && first_to_fail("not the vertices and quads that are known"))
        print_question(question);
}

/* With all lengths of the answer place. */
static void try_hand_block(const struct hand_block *block)
{
    uint16_t samples[MOST_HAND_SAMPLES];
    fill_hand_block(block, samples);
    for (size_t answer_len = 0; answer_len <= ANSWER + 2; answer_len++)
        for (unsigned beside = 0; beside < 2 * BESIDES; beside++) {
            struct question question = next_question(block->name, block->length, samples);
            question.t = block->t;
            question.noise = block->noise;
            question.samples_len = block->samples_len;
            question.answer_len = answer_len;
            try_question(&question);
            if (!holds(&answer_place, block->answer, ANSWER) && first_to_fail(block->name))
                print_question(&question);
            if (block->answer[0] == 0)
                expect_mesh(&question, block->vertices, block->quads);
            tally.by_hand++;
        }
}

/* All edges are crossed. At 110 and 0 no metal is joined across a face, whatever the noise figure is, so each cube has
   four vertices. Either value stands first. */
static void try_board(uint32_t nx, uint32_t ny, uint32_t nz)
{
    uint32_t length[3] = {nx, ny, nz};
    for (unsigned is_metal_first = 0; is_metal_first < 2; is_metal_first++) {
        struct question question = next_question("a board", length, fixed_samples);
        fill_board(length, is_metal_first ? 110 : 0, is_metal_first ? 0 : 110, fixed_samples);
        question.noise = nx % 2 ? 0 : 9900;
        try_known(&question, all_edges(length));
        expect_mesh(&question, 4 * (nx - 1) * (ny - 1) * (nz - 1), inner_edges(length));
        tally.boards++;
    }
}

static void try_boards(void)
{
    for (uint32_t nx = 2; nx <= 5; nx++)
        for (uint32_t ny = 2; ny <= 5; ny++)
            for (uint32_t nz = 2; nz <= 5; nz++)
                try_board(nx, ny, nz);
    for (unsigned i = 0; i < LONG_AXES; i++) {
        try_board(long_axes[i], 3, 2);
        try_board(2, long_axes[i], 3);
        try_board(3, 2, long_axes[i]);
    }
    try_board(LONGEST_AXIS, LONGEST_AXIS, 2);
}

/* The whole of an axis, its first sample, its last, or all but these two. Of two samples the middle is the whole. */
enum part { WHOLE, FIRST, LAST, MIDDLE, PARTS };

static void choose_part(uint32_t length, enum part part, uint32_t *from, uint32_t *to)
{
    int is_middle = part == MIDDLE && length > 2;
    *from = part == LAST ? length - 1 : is_middle ? 1 : 0;
    *to = part == FIRST ? 1 : is_middle ? length - 1 : length;
}

static void count_box(const uint32_t length[3], const enum part part[3])
{
    unsigned is_longest = length[1] == LONGEST_AXIS;
    tally.boxes++;
    tally.last_sample[is_longest] += part[0] == LAST && part[1] == LAST && part[2] == LAST;
    tally.last_row[is_longest] += part[0] == WHOLE && part[1] == LAST;
    tally.last_plane[is_longest] += part[0] == WHOLE && part[1] == WHOLE && part[2] == LAST;
}

/* One box of metal in hollow and one of hollow in metal, for all parts of the three axes. Among them are the last
   sample, the last row of one plane and of all, the last plane, and the same at the other end. */
static void try_boxes(uint32_t nx, uint32_t ny, uint32_t nz)
{
    uint32_t length[3] = {nx, ny, nz};
    for (unsigned which = 0; which < 2 * PARTS * PARTS * PARTS; which++) {
        enum part part[3] = {(enum part)(which / 2 % PARTS), (enum part)(which / 2 / PARTS % PARTS),
                             (enum part)(which / 2 / PARTS / PARTS)};
        int is_metal = which % 2 == 0;
        struct question question =
            next_question(is_metal ? "a box of metal" : "a box of hollow", length, fixed_samples);
        struct box box;
        for (unsigned axis = 0; axis < 3; axis++)
            choose_part(length[axis], part[axis], &box.from[axis], &box.to[axis]);
        fill_box(length, &box, is_metal ? 400 : 0, is_metal ? 0 : 400, fixed_samples);
        try_known(&question, edges_of_box(length, &box));
        count_box(length, part);
    }
}

static void try_all_boxes(void)
{
    static const uint32_t lengths[][3] = {{2, 2, 2},   {3, 3, 3},   {5, 4, 3},    {64, 3, 2},  {65, 2, 3},
                                          {2, 64, 2},  {3, 2, 65},  {256, 3, 3},  {3, 255, 2}, {3, 256, 3},
                                          {2, 3, 256}, {255, 5, 4}, {130, 256, 2}};
    for (size_t i = 0; i < sizeof lengths / sizeof *lengths; i++)
        try_boxes(lengths[i][0], lengths[i][1], lengths[i][2]);
}

/* Each grain has six crossed edges, eight vertices and six quads: both bounds are reached. Close grains of metal at 110
   in hollow at 0 are not joined across a face, nor are close pores at 90 in metal at 200, up to a noise figure of 9900.
   Close grains of metal at 200 in hollow at 0 are tied, so with a noise figure of 1 they are not joined. */
static void try_grains(uint32_t nx, uint32_t ny, uint32_t nz)
{
    uint32_t length[3] = {nx, ny, nz};
    for (unsigned which = 0; which < 5; which++) {
        int is_metal = which % 2 == 0, is_close = which >= 2, is_tied = which == 4;
        struct question question = next_question("grains that are not joined", length, fixed_samples);
        uint16_t grain = is_tied ? 200 : is_metal ? 110 : 90;
        uint32_t grains = fill_grains(length, is_close, grain, is_metal ? 0 : 200, fixed_samples);
        question.noise = is_tied ? 1 : is_close ? 9900 : UINT32_MAX;
        try_known(&question, 6 * grains);
        expect_mesh(&question, 8 * grains, 6 * grains);
        tally.grains++;
    }
}

static void try_all_grains(void)
{
    for (uint32_t nx = 3; nx <= 7; nx++)
        for (uint32_t ny = 3; ny <= 5; ny++)
            for (uint32_t nz = 3; nz <= 5; nz++)
                try_grains(nx, ny, nz);
    for (unsigned i = 0; i < LONG_AXES; i++) {
        try_grains(long_axes[i], 4, 3);
        try_grains(3, long_axes[i], 4);
        try_grains(4, 3, long_axes[i]);
    }
}

void try_fixed_rooms(void)
{
    for (size_t i = 0; i < HAND_BLOCKS; i++)
        try_hand_block(&hand_blocks[i]);
    try_boards();
    try_all_boxes();
    try_all_grains();
}

/* The largest block: as a board, which has the most crossed edges, vertices and quads that there can be; then hollow
   but for its last sample, for the last row of its last plane, and for its last plane. */
void try_largest_blocks(void)
{
    static const uint32_t length[3] = {LONGEST_AXIS, LONGEST_AXIS, LONGEST_AXIS};
    static const struct {
        struct box box;
        uint32_t edges;
    } boxes[] = {{{{255, 255, 255}, {256, 256, 256}}, 3},
                 {{{0, 255, 255}, {256, 256, 256}}, 512},
                 {{{0, 0, 255}, {256, 256, 256}}, 65536}};
    uint16_t *samples = malloc(MOST_SAMPLES * sizeof *samples);
    struct question question;
    if (!samples) {
        fprintf(stderr, "compare: no memory\n");
        exit(2);
    }
    fill_board(length, 110, 0, samples);
    question = next_question("the largest board", length, samples);
    try_known(&question, 50135040);
    expect_mesh(&question, 66325500, 49354740);
    for (size_t i = 0; i < sizeof boxes / sizeof *boxes; i++) {
        question = next_question("the last samples of the largest block", length, samples);
        fill_box(length, &boxes[i].box, 400, 0, samples);
        try_known(&question, boxes[i].edges);
    }
    tally.largest += 1 + sizeof boxes / sizeof *boxes;
    free(samples);
}

/* ---- blocks with a block ---- */

/* What is still open about a question whose block and threshold stand fast. */
static void choose_places(struct chance *chance, struct question *question)
{
    int is_wrong = due(question) != 0;
    question->noise = choose_any_noise(chance, is_wrong, question->length, question->t, question->samples);
    question->answer_len = choose_reach(chance, ANSWER);
    question->lying = choose_lying(chance);
    question->ceilings_beside = chance_in_100(chance, 50);
}

static void try_own_block(const struct trial *trial, struct chance *chance)
{
    struct question question = {"the block", {0, 0, 0}, trial->t, 0, trial->samples, 0, 0, {PATTERNS, 0}, 0};
    memcpy(question.length, trial->length, sizeof question.length);
    question.samples_len = (size_t)sample_product(trial->length);
    choose_places(chance, &question);
    try_question(&question);
    count_question(&question);
    tally.own++;
}

/* The other two axes have two or three samples. */
static void try_long_block(struct chance *chance)
{
    static uint16_t samples[LONGEST_AXIS * 3 * 3];
    enum kind kind = (enum kind)chance_below(chance, KINDS);
    uint16_t t = choose_threshold(chance);
    struct question question = {kind_names[kind], {0, 0, 0}, t, 0, samples, 0, 0, {PATTERNS, 0}, 0};
    for (unsigned axis = 0; axis < 3; axis++)
        question.length[axis] = SHORTEST_AXIS + (uint32_t)chance_below(chance, 2);
    question.length[chance_below(chance, 3)] = long_axes[chance_below(chance, LONG_AXES)];
    question.samples_len = (size_t)sample_product(question.length);
    fill_block(chance, kind, question.length, question.t, samples);
    if (chance_below(chance, 3) == 0)
        add_ceilings(chance, question.length, question.t, samples);
    choose_places(chance, &question);
    try_question(&question);
    count_question(&question);
    tally.long_blocks++;
}

static void try_bad_block(struct chance *chance)
{
    static uint16_t samples[MOST_ANY_SAMPLES];
    uint16_t t = choose_threshold(chance);
    struct question question = {"some block", {0, 0, 0}, t, 0, samples, 0, 0, {PATTERNS, 0}, 0};
    choose_any_axes(chance, chance_in_100(chance, 40), question.length);
    question.samples_len = choose_any_count(chance, chance_in_100(chance, 40), sample_product(question.length));
    for (size_t index = 0; index < question.samples_len; index++)
        samples[index] = choose_grey(chance, question.t);
    if (chance_in_100(chance, 40))
        question.t = chance_in_100(chance, 50) ? 0 : CEILING;
    choose_places(chance, &question);
    try_question(&question);
    count_question(&question);
    tally.bad_blocks++;
}

void try_room(struct trial *trial)
{
    struct chance *chance = &trial->chance;
    try_own_block(trial, chance);
    if (chance_in_100(chance, 20))
        try_long_block(chance);
    try_bad_block(chance);
}

/* ---- printing ---- */

static void tally_asked_once(void)
{
    static const char *const ends[2] = {"ny under 256", "ny = 256"};
    char name[60];
    tally_title("blocks for room, asked once");
    tally_case("worked out by hand", tally.by_hand);
    tally_case("boards", tally.boards);
    tally_case("boxes", tally.boxes);
    tally_case("grains", tally.grains);
    tally_case("of 256 samples an axis", tally.largest);
    for (unsigned i = 0; i < 2; i++) {
        sprintf(name, "%s, the last sample", ends[i]);
        tally_case(name, tally.last_sample[i]);
        sprintf(name, "%s, the last row", ends[i]);
        tally_case(name, tally.last_row[i]);
        sprintf(name, "%s, the last plane", ends[i]);
        tally_case(name, tally.last_plane[i]);
    }
}

/* Each long axis length along each axis. */
static void tally_long_axes(void)
{
    char name[60];
    uint64_t found = 0;
    for (unsigned axis = 0; axis < 3; axis++)
        for (unsigned i = 0; i < LONG_AXES; i++)
            found += tally.long_axes[axis][i] > 0;
    sprintf(name, "lengths of 63 to 256 along x, y, z (%llu of %u)", (unsigned long long)found, 3 * LONG_AXES);
    tally_case(name, found == 3 * LONG_AXES ? found : 0);
}

static void tally_answered(void)
{
    tally_title("crossed edges");
    tally_case("none", tally.none);
    tally_case("all on faces of the box", tally.all_on_faces);
    tally_case("some on faces", tally.some_on_faces);
    tally_case("no multiple of 3", tally.no_multiple);
    tally_case("with a ceiling", tally.ceilings);
    tally_long_axes();
    tally_title("bounds");
    tally_case("3 * vertices = 4 * crossed edges", tally.most_vertices);
    tally_case("of more than one sample", tally.most_of_many);
    tally_case("quads = crossed edges", tally.most_quads);
    tally_case("fewer vertices", tally.fewer_vertices);
    tally_case("fewer quads", tally.fewer_quads);
    tally_case("meshes in reserved rooms", tally.meshed);
    tally_case("and asked about", tally.asked_after);
    tally_title("blocks for room with a noise figure");
    tally_noise(&tally.noise);
    tally_case("held against noise 0", tally.held);
    tally_case("more vertices than with noise 0", tally.more_by_noise);
    tally_case("as many as there can be", tally.most_by_noise);
    tally_case("fewer than with noise 0", tally.fewer_by_noise);
}

static void tally_refused(void)
{
    char name[40];
    tally_title("answers of the crossed edges");
    tally_case("counted", tally.answers[0]);
    for (unsigned number = 1; number <= REFUSALS; number++) {
        sprintf(name, "refusal %u", number);
        tally_case(name, tally.answers[number]);
    }
    tally_block_faults(&tally.faults);
    tally_case("t = 0", tally.zero);
    tally_case("t = 65535", tally.top);
    for (unsigned number = 1; number <= REFUSALS; number++)
        for (unsigned later = number + 1; later <= REFUSALS; later++) {
            sprintf(name, "%u before %u", number, later);
            tally_case(name, tally.orders[number][later]);
        }
    tally_case("all three due", tally.all_three);
}

uint64_t tally_rooms(void)
{
    tally_asked_once();
    tally_title("blocks for room");
    tally_case("of a block", tally.own);
    tally_case("with a long axis", tally.long_blocks);
    tally_case("with what may be wrong", tally.bad_blocks);
    tally_answered();
    tally_refused();
    tally_reaches(&answer_place);
    return tally.blocks;
}
