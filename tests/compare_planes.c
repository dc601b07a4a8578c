/* Compares meshes that are made plane by plane with the plain implementation. What each call of a run must write is cut
   out of plain's mesh of the whole block. Before each call its buffers are lent anew, at another place and with what
   the call before left in the state and in the work. With every second block: one to three runs, which take turns;
   among their planes calls that are refused, for one reason or for several, after which the run goes on; calls with
   states and works that are not the run's own; starts, and ends too early and at the end. When a run is whole, all that
   the library wrote must be the mesh that it makes of the whole block, with the noise figure of the run. Two runs often
   have one block and two noise figures. Once: the paper's block, whose calls were worked out by hand; states that are
   too short; and lengths that no memory has.
   With a state or a work that no call left, the mesh is not known. Then the call must end, keep to what it answers, and
   change nothing where it refuses.
   Assumes nothing more than compare.h. */
#include "compare.h"

#include "crash.h"
#include "hand_blocks.h"

#include <stdio.h>
#include <stdlib.h>
#include <string.h>

enum { STATE = PARSNIPROW_STATE, WORK_PLANES = 6, MOST_RUNS = 3, PRINTED_SAMPLES = 128, SHORT_PLANE = 2000 };

/* The items of a state. */
enum { AT_NX, AT_NY, AT_NZ, AT_T, AT_NOISE, AT_VERTICES, AT_QUADS, AT_PLANES };

/* The refusals of a plane in their order; what a start can be refused for is among them. */
enum row { AXIS, THRESHOLD, PAST, COUNT, WORK, VERTICES, QUADS, ROWS };

static const unsigned row_numbers[ROWS] = {1, 3, 17, 2, 15, 5, 6};

static struct lent plane_place = LENT("plane", sizeof(uint16_t), 0, byte_pattern);
static struct lent state_place = LENT("state of the run", sizeof(uint32_t), STATE, byte_pattern);
static struct lent work_place = LENT("work of the run", sizeof(uint32_t), 0, byte_pattern);
static struct lent words_place = LENT("words of the plane", sizeof(uint32_t), 0, byte_pattern);
static struct lent offsets_place = LENT("offsets of the plane", sizeof(double), 0, offset_pattern);
static struct lent quads_place = LENT("quads of the plane", sizeof(uint32_t), 0, byte_pattern);
static struct lent answer_place = LENT("answer of the plane", sizeof(uint32_t), ANSWER, byte_pattern);

/* ---- what occurred ---- */

static struct {
    uint64_t by_hand, fixed, large, largest, no_memory;
    uint64_t alone, two, three, same_block, same_threshold, other_mesh, turns;
    struct noise_tally noise;
    uint64_t changed, changed_first, changed_later;
    uint64_t first, further, with_vertices, with_quads, only_vertices, nothing, marked, along[3], many_in_cube, last;
    uint64_t exact, longer, longer_work, longer_state;
    uint64_t answers[ROWS + 1], orders[ROWS][ROWS], gone_on[ROWS], refused_first[ROWS];
    uint64_t short_words, short_offsets, short_quads, one_less[3], no_room, plane_less, plane_more, no_plane;
    uint64_t work_less, no_work, past_by_more;
    uint64_t starts[ROWS + 1], start_orders[ROWS][ROWS], start_shorter, start_longer;
    struct block_faults faults;
    uint64_t end_early, end_at_none, end_whole, end_again, end_past, end_short;
    uint64_t short_state[STATE];
    uint64_t foreign_states, foreign_works, foreign_first, foreign_accepted, foreign_refused[2];
    uint64_t wide_threshold, wrapped, foreign_noise;
    uint64_t whole_meshes;
} tally;

/* ---- a run ---- */

/* A block on its way, plane by plane: its whole mesh as plain makes it, with the quads in the order of the calls and
   how many vertices and quads each call writes; the state and the work as the last call left them; and what the library
   has written so far. */
struct run {
    const char *name;
    uint32_t length[3], vertex_count, quad_count, vertices_of[LONGEST_AXIS], quads_of[LONGEST_AXIS], state[STATE];
    uint32_t *words, *quads, *work, *got_words, *got_quads;
    double *offsets, *got_offsets;
    uint16_t *samples, t;
    uint32_t noise;
    enum row refused; /* the last refusal since a plane was taken, or ROWS */
};

static void *room_for(size_t count, size_t item)
{
    void *room = malloc(count > 0 ? count * item : 1);
    if (!room) {
        fprintf(stderr, "compare: no memory\n");
        exit(2);
    }
    return room;
}

static size_t plane_size(const struct run *run)
{
    return (size_t)run->length[0] * run->length[1];
}

static size_t work_size(const struct run *run)
{
    return WORK_PLANES * plane_size(run);
}

/* Asks plain for the whole mesh, and cuts it. */
static void ask_plain(struct run *run)
{
    const uint32_t *n = run->length;
    size_t count = (size_t)sample_product(n);
    uint32_t answer[ANSWER], *quads;
    asking("plain_counts");
    plain_counts(n[0], n[1], n[2], run->samples, count, run->t, run->noise, answer, ANSWER);
    run->vertex_count = answer[1];
    run->quad_count = answer[2];
    run->words = room_for(2 * (size_t)answer[1], sizeof *run->words);
    run->offsets = room_for(3 * (size_t)answer[1], sizeof *run->offsets);
    run->quads = room_for(4 * (size_t)answer[2], sizeof *run->quads);
    quads = room_for(4 * (size_t)answer[2], sizeof *quads);
    asking("plain_mesh");
    plain_mesh(n[0], n[1], n[2], run->samples, count, run->t, run->noise, run->words, 2 * (size_t)answer[1],
               run->offsets, 3 * (size_t)answer[1], quads, 4 * (size_t)answer[2], answer, ANSWER);
    plain_cut(n[0], n[1], n[2], run->words, answer[1], quads, answer[2], run->vertices_of, run->quads_of, run->quads);
    free(quads);
    asking("the comparison");
}

/* Of a block whose samples are copied. Nothing has been asked of the library yet. */
static struct run new_run(const char *name, const uint32_t length[3], uint16_t t, uint32_t noise,
                          const uint16_t *samples)
{
    struct run run;
    size_t count = (size_t)sample_product(length);
    memset(&run, 0, sizeof run);
    run.name = name;
    memcpy(run.length, length, sizeof run.length);
    run.t = t;
    run.noise = noise;
    run.refused = ROWS;
    run.samples = room_for(count, sizeof *run.samples);
    memcpy(run.samples, samples, count * sizeof *samples);
    ask_plain(&run);
    run.work = room_for(work_size(&run), sizeof *run.work);
    memset(run.work, 0xA5, work_size(&run) * sizeof *run.work);
    run.got_words = room_for(2 * (size_t)run.vertex_count, sizeof *run.got_words);
    run.got_offsets = room_for(3 * (size_t)run.vertex_count, sizeof *run.got_offsets);
    run.got_quads = room_for(4 * (size_t)run.quad_count, sizeof *run.got_quads);
    return run;
}

/* After a long plane, so that with short ones no long pages are opened and closed. */
static void give_places_back(void)
{
    give_back(&plane_place);
    give_back(&work_place);
    give_back(&words_place);
    give_back(&offsets_place);
    give_back(&quads_place);
}

static void end_run(struct run *run)
{
    if (plane_size(run) > SHORT_PLANE)
        give_places_back();
    free(run->samples);
    free(run->words);
    free(run->offsets);
    free(run->quads);
    free(run->work);
    free(run->got_words);
    free(run->got_offsets);
    free(run->got_quads);
}

/* ---- one plane ---- */

/* What a call is lent: the first items of the state, of the plane and of the work, and how long each buffer is. Where
   it is known, what the call must write. */
struct call {
    const char *name;
    uint32_t state[STATE];
    const uint16_t *plane;
    const uint32_t *work;
    size_t plane_items, work_items;
    size_t state_len, plane_len, work_len, words_len, offsets_len, quads_len, answer_len;
    struct lying lying;
    int ceilings_beside; /* so that a reading beside the plane changes the answer */
    int is_known;
    uint32_t vertex_count, quad_count;
    const uint32_t *words, *quads;
    const double *offsets;
};

/* What is wanted of a call: the refusal that is due or ROWS, the answer, the state afterwards. */
struct due {
    unsigned rows; /* all that are due, bit n for the one at place n of their order */
    enum row first;
    uint32_t answer[ANSWER], state[STATE];
};

/* The state as a call reads it. */
static void read_state(const uint32_t *state, size_t state_len, uint32_t items[STATE])
{
    for (size_t i = 0; i < STATE; i++)
        items[i] = i < state_len ? state[i] : 0;
    items[AT_T] %= CEILING + 1;
}

static unsigned bad_axes(const uint32_t *length, uint32_t *lowest)
{
    unsigned bad = 0;
    for (unsigned axis = 3; axis-- > 0;)
        if (length[axis] < SHORTEST_AXIS || length[axis] > LONGEST_AXIS) {
            *lowest = axis;
            bad++;
        }
    return bad;
}

static int is_bad_threshold(uint32_t t)
{
    return t == 0 || t == CEILING;
}

/* The product of two axes, which no length reaches where an axis is too long. */
static uint64_t size_of(const uint32_t *length)
{
    return (uint64_t)length[0] * length[1];
}

static unsigned rows_due(const struct call *call, const uint32_t *s, uint32_t values[ROWS])
{
    uint64_t size = size_of(s);
    unsigned due = 0;
    values[THRESHOLD] = s[AT_T];
    values[PAST] = s[AT_NZ];
    values[COUNT] = (uint32_t)size;
    values[WORK] = (uint32_t)(WORK_PLANES * size);
    values[VERTICES] = call->vertex_count;
    values[QUADS] = call->quad_count;
    due |= bad_axes(s, &values[AXIS]) ? 1u << AXIS : 0;
    due |= is_bad_threshold(s[AT_T]) ? 1u << THRESHOLD : 0;
    due |= s[AT_PLANES] >= s[AT_NZ] ? 1u << PAST : 0;
    due |= call->plane_len != size ? 1u << COUNT : 0;
    due |= call->work_len / WORK_PLANES < size ? 1u << WORK : 0;
    if (call->is_known && (call->words_len < 2 * (size_t)call->vertex_count ||
                           call->offsets_len < 3 * (size_t)call->vertex_count))
        due |= 1u << VERTICES;
    if (call->is_known && call->quads_len < 4 * (size_t)call->quad_count)
        due |= 1u << QUADS;
    return due;
}

/* What is wanted, as far as it is known. A first plane writes nothing, whatever stands in the work. */
static struct due due_of(struct call *call)
{
    struct due due;
    uint32_t items[STATE], values[ROWS] = {0};
    memset(&due, 0, sizeof due);
    read_state(call->state, call->state_len, items);
    if (items[AT_PLANES] == 0) {
        call->is_known = 1;
        call->vertex_count = call->quad_count = 0;
    }
    due.rows = rows_due(call, items, values);
    due.first = AXIS;
    while (due.first < ROWS && !(due.rows >> due.first & 1))
        due.first = (enum row)(due.first + 1);
    memcpy(due.state, call->state, sizeof due.state);
    if (due.first < ROWS) {
        due.answer[0] = row_numbers[due.first];
        due.answer[1] = values[due.first];
        return due;
    }
    due.answer[1] = call->vertex_count;
    due.answer[2] = call->quad_count;
    due.state[AT_T] %= CEILING + 1; /* as it was read */
    due.state[AT_VERTICES] += call->vertex_count;
    due.state[AT_QUADS] += call->quad_count;
    due.state[AT_PLANES]++;
    return due;
}

static void print_call(const struct call *call, const struct due *due)
{
    printf("  %s; state", call->name);
    for (size_t i = 0; i < STATE; i++)
        printf(" %lu", (unsigned long)call->state[i]);
    printf("; lengths: state %zu, plane %zu, work %zu, words %zu, offsets %zu, quads %zu, answer %zu", call->state_len,
           call->plane_len, call->work_len, call->words_len, call->offsets_len, call->quads_len, call->answer_len);
    if (due->first < ROWS || call->is_known)
        printf("; wanted: %lu, %lu, %lu", (unsigned long)due->answer[0], (unsigned long)due->answer[1],
               (unsigned long)due->answer[2]);
    printf("; plane");
    for (size_t i = 0; i < call->plane_items && i < PRINTED_SAMPLES; i++)
        printf(" %u", (unsigned)call->plane[i]);
    printf("%s\n", call->plane_items > PRINTED_SAMPLES ? " ..." : "");
}

static size_t smaller(size_t a, size_t b)
{
    return a < b ? a : b;
}

static void lend_copy(struct lent *place, size_t length, const void *items, size_t count, struct lying lying)
{
    lend(place, length, lying);
    if (smaller(length, count) > 0)
        memcpy(start(place), items, smaller(length, count) * place->item);
}

static void lend_call(const struct call *call)
{
    plane_place.pattern = call->ceilings_beside ? ceiling_pattern : byte_pattern;
    lend_copy(&plane_place, call->plane_len, call->plane, call->plane_items, call->lying);
    lend_copy(&state_place, call->state_len, call->state, STATE, call->lying);
    lend_copy(&work_place, call->work_len, call->work, call->work_items, call->lying);
    lend(&words_place, call->words_len, call->lying);
    lend(&offsets_place, call->offsets_len, call->lying);
    lend(&quads_place, call->quads_len, call->lying);
    lend(&answer_place, call->answer_len, call->lying);
}

/* Before the first plane nothing may hang on what stands in the work. */
static void ask_library(const struct call *call, const struct wanted *wanted, size_t count)
{
    uint32_t items[STATE];
    read_state(call->state, call->state_len, items);
    hand_out_to_read(&plane_place);
    hand_out_all(PLANES, call->lying, wanted, count);
    hand_out_to_change(&state_place);
    if (items[AT_PLANES] == 0)
        hand_out(&work_place);
    else
        hand_out_to_change(&work_place);
    parsniprow_plane(start(&state_place), call->state_len, start(&plane_place), call->plane_len, start(&work_place),
                     call->work_len, start(&words_place), call->words_len, start(&offsets_place), call->offsets_len,
                     start(&quads_place), call->quads_len, start(&answer_place), call->answer_len);
    take_back_read(&plane_place);
    take_back(&work_place, 0);
}

/* Whether the work is as it was, from this item on. */
static int keeps_work(const struct call *call, size_t from)
{
    const uint32_t *work = start(&work_place);
    size_t given = smaller(call->work_items, call->work_len);
    if (from < given && memcmp(work + from, call->work + from, (given - from) * sizeof *work) != 0)
        return 0;
    return holds(&work_place, work, from < given ? given : from);
}

/* A call may change the work as far as it needs it, and where it refuses, nothing. */
static void judge_work(const struct call *call, const struct due *due, int is_refused)
{
    uint32_t items[STATE];
    int is_kept;
    read_state(call->state, call->state_len, items);
    is_kept = keeps_work(call, is_refused ? 0 : WORK_PLANES * (size_t)size_of(items));
    if (!is_kept && first_to_fail(is_refused ? "a refused plane changes the work" : "a plane writes behind its work"))
        print_call(call, due);
    if (!holds(&plane_place, call->plane, call->plane_items) && first_to_fail("a plane is changed"))
        print_call(call, due);
}

/* A call of which all is known but what it leaves in the work. */
static void judge_known(const struct call *call, const struct due *due)
{
    int is_refused = due->first < ROWS;
    struct wanted wanted[] = {{&answer_place, due->answer, ANSWER},
                              {&state_place, due->state, STATE},
                              {&words_place, call->words, is_refused ? 0 : 2 * (size_t)call->vertex_count},
                              {&offsets_place, call->offsets, is_refused ? 0 : 3 * (size_t)call->vertex_count},
                              {&quads_place, call->quads, is_refused ? 0 : 4 * (size_t)call->quad_count}};
    lend_call(call);
    ask_library(call, wanted, 5);
    if (first_to_differ(PLANES, wanted, 5))
        print_call(call, due);
    judge_work(call, due, is_refused);
}

/* How many vertices and quads a call can have at most. */
static size_t most_vertices(const uint32_t *n)
{
    return 4 * (size_t)(n[0] - 1) * (n[1] - 1);
}

static size_t most_quads(const uint32_t *n)
{
    return (size_t)(n[0] - 1) * (n[1] - 2) + (size_t)(n[0] - 2) * (n[1] - 1) + (size_t)(n[0] - 2) * (n[1] - 2);
}

/* Whether the answer of a call whose mesh is not known fits its buffers: it is accepted and has room for what it wrote,
   or it says that there is too little. */
static int fits(const struct call *call, const uint32_t *answer)
{
    size_t v = answer[1], q = answer[2];
    if (answer[0] == row_numbers[VERTICES])
        return q == 0 && v <= most_vertices(call->state) && (call->words_len < 2 * v || call->offsets_len < 3 * v);
    if (answer[0] == row_numbers[QUADS])
        return q == 0 && v <= most_quads(call->state) && call->quads_len < 4 * v;
    return answer[0] == 0 && v <= most_vertices(call->state) && q <= most_quads(call->state) &&
           call->words_len >= 2 * v && call->offsets_len >= 3 * v && call->quads_len >= 4 * q;
}

/* A call whose state and lengths are good, and of which nothing else is known. Its answer place has three items. */
static void judge_foreign(const struct call *call, struct due *due)
{
    uint32_t said[ANSWER];
    int is_refused;
    struct wanted wanted[] = {{&answer_place, said, ANSWER}, {&state_place, due->state, STATE},
                              {&words_place, NULL, 0}, {&offsets_place, NULL, 0}, {&quads_place, NULL, 0}};
    lend_call(call);
    ask_library(call, wanted, 5);
    memcpy(said, start(&answer_place), sizeof said);
    is_refused = said[0] != 0;
    if (!fits(call, said)) {
        if (first_to_fail("an answer to a state or work that is not the run's does not fit its buffers"))
            print_call(call, due);
        said[1] = said[2] = 0;
    }
    memcpy(due->state, call->state, sizeof due->state);
    if (!is_refused) {
        due->state[AT_T] %= CEILING + 1;
        due->state[AT_VERTICES] += said[1];
        due->state[AT_QUADS] += said[2];
        due->state[AT_PLANES]++;
        wanted[2].items = start(&words_place);
        wanted[2].count = 2 * (size_t)said[1];
        wanted[3].items = start(&offsets_place);
        wanted[3].count = 3 * (size_t)said[1];
        wanted[4].items = start(&quads_place);
        wanted[4].count = 4 * (size_t)said[2];
    }
    if (first_to_differ(PLANES, wanted, 5))
        print_call(call, due);
    judge_work(call, due, is_refused);
    tally.foreign_accepted += !is_refused;
    tally.foreign_refused[0] += said[0] == row_numbers[VERTICES];
    tally.foreign_refused[1] += said[0] == row_numbers[QUADS];
}

static void count_refused(const struct call *call, const struct due *due)
{
    uint32_t lowest;
    tally.refused_first[due->first] += call->state[AT_PLANES] == 0;
    for (unsigned later = (unsigned)due->first + 1; later < ROWS; later++)
        tally.orders[due->first][later] += due->rows >> later & 1;
    if (due->first == COUNT) {
        tally.plane_less += call->plane_len + 1 == due->answer[1];
        tally.plane_more += call->plane_len == (size_t)due->answer[1] + 1;
        tally.no_plane += call->plane_len == 0;
    }
    if (due->first == WORK) {
        tally.work_less += call->work_len + 1 == due->answer[1];
        tally.no_work += call->work_len == 0;
    }
    if (due->first == VERTICES) {
        size_t v = due->answer[1];
        tally.short_words += call->words_len < 2 * v && call->offsets_len >= 3 * v;
        tally.short_offsets += call->words_len >= 2 * v && call->offsets_len < 3 * v;
        tally.one_less[0] += call->words_len + 1 == 2 * v && call->offsets_len >= 3 * v;
        tally.one_less[1] += call->words_len >= 2 * v && call->offsets_len + 1 == 3 * v;
        tally.no_room += call->words_len == 0 && call->offsets_len == 0;
    }
    if (due->first == QUADS) {
        tally.short_quads++;
        tally.one_less[2] += call->quads_len + 1 == 4 * (size_t)due->answer[1];
    }
    if (due->first == PAST && !bad_axes(call->state, &lowest))
        tally.past_by_more += call->state[AT_PLANES] > call->state[AT_NZ];
}

/* Which axis the edge of a quad runs along: that in which the cubes of its first and its third vertex agree. Where it
   has a vertex that is not there, 3. */
static unsigned axis_of(const struct run *run, const uint32_t *quad)
{
    uint32_t one, other;
    if (quad[0] >= run->vertex_count || quad[2] >= run->vertex_count)
        return 3;
    one = run->words[2 * (size_t)quad[0]];
    other = run->words[2 * (size_t)quad[2]];
    for (unsigned axis = 0; axis < 3; axis++) {
        uint32_t cubes = run->length[axis] - 1;
        if (one % cubes == other % cubes)
            return axis;
        one /= cubes;
        other /= cubes;
    }
    return 3;
}

static void count_part(const struct run *run, const struct call *call)
{
    size_t loops = 1;
    tally.first += call->state[AT_PLANES] == 0;
    tally.further += call->state[AT_PLANES] > 0;
    tally.last += call->state[AT_PLANES] + 1 == run->length[2];
    tally.with_vertices += call->vertex_count > 0;
    tally.with_quads += call->quad_count > 0;
    tally.only_vertices += call->vertex_count > 0 && call->quad_count == 0;
    tally.nothing += call->state[AT_PLANES] > 0 && call->vertex_count == 0;
    for (size_t i = 0; i < call->vertex_count; i++) {
        tally.marked += (call->words[2 * i + 1] & MARK) != 0;
        loops = i > 0 && call->words[2 * i] == call->words[2 * i - 2] ? loops + 1 : 1;
        tally.many_in_cube += loops == LOOPS;
    }
    for (size_t i = 0; i < call->quad_count; i++)
        tally.along[axis_of(run, call->quads + 4 * i) % 3]++;
    tally.exact += call->words_len == 2 * (size_t)call->vertex_count &&
                   call->offsets_len == 3 * (size_t)call->vertex_count &&
                   call->quads_len == 4 * (size_t)call->quad_count && call->vertex_count > 0;
    tally.longer += call->words_len > 2 * (size_t)call->vertex_count &&
                    call->offsets_len > 3 * (size_t)call->vertex_count &&
                    call->quads_len > 4 * (size_t)call->quad_count;
    tally.longer_work += call->work_len > work_size(run);
    tally.longer_state += call->state_len > STATE;
    if (run->refused < ROWS)
        tally.gone_on[run->refused]++;
}

/* Asks for a call, and gives which refusal was due, or ROWS. */
static enum row try_call(struct call *call)
{
    struct due due = due_of(call);
    if (due.first < ROWS || call->is_known)
        judge_known(call, &due);
    else
        judge_foreign(call, &due);
    tally.answers[due.first]++;
    if (due.first < ROWS)
        count_refused(call, &due);
    return due.first;
}

/* The next call of a run, with room just for what it needs. */
static struct call next_call(const struct run *run)
{
    struct call call;
    uint32_t k = run->state[AT_PLANES];
    int is_there = k < run->length[2];
    memset(&call, 0, sizeof call);
    call.name = run->name;
    memcpy(call.state, run->state, sizeof call.state);
    call.plane = run->samples + (is_there ? k : 0) * plane_size(run);
    call.work = run->work;
    call.plane_items = call.plane_len = plane_size(run);
    call.work_items = call.work_len = work_size(run);
    call.state_len = STATE;
    call.answer_len = ANSWER;
    call.is_known = is_there;
    if (is_there) {
        call.vertex_count = run->vertices_of[k];
        call.quad_count = run->quads_of[k];
        call.words = run->words + 2 * (size_t)run->state[AT_VERTICES];
        call.offsets = run->offsets + 3 * (size_t)run->state[AT_VERTICES];
        call.quads = run->quads + 4 * (size_t)run->state[AT_QUADS];
    }
    call.words_len = 2 * (size_t)call.vertex_count;
    call.offsets_len = 3 * (size_t)call.vertex_count;
    call.quads_len = 4 * (size_t)call.quad_count;
    return call;
}

/* Takes the call's plane, which nothing refuses. What the library left is what the run goes on with. */
static void take_plane(struct run *run, struct call *call)
{
    size_t v = run->state[AT_VERTICES], q = run->state[AT_QUADS];
    try_call(call);
    memcpy(run->got_words + 2 * v, start(&words_place), 2 * (size_t)call->vertex_count * sizeof *run->got_words);
    memcpy(run->got_offsets + 3 * v, start(&offsets_place), 3 * (size_t)call->vertex_count * sizeof *run->got_offsets);
    memcpy(run->got_quads + 4 * q, start(&quads_place), 4 * (size_t)call->quad_count * sizeof *run->got_quads);
    memcpy(run->work, start(&work_place), work_size(run) * sizeof *run->work);
    count_part(run, call);
    run->state[AT_VERTICES] += call->vertex_count;
    run->state[AT_QUADS] += call->quad_count;
    run->state[AT_PLANES]++;
    run->refused = ROWS;
}

/* ---- starts and ends ---- */

struct start_call {
    const char *name;
    uint32_t length[3];
    uint16_t t;
    uint32_t noise;
    uint32_t *work; /* where it is given no memory is lent for it */
    size_t work_len, state_len, answer_len;
    struct lying lying;
};

static void print_start(const struct start_call *call)
{
    printf("  start, %s; axes %lu, %lu, %lu; t = %u; noise %lu; lengths: work %zu, state %zu, answer %zu\n", call->name,
           (unsigned long)call->length[0], (unsigned long)call->length[1], (unsigned long)call->length[2],
           (unsigned)call->t, (unsigned long)call->noise, call->work_len, call->state_len, call->answer_len);
}

/* The work may be read at most, and what is written to it crashes. Gives which refusal was due, or ROWS. */
static enum row try_start(const struct start_call *call)
{
    const uint32_t *n = call->length;
    uint32_t state[STATE] = {n[0], n[1], n[2], call->t, call->noise, 0, 0, 0}, answer[ANSWER] = {0, 0, 0}, lowest = 0;
    unsigned due = 0;
    enum row first = AXIS;
    struct wanted wanted[] = {{&answer_place, answer, ANSWER}, {&state_place, state, STATE}};
    due |= bad_axes(n, &lowest) ? 1u << AXIS : 0;
    due |= is_bad_threshold(call->t) ? 1u << THRESHOLD : 0;
    due |= call->work_len / WORK_PLANES < size_of(n) ? 1u << WORK : 0;
    while (first < ROWS && !(due >> first & 1))
        first = (enum row)(first + 1);
    if (first < ROWS) {
        answer[0] = row_numbers[first];
        answer[1] = first == AXIS ? lowest : first == THRESHOLD ? call->t : (uint32_t)(WORK_PLANES * size_of(n));
        wanted[1].count = 0;
    }
    lend(&work_place, call->work ? 0 : call->work_len, call->lying);
    lend(&state_place, call->state_len, call->lying);
    lend(&answer_place, call->answer_len, call->lying);
    hand_out_to_read(&work_place);
    hand_out_all(START, call->lying, wanted, 2);
    parsniprow_start(n[0], n[1], n[2], call->t, call->noise, call->work ? call->work : start(&work_place),
                     call->work_len, start(&state_place), call->state_len, start(&answer_place), call->answer_len);
    take_back_read(&work_place);
    if (first_to_differ(START, wanted, 2))
        print_start(call);
    if (!holds(&work_place, NULL, 0) && first_to_fail("a start changes the work"))
        print_start(call);
    tally.starts[first]++;
    for (unsigned later = (unsigned)first + 1; first < ROWS && later < ROWS; later++)
        tally.start_orders[first][later] += due >> later & 1;
    tally.start_shorter += first == ROWS && call->state_len < STATE;
    tally.start_longer += first == ROWS && call->state_len > STATE;
    count_block_fault(&tally.faults, answer, n, (size_t)sample_product(n));
    return first;
}

static struct start_call start_of(const char *name, const uint32_t length[3], uint16_t t, uint32_t noise)
{
    struct start_call call;
    memset(&call, 0, sizeof call);
    call.name = name;
    memcpy(call.length, length, sizeof call.length);
    call.t = t;
    call.noise = noise;
    call.work_len = WORK_PLANES * (size_t)size_of(length);
    call.state_len = STATE;
    call.answer_len = ANSWER;
    return call;
}

/* The end of a run in this state, of which so many items are lent. */
static void try_end(const uint32_t *state, size_t state_len, size_t answer_len, struct lying lying)
{
    uint32_t items[STATE], answer[ANSWER] = {0, 0, 0};
    struct wanted wanted[] = {{&answer_place, answer, ANSWER}};
    int is_early;
    read_state(state, state_len, items);
    is_early = items[AT_PLANES] < items[AT_NZ];
    answer[0] = is_early ? 18 : 0;
    answer[1] = is_early ? items[AT_PLANES] : items[AT_VERTICES];
    answer[2] = is_early ? 0 : items[AT_QUADS];
    lend_copy(&state_place, state_len, state, STATE, lying);
    lend(&answer_place, answer_len, lying);
    hand_out_to_read(&state_place);
    hand_out_all(END, lying, wanted, 1);
    parsniprow_end(start(&state_place), state_len, start(&answer_place), answer_len);
    take_back_read(&state_place);
    if (first_to_differ(END, wanted, 1) ||
        (!holds(&state_place, state, STATE) && first_to_fail("an end changes the state")))
        printf("  end; planes %lu of %lu, state of %zu items, answer of %zu\n", (unsigned long)items[AT_PLANES],
               (unsigned long)items[AT_NZ], state_len, answer_len);
    tally.end_early += is_early && items[AT_PLANES] > 0;
    tally.end_at_none += is_early && items[AT_PLANES] == 0;
    tally.end_whole += !is_early && state_len >= STATE && items[AT_PLANES] == items[AT_NZ];
    tally.end_past += !is_early && state_len >= STATE && items[AT_PLANES] > items[AT_NZ];
    tally.end_short += state_len < STATE;
}

/* ---- the whole of a run ---- */

/* All that the library wrote must be its own mesh of the whole block: words and offsets as they came, and the quads
   when those along x are put first, then y, then z, each in the order in which they came. */
static void compare_with_mesh(const struct run *run)
{
    const uint32_t *n = run->length;
    size_t words = 2 * (size_t)run->vertex_count, offsets = 3 * (size_t)run->vertex_count;
    size_t quads = 4 * (size_t)run->quad_count, put = 0;
    uint32_t *mesh_words = room_for(words, sizeof *mesh_words), *mesh_quads = room_for(quads, sizeof *mesh_quads);
    uint32_t *put_back = room_for(quads, sizeof *put_back), answer[ANSWER];
    double *mesh_offsets = room_for(offsets, sizeof *mesh_offsets);
    asking("parsniprow_mesh");
    parsniprow_mesh(n[0], n[1], n[2], run->samples, (size_t)sample_product(n), run->t, run->noise, mesh_words, words,
                    mesh_offsets, offsets, mesh_quads, quads, answer, ANSWER);
    asking("the comparison");
    for (unsigned axis = 0; axis < 3; axis++)
        for (size_t at = 0; at < quads; at += 4)
            if (axis_of(run, run->got_quads + at) == axis) {
                memcpy(put_back + put, run->got_quads + at, 4 * sizeof *put_back);
                put += 4;
            }
    if (answer[0] != 0 || put != quads || memcmp(run->got_words, mesh_words, words * sizeof *mesh_words) != 0 ||
        memcmp(run->got_offsets, mesh_offsets, offsets * sizeof *mesh_offsets) != 0 ||
        memcmp(put_back, mesh_quads, quads * sizeof *mesh_quads) != 0)
        if (first_to_fail("the planes of a run are not the mesh of the block"))
            printf("  %s; axes %lu, %lu, %lu; t = %u; noise %lu\n", run->name, (unsigned long)n[0], (unsigned long)n[1],
                   (unsigned long)n[2], (unsigned)run->t, (unsigned long)run->noise);
    tally.whole_meshes++;
    free(mesh_words);
    free(mesh_offsets);
    free(mesh_quads);
    free(put_back);
}

/* Whether two runs of one block have the same vertices, in the layers from this call on. */
static int have_same_words(const struct run *a, const struct run *b, uint32_t from)
{
    size_t before_a = 0, before_b = 0;
    for (uint32_t k = 0; k < from; k++) {
        before_a += a->vertices_of[k];
        before_b += b->vertices_of[k];
    }
    return a->vertex_count - before_a == b->vertex_count - before_b &&
           memcmp(a->words + 2 * before_a, b->words + 2 * before_b,
                  2 * (a->vertex_count - before_a) * sizeof *a->words) == 0;
}

/* What the noise figure of a short run does, beside a run of the same block with noise 0. A noise figure that got lost
   on the way would be noticed in the layers behind the first. */
static void count_noise(const struct run *run)
{
    struct noise_effect effect;
    struct run without;
    count_figure(&tally.noise, run->noise);
    if (run->noise == 0 || sample_product(run->length) > SHORT_PLANE)
        return;
    effect = effect_of(run->length, run->t, run->noise, run->samples);
    count_effect(&tally.noise, &effect);
    if (effect.parted == 0)
        return;
    without = new_run(run->name, run->length, run->t, 0, run->samples);
    tally.changed += !have_same_words(run, &without, 0);
    tally.changed_first += run->vertices_of[1] != without.vertices_of[1];
    tally.changed_later += !have_same_words(run, &without, 2);
    end_run(&without);
}

/* Patterns and pages beside the buffers take turns. */
static struct lying next_lying(void)
{
    static unsigned turn;
    struct lying lying = {(enum beside)(turn % BESIDES), turn % MOST_SHIFT};
    turn++;
    return lying;
}

static void start_run(struct run *run, struct lying lying)
{
    struct start_call call = start_of(run->name, run->length, run->t, run->noise);
    uint32_t state[STATE] = {run->length[0], run->length[1], run->length[2], run->t, run->noise, 0, 0, 0};
    call.lying = lying;
    try_start(&call);
    memcpy(run->state, state, sizeof state);
}

/* From its start through so many planes, with nothing between. */
static void lead_run(struct run *run, uint32_t planes)
{
    start_run(run, next_lying());
    while (run->state[AT_PLANES] < planes) {
        struct call call = next_call(run);
        call.lying = next_lying();
        take_plane(run, &call);
    }
}

static void lead_whole_run(struct run *run)
{
    lead_run(run, run->length[2]);
    try_end(run->state, STATE, ANSWER, next_lying());
    compare_with_mesh(run);
}

/* ---- what is asked once ---- */

/* The paper's block, call by call: the vertices stand as in its mesh, four and four. */
static void try_example(void)
{
    static const uint32_t length[3] = {3, 3, 3}, vertices[3] = {0, 4, 4}, quads[3] = {0, 1, 5};
    static const uint32_t known[24] = {0, 2, 3, 1, 0, 4, 6, 2, 1, 3, 7, 5, 0, 1, 5, 4, 2, 6, 7, 3, 4, 5, 7, 6};
    uint16_t samples[27] = {0};
    struct run run;
    samples[13] = 400;
    run = new_run("the paper's block", length, 100, 0, samples);
    if (memcmp(run.vertices_of, vertices, sizeof vertices) != 0 || memcmp(run.quads_of, quads, sizeof quads) != 0 ||
        memcmp(run.quads, known, sizeof known) != 0)
        first_to_fail("plain does not cut the paper's block as it was by hand");
    for (unsigned beside = 0; beside < 2 * BESIDES; beside++) {
        lead_whole_run(&run);
        if (memcmp(run.got_quads, known, sizeof known) != 0)
            first_to_fail("not the quads of the paper's block that are known");
        tally.by_hand++;
    }
    end_run(&run);
}

/* So many items of a state after no, one or two planes, and what a plane and an end make of them: without nx, ny and nz
   no axis is right, without t no threshold; and without the planes taken each plane is the first. So four items are
   enough for that, and the noise figure, which is read as 0 where it is missing, does nothing there. */
static void try_short_state(size_t state_len, uint32_t noise)
{
    static const uint32_t length[3] = {3, 4, 3};
    uint16_t samples[36] = {0};
    struct run run;
    samples[4 + 12] = samples[6 + 12] = 200;
    run = new_run("a state that is too short", length, 100, noise, samples);
    for (uint32_t again = 0; again < 2 * BESIDES; again++) {
        struct start_call first = start_of(run.name, length, 100, noise);
        struct call call;
        first.state_len = state_len;
        first.lying = next_lying();
        try_start(&first);
        lead_run(&run, again % length[2]);
        call = next_call(&run);
        call.state_len = state_len;
        call.lying = next_lying();
        try_call(&call);
        call.work_len -= again % 2;
        try_call(&call);
        try_end(run.state, state_len, again % (ANSWER + 2), next_lying());
        tally.short_state[state_len]++;
    }
    end_run(&run);
}

/* Refused by its length alone, so no sample may be touched: one that is right when it is cut to 32 bits. */
static void try_long_plane(size_t more)
{
    static const uint32_t wanted[ANSWER] = {2, 9, 0};
    uint32_t work[WORK_PLANES * 9] = {0}, words[1] = {0}, quads[1] = {0}, answer[ANSWER];
    uint32_t state[STATE] = {3, 3, 3, 100, 1, 0, 0, 0};
    double offsets[1] = {0};
    size_t plane_len = 9 + more, bytes = plane_len * sizeof(uint16_t);
    void *plane = space(bytes, 0);
    asking("parsniprow_plane");
    parsniprow_plane(state, STATE, plane, plane_len, work, WORK_PLANES * 9, words, 0, offsets, 0, quads, 0, answer,
                     ANSWER);
    asking("the comparison");
    give_space_back(plane, bytes);
    if (memcmp(answer, wanted, sizeof wanted) != 0 || state[AT_PLANES] != 0)
        first_to_fail("a plane that no memory has is taken");
    tally.no_memory++;
}

/* A start looks at the length of the work alone, so nobody may touch it. */
static void try_long_work(size_t work_len)
{
    static const uint32_t length[3] = {256, 256, 2};
    size_t bytes = work_len * sizeof(uint32_t);
    struct start_call call = start_of("a work that nobody may touch", length, 65534, UINT32_MAX);
    call.work_len = work_len;
    call.work = space(bytes, 0);
    call.lying = next_lying();
    try_start(&call);
    give_space_back(call.work, bytes);
    tally.no_memory++;
}

/* The blocks whose counts were worked out by hand, as far as they are not refused. */
static void try_hand_runs(void)
{
    for (size_t i = 0; i < HAND_BLOCKS; i++) {
        const struct hand_block *block = &hand_blocks[i];
        uint16_t samples[MOST_HAND_SAMPLES];
        struct run run;
        if (block->answer[0] != 0)
            continue;
        fill_hand_block(block, samples);
        run = new_run(block->name, block->length, block->t, block->noise, samples);
        lead_whole_run(&run);
        if (run.state[AT_VERTICES] != block->vertices || run.state[AT_QUADS] != block->quads)
            first_to_fail(block->name);
        end_run(&run);
        tally.by_hand++;
    }
}

/* A board of these axes, in which each call but the first two has as many vertices and quads as there can be, whatever
   the noise figure is. */
static void try_board(uint32_t nx, uint32_t ny, uint32_t nz)
{
    uint32_t length[3] = {nx, ny, nz};
    uint16_t *samples = room_for((size_t)sample_product(length), sizeof *samples);
    struct run run;
    fill_board(length, 110, 0, samples);
    run = new_run("a board", length, 100, nx % 2 * 9900, samples);
    for (uint32_t k = 0; k < nz; k++)
        if (run.vertices_of[k] != (k == 0 ? 0 : most_vertices(length)) ||
            run.quads_of[k] != (k == 0 ? 0 : k == 1 ? (size_t)(nx - 2) * (ny - 2) : most_quads(length)))
            first_to_fail("plain does not cut a board as the formula does");
    lead_whole_run(&run);
    end_run(&run);
    free(samples);
    tally.fixed++;
}

void try_fixed_planes(void)
{
    size_t cut = (size_t)UINT32_MAX + 1;
    try_example();
    try_hand_runs();
    for (size_t state_len = 0; state_len < STATE; state_len++) {
        try_short_state(state_len, 0);
        try_short_state(state_len, 1);
        try_short_state(state_len, UINT32_MAX);
    }
    for (uint32_t n = 2; n < 6; n++)
        try_board(n, 7 - n, n + 1);
    try_board(66, 3, 4);
    try_board(3, 66, 4);
    try_long_plane(cut);
    try_long_plane(2 * cut);
    try_long_work(WORK_PLANES * 65536);
    try_long_work(WORK_PLANES * 65536 - 1);
    try_long_work(cut);
    try_long_work(cut + 5);
}

/* ---- large blocks ---- */

static void try_large(uint32_t nx, uint32_t ny, uint32_t nz, enum kind kind, uint16_t t)
{
    uint32_t length[3] = {nx, ny, nz};
    uint16_t *samples = room_for((size_t)sample_product(length), sizeof *samples);
    struct chance chance = chance_of(nx + ny, nz);
    struct run run;
    fill_block(&chance, kind, length, t, samples);
    add_ceilings(&chance, length, t, samples);
    run = new_run(kind_names[kind], length, t, choose_noise(&chance, length, t, samples), samples);
    lead_whole_run(&run);
    end_run(&run);
    free(samples);
    tally.large++;
}

/* The largest block as a board, plane by plane, with a single layer in memory. Plain is not asked, since the counts are
   known; the buffers are not looked at, but for what the totals are. */
static void try_largest_board(void)
{
    static const uint32_t length[3] = {LONGEST_AXIS, LONGEST_AXIS, LONGEST_AXIS};
    static const uint32_t totals[ANSWER] = {0, 66325500, 49354740};
    size_t size = (size_t)size_of(length), vertices = most_vertices(length), quads = most_quads(length);
    uint16_t *samples = room_for(2 * size, sizeof *samples);
    uint32_t two[3] = {LONGEST_AXIS, LONGEST_AXIS, 2}, state[STATE], answer[ANSWER];
    uint32_t *work = room_for(WORK_PLANES * size, sizeof *work), *words = room_for(2 * vertices, sizeof *words);
    uint32_t *quad_room = room_for(4 * quads, sizeof *quad_room);
    double *offsets = room_for(3 * vertices, sizeof *offsets);
    fill_board(two, 110, 0, samples);
    parsniprow_start(length[0], length[1], length[2], 100, 0, work, WORK_PLANES * size, state, STATE, answer, ANSWER);
    for (uint32_t k = 0; k < LONGEST_AXIS; k++) {
        uint32_t v = k == 0 ? 0 : (uint32_t)vertices, q = k == 0 ? 0 : k == 1 ? 254 * 254 : (uint32_t)quads;
        asking("parsniprow_plane");
        parsniprow_plane(state, STATE, samples + k % 2 * size, size, work, WORK_PLANES * size, words, 2 * vertices,
                         offsets, 3 * vertices, quad_room, 4 * quads, answer, ANSWER);
        if (answer[0] != 0 || answer[1] != v || answer[2] != q)
            first_to_fail("not the counts of a plane of the largest board");
    }
    parsniprow_end(state, STATE, answer, ANSWER);
    asking("the comparison");
    if (memcmp(answer, totals, sizeof totals) != 0)
        first_to_fail("not the totals of the largest board");
    free(samples);
    free(work);
    free(words);
    free(quad_room);
    free(offsets);
    tally.largest++;
}

void try_largest_planes(void)
{
    try_large(256, 256, 3, UNIFORM_NOISE, 32767);
    try_large(256, 256, 2, NEAR_THRESHOLD, 100);
    try_large(3, 256, 256, UNIFORM_NOISE, 65534);
    try_large(256, 3, 256, PORES, 20000);
    try_large(2, 2, 256, ROUGH_CHECKERBOARD, 1);
    try_large(65, 129, 12, SPARSE, 30000);
    try_board(256, 256, 4);
    try_largest_board();
}

/* ---- runs with a block ---- */

static struct run choose_run(struct chance *chance)
{
    enum kind kind = (enum kind)chance_below(chance, KINDS);
    uint16_t t = choose_threshold(chance), *samples;
    uint32_t length[3];
    struct run run;
    choose_size(chance, chance_in_100(chance, 70), length);
    samples = room_for((size_t)sample_product(length), sizeof *samples);
    fill_block(chance, kind, length, t, samples);
    if (chance_below(chance, 3) == 0)
        add_ceilings(chance, length, t, samples);
    run = new_run(kind_names[kind], length, t, choose_noise(chance, length, t, samples), samples);
    count_noise(&run);
    free(samples);
    return run;
}

/* The same block by another threshold, often at one of its samples; or by the same threshold with another noise
   figure. */
static struct run other_cut(struct chance *chance, const struct run *run)
{
    uint16_t sample = run->samples[chance_below(chance, sample_product(run->length))], t = run->t;
    int is_same = chance_in_100(chance, 50);
    struct run other;
    if (!is_same)
        t = is_bad_threshold(sample) ? choose_threshold(chance) : sample;
    other = new_run(is_same ? "the same block with another noise figure" : "the same block by another threshold",
                    run->length, t, choose_noise(chance, run->length, t, run->samples), run->samples);
    tally.same_threshold += is_same && other.noise != run->noise;
    tally.other_mesh += is_same && !have_same_words(run, &other, 0);
    return other;
}

/* The next call of a run, with room that is enough, and all places where they happen to lie. */
static struct call choose_call(struct chance *chance, const struct run *run)
{
    struct call call = next_call(run);
    int is_exact = chance_in_100(chance, 40);
    call.lying = choose_lying(chance);
    call.ceilings_beside = chance_in_100(chance, 50);
    call.answer_len = choose_reach(chance, ANSWER);
    call.state_len += chance_in_100(chance, 20) ? (size_t)chance_below(chance, 4) : 0;
    call.work_len += chance_in_100(chance, 30) ? (size_t)chance_below(chance, 60) : 0;
    if (!is_exact) {
        call.words_len = choose_room(chance, call.words_len, 0);
        call.offsets_len = choose_room(chance, call.offsets_len, 0);
        call.quads_len = choose_room(chance, call.quads_len, 0);
    }
    return call;
}

/* A state that is refused by its own numbers: an axis, the threshold or the planes. */
static void spoil_state(struct chance *chance, struct call *call)
{
    static const uint32_t axes[] = {0, 1, 257, 258, 65536, 65538, UINT32_C(1) << 31, UINT32_MAX};
    static const uint32_t thresholds[] = {0, 65535, 65536, 131071, UINT32_MAX};
    int is_past = chance_in_100(chance, 40);
    if (chance_in_100(chance, 40))
        call->state[chance_below(chance, 3)] = axes[chance_below(chance, sizeof axes / sizeof *axes)];
    if (chance_in_100(chance, 40))
        call->state[AT_T] = thresholds[chance_below(chance, sizeof thresholds / sizeof *thresholds)];
    if (is_past) {
        uint64_t how = chance_below(chance, 3);
        call->state[AT_PLANES] = how == 0 ? UINT32_MAX : call->state[AT_NZ] + (uint32_t)(how == 1 ? 0 : how);
    }
}

/* One thing or several are made wrong about a call, or nothing where chance has it so. */
static void spoil_call(struct chance *chance, struct call *call)
{
    size_t size = call->plane_items;
    uint64_t how = chance_below(chance, 10);
    if (chance_in_100(chance, 25))
        spoil_state(chance, call);
    if (chance_in_100(chance, 25))
        call->plane_len = choose_any_count(chance, 1, size);
    if (chance_in_100(chance, 25))
        call->work_len = how < 5   ? call->work_items - 1
                         : how < 7 ? call->work_items / WORK_PLANES * (WORK_PLANES - 1)
                         : how < 8 ? 0
                                   : (size_t)chance_below(chance, call->work_items);
    if (chance_in_100(chance, 40) && call->vertex_count > 0)
        call->words_len = choose_room(chance, 2 * (size_t)call->vertex_count, 1);
    if (chance_in_100(chance, 40) && call->vertex_count > 0)
        call->offsets_len = choose_room(chance, 3 * (size_t)call->vertex_count, 1);
    if (chance_in_100(chance, 50) && call->quad_count > 0)
        call->quads_len = choose_room(chance, 4 * (size_t)call->quad_count, 1);
}

/* A call that may be refused; the run then stays where it is. Where nothing was wrong, nothing is asked. */
static void try_refused(struct chance *chance, struct run *run)
{
    struct call call = choose_call(chance, run);
    spoil_call(chance, &call);
    if (due_of(&call).first < ROWS)
        run->refused = try_call(&call);
}

/* Any words, often such as a run could leave. */
static uint32_t any_word(struct chance *chance, uint64_t how)
{
    return (uint32_t)(how < 3 ? chance_below(chance, (uint64_t)UINT32_MAX + 1)
                      : how < 5 ? chance_below(chance, CEILING + 1)
                      : how < 7 ? chance_below(chance, 200)
                      : how < 8 ? UINT32_MAX : 0);
}

/* A state of good axes and a good threshold with planes between; its numbers are no run's, or only some of them. */
static void choose_foreign_state(struct chance *chance, struct call *call)
{
    uint32_t *s = call->state;
    if (chance_in_100(chance, 50))
        choose_any_axes(chance, 0, s);
    if (chance_in_100(chance, 50))
        s[AT_T] = choose_threshold(chance);
    if (chance_in_100(chance, 30)) {
        s[AT_T] += (CEILING + 1) * (uint32_t)(1 + chance_below(chance, CEILING));
        tally.wide_threshold++;
    }
    if (chance_in_100(chance, 50)) {
        s[AT_NOISE] = any_word(chance, chance_below(chance, 10));
        tally.foreign_noise++;
    }
    if (chance_in_100(chance, 50)) {
        s[AT_VERTICES] = any_word(chance, chance_below(chance, 10));
        s[AT_QUADS] = any_word(chance, chance_below(chance, 10));
    }
    s[AT_PLANES] = (uint32_t)chance_below(chance, s[AT_NZ]);
    tally.wrapped += s[AT_VERTICES] > UINT32_MAX - 1000;
    tally.foreign_first += s[AT_PLANES] == 0;
    tally.foreign_states++;
}

/* The lengths of the three buffers for a call of which nothing is known: enough for any, nothing, or something. */
static void choose_foreign_room(struct chance *chance, struct call *call)
{
    size_t vertices = most_vertices(call->state), quads = most_quads(call->state);
    uint64_t how = chance_below(chance, 10);
    call->words_len = how == 0 ? 0 : how < 3 ? chance_below(chance, 2 * vertices + 1) : 2 * vertices;
    call->offsets_len = how == 1 ? 0 : how < 3 ? chance_below(chance, 3 * vertices + 1) : 3 * vertices;
    call->quads_len = how == 3 ? 0 : how < 5 ? chance_below(chance, 4 * quads + 1) : 4 * quads;
}

/* A call with a state or a work that no call of a run left. The run itself stays where it is. */
static void try_foreign(struct chance *chance, const struct run *run)
{
    struct call call = choose_call(chance, run);
    uint64_t how = chance_below(chance, 10);
    size_t size;
    uint32_t *work = NULL;
    uint16_t *plane;
    call.name = "a state or a work that is not the run's";
    call.is_known = 0;
    call.answer_len = ANSWER;
    if (run->state[AT_PLANES] >= run->length[2] || chance_in_100(chance, 70))
        choose_foreign_state(chance, &call);
    size = (size_t)size_of(call.state);
    plane = room_for(size, sizeof *plane);
    for (size_t i = 0; i < size; i++)
        plane[i] = i < plane_size(run) && how < 5 ? run->samples[i] : choose_grey(chance, run->t);
    call.plane = plane;
    call.plane_items = call.plane_len = size;
    call.work_len = WORK_PLANES * size + (size_t)(chance_in_100(chance, 30) ? chance_below(chance, 20) : 0);
    work = room_for(call.work_len, sizeof *work);
    for (size_t i = 0; i < call.work_len; i++)
        work[i] = how == 9 && i < call.work_items ? run->work[i] : any_word(chance, chance_in_100(chance, 5) ? 0 : how);
    tally.foreign_works += how != 9;
    call.work = work;
    call.work_items = call.work_len;
    choose_foreign_room(chance, &call);
    try_call(&call);
    free(plane);
    free(work);
}

static void try_some_end(struct chance *chance, const struct run *run)
{
    uint32_t state[STATE];
    memcpy(state, run->state, sizeof state);
    if (chance_in_100(chance, 20))
        state[AT_PLANES] = chance_in_100(chance, 50) ? state[AT_NZ] + 1 : any_word(chance, chance_below(chance, 10));
    try_end(state, STATE + (size_t)chance_below(chance, 3), choose_reach(chance, ANSWER), choose_lying(chance));
}

static void try_some_start(struct chance *chance)
{
    uint32_t length[3];
    uint64_t how = chance_below(chance, 10);
    struct start_call call;
    size_t needed;
    choose_any_axes(chance, chance_in_100(chance, 40), length);
    call = start_of("some axes", length, choose_threshold(chance), any_word(chance, chance_below(chance, 10)));
    if (chance_in_100(chance, 30))
        call.t = chance_in_100(chance, 50) ? 0 : CEILING;
    needed = size_of(length) < MOST_ANY_SAMPLES ? call.work_len : 0;
    call.work_len = how < 4               ? needed + (size_t)how
                    : how < 7 && needed > 0 ? needed - 1
                    : how < 8             ? 0
                                          : (size_t)chance_below(chance, needed + 1);
    call.state_len = choose_reach(chance, STATE);
    call.answer_len = choose_reach(chance, ANSWER);
    call.lying = choose_lying(chance);
    try_start(&call);
}

/* What comes between two planes of a run, and leaves it where it is. */
static void try_between(struct chance *chance, struct run *run)
{
    if (chance_in_100(chance, 35))
        try_refused(chance, run);
    if (chance_in_100(chance, 10))
        try_foreign(chance, run);
    if (chance_in_100(chance, 15))
        try_some_end(chance, run);
}

static void step_run(struct chance *chance, struct run *run)
{
    struct call call;
    try_between(chance, run);
    call = choose_call(chance, run);
    take_plane(run, &call);
}

/* Planes behind the last one, both totals twice, and the whole mesh. */
static void finish_run(struct chance *chance, struct run *run)
{
    for (unsigned again = 0; again < 2; again++) {
        struct call call = choose_call(chance, run);
        if (again > 0)
            spoil_call(chance, &call);
        try_call(&call);
        try_end(run->state, STATE, ANSWER, choose_lying(chance));
        tally.end_again += again;
    }
    try_between(chance, run);
    compare_with_mesh(run);
}

static void take_turns(struct chance *chance, struct run *runs, size_t count)
{
    size_t left = count, before = count;
    while (left > 0) {
        size_t which = (size_t)chance_below(chance, count);
        struct run *run = &runs[which];
        if (run->state[AT_PLANES] >= run->length[2])
            continue;
        tally.turns += before < count && before != which;
        before = which;
        step_run(chance, run);
        left -= run->state[AT_PLANES] == run->length[2];
    }
}

void try_planes(struct trial *trial)
{
    struct chance *chance = &trial->chance;
    struct run runs[MOST_RUNS];
    uint64_t how = chance_below(chance, 10);
    size_t count = how < 5 ? 1 : how < 8 ? 2 : 3;
    for (size_t i = 0; i < count; i++) {
        int is_same = i > 0 && chance_in_100(chance, 50);
        runs[i] = is_same ? other_cut(chance, &runs[0]) : choose_run(chance);
        start_run(&runs[i], choose_lying(chance));
        tally.same_block += is_same;
    }
    try_some_start(chance);
    take_turns(chance, runs, count);
    for (size_t i = 0; i < count; i++) {
        finish_run(chance, &runs[i]);
        end_run(&runs[i]);
    }
    tally.alone += count == 1;
    tally.two += count == 2;
    tally.three += count == 3;
}

/* ---- printing ---- */

static void tally_runs(void)
{
    tally_title("runs of planes");
    tally_case("worked out by hand", tally.by_hand);
    tally_case("boards", tally.fixed);
    tally_case("large blocks", tally.large);
    tally_case("the largest board", tally.largest);
    tally_case("lengths that no memory has", tally.no_memory);
    tally_case("one by itself", tally.alone);
    tally_case("two by turns", tally.two);
    tally_case("three by turns", tally.three);
    tally_case("the same block twice", tally.same_block);
    tally_case("with two noise figures", tally.same_threshold);
    tally_case("and two meshes", tally.other_mesh);
    tally_case("another run than before", tally.turns);
    tally_case("held against the mesh", tally.whole_meshes);
    tally_title("runs with a noise figure");
    tally_noise(&tally.noise);
    tally_case("vertices changed against noise 0", tally.changed);
    tally_case("in the first layer", tally.changed_first);
    tally_case("in a further one", tally.changed_later);
    tally_title("planes taken");
    tally_case("the first", tally.first);
    tally_case("a further one", tally.further);
    tally_case("the last", tally.last);
    tally_case("with vertices", tally.with_vertices);
    tally_case("with quads", tally.with_quads);
    tally_case("with vertices and no quad", tally.only_vertices);
    tally_case("with neither", tally.nothing);
    tally_case("marked vertices", tally.marked);
    tally_case("cubes of four vertices", tally.many_in_cube);
    tally_case("quads along x", tally.along[0]);
    tally_case("along y", tally.along[1]);
    tally_case("along z", tally.along[2]);
    tally_case("room for just that", tally.exact);
    tally_case("more room", tally.longer);
    tally_case("longer work", tally.longer_work);
    tally_case("longer state", tally.longer_state);
}

/* What a call needs is known only where its state is the run's own and it has a plane to come. The first plane needs no
   room. */
static void tally_refusals(void)
{
    char name[60];
    tally_title("answers to planes");
    tally_case("accepted", tally.answers[ROWS]);
    for (unsigned i = 0; i < ROWS; i++) {
        sprintf(name, "refusal %u", row_numbers[i]);
        tally_case(name, tally.answers[i]);
        sprintf(name, "gone on after %u", row_numbers[i]);
        tally_case(name, tally.gone_on[i]);
        sprintf(name, "%u for the first plane", row_numbers[i]);
        if (i != PAST && i != VERTICES && i != QUADS)
            tally_case(name, tally.refused_first[i]);
    }
    for (unsigned i = 0; i < ROWS; i++)
        for (unsigned later = i + 1; later < ROWS; later++) {
            sprintf(name, "%u before %u", row_numbers[i], row_numbers[later]);
            tally_case(name, tally.orders[i][later]);
        }
    tally_case("words alone too short", tally.short_words);
    tally_case("offsets alone too short", tally.short_offsets);
    tally_case("quads too short", tally.short_quads);
    tally_case("one item less of words", tally.one_less[0]);
    tally_case("of offsets", tally.one_less[1]);
    tally_case("of quads", tally.one_less[2]);
    tally_case("no room for vertices", tally.no_room);
    tally_case("one sample less", tally.plane_less);
    tally_case("one more", tally.plane_more);
    tally_case("no sample", tally.no_plane);
    tally_case("one item less of work", tally.work_less);
    tally_case("no work", tally.no_work);
    tally_case("more planes taken than nz", tally.past_by_more);
}

static void tally_starts(void)
{
    static const enum row rows[] = {AXIS, THRESHOLD, WORK};
    char name[60];
    tally_title("starts of runs");
    tally_case("accepted", tally.starts[ROWS]);
    tally_case("into a shorter state", tally.start_shorter);
    tally_case("into a longer one", tally.start_longer);
    for (unsigned i = 0; i < 3; i++) {
        sprintf(name, "refusal %u", row_numbers[rows[i]]);
        tally_case(name, tally.starts[rows[i]]);
        for (unsigned later = i + 1; later < 3; later++) {
            sprintf(name, "%u before %u", row_numbers[rows[i]], row_numbers[rows[later]]);
            tally_case(name, tally.start_orders[rows[i]][rows[later]]);
        }
    }
    for (unsigned axis = 0; axis < 3; axis++) {
        sprintf(name, "axis %c", "xyz"[axis]);
        tally_case(name, tally.faults.axis[axis]);
    }
    tally_title("ends of runs");
    tally_case("too early", tally.end_early);
    tally_case("before the first plane", tally.end_at_none);
    tally_case("at the end", tally.end_whole);
    tally_case("asked again", tally.end_again);
    tally_case("past the end", tally.end_past);
    tally_case("of a state that is too short", tally.end_short);
}

static void tally_foreign(void)
{
    char name[60];
    tally_title("states of so many items");
    for (unsigned i = 0; i < STATE; i++) {
        sprintf(name, "%u", i);
        tally_case(name, tally.short_state[i]);
    }
    tally_title("states and works that are not the run's");
    tally_case("states", tally.foreign_states);
    tally_case("works", tally.foreign_works);
    tally_case("with no plane taken", tally.foreign_first);
    tally_case("a threshold above 65535", tally.wide_threshold);
    tally_case("another noise figure", tally.foreign_noise);
    tally_case("vertices near the end of 32 bits", tally.wrapped);
    tally_case("accepted", tally.foreign_accepted);
    tally_case("refused with 5", tally.foreign_refused[0]);
    tally_case("refused with 6", tally.foreign_refused[1]);
}

uint64_t tally_planes(void)
{
    tally_runs();
    tally_refusals();
    tally_starts();
    tally_foreign();
    tally_reaches(&state_place);
    tally_reaches(&answer_place);
    return tally.whole_meshes;
}
