/* Compares the closed question, without work and with it, with the plain implementation: some lists once; with each
   block random ones, the mesh's own list, and a damaged copy of that. The work is compared in all its items. A copy of
   a closed mesh in which a quad is turned round, left out or doubled must be open.
   Assumes nothing more than compare.h. */
#include "compare.h"

#include "crash.h"
#include "lists.h"

#include <stdio.h>
#include <string.h>

/* A list that needs more items of work than the most that is lent here gets less than a hundred. */
enum { MOST_QUADS = 1000, MOST_WORK = 20000, SHORT_WORK = 100 };
enum { LISTS_FOR_A_BLOCK = 2, LATE_QUAD = 6, MESH_SIDES = 12, PRINTED_ITEMS = 64 };
enum { REST = 7, ROOM = 15 };

struct question {
    const uint32_t *items;
    size_t length, answer_len, with_len, work_len;
    struct lying lying;
};

static struct lent quads_place = LENT("quads of the closed question", sizeof(uint32_t), 0, byte_pattern);
static struct lent answer_place = LENT("answer of the closed question", sizeof(uint32_t), CLOSED_ANSWER, byte_pattern);
static struct lent work_place = LENT("work", sizeof(uint64_t), 0, byte_pattern);
static struct lent with_place = LENT("answer with work", sizeof(uint32_t), CLOSED_ANSWER, byte_pattern);
static struct lent plain_work = LENT("work of plain", sizeof(uint64_t), 0, byte_pattern);

/* What plain answers, without work and with it, and how many items of work it writes. */
static uint32_t answer[CLOSED_ANSWER], answer_with[CLOSED_ANSWER];
static size_t written;

static int is_accepted(void)
{
    return answer_with[0] == 0;
}

/* One more than the highest number in the list, or 0. */
static uint64_t numbers_of(const struct question *question)
{
    uint64_t numbers = 0;
    for (size_t i = 0; i < question->length; i++)
        numbers = question->items[i] < numbers ? numbers : (uint64_t)question->items[i] + 1;
    return numbers;
}

static uint64_t work_needed(const struct question *question)
{
    return numbers_of(question) + question->length;
}

/* ---- what occurred ---- */

static struct {
    uint64_t lists, kinds[LIST_KINDS], damaged[DAMAGES], own_closed, own_open, own_long, mesh_damaged[DAMAGES][2];
    uint64_t empty, closed, once, oftener_one_way, more_there, more_back, even_uses, equal_ends;
    uint64_t first_quad, late_quad, side[4], rest[4];
} tally;

static struct {
    uint64_t empty, closed_once, closed_again, open, rest, room, rest_before_room;
    uint64_t one_short, none, shorter, exact, one_longer, longer, limit, cut, of_mesh;
    uint64_t no_side, one_side, several_sides, many_sides;
} work_tally;

static uint64_t walks(const struct question *question, uint32_t from, uint32_t to)
{
    uint64_t count = 0;
    for (size_t side = 0; side < question->length; side++)
        count += question->items[side] == from && question->items[end_of(side)] == to;
    return count;
}

static void count_open(const struct question *question)
{
    size_t at = 4 * (size_t)answer[2] + answer[3];
    uint32_t from = question->items[at], to = question->items[end_of(at)];
    uint64_t there = walks(question, from, to), back = walks(question, to, from);
    tally.equal_ends += from == to;
    tally.once += from != to && there == 1 && back == 0;
    tally.oftener_one_way += from != to && there > 1 && back == 0;
    tally.more_there += there > back && back > 0;
    tally.more_back += there < back;
    tally.even_uses += there != back && (there + back) % 2 == 0;
    tally.first_quad += answer[2] == 0;
    tally.late_quad += answer[2] >= LATE_QUAD;
    tally.side[answer[3]]++;
}

static void count_list(const struct question *question)
{
    if (answer[0] == REST)
        tally.rest[answer[1]]++;
    else if (answer[1] == 0)
        count_open(question);
    else if (question->length == 0)
        tally.empty++;
    else
        tally.closed++;
}

static void count_room(const struct question *question)
{
    size_t lent = question->work_len;
    uint64_t needed = work_needed(question);
    work_tally.rest_before_room += answer_with[0] == REST && lent < needed;
    work_tally.one_short += answer_with[0] == ROOM && lent + 1 == needed;
    work_tally.none += answer_with[0] == ROOM && lent == 0;
    work_tally.shorter += answer_with[0] == ROOM && lent > 0 && lent + 1 < needed;
    work_tally.limit += answer_with[0] == ROOM && needed == UINT32_MAX;
    work_tally.cut += answer_with[0] == ROOM && needed > UINT32_MAX;
    work_tally.exact += is_accepted() && lent == needed;
    work_tally.one_longer += is_accepted() && lent == needed + 1;
    work_tally.longer += is_accepted() && lent > needed + 1;
}

/* Of a list that is accepted with work: is some side walked more than once one way? The next sides that start at the
   same vertex stand in the work. */
static int is_walked_again(const struct question *question)
{
    const uint64_t *next = (const uint64_t *)start(&plain_work) + numbers_of(question);
    for (size_t side = 0; side < question->length; side++)
        for (uint64_t other = next[side]; other < question->length; other = next[other])
            if (question->items[end_of(other)] == question->items[end_of(side)])
                return 1;
    return 0;
}

/* How many vertices have no side that starts there, one, some, or more than a vertex of a mesh has. */
static void count_sides(const struct question *question)
{
    size_t numbers = (size_t)numbers_of(question);
    const uint64_t *first = start(&plain_work), *next = first + numbers;
    for (size_t vertex = 0; vertex < numbers; vertex++) {
        size_t sides = 0;
        for (uint64_t side = first[vertex]; side < question->length; side = next[side])
            sides++;
        work_tally.no_side += sides == 0;
        work_tally.one_side += sides == 1;
        work_tally.several_sides += sides > 1 && sides <= MESH_SIDES;
        work_tally.many_sides += sides > MESH_SIDES;
    }
}

static void count_with_work(const struct question *question)
{
    count_room(question);
    work_tally.rest += answer_with[0] == REST;
    work_tally.room += answer_with[0] == ROOM;
    if (!is_accepted())
        return;
    count_sides(question);
    if (answer_with[1] == 0)
        work_tally.open++;
    else if (question->length == 0)
        work_tally.empty++;
    else if (is_walked_again(question))
        work_tally.closed_again++;
    else
        work_tally.closed_once++;
}

/* ---- one list ---- */

static void print_list(const struct question *question)
{
    printf("  lengths: quads %zu, answer %zu; with work %zu, answer %zu\n  plain:", question->length,
           question->answer_len, question->work_len, question->with_len);
    for (size_t i = 0; i < CLOSED_ANSWER; i++)
        printf(" %lu", (unsigned long)answer[i]);
    printf("; with work");
    for (size_t i = 0; i < CLOSED_ANSWER; i++)
        printf(" %lu", (unsigned long)answer_with[i]);
    printf("; quads");
    for (size_t i = 0; i < question->length && i < PRINTED_ITEMS; i++)
        printf(" %lu", (unsigned long)question->items[i]);
    printf("%s\n", question->length > PRINTED_ITEMS ? " ..." : "");
}

/* Plain's own work is of the same length, since it decides about a refusal. Where there is work enough, its answer is
   the same without. */
static void run_plain(const struct question *q)
{
    struct lying lying = {PATTERNS, 0};
    lend(&plain_work, q->work_len, lying);
    asking("plain_closed_with");
    plain_closed_with(q->items, q->length, start(&plain_work), q->work_len, answer_with, CLOSED_ANSWER);
    memcpy(answer, answer_with, sizeof answer);
    if (answer_with[0] == ROOM)
        plain_closed(q->items, q->length, answer, CLOSED_ANSWER);
    written = is_accepted() ? (size_t)work_needed(q) : 0;
    if (!holds(&plain_work, start(&plain_work), written) && first_to_fail("plain wrote where it must keep"))
        print_list(q);
}

static void run_closed(const struct question *q)
{
    struct wanted wanted[] = {{&answer_place, answer, CLOSED_ANSWER}};
    lend(&answer_place, q->answer_len, q->lying);
    hand_out_all(CLOSED, q->lying, wanted, 1);
    parsniprow_closed(start(&quads_place), q->length, start(&answer_place), q->answer_len);
    if (first_to_differ(CLOSED, wanted, 1))
        print_list(q);
}

static void run_closed_with(const struct question *q)
{
    struct wanted wanted[] = {{&work_place, start(&plain_work), written}, {&with_place, answer_with, CLOSED_ANSWER}};
    lend(&work_place, q->work_len, q->lying);
    lend(&with_place, q->with_len, q->lying);
    hand_out_all(CLOSED_WITH, q->lying, wanted, 2);
    parsniprow_closed_with(start(&quads_place), q->length, start(&work_place), q->work_len, start(&with_place),
                           q->with_len);
    if (first_to_differ(CLOSED_WITH, wanted, 2))
        print_list(q);
}

static void try_list(const struct question *question)
{
    int is_short = question->length <= 4 * SQUARE_QUADS;
    run_plain(question);
    lend(&quads_place, question->length, question->lying);
    if (question->length > 0)
        memcpy(start(&quads_place), question->items, question->length * sizeof *question->items);
    hand_out_to_read(&quads_place);
    if (is_short)
        run_closed(question);
    run_closed_with(question);
    take_back_read(&quads_place);
    tally.lists++;
    if (is_short)
        count_list(question);
    count_with_work(question);
}

/* ---- what is asked once ---- */

/* With rooms around the need, where there can be so much. */
static void try_rooms(struct question question)
{
    size_t needed = (size_t)work_needed(&question);
    size_t rooms[] = {needed, 0, needed > 0 ? needed - 1 : 0, needed + 1, needed + 7};
    if (needed > MOST_WORK)
        rooms[0] = rooms[2] = rooms[3] = rooms[4] = SHORT_WORK;
    for (size_t i = 0; i < sizeof rooms / sizeof *rooms; i++) {
        question.work_len = rooms[i];
        try_list(&question);
    }
}

/* A box, a side that is walked twice each way, a quad and its reverse, both once more, a side with equal ends, and
   numbers so high that no room is enough. */
static const uint32_t growing_list[] = {0,  2,  3,  1,  4,  5,  7,  6,  0, 1, 5, 4, 2,          6, 7,          3,
                                        0,  4,  6,  2,  1,  3,  7,  5,  8, 9, 8, 9, 10,         3, 12,         13,
                                        13, 12, 3,  10, 10, 3,  12, 13, 3, 10, 13, 12, 3,       3, 3,          3,
                                        4294967295, 0, 4294967295, 1};

/* Each beginning of a list, so that its length and its first fault take every value; all lengths of the answer. */
static void try_beginnings(void)
{
    for (size_t length = 0; length <= sizeof growing_list / sizeof *growing_list; length++)
        for (size_t answer_len = 0; answer_len <= CLOSED_ANSWER + 2; answer_len++)
            for (unsigned beside = 0; beside < BESIDES; beside++) {
                struct question question = {growing_list, length, answer_len, answer_len, 0,
                                            {(enum beside)beside, length % MOST_SHIFT}};
                try_rooms(question);
            }
}

static void try_one_list(const uint32_t *items, size_t length)
{
    for (unsigned beside = 0; beside < BESIDES; beside++) {
        struct question question = {items, length, CLOSED_ANSWER, CLOSED_ANSWER, 0, {(enum beside)beside, 0}};
        try_rooms(question);
    }
}

/* Lists of one or two quads, and such that need as many items as 32 bits can say, one less, or more. */
static void try_small_lists(void)
{
    static const uint32_t lists[][8] = {
        {0, 1, 2, 3, 0, 1, 2, 3}, {0, 1, 2, 3, 1, 2, 3, 0}, {0, 1, 2, 3, 3, 2, 1, 0}, {0, 1, 2, 1, 0, 1, 0, 1},
        {0, 1, 0, 1, 0, 1, 2, 1}, {0, 0, 1, 2, 2, 1, 0, 0}, {2, 1, 0, 0, 0, 0, 1, 2}, {0, 0, 0, 0, 0, 0, 0, 0},
        {5, 5, 6, 6, 6, 5, 6, 5}, {3, 2, 1, 0, 3, 0, 1, 2}, {9, 8, 9, 8, 8, 9, 8, 9}, {0, 1, 2, 3, 7, 6, 5, 4},
    };
    static const uint32_t highest[] = {4294967289, 4294967290, 4294967291, 4294967292, 4294967294, 4294967295};
    for (size_t i = 0; i < sizeof lists / sizeof *lists; i++) {
        try_one_list(lists[i], 4);
        try_one_list(lists[i], 8);
    }
    for (size_t i = 0; i < sizeof highest / sizeof *highest; i++) {
        uint32_t folded[4] = {0, 1, 0, 1};
        folded[1] = folded[3] = highest[i];
        try_one_list(folded, 4);
    }
}

/* A star: half of all sides start at one vertex. Then the same with another last vertex, which is closed too, and with
   a last quad that is open. */
static void try_star(void)
{
    enum { STAR_QUADS = 200 };
    static uint32_t star[4 * STAR_QUADS];
    for (uint32_t quad = 0; quad < STAR_QUADS; quad++) {
        star[4 * quad] = star[4 * quad + 2] = 5;
        star[4 * quad + 1] = 10 + 2 * quad;
        star[4 * quad + 3] = 11 + 2 * quad;
    }
    try_one_list(star, 4 * STAR_QUADS);
    star[4 * STAR_QUADS - 1] = 0;
    try_one_list(star, 4 * STAR_QUADS);
    star[4 * STAR_QUADS - 2] = 6;
    try_one_list(star, 4 * STAR_QUADS);
}

/* Numbers with a million between them. */
static void try_far_numbers(void)
{
    static const uint32_t far_apart[] = {0, 1000000, 1, 1000000};
    struct question question = {far_apart, 4, CLOSED_ANSWER, CLOSED_ANSWER, 1000005, {PAGE_BEHIND, 0}};
    try_list(&question);
    question.work_len--;
    try_list(&question);
    give_back(&work_place);
    give_back(&plain_work);
}

void try_fixed_lists(void)
{
    try_beginnings();
    try_small_lists();
    try_star();
    try_far_numbers();
}

/* ---- lists with a block ---- */

/* With enough work, or with too little in some cases. */
static struct question choose_question(struct chance *chance, const uint32_t *items, size_t length)
{
    struct question question = {items, length, 0, 0, 0, {PATTERNS, 0}};
    uint64_t needed = work_needed(&question);
    int is_short = needed > 0 && chance_in_100(chance, 25);
    question.answer_len = choose_reach(chance, CLOSED_ANSWER);
    question.with_len = choose_reach(chance, CLOSED_ANSWER);
    question.work_len = needed > MOST_WORK ? (size_t)chance_below(chance, SHORT_WORK)
                                           : choose_room(chance, (size_t)needed, is_short);
    question.lying = choose_lying(chance);
    return question;
}

struct closure try_list_of_mesh(struct chance *chance, const uint32_t *quads, size_t quad_count, size_t vertex_count)
{
    struct question question = choose_question(chance, quads, 4 * quad_count);
    struct closure closure;
    if (question.work_len < work_needed(&question)) {
        question.work_len = vertex_count + question.length;
        work_tally.of_mesh++;
    }
    try_list(&question);
    if (!is_accepted() && first_to_fail("plain wants more work than a mesh needs"))
        print_list(&question);
    closure.is_closed = is_accepted() && answer_with[1] == 1;
    closure.is_walked_again = is_accepted() && is_walked_again(&question);
    return closure;
}

/* A number may be changed to what it was, so only the other kinds of damage surely open a closed mesh: the four vertices
   of its quads are of four cubes. */
void try_damaged_mesh(struct chance *chance, const uint32_t *quads, size_t quad_count, int was_closed)
{
    static uint32_t copy[4 * MOST_QUADS + 4];
    enum damage damage = (enum damage)chance_below(chance, DAMAGES);
    struct question question;
    memcpy(copy, quads, 4 * quad_count * sizeof *copy);
    question = choose_question(chance, copy, damage_list(chance, damage, copy, 4 * quad_count));
    try_list(&question);
    if (was_closed && damage != NUMBER_CHANGED && answer[1] == 1 && first_to_fail("a damaged mesh is closed"))
        print_list(&question);
    tally.mesh_damaged[damage][was_closed && answer[1] == 0]++;
}

static void try_own_list(const struct trial *trial, struct chance *chance)
{
    int is_closed = try_list_of_mesh(chance, trial->quads, trial->quad_count, trial->vertex_count).is_closed;
    tally.own_closed += is_closed;
    tally.own_open += !is_closed;
    tally.own_long += trial->quad_count > SQUARE_QUADS;
    try_damaged_mesh(chance, trial->quads, trial->quad_count, is_closed);
}

static void try_random_list(struct chance *chance)
{
    static struct list list;
    enum list_kind kind = (enum list_kind)chance_below(chance, LIST_KINDS);
    struct question question;
    choose_list(chance, kind, &list);
    tally.kinds[kind]++;
    if (list.length > 0 && chance_in_100(chance, 40)) {
        enum damage damage = (enum damage)chance_below(chance, DAMAGES);
        list.length = damage_list(chance, damage, list.item, list.length);
        tally.damaged[damage]++;
    }
    if (chance_in_100(chance, 15))
        for (uint64_t more = 1 + chance_below(chance, 3); more > 0; more--)
            list.item[list.length++] = (uint32_t)chance_below(chance, 8);
    question = choose_question(chance, list.item, list.length);
    try_list(&question);
}

void try_lists(struct trial *trial)
{
    for (unsigned i = 0; i < LISTS_FOR_A_BLOCK; i++)
        try_random_list(&trial->chance);
    if (trial->quads && trial->quad_count > 0 && trial->quad_count <= MOST_QUADS)
        try_own_list(trial, &trial->chance);
}

/* ---- printing ---- */

static void tally_kinds(void)
{
    tally_title("lists of quads");
    for (unsigned kind = 0; kind < LIST_KINDS; kind++)
        tally_case(list_kind_names[kind], tally.kinds[kind]);
    for (unsigned damage = 0; damage < DAMAGES; damage++)
        tally_case(damage_names[damage], tally.damaged[damage]);
    tally_title("a mesh's own list");
    tally_case("closed", tally.own_closed);
    tally_case("open", tally.own_open);
    tally_case("long", tally.own_long);
    tally_title("damaged meshes");
    for (unsigned damage = 0; damage < DAMAGES; damage++) {
        tally_case(damage_names[damage], tally.mesh_damaged[damage][0] + tally.mesh_damaged[damage][1]);
        tally_case("and so no more closed", tally.mesh_damaged[damage][1]);
    }
}

static void tally_answers(void)
{
    char name[40];
    tally_title("answers to lists");
    tally_case("empty and closed", tally.empty);
    tally_case("closed", tally.closed);
    tally_case("a side walked once and not back", tally.once);
    tally_case("oftener and not back", tally.oftener_one_way);
    tally_case("there oftener than back", tally.more_there);
    tally_case("back oftener than there", tally.more_back);
    tally_case("used an even number of times", tally.even_uses);
    tally_case("equal ends", tally.equal_ends);
    tally_case("in quad 0", tally.first_quad);
    tally_case("in quad 6 or later", tally.late_quad);
    for (unsigned side = 0; side < 4; side++) {
        sprintf(name, "at side %u", side);
        tally_case(name, tally.side[side]);
    }
    for (unsigned rest = 1; rest < 4; rest++) {
        sprintf(name, "refusal 7, value %u", rest);
        tally_case(name, tally.rest[rest]);
    }
    tally_reaches(&answer_place);
}

static void tally_works(void)
{
    tally_title("answers with work");
    tally_case("empty and closed", work_tally.empty);
    tally_case("closed, each side once a way", work_tally.closed_once);
    tally_case("closed, a side oftener", work_tally.closed_again);
    tally_case("open", work_tally.open);
    tally_case("refusal 7", work_tally.rest);
    tally_case("refusal 15", work_tally.room);
    tally_case("15 due too, 7 given", work_tally.rest_before_room);
    tally_reaches(&with_place);
    tally_title("work");
    tally_case("exact", work_tally.exact);
    tally_case("one item longer", work_tally.one_longer);
    tally_case("longer", work_tally.longer);
    tally_case("one item short", work_tally.one_short);
    tally_case("none", work_tally.none);
    tally_case("shorter still", work_tally.shorter);
    tally_case("4294967295 items needed", work_tally.limit);
    tally_case("more than 32 bits can say", work_tally.cut);
    tally_case("as a mesh needs it", work_tally.of_mesh);
    tally_case("vertices where no side starts", work_tally.no_side);
    tally_case("one", work_tally.one_side);
    tally_case("2 to 12", work_tally.several_sides);
    tally_case("more", work_tally.many_sides);
}

uint64_t tally_lists(void)
{
    tally_kinds();
    tally_answers();
    tally_works();
    return tally.lists;
}
