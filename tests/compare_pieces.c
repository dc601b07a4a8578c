/* Compares the pieces of lists of quads with the plain implementation: once, lists that were worked out by hand and
   lists with the longest search that there can be; with each block, a random list and the list of its mesh. One thing
   or several may be wrong about a random list, so that every refusal and every order of two refusals occurs. Where the
   library finds the pieces, their sizes must make up all vertices, and no search may follow more links than the whole
   part of the base-two logarithm of the number of vertices.
   Assumes nothing more than compare.h. */
#include "compare.h"

#include "crash.h"
#include "hand_lists.h"

#include <stdio.h>
#include <string.h>

enum { MOST_VERTICES = 1025, MOST_QUADS = MOST_VERTICES + 8, MOST_ITEMS = 4 * MOST_QUADS + 3, PRINTED_ITEMS = 64 };
enum { LARGE_PIECE = 100, SHORT_LIST = 4000, MOST_LINKS = 16, COUNTED_LINKS = 6 };

/* The refusals, in the order in which they are tried. */
enum row { REST, NUMBER, ROOM, ROWS };

static const uint32_t refusals[ROWS] = {7, 14, 5};

struct question {
    uint32_t n;
    const uint32_t *items;
    size_t length, piece_len, size_len, answer_len;
    struct lying lying;
    unsigned faults; /* bit r: the refusal of row r is due, were it not for those before it */
};

static struct lent quads_place = LENT("quads of the pieces", sizeof(uint32_t), 0, byte_pattern);
static struct lent piece_place = LENT("piece", sizeof(uint32_t), 0, byte_pattern);
static struct lent size_place = LENT("size", sizeof(uint32_t), 0, byte_pattern);
static struct lent answer_place = LENT("answer of the pieces", sizeof(uint32_t), ANSWER, byte_pattern);
static struct lent plain_piece = LENT("piece of plain", sizeof(uint32_t), 0, byte_pattern);
static struct lent plain_size = LENT("size of plain", sizeof(uint32_t), 0, byte_pattern);

/* What plain answers. */
static uint32_t answer[ANSWER];

static int due(const struct question *question, unsigned row)
{
    return question->faults >> row & 1;
}

/* The whole part of the base-two logarithm, and 0 of 0. */
static uint32_t whole_logarithm(uint32_t n)
{
    uint32_t logarithm = 0;
    for (; n > 1; n /= 2)
        logarithm++;
    return logarithm;
}

/* ---- random lists ---- */

enum list_kind { ANY_NUMBERS, NEAR_NUMBERS, ONE_OR_TWO, BY_HALVES, NO_QUADS, LIST_KINDS };

static const char *const list_kind_names[LIST_KINDS] = {
    "any numbers", "numbers near each other", "one number or two in a quad", "pieces of equal size joined", "no quads"};

/* Room for three items more than whole quads. */
struct list {
    uint32_t n, item[MOST_ITEMS];
    size_t length;
};

static uint32_t choose_vertices(struct chance *chance)
{
    uint64_t how = chance_below(chance, 100);
    if (how < 10)
        return how < 4 ? 0 : 1;
    if (how < 50)
        return 2 + (uint32_t)chance_below(chance, 9);
    if (how < 80)
        return 11 + (uint32_t)chance_below(chance, 100);
    if (how < 90) /* a power of two, and one vertex fewer or more */
        return (UINT32_C(1) << (2 + chance_below(chance, 9))) - 1 + (uint32_t)chance_below(chance, 3);
    return 100 + (uint32_t)chance_below(chance, 900);
}

static void add_quad(struct list *list, uint32_t a, uint32_t b, uint32_t c, uint32_t d)
{
    uint32_t *quad = list->item + list->length;
    quad[0] = a;
    quad[1] = b;
    quad[2] = c;
    quad[3] = d;
    list->length += 4;
}

/* A quad of no other numbers than these two. It begins with either. */
static void add_pair(struct chance *chance, struct list *list, uint32_t a, uint32_t b)
{
    uint64_t how = chance_below(chance, 16);
    add_quad(list, how & 1 ? a : b, how & 2 ? a : b, how & 4 ? a : b, how & 8 ? a : b);
}

/* Few quads, so that there are many pieces, or about as many as there are vertices. */
static void any_quads(struct chance *chance, enum list_kind kind, struct list *list)
{
    uint64_t most = chance_in_100(chance, 50) ? list->n / 4 + 1 : list->n + 1;
    uint32_t n = list->n, width = kind == NEAR_NUMBERS && n > 5 ? 5 : n;
    for (uint64_t quads = 1 + chance_below(chance, most); quads > 0; quads--) {
        uint32_t from = (uint32_t)chance_below(chance, n - width + 1), v[4];
        for (unsigned i = 0; i < 4; i++)
            v[i] = from + (uint32_t)chance_below(chance, width);
        if (kind == ONE_OR_TWO)
            add_pair(chance, list, v[0], v[1]);
        else
            add_quad(list, v[0], v[1], v[2], v[3]);
    }
}

/* Joins single vertices to pairs, pairs to fours and so on, each at any of their vertices, so that links become many;
   then searches for a few vertices. The vertices are shuffled. */
static void by_halves(struct chance *chance, struct list *list)
{
    static uint32_t shuffled[MOST_VERTICES];
    uint32_t n = list->n;
    for (uint32_t i = 0; i < n; i++) {
        uint32_t other = (uint32_t)chance_below(chance, i + 1);
        shuffled[i] = shuffled[other];
        shuffled[other] = i;
    }
    for (uint32_t half = 1; half < n; half *= 2)
        for (uint32_t first = 0; first + half < n; first += 2 * half) {
            uint32_t second = first + half, others = n - second < half ? n - second : half;
            uint32_t a = shuffled[first + chance_below(chance, half)];
            uint32_t b = shuffled[second + chance_below(chance, others)];
            add_quad(list, chance_in_100(chance, 50) ? a : b, a, b, chance_in_100(chance, 50) ? a : b);
        }
    for (unsigned i = 0; i < 4; i++)
        add_pair(chance, list, shuffled[n - 1], (uint32_t)chance_below(chance, n));
}

static void choose_list(struct chance *chance, enum list_kind kind, struct list *list)
{
    list->n = choose_vertices(chance);
    list->length = 0;
    if (list->n == 0 || kind == NO_QUADS)
        return;
    if (kind == BY_HALVES)
        by_halves(chance, list);
    else
        any_quads(chance, kind, list);
}

/* ---- what is wrong about a list ---- */

static unsigned choose_faults(struct chance *chance)
{
    uint64_t how = chance_below(chance, 100);
    unsigned one = 1u << chance_below(chance, ROWS), all = (1u << ROWS) - 1;
    return how < 60 ? 0 : how < 80 ? one : how < 95 ? all - one : all;
}

/* One to three numbers become such that no vertex has; a list without quads gets one first. Often they are of the first
   quad or the last. */
static void spoil_numbers(struct chance *chance, struct list *list)
{
    if (list->length == 0)
        add_quad(list, 0, 0, 0, 0);
    do {
        uint64_t where = chance_below(chance, 4);
        size_t quads = list->length / 4, quad = (size_t)chance_below(chance, quads);
        const uint32_t bad[] = {list->n, list->n + 1, UINT32_MAX, list->n + (uint32_t)chance_below(chance, 100000),
                                UINT32_MAX - (uint32_t)chance_below(chance, 100000)};
        quad = where == 0 ? 0 : where == 1 ? quads - 1 : quad;
        list->item[4 * quad + chance_below(chance, 4)] = bad[chance_below(chance, sizeof bad / sizeof *bad)];
    } while (chance_in_100(chance, 40));
}

/* What does not make a whole quad may name a vertex that is not there. */
static void add_rest(struct chance *chance, struct list *list)
{
    for (uint64_t more = 1 + chance_below(chance, 3); more > 0; more--)
        list->item[list->length++] = (uint32_t)chance_below(chance, (uint64_t)list->n + 2);
}

/* Rooms for n items, of which one or both may be short. */
static void choose_rooms(struct chance *chance, struct question *question)
{
    uint64_t which = chance_below(chance, 3);
    if (question->n == 0)
        question->faults &= ~(1u << ROOM);
    question->piece_len = choose_room(chance, question->n, due(question, ROOM) && which != 0);
    question->size_len = choose_room(chance, question->n, due(question, ROOM) && which != 1);
    question->answer_len = choose_reach(chance, ANSWER);
    question->lying = choose_lying(chance);
}

/* ---- what occurred ---- */

static struct {
    uint64_t lists, kinds[LIST_KINDS], own, own_several, own_alone, own_linked, own_long;
    uint64_t accepted, refused[ROWS], orders[ROWS][ROWS];
    uint64_t no_vertex, one_vertex, no_quad, one_piece, several, all_alone, large, under_higher;
    uint64_t different[5], links[COUNTED_LINKS + 1], most_links, most_of_many;
    uint64_t rest[4], first_quad, later_quad, bad_quads, past_by_one, highest;
    uint64_t piece_alone, size_alone, both_short, one_short, none, shorter, exact, one_longer, longer;
} tally;

/* How many different numbers a quad has. */
static unsigned different_in(const uint32_t quad[4])
{
    unsigned count = 0;
    for (unsigned i = 0; i < 4; i++) {
        int is_new = 1;
        for (unsigned j = 0; j < i; j++)
            is_new = is_new && quad[j] != quad[i];
        count += (unsigned)is_new;
    }
    return count;
}

/* A vertex that is alone is a piece of one vertex. */
static uint64_t vertices_alone(const struct question *question)
{
    const uint32_t *size = start(&plain_size);
    uint64_t alone = 0;
    for (uint32_t vertex = 0; vertex < question->n; vertex++)
        alone += size[vertex] == 1;
    return alone;
}

static int has_large_piece(const struct question *question)
{
    const uint32_t *size = start(&plain_size);
    for (uint32_t vertex = 0; vertex < question->n; vertex++)
        if (size[vertex] >= LARGE_PIECE)
            return 1;
    return 0;
}

/* The first quad joins two vertices and then a third, which is lower than both and hung under one of them. */
static int is_hung_under_higher(const struct question *question)
{
    const uint32_t *quad = question->items;
    return question->length > 0 && quad[0] != quad[1] && quad[2] < quad[0] && quad[2] < quad[1];
}

static void count_found(const struct question *question)
{
    uint32_t n = question->n, pieces = answer[1], links = answer[2];
    tally.accepted++;
    tally.no_vertex += n == 0;
    tally.one_vertex += n == 1;
    tally.no_quad += n > 1 && question->length == 0;
    tally.one_piece += n > 1 && pieces == 1;
    tally.several += pieces > 1 && pieces < n;
    tally.all_alone += n > 1 && question->length > 0 && pieces == n;
    tally.large += has_large_piece(question);
    tally.under_higher += is_hung_under_higher(question);
    for (size_t at = 0; at < question->length; at += 4)
        tally.different[different_in(question->items + at)]++;
    tally.links[links < COUNTED_LINKS ? links : COUNTED_LINKS]++;
    tally.most_links += n > 3 && links == whole_logarithm(n);
    tally.most_of_many += n > LARGE_PIECE && links == whole_logarithm(n);
    tally.exact += n > 0 && question->piece_len == n && question->size_len == n;
    tally.one_longer += question->piece_len == (size_t)n + 1 || question->size_len == (size_t)n + 1;
    tally.longer += question->piece_len > (size_t)n + 1 && question->size_len > (size_t)n + 1;
}

static void count_numbers(const struct question *question)
{
    const uint32_t *quad = question->items + 4 * (size_t)answer[1];
    uint64_t bad = 0;
    for (size_t at = 0; at < question->length; at += 4)
        for (unsigned i = 0; i < 4; i++)
            if (question->items[at + i] >= question->n) {
                bad++;
                break;
            }
    tally.first_quad += answer[1] == 0;
    tally.later_quad += answer[1] > 0;
    tally.bad_quads += bad > 1;
    for (unsigned i = 0; i < 4; i++) {
        tally.past_by_one += quad[i] == question->n;
        tally.highest += quad[i] == UINT32_MAX;
    }
}

static void count_room(size_t room, size_t n)
{
    tally.one_short += room + 1 == n;
    tally.none += room == 0;
    tally.shorter += room > 0 && room + 1 < n;
}

static void count_refused(const struct question *question)
{
    unsigned row = 0;
    while (row + 1 < ROWS && refusals[row] != answer[0])
        row++;
    tally.refused[row]++;
    for (unsigned later = row + 1; later < ROWS; later++)
        tally.orders[row][later] += due(question, row) && due(question, later);
    if (row == REST)
        tally.rest[answer[1]]++;
    if (row == NUMBER)
        count_numbers(question);
    if (row == ROOM) {
        int is_piece_short = question->piece_len < question->n, is_size_short = question->size_len < question->n;
        tally.piece_alone += is_piece_short && !is_size_short;
        tally.size_alone += !is_piece_short && is_size_short;
        tally.both_short += is_piece_short && is_size_short;
        count_room(question->piece_len, question->n);
        count_room(question->size_len, question->n);
    }
}

/* ---- one list ---- */

static void print_list(const struct question *question)
{
    printf("  vertices %lu; lengths: quads %zu, piece %zu, size %zu, answer %zu; plain: %lu, %lu, %lu; quads",
           (unsigned long)question->n, question->length, question->piece_len, question->size_len, question->answer_len,
           (unsigned long)answer[0], (unsigned long)answer[1], (unsigned long)answer[2]);
    for (size_t i = 0; i < question->length && i < PRINTED_ITEMS; i++)
        printf(" %lu", (unsigned long)question->items[i]);
    printf("%s\n", question->length > PRINTED_ITEMS ? " ..." : "");
}

/* How many items of each buffer plain writes. */
static size_t written(const struct question *question)
{
    return answer[0] == 0 ? question->n : 0;
}

/* Plain's own buffers are of the same lengths, since they decide about a refusal. */
static void run_plain(const struct question *q)
{
    struct lying lying = {PATTERNS, 0};
    lend(&plain_piece, q->piece_len, lying);
    lend(&plain_size, q->size_len, lying);
    asking("plain_pieces");
    plain_pieces(q->n, q->items, q->length, start(&plain_piece), q->piece_len, start(&plain_size), q->size_len, answer,
                 ANSWER);
    if (!holds(&plain_piece, start(&plain_piece), written(q)) || !holds(&plain_size, start(&plain_size), written(q)))
        if (first_to_fail("plain wrote where it must keep"))
            print_list(q);
}

static void run_pieces(const struct question *q)
{
    struct wanted wanted[] = {{&answer_place, answer, ANSWER},
                              {&piece_place, start(&plain_piece), written(q)},
                              {&size_place, start(&plain_size), written(q)}};
    lend(&quads_place, q->length, q->lying);
    if (q->length > 0)
        memcpy(start(&quads_place), q->items, q->length * sizeof *q->items);
    lend(&piece_place, q->piece_len, q->lying);
    lend(&size_place, q->size_len, q->lying);
    lend(&answer_place, q->answer_len, q->lying);
    hand_out_to_read(&quads_place);
    hand_out_all(PIECES, q->lying, wanted, 3);
    parsniprow_pieces(q->n, start(&quads_place), q->length, start(&piece_place), q->piece_len, start(&size_place),
                      q->size_len, start(&answer_place), q->answer_len);
    take_back_read(&quads_place);
    if (first_to_differ(PIECES, wanted, 3))
        print_list(q);
}

/* What is true of all pieces that the library finds, whatever plain says of them. */
static void check_found(const struct question *q)
{
    const uint32_t *size = start(&size_place), *given = start(&answer_place);
    uint64_t sum = 0;
    for (uint32_t vertex = 0; vertex < q->n; vertex++)
        sum += size[vertex];
    if (sum != q->n && first_to_fail("the sizes of the pieces do not make up all vertices"))
        print_list(q);
    if (q->answer_len >= ANSWER && given[2] > whole_logarithm(q->n) && first_to_fail("a search is too long"))
        print_list(q);
}

static void try_list(const struct question *question)
{
    run_plain(question);
    run_pieces(question);
    tally.lists++;
    if (answer[0] == 0) {
        check_found(question);
        count_found(question);
    } else {
        count_refused(question);
    }
}

/* ---- what is asked once ---- */

/* Did the library give this answer, and these items where it is not a refusal? */
static int found(const uint32_t *wanted, const uint32_t *piece, const uint32_t *size, size_t n)
{
    size_t items = wanted[0] == 0 ? n : 0;
    return holds(&answer_place, wanted, ANSWER) && holds(&piece_place, piece, items) && holds(&size_place, size, items);
}

/* With all lengths of the answer place, and where the list is not refused with more room too. */
static void try_hand_list(const struct hand_list *list)
{
    for (size_t answer_len = 0; answer_len <= ANSWER + 2; answer_len++)
        for (unsigned beside = 0; beside < BESIDES; beside++)
            for (size_t more = 0; more < (list->answer[0] == 0 ? 4 : 1); more++) {
                struct question question = {list->n,
                                            list->quads,
                                            list->quads_len,
                                            list->piece_len + more % 2,
                                            list->size_len + more / 2 * 5,
                                            answer_len,
                                            {(enum beside)beside, answer_len},
                                            0};
                try_list(&question);
                if (!found(list->answer, list->piece, list->size, list->n) && first_to_fail(list->name))
                    print_list(&question);
            }
}

/* Single vertices are joined to pairs, pairs to fours and so on, each by its lowest vertex, so that each round makes
   the longest way to a top longer by one link. Then the last vertex is searched for. Gives the length of the list. */
static size_t halves_of(uint32_t vertices, uint32_t *items)
{
    size_t length = 0;
    for (uint32_t half = 1; half < vertices; half *= 2)
        for (uint32_t first = 0; first + half < vertices; first += 2 * half) {
            items[length++] = first;
            for (unsigned i = 1; i < 4; i++)
                items[length++] = first + half;
        }
    for (unsigned i = 0; i < 4; i++)
        items[length++] = vertices - 1;
    return length;
}

/* A list that joins so many vertices by halves, among n vertices: those behind are in no quad. The longest search must
   follow as many links as there can be, from the last vertex that is joined. */
static void try_halves(uint32_t joined, uint32_t n)
{
    static uint32_t items[4 << MOST_LINKS], piece[(1 << MOST_LINKS) + 1], size[(1 << MOST_LINKS) + 1];
    uint32_t wanted[ANSWER] = {0, 1 + (n - joined), whole_logarithm(n)};
    struct question question = {n, items, 0, n, n, ANSWER, {(enum beside)(joined % BESIDES), 0}, 0};
    question.length = halves_of(joined, items);
    for (uint32_t vertex = 0; vertex < n; vertex++) {
        piece[vertex] = vertex < joined ? 0 : vertex;
        size[vertex] = vertex == 0 ? joined : vertex < joined ? 0 : 1;
    }
    try_list(&question);
    if (!found(wanted, piece, size, n) && first_to_fail("not the longest search that there can be"))
        print_list(&question);
}

/* After long lists, so that with short ones no long pages are opened and closed. */
static void give_all_back(void)
{
    give_back(&quads_place);
    give_back(&piece_place);
    give_back(&size_place);
    give_back(&plain_piece);
    give_back(&plain_size);
}

void try_fixed_pieces(void)
{
    for (size_t i = 0; i < HAND_LISTS; i++)
        try_hand_list(&hand_lists[i]);
    for (unsigned links = 0; links <= MOST_LINKS; links++) {
        uint32_t vertices = UINT32_C(1) << links;
        try_halves(vertices, vertices);
        if (links > 0) {
            try_halves(vertices, vertices + 1);
            try_halves(vertices - 1, vertices - 1);
        }
    }
    give_all_back();
}

/* ---- lists with a block ---- */

static void try_random_list(struct chance *chance)
{
    static struct list list;
    enum list_kind kind = (enum list_kind)chance_below(chance, LIST_KINDS);
    struct question question;
    memset(&question, 0, sizeof question);
    question.faults = choose_faults(chance);
    choose_list(chance, kind, &list);
    tally.kinds[kind]++;
    if (due(&question, NUMBER))
        spoil_numbers(chance, &list);
    if (due(&question, REST))
        add_rest(chance, &list);
    question.n = list.n;
    question.items = list.item;
    question.length = list.length;
    choose_rooms(chance, &question);
    try_list(&question);
}

/* The list of a mesh is refused for want of room alone. */
static void try_own_list(const struct trial *trial, struct chance *chance)
{
    struct question question;
    memset(&question, 0, sizeof question);
    question.n = (uint32_t)trial->vertex_count;
    question.items = trial->quads;
    question.length = 4 * trial->quad_count;
    question.faults = chance_in_100(chance, 10) ? 1u << ROOM : 0;
    choose_rooms(chance, &question);
    try_list(&question);
    if (answer[0] == refusals[REST] || answer[0] == refusals[NUMBER])
        if (first_to_fail("the list of a mesh is refused, and not for want of room"))
            print_list(&question);
    tally.own++;
    if (answer[0] == 0) {
        tally.own_several += answer[1] > 1;
        tally.own_alone += vertices_alone(&question) > 0;
        tally.own_linked += answer[2] > 1;
        tally.own_long += question.length > SHORT_LIST;
    }
    if (question.length > SHORT_LIST)
        give_all_back();
}

void try_pieces(struct trial *trial)
{
    try_random_list(&trial->chance);
    if (trial->quads)
        try_own_list(trial, &trial->chance);
}

/* ---- printing ---- */

static void tally_found(void)
{
    char name[40];
    tally_title("pieces found");
    tally_case("of no vertex", tally.no_vertex);
    tally_case("of one vertex", tally.one_vertex);
    tally_case("without quads", tally.no_quad);
    tally_case("all vertices in one", tally.one_piece);
    tally_case("several", tally.several);
    tally_case("every vertex alone, with quads", tally.all_alone);
    tally_case("one of a hundred vertices", tally.large);
    tally_case("a vertex hung under a higher one", tally.under_higher);
    for (unsigned count = 1; count <= 4; count++) {
        sprintf(name, "quads of %u number%s", count, count == 1 ? "" : "s");
        tally_case(name, tally.different[count]);
    }
    tally_title("the longest search");
    for (unsigned links = 0; links < COUNTED_LINKS; links++) {
        sprintf(name, "%u link%s", links, links == 1 ? "" : "s");
        tally_case(name, tally.links[links]);
    }
    tally_case("more", tally.links[COUNTED_LINKS]);
    tally_case("as many as there can be", tally.most_links);
    tally_case("of more than a hundred vertices", tally.most_of_many);
}

static void tally_refusals(void)
{
    char name[40];
    tally_title("answers of the pieces");
    tally_case("found", tally.accepted);
    for (unsigned row = 0; row < ROWS; row++) {
        sprintf(name, "refusal %lu", (unsigned long)refusals[row]);
        tally_case(name, tally.refused[row]);
    }
    for (unsigned rest = 1; rest < 4; rest++) {
        sprintf(name, "7, value %u", rest);
        tally_case(name, tally.rest[rest]);
    }
    tally_case("14 in quad 0", tally.first_quad);
    tally_case("in a later one", tally.later_quad);
    tally_case("in several", tally.bad_quads);
    tally_case("by the number of vertices itself", tally.past_by_one);
    tally_case("by 4294967295", tally.highest);
    tally_case("5, piece alone short", tally.piece_alone);
    tally_case("size alone short", tally.size_alone);
    tally_case("both short", tally.both_short);
    for (unsigned row = 0; row < ROWS; row++)
        for (unsigned later = row + 1; later < ROWS; later++) {
            sprintf(name, "%lu before %lu", (unsigned long)refusals[row], (unsigned long)refusals[later]);
            tally_case(name, tally.orders[row][later]);
        }
}

uint64_t tally_pieces(void)
{
    tally_title("lists for pieces");
    for (unsigned kind = 0; kind < LIST_KINDS; kind++)
        tally_case(list_kind_names[kind], tally.kinds[kind]);
    tally_case("of a mesh", tally.own);
    tally_case("in several pieces", tally.own_several);
    tally_case("with a vertex alone", tally.own_alone);
    tally_case("with two links or more", tally.own_linked);
    tally_case("long", tally.own_long);
    tally_found();
    tally_refusals();
    tally_title("piece and size");
    tally_case("both exact", tally.exact);
    tally_case("one item longer", tally.one_longer);
    tally_case("both longer", tally.longer);
    tally_case("one item short", tally.one_short);
    tally_case("none", tally.none);
    tally_case("shorter still", tally.shorter);
    tally_reaches(&answer_place);
    return tally.lists;
}
