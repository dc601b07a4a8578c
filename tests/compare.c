/* Compares the library with the plain implementation on many random blocks, their crossed edges and rows of thresholds,
   on blocks that are handed over plane by plane, on readings and blocks of them, on edges, cubes, lists of quads and
   their pieces, lists of samples, meshes that become files and foreign meshes: the answers, and every byte of every
   lent buffer, with what is beside it. With a threshold goes a random noise figure, often one at which a face of the
   block is just joined or just parted. Of blocks that have a margin of one sign the mesh must be closed.
   Usage: compare [blocks [seed [first block]]], or compare all.
   From 20,000 blocks on it also tries what takes seconds, and fails if something that it should try never occurred.
   With the word all it asks each of the 2^32 readings there are and nothing else, which takes a minute or more. The
   last line is a summary, and the exit status is 0 only if nothing differed and nothing was missing.
   Assumes that the library is linked in; built with -DSELF the plain implementation stands in for it. */
#include "compare.h"

#include "crash.h"

#include <errno.h>
#include <stdio.h>
#include <stdlib.h>
#include <string.h>

enum { DEFAULT_BLOCKS = 20000, DEFAULT_SEED = 1, ENOUGH_BLOCKS = 20000, LINE = 118, MOST_MISSING = 64 };

static const char *const function_names[FUNCTIONS] = {
    "parsniprow_edge",          "parsniprow_cube",        "parsniprow_crossed", "parsniprow_counts",
    "parsniprow_thresholds",    "parsniprow_mesh",        "parsniprow_reading", "parsniprow_readings_counts",
    "parsniprow_readings_mesh", "parsniprow_start",       "parsniprow_plane",   "parsniprow_end",
    "parsniprow_closed",        "parsniprow_closed_with", "parsniprow_pieces",  "parsniprow_ceilings",
    "parsniprow_ply",           "parsniprow_judge",
};

static uint64_t asked[FUNCTIONS][BESIDES], differences;
static char occasion[120];

/* ---- judging a call ---- */

void hand_out_all(enum function function, struct lying lying, const struct wanted *wanted, size_t count)
{
    for (size_t i = 0; i < count; i++)
        hand_out(wanted[i].lent);
    asked[function][lying.beside]++;
    asking(function_names[function]);
}

int first_to_fail(const char *what)
{
    if (differences++ > 0)
        return 0;
    printf("first difference: %s, %s\n", what, occasion);
    return 1;
}

int first_to_differ(enum function function, const struct wanted *wanted, size_t count)
{
    size_t wrong = 0;
    int first;
    asking("the comparison");
    for (size_t i = 0; i < count; i++) {
        take_back(wanted[i].lent, wanted[i].count);
        wrong += !holds(wanted[i].lent, wanted[i].items, wanted[i].count);
    }
    if (wrong == 0)
        return 0;
    first = first_to_fail(function_names[function]);
    for (size_t i = 0; first && i < count; i++)
        print_wrong(wanted[i].lent, wanted[i].items, wanted[i].count);
    return first;
}

struct lying choose_lying(struct chance *chance)
{
    struct lying lying;
    lying.beside = (enum beside)chance_below(chance, BESIDES);
    lying.shift = (size_t)chance_below(chance, MOST_SHIFT);
    return lying;
}

size_t choose_reach(struct chance *chance, size_t need)
{
    return chance_in_100(chance, 70) ? need : (size_t)chance_below(chance, need + 4);
}

size_t choose_room(struct chance *chance, size_t need, int is_short)
{
    uint64_t how = chance_below(chance, 10);
    if (is_short)
        return how < 5 ? need - 1 : how < 7 ? 0 : (size_t)chance_below(chance, need);
    return how < 5 ? need : how < 7 ? need + 1 : how < 8 ? need + 2 : need + (size_t)chance_below(chance, 60);
}

/* ---- what has occurred ---- */

static const char *title_now = "";
static size_t column;
static char missing[MOST_MISSING][80];
static size_t missing_count;

void tally_title(const char *title)
{
    printf("%s%s:", column > 0 ? "\n" : "", title);
    title_now = title;
    column = strlen(title) + 1;
}

/* Cases stand in lines, as many as fit. */
void tally_case(const char *name, uint64_t count)
{
    char text[120];
    size_t length = (size_t)snprintf(text, sizeof text, " %s %llu;", name, (unsigned long long)count);
    if (column + length > LINE) {
        printf("\n   ");
        column = 3;
    }
    printf("%s", text);
    column += length;
    if (count > 0)
        return;
    if (missing_count < MOST_MISSING)
        snprintf(missing[missing_count], sizeof missing[missing_count], "%s: %s", title_now, name);
    missing_count++;
}

void tally_reaches(const struct lent *lent)
{
    char title[80];
    snprintf(title, sizeof title, "lengths of %s", lent->name);
    tally_title(title);
    for (unsigned reach = 0; reach < REACHES; reach++)
        if (reach != SHORTER || lent->need > 1)
            tally_case(reach_names[reach], lent->reaches[reach]);
}

void count_block_fault(struct block_faults *faults, const uint32_t *answer, const uint32_t length[3],
                       size_t samples_len)
{
    unsigned bad = 0;
    for (unsigned axis = 0; answer[0] == 1 && axis < 3; axis++) {
        int is_short = length[axis] < SHORTEST_AXIS, is_long = length[axis] > LONGEST_AXIS;
        faults->axis_short += is_short;
        faults->axis_long += is_long;
        bad += is_short || is_long;
    }
    if (answer[0] == 1)
        faults->axis[answer[1]]++;
    faults->several_axes += bad > 1;
    faults->no_sample += answer[0] == 2 && samples_len == 0;
    faults->one_less += answer[0] == 2 && samples_len + 1 == answer[1];
    faults->one_more += answer[0] == 2 && samples_len == (size_t)answer[1] + 1;
}

void tally_block_faults(const struct block_faults *faults)
{
    char name[] = "axis ?";
    for (unsigned axis = 0; axis < 3; axis++) {
        name[sizeof name - 2] = "xyz"[axis];
        tally_case(name, faults->axis[axis]);
    }
    tally_case("several axes", faults->several_axes);
    tally_case("under 2", faults->axis_short);
    tally_case("over 256", faults->axis_long);
    tally_case("no sample", faults->no_sample);
    tally_case("one sample less", faults->one_less);
    tally_case("one more", faults->one_more);
}

void count_figure(struct noise_tally *tally, uint32_t noise)
{
    tally->none += noise == 0;
    tally->some += noise > 0;
}

void count_effect(struct noise_tally *tally, const struct noise_effect *effect)
{
    tally->at_limit += effect->at_limit > 0;
    tally->one_above += effect->one_above > 0;
    tally->parted += effect->parted > 0;
}

void tally_noise(const struct noise_tally *tally)
{
    tally_case("0", tally->none);
    tally_case("above", tally->some);
    tally_case("noise at the limit of a face", tally->at_limit);
    tally_case("one above", tally->one_above);
    tally_case("a face parted by noise alone", tally->parted);
}

int first_to_change(const struct noise_effect *effect, const uint32_t *without, const uint32_t *with)
{
    int is_right = without[0] == 0 && without[2] == with[2] && (effect->parted > 0 || without[1] == with[1]);
    return !is_right && first_to_fail("a noise figure changes quads, or vertices where it parts no face");
}

static void tally_asked(void)
{
    for (unsigned function = 0; function < FUNCTIONS; function++) {
        tally_title(function_names[function]);
        for (unsigned beside = 0; beside < BESIDES; beside++)
            tally_case(beside_names[beside], asked[function][beside]);
    }
}

/* ---- the whole ---- */

static void try_fixed(void)
{
    working_on(strcpy(occasion, "among the blocks that are asked once"));
    try_fixed_blocks();
    working_on(strcpy(occasion, "among the edges that are asked once"));
    try_fixed_edges();
    working_on(strcpy(occasion, "among the cubes that are asked once"));
    try_fixed_cubes();
    working_on(strcpy(occasion, "among the lists that are asked once"));
    try_fixed_lists();
    working_on(strcpy(occasion, "among the lists of samples that are asked once"));
    try_fixed_ceilings();
    working_on(strcpy(occasion, "among the files that are asked once"));
    try_fixed_files();
    working_on(strcpy(occasion, "among the blocks with a margin that are asked once"));
    try_fixed_margins();
    working_on(strcpy(occasion, "among the pieces that are asked once"));
    try_fixed_pieces();
    working_on(strcpy(occasion, "among the blocks for room that are asked once"));
    try_fixed_rooms();
    working_on(strcpy(occasion, "among the rows of thresholds that are asked once"));
    try_fixed_rows();
    working_on(strcpy(occasion, "among the planes that are asked once"));
    try_fixed_planes();
    working_on(strcpy(occasion, "among the readings that are asked once"));
    try_fixed_readings();
    working_on(strcpy(occasion, "among the foreign meshes that are asked once"));
    try_fixed_judged();
}

static void try_with_block(uint64_t seed, uint64_t block)
{
    struct trial trial;
    memset(&trial, 0, sizeof trial);
    trial.chance = chance_of(seed, block);
    snprintf(occasion, sizeof occasion, "block %llu of seed %llu (alone: compare 1 %llu %llu)",
             (unsigned long long)block, (unsigned long long)seed, (unsigned long long)seed, (unsigned long long)block);
    working_on(occasion);
    try_block(&trial);
    try_edges(&trial);
    try_cubes(&trial);
    try_lists(&trial);
    try_ceilings(&trial);
    try_files(&trial);
    if (block % 2 == 0)
        try_margin(&trial);
    try_pieces(&trial);
    try_room(&trial);
    try_rows(&trial);
    if (block % 2 == 1)
        try_planes(&trial);
    else
        try_readings(&trial);
    try_judged(&trial);
}

static void print_missing(void)
{
    for (size_t i = 0; i < missing_count && i < MOST_MISSING; i++)
        printf("NEVER OCCURRED: %s\n", missing[i]);
}

static int report(uint64_t blocks)
{
    uint64_t edges, cubes, lists, ceilings, files, margins, pieces, rooms, rows, planes, readings, judged;
    char of_missing[40] = "";
    int enough = blocks >= ENOUGH_BLOCKS;
    tally_blocks();
    edges = tally_edges();
    cubes = tally_cubes();
    lists = tally_lists();
    ceilings = tally_ceilings();
    files = tally_files();
    margins = tally_margins();
    pieces = tally_pieces();
    rooms = tally_rooms();
    rows = tally_rows();
    planes = tally_planes();
    readings = tally_readings();
    judged = tally_judged();
    tally_asked();
    printf("\n");
    if (enough) {
        print_missing();
        snprintf(of_missing, sizeof of_missing, "%zu cases missing, ", missing_count);
    }
    printf("compare: %llu blocks, %llu edges, %llu cubes, %llu lists of quads, %llu of samples, %llu files, "
           "%llu blocks with a margin, %llu lists for pieces, %llu blocks for room, %llu rows of thresholds, "
           "%llu blocks plane by plane, %llu blocks of readings, %llu foreign meshes, %s%llu differences\n",
           (unsigned long long)blocks, (unsigned long long)edges, (unsigned long long)cubes, (unsigned long long)lists,
           (unsigned long long)ceilings, (unsigned long long)files, (unsigned long long)margins,
           (unsigned long long)pieces, (unsigned long long)rooms, (unsigned long long)rows,
           (unsigned long long)planes, (unsigned long long)readings, (unsigned long long)judged, of_missing,
           (unsigned long long)differences);
    return differences > 0 || (enough && missing_count > 0);
}

/* A number given as argument, or what stands for it where it is not given. */
static uint64_t argument(int argc, char **argv, int which, uint64_t otherwise)
{
    char *end;
    uint64_t number;
    if (argc <= which)
        return otherwise;
    errno = 0;
    number = strtoull(argv[which], &end, 10);
    if (errno != 0 || end == argv[which] || *end != '\0' || argv[which][0] == '-') {
        fprintf(stderr, "compare: '%s' is no number; usage: compare [blocks [seed [first block]]], or compare all\n",
                argv[which]);
        exit(2);
    }
    return number;
}

static int compare_all_readings(void)
{
    uint64_t readings;
    strcpy(occasion, "among all readings");
    readings = try_all_readings();
    printf("compare: %llu readings, %llu differences\n", (unsigned long long)readings,
           (unsigned long long)differences);
    return differences > 0;
}

int main(int argc, char **argv)
{
    int is_all = argc == 2 && strcmp(argv[1], "all") == 0;
    uint64_t blocks = is_all ? 1 : argument(argc, argv, 1, DEFAULT_BLOCKS);
    uint64_t seed = argument(argc, argv, 2, DEFAULT_SEED);
    uint64_t first = argument(argc, argv, 3, 0);
    if (blocks == 0) {
        fprintf(stderr, "compare: no blocks, so nothing would be compared\n");
        return 2;
    }
    setvbuf(stdout, NULL, _IOLBF, BUFSIZ); /* so that a crash loses no line */
    watch_for_crashes();
    if (is_all)
        return compare_all_readings();
    printf("compare: seed %llu, blocks from %llu\n", (unsigned long long)seed, (unsigned long long)first);
    try_fixed();
    if (blocks >= ENOUGH_BLOCKS) {
        working_on(strcpy(occasion, "with the longest file"));
        try_longest_file();
        working_on(strcpy(occasion, "with the largest blocks"));
        try_largest_blocks();
        working_on(strcpy(occasion, "with rows of thresholds for the largest block"));
        try_largest_rows();
        working_on(strcpy(occasion, "with the planes of large blocks"));
        try_largest_planes();
        working_on(strcpy(occasion, "with many readings and the largest block of them"));
        try_largest_readings();
        working_on(strcpy(occasion, "with large foreign meshes"));
        try_largest_judged();
    }
    for (uint64_t block = first; block - first < blocks; block++)
        try_with_block(seed, block);
    return report(blocks);
}
