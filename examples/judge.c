/* The judge tool: reads a raw block of 16-bit grey values and a mesh that someone else made of it, and has the library
   say whether that mesh is ours: the mesh of this block by this threshold and this noise figure.
   Usage: judge FILE NX NY NZ THRESHOLD BYTE-ORDER MESH [--noise N]; "judge --help" says what each is.
   Assumes a POSIX system, a double that is an IEEE 754 double, and the library linked in (include/parsniprow.h).

   MESH is plain text, as the scan tool writes it with --mesh:
     v NUMBER I J K X Y Z MASK            a vertex: its number, by rising number from 0; its cube; its place in the
                                          cube; its mask, four digits in hexadecimal, the first 1 where it is marked
     q A B C D                            a quad: the numbers of its four vertices
   Blanks or tabs stand between the words of a line. I, J, K and the numbers of vertices are plain digits. X, Y and Z
   are read by strtod and become doubles; what is no number or infinite is read too, and the library finds it at fault.
   A line whose first word begins with # is passed over, and so is an empty one. Each line ends with a line feed, the
   last one too; a carriage return before it is passed over, and so is a byte order mark at the front of the file.
   Before the first v or q the lines of a record may stand. They begin with file, axes, threshold, noise, byte-order,
   readings, spacing, piece, values, ceiling, vertices, quads, closed, pieces, marked or ply, and they change no
   verdict. Where axes, threshold or noise are others than were asked, or vertices or quads are others than the lines
   that begin with v and q, a note says so. A record that has a threshold and no line noise was made with the noise
   figure 0. Any other line is a fault of MESH.
   The library takes the number of a cube, I + (NX - 1) * (J + (NY - 1) * K). A cube that is not in the block would get
   the number of another one, so it is given the number 4294967295, which is past the last.

   Standard output is the record, in lines of a word and what it says:
     file, axes, threshold, noise, byte-order, mesh   what was asked, as it was read; noise only where it was given
     vertices COUNT, quads COUNT          how many MESH has
     verdict same                         MESH is ours
     verdict vertex N                     it is not, and vertex N is the first at fault
     verdict quad N                       it is not; no vertex is at fault, and quad N, from 0, is the first that is
     verdict missing                      it is not; nothing is at fault, but some vertices or quads of ours are missing
     refused NUMBER value VALUE           there is no verdict, and no line of counts
     note SENTENCE                        the verdict in words, where in the block it lies and why, and what to do
   The verdict is the library's. Why a vertex or a quad is at fault this tool finds by itself, from what is in MESH and
   from the library's answers about one cube, about one quad, and about the counts.
   Standard error has progress, a line each second, and a sentence where there is no answer; standard output then has
   nothing.
   Exit status: 0 the same; 1 a file or memory failed, or MESH is not in this form; 2 bad arguments; 3 refused by the
   library; 4 not the same. */
#define _XOPEN_SOURCE 700

#include "parsniprow.h"

#include <ctype.h>
#include <errno.h>
#include <inttypes.h>
#include <signal.h>
#include <stdarg.h>
#include <stdio.h>
#include <stdlib.h>
#include <string.h>
#include <unistd.h>

enum { ANSWER = 4, CUBE_ANSWER = 3, COUNTS_ANSWER = 3, AXES = 3, MOST_LOOPS = 4 };
enum { BYTES_A_SAMPLE = 2, WORDS_A_VERTEX = 2, OFFSETS_A_VERTEX = 3, VERTICES_A_QUAD = 4 };
enum { NO_REFUSAL, BAD_AXIS, BAD_COUNT, BAD_THRESHOLD, BAD_NUMBER = 14, BAD_LENGTHS = 22 };
enum { AT_VERTEX = 1, AT_QUAD, SOME_MISSING }; /* the third number of an answer that is no */
enum { STATUS_SAME, STATUS_FAILED, STATUS_ARGUMENTS, STATUS_REFUSED, STATUS_OTHER };
enum { ARGUMENTS = 7, WORDS_OF_VERTEX = 9, WORDS_OF_QUAD = 5, MASK_DIGITS = 4 }; /* the last three of lines of MESH */
enum { FIRST_ROOM = 1024, MOST_SENTENCE = 400, MEGABYTE = 1000000 };

/* What was asked. Names as shown are one line, whatever the file is called. The noise figure is 0 if none is given. */
struct request {
    const char *file, *file_shown, *byte_order, *mesh, *mesh_shown;
    uint32_t length[AXES], noise;
    uint16_t threshold;
    int is_noise_given;
};

struct block {
    uint16_t *samples;
    size_t count;
};

/* Where a vertex comes from: its cube as MESH has it, in the block or not, and its line. */
struct origin {
    uint32_t cube[AXES];
    size_t line;
};

/* What MESH has. In words, offsets and quads it stands as the library takes it. */
struct mesh {
    uint32_t *words, *quads;
    double *offsets;
    struct origin *origins;
    size_t *quad_lines, vertex_count, quad_count, vertex_room, quad_room;
};

/* The lines of a record that MESH may have. Those with numbers are held against what was asked, or against MESH. Where
   such a one stands in MESH, told is its line. */
enum { HEAD_AXES, HEAD_THRESHOLD, HEAD_NOISE, HEAD_VERTICES, HEAD_QUADS, HEADS_WITH_NUMBERS };
static struct head {
    const char *word;
    int number_count;
    uint32_t number[AXES];
    size_t told;
} heads[] = {{"axes", AXES, {0}, 0}, {"threshold", 1, {0}, 0}, {"noise", 1, {0}, 0}, {"vertices", 1, {0}, 0},
             {"quads", 1, {0}, 0}, {"file", 0, {0}, 0}, {"byte-order", 0, {0}, 0}, {"readings", 0, {0}, 0},
             {"spacing", 0, {0}, 0}, {"piece", 0, {0}, 0}, {"values", 0, {0}, 0}, {"ceiling", 0, {0}, 0},
             {"closed", 0, {0}, 0}, {"pieces", 0, {0}, 0}, {"marked", 0, {0}, 0}, {"ply", 0, {0}, 0}};

/* ---- progress, sentences and memory ---- */

enum stage { READING_SCAN, READING_MESH, JUDGING, EXPLAINING };
static const char *const stage_names[] = {"reading the scan", "reading the mesh", "judging", "looking for the reason"};
static volatile sig_atomic_t stage = READING_SCAN, seconds;

/* Once a second. The handler of a signal may not call printf. */
static void tell_progress(int signal_number)
{
    const char *parts[] = {"judge: ", NULL, " s, ", stage_names[stage], "\n"};
    char digits[16] = {0}, line[96], *digit = digits + sizeof digits - 1;
    size_t length = 0;
    int kept = errno;
    ssize_t written;
    (void)signal_number;
    seconds++;
    for (sig_atomic_t left = seconds; left > 0; left /= 10)
        *--digit = (char)('0' + left % 10);
    parts[1] = digit;
    for (size_t part = 0; part < sizeof parts / sizeof *parts; part++)
        for (const char *at = parts[part]; *at; at++)
            line[length++] = *at;
    written = write(STDERR_FILENO, line, length);
    (void)written; /* where nobody reads, the mesh is judged all the same */
    alarm(1);
    errno = kept;
}

static void set_signals(void)
{
    struct sigaction action;
    memset(&action, 0, sizeof action);
    sigemptyset(&action.sa_mask);
    action.sa_flags = SA_RESTART;
    action.sa_handler = SIG_IGN; /* a write that fails is told in a sentence instead */
    sigaction(SIGPIPE, &action, NULL);
    action.sa_handler = tell_progress;
    sigaction(SIGALRM, &action, NULL);
    alarm(1);
}

/* Says on standard error why there is no answer, and ends. */
static void fail(int status, const char *format, ...)
{
    va_list values;
    alarm(0);
    fputs("judge: ", stderr);
    va_start(values, format);
    vfprintf(stderr, format, values);
    va_end(values);
    fputs("\n", stderr);
    if (status == STATUS_ARGUMENTS)
        fputs("judge: target/judge --help says what each argument is.\n", stderr);
    exit(status);
}

static void finish(int status)
{
    alarm(0);
    if (fflush(stdout) != 0 || ferror(stdout))
        fail(STATUS_FAILED, "Standard output could not be written: %s.", strerror(errno));
    exit(status);
}

/* The memory, never null, made so large. */
static void *room(void *memory, size_t items, size_t size, const char *purpose)
{
    void *larger = items < SIZE_MAX / size ? realloc(memory, items * size + 1) : NULL;
    if (!larger)
        fail(STATUS_FAILED, "%s needs a buffer of %.0f MB, and there is not so much memory. Close other programs, or "
             "use a machine with more.", purpose, (double)items * (double)size / MEGABYTE + 0.5);
    return larger;
}

static const char *shown(const char *text)
{
    size_t length = strlen(text);
    char *copy = room(NULL, length, 1, "A name");
    for (size_t at = 0; at <= length; at++)
        copy[at] = at < length && iscntrl((unsigned char)text[at]) ? '?' : text[at];
    return copy;
}

/* ---- arguments ---- */

static void help(void)
{
    puts("target/judge FILE NX NY NZ THRESHOLD BYTE-ORDER MESH [--noise N]\n"
         "\n"
         "Says whether a mesh that someone else made of a scan is the same as ours: the one that target/scan makes of\n"
         "this scan with this threshold and this noise figure.\n"
         "\n"
         "  FILE        the scan: 16-bit grey values and nothing else, along x first, then y, then z\n"
         "  NX NY NZ    how many values there are along x, y and z, each 2 to 256. FILE must have 2 x NX x NY x NZ\n"
         "              bytes\n"
         "  THRESHOLD   1 to 65534. A value of at least THRESHOLD is metal, any other is hollow\n"
         "  BYTE-ORDER  little if the low byte of each value comes first, big if the high byte does\n"
         "  MESH        the mesh to be judged: a text file as target/scan writes it with --mesh\n"
         "  --noise N   the noise figure, 0 to 4294967295. Without it, it is 0\n"
         "\n"
         "THRESHOLD and N must be those that the mesh was made with. For example:\n"
         "\n"
         "  target/judge housing.raw 256 256 200 23000 little foundry-mesh.txt\n"
         "  target/judge housing.raw 256 256 200 23000 little foundry-mesh.txt --noise 34000000\n"
         "\n"
         "MESH has a line for each vertex, numbered from 0, and a line for each quad:\n"
         "\n"
         "  v NUMBER I J K X Y Z MASK\n"
         "  q VERTEX VERTEX VERTEX VERTEX\n"
         "\n"
         "The vertex is in cube I J K, in steps of the grid at I+X, J+Y, K+Z. MASK is four digits in hexadecimal.\n"
         "The first is 1 where the vertex is marked and else 0. The other three are the edges of the cube that it\n"
         "joins. Lines that begin with # are passed over. The lines of a record may stand before the first v or q.\n"
         "Where they name other axes, another threshold or another noise figure than you do, a note says so.");
    puts("\n"
         "The mesh is the same if its vertices match ours one to one by cube and mask, if its quads are ours, each\n"
         "once, and if each of X, Y and Z is from 0 to 1. The order of vertices and of quads does not matter, and\n"
         "neither does at which of its vertices a quad begins. Which way round it goes does matter. Where in its\n"
         "cube a vertex lies is not compared.\n"
         "\n"
         "Standard output has what was asked, how many vertices and quads MESH has, one of these lines, and notes:\n"
         "\n"
         "  verdict same\n"
         "  verdict vertex N    vertex N is the first at fault: ours has none with its cube and mask, an earlier one\n"
         "                      has both, or one of X, Y and Z is not from 0 to 1\n"
         "  verdict quad N      no vertex is at fault, and quad N, from 0, is the first that is: it is none of ours,\n"
         "                      or an earlier one once more\n"
         "  verdict missing     nothing is at fault, but some vertices or quads of ours are missing\n"
         "  refused NUMBER value VALUE\n"
         "\n"
         "Exit status: 0 the same; 1 a file or memory failed, or MESH is not in this form; 2 bad arguments;\n"
         "3 refused; 4 not the same.");
    finish(STATUS_SAME);
}

/* Whether it is plain digits and nothing else, so that no number is read as another one, and at most the limit. */
static int is_number(const char *text, uint32_t limit, uint32_t *value)
{
    size_t digits = strspn(text, "0123456789");
    uint64_t read = 0;
    if (digits == 0 || text[digits] || (text[0] == '0' && digits > 1))
        return 0;
    for (size_t at = 0; at < digits && read <= limit; at++)
        read = 10 * read + (uint64_t)(text[at] - '0');
    *value = (uint32_t)read;
    return read <= limit;
}

static uint32_t number(const char *name, const char *text, uint32_t limit, const char *range)
{
    uint32_t value;
    if (!is_number(text, limit, &value))
        fail(STATUS_ARGUMENTS, "%s is \"%s\", and it must be a number from %s in plain digits: no comma, point, sign "
             "or space, and no zero in front.", name, shown(text), range);
    return value;
}

static struct request read_arguments(int argc, char **argv)
{
    static const char *const axis_names[AXES] = {"NX", "NY", "NZ"};
    struct request request = {0};
    int given = argc - 1;
    if (given == 1 && strcmp(argv[1], "--help") == 0)
        help();
    if (given < ARGUMENTS)
        fail(STATUS_ARGUMENTS, "There are %d arguments, and there must be %d before any option.", given, ARGUMENTS);
    request.file = argv[1];
    request.file_shown = shown(argv[1]);
    for (int axis = 0; axis < AXES; axis++)
        request.length[axis] = number(axis_names[axis], argv[2 + axis], UINT32_MAX, "2 to 256");
    request.threshold = (uint16_t)number("THRESHOLD", argv[5], UINT16_MAX, "1 to 65534");
    request.byte_order = argv[6];
    if (strcmp(argv[6], "little") != 0 && strcmp(argv[6], "big") != 0)
        fail(STATUS_ARGUMENTS, "BYTE-ORDER is \"%s\", and it must be little or big.", shown(argv[6]));
    request.mesh = argv[7];
    request.mesh_shown = shown(argv[7]);
    if (argv[7][0] == 0 || argv[7][0] == '-')
        fail(STATUS_ARGUMENTS, "MESH is \"%s\", and it must be a name that does not begin with a dash.",
             request.mesh_shown);
    for (int at = 1 + ARGUMENTS; at < argc; at += 2) {
        if (strcmp(argv[at], "--noise") != 0)
            fail(STATUS_ARGUMENTS, "\"%s\" stands where only --noise can.", shown(argv[at]));
        if (request.is_noise_given)
            fail(STATUS_ARGUMENTS, "--noise is given twice.");
        if (at + 1 == argc)
            fail(STATUS_ARGUMENTS, "--noise must be followed by the noise figure N.");
        request.noise = number("N of --noise", argv[at + 1], UINT32_MAX, "0 to 4294967295");
        request.is_noise_given = 1;
    }
    return request;
}

/* ---- the library's questions ---- */

/* Asks for the verdict on the mesh, with these quads in place of its own. */
static void ask_judge(const struct request *request, const struct block *block, const struct mesh *mesh,
                      const uint32_t *quads, size_t quad_count, uint32_t *answer)
{
    const uint32_t *length = request->length;
    parsniprow_judge(length[0], length[1], length[2], block->samples, block->count, request->threshold, request->noise,
                     mesh->words, WORDS_A_VERTEX * mesh->vertex_count, mesh->offsets,
                     OFFSETS_A_VERTEX * mesh->vertex_count, quads, VERTICES_A_QUAD * quad_count, answer, ANSWER);
}

/* The words of our vertices in a cube of the block; gives how many there are. */
static uint32_t ask_cube(const struct request *request, const struct block *block, const uint32_t *cube,
                         uint32_t *words)
{
    size_t nx = request->length[0], ny = request->length[1];
    const uint16_t *s = block->samples + (cube[0] + nx * (cube[1] + ny * cube[2])), *z = s + nx * ny;
    uint32_t answer[CUBE_ANSWER];
    double offsets[OFFSETS_A_VERTEX * MOST_LOOPS];
    parsniprow_cube(s[0], s[1], s[nx], s[nx + 1], z[0], z[1], z[nx], z[nx + 1], request->threshold, request->noise,
                    words, MOST_LOOPS, offsets, OFFSETS_A_VERTEX * MOST_LOOPS, answer, CUBE_ANSWER);
    return answer[1];
}

/* ---- the record ---- */

static void put_request(const struct request *request)
{
    const uint32_t *length = request->length;
    printf("file %s\naxes %" PRIu32 " %" PRIu32 " %" PRIu32 "\nthreshold %" PRIu16 "\n", request->file_shown, length[0],
           length[1], length[2], request->threshold);
    if (request->is_noise_given)
        printf("noise %" PRIu32 "\n", request->noise);
    printf("byte-order %s\nmesh %s\n", request->byte_order, request->mesh_shown);
}

/* What a line of MESH says, and what it should be. */
static void note_head(int which, const uint32_t *wanted, const char *of)
{
    const struct head *head = &heads[which];
    if (head->told == 0 || memcmp(head->number, wanted, (size_t)head->number_count * sizeof *wanted) == 0)
        return;
    printf("note Line %zu of MESH says %s", head->told, head->word);
    for (int at = 0; at < head->number_count; at++)
        printf(" %" PRIu32, head->number[at]);
    printf(", and %s", of);
    for (int at = 0; at < head->number_count; at++)
        printf(" %" PRIu32, wanted[at]);
    printf(".\n");
}

/* Where MESH is of something else than was asked, or has not what it says. */
static void note_heads(const struct request *request, const struct mesh *mesh)
{
    uint32_t threshold = request->threshold, vertices = (uint32_t)mesh->vertex_count;
    uint32_t quads = (uint32_t)mesh->quad_count;
    note_head(HEAD_AXES, request->length, "you asked about axes");
    note_head(HEAD_THRESHOLD, &threshold, "you asked about threshold");
    note_head(HEAD_NOISE, &request->noise, "you asked about noise");
    if (heads[HEAD_THRESHOLD].told && !heads[HEAD_NOISE].told && request->noise != 0)
        printf("note MESH has a line threshold and no line noise, so it was made with noise 0, and you asked about "
               "noise %" PRIu32 ".\n", request->noise);
    note_head(HEAD_VERTICES, &vertices, "the lines that begin with v are");
    note_head(HEAD_QUADS, &quads, "the lines that begin with q are");
}

static void put_quad(const struct mesh *mesh, size_t quad)
{
    const uint32_t *corner = mesh->quads + VERTICES_A_QUAD * quad;
    printf("quad %zu in line %zu of MESH, %" PRIu32 " %" PRIu32 " %" PRIu32 " %" PRIu32, quad, mesh->quad_lines[quad],
           corner[0], corner[1], corner[2], corner[3]);
}

static void refuse(const struct request *request, const struct mesh *mesh, const uint32_t *answer)
{
    uint32_t axis = answer[1] % AXES;
    put_request(request);
    printf("refused %" PRIu32 " value %" PRIu32 "\n", answer[0], answer[1]);
    if (answer[0] == BAD_AXIS)
        printf("note Axis %c is %" PRIu32 " values long, and it must be 2 to 256. Check that the numbers stand in the "
               "order NX NY NZ THRESHOLD.\n", "xyz"[axis], request->length[axis]);
    else if (answer[0] == BAD_THRESHOLD)
        printf("note The threshold must be from 1 to 65534. Take the one that the mesh was made with.\n");
    else if (answer[0] == BAD_NUMBER && answer[1] < mesh->quad_count) {
        printf("note There is no verdict, since a vertex is named that MESH does not have: see ");
        put_quad(mesh, answer[1]);
        printf(".\nnote MESH has %zu vertices, numbered from 0. Check that it was copied whole.\n", mesh->vertex_count);
    } else if (answer[0] == BAD_LENGTHS)
        printf("note MESH has %zu vertices, and no block that is taken here has more than 66325500.\n",
               mesh->vertex_count);
    else /* no other can come about: samples and quads are as many as the library wants */
        printf("note This is a fault of the judge tool and not of the mesh. Report it together with these lines.\n");
    note_heads(request, mesh);
    finish(STATUS_REFUSED);
}

/* ---- why something is at fault ---- */

static int is_in_block(const struct request *request, const uint32_t *cube)
{
    const uint32_t *length = request->length;
    return cube[0] < length[0] - 1 && cube[1] < length[1] - 1 && cube[2] < length[2] - 1;
}

/* The first vertex with this one's cube and word. It may be this one itself. */
static size_t first_like(const struct mesh *mesh, size_t vertex)
{
    size_t at = 0;
    while (memcmp(mesh->origins[at].cube, mesh->origins[vertex].cube, sizeof mesh->origins[at].cube) != 0 ||
           mesh->words[WORDS_A_VERTEX * at + 1] != mesh->words[WORDS_A_VERTEX * vertex + 1])
        at++;
    return at;
}

/* The vertex is in the block. Gives whether ours has one with its cube and word, and else says what ours has there. */
static int is_known(const struct request *request, const struct block *block, const struct mesh *mesh, size_t vertex)
{
    uint32_t words[MOST_LOOPS] = {0}, count = ask_cube(request, block, mesh->origins[vertex].cube, words);
    for (uint32_t loop = 0; loop < count; loop++)
        if (words[loop] == mesh->words[WORDS_A_VERTEX * vertex + 1])
            return 1;
    if (count == 0) {
        printf("note Ours has no vertex in this cube.\n");
        return 0;
    }
    printf("note Ours has no vertex with this mask in this cube. There ours has %" PRIu32 " %s", count,
           count == 1 ? "vertex, with the mask" : "vertices, with the masks");
    for (uint32_t loop = 0; loop < count; loop++)
        printf("%s %04" PRIX32, loop == 0 ? "" : loop + 1 == count ? " and" : ",", words[loop]);
    printf(".\n");
    return 0;
}

/* Says all that is wrong with a vertex. */
static void explain_vertex(const struct request *request, const struct block *block, const struct mesh *mesh,
                           size_t vertex)
{
    const struct origin *origin = &mesh->origins[vertex];
    const double *offset = mesh->offsets + OFFSETS_A_VERTEX * vertex;
    const uint32_t *cube = origin->cube, *length = request->length;
    size_t earlier = first_like(mesh, vertex);
    int is_told = 0;
    printf("note Vertex %zu in line %zu of MESH is the first at fault. It is in cube %" PRIu32 " %" PRIu32 " %" PRIu32
           ", at %g %g %g in steps of the grid, and has the mask %04" PRIX32 ".\n", vertex, origin->line, cube[0],
           cube[1], cube[2], cube[0] + offset[0], cube[1] + offset[1], cube[2] + offset[2],
           mesh->words[WORDS_A_VERTEX * vertex + 1]);
    if (!is_in_block(request, cube)) {
        printf("note This cube is not in the block, whose last cube is %" PRIu32 " %" PRIu32 " %" PRIu32 ".\n",
               length[0] - 2, length[1] - 2, length[2] - 2);
        is_told = 1;
    } else if (!is_known(request, block, mesh, vertex))
        is_told = 1;
    if (earlier < vertex) {
        printf("note Vertex %zu in line %zu has the same cube and the same mask.\n", earlier,
               mesh->origins[earlier].line);
        is_told = 1;
    }
    for (int axis = 0; axis < AXES; axis++)
        if (!(offset[axis] >= 0 && offset[axis] <= 1)) {
            printf("note Its %c is %.17g, and it must be from 0 to 1.\n", "XYZ"[axis], offset[axis]);
            is_told = 1;
        }
    if (!is_told) /* cannot come about */
        printf("note The reason was not found. Report it together with these lines.\n");
}

static int is_turn(const uint32_t *one, const uint32_t *other)
{
    for (int turn = 0; turn < VERTICES_A_QUAD; turn++)
        if (one[0] == other[turn] && one[1] == other[(turn + 1) % 4] && one[2] == other[(turn + 2) % 4] &&
            one[3] == other[(turn + 3) % 4])
            return 1;
    return 0;
}

/* No vertex is at fault. So a list with one quad alone has that quad at fault exactly if it is none of ours. */
static int is_ours_mirrored(const struct request *request, const struct block *block, const struct mesh *mesh,
                            const uint32_t *corner)
{
    uint32_t mirrored[VERTICES_A_QUAD] = {corner[3], corner[2], corner[1], corner[0]}, answer[ANSWER];
    ask_judge(request, block, mesh, mirrored, 1, answer);
    return answer[0] == NO_REFUSAL && (answer[1] == 1 || answer[2] == SOME_MISSING);
}

static void explain_quad(const struct request *request, const struct block *block, const struct mesh *mesh, size_t quad)
{
    const uint32_t *corner = mesh->quads + VERTICES_A_QUAD * quad;
    size_t earlier = 0;
    printf("note No vertex is at fault. The first quad at fault is ");
    put_quad(mesh, quad);
    printf(". Its vertices are in the cubes");
    for (int at = 0; at < VERTICES_A_QUAD; at++) {
        const uint32_t *cube = mesh->origins[corner[at]].cube;
        printf("%s %" PRIu32 " %" PRIu32 " %" PRIu32, at == 0 ? "" : at == 3 ? " and" : ",", cube[0], cube[1], cube[2]);
    }
    printf(".\n");
    while (earlier < quad && !is_turn(mesh->quads + VERTICES_A_QUAD * earlier, corner))
        earlier++;
    if (earlier < quad) {
        printf("note It is an earlier quad once more: ");
        put_quad(mesh, earlier);
        printf(".\n");
    } else if (is_ours_mirrored(request, block, mesh, corner))
        printf("note Ours has this quad the other way round. This one faces from hollow to metal.\n");
    else
        printf("note Ours has no quad with these four vertices in this order, begun at any of them.\n");
}

static void explain_missing(const struct request *request, const struct block *block, const struct mesh *mesh)
{
    const uint32_t *length = request->length;
    uint32_t answer[COUNTS_ANSWER];
    parsniprow_counts(length[0], length[1], length[2], block->samples, block->count, request->threshold, request->noise,
                      answer, COUNTS_ANSWER);
    printf("note No vertex and no quad is at fault, but some of ours are missing. Ours has %" PRIu32 " vertices and "
           "%" PRIu32 " quads, and MESH has %zu and %zu of them.\n", answer[1], answer[2], mesh->vertex_count,
           mesh->quad_count);
}

static void report(const struct request *request, const struct block *block, const struct mesh *mesh,
                   const uint32_t *answer)
{
    int is_same = answer[1] == 1;
    stage = EXPLAINING;
    put_request(request);
    printf("vertices %zu\nquads %zu\n", mesh->vertex_count, mesh->quad_count);
    if (is_same)
        printf("verdict same\n"
               "note MESH is the same as our mesh: its vertices match ours one to one by cube and mask, its quads are "
               "ours, each once, and each offset is from 0 to 1.\n"
               "note Where in its cube a vertex lies is not compared.\n");
    else if (answer[2] == SOME_MISSING)
        printf("verdict missing\n");
    else
        printf("verdict %s %" PRIu32 "\n", answer[2] == AT_VERTEX ? "vertex" : "quad", answer[3]);
    if (!is_same)
        printf("note MESH is not the same as our mesh.\n");
    if (!is_same && answer[2] == AT_VERTEX)
        explain_vertex(request, block, mesh, answer[3]);
    else if (!is_same && answer[2] == AT_QUAD)
        explain_quad(request, block, mesh, answer[3]);
    else if (!is_same)
        explain_missing(request, block, mesh);
    note_heads(request, mesh);
    if (!is_same && answer[2] != SOME_MISSING)
        printf("note Only the first fault is named. There may be more behind it.\n");
    if (!is_same)
        printf("note Check first that the scan, the axes, the threshold, the byte order and the noise figure are those "
               "that the mesh was made with.\n");
    finish(is_same ? STATUS_SAME : STATUS_OTHER);
}

/* ---- the scan ---- */

static FILE *open_file(const char *name, const char *name_shown)
{
    FILE *from = fopen(name, "rb");
    if (!from && errno == ENOENT)
        fail(STATUS_FAILED, "There is no file \"%s\". Check its name and its folder.", name_shown);
    if (!from)
        fail(STATUS_FAILED, "%s cannot be opened: %s. Check its name, and that you may read it.", name_shown,
             strerror(errno));
    return from;
}

static void check_read(FILE *from, const char *name_shown)
{
    if (ferror(from))
        fail(STATUS_FAILED, "%s could not be read to its end: %s. Check that it is a file, and copy it from where it "
             "came from once more.", name_shown, strerror(errno));
}

/* How many values the axes want. The library, asked without one, refuses an axis or else says how many it wants. */
static size_t values_wanted(const struct request *request)
{
    uint16_t no_sample = 0;
    uint32_t no_word = 0, answer[ANSWER];
    double no_offset = 0;
    struct block nothing = {&no_sample, 0};
    struct mesh no_mesh = {0};
    no_mesh.words = no_mesh.quads = &no_word;
    no_mesh.offsets = &no_offset;
    ask_judge(request, &nothing, &no_mesh, no_mesh.quads, 0, answer);
    if (answer[0] != BAD_COUNT)
        refuse(request, &no_mesh, answer);
    return answer[1];
}

/* Reads one byte more than is wanted, if there is one. */
static struct block read_block(const struct request *request)
{
    struct block block = {NULL, values_wanted(request)};
    size_t wanted = BYTES_A_SAMPLE * block.count, low = strcmp(request->byte_order, "big") == 0 ? 1 : 0, have;
    unsigned char *bytes = room(NULL, wanted + 1, 1, "The scan");
    FILE *from = open_file(request->file, request->file_shown);
    have = fread(bytes, 1, wanted + 1, from);
    check_read(from, request->file_shown);
    fclose(from);
    if (have != wanted)
        fail(STATUS_FAILED, "%s has %s%zu bytes, and axes %" PRIu32 ", %" PRIu32 " and %" PRIu32 " want %zu, two a "
             "value. Check the axes, that the file has 16-bit values and no header, and that it was copied whole.",
             request->file_shown, have > wanted ? "more than " : "", have > wanted ? wanted : have, request->length[0],
             request->length[1], request->length[2], wanted);
    block.samples = room(NULL, block.count, sizeof *block.samples, "The scan");
    for (size_t index = 0; index < block.count; index++) {
        const unsigned char *at = bytes + BYTES_A_SAMPLE * index;
        block.samples[index] = (uint16_t)(at[low] | at[1 - low] << 8);
    }
    free(bytes);
    return block;
}

/* ---- the mesh ---- */

/* MESH is not in its form. */
static void bad_line(const struct request *request, size_t line, const char *format, ...)
{
    char sentence[MOST_SENTENCE];
    va_list values;
    va_start(values, format);
    vsnprintf(sentence, sizeof sentence, format, values);
    va_end(values);
    fail(STATUS_FAILED, "Line %zu of %s: %s", line, request->mesh_shown, sentence);
}

/* A vertex number, or a number of I, J and K. */
static uint32_t mesh_number(const struct request *request, size_t line, const char *name, const char *text)
{
    uint32_t value;
    if (!is_number(text, UINT32_MAX, &value))
        bad_line(request, line, "%s is \"%.40s\", and it must be a number of at most 4294967295 in plain digits, with no "
                 "sign and no zero in front.", name, shown(text));
    return value;
}

static void grow_vertices(struct mesh *mesh)
{
    size_t items = mesh->vertex_room == 0 ? FIRST_ROOM : 2 * mesh->vertex_room;
    if (mesh->vertex_count < mesh->vertex_room)
        return;
    mesh->words = room(mesh->words, items, WORDS_A_VERTEX * sizeof *mesh->words, "The mesh");
    mesh->offsets = room(mesh->offsets, items, OFFSETS_A_VERTEX * sizeof *mesh->offsets, "The mesh");
    mesh->origins = room(mesh->origins, items, sizeof *mesh->origins, "The mesh");
    mesh->vertex_room = items;
}

static void grow_quads(struct mesh *mesh)
{
    size_t items = mesh->quad_room == 0 ? FIRST_ROOM : 2 * mesh->quad_room;
    if (mesh->quad_count < mesh->quad_room)
        return;
    mesh->quads = room(mesh->quads, items, VERTICES_A_QUAD * sizeof *mesh->quads, "The mesh");
    mesh->quad_lines = room(mesh->quad_lines, items, sizeof *mesh->quad_lines, "The mesh");
    mesh->quad_room = items;
}

/* words: v NUMBER I J K X Y Z MASK */
static void read_vertex(const struct request *request, struct mesh *mesh, size_t line, char **words)
{
    static const char *const names[] = {"I", "J", "K", "X", "Y", "Z"};
    const uint32_t *length = request->length;
    uint32_t *word = mesh->words + WORDS_A_VERTEX * mesh->vertex_count;
    struct origin *origin = &mesh->origins[mesh->vertex_count];
    const char *mask = words[8];
    uint32_t given = mesh_number(request, line, "The number of the vertex", words[1]);
    if (given != mesh->vertex_count)
        bad_line(request, line, "vertex %" PRIu32 " stands where vertex %zu must: the numbers rise from 0, one by one.",
                 given, mesh->vertex_count);
    origin->line = line;
    for (int axis = 0; axis < AXES; axis++) {
        const char *text = words[5 + axis];
        char *end;
        origin->cube[axis] = mesh_number(request, line, names[axis], words[2 + axis]);
        mesh->offsets[OFFSETS_A_VERTEX * mesh->vertex_count + (size_t)axis] = strtod(text, &end);
        if (*end)
            bad_line(request, line, "%s is \"%.40s\", and it must be a number, with a point and no comma.",
                     names[AXES + axis], shown(text));
    }
    if (strlen(mask) != MASK_DIGITS || strspn(mask, "0123456789ABCDEFabcdef") != MASK_DIGITS)
        bad_line(request, line, "the mask is \"%.40s\", and it must be four digits in hexadecimal.", shown(mask));
    word[0] = is_in_block(request, origin->cube)
                  ? origin->cube[0] + (length[0] - 1) * (origin->cube[1] + (length[1] - 1) * origin->cube[2])
                  : UINT32_MAX;
    word[1] = (uint32_t)strtoul(mask, NULL, 16);
    mesh->vertex_count++;
}

/* words: q A B C D */
static void read_quad(const struct request *request, struct mesh *mesh, size_t line, char **words)
{
    uint32_t *corner = mesh->quads + VERTICES_A_QUAD * mesh->quad_count;
    for (int at = 0; at < VERTICES_A_QUAD; at++)
        corner[at] = mesh_number(request, line, "A vertex of the quad", words[1 + at]);
    mesh->quad_lines[mesh->quad_count++] = line;
}

/* A line of a record, of which the numbers are kept where they are held against something. */
static void read_head(const struct request *request, const struct mesh *mesh, size_t line, char **words, int count)
{
    size_t which = 0, all = sizeof heads / sizeof *heads;
    while (which < all && strcmp(words[0], heads[which].word) != 0)
        which++;
    if (which == all)
        bad_line(request, line, "it begins with \"%.40s\", and a line must begin with v, q, #, or a word of the scan "
                 "tool's record. MESH must be text as target/scan writes it with --mesh, not a PLY file.",
                 shown(words[0]));
    if (mesh->vertex_count > 0 || mesh->quad_count > 0)
        bad_line(request, line, "the line %s stands behind a vertex or a quad, and it must stand before the first.",
                 words[0]);
    if (which >= HEADS_WITH_NUMBERS)
        return;
    if (heads[which].told)
        bad_line(request, line, "the line %s stands there a second time.", words[0]);
    if (count != 1 + heads[which].number_count)
        bad_line(request, line, "the line %s has %d words behind it, and it must have %d.", words[0], count - 1,
                 heads[which].number_count);
    for (int at = 0; at < heads[which].number_count; at++)
        heads[which].number[at] = mesh_number(request, line, words[0], words[1 + at]);
    heads[which].told = line;
}

/* How many words the line has; the first of them, as many as there is room for, are named. */
static int split(char *line, char **words)
{
    int count = 0;
    for (char *word = strtok(line, " \t"); word; word = strtok(NULL, " \t")) {
        if (count < WORDS_OF_VERTEX)
            words[count] = word;
        count++;
    }
    return count;
}

/* What some editors put at the front of a text. */
static const char byte_order_mark[] = "\xEF\xBB\xBF";

/* The line has no end of line any more. */
static void read_line(const struct request *request, struct mesh *mesh, size_t line, char *text)
{
    char *words[WORDS_OF_VERTEX];
    int count;
    if ((count = split(text, words)) == 0 || words[0][0] == '#')
        return;
    if (strcmp(words[0], "v") == 0) {
        if (count != WORDS_OF_VERTEX)
            bad_line(request, line, "it has %d words, and the line of a vertex has %d: v NUMBER I J K X Y Z MASK.",
                     count, WORDS_OF_VERTEX);
        grow_vertices(mesh);
        read_vertex(request, mesh, line, words);
    } else if (strcmp(words[0], "q") == 0) {
        if (count != WORDS_OF_QUAD)
            bad_line(request, line, "it has %d words, and the line of a quad has %d: q A B C D.", count, WORDS_OF_QUAD);
        grow_quads(mesh);
        read_quad(request, mesh, line, words);
    } else
        read_head(request, mesh, line, words, count);
}

static struct mesh read_mesh(const struct request *request)
{
    struct mesh mesh = {0};
    FILE *from = open_file(request->mesh, request->mesh_shown);
    char *text = NULL;
    size_t text_room = 0, line = 0;
    ssize_t length;
    stage = READING_MESH;
    grow_vertices(&mesh);
    grow_quads(&mesh);
    while (errno = 0, (length = getline(&text, &text_room, from)) > 0) {
        line++;
        if (strlen(text) != (size_t)length)
            bad_line(request, line, "it has a byte of value 0, so this is no text.");
        if (text[length - 1] != '\n')
            bad_line(request, line, "it does not end with a line feed, so the file may be cut off. Have it sent once "
                     "more.");
        text[--length] = 0;
        if (length > 0 && text[length - 1] == '\r')
            text[--length] = 0;
        read_line(request, &mesh, line, line == 1 && strncmp(text, byte_order_mark, 3) == 0 ? text + 3 : text);
    }
    if (errno == ENOMEM)
        fail(STATUS_FAILED, "Line %zu of %s is too long for the memory. Check that it is a mesh as text.", line + 1,
             request->mesh_shown);
    check_read(from, request->mesh_shown);
    free(text);
    fclose(from);
    return mesh;
}

int main(int argc, char **argv)
{
    struct request request;
    struct block block;
    struct mesh mesh;
    uint32_t answer[ANSWER];
    set_signals();
    request = read_arguments(argc, argv);
    block = read_block(&request);
    mesh = read_mesh(&request);
    stage = JUDGING;
    ask_judge(&request, &block, &mesh, mesh.quads, mesh.quad_count, answer);
    if (answer[0] != NO_REFUSAL)
        refuse(&request, &mesh, answer);
    report(&request, &block, &mesh, answer);
}
