/* The scan tool: reads a raw block of 16-bit grey values, or of 32-bit float readings, has the library draw the surface
   between metal and hollow, and writes how many vertices and quads it has, whether it is closed, and in how many pieces
   it comes; on request also the vertices and quads themselves, as plain text or as a PLY file for a viewer, a table of
   the pieces, and how many vertices and quads there are at other thresholds. Or it reads the block plane by plane, so
   that it never holds more than a layer of the mesh. Or it makes no mesh, and writes how much room one takes at most.
   Usage: scan FILE NX NY NZ THRESHOLD BYTE-ORDER [--noise N] [--mesh OUT] [--ply OUT --spacing X Y Z [--piece NUMBER]]
   [--pieces OUT] [--thresholds LIST | --float], or scan FILE NX NY NZ THRESHOLD BYTE-ORDER [--noise N] --by-planes
   [--ply OUT --spacing X Y Z], or scan FILE NX NY NZ THRESHOLD BYTE-ORDER --room; "scan --help" says what each is.
   Assumes a POSIX system, a float that is an IEEE 754 single, and the library linked in (include/parsniprow.h).

   Standard output is the record, in lines of a word and what it says: what was asked, and the library's answer.
     file, axes, threshold, byte-order    what was asked, as it was read
     noise N                              with --noise: the noise figure. It stands right behind the threshold
     readings HOW                         with --float: that FILE has float readings, and how they were read
     spacing X Y Z                        what was asked too, where a PLY file is asked for
     piece NUMBER                         the same, where the PLY file is to have one piece alone
     values LEAST to GREATEST             the grey values in the file, or those that its readings count as
     ceiling COUNT                        how many of them are 65535, the detector's ceiling
     vertices COUNT, quads COUNT          the mesh
     closed yes, closed no                whether each side of its quads is walked as often one way as the other
     pieces COUNT                         in how many pieces it comes: two vertices are in one if a chain of quads joins
                                          them, and a vertex in no quad is a piece of its own
     marked COUNT                         how many vertices have a corner of their cube at the ceiling
     ply BYTES                            how long the PLY file is, where one is asked for
     refused NUMBER value VALUE           there is no mesh, and no line of values or counts
     note SENTENCE                        what the answer does not mean, or what to do
   With --thresholds a line for each threshold T of LIST, in the order of LIST, stands before the first note. It has the
   vertices and quads of a run with T in place of THRESHOLD, or why there are none. All other lines are at THRESHOLD:
     at T vertices COUNT quads COUNT      the mesh at T
     at T refused NUMBER value VALUE      there is no mesh at T, and the other lines hold all the same
   LIST is 1 to 16 numbers with a comma between each two. Where THRESHOLD is refused, no threshold of LIST is told.
   With --noise the library gets N as its noise figure wherever it counts or meshes: at each threshold of LIST too, plane
   by plane, and of readings. Without it the library gets 0. So a run with --noise 0 has the record and the files of one
   without, but for the line noise, which the file of --mesh has too.
   With --by-planes FILE is read plane by plane, and the mesh is never held as a whole. So the lines closed and pieces
   are missing, and so is the note on an open mesh. The note on marked vertices says that --mesh needs another run, and
   notes at the end say what is missing. All other lines are as without it. A PLY file has the same vertices, byte for
   byte, and the same quads; these stand in the order in which they come, by plane and then by axis. For a PLY file FILE
   is read twice, first to count and then to write, so it must be a file and no pipe. --mesh, --pieces, --piece and
   --thresholds do not go with --by-planes.
   With --float FILE has 32-bit floats, the readings of the second bench. Each counts as the greatest whole number not
   above it, or from 65535 on as 65535, and the mesh is that of the block so obtained. The readings are held once, and
   there is no second block of grey values. The record is that of the block so obtained, but for the line readings and
   for how the note on ceilings begins. Where a reading is no number, infinite or below zero, there is no mesh, and a
   note says which reading it is. --thresholds, --by-planes and --room do not go with --float.
   With --room no mesh is made. In place of the lines from vertices to ply the record has:
     crossed COUNT                        how many edges of the block are crossed, those on the sides of the box too
     vertices-at-most COUNT               the mesh has no more: a vertex joins at least three crossed edges, and an edge
                                          is in at most four cubes
     quads-at-most COUNT                  the mesh has no more: a crossed edge gives at most one quad
     bytes-at-most COUNT                  these vertices and quads take no more in memory: 32 a vertex and 16 a quad
   Standard error has progress, a line each second, and a sentence where there is no answer; standard output then has
   nothing.
   Exit status: 0 a mesh, or its room; 1 a file or memory failed, or the mesh does not have the piece asked for; 2 bad
   arguments; 3 refused by the library. A threshold of LIST that is refused does not change it.

   The OUT of --mesh is plain text: four lines that begin with # and say what follows, the record's lines without notes
   and without those of --thresholds, a line for each vertex by rising number from 0,
     v NUMBER I J K X Y Z MASK            its cube, its place in the cube, its mask: four digits in hexadecimal, the
                                          first 1 where the vertex is marked, the others its edges
   and a line for each quad, the numbers of its vertices: q A B C D. The vertex is at (I + X, J + Y, K + Z) in grid
   steps; X, Y and Z have so many digits that the same double is read back.
   The OUT of --ply is the file that parsniprow_ply makes, in millimetres. It has neither masks nor marks. With --piece
   it has the vertices and quads of that piece alone, in the same order, the vertices numbered anew from 0.
   A spacing that the library refuses is refused before FILE is opened, as an axis is.
   The OUT of --pieces is a table with commas: a line that names the columns, then a line for each piece. The piece with
   the most vertices comes first; of two with as many, the one with more quads, and then the one with the lower number.
     piece                                its number, which is its lowest vertex
     vertices, quads                      how many it has
     x-least, x-greatest, and so on       the box that it lies in: the least and the greatest I, J and K of its vertices
     closed                               yes or no, asked of its quads alone; - where it has none
     marked                               how many of its vertices are marked
   OUT must not be there yet: nothing is overwritten. It is written as OUT.part and renamed when it is whole. Where more
   than one is asked for, all are whole before the first is renamed. */
#define _XOPEN_SOURCE 700

#include "parsniprow.h"

#include <errno.h>
#include <fcntl.h>
#include <inttypes.h>
#include <signal.h>
#include <stdarg.h>
#include <stdio.h>
#include <stdlib.h>
#include <string.h>
#include <sys/stat.h>
#include <time.h>
#include <unistd.h>

enum { ANSWER = 3, CLOSED_ANSWER = 4, AXES = 3 };
enum { BYTES_A_SAMPLE = 2, BYTES_A_READING = 4, WORDS_A_VERTEX = 2, OFFSETS_A_VERTEX = 3, VERTICES_A_QUAD = 4 };
enum { LEAST_EDGES_A_VERTEX = 3, MOST_CUBES_AN_EDGE = 4, MOST_VERTICES_A_CUBE = 4, WORK_PLANES = 6 };
enum { PLY_BYTES_A_VERTEX = 24, PLY_BYTES_A_QUAD = 17, MOST_PLY_HEAD = 256, VERTICES_SO_FAR = 5, QUADS_SO_FAR = 6 };
enum { NO_REFUSAL, BAD_AXIS, BAD_COUNT, BAD_THRESHOLD, BAD_SPACING = 13, NO_ROOM = 15 };
enum { NO_NUMBER = 19, INFINITE = 20, BELOW_ZERO = 21 }; /* refusals of readings */
enum { STATUS_MESH, STATUS_FAILED, STATUS_ARGUMENTS, STATUS_REFUSED };
enum { ARGUMENTS = 6, MOST_THRESHOLDS = 16, LENGTH = 1, MOST_AT_ONCE = 1 << 20, MEGABYTE = 1000000 };
enum { CEILING = 65535, MARK = 1 << 12 }; /* a grey value, and a bit in the word of a vertex */

/* What was asked. Names as shown are one line, whatever the file is called. The spacing is that of the PLY file, if one
   is asked for, and the piece is the one that it is to have; as text they are null where they are not given. The mesh
   is at the threshold, with the noise figure, which is 0 where it is not given. The list has the thresholds of
   --thresholds. Where it is for room, no mesh is made. Where it is by planes, the block and its mesh are never held as
   a whole. Where it is float, the file has readings. */
struct request {
    const char *file, *file_shown, *byte_order, *spacing_text[AXES], *piece_text;
    uint32_t length[AXES], piece, noise;
    uint16_t threshold, listed[MOST_THRESHOLDS];
    size_t listed_count;
    double spacing[AXES];
    int is_for_room, is_by_planes, is_float, is_noise_given;
};

/* A block has samples, or else readings, which then stand where their bytes were read. The least and the greatest are
   grey values, also those of readings. */
struct block {
    unsigned char *bytes;
    uint16_t *samples, least, greatest;
    float *readings;
    size_t count;
    uint32_t ceiling_count, first_ceiling;
};

/* A piece of a mesh, of whose vertices so many have been met. Its quads name its vertices by their numbers in the
   piece, from 0. */
struct piece {
    uint32_t number, vertex_count, met_count, quad_count, marked_count, least[AXES], greatest[AXES], *quads;
    int is_closed;
};

/* Of each vertex, piece is the number of its piece; of the lowest vertex of a piece, own is how many vertices the piece
   has. Once the pieces are listed, piece is the place of a vertex's piece in the list by rising number, and own is the
   number of the vertex in its piece. */
struct mesh {
    uint32_t *words, *quads, *piece, *own, vertex_count, quad_count, marked_count, piece_count;
    int is_closed;
    double *offsets;
    struct piece *pieces;
    uint8_t *ply;
    uint64_t ply_len;
};

/* A scan that is read plane by plane: how many bytes have been read, a number by which two readings that differ are
   told apart, as far as no one means to deceive, and room for a plane; the library's state and work; and room for the
   part of the mesh that a plane gives. In the part, ply is room for its vertices as a PLY file. */
struct run {
    int file;
    uint64_t read_count, wanted, fingerprint;
    unsigned char *bytes;
    uint16_t *samples;
    size_t plane_size, work_len, words_len, offsets_len, quads_len, ply_len;
    uint32_t state[PARSNIPROW_STATE], *work;
    struct mesh part;
};

/* The crossed edges of a block, and how large they let the mesh become at most. */
struct bounds {
    uint64_t edge_count, vertex_count, quad_count, bytes;
};

/* ---- progress, told by a clock, so that it is told within a long call too ---- */

enum stage { OPENING, READING, COUNTING, MESHING, CHECKING, FINDING, LISTING, CHECKING_EACH, DRAWING, TAKING, WRITING };
enum { WHOLE = 100, NO_PERCENT = 127, STAGE_STEP = 128 };

static const char *const stage_names[] = {"opening the file", "reading", "counting", "making the mesh",
                                          "checking its sides", "finding the pieces", "listing the pieces",
                                          "checking the sides of each piece", "making the PLY file",
                                          "taking the planes", "writing"};
/* stage and percent in one number, so that the clock never sees the one change without the other */
static volatile sig_atomic_t progress;
static struct timespec started;

static void enter(enum stage stage)
{
    progress = (sig_atomic_t)stage * STAGE_STEP + NO_PERCENT;
}

static void advance(enum stage stage, uint64_t done, uint64_t all)
{
    progress = (sig_atomic_t)stage * STAGE_STEP + (sig_atomic_t)(WHOLE * done / all);
}

static size_t append(char *line, size_t at, const char *text)
{
    while (*text)
        line[at++] = *text++;
    return at;
}

static size_t append_number(char *line, size_t at, uint64_t value)
{
    if (value >= 10)
        at = append_number(line, at, value / 10);
    line[at] = (char)('0' + value % 10);
    return at + 1;
}

/* Once a second. The handler of a signal may not call printf. */
static void tell_progress(int signal_number)
{
    int kept = errno, percent = progress % STAGE_STEP;
    char line[128];
    size_t length = append(line, 0, "scan: ");
    struct timespec now = started;
    ssize_t written;
    (void)signal_number;
    clock_gettime(CLOCK_MONOTONIC, &now);
    length = append_number(line, length, (uint64_t)(now.tv_sec - started.tv_sec - (now.tv_nsec < started.tv_nsec)));
    length = append(line, append(line, length, " s, "), stage_names[progress / STAGE_STEP]);
    if (percent != NO_PERCENT)
        length = append(line, append_number(line, append(line, length, " "), (uint64_t)percent), " %");
    length = append(line, length, "\n");
    written = write(STDERR_FILENO, line, length);
    (void)written; /* where nobody reads, the mesh is made all the same */
    alarm(1);
    errno = kept;
}

/* ---- the files that are written, of which no way out leaves an unfinished one behind ---- */

enum { MESH_FILE, PLY_FILE, PIECES_FILE, OUTS };

/* A file that is asked for if it has a name. As long as it is unfinished its name is part. */
static struct out {
    const char *option, *thing, *name, *shown;
    char *part;
    volatile sig_atomic_t is_part_there;
} outs[OUTS] = {{"--mesh", "the mesh", NULL, NULL, NULL, 0},
                {"--ply", "the PLY file", NULL, NULL, NULL, 0},
                {"--pieces", "the table of pieces", NULL, NULL, NULL, 0}};

static void remove_parts(void)
{
    for (int which = 0; which < OUTS; which++) {
        if (outs[which].is_part_there)
            unlink(outs[which].part);
        outs[which].is_part_there = 0;
    }
}

static void end_by_signal(int signal_number)
{
    remove_parts();
    signal(signal_number, SIG_DFL);
    raise(signal_number);
}

static void on_signal(int signal_number, void (*handler)(int))
{
    struct sigaction action;
    memset(&action, 0, sizeof action);
    sigemptyset(&action.sa_mask);
    action.sa_handler = handler;
    action.sa_flags = SA_RESTART;
    sigaction(signal_number, &action, NULL);
}

/* A signal that was ignored from the start stays so: whoever started the program wants it to go on. */
static void on_ending_signal(int signal_number)
{
    struct sigaction before;
    if (sigaction(signal_number, NULL, &before) == 0 && before.sa_handler != SIG_IGN)
        on_signal(signal_number, end_by_signal);
}

static void set_signals(void)
{
    on_ending_signal(SIGHUP);
    on_ending_signal(SIGINT);
    on_ending_signal(SIGTERM);
    /* a write that fails is told in a sentence instead */
    on_signal(SIGPIPE, SIG_IGN);
    on_signal(SIGXFSZ, SIG_IGN);
    enter(OPENING);
    clock_gettime(CLOCK_MONOTONIC, &started);
    on_signal(SIGALRM, tell_progress);
    alarm(1);
}

/* A file that is opened must not get the number of a closed standard stream: progress would be written into it. */
static void hold_standard_streams(void)
{
    for (int stream = STDIN_FILENO; stream <= STDERR_FILENO; stream++)
        if (fcntl(stream, F_GETFD) == -1 && open("/dev/null", O_RDONLY) != stream)
            exit(STATUS_FAILED);
}

/* ---- sentences and memory ---- */

/* Says on standard error why there is no answer, and ends. */
static void fail(int status, const char *format, ...)
{
    va_list values;
    alarm(0);
    remove_parts();
    fputs("scan: ", stderr);
    va_start(values, format);
    vfprintf(stderr, format, values);
    va_end(values);
    fputs("\n", stderr);
    if (status == STATUS_ARGUMENTS)
        fputs("scan: target/scan --help says what each argument is.\n", stderr);
    exit(status);
}

static void finish(int status)
{
    alarm(0);
    if (fflush(stdout) != 0 || ferror(stdout))
        fail(STATUS_FAILED, "Standard output could not be written: %s.", strerror(errno));
    exit(status);
}

/* Never null, also for no bytes. What is asked for is a part of all that is needed for the purpose. */
static void *room(uint64_t bytes, uint64_t needed, const char *purpose)
{
    void *memory = malloc((size_t)(bytes > 0 ? bytes : 1));
    if (!memory)
        fail(STATUS_FAILED, "%s needs %" PRIu64 " MB of memory, and there is not so much. Close other programs, or use "
             "a machine with more.", purpose, (needed + MEGABYTE - 1) / MEGABYTE);
    return memory;
}

static const char *shown(const char *text)
{
    size_t length = strlen(text);
    char *copy = room(length + 1, length + 1, "A name");
    for (size_t at = 0; at <= length; at++) {
        int is_control = (unsigned char)text[at] < ' ' || text[at] == '\177';
        copy[at] = is_control && at < length ? '?' : text[at];
    }
    return copy;
}

/* ---- arguments ---- */

static void help(void)
{
    puts("target/scan FILE NX NY NZ THRESHOLD BYTE-ORDER [--noise N] [--mesh OUT]\n"
         "            [--ply OUT --spacing X Y Z [--piece NUMBER]] [--pieces OUT] [--thresholds LIST | --float]\n"
         "target/scan FILE NX NY NZ THRESHOLD BYTE-ORDER [--noise N] --by-planes [--ply OUT --spacing X Y Z]\n"
         "target/scan FILE NX NY NZ THRESHOLD BYTE-ORDER --room\n"
         "\n"
         "Draws the surface between metal and hollow in a scan as a mesh of quads, and writes how many vertices and\n"
         "quads it has, whether it is closed, and in how many pieces it comes. Nothing is smoothed.\n"
         "\n"
         "  FILE        the scan: 16-bit grey values and nothing else, along x first, then y, then z\n"
         "  NX NY NZ    how many values there are along x, y and z, each 2 to 256. FILE must have 2 x NX x NY x NZ\n"
         "              bytes, with --float 4 x NX x NY x NZ. Axes that have changed places cannot be noticed: take\n"
         "              them from the scanner's record\n"
         "  THRESHOLD   1 to 65534. A value of at least THRESHOLD is metal, any other is hollow\n"
         "  BYTE-ORDER  little if the low byte of each value comes first, big if the high byte does. The wrong one\n"
         "              cannot be noticed, but the line \"values\" then shows values that the part does not have.\n"
         "              With --float many scans are then refused\n"
         "  --noise N   the noise figure, 0 to 4294967295, for scans of a noisy tube. The larger it is, the more\n"
         "              hollows join across doubtful faces. It is in squares of grey values, and 0 is none\n"
         "  --mesh OUT  also writes the vertices and quads to the file OUT, as plain text\n"
         "  --ply OUT --spacing X Y Z\n"
         "              also writes them to the file OUT as PLY, which viewers read, in millimetres. X, Y and Z are\n"
         "              the millimetres from one value to the next along x, y and z, each above 0 and at most 1000\n"
         "  --piece NUMBER\n"
         "              the file of --ply then has this piece alone. The table of --pieces has the number of each\n"
         "  --pieces OUT\n"
         "              also writes a table of the pieces to the file OUT, with commas, as spreadsheets read it\n"
         "  --thresholds LIST\n"
         "              also says how many vertices and quads there are at each threshold of LIST, to choose one by.\n"
         "              LIST is 1 to 16 numbers with commas between them and no spaces\n"
         "  --float     FILE has 32-bit floats, the readings of the second bench, in place of 16-bit values. Does not\n"
         "              go with --thresholds, --by-planes and --room\n"
         "  --by-planes\n"
         "              reads the scan plane by plane and holds one layer of the mesh at a time, for scans that are\n"
         "              too large otherwise. Goes with --ply and --noise, and with no other option\n"
         "  --room      makes no mesh, and says how much room it takes at most. Goes with no other option\n"
         "\n"
         "OUT must not be there yet. More than one file can be asked for, each under a name of its own.");
    puts("\n"
         "Numbers are plain digits; X, Y and Z may have a point and digits behind it. For example:\n"
         "\n"
         "  target/scan housing.raw 256 256 200 23000 little --mesh housing-mesh.txt\n"
         "  target/scan housing.raw 256 256 200 23000 little --ply housing.ply --spacing 0.125 0.125 0.2\n"
         "  target/scan housing.raw 256 256 200 23000 little --pieces housing-pieces.csv\n"
         "  target/scan housing.raw 256 256 200 23000 little --thresholds 21000,22000,23000,24000,25000\n"
         "  target/scan housing.raw 256 256 200 23000 little --noise 34000000 --pieces housing-pieces.csv\n"
         "  target/scan housing.raw 256 256 200 23000 little --float --pieces housing-pieces.csv\n"
         "  target/scan housing.raw 256 256 200 23000 little --by-planes --ply housing.ply --spacing 0.1 0.1 0.1\n"
         "  target/scan housing.raw 256 256 200 23000 little --room\n"
         "\n"
         "Standard output has what was asked, then the lines \"values\", \"ceiling\", \"vertices\", \"quads\",\n"
         "\"closed\", \"pieces\" and \"marked\", and with --ply the line \"ply\" with the bytes of the file; or the\n"
         "line \"refused NUMBER value VALUE\", no count, and what to do. The file of --mesh has the same lines, then\n"
         "a line for each vertex, in steps of the grid at I+X, J+Y, K+Z, with the mask of the edges of cube I J K\n"
         "that it joins; then a line for each quad:\n"
         "\n"
         "  v NUMBER I J K X Y Z MASK\n"
         "  q VERTEX VERTEX VERTEX VERTEX");
    puts("\n"
         "The line \"closed\" says yes if each side of a quad is walked as often one way as the other, over all\n"
         "quads. It is always so where the values on the six sides of the box are all metal, or all hollow. It says\n"
         "no only where a side of the box cuts a surface off. That is no finding about the part.\n"
         "\n"
         "The line \"pieces\" says in how many pieces the mesh comes. Two vertices are in one piece if a chain of\n"
         "quads joins them. A vertex in no quad is a piece of its own. The number of a piece is its lowest vertex.\n"
         "The table of --pieces has a line for each, the largest first: its number, its vertices and quads, the\n"
         "least and the greatest I, J and K of its vertices, whether its quads alone are closed (- if it has none),\n"
         "and how many of its vertices are marked. A piece is not yet a pore: the outside is a piece too.\n"
         "\n"
         "A value of 65535 is the detector's ceiling. What the detector saw there is not known. It is drawn as\n"
         "metal. The line \"ceiling\" says how many such values there are. A vertex is marked if a corner of its\n"
         "cube is at the ceiling. The line \"marked\" says how many vertices are. The MASK of a marked vertex begins\n"
         "with 1, that of any other with 0. A PLY file does not show which vertices are marked.\n"
         "\n"
         "With --thresholds the record also has a line for each threshold T of LIST, in the order of LIST:\n"
         "\n"
         "  at T vertices COUNT quads COUNT\n"
         "  at T refused NUMBER value VALUE\n"
         "\n"
         "The line has the vertices and quads of a run with T in place of THRESHOLD. Where T is 0 or 65535, it is\n"
         "the second of these lines. That changes neither the other lines nor the exit status. All other lines and\n"
         "all files are at THRESHOLD.\n"
         "The lines that begin with \"at\" are for choosing a threshold. Run the tool with the one that you choose,\n"
         "and enter that record beside the claim. Compare two housings only at the same threshold.");
    puts("\n"
         "With --noise a noise figure N goes with THRESHOLD. A face of a cube is doubtful if two corners that lie\n"
         "across from each other are metal and the other two are hollow. The metal corners are joined if the product\n"
         "of their differences from THRESHOLD is at least that of the hollow ones and N together. Else they are\n"
         "parted, and the hollow ones join. So a larger N joins hollows, and never metal. N is in squares of grey\n"
         "values: 2500 is what two differences of 50 make. 0 is none, as without --noise. Above 4294705155 every\n"
         "doubtful face is parted. The lines of --thresholds are with the same N. The line \"noise\" behind the line\n"
         "\"threshold\" says N, and without --noise it is missing. Compare two housings only with the same N.");
    puts("\n"
         "With --float each value in FILE is an IEEE 754 single, a reading of the second bench. A reading below 65535\n"
         "counts as the greatest whole number not above it: 22999.9 counts as 22999. Minus zero is 0. A reading of\n"
         "65535 or more is at the ceiling and counts as 65535. The mesh is that of the grey values so obtained.\n"
         "THRESHOLD is such a grey value too, and so are those of the line \"values\". The line \"readings\" says how\n"
         "the readings were read. A reading that is no number is refused with 19, an infinite one with 20, and one\n"
         "below zero with 21. A note then says which reading it is: the first one at fault decides.");
    puts("\n"
         "With --by-planes the lines \"closed\" and \"pieces\" are missing: they need the whole mesh at once. The\n"
         "note on an open mesh is missing too. The note on marked vertices reads otherwise, since --mesh needs\n"
         "another run. Notes at the end say what is missing. All other lines are as without it. The PLY file has the\n"
         "same vertices in the same order. It has the same quads in the order in which they come: by plane, and for\n"
         "each plane first those around edges along x, then y, then z. For a PLY file FILE is read twice, once to\n"
         "count and once to write. So it must be a file that can be read twice, and no pipe.");
    puts("\n"
         "With --room four other lines follow the line \"ceiling\". The line \"crossed\" says how many edges are\n"
         "crossed. An edge joins two values that are neighbours along x, y or z. It is crossed if one is metal and\n"
         "the other hollow. The mesh has no more vertices and quads than the lines \"vertices-at-most\" and\n"
         "\"quads-at-most\" say. In memory they take no more bytes than the line \"bytes-at-most\" says: 32 a vertex\n"
         "and 16 a quad. The mesh may have fewer, so these numbers are no counts of it.\n"
         "\n"
         "Exit status: 0 a mesh, or its room; 1 a file or memory failed, or the mesh does not have the piece asked\n"
         "for; 2 bad arguments; 3 refused.");
    finish(STATUS_MESH);
}

/* Plain digits and nothing else, so that no number is read as another one. */
static uint32_t number(const char *name, const char *text, uint32_t limit, const char *range)
{
    uint64_t value = 0;
    size_t digits = strspn(text, "0123456789");
    if (digits == 0 || text[digits] || (text[0] == '0' && digits > 1))
        fail(STATUS_ARGUMENTS, "%s is \"%s\", and it must be a number in plain digits, as in 23000: no comma, point, "
             "sign or space, and no zero in front.", name, shown(text));
    for (size_t at = 0; at < digits && value <= limit; at++)
        value = 10 * value + (uint64_t)(text[at] - '0');
    if (value > limit)
        fail(STATUS_ARGUMENTS, "%s is %s, and it must be from %s.", name, text, range);
    return (uint32_t)value;
}

/* Plain digits, and where there is a point, digits behind it too. What the number may be, the library says. */
static double decimal(const char *name, const char *text)
{
    static const char figures[] = "0123456789";
    size_t whole = strspn(text, figures), part = text[whole] == '.' ? strspn(text + whole + 1, figures) : 0;
    size_t length = part > 0 ? whole + 1 + part : whole;
    if (whole == 0 || text[length])
        fail(STATUS_ARGUMENTS, "%s of --spacing is \"%s\", and it must be millimetres in plain digits with at most one "
             "point, as in 0.125: no comma, sign, letter or space.", name, shown(text));
    return strtod(text, NULL);
}

static void read_spacing(struct request *request, char **words)
{
    static const char *const names[AXES] = {"X", "Y", "Z"};
    for (int axis = 0; axis < AXES; axis++) {
        request->spacing[axis] = decimal(names[axis], words[axis]);
        request->spacing_text[axis] = words[axis];
    }
}

/* Each number of the list is read as THRESHOLD is. Those that the library refuses, 0 and 65535, are left to it. */
static void read_thresholds(struct request *request, const char *list)
{
    size_t length = strlen(list), count = 1;
    char *copy, *item;
    if (length == 0 || list[0] == ',' || list[length - 1] == ',' || strstr(list, ",,"))
        fail(STATUS_ARGUMENTS, "LIST of --thresholds is \"%s\", and it must be numbers with one comma between each "
             "two, as in 21000,22000,23000: none is left out, and no comma stands at the end.", shown(list));
    for (size_t at = 0; at < length; at++)
        count += list[at] == ',';
    if (count > MOST_THRESHOLDS)
        fail(STATUS_ARGUMENTS, "LIST of --thresholds has %zu numbers, and it must have from 1 to %d. Ask for the "
             "others in another run.", count, MOST_THRESHOLDS);
    copy = strcpy(room(length + 1, length + 1, "A list"), list);
    item = copy;
    for (size_t which = 0; which < count; which++) {
        size_t end = strcspn(item, ",");
        item[end] = 0;
        request->listed[which] = (uint16_t)number("A number of --thresholds", item, UINT16_MAX, "1 to 65534");
        item += end + 1;
    }
    free(copy);
    request->listed_count = count;
}

static void read_out(struct out *out, const char *name)
{
    if (name[0] == 0 || name[0] == '-')
        fail(STATUS_ARGUMENTS, "OUT is \"%s\", and it must be a name that does not begin with a dash.", shown(name));
    out->name = name;
    out->shown = shown(name);
}

/* Each option is given at most once, and has its words behind it. */
static void check_option(const char *option, int is_given, int are_words_there, const char *wanted)
{
    if (is_given)
        fail(STATUS_ARGUMENTS, "%s is given twice.", option);
    if (!are_words_there)
        fail(STATUS_ARGUMENTS, "%s must be followed by %s.", option, wanted);
}

/* Reads an option, behind which so many words are left, and gives how many of them are its own. */
static int read_option(struct request *request, char **words, int left)
{
    for (int which = 0; which < OUTS; which++)
        if (strcmp(words[0], outs[which].option) == 0) {
            check_option(words[0], outs[which].name != NULL, left >= 1, "the name OUT");
            read_out(&outs[which], words[1]);
            return 1;
        }
    if (strcmp(words[0], "--room") == 0) {
        check_option(words[0], request->is_for_room, 1, "nothing");
        request->is_for_room = 1;
        return 0;
    }
    if (strcmp(words[0], "--float") == 0) {
        check_option(words[0], request->is_float, 1, "nothing");
        request->is_float = 1;
        return 0;
    }
    if (strcmp(words[0], "--by-planes") == 0) {
        check_option(words[0], request->is_by_planes, 1, "nothing");
        request->is_by_planes = 1;
        return 0;
    }
    if (strcmp(words[0], "--piece") == 0) {
        check_option(words[0], request->piece_text != NULL, left >= 1, "the NUMBER of a piece");
        request->piece = number("NUMBER of --piece", words[1], UINT32_MAX, "0 to 4294967295");
        request->piece_text = words[1];
        return 1;
    }
    if (strcmp(words[0], "--noise") == 0) {
        check_option(words[0], request->is_noise_given, left >= 1, "the noise figure N");
        request->noise = number("N of --noise", words[1], UINT32_MAX, "0 to 4294967295");
        request->is_noise_given = 1;
        return 1;
    }
    if (strcmp(words[0], "--thresholds") == 0) {
        check_option(words[0], request->listed_count > 0, left >= 1, "the LIST of thresholds");
        read_thresholds(request, words[1]);
        return 1;
    }
    if (strcmp(words[0], "--spacing") != 0)
        fail(STATUS_ARGUMENTS, "\"%s\" stands where only --noise, --mesh, --ply, --pieces, --spacing, --piece, "
             "--thresholds, --float, --by-planes and --room can.", shown(words[0]));
    check_option(words[0], request->spacing_text[0] != NULL, left >= AXES, "X, Y and Z");
    read_spacing(request, words + 1);
    return AXES;
}

static void check_names(void)
{
    for (int one = 0; one < OUTS; one++)
        for (int other = one + 1; other < OUTS; other++)
            if (outs[one].name && outs[other].name && strcmp(outs[one].name, outs[other].name) == 0)
                fail(STATUS_ARGUMENTS, "%s and %s both name %s, and they must name two files.", outs[one].option,
                     outs[other].option, outs[other].shown);
}

/* What goes with --by-planes is had from one layer of the mesh at a time. */
static void check_by_planes(const struct request *request)
{
    const char *other = outs[MESH_FILE].name ? "--mesh" : outs[PIECES_FILE].name ? "--pieces" : "--piece";
    if (outs[MESH_FILE].name || outs[PIECES_FILE].name || request->piece_text)
        fail(STATUS_ARGUMENTS, "--by-planes is given together with %s, which needs the whole mesh at once. Leave out "
             "one of them.", other);
    if (request->listed_count > 0)
        fail(STATUS_ARGUMENTS, "--by-planes is given together with --thresholds, which needs the whole scan at once. "
             "Leave out one of them.");
}

/* What the library does with readings is to count and to mesh a whole block at one threshold. */
static void check_float(const struct request *request)
{
    if (request->listed_count > 0)
        fail(STATUS_ARGUMENTS, "--float is given together with --thresholds, which takes 16-bit values alone. Leave "
             "out one of them. Of a float scan ask for one threshold in each run.");
    if (request->is_by_planes || request->is_for_room)
        fail(STATUS_ARGUMENTS, "--float is given together with %s, which takes 16-bit values alone. Leave out one of "
             "them.", request->is_by_planes ? "--by-planes" : "--room");
}

static void read_options(struct request *request, int given, char **words)
{
    for (int at = 0; at < given; at++)
        at += read_option(request, words + at, given - at - 1);
    if (request->is_float)
        check_float(request);
    if (request->is_for_room && given > 1) { /* every other option is about the mesh */
        const char *other = strcmp(words[0], "--room") == 0 ? words[1] : words[0];
        fail(STATUS_ARGUMENTS, "--room is given together with %s, and with --room no mesh is made. Ask for one of them "
             "at a time.", other);
    }
    if (request->is_by_planes)
        check_by_planes(request);
    if (outs[PLY_FILE].name && !request->spacing_text[0])
        fail(STATUS_ARGUMENTS, "--ply is given without --spacing X Y Z, the millimetres from one value to the next.");
    if (request->spacing_text[0] && !outs[PLY_FILE].name)
        fail(STATUS_ARGUMENTS, "--spacing is given without --ply OUT, and only a PLY file has millimetres.");
    if (request->piece_text && !outs[PLY_FILE].name)
        fail(STATUS_ARGUMENTS, "--piece is given without --ply OUT, and only a PLY file can have one piece alone.");
    check_names();
}

static struct request read_arguments(int argc, char **argv)
{
    static const char *const axis_names[AXES] = {"NX", "NY", "NZ"};
    struct request request = {0};
    int given = argc - 1;
    if (given == 1 && strcmp(argv[1], "--help") == 0)
        help();
    if (given < ARGUMENTS)
        fail(STATUS_ARGUMENTS, "There are %d arguments, and there must be %d before any option.", given, ARGUMENTS);
    request.file = argv[1];
    request.file_shown = shown(argv[1]);
    for (int axis = 0; axis < AXES; axis++)
        request.length[axis] = number(axis_names[axis], argv[2 + axis], UINT32_MAX, "2 to 256");
    request.threshold = (uint16_t)number("THRESHOLD", argv[5], UINT16_MAX, "1 to 65534");
    request.byte_order = argv[6];
    if (strcmp(argv[6], "little") != 0 && strcmp(argv[6], "big") != 0)
        fail(STATUS_ARGUMENTS, "BYTE-ORDER is \"%s\", and it must be little or big.", shown(argv[6]));
    read_options(&request, given - ARGUMENTS, argv + 1 + ARGUMENTS);
    return request;
}

/* ---- the record ---- */

static void put_request(FILE *to, const struct request *request)
{
    const uint32_t *length = request->length;
    fprintf(to, "file %s\n", request->file_shown);
    fprintf(to, "axes %" PRIu32 " %" PRIu32 " %" PRIu32 "\n", length[0], length[1], length[2]);
    fprintf(to, "threshold %" PRIu16 "\n", request->threshold);
    if (request->is_noise_given)
        fprintf(to, "noise %" PRIu32 "\n", request->noise);
    fprintf(to, "byte-order %s\n", request->byte_order);
    if (request->is_float)
        fprintf(to, "readings 32-bit floats of the second bench; below 65535 each counts as the greatest whole number "
                "not above it, from 65535 on as 65535\n");
    if (request->spacing_text[0])
        fprintf(to, "spacing %s %s %s\n", request->spacing_text[0], request->spacing_text[1],
                request->spacing_text[2]);
    if (request->piece_text)
        fprintf(to, "piece %s\n", request->piece_text);
}

static void put_values(FILE *to, const struct block *block)
{
    fprintf(to, "values %" PRIu16 " to %" PRIu16 "\n", block->least, block->greatest);
    fprintf(to, "ceiling %" PRIu32 "\n", block->ceiling_count);
}

static void put_counts(FILE *to, const struct request *request, const struct block *block, const struct mesh *mesh)
{
    put_values(to, block);
    fprintf(to, "vertices %" PRIu32 "\n", mesh->vertex_count);
    fprintf(to, "quads %" PRIu32 "\n", mesh->quad_count);
    if (!request->is_by_planes) {
        fprintf(to, "closed %s\n", mesh->is_closed ? "yes" : "no");
        fprintf(to, "pieces %" PRIu32 "\n", mesh->piece_count);
    }
    fprintf(to, "marked %" PRIu32 "\n", mesh->marked_count);
    if (outs[PLY_FILE].name)
        fprintf(to, "ply %" PRIu64 "\n", mesh->ply_len);
}

/* A row has an answer for each threshold of the list. */
static void put_row(const struct request *request, const uint32_t *row)
{
    for (size_t which = 0; which < request->listed_count; which++) {
        const uint32_t *answer = row + ANSWER * which;
        printf("at %" PRIu16, request->listed[which]);
        if (answer[0] == NO_REFUSAL)
            printf(" vertices %" PRIu32 " quads %" PRIu32 "\n", answer[1], answer[2]);
        else
            printf(" refused %" PRIu32 " value %" PRIu32 "\n", answer[0], answer[1]);
    }
}

static void advise_on_axis(const struct request *request, uint32_t axis)
{
    printf("note Axis %c is %" PRIu32 " values long, and it must be 2 to 256. Check that the numbers stand in the "
           "order NX NY NZ THRESHOLD.\n", "xyz"[axis % AXES], request->length[axis % AXES]);
    printf("note Of a scan that is longer, cut out a part.\n");
}

static void advise_on_spacing(const struct request *request, uint32_t axis)
{
    printf("note The spacing along %c is %s, and it must be above 0 and at most 1000 millimetres. Take it from the "
           "scanner's record: how far it is from one value to the next.\n",
           "xyz"[axis % AXES], request->spacing_text[axis % AXES]);
}

/* Which reading is at fault, and what to do about it. */
static void advise_on_reading(const struct request *request, uint32_t refusal, uint32_t index)
{
    uint32_t nx = request->length[0], ny = request->length[1];
    const char *kind = refusal == NO_NUMBER ? "no number" : refusal == INFINITE ? "infinite" : "below zero";
    printf("note The reading at x = %" PRIu32 ", y = %" PRIu32 ", z = %" PRIu32 " (index %" PRIu32 ") is %s.\n",
           index % nx, index / nx % ny, index / nx / ny, index, kind);
    printf("note It is the first reading at fault, and there may be more. All four numbers are counted from 0.\n");
    printf("note Check the byte order, and that the file has 32-bit floats. If both are right, the second bench gave "
           "no grey value there: have the part scanned again. Do not change the reading in the file.\n");
}

static void refuse(const struct request *request, const uint32_t *answer)
{
    put_request(stdout, request);
    printf("refused %" PRIu32 " value %" PRIu32 "\n", answer[0], answer[1]);
    if (answer[0] == BAD_AXIS)
        advise_on_axis(request, answer[1]);
    else if (answer[0] == BAD_THRESHOLD)
        printf("note The threshold must be from 1 to 65534. Choose one between the greys of hollow and of metal.\n");
    else if (answer[0] == BAD_SPACING)
        advise_on_spacing(request, answer[1]);
    else if (answer[0] >= NO_NUMBER && answer[0] <= BELOW_ZERO)
        advise_on_reading(request, answer[0], answer[1]);
    else /* no other can come about: samples, room and mesh are as the library says */
        printf("note This is a fault of the scan tool and not of the scan. Report it together with these lines.\n");
    remove_parts();
    finish(STATUS_REFUSED);
}

/* Where the first value at the ceiling is, and what such values mean. */
static void note_first_ceiling(const struct request *request, const struct block *block)
{
    uint32_t nx = request->length[0], ny = request->length[1], index = block->first_ceiling;
    printf("note Some %s, the detector's ceiling. The first is sample %" PRIu32 ", at (%" PRIu32 ", %" PRIu32
           ", %" PRIu32 ") counted from 0. What the detector saw there is not known. It is drawn as metal. A pore "
           "inside such a saturated region cannot be seen.\n",
           request->is_float ? "readings are 65535 or more" : "values are 65535", index, index % nx, index / nx % ny,
           index / nx / ny);
}

/* What the values at the ceiling mean. A cube with such a corner and a hollow one has a vertex, and it is marked. */
static void note_ceilings(const struct request *request, const struct block *block, const struct mesh *mesh)
{
    note_first_ceiling(request, block);
    if (mesh->marked_count == 0)
        printf("note No vertex is marked: each of these values has only metal round it. So the mesh does not show "
               "where they are.\n");
    else
        printf("note A marked vertex has a corner of its cube at the ceiling, so the surface there is not certain. "
               "%s its mask begins with 1.\n", request->is_by_planes ? "In a run with --mesh, which does not go with "
               "--by-planes," : "With --mesh");
    if (outs[PLY_FILE].name && mesh->marked_count > 0)
        printf("note The PLY file does not show which vertices are marked.\n");
    printf("note If a marked vertex or a value at the ceiling is where the claim is judged, do not judge by the mesh "
           "there. Scan the part again with less exposure. Do not change the value in the file.\n");
}

/* What the thresholds of the list are for, and what their answers do not mean. */
static void note_row(const struct request *request, const uint32_t *row)
{
    int is_one_refused = 0, is_one_without_quads = 0;
    for (size_t which = 0; which < request->listed_count; which++) {
        const uint32_t *answer = row + ANSWER * which;
        is_one_refused |= answer[0] != NO_REFUSAL;
        is_one_without_quads |= answer[0] == NO_REFUSAL && answer[2] == 0;
    }
    printf("note The lines that begin with \"at\" are for choosing a threshold. All other lines are at threshold "
           "%" PRIu16 ". Run the scan tool with the threshold that you choose, and enter that record beside the claim. "
           "Compare two housings only at the same threshold.\n", request->threshold);
    if (is_one_refused)
        printf("note A threshold that is refused has no counts, since it must be from 1 to 65534. The other lines hold "
               "all the same. Choose thresholds between the greys of hollow and of metal.\n");
    if (is_one_without_quads)
        printf("note No quads at a threshold does not mean no pore. Compare that threshold with the values.\n");
}

/* What the record does not say, and how the file differs. */
static void note_by_planes(void)
{
    printf("note The mesh was made plane by plane. So it is not said whether it is closed, nor in how many pieces it "
           "comes. A run without --by-planes says both.\n");
    if (outs[PLY_FILE].name)
        printf("note The quads of the PLY file stand in the order in which the planes give them. They are the same as "
               "without --by-planes.\n");
}

static void report(const struct request *request, const struct block *block, const struct mesh *mesh,
                   const uint32_t *row)
{
    put_request(stdout, request);
    put_counts(stdout, request, block, mesh);
    put_row(request, row);
    if (block->ceiling_count > 0)
        note_ceilings(request, block, mesh);
    if (!request->is_by_planes && !mesh->is_closed)
        printf("note The mesh is open, which is no finding: a side of the box cuts a surface off. With a margin round "
               "the part, of nothing but metal or nothing but air, the mesh is closed.\n");
    if (mesh->quad_count == 0) {
        printf("note No quads does not mean no pore: a pore at the edge of the box has none. Scan the part with a "
               "margin round it.\n");
        printf("note Compare the threshold with the values, and check the axes and the byte order.\n");
    }
    if (outs[PIECES_FILE].name)
        printf("note A piece is not yet a pore: the outside is a piece too, and so is a bore that does not open to it; "
               "a pore that a side of the box cuts may be several. docs/FOR-ASSESSORS.md says how to read them.\n");
    if (request->listed_count > 0)
        note_row(request, row);
    if (request->is_by_planes)
        note_by_planes();
    finish(STATUS_MESH);
}

static void report_room(const struct request *request, const struct block *block, const struct bounds *bounds)
{
    put_request(stdout, request);
    put_values(stdout, block);
    printf("crossed %" PRIu64 "\n", bounds->edge_count);
    printf("vertices-at-most %" PRIu64 "\n", bounds->vertex_count);
    printf("quads-at-most %" PRIu64 "\n", bounds->quad_count);
    printf("bytes-at-most %" PRIu64 "\n", bounds->bytes);
    printf("note No mesh was made. The four numbers above say how much room it takes at most, and they are no counts "
           "of it: enter none of them beside a claim.\n");
    if (block->ceiling_count > 0)
        note_first_ceiling(request, block);
    if (bounds->edge_count == 0)
        printf("note No edge is crossed: all values are metal, or all are hollow. Compare the threshold with the "
               "values, and check the axes and the byte order.\n");
    finish(STATUS_MESH);
}

/* ---- the block ---- */

static void wrong_length(const struct request *request, const char *has, uint64_t bytes, uint64_t wanted)
{
    const uint32_t *length = request->length;
    const char *values = request->is_float ? "32-bit floats" : "16-bit values", *other = "";
    if (!request->is_float && bytes == 2 * wanted && !request->is_by_planes && !request->is_for_room
        && request->listed_count == 0)
        other = " If it has 32-bit floats, as a scan of the second bench has, add --float.";
    else if (!request->is_float && bytes == 2 * wanted)
        other = " If it has 32-bit floats, as a scan of the second bench has, leave out --thresholds, --by-planes and "
                "--room, and add --float.";
    else if (request->is_float && 2 * bytes == wanted)
        other = " If it has 16-bit values, leave out --float.";
    fail(STATUS_FAILED, "%s %s %" PRIu64 " bytes, and axes %" PRIu32 ", %" PRIu32 " and %" PRIu32 " want %" PRIu64
         ", %s. Check the axes, that the file has %s and no header, and that it was copied whole.%s",
         request->file_shown, has, bytes, length[0], length[1], length[2], wanted,
         request->is_float ? "four a reading" : "two a value", values, other);
}

/* The file, which has the right length, as far as a length can be known before it is read. */
static int open_block(const struct request *request, uint64_t wanted)
{
    struct stat about;
    int file = open(request->file, O_RDONLY | O_NOCTTY);
    if (file == -1 && errno == ENOENT)
        fail(STATUS_FAILED, "There is no file \"%s\". Check its name and its folder.", request->file_shown);
    if (file == -1 || fstat(file, &about) != 0)
        fail(STATUS_FAILED, "%s cannot be opened: %s. Check its name, and that you may read it.", request->file_shown,
             strerror(errno));
    if (S_ISDIR(about.st_mode))
        fail(STATUS_FAILED, "%s is a folder. Name the file in it that has the scan.", request->file_shown);
    if (S_ISREG(about.st_mode) && (uint64_t)about.st_size != wanted)
        wrong_length(request, "has", (uint64_t)about.st_size, wanted);
    return file;
}

static void unreadable(const struct request *request)
{
    fail(STATUS_FAILED, "%s could not be read to its end: %s. Copy it from where it came from once more.",
         request->file_shown, strerror(errno));
}

/* Reads one byte more than is wanted, if there is one: a file can change while it is read, and a pipe has no length. */
static void read_bytes(const struct request *request, struct block *block)
{
    size_t wanted = (request->is_float ? BYTES_A_READING : BYTES_A_SAMPLE) * block->count, have = 0;
    int file = open_block(request, wanted);
    ssize_t got = 1;
    block->bytes = room(wanted + 1, wanted + 1, "The scan");
    while (got > 0 && have <= wanted) {
        size_t left = wanted + 1 - have;
        advance(READING, have, wanted);
        got = read(file, block->bytes + have, left < MOST_AT_ONCE ? left : MOST_AT_ONCE);
        have += got > 0 ? (size_t)got : 0;
    }
    if (got < 0)
        unreadable(request);
    if (have < wanted)
        wrong_length(request, "ended after", have, wanted);
    if (have > wanted)
        wrong_length(request, "has more than", wanted, wanted);
    close(file);
}

/* So many samples from their bytes. The block's least and greatest value become those of these samples too. */
static void read_samples(const struct request *request, const unsigned char *bytes, uint16_t *samples, size_t count,
                         struct block *block)
{
    size_t low = strcmp(request->byte_order, "big") == 0 ? 1 : 0, high = 1 - low;
    for (size_t index = 0; index < count; index++) {
        const unsigned char *at = bytes + BYTES_A_SAMPLE * index;
        uint16_t value = (uint16_t)(at[low] | at[high] << 8);
        samples[index] = value;
        block->least = value < block->least ? value : block->least;
        block->greatest = value > block->greatest ? value : block->greatest;
    }
}

/* The readings from their bytes, each in the place of its four. Whether one is at fault is left to the library. */
static void read_readings(const struct request *request, struct block *block)
{
    int is_big = strcmp(request->byte_order, "big") == 0;
    block->readings = (float *)(void *)block->bytes;
    for (size_t index = 0; index < block->count; index++) {
        const unsigned char *at = block->bytes + BYTES_A_READING * index;
        uint32_t bits = 0;
        float value;
        for (int byte = 0; byte < BYTES_A_READING; byte++)
            bits = bits << 8 | at[is_big ? byte : BYTES_A_READING - 1 - byte];
        memcpy(&value, &bits, sizeof value);
        block->readings[index] = value;
    }
}

static void read_block(const struct request *request, struct block *block)
{
    read_bytes(request, block);
    if (request->is_float) {
        read_readings(request, block);
        return;
    }
    block->samples = room(block->count * sizeof *block->samples, block->count * sizeof *block->samples, "The scan");
    read_samples(request, block->bytes, block->samples, block->count, block);
    free(block->bytes);
    block->bytes = NULL;
}

/* ---- the library ---- */

/* Asks how large the mesh of a block is, or with --room how many edges are crossed. All refuse the same, and only of
   readings one can be at fault. */
static void ask_size(const struct request *request, const struct block *block, uint32_t *answer)
{
    const uint32_t *length = request->length;
    size_t count = block->count;
    if (request->is_float)
        parsniprow_readings_counts(length[0], length[1], length[2], block->readings, count, request->threshold,
                                   request->noise, answer, ANSWER);
    else if (request->is_for_room)
        parsniprow_crossed(length[0], length[1], length[2], block->samples, count, request->threshold, answer, ANSWER);
    else
        parsniprow_counts(length[0], length[1], length[2], block->samples, count, request->threshold, request->noise,
                          answer, ANSWER);
}

/* How many values the axes want. The library, asked without one, refuses an axis or else says how many it wants. */
static size_t values_wanted(const struct request *request)
{
    uint16_t no_sample = 0;
    float no_reading = 0;
    struct block nothing = {0};
    uint32_t answer[ANSWER];
    nothing.samples = &no_sample;
    nothing.readings = &no_reading;
    ask_size(request, &nothing, answer);
    if (answer[0] != BAD_COUNT)
        refuse(request, answer);
    return answer[1];
}

/* Asks for the PLY file of a mesh, into room for so many bytes; gives how long it is. */
static uint64_t ask_ply(const struct request *request, const struct mesh *mesh, uint64_t room_len, uint32_t *answer)
{
    const uint32_t *length = request->length;
    const double *spacing = request->spacing;
    uint64_t ply_len = 0;
    parsniprow_ply(length[0], length[1], length[2], mesh->words, (size_t)WORDS_A_VERTEX * mesh->vertex_count,
                   mesh->offsets, (size_t)OFFSETS_A_VERTEX * mesh->vertex_count, mesh->quads,
                   (size_t)VERTICES_A_QUAD * mesh->quad_count, spacing[0], spacing[1], spacing[2], mesh->ply,
                   (size_t)room_len, &ply_len, LENGTH, answer, ANSWER);
    return ply_len;
}

/* The library, asked for the file of no mesh without room for it, refuses the spacing or else the room. */
static void check_spacing(const struct request *request)
{
    uint32_t no_word = 0, answer[ANSWER];
    double no_offset = 0;
    uint8_t no_byte = 0;
    struct mesh nothing = {0};
    nothing.words = nothing.quads = &no_word;
    nothing.offsets = &no_offset;
    nothing.ply = &no_byte;
    ask_ply(request, &nothing, 0, answer);
    if (answer[0] != NO_ROOM)
        refuse(request, answer);
}

static void count_ceilings(struct block *block)
{
    uint32_t answer[ANSWER];
    parsniprow_ceilings(block->samples, block->count, answer, ANSWER);
    block->ceiling_count = answer[1];
    block->first_ceiling = answer[2];
}

/* The grey values that the readings count as, of which none is at fault: the least, the greatest, and those at the
   ceiling. */
static void count_greys(struct block *block)
{
    for (size_t index = 0; index < block->count; index++) {
        uint32_t answer[ANSWER];
        uint16_t value;
        parsniprow_reading(block->readings[index], answer, ANSWER);
        value = (uint16_t)answer[1];
        block->least = value < block->least ? value : block->least;
        block->greatest = value > block->greatest ? value : block->greatest;
        if (value == CEILING && block->ceiling_count++ == 0)
            block->first_ceiling = (uint32_t)index;
    }
}

static void find_size(const struct request *request, const struct block *block, uint32_t *answer)
{
    enter(COUNTING);
    ask_size(request, block, answer);
    if (answer[0] != NO_REFUSAL)
        refuse(request, answer);
}

static struct mesh count_mesh(const struct request *request, const struct block *block)
{
    struct mesh mesh = {0};
    uint32_t answer[ANSWER];
    find_size(request, block, answer);
    mesh.vertex_count = answer[1];
    mesh.quad_count = answer[2];
    return mesh;
}

/* Asks for the counts at all thresholds of the list in one call. */
static void count_row(const struct request *request, const struct block *block, uint32_t *row)
{
    const uint32_t *length = request->length;
    uint32_t answer[ANSWER];
    parsniprow_thresholds(length[0], length[1], length[2], block->samples, block->count, request->listed,
                          request->listed_count, request->noise, row, ANSWER * request->listed_count, answer, ANSWER);
    if (answer[0] != NO_REFUSAL)
        refuse(request, answer);
}

static struct bounds bound_mesh(const struct request *request, const struct block *block)
{
    size_t bytes_a_vertex = WORDS_A_VERTEX * sizeof(uint32_t) + OFFSETS_A_VERTEX * sizeof(double);
    size_t bytes_a_quad = VERTICES_A_QUAD * sizeof(uint32_t);
    struct bounds bounds;
    uint32_t answer[ANSWER];
    find_size(request, block, answer);
    bounds.edge_count = bounds.quad_count = answer[1];
    bounds.vertex_count = MOST_CUBES_AN_EDGE * bounds.edge_count / LEAST_EDGES_A_VERTEX;
    bounds.bytes = bytes_a_vertex * bounds.vertex_count + bytes_a_quad * bounds.quad_count;
    return bounds;
}

static uint32_t count_marks(const struct mesh *mesh)
{
    uint32_t count = 0;
    for (size_t vertex = 0; vertex < mesh->vertex_count; vertex++)
        count += (mesh->words[WORDS_A_VERTEX * vertex + 1] & MARK) != 0;
    return count;
}

static void make_mesh(const struct request *request, const struct block *block, struct mesh *mesh)
{
    const uint32_t *length = request->length;
    size_t words_len = (size_t)WORDS_A_VERTEX * mesh->vertex_count, words = words_len * sizeof *mesh->words;
    size_t offsets_len = (size_t)OFFSETS_A_VERTEX * mesh->vertex_count, offsets = offsets_len * sizeof *mesh->offsets;
    size_t quads_len = (size_t)VERTICES_A_QUAD * mesh->quad_count, quads = quads_len * sizeof *mesh->quads;
    size_t needed = words + offsets + quads;
    uint32_t answer[ANSWER];
    enter(MESHING);
    mesh->words = room(words, needed, "The mesh");
    mesh->offsets = room(offsets, needed, "The mesh");
    mesh->quads = room(quads, needed, "The mesh");
    if (request->is_float)
        parsniprow_readings_mesh(length[0], length[1], length[2], block->readings, block->count, request->threshold,
                                 request->noise, mesh->words, words_len, mesh->offsets, offsets_len, mesh->quads,
                                 quads_len, answer, ANSWER);
    else
        parsniprow_mesh(length[0], length[1], length[2], block->samples, block->count, request->threshold,
                        request->noise, mesh->words, words_len, mesh->offsets, offsets_len, mesh->quads, quads_len,
                        answer, ANSWER);
    if (answer[0] != NO_REFUSAL)
        refuse(request, answer);
    if (answer[1] != mesh->vertex_count || answer[2] != mesh->quad_count)
        fail(STATUS_FAILED, "The mesh is not as large as it was counted. This is a fault of the scan tool: report it.");
    mesh->marked_count = count_marks(mesh);
}

/* Whether the quads over so many vertices are closed. The library works in memory with an item for each vertex and one
   for each number of the quads. */
static int is_closed(const struct request *request, uint32_t vertex_count, const uint32_t *quads, uint32_t quad_count)
{
    size_t quads_len = (size_t)VERTICES_A_QUAD * quad_count, work_len = vertex_count + quads_len;
    uint64_t *work, needed = work_len * sizeof *work;
    uint32_t answer[CLOSED_ANSWER];
    work = room(needed, needed, "The check whether the mesh is closed");
    parsniprow_closed_with(quads, quads_len, work, work_len, answer, CLOSED_ANSWER);
    free(work);
    if (answer[0] != NO_REFUSAL)
        refuse(request, answer);
    return answer[1] == 1;
}

static void check_closed(const struct request *request, struct mesh *mesh)
{
    enter(CHECKING);
    mesh->is_closed = is_closed(request, mesh->vertex_count, mesh->quads, mesh->quad_count);
}

static void find_pieces(const struct request *request, struct mesh *mesh)
{
    size_t count = mesh->vertex_count, bytes = count * sizeof *mesh->piece;
    uint32_t answer[ANSWER];
    enter(FINDING);
    mesh->piece = room(bytes, 2 * bytes, "The search for pieces");
    mesh->own = room(bytes, 2 * bytes, "The search for pieces");
    parsniprow_pieces(mesh->vertex_count, mesh->quads, (size_t)VERTICES_A_QUAD * mesh->quad_count, mesh->piece, count,
                      mesh->own, count, answer, ANSWER);
    if (answer[0] != NO_REFUSAL)
        refuse(request, answer);
    mesh->piece_count = answer[1];
}

/* ---- the pieces, one by one ---- */

/* The indices of a vertex's cube along x, y and z. */
static void find_cube(const struct request *request, const struct mesh *mesh, size_t vertex, uint32_t *index)
{
    uint32_t cube = mesh->words[WORDS_A_VERTEX * vertex];
    for (int axis = 0; axis < AXES; axis++) {
        index[axis] = cube % (request->length[axis] - 1);
        cube /= request->length[axis] - 1;
    }
}

static void add_vertex(struct piece *piece, const uint32_t *cube, uint32_t word)
{
    for (int axis = 0; axis < AXES; axis++) {
        if (piece->met_count == 0 || cube[axis] < piece->least[axis])
            piece->least[axis] = cube[axis];
        if (cube[axis] > piece->greatest[axis])
            piece->greatest[axis] = cube[axis];
    }
    piece->marked_count += (word & MARK) != 0;
    piece->met_count++;
}

/* A piece is met first at its lowest vertex, so the pieces are listed by rising number. */
static void list_pieces(const struct request *request, struct mesh *mesh)
{
    uint64_t needed = mesh->piece_count * sizeof *mesh->pieces;
    uint32_t listed = 0;
    mesh->pieces = room(needed, needed, "The list of pieces");
    memset(mesh->pieces, 0, needed);
    for (uint32_t vertex = 0; vertex < mesh->vertex_count; vertex++) {
        uint32_t lowest = mesh->piece[vertex], place = lowest == vertex ? listed++ : mesh->piece[lowest], cube[AXES];
        struct piece *piece = &mesh->pieces[place];
        if (lowest == vertex) {
            piece->number = vertex;
            piece->vertex_count = mesh->own[vertex];
        }
        mesh->piece[vertex] = place;
        mesh->own[vertex] = piece->met_count;
        find_cube(request, mesh, vertex, cube);
        add_vertex(piece, cube, mesh->words[WORDS_A_VERTEX * vertex + 1]);
    }
}

static struct piece *piece_of_quad(const struct mesh *mesh, size_t quad)
{
    return &mesh->pieces[mesh->piece[mesh->quads[VERTICES_A_QUAD * quad]]];
}

/* Counts the quads of each piece, shares the room out by these counts, and then puts each quad where it belongs. */
static void group_quads(struct mesh *mesh)
{
    uint64_t needed = (uint64_t)VERTICES_A_QUAD * mesh->quad_count * sizeof *mesh->quads;
    uint32_t *room_left = room(needed, needed, "The list of quads by piece");
    for (size_t quad = 0; quad < mesh->quad_count; quad++)
        piece_of_quad(mesh, quad)->quad_count++;
    for (size_t place = 0; place < mesh->piece_count; place++) {
        struct piece *piece = &mesh->pieces[place];
        piece->quads = room_left;
        room_left += (size_t)VERTICES_A_QUAD * piece->quad_count;
        piece->quad_count = 0;
    }
    for (size_t quad = 0; quad < mesh->quad_count; quad++) {
        struct piece *piece = piece_of_quad(mesh, quad);
        uint32_t *into = piece->quads + (size_t)VERTICES_A_QUAD * piece->quad_count++;
        for (size_t corner = 0; corner < VERTICES_A_QUAD; corner++)
            into[corner] = mesh->own[mesh->quads[VERTICES_A_QUAD * quad + corner]];
    }
}

/* The larger comes first: more vertices, then more quads. Of two as large it is the one with the lower number. */
static int by_size(const void *one, const void *other)
{
    const struct piece *a = one, *b = other;
    if (a->vertex_count != b->vertex_count)
        return a->vertex_count > b->vertex_count ? -1 : 1;
    if (a->quad_count != b->quad_count)
        return a->quad_count > b->quad_count ? -1 : 1;
    return (a->number > b->number) - (a->number < b->number);
}

static void check_pieces(const struct request *request, struct mesh *mesh)
{
    for (size_t place = 0; place < mesh->piece_count; place++) {
        struct piece *piece = &mesh->pieces[place];
        advance(CHECKING_EACH, place, mesh->piece_count);
        piece->is_closed = is_closed(request, piece->vertex_count, piece->quads, piece->quad_count);
    }
    qsort(mesh->pieces, mesh->piece_count, sizeof *mesh->pieces, by_size);
}

/* What is asked of the pieces beyond how many there are. */
static void tell_pieces(const struct request *request, struct mesh *mesh)
{
    if (outs[PIECES_FILE].name || request->piece_text) {
        enter(LISTING);
        list_pieces(request, mesh);
        group_quads(mesh);
    }
    if (outs[PIECES_FILE].name)
        check_pieces(request, mesh);
    if (!request->piece_text) {
        free(mesh->piece);
        free(mesh->own);
        mesh->piece = mesh->own = NULL;
    }
}

static const struct piece *piece_asked(const struct request *request, const struct mesh *mesh)
{
    for (size_t place = 0; place < mesh->piece_count; place++)
        if (mesh->pieces[place].number == request->piece)
            return &mesh->pieces[place];
    fail(STATUS_FAILED, "The mesh has no piece with the number %" PRIu32 ". The table that --pieces OUT writes has the "
         "number of each piece.", request->piece);
    return NULL;
}

/* The piece asked for as a mesh of its own. */
static struct mesh one_piece(const struct request *request, const struct mesh *mesh)
{
    const struct piece *piece = piece_asked(request, mesh);
    size_t words = WORDS_A_VERTEX * sizeof *mesh->words, offsets = OFFSETS_A_VERTEX * sizeof *mesh->offsets;
    uint64_t needed = piece->vertex_count * (words + offsets);
    struct mesh one = {0};
    one.vertex_count = piece->vertex_count;
    one.quads = piece->quads;
    one.quad_count = piece->quad_count;
    one.words = room(piece->vertex_count * words, needed, "The piece");
    one.offsets = room(piece->vertex_count * offsets, needed, "The piece");
    for (size_t vertex = 0; vertex < mesh->vertex_count; vertex++)
        if (mesh->piece[vertex] == mesh->piece[piece->number]) {
            size_t own = mesh->own[vertex];
            memcpy(one.words + WORDS_A_VERTEX * own, mesh->words + WORDS_A_VERTEX * vertex, words);
            memcpy(one.offsets + OFFSETS_A_VERTEX * own, mesh->offsets + OFFSETS_A_VERTEX * vertex, offsets);
        }
    return one;
}

/* The first answer says how much room is needed. It is not cut: the largest mesh needs 2430842766 bytes. */
static void make_ply(const struct request *request, struct mesh *mesh)
{
    struct mesh drawn;
    uint32_t answer[ANSWER];
    uint8_t no_byte = 0;
    uint64_t needed;
    enter(DRAWING);
    drawn = request->piece_text ? one_piece(request, mesh) : *mesh;
    drawn.ply = &no_byte;
    ask_ply(request, &drawn, 0, answer);
    if (answer[0] != NO_ROOM)
        refuse(request, answer);
    needed = answer[1];
    drawn.ply = mesh->ply = room(needed, needed, "The PLY file");
    mesh->ply_len = ask_ply(request, &drawn, needed, answer);
    if (answer[0] != NO_REFUSAL)
        refuse(request, answer);
}

/* ---- the files ---- */

static void check_new(const struct out *out)
{
    struct stat about;
    if (lstat(out->name, &about) == 0)
        fail(STATUS_FAILED, "%s is there already, and nothing is overwritten. Name another file for %s.", out->shown,
             out->thing);
}

static FILE *open_part(struct out *out)
{
    static const char ending[] = ".part";
    size_t length = strlen(out->name) + sizeof ending;
    FILE *to = NULL;
    sigset_t ending_signals, before;
    int file, kept;
    out->part = room(length, length, "A name");
    snprintf(out->part, length, "%s%s", out->name, ending);
    /* a signal between the two would leave a file that nobody removes */
    sigemptyset(&ending_signals);
    sigaddset(&ending_signals, SIGHUP);
    sigaddset(&ending_signals, SIGINT);
    sigaddset(&ending_signals, SIGTERM);
    sigprocmask(SIG_BLOCK, &ending_signals, &before);
    file = open(out->part, O_WRONLY | O_CREAT | O_EXCL, 0666);
    kept = errno;
    out->is_part_there = file != -1;
    sigprocmask(SIG_SETMASK, &before, NULL);
    errno = kept;
    if (file == -1 && errno == EEXIST)
        fail(STATUS_FAILED, "%s%s is there already, and %s has this name while it is written. Name another file for "
             "%s.", out->shown, ending, out->thing, out->thing);
    if (file != -1)
        to = fdopen(file, "w");
    if (!to)
        fail(STATUS_FAILED, "%s cannot be written: %s. Check its folder, and that you may write there.", out->shown,
             strerror(errno));
    return to;
}

static int put_vertex(FILE *to, const struct request *request, const struct mesh *mesh, size_t vertex)
{
    const double *offset = mesh->offsets + OFFSETS_A_VERTEX * vertex;
    uint32_t cube[AXES];
    find_cube(request, mesh, vertex, cube);
    return fprintf(to, "v %zu %" PRIu32 " %" PRIu32 " %" PRIu32 " %.17g %.17g %.17g %04" PRIX32 "\n", vertex, cube[0],
                   cube[1], cube[2], offset[0], offset[1], offset[2], mesh->words[WORDS_A_VERTEX * vertex + 1]) > 0;
}

static int put_quad(FILE *to, const struct mesh *mesh, size_t quad)
{
    const uint32_t *vertex = mesh->quads + VERTICES_A_QUAD * quad;
    return fprintf(to, "q %" PRIu32 " %" PRIu32 " %" PRIu32 " %" PRIu32 "\n", vertex[0], vertex[1], vertex[2],
                   vertex[3]) > 0;
}

/* Whether all could be written; where not, errno says why. */
static int put_mesh(FILE *to, const struct request *request, const struct block *block, const struct mesh *mesh)
{
    uint64_t all = (uint64_t)mesh->vertex_count + mesh->quad_count;
    fputs("# The surface between metal and hollow. v: number of a vertex, cube I J K, place X Y Z in the cube, mask\n"
          "# of edges in hexadecimal; it is at I+X, J+Y, K+Z in steps of the grid. q: the vertices of a quad.\n"
          "# A vertex whose mask begins with 1 is marked: a corner of its cube is 65535, the detector's ceiling.\n"
          "# Nothing is smoothed. No quads does not mean no pore: a pore at the edge of the box has none.\n", to);
    put_request(to, request);
    put_counts(to, request, block, mesh);
    for (size_t vertex = 0; vertex < mesh->vertex_count; vertex++) {
        advance(WRITING, vertex, all);
        if (!put_vertex(to, request, mesh, vertex))
            return 0;
    }
    for (size_t quad = 0; quad < mesh->quad_count; quad++) {
        advance(WRITING, mesh->vertex_count + (uint64_t)quad, all);
        if (!put_quad(to, mesh, quad))
            return 0;
    }
    return !ferror(to);
}

static int put_ply(FILE *to, const struct mesh *mesh)
{
    size_t done = 0, all = (size_t)mesh->ply_len;
    while (done < all) {
        size_t now = all - done < MOST_AT_ONCE ? all - done : MOST_AT_ONCE;
        advance(WRITING, done, all);
        if (fwrite(mesh->ply + done, 1, now, to) != now)
            return 0;
        done += now;
    }
    return 1;
}

static int put_piece(FILE *to, const struct piece *piece)
{
    const uint32_t *least = piece->least, *greatest = piece->greatest;
    const char *closed = piece->quad_count == 0 ? "-" : piece->is_closed ? "yes" : "no";
    return fprintf(to, "%" PRIu32 ",%" PRIu32 ",%" PRIu32 ",%" PRIu32 ",%" PRIu32 ",%" PRIu32 ",%" PRIu32 ",%" PRIu32
                   ",%" PRIu32 ",%s,%" PRIu32 "\n", piece->number, piece->vertex_count, piece->quad_count, least[0],
                   greatest[0], least[1], greatest[1], least[2], greatest[2], closed, piece->marked_count) > 0;
}

static int put_pieces(FILE *to, const struct mesh *mesh)
{
    fputs("piece,vertices,quads,x-least,x-greatest,y-least,y-greatest,z-least,z-greatest,closed,marked\n", to);
    for (size_t place = 0; place < mesh->piece_count; place++) {
        advance(WRITING, place, mesh->piece_count);
        if (!put_piece(to, &mesh->pieces[place]))
            return 0;
    }
    return !ferror(to);
}

static void unwritten(const struct out *out)
{
    fail(STATUS_FAILED, "%s could not be written to its end: %s. Nothing of it is left. Make room, or name another "
         "folder.", out->shown, strerror(errno));
}

static void write_part(int which, const struct request *request, const struct block *block, const struct mesh *mesh)
{
    struct out *out = &outs[which];
    FILE *to = open_part(out);
    int is_put = which == MESH_FILE ? put_mesh(to, request, block, mesh)
                 : which == PLY_FILE ? put_ply(to, mesh) : put_pieces(to, mesh);
    if (!is_put || fclose(to) != 0)
        unwritten(out);
}

static void rename_part(struct out *out)
{
    check_new(out);
    if (rename(out->part, out->name) != 0)
        fail(STATUS_FAILED, "%s cannot be written: %s. Name another file for %s.", out->shown, strerror(errno),
             out->thing);
    out->is_part_there = 0;
}

/* All of them are whole before the first gets its name. */
static void write_files(const struct request *request, const struct block *block, const struct mesh *mesh)
{
    for (int which = 0; which < OUTS; which++)
        if (outs[which].name)
            write_part(which, request, block, mesh);
    for (int which = 0; which < OUTS; which++)
        if (outs[which].name)
            rename_part(&outs[which]);
}

/* ---- plane by plane ---- */

/* Room for a plane, for what the library remembers, and for the largest part that a plane can give. */
static struct run make_run(const struct request *request, size_t sample_count)
{
    size_t nx = request->length[0], ny = request->length[1];
    size_t vertices = MOST_VERTICES_A_CUBE * (nx - 1) * (ny - 1);
    size_t quads = (nx - 1) * (ny - 2) + (nx - 2) * (ny - 1) + (nx - 2) * (ny - 2), needed;
    struct run run = {0};
    run.wanted = (uint64_t)BYTES_A_SAMPLE * sample_count;
    run.plane_size = nx * ny;
    run.work_len = WORK_PLANES * run.plane_size;
    run.words_len = WORDS_A_VERTEX * vertices;
    run.offsets_len = OFFSETS_A_VERTEX * vertices;
    run.quads_len = VERTICES_A_QUAD * quads;
    run.ply_len = outs[PLY_FILE].name ? MOST_PLY_HEAD + PLY_BYTES_A_VERTEX * vertices : 0;
    needed = 2 * BYTES_A_SAMPLE * run.plane_size + (run.work_len + run.words_len + run.quads_len) * sizeof *run.work +
             run.offsets_len * sizeof *run.part.offsets + run.ply_len;
    run.bytes = room(BYTES_A_SAMPLE * run.plane_size, needed, "A layer of the mesh");
    run.samples = room(run.plane_size * sizeof *run.samples, needed, "A layer of the mesh");
    run.work = room(run.work_len * sizeof *run.work, needed, "A layer of the mesh");
    run.part.words = room(run.words_len * sizeof *run.part.words, needed, "A layer of the mesh");
    run.part.offsets = room(run.offsets_len * sizeof *run.part.offsets, needed, "A layer of the mesh");
    run.part.quads = room(run.quads_len * sizeof *run.part.quads, needed, "A layer of the mesh");
    run.part.ply = room(run.ply_len, needed, "A layer of the mesh");
    return run;
}

/* The file is open, and stands at its first byte. */
static void start_run(const struct request *request, struct run *run)
{
    const uint32_t *length = request->length;
    uint32_t answer[ANSWER];
    parsniprow_start(length[0], length[1], length[2], request->threshold, request->noise, run->work, run->work_len,
                     run->state, PARSNIPROW_STATE, answer, ANSWER);
    if (answer[0] != NO_REFUSAL)
        refuse(request, answer);
    run->read_count = 0;
    run->fingerprint = 0;
}

/* Reads so many bytes, or fewer where the file ends. */
static size_t read_on(const struct request *request, struct run *run, unsigned char *bytes, size_t count)
{
    size_t have = 0;
    ssize_t got = 1;
    while (got > 0 && have < count) {
        got = read(run->file, bytes + have, count - have);
        have += got > 0 ? (size_t)got : 0;
    }
    if (got < 0)
        unreadable(request);
    run->read_count += have;
    return have;
}

static void read_plane(const struct request *request, struct run *run, struct block *block)
{
    size_t count = BYTES_A_SAMPLE * run->plane_size;
    if (read_on(request, run, run->bytes, count) < count)
        wrong_length(request, "ended after", run->read_count, run->wanted);
    read_samples(request, run->bytes, run->samples, run->plane_size, block);
    for (size_t index = 0; index < run->plane_size; index++)
        run->fingerprint = (run->fingerprint ^ run->samples[index]) * UINT64_C(0x100000001B3);
}

/* Nothing may stand behind the last plane. */
static void read_end(const struct request *request, struct run *run)
{
    unsigned char byte;
    if (read_on(request, run, &byte, 1) > 0)
        wrong_length(request, "has more than", run->wanted, run->wanted);
}

/* Hands the plane to the library. The part is then what it gave. */
static void take_plane(const struct request *request, struct run *run)
{
    uint32_t answer[ANSWER];
    parsniprow_plane(run->state, PARSNIPROW_STATE, run->samples, run->plane_size, run->work, run->work_len,
                     run->part.words, run->words_len, run->part.offsets, run->offsets_len, run->part.quads,
                     run->quads_len, answer, ANSWER);
    if (answer[0] != NO_REFUSAL)
        refuse(request, answer);
    run->part.vertex_count = answer[1];
    run->part.quad_count = answer[2];
}

static void add_ceilings(const struct run *run, uint32_t plane, struct block *block)
{
    uint32_t answer[ANSWER];
    parsniprow_ceilings(run->samples, run->plane_size, answer, ANSWER);
    if (block->ceiling_count == 0)
        block->first_ceiling = (uint32_t)(plane * run->plane_size + answer[2]);
    block->ceiling_count += answer[1];
}

/* The first reading: what the record has. */
static void count_planes(const struct request *request, struct run *run, struct block *block, struct mesh *mesh)
{
    uint32_t answer[ANSWER];
    start_run(request, run);
    for (uint32_t plane = 0; plane < request->length[2]; plane++) {
        advance(TAKING, plane, request->length[2]);
        read_plane(request, run, block);
        take_plane(request, run);
        add_ceilings(run, plane, block);
        mesh->marked_count += count_marks(&run->part);
    }
    read_end(request, run);
    parsniprow_end(run->state, PARSNIPROW_STATE, answer, ANSWER);
    if (answer[0] != NO_REFUSAL)
        refuse(request, answer);
    mesh->vertex_count = answer[1];
    mesh->quad_count = answer[2];
}

static size_t put_ply_head(char *head, const struct mesh *mesh)
{
    return (size_t)snprintf(head, MOST_PLY_HEAD,
                            "ply\nformat binary_little_endian 1.0\nelement vertex %" PRIu32 "\nproperty double x\n"
                            "property double y\nproperty double z\nelement face %" PRIu32 "\n"
                            "property list uchar int vertex_indices\nend_header\n",
                            mesh->vertex_count, mesh->quad_count);
}

/* The vertices of the part, as the library draws them: they stand behind the head of a file that has no quads. */
static int put_part_vertices(FILE *to, const struct request *request, const struct run *run)
{
    struct mesh drawn = run->part;
    size_t bytes = (size_t)PLY_BYTES_A_VERTEX * drawn.vertex_count;
    uint32_t answer[ANSWER];
    uint64_t ply_len;
    drawn.quad_count = 0;
    ply_len = ask_ply(request, &drawn, run->ply_len, answer);
    if (answer[0] != NO_REFUSAL)
        refuse(request, answer);
    return fwrite(drawn.ply + (ply_len - bytes), 1, bytes, to) == bytes;
}

static int put_part_quads(FILE *to, const struct mesh *part)
{
    for (size_t quad = 0; quad < part->quad_count; quad++) {
        unsigned char bytes[PLY_BYTES_A_QUAD] = {VERTICES_A_QUAD}, *at = bytes + 1;
        for (size_t corner = 0; corner < VERTICES_A_QUAD; corner++)
            for (int shift = 0; shift < 32; shift += 8)
                *at++ = (unsigned char)(part->quads[VERTICES_A_QUAD * quad + corner] >> shift);
        if (fwrite(bytes, 1, sizeof bytes, to) != sizeof bytes)
            return 0;
    }
    return 1;
}

/* The vertices and the quads of a part go to their places in the file, behind those that came before. */
static int put_part(FILE *to, const struct request *request, const struct run *run, const uint32_t *before,
                    uint64_t vertices_at, uint64_t quads_at)
{
    uint64_t vertex = before[VERTICES_SO_FAR], quad = before[QUADS_SO_FAR];
    return fseeko(to, (off_t)(vertices_at + PLY_BYTES_A_VERTEX * vertex), SEEK_SET) == 0 &&
           put_part_vertices(to, request, run) &&
           fseeko(to, (off_t)(quads_at + PLY_BYTES_A_QUAD * quad), SEEK_SET) == 0 && put_part_quads(to, &run->part);
}

static void changed(const struct request *request)
{
    fail(STATUS_FAILED, "%s was changed between the two readings that --by-planes needs for a PLY file. Copy it from "
         "where it came from once more, and try again when nothing writes to it.", request->file_shown);
}

/* The second reading. It must give what the first did: other samples would make the file and the record disagree. */
static int put_planes(FILE *to, const struct request *request, struct run *run, struct mesh *mesh)
{
    char head[MOST_PLY_HEAD];
    size_t head_len = put_ply_head(head, mesh);
    uint64_t quads_at = head_len + (uint64_t)PLY_BYTES_A_VERTEX * mesh->vertex_count, first = run->fingerprint;
    struct block again = {0};
    mesh->ply_len = quads_at + (uint64_t)PLY_BYTES_A_QUAD * mesh->quad_count;
    if (lseek(run->file, 0, SEEK_SET) != 0)
        unreadable(request);
    start_run(request, run);
    if (fwrite(head, 1, head_len, to) != head_len)
        return 0;
    for (uint32_t plane = 0; plane < request->length[2]; plane++) {
        uint32_t before[PARSNIPROW_STATE];
        advance(WRITING, plane, request->length[2]);
        memcpy(before, run->state, sizeof before);
        read_plane(request, run, &again);
        take_plane(request, run);
        if (run->state[VERTICES_SO_FAR] > mesh->vertex_count || run->state[QUADS_SO_FAR] > mesh->quad_count)
            changed(request);
        if (!put_part(to, request, run, before, head_len, quads_at))
            return 0;
    }
    read_end(request, run);
    if (run->fingerprint != first)
        changed(request);
    return 1;
}

static void write_planes(const struct request *request, struct run *run, struct mesh *mesh)
{
    struct out *out = &outs[PLY_FILE];
    FILE *to = open_part(out);
    int is_put = put_planes(to, request, run, mesh);
    if (!is_put || fclose(to) != 0)
        unwritten(out);
    rename_part(out);
}

/* A pipe is gone when it has been read. */
static void check_twice(const struct request *request, int file)
{
    struct stat about;
    if (fstat(file, &about) != 0 || !S_ISREG(about.st_mode))
        fail(STATUS_FAILED, "%s cannot be read twice, and --by-planes with --ply reads it once to count and once to "
             "write. Name a file that is on a disk, or leave out --by-planes.", request->file_shown);
}

/* ---- the three answers ---- */

static void tell_planes(const struct request *request, struct block *block)
{
    struct run run = make_run(request, block->count);
    struct mesh mesh = {0};
    run.file = open_block(request, run.wanted);
    if (outs[PLY_FILE].name)
        check_twice(request, run.file);
    count_planes(request, &run, block, &mesh);
    if (outs[PLY_FILE].name)
        write_planes(request, &run, &mesh);
    close(run.file);
    report(request, block, &mesh, NULL);
}

static void tell_room(const struct request *request, struct block *block)
{
    struct bounds bounds = bound_mesh(request, block);
    count_ceilings(block);
    report_room(request, block, &bounds);
}

static void tell_mesh(const struct request *request, struct block *block)
{
    struct mesh mesh = count_mesh(request, block);
    uint32_t row[ANSWER * MOST_THRESHOLDS] = {0};
    if (request->listed_count > 0)
        count_row(request, block, row);
    if (request->is_float)
        count_greys(block);
    else
        count_ceilings(block);
    make_mesh(request, block, &mesh);
    check_closed(request, &mesh);
    find_pieces(request, &mesh);
    tell_pieces(request, &mesh);
    if (outs[PLY_FILE].name)
        make_ply(request, &mesh);
    write_files(request, block, &mesh);
    report(request, block, &mesh, row);
}

int main(int argc, char **argv)
{
    struct request request;
    struct block block = {0};
    block.least = UINT16_MAX;
    hold_standard_streams();
    set_signals();
    request = read_arguments(argc, argv);
    for (int which = 0; which < OUTS; which++)
        if (outs[which].name)
            check_new(&outs[which]);
    block.count = values_wanted(&request);
    if (outs[PLY_FILE].name)
        check_spacing(&request);
    if (request.is_by_planes)
        tell_planes(&request, &block);
    read_block(&request, &block);
    if (request.is_for_room)
        tell_room(&request, &block);
    else
        tell_mesh(&request, &block);
}
