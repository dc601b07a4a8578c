/* Lent buffers with patterns, pages and marks around them. Each buffer has a mapping of its own: a page that nobody may
   touch, room, and another such page. The lent items stand at the room's end, at its start, or with margins on both
   sides.
   Assumes that no page is larger than 64 KiB, or that the system tells the size: an emulated program is told the size
   of its own pages and not that of the machine's, so the pages here are of 64 KiB at least. */
#define _DEFAULT_SOURCE

#include "lent.h"

#include <stdio.h>
#include <stdlib.h>
#include <string.h>
#include <sys/mman.h>
#include <unistd.h>

#if defined MEMCHECK
#include <valgrind/memcheck.h>
#define FORBID(at, length) ((void)VALGRIND_MAKE_MEM_NOACCESS(at, length))
#define ALLOW_WRITING(at, length) ((void)VALGRIND_MAKE_MEM_UNDEFINED(at, length))
#define ALLOW(at, length) ((void)VALGRIND_MAKE_MEM_DEFINED(at, length))
#define CHECK_WRITTEN(at, length) ((void)VALGRIND_CHECK_MEM_IS_DEFINED(at, length))
#elif defined __SANITIZE_ADDRESS__
#include <sanitizer/asan_interface.h>
#define FORBID(at, length) __asan_poison_memory_region(at, length)
#define ALLOW_WRITING(at, length) __asan_unpoison_memory_region(at, length)
#define ALLOW(at, length) __asan_unpoison_memory_region(at, length)
#define CHECK_WRITTEN(at, length) ((void)(at), (void)(length))
#else
#define FORBID(at, length) ((void)(at), (void)(length))
#define ALLOW_WRITING(at, length) ((void)(at), (void)(length))
#define ALLOW(at, length) ((void)(at), (void)(length))
#define CHECK_WRITTEN(at, length) ((void)(at), (void)(length))
#endif

enum { LEAST_PAGE = 65536 };

const char *const beside_names[BESIDES] = {"patterns on both sides", "a page behind", "a page before"};
const char *const reach_names[REACHES] = {"empty", "shorter", "exact", "longer"};

const unsigned char byte_pattern[PATTERN] = {0xA5, 0xA5, 0xA5, 0xA5, 0xA5, 0xA5, 0xA5, 0xA5};
const unsigned char offset_pattern[PATTERN] = {0xA5, 0xA5, 0xA5, 0xA5, 0xA5, 0xA5, 0x15, 0x40};
const unsigned char ceiling_pattern[PATTERN] = {0xFF, 0xFF, 0xFF, 0xFF, 0xFF, 0xFF, 0xFF, 0xFF};

static void stop(const char *what)
{
    fprintf(stderr, "lent: %s\n", what);
    exit(2);
}

static size_t smaller(size_t a, size_t b)
{
    return a < b ? a : b;
}

static size_t page_length(void)
{
    long told = sysconf(_SC_PAGESIZE);
    return told > LEAST_PAGE ? (size_t)told : LEAST_PAGE;
}

static size_t whole_length(const struct lent *lent)
{
    return lent->before + lent->inside + lent->after;
}

/* ---- room ---- */

void give_back(struct lent *lent)
{
    if (lent->mapping && munmap(lent->mapping, lent->mapping_len) != 0)
        stop("a mapping cannot be given back");
    lent->mapping = NULL;
    lent->room_len = 0;
}

/* A mapping of which nothing may be touched but its room; it begins and ends with a page at least. */
static void make_room(struct lent *lent, size_t bytes)
{
    size_t page = page_length();
    if (lent->room_len >= bytes)
        return;
    give_back(lent);
    lent->room_len = (2 * bytes + page - 1) / page * page;
    lent->mapping_len = lent->room_len + 3 * page;
    lent->mapping = mmap(NULL, lent->mapping_len, PROT_NONE, MAP_PRIVATE | MAP_ANONYMOUS, -1, 0);
    if (lent->mapping == MAP_FAILED)
        stop("no memory");
    lent->room = lent->mapping + page + (page - (uintptr_t)lent->mapping % page) % page;
    if (mprotect(lent->room, lent->room_len, PROT_READ | PROT_WRITE) != 0)
        stop("a page cannot be opened");
}

static void count_reach(struct lent *lent, size_t count)
{
    enum reach reach = count == 0 ? EMPTY : count < lent->need ? SHORTER : count == lent->need ? EXACT : LONGER;
    lent->reaches[reach]++;
}

static void fill(unsigned char *bytes, size_t length, const unsigned char *pattern)
{
    size_t whole_patterns = length / PATTERN * PATTERN;
    for (size_t i = 0; i < whole_patterns; i += PATTERN)
        memcpy(bytes + i, pattern, PATTERN);
    memcpy(bytes + whole_patterns, pattern, length - whole_patterns);
}

void lend(struct lent *lent, size_t count, struct lying lying)
{
    size_t margin = lent->item * MARGIN;
    count_reach(lent, count);
    lent->before = lying.beside == PAGE_BEFORE ? 0 : margin;
    lent->before += lying.beside == PATTERNS ? lent->item * lying.shift : 0;
    lent->inside = lent->item * count;
    lent->after = lying.beside == PAGE_BEHIND ? 0 : margin;
    make_room(lent, whole_length(lent));
    lent->whole = lying.beside == PAGE_BEHIND ? lent->room + lent->room_len - whole_length(lent) : lent->room;
    fill(lent->whole, whole_length(lent), lent->pattern);
}

void *start(const struct lent *lent)
{
    return lent->whole + lent->before;
}

/* ---- handing out and taking back ---- */

void hand_out(struct lent *lent)
{
    FORBID(lent->room, lent->room_len);
    ALLOW_WRITING(start(lent), lent->inside);
}

void hand_out_to_change(struct lent *lent)
{
    FORBID(lent->room, lent->room_len);
    ALLOW(start(lent), lent->inside);
}

/* The marks come last, since Valgrind takes a change of pages as a mark of its own. */
void hand_out_to_read(struct lent *lent)
{
    if (mprotect(lent->room, lent->room_len, PROT_READ) != 0)
        stop("a page cannot be closed to writing");
    FORBID(lent->room, lent->room_len);
    ALLOW(start(lent), lent->inside);
}

void take_back(struct lent *lent, size_t written)
{
    CHECK_WRITTEN(start(lent), smaller(lent->inside, lent->item * written));
    ALLOW(lent->room, lent->room_len);
}

void take_back_read(struct lent *lent)
{
    if (mprotect(lent->room, lent->room_len, PROT_READ | PROT_WRITE) != 0)
        stop("a page cannot be opened to writing");
    ALLOW(lent->room, lent->room_len);
}

/* ---- comparing ---- */

static int patterned(const struct lent *lent, size_t from, size_t to)
{
    size_t i = from;
    for (; i < to && i % PATTERN != 0; i++)
        if (lent->whole[i] != lent->pattern[i % PATTERN])
            return 0;
    for (; i + PATTERN <= to; i += PATTERN)
        if (memcmp(lent->whole + i, lent->pattern, PATTERN) != 0)
            return 0;
    return i >= to || memcmp(lent->whole + i, lent->pattern, to - i) == 0;
}

int holds(const struct lent *lent, const void *items, size_t count)
{
    size_t given = smaller(lent->inside, lent->item * count);
    return (given == 0 || memcmp(start(lent), items, given) == 0) && patterned(lent, 0, lent->before) &&
           patterned(lent, lent->before + given, whole_length(lent));
}

/* The byte that must stand at this place of the whole. */
static unsigned char wanted_byte(const struct lent *lent, size_t at, const unsigned char *items, size_t given)
{
    return at < lent->before || at >= lent->before + given ? lent->pattern[at % PATTERN] : items[at - lent->before];
}

void print_wrong(const struct lent *lent, const void *items, size_t count)
{
    size_t given = smaller(lent->inside, lent->item * count), at = 0;
    while (at < whole_length(lent) && lent->whole[at] == wanted_byte(lent, at, items, given))
        at++;
    if (at == whole_length(lent))
        return;
    at -= at % lent->item;
    printf("  %s: item %ld of %lu holds ", lent->name, (long)(at / lent->item) - (long)(lent->before / lent->item),
           (unsigned long)(lent->inside / lent->item));
    for (size_t byte = lent->item; byte-- > 0;)
        printf("%02X", lent->whole[at + byte]);
    printf(", wanted ");
    for (size_t byte = lent->item; byte-- > 0;)
        printf("%02X", wanted_byte(lent, at + byte, items, given));
    printf("\n");
}

void *space(size_t bytes, int is_open)
{
    int protection = is_open ? PROT_READ : PROT_NONE;
    void *at = mmap(NULL, bytes, protection, MAP_PRIVATE | MAP_ANONYMOUS | MAP_NORESERVE, -1, 0);
    if (at == MAP_FAILED)
        stop("there is no such address space");
    return at;
}

void give_space_back(void *at, size_t bytes)
{
    munmap(at, bytes);
}
