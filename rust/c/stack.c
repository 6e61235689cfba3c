/* How much stack each function takes, a line for each: the most over its cases, what the header promises, and the case. It ends with 1
   where a function takes more than is promised.

   Each case runs on a thread whose stack is memory of this program. The thread paints what is below its own frame and makes the call:
   then the stack was used from the first word on that is no longer paint. So nothing is counted of what a thread itself takes, and a
   call that takes less than FRAME bytes is counted as that many. Where the loader binds memset or memcpy at their first call it takes
   a few KiB more, for which the promises have room. */
#define _GNU_SOURCE
#include <pthread.h>
#include <stdio.h>
#include <stdlib.h>
#include <string.h>
#include <sys/mman.h>

#include "jorvimest.h"

#define COUNT(list) (sizeof(list) / sizeof *(list))
#define PAINT 0x5c5c5c5c5c5c5c5cu

enum {
    STACK = 1 << 20,
    GUARD = 1 << 20, /* below the stack: a call that comes there ends the program */
    FRAME = 256,     /* more than the frame that makes the call has */
    ROWS = JORVIMEST_ROWS_MOST,
    TEXT = JORVIMEST_TEXT_MOST,
    RING_TEXT = 8192
};

struct table {
    uint16_t rows, head;
    uint16_t cells[ROWS * JORVIMEST_CELLS_A_ROW];
    uint8_t marks[ROWS * JORVIMEST_MARKS_A_ROW];
};

/* What a case is given, and what it answers. */
static struct {
    struct table *table;
    const uint8_t *bytes; /* the pattern or the text */
    size_t length;
    uint32_t start;
    size_t room; /* rows for compiling, places for starts, bytes for a text that is written */
    uint32_t answer;
} given;

static uint64_t sets[ROWS * JORVIMEST_WORDS_A_ROW];
static uint32_t list[TEXT + 1];
static uint8_t out[4 << 20];

/* A table as it is lent. */
#define LENT t->rows, t->head, t->cells, COUNT(t->cells), t->marks, COUNT(t->marks)

static void compile(void) {
    struct table *t = given.table;
    uint32_t place;
    given.answer = jorvimest_compile(given.bytes, given.length, t->cells, given.room * JORVIMEST_CELLS_A_ROW, t->marks,
                                     given.room * JORVIMEST_MARKS_A_ROW, sets, given.room * JORVIMEST_WORDS_A_ROW, &t->rows, &t->head,
                                     &place);
}

static void well_formed(void) {
    const struct table *t = given.table;
    given.answer = jorvimest_well_formed(LENT);
}

static void whole(void) {
    const struct table *t = given.table;
    given.answer = jorvimest_whole(LENT, given.bytes, given.length);
}

static void longest(void) {
    const struct table *t = given.table;
    uint32_t end;
    given.answer = jorvimest_longest(LENT, given.bytes, given.length, given.start, &end);
}

static void first(void) {
    const struct table *t = given.table;
    uint32_t start, end;
    given.answer = jorvimest_first(LENT, given.bytes, given.length, &start, &end);
}

static void starts(void) {
    const struct table *t = given.table;
    uint32_t count;
    given.answer = jorvimest_starts(LENT, given.bytes, given.length, list, given.room, &count);
}

static void listing(void) {
    const struct table *t = given.table;
    uint32_t length;
    given.answer = jorvimest_listing(LENT, out, given.room, &length);
}

static void refusal(void) {
    uint32_t length;
    given.answer = jorvimest_refusal(UINT32_MAX, given.start, out, given.room, &length);
}

/* The functions, what is promised of each, and the most that was seen, with its case. */
enum { COMPILE, WELL_FORMED, WHOLE, LONGEST, FIRST, STARTS, LISTING, REFUSAL, FUNCTIONS };

static struct {
    const char *name;
    void (*run)(void);
    size_t promised, most;
    const char *with;
} functions[FUNCTIONS] = {
    {"jorvimest_compile", compile, JORVIMEST_STACK_COMPILE, 0, ""},
    {"jorvimest_well_formed", well_formed, JORVIMEST_STACK_OTHERS, 0, ""},
    {"jorvimest_whole", whole, JORVIMEST_STACK_OTHERS, 0, ""},
    {"jorvimest_longest", longest, JORVIMEST_STACK_OTHERS, 0, ""},
    {"jorvimest_first", first, JORVIMEST_STACK_OTHERS, 0, ""},
    {"jorvimest_starts", starts, JORVIMEST_STACK_OTHERS, 0, ""},
    {"jorvimest_listing", listing, JORVIMEST_STACK_OTHERS, 0, ""},
    {"jorvimest_refusal", refusal, JORVIMEST_STACK_OTHERS, 0, ""},
};

static uint64_t *stack;
static pthread_attr_t with_stack;
static void (*called)(void);
static size_t taken;

static void *on_stack(void *unused) {
    uint8_t *here = __builtin_frame_address(0);
    size_t below = (size_t)(here - (uint8_t *)stack - FRAME) / sizeof *stack, i = 0;
    for (size_t k = 0; k < below; k++)
        stack[k] = PAINT;
    called();
    while (i < below && stack[i] == PAINT)
        i++;
    taken = (size_t)(here - (uint8_t *)(stack + i));
    return unused;
}

static void fail(const char *why) {
    fprintf(stderr, "%s\n", why);
    exit(2);
}

static void make_stack(void) {
    uint8_t *all = mmap(NULL, GUARD + STACK, PROT_READ | PROT_WRITE, MAP_PRIVATE | MAP_ANONYMOUS, -1, 0);
    if (all == MAP_FAILED || mprotect(all, GUARD, PROT_NONE) != 0)
        fail("no memory for a stack");
    stack = (uint64_t *)(all + GUARD);
    if (pthread_attr_init(&with_stack) != 0 || pthread_attr_setstack(&with_stack, stack, STACK) != 0)
        fail("no thread can have the stack");
}

/* Runs a case. An answer that is not due says that the case is not what it is called. */
static void measure(int function, const char *with, uint32_t due) {
    pthread_t thread;
    called = functions[function].run;
    if (pthread_create(&thread, &with_stack, on_stack, NULL) != 0 || pthread_join(thread, NULL) != 0)
        fail("no thread");
    if (given.answer != due) {
        fprintf(stderr, "%s, %s: the answer is %u, and %u is due\n", functions[function].name, with, given.answer, due);
        exit(2);
    }
    if (functions[function].most < taken) {
        functions[function].most = taken;
        functions[function].with = with;
    }
}

/* A pattern is up to four parts, each so many times over. */
static const struct {
    const char *name;
    struct {
        int times;
        const char *bytes;
    } parts[4];
    uint32_t due;
} patterns[] = {
    {"the empty pattern", {{0}}, 0},
    {"1,021 bytes in a row", {{1021, "a"}}, 0},
    {"1,024 bytes in a row", {{1024, "a"}}, JORVIMEST_MANY_ROWS},
    {"1,024 anchors in a row", {{512, "^$"}}, 0},
    {"512 pieces with a sign in a row", {{512, "a*"}}, 0},
    {"204 counts in a row", {{204, "a{2}b"}}, 0},
    {"the longest choice", {{511, "a|"}, {1, "a"}}, 0},
    {"the longest choice of nothing", {{511, "|"}}, 0},
    {"a choice of nothing with too many nodes", {{1024, "|"}}, JORVIMEST_MANY_NODES},
    {"341 groups in a row", {{341, "(a)"}}, 0},
    {"32 groups, nested left", {{32, "("}, {1, "a"}, {32, ")b"}}, 0},
    {"32 groups, nested right", {{32, "(a"}, {32, ")"}}, 0},
    {"32 groups, nested in the middle", {{32, "(a"}, {32, "b)"}}, 0},
    {"32 groups, nested left in a long row", {{32, "("}, {1, "a"}, {30, ")bbbbbbbbbbbbbbb"}, {2, ")"}}, 0},
    {"32 groups, nested right in a long row", {{30, "(aaaaaaaaaaaaaaa"}, {2, "("}, {32, ")"}}, 0},
    {"32 groups, nested left in a choice", {{32, "("}, {1, "a"}, {32, ")b|c"}}, 0},
    {"32 groups, nested right in a choice", {{32, "(a|b"}, {32, ")"}}, 0},
    {"32 groups, nested in the middle of a choice", {{32, "(ab|c"}, {32, "d|ef)"}}, 0},
    {"32 groups, nested in a long choice", {{32, "(a|b|c|d|e|f"}, {32, "|g|h|i|j|k)"}}, 0},
    {"32 groups with *", {{32, "("}, {1, "a"}, {32, ")*"}}, 0},
    {"32 groups with +, nested left", {{32, "("}, {1, "a"}, {32, ")+b"}}, 0},
    {"32 groups with ?, nested right", {{32, "(a"}, {32, ")?"}}, 0},
    {"32 groups with ?, nested left in a choice", {{32, "("}, {1, "a"}, {32, ")?b|c"}}, 0},
    {"32 groups with a count of 1", {{32, "("}, {1, "a"}, {32, "){1}"}}, 0},
    {"32 groups with a count of 1, nested left in a choice", {{32, "("}, {1, "a"}, {32, "){1}b|c"}}, 0},
    {"32 groups with a count of 1, nested right in a choice", {{32, "(a|b"}, {1, "a"}, {32, "){1}"}}, 0},
    {"32 groups with a count of 1 at the end of a branch", {{32, "x|a("}, {1, "x|ab{2}"}, {32, "){1}"}}, 0},
    {"32 groups that may be skipped by count, nested left in a choice", {{32, "("}, {1, "a"}, {32, "){0,1}b|c"}}, 0},
    {"32 groups that may be skipped by count, nested right in a choice", {{32, "(a|b"}, {1, "a"}, {32, "){0,1}"}}, 0},
    {"32 groups from none on by count, nested right in a choice", {{32, "(a|b"}, {1, "a"}, {32, "){0,}"}}, 0},
    {"32 groups from one on by count", {{32, "(a|b"}, {1, "a"}, {32, "){1,}"}}, JORVIMEST_MANY_NODES},
    {"counts in counts", {{32, "("}, {1, "a{2}"}, {32, "){2}"}}, JORVIMEST_MANY_NODES},
    {"counts in counts, nested right in a choice", {{32, "(a|b"}, {1, "a{255}"}, {32, "){255}"}}, JORVIMEST_MANY_NODES},
    {"counts in counts, thrown away", {{32, "("}, {1, "a{2}"}, {31, "){2}"}, {1, "){0}"}}, 0},
    {"the greatest class", {{1, "["}, {1022, "a"}, {1, "]"}}, 0},
    {"the most ranges in a class", {{1, "[^"}, {113, "\\x61-\\x62"}, {1, "]"}}, 0},
    {"the most names in a class", {{1, "["}, {102, "[:xdigit:]"}, {1, "]"}}, 0},
    {"the most classes", {{341, "[a]"}}, 0},
    {"32 groups around a class", {{32, "(a|b"}, {1, "[[:alpha:]a-z\\x00-\\xff]"}, {32, ")"}}, 0},
    {"a pattern that is too long", {{1025, "a"}}, JORVIMEST_TOO_LONG},
    {"32 groups around a sign with no atom", {{32, "(a|b"}, {1, "**"}}, JORVIMEST_NO_ATOM},
    {"32 groups around a bad count", {{32, "(a|b"}, {1, "{2,1}"}}, JORVIMEST_BAD_COUNT},
    {"32 groups around a bad class", {{32, "(a|b"}, {1, "[b-\\x61]"}}, JORVIMEST_BAD_CLASS},
    {"32 groups around a bad escape", {{32, "(a|b"}, {1, "\\xag"}}, JORVIMEST_BAD_ESCAPE},
    {"32 groups around a stray brace", {{32, "(a|b"}, {1, "}"}}, JORVIMEST_STRAY},
    {"32 groups, and one more is closed", {{32, "(a|b"}, {33, ")"}}, JORVIMEST_NO_GROUP},
    {"32 groups left open", {{32, "(a|b"}}, JORVIMEST_OPEN_GROUP},
    {"33 groups", {{33, "(a|b"}}, JORVIMEST_DEEP_GROUP},
    {"2,050 nodes", {{1, "(a{255}){4}a{5}"}}, JORVIMEST_MANY_NODES},
    {"2,048 nodes and 1,027 set rows", {{1, "(a{255}){4}a{4}"}}, JORVIMEST_MANY_ROWS},
    {"1,027 set rows", {{1, "[ab]*a[ab]{9}"}}, JORVIMEST_MANY_ROWS},
    {"1,023 set rows in a chain", {{1, "(a{255}){4}"}}, 0},
    {"515 set rows", {{1, "[ab]*a[ab]{8}"}}, 0},
    {"set rows of many nodes", {{1, "("}, {1, "[^a]?[^b]?[^c]?[^d]?[^e]?[^f]?[^g]?[^h]?"}, {1, "){60}$"}}, JORVIMEST_MANY_ROWS},
    {"empty ways", {{1, "("}, {1, "(^|$)(){110}"}, {1, "){8}"}}, 0},
};

static struct table table;

static void compiling(void) {
    static uint8_t pattern[4096];
    for (size_t k = 0; k < COUNT(patterns); k++) {
        size_t length = 0;
        for (size_t i = 0; i < COUNT(patterns[k].parts); i++)
            for (int j = 0; j < patterns[k].parts[i].times; j++) {
                memcpy(pattern + length, patterns[k].parts[i].bytes, strlen(patterns[k].parts[i].bytes));
                length += strlen(patterns[k].parts[i].bytes);
            }
        given.table = &table;
        given.bytes = pattern;
        given.length = length;
        given.room = ROWS;
        measure(COMPILE, patterns[k].name, patterns[k].due);
        given.room = 0;
        measure(COMPILE, patterns[k].name, patterns[k].due == 0 ? JORVIMEST_MANY_ROWS : patterns[k].due);
    }
}

/* The tables: not well formed; of one row; of a*b; 1,024 rows in a ring, without an end and with one at the text's end alone; and
   1,024 rows that each byte leaves for another row. */
static struct table broken, one, few, ring, ring_at_end, wide;
static uint8_t text[TEXT + 1];

static void make_tables(void) {
    broken.rows = ROWS + 1;
    one.rows = 1;
    one.marks[0] = 3;
    few.rows = 3;
    few.marks[2] = 3;
    for (int b = 0; b < 256; b++) {
        few.cells[b] = b == 'a' ? 0 : b == 'b' ? 2 : 1;
        few.cells[256 + b] = few.cells[512 + b] = 1;
    }
    ring.rows = ring_at_end.rows = wide.rows = ROWS;
    wide.head = ROWS - 1;
    for (int q = 0; q < ROWS; q++) {
        ring_at_end.marks[q] = q == 5 ? 2 : 0;
        wide.marks[q] = q == 8 ? 3 : 0;
        for (int b = 0; b < 256; b++) {
            ring.cells[256 * q + b] = ring_at_end.cells[256 * q + b] = (q + 1) % ROWS;
            wide.cells[256 * q + b] = (q + 769 * b + 1) % ROWS;
        }
    }
    memset(text, 'a', sizeof text);
}

enum {
    NONE = JORVIMEST_NONE,
    LONG = JORVIMEST_LONG_TEXT,
    BROKEN = JORVIMEST_NOT_FORMED,
    PAST = JORVIMEST_PAST_END,
    FEW = JORVIMEST_FEW_PLACES
};

/* A table, so many bytes a, a start, places in a list; what whole, longest, first and starts answer. */
static const struct {
    const char *name;
    struct table *table;
    size_t length;
    uint32_t start;
    size_t places;
    uint32_t whole, longest, first, starts;
} matchings[] = {
    {"a table that is not well formed", &broken, TEXT + 1, TEXT + 2, 0, BROKEN, BROKEN, BROKEN, BROKEN},
    {"a text that is too long", &one, TEXT + 1, TEXT + 2, 0, LONG, LONG, LONG, LONG},
    {"one row, the empty text", &one, 0, 1, 0, 0, PAST, 0, FEW},
    {"one row, the longest text", &one, TEXT, TEXT, TEXT + 1, 0, 0, 0, 0},
    {"a*b, the empty text", &few, 0, 0, 0, NONE, NONE, NONE, 0},
    {"a*b, the longest text, no place", &few, TEXT, 1, 0, NONE, NONE, NONE, 0},
    {"a*b, the longest text, all places", &few, TEXT, 0, TEXT + 1, NONE, NONE, NONE, 0},
    {"1,024 rows in a ring, no place", &ring, RING_TEXT, 0, 0, NONE, NONE, NONE, 0},
    {"1,024 rows in a ring, all places", &ring, RING_TEXT, 1, RING_TEXT + 1, NONE, NONE, NONE, 0},
    {"1,024 rows in a ring with an end, no place", &ring_at_end, RING_TEXT + 6, 0, 0, NONE, NONE, 0, FEW},
    {"1,024 rows in a ring with an end, a few places", &ring_at_end, RING_TEXT + 6, 1, 99, NONE, 0, 0, 0},
    {"1,024 rows in a ring with an end, all places", &ring_at_end, RING_TEXT + 5, 1, RING_TEXT + 6, 0, NONE, 0, 0},
    {"1,024 rows that go everywhere", &wide, RING_TEXT, 1, RING_TEXT + 1, NONE, 0, 0, 0},
};

static void matching(void) {
    for (size_t k = 0; k < COUNT(matchings); k++) {
        const char *name = matchings[k].name;
        given.table = matchings[k].table;
        given.bytes = text;
        given.length = matchings[k].length;
        given.start = matchings[k].start;
        given.room = matchings[k].places;
        measure(WELL_FORMED, name, given.table != &broken);
        measure(WHOLE, name, matchings[k].whole);
        measure(LONGEST, name, matchings[k].longest);
        measure(FIRST, name, matchings[k].first);
        measure(STARTS, name, matchings[k].starts);
    }
}

static void writing(void) {
    const struct {
        const char *name;
        struct table *table;
    } listed[] = {{"one row", &one}, {"a*b", &few}, {"1,024 rows in a ring", &ring}, {"1,024 rows that go everywhere", &wide}};
    for (size_t k = 0; k < COUNT(listed); k++) {
        given.table = listed[k].table;
        given.room = 0;
        measure(LISTING, listed[k].name, JORVIMEST_LONGER);
        given.room = sizeof out;
        measure(LISTING, listed[k].name, JORVIMEST_WRITTEN);
    }
    given.table = &broken;
    measure(LISTING, "a table that is not well formed", JORVIMEST_NOT_FORMED);
    given.start = 0;
    measure(REFUSAL, "a short line", JORVIMEST_WRITTEN);
    given.start = UINT32_MAX;
    measure(REFUSAL, "the longest line", JORVIMEST_WRITTEN);
    given.room = 0;
    measure(REFUSAL, "no room", JORVIMEST_LONGER);
}

int main(void) {
    make_stack();
    make_tables();
    compiling();
    matching();
    writing();
    int more = 0;
    for (int k = 0; k < FUNCTIONS; k++) {
        printf("%-22s %7zu of %6zu bytes: %s\n", functions[k].name, functions[k].most, functions[k].promised, functions[k].with);
        more |= functions[k].promised < functions[k].most;
    }
    return more;
}
