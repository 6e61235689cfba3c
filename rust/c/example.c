/* Compiles patterns, looks for matches in a text, and asks whether two patterns are the same. */
#include <stdio.h>
#include <string.h>

#include "jorvimest.h"

#define COUNT(list) (sizeof(list) / sizeof *(list))

/* Room for 64 rows, and the table that stands in it. */
enum { ROWS = 64 };

struct table {
    uint16_t rows, head;
    uint16_t cells[ROWS * JORVIMEST_CELLS_A_ROW];
    uint8_t marks[ROWS * JORVIMEST_MARKS_A_ROW];
};

static struct table hours, others;
static uint64_t sets[ROWS * JORVIMEST_WORDS_A_ROW];

/* Whether the pattern compiles; else why not. */
static bool compiles(const char *pattern, struct table *t) {
    uint32_t place = 0;
    uint32_t answer = jorvimest_compile((const uint8_t *)pattern, strlen(pattern), t->cells, COUNT(t->cells), t->marks,
                                        COUNT(t->marks), sets, COUNT(sets), &t->rows, &t->head, &place);
    if (answer == 0) {
        printf("%s: rows %u head %u\n", pattern, t->rows, t->head);
        return true;
    }
    uint8_t line[64];
    uint32_t length;
    jorvimest_refusal(answer, place, line, sizeof line, &length);
    printf("%s\n%*s^ %.*s", pattern, (int)place, "", (int)length, line);
    return false;
}

/* Compiling leaves zeros past the table, so that equal tables have equal room. */
static bool same(const struct table *a, const struct table *b) {
    return a->rows == b->rows && a->head == b->head && memcmp(a->cells, b->cells, sizeof a->cells) == 0 &&
           memcmp(a->marks, b->marks, sizeof a->marks) == 0;
}

static void matches(const struct table *t, const char *text) {
    size_t cells = COUNT(t->cells), marks = COUNT(t->marks), length = strlen(text);
    const uint8_t *bytes = (const uint8_t *)text;
    uint32_t whole = jorvimest_whole(t->rows, t->head, t->cells, cells, t->marks, marks, bytes, length);
    printf("\"%s\": whole %s", text, whole == JORVIMEST_MATCH ? "yes" : "no");
    uint32_t start, end;
    if (jorvimest_first(t->rows, t->head, t->cells, cells, t->marks, marks, bytes, length, &start, &end) == JORVIMEST_MATCH)
        printf(", first \"%.*s\" from %u to %u", (int)(end - start), text + start, start, end);
    uint32_t list[16], count;
    if (jorvimest_starts(t->rows, t->head, t->cells, cells, t->marks, marks, bytes, length, list, 16, &count) == 0) {
        printf(", starts");
        for (uint32_t i = 0; i < count; i++) {
            printf(" %u", list[i]);
            if (jorvimest_longest(t->rows, t->head, t->cells, cells, t->marks, marks, bytes, length, list[i], &end) == JORVIMEST_MATCH)
                printf("-%u", end);
        }
    }
    printf("\n");
}

int main(void) {
    if (!compiles("[01][0-9]|2[0-3]", &hours))
        return 1;
    matches(&hours, "17");
    matches(&hours, "from 05:30 to 2");
    matches(&hours, "");

    const char *spelled[] = {"0[0-9]|1[0-9]|2[0-3]", "0[013-9]|1[0-9]|2[0-3]"};
    for (int i = 0; i < 2; i++)
        if (compiles(spelled[i], &others))
            printf("%s\n", same(&hours, &others) ? "the same" : "not the same");

    compiles("[01][0-9]|2[3-0]", &others);
    compiles("a**", &others);

    if (!compiles("^a", &others))
        return 1;
    uint8_t out[4096];
    uint32_t length;
    if (jorvimest_listing(others.rows, others.head, others.cells, COUNT(others.cells), others.marks, COUNT(others.marks), out,
                          sizeof out, &length) == JORVIMEST_WRITTEN)
        fwrite(out, 1, length, stdout);
    return 0;
}
