/* Calls the walk back from C on document 01's examples; stops at the first difference. */
#include "examples.h"

#include <string.h>

enum { CANDIDATES = 5, PLACES = 8, KEPT = 999, NONE = 65535 };

typedef struct {
    const char *name;
    uint16_t start[PLACES];
    size_t start_len;
    uint16_t end[PLACES];
    size_t end_len;
    uint16_t left[PLACES];
    size_t left_len;
    uint32_t n;
    size_t places; /* lent of the word row */
    jumelavorp_answer answer;
    uint16_t word[PLACES]; /* what the first `count` places have to hold */
} example;

/* Example B's candidates; its links, and C's. Place 0 of the links is not read. */
#define B_START {0, 0, 1, 1, 2}, CANDIDATES
#define B_END {1, 2, 2, 3, 3}, CANDIDATES
#define B_LEFT {NONE, 0, 0, 1, 1, 2, 5}, 7
#define C_LEFT {4, 0, 0, 1, 1, 3, 5}, 7

static const example examples[] = {
    {"A, empty text", {0}, 0, {0}, 0, {NONE, 0}, 2, 0, 0, {0, 0, 0, 0}, {0}},
    {"B", B_START, B_END, B_LEFT, 3, 6, {0, 0, 2, 0}, {1, 4}},
    {"C", B_START, B_END, C_LEFT, 3, 3, {0, 0, 3, 0}, {0, 2, 4}},
    {"E, the end mark not reached", {0}, 1, {1}, 1, {NONE, 0, NONE}, 3, 2, 6, {13, 0, 0, 0}, {0}},
    {"H, a candidate not reached", {0, 1}, 2, {2, 2}, 2, {NONE, 0, NONE, 1}, 4, 2, 2,
     {0, 0, 1, 0}, {0}},
    {"B, broken at its last link", B_START, B_END, {NONE, 0, 1, 1, 1, 2, 5}, 7, 3, 6,
     {13, 0, 0, 0}, {0}},
    {"B, too many characters", B_START, B_END, B_LEFT, 65539, 6, {2, 0, 0, 0}, {0}},
    {"B, uneven rows", B_START, {1, 2, 2, 3}, 4, B_LEFT, 3, 6, {3, 0, 0, 0}, {0}},
    {"B, the left row short", B_START, B_END, {NONE, 0, 0, 1, 1, 2, 5}, 6, 3, 6,
     {7, 0, 0, 0}, {0}},
    {"B, the word row short", B_START, B_END, B_LEFT, 3, 2, {7, 0, 0, 0}, {0}},
};

static int differs(size_t number)
{
    const example *e = &examples[number];
    example given = *e;
    uint16_t word[PLACES];

    for (size_t i = 0; i < PLACES; i++) {
        word[i] = KEPT;
    }
    jumelavorp_answer a = jumelavorp_walk_back(given.start, given.start_len, given.end, given.end_len,
                                               given.left, given.left_len, given.n, word, given.places);
    if (answer_differs(e->name, a, e->answer)) {
        return 1;
    }
    for (size_t i = 0; i < PLACES; i++) {
        uint16_t due = i < e->answer.count ? e->word[i] : KEPT;
        if (word[i] != due) {
            printf("%s: place %lu has %lu\n", e->name, (unsigned long)i, (unsigned long)word[i]);
            return 1;
        }
    }
    if (memcmp(given.start, e->start, sizeof e->start) != 0 ||
        memcmp(given.end, e->end, sizeof e->end) != 0 ||
        memcmp(given.left, e->left, sizeof e->left) != 0) {
        printf("%s: a row that is only read has changed\n", e->name);
        return 1;
    }
    return 0;
}

int main(void)
{
    return try_all("walk back", sizeof examples / sizeof examples[0], differs);
}
