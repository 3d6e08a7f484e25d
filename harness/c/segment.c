/* Calls the whole job from C on document 01's examples, and then the two other functions over the
   job's rows; stops at the first difference. */
#include "examples.h"

#include <string.h>

enum { LETTERS = 4097, CANDIDATES = 5, LENT = LETTERS + 1, PLACES = LENT + 2, NONE = 65535, OVER = 65536 };

/* A candidate: its span, word cost, left id and right id. */
typedef struct {
    uint16_t start, end;
    int16_t cost;
    uint16_t left_id, right_id;
} candidate;

/* What the rows but the word rows have to hold, in an example that writes it out. */
typedef struct {
    uint32_t offset[4];
    uint16_t run[4], first[4], last[4];
    uint16_t left[7];
    int32_t cost[7];
    uint16_t next[7];
} filled;

typedef struct {
    const char *name;
    const char *text; /* or a null pointer for letters */
    size_t text_len;
    size_t n;
    candidate candidates[CANDIDATES];
    size_t c;
    size_t end_len; /* c as well, but in example M */
    uint32_t height, width;
    int16_t matrix[4];
    uint32_t mode;
    uint32_t penalty[4]; /* kanji threshold and price, other threshold and price */
    size_t places;       /* lent of each row */
    jumelavorp_answer answer;
    uint16_t word[3]; /* the words' candidate numbers */
    const filled *rows;
} example;

static const filled a_rows = {{0}, {0}, {0}, {1}, {NONE, 0}, {0, 7}, {1, NONE}};
static const filled b_rows = {
    {0, 3, 6, 9}, {3, 2, 1, 0}, {0, 1, 2, 4}, {0, 1, 3, 6},
    {NONE, 0, 0, 1, 1, 2, 5}, {0, 300, 100, 500, 450, 220, 220}, {NONE, NONE, 3, NONE, 5, 6, NONE}};
static const filled e_rows = {
    {0, 1, 2}, {0, 0, 0}, {0, 1, NONE}, {0, 1, NONE}, {NONE, 0, NONE}, {0, 8, 0}, {NONE, NONE, NONE}};
static const filled h_rows = {
    {0, 1, 2}, {0, 0, 0}, {0, NONE, 1}, {0, NONE, 3}, {NONE, 0, NONE, 1}, {0, 5, 0, 5}, {NONE, 3, NONE, NONE}};

#define KANJI "\xE6\x9D\xB1\xE4\xBA\xAC\xE9\x83\xBD", 9, 3
#define B_WORDS {{0, 1, 300, 0, 0}, {0, 2, 100, 0, 0}, {1, 2, 200, 0, 0}, {1, 3, 150, 0, 0}, {2, 3, 120, 0, 0}}, 5, 5
#define ONE(start, end, cost, left_id, right_id) {{start, end, cost, left_id, right_id}}, 1, 1
#define NO_WORD {{0, 0, 0, 0, 0}}, 0, 0
#define ZERO 1, 1, {0}
#define J_MATRIX 2, 2, {0, 5, 9, 0}
#define NORMAL 0, {OVER, OVER, OVER, OVER}, LENT /* the four numbers are not looked at */
#define DECOMPOSE(k, p, o, q) 1, {k, p, o, q}, LENT

static const example examples[] = {
    {"A, empty text", "", 0, 0, NO_WORD, 1, 1, {7}, NORMAL, {0, 0, 0, 7}, {0}, &a_rows},
    {"B", KANJI, B_WORDS, ZERO, NORMAL, {0, 0, 2, 220}, {1, 4}, &b_rows},
    {"B, rows short", KANJI, B_WORDS, ZERO, 0, {0}, 3, {7, 0, 0, 0}, {0}, NULL},
    {"B, an unknown mode", KANJI, B_WORDS, ZERO, 2, {0}, LENT, {6, 0, 0, 0}, {0}, NULL},
    {"B, a matrix without rows", KANJI, B_WORDS, 0, 1, {0}, NORMAL, {5, 0, 0, 0}, {0}, NULL},
    {"C", KANJI, B_WORDS, ZERO, DECOMPOSE(1, 500, 7, 0), {0, 0, 3, 620}, {0, 2, 4}, NULL},
    {"D, two equals", "a", 1, 1, {{0, 1, 0, 0, 0}, {0, 1, 0, 0, 0}}, 2, 2, ZERO, NORMAL, {0, 0, 1, 0}, {0}, NULL},
    {"E, no path", "ab", 2, 2, ONE(0, 1, 8, 0, 0), ZERO, NORMAL, {12, 0, 0, 0}, {0}, &e_rows},
    {"F, no length", "a", 1, 1, ONE(0, 0, 0, 0, 0), ZERO, NORMAL, {10, 0, 0, 0}, {0}, NULL},
    {"G, beyond the text", "a", 1, 1, ONE(0, 2, 0, 0, 0), ZERO, NORMAL, {10, 0, 0, 0}, {0}, NULL},
    {"H, a candidate not reached", "ab", 2, 2, {{0, 2, 5, 0, 0}, {1, 2, -32768, 0, 0}}, 2, 2, ZERO, NORMAL,
     {0, 0, 1, 5}, {0}, &h_rows},
    {"I, the least cost", "a", 1, 1, ONE(0, 1, -32768, 0, 0), ZERO, NORMAL, {0, 0, 1, -32768}, {0}, NULL},
    {"I, the greatest cost", "a", 1, 1, ONE(0, 1, 32767, 0, 0), ZERO, NORMAL, {0, 0, 1, 32767}, {0}, NULL},
    {"J, left id 1", "a", 1, 1, ONE(0, 1, 0, 1, 0), J_MATRIX, NORMAL, {0, 0, 1, 9}, {0}, NULL},
    {"J, right id 1", "a", 1, 1, ONE(0, 1, 0, 0, 1), J_MATRIX, NORMAL, {0, 0, 1, 5}, {0}, NULL},
    {"K, left id 2 of 2", "a", 1, 1, ONE(0, 1, 0, 2, 0), J_MATRIX, NORMAL, {11, 0, 0, 0}, {0}, NULL},
    {"K, 4,096 letters", NULL, 4096, 4096, ONE(0, 4096, 6, 0, 0), ZERO, NORMAL, {0, 0, 1, 6}, {0}, NULL},
    {"K, 4,097 letters", NULL, 4097, 4097, ONE(0, 4096, 6, 0, 0), ZERO, NORMAL, {2, 0, 0, 0}, {0}, NULL},
    {"K, price 32,767", KANJI, ONE(0, 3, 0, 0, 0), ZERO, DECOMPOSE(1, 32767, 0, 0), {0, 0, 1, 65534}, {0}, NULL},
    {"K, price 32,768", KANJI, ONE(0, 3, 0, 0, 0), ZERO, DECOMPOSE(1, 32768, 0, 0), {6, 0, 0, 0}, {0}, NULL},
    {"L, a surrogate", "\xED\xA0\x80", 3, 0, NO_WORD, ZERO, NORMAL, {1, 0, 0, 0}, {0}, NULL},
    {"L, an overlong form", "\x41\xC0\x80", 3, 0, NO_WORD, ZERO, NORMAL, {1, 1, 0, 0}, {0}, NULL},
    {"L, the last character", "\xF4\x8F\xBF\xBF", 4, 1, ONE(0, 1, 3, 0, 0), ZERO, NORMAL, {0, 0, 1, 3}, {0}, NULL},
    {"M, bad text and uneven rows", "\x41\xC0\x80", 3, 0, {{0, 1, 0, 0, 0}}, 1, 0, ZERO, NORMAL, {1, 1, 0, 0}, {0},
     NULL},
};

typedef struct {
    uint8_t text[LETTERS];
    uint16_t start[CANDIDATES], end[CANDIDATES];
    uint8_t kind[CANDIDATES];
    int16_t extra[CANDIDATES];
    uint8_t entry[10 * CANDIDATES];
    int16_t matrix[4];
} inputs;

typedef struct {
    uint32_t offset[PLACES];
    uint16_t run[PLACES], first[PLACES], last[PLACES], left[PLACES];
    int32_t cost[PLACES];
    uint16_t next[PLACES];
    uint32_t word_offset[PLACES], word_id[PLACES];
    uint8_t word_kind[PLACES];
} rows;

static void put_two(uint8_t *bytes, unsigned value)
{
    bytes[0] = (uint8_t)(value & 255);
    bytes[1] = (uint8_t)(value >> 8 & 255);
}

/* The word id of candidate k is k + 1, its kind k modulo 3. */
static void lay_out(const example *e, inputs *in)
{
    memset(in, 0, sizeof *in);
    memset(in->text, 'a', sizeof in->text);
    if (e->text != NULL) {
        memcpy(in->text, e->text, e->text_len);
    }
    for (size_t k = 0; k < e->c; k++) {
        const candidate *of = &e->candidates[k];
        in->start[k] = of->start;
        in->end[k] = of->end;
        in->kind[k] = (uint8_t)(k % 3);
        in->entry[10 * k] = (uint8_t)(k + 1);
        put_two(&in->entry[10 * k + 4], (uint16_t)of->cost);
        put_two(&in->entry[10 * k + 6], of->left_id);
        put_two(&in->entry[10 * k + 8], of->right_id);
    }
    memcpy(in->matrix, e->matrix, sizeof e->matrix);
}

/* What has to be in the rows: these values in the first places, then what was there. Rows that an
   example does not write out are taken as they are in their first places. */
static void rows_due(const example *e, const inputs *in, const rows *given, rows *due)
{
    size_t positions = e->n + 1, entries = e->c + 2;

    memset(due, 0xA5, sizeof *due);
    if (e->answer.number != 0 && e->answer.number != 12) {
        return;
    }
#define FIRST_PLACES(row, places) \
    memcpy(due->row, e->rows != NULL ? e->rows->row : given->row, (places) * sizeof due->row[0])
    FIRST_PLACES(offset, positions);
    FIRST_PLACES(run, positions);
    FIRST_PLACES(first, positions);
    FIRST_PLACES(last, positions);
    FIRST_PLACES(left, entries);
    FIRST_PLACES(cost, entries);
    FIRST_PLACES(next, entries);
#undef FIRST_PLACES
    for (size_t i = 0; i < e->answer.count; i++) {
        due->word_offset[i] = due->offset[in->start[e->word[i]]];
        due->word_id[i] = e->word[i] + 1u;
        due->word_kind[i] = (uint8_t)(e->word[i] % 3);
    }
}

static int rows_differ(const char *name, const rows *given, const rows *due)
{
#define COMPARE(row)                                            \
    if (memcmp(given->row, due->row, sizeof due->row) != 0) {   \
        printf("%s: the " #row " row differs\n", name);         \
        return 1;                                               \
    }
    COMPARE(offset)
    COMPARE(run)
    COMPARE(first)
    COMPARE(last)
    COMPARE(left)
    COMPARE(cost)
    COMPARE(next)
    COMPARE(word_offset)
    COMPARE(word_id)
    COMPARE(word_kind)
#undef COMPARE
    return 0;
}

/* The walk back and the character table over the rows of a job that was done. */
static int parts_differ(const example *e, const inputs *in, const rows *given)
{
    static uint32_t offset[PLACES];
    static uint16_t run[PLACES], word[PLACES];
    jumelavorp_answer walked = {0, 0, e->answer.count, 0}, table = {0, 0, (uint32_t)e->n, 0};

    jumelavorp_answer a = jumelavorp_walk_back(in->start, e->c, in->end, e->c, given->left, e->c + 2,
                                               (uint32_t)e->n, word, LENT);
    if (answer_differs(e->name, a, walked)) {
        return 1;
    }
    a = jumelavorp_characters(in->text, e->text_len, offset, LENT, run, LENT);
    if (answer_differs(e->name, a, table)) {
        return 1;
    }
    if (memcmp(word, e->word, e->answer.count * sizeof word[0]) != 0 ||
        memcmp(offset, given->offset, (e->n + 1) * sizeof offset[0]) != 0 ||
        memcmp(run, given->run, (e->n + 1) * sizeof run[0]) != 0) {
        printf("%s: the functions that do a part alone find other words or characters\n", e->name);
        return 1;
    }
    return 0;
}

static int differs(size_t number)
{
    static inputs in, unchanged;
    static rows given, due;
    const example *e = &examples[number];
    size_t values = (size_t)e->height * e->width, places = e->places;

    lay_out(e, &in);
    lay_out(e, &unchanged);
    memset(&given, 0xA5, sizeof given);
    jumelavorp_answer a = jumelavorp_segment(
        in.text, e->text_len, in.start, e->c, in.end, e->end_len, in.kind, e->c, in.extra, e->c, in.entry,
        10 * e->c, e->height, e->width, in.matrix, values, e->mode, e->penalty[0], e->penalty[1], e->penalty[2],
        e->penalty[3], given.offset, places, given.run, places, given.first, places, given.last, places, given.left,
        places, given.cost, places, given.next, places, given.word_offset, places, given.word_id, places,
        given.word_kind, places);
    if (answer_differs(e->name, a, e->answer)) {
        return 1;
    }
    rows_due(e, &in, &given, &due);
    if (rows_differ(e->name, &given, &due)) {
        return 1;
    }
    if (memcmp(&in, &unchanged, sizeof in) != 0) {
        printf("%s: a row that is only read has changed\n", e->name);
        return 1;
    }
    return a.number == 0 && parts_differ(e, &in, &given);
}

int main(void)
{
    return try_all("segment", sizeof examples / sizeof examples[0], differs);
}
