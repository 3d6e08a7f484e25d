/* Cuts a few addresses into words and shows them. Returns 0 if each job gets the answer that is due. */
#include "dictionary.h"
#include "jumelavorp.h"

#include <inttypes.h>
#include <stdio.h>
#include <string.h>

enum {
    CHARACTERS = 64,
    WORDS = sizeof dictionary / sizeof dictionary[0],
    CANDIDATES = CHARACTERS * (WORDS + 1) /* every word at every position, and the unknown one */
};

enum { NORMAL, DECOMPOSE };
enum { KANJI_THRESHOLD = 2, KANJI_PRICE = 3000, OTHER_THRESHOLD = 7, OTHER_PRICE = 1700 };

static const char *const kinds[] = {"system", "user", "unknown"};

/* What the answer numbers say, in plain words. */
static const char *const answers[] = {
    "done",
    "the text is not UTF-8",
    "the text has too many bytes or characters",
    "the candidate rows are not of the same length",
    "there are too many candidates",
    "the matrix does not fit its sizes",
    "there is no such mode, or a price or a threshold is too large",
    "a row to be written is too short",
    "a candidate's kind is none of the three",
    "a candidate starts before the one ahead of it",
    "a candidate does not end after its start, or ends beyond the text",
    "a candidate's left or right id is outside the matrix",
    "no words of the list cover the text",
    "a link is broken",
};

/* The candidates: c places in each row, and ten entry bytes for each candidate. */
static size_t c;
static uint16_t start[CANDIDATES], end[CANDIDATES];
static uint8_t kind[CANDIDATES], entry[10 * CANDIDATES];
static int16_t extra[CANDIDATES];

/* What the library writes, and how a row of it is lent. */
static uint32_t offset[CHARACTERS + 1];
static uint16_t run[CHARACTERS + 1], first[CHARACTERS + 1], last[CHARACTERS + 1];
static uint16_t left[CANDIDATES + 2], next[CANDIDATES + 2];
static int32_t cost[CANDIDATES + 2];
static uint32_t word_offset[CHARACTERS], word_id[CHARACTERS];
static uint8_t word_kind[CHARACTERS];
#define LENT(row) row, sizeof row / sizeof row[0]

/* Writes a number's bytes, the low byte first. */
static void put(uint8_t *bytes, uint32_t number, int size)
{
    for (int i = 0; i < size; i++) {
        bytes[i] = (uint8_t)(number >> 8 * i);
    }
}

/* Lists a word that stands from position `from` on, over `characters` characters. */
static void list(const word *w, uint32_t id, size_t from, size_t characters, int16_t price)
{
    start[c] = (uint16_t)from;
    end[c] = (uint16_t)(from + characters);
    kind[c] = w->kind;
    extra[c] = price;
    put(entry + 10 * c, id, 4);
    put(entry + 10 * c + 4, (uint16_t)w->cost, 2);
    put(entry + 10 * c + 6, w->class, 2);
    put(entry + 10 * c + 8, w->class, 2);
    c++;
}

/* How many characters a dictionary word has: all its bytes but those that go on with one. */
static size_t length(const char *text)
{
    size_t characters = 0;
    for (; *text != 0; text++) {
        characters += (*text & 0xC0) != 0x80;
    }
    return characters;
}

/* Lists what stands at each of the first n positions: the dictionary's words, and one character unknown. */
static void look_up(const char *text, size_t n)
{
    c = 0;
    for (size_t from = 0; from < n; from++) {
        for (uint32_t id = 0; id < WORDS; id++) {
            const word *w = &dictionary[id];
            if (strncmp(text + offset[from], w->text, strlen(w->text)) == 0) {
                list(w, id, from, length(w->text), 0);
            }
        }
        list(&unknown, WORDS, from, 1, UNKNOWN_EXTRA);
    }
}

/* Cuts a text into words and shows them, or shows why it is refused. */
static jumelavorp_answer show(const char *text, uint32_t mode)
{
    const uint8_t *bytes = (const uint8_t *)text;
    size_t text_len = strlen(text);
    const char *mode_name = mode == NORMAL ? "Normal" : "Decompose";

    /* Refused, the character table gives count 0: then nothing is listed, and the job is refused as well. */
    jumelavorp_answer table = jumelavorp_characters(bytes, text_len, LENT(offset), LENT(run));
    look_up(text, table.count);
    jumelavorp_answer a = jumelavorp_segment(
        bytes, text_len, start, c, end, c, kind, c, extra, c, entry, 10 * c, CLASSES, CLASSES, LENT(matrix),
        mode, KANJI_THRESHOLD, KANJI_PRICE, OTHER_THRESHOLD, OTHER_PRICE, LENT(offset), LENT(run),
        LENT(first), LENT(last), LENT(left), LENT(cost), LENT(next), LENT(word_offset), LENT(word_id),
        LENT(word_kind));
    if (a.number != 0) {
        /* Text that is not UTF-8 can be shown up to the place. */
        printf("%.*s... (%s)\n", (int)(a.number == 1 ? a.place : text_len), text, mode_name);
        printf("    refused: answer %" PRIu32 ", place %" PRIu32 ": %s\n", a.number, a.place,
               a.number < sizeof answers / sizeof answers[0] ? answers[a.number] : "?");
        return a;
    }
    printf("%s (%s, %zu candidates): %" PRIu32 " words, cost %" PRId32 "\n", text, mode_name, c, a.count,
           a.cost);
    for (uint32_t i = 0; i < a.count; i++) {
        size_t from = word_offset[i], to = i + 1 < a.count ? word_offset[i + 1] : text_len;
        printf("    bytes %2zu to %2zu  %-7s  %.*s\n", from, to, kinds[word_kind[i]], (int)(to - from),
               text + from);
    }
    printf("\n");
    return a;
}

int main(void)
{
    static const struct {
        const char *text;
        uint32_t mode, number, place; /* the answer that is due */
    } jobs[] = {
        {"東京都府中市宮西町", NORMAL, 0, 0},
        {"京都市東山区サンハイツ5号室", NORMAL, 0, 0},
        {"三重県四日市市鵜の森1丁目", NORMAL, 0, 0},
        {"大阪府泉佐野市関西国際空港", NORMAL, 0, 0},
        {"大阪府泉佐野市関西国際空港", DECOMPOSE, 0, 0},
        {"東京都千代田\xE5\x8C", NORMAL, 1, 18}, /* cut off in the middle of a character */
    };

    for (size_t i = 0; i < sizeof jobs / sizeof jobs[0]; i++) {
        jumelavorp_answer a = show(jobs[i].text, jobs[i].mode);
        if (a.number != jobs[i].number || a.place != jobs[i].place) {
            fprintf(stderr, "demo: job %zu has another answer than the one that is due\n", i);
            return 1;
        }
    }
    return 0;
}
