/* Calls the library from C on document 01's examples; stops at the first difference. */
#include "examples.h"

#include <string.h>

enum { PLACES = 8, KEPT = 999 };

typedef struct {
    const char *name;
    const char *text;
    size_t text_len;
    size_t places; /* lent of each row */
    jumelavorp_answer answer;
    uint32_t offset[PLACES]; /* what the first `written` places have to hold */
    uint16_t run[PLACES];
    size_t written;
} example;

static const example examples[] = {
    {"empty text", "", 0, 1, {0, 0, 0, 0}, {0}, {0}, 1},
    {"B, three kanji", "\xE6\x9D\xB1\xE4\xBA\xAC\xE9\x83\xBD", 9, 6, {0, 0, 3, 0},
     {0, 3, 6, 9}, {3, 2, 1, 0}, 4},
    {"B, a row short", "\xE6\x9D\xB1\xE4\xBA\xAC\xE9\x83\xBD", 9, 3, {7, 0, 0, 0}, {0}, {0}, 0},
    {"L, a surrogate", "\xED\xA0\x80", 3, 6, {1, 0, 0, 0}, {0}, {0}, 0},
    {"L, an overlong form", "\x41\xC0\x80", 3, 6, {1, 1, 0, 0}, {0}, {0}, 0},
    {"L, the last character", "\xF4\x8F\xBF\xBF", 4, 6, {0, 0, 1, 0}, {0, 4}, {0, 0}, 2},
};

static int differs(size_t number)
{
    const example *e = &examples[number];
    uint8_t text[16] = {0};
    uint32_t offset[PLACES];
    uint16_t run[PLACES];

    memcpy(text, e->text, e->text_len);
    for (size_t i = 0; i < PLACES; i++) {
        offset[i] = KEPT;
        run[i] = KEPT;
    }
    jumelavorp_answer a = jumelavorp_characters(text, e->text_len, offset, e->places, run, e->places);
    if (answer_differs(e->name, a, e->answer)) {
        return 1;
    }
    for (size_t i = 0; i < PLACES; i++) {
        uint32_t offset_due = i < e->written ? e->offset[i] : KEPT;
        uint16_t run_due = i < e->written ? e->run[i] : KEPT;
        if (offset[i] != offset_due || run[i] != run_due) {
            printf("%s: place %lu has offset %lu and run %lu\n", e->name, (unsigned long)i,
                   (unsigned long)offset[i], (unsigned long)run[i]);
            return 1;
        }
    }
    return 0;
}

int main(void)
{
    return try_all("characters", sizeof examples / sizeof examples[0], differs);
}
