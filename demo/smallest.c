#include "jumelavorp.h"
#include <stdio.h>

int main(void)
{
    /* 東京都, and what a dictionary has for it: 東京 (id 7), 京都 (id 8), 都 (id 9). */
    const uint8_t text[] = "\xE6\x9D\xB1\xE4\xBA\xAC\xE9\x83\xBD";
    const uint16_t start[] = {0, 1, 2}, end[] = {2, 3, 3};
    const uint8_t kind[] = {0, 0, 0};
    const int16_t extra[] = {0, 0, 0}, matrix[] = {0};
    const uint8_t entry[] = {7, 0, 0, 0, 100, 0, 0, 0, 0, 0,  8, 0, 0, 0, 150, 0, 0, 0, 0, 0,
                             9, 0, 0, 0, 120, 0, 0, 0, 0, 0}; /* id, cost, left id, right id */
    uint32_t offset[4], word_offset[3], word_id[3]; /* n is 3 and c is 3 */
    uint16_t run[4], first[4], last[4], left[5], next[5];
    int32_t cost[5];
    uint8_t word_kind[3];

    jumelavorp_answer a = jumelavorp_segment(
        text, 9, start, 3, end, 3, kind, 3, extra, 3, entry, 30, 1, 1, matrix, 1, 0, 0, 0, 0, 0,
        offset, 4, run, 4, first, 4, last, 4, left, 5, cost, 5, next, 5, word_offset, 3, word_id, 3, word_kind, 3);
    for (uint32_t i = 0; i < a.count; i++) {
        printf("word %u at byte %u\n", (unsigned)word_id[i], (unsigned)word_offset[i]);
    }
    return (int)a.number; /* 0, or why the job is refused */
}
