/* The demo's dictionary and matrix: small, made up, and good for a few addresses. */
#ifndef DICTIONARY_H
#define DICTIONARY_H

#include <stdint.h>

/* Kinds, by document 01's numbers. */
enum { SYSTEM, USER, UNKNOWN };

/* Classes: a word's left id and right id. MARK is the id of the sentence's start and end. */
enum { MARK, PLACE, SUFFIX, NUMBER, COUNTER, BUILDING, OTHER, CLASSES };

typedef struct {
    const char *text;
    uint8_t kind;
    uint16_t class;
    int16_t cost;
} word;

/* A word's id is its number here. */
static const word dictionary[] = {
    /* prefectures */
    {"東京", SYSTEM, PLACE, 300}, {"京都", SYSTEM, PLACE, 300}, {"大阪", SYSTEM, PLACE, 300},
    {"三重", SYSTEM, PLACE, 400}, {"千葉", SYSTEM, PLACE, 400}, {"神奈川", SYSTEM, PLACE, 400},
    {"愛知", SYSTEM, PLACE, 400}, {"兵庫", SYSTEM, PLACE, 400}, {"福岡", SYSTEM, PLACE, 400},
    {"埼玉", SYSTEM, PLACE, 400}, {"北海", SYSTEM, PLACE, 500}, {"山口", SYSTEM, PLACE, 500},
    /* cities and wards */
    {"府中", SYSTEM, PLACE, 500}, {"四日市", SYSTEM, PLACE, 500}, {"泉佐野", SYSTEM, PLACE, 600},
    {"横浜", SYSTEM, PLACE, 400}, {"市川", SYSTEM, PLACE, 500}, {"名古屋", SYSTEM, PLACE, 400},
    {"神戸", SYSTEM, PLACE, 400}, {"札幌", SYSTEM, PLACE, 400}, {"川崎", SYSTEM, PLACE, 400},
    {"八王子", SYSTEM, PLACE, 500}, {"東大阪", SYSTEM, PLACE, 600}, {"千代田", SYSTEM, PLACE, 500},
    {"東山", SYSTEM, PLACE, 600}, {"中央", SYSTEM, PLACE, 500}, {"新宿", SYSTEM, PLACE, 500},
    {"渋谷", SYSTEM, PLACE, 500}, {"世田谷", SYSTEM, PLACE, 500},
    /* towns */
    {"宮西", SYSTEM, PLACE, 700}, {"諏訪", SYSTEM, PLACE, 700}, {"丸の内", SYSTEM, PLACE, 600},
    {"祇園", SYSTEM, PLACE, 600}, {"本町", SYSTEM, PLACE, 700}, {"大手", SYSTEM, PLACE, 700},
    {"銀座", SYSTEM, PLACE, 600}, {"京橋", SYSTEM, PLACE, 700}, {"関西", SYSTEM, PLACE, 600},
    /* what follows the name of a place */
    {"都", SYSTEM, SUFFIX, 200}, {"道", SYSTEM, SUFFIX, 200}, {"府", SYSTEM, SUFFIX, 200},
    {"県", SYSTEM, SUFFIX, 200}, {"市", SYSTEM, SUFFIX, 200}, {"区", SYSTEM, SUFFIX, 200},
    {"町", SYSTEM, SUFFIX, 200}, {"村", SYSTEM, SUFFIX, 200},
    /* numbers and what follows them */
    {"0", SYSTEM, NUMBER, 300}, {"1", SYSTEM, NUMBER, 300}, {"2", SYSTEM, NUMBER, 300},
    {"3", SYSTEM, NUMBER, 300}, {"4", SYSTEM, NUMBER, 300}, {"5", SYSTEM, NUMBER, 300},
    {"6", SYSTEM, NUMBER, 300}, {"7", SYSTEM, NUMBER, 300}, {"8", SYSTEM, NUMBER, 300},
    {"9", SYSTEM, NUMBER, 300}, {"一", SYSTEM, NUMBER, 400}, {"二", SYSTEM, NUMBER, 400},
    {"三", SYSTEM, NUMBER, 400}, {"四", SYSTEM, NUMBER, 400}, {"五", SYSTEM, NUMBER, 400},
    {"八", SYSTEM, NUMBER, 400}, {"丁目", SYSTEM, COUNTER, 200}, {"番", SYSTEM, COUNTER, 200},
    {"番地", SYSTEM, COUNTER, 200}, {"号", SYSTEM, COUNTER, 200}, {"号室", SYSTEM, COUNTER, 200},
    {"階", SYSTEM, COUNTER, 200}, {"日", SYSTEM, COUNTER, 300},
    /* buildings; one is from the company's own list as well, at the same cost: the first listed is taken */
    {"サンハイツ", USER, BUILDING, 500}, {"サンハイツ", SYSTEM, BUILDING, 500}, {"サン", SYSTEM, BUILDING, 700},
    {"ハイツ", SYSTEM, BUILDING, 500}, {"ビル", SYSTEM, BUILDING, 500}, {"タワー", SYSTEM, BUILDING, 500},
    {"マンション", SYSTEM, BUILDING, 500}, {"空港", SYSTEM, BUILDING, 500},
    {"関西国際空港", SYSTEM, BUILDING, 900},
    /* the rest */
    {"国際", SYSTEM, OTHER, 600}, {"の", SYSTEM, OTHER, 300}, {"が", SYSTEM, OTHER, 300},
    {"東", SYSTEM, OTHER, 700}, {"西", SYSTEM, OTHER, 700}, {"南", SYSTEM, OTHER, 700},
    {"北", SYSTEM, OTHER, 700}, {"中", SYSTEM, OTHER, 700}, {"京", SYSTEM, OTHER, 900},
    {"山", SYSTEM, OTHER, 800}, {"川", SYSTEM, OTHER, 800}, {"森", SYSTEM, OTHER, 800},
    {"重", SYSTEM, OTHER, 900}, {"佐野", SYSTEM, OTHER, 900},
};

/* A single character as an unknown word, and the extra that it costs to take one. */
static const word unknown = {"", UNKNOWN, OTHER, 1500};
enum { UNKNOWN_EXTRA = 2500 };

/* The joints: a row for the later word's class, and in it a place for the earlier word's. */
static const int16_t matrix[CLASSES * CLASSES] = {
    /*           MARK  PLACE SUFFIX NUMBER COUNTER BUILDING OTHER */
    /* MARK */      0,   200,     0,     0,      0,       0,  400,
    /* PLACE */     0,   600,     0,   700,    300,     600,  500,
    /* SUFFIX */ 2000,  -200,   700,  1000,   1500,    1500,  900,
    /* NUMBER */  600,   200,   100,     0,      0,     100,  300,
    /* COUNTER */2000,  1500,  1500,  -300,   1500,    1500, 1500,
    /* BUILDING */600,   300,   200,   500,    100,     200,  300,
    /* OTHER */   700,   400,   500,   700,    500,     500,  400,
};

#endif
