/* jumelavorp: the Viterbi lattice of a word segmenter, as a C library. */
#ifndef JUMELAVORP_H
#define JUMELAVORP_H

#include <stddef.h>
#include <stdint.h>

#ifdef __cplusplus
extern "C" {
#endif

/*
 * What a caller owes, for every function below:
 *  - each pointer is non-null and aligned for its type, also where its
 *    length is 0;
 *  - each pointer covers its length, which counts places and not bytes;
 *  - no row that is written overlaps anything else that is handed over.
 * Nothing else is asked: every content and every length has its answer.
 */

/* What every function returns. A refusal has count 0 and cost 0. */
typedef struct {
    uint32_t number; /* 0: done; any other number: refused, and why */
    uint32_t place;  /* where the refusal lies, if its number has a place; else 0 */
    uint32_t count;  /* how many were found: characters or words */
    int32_t cost;    /* in the whole job the end mark's cost: words, joints
                        and charges; 0 in the two functions that do a part of
                        it alone */
} jumelavorp_answer;

/*
 * The character table alone: where each character of a text starts, and how
 * many kanji (U+3400 to U+4DBF, U+4E00 to U+9FAF) follow without a break from
 * there on. With n for the number of characters, n+1 places of both rows are
 * written; places beyond those keep their contents.
 *
 * Answer numbers, in the order in which they are tested:
 *   2  the text has more than 16,384 bytes, whatever they are
 *   1  the text is not UTF-8 (RFC 3629); place is the byte offset just after
 *      the longest run of whole well-formed characters from the text's start
 *   2  the text has more than 4,096 characters
 *   7  one of the two rows has fewer than n+1 places
 *   0  done; count is n
 * Place is 0 except in answer 1. A refusal changes no place of either row.
 */
jumelavorp_answer jumelavorp_characters(
    const uint8_t *text, /* the text's bytes; only read */
    size_t text_len,     /* how many bytes the text has */
    uint32_t *offset,    /* written: the byte at which each character starts,
                            and at place n the text's length */
    size_t offset_len,   /* how many places the offset row has */
    uint16_t *run,       /* written: 0 where the character is no kanji, else
                            1 + the next place's run; at place n it is 0 */
    size_t run_len);     /* how many places the run row has */

/*
 * The whole job: the words of least cost that cover a text. With n for the
 * number of characters (positions count characters, from 0 to n) and c for the
 * number of candidates (the length of the start row), entry 0 is the start
 * mark, entry k+1 is candidate k and entry c+1 is the end mark. The number
 * 65,535 means "none".
 *
 * The start mark is reached, ends at 0 and costs 0. A candidate is reached if
 * a reached entry ends at its start. Its cost is the least, over all such
 * entries, of their cost + joint + charge, and then + extra + word cost. Its
 * left is the lowest-numbered entry that gives the least. The end mark starts
 * and ends at n; it is reached likewise, without extra and word cost, and is
 * never joined to itself. The words are the candidates on the way back from
 * the end mark along left. They cover the text without gap or overlap, in no
 * more words than characters, and no listed words that cover it cost less; of
 * those that cost as little they are the ones that, compared from the last
 * word to the first, have the lower candidate number where they first differ.
 *  - A word entry is ten bytes, little-endian: word id (32 bits), word cost
 *    (16 bits, signed), left id (16 bits), right id (16 bits).
 *  - The joint of an earlier entry with right id r and a later one with left
 *    id l is the matrix value at l * width + r. The start mark has right id 0,
 *    the end mark left id 0.
 *  - The charge is 0 in Normal. In Decompose a word of L characters, on the
 *    left of a joint (the end mark's included), is charged
 *    (L - kanji threshold) * kanji price if it is kanji only and L is above
 *    that threshold, (L - other threshold) * other price if it is not kanji
 *    only and L is above that one, and otherwise 0. It is kanji only if the run
 *    at its start is at least L. The start mark is charged 0.
 *
 * Rows written: n+1 places of offset, run, first and last; c+2 places of left,
 * cost and next; as many places of the three word rows as there are words,
 * though n places are asked. Places beyond those keep their contents.
 *
 * Largest sizes: 16,384 bytes, 4,096 characters, 16,384 candidates, height and
 * width 65,535, prices 32,767, thresholds 65,535. Within them every cost lies
 * from -402,685,952 to 536,887,295.
 *
 * Answer numbers, in the order in which they are tested:
 *   2   the text has more than 16,384 bytes, whatever they are
 *   1   the text is not UTF-8 (RFC 3629); place is the byte offset just after
 *       the longest run of whole well-formed characters from the text's start
 *   2   the text has more than 4,096 characters
 *   3   the candidate rows (start, end, kind, extra) have different lengths, or
 *       there are not ten entry bytes for each candidate
 *   4   c is over 16,384
 *   5   height or width is 0 or over 65,535, or there are not exactly
 *       height * width matrix values
 *   6   the mode is neither 0 nor 1, or it is 1 and a price is over 32,767 or a
 *       threshold over 65,535
 *   7   a row to be written has fewer places than named above; n of each word
 *       row, even where fewer words come out
 *   8   a candidate's kind is over 2
 *   9   a candidate starts below the previous candidate's start
 *   10  a candidate's end is not above its start, or is above n
 *   11  a candidate's left id is not below height, or its right id not below
 *       width
 *   12  no path: nothing reached ends at n
 *   0   done; count is the number of words, cost the end mark's cost
 * 8 to 11 are tested candidate by candidate from number 0, in that order within
 * one, and place is the candidate's number. Place is 0 in all others but 1.
 * Answers 1 to 11 change no place of any row. Answer 12 fills offset, run,
 * first, last, left, cost and next, and changes no place of the word rows.
 */
jumelavorp_answer jumelavorp_segment(
    const uint8_t *text,      /* the text's bytes; only read */
    size_t text_len,          /* how many bytes the text has */
    const uint16_t *start,    /* the position at which each candidate starts,
                                 never below the one before; only read */
    size_t start_len,         /* how many candidates there are: c */
    const uint16_t *end,      /* the position at which each candidate ends,
                                 just after its last character; only read */
    size_t end_len,           /* how many places the end row has: c as well */
    const uint8_t *kind,      /* each candidate's kind: 0 system, 1 user,
                                 2 unknown; only read */
    size_t kind_len,          /* how many places the kind row has: c as well */
    const int16_t *extra,     /* what each candidate costs beside its word cost;
                                 only read */
    size_t extra_len,         /* how many places the extra row has: c as well */
    const uint8_t *entry,     /* the word entries, ten bytes for each candidate;
                                 only read */
    size_t entry_len,         /* how many entry bytes there are: 10 * c */
    uint32_t height,          /* how many left ids the matrix has */
    uint32_t width,           /* how many right ids the matrix has */
    const int16_t *matrix,    /* the connection matrix, its value for left id l
                                 and right id r at l * width + r; only read */
    size_t matrix_len,        /* how many values it has: height * width */
    uint32_t mode,            /* 0: Normal; 1: Decompose */
    uint32_t kanji_threshold, /* the most characters of a kanji only word that
                                 go free; like the three below, not looked at
                                 in Normal */
    uint32_t kanji_price,     /* the charge for each character above it */
    uint32_t other_threshold, /* the most characters of any other word that go
                                 free */
    uint32_t other_price,     /* the charge for each character above it */
    uint32_t *offset,         /* written: the byte at which each character
                                 starts, and at place n the text's length */
    size_t offset_len,        /* how many places the offset row has */
    uint16_t *run,            /* written: 0 where the character is no kanji,
                                 else 1 + the next place's run; at place n it
                                 is 0 */
    size_t run_len,           /* how many places the run row has */
    uint16_t *first,          /* written: the lowest reached entry that ends at
                                 each position, or none */
    size_t first_len,         /* how many places the first row has */
    uint16_t *last,           /* written: the highest reached entry that ends at
                                 each position, or none */
    size_t last_len,          /* how many places the last row has */
    uint16_t *left,           /* written: the entry from which each entry takes
                                 its cost; none for the start mark and where
                                 the entry is not reached */
    size_t left_len,          /* how many places the left row has */
    int32_t *cost,            /* written: what each entry costs; 0 for the start
                                 mark and where the entry is not reached */
    size_t cost_len,          /* how many places the cost row has */
    uint16_t *next,           /* written: the next higher reached entry that
                                 ends where this one does; none if there is no
                                 such entry or this one is not reached */
    size_t next_len,          /* how many places the next row has */
    uint32_t *word_offset,    /* written: the byte at which each word starts,
                                 in sentence order */
    size_t word_offset_len,   /* how many places the word offset row has */
    uint32_t *word_id,        /* written: each word's id */
    size_t word_id_len,       /* how many places the word id row has */
    uint8_t *word_kind,       /* written: each word's kind */
    size_t word_kind_len);    /* how many places the word kind row has */

/*
 * The walk back alone: the words of a finished lattice, from its links. With
 * c for the number of candidates (the length of the start row), entry 0 is the
 * start mark, entry k+1 is candidate k and entry c+1 is the end mark. The walk
 * starts at the end mark with position n and follows links:
 *  - a link to 0 is right exactly at position 0, and there the walk ends;
 *  - a link to 1 up to c is right exactly if that candidate starts below its
 *    end and ends at the present position; its start is the next position;
 *  - any other link is broken.
 * Only followed links and the candidates they lead to are looked at, and links
 * need not fall in number. The candidates' numbers are written in sentence
 * order; places beyond the count keep their contents.
 *
 * Answer numbers, in the order in which they are tested:
 *   2   n is over 4,096
 *   3   the start and end rows have different lengths
 *   4   c is over 16,384
 *   7   the left row has fewer than c+2 places, or the word row fewer than n,
 *       even where fewer words come out
 *   13  a followed link is broken
 *   0   done; count is the number of words
 * Place is always 0. A refusal changes no place of the word row.
 */
jumelavorp_answer jumelavorp_walk_back(
    const uint16_t *start, /* the position at which each candidate starts; only
                              read */
    size_t start_len,      /* how many candidates there are: c */
    const uint16_t *end,   /* the position at which each candidate ends, just
                              after its last character; only read */
    size_t end_len,        /* how many places the end row has: c as well */
    const uint16_t *left,  /* the entry to which each entry links; only read,
                              place 0 and places from c+2 on not at all */
    size_t left_len,       /* how many places the left row has */
    uint32_t n,            /* how many characters the text has */
    uint16_t *word,        /* written: the words' candidate numbers, from 0 */
    size_t word_len);      /* how many places the word row has */

#ifdef __cplusplus
}
#endif

#endif
