/* Bezowik: counts measured opcode sequences in the trace of a program.
 *
 * The least that a host does. Compile it with  cc -Iinclude example.c target/staticlib/libbezowik.a
 *
 *     #include "bezowik.h"
 *     #include <stdio.h>
 *
 *     int main(void)
 *     {
 *         const uint8_t word[] = "LM", trace[] = "ALMLALM";
 *         uint8_t set[BEZOWIK_RECORD], answer[BEZOWIK_ANSWER];
 *         int result = bezowik_put_record(set, word, 2, 40);
 *
 *         if (result == BEZOWIK_DONE)
 *             result = bezowik_cost(set, sizeof set, trace, 7, answer, sizeof answer);
 *         if (result == BEZOWIK_DONE)
 *             printf("%llu pJ\n", (unsigned long long)bezowik_energy(answer));
 *         else
 *             fprintf(stderr, "%s\n", bezowik_message((unsigned)result));
 *         return result != BEZOWIK_DONE;
 *     }
 *
 * Every function of the library may be called with any bytes and needs no earlier check. It ends with an answer or
 * with one of the refusals below, and its result is the refusal's number, or BEZOWIK_DONE.
 *
 * Buffers. A buffer is a pointer and the number of its elements. A pointer may be null where that number is 0.
 * Buffers of 16-bit and 32-bit numbers stand at addresses that are multiples of 2 and of 4. A buffer that a function
 * writes (its pointer is not const) overlaps no other buffer of the call; the others may overlap each other. Nothing
 * is kept after the call, and calls from several threads at once are fine while no buffer that one of them writes is
 * another's.
 *
 * After a call. The first 20 bytes of the answer are written on every outcome but BEZOWIK_ANSWER_SHORT, refusals
 * too, and no byte beyond them. Refusals 1 to 9 and 17 change no other buffer. After refusals 10 to 16 the workspace
 * holds the set's backward rows and nothing else has changed. A call that is not refused leaves its rows, forward or
 * backward, at the front of the workspace. What a buffer holds behind what was written stays.
 *
 * Stack: less than 16 kB in bezowik_cost, most of it its own workspace, and less than 8 kB in the others. C99 or C++11.
 *
 * Formats. A keyword set is records of 20 bytes: a length from 1 to 15, the keyword, zeros up to byte 15, and the
 * energy in four bytes, 16 to 19, low byte first: 0 to 4,294,967,295 picojoules; 1 to 64 records, no two keywords the
 * same. bezowik_put_record packs one. Records of 18 bytes, with an energy in two, are of an earlier format: every set
 * is read as records of 20, and the tool's `bezowik convert` makes such a set of an old one. A trace is 0 to 1,048,576
 * bytes. Keywords are numbered from 0 in file order. A workspace has six numbers for each row of the set, at most
 * BEZOWIK_WORKSPACE. Hits are pairs: the end (how many trace bytes stand up to and including the keyword's last) and
 * the keyword's number; by end, rising, and at one end the longest keyword first. A hit buffer receives the first
 * pairs that fit, and the answer counts them all.
 *
 * A longer trace is cut, anywhere behind its first 14 bytes, and scanned in parts of at most 1,048,576 bytes. The
 * count and energy of the whole are the sums over the parts, each later part begun 14 bytes (BEZOWIK_OVERLAP) before
 * the cut, less the cost of its first 14 bytes alone. Sum both in 64 bits: they cannot overflow for a whole trace of
 * at most 286,331,160 bytes; for a longer one the energy can, where the keywords' energies are large. Of a later
 * part's list, leave out the hits that end within its first 14 bytes: the part before has them. The questions do not
 * add up so.
 */
#ifndef BEZOWIK_H
#define BEZOWIK_H

#include <stddef.h>
#include <stdint.h>

#ifdef __cplusplus
extern "C" {
#endif

/* The number 7 is not given any more, and no refusal will have it: no set has over BEZOWIK_ROWS rows. */
enum bezowik_refusal {
    BEZOWIK_DONE = 0,               /* no refusal */
    BEZOWIK_SET_EMPTY = 1,          /* the set has no bytes */
    BEZOWIK_SET_SIZE = 2,           /* the set is no multiple of 20 bytes */
    BEZOWIK_TOO_MANY_KEYWORDS = 3,  /* over 64 records */
    BEZOWIK_LENGTH = 4,             /* a length of 0 or over 15; place: the record */
    BEZOWIK_PADDING = 5,            /* padding that is not zero; place: the record */
    BEZOWIK_REPEATED = 6,           /* the same bytes as an earlier keyword; place: the record */
    BEZOWIK_TRACE_TOO_LONG = 8,     /* over 1,048,576 trace bytes */
    BEZOWIK_WORKSPACE_SHORT = 9,    /* under six numbers a row; place: the rows needed */
    BEZOWIK_ROW_FILE_SIZE = 10,     /* a row file not exactly 18 bytes a row; place: the rows needed */
    BEZOWIK_ROW_NAMES_ANOTHER = 11, /* a record that does not name its row's suffix; place: the row */
    BEZOWIK_ROW_NUMBER = 12,        /* inner or edge 0 or above the largest; place: the row */
    BEZOWIK_BYTE_FILE_SIZE = 13,    /* a byte file not of 4,096 bytes */
    BEZOWIK_FAR_NUMBER = 14,        /* far 0 or above the largest; place: 16 * byte + depth */
    BEZOWIK_ROW_BUFFER_SHORT = 15,  /* making: a row buffer under 18 bytes a row; place: the rows needed */
    BEZOWIK_BYTE_BUFFER_SHORT = 16, /* making: a byte buffer under 4,096 bytes */
    BEZOWIK_ANSWER_SHORT = 17       /* an answer buffer under 20 bytes; nothing is written */
};

/* The text of a constant's number. */
#define BEZOWIK_TEXT_OF(number) #number
#define BEZOWIK_TEXT(number) BEZOWIK_TEXT_OF(number)

/* The version of this header and its library. */
#define BEZOWIK_VERSION_MAJOR 0
#define BEZOWIK_VERSION_MINOR 1
#define BEZOWIK_VERSION_PATCH 0
#define BEZOWIK_VERSION \
    BEZOWIK_TEXT(BEZOWIK_VERSION_MAJOR) "." BEZOWIK_TEXT(BEZOWIK_VERSION_MINOR) "." BEZOWIK_TEXT(BEZOWIK_VERSION_PATCH)

/* The most bytes of a trace, the most keywords of a set, and the most bytes of a keyword. */
#define BEZOWIK_TRACE 1048576
#define BEZOWIK_KEYWORDS 64
#define BEZOWIK_LONGEST 15

/* How many bytes before the cut a later part of a trace begins: a keyword's most, less one. */
#define BEZOWIK_OVERLAP 14

/* Bytes of a keyword's record, and the places in it: its length, its first byte, and the low byte of its energy,
 * which has the rest of the record. The most that this holds, in picojoules. */
#define BEZOWIK_RECORD 20
#define BEZOWIK_RECORD_LENGTH 0
#define BEZOWIK_RECORD_WORD 1
#define BEZOWIK_RECORD_ENERGY (BEZOWIK_RECORD_WORD + BEZOWIK_LONGEST)
#define BEZOWIK_MOST_ENERGY ((1ull << (8 * (BEZOWIK_RECORD - BEZOWIK_RECORD_ENERGY))) - 1)

/* Bytes of an answer. */
#define BEZOWIK_ANSWER 20

/* The most rows of a set, one for each byte of each keyword and row 0, and numbers of a workspace that is enough for
 * every set. */
#define BEZOWIK_ROWS 961
#define BEZOWIK_WORKSPACE (6 * BEZOWIK_ROWS)

/* Of a skip table: bytes of a row's record, and of the byte file. */
#define BEZOWIK_ROW 18
#define BEZOWIK_BYTES 4096

/* The cost of a trace: the forward scan, for a caller that wants no list. It has a workspace of its own. */
uint16_t bezowik_cost(const uint8_t *set, size_t set_bytes,
                      const uint8_t *trace, size_t trace_bytes,
                      uint8_t *answer, size_t answer_bytes);

/* The forward scan: refusals 1 to 6, 8, 9 and 17. Else the workspace holds the set's forward rows, and hits the
 * first pairs that fit. hit_numbers counts 32-bit numbers, two for each pair: a buffer of 2 * n numbers has room for
 * n hits. */
uint16_t bezowik_forward(const uint8_t *set, size_t set_bytes,
                         const uint8_t *trace, size_t trace_bytes,
                         uint16_t *workspace, size_t workspace_numbers,
                         uint32_t *hits, size_t hit_numbers,
                         uint8_t *answer, size_t answer_bytes);

/* The backward scan under a skip table, which is checked at each call: refusals 1 to 6, 8 to 14 and 17. Its hits,
 * count and energy are the forward scan's; its questions are those of its own run. hit_numbers counts 32-bit numbers,
 * two for each pair: a buffer of 2 * n numbers has room for n hits. */
uint16_t bezowik_backward(const uint8_t *set, size_t set_bytes,
                          const uint8_t *trace, size_t trace_bytes,
                          const uint8_t *row_file, size_t row_bytes,
                          const uint8_t *byte_file, size_t byte_bytes,
                          uint16_t *workspace, size_t workspace_numbers,
                          uint32_t *hits, size_t hit_numbers,
                          uint8_t *answer, size_t answer_bytes);

/* Making a skip table: the largest safe numbers at the front of two buffers, BEZOWIK_ROW bytes a row and
 * BEZOWIK_BYTES bytes. Refusals 1 to 6, 9 and 15 to 17. The answer has the number of rows in the place of the
 * count. */
uint16_t bezowik_make(const uint8_t *set, size_t set_bytes,
                      uint16_t *workspace, size_t workspace_numbers,
                      uint8_t *row_buffer, size_t row_bytes,
                      uint8_t *byte_buffer, size_t byte_bytes,
                      uint8_t *answer, size_t answer_bytes);

/* The check of a skip table: accepted exactly when it is safe for the set. Refusals 1 to 6, 9 to 14 and 17. The
 * answer has the number of rows in the place of the count. */
uint16_t bezowik_check(const uint8_t *set, size_t set_bytes,
                       const uint8_t *row_file, size_t row_bytes,
                       const uint8_t *byte_file, size_t byte_bytes,
                       uint16_t *workspace, size_t workspace_numbers,
                       uint8_t *answer, size_t answer_bytes);

/* The fields of an answer: number and place of a refusal, and the count, questions and energy of a scan (0 on a
 * refusal). None of them can overflow. The largest count is 15,728,535, which is 15 hits at each of 1,048,576 ends but
 * fewer at the first 14, and the largest energy is 67,553,543,423,262,825 picojoules, which is that many times
 * BEZOWIK_MOST_ENERGY. */
static inline uint16_t bezowik_number(const uint8_t *answer)
{
    return (uint16_t)(answer[0] | answer[1] << 8);
}

static inline uint16_t bezowik_place(const uint8_t *answer)
{
    return (uint16_t)(answer[2] | answer[3] << 8);
}

static inline uint32_t bezowik_low4(const uint8_t *bytes)
{
    return (uint32_t)bytes[0] | (uint32_t)bytes[1] << 8 | (uint32_t)bytes[2] << 16 | (uint32_t)bytes[3] << 24;
}

static inline uint32_t bezowik_count(const uint8_t *answer)
{
    return bezowik_low4(answer + 4);
}

static inline uint32_t bezowik_questions(const uint8_t *answer)
{
    return bezowik_low4(answer + 8);
}

static inline uint64_t bezowik_energy(const uint8_t *answer)
{
    return (uint64_t)bezowik_low4(answer + 12) | (uint64_t)bezowik_low4(answer + 16) << 32;
}

/* The result of bezowik_put_record for an energy over BEZOWIK_MOST_ENERGY. It is no refusal: no call of the library
 * ends with it. */
enum { BEZOWIK_ENERGY_TOO_LARGE = -1 };

/* Packs one keyword and its energy in picojoules into the BEZOWIK_RECORD bytes at record, which the keyword does not
 * overlap. The result is BEZOWIK_DONE; or, and then nothing is written, BEZOWIK_LENGTH where word_bytes is 0 or over
 * BEZOWIK_LONGEST, else BEZOWIK_ENERGY_TOO_LARGE. The word may be null where word_bytes is 0. Whether an earlier
 * record has the same keyword is not looked at: the library refuses such a set. */
static inline int bezowik_put_record(uint8_t *record, const uint8_t *word, size_t word_bytes, uint64_t energy)
{
    size_t i;

    if (word_bytes == 0 || word_bytes > BEZOWIK_LONGEST)
        return BEZOWIK_LENGTH;
    if (energy > BEZOWIK_MOST_ENERGY)
        return BEZOWIK_ENERGY_TOO_LARGE;
    record[BEZOWIK_RECORD_LENGTH] = (uint8_t)word_bytes;
    for (i = 0; i < word_bytes; i++)
        record[BEZOWIK_RECORD_WORD + i] = word[i];
    for (; i < BEZOWIK_LONGEST; i++)
        record[BEZOWIK_RECORD_WORD + i] = 0;
    for (i = BEZOWIK_RECORD_ENERGY; i < BEZOWIK_RECORD; i++) {
        record[i] = (uint8_t)(energy & 255);
        energy >>= 8;
    }
    return BEZOWIK_DONE;
}

/* What a result means, as a sentence for a person: what is wrong, what the place is where it has a meaning, and what
 * to do. Every number has one; (unsigned)BEZOWIK_ENERGY_TOO_LARGE too. */
static inline const char *bezowik_message(unsigned number)
{
    switch (number) {
    case BEZOWIK_DONE:
        return "nothing is wrong: the call was answered";
    case BEZOWIK_SET_EMPTY:
        return "the set has no bytes: give at least one record of " BEZOWIK_TEXT(BEZOWIK_RECORD) " bytes";
    case BEZOWIK_SET_SIZE:
        return "the set is no multiple of " BEZOWIK_TEXT(BEZOWIK_RECORD) " bytes: "
               "it is cut short, has the earlier records of 18 bytes, or is no keyword set";
    case BEZOWIK_TOO_MANY_KEYWORDS:
        return "the set has over " BEZOWIK_TEXT(BEZOWIK_KEYWORDS) " records: split it";
    case BEZOWIK_LENGTH:
        return "a keyword's length is 0 or over " BEZOWIK_TEXT(BEZOWIK_LONGEST) " (place: its record): "
               "mend byte " BEZOWIK_TEXT(BEZOWIK_RECORD_LENGTH) " of that record";
    case BEZOWIK_PADDING:
        return "a keyword's padding is not zero (place: its record): "
               "zero the bytes behind the keyword, up to byte " BEZOWIK_TEXT(BEZOWIK_LONGEST);
    case BEZOWIK_REPEATED:
        return "a keyword has the same bytes as an earlier one (place: its record): take one of the two out";
    case BEZOWIK_TRACE_TOO_LONG:
        return "the trace has over " BEZOWIK_TEXT(BEZOWIK_TRACE) " bytes: cut it; the count and energy of the whole "
               "are the sums over the parts, each later part begun " BEZOWIK_TEXT(BEZOWIK_OVERLAP)
               " bytes before the cut, less the cost of its first " BEZOWIK_TEXT(BEZOWIK_OVERLAP) " bytes alone";
    case BEZOWIK_WORKSPACE_SHORT:
        return "the workspace has under six numbers a row (place: the rows needed): lend six times that many numbers";
    case BEZOWIK_ROW_FILE_SIZE:
        return "the row file is not exactly " BEZOWIK_TEXT(BEZOWIK_ROW) " bytes a row (place: the rows needed): "
               "make the tables again for this set";
    case BEZOWIK_ROW_NAMES_ANOTHER:
        return "a record of the row file does not name its row's suffix (place: the row): "
               "the file was made for another set, or a row slipped, so make the tables again for this set";
    case BEZOWIK_ROW_NUMBER:
        return "inner or edge is 0 or above the largest safe number (place: the row): "
               "the number would lose hits or never move on, so make the tables again";
    case BEZOWIK_BYTE_FILE_SIZE:
        return "the byte file has not " BEZOWIK_TEXT(BEZOWIK_BYTES) " bytes: make the tables again";
    case BEZOWIK_FAR_NUMBER:
        return "a far number is 0 or above the largest safe one (place: 16 * byte + depth): "
               "the number would lose hits or never move on, so make the tables again";
    case BEZOWIK_ROW_BUFFER_SHORT:
        return "the row buffer has under " BEZOWIK_TEXT(BEZOWIK_ROW) " bytes a row (place: the rows needed): "
               "lend " BEZOWIK_TEXT(BEZOWIK_ROW) " times that many bytes";
    case BEZOWIK_BYTE_BUFFER_SHORT:
        return "the byte buffer has under " BEZOWIK_TEXT(BEZOWIK_BYTES) " bytes: lend that many";
    case BEZOWIK_ANSWER_SHORT:
        return "the answer buffer has under " BEZOWIK_TEXT(BEZOWIK_ANSWER) " bytes, and nothing was written: "
               "lend that many";
    case (unsigned)BEZOWIK_ENERGY_TOO_LARGE:
        return "the energy is larger than a record holds, and nothing was written: give at most BEZOWIK_MOST_ENERGY";
    default:
        return "no refusal has this number";
    }
}

#ifdef __cplusplus
}
#endif

#endif
