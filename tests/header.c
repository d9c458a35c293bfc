/* Tests of the header: its constants beside the library's own limits, its functions, and the rule by which a long trace
 * is cut. C99 and C++11.
 *
 *     header VERSION
 *
 * VERSION is what the header's must be. Prints each check that fails, and then its exit status is 1. */
#include "bezowik.h"

#include <limits.h>
#include <stdio.h>
#include <string.h>

/* a second time: the guard */
#include "bezowik.h"

/* What can be told of the constants without a call: a size of -1 does not compile. */
typedef char overlap_is_one_less_than_the_longest[BEZOWIK_OVERLAP == BEZOWIK_LONGEST - 1 ? 1 : -1];
typedef char rows_are_one_for_each_byte_and_row_0[BEZOWIK_ROWS == BEZOWIK_KEYWORDS * BEZOWIK_LONGEST + 1 ? 1 : -1];
typedef char byte_file_has_every_byte_and_depth[BEZOWIK_BYTES == 256 * (BEZOWIK_LONGEST + 1) ? 1 : -1];
typedef char row_is_length_suffix_inner_and_edge[BEZOWIK_ROW == 1 + BEZOWIK_LONGEST + 2 ? 1 : -1];
typedef char record_is_length_keyword_and_energy[BEZOWIK_RECORD == 1 + BEZOWIK_LONGEST + 4 ? 1 : -1];
typedef char most_energy_is_four_bytes[BEZOWIK_MOST_ENERGY == 4294967295u ? 1 : -1];

/* The most hits of a trace of so many bytes, 14 or more, and whether 64 bits hold their energy, each with the most. */
#define MOST_HITS(bytes) (15ull * (bytes) - 105)
#define HELD(bytes) (MOST_HITS(bytes) <= UINT64_MAX / BEZOWIK_MOST_ENERGY)
typedef char most_hits_are_as_the_header_says[MOST_HITS(BEZOWIK_TRACE) == 15728535 ? 1 : -1];
typedef char parts_add_up_as_far_as_the_header_says[HELD(286331160) && !HELD(286331161) ? 1 : -1];

static int failures;

/* A check that must hold; where it does not, its line is told. */
#define CHECK(holds) checked((holds) != 0, #holds, __LINE__)

static void checked(int holds, const char *what, int line)
{
    if (holds)
        return;
    failures++;
    if (failures < 20)
        printf("header: line %d: %s\n", line, what);
}

/* Numbers that look random and are the same in every run (xorshift64*): any, and those below n. */
static uint64_t state = 1;

static uint64_t number(void)
{
    state ^= state >> 12;
    state ^= state << 25;
    state ^= state >> 27;
    return state * 0x2545F4914F6CDD1Dull;
}

static size_t below(size_t n)
{
    return (size_t)(number() >> 33) % n;
}

/* Room for a set of one record too many, and for a trace that has to be cut. */
static uint8_t set[BEZOWIK_RECORD * (BEZOWIK_KEYWORDS + 1)];
static uint8_t trace[2 * BEZOWIK_TRACE];

/* The keyword of record i is this byte, a middle of ones, and this byte again: every prefix and every suffix is a row
 * of its own, so that 64 of them have the most rows. */
static void put_long_word(size_t i)
{
    uint8_t word[BEZOWIK_LONGEST];

    memset(word, 1, sizeof word);
    word[0] = word[BEZOWIK_LONGEST - 1] = (uint8_t)(100 + i);
    CHECK(bezowik_put_record(set + BEZOWIK_RECORD * i, word, BEZOWIK_LONGEST, i) == BEZOWIK_DONE);
}

/* The result of the host call on the first bytes of the set and of the trace, or on the first records of the set. */
static unsigned result_of_bytes(size_t set_bytes, size_t trace_bytes)
{
    uint8_t answer[BEZOWIK_ANSWER];

    return bezowik_cost(set, set_bytes, trace, trace_bytes, answer, sizeof answer);
}

static unsigned result_of(size_t records, size_t trace_bytes)
{
    return result_of_bytes(BEZOWIK_RECORD * records, trace_bytes);
}

/* A record's bytes, and that nothing is written where there is no record to write. */
static void put_record(void)
{
    static const uint8_t lm[BEZOWIK_RECORD] = {2, 'L', 'M', 0, 0, 0, 0, 0, 0, 0, 0, 0, 0, 0, 0, 0, 40};
    static const uint8_t fifteen[BEZOWIK_RECORD] = {15,  'A', 'B', 'C', 'D', 'E', 'F',  'G',  'H',  'I',
                                                    'J', 'K', 'L', 'M', 'N', 'O', 0x78, 0x56, 0x34, 0x12};
    static const uint8_t letters[] = "ABCDEFGHIJKLMNOP";
    static const uint8_t other[] = "LM";
    uint8_t record[BEZOWIK_RECORD + 1], before[BEZOWIK_RECORD + 1], answer[BEZOWIK_ANSWER];

    memset(before, 0xEE, sizeof before);
    memcpy(record, before, sizeof record);
    CHECK(bezowik_put_record(record, other, 2, 40) == BEZOWIK_DONE);
    CHECK(memcmp(record, lm, BEZOWIK_RECORD) == 0);
    CHECK(record[BEZOWIK_RECORD] == 0xEE);
    CHECK(record[BEZOWIK_RECORD_LENGTH] == 2);
    CHECK(record[BEZOWIK_RECORD_WORD] == 'L');
    CHECK(record[BEZOWIK_RECORD_ENERGY] == 40);
    CHECK(bezowik_cost(record, BEZOWIK_RECORD, (const uint8_t *)"ALMLALM", 7, answer, sizeof answer) == BEZOWIK_DONE);
    CHECK(bezowik_count(answer) == 2 && bezowik_energy(answer) == 80);

    memcpy(record, before, sizeof record);
    CHECK(bezowik_put_record(record, letters, 15, 0x12345678) == BEZOWIK_DONE);
    CHECK(memcmp(record, fifteen, BEZOWIK_RECORD) == 0);
    CHECK(record[BEZOWIK_RECORD] == 0xEE);
    CHECK(bezowik_cost(record, BEZOWIK_RECORD, letters, 16, answer, sizeof answer) == BEZOWIK_DONE);
    CHECK(bezowik_count(answer) == 1 && bezowik_energy(answer) == 0x12345678);

    /* the most energy, which the library reads as it was given, and one more */
    memcpy(record, before, sizeof record);
    CHECK(bezowik_put_record(record, other, 2, 4294967295u) == BEZOWIK_DONE);
    CHECK(record[16] == 255 && record[17] == 255 && record[18] == 255 && record[19] == 255);
    CHECK(record[BEZOWIK_RECORD] == 0xEE);
    CHECK(bezowik_cost(record, BEZOWIK_RECORD, other, 2, answer, sizeof answer) == BEZOWIK_DONE);
    CHECK(bezowik_energy(answer) == 4294967295u);
    memcpy(record, before, sizeof record);
    CHECK(bezowik_put_record(record, other, 2, 4294967296ull) == BEZOWIK_ENERGY_TOO_LARGE);
    CHECK(bezowik_put_record(record, other, 2, UINT64_MAX) == BEZOWIK_ENERGY_TOO_LARGE);
    CHECK(bezowik_put_record(record, NULL, 0, 40) == BEZOWIK_LENGTH);
    CHECK(bezowik_put_record(record, letters, 16, 40) == BEZOWIK_LENGTH);
    CHECK(bezowik_put_record(record, letters, SIZE_MAX, 40) == BEZOWIK_LENGTH);
    CHECK(bezowik_put_record(record, letters, 16, UINT64_MAX) == BEZOWIK_LENGTH);
    CHECK(memcmp(record, before, sizeof record) == 0);
    CHECK(BEZOWIK_ENERGY_TOO_LARGE < 0);
}

/* Each of the four bytes of an energy alone, as it is packed and as the library reads it: the low byte is the first. */
static void energy_bytes(void)
{
    uint8_t record[BEZOWIK_RECORD], answer[BEZOWIK_ANSWER];
    uint64_t energy = 1;
    size_t at, i;

    for (at = 16; at < 20; at++) {
        CHECK(bezowik_put_record(record, (const uint8_t *)"A", 1, energy) == BEZOWIK_DONE);
        for (i = 16; i < 20; i++)
            CHECK(record[i] == (i == at));
        CHECK(bezowik_cost(record, sizeof record, (const uint8_t *)"A", 1, answer, sizeof answer) == BEZOWIK_DONE);
        CHECK(bezowik_energy(answer) == energy);
        energy *= 256;
    }
}

/* Every refusal has a sentence of its own, and all numbers that none has share one: 7, which is not given any more, and
 * those behind the last. */
static void messages(void)
{
    unsigned i, j;

    for (i = 0; i <= BEZOWIK_ANSWER_SHORT; i++) {
        CHECK(strlen(bezowik_message(i)) > 10);
        CHECK((strcmp(bezowik_message(i), bezowik_message(18)) == 0) == (i == 7));
        for (j = 0; j < i; j++)
            CHECK(strcmp(bezowik_message(i), bezowik_message(j)) != 0);
    }
    CHECK(strlen(bezowik_message(18)) > 10);
    CHECK(strcmp(bezowik_message(18), bezowik_message(65535)) == 0);
    CHECK(strlen(bezowik_message((unsigned)BEZOWIK_ENERGY_TOO_LARGE)) > 10);
    CHECK(strcmp(bezowik_message(UINT_MAX), bezowik_message(18)) != 0);
    CHECK(strstr(bezowik_message(BEZOWIK_SET_SIZE), " 20 bytes") != NULL);
    CHECK(strstr(bezowik_message(BEZOWIK_TRACE_TOO_LONG), " 1048576 bytes") != NULL);
    CHECK(strstr(bezowik_message(BEZOWIK_TRACE_TOO_LONG), " 14 bytes before the cut") != NULL);
}

/* The limits of keywords, of records and of traces: each is accepted, and one more is refused. */
static void limits(void)
{
    size_t i;

    for (i = 0; i <= BEZOWIK_KEYWORDS; i++)
        put_long_word(i);
    CHECK(result_of(BEZOWIK_KEYWORDS, BEZOWIK_TRACE) == BEZOWIK_DONE);
    CHECK(result_of(BEZOWIK_KEYWORDS, BEZOWIK_TRACE + 1) == BEZOWIK_TRACE_TOO_LONG);
    CHECK(result_of(BEZOWIK_KEYWORDS + 1, 0) == BEZOWIK_TOO_MANY_KEYWORDS);
    CHECK(result_of_bytes(64 * 20, 0) == BEZOWIK_DONE);
    CHECK(result_of_bytes(65 * 20, 0) == BEZOWIK_TOO_MANY_KEYWORDS);
    CHECK(result_of_bytes(1279, 0) == BEZOWIK_SET_SIZE);
    CHECK(result_of_bytes(1281, 0) == BEZOWIK_SET_SIZE);
    CHECK(result_of(0, 0) == BEZOWIK_SET_EMPTY);
    CHECK(result_of(1, 0) == BEZOWIK_DONE);
    set[BEZOWIK_RECORD_LENGTH] = BEZOWIK_LONGEST + 1;
    CHECK(result_of(1, 0) == BEZOWIK_LENGTH);
    set[BEZOWIK_RECORD_LENGTH] = BEZOWIK_LONGEST - 1;
    CHECK(result_of(1, 0) == BEZOWIK_PADDING);
    set[BEZOWIK_RECORD_ENERGY - 1] = 0;
    CHECK(result_of(1, 0) == BEZOWIK_DONE);
    memcpy(set + BEZOWIK_RECORD, set, BEZOWIK_RECORD);
    CHECK(result_of(2, 0) == BEZOWIK_REPEATED);
}

/* The buffers of the largest set: each is enough, and one element fewer is refused. */
static void buffers(void)
{
    static uint16_t workspace[BEZOWIK_WORKSPACE];
    static uint8_t rows[BEZOWIK_ROW * BEZOWIK_ROWS], bytes[BEZOWIK_BYTES];
    static uint32_t hits[2 * 3];
    const size_t all = BEZOWIK_RECORD * BEZOWIK_KEYWORDS, w = BEZOWIK_WORKSPACE;
    uint8_t answer[BEZOWIK_ANSWER];
    size_t i;

    for (i = 0; i < BEZOWIK_KEYWORDS; i++)
        put_long_word(i);
    /* keyword 7 four times, so that a buffer for three hits is too short by one */
    for (i = 0; i < 4; i++)
        memcpy(trace + BEZOWIK_LONGEST * i, set + BEZOWIK_RECORD * 7 + BEZOWIK_RECORD_WORD, BEZOWIK_LONGEST);

    CHECK(bezowik_make(set, all, workspace, w, rows, sizeof rows, bytes, sizeof bytes, answer, sizeof answer)
          == BEZOWIK_DONE);
    CHECK(bezowik_count(answer) == BEZOWIK_ROWS);
    CHECK(bezowik_make(set, all, workspace, w - 1, rows, sizeof rows, bytes, sizeof bytes, answer, sizeof answer)
          == BEZOWIK_WORKSPACE_SHORT);
    CHECK(bezowik_place(answer) == BEZOWIK_ROWS);
    CHECK(bezowik_make(set, all, workspace, w, rows, sizeof rows - 1, bytes, sizeof bytes, answer, sizeof answer)
          == BEZOWIK_ROW_BUFFER_SHORT);
    CHECK(bezowik_place(answer) == BEZOWIK_ROWS);
    CHECK(bezowik_make(set, all, workspace, w, rows, sizeof rows, bytes, sizeof bytes - 1, answer, sizeof answer)
          == BEZOWIK_BYTE_BUFFER_SHORT);
    CHECK(bezowik_make(set, all, workspace, w, rows, sizeof rows, bytes, sizeof bytes, answer, sizeof answer - 1)
          == BEZOWIK_ANSWER_SHORT);

    CHECK(bezowik_check(set, all, rows, sizeof rows, bytes, sizeof bytes, workspace, w, answer, sizeof answer)
          == BEZOWIK_DONE);
    CHECK(bezowik_count(answer) == BEZOWIK_ROWS);
    CHECK(bezowik_check(set, all, rows, sizeof rows, bytes, sizeof bytes, workspace, w - 1, answer, sizeof answer)
          == BEZOWIK_WORKSPACE_SHORT);

    /* hit_numbers counts numbers: with 2 * 3 of them three hits are listed, with one fewer two */
    for (i = 0; i < 2; i++) {
        memset(hits, 0, sizeof hits);
        CHECK(bezowik_forward(set, all, trace, 4 * BEZOWIK_LONGEST, workspace, w, hits, 2 * 3 - i, answer, sizeof answer)
              == BEZOWIK_DONE);
        CHECK(bezowik_count(answer) == 4);
        CHECK(hits[2] == 2 * BEZOWIK_LONGEST && hits[3] == 7);
        CHECK(hits[4] == (i ? 0 : 3 * BEZOWIK_LONGEST));
        memset(hits, 0, sizeof hits);
        CHECK(bezowik_backward(set, all, trace, 4 * BEZOWIK_LONGEST, rows, sizeof rows, bytes, sizeof bytes, workspace, w,
                               hits, 2 * 3 - i, answer, sizeof answer) == BEZOWIK_DONE);
        CHECK(bezowik_count(answer) == 4);
        CHECK(hits[2] == 2 * BEZOWIK_LONGEST && hits[3] == 7);
        CHECK(hits[4] == (i ? 0 : 3 * BEZOWIK_LONGEST));
    }
    CHECK(bezowik_forward(set, all, trace, 4, workspace, w - 1, NULL, 0, answer, sizeof answer)
          == BEZOWIK_WORKSPACE_SHORT);
    CHECK(bezowik_place(answer) == BEZOWIK_ROWS);
    CHECK(bezowik_backward(set, all, trace, 4, rows, sizeof rows, bytes, sizeof bytes, workspace, w - 1, NULL, 0, answer,
                           sizeof answer) == BEZOWIK_WORKSPACE_SHORT);
}

/* What a trace costs. */
struct cost {
    uint64_t count, energy;
};

/* The cost that an answer tells. */
static struct cost told_by(const uint8_t *answer)
{
    struct cost cost;

    cost.count = bezowik_count(answer);
    cost.energy = bezowik_energy(answer);
    return cost;
}

/* What the host call tells of a part of the trace. */
static struct cost cost_of(size_t records, size_t from, size_t to)
{
    uint8_t answer[BEZOWIK_ANSWER];

    CHECK(bezowik_cost(set, BEZOWIK_RECORD * records, trace + from, to - from, answer, sizeof answer) == BEZOWIK_DONE);
    return told_by(answer);
}

static int same(struct cost a, struct cost b)
{
    return a.count == b.count && a.energy == b.energy;
}

/* As keywords the first repetitions of one letter, the energy of each lower by step than that of the one before, the
 * first with the most; as trace so many bytes of that letter. The result is its cost, known without a scan. */
static struct cost put_repetitions(size_t records, size_t trace_bytes, uint64_t step)
{
    uint8_t word[BEZOWIK_LONGEST];
    uint64_t energy = BEZOWIK_MOST_ENERGY, ends = trace_bytes;
    struct cost known;
    size_t n;

    memset(word, 'A', sizeof word);
    memset(trace, 'A', trace_bytes);
    known.count = known.energy = 0;
    for (n = 1; n <= records; n++) {
        CHECK(bezowik_put_record(set + BEZOWIK_RECORD * (n - 1), word, n, energy) == BEZOWIK_DONE);
        known.count += ends;
        known.energy += energy * ends;
        energy -= step;
        ends--;
    }
    return known;
}

/* Both scans and the host call tell this cost of the longest trace of one letter, under its first repetitions as
 * keywords, each with the most energy. */
static void told_by_all(size_t records, uint64_t count, uint64_t energy)
{
    static uint16_t workspace[BEZOWIK_WORKSPACE];
    static uint8_t rows[BEZOWIK_ROW * BEZOWIK_ROWS], bytes[BEZOWIK_BYTES];
    const size_t all = BEZOWIK_RECORD * records, w = BEZOWIK_WORKSPACE;
    struct cost known = put_repetitions(records, BEZOWIK_TRACE, 0);
    uint8_t answer[BEZOWIK_ANSWER];
    size_t row_bytes;

    CHECK(known.count == count && known.energy == energy);
    CHECK(same(cost_of(records, 0, BEZOWIK_TRACE), known));
    CHECK(bezowik_forward(set, all, trace, BEZOWIK_TRACE, workspace, w, NULL, 0, answer, sizeof answer) == BEZOWIK_DONE);
    CHECK(same(told_by(answer), known));
    CHECK(bezowik_make(set, all, workspace, w, rows, sizeof rows, bytes, sizeof bytes, answer, sizeof answer)
          == BEZOWIK_DONE);
    row_bytes = BEZOWIK_ROW * bezowik_count(answer);
    CHECK(bezowik_backward(set, all, trace, BEZOWIK_TRACE, rows, row_bytes, bytes, sizeof bytes, workspace, w, NULL, 0,
                           answer, sizeof answer) == BEZOWIK_DONE);
    CHECK(same(told_by(answer), known));
}

/* A hit of one keyword with the most energy at every end, and the most hits that can occur, each with the most. */
static void largest_figures(void)
{
    told_by_all(1, 1048576, 4503599626321920ull);
    told_by_all(BEZOWIK_LONGEST, 15728535, 67553543423262825ull);
}

/* The cost of the trace's first bytes by the header's rule, in parts of the longest length, or, where random is not 0, of
 * any length up to it. A later part begins overlap bytes before the cut. */
static struct cost cost_in_parts(size_t records, size_t bytes, size_t longest, int random, size_t overlap)
{
    size_t cut = overlap + (random ? below(longest - overlap + 1) : longest - overlap);
    struct cost sum, part, first;

    if (cut > bytes)
        cut = bytes;
    sum = cost_of(records, 0, cut);
    while (cut < bytes) {
        size_t next = cut + (random ? 1 + below(longest - overlap) : longest - overlap);

        if (next > bytes)
            next = bytes;
        part = cost_of(records, cut - overlap, next);
        first = cost_of(records, cut - overlap, cut);
        sum.count += part.count - first.count;
        sum.energy += part.energy - first.energy;
        cut = next;
    }
    return sum;
}

/* A set of up to 64 different keywords over few letters, so that they overlap and nest, some of the longest among
 * them. The result is how many. */
static size_t random_set(void)
{
    size_t letters = 1 + below(3), wanted = 1 + below(BEZOWIK_KEYWORDS), records = 0, tried, i, n;
    uint8_t word[BEZOWIK_LONGEST], *record;

    for (tried = 0; tried < wanted; tried++) {
        n = below(2) ? BEZOWIK_LONGEST : 1 + below(BEZOWIK_LONGEST);
        for (i = 0; i < n; i++)
            word[i] = (uint8_t)below(letters);
        record = set + BEZOWIK_RECORD * records;
        CHECK(bezowik_put_record(record, word, n, number() & BEZOWIK_MOST_ENERGY) == BEZOWIK_DONE);
        for (i = 0; i < records; i++)
            if (memcmp(set + BEZOWIK_RECORD * i, record, BEZOWIK_RECORD_ENERGY) == 0)
                break;
        if (i == records)
            records++;
    }
    return records;
}

/* So many trace bytes: keywords and single bytes, one behind another. */
static void random_trace(size_t records, size_t bytes)
{
    const uint8_t *record;
    size_t at = 0, i;

    while (at < bytes) {
        record = set + BEZOWIK_RECORD * below(records);
        for (i = 0; i < record[BEZOWIK_RECORD_LENGTH] && at < bytes; i++)
            trace[at++] = record[BEZOWIK_RECORD_WORD + i];
        if (at < bytes && below(3) == 0)
            trace[at++] = (uint8_t)below(4);
    }
}

/* The rule gives what the whole trace costs, wherever it is cut. With one byte less before the cut it often does not,
 * so these traces do try it. */
static void cut_traces(void)
{
    size_t seed, records, bytes, lost = 0;
    struct cost whole;

    for (seed = 1; seed <= 500; seed++) {
        state = seed * 0x9E3779B97F4A7C15ull | 1;
        records = random_set();
        bytes = below(600);
        random_trace(records, bytes);
        whole = cost_of(records, 0, bytes);
        CHECK(same(cost_in_parts(records, bytes, 100, 1, BEZOWIK_OVERLAP), whole));
        CHECK(same(cost_in_parts(records, bytes, BEZOWIK_OVERLAP + 1 + below(20), 1, BEZOWIK_OVERLAP), whole));
        CHECK(same(cost_in_parts(records, bytes, BEZOWIK_OVERLAP + 1, 0, BEZOWIK_OVERLAP), whole));
        lost += !same(cost_in_parts(records, bytes, 40, 0, BEZOWIK_OVERLAP - 1), whole);
    }
    CHECK(lost > 50);
}

/* A trace that the library refuses: cut into the largest parts and cut anywhere, it costs the same. Of one letter, and
 * under its repetitions as keywords, it costs what is known without a scan. */
static void long_traces(void)
{
    const size_t bytes = 2 * BEZOWIK_TRACE - 77;
    struct cost known;
    size_t records;

    state = 12345;
    do
        records = random_set();
    while (records < BEZOWIK_KEYWORDS / 2);
    random_trace(records, bytes);
    CHECK(result_of(records, bytes) == BEZOWIK_TRACE_TOO_LONG);
    CHECK(same(cost_in_parts(records, bytes, BEZOWIK_TRACE, 0, BEZOWIK_OVERLAP),
               cost_in_parts(records, bytes, BEZOWIK_TRACE / 3, 1, BEZOWIK_OVERLAP)));

    known = put_repetitions(BEZOWIK_LONGEST, bytes, 1000);
    CHECK(result_of(BEZOWIK_LONGEST, bytes) == BEZOWIK_TRACE_TOO_LONG);
    CHECK(same(cost_in_parts(BEZOWIK_LONGEST, bytes, BEZOWIK_TRACE, 0, BEZOWIK_OVERLAP), known));
    CHECK(same(cost_in_parts(BEZOWIK_LONGEST, bytes, BEZOWIK_TRACE / 3, 1, BEZOWIK_OVERLAP), known));
}

int main(int argc, char **argv)
{
    if (argc != 2) {
        fprintf(stderr, "usage: header VERSION\n");
        return 2;
    }
    CHECK(strcmp(BEZOWIK_VERSION, argv[1]) == 0);
    put_record();
    energy_bytes();
    messages();
    limits();
    buffers();
    largest_figures();
    cut_traces();
    long_traces();
    return failures != 0;
}
