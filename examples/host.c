/* A small host: reads a keyword set and a trace and prints what the forward scan found.
 *
 *     host SET.bin TRACE.bin
 *
 * Prints at most the first 4,096 hits; or a refusal's number and place, and what it means on stderr. Exit status 0; 1
 * for a refusal; 2 for bad usage, or where a file cannot be read. */
#include "bezowik.h"

#include <stdio.h>
#include <stdlib.h>

/* The most hits that are printed. */
#define SHOWN 4096

/* The bytes of a file in fresh memory, and how many there are; null where it cannot be read whole. */
static uint8_t *load(const char *path, size_t *bytes)
{
    FILE *file = fopen(path, "rb");
    uint8_t *data = NULL;
    long size;

    *bytes = 0;
    if (!file)
        return NULL;
    if (fseek(file, 0, SEEK_END) == 0 && (size = ftell(file)) >= 0 && fseek(file, 0, SEEK_SET) == 0) {
        data = malloc((size_t)size + 1);
        /* one byte more is asked for than there must be */
        if (data)
            *bytes = fread(data, 1, (size_t)size + 1, file);
        if (ferror(file) || *bytes != (size_t)size) {
            free(data);
            data = NULL;
        }
    }
    fclose(file);
    return data;
}

int main(int argc, char **argv)
{
    static uint16_t workspace[BEZOWIK_WORKSPACE];
    static uint32_t hits[2 * SHOWN];
    uint8_t answer[BEZOWIK_ANSWER];
    uint8_t *set, *trace;
    size_t set_bytes, trace_bytes, shown, i;
    unsigned result;

    if (argc != 3) {
        fprintf(stderr, "usage: host SET.bin TRACE.bin\n");
        return 2;
    }
    set = load(argv[1], &set_bytes);
    trace = load(argv[2], &trace_bytes);
    if (!set || !trace) {
        fprintf(stderr, "host: %s cannot be read\n", set ? argv[2] : argv[1]);
        free(set);
        free(trace);
        return 2;
    }
    result = bezowik_forward(set, set_bytes, trace, trace_bytes, workspace, BEZOWIK_WORKSPACE, hits, 2 * SHOWN,
                             answer, sizeof answer);
    if (result != BEZOWIK_DONE) {
        printf("refusal %u %u\n", result, (unsigned)bezowik_place(answer));
        fprintf(stderr, "host: %s\n", bezowik_message(result));
    } else {
        printf("count %lu energy %llu questions %lu\n", (unsigned long)bezowik_count(answer),
               (unsigned long long)bezowik_energy(answer), (unsigned long)bezowik_questions(answer));
        shown = bezowik_count(answer) < SHOWN ? bezowik_count(answer) : SHOWN;
        for (i = 0; i < shown; i++)
            printf("%lu %lu\n", (unsigned long)hits[2 * i], (unsigned long)hits[2 * i + 1]);
    }
    free(set);
    free(trace);
    return result == BEZOWIK_DONE ? 0 : 1;
}
