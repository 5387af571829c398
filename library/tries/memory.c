/* Each request for memory of an opening refused in turn, and then all that come after it: none may. Link it with
 * -Wl,--wrap=malloc,--wrap=realloc,--wrap=calloc.
 *
 *     memory SCRIPT */
#include "caa.h"
#include <stdio.h>
#include <stdlib.h>

static long asked, refused_at;

void *__real_malloc(size_t size);
void *__real_realloc(void *block, size_t size);
void *__real_calloc(size_t count, size_t size);
void *__wrap_malloc(size_t size);
void *__wrap_realloc(void *block, size_t size);
void *__wrap_calloc(size_t count, size_t size);

static bool is_refused(void) {
    return ++asked >= refused_at;
}

void *__wrap_malloc(size_t size) {
    return is_refused() ? NULL : __real_malloc(size);
}

void *__wrap_realloc(void *block, size_t size) {
    return is_refused() ? NULL : __real_realloc(block, size);
}

void *__wrap_calloc(size_t count, size_t size) {
    return is_refused() ? NULL : __real_calloc(count, size);
}

int main(int words, char **word) {
    static uint8_t script[1 << 20], room[128];
    caa machine = {0};
    caa_step step;
    caa_counts counts;
    uint32_t line;
    size_t length;
    long of_opening;
    if (words < 2) return 2;
    refused_at = 1L << 60;
    FILE *from = fopen(word[1], "rb");
    if (from == NULL) return 2;
    size_t size = fread(script, 1, sizeof script, from);
    fclose(from);
    for (refused_at = 1;; refused_at++) {
        asked = 0;
        uint32_t opened = caa_open(&machine, script, size, &line, room, sizeof room);
        if (opened == CAA_DONE) break;
        if (opened != CAA_NO_MEMORY || caa_sizes(&machine, &counts) != CAA_CLOSED) return 3;
    }
    of_opening = asked;
    for (caa_sizes(&machine, &counts); !counts.complete; caa_sizes(&machine, &counts))
        for (uint32_t by = 0; by < counts.participants; by++) {
            if (caa_next(&machine, by, &step) == CAA_WORKS) caa_work_done(&machine, by, step.ticket);
            if (step.what == CAA_PUTS) caa_answer(&machine, true);
        }
    for (uint64_t at = 0; at < counts.entries; at++)
        if (caa_line(&machine, at, room, sizeof room, &length) != CAA_DONE || length > sizeof room) return 4;
    for (uint64_t at = 0; at < (uint64_t)counts.objects + counts.places; at++)
        if (caa_rest(&machine, at, room, sizeof room, &length) != CAA_DONE || length > sizeof room) return 5;
    caa_close(&machine);
    printf("requests of the opening %ld, each refused once; behind it %ld\n", of_opening, asked - of_opening);
    return asked == of_opening ? 0 : 6;
}
