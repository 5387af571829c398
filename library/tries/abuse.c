/* Calls in any order and with any numbers, also before the first opening and after closing. What was played up to then is printed as a
 * journal. Its status is 0 where each answer was one that the header names.
 *
 *     abuse SCRIPT SEED */
#include "caa.h"
#include <stdio.h>
#include <stdlib.h>
#include <string.h>

static uint64_t state;

/* A number below another, by chance. */
static uint64_t below(uint64_t most) {
    state = state * 6364136223846793005u + 1442695040888963407u;
    return (state >> 33) % most;
}

static uint32_t some_number(uint32_t likely) {
    return below(8) > 0 ? (uint32_t)below(likely) : (uint32_t)below(4000000000u);
}

/* Whether nothing is open, by each call. */
static bool is_closed(caa *machine) {
    caa_step step;
    caa_counts counts;
    int64_t first = 3, now = 4;
    uint8_t room[4] = {7, 7, 7, 7};
    size_t length = 9;
    return caa_next(machine, some_number(4), &step) == CAA_CLOSED && step.what == CAA_CLOSED && caa_answer(machine, true) == CAA_CLOSED
        && caa_work_done(machine, 0, 0) == CAA_CLOSED && caa_sizes(machine, &counts) == CAA_CLOSED
        && caa_participant(machine, 0, room, 4) == 0 && caa_object(machine, 0, &first, &now, room, 4) == 0
        && caa_outcome(machine, 0) == CAA_LASTS && caa_line(machine, 0, room, 4, &length) == CAA_CLOSED
        && caa_rest(machine, 0, room, 4, &length) == CAA_CLOSED && first == 3 && now == 4 && memcmp(room, "\7\7\7\7", 4) == 0;
}

int main(int words, char **word) {
    static uint8_t script[1 << 20], room[256];
    caa machine = {0};
    caa_step step = {0};
    caa_counts counts;
    uint32_t line;
    uint8_t cause[32];
    size_t length;
    uint64_t ticket = 0;
    if (words < 3) return 2;
    state = strtoull(word[2], NULL, 10);
    FILE *from = fopen(word[1], "rb");
    if (from == NULL) return 2;
    size_t size = fread(script, 1, sizeof script, from);
    fclose(from);
    if (!is_closed(&machine)) return 3;
    caa_close(&machine);
    if (caa_open(&machine, script, size, &line, cause, sizeof cause) != CAA_DONE) return 4;
    uint64_t calls = below(2) > 0 ? 20000 : below(1000);
    for (uint64_t call = 0; call < calls; call++) {
        switch (below(9)) {
        case 0: caa_answer(&machine, below(5) > 0); break;
        case 1: caa_work_done(&machine, some_number(8), below(3) > 0 ? ticket : some_number(64)); break;
        case 2: caa_line(&machine, some_number(2000), room, below(sizeof room), &length); break;
        case 3: caa_rest(&machine, some_number(64), room, below(sizeof room), &length); break;
        case 4: if (caa_outcome(&machine, some_number(64)) > CAA_FAILED) return 5; break;
        case 5: caa_participant(&machine, some_number(8), room, below(sizeof room)); break;
        default:
            if (caa_next(&machine, some_number(8), &step) != step.what || step.what < CAA_UNFIT) return 6;
            if (step.what == CAA_WORKS) ticket = step.ticket;
            if (step.what == CAA_PUTS && caa_answer(&machine, below(5) > 0) != CAA_DONE) return 7;
        }
    }
    if (caa_answer(&machine, true) == CAA_CLOSED || caa_answer(&machine, true) != CAA_UNFIT) return 8;
    if (caa_sizes(&machine, &counts) != CAA_DONE) return 9;
    puts("journal");
    for (uint64_t at = 0; caa_line(&machine, at, room, sizeof room, &length) == CAA_DONE; at++) fwrite(room, 1, length, stdout);
    for (uint64_t at = 0; caa_rest(&machine, at, room, sizeof room, &length) == CAA_DONE; at++) fwrite(room, 1, length, stdout);
    /* a refused script leaves what is open */
    uint64_t entries = counts.entries;
    memset(cause, 0, sizeof cause);
    if (caa_open(&machine, (const uint8_t *)"nonsense\n", 9, &line, cause, sizeof cause) != CAA_REFUSED || line != 1
        || memcmp(cause, "1 bad-line", 11) != 0 || caa_sizes(&machine, &counts) != CAA_DONE || counts.entries != entries) return 10;
    caa_close(&machine);
    caa_close(&machine);
    fprintf(stderr, "%s\n", counts.complete ? "complete" : "begun");
    return is_closed(&machine) ? 0 : 11;
}
