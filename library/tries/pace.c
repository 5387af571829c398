/* How long the calls of a scan loop take over a script, and how much memory its machine has. The same play is made again and again: of
 * each call the shortest time counts, since what else the computer does isn't meant.
 *
 *     pace SCRIPT TIMES */
#define _GNU_SOURCE
#include "caa.h"
#include <malloc.h>
#include <stdio.h>
#include <stdlib.h>
#include <time.h>

static uint32_t *shortest;
static uint64_t calls, room;
static struct timespec begun;

static void begin(void) {
    clock_gettime(CLOCK_MONOTONIC, &begun);
}

/* Notes how long the call of this number in the play took. */
static void end(void) {
    struct timespec now;
    clock_gettime(CLOCK_MONOTONIC, &now);
    uint64_t took = (uint64_t)(now.tv_sec - begun.tv_sec) * 1000000000u + (uint64_t)now.tv_nsec - (uint64_t)begun.tv_nsec;
    if (calls == room) {
        room = 2 * room + 1024;
        shortest = realloc(shortest, room * sizeof *shortest);
        if (shortest == NULL) exit(3);
        for (uint64_t at = calls; at < room; at++) shortest[at] = UINT32_MAX;
    }
    if (took < shortest[calls]) shortest[calls] = (uint32_t)took;
    calls++;
}

/* Plays to the end. */
static void play(caa *machine, caa_counts *counts) {
    caa_step step;
    for (;;) {
        begin();
        caa_sizes(machine, counts);
        end();
        if (counts->complete) return;
        for (uint32_t by = 0; by < counts->participants; by++) {
            begin();
            caa_next(machine, by, &step);
            end();
            if (step.what == CAA_PUTS) {
                begin();
                caa_answer(machine, true);
                end();
            } else if (step.what == CAA_WORKS) {
                begin();
                caa_work_done(machine, by, step.ticket);
                end();
            }
        }
    }
}

/* Asks for all that is told of a journal. */
static void ask(caa *machine, const caa_counts *counts) {
    static uint8_t text[128];
    size_t length;
    int64_t first, now;
    for (uint64_t at = 0; at < counts->entries; at++) {
        begin();
        caa_line(machine, at, text, sizeof text, &length);
        end();
    }
    for (uint64_t at = 0; at < (uint64_t)counts->objects + counts->places; at++) {
        begin();
        caa_rest(machine, at, text, sizeof text, &length);
        end();
    }
    for (uint32_t at = 0; at < counts->objects; at++) {
        begin();
        caa_object(machine, at, &first, &now, text, sizeof text);
        end();
    }
    for (uint32_t at = 0; at < counts->places; at++) {
        begin();
        caa_outcome(machine, at);
        end();
    }
}

/* The longest of these calls, and how long one takes on the average. */
static void tell(const char *what, uint64_t from, uint64_t to) {
    uint64_t longest = 0, sum = 0;
    for (uint64_t at = from; at < to; at++) {
        sum += shortest[at];
        if (shortest[at] > longest) longest = shortest[at];
    }
    if (to > from) printf(", %s %.2f us (longest %.1f)", what, (double)sum / (double)(to - from) / 1000, (double)longest / 1000);
}

static size_t bytes_taken(void) {
    struct mallinfo2 now = mallinfo2();
    return now.uordblks + now.hblkhd;
}

int main(int words, char **word) {
    static uint8_t script[1 << 20], cause[32];
    caa machine = {0};
    caa_counts counts;
    uint32_t line;
    if (words < 3) return 2;
    FILE *from = fopen(word[1], "rb");
    if (from == NULL) return 2;
    size_t size = fread(script, 1, sizeof script, from);
    fclose(from);
    uint64_t played = 0;
    for (int time = 0; time < atoi(word[2]); time++) {
        size_t before = bytes_taken();
        if (caa_open(&machine, script, size, &line, cause, sizeof cause - 1) != CAA_DONE) return 4;
        size_t taken = bytes_taken() - before;
        calls = 0;
        play(&machine, &counts);
        played = calls;
        ask(&machine, &counts);
        caa_close(&machine);
        if (time == 0)
            printf("entries %llu of at most %llu, places %u, %llu calls, %.2f MB of memory", (unsigned long long)counts.entries,
                   (unsigned long long)counts.bound, counts.places, (unsigned long long)played, (double)taken / 1e6);
    }
    tell("first tenth", 0, played / 10);
    tell("last tenth", played - played / 10, played);
    tell("all", 0, played);
    tell("asking", played, calls);
    puts("");
    return 0;
}
