/* A scan loop, as a controller has: each scan asks each participant once. A put is the write of a register, which is done within the
 * scan. A work is a stroke: it takes four scans, and one more for each round up to 8. Strokes of several machines overlap.
 *
 *     scan SCRIPT [N]    prints the journal; where N is given, each N-th put is refused */
#include "caa.h"
#include <inttypes.h>
#include <stdio.h>
#include <stdlib.h>

#define MOST_PARTICIPANTS 64
#define MOST_OBJECTS 256
#define MOST_SCRIPT (1 << 20)
#define MOST_LINE 128
#define MOST_SCANS 1000000

/* The stroke that a participant is at, if it is at one. */
struct stroke {
    bool is_under_way;
    uint64_t ticket;
    uint32_t scans_left;
};

static int64_t registers[MOST_OBJECTS];
static struct stroke strokes[MOST_PARTICIPANTS];
static unsigned long refuse_each, puts_asked, most_at_once;

/* Brings a register to a value. Whether that was done. */
static bool put(uint32_t object, int64_t value) {
    if (refuse_each > 0 && ++puts_asked % refuse_each == 0) return false;
    registers[object] = value;
    return true;
}

/* Goes on with the stroke of this ticket for one scan: a new ticket is a new stroke, and ends whatever was under way. Whether it has
 * ended. */
static bool strike(struct stroke *stroke, const caa_step *step) {
    if (!stroke->is_under_way || stroke->ticket != step->ticket) {
        stroke->is_under_way = true;
        stroke->ticket = step->ticket;
        stroke->scans_left = 4 + (step->rounds > 8 ? 8 : step->rounds);
    }
    if (stroke->scans_left > 0) stroke->scans_left--;
    return stroke->scans_left == 0;
}

/* What a participant does in a scan. */
static void scan(caa *machine, uint32_t by) {
    caa_step step;
    struct stroke *stroke = &strokes[by];
    switch (caa_next(machine, by, &step)) {
    case CAA_PUTS:
        caa_answer(machine, put(step.object, step.value));
        stroke->is_under_way = false;
        break;
    case CAA_WORKS:
        if (strike(stroke, &step) && caa_work_done(machine, by, step.ticket) == CAA_DONE) stroke->is_under_way = false;
        break;
    default:
        stroke->is_under_way = false; /* it isn't at a work any more: a motion under way is to stop */
    }
}

/* Prints the lines of the entries from this one on, and gives how many there are by now. */
static uint64_t print_entries(caa *machine, uint64_t from) {
    uint8_t line[MOST_LINE];
    size_t length;
    while (caa_line(machine, from, line, sizeof line, &length) == CAA_DONE) {
        fwrite(line, 1, length, stdout);
        from++;
    }
    return from;
}

static void print_rest(caa *machine) {
    uint8_t line[MOST_LINE];
    size_t length;
    for (uint64_t at = 0; caa_rest(machine, at, line, sizeof line, &length) == CAA_DONE; at++) fwrite(line, 1, length, stdout);
}

/* Whether each register has the value that the journal tells. */
static bool agrees(caa *machine, uint32_t objects) {
    for (uint32_t object = 0; object < objects; object++) {
        int64_t first, now;
        uint8_t name[1];
        caa_object(machine, object, &first, &now, name, 0);
        if (now != registers[object]) return false;
    }
    return true;
}

static unsigned long strokes_under_way(uint32_t participants) {
    unsigned long count = 0;
    for (uint32_t by = 0; by < participants; by++) count += strokes[by].is_under_way;
    return count;
}

/* Reads a script. Gives its length, or 0. */
static size_t read_script(const char *file, uint8_t *script) {
    FILE *from = fopen(file, "rb");
    if (from == NULL) return 0;
    size_t length = fread(script, 1, MOST_SCRIPT, from);
    fclose(from);
    return length;
}

int main(int words, char **word) {
    static uint8_t script[MOST_SCRIPT];
    size_t length = words < 2 ? 0 : read_script(word[1], script);
    if (length == 0) {
        fprintf(stderr, "usage: scan SCRIPT [N]\n");
        return 2;
    }
    if (words > 2) refuse_each = strtoul(word[2], NULL, 10);
    caa machine = {0};
    uint32_t line;
    uint8_t cause[32] = {0};
    uint32_t opened = caa_open(&machine, script, length, &line, cause, sizeof cause - 1);
    if (opened != CAA_DONE) {
        if (opened == CAA_REFUSED) printf("refused line %" PRIu32 ": %s\n", line, (const char *)cause);
        return opened == CAA_REFUSED ? 4 : 8;
    }
    caa_counts counts;
    caa_sizes(&machine, &counts);
    for (uint32_t object = 0; object < counts.objects; object++) {
        int64_t now;
        uint8_t name[1];
        caa_object(&machine, object, &registers[object], &now, name, 0);
    }
    puts("journal");
    uint64_t told = 0;
    for (unsigned long scans = 0; !counts.complete; scans++) {
        if (scans == MOST_SCANS) return 7;
        for (uint32_t by = 0; by < counts.participants; by++) scan(&machine, by);
        unsigned long at_once = strokes_under_way(counts.participants);
        if (at_once > most_at_once) most_at_once = at_once;
        told = print_entries(&machine, told);
        caa_sizes(&machine, &counts);
    }
    print_rest(&machine);
    if (!agrees(&machine, counts.objects)) return 9;
    caa_close(&machine);
    fprintf(stderr, "entries %" PRIu64 ", strokes at once %lu\n", told, most_at_once);
    return 0;
}
