/* caa for hosts that speak C: the proved machine, stepped by a host that owns all input and output, all threads and the time.
 *
 *     caa machine = {0};
 *     caa_counts counts;
 *     caa_step step;
 *     ...
 *     if (caa_open(&machine, script, length, &line, cause, sizeof cause - 1) != CAA_DONE) ...
 *     for (caa_sizes(&machine, &counts); !counts.complete; caa_sizes(&machine, &counts))
 *         for (uint32_t by = 0; by < counts.participants; by++)
 *             switch (caa_next(&machine, by, &step)) {
 *             case CAA_PUTS:  caa_answer(&machine, write_register(step.object, step.value)); break;
 *             case CAA_WORKS: if (has_ended(by, &step)) caa_work_done(&machine, by, step.ticket); break;
 *             ...
 *             }
 *
 * Participants, objects and places are numbered from 0: the first two in the order of their lines in the script, places as in the journal.
 *
 * Every call may come in any order and with any numbers; what doesn't fit is answered so, and changes nothing. All memory is taken by
 * caa_open, and no call takes longer because the journal is long. docs/library.md tells what is proved, what is measured alone, as this
 * is, and what the host has to keep:
 *
 *   - a caa is all zero before its first call, and then only the library reads and writes it: it is never copied, but it
 *     may be moved, where what it was moved from is zero from then on or forgotten;
 *   - a caa is used by one thread alone, and not from a signal handler or the child of a fork;
 *   - no pointer is null, also where its length is 0; what two pointers of one call point to doesn't overlap; a bool is 0 or 1. */
#ifndef CAA_H
#define CAA_H
#include <stdbool.h>
#include <stddef.h>
#include <stdint.h>
#ifdef __cplusplus
extern "C" {
#endif

typedef struct caa {
    bool is_open;
    void *inside;
} caa;

/* What a call answers. */
enum caa_code {
    CAA_CLOSED = 0,    /* no machine is open */
    CAA_DONE = 1,      /* it was done */
    CAA_REFUSED = 2,   /* the script is refused */
    CAA_NO_MEMORY = 3, /* no memory was found */
    CAA_UNFIT = 4,     /* there is no such number, or nothing of that kind is next; nothing changed */
    /* caa_next alone: */
    CAA_DID = 5,       /* an entry of the participant was made */
    CAA_WORKS = 6,     /* it is at a work: tell its end by caa_work_done with the ticket */
    CAA_PUTS = 7,      /* bring the object to the value now, and then call caa_answer */
    CAA_BUSY = 8,      /* the same put or restore isn't answered yet; whoever is asked, nothing else is next. Don't do it again */
    CAA_WAITS = 9,     /* it waits for what is lacking */
    CAA_OVER = 10      /* it is through with its plays, or never had one */
};

/* What is lacking in the place where a participant waits. */
enum caa_lack {
    CAA_LACKS_ROLES = 1,    /* not all roles are in the place */
    CAA_LACKS_OBJECTS = 2,  /* the place round it doesn't hold all its objects */
    CAA_LACKS_HALTS = 3,    /* something was raised, and not all roles are halted */
    CAA_LACKS_VERDICTS = 4, /* not all roles have given their verdicts */
    CAA_LACKS_GIVE_UPS = 5, /* the place is doomed, and not all roles have given up */
    CAA_LACKS_OBJECT = 6    /* the place doesn't hold the object of the next step: a place inside does */
};

/* How a place ended. */
enum caa_outcome_code {
    CAA_LASTS = 0, /* not yet, or there is no such place */
    CAA_COMMIT = 1,
    CAA_SIGNAL = 2,
    CAA_UNDONE = 3,
    CAA_ABORTED = 4,
    CAA_FAILED = 5
};

/* What is next for a participant. What an answer doesn't say is 0. */
typedef struct caa_step {
    uint32_t what;   /* the answer, as caa_next gives it */
    uint32_t place;  /* of the entry, the work, the put or the wait */
    uint32_t object; /* of a put, or the one that is lacking */
    uint32_t rounds; /* of a work, as the script has them; how long it takes the host alone says */
    uint32_t lack;   /* what is lacking, by its number */
    int64_t value;   /* to which a put is to bring its object */
    uint64_t entry;  /* the number of the entry that was made, counted from 0 */
    uint64_t ticket; /* of a work; a later work of this participant, as that of a handler, has another */
    bool restores;   /* the put brings its object back, since an action is undone */
} caa_step;

/* How large the plan and the journal are. */
typedef struct caa_counts {
    uint32_t participants;
    uint32_t objects;
    uint32_t places;
    uint64_t bound;   /* the most entries that the journal can have */
    uint64_t entries; /* so far */
    bool complete;    /* each participant is through with its plays */
} caa_counts;

/* Opens a machine at the beginning of a script, and closes the one that was open. CAA_REFUSED: at *line, counted from 1 (0: the script
 * as a whole), and `cause` has the number and the word of the cause, as "12 cycle", as far as there is room: 31 bytes are enough for any.
 * No 0 is put behind it, so zero it before. CAA_NO_MEMORY: nothing is told of the script. At both, what was open still is. */
uint32_t caa_open(caa *machine, const uint8_t *script, size_t length, uint32_t *line, uint8_t *cause, size_t room);

/* Closes what is open, and gives its memory back. */
void caa_close(caa *machine);

/* Makes the entry that is next for a participant, or says what is to be done before, or why it has none. It answers step->what:
 * CAA_CLOSED, CAA_UNFIT (there is no such participant), or one of the six that are its alone. Ask in any order, and as often as you like. */
uint32_t caa_next(caa *machine, uint32_t participant, caa_step *step);

/* Says whether the put or restore that was asked for was done, and makes its entry, whose number is what `entries` was before. CAA_UNFIT:
 * none was asked for. */
uint32_t caa_answer(caa *machine, bool done);

/* Says that the work of this ticket is done, and makes its entry, whose number is what `entries` was before, in time in line with its
 * rounds (some milliseconds at most). CAA_UNFIT: a put isn't answered yet, so say it again behind its answer, or the participant isn't at
 * this work any more, as caa_next then says. */
uint32_t caa_work_done(caa *machine, uint32_t participant, uint64_t ticket);

/* CAA_CLOSED: *counts is as it was. */
uint32_t caa_sizes(caa *machine, caa_counts *counts);

/* The name of a participant or an object: its length, and as much of it as there is room for. 0: there is none of this number. */
size_t caa_participant(caa *machine, uint32_t participant, uint8_t *name, size_t room);

/* *first is the value before the first entry, to which the host brings the object before it asks for one, and *now that by the journal. */
size_t caa_object(caa *machine, uint32_t object, int64_t *first, int64_t *now, uint8_t *name, size_t room);

/* How a place ended, as enum caa_outcome_code. */
uint32_t caa_outcome(caa *machine, uint32_t place);

/* The line of an entry in the text of the journal, with its line feed: its *length, and as much of it as there is room for; 128 bytes
 * are enough for any. CAA_UNFIT: there is no such entry. CAA_CLOSED: *length isn't set. A journal's text is "journal\n", these lines, and
 * those of caa_rest. */
uint32_t caa_line(caa *machine, uint64_t entry, uint8_t *line, size_t room, size_t *length);

/* The same of the lines that stand behind those of the entries: one for each object, and then one for each place. */
uint32_t caa_rest(caa *machine, uint64_t number, uint8_t *line, size_t room, size_t *length);

#ifdef __cplusplus
}
#endif
#endif
