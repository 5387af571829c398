/* A device for caa_bridge, in C or C++ and in a header alone: say how an object is moved, and serve.
 *
 *     #include "caa_device.h"
 *
 *     static enum caa_answer put(void *machine, const char *name, long long value, int back) {
 *         return plc_write(machine, name, value) ? CAA_WELL : CAA_FAILED;
 *     }
 *     static void safe(void *machine) { plc_write(machine, "drives", 0); }
 *
 *     int main(void) {
 *         struct caa_device device = { &plc, put, safe };
 *         return caa_serve(&device, stdin, stdout);
 *     }
 *
 * The program writes a line for each command, and awaits one answer to each (docs/embedding.md, "A device that speaks lines"). Where the
 * machine is lost this device gives no answer and leaves, so that the program says once that the link broke, and asks nothing more. */
#ifndef CAA_DEVICE_H
#define CAA_DEVICE_H

#include <errno.h>
#include <signal.h>
#include <stdio.h>
#include <stdlib.h>
#include <string.h>

/* The bytes of the longest command: a `lay` of 256 objects, with its end. */
#define CAA_LINE 12296

enum caa_answer {
    CAA_WELL,   /* the machine did what it was asked */
    CAA_FAILED, /* it refused, and goes on */
    CAA_LOST    /* it can't be reached any longer, so nobody knows what it did */
};

struct caa_device {
    void *machine; /* what the calls below are given */
    /* Brings an object to a value; `back` is 1 where an action that is undone brings it back. */
    enum caa_answer (*put)(void *machine, const char *name, long long value, int back);
    /* Takes the machine to its safe state: on `stop`, at the end of the commands, and where it is lost. */
    void (*safe)(void *machine);
};

/* The number that a word is, of which nothing may be left. Whether it is one. */
static int caa_number(const char *word, long long *number) {
    char *end;
    if (word == NULL || *word == '\0') return 0;
    errno = 0;
    *number = strtoll(word, &end, 10);
    return *end == '\0' && errno == 0;
}

/* Does what the words of a command ask for; for `lay`, one object after another. */
static enum caa_answer caa_done(const struct caa_device *device, int back) {
    const char *name;
    long long value;
    while ((name = strtok(NULL, " ")) != NULL) {
        enum caa_answer answer;
        if (!caa_number(strtok(NULL, " "), &value)) return CAA_LOST;
        answer = device->put(device->machine, name, value, back);
        if (answer != CAA_WELL) return answer;
    }
    return CAA_WELL;
}

/* Answers one command. Whether to go on. */
static int caa_answer_line(const struct caa_device *device, char *line, FILE *answers, int *status) {
    const char *verb = strtok(line, " ");
    long long number;
    enum caa_answer answer;
    if (verb == NULL || strcmp(verb, "stop") == 0) return 0;
    *status = 1;
    if (!caa_number(strtok(NULL, " "), &number)) return 0;
    answer = caa_done(device, strcmp(verb, "restore") == 0);
    if (answer == CAA_LOST) return 0;
    if (fprintf(answers, "%s %lld\n", answer == CAA_WELL ? "well" : "failed", number) < 0 || fflush(answers) != 0) return 0;
    *status = 0;
    return 1;
}

/* Answers each command until `stop` or the end of the commands, takes the machine to its safe state, and gives the exit status: 0, or 1
 * where the machine was lost, the answers couldn't be written, or a command was none. SIGPIPE is ignored from here on. */
static int caa_serve(const struct caa_device *device, FILE *commands, FILE *answers) {
    char line[CAA_LINE];
    int status = 0, goes_on = 1;
    signal(SIGPIPE, SIG_IGN);
    while (goes_on && fgets(line, sizeof line, commands) != NULL) {
        char *end = strchr(line, '\n');
        if (end == NULL) break; /* the commands ended within a line */
        *end = '\0';
        goes_on = caa_answer_line(device, line, answers, &status);
    }
    device->safe(device->machine);
    return status;
}

#endif
