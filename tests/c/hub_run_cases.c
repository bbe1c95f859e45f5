// The cases of tests/cases held against hub_run: from a case's lines it takes the openings and the calls, and from its
// answers what they must give. Lines that are no frame, and openings of a hub that is open, are the program's business
// and are passed over. Usage: hub_run_cases CASE.in..
#include <stdint.h>
#include <stdio.h>
#include <stdlib.h>
#include <string.h>

uint8_t hub_run(const uint8_t *opening, size_t opening_len, const uint8_t *calls, size_t calls_len,
                uint8_t *out, size_t out_len);

enum { OPENED = 0x1F, MALFORMED = 12, NOT_NOW = 13, ANSWER = 7, MOST = 1 << 20 };

static int failures = 0;

static void failed(const char *name, const char *what) {
    printf("FAILED: %s: %s\n", name, what);
    failures++;
}

// The bytes that a line spells, either case of letter; a line of a case that is not 12 spells some.
static size_t bytes_of(const char *line, uint8_t *bytes) {
    size_t len = 0;
    for (unsigned byte; sscanf(line + 2 * len, "%2x", &byte) == 1; len++) bytes[len] = byte;
    return len;
}

// What lies in a file, with a 0 behind it.
static char *contents(const char *name) {
    FILE *file = fopen(name, "rb");
    char *text = calloc(1, MOST + 1);
    if (file == NULL || text == NULL || fread(text, 1, MOST, file) == MOST) {
        fprintf(stderr, "%s could not be read\n", name);
        exit(2);
    }
    fclose(file);
    return text;
}

// The line at *rest, cut off there; an empty one too.
static char *next_line(char **rest) {
    return strsep(rest, "\n");
}

static uint8_t opening[128], calls[MOST], expected[ANSWER * MOST / 2], out[ANSWER * MOST / 2];

// How many calls hub_run answered as the case says.
static size_t play(const char *name) {
    char out_name[512];
    snprintf(out_name, sizeof out_name, "%.*s.out", (int)strlen(name) - 3, name);
    char *lines = contents(name), *answers = contents(out_name);
    char *rest = lines, *told = answers, *line, *answer;
    size_t opening_len = 0, calls_len = 0, answered = 0;
    while ((line = next_line(&rest)) != NULL && (answer = next_line(&told)) != NULL) {
        uint8_t frame[128], reply[ANSWER];
        if (bytes_of(answer, reply) != ANSWER || reply[0] == 0x7E) break;
        if (reply[0] == MALFORMED || reply[0] == NOT_NOW) continue;
        size_t len = bytes_of(line, frame);
        if (reply[0] == OPENED) {
            memcpy(opening, frame, opening_len = len);
        } else if (opening_len == 0) { // an opening that is refused
            if (hub_run(frame, len, calls, 0, out, 0) != reply[0]) failed(name, line);
        } else {
            memcpy(calls + calls_len, frame, len);
            calls_len += len;
            memcpy(expected + ANSWER * answered++, reply, ANSWER);
        }
    }
    if (opening_len != 0) {
        size_t room = ANSWER * answered;
        if (hub_run(opening, opening_len, calls, calls_len, out, room) != 0) failed(name, "refused");
        for (size_t at = 0; at < answered; at++) {
            if (memcmp(out + ANSWER * at, expected + ANSWER * at, ANSWER) != 0) failed(name, "an answer");
        }
    }
    free(lines);
    free(answers);
    return answered;
}

int main(int words, char **names) {
    size_t answered = 0;
    for (int at = 1; at < words; at++) answered += play(names[at]);
    if (answered == 0) failed("no call", "was made");
    return failures != 0;
}
