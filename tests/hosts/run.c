/* `gate run`, `gate check -` and `gate --version`, as `version`, by the library. Other words go to the program that the variable GATE names.

   The variable ROOM has the bytes of the buffer, from 1; every reply without room comes by gate_reply. If the variable CHANGES is set,
   what stands behind the reply to a line is what the line moved, and a line `=`. If EXPLAIN is set, what is said of each reply goes to
   standard error, by the numbers of the lines in the input. */
#include "gate.h"

#include <stdio.h>
#include <stdlib.h>
#include <string.h>
#include <unistd.h>

enum { LINES = 1000000 };

static uint8_t *out;
static size_t room;

static uint8_t *read_all(size_t *size) {
    size_t held = 1 << 16, got;
    uint8_t *text = malloc(held);
    for (*size = 0; (got = fread(text + *size, 1, held - *size, stdin)) != 0;) {
        *size += got;
        if (*size == held) text = realloc(text, held *= 2);
    }
    return text;
}

static uint8_t *end_of_line(uint8_t *at, uint8_t *end) {
    uint8_t *newline = memchr(at, '\n', (size_t)(end - at));
    return newline ? newline : end;
}

/* What stands behind the line `---`. */
static uint8_t *behind_opening(uint8_t *text, uint8_t *end) {
    for (uint8_t *at = text, *stop; at < end; at = stop + 1) {
        stop = end_of_line(at, end);
        if (stop - at == 3 && memcmp(at, "---", 3) == 0) return stop < end ? stop + 1 : end;
    }
    return end;
}

typedef uint32_t call(struct gate *gate, uint8_t *to, size_t has_room, size_t *size);

/* Writes the text that a call put into the buffer, or, if that had no room, the text that another call gives. */
static uint32_t write_to(FILE *to, struct gate *gate, uint32_t status, size_t size, call *again) {
    if (status != GATE_BUFFER_TOO_SMALL) {
        fwrite(out, 1, size, to);
        return status;
    }
    uint8_t *greater = malloc(size);
    size_t told = 0;
    status = again(gate, greater, size, &told);
    if (status == GATE_DONE && told == size) fwrite(greater, 1, size, to);
    free(greater);
    return told == size ? status : GATE_BUFFER_TOO_SMALL;
}

static uint32_t print(struct gate *gate, uint32_t status, size_t size, call *again) { return write_to(stdout, gate, status, size, again); }

/* How many lines end before this place. */
static uint64_t lines_before(const uint8_t *text, const uint8_t *end) {
    uint64_t lines = 0;
    for (; text < end; text++) lines += *text == '\n';
    return lines;
}

/* Writes to standard error what is said of the last reply. */
static uint32_t write_explanation(struct gate *gate) {
    size_t size = 0;
    const uint32_t status = gate_explanation(gate, out, room, &size);
    return write_to(stderr, gate, status, size, gate_explanation);
}

/* Prints what the last line moved. */
static uint32_t print_changes(struct gate *gate) {
    size_t size = 0;
    uint32_t status = gate_changes(gate, out, room, &size);
    status = print(gate, status, size, gate_changes);
    fputs("=\n", stdout);
    return status;
}

static int run(void) {
    size_t size, written = 0;
    uint8_t *text = read_all(&size), *end = text + size, *events = behind_opening(text, end);
    const struct gate_keys keys = {0x0123456789abcdef + size, 0xfedcba9876543210};
    struct gate gate = GATE_CLOSED;
    uint8_t line[64];
    uint32_t status = gate_open(&gate, &keys, text, (size_t)(events - text), line, sizeof line, &written);
    if (status == GATE_OPENING_REFUSED) {
        fwrite(line, 1, written, stdout);
        free(text);
        return 2;
    }
    if (status != GATE_DONE || written != 0) return 90;
    const int explains = getenv("EXPLAIN") != NULL;
    if (explains && gate_explain(&gate, lines_before(text, events) + 1) != GATE_DONE) return 92;
    long lines = 0;
    for (uint8_t *at = events, *stop; at < end; at = stop + 1) {
        stop = end_of_line(at, end);
        if (lines++ == LINES) {
            fputs("refused L3 too-many-lines\n", stdout);
            break;
        }
        status = gate_answer(&gate, at, (size_t)(stop - at), out, room, &written);
        if (status == GATE_LINE_TOO_LONG) {
            fputs("refused L2 line-too-long\n", stdout);
            break;
        }
        status = print(&gate, status, written, gate_reply);
        if (status == GATE_DONE && getenv("CHANGES")) status = print_changes(&gate);
        if (status == GATE_DONE && explains) status = write_explanation(&gate);
        if (status != GATE_DONE) return 91;
    }
    gate_close(&gate);
    free(text);
    return 0;
}

static int check(void) {
    size_t size, written = 0;
    uint8_t *text = read_all(&size), lines[512];
    uint32_t status = gate_check(text, size, lines, sizeof lines, &written);
    fwrite(lines, 1, written, stdout);
    free(text);
    return (int)status;
}

static int version(void) {
    uint8_t text[64];
    size_t size = 0;
    uint32_t status = gate_version(text, sizeof text, &size);
    printf("gate %.*s\n", (int)size, (const char *)text);
    return (int)status;
}

int main(int count, char **words) {
    const char *wanted = getenv("ROOM");
    room = wanted ? strtoul(wanted, NULL, 10) : 1 << 16;
    out = malloc(room);
    int status = 99;
    if (count == 2 && strcmp(words[1], "run") == 0) status = run();
    else if (count == 3 && strcmp(words[1], "check") == 0 && strcmp(words[2], "-") == 0) status = check();
    else if (count == 2 && strcmp(words[1], "version") == 0) status = version();
    else if (getenv("GATE")) execv(getenv("GATE"), words);
    free(out);
    return status;
}
