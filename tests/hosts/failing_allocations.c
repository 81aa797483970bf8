/* Fails each allocation in turn, in the opening, in the lines of a file, of which each second one is read before it is answered, in what
   each line moved, and in a copy of the handle: the call says so, nothing is lost, and asked again it gives what it gives undisturbed.
   Lines are explained: what is said of one is lost where an allocation fails in it, or lacks figures, and the reply is there all the same.
   Linked with --wrap of malloc, realloc and free. */
#define _GNU_SOURCE
#include "gate.h"

#include <stdio.h>
#include <stdlib.h>
#include <string.h>

void *__real_malloc(size_t size);
void *__real_realloc(void *block, size_t size);
void __real_free(void *block);

static long until = -1, blocks;

static int fails(void) { return until > 0 && --until == 0; }

void *__wrap_malloc(size_t size) {
    void *block = fails() ? NULL : __real_malloc(size);
    blocks += block != NULL;
    return block;
}

void *__wrap_realloc(void *block, size_t size) {
    void *moved = fails() ? NULL : __real_realloc(block, size);
    blocks += block == NULL && moved != NULL;
    return moved;
}

void __wrap_free(void *block) {
    blocks -= block != NULL;
    __real_free(block);
}

enum { ROOM = 1 << 20, LINES = 10000 };

/* Texts one behind another, as the run in which nothing fails has them, and where each of them ends. */
struct texts {
    uint8_t bytes[ROOM];
    size_t ends[LINES];
};

static uint8_t text[ROOM], out[ROOM];
static struct texts replies, moves, sayings;
static long opened, unread, unmade, kept, untold, unsaid, uncopied;

/* Whether what was put into the buffer is the text of this line. The run in which nothing fails notes it. */
static int is_undisturbed(struct texts *texts, long number, long line, size_t size) {
    const size_t from = line > 0 ? texts->ends[line - 1] : 0;
    if (number == 0) {
        memcpy(texts->bytes + from, out, size);
        texts->ends[line] = from + size;
    }
    return texts->ends[line] - from == size && memcmp(texts->bytes + from, out, size) == 0;
}

/* Answers a line, or an event in its place. */
static uint32_t answer(struct gate *gate, struct gate_event *event, int is_read, const uint8_t *line, size_t length, size_t *size) {
    return is_read ? gate_answer_event(gate, event, out, sizeof out, size) : gate_answer(gate, line, length, out, sizeof out, size);
}

#define HOLDS(what) do { if (!(what)) { printf("allocation %ld: not so: %s\n", number, #what); return 0; } } while (0)

/* Whether all is well where this allocation fails, or none where the number is 0. */
static int holds(long number, uint8_t *events, uint8_t *end) {
    const struct gate_keys keys = {1, 2};
    struct gate gate = GATE_CLOSED, copy = GATE_CLOSED;
    struct gate_event event = GATE_CLOSED;
    size_t size = 0;
    long line = 0;
    blocks = 0;
    until = number;
    uint32_t status = gate_open(&gate, &keys, text, (size_t)(events - text), out, sizeof out, &size);
    if (status == GATE_OUT_OF_MEMORY) {
        opened++;
        HOLDS(!gate.is_open && blocks == 0 && size == 0);
        status = gate_open(&gate, &keys, text, (size_t)(events - text), out, sizeof out, &size);
    }
    HOLDS(status == GATE_DONE && gate.is_open && gate_explain(&gate, 1) == GATE_DONE);
    for (uint8_t *at = events, *stop; at < end; at = stop + 1) {
        stop = memchr(at, '\n', (size_t)(end - at));
        if (stop == NULL) stop = end;
        const int is_read = line % 2 == 1;
        if (is_read) {
            const bool was_open = event.is_open;
            status = gate_read(&event, at, (size_t)(stop - at));
            if (status == GATE_OUT_OF_MEMORY) {
                unread++;
                HOLDS(event.is_open == was_open);
                status = gate_read(&event, at, (size_t)(stop - at));
            }
            HOLDS(status == GATE_DONE && event.is_open);
        }
        long left = until;
        status = answer(&gate, &event, is_read, at, (size_t)(stop - at), &size);
        if (status == GATE_OUT_OF_MEMORY) {
            unmade++;
            HOLDS(gate.is_open && size == 0 && (!is_read || event.is_open));
            HOLDS(gate_changes(&gate, out, sizeof out, &size) == GATE_DONE && size == 0);
            HOLDS(gate_explanation(&gate, out, sizeof out, &size) == GATE_DONE && size == 0);
            /* the line counted, and is asked again */
            HOLDS(gate_explain(&gate, (uint64_t)line + 1) == GATE_DONE);
            left = until;
            status = answer(&gate, &event, is_read, at, (size_t)(stop - at), &size);
        } else if (status == GATE_REPLY_KEPT) {
            kept++;
            HOLDS(gate.is_open && size == 0);
            status = gate_reply(&gate, out, sizeof out, &size);
        }
        const bool has_failed = left > 0 && until == 0;
        HOLDS(status == GATE_DONE && is_undisturbed(&replies, number, line, size));
        status = gate_explanation(&gate, out, sizeof out, &size);
        if (status == GATE_OUT_OF_MEMORY) {
            unsaid++;
            HOLDS(has_failed && size == 0 && gate_explanation(&gate, out, sizeof out, &size) == GATE_OUT_OF_MEMORY);
        } else {
            HOLDS(status == GATE_DONE && (has_failed || is_undisturbed(&sayings, number, line, size)));
        }
        status = gate_changes(&gate, out, sizeof out, &size);
        if (status == GATE_OUT_OF_MEMORY) {
            untold++;
            HOLDS(gate.is_open && size == 0);
            status = gate_changes(&gate, out, sizeof out, &size);
        }
        HOLDS(status == GATE_DONE && is_undisturbed(&moves, number, line, size));
        line++;
    }
    status = gate_copy(&gate, &copy);
    if (status == GATE_OUT_OF_MEMORY) {
        uncopied++;
        HOLDS(gate.is_open && !copy.is_open);
        status = gate_copy(&gate, &copy);
    }
    HOLDS(status == GATE_DONE && gate.is_open && copy.is_open);
    gate_event_close(&event);
    gate_close(&gate);
    HOLDS(gate_changes(&copy, out, sizeof out, &size) == GATE_DONE && size == 0);
    status = gate_reply(&copy, out, sizeof out, &size);
    if (status == GATE_REPLY_KEPT) status = gate_reply(&copy, out, sizeof out, &size);
    HOLDS(status == GATE_DONE && (line == 0 || is_undisturbed(&replies, number, line - 1, size)));
    gate_close(&copy);
    HOLDS(!gate.is_open && !event.is_open && !copy.is_open && blocks == 0);
    return 1;
}

int main(int count, char **words) {
    FILE *file = count == 2 ? fopen(words[1], "rb") : NULL;
    if (file == NULL) return 2;
    size_t size = fread(text, 1, sizeof text, file);
    fclose(file);
    uint8_t *events = memmem(text, size, "---\n", 4), *end = text + size;
    if (events == NULL) return 2;
    events += 4;
    long number = 0;
    for (until = 0; until == 0; number++)
        if (!holds(number, events, end)) return 1;
    /* the last one was not met */
    printf("%ld allocations: %ld in the opening, %ld in reading, %ld before a step, %ld behind one, %ld in what a line moved, %ld in what is said, %ld in a copy\n",
           number - 2, opened, unread, unmade, kept, untold, unsaid, uncopied);
    return opened > 0 && unread > 0 && unmade > 0 && uncopied > 0 ? 0 : 1;
}
