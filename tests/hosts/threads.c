/* `gate run` by the library with several threads: they read lines at the same time, and hold one lock while they answer.

   The variable THREADS has their number, 4 if it is not set. A thread takes the next lines, reads them into events, and answers these
   when all lines before them are answered. Other words than `run` go to the program that the variable GATE names. If the variable
   CHANGES is set, what stands behind the reply to a line is what the line moved, and a line `=`. */
#include "gate.h"

#include <pthread.h>
#include <stdio.h>
#include <stdlib.h>
#include <string.h>
#include <unistd.h>

enum { LINES = 64, THREADS = 64, ROOM = 1 << 16 };

/* What the threads share, under the lock. */
static pthread_mutex_t lock = PTHREAD_MUTEX_INITIALIZER;
static pthread_cond_t answered = PTHREAD_COND_INITIALIZER;
static struct gate gate = GATE_CLOSED;
static uint8_t out[ROOM];
static const uint8_t *next, *end;  /* the lines that no thread has taken */
static size_t taken, turn;         /* how many times lines were taken, and how many of these are answered */
static int fault;

/* The lines that a thread has taken, and what they ask for. */
struct block {
    size_t number, count;
    const uint8_t *lines[LINES];
    size_t sizes[LINES];
    struct gate_event events[LINES];
    uint32_t statuses[LINES];
};

static uint8_t *read_all(size_t *size) {
    size_t held = 1 << 16, got;
    uint8_t *text = malloc(held);
    for (*size = 0; (got = fread(text + *size, 1, held - *size, stdin)) != 0;) {
        *size += got;
        if (*size == held) text = realloc(text, held *= 2);
    }
    return text;
}

static const uint8_t *end_of_line(const uint8_t *at, const uint8_t *to) {
    const uint8_t *newline = memchr(at, '\n', (size_t)(to - at));
    return newline ? newline : to;
}

/* What stands behind the line `---`. */
static const uint8_t *behind_opening(const uint8_t *text, const uint8_t *to) {
    for (const uint8_t *at = text, *stop; at < to; at = stop + 1) {
        stop = end_of_line(at, to);
        if (stop - at == 3 && memcmp(at, "---", 3) == 0) return stop < to ? stop + 1 : to;
    }
    return to;
}

/* Takes the next lines; none if there are no more, or if something failed. */
static int take(struct block *block) {
    block->count = 0;
    pthread_mutex_lock(&lock);
    if (!fault) {
        block->number = taken;
        for (; next < end && block->count < LINES; block->count++) {
            const uint8_t *stop = end_of_line(next, end);
            block->lines[block->count] = next;
            block->sizes[block->count] = (size_t)(stop - next);
            next = stop < end ? stop + 1 : end;
        }
        if (block->count > 0) taken++;
    }
    pthread_mutex_unlock(&lock);
    return block->count > 0;
}

typedef uint32_t call(struct gate *asked, uint8_t *to, size_t room, size_t *size);

/* Prints the text that a call put into the buffer, or, if that had no room, the text that another call gives. */
static uint32_t print(uint32_t status, size_t size, call *again) {
    if (status != GATE_BUFFER_TOO_SMALL) {
        fwrite(out, 1, size, stdout);
        return status;
    }
    uint8_t *greater = malloc(size);
    status = again(&gate, greater, size, &size);
    fwrite(greater, 1, size, stdout);
    free(greater);
    return status;
}

/* Prints the reply to an event. The lock is held. */
static uint32_t answer(struct gate_event *event) {
    size_t size = 0;
    uint32_t status = gate_answer_event(&gate, event, out, sizeof out, &size);
    status = print(status, size, gate_reply);
    if (status != GATE_DONE || !getenv("CHANGES")) return status;
    status = gate_changes(&gate, out, sizeof out, &size);
    status = print(status, size, gate_changes);
    fputs("=\n", stdout);
    return status;
}

/* Answers what was read, in its turn. */
static void answer_block(struct block *block) {
    pthread_mutex_lock(&lock);
    while (turn != block->number) pthread_cond_wait(&answered, &lock);
    for (size_t at = 0; at < block->count && !fault; at++) {
        uint32_t status = block->statuses[at];
        if (status == GATE_DONE) status = answer(&block->events[at]);
        if (status == GATE_LINE_TOO_LONG) fputs("refused L2 line-too-long\n", stdout);
        fault = status != GATE_DONE;
    }
    turn++;
    pthread_cond_broadcast(&answered);
    pthread_mutex_unlock(&lock);
}

static void *work(void *unused) {
    struct block *block = calloc(1, sizeof *block);
    while (take(block)) {
        for (size_t at = 0; at < block->count; at++)
            block->statuses[at] = gate_read(&block->events[at], block->lines[at], block->sizes[at]);
        answer_block(block);
    }
    for (size_t at = 0; at < LINES; at++) gate_event_close(&block->events[at]);
    free(block);
    return unused;
}

static int run(unsigned long wanted) {
    if (wanted < 1 || wanted > THREADS) return 99;
    size_t size = 0, written = 0;
    uint8_t *text = read_all(&size);
    end = text + size;
    next = behind_opening(text, end);
    const struct gate_keys keys = {0x0123456789abcdef + size, 0xfedcba9876543210};
    const uint32_t status = gate_open(&gate, &keys, text, (size_t)(next - text), out, sizeof out, &written);
    if (status == GATE_OPENING_REFUSED) fwrite(out, 1, written, stdout);
    if (status != GATE_DONE) {
        free(text);
        return status == GATE_OPENING_REFUSED ? 2 : 90;
    }
    pthread_t threads[THREADS];
    unsigned long started = 0;
    while (started < wanted && pthread_create(&threads[started], NULL, work, NULL) == 0) started++;
    for (unsigned long at = 0; at < started; at++) pthread_join(threads[at], NULL);
    gate_close(&gate);
    free(text);
    return started == wanted ? 0 : 98;
}

int main(int count, char **words) {
    const char *threads = getenv("THREADS");
    if (count == 2 && strcmp(words[1], "run") == 0) return run(threads ? strtoul(threads, NULL, 10) : 4);
    if (getenv("GATE")) execv(getenv("GATE"), words);
    return 99;
}
