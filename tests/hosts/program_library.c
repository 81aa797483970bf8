/* The calls of gate.h that gated makes, answered by the program: each handle runs PROGRAM as `gate run`, the installed one if the
   compiler is told no other. So a host of the library can be tried before that is proved and built. The other calls are there,
   and end the host. */
#define _GNU_SOURCE
#include "gate.h"

#include <fcntl.h>
#include <spawn.h>
#include <stdio.h>
#include <stdlib.h>
#include <string.h>
#include <sys/wait.h>
#include <unistd.h>

extern char **environ;

#ifndef PROGRAM
#define PROGRAM "/usr/local/bin/gate"
#endif

/* A line that is no event, and that is answered by the fault of the opening if that has one. */
static const char IS_OPEN[] = "is it open", NO_EVENT[] = "refused L1 bad-line\n";

struct session {
    pid_t program;
    FILE *lines, *replies;
    char *reply;
    size_t room, size;
};

static uint32_t put(uint32_t status, const struct session *session, uint8_t *out, size_t room, size_t *size) {
    *size = session->size;
    if (room < *size) return GATE_BUFFER_TOO_SMALL;
    if (*size) memcpy(out, session->reply, *size);
    return status;
}

/* Runs the program, with a pipe on either side that no other one gets. */
static struct session *started(void) {
    int lines[2], replies[2];
    if (pipe2(lines, O_CLOEXEC) || pipe2(replies, O_CLOEXEC)) abort();
    posix_spawn_file_actions_t actions;
    posix_spawn_file_actions_init(&actions);
    posix_spawn_file_actions_adddup2(&actions, lines[0], STDIN_FILENO);
    posix_spawn_file_actions_adddup2(&actions, replies[1], STDOUT_FILENO);
    struct session *session = calloc(1, sizeof *session);
    char *const words[] = {PROGRAM, "run", NULL};
    if (posix_spawn(&session->program, PROGRAM, &actions, NULL, words, environ)) abort();
    posix_spawn_file_actions_destroy(&actions);
    close(lines[0]);
    close(replies[1]);
    session->lines = fdopen(lines[1], "w");
    session->replies = fdopen(replies[0], "r");
    return session;
}

/* Puts a line to the program, and keeps its reply. */
static void ask(struct session *session, const void *line, size_t size) {
    fwrite(line, 1, size, session->lines);
    fputc('\n', session->lines);
    fflush(session->lines);
    const ssize_t length = getline(&session->reply, &session->room, session->replies);
    if (length < 0) abort();
    session->size = (size_t)length;
}

static void ended(struct session *session) {
    fclose(session->lines);
    fclose(session->replies);
    waitpid(session->program, NULL, 0);
    free(session->reply);
    free(session);
}

uint32_t gate_open(struct gate *gate, const struct gate_keys *keys, const uint8_t *opening, size_t opening_size, uint8_t *out, size_t room,
                   size_t *size) {
    (void)keys;
    *size = 0;
    if (gate->is_open) return GATE_ALREADY_OPEN;
    struct session *session = started();
    fwrite(opening, 1, opening_size, session->lines);
    fputs("---\n", session->lines);
    ask(session, IS_OPEN, strlen(IS_OPEN));
    if (strcmp(session->reply, NO_EVENT)) {
        const uint32_t status = put(GATE_OPENING_REFUSED, session, out, room, size);
        ended(session);
        return status;
    }
    session->size = 0;
    gate->slot.session = session;
    gate->is_open = true;
    return GATE_DONE;
}

uint32_t gate_reply(struct gate *gate, uint8_t *out, size_t room, size_t *size) {
    *size = 0;
    return gate->is_open ? put(GATE_DONE, gate->slot.session, out, room, size) : GATE_NOT_OPEN;
}

uint32_t gate_answer(struct gate *gate, const uint8_t *line, size_t line_size, uint8_t *out, size_t room, size_t *size) {
    *size = 0;
    if (!gate->is_open) return GATE_NOT_OPEN;
    struct session *session = gate->slot.session;
    if (line_size == 0 || line[0] == '#')
        session->size = 0;
    else
        ask(session, line, line_size);
    return put(GATE_DONE, session, out, room, size);
}

void gate_close(struct gate *gate) {
    if (gate->is_open) ended(gate->slot.session);
    *gate = (struct gate)GATE_CLOSED;
}

void gate_event_close(struct gate_event *event) { (void)event; }

#pragma GCC diagnostic ignored "-Wunused-parameter"
#define ENDS(call, ...) \
    uint32_t call(__VA_ARGS__) { abort(); }

ENDS(gate_changes, struct gate *gate, uint8_t *out, size_t room, size_t *size)
ENDS(gate_explain, struct gate *gate, uint64_t line)
ENDS(gate_explanation, struct gate *gate, uint8_t *out, size_t room, size_t *size)
ENDS(gate_copy, struct gate *gate, struct gate *copy)
ENDS(gate_read, struct gate_event *event, const uint8_t *line, size_t line_size)
ENDS(gate_answer_event, struct gate *gate, struct gate_event *event, uint8_t *out, size_t room, size_t *size)
ENDS(gate_check, const uint8_t *input, size_t input_size, uint8_t *out, size_t room, size_t *size)
ENDS(gate_version, uint8_t *out, size_t room, size_t *size)
