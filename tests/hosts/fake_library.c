/* The calls of gate.h without a gate, for tests of what embeds them: a line is its own reply.

   `end S` ends with status S, and nothing changes. `keep TEXT` is answered by TEXT, which only gate_reply gives. A line that is
   empty or begins with # asks for nothing. The opening `refuse` is refused, and `end S` ends with status S too. So does reading
   `fail S` into an event, and copying a handle whose last reply is `fail S`, or asking it for changes or what is said. What a line
   moved is its reply, with newlines for its semicolons: nothing in a copy, and after a line that ends with a status. What is said
   of a line that begins with `denied` is its number and its size; of others nothing. */
#include "gate.h"

#include <inttypes.h>
#include <stdio.h>
#include <stdlib.h>
#include <string.h>

struct session {
    uint8_t *reply;
    size_t size;
    bool has_moved;
    uint64_t next, said; /* the number of the next line, and of the last one if something is said of it; or 0 */
};

static size_t open_handles;

/* How many handles and events are open. */
size_t fake_open_handles(void) { return open_handles; }

static uint32_t put(uint32_t status, const void *text, size_t length, uint8_t *out, size_t room, size_t *size) {
    *size = length;
    if (room < length) return GATE_BUFFER_TOO_SMALL;
    memcpy(out, text, length);
    return status;
}

static uint32_t put_text(uint32_t status, const char *text, uint8_t *out, size_t room, size_t *size) {
    return put(status, text, strlen(text), out, room, size);
}

static int begins(const uint8_t *line, size_t size, const char *word) {
    return size >= strlen(word) && memcmp(line, word, strlen(word)) == 0;
}

/* The status behind the word `end` or `fail`, which is one of one digit or two. */
static uint32_t status_behind(const uint8_t *line, size_t size) {
    uint32_t status = 0;
    for (size_t at = begins(line, size, "fail ") ? strlen("fail ") : strlen("end "); at < size && line[at] >= '0' && line[at] <= '9'; at++) status = 10 * status + (uint32_t)(line[at] - '0');
    return status;
}

uint32_t gate_open(struct gate *gate, const struct gate_keys *keys, const uint8_t *opening, size_t opening_size, uint8_t *out, size_t room,
                   size_t *size) {
    (void)keys;
    *size = 0;
    if (gate->is_open) return GATE_ALREADY_OPEN;
    if (begins(opening, opening_size, "end ")) return status_behind(opening, opening_size);
    if (begins(opening, opening_size, "refuse")) return put_text(GATE_OPENING_REFUSED, "opening 1 bad-line\n", out, room, size);
    gate->slot.session = calloc(1, sizeof(struct session));
    gate->is_open = true;
    open_handles++;
    return GATE_DONE;
}

uint32_t gate_reply(struct gate *gate, uint8_t *out, size_t room, size_t *size) {
    *size = 0;
    if (!gate->is_open) return GATE_NOT_OPEN;
    const struct session *session = gate->slot.session;
    return put(GATE_DONE, session->reply ? session->reply : (const uint8_t *)"", session->size, out, room, size);
}

uint32_t gate_changes(struct gate *gate, uint8_t *out, size_t room, size_t *size) {
    *size = 0;
    if (!gate->is_open) return GATE_NOT_OPEN;
    const struct session *session = gate->slot.session;
    if (begins(session->reply, session->size, "fail ")) return status_behind(session->reply, session->size);
    if (!session->has_moved) return GATE_DONE;
    const uint32_t status = gate_reply(gate, out, room, size);
    for (size_t at = 0; status == GATE_DONE && at < *size; at++)
        if (out[at] == ';') out[at] = '\n';
    return status;
}

uint32_t gate_answer(struct gate *gate, const uint8_t *line, size_t line_size, uint8_t *out, size_t room, size_t *size) {
    *size = 0;
    if (!gate->is_open) return GATE_NOT_OPEN;
    struct session *session = gate->slot.session;
    session->has_moved = !begins(line, line_size, "end ");
    session->said = begins(line, line_size, "denied") ? session->next : 0;
    session->next += session->next > 0;
    if (!session->has_moved) return status_behind(line, line_size);
    const int is_kept = begins(line, line_size, "keep "), is_silent = line_size == 0 || line[0] == '#';
    const size_t from = is_kept ? strlen("keep ") : 0, length = is_silent ? 0 : line_size - from + 1;
    free(session->reply);
    session->reply = malloc(length + 1);
    session->size = length;
    if (length) {
        memcpy(session->reply, line + from, length - 1);
        session->reply[length - 1] = '\n';
    }
    return is_kept ? GATE_REPLY_KEPT : gate_reply(gate, out, room, size);
}

uint32_t gate_explain(struct gate *gate, uint64_t line) {
    if (!gate->is_open) return GATE_NOT_OPEN;
    struct session *session = gate->slot.session;
    session->next = line;
    session->said = 0;
    return GATE_DONE;
}

uint32_t gate_explanation(struct gate *gate, uint8_t *out, size_t room, size_t *size) {
    *size = 0;
    if (!gate->is_open) return GATE_NOT_OPEN;
    const struct session *session = gate->slot.session;
    if (begins(session->reply, session->size, "fail ")) return status_behind(session->reply, session->size);
    if (session->said == 0) return GATE_DONE;
    char text[600];
    snprintf(text, sizeof text, "{\"line\":%" PRIu64 ",\"size\":%zu,\"padding\":\"%0500d\"}\n", session->said, session->size, 0);
    return put_text(GATE_DONE, text, out, room, size);
}

void gate_close(struct gate *gate) {
    if (!gate->is_open) return;
    struct session *session = gate->slot.session;
    free(session->reply);
    free(session);
    *gate = (struct gate)GATE_CLOSED;
    open_handles--;
}

uint32_t gate_copy(struct gate *gate, struct gate *copy) {
    if (copy->is_open) return GATE_ALREADY_OPEN;
    if (!gate->is_open) return GATE_NOT_OPEN;
    const struct session *session = gate->slot.session;
    if (begins(session->reply, session->size, "fail ")) return status_behind(session->reply, session->size);
    struct session *made = calloc(1, sizeof *made);
    made->size = session->size;
    made->next = session->next;
    made->reply = malloc(session->size + 1);
    if (session->size) memcpy(made->reply, session->reply, session->size);
    copy->slot.session = made;
    copy->is_open = true;
    open_handles++;
    return GATE_DONE;
}

void gate_event_close(struct gate_event *event) {
    if (!event->is_open) return;
    struct session *line = event->slot.reading;
    free(line->reply);
    free(line);
    *event = (struct gate_event)GATE_CLOSED;
    open_handles--;
}

uint32_t gate_read(struct gate_event *event, const uint8_t *line, size_t line_size) {
    if (begins(line, line_size, "fail ")) return status_behind(line, line_size);
    gate_event_close(event);
    struct session *held = calloc(1, sizeof *held);
    held->size = line_size;
    held->reply = malloc(line_size + 1);
    memcpy(held->reply, line, line_size);
    event->slot.reading = held;
    event->is_open = true;
    open_handles++;
    return GATE_DONE;
}

uint32_t gate_answer_event(struct gate *gate, struct gate_event *event, uint8_t *out, size_t room, size_t *size) {
    *size = 0;
    if (!event->is_open) return GATE_NOT_OPEN;
    const struct session *line = event->slot.reading;
    return gate_answer(gate, line->reply, line->size, out, room, size);
}

uint32_t gate_check(const uint8_t *input, size_t input_size, uint8_t *out, size_t room, size_t *size) {
    *size = 0;
    if (begins(input, input_size, "end ")) return status_behind(input, input_size);
    if (begins(input, input_size, "00")) return put(GATE_DONE, input, input_size, out, room, size);
    return put_text(GATE_DENIED, "denied A1 tx-decode\n", out, room, size);
}

uint32_t gate_version(uint8_t *out, size_t room, size_t *size) { return put_text(GATE_DONE, "0.0.0", out, room, size); }
