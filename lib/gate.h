/* gate: the proved admission gate of a Bitcoin node's mempool, as a library. docs/LIBRARY.md says how to embed it.

   Each call but those that close answers by a status, and most put a text into a buffer `out` that has room for `room` bytes:
   `*size` is then the text's size, also where the buffer is too small for it, and 0 where there is no text. No pointer may be null,
   also where its size is 0, and none may overlap another. */
#ifndef GATE_H
#define GATE_H

#include <stdbool.h>
#include <stddef.h>
#include <stdint.h>

#ifdef __cplusplus
extern "C" {
#endif

/* A handle, which begins as `struct gate gate = GATE_CLOSED;`. Only the calls below read or write it. It serves one call at
   a time; any thread may make it, if a lock or the like orders the calls. A copy of an open handle is not a second one: so a handle is
   moved by a copy, after which the old one begins again as GATE_CLOSED. */
struct gate {
    struct {
        void *session;
    } slot;
    bool is_open;
};

/* What a line asks for, which begins as `struct gate_event event = GATE_CLOSED;`. It belongs to no handle. Only the calls below
   read or write it, one at a time, on any thread, and it is moved as a handle is. */
struct gate_event {
    struct {
        void *reading;
    } slot;
    bool is_open;
};

#define GATE_CLOSED { { NULL }, false }

/* The keys of the handle's hash tables. Draw both at random where peers choose transactions: with keys that they don't know
   they can't make ids collide. No reply depends on them. */
struct gate_keys {
    uint64_t first;
    uint64_t second;
};

enum gate_status {
    GATE_DONE = 0,
    GATE_DENIED = 1,            /* of gate_check: the transaction is denied, and `out` has its lines */
    GATE_BUFFER_TOO_SMALL = 2,  /* `out` is as it was, and `*size` is the size of the text */
    GATE_OUT_OF_MEMORY = 3,     /* nothing has changed */
    GATE_NOT_OPEN = 4,          /* the handle is closed, or the event is */
    GATE_ALREADY_OPEN = 5,      /* the handle is open */
    GATE_OPENING_REFUSED = 6,   /* the opening has a fault, and `out` has its line */
    GATE_LINE_TOO_LONG = 7,     /* the line has more than 16,777,216 bytes; nothing has changed */
    GATE_REPLY_KEPT = 8         /* the line is answered; memory ran out in the text of its reply, which gate_reply gives */
};

/* Opens a closed handle, from the lines that stand before `---` in the input of `gate run`. */
uint32_t gate_open(struct gate *gate, const struct gate_keys *keys, const uint8_t *opening, size_t opening_size,
                   uint8_t *out, size_t room, size_t *size);

/* Answers a line, which is given without its newline. The reply line in `out` has one; a line that is empty or a comment
   has no reply, and `*size` is 0. After GATE_BUFFER_TOO_SMALL the line is answered, and gate_reply gives the reply. */
uint32_t gate_answer(struct gate *gate, const uint8_t *line, size_t line_size, uint8_t *out, size_t room, size_t *size);

/* Gives the reply to the last line once more. */
uint32_t gate_reply(struct gate *gate, uint8_t *out, size_t room, size_t *size);

/* Gives what the last line moved in the pool: a line `- TXID` for each entry that left, and then a line `+ TXID` for each that
   came, both in order of admission. What left and came back by one line is in neither, and so is what came and left again.
   Nothing has moved, and `*size` is 0, in a handle that was opened or copied just now, and after a line that is no event or was
   not answered. This call changes nothing: after GATE_BUFFER_TOO_SMALL and GATE_OUT_OF_MEMORY it can be made again. */
uint32_t gate_changes(struct gate *gate, uint8_t *out, size_t room, size_t *size);

/* Lets a handle explain its lines from the next one on, which gets the number `line`, and each later one the next; 0 lets it
   explain none, as a handle does that was opened just now. No reply depends on it; a line that is explained takes more time. */
uint32_t gate_explain(struct gate *gate, uint64_t line);

/* Gives what is said of the reply to the last line: the object that `gate run --explain=json` says of it, with a newline. There is
   none, and `*size` is 0, where the handle didn't explain that line, for a line that was not answered, and for a reply that
   names no rule, but for an error of a call. This call changes nothing. After GATE_OUT_OF_MEMORY the line is answered all the same;
   memory ran out in what is said of it, which is lost. */
uint32_t gate_explanation(struct gate *gate, uint8_t *out, size_t room, size_t *size);

/* Closes a handle and frees what it holds. A closed one stays closed. */
void gate_close(struct gate *gate);

/* Opens a second handle, which is closed, with a copy of what the first one holds: the same state and the same last reply. Both answer
   alike from then on, and neither knows what the other is asked. It takes time and memory as the state is large; only
   transactions, which never change, are shared. What the last line moved, and what is said of it, is told by the first one alone;
   the copy explains its lines if the first one does, by the same numbers. */
uint32_t gate_copy(struct gate *gate, struct gate *copy);

/* Reads a line, which is given without its newline, into an event, in the place of what that holds. A transaction is decoded
   and hashed, and the rules on it alone are tested. This needs no handle, so threads may read at the same time. */
uint32_t gate_read(struct gate_event *event, const uint8_t *line, size_t line_size);

/* Answers an event as gate_answer answers the line that it was read from. The event stays open, so that it can be answered by
   another handle too. */
uint32_t gate_answer_event(struct gate *gate, struct gate_event *event, uint8_t *out, size_t room, size_t *size);

/* Closes an event and frees what it holds. A closed one stays closed. */
void gate_event_close(struct gate_event *event);

/* Checks by itself the transaction that a text of hexadecimal has, as `gate check -` does. */
uint32_t gate_check(const uint8_t *input, size_t input_size, uint8_t *out, size_t room, size_t *size);

/* Gives the version of the gate, without a newline. */
uint32_t gate_version(uint8_t *out, size_t room, size_t *size);

#ifdef __cplusplus
}
#endif

#endif
