/* The ends of the interface: each status where it is due, and nothing changed there. Prints what isn't so. */
#include "gate.h"

#include <stdio.h>
#include <stdlib.h>
#include <string.h>

static int failed;

#define HOLDS(what) do { if (!(what)) { printf("line %d: not so: %s\n", __LINE__, #what); failed = 1; } } while (0)

enum { LIMIT = 16777216, ROOM = 256 };

static const uint8_t *bytes(const char *text) { return (const uint8_t *)text; }

static uint8_t out[ROOM];
static size_t size;

static int is_text(const char *wanted) { return size == strlen(wanted) && memcmp(out, wanted, size) == 0; }

static int is_untouched(void) {
    for (size_t at = 0; at < sizeof out; at++)
        if (out[at] != 0x55) return 0;
    return 1;
}

/* Fills the buffer and the size with what no call puts there. */
static void mark(void) {
    memset(out, 0x55, sizeof out);
    size = 12345;
}

static uint32_t answer(struct gate *gate, const char *line, size_t room) {
    mark();
    return gate_answer(gate, bytes(line), strlen(line), out, room, &size);
}

static uint32_t changes(struct gate *gate, size_t room) {
    mark();
    return gate_changes(gate, out, room, &size);
}

/* A transaction of 82 bytes that pays 1,000 satoshi, and one that replaces it and pays 2,000, with their txids. */
#define SPENDS "02000000010000000000000001000000000000000100000000000000010000000000000001" "0000000000fdffffff01"
#define PAYS "0000000000160014" "2222222222222222222222222222222222222222" "00000000"
#define FIRST "9a79b51068b9f1590818e911ed23344ec9d7856eec805212b3646aa6d2ed52f1"
#define SECOND "9f1367d4d60d678f1d5680a17f36c4d3ad36f6cd59c4a4df872365f28f7e0862"

/* What a line moved: told as often as it is asked, until another line comes; not by a copy; nothing by what is no event. */
static void moves(const struct gate_keys *keys, const char *longest) {
    const char *opening = "times 101 1000 600\nverdict * ok\n"
                          "coin 0100000000000000010000000000000001000000000000000100000000000000 0 100000 0 plain 0014" "2222222222222222222222222222222222222222\n";
    const char *first = "peer 1 tx 5000 " SPENDS "b88201" PAYS, *second = "peer 1 tx 5000 " SPENDS "d07e01" PAYS;
    const char *came = "+ " FIRST "\n", *replaced = "- " FIRST "\n+ " SECOND "\n";
    struct gate gate = GATE_CLOSED, copy = GATE_CLOSED;
    struct gate_event event = GATE_CLOSED;
    HOLDS(changes(&gate, ROOM) == GATE_NOT_OPEN && is_untouched() && size == 0 && !gate.is_open);
    HOLDS(gate_open(&gate, keys, bytes(opening), strlen(opening), out, ROOM, &size) == GATE_DONE);
    HOLDS(changes(&gate, ROOM) == GATE_DONE && is_untouched() && size == 0);
    HOLDS(answer(&gate, "peer 1 enter 192.0.2.1", ROOM) == GATE_DONE);
    HOLDS(changes(&gate, ROOM) == GATE_DONE && is_untouched() && size == 0);

    /* no room for the reply, nor for what moved, which is there all the same */
    HOLDS(answer(&gate, first, 0) == GATE_BUFFER_TOO_SMALL && is_untouched());
    HOLDS(changes(&gate, 66) == GATE_BUFFER_TOO_SMALL && is_untouched() && size == 67);
    HOLDS(changes(&gate, 67) == GATE_DONE && is_text(came) && out[67] == 0x55);
    mark();
    HOLDS(gate_reply(&gate, out, ROOM, &size) == GATE_DONE && is_text("admitted " FIRST " fee 1000 vsize 82 replaced 0\n"));
    HOLDS(changes(&gate, ROOM) == GATE_DONE && is_text(came));

    /* a copy, which has moved nothing, and the one that it is of, which tells its own; then each by itself, by a line and by an event */
    HOLDS(gate_copy(&gate, &copy) == GATE_DONE);
    HOLDS(changes(&copy, ROOM) == GATE_DONE && is_untouched() && size == 0);
    HOLDS(changes(&gate, ROOM) == GATE_DONE && is_text(came));
    HOLDS(gate_read(&event, bytes(second), strlen(second)) == GATE_DONE);
    HOLDS(gate_answer_event(&copy, &event, out, ROOM, &size) == GATE_DONE);
    HOLDS(changes(&copy, ROOM) == GATE_DONE && is_text(replaced));
    HOLDS(changes(&gate, ROOM) == GATE_DONE && is_text(came));
    HOLDS(answer(&gate, second, ROOM) == GATE_DONE);
    HOLDS(changes(&gate, ROOM) == GATE_DONE && is_text(replaced));

    /* an event that is closed changes nothing; one that is denied, a comment, an empty line and lines without a form moved nothing */
    gate_event_close(&event);
    HOLDS(gate_answer_event(&gate, &event, out, ROOM, &size) == GATE_NOT_OPEN);
    HOLDS(changes(&gate, ROOM) == GATE_DONE && is_text(replaced));
    const char *others[] = {second, "# a comment", "", "nonsense", longest, "peer 1 leave"};
    for (size_t at = 0; at < sizeof others / sizeof *others; at++) {
        struct gate next = GATE_CLOSED;
        HOLDS(gate_open(&next, keys, bytes(opening), strlen(opening), out, ROOM, &size) == GATE_DONE);
        HOLDS(answer(&next, "peer 1 enter 192.0.2.1", ROOM) == GATE_DONE && answer(&next, second, ROOM) == GATE_DONE);
        HOLDS(changes(&next, ROOM) == GATE_DONE && is_text("+ " SECOND "\n"));
        HOLDS(answer(&next, others[at], ROOM) == (others[at] == longest ? GATE_LINE_TOO_LONG : GATE_DONE));
        HOLDS(changes(&next, ROOM) == GATE_DONE && is_untouched() && size == 0);
        gate_close(&next);
    }
    gate_close(&gate);
    gate_close(&copy);
    HOLDS(changes(&gate, ROOM) == GATE_NOT_OPEN && is_untouched() && size == 0);
}

static uint32_t explanation(struct gate *gate, size_t room) {
    mark();
    return gate_explanation(gate, out, room, &size);
}

/* What is said of a line: nothing unless it is asked for, by the number that the lines have then, told as often as it is asked, until
   another line comes; not by a copy, which goes on with the number. Replies are the same with it. */
static void explanations(const struct gate_keys *keys, const char *longest) {
    const char *opening = "times 101 1000 600\nverdict * ok\n";
    const char *denied = "denied P3 keep peer-known\n", *enter = "peer 1 enter 192.0.2.1";
#define SAID(line) "{\"line\":" line ",\"rule\":\"P3\",\"token\":\"peer-known\",\"says\":\""
#define IS_SAID(line) (size > strlen(SAID(line)) && memcmp(out, SAID(line), strlen(SAID(line))) == 0 && out[size - 1] == '\n')
    struct gate gate = GATE_CLOSED, copy = GATE_CLOSED;
    struct gate_event event = GATE_CLOSED;
    HOLDS(gate_explain(&gate, 1) == GATE_NOT_OPEN && !gate.is_open);
    HOLDS(explanation(&gate, ROOM) == GATE_NOT_OPEN && is_untouched() && size == 0);
    HOLDS(gate_open(&gate, keys, bytes(opening), strlen(opening), out, ROOM, &size) == GATE_DONE);
    HOLDS(answer(&gate, enter, ROOM) == GATE_DONE && answer(&gate, enter, ROOM) == GATE_DONE && is_text(denied));
    HOLDS(explanation(&gate, ROOM) == GATE_DONE && is_untouched() && size == 0);

    /* from here on, by a line and by an event; with too little room, too */
    HOLDS(gate_explain(&gate, 7) == GATE_DONE && explanation(&gate, ROOM) == GATE_DONE && is_untouched() && size == 0);
    mark();
    HOLDS(gate_reply(&gate, out, ROOM, &size) == GATE_DONE && is_text(denied));
    HOLDS(answer(&gate, enter, ROOM) == GATE_DONE && is_text(denied));
    HOLDS(explanation(&gate, ROOM) == GATE_DONE && IS_SAID("7"));
    const size_t whole = size;
    HOLDS(explanation(&gate, whole - 1) == GATE_BUFFER_TOO_SMALL && is_untouched() && size == whole);
    HOLDS(explanation(&gate, whole) == GATE_DONE && IS_SAID("7") && out[whole] == 0x55);
    HOLDS(gate_read(&event, bytes(enter), strlen(enter)) == GATE_DONE);
    HOLDS(gate_answer_event(&gate, &event, out, ROOM, &size) == GATE_DONE && is_text(denied));
    HOLDS(explanation(&gate, ROOM) == GATE_DONE && IS_SAID("8"));
    HOLDS(gate_copy(&gate, &copy) == GATE_DONE && explanation(&copy, ROOM) == GATE_DONE && is_untouched() && size == 0);
    HOLDS(explanation(&gate, ROOM) == GATE_DONE && IS_SAID("8"));
    HOLDS(answer(&copy, enter, ROOM) == GATE_DONE && explanation(&copy, ROOM) == GATE_DONE && IS_SAID("9"));

    /* of these nothing is said, and they count */
    const char *others[] = {"# a comment", "", "nonsense", longest, "peer 2 leave", "peer 2 enter 192.0.2.2"};
    for (size_t at = 0; at < sizeof others / sizeof *others; at++) {
        HOLDS(answer(&gate, others[at], ROOM) == (others[at] == longest ? GATE_LINE_TOO_LONG : GATE_DONE));
        if (at == 4) HOLDS(explanation(&gate, ROOM) == GATE_DONE && size > 0 && memcmp(out, "{\"line\":13,\"rule\":\"P1\"", 22) == 0);
        else HOLDS(explanation(&gate, ROOM) == GATE_DONE && is_untouched() && size == 0);
    }
    HOLDS(answer(&gate, enter, ROOM) == GATE_DONE && explanation(&gate, ROOM) == GATE_DONE && IS_SAID("15"));

    /* no longer */
    HOLDS(gate_explain(&gate, 0) == GATE_DONE && explanation(&gate, ROOM) == GATE_DONE && is_untouched() && size == 0);
    HOLDS(answer(&gate, enter, ROOM) == GATE_DONE && explanation(&gate, ROOM) == GATE_DONE && is_untouched() && size == 0);
    HOLDS(gate_explain(&gate, UINT64_MAX) == GATE_DONE);
    for (int times = 0; times < 2; times++)
        HOLDS(answer(&gate, enter, ROOM) == GATE_DONE && explanation(&gate, ROOM) == GATE_DONE && IS_SAID("18446744073709551615"));
    gate_event_close(&event);
    gate_close(&gate);
    gate_close(&copy);
}

int main(void) {
    const struct gate_keys keys = {3, 4};
    const char *opening = "budget 100000\ntimes 101 1000 600\nverdict * ok\nbloom 1\n";
    struct gate gate = GATE_CLOSED;

    /* closed */
    HOLDS(answer(&gate, "peer 1 mempool", ROOM) == GATE_NOT_OPEN && is_untouched() && size == 0);
    mark();
    HOLDS(gate_reply(&gate, out, ROOM, &size) == GATE_NOT_OPEN && is_untouched() && size == 0);
    gate_close(&gate);
    HOLDS(!gate.is_open);

    /* an opening with a fault */
    mark();
    HOLDS(gate_open(&gate, &keys, bytes("nonsense\n"), 9, out, ROOM, &size) == GATE_OPENING_REFUSED);
    HOLDS(is_text("opening 1 bad-line\n") && !gate.is_open);
    mark();
    HOLDS(gate_open(&gate, &keys, bytes("nonsense\n"), 9, out, 18, &size) == GATE_BUFFER_TOO_SMALL);
    HOLDS(is_untouched() && size == 19 && !gate.is_open);

    /* open, and open again */
    mark();
    HOLDS(gate_open(&gate, &keys, bytes(opening), strlen(opening), out, ROOM, &size) == GATE_DONE);
    HOLDS(is_untouched() && size == 0 && gate.is_open);
    mark();
    HOLDS(gate_reply(&gate, out, ROOM, &size) == GATE_DONE && is_untouched() && size == 0);
    HOLDS(answer(&gate, "peer 1 enter 192.0.2.1", ROOM) == GATE_DONE && is_text("entered none\n"));
    mark();
    HOLDS(gate_open(&gate, &keys, bytes(opening), strlen(opening), out, ROOM, &size) == GATE_ALREADY_OPEN);
    HOLDS(is_untouched() && size == 0 && gate.is_open);
    HOLDS(answer(&gate, "peer 1 enter 192.0.2.1", ROOM) == GATE_DONE && is_text("denied P3 keep peer-known\n"));

    /* lines without a reply, and without a form */
    HOLDS(answer(&gate, "# a comment", ROOM) == GATE_DONE && is_untouched() && size == 0);
    HOLDS(answer(&gate, "", ROOM) == GATE_DONE && is_untouched() && size == 0);
    HOLDS(answer(&gate, "nonsense", ROOM) == GATE_DONE && is_text("refused L1 bad-line\n"));
    HOLDS(answer(&gate, "peer 1 mempool\npeer 1 mempool", ROOM) == GATE_DONE && is_text("refused L1 bad-line\n"));

    /* a buffer of exactly the size, and one byte less: the line is answered, and the reply stays */
    HOLDS(answer(&gate, "peer 2 enter 192.0.2.2", 13) == GATE_DONE && is_text("entered none\n") && out[13] == 0x55);
    HOLDS(answer(&gate, "peer 3 enter 192.0.2.3", 12) == GATE_BUFFER_TOO_SMALL && is_untouched() && size == 13);
    mark();
    HOLDS(gate_reply(&gate, out, 12, &size) == GATE_BUFFER_TOO_SMALL && is_untouched() && size == 13);
    mark();
    HOLDS(gate_reply(&gate, out, ROOM, &size) == GATE_DONE && is_text("entered none\n"));
    HOLDS(answer(&gate, "peer 3 enter 192.0.2.3", ROOM) == GATE_DONE && is_text("denied P3 keep peer-known\n"));

    /* a line at the limit, and one past it: the last reply stays */
    char *longest = malloc(LIMIT + 2);
    memset(longest, 'x', LIMIT + 1);
    longest[LIMIT + 1] = 0;
    moves(&keys, longest);
    explanations(&keys, longest);
    HOLDS(answer(&gate, longest, ROOM) == GATE_LINE_TOO_LONG && is_untouched() && size == 0);
    mark();
    HOLDS(gate_reply(&gate, out, ROOM, &size) == GATE_DONE && is_text("denied P3 keep peer-known\n"));
    longest[LIMIT] = 0;
    HOLDS(answer(&gate, longest, ROOM) == GATE_DONE && is_text("refused L1 bad-line\n"));
    free(longest);

    /* another handle knows nothing of this one */
    struct gate other = GATE_CLOSED;
    HOLDS(gate_open(&other, &keys, bytes(opening), strlen(opening), out, ROOM, &size) == GATE_DONE);
    HOLDS(answer(&other, "peer 1 enter 192.0.2.1", ROOM) == GATE_DONE && is_text("entered none\n"));
    gate_close(&other);

    /* copies: the same last reply and the same state, and each by itself from then on */
    struct gate copy = GATE_CLOSED, none = GATE_CLOSED;
    HOLDS(gate_copy(&none, &copy) == GATE_NOT_OPEN && !none.is_open && !copy.is_open);
    HOLDS(answer(&gate, "peer 7 enter 192.0.2.7", ROOM) == GATE_DONE && is_text("entered none\n"));
    HOLDS(gate_copy(&gate, &copy) == GATE_DONE && gate.is_open && copy.is_open);
    HOLDS(gate_copy(&gate, &copy) == GATE_ALREADY_OPEN && gate_copy(&none, &copy) == GATE_ALREADY_OPEN);
    mark();
    HOLDS(gate_reply(&copy, out, ROOM, &size) == GATE_DONE && is_text("entered none\n"));
    HOLDS(answer(&copy, "peer 7 enter 192.0.2.7", ROOM) == GATE_DONE && is_text("denied P3 keep peer-known\n"));
    HOLDS(answer(&copy, "peer 8 enter 192.0.2.8", ROOM) == GATE_DONE && is_text("entered none\n"));
    mark();
    HOLDS(gate_reply(&gate, out, ROOM, &size) == GATE_DONE && is_text("entered none\n"));
    HOLDS(answer(&gate, "peer 8 enter 192.0.2.8", ROOM) == GATE_DONE && is_text("entered none\n"));

    /* events: closed, read, answered by two handles, read again, and a line that is too long */
    struct gate_event event = GATE_CLOSED;
    mark();
    HOLDS(gate_answer_event(&gate, &event, out, ROOM, &size) == GATE_NOT_OPEN && is_untouched() && size == 0);
    gate_event_close(&event);
    HOLDS(gate_read(&event, bytes("peer 9 enter 192.0.2.9"), 22) == GATE_DONE && event.is_open);
    mark();
    HOLDS(gate_answer_event(&none, &event, out, ROOM, &size) == GATE_NOT_OPEN && is_untouched() && size == 0 && event.is_open);
    HOLDS(gate_answer_event(&copy, &event, out, ROOM, &size) == GATE_DONE && is_text("entered none\n") && event.is_open);
    mark();
    HOLDS(gate_answer_event(&gate, &event, out, 12, &size) == GATE_BUFFER_TOO_SMALL && is_untouched() && size == 13);
    HOLDS(gate_answer_event(&gate, &event, out, ROOM, &size) == GATE_DONE && is_text("denied P3 keep peer-known\n"));
    HOLDS(gate_read(&event, bytes("# a comment"), 11) == GATE_DONE);
    mark();
    HOLDS(gate_answer_event(&gate, &event, out, ROOM, &size) == GATE_DONE && is_untouched() && size == 0);
    HOLDS(gate_read(&event, bytes("nonsense"), 8) == GATE_DONE);
    HOLDS(gate_answer_event(&gate, &event, out, ROOM, &size) == GATE_DONE && is_text("refused L1 bad-line\n"));
    char *long_line = malloc(LIMIT + 1);
    memset(long_line, 'x', LIMIT + 1);
    HOLDS(gate_read(&event, bytes(long_line), LIMIT + 1) == GATE_LINE_TOO_LONG && event.is_open);
    HOLDS(gate_answer_event(&gate, &event, out, ROOM, &size) == GATE_DONE && is_text("refused L1 bad-line\n"));
    free(long_line);
    gate_event_close(&event);
    HOLDS(!event.is_open);
    gate_event_close(&event);
    gate_close(&copy);

    /* closed twice, and opened again */
    gate_close(&gate);
    HOLDS(!gate.is_open && answer(&gate, "peer 1 mempool", ROOM) == GATE_NOT_OPEN);
    gate_close(&gate);
    HOLDS(gate_open(&gate, &keys, bytes(opening), strlen(opening), out, ROOM, &size) == GATE_DONE);
    HOLDS(answer(&gate, "peer 1 enter 192.0.2.1", ROOM) == GATE_DONE && is_text("entered none\n"));
    gate_close(&gate);

    /* checks */
    mark();
    HOLDS(gate_check(bytes("zz"), 2, out, ROOM, &size) == GATE_DENIED && is_text("denied A1 tx-decode\n"));
    mark();
    HOLDS(gate_check(bytes("zz"), 2, out, 3, &size) == GATE_BUFFER_TOO_SMALL && is_untouched() && size == 20);
    return failed;
}
