/* The session of document 01 through the C functions, and lines that it says further. Prints each reply as document 01
 * writes it; .ci/c_session compares them. Then the session again, as one batch. Then what only a C caller sees: the
 * lent numbers that a refusal leaves, the flag numbers, 8 with the holder's handle above it, a store that is not sound,
 * lists of calls and of views with too little room. Prints 'wrong: ..' for what fails. */
#include <inttypes.h>
#include <stdio.h>
#include <string.h>

#include "zohetiwa.h"

#define LENGTH 118
#define UNTOUCHED UINT64_C(0xabcdef)

static uint64_t words[LENGTH];
static uint64_t a, b, kind, tr, end, written, value;
static int wrong;

static void reset(void) { a = b = kind = tr = end = written = value = UNTOUCHED; }

static int untouched(void) {
    return a == UNTOUCHED && b == UNTOUCHED && kind == UNTOUCHED && tr == UNTOUCHED && end == UNTOUCHED &&
           written == UNTOUCHED && value == UNTOUCHED;
}

/* Prints a code that is not 0; says whether it was 0. */
static int granted(uint64_t code) {
    if (code == 0) return 1;
    if (code == ZOHETIWA_NOPOINT)
        puts("nopoint");
    else if (zohetiwa_refusal(code) == ZOHETIWA_HELD)
        printf("no 8 %" PRIu64 "\n", zohetiwa_holder(code));
    else
        printf("no %" PRIu64 "\n", code);
    return 0;
}

static void put_value(void) {
    if (written)
        printf(" %" PRIu64 "\n", value);
    else
        puts(" -");
}

static void ok(uint64_t code) {
    if (granted(code)) puts("ok");
}

static void one(const char *word, uint64_t code) {
    if (granted(code)) printf("%s %" PRIu64 "\n", word, a);
}

static void two(const char *word, uint64_t code) {
    if (granted(code)) printf("%s %" PRIu64 " %" PRIu64 "\n", word, a, b);
}

static void begin(void) { one("edit", zohetiwa_begin(words, LENGTH, &a)); }

static void read_up_to(uint64_t handle, uint64_t record, uint64_t m, uint64_t part) {
    if (!granted(zohetiwa_read(words, LENGTH, handle, record, m, part, &kind, &tr, &end, &written, &value))) return;
    if (kind == ZOHETIWA_NEW)
        printf("read %" PRIu64 " %" PRIu64, tr, end);
    else if (kind == ZOHETIWA_OWN)
        printf("own");
    else
        printf("again %" PRIu64, tr);
    put_value();
}

static void lock(uint64_t handle, uint64_t record, uint64_t low, uint64_t high, uint64_t part) {
    two("locked", zohetiwa_lock(words, LENGTH, handle, record, low, high, part, &a, &b));
}

static void view(uint64_t record, uint64_t p) {
    if (!granted(zohetiwa_view(words, LENGTH, record, p, &a, &written, &value))) return;
    printf("at %" PRIu64, a);
    put_value();
}

static void session(void) {
    ok(zohetiwa_format(words, LENGTH, 2, 2, 4, 8, 8));
    begin();
    begin();
    read_up_to(65, 0, 6, ZOHETIWA_ALL);
    lock(66, 0, 4, 9, ZOHETIWA_PART);
    ok(zohetiwa_write(words, LENGTH, 66, 0, 501));
    one("commit", zohetiwa_commit_earliest(words, LENGTH, 66, ZOHETIWA_SETTLE, &a));
    one("commit", zohetiwa_commit_latest(words, LENGTH, 65, ZOHETIWA_SETTLE, &a));
    begin();
    read_up_to(129, 0, 9, ZOHETIWA_ALL);
    lock(129, 0, 3, 3, ZOHETIWA_ALL);
    two("purged", zohetiwa_purge(words, LENGTH, 0, 8, &a, &b));
    read_up_to(65, 0, 6, ZOHETIWA_ALL);
}

/* What document 01 says further of lines on a fresh store and after the session. */
static void further(void) {
    view(0, 6);
    ok(zohetiwa_format(words, LENGTH, 2, 2, 4, 8, 8));
    view(0, 0);
    begin();
    one("commit", zohetiwa_commit_latest(words, LENGTH, 65, ZOHETIWA_SETTLE, &a));
    begin();
    ok(zohetiwa_write(words, LENGTH, 129, 0, 7));
    read_up_to(129, 0, 6, ZOHETIWA_ALL);
    one("commit", zohetiwa_commit_earliest(words, LENGTH, 129, ZOHETIWA_KEEP, &a));
    ok(zohetiwa_settle(words, LENGTH, 129));
    begin();
    begin();
    read_up_to(193, 0, 6, ZOHETIWA_ALL);
    read_up_to(193, 0, 9, ZOHETIWA_ALL);
    lock(66, 0, 4, 4, ZOHETIWA_ALL);
    one("commit", zohetiwa_commit_at(words, LENGTH, 193, 9, ZOHETIWA_SETTLE, &a));
    one("commit", zohetiwa_commit_at(words, LENGTH, 193, 5, ZOHETIWA_SETTLE, &a));
    ok(zohetiwa_abort(words, LENGTH, 66, ZOHETIWA_KEEP));
    ok(zohetiwa_write(words, LENGTH, 66, 0, 1));
    one("point", zohetiwa_point(1099511627775, 63, &a));
    one("point", zohetiwa_point(1099511627776, 0, &a));
}

/* The session again: Format, then its other calls as one list. */
static const uint64_t list[12][ZOHETIWA_CALL_WORDS] = {
    {ZOHETIWA_CALL_BEGIN},
    {ZOHETIWA_CALL_BEGIN},
    {ZOHETIWA_CALL_READ, 65, 0, 6, ZOHETIWA_ALL},
    {ZOHETIWA_CALL_LOCK, 66, 0, 4, 9, ZOHETIWA_PART},
    {ZOHETIWA_CALL_WRITE, 66, 0, 501},
    {ZOHETIWA_CALL_COMMIT_EARLIEST, 66, ZOHETIWA_SETTLE},
    {ZOHETIWA_CALL_COMMIT_LATEST, 65, ZOHETIWA_SETTLE},
    {ZOHETIWA_CALL_BEGIN},
    {ZOHETIWA_CALL_READ, 129, 0, 9, ZOHETIWA_ALL},
    {ZOHETIWA_CALL_LOCK, 129, 0, 3, 3, ZOHETIWA_ALL},
    {ZOHETIWA_CALL_PURGE, 0, 8},
    {ZOHETIWA_CALL_READ, 65, 0, 6, ZOHETIWA_ALL},
};

static void put_reply(uint64_t call, const uint64_t *reply) {
    a = reply[1];
    b = reply[2];
    if (call == ZOHETIWA_CALL_BEGIN)
        one("edit", reply[0]);
    else if (call == ZOHETIWA_CALL_WRITE)
        ok(reply[0]);
    else if (call == ZOHETIWA_CALL_LOCK)
        two("locked", reply[0]);
    else if (call == ZOHETIWA_CALL_PURGE)
        two("purged", reply[0]);
    else if (call != ZOHETIWA_CALL_READ)
        one("commit", reply[0]);
    else if (granted(reply[0])) {
        written = reply[4];
        value = reply[5];
        printf("read %" PRIu64 " %" PRIu64, reply[2], reply[3]);
        put_value();
    }
}

static void batch_session(void) {
    uint64_t replies[12][ZOHETIWA_REPLY_WORDS];
    ok(zohetiwa_format(words, LENGTH, 2, 2, 4, 8, 8));
    uint64_t done = zohetiwa_batch(words, LENGTH, list[0], sizeof list / 8, replies[0], sizeof replies / 8);
    for (uint64_t i = 0; i < done; i++) put_reply(list[i][0], replies[i]);
}

static void expect(const char *what, int holds) {
    if (holds) return;
    printf("wrong: %s\n", what);
    wrong = 1;
}

/* A refusal leaves the words and the lent numbers; any number but 0 is P and K. */
static void callers_own(void) {
    uint64_t before[LENGTH];
    zohetiwa_format(words, LENGTH, 2, 2, 4, 8, 8);
    zohetiwa_begin(words, LENGTH, &a);
    zohetiwa_begin(words, LENGTH, &a);
    reset();
    memcpy(before, words, sizeof words);
    expect("13", zohetiwa_begin(words, LENGTH, &a) == ZOHETIWA_NO_SLOT && untouched());
    expect("6", zohetiwa_lock(words, LENGTH, 65, 0, 9, 4, UINT64_MAX, &a, &b) == ZOHETIWA_BAD_POINT && untouched());
    expect("read refused", zohetiwa_read(words, LENGTH, 65, 2, 6, 0, &kind, &tr, &end, &written, &value) ==
                                   ZOHETIWA_NO_RECORD && untouched());
    expect("view refused", zohetiwa_view(words, LENGTH, 0, ZOHETIWA_LAST + 1, &a, &written, &value) ==
                                   ZOHETIWA_BAD_POINT && untouched());
    expect("purge refused", zohetiwa_purge(words, LENGTH, 0, UINT64_MAX, &a, &b) == ZOHETIWA_BAD_POINT && untouched());
    expect("commit refused", zohetiwa_commit_at(words, LENGTH, 65, 0, 0, &a) == ZOHETIWA_BAD_POINT && untouched());
    expect("16", zohetiwa_format(words, LENGTH - 1, 2, 2, 4, 8, 8) == ZOHETIWA_BAD_FORMAT);
    expect("no word changed", memcmp(before, words, sizeof words) == 0);
    expect("all of 4..9", zohetiwa_lock(words, LENGTH, 65, 0, 4, 9, 0, &a, &b) == 0 && a == 4 && b == 9);
    reset();
    expect("held by 65", zohetiwa_lock(words, LENGTH, 66, 0, 1, 6, 0, &a, &b) == 65 * 32 + 8 && untouched());
    expect("any number is P", zohetiwa_lock(words, LENGTH, 66, 0, 1, 6, UINT64_MAX, &a, &b) == 0 && a == 1 && b == 3);
    zohetiwa_write(words, LENGTH, 65, 1, 5);
    reset();
    expect("nopoint", zohetiwa_commit_earliest(words, LENGTH, 65, UINT64_MAX, &a) == ZOHETIWA_NOPOINT && untouched());
    expect("any number is K", zohetiwa_settle(words, LENGTH, 65) == 0);
    words[0] = 5000;
    expect("1", zohetiwa_begin(words, LENGTH, &a) == ZOHETIWA_UNSOUND && untouched());
    expect("1 of an empty array", zohetiwa_begin(words, 0, &a) == ZOHETIWA_UNSOUND && untouched());
}

static int all_are(const uint64_t *from, size_t count, uint64_t x) {
    for (size_t i = 0; i < count; i++)
        if (from[i] != x) return 0;
    return 1;
}

/* The kinds that the session does not have, room for fewer replies than calls, and a store that is not sound. */
static void batches_own(void) {
    static const uint64_t calls[8][ZOHETIWA_CALL_WORDS] = {
        {ZOHETIWA_CALL_BEGIN, 9, 9, 9, 9, 9},
        {ZOHETIWA_CALL_LOCK, 65, 1, 5, 8, ZOHETIWA_ALL},
        {ZOHETIWA_CALL_WRITE, 65, 1, 7},
        {ZOHETIWA_CALL_COMMIT_AT, 65, 6, ZOHETIWA_KEEP},
        {ZOHETIWA_CALL_SETTLE, 65},
        {UINT64_MAX, 1, ZOHETIWA_LAST},
        {ZOHETIWA_CALL_BEGIN},
        {ZOHETIWA_CALL_ABORT, 129, ZOHETIWA_SETTLE},
    };
    static const uint64_t told[6][ZOHETIWA_REPLY_WORDS] = {{0, 65}, {0, 5, 8}, {0}, {0, 6}, {0}, {0, 6, 1, 7}};
    static const uint64_t asks[3][ZOHETIWA_ASK_WORDS] = {{1, 6}, {1, 5}, {2, 6}};
    static const uint64_t shown[3][ZOHETIWA_SHOWN_WORDS] = {{0, 6, 1, 7}, {0}, {ZOHETIWA_NO_RECORD}};
    uint64_t replies[7 * ZOHETIWA_REPLY_WORDS], before[LENGTH];
    zohetiwa_format(words, LENGTH, 2, 2, 4, 8, 8);
    memset(replies, 255, sizeof replies);
    expect("room for 6", zohetiwa_batch(words, LENGTH, calls[0], sizeof calls / 8, replies, 41) == 6);
    expect("replies", memcmp(replies, told, sizeof told) == 0);
    expect("no word behind", all_are(replies + 36, 6, UINT64_MAX));
    expect("the next call was not done", zohetiwa_begin(words, LENGTH, &a) == 0 && a == 129);
    expect("one call and a part", zohetiwa_batch(words, LENGTH, calls[7], 11, replies, 42) == 1 && replies[0] == 0);
    memcpy(before, words, sizeof words);
    memset(replies, 255, sizeof replies);
    expect("views", zohetiwa_views(words, LENGTH, asks[0], 6, replies, 15) == 3);
    expect("shown", memcmp(replies, shown, sizeof shown) == 0 && all_are(replies + 12, 30, UINT64_MAX));
    expect("room for 2 views", zohetiwa_views(words, LENGTH, asks[0], 6, replies, 11) == 2);
    expect("asks for 1 view", zohetiwa_views(words, LENGTH, asks[0], 3, replies, 42) == 1);
    words[0] = before[0] = 5000;
    expect("all refused", zohetiwa_batch(words, LENGTH, calls[0], 12, replies, 42) == 2);
    expect("with 1", replies[0] == ZOHETIWA_UNSOUND && all_are(replies + 1, 5, 0) && replies[6] == ZOHETIWA_UNSOUND);
    expect("one view", zohetiwa_views(words, LENGTH, asks[0], 2, replies, 4) == 1);
    expect("refused too", replies[0] == ZOHETIWA_UNSOUND && all_are(replies + 1, 3, 0));
    expect("words stay", memcmp(before, words, sizeof words) == 0);
}

int main(void) {
    session();
    further();
    batch_session();
    callers_own();
    batches_own();
    return wrong;
}
