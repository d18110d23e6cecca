/* A session in C: zohetiwa_open, then every zohetiwa_in_*, granted and refused; a session opened again after public
 * calls, joined lock rows, words that are not sound, and a session without an index. Each call is also made by its
 * public function on a second array, and must tell the same and leave what looks the same; a refused one changes no
 * word. Prints each reply, a word with all numbers that the call has set, or the refusal; .ci/c_session compares them.
 * Prints 'wrong: ..' for what fails. */
#include <inttypes.h>
#include <stdio.h>
#include <string.h>

#include "zohetiwa.h"

#define LENGTH 118
#define UNTOUCHED UINT64_C(0xabcdef)
#define NUMBERS 5

static uint64_t words[LENGTH], twin[LENGTH], before[LENGTH];
static uint16_t index_numbers[ZOHETIWA_INDEX], untouched_numbers[ZOHETIWA_INDEX];
static size_t index_length = ZOHETIWA_INDEX;
static int wrong;

/* The numbers lent to the call in the session, and to the public one. */
static uint64_t n[NUMBERS], t[NUMBERS];

/* What every zohetiwa_in_* but zohetiwa_in_view is lent first. */
#define OPENED words, LENGTH, index_numbers, index_length
#define TWIN twin, LENGTH

static void expect(const char *what, int holds) {
    if (holds) return;
    printf("wrong: %s\n", what);
    wrong = 1;
}

/* Before each call. */
static void reset(void) {
    for (int i = 0; i < NUMBERS; i++) n[i] = t[i] = UNTOUCHED;
    memcpy(before, words, sizeof words);
}

/* The two arrays are sound, and show the same at every point that is used here. */
static int alike(void) {
    uint64_t a[3] = {0}, b[3] = {0};
    for (uint64_t record = 0; record < 2; record++)
        for (uint64_t p = 0; p < 12; p++) {
            uint64_t code = zohetiwa_view(words, LENGTH, record, p, &a[0], &a[1], &a[2]);
            uint64_t twin_code = zohetiwa_view(twin, LENGTH, record, p, &b[0], &b[1], &b[2]);
            if (code == ZOHETIWA_UNSOUND || code != twin_code || memcmp(a, b, sizeof a) != 0) return 0;
        }
    return 1;
}

/* Both calls have told the same and left the same; prints `word` and the first `count` numbers, or why not. */
static void told(const char *word, int count, uint64_t code, uint64_t public_code) {
    expect("the same code", code == public_code);
    expect("the same numbers", memcmp(n, t, sizeof n) == 0);
    expect("the same to look at", alike());
    if (code != 0 && code != ZOHETIWA_NOPOINT)
        expect("a refusal changes no word", memcmp(words, before, sizeof words) == 0);
    if (code == ZOHETIWA_NOPOINT)
        printf("nopoint");
    else if (zohetiwa_refusal(code) == ZOHETIWA_HELD)
        printf("no 8 %" PRIu64, zohetiwa_holder(code));
    else if (code != 0)
        printf("no %" PRIu64, code);
    else
        printf("%s", word);
    for (int i = 0; i < count && code == 0; i++) printf(" %" PRIu64, n[i]);
    for (int i = code == 0 ? count : 0; i < NUMBERS; i++) expect("numbers untouched", n[i] == UNTOUCHED);
    putchar('\n');
    reset();
}

static void begin(void) { told("edit", 1, zohetiwa_in_begin(OPENED, &n[0]), zohetiwa_begin(TWIN, &t[0])); }

static void write_value(uint64_t handle, uint64_t record, uint64_t value) {
    told("ok", 0, zohetiwa_in_write(OPENED, handle, record, value), zohetiwa_write(TWIN, handle, record, value));
}

static void lock(uint64_t handle, uint64_t record, uint64_t low, uint64_t high, uint64_t part) {
    told("locked", 2, zohetiwa_in_lock(OPENED, handle, record, low, high, part, &n[0], &n[1]),
         zohetiwa_lock(TWIN, handle, record, low, high, part, &t[0], &t[1]));
}

static void read_up_to(uint64_t handle, uint64_t record, uint64_t m, uint64_t part) {
    told("read", 5, zohetiwa_in_read(OPENED, handle, record, m, part, &n[0], &n[1], &n[2], &n[3], &n[4]),
         zohetiwa_read(TWIN, handle, record, m, part, &t[0], &t[1], &t[2], &t[3], &t[4]));
}

static void commit_earliest(uint64_t handle, uint64_t keep) {
    told("commit", 1, zohetiwa_in_commit_earliest(OPENED, handle, keep, &n[0]),
         zohetiwa_commit_earliest(TWIN, handle, keep, &t[0]));
}

static void commit_latest(uint64_t handle, uint64_t keep) {
    told("commit", 1, zohetiwa_in_commit_latest(OPENED, handle, keep, &n[0]),
         zohetiwa_commit_latest(TWIN, handle, keep, &t[0]));
}

static void commit_at(uint64_t handle, uint64_t at, uint64_t keep) {
    told("commit", 1, zohetiwa_in_commit_at(OPENED, handle, at, keep, &n[0]),
         zohetiwa_commit_at(TWIN, handle, at, keep, &t[0]));
}

static void abort_edit(uint64_t handle, uint64_t keep) {
    told("ok", 0, zohetiwa_in_abort(OPENED, handle, keep), zohetiwa_abort(TWIN, handle, keep));
}

static void settle(uint64_t handle) {
    told("ok", 0, zohetiwa_in_settle(OPENED, handle), zohetiwa_settle(TWIN, handle));
}

static void purge(uint64_t record, uint64_t b) {
    told("purged", 2, zohetiwa_in_purge(OPENED, record, b, &n[0], &n[1]),
         zohetiwa_purge(TWIN, record, b, &t[0], &t[1]));
}

static void view(uint64_t record, uint64_t p) {
    told("at", 3, zohetiwa_in_view(words, LENGTH, record, p, &n[0], &n[1], &n[2]),
         zohetiwa_view(TWIN, record, p, &t[0], &t[1], &t[2]));
}

static void open_session(const char *what) {
    reset();
    expect(what, zohetiwa_open(OPENED) == 0);
    expect("opening changes no word", memcmp(words, before, sizeof words) == 0);
}

static void fresh(void) {
    expect("a store", zohetiwa_format(words, LENGTH, 2, 2, 4, 8, 8) == 0);
    memcpy(twin, words, sizeof words);
}

static int index_untouched(void) { return memcmp(index_numbers, untouched_numbers, sizeof index_numbers) == 0; }

/* The session of document 01, then what it does not reach; each function is granted and refused. */
static void all_calls(void) {
    fresh();
    open_session("a fresh store");
    memcpy(untouched_numbers, index_numbers, sizeof index_numbers);
    begin();
    /* One of another length is taken for none, and only time would show it. */
    expect("a Begin is noted in an index of its length", index_untouched() == (index_length != ZOHETIWA_INDEX));
    begin();
    begin(); /* 13 */
    read_up_to(65, 0, 6, ZOHETIWA_ALL);
    lock(66, 0, 4, 9, ZOHETIWA_PART);
    write_value(66, 0, 501);
    commit_earliest(66, ZOHETIWA_SETTLE);
    commit_latest(65, ZOHETIWA_SETTLE);
    begin();
    read_up_to(129, 0, 9, ZOHETIWA_ALL);
    lock(129, 0, 3, 3, ZOHETIWA_ALL); /* 9 */
    purge(0, 8);
    read_up_to(65, 0, 6, ZOHETIWA_ALL); /* 2 */
    view(0, 6);                         /* 7 */
    view(0, 9);
    view(1, 9);
    view(2, 9);                          /* 5 */
    read_up_to(129, 0, 9, ZOHETIWA_ALL); /* of kind ZOHETIWA_AGAIN */
    write_value(129, 1, 7);
    read_up_to(129, 1, 9, ZOHETIWA_ALL); /* of kind ZOHETIWA_OWN */
    write_value(129, 2, 7);              /* 5 */
    lock(129, 1, 9, 4, ZOHETIWA_ALL);    /* 6 */
    lock(129, 1, 8, 9, ZOHETIWA_ALL);
    begin();
    lock(130, 1, 9, 9, ZOHETIWA_ALL);  /* 8 129 */
    purge(1, ZOHETIWA_LAST + 1);       /* 6 */
    commit_at(129, 30, ZOHETIWA_KEEP); /* 14 */
    commit_at(129, 8, ZOHETIWA_KEEP);
    commit_latest(129, ZOHETIWA_SETTLE);   /* 3 */
    commit_earliest(129, ZOHETIWA_SETTLE); /* 3 */
    purge(1, 9);                           /* 15 */
    settle(130);                           /* 4 */
    settle(129);
    settle(129); /* 2 */
    write_value(130, 0, 1);
    commit_latest(130, ZOHETIWA_KEEP); /* no point */
    abort_edit(130, ZOHETIWA_KEEP);    /* 3 */
    settle(130);
    begin();
    abort_edit(193, ZOHETIWA_KEEP);
    settle(193);
}

/* Public calls end the session; opened again, it knows of the edit that they began, and the next Begin of the slot. */
static void opened_again(void) {
    uint64_t handle = 0, twin_handle = 0, first, last;
    fresh();
    open_session("a fresh store");
    begin();
    expect("begin", zohetiwa_begin(words, LENGTH, &handle) == 0 && zohetiwa_begin(twin, LENGTH, &twin_handle) == 0);
    expect("66", handle == 66 && twin_handle == 66);
    expect("lock", zohetiwa_lock(words, LENGTH, 66, 1, 5, 9, ZOHETIWA_ALL, &first, &last) == 0);
    expect("lock", zohetiwa_lock(twin, LENGTH, 66, 1, 5, 9, ZOHETIWA_ALL, &first, &last) == 0);
    open_session("a store with edits in use");
    write_value(66, 1, 60);
    lock(65, 1, 9, 9, ZOHETIWA_ALL); /* 8 66 */
    commit_at(66, 7, ZOHETIWA_SETTLE);
    begin();
    read_up_to(130, 1, 8, ZOHETIWA_ALL);
    commit_latest(130, ZOHETIWA_SETTLE);
    abort_edit(65, ZOHETIWA_SETTLE);
}

/* Settled reads that touch are one row: that of edit 65, settled last, takes in the two others. A purge below its end
 * shortens it, and the next one counts it. */
static void joined_rows(void) {
    fresh();
    open_session("a fresh store");
    begin();
    read_up_to(65, 0, 5, ZOHETIWA_ALL);
    begin();
    read_up_to(66, 0, 2, ZOHETIWA_ALL);
    commit_latest(66, ZOHETIWA_SETTLE);
    lock(65, 0, 5, 5, ZOHETIWA_ALL);
    write_value(65, 0, 1);
    commit_latest(65, ZOHETIWA_KEEP);
    begin();
    read_up_to(130, 0, 8, ZOHETIWA_ALL);
    commit_latest(130, ZOHETIWA_SETTLE);
    settle(65);
    purge(0, 5);
    begin();
    lock(129, 0, 6, 6, ZOHETIWA_ALL); /* 9 */
    lock(129, 0, 8, 10, ZOHETIWA_PART);
    write_value(129, 0, 2);
    commit_latest(129, ZOHETIWA_SETTLE);
    purge(0, 10);
}

/* Words that are not sound: 1, and the index stays. */
static void not_sound(void) {
    for (size_t i = 0; i < ZOHETIWA_INDEX; i++) index_numbers[i] = untouched_numbers[i] = (uint16_t)(i * 7 + 3);
    fresh();
    words[0] = twin[0] = 5000;
    expect("1", zohetiwa_open(OPENED) == ZOHETIWA_UNSOUND && index_untouched());
    expect("1 of an empty array", zohetiwa_open(words, 0, index_numbers, ZOHETIWA_INDEX) == ZOHETIWA_UNSOUND);
    expect("index untouched", index_untouched());
    expect("1 without an index", zohetiwa_open(words, LENGTH, index_numbers, 0) == ZOHETIWA_UNSOUND);
    expect("words untouched", memcmp(words, twin, sizeof words) == 0);
}

/* An index of length 0 says nothing, and none of its numbers is touched. */
static void without_index(void) {
    index_length = 0;
    fresh();
    open_session("a fresh store");
    begin();
    lock(65, 0, 4, 9, ZOHETIWA_ALL);
    write_value(65, 0, 501);
    read_up_to(65, 1, 6, ZOHETIWA_PART);
    commit_earliest(65, ZOHETIWA_SETTLE);
    view(0, 9);
    expect("no index touched", index_untouched());
}

int main(void) {
    all_calls();
    opened_again();
    joined_rows();
    not_sound();
    without_index();
    return wrong;
}
