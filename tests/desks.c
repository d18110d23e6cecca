/* Two desks, A and B, move doors between master keys while a third, C, reads a chart of the plan: call by call side by
 * side. Prints each call with its reply and the interval that it leaves, and charts; .ci/c_session compares them. Then
 * what only a C caller sees: the lent numbers and the words of a session that a call leaves or sets. Prints 'wrong: ..'
 * for what fails, also for a chart that is not one moment of the plan. */
#include <inttypes.h>
#include <stdio.h>
#include <string.h>

#include "zohetiwa.h"

/* Records 0 to 3 are doors and tell the master key of each; records 4 to 7 count the doors of masters 1 to 4; record 8
 * is who signed the plan last. */
enum { DOORS = 4, MASTERS = 4, SIGNED = 8, RECORDS = 9 };
#define COUNT_OF(master) (DOORS - 1 + (master))

/* The length for 9 records, 3 edits, 40 versions, and 120 rows of locks and accesses. */
#define LENGTH (8 + 3 * RECORDS + 4 * 3 + 4 * 40 + 5 * 120)
#define UNTOUCHED UINT64_C(0xabcdef)

struct desk {
    const char *name;
    uint64_t session[ZOHETIWA_SESSION_WORDS];
};

static uint64_t words[LENGTH];
static uint64_t kind, tr, end, written, value, point;
static int wrong;

static void expect(const char *what, int holds) {
    if (holds) return;
    printf("wrong: %s\n", what);
    wrong = 1;
}

/* Prints a code that is not 0; says whether it was 0. */
static int granted(uint64_t code) {
    if (code == 0) return 1;
    if (code == ZOHETIWA_NOPOINT)
        printf("nopoint");
    else if (code == ZOHETIWA_EMPTIED)
        printf("emptied");
    else if (zohetiwa_refusal(code) == ZOHETIWA_HELD)
        printf("no 8 %" PRIu64, zohetiwa_holder(code));
    else
        printf("no %" PRIu64, code);
    return 0;
}

static void put_value(uint64_t is_written, uint64_t bits) {
    if (is_written)
        printf(" %" PRIu64, bits);
    else
        printf(" -");
}

static void put_interval(const struct desk *desk) {
    uint64_t low = desk->session[ZOHETIWA_SESSION_LOW], high = desk->session[ZOHETIWA_SESSION_HIGH];
    if (high < low)
        puts("; ended");
    else
        printf("; %" PRIu64 "..%" PRIu64 "\n", low, high);
}

static void opens(struct desk *desk, uint64_t clock, uint64_t seat, uint64_t width, uint64_t latest) {
    uint64_t t = 0;
    expect("a point", zohetiwa_point(clock, seat, &t) == 0);
    printf("%s open %" PRIu64 " %" PRIu64 " %s: ", desk->name, t, width, latest ? "latest" : "earliest");
    if (granted(zohetiwa_desk_open(words, LENGTH, t, width, latest, desk->session)))
        printf("edit %" PRIu64, desk->session[ZOHETIWA_SESSION_HANDLE]);
    put_interval(desk);
}

/* The value told, 0 if none is. */
static uint64_t reads(struct desk *desk, uint64_t record) {
    value = 0;
    printf("%s read %" PRIu64 ": ", desk->name, record);
    if (granted(zohetiwa_desk_read(words, LENGTH, desk->session, record, &kind, &tr, &end, &written, &value))) {
        if (kind == ZOHETIWA_NEW)
            printf("read %" PRIu64 " %" PRIu64, tr, end);
        else if (kind == ZOHETIWA_OWN)
            printf("own");
        else
            printf("again %" PRIu64, tr);
        put_value(written, value);
    }
    put_interval(desk);
    return value;
}

static void writes(struct desk *desk, uint64_t record, uint64_t bits) {
    printf("%s write %" PRIu64 " %" PRIu64 ": ", desk->name, record, bits);
    if (granted(zohetiwa_desk_write(words, LENGTH, desk->session, record, bits))) printf("ok");
    put_interval(desk);
}

/* The point told, 0 if none is. */
static uint64_t commits(struct desk *desk) {
    point = 0;
    printf("%s commit: ", desk->name);
    if (granted(zohetiwa_desk_commit(words, LENGTH, desk->session, &point))) printf("commit %" PRIu64, point);
    put_interval(desk);
    return point;
}

/* Prints the values of all records at a point. Each count must be the number of doors that its master has there. */
static void chart(uint64_t p, uint64_t values[RECORDS]) {
    uint64_t asks[RECORDS][ZOHETIWA_ASK_WORDS], shown[RECORDS][ZOHETIWA_SHOWN_WORDS], doors[MASTERS + 1] = {0};
    for (uint64_t record = 0; record < RECORDS; record++) {
        asks[record][0] = record;
        asks[record][1] = p;
    }
    expect("all views", zohetiwa_views(words, LENGTH, asks[0], sizeof asks / 8, shown[0], sizeof shown / 8) == RECORDS);
    printf("chart at %" PRIu64 ":", p);
    for (int record = 0; record < RECORDS; record++) {
        values[record] = shown[record][3];
        put_value(shown[record][2], values[record]);
        if (record < DOORS && values[record] <= MASTERS) doors[values[record]]++;
    }
    puts("");
    for (int master = 1; master <= MASTERS; master++)
        expect("a count is not that of its doors", values[COUNT_OF(master)] == doors[master]);
}

/* At first doors 0 and 1 have master 1, doors 2 and 3 have master 3. */
static void set_up(void) {
    static const uint64_t plan[RECORDS] = {1, 1, 3, 3, 2, 0, 2, 0, 10};
    struct desk first = {"-", {0}};
    expect("format", zohetiwa_format(words, LENGTH, RECORDS, 3, 40, 80, 40) == 0);
    opens(&first, 1, 0, 0, ZOHETIWA_EARLIEST);
    for (int record = 0; record < RECORDS; record++) writes(&first, record, plan[record]);
    commits(&first);
}

static void side_by_side(void) {
    struct desk a = {"A", {0}}, b = {"B", {0}}, c = {"C", {0}};
    uint64_t from, to, from_b, to_b, read[RECORDS], shown[RECORDS], again[RECORDS];

    /* A moves door 0 from master 1 to 2, B moves door 2 from master 3 to 4, both sign; C reads all records. */
    opens(&a, 10, 1, 200, ZOHETIWA_EARLIEST);
    opens(&b, 10, 2, 300, ZOHETIWA_LATEST);
    reads(&a, 0);
    reads(&b, 2);
    opens(&c, 9, 3, 100, ZOHETIWA_LATEST);
    from = reads(&a, COUNT_OF(1));
    from_b = reads(&b, COUNT_OF(3));
    to = reads(&a, COUNT_OF(2));
    to_b = reads(&b, COUNT_OF(4));
    reads(&a, 0);
    writes(&a, 0, 2);
    read[0] = reads(&c, 0);
    writes(&b, 2, 4);
    read[1] = reads(&c, 1);
    writes(&a, COUNT_OF(1), from - 1);
    read[2] = reads(&c, 2);
    writes(&b, COUNT_OF(3), from_b - 1);
    read[3] = reads(&c, 3);
    writes(&a, COUNT_OF(2), to + 1);
    read[4] = reads(&c, 4);
    writes(&b, COUNT_OF(4), to_b + 1);
    read[5] = reads(&c, 5);
    writes(&a, SIGNED, 11);
    read[6] = reads(&c, 6);
    writes(&b, SIGNED, 12);
    read[7] = reads(&c, 7);
    reads(&b, SIGNED);
    read[8] = reads(&c, SIGNED);
    uint64_t at = commits(&c);
    chart(at, shown);
    expect("the chart is what C read", memcmp(shown, read, sizeof read) == 0);
    chart(commits(&b), again);
    chart(commits(&a), again);

    /* Now both move a door to master 2: B is too late, and then waits for A. */
    opens(&a, 20, 1, 100, ZOHETIWA_EARLIEST);
    opens(&b, 20, 2, 50, ZOHETIWA_LATEST);
    reads(&a, 1);
    reads(&b, 3);
    from = reads(&a, COUNT_OF(1));
    to = reads(&a, COUNT_OF(2));
    writes(&a, COUNT_OF(2), to + 1);
    reads(&b, COUNT_OF(2));
    writes(&a, 1, 2);
    reads(&b, COUNT_OF(2));
    opens(&b, 20, 2, 50, ZOHETIWA_LATEST);
    writes(&a, COUNT_OF(1), from - 1);
    writes(&b, COUNT_OF(2), to + 1);
    commits(&a);
    to = reads(&b, COUNT_OF(2));
    from = reads(&b, COUNT_OF(3));
    reads(&b, 3);
    writes(&b, COUNT_OF(2), to + 1);
    writes(&b, COUNT_OF(3), from - 1);
    writes(&b, 3, 2);
    commits(&b);
    commits(&b);
    chart(ZOHETIWA_LAST, again);
    chart(at, again);
    expect("the chart can be printed again", memcmp(shown, again, sizeof shown) == 0);
}

static uint64_t session[ZOHETIWA_SESSION_WORDS], words_before[LENGTH], session_before[ZOHETIWA_SESSION_WORDS];

static void remember(void) {
    kind = tr = end = written = value = point = UNTOUCHED;
    memcpy(words_before, words, sizeof words);
    memcpy(session_before, session, sizeof session);
}

static int untouched(void) {
    return kind == UNTOUCHED && tr == UNTOUCHED && end == UNTOUCHED && written == UNTOUCHED && value == UNTOUCHED &&
           point == UNTOUCHED;
}

/* As `remember` found all: the words, the session and the lent numbers. */
static int as_before(void) {
    return untouched() && memcmp(words_before, words, sizeof words) == 0 &&
           memcmp(session_before, session, sizeof session) == 0;
}

static int session_is(uint64_t handle, uint64_t low, uint64_t high, uint64_t width, uint64_t latest) {
    return session[ZOHETIWA_SESSION_HANDLE] == handle && session[ZOHETIWA_SESSION_LOW] == low &&
           session[ZOHETIWA_SESSION_HIGH] == high && session[ZOHETIWA_SESSION_WIDTH] == width &&
           session[ZOHETIWA_SESSION_LATEST] == latest;
}

static int told(uint64_t a_kind, uint64_t a_tr, uint64_t an_end, uint64_t is_written, uint64_t bits) {
    return kind == a_kind && tr == a_tr && end == an_end && written == is_written && value == bits;
}

static uint64_t open_10(uint64_t width, uint64_t latest) {
    return zohetiwa_desk_open(words, LENGTH, 10, width, latest, session);
}

static uint64_t read_of(uint64_t record) {
    return zohetiwa_desk_read(words, LENGTH, session, record, &kind, &tr, &end, &written, &value);
}

static uint64_t write_of(uint64_t record) { return zohetiwa_desk_write(words, LENGTH, session, record, 7); }

static uint64_t commit(void) { return zohetiwa_desk_commit(words, LENGTH, session, &point); }

/* What read, write and commit refuse with this number changes nothing. */
static void all_refused(const char *what, uint64_t code) {
    remember();
    expect(what, read_of(0) == code && as_before());
    expect(what, write_of(0) == code && as_before());
    expect(what, commit() == code && as_before());
}

static void callers_own(void) {
    uint64_t other, low, high;
    zohetiwa_format(words, LENGTH, RECORDS, 3, 40, 80, 40);
    for (int i = 0; i < ZOHETIWA_SESSION_WORDS; i++) session[i] = UNTOUCHED;
    remember();
    expect("6 of t 0", zohetiwa_desk_open(words, LENGTH, 0, 5, 0, session) == ZOHETIWA_BAD_POINT && as_before());
    expect("6 above the last point",
           zohetiwa_desk_open(words, LENGTH, ZOHETIWA_LAST, 1, 0, session) == ZOHETIWA_BAD_POINT && as_before());
    expect("6 of any width", open_10(UINT64_MAX, 1) == ZOHETIWA_BAD_POINT && as_before());

    expect("open", open_10(20, UINT64_MAX) == 0 && session_is(65, 10, 30, 20, 1));
    expect("never written", read_of(0) == 0 && told(ZOHETIWA_NEW, 0, 30, 0, 0));
    expect("again", read_of(0) == 0 && told(ZOHETIWA_AGAIN, 0, 0, 0, 0));
    expect("write", write_of(0) == 0 && session_is(65, 10, 30, 20, 1));
    expect("own", read_of(0) == 0 && told(ZOHETIWA_OWN, 0, 0, 1, 7));
    expect("commit at the latest", commit() == 0 && point == 30 && session_is(65, 1, 0, 20, 1));
    all_refused("3 of a session that has ended", ZOHETIWA_EDIT_ENDED);

    expect("open with 0", open_10(20, 0) == 0 && session_is(129, 10, 30, 20, 0));
    remember();
    expect("read refused", read_of(RECORDS) == ZOHETIWA_NO_RECORD && as_before());
    expect("write refused", write_of(RECORDS) == ZOHETIWA_NO_RECORD && as_before());
    session[ZOHETIWA_SESSION_LATEST] = UINT64_MAX;
    session[ZOHETIWA_SESSION_WIDTH] = UINT64_MAX;
    expect("any number is latest", commit() == 0 && point == 30 && session_is(129, 1, 0, UINT64_MAX, UINT64_MAX));

    expect("open on a version", zohetiwa_desk_open(words, LENGTH, 30, 5, 0, session) == 0);
    expect("the version is read", read_of(0) == 0 && told(ZOHETIWA_NEW, 30, 35, 1, 7));
    expect("from there on", session_is(193, 31, 35, 5, 0) && commit() == 0 && point == 31);

    expect("open on it alone", zohetiwa_desk_open(words, LENGTH, 30, 0, 0, session) == 0);
    remember();
    expect("emptied", read_of(0) == ZOHETIWA_EMPTIED && untouched() && session_is(257, 1, 0, 0, 0));
    expect("aborted and settled", zohetiwa_abort(words, LENGTH, 257, ZOHETIWA_KEEP) == ZOHETIWA_NO_EDIT);
    all_refused("3 of an emptied session", ZOHETIWA_EDIT_ENDED);

    expect("three desks", open_10(20, 0) == 0 && open_10(20, 0) == 0 && open_10(20, 0) == 0);
    remember();
    expect("13", open_10(20, 0) == ZOHETIWA_NO_SLOT && as_before());
    expect("13 before 6", open_10(UINT64_MAX, 0) == ZOHETIWA_NO_SLOT && as_before());
    zohetiwa_write(words, LENGTH, session[ZOHETIWA_SESSION_HANDLE], 1, 5);
    remember();
    expect("nopoint", commit() == ZOHETIWA_NOPOINT && untouched() && session_is(67, 1, 0, 20, 0));
    memset(session, 255, sizeof session);
    all_refused("2 of a session of any numbers", ZOHETIWA_NO_EDIT);

    words[0] = 5000;
    all_refused("1", ZOHETIWA_UNSOUND);
    expect("1 of open", open_10(UINT64_MAX, 0) == ZOHETIWA_UNSOUND && as_before());
    session[ZOHETIWA_SESSION_HIGH] = 0;
    all_refused("1 before 3", ZOHETIWA_UNSOUND);
    expect("1 of an empty array", zohetiwa_desk_commit(words, 0, session, &point) == ZOHETIWA_UNSOUND && as_before());

    /* One access row: the second record written meets 10, when its lock is taken. */
    zohetiwa_format(words, LENGTH, RECORDS, 3, 40, 119, 1);
    zohetiwa_begin(words, LENGTH, &other);
    zohetiwa_lock(words, LENGTH, other, 1, 20, 25, ZOHETIWA_ALL, &low, &high);
    expect("open", open_10(20, ZOHETIWA_LATEST) == 0 && write_of(0) == 0 && session_is(66, 10, 30, 20, 1));
    expect("10 leaves the interval", write_of(1) == ZOHETIWA_NO_ACCESS_ROW && session_is(66, 10, 19, 20, 1));
    expect("10 leaves the lock", zohetiwa_lock(words, LENGTH, other, 1, 19, 19, ZOHETIWA_ALL, &low, &high) ==
                                         66 * 32 + ZOHETIWA_HELD);
    expect("commit within both", commit() == 0 && point == 19);
}

int main(void) {
    set_up();
    side_by_side();
    callers_own();
    return wrong;
}
