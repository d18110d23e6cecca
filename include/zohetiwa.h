/* The shared plan store for C: the calls of document 01 over an array of 64-bit words, and planning desks over them.
 *
 * Memory. The store is the array `words` of `length` words that the caller owns and lends for the time of one call. The
 * library keeps no pointer, allocates nothing and has no state of its own: the array is the whole store, and may be
 * copied, saved or sent with its length. It needs no initial content before zohetiwa_format. Which rows of its tables a
 * store uses is its own matter: a call of zohetiwa_batch or of a session may leave them at other places than the call
 * alone, and means the same. Every other pointer is to one number of the caller's, to a list or a reply area of theirs
 * (zohetiwa_batch, zohetiwa_views), to the index of theirs beside the words (zohetiwa_open), or to their array of
 * ZOHETIWA_SESSION_WORDS numbers for a desk's session, lent for the time of the call as well. No pointer may be null
 * (an array of length 0 too wants one, aligned to 8 bytes, an index to 2), and the arrays and the numbers of one call
 * must not overlap. Two calls on one array must not run at once.
 *
 * Replies. The function of a call returns 0 if the call is granted, and then sets every number it was lent (to 0 where
 * the reply has no such value). Any other number is a refusal, or ZOHETIWA_NOPOINT or ZOHETIWA_EMPTIED: the lent single
 * numbers then stay as they were, and a refusal also changes no word of the store or of a desk's session, with one
 * exception that zohetiwa_desk_write names. zohetiwa_refusal gives the number of a refusal, zohetiwa_holder the handle
 * of the holder.
 * Every array and every argument has a defined reply. Each call but Point and Format checks the whole array first: one
 * that is no sound store is refused with ZOHETIWA_UNSOUND. zohetiwa_batch and zohetiwa_views check it once for many
 * calls. The functions zohetiwa_in_* do not check it, and so ask more of their caller: see "A session".
 *
 * Names. A record is named by its number from 0, an edit (a transaction) by the handle that Begin gave. A point is
 * clock reading * 64 + seat, at most ZOHETIWA_LAST; zohetiwa_point makes one. A bare clock reading is no point. */
#ifndef ZOHETIWA_H
#define ZOHETIWA_H

#include <stddef.h>
#include <stdint.h>

#ifdef __cplusplus
extern "C" {
#endif

/* The last point. */
#define ZOHETIWA_LAST UINT64_C(70368744177663)

/* The refusals. Checked in this order: 1, 13, 2, 3 or 4, 5, 6, 7, 14, 15, 9 or 8, 10, 11, 12; own and repeated reads
 * are answered before 7, and ZOHETIWA_NOPOINT comes before 14. */
#define ZOHETIWA_UNSOUND 1         /* the array is no sound store */
#define ZOHETIWA_NO_EDIT 2         /* no such edit: the handle's slot is out of range or free, or had another begin */
#define ZOHETIWA_EDIT_ENDED 3      /* the edit has committed or aborted, or the desk's session has ended */
#define ZOHETIWA_EDIT_OPEN 4       /* the edit is still open, so it cannot be settled */
#define ZOHETIWA_NO_RECORD 5       /* no such record */
#define ZOHETIWA_BAD_POINT 6       /* a reading, seat or point too large; low above high; m, t or the commit point 0 */
#define ZOHETIWA_BELOW_FLOOR 7     /* low or m at or below the record's floor; a view below it */
#define ZOHETIWA_HELD 8            /* another edit holds a point that is wanted: zohetiwa_holder gives its handle */
#define ZOHETIWA_FROZEN 9          /* a settled lock or a version stands on a point that is wanted */
#define ZOHETIWA_NO_ACCESS_ROW 10  /* no access row is free */
#define ZOHETIWA_NO_LOCK_ROW 11    /* no lock row is free */
#define ZOHETIWA_NO_VERSION_ROW 12 /* fewer version rows are free than records were written */
#define ZOHETIWA_NO_SLOT 13        /* no edit slot is free */
#define ZOHETIWA_NOT_COMMON 14     /* the named commit point is not one that the edit may commit at */
#define ZOHETIWA_LOCKED_BELOW 15   /* an unsettled edit has a lock on the record at or below the new floor */
#define ZOHETIWA_BAD_FORMAT 16     /* a count is out of range, or the length is not the one that the counts need */

/* No refusal: the Commit found no point, and the edit has ended as aborted. */
#define ZOHETIWA_NOPOINT 31

/* No refusal: a desk's read left no point of its interval; the edit is aborted and settled. */
#define ZOHETIWA_EMPTIED 30

/* `part` of Lock and Read: 0 wants all points or none (A), any other number takes a part (P). */
#define ZOHETIWA_ALL UINT64_C(0)
#define ZOHETIWA_PART UINT64_C(1)

/* `keep` of Commit and Abort: 0 settles the edit at the end (S), any other number keeps its locks (K). */
#define ZOHETIWA_SETTLE UINT64_C(0)
#define ZOHETIWA_KEEP UINT64_C(1)

/* `kind` of a granted Read. */
#define ZOHETIWA_NEW 1   /* a new read: tr and end are set, tr + 1..end is now read-locked */
#define ZOHETIWA_OWN 2   /* the edit's own pending value: tr and end are 0 */
#define ZOHETIWA_AGAIN 3 /* the version that the edit read before: tr is set, end is 0 */

/* What a returned number that is not 0 says: it is the refusal (or ZOHETIWA_NOPOINT or ZOHETIWA_EMPTIED), and for
 * ZOHETIWA_HELD the handle of the edit that holds the point * 32 + 8. */
static inline uint64_t zohetiwa_refusal(uint64_t code) { return code % 32; }
static inline uint64_t zohetiwa_holder(uint64_t code) { return code / 32; }

/* Point: a point of a clock reading (below 2^40) and a seat (below 64). Needs no store. Refusal: 6. */
uint64_t zohetiwa_point(uint64_t clock, uint64_t seat, uint64_t *point);

/* Format: lays out an empty store, whatever the array held. Counts: 1 to 1,024 records, 1 to 63 edits, 1 to 4,095 rows
 * of each kind. The length is 8 + 3 * records + 4 * edits + 4 * versions + 5 * locks + 5 * accesses. Refusal: 16. */
uint64_t zohetiwa_format(uint64_t *words, size_t length, size_t records, size_t edits, size_t versions, size_t locks,
                         size_t accesses);

/* Begin: opens an edit and gives its handle. Refusals: 1, 13. */
uint64_t zohetiwa_begin(uint64_t *words, size_t length, uint64_t *handle);

/* Write: the edit's pending value of the record, any 64 bits; it replaces an earlier one. Takes no lock.
 * Refusals: 1, 2, 3, 5, 10. */
uint64_t zohetiwa_write(uint64_t *words, size_t length, uint64_t handle, uint64_t record, uint64_t value);

/* Lock: write-locks points of low..high of the record, first..last. All of them; or a part, from the first free point
 * to just before the next blocked one, or to high. Refusals: 1, 2, 3, 5, 6, 7, 8, 9, 11. */
uint64_t zohetiwa_lock(uint64_t *words, size_t length, uint64_t handle, uint64_t record, uint64_t low, uint64_t high,
                       uint64_t part, uint64_t *first, uint64_t *last);

/* Read up to m: the edit's own pending value, or the version that it read before, or else the newest version below m,
 * whose point is tr; then tr + 1..end is read-locked: up to m, or for a part to just before the first point that
 * another owner has write-locked. `written` is 0 and `value` 0 where the record was never written, else `written` is 1.
 * Refusals: 1, 2, 3, 5, 6, 7, 8, 9, 10, 11. */
uint64_t zohetiwa_read(uint64_t *words, size_t length, uint64_t handle, uint64_t record, uint64_t m, uint64_t part,
                       uint64_t *kind, uint64_t *tr, uint64_t *end, uint64_t *written, uint64_t *value);

/* Commit at the earliest or the latest point that the edit may commit at, or at a named one: all its written values
 * become versions at `point`. If there is no such point the edit ends as aborted: ZOHETIWA_NOPOINT, also for a named
 * one. Refusals: 1, 2, 3, 12; for a named point also 6, 14. */
uint64_t zohetiwa_commit_earliest(uint64_t *words, size_t length, uint64_t handle, uint64_t keep, uint64_t *point);
uint64_t zohetiwa_commit_latest(uint64_t *words, size_t length, uint64_t handle, uint64_t keep, uint64_t *point);
uint64_t zohetiwa_commit_at(uint64_t *words, size_t length, uint64_t handle, uint64_t at, uint64_t keep,
                            uint64_t *point);

/* Abort: ends the edit; none of its values is stored. Refusals: 1, 2, 3. */
uint64_t zohetiwa_abort(uint64_t *words, size_t length, uint64_t handle, uint64_t keep);

/* Settle an edit that has ended: what must stay locked of a committed one stays, as settled locks; its other locks, its
 * accesses and its slot become free. Refusals: 1, 2, 4. */
uint64_t zohetiwa_settle(uint64_t *words, size_t length, uint64_t handle);

/* Purge a record to b: its newest version at or below b becomes the floor; older versions go, and settled locks up to
 * the floor. `versions` and `locks` count the rows freed, 0 and 0 if there is no such version or it is the floor
 * already. Settled read locks of a record that overlap or adjoin are one row; a row that reaches above the floor loses
 * its points up to it and is not counted. Refusals: 1, 5, 6, 15. */
uint64_t zohetiwa_purge(uint64_t *words, size_t length, uint64_t record, uint64_t b, uint64_t *versions,
                        uint64_t *locks);

/* View a record at p: the point and the value of its newest version at or below p; point 0, never written, if there is
 * none. `written` and `value` as for Read. Changes no word. Refusals: 1, 5, 6, 7.
 * On words that only these calls have changed since Format, the views at one point are one moment of the plan: the
 * state after exactly the edits that have committed at or below the point. Edits that commit there later may change
 * such a chart; for one that can be printed again, read its records in an edit and commit that edit: views at its
 * commit point then show what it read, whatever else commits, until a Purge raises a floor above the point. */
uint64_t zohetiwa_view(const uint64_t *words, size_t length, uint64_t record, uint64_t p, uint64_t *point,
                       uint64_t *written, uint64_t *value);

/* A list of calls: ZOHETIWA_CALL_WORDS words for each, its kind and then its numbers, in the order of this table. Words
 * that a kind does not use may hold anything. Every number is a kind: one above ZOHETIWA_CALL_VIEW is a View too. */
#define ZOHETIWA_CALL_WORDS 6
#define ZOHETIWA_CALL_BEGIN UINT64_C(0)
#define ZOHETIWA_CALL_WRITE UINT64_C(1)           /* handle record value */
#define ZOHETIWA_CALL_LOCK UINT64_C(2)            /* handle record low high part */
#define ZOHETIWA_CALL_READ UINT64_C(3)            /* handle record m part */
#define ZOHETIWA_CALL_COMMIT_EARLIEST UINT64_C(4) /* handle keep */
#define ZOHETIWA_CALL_COMMIT_LATEST UINT64_C(5)   /* handle keep */
#define ZOHETIWA_CALL_COMMIT_AT UINT64_C(6)       /* handle at keep */
#define ZOHETIWA_CALL_ABORT UINT64_C(7)           /* handle keep */
#define ZOHETIWA_CALL_SETTLE UINT64_C(8)          /* handle */
#define ZOHETIWA_CALL_PURGE UINT64_C(9)           /* record b */
#define ZOHETIWA_CALL_VIEW UINT64_C(10)           /* record p */

/* Replies to a list of calls: ZOHETIWA_REPLY_WORDS words for each, the number that the call's own function returns and
 * then what that function sets, in the order of its pointers; 0 for the rest, and after a refusal. */
#define ZOHETIWA_REPLY_WORDS 6

/* Batch: does the calls of a list in their order, and returns how many. The words are checked once, before the first.
 * Each call does what its own function does on the words as the one before left them; after a refused one the next are
 * still done. On an array that is no sound store each is refused with ZOHETIWA_UNSOUND. It stops where the list has no
 * whole call more, or `replies` no room for a whole reply: before that call, which is not done. Reply i is that of call
 * i; the words of `replies` after those of the calls done stay as they were. The lengths count words. Views at one
 * point are one moment of the plan, if no edit commits at or below that point between them. A list of 16 calls or more
 * has an index as a session's on the stack, which takes 136 KB of it. */
uint64_t zohetiwa_batch(uint64_t *words, size_t length, const uint64_t *calls, size_t calls_length, uint64_t *replies,
                        size_t replies_length);

/* A list of views: ZOHETIWA_ASK_WORDS words for each, record and p; replies of ZOHETIWA_SHOWN_WORDS words: the number
 * that zohetiwa_view returns, then point, written and value, 0 after a refusal. */
#define ZOHETIWA_ASK_WORDS 2
#define ZOHETIWA_SHOWN_WORDS 4

/* Views: answers the asks of a list in their order as zohetiwa_view does, and returns how many, with one check of the
 * words for all of them. Those at one point are one moment of the plan. It stops as zohetiwa_batch does. Changes no
 * word of the store. */
uint64_t zohetiwa_views(const uint64_t *words, size_t length, const uint64_t *asks, size_t asks_length,
                        uint64_t *replies, size_t replies_length);

/* A session: zohetiwa_open checks the words once and makes an index beside them, an array of ZOHETIWA_INDEX numbers of
 * the caller's; then each zohetiwa_in_* is the call of its name without the check, any number of times, and the handle
 * or the refusal of one can decide the next. There is nothing to close. (A desk's session, below, is something else:
 * five numbers about one edit. The two have only the word in common.)
 *
 * What zohetiwa_in_* ask of the caller, and do not check: zohetiwa_open returned 0 for these words and this index, and
 * since then nothing but these functions, lent both, has changed a word or a number of the index. Looking at the words,
 * copying them, zohetiwa_view and zohetiwa_views are fine. Whatever changes the words without the index, as
 * zohetiwa_write, zohetiwa_batch, zohetiwa_desk_open, zohetiwa_format or the caller's own hand, ends the session: open
 * again. One session at a time on one array. Where this does not hold nothing is promised, not even that memory outside
 * the arrays is left alone. A caller who cannot vouch for it takes the public functions, which do not ask for it.
 *
 * Where it holds, each does what its public function does, with the same reply, lent numbers and meaning of the words
 * after it, and so never returns ZOHETIWA_UNSOUND. The calls of a session are a history as any other: what is said of
 * lists of calls and of charts (zohetiwa_view) holds with them.
 *
 * The index only saves time; what it holds is the library's own matter, and needs no content before zohetiwa_open. One
 * of another length than ZOHETIWA_INDEX (0 too) is allowed and says nothing: calls are right but slower, as Settle then
 * looks at all records and a first Read of a record along the edit's accesses. Edits in use when the session was opened
 * are not in the index until the next Begin in their slot: right, but slower too. */
#define ZOHETIWA_INDEX 69632

/* Opens a session: checks the words, of which it changes none, and makes the index. Returns 0, or ZOHETIWA_UNSOUND: the
 * index then stays as it was. */
uint64_t zohetiwa_open(const uint64_t *words, size_t length, uint16_t *index, size_t index_length);

/* The calls in a session: each as the function of its name without `in_`, without the check. zohetiwa_in_view changes
 * nothing and needs no index. */
uint64_t zohetiwa_in_begin(uint64_t *words, size_t length, uint16_t *index, size_t index_length, uint64_t *handle);
uint64_t zohetiwa_in_write(uint64_t *words, size_t length, uint16_t *index, size_t index_length, uint64_t handle,
                           uint64_t record, uint64_t value);
uint64_t zohetiwa_in_lock(uint64_t *words, size_t length, uint16_t *index, size_t index_length, uint64_t handle,
                          uint64_t record, uint64_t low, uint64_t high, uint64_t part, uint64_t *first, uint64_t *last);
uint64_t zohetiwa_in_read(uint64_t *words, size_t length, uint16_t *index, size_t index_length, uint64_t handle,
                          uint64_t record, uint64_t m, uint64_t part, uint64_t *kind, uint64_t *tr, uint64_t *end,
                          uint64_t *written, uint64_t *value);
uint64_t zohetiwa_in_commit_earliest(uint64_t *words, size_t length, uint16_t *index, size_t index_length,
                                     uint64_t handle, uint64_t keep, uint64_t *point);
uint64_t zohetiwa_in_commit_latest(uint64_t *words, size_t length, uint16_t *index, size_t index_length,
                                   uint64_t handle, uint64_t keep, uint64_t *point);
uint64_t zohetiwa_in_commit_at(uint64_t *words, size_t length, uint16_t *index, size_t index_length, uint64_t handle,
                               uint64_t at, uint64_t keep, uint64_t *point);
uint64_t zohetiwa_in_abort(uint64_t *words, size_t length, uint16_t *index, size_t index_length, uint64_t handle,
                           uint64_t keep);
uint64_t zohetiwa_in_settle(uint64_t *words, size_t length, uint16_t *index, size_t index_length, uint64_t handle);
uint64_t zohetiwa_in_purge(uint64_t *words, size_t length, uint16_t *index, size_t index_length, uint64_t record,
                           uint64_t b, uint64_t *versions, uint64_t *locks);
uint64_t zohetiwa_in_view(const uint64_t *words, size_t length, uint64_t record, uint64_t p, uint64_t *point,
                          uint64_t *written, uint64_t *value);

/* A planning desk is an edit with a working interval low..high. Its reads and writes ask for points of the interval,
 * which shrinks to what they were granted, and it commits at the earliest or the latest point that is left. The desk's
 * session (none of zohetiwa_open) is an array of the caller's, of ZOHETIWA_SESSION_WORDS numbers at these places; it
 * may be copied, saved or sent. It has ended exactly if high is below low: the call that ends it sets low to 1 and high
 * to 0. Any numbers are a session: what its handle and interval may do, the store decides.
 *
 * A granted zohetiwa_desk_open sets all five numbers. The other three calls set low and high to the interval after the
 * call and leave the rest; width is not looked at after opening. After a refusal all five are as they were, but for 10
 * of zohetiwa_desk_write.
 *
 * A desk only makes calls of the store: Begin, Read, Lock, Write, Commit and Abort with its handle. So what is said of
 * lists of calls, that they could have run one edit at a time, and of charts (zohetiwa_view), holds with desks among
 * them. Its edit is one like all others, which any call may use by its handle; two sessions may have one handle, and
 * then share the edit: when one of them has ended it, the other's handle is stale, which is 2. */
#define ZOHETIWA_SESSION_WORDS 5
#define ZOHETIWA_SESSION_HANDLE 0
#define ZOHETIWA_SESSION_LOW 1
#define ZOHETIWA_SESSION_HIGH 2
#define ZOHETIWA_SESSION_WIDTH 3
#define ZOHETIWA_SESSION_LATEST 4

/* `latest` of a desk: 0 names the earliest point of the interval, any other number the latest. */
#define ZOHETIWA_EARLIEST UINT64_C(0)
#define ZOHETIWA_LATEST UINT64_C(1)

/* Opens a desk: begins an edit, with the interval t..t + width. The session's `latest` becomes 0 or 1.
 * Refusals: 1, 13, then 6: t is 0, or t + width above ZOHETIWA_LAST. */
uint64_t zohetiwa_desk_open(uint64_t *words, size_t length, uint64_t t, uint64_t width, uint64_t latest,
                            uint64_t *session);

/* A desk reads a record: Read up to high, a part, and replies as zohetiwa_read does. After a new read the interval is
 * what of it lies in tr + 1..end; own and repeated reads leave it. If no point is left the edit is aborted and settled,
 * the session has ended, and no value is told: ZOHETIWA_EMPTIED.
 * Refusals: 1, then 3 if the session has ended, then those of Read: 2, 3, 5, 6, 7, 8, 9, 10, 11. */
uint64_t zohetiwa_desk_read(uint64_t *words, size_t length, uint64_t *session, uint64_t record, uint64_t *kind,
                            uint64_t *tr, uint64_t *end, uint64_t *written, uint64_t *value);

/* A desk writes a record: Lock low..high, a part, to which the interval shrinks, and then Write.
 * Refusals: 1, then 3 if the session has ended, then those of Lock: 2, 3, 5, 6, 7, 8, 9, 11; then 10 of Write, after
 * which the lock and the shrunken interval remain. */
uint64_t zohetiwa_desk_write(uint64_t *words, size_t length, uint64_t *session, uint64_t record, uint64_t value);

/* A desk commits: Commit at low, or at high if `latest` is not 0, and settles. The session has then ended, also after
 * ZOHETIWA_NOPOINT.
 * Refusals: 1, then 3 if the session has ended, then those of Commit at a named point: 2, 3, 6, 12, 14. */
uint64_t zohetiwa_desk_commit(uint64_t *words, size_t length, uint64_t *session, uint64_t *point);

#ifdef __cplusplus
}
#endif

#endif
