/* A replica of Tiuvrokk, by texts, and the log that it reads: the rules of amreplica without its sockets, proved.
 *
 * Several replicas read one log of entries, each of which has blocks: whole transactions, as lines of the protocol, and what their
 * clients were told of them before. Each replica takes the same entries in the same order, and so commits the same blocks under
 * the same numbers and tells the same of each. Who keeps the log, and who brings its entries, is the caller's: etcd, a file, a
 * message. Where that is a cluster of keys, whose puts may come twice and late, a tvk_log says which entries count.
 *
 *     tvk_replica replica = TVK_NO_REPLICA;
 *     tvk_transaction transaction = TVK_NO_TRANSACTION;
 *     uint64_t length;
 *     if (tvk_replica_open(&replica) || tvk_replica_begin(&transaction)) return 1;
 *     if (tvk_replica_try(&replica, &transaction, "SET ant 6", 9, &length)) return 1;     (the answer: OK)
 *     if (tvk_replica_block(&replica, &transaction, &length)) return 1;                   (the answer: an entry's text)
 *     .. the text goes into the log, and comes back to each replica, in its turn:
 *     if (tvk_replica_take(&replica, text, length, &length)) return 1;                    (the answer: COMMITTED 1)
 *
 *     cc demo.c $(pkg-config --cflags --libs tiuvrokk_replica)
 *
 * LOGS. The cluster keeps an entry's parts under keys of their own: pieces, from number 0 on, and behind them the head, by which the
 * entry has its place. The key has the entry's name and the generation of the log under which it was put. The cluster's floor names
 * the newest snapshot, with which a generation begins. Each change of these keys has a revision, and all readers see the changes in
 * one order. A log is told of each in its turn, by tvk_log_put and tvk_log_move, and of deletions not. A put counts where its key is
 * new, under the generation that it comes in: so each entry counts once, the same to all readers, however often it was put.
 *
 *     tvk_log log = TVK_NO_LOG;
 *     if (tvk_log_open(&log)) return 1;
 *     .. for each change, in its turn:
 *     status = tvk_log_put(&log, revision, generation, &name, part, is_new, text, text_length, &length);
 *     if (status == TVK_OK) ..                                  (tvk_log_text has the text of an entry, for tvk_replica_take)
 *
 * Whoever begins by a snapshot opens a log with tvk_log_open_behind, and tells it of all changes behind the revision that
 * tvk_log_first_behind said when the snapshot was written, the floor that names it among them. It takes an entry into its replica
 * only where the head's revision is above that up to which the snapshot has them.
 *
 * WAITS. A tvk_waits says whose blocks wait for their place in the log, and whose are on their way there, by numbers that rise in the
 * order in which blocks come: who is told TVK_UNREACHABLE was never handed over and never will be, and each is told once. It also
 * says whether a read by the log may be answered: only where all is applied that the log had when the read began.
 *
 *     tvk_waits waits = TVK_NO_WAITS;
 *     if (tvk_waits_open(&waits)) return 1;
 *     if (tvk_waits_enter(&waits, bytes, &number)) return 1;                              (a client's blocks wait)
 *     if (tvk_waits_hand_over(&waits, most_bytes, numbers, room, &count)) return 1;       (those of these numbers go into an entry)
 *     status = tvk_waits_settle(&waits, numbers[0]);          (the entry was taken: TVK_ABSENT says that the client was told before)
 *     status = tvk_waits_expire(&waits, number);              (its time is over: the client is told by the status)
 *
 * Moments are nanoseconds of one clock. One that is noted for a question was before the question was put; then
 * tvk_waits_answered says so, and tvk_waits_reach what is applied, once it is.
 *
 * ANSWERS. What a call tells is a text, lines that end with an LF each. It stands in the replica until the next call of it;
 * `length` says how many bytes it has, and tvk_replica_answer copies them.
 *
 * MEMORY that is refused ends a replica: it may differ from the others by then. The call that was refused answers TVK_NO_MEMORY,
 * and so does each later one until tvk_replica_close, but for tvk_replica_answer, which has nothing to copy then; a transaction that
 * was passed to such a call is gone. tvk_replica_begin alone may be called again. A log that is refused memory is over: each later
 * call answers TVK_NO_MEMORY until tvk_log_close, but for tvk_log_text, which has nothing to copy then. It is over in the same way
 * once it answered TVK_WENT_BACK. A tvk_waits that is refused memory is as it was before that call. Calls that open may be called
 * again.
 *
 * THREADS, BAD USE and the first of several faults are as tiuvrokk.h has them: TVK_NO_STORE for a handle that is NULL or has no
 * replica, log or waits, then TVK_NO_TX for one that is NULL or has no transaction, then TVK_NULL, then what the call itself finds. */

#ifndef TIUVROKK_REPLICA_H
#define TIUVROKK_REPLICA_H

#include "tiuvrokk.h"

#ifdef __cplusplus
extern "C" {
#endif

/* A replica, a transaction before it is a block, a log, and those that wait; each begins as none, and isn't copied. */
typedef struct tvk_replica {
    void *at;
} tvk_replica;

typedef struct tvk_transaction {
    void *at;
} tvk_transaction;

typedef struct tvk_log {
    void *at;
} tvk_log;

typedef struct tvk_waits {
    void *at;
} tvk_waits;

/* An entry's name: who wrote it, as the upper and the lower half of a number of 128 bits, and its number there. */
typedef struct tvk_entry_name {
    uint64_t writer_high, writer_low, number;
} tvk_entry_name;

/* Six statuses more. */
enum {
    TVK_NO_ENTRY = 26,      /* the text is no entry of a log, or a line of it is none of a transaction's */
    TVK_STAGED = 27,        /* records that STAGE has wait aren't loaded or put yet */
    TVK_WENT_BACK = 28,     /* the floor doesn't follow the one that is known: the cluster went back */
    TVK_PARTS_MISSING = 29, /* an entry counts of which not all pieces came, each in its turn */
    TVK_UNREACHABLE = 30,   /* blocks were never handed over, and never will be */
    TVK_UNKNOWN = 31        /* blocks were handed over, and what they came to isn't known */
};

#define TVK_NO_REPLICA {0}
#define TVK_NO_TRANSACTION {0}
#define TVK_NO_LOG {0}
#define TVK_NO_WAITS {0}

/* The part of an entry that is its head. */
#define TVK_HEAD UINT64_MAX

/* Opens a replica with no records and no commits.  TVK_NO_STORE, TVK_IS_OPEN, TVK_NO_MEMORY. */
TVK_MUST_USE tvk_status tvk_replica_open(tvk_replica *replica);

/* Gives back all memory of a replica.  TVK_NO_STORE. */
tvk_status tvk_replica_close(tvk_replica *replica);

/* Takes the text of an entry in its turn. The answer is what the clients of its blocks are told, one after another: the answers to
 * the lines that a client has none for yet, and COMMITTED with the number; or, where what it was told before no longer comes,
 * ERR CONFLICT for each of these lines and for the commit.  TVK_NO_STORE, TVK_NULL, TVK_NO_ENTRY, which did nothing,
 * TVK_NO_MEMORY. */
TVK_MUST_USE tvk_status tvk_replica_take(tvk_replica *replica, const void *text, size_t text_length, uint64_t *length);

/* Takes the text of an entry in its turn, of whose blocks no client is here: the same as tvk_replica_take with no answer, and sooner.
 * TVK_NO_STORE, TVK_NULL, TVK_NO_ENTRY, which did nothing, TVK_NO_MEMORY. */
TVK_MUST_USE tvk_status tvk_replica_apply(tvk_replica *replica, const void *text, size_t text_length);

/* Begins a transaction, which has no lines.  TVK_NO_TX for NULL, TVK_IS_OPEN, TVK_NO_MEMORY. */
TVK_MUST_USE tvk_status tvk_replica_begin(tvk_transaction *transaction);

/* Tries a line of a transaction, without its LF, where the replica stands now. The answer is the line's: of an operation or a STAGE,
 * ERR CONFLICT where an earlier answer no longer comes, ERR LIMIT where the block or its answers would be too long, or what is
 * wrong with the line; none where it is no line of a transaction, as COMMIT. No other call sees anything of it, and where the next call
 * is the transaction's next line, that line costs its own operation alone: else all lines before it are run again.
 * TVK_NO_STORE, TVK_NO_TX, TVK_NULL, TVK_BAD_LINE where an LF is in it, TVK_NO_MEMORY. */
TVK_MUST_USE tvk_status tvk_replica_try(tvk_replica *replica, tvk_transaction *transaction, const void *line, size_t line_length,
                                        uint64_t *length);

/* Tries lines one after another, each as tvk_replica_try does: the text has an LF behind each, but for the last one, which may have
 * none. The answer has a line for each of them, which is empty where it is no line of a transaction.
 * TVK_NO_STORE, TVK_NO_TX, TVK_NULL, TVK_NO_MEMORY. */
TVK_MUST_USE tvk_status tvk_replica_try_lines(tvk_replica *replica, tvk_transaction *transaction, const void *text,
                                              size_t text_length, uint64_t *length);

/* Makes a transaction a block, and leaves its handle without one. The answer is the text of an entry that has it alone.
 * TVK_NO_STORE, TVK_NO_TX, TVK_STAGED where records wait, which is no block and has no answer, TVK_NO_MEMORY. */
TVK_MUST_USE tvk_status tvk_replica_block(tvk_replica *replica, tvk_transaction *transaction, uint64_t *length);

/* Ends a transaction that becomes no block.  TVK_NO_TX. */
tvk_status tvk_replica_end(tvk_transaction *transaction);

/* Takes a MERGE or a CLEAN, without its LF; no answer to a transaction changes by it. The answer is the store's.
 * TVK_NO_STORE, TVK_NULL, TVK_BAD_LINE for any other line, TVK_NO_MEMORY. */
TVK_MUST_USE tvk_status tvk_replica_keep_up(tvk_replica *replica, const void *line, size_t line_length, uint64_t *length);

/* Gives the replica another store with the same records, before this one is out of runs: it makes 65,535, of which each LOAD and
 * PUT takes one, those that are tried too.  TVK_NO_STORE, TVK_NO_MEMORY. */
TVK_MUST_USE tvk_status tvk_replica_renew(tvk_replica *replica);

/* Says how many blocks had committed at the snapshot whose records were taken into this replica.  TVK_NO_STORE, TVK_NO_MEMORY. */
TVK_MUST_USE tvk_status tvk_replica_restore(tvk_replica *replica, uint64_t commits);

/* How many blocks committed.  TVK_NO_STORE, TVK_NO_MEMORY. */
tvk_status tvk_replica_commits(tvk_replica *replica, uint64_t *commits);

/* Copies the answer's bytes from a place on, as many as there is room for: `copied` says how many.  TVK_NO_STORE, TVK_NULL. */
tvk_status tvk_replica_answer(tvk_replica *replica, uint64_t from, void *bytes, size_t room, uint64_t *copied);

/* Opens a log at its beginning.  TVK_NO_STORE, TVK_IS_OPEN, TVK_NO_MEMORY. */
TVK_MUST_USE tvk_status tvk_log_open(tvk_log *log);

/* Opens a log by the snapshot that a floor names: `since` is the revision of the floor before that one, `generation` the one that
 * begins with it.  TVK_NO_STORE, TVK_BAD_LIMIT for generation 0, which begins with no snapshot, TVK_IS_OPEN, TVK_NO_MEMORY. */
TVK_MUST_USE tvk_status tvk_log_open_behind(tvk_log *log, uint64_t since, uint64_t generation);

/* Gives back all memory of a log.  TVK_NO_STORE. */
tvk_status tvk_log_close(tvk_log *log);

/* Tells of a put of an entry's part, under a generation: of a piece by its number, or of TVK_HEAD. `is_new` says that its key wasn't
 * there before. TVK_OK says that an entry counts: its text stands in the log until the next change, and `length` says how many bytes
 * it has.  TVK_NO_STORE, TVK_NULL, TVK_NO_MEMORY, TVK_ABSENT where the put ends no entry that counts, TVK_PARTS_MISSING for one whose
 * text isn't known: where the log was opened by a snapshot, that has the entry. */
TVK_MUST_USE tvk_status tvk_log_put(tvk_log *log, uint64_t revision, uint64_t generation, const tvk_entry_name *name, uint64_t part,
                                    int is_new, const void *text, size_t text_length, uint64_t *length);

/* Tells that the floor moved: the revision of the one before it, the generation that begins, and who wrote the snapshot. One that is
 * known already says nothing.  TVK_NO_STORE, TVK_WENT_BACK, TVK_NO_MEMORY. */
TVK_MUST_USE tvk_status tvk_log_move(tvk_log *log, uint64_t revision, uint64_t since, uint64_t generation, uint64_t writer_high,
                                     uint64_t writer_low);

/* Under which generation parts are put now, also those of an entry that was on its way while the floor moved, and hasn't counted.
 * TVK_NO_STORE, TVK_NO_MEMORY, TVK_WENT_BACK. */
tvk_status tvk_log_generation(tvk_log *log, uint64_t *generation);

/* Behind which revision a reader has to begin by a snapshot that has all entries up to this one.  TVK_NO_STORE, TVK_NO_MEMORY,
 * TVK_WENT_BACK. */
tvk_status tvk_log_first_behind(tvk_log *log, uint64_t revision, uint64_t *first);

/* Whether a snapshot may be written that has all entries up to this revision: the newest floor came before, so `may` is 1, or it is
 * 0.  TVK_NO_STORE, TVK_NO_MEMORY, TVK_WENT_BACK. */
tvk_status tvk_log_may_be_left(tvk_log *log, uint64_t revision, int *may);

/* Copies the bytes of the entry's text from a place on, as many as there is room for: `copied` says how many. There are none where
 * the last change ended no entry.  TVK_NO_STORE, TVK_NULL. */
tvk_status tvk_log_text(tvk_log *log, uint64_t from, void *bytes, size_t room, uint64_t *copied);

/* Opens a handle at which nobody waits, and nothing is known of the log's end.  TVK_NO_STORE, TVK_IS_OPEN, TVK_NO_MEMORY. */
TVK_MUST_USE tvk_status tvk_waits_open(tvk_waits *waits);

/* Gives back all memory of those that wait.  TVK_NO_STORE. */
tvk_status tvk_waits_close(tvk_waits *waits);

/* Has a client's blocks, of so many bytes, wait behind all others, under a number that is told: from 1 on, each above all before.
 * TVK_NO_STORE, TVK_NULL, TVK_NO_MEMORY, by which nothing waits that didn't. */
TVK_MUST_USE tvk_status tvk_waits_enter(tvk_waits *waits, uint64_t bytes, uint64_t *number);

/* Lets those go on their way that have waited longest: the first one whatever its size, and further ones as long as all have at most
 * `most_bytes` and there is room for their numbers. These go out in their order; `count` says how many. It takes no memory.
 * TVK_NO_STORE, TVK_NULL. */
TVK_MUST_USE tvk_status tvk_waits_hand_over(tvk_waits *waits, uint64_t most_bytes, uint64_t *numbers, size_t room, uint64_t *count);

/* The blocks of this number came to their end in the log: TVK_OK says that their client is to be told, and they are gone. It takes no
 * memory.  TVK_NO_STORE, TVK_ABSENT where they aren't on their way. */
TVK_MUST_USE tvk_status tvk_waits_settle(tvk_waits *waits, uint64_t number);

/* The time of the blocks of this number is over: TVK_UNREACHABLE where they still waited, and are never handed over, TVK_UNKNOWN where
 * they were on their way. They are gone, and their client is to be told so. It takes no memory.  TVK_NO_STORE, TVK_ABSENT where
 * neither. */
TVK_MUST_USE tvk_status tvk_waits_expire(tvk_waits *waits, uint64_t number);

/* All that the log has up to this revision is applied, or more was before. It takes no memory.  TVK_NO_STORE. */
tvk_status tvk_waits_reach(tvk_waits *waits, uint64_t revision);

/* The cluster was asked after this moment where the log's end is, and answered this revision.  TVK_NO_STORE, TVK_NO_MEMORY, by which
 * nothing is known of that answer. */
TVK_MUST_USE tvk_status tvk_waits_answered(tvk_waits *waits, uint64_t asked, uint64_t end);

/* The newest moment of a question whose answer is applied: 0 where there is none.  TVK_NO_STORE. */
tvk_status tvk_waits_known(tvk_waits *waits, uint64_t *asked);

/* Whether a read by the log that began at this moment may be answered: a question that was put since then has its answer, and all up
 * to that is applied, so `is` is 1, or it is 0. No read begins at 0.  TVK_NO_STORE. */
tvk_status tvk_waits_is_reached(tvk_waits *waits, uint64_t begun, int *is);

#ifdef __cplusplus
}
#endif

#endif
