/* Tiuvrokk: a transactional keyed store inside a program.
 *
 *     #include <stdio.h>
 *     #include <tiuvrokk.h>
 *
 *     int main(void) {
 *         tvk_store store = TVK_CLOSED;
 *         tvk_value value;
 *         uint64_t tx;
 *         if (tvk_open(&store) || tvk_begin(&store, &tx) || tvk_insert(&store, tx, "ant", 3, "6", 1, NULL)) return 1;
 *         if (tvk_get(&store, tx, "ant", 3, &value, NULL) == TVK_OK)
 *             printf("%.*s\n", (int)value.length, (char *)value.bytes);
 *         return tvk_commit(&store, tx, NULL) || tvk_close(&store);
 *     }
 *
 *     cc demo.c $(pkg-config --cflags --libs tiuvrokk)
 *
 * A store holds records, each a key with a value, in memory. A key is 0 to 32 bytes, a value 0 to 64; keys are ordered byte
 * by byte, as by memcmp, and a beginning of a key comes before the key. Whatever transactions did, the committed ones read
 * and wrote as if they had run one after another in the order of their commits.
 *
 * OWNERSHIP. The store belongs to its handle, from tvk_open to tvk_close. What is passed to a call is only read, and copied
 * where it is kept; what a call writes, it writes into the caller's memory. No pointer into the store ever goes out, and
 * nothing but a handle has to be given back.
 *
 * MEMORY is taken by malloc and realloc and given back by free, and by nothing else. Any call that may want memory may
 * answer TVK_NO_MEMORY, and has changed nothing then; but the runs that tvk_load_sorting, tvk_load_structs and tvk_load_text
 * loaded before stay, as `loaded` tells, and so does what the like calls of tvk_put did. tvk_begin, tvk_commit, tvk_abort, tvk_back and tvk_clean never do, and no call that
 * closes a store or counts.
 *
 * THREADS. Any thread may use a handle, one at a time: it may be opened on one, used on another, and closed on a third, where
 * each is done before the next begins, by a mutex, a join, or a message. The library keeps nothing for a thread, and its memory
 * is malloc's, which any thread may free. Two calls at once on one handle are the caller's fault, and aren't seen. Different
 * handles have nothing in common and may be used at once. The library starts no thread and takes no lock. It is called from no
 * signal handler, and from no child that a process with several threads forked.
 *
 * LOCKS. Each operation of a transaction locks the range of keys that it speaks of, shared to read and exclusive to write,
 * until the transaction ends. A lock is granted or refused at once: no call waits. TVK_BUSY names the transaction that is
 * in the way; the caller may do something else, abort, or try again once that one has ended.
 *
 * UPKEEP. Loaded records stay in their runs until they are merged, and deleted ones, marked, until they are cleaned away; reads
 * pass over both, and none of this changes what anybody reads. Unless tvk_upkeep says otherwise, a commit does some of it: it
 * merges where more than 64 runs have entries, first what was read, and cleans where one entry of 64 is marked. A program that
 * has time calls tvk_tidy, which does some of all that is left; tvk_merge merges only what was read, and tvk_clean cleans.
 *
 * BAD USE that the library can see is answered by a status and changes nothing: a null pointer, a handle without a store,
 * a length, limit or mode out of bounds. What it can't see is the caller's to uphold: a handle is TVK_CLOSED before it is
 * opened, is not copied, and is changed by these calls alone; a pointer leads to as many bytes, rows or records as are
 * said, which for rows, values and numbers told are the caller's to write; nothing that a call writes overlaps what else it
 * is passed.
 *
 * ONE ORDER. Where several things are wrong, the first of these is told, and each call below has its statuses in this order:
 * TVK_NO_STORE; TVK_NULL, TVK_BAD_KEY and TVK_BAD_VALUE, in the order of the arguments; TVK_BAD_LIMIT; TVK_BAD_MODE;
 * TVK_BAD_RANGE; of the records of a load TVK_NO_MEMORY for their copy, and TVK_BAD_LINE, TVK_BAD_KEY and TVK_BAD_VALUE of the
 * first that is wrong; where they are sorted, TVK_NO_MEMORY for their order, TVK_TWICE, and of each run TVK_NO_MEMORY for its
 * copy; and then, by the store, TVK_NO_TX, TVK_TOO_MANY_TX, TVK_TOO_MANY_OPS, TVK_NOT_RISING, TVK_TOO_MANY_RUNS, TVK_BUSY,
 * TVK_TOO_MANY_LOCKS, TVK_NO_MEMORY, and the answer itself. A lock stays where the answer is TVK_ABSENT or TVK_EXISTS.
 *
 * NUMBERS TOLD. The last argument of most calls points to a number, or is NULL where it isn't wanted. It is set by every call
 * that was passed a handle: to what the call says, and where the status is TVK_BUSY or TVK_ENDED to the number of the
 * transaction that is in the way; to 0 where there is nothing to tell. */

#ifndef TIUVROKK_H
#define TIUVROKK_H

#include <stddef.h>
#include <stdint.h>

#define TVK_VERSION "1.1.0"
/* Ten thousand times the major version, a hundred times the minor one, and the patch: what a program was compiled against. */
#define TVK_VERSION_NUMBER 10100

/* The greatest key, of TVK_MAX_KEY bytes: TVK_GREATEST_KEY, TVK_MAX_KEY ends a range that has no end. */
#define TVK_GREATEST_KEY \
    "\xff\xff\xff\xff\xff\xff\xff\xff\xff\xff\xff\xff\xff\xff\xff\xff" \
    "\xff\xff\xff\xff\xff\xff\xff\xff\xff\xff\xff\xff\xff\xff\xff\xff"

/* Behind each call that may be refused: a compiler warns where its status isn't looked at. A program that defines this as nothing,
 * before it includes the header, isn't warned. */
#ifndef TVK_MUST_USE
#if defined(__GNUC__)
#define TVK_MUST_USE __attribute__((warn_unused_result))
#else
#define TVK_MUST_USE
#endif
#endif

#ifdef __cplusplus
extern "C" {
#endif

/* How a call ended. Nothing but what a call lists comes of it. */
typedef enum tvk_status {
    TVK_OK = 0,
    TVK_ABSENT = 1,          /* the key has no record */
    TVK_EXISTS = 2,          /* the key has a record already */
    TVK_BUSY = 3,            /* another transaction holds a lock that is in the way */
    TVK_NO_TX = 4,           /* no transaction of this number is active */
    TVK_NO_MARK = 5,         /* the transaction has no savepoint */
    TVK_DONE = 6,            /* nothing is left to merge for the oldest range that was read, which is forgotten */
    TVK_IDLE = 7,            /* no range is waiting to be merged */
    TVK_ENDED = 8,           /* the next key to merge is locked: the range that was read is forgotten */
    TVK_TOO_MANY_TX = 9,     /* TVK_MAX_TX transactions are active */
    TVK_TOO_MANY_LOCKS = 10, /* the transaction holds TVK_MAX_LOCKS locks, and none of them covers this one */
    TVK_TOO_MANY_OPS = 11,   /* TVK_MAX_OPS operations of the transaction were answered */
    TVK_TOO_MANY_RUNS = 12,  /* TVK_MAX_RUNS runs have entries that weren't merged, or 4,294,967,294 loads were made */
    TVK_NOT_RISING = 13,     /* the records of a load don't rise strictly by key, or there are none */
    TVK_BAD_LIMIT = 14,      /* a number of rows, records or entries is out of bounds */
    TVK_NO_MEMORY = 15,      /* memory was refused, and nothing is changed */
    TVK_NO_STORE = 17,       /* the handle is NULL or has no store */
    TVK_IS_OPEN = 18,        /* the handle has a store already */
    TVK_BAD_KEY = 19,        /* a key is longer than TVK_MAX_KEY bytes */
    TVK_BAD_VALUE = 20,      /* a value is longer than TVK_MAX_VALUE bytes */
    TVK_BAD_RANGE = 21,      /* the first key of a range is above its last */
    TVK_BAD_MODE = 22,       /* neither TVK_SHARED nor TVK_EXCLUSIVE */
    TVK_NULL = 23,           /* a pointer is NULL that may not be */
    TVK_TWICE = 24,          /* a key stands twice in what is to be loaded */
    TVK_BAD_LINE = 25        /* a line has no TAB behind its key */
} tvk_status;

enum {
    TVK_MAX_KEY = 32,       /* bytes of a key */
    TVK_MAX_VALUE = 64,     /* bytes of a value */
    TVK_MAX_TX = 64,        /* transactions that are active at once */
    TVK_MAX_LOCKS = 256,    /* locks of a transaction */
    TVK_MAX_OPS = 4096,     /* operations of a transaction */
    TVK_MAX_RUNS = 65535,   /* runs of a store that have entries */
    TVK_MAX_ROWS = 1000,    /* rows of a scan, and records that tvk_delete_range takes; of tvk_scan_behind and _before one less */
    TVK_MAX_LIMIT = 64      /* entries of a merge or a clean */
};

/* A store. It is opened from TVK_CLOSED, which is all zeros, and is TVK_CLOSED again once it is closed. TVK_CLOSED initializes a
 * handle and can be assigned to one. A static handle needs none, since it is all zeros; gcc -pedantic takes none there. */
typedef struct tvk_store {
    void *at;
} tvk_store;

#ifdef __cplusplus
#define TVK_CLOSED tvk_store()
#else
#define TVK_CLOSED ((tvk_store){ NULL })
#endif

/* A key, a value, and a record, each in full: the first `length` bytes count. What a call writes has zeros behind them. */
typedef struct tvk_key {
    size_t length;
    uint8_t bytes[TVK_MAX_KEY];
} tvk_key;

typedef struct tvk_value {
    size_t length;
    uint8_t bytes[TVK_MAX_VALUE];
} tvk_value;

typedef struct tvk_record {
    tvk_key key;
    tvk_value value;
} tvk_record;

/* Where structs of a caller's own have their keys and values, in bytes. Keys are compared byte by byte, so a number in one has
 * its highest byte first. */
typedef struct tvk_layout {
    size_t size;         /* of a struct */
    size_t key_at;       /* in front of its key */
    size_t key_length;   /* of its key */
    size_t value_at;     /* in front of its value */
    size_t value_length; /* of its value */
} tvk_layout;

/* How large a store is. */
typedef struct tvk_figures_t {
    uint64_t entries;  /* of the index, those marked as deleted too */
    uint64_t in_final; /* those in the final partition */
    uint64_t in_runs;  /* those in loaded runs, from where merges move them */
    uint64_t runs;     /* runs that have entries */
    uint64_t ghosts;   /* entries that are marked as deleted */
    uint64_t active;   /* transactions that are active */
    uint64_t commits;  /* transactions that committed */
} tvk_figures_t;

/* Its name in programs that were written before. */
typedef tvk_figures_t tvk_counts;

typedef enum tvk_mode {
    TVK_SHARED = 0,
    TVK_EXCLUSIVE = 1
} tvk_mode;

/** The name of a status, as "TVK_BUSY". It is a constant, and "?" for a number that is no status. */
const char *tvk_name(tvk_status status);

/** What a status says, as "another transaction holds a lock that is in the way". It is a constant. */
const char *tvk_text(tvk_status status);

/** The version of the library that is linked, as TVK_VERSION has that of the header. It is a constant. */
const char *tvk_version(void);

/** Whether commits merge and clean, of all stores of the program, as they do at first. A commit merges where more than 64 runs have
 * entries: 64 entries, and as many more for each 16 runs beyond, 1,024 at most. It takes away 4,160 entries at most of those that are
 * marked as deleted, and none where fewer than one of 64, or than 64, are.
 *
 * @param on  0 leaves it to tvk_tidy, tvk_merge and tvk_clean
 */
void tvk_upkeep(int on);

/** Opens an empty store.
 *
 * @param[in,out] store  a handle that is TVK_CLOSED
 *
 * @retval TVK_OK         the handle has a store
 * @retval TVK_NO_STORE   `store` is NULL
 * @retval TVK_IS_OPEN    the handle has a store already, which stays
 * @retval TVK_NO_MEMORY  memory was refused
 */
tvk_status tvk_open(tvk_store *store) TVK_MUST_USE;

/** Gives back all memory of the store, whatever is open in it. The handle is TVK_CLOSED then.
 *
 * @param[in,out] store  the store
 *
 * @retval TVK_OK        it is closed
 * @retval TVK_NO_STORE  the handle is NULL or has no store
 */
tvk_status tvk_close(tvk_store *store);

/** Begins a transaction.
 *
 * @param[in,out] store  the store
 * @param[out] tx        the transaction's number: they rise by one from 1
 *
 * @retval TVK_OK           it is begun
 * @retval TVK_NO_STORE     the handle is NULL or has no store
 * @retval TVK_TOO_MANY_TX  TVK_MAX_TX transactions are active
 */
tvk_status tvk_begin(tvk_store *store, uint64_t *tx) TVK_MUST_USE;

/** Commits a transaction. Its locks end.
 *
 * @param[in,out] store  the store
 * @param tx             the transaction
 * @param[out] commit    the number of the commit: they rise by one from 1
 *
 * @retval TVK_OK        it is committed
 * @retval TVK_NO_STORE  the handle is NULL or has no store
 * @retval TVK_NO_TX     no transaction of this number is active
 */
tvk_status tvk_commit(tvk_store *store, uint64_t tx, uint64_t *commit) TVK_MUST_USE;

/** Takes back what a transaction wrote, and ends it. Its locks end.
 *
 * @param[in,out] store  the store
 * @param tx             the transaction
 *
 * @retval TVK_OK        it is aborted
 * @retval TVK_NO_STORE  the handle is NULL or has no store
 * @retval TVK_NO_TX     no transaction of this number is active
 */
tvk_status tvk_abort(tvk_store *store, uint64_t tx);

/** Sets a savepoint.
 *
 * @param[in,out] store  the store
 * @param tx             the transaction
 *
 * @retval TVK_OK            it is set
 * @retval TVK_NO_STORE      the handle is NULL or has no store
 * @retval TVK_NO_TX         no transaction of this number is active
 * @retval TVK_TOO_MANY_OPS  TVK_MAX_OPS operations of the transaction were answered
 * @retval TVK_NO_MEMORY     memory was refused
 */
tvk_status tvk_mark(tvk_store *store, uint64_t tx) TVK_MUST_USE;

/** Takes back what was written since the newest savepoint, which goes. Locks stay.
 *
 * @param[in,out] store  the store
 * @param tx             the transaction
 *
 * @retval TVK_OK            it is taken back
 * @retval TVK_NO_STORE      the handle is NULL or has no store
 * @retval TVK_NO_TX         no transaction of this number is active
 * @retval TVK_TOO_MANY_OPS  TVK_MAX_OPS operations of the transaction were answered
 * @retval TVK_NO_MARK       the transaction has no savepoint
 */
tvk_status tvk_back(tvk_store *store, uint64_t tx) TVK_MUST_USE;

/** Reads a record. Its key is locked, shared.
 *
 * @param[in,out] store   the store
 * @param tx              the transaction
 * @param[in] key         the key's bytes: NULL where there are none
 * @param key_length      how many they are
 * @param[out] value      the record's value; as it was wherever the status isn't TVK_OK
 * @param[out] holder     the transaction that is in the way, or 0; NULL where it isn't wanted
 *
 * @retval TVK_OK              `value` is the record's
 * @retval TVK_NO_STORE        the handle is NULL or has no store
 * @retval TVK_BAD_KEY         the key is longer than TVK_MAX_KEY bytes
 * @retval TVK_NULL            `value` is NULL, or `key` is and has a length
 * @retval TVK_NO_TX           no transaction of this number is active
 * @retval TVK_TOO_MANY_OPS    TVK_MAX_OPS operations of the transaction were answered
 * @retval TVK_BUSY            `holder` has a lock that is in the way
 * @retval TVK_TOO_MANY_LOCKS  the transaction holds TVK_MAX_LOCKS locks, and none of them covers the key
 * @retval TVK_NO_MEMORY       memory was refused
 * @retval TVK_ABSENT          the key has no record
 */
tvk_status tvk_get(tvk_store *store, uint64_t tx, const void *key, size_t key_length, tvk_value *value,
                   uint64_t *holder) TVK_MUST_USE;

/** Adds a record. Its key is locked, exclusive.
 *
 * @param[in,out] store   the store
 * @param tx              the transaction
 * @param[in] key         the key's bytes: NULL where there are none
 * @param key_length      how many they are
 * @param[in] value       the value's bytes: NULL where there are none
 * @param value_length    how many they are
 * @param[out] holder     the transaction that is in the way, or 0; NULL where it isn't wanted
 *
 * @retval TVK_OK              the record is added
 * @retval TVK_NO_STORE        the handle is NULL or has no store
 * @retval TVK_BAD_KEY         the key is longer than TVK_MAX_KEY bytes
 * @retval TVK_BAD_VALUE       the value is longer than TVK_MAX_VALUE bytes
 * @retval TVK_NULL            `key` or `value` is NULL and has a length
 * @retval TVK_NO_TX           no transaction of this number is active
 * @retval TVK_TOO_MANY_OPS    TVK_MAX_OPS operations of the transaction were answered
 * @retval TVK_BUSY            `holder` has a lock that is in the way
 * @retval TVK_TOO_MANY_LOCKS  the transaction holds TVK_MAX_LOCKS locks, and none of them covers the key
 * @retval TVK_NO_MEMORY       memory was refused
 * @retval TVK_EXISTS          the key has a record, which is as it was
 */
tvk_status tvk_insert(tvk_store *store, uint64_t tx, const void *key, size_t key_length, const void *value,
                      size_t value_length, uint64_t *holder) TVK_MUST_USE;

/** Gives a record another value. Its key is locked, exclusive.
 *
 * @param[in,out] store   the store
 * @param tx              the transaction
 * @param[in] key         the key's bytes: NULL where there are none
 * @param key_length      how many they are
 * @param[in] value       the value's bytes: NULL where there are none
 * @param value_length    how many they are
 * @param[out] holder     the transaction that is in the way, or 0; NULL where it isn't wanted
 *
 * @retval TVK_OK              the record has the value
 * @retval TVK_NO_STORE        the handle is NULL or has no store
 * @retval TVK_BAD_KEY         the key is longer than TVK_MAX_KEY bytes
 * @retval TVK_BAD_VALUE       the value is longer than TVK_MAX_VALUE bytes
 * @retval TVK_NULL            `key` or `value` is NULL and has a length
 * @retval TVK_NO_TX           no transaction of this number is active
 * @retval TVK_TOO_MANY_OPS    TVK_MAX_OPS operations of the transaction were answered
 * @retval TVK_BUSY            `holder` has a lock that is in the way
 * @retval TVK_TOO_MANY_LOCKS  the transaction holds TVK_MAX_LOCKS locks, and none of them covers the key
 * @retval TVK_NO_MEMORY       memory was refused
 * @retval TVK_ABSENT          the key has no record, and gets none
 */
tvk_status tvk_replace(tvk_store *store, uint64_t tx, const void *key, size_t key_length, const void *value,
                       size_t value_length, uint64_t *holder) TVK_MUST_USE;

/** Sets a record: as tvk_replace where its key has one, and else as tvk_insert. Its key is locked, exclusive.
 *
 * @param[in,out] store   the store
 * @param tx              the transaction
 * @param[in] key         the key's bytes: NULL where there are none
 * @param key_length      how many they are
 * @param[in] value       the value's bytes: NULL where there are none
 * @param value_length    how many they are
 * @param[out] holder     the transaction that is in the way, or 0; NULL where it isn't wanted
 *
 * @retval TVK_OK              the record has the value
 * @retval TVK_NO_STORE        the handle is NULL or has no store
 * @retval TVK_BAD_KEY         the key is longer than TVK_MAX_KEY bytes
 * @retval TVK_BAD_VALUE       the value is longer than TVK_MAX_VALUE bytes
 * @retval TVK_NULL            `key` or `value` is NULL and has a length
 * @retval TVK_NO_TX           no transaction of this number is active
 * @retval TVK_TOO_MANY_OPS    TVK_MAX_OPS operations of the transaction were answered
 * @retval TVK_BUSY            `holder` has a lock that is in the way
 * @retval TVK_TOO_MANY_LOCKS  the transaction holds TVK_MAX_LOCKS locks, and none of them covers the key
 * @retval TVK_NO_MEMORY       memory was refused
 */
tvk_status tvk_set(tvk_store *store, uint64_t tx, const void *key, size_t key_length, const void *value,
                   size_t value_length, uint64_t *holder) TVK_MUST_USE;

/** Takes a record away. Its key is locked, exclusive.
 *
 * @param[in,out] store   the store
 * @param tx              the transaction
 * @param[in] key         the key's bytes: NULL where there are none
 * @param key_length      how many they are
 * @param[out] holder     the transaction that is in the way, or 0; NULL where it isn't wanted
 *
 * @retval TVK_OK              the key has no record any more
 * @retval TVK_NO_STORE        the handle is NULL or has no store
 * @retval TVK_BAD_KEY         the key is longer than TVK_MAX_KEY bytes
 * @retval TVK_NULL            `key` is NULL and has a length
 * @retval TVK_NO_TX           no transaction of this number is active
 * @retval TVK_TOO_MANY_OPS    TVK_MAX_OPS operations of the transaction were answered
 * @retval TVK_BUSY            `holder` has a lock that is in the way
 * @retval TVK_TOO_MANY_LOCKS  the transaction holds TVK_MAX_LOCKS locks, and none of them covers the key
 * @retval TVK_NO_MEMORY       memory was refused
 * @retval TVK_ABSENT          the key had no record
 */
tvk_status tvk_delete(tvk_store *store, uint64_t tx, const void *key, size_t key_length, uint64_t *holder) TVK_MUST_USE;

/** Takes the first records of a range away, by rising key: as many as there are, at most `limit`. The whole range is locked,
 * exclusive. It is one operation, however many go.
 *
 * @param[in,out] store   the store
 * @param tx              the transaction
 * @param[in] lo          the least key of the range: NULL where it has no bytes
 * @param lo_length       how many bytes it has
 * @param[in] hi          the greatest key of the range
 * @param hi_length       how many bytes it has
 * @param limit           1 to TVK_MAX_ROWS
 * @param[out] told       how many records went, or the transaction that is in the way, or 0; NULL where it isn't wanted. Fewer than
 *                        `limit` are all that there were
 *
 * @retval TVK_OK              `told` records went
 * @retval TVK_NO_STORE        the handle is NULL or has no store
 * @retval TVK_BAD_KEY         a key is longer than TVK_MAX_KEY bytes
 * @retval TVK_NULL            a key is NULL and has a length
 * @retval TVK_BAD_LIMIT       `limit` is out of bounds
 * @retval TVK_BAD_RANGE       `lo` is above `hi`
 * @retval TVK_NO_TX           no transaction of this number is active
 * @retval TVK_TOO_MANY_OPS    TVK_MAX_OPS operations of the transaction were answered
 * @retval TVK_BUSY            `told` has a lock that is in the way
 * @retval TVK_TOO_MANY_LOCKS  the transaction holds TVK_MAX_LOCKS locks, and none of them covers the range
 * @retval TVK_NO_MEMORY       memory was refused
 */
tvk_status tvk_delete_range(tvk_store *store, uint64_t tx, const void *lo, size_t lo_length, const void *hi,
                            size_t hi_length, uint64_t limit, uint64_t *told) TVK_MUST_USE;

/** Adds records as a new run, all of them or none. They can be read at once; merging brings them to their place later, where
 * they are read. The range from the first key to the last is locked, exclusive.
 *
 * @param[in,out] store   the store
 * @param tx              the transaction
 * @param[in] records     the records, which rise strictly by key
 * @param number          how many they are
 * @param[out] exists     where the status is TVK_EXISTS, the least of the keys that has a record; NULL where it isn't wanted
 * @param[out] holder     the transaction that is in the way, or 0; NULL where it isn't wanted
 *
 * @retval TVK_OK              the records are added
 * @retval TVK_NO_STORE        the handle is NULL or has no store
 * @retval TVK_NULL            `records` is NULL, and `number` isn't 0
 * @retval TVK_BAD_KEY         a key is longer than TVK_MAX_KEY bytes
 * @retval TVK_BAD_VALUE       a value is longer than TVK_MAX_VALUE bytes
 * @retval TVK_NO_TX           no transaction of this number is active
 * @retval TVK_TOO_MANY_OPS    TVK_MAX_OPS operations of the transaction were answered
 * @retval TVK_NOT_RISING      the records don't rise strictly by key, or there are none
 * @retval TVK_TOO_MANY_RUNS   TVK_MAX_RUNS runs have entries, or 4,294,967,294 loads were made
 * @retval TVK_BUSY            `holder` has a lock that is in the way
 * @retval TVK_TOO_MANY_LOCKS  the transaction holds TVK_MAX_LOCKS locks, and none of them covers the range
 * @retval TVK_NO_MEMORY       memory was refused: for the run, or, in front of TVK_BAD_KEY, for a copy of the records
 * @retval TVK_EXISTS          a key has a record: `exists`
 */
tvk_status tvk_load(tvk_store *store, uint64_t tx, const tvk_record *records, size_t number, tvk_key *exists,
                    uint64_t *holder) TVK_MUST_USE;

/** Adds records in any order. The first 65,536 of them make the first run, the next 65,536 the second, and so on; each run is
 * sorted, and they are loaded in turn, each as by tvk_load, until one is refused. No savepoint is set: what was loaded before
 * the refused run stays. Then abort, or go back to a savepoint of your own, or go on later with the records behind `loaded`.
 * Each run that is loaded is an operation, and locks the range from its first key to its last, exclusive: where there are more
 * than 255 runs, lock all keys first. Records are read where they lie, and none is copied but into the index.
 *
 * @param[in,out] store   the store
 * @param tx              the transaction
 * @param[in] records     the records
 * @param number          how many they are
 * @param[out] key        where the status is TVK_TWICE, the least key that stands twice; where it is TVK_EXISTS, the least key of
 *                        the refused run that has a record; NULL where it isn't wanted
 * @param[out] loaded     how many records stand before the refused run, and all are counted where none is; NULL where it isn't
 *                        wanted
 * @param[out] holder     the transaction that is in the way, or 0; NULL where it isn't wanted
 *
 * @retval TVK_OK              the records are added
 * @retval TVK_NO_STORE        the handle is NULL or has no store
 * @retval TVK_NULL            `records` is NULL, and `number` isn't 0
 * @retval TVK_BAD_KEY         a key is longer than TVK_MAX_KEY bytes; none is loaded
 * @retval TVK_BAD_VALUE       a value is longer than TVK_MAX_VALUE bytes; none is loaded
 * @retval TVK_TWICE           a key stands twice: `key`; none is loaded
 * @retval TVK_NO_TX           no transaction of this number is active
 * @retval TVK_TOO_MANY_OPS    TVK_MAX_OPS operations of the transaction were answered
 * @retval TVK_NOT_RISING      there are no records
 * @retval TVK_TOO_MANY_RUNS   TVK_MAX_RUNS runs have entries, or 4,294,967,294 loads were made
 * @retval TVK_BUSY            `holder` has a lock that is in the way
 * @retval TVK_TOO_MANY_LOCKS  the transaction holds TVK_MAX_LOCKS locks, and none of them covers the range
 * @retval TVK_NO_MEMORY       memory was refused: for a run; or in front of TVK_TWICE for the order of the records, and then none
 *                             is loaded
 * @retval TVK_EXISTS          a key of the refused run has a record: `key`
 */
tvk_status tvk_load_sorting(tvk_store *store, uint64_t tx, const tvk_record *records, size_t number, tvk_key *key,
                            uint64_t *loaded, uint64_t *holder) TVK_MUST_USE;

/** Adds the records of an array of structs, as tvk_load_sorting does: each struct has its key and its value at the same places,
 * as `layout` says, so keys have one length, and values have one. They are read where they lie. Where they have 128 bytes at
 * most and come in no order, a run of them at a time is copied first, which is sooner, if memory is to be had.
 *
 * @param[in,out] store   the store
 * @param tx              the transaction
 * @param[in] structs     the structs, one behind another
 * @param number          how many they are
 * @param[in] layout      where each has its key and its value
 * @param[out] key        as of tvk_load_sorting
 * @param[out] loaded     as of tvk_load_sorting
 * @param[out] holder     the transaction that is in the way, or 0; NULL where it isn't wanted
 *
 * @retval TVK_OK              the records are added
 * @retval TVK_NO_STORE        the handle is NULL or has no store
 * @retval TVK_NULL            `structs` is NULL, and `number` isn't 0, or `layout` is NULL
 * @retval TVK_BAD_KEY         a key is longer than TVK_MAX_KEY bytes, or doesn't lie within its struct; none is loaded
 * @retval TVK_BAD_VALUE       a value is longer than TVK_MAX_VALUE bytes, or doesn't lie within its struct; none is loaded
 * @retval TVK_TWICE           a key stands twice: `key`; none is loaded
 * @retval TVK_NO_TX           no transaction of this number is active
 * @retval TVK_TOO_MANY_OPS    TVK_MAX_OPS operations of the transaction were answered
 * @retval TVK_NOT_RISING      there are no structs
 * @retval TVK_TOO_MANY_RUNS   TVK_MAX_RUNS runs have entries, or 4,294,967,294 loads were made
 * @retval TVK_BUSY            `holder` has a lock that is in the way
 * @retval TVK_TOO_MANY_LOCKS  the transaction holds TVK_MAX_LOCKS locks, and none of them covers the range
 * @retval TVK_NO_MEMORY       memory was refused: for a run; or in front of TVK_BAD_KEY for the records, also where so many
 *                             structs have no room in any memory, or in front of TVK_TWICE for their order, and then none is
 *                             loaded
 * @retval TVK_EXISTS          a key of the refused run has a record: `key`
 */
tvk_status tvk_load_structs(tvk_store *store, uint64_t tx, const void *structs, size_t number, const tvk_layout *layout,
                            tvk_key *key, uint64_t *loaded, uint64_t *holder) TVK_MUST_USE;

/** Adds the records of a text, as tvk_load_sorting does: each line has a key, a TAB, a value and an LF, which the last line may
 * lack. The key is what stands in front of the line's first TAB, and the value is all behind it up to the LF, a CR too. Either
 * may be empty, but an empty line is wrong.
 *
 * @param[in,out] store   the store
 * @param tx              the transaction
 * @param[in] text        the text: NULL where it has no bytes
 * @param length          how many bytes it has
 * @param[out] key        as of tvk_load_sorting
 * @param[out] line       where the status is TVK_BAD_LINE, TVK_BAD_KEY or TVK_BAD_VALUE, the number of the first line that is no
 *                        record, from 1; else 0; NULL where it isn't wanted
 * @param[out] loaded     as of tvk_load_sorting
 * @param[out] holder     the transaction that is in the way, or 0; NULL where it isn't wanted
 *
 * @retval TVK_OK              the records are added
 * @retval TVK_NO_STORE        the handle is NULL or has no store
 * @retval TVK_NULL            `text` is NULL, and `length` isn't 0
 * @retval TVK_BAD_LINE        `line` has no TAB; none is loaded
 * @retval TVK_BAD_KEY         the key of `line` is longer than TVK_MAX_KEY bytes; none is loaded
 * @retval TVK_BAD_VALUE       the value of `line` is longer than TVK_MAX_VALUE bytes; none is loaded
 * @retval TVK_TWICE           a key stands twice: `key`; none is loaded
 * @retval TVK_NO_TX           no transaction of this number is active
 * @retval TVK_TOO_MANY_OPS    TVK_MAX_OPS operations of the transaction were answered
 * @retval TVK_NOT_RISING      the text is empty
 * @retval TVK_TOO_MANY_RUNS   TVK_MAX_RUNS runs have entries, or 4,294,967,294 loads were made
 * @retval TVK_BUSY            `holder` has a lock that is in the way
 * @retval TVK_TOO_MANY_LOCKS  the transaction holds TVK_MAX_LOCKS locks, and none of them covers the range
 * @retval TVK_NO_MEMORY       memory was refused: for a run; or in front of TVK_BAD_LINE for the places of its lines, or in front
 *                             of TVK_TWICE for the order of its records, and then none is loaded
 * @retval TVK_EXISTS          a key of the refused run has a record: `key`
 */
tvk_status tvk_load_text(tvk_store *store, uint64_t tx, const void *text, size_t length, tvk_key *key, uint64_t *line,
                         uint64_t *loaded, uint64_t *holder) TVK_MUST_USE;

/** Sets records, which rise strictly by key, all of them or none: each whose key has a record gets its value there, and the others
 * make a new run, as by tvk_load. The range from the first key to the last is locked, exclusive. It is one operation.
 *
 * @param[in,out] store   the store
 * @param tx              the transaction
 * @param[in] records     the records
 * @param number          how many they are
 * @param[out] holder     the transaction that is in the way, or 0; NULL where it isn't wanted
 *
 * @retval TVK_OK              the records are set
 * @retval TVK_NO_STORE        the handle is NULL or has no store
 * @retval TVK_NULL            `records` is NULL, and `number` isn't 0
 * @retval TVK_BAD_KEY         a key is longer than TVK_MAX_KEY bytes
 * @retval TVK_BAD_VALUE       a value is longer than TVK_MAX_VALUE bytes
 * @retval TVK_NO_TX           no transaction of this number is active
 * @retval TVK_TOO_MANY_OPS    TVK_MAX_OPS operations of the transaction were answered
 * @retval TVK_NOT_RISING      the records don't rise strictly by key, or there are none
 * @retval TVK_TOO_MANY_RUNS   TVK_MAX_RUNS runs have entries, or 4,294,967,294 were made
 * @retval TVK_BUSY            `holder` has a lock that is in the way
 * @retval TVK_TOO_MANY_LOCKS  the transaction holds TVK_MAX_LOCKS locks, and none of them covers the range
 * @retval TVK_NO_MEMORY       memory was refused
 */
tvk_status tvk_put(tvk_store *store, uint64_t tx, const tvk_record *records, size_t number, uint64_t *holder) TVK_MUST_USE;

/** Sets records in any order: the first 65,536 of them are sorted and put, then the next 65,536, and so on, each as by tvk_put,
 * until one is refused. What was put before stays, as by tvk_load_sorting.
 *
 * @param[in,out] store   the store
 * @param tx              the transaction
 * @param[in] records     the records
 * @param number          how many they are
 * @param[out] key        where the status is TVK_TWICE, the least key that stands twice; NULL where it isn't wanted
 * @param[out] done       how many records stand before those that were refused; NULL where it isn't wanted
 * @param[out] holder     the transaction that is in the way, or 0; NULL where it isn't wanted
 *
 * @retval TVK_OK              the records are set
 * @retval TVK_NO_STORE        the handle is NULL or has no store
 * @retval TVK_NULL            `records` is NULL, and `number` isn't 0
 * @retval TVK_BAD_KEY         a key is longer than TVK_MAX_KEY bytes; none is put
 * @retval TVK_BAD_VALUE       a value is longer than TVK_MAX_VALUE bytes; none is put
 * @retval TVK_TWICE           a key stands twice: `key`; none is put
 * @retval TVK_NO_TX           no transaction of this number is active
 * @retval TVK_TOO_MANY_OPS    TVK_MAX_OPS operations of the transaction were answered
 * @retval TVK_NOT_RISING      there are no records
 * @retval TVK_TOO_MANY_RUNS   TVK_MAX_RUNS runs have entries, or 4,294,967,294 were made
 * @retval TVK_BUSY            `holder` has a lock that is in the way
 * @retval TVK_TOO_MANY_LOCKS  the transaction holds TVK_MAX_LOCKS locks, and none of them covers the range
 * @retval TVK_NO_MEMORY       memory was refused, as of tvk_load_sorting
 */
tvk_status tvk_put_sorting(tvk_store *store, uint64_t tx, const tvk_record *records, size_t number, tvk_key *key,
                           uint64_t *done, uint64_t *holder) TVK_MUST_USE;

/** Sets the records of an array of structs, as tvk_put_sorting does, each with its key and its value as of tvk_load_structs.
 *
 * @param[in,out] store   the store
 * @param tx              the transaction
 * @param[in] structs     the structs, one behind another
 * @param number          how many they are
 * @param[in] layout      where each has its key and its value
 * @param[out] key        as of tvk_put_sorting
 * @param[out] done       as of tvk_put_sorting
 * @param[out] holder     the transaction that is in the way, or 0; NULL where it isn't wanted
 *
 * @retval TVK_OK              the records are set
 * @retval TVK_NO_STORE        the handle is NULL or has no store
 * @retval TVK_NULL            `structs` is NULL, and `number` isn't 0, or `layout` is NULL
 * @retval TVK_BAD_KEY         a key is longer than TVK_MAX_KEY bytes, or doesn't lie within its struct; none is put
 * @retval TVK_BAD_VALUE       a value is longer than TVK_MAX_VALUE bytes, or doesn't lie within its struct; none is put
 * @retval TVK_TWICE           a key stands twice: `key`; none is put
 * @retval TVK_NO_TX           no transaction of this number is active
 * @retval TVK_TOO_MANY_OPS    TVK_MAX_OPS operations of the transaction were answered
 * @retval TVK_NOT_RISING      there are no structs
 * @retval TVK_TOO_MANY_RUNS   TVK_MAX_RUNS runs have entries, or 4,294,967,294 were made
 * @retval TVK_BUSY            `holder` has a lock that is in the way
 * @retval TVK_TOO_MANY_LOCKS  the transaction holds TVK_MAX_LOCKS locks, and none of them covers the range
 * @retval TVK_NO_MEMORY       memory was refused, as of tvk_load_structs
 */
tvk_status tvk_put_structs(tvk_store *store, uint64_t tx, const void *structs, size_t number, const tvk_layout *layout,
                           tvk_key *key, uint64_t *done, uint64_t *holder) TVK_MUST_USE;

/** Sets the records of a text, as tvk_put_sorting does, whose lines are those of tvk_load_text.
 *
 * @param[in,out] store   the store
 * @param tx              the transaction
 * @param[in] text        the text: NULL where it has no bytes
 * @param length          how many bytes it has
 * @param[out] key        as of tvk_put_sorting
 * @param[out] line       as of tvk_load_text
 * @param[out] done       as of tvk_put_sorting
 * @param[out] holder     the transaction that is in the way, or 0; NULL where it isn't wanted
 *
 * @retval TVK_OK              the records are set
 * @retval TVK_NO_STORE        the handle is NULL or has no store
 * @retval TVK_NULL            `text` is NULL, and `length` isn't 0
 * @retval TVK_BAD_LINE        `line` has no TAB; none is put
 * @retval TVK_BAD_KEY         the key of `line` is longer than TVK_MAX_KEY bytes; none is put
 * @retval TVK_BAD_VALUE       the value of `line` is longer than TVK_MAX_VALUE bytes; none is put
 * @retval TVK_TWICE           a key stands twice: `key`; none is put
 * @retval TVK_NO_TX           no transaction of this number is active
 * @retval TVK_TOO_MANY_OPS    TVK_MAX_OPS operations of the transaction were answered
 * @retval TVK_NOT_RISING      the text is empty
 * @retval TVK_TOO_MANY_RUNS   TVK_MAX_RUNS runs have entries, or 4,294,967,294 were made
 * @retval TVK_BUSY            `holder` has a lock that is in the way
 * @retval TVK_TOO_MANY_LOCKS  the transaction holds TVK_MAX_LOCKS locks, and none of them covers the range
 * @retval TVK_NO_MEMORY       memory was refused, as of tvk_load_text
 */
tvk_status tvk_put_text(tvk_store *store, uint64_t tx, const void *text, size_t length, tvk_key *key, uint64_t *line,
                        uint64_t *done, uint64_t *holder) TVK_MUST_USE;

/** Reads the first records of a range by rising key: as many as there are, at most `limit`. The whole range is locked, shared.
 *
 * @param[in,out] store   the store
 * @param tx              the transaction
 * @param[in] lo          the least key of the range: NULL where it has no bytes
 * @param lo_length       how many bytes it has
 * @param[in] hi          the greatest key of the range
 * @param hi_length       how many bytes it has
 * @param[out] rows       room for `limit` records
 * @param limit           1 to TVK_MAX_ROWS
 * @param[out] told       how many records went to `rows`, or the transaction that is in the way, or 0
 *
 * @retval TVK_OK              `told` records are read
 * @retval TVK_NO_STORE        the handle is NULL or has no store
 * @retval TVK_BAD_KEY         a key is longer than TVK_MAX_KEY bytes
 * @retval TVK_NULL            `rows` is NULL, or a key is and has a length
 * @retval TVK_BAD_LIMIT       `limit` is out of bounds
 * @retval TVK_BAD_RANGE       `lo` is above `hi`
 * @retval TVK_NO_TX           no transaction of this number is active
 * @retval TVK_TOO_MANY_OPS    TVK_MAX_OPS operations of the transaction were answered
 * @retval TVK_BUSY            `told` has a lock that is in the way
 * @retval TVK_TOO_MANY_LOCKS  the transaction holds TVK_MAX_LOCKS locks, and none of them covers the range
 * @retval TVK_NO_MEMORY       memory was refused
 */
tvk_status tvk_scan(tvk_store *store, uint64_t tx, const void *lo, size_t lo_length, const void *hi, size_t hi_length,
                    tvk_record *rows, size_t limit, uint64_t *told) TVK_MUST_USE;

/** Goes on with a scan: reads the first records behind `key`, the last key of the rows before. The range from `key` to `hi` is
 * locked, shared.
 *
 * @param[in,out] store   the store
 * @param tx              the transaction
 * @param[in] key         the key that the records are behind: NULL where it has no bytes
 * @param key_length      how many bytes it has
 * @param[in] hi          the greatest key of the range
 * @param hi_length       how many bytes it has
 * @param[out] rows       room for `limit` records
 * @param limit           1 to TVK_MAX_ROWS - 1
 * @param[out] told       how many records went to `rows`, or the transaction that is in the way, or 0
 *
 * @retval TVK_OK              `told` records are read
 * @retval TVK_NO_STORE        the handle is NULL or has no store
 * @retval TVK_BAD_KEY         a key is longer than TVK_MAX_KEY bytes
 * @retval TVK_NULL            `rows` is NULL, or a key is and has a length
 * @retval TVK_BAD_LIMIT       `limit` is out of bounds
 * @retval TVK_BAD_RANGE       `key` is above `hi`
 * @retval TVK_NO_TX           no transaction of this number is active
 * @retval TVK_TOO_MANY_OPS    TVK_MAX_OPS operations of the transaction were answered
 * @retval TVK_BUSY            `told` has a lock that is in the way
 * @retval TVK_TOO_MANY_LOCKS  the transaction holds TVK_MAX_LOCKS locks, and none of them covers the range
 * @retval TVK_NO_MEMORY       memory was refused
 */
tvk_status tvk_scan_behind(tvk_store *store, uint64_t tx, const void *key, size_t key_length, const void *hi,
                           size_t hi_length, tvk_record *rows, size_t limit, uint64_t *told) TVK_MUST_USE;

/** Reads the last records of a range, from the highest key down: as many as there are, at most `limit`. The whole range is locked,
 * shared.
 *
 * @param[in,out] store   the store
 * @param tx              the transaction
 * @param[in] lo          the least key of the range: NULL where it has no bytes
 * @param lo_length       how many bytes it has
 * @param[in] hi          the greatest key of the range
 * @param hi_length       how many bytes it has
 * @param[out] rows       room for `limit` records
 * @param limit           1 to TVK_MAX_ROWS
 * @param[out] told       how many records went to `rows`, or the transaction that is in the way, or 0
 *
 * @retval TVK_OK              `told` records are read
 * @retval TVK_NO_STORE        the handle is NULL or has no store
 * @retval TVK_BAD_KEY         a key is longer than TVK_MAX_KEY bytes
 * @retval TVK_NULL            `rows` is NULL, or a key is and has a length
 * @retval TVK_BAD_LIMIT       `limit` is out of bounds
 * @retval TVK_BAD_RANGE       `lo` is above `hi`
 * @retval TVK_NO_TX           no transaction of this number is active
 * @retval TVK_TOO_MANY_OPS    TVK_MAX_OPS operations of the transaction were answered
 * @retval TVK_BUSY            `told` has a lock that is in the way
 * @retval TVK_TOO_MANY_LOCKS  the transaction holds TVK_MAX_LOCKS locks, and none of them covers the range
 * @retval TVK_NO_MEMORY       memory was refused
 */
tvk_status tvk_scan_back(tvk_store *store, uint64_t tx, const void *lo, size_t lo_length, const void *hi, size_t hi_length,
                         tvk_record *rows, size_t limit, uint64_t *told) TVK_MUST_USE;

/** Goes on with a scan back: reads the last records before `key`, the last key of the rows before, from the highest key down. The
 * range from `lo` to `key` is locked, shared.
 *
 * @param[in,out] store   the store
 * @param tx              the transaction
 * @param[in] lo          the least key of the range: NULL where it has no bytes
 * @param lo_length       how many bytes it has
 * @param[in] key         the key that the records are before
 * @param key_length      how many bytes it has
 * @param[out] rows       room for `limit` records
 * @param limit           1 to TVK_MAX_ROWS - 1
 * @param[out] told       how many records went to `rows`, or the transaction that is in the way, or 0
 *
 * @retval TVK_OK              `told` records are read
 * @retval TVK_NO_STORE        the handle is NULL or has no store
 * @retval TVK_BAD_KEY         a key is longer than TVK_MAX_KEY bytes
 * @retval TVK_NULL            `rows` is NULL, or a key is and has a length
 * @retval TVK_BAD_LIMIT       `limit` is out of bounds
 * @retval TVK_BAD_RANGE       `lo` is above `key`
 * @retval TVK_NO_TX           no transaction of this number is active
 * @retval TVK_TOO_MANY_OPS    TVK_MAX_OPS operations of the transaction were answered
 * @retval TVK_BUSY            `told` has a lock that is in the way
 * @retval TVK_TOO_MANY_LOCKS  the transaction holds TVK_MAX_LOCKS locks, and none of them covers the range
 * @retval TVK_NO_MEMORY       memory was refused
 */
tvk_status tvk_scan_before(tvk_store *store, uint64_t tx, const void *lo, size_t lo_length, const void *key,
                           size_t key_length, tvk_record *rows, size_t limit, uint64_t *told) TVK_MUST_USE;

/** Locks a range, absent keys too.
 *
 * @param[in,out] store   the store
 * @param tx              the transaction
 * @param mode            TVK_SHARED to read, TVK_EXCLUSIVE to write
 * @param[in] lo          the least key of the range: NULL where it has no bytes
 * @param lo_length       how many bytes it has
 * @param[in] hi          the greatest key of the range
 * @param hi_length       how many bytes it has
 * @param[out] holder     the transaction that is in the way, or 0; NULL where it isn't wanted
 *
 * @retval TVK_OK              the range is locked
 * @retval TVK_NO_STORE        the handle is NULL or has no store
 * @retval TVK_BAD_KEY         a key is longer than TVK_MAX_KEY bytes
 * @retval TVK_NULL            a key is NULL and has a length
 * @retval TVK_BAD_MODE        `mode` is neither
 * @retval TVK_BAD_RANGE       `lo` is above `hi`
 * @retval TVK_NO_TX           no transaction of this number is active
 * @retval TVK_TOO_MANY_OPS    TVK_MAX_OPS operations of the transaction were answered
 * @retval TVK_BUSY            `holder` has a lock that is in the way
 * @retval TVK_TOO_MANY_LOCKS  the transaction holds TVK_MAX_LOCKS locks, and none of them covers the range
 * @retval TVK_NO_MEMORY       memory was refused
 */
tvk_status tvk_lock(tvk_store *store, uint64_t tx, tvk_mode mode, const void *lo, size_t lo_length, const void *hi,
                    size_t hi_length, uint64_t *holder) TVK_MUST_USE;

/** Moves records of the oldest range that was read from loaded runs to their final place. No transaction sees a difference.
 *
 * @param[in,out] store  the store
 * @param limit          the most entries that are worked off, 1 to TVK_MAX_LIMIT
 * @param[out] told      how many entries of a run were worked off, or the transaction that is in the way, or 0
 *
 * @retval TVK_OK         `told` entries were worked off
 * @retval TVK_NO_STORE   the handle is NULL or has no store
 * @retval TVK_BAD_LIMIT  `limit` is out of bounds
 * @retval TVK_DONE       nothing is left to merge for the range, which is forgotten
 * @retval TVK_IDLE       no range is waiting to be merged
 * @retval TVK_ENDED      the next key to merge is locked by `told`, and the range is forgotten
 * @retval TVK_NO_MEMORY  memory was refused
 */
tvk_status tvk_merge(tvk_store *store, uint64_t limit, uint64_t *told);

/** Does some of what is left to merge and to clean: merges up to 256 entries, first where was read, then by rising keys what
 * nobody reads; and where nothing is left to merge cleans up to 64, if one entry of 1,024 is marked as deleted. A program calls it
 * while it has nothing else to do and `told` is 1. No transaction sees a difference.
 *
 * @param[in,out] store  the store
 * @param[out] told      1 where something was merged or cleaned, so that more may be left; 0 where nothing is left, or nothing
 *                       but what transactions have locked
 *
 * @retval TVK_OK         `told` says whether another call may do more
 * @retval TVK_NO_STORE   the handle is NULL or has no store
 * @retval TVK_NO_MEMORY  memory was refused
 */
tvk_status tvk_tidy(tvk_store *store, uint64_t *told);

/** Takes away entries of a range that are marked as deleted. No transaction sees a difference.
 *
 * @param[in,out] store  the store
 * @param[in] lo         the least key of the range: NULL where it has no bytes
 * @param lo_length      how many bytes it has
 * @param[in] hi         the greatest key of the range
 * @param hi_length      how many bytes it has
 * @param limit          the most entries that are taken away, 1 to TVK_MAX_LIMIT
 * @param[out] told      how many were taken away
 *
 * @retval TVK_OK         `told` entries were taken away
 * @retval TVK_NO_STORE   the handle is NULL or has no store
 * @retval TVK_BAD_KEY    a key is longer than TVK_MAX_KEY bytes
 * @retval TVK_NULL       a key is NULL and has a length
 * @retval TVK_BAD_LIMIT  `limit` is out of bounds
 * @retval TVK_BAD_RANGE  `lo` is above `hi`
 */
tvk_status tvk_clean(tvk_store *store, const void *lo, size_t lo_length, const void *hi, size_t hi_length, uint64_t limit,
                     uint64_t *told);

/** Tells how many transactions committed.
 *
 * @param[in,out] store  the store
 * @param[out] told      the number
 *
 * @retval TVK_OK        it is told
 * @retval TVK_NO_STORE  the handle is NULL or has no store
 */
tvk_status tvk_commits(tvk_store *store, uint64_t *told);

/** Tells how many entries the index has, those marked as deleted too.
 *
 * @param[in,out] store  the store
 * @param[out] told      the number
 *
 * @retval TVK_OK        it is told
 * @retval TVK_NO_STORE  the handle is NULL or has no store
 */
tvk_status tvk_entries(tvk_store *store, uint64_t *told);

/** Tells how large the store is. It takes no memory, and looks at no entry.
 *
 * @param[in,out] store  the store
 * @param[out] figures   the numbers, which a refused call leaves as they were
 *
 * @retval TVK_OK        they are told
 * @retval TVK_NO_STORE  the handle is NULL or has no store
 * @retval TVK_NULL      `figures` is NULL
 */
tvk_status tvk_figures(tvk_store *store, tvk_figures_t *figures);

#ifdef __cplusplus
}
#endif

#endif
