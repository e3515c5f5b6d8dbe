/* Times the same records and operations in Tiuvrokk and in other stores that live in a program, in one run, and tells the
 * times of the others as multiples of its own:
 *     peers RECORDS OPERATIONS FOLDER
 * Keys have 16 bytes, in no order, values 64. Each store is in memory: SQLite as `:memory:`, the others' files in a folder
 * that is to be on tmpfs, and none is told to wait for a disk. Built with those stores whose WITH_.. is defined. */
#define _POSIX_C_SOURCE 200809L
#include <stdint.h>
#include <stdio.h>
#include <stdlib.h>
#include <string.h>
#include <sys/stat.h>
#include <time.h>
#include <tiuvrokk.h>
#ifdef WITH_SQLITE
#include <sqlite3.h>
#endif
#ifdef WITH_LMDB
#include <lmdb.h>
#endif
#ifdef WITH_ROCKSDB
#include <rocksdb/c.h>
#endif

enum { KEY = 16, VALUE = 64, RUN = 62500, SCAN = 100 };

typedef struct { unsigned char key[KEY], value[VALUE]; } record;

/* What is timed of a store. `wide` says that a transaction will have more operations than it may have locks. */
typedef struct {
    const char *name;
    void (*open)(const char *folder);
    void (*load)(const record *sorted, size_t number);
    void (*begin)(int writes, int wide);
    void (*commit)(void);
    void (*get)(const unsigned char *key, unsigned char *value);
    void (*insert)(const record *new);
    void (*replace)(const record *new);
    void (*drop)(const unsigned char *key);
    size_t (*scan)(const unsigned char *from, unsigned char *values);
} peer;

static void must(int fine, const char *what) {
    if (fine) return;
    fprintf(stderr, "peers: %s\n", what);
    exit(1);
}

/* Tiuvrokk. */
static tvk_store tvk = TVK_CLOSED;
static uint64_t tvk_tx;
static void tvk_is(tvk_status status) { must(status == TVK_OK, tvk_name(status)); }
static void t_open(const char *folder) {
    (void)folder;
    tvk_is(tvk_open(&tvk));
}
static void t_begin(int writes, int wide) {
    tvk_is(tvk_begin(&tvk, &tvk_tx));
    static const unsigned char greatest[TVK_MAX_KEY] = {255};
    if (wide) tvk_is(tvk_lock(&tvk, tvk_tx, writes ? TVK_EXCLUSIVE : TVK_SHARED, NULL, 0, greatest, TVK_MAX_KEY, NULL));
}
static void t_commit(void) { tvk_is(tvk_commit(&tvk, tvk_tx, NULL)); }
static void t_load(const record *sorted, size_t number) {
    tvk_record *run = calloc(RUN, sizeof *run);
    t_begin(1, 0);
    for (size_t first = 0; first < number; first += RUN) {
        size_t many = number - first < RUN ? number - first : RUN;
        for (size_t i = 0; i < many; i++) {
            run[i].key.length = KEY;
            memcpy(run[i].key.bytes, sorted[first + i].key, KEY);
            run[i].value.length = VALUE;
            memcpy(run[i].value.bytes, sorted[first + i].value, VALUE);
        }
        tvk_is(tvk_load(&tvk, tvk_tx, run, many, NULL, NULL));
    }
    t_commit();
    free(run);
}
static void t_get(const unsigned char *key, unsigned char *value) {
    tvk_value found;
    tvk_is(tvk_get(&tvk, tvk_tx, key, KEY, &found, NULL));
    memcpy(value, found.bytes, VALUE);
}
static void t_insert(const record *new) { tvk_is(tvk_insert(&tvk, tvk_tx, new->key, KEY, new->value, VALUE, NULL)); }
static void t_replace(const record *new) { tvk_is(tvk_replace(&tvk, tvk_tx, new->key, KEY, new->value, VALUE, NULL)); }
static void t_drop(const unsigned char *key) { tvk_is(tvk_delete(&tvk, tvk_tx, key, KEY, NULL)); }
static size_t t_scan(const unsigned char *from, unsigned char *values) {
    static tvk_record rows[SCAN];
    static const unsigned char greatest[TVK_MAX_KEY] = {255};
    uint64_t told;
    tvk_is(tvk_scan(&tvk, tvk_tx, from, KEY, greatest, TVK_MAX_KEY, rows, SCAN, &told));
    for (size_t i = 0; i < told; i++) memcpy(values + i * VALUE, rows[i].value.bytes, VALUE);
    return (size_t)told;
}

#ifdef WITH_SQLITE
static sqlite3 *sql;
enum { BEGIN, COMMIT, GET, INSERT, REPLACE, DROP, READ, STATEMENTS };
static sqlite3_stmt *said[STATEMENTS];
static void s_open(const char *folder) {
    static const char *const texts[] = {
        "BEGIN", "COMMIT", "SELECT v FROM r WHERE k = ?1", "INSERT INTO r VALUES (?1, ?2)", "UPDATE r SET v = ?2 WHERE k = ?1",
        "DELETE FROM r WHERE k = ?1", "SELECT v FROM r WHERE k >= ?1 ORDER BY k LIMIT 100",
    };
    (void)folder;
    must(!sqlite3_open(":memory:", &sql), "sqlite3_open");
    must(!sqlite3_exec(sql, "CREATE TABLE r (k BLOB PRIMARY KEY, v BLOB) WITHOUT ROWID", NULL, NULL, NULL), "CREATE");
    for (int i = 0; i < STATEMENTS; i++) must(!sqlite3_prepare_v2(sql, texts[i], -1, &said[i], NULL), texts[i]);
}
static sqlite3_stmt *with(int which, const unsigned char *key, const unsigned char *value) {
    if (key) sqlite3_bind_blob(said[which], 1, key, KEY, SQLITE_STATIC);
    if (value) sqlite3_bind_blob(said[which], 2, value, VALUE, SQLITE_STATIC);
    return said[which];
}
static void s_do(int which, const unsigned char *key, const unsigned char *value) {
    sqlite3_stmt *it = with(which, key, value);
    must(sqlite3_step(it) == SQLITE_DONE, sqlite3_errmsg(sql));
    sqlite3_reset(it);
}
static void s_begin(int writes, int wide) {
    (void)writes, (void)wide;
    s_do(BEGIN, NULL, NULL);
}
static void s_commit(void) { s_do(COMMIT, NULL, NULL); }
static void s_get(const unsigned char *key, unsigned char *value) {
    sqlite3_stmt *it = with(GET, key, NULL);
    must(sqlite3_step(it) == SQLITE_ROW, "a row");
    memcpy(value, sqlite3_column_blob(it, 0), VALUE);
    sqlite3_reset(it);
}
static void s_insert(const record *new) { s_do(INSERT, new->key, new->value); }
static void s_replace(const record *new) { s_do(REPLACE, new->key, new->value); }
static void s_drop(const unsigned char *key) { s_do(DROP, key, NULL); }
static size_t s_scan(const unsigned char *from, unsigned char *values) {
    sqlite3_stmt *it = with(READ, from, NULL);
    size_t rows = 0;
    while (sqlite3_step(it) == SQLITE_ROW) memcpy(values + rows++ * VALUE, sqlite3_column_blob(it, 0), VALUE);
    sqlite3_reset(it);
    return rows;
}
static void s_load(const record *sorted, size_t number) {
    s_begin(1, 1);
    for (size_t i = 0; i < number; i++) s_insert(&sorted[i]);
    s_commit();
}
#endif

#ifdef WITH_LMDB
static MDB_env *env;
static MDB_dbi dbi;
static MDB_txn *txn;
static MDB_cursor *cursor;
static void l_is(int status) { must(!status, mdb_strerror(status)); }
static void l_begin(int writes, int wide) {
    (void)wide;
    l_is(mdb_txn_begin(env, NULL, writes ? 0 : MDB_RDONLY, &txn));
}
static void l_commit(void) {
    l_is(mdb_txn_commit(txn));
}
static void l_open(const char *folder) {
    char path[4096];
    snprintf(path, sizeof path, "%s/lmdb", folder);
    mkdir(path, 0700);
    l_is(mdb_env_create(&env));
    l_is(mdb_env_set_mapsize(env, (size_t)4 << 30));
    l_is(mdb_env_open(env, path, MDB_NOSYNC | MDB_WRITEMAP, 0600));
    l_begin(1, 0);
    l_is(mdb_dbi_open(txn, NULL, 0, &dbi));
    l_commit();
}
static MDB_val of(const void *bytes, size_t length) { return (MDB_val){length, (void *)(uintptr_t)bytes}; }
static void l_put(const record *new, unsigned flags) {
    MDB_val key = of(new->key, KEY), value = of(new->value, VALUE);
    l_is(mdb_put(txn, dbi, &key, &value, flags));
}
static void l_load(const record *sorted, size_t number) {
    l_begin(1, 1);
    for (size_t i = 0; i < number; i++) l_put(&sorted[i], MDB_APPEND);
    l_commit();
}
static void l_get(const unsigned char *at, unsigned char *value) {
    MDB_val key = of(at, KEY), found;
    l_is(mdb_get(txn, dbi, &key, &found));
    memcpy(value, found.mv_data, VALUE);
}
static void l_insert(const record *new) { l_put(new, MDB_NOOVERWRITE); }
static void l_replace(const record *new) { l_put(new, 0); }
static void l_drop(const unsigned char *at) {
    MDB_val key = of(at, KEY);
    l_is(mdb_del(txn, dbi, &key, NULL));
}
static size_t l_scan(const unsigned char *from, unsigned char *values) {
    MDB_val key = of(from, KEY), value;
    size_t rows = 0;
    l_is(mdb_cursor_open(txn, dbi, &cursor));
    for (int status = mdb_cursor_get(cursor, &key, &value, MDB_SET_RANGE); !status && rows < SCAN;
         status = mdb_cursor_get(cursor, &key, &value, MDB_NEXT))
        memcpy(values + rows++ * VALUE, value.mv_data, VALUE);
    mdb_cursor_close(cursor);
    return rows;
}
#endif

#ifdef WITH_ROCKSDB
static rocksdb_transactiondb_t *rocks;
static rocksdb_transaction_t *rocks_tx;
static rocksdb_writeoptions_t *rocks_writes;
static rocksdb_readoptions_t *rocks_reads;
static rocksdb_transaction_options_t *rocks_options;
static char *rocks_error;
static void r_is(void) { must(!rocks_error, rocks_error); }
static void r_open(const char *folder) {
    char path[4096];
    snprintf(path, sizeof path, "%s/rocksdb", folder);
    rocksdb_options_t *options = rocksdb_options_create();
    rocksdb_transactiondb_options_t *more = rocksdb_transactiondb_options_create();
    rocksdb_options_set_create_if_missing(options, 1);
    rocks_writes = rocksdb_writeoptions_create();
    rocks_reads = rocksdb_readoptions_create();
    rocks_options = rocksdb_transaction_options_create();
    rocks = rocksdb_transactiondb_open(options, more, path, &rocks_error);
    r_is();
}
static void r_begin(int writes, int wide) {
    (void)writes, (void)wide;
    rocks_tx = rocksdb_transaction_begin(rocks, rocks_writes, rocks_options, rocks_tx);
}
static void r_commit(void) {
    rocksdb_transaction_commit(rocks_tx, &rocks_error);
    r_is();
}
static void r_read(const unsigned char *key, unsigned char *value, int is_there, int exclusive) {
    size_t length;
    char *found = rocksdb_transaction_get_for_update(rocks_tx, rocks_reads, (const char *)key, KEY, &length, (unsigned char)exclusive,
                                                     &rocks_error);
    r_is();
    must(!found == !is_there, "a record that is there or not");
    if (found && value) memcpy(value, found, VALUE);
    free(found);
}
static void r_put(const record *new) {
    rocksdb_transaction_put(rocks_tx, (const char *)new->key, KEY, (const char *)new->value, VALUE, &rocks_error);
    r_is();
}
static void r_get(const unsigned char *key, unsigned char *value) { r_read(key, value, 1, 0); }
/* It has no insert and no replace that look whether the key is there: they read first, as every program on it would. */
static void r_insert(const record *new) {
    r_read(new->key, NULL, 0, 1);
    r_put(new);
}
static void r_replace(const record *new) {
    r_read(new->key, NULL, 1, 1);
    r_put(new);
}
static void r_drop(const unsigned char *key) {
    r_read(key, NULL, 1, 1);
    rocksdb_transaction_delete(rocks_tx, (const char *)key, KEY, &rocks_error);
    r_is();
}
static size_t r_scan(const unsigned char *from, unsigned char *values) {
    rocksdb_iterator_t *it = rocksdb_transaction_create_iterator(rocks_tx, rocks_reads);
    size_t rows = 0, length;
    for (rocksdb_iter_seek(it, (const char *)from, KEY); rocksdb_iter_valid(it) && rows < SCAN; rocksdb_iter_next(it))
        memcpy(values + rows++ * VALUE, rocksdb_iter_value(it, &length), VALUE);
    rocksdb_iter_destroy(it);
    return rows;
}
static void r_load(const record *sorted, size_t number) {
    for (size_t first = 0; first < number; first += 4096) {
        r_begin(1, 1);
        for (size_t i = first; i < number && i < first + 4096; i++) r_put(&sorted[i]);
        r_commit();
    }
}
#endif

static const peer peers[] = {
    {"tiuvrokk", t_open, t_load, t_begin, t_commit, t_get, t_insert, t_replace, t_drop, t_scan},
#ifdef WITH_SQLITE
    {"sqlite", s_open, s_load, s_begin, s_commit, s_get, s_insert, s_replace, s_drop, s_scan},
#endif
#ifdef WITH_LMDB
    {"lmdb", l_open, l_load, l_begin, l_commit, l_get, l_insert, l_replace, l_drop, l_scan},
#endif
#ifdef WITH_ROCKSDB
    {"rocksdb", r_open, r_load, r_begin, r_commit, r_get, r_insert, r_replace, r_drop, r_scan},
#endif
};
enum { PEERS = sizeof peers / sizeof *peers };

static uint64_t state = 1;
static uint64_t any(void) {
    state ^= state << 13;
    state ^= state >> 7;
    return state ^= state << 17;
}

static record record_of(uint64_t number, unsigned mark) {
    uint64_t mixed = number * 0x9e3779b97f4a7c15u;
    record it;
    memset(it.value, (int)mark, VALUE);
    for (int i = 0; i < 8; i++) {
        it.key[i] = (unsigned char)(mixed >> (56 - 8 * i)) & 0x7f;
        it.key[8 + i] = it.value[i] = (unsigned char)(number >> (56 - 8 * i));
    }
    return it;
}

static int by_key(const void *a, const void *b) { return memcmp(a, b, KEY); }

static double now(void) {
    struct timespec it;
    clock_gettime(CLOCK_MONOTONIC, &it);
    return (double)it.tv_sec * 1e9 + (double)it.tv_nsec;
}

static uint64_t records, operations;
enum kind { GETS, INSERTS, REPLACES, DELETES, SCANS };

/* The time of one operation in ns, in transactions of so many. Each store is asked for the same ones. */
static double time_of(const peer *it, enum kind kind, uint64_t each) {
    static unsigned char values[SCAN * VALUE];
    uint64_t number = kind == SCANS ? operations / 20 : operations;
    state = 1 + each;
    double from = now();
    for (uint64_t done = 0; done < number; done += each) {
        it->begin(kind != GETS && kind != SCANS, each > 200);
        for (uint64_t i = done; i < number && i < done + each; i++) {
            record old = record_of(any() % records, 2), new = record_of(records + i, 1);
            switch (kind) {
            case GETS: it->get(old.key, values); break;
            case INSERTS: it->insert(&new); break;
            case REPLACES: it->replace(&old); break;
            case DELETES: it->drop(new.key); break;
            case SCANS: must(it->scan(old.key, values) > 0, "a scan"); break;
            }
        }
        it->commit();
    }
    return (now() - from) / (double)number;
}

static void tell(const char *what, const double *times) {
    printf("%-22s %8.0f", what, times[0]);
    for (int i = 1; i < PEERS; i++) printf(" %9.2fx", times[i] / times[0]);
    printf("\n");
    fflush(stdout);
}

int main(int words, char **word) {
    static const char *const names[] = {"reads", "inserts", "replaces", "deletes"};
    static const enum kind kinds[] = {GETS, INSERTS, REPLACES, DELETES};
    static const uint64_t sizes[] = {1, 10, 200, 4000};
    double times[PEERS];
    must(words == 4, "peers RECORDS OPERATIONS FOLDER");
    records = strtoull(word[1], NULL, 10);
    operations = strtoull(word[2], NULL, 10);
    record *sorted = malloc(records * sizeof *sorted);
    for (uint64_t i = 0; i < records; i++) sorted[i] = record_of(i, 1);
    qsort(sorted, records, sizeof *sorted, by_key);

    printf("%-22s %8s", "", "tiuvrokk");
    for (int i = 1; i < PEERS; i++) printf(" %10s", peers[i].name);
    printf("\n");
    for (int i = 0; i < PEERS; i++) {
        peers[i].open(word[3]);
        double from = now();
        peers[i].load(sorted, records);
        times[i] = (now() - from) / (double)records;
    }
    tell("load", times);
    for (int i = 0; i < PEERS; i++) times[i] = time_of(&peers[i], SCANS, 1);
    tell("scans of 100", times);
    for (int k = 0; k < 4; k++)
        for (int s = 0; s < 4; s++) {
            char what[64];
            for (int i = 0; i < PEERS; i++) {
                /* What is inserted was deleted before, and what is deleted was inserted. */
                if (kinds[k] == DELETES) time_of(&peers[i], INSERTS, 4000);
                times[i] = time_of(&peers[i], kinds[k], sizes[s]);
                if (kinds[k] == INSERTS) time_of(&peers[i], DELETES, 4000);
            }
            snprintf(what, sizeof what, "%s, %d each", names[k], (int)sizes[s]);
            tell(what, times);
        }
    return 0;
}
