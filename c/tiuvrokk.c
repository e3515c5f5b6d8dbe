/* The calls of tiuvrokk.h over the exports of crates/am_c, which take no null pointer: here each pointer is tested, and each
 * limit, so that all faults of a call's arguments are told before the store is asked; a store gets its hash key; and a commit
 * cleans some of what was deleted, and merges some of what nobody reads. Nothing else is done. */
#define _DEFAULT_SOURCE /* getentropy */
#include "tiuvrokk.h"
#include "hash_words.h"

#include <stdatomic.h>

/* What the exports take: a handle that isn't null, texts as pointer and length, and where to write what they tell. */
uint32_t tiuvrokk_open(tvk_store *store, uint64_t first, uint64_t second);
uint32_t tiuvrokk_close(tvk_store *store);
uint32_t tiuvrokk_begin(tvk_store *store, uint64_t *told);
uint32_t tiuvrokk_commit(tvk_store *store, uint64_t tx, uint64_t *told);
uint32_t tiuvrokk_abort(tvk_store *store, uint64_t tx, uint64_t *told);
uint32_t tiuvrokk_mark(tvk_store *store, uint64_t tx, uint64_t *told);
uint32_t tiuvrokk_back(tvk_store *store, uint64_t tx, uint64_t *told);
uint32_t tiuvrokk_get(tvk_store *store, uint64_t tx, const void *key, size_t key_length, tvk_value *value, uint64_t *told);
uint32_t tiuvrokk_insert(tvk_store *store, uint64_t tx, const void *key, size_t key_length, const void *value,
                         size_t value_length, uint64_t *told);
uint32_t tiuvrokk_replace(tvk_store *store, uint64_t tx, const void *key, size_t key_length, const void *value,
                          size_t value_length, uint64_t *told);
uint32_t tiuvrokk_set(tvk_store *store, uint64_t tx, const void *key, size_t key_length, const void *value,
                      size_t value_length, uint64_t *told);
uint32_t tiuvrokk_delete(tvk_store *store, uint64_t tx, const void *key, size_t key_length, uint64_t *told);
uint32_t tiuvrokk_load(tvk_store *store, uint64_t tx, const tvk_record *records, size_t number, tvk_key *exists,
                       uint64_t *told);
uint32_t tiuvrokk_load_sorting(tvk_store *store, uint64_t tx, const tvk_record *records, size_t number, tvk_key *key,
                               uint64_t *loaded, uint64_t *told);
uint32_t tiuvrokk_load_structs(tvk_store *store, uint64_t tx, const void *structs, size_t length, size_t number,
                               const tvk_layout *layout, tvk_key *key, uint64_t *loaded, uint64_t *told);
uint32_t tiuvrokk_load_text(tvk_store *store, uint64_t tx, const void *text, size_t length, tvk_key *key, uint64_t *line,
                            uint64_t *loaded, uint64_t *told);
uint32_t tiuvrokk_put(tvk_store *store, uint64_t tx, const tvk_record *records, size_t number, uint64_t *told);
uint32_t tiuvrokk_put_sorting(tvk_store *store, uint64_t tx, const tvk_record *records, size_t number, tvk_key *key,
                              uint64_t *loaded, uint64_t *told);
uint32_t tiuvrokk_put_structs(tvk_store *store, uint64_t tx, const void *structs, size_t length, size_t number,
                              const tvk_layout *layout, tvk_key *key, uint64_t *loaded, uint64_t *told);
uint32_t tiuvrokk_put_text(tvk_store *store, uint64_t tx, const void *text, size_t length, tvk_key *key, uint64_t *line,
                           uint64_t *loaded, uint64_t *told);
uint32_t tiuvrokk_scan(tvk_store *store, uint64_t tx, const void *lo, size_t lo_length, const void *hi, size_t hi_length,
                       tvk_record *rows, size_t limit, uint64_t *told);
uint32_t tiuvrokk_scan_behind(tvk_store *store, uint64_t tx, const void *key, size_t key_length, const void *hi,
                              size_t hi_length, tvk_record *rows, size_t limit, uint64_t *told);
uint32_t tiuvrokk_scan_back(tvk_store *store, uint64_t tx, const void *lo, size_t lo_length, const void *hi,
                            size_t hi_length, tvk_record *rows, size_t limit, uint64_t *told);
uint32_t tiuvrokk_scan_before(tvk_store *store, uint64_t tx, const void *lo, size_t lo_length, const void *key,
                              size_t key_length, tvk_record *rows, size_t limit, uint64_t *told);
uint32_t tiuvrokk_delete_range(tvk_store *store, uint64_t tx, const void *lo, size_t lo_length, const void *hi,
                               size_t hi_length, uint64_t limit, uint64_t *told);
uint32_t tiuvrokk_lock(tvk_store *store, uint64_t tx, uint32_t mode, const void *lo, size_t lo_length, const void *hi,
                       size_t hi_length, uint64_t *told);
uint32_t tiuvrokk_merge(tvk_store *store, uint64_t limit, uint64_t *told);
uint32_t tiuvrokk_next_in_runs(tvk_store *store, const void *lo, size_t lo_length, const void *hi, size_t hi_length, tvk_key *end);
uint32_t tiuvrokk_clean(tvk_store *store, const void *lo, size_t lo_length, const void *hi, size_t hi_length,
                        uint64_t limit, uint64_t *told);
uint32_t tiuvrokk_commits(tvk_store *store, uint64_t *told);
uint32_t tiuvrokk_entries(tvk_store *store, uint64_t *told);
uint32_t tiuvrokk_figures(tvk_store *store, tvk_figures_t *figures);

/* What a text of no bytes points to, and a list of no records. */
static const char no_bytes[1];
static tvk_record no_records[1];

/* Tests the handle, and lets the number go nowhere where it isn't wanted. */
#define BEGIN                                \
    uint64_t unwanted;                       \
    if (!told) told = &unwanted;             \
    *told = 0;                               \
    if (!store || !store->at) return TVK_NO_STORE

#define NEEDS(pointer)                       \
    if (!(pointer)) return TVK_NULL

/* A text is as long as its kind may be, and is null only where it is empty. */
#define TEXT(text, most, bad)                \
    if (text##_length > (most)) return bad;  \
    if (!(text)) {                           \
        if (text##_length) return TVK_NULL;  \
        text = no_bytes;                     \
    }

#define KEY(key) TEXT(key, TVK_MAX_KEY, TVK_BAD_KEY)
#define VALUE(value) TEXT(value, TVK_MAX_VALUE, TVK_BAD_VALUE)

static const struct {
    const char *name, *text;
} statuses[] = {
    {"TVK_OK", "the call did what it is for"},
    {"TVK_ABSENT", "the key has no record"},
    {"TVK_EXISTS", "the key has a record already"},
    {"TVK_BUSY", "another transaction holds a lock that is in the way"},
    {"TVK_NO_TX", "no transaction of this number is active"},
    {"TVK_NO_MARK", "the transaction has no savepoint"},
    {"TVK_DONE", "nothing is left to merge for the oldest range that was read"},
    {"TVK_IDLE", "no range is waiting to be merged"},
    {"TVK_ENDED", "the next key to merge is locked by a transaction"},
    {"TVK_TOO_MANY_TX", "64 transactions are active, and may be no more: commit or abort one"},
    {"TVK_TOO_MANY_LOCKS", "the transaction holds 256 locks, and may hold no more: a lock of a whole range, asked for first, is one"},
    {"TVK_TOO_MANY_OPS", "4096 operations of the transaction were answered, and may be no more: a load, a put or a scan of many records is one"},
    {"TVK_TOO_MANY_RUNS", "65535 runs have entries, or 4294967294 loads were made: merge, or load larger runs"},
    {"TVK_NOT_RISING", "the records of a load don't rise strictly by key, or there are none"},
    {"TVK_BAD_LIMIT", "a number of rows, records or entries is out of bounds"},
    {"TVK_NO_MEMORY", "memory was refused, and nothing is changed"},
    {"?", "no status has this number"},
    {"TVK_NO_STORE", "the handle has no store"},
    {"TVK_IS_OPEN", "the handle has a store already"},
    {"TVK_BAD_KEY", "a key is longer than 32 bytes"},
    {"TVK_BAD_VALUE", "a value is longer than 64 bytes"},
    {"TVK_BAD_RANGE", "the first key of a range is above its last"},
    {"TVK_BAD_MODE", "a lock is neither shared nor exclusive"},
    {"TVK_NULL", "a pointer is NULL that may not be"},
    {"TVK_TWICE", "a key stands twice in what is to be loaded"},
    {"TVK_BAD_LINE", "a line has no TAB behind its key"},
};

/* Where the words for a status stand; 16 is none. */
static size_t place_of(tvk_status status) { return (size_t)status < sizeof statuses / sizeof *statuses ? (size_t)status : 16; }

const char *tvk_name(tvk_status status) { return statuses[place_of(status)].name; }

const char *tvk_text(tvk_status status) { return statuses[place_of(status)].text; }

const char *tvk_version(void) { return TVK_VERSION; }

tvk_status tvk_open(tvk_store *store) {
    uint64_t words[2];
    if (!store) return TVK_NO_STORE;
    draw_words(words);
    return tiuvrokk_open(store, words[0], words[1]);
}

tvk_status tvk_close(tvk_store *store) {
    if (!store) return TVK_NO_STORE;
    return tiuvrokk_close(store);
}

tvk_status tvk_begin(tvk_store *store, uint64_t *told) {
    BEGIN;
    return tiuvrokk_begin(store, told);
}

static atomic_int keeps_up = 1;

void tvk_upkeep(int on) { atomic_store(&keeps_up, on); }

/* One clean step finds 64 ghosts at most, and walks to them from the beginning of the index: so it is made where one entry of
 * 64 is a ghost. A transaction that deletes one by one deletes no more records than so many steps clean, and one that deletes
 * ranges leaves some to the commits that follow. */
#define FEWEST_GHOSTS 64
#define ENTRIES_TO_A_GHOST 64
#define MOST_STEPS (TVK_MAX_OPS / TVK_MAX_LIMIT + 1)

/* Whether so many entries are ghosts that a clean step pays. Those that an active transaction has locked stay: beside one,
 * only some commits look. */
static int pays_to_clean(tvk_store *store) {
    tvk_figures_t figures;
    if (tiuvrokk_figures(store, &figures)) return 0;
    if (figures.ghosts < FEWEST_GHOSTS || figures.ghosts < figures.entries / ENTRIES_TO_A_GHOST) return 0;
    return !figures.active || figures.commits % FEWEST_GHOSTS == 0;
}

static void clean_some(tvk_store *store) {
    uint64_t cleaned = TVK_MAX_LIMIT;
    int steps;
    for (steps = 0; steps < MOST_STEPS && cleaned == TVK_MAX_LIMIT && pays_to_clean(store); steps++)
        if (tiuvrokk_clean(store, no_bytes, 0, TVK_GREATEST_KEY, TVK_MAX_KEY, TVK_MAX_LIMIT, &cleaned)) return;
}

/* Reads what comes next in runs from the key on, which leaves the wish to merge it, and says whether it did; the key is then that
 * at which it goes on. What others have locked is passed over. The transaction is aborted, so that the numbers of commits are those
 * of the program's own. */
static int ask_for_next(tvk_store *store, tvk_key *from) {
    tvk_record row;
    uint64_t tx, told;
    tvk_status status = TVK_BUSY;
    int tries;
    for (tries = 0; tries < 4 && status == TVK_BUSY; tries++) {
        tvk_key end;
        if (tiuvrokk_next_in_runs(store, from->bytes, from->length, TVK_GREATEST_KEY, TVK_MAX_KEY, &end)) return 0;
        if (tiuvrokk_begin(store, &tx)) return 0;
        status = tiuvrokk_scan(store, tx, from->bytes, from->length, end.bytes, end.length, &row, 1, &told);
        tiuvrokk_abort(store, tx, &told);
        *from = end;
    }
    return status == TVK_OK;
}

/* Takes so many steps of a merge: of what was read, and then of what nobody reads. Tells how many entries were worked off. */
static tvk_status merge_some(tvk_store *store, uint64_t steps, uint64_t *all) {
    tvk_key from = {0, {0}};
    for (*all = 0; steps; steps--) {
        uint64_t told;
        tvk_status status = tiuvrokk_merge(store, TVK_MAX_LIMIT, &told);
        if (status == TVK_NO_MEMORY) return status;
        if (status == TVK_OK) *all += told;
        if (status == TVK_IDLE && !ask_for_next(store, &from)) break;
    }
    return TVK_OK;
}

/* Where more than so many runs have entries a commit merges, and takes a step more for each RUNS_TO_A_STEP beyond: then runs don't
 * get many more, whether a program loads little at once or much. What a step reads takes the longer the more runs there are, so
 * steps become more soon. */
#define FEW_RUNS 64
#define RUNS_TO_A_STEP 16
#define MOST_MERGES 16

static void merge_where_runs_are_many(tvk_store *store) {
    tvk_figures_t figures;
    uint64_t steps, worked_off;
    if (tiuvrokk_figures(store, &figures) || figures.runs <= FEW_RUNS) return;
    steps = 1 + (figures.runs - FEW_RUNS) / RUNS_TO_A_STEP;
    merge_some(store, steps < MOST_MERGES ? steps : MOST_MERGES, &worked_off);
}

tvk_status tvk_commit(tvk_store *store, uint64_t tx, uint64_t *told) {
    tvk_status status;
    BEGIN;
    status = tiuvrokk_commit(store, tx, told);
    if (status == TVK_OK && atomic_load_explicit(&keeps_up, memory_order_relaxed)) {
        clean_some(store);
        merge_where_runs_are_many(store);
    }
    return status;
}

/* How many steps of a merge a call takes that has time, and how many entries there may be to a ghost for it to clean. */
#define STEPS_OF_A_CALL 4
#define ENTRIES_TO_A_GHOST_LEFT 1024

tvk_status tvk_tidy(tvk_store *store, uint64_t *told) {
    tvk_figures_t figures;
    uint64_t done;
    tvk_status status;
    BEGIN;
    status = merge_some(store, STEPS_OF_A_CALL, &done);
    if (!status && !done && !tiuvrokk_figures(store, &figures) && figures.ghosts > figures.entries / ENTRIES_TO_A_GHOST_LEFT)
        status = tiuvrokk_clean(store, no_bytes, 0, TVK_GREATEST_KEY, TVK_MAX_KEY, TVK_MAX_LIMIT, &done);
    *told = !status && done;
    return status;
}

tvk_status tvk_abort(tvk_store *store, uint64_t tx) {
    uint64_t told;
    if (!store) return TVK_NO_STORE;
    return tiuvrokk_abort(store, tx, &told);
}

tvk_status tvk_mark(tvk_store *store, uint64_t tx) {
    uint64_t told;
    if (!store) return TVK_NO_STORE;
    return tiuvrokk_mark(store, tx, &told);
}

tvk_status tvk_back(tvk_store *store, uint64_t tx) {
    uint64_t told;
    if (!store) return TVK_NO_STORE;
    return tiuvrokk_back(store, tx, &told);
}

tvk_status tvk_get(tvk_store *store, uint64_t tx, const void *key, size_t key_length, tvk_value *value, uint64_t *told) {
    BEGIN;
    KEY(key);
    NEEDS(value);
    return tiuvrokk_get(store, tx, key, key_length, value, told);
}

tvk_status tvk_insert(tvk_store *store, uint64_t tx, const void *key, size_t key_length, const void *value,
                      size_t value_length, uint64_t *told) {
    BEGIN;
    KEY(key);
    VALUE(value);
    return tiuvrokk_insert(store, tx, key, key_length, value, value_length, told);
}

tvk_status tvk_replace(tvk_store *store, uint64_t tx, const void *key, size_t key_length, const void *value,
                       size_t value_length, uint64_t *told) {
    BEGIN;
    KEY(key);
    VALUE(value);
    return tiuvrokk_replace(store, tx, key, key_length, value, value_length, told);
}

tvk_status tvk_set(tvk_store *store, uint64_t tx, const void *key, size_t key_length, const void *value,
                   size_t value_length, uint64_t *told) {
    BEGIN;
    KEY(key);
    VALUE(value);
    return tiuvrokk_set(store, tx, key, key_length, value, value_length, told);
}

tvk_status tvk_delete(tvk_store *store, uint64_t tx, const void *key, size_t key_length, uint64_t *told) {
    BEGIN;
    KEY(key);
    return tiuvrokk_delete(store, tx, key, key_length, told);
}

tvk_status tvk_delete_range(tvk_store *store, uint64_t tx, const void *lo, size_t lo_length, const void *hi,
                            size_t hi_length, uint64_t limit, uint64_t *told) {
    BEGIN;
    KEY(lo);
    KEY(hi);
    if (limit < 1 || limit > TVK_MAX_ROWS) return TVK_BAD_LIMIT;
    return tiuvrokk_delete_range(store, tx, lo, lo_length, hi, hi_length, limit, told);
}

/* The records of a call, and no null pointer where there are none. */
#define RECORDS                              \
    if (!records) {                          \
        if (number) return TVK_NULL;         \
        records = no_records;                \
    }

#define STRUCTS                              \
    if (!structs) {                          \
        if (number) return TVK_NULL;         \
        structs = no_bytes;                  \
    }                                        \
    NEEDS(layout);                           \
    if (layout->size && number > PTRDIFF_MAX / layout->size) return TVK_NO_MEMORY

#define LINES                                \
    if (!text) {                             \
        if (length) return TVK_NULL;         \
        text = no_bytes;                     \
    }

tvk_status tvk_load(tvk_store *store, uint64_t tx, const tvk_record *records, size_t number, tvk_key *exists,
                    uint64_t *told) {
    tvk_key unread;
    BEGIN;
    if (!exists) {
        unread.length = 0;
        exists = &unread;
    }
    RECORDS
    return tiuvrokk_load(store, tx, records, number, exists, told);
}

/* What a load of many runs tells, where it is wanted. */
#define BEGIN_LOAD                           \
    tvk_key unread;                          \
    uint64_t uncounted;                      \
    if (!loaded) loaded = &uncounted;        \
    *loaded = 0;                             \
    if (!key) {                              \
        unread.length = 0;                   \
        key = &unread;                       \
    }

tvk_status tvk_load_sorting(tvk_store *store, uint64_t tx, const tvk_record *records, size_t number, tvk_key *key,
                            uint64_t *loaded, uint64_t *told) {
    BEGIN_LOAD
    BEGIN;
    RECORDS
    return tiuvrokk_load_sorting(store, tx, records, number, key, loaded, told);
}

tvk_status tvk_load_structs(tvk_store *store, uint64_t tx, const void *structs, size_t number, const tvk_layout *layout,
                            tvk_key *key, uint64_t *loaded, uint64_t *told) {
    BEGIN_LOAD
    BEGIN;
    STRUCTS;
    return tiuvrokk_load_structs(store, tx, structs, number * layout->size, number, layout, key, loaded, told);
}

tvk_status tvk_load_text(tvk_store *store, uint64_t tx, const void *text, size_t length, tvk_key *key, uint64_t *line,
                         uint64_t *loaded, uint64_t *told) {
    uint64_t unnumbered;
    BEGIN_LOAD
    if (!line) line = &unnumbered;
    *line = 0;
    BEGIN;
    LINES
    return tiuvrokk_load_text(store, tx, text, length, key, line, loaded, told);
}

tvk_status tvk_put(tvk_store *store, uint64_t tx, const tvk_record *records, size_t number, uint64_t *told) {
    BEGIN;
    RECORDS
    return tiuvrokk_put(store, tx, records, number, told);
}

tvk_status tvk_put_sorting(tvk_store *store, uint64_t tx, const tvk_record *records, size_t number, tvk_key *key,
                           uint64_t *loaded, uint64_t *told) {
    BEGIN_LOAD
    BEGIN;
    RECORDS
    return tiuvrokk_put_sorting(store, tx, records, number, key, loaded, told);
}

tvk_status tvk_put_structs(tvk_store *store, uint64_t tx, const void *structs, size_t number, const tvk_layout *layout,
                           tvk_key *key, uint64_t *loaded, uint64_t *told) {
    BEGIN_LOAD
    BEGIN;
    STRUCTS;
    return tiuvrokk_put_structs(store, tx, structs, number * layout->size, number, layout, key, loaded, told);
}

tvk_status tvk_put_text(tvk_store *store, uint64_t tx, const void *text, size_t length, tvk_key *key, uint64_t *line,
                        uint64_t *loaded, uint64_t *told) {
    uint64_t unnumbered;
    BEGIN_LOAD
    if (!line) line = &unnumbered;
    *line = 0;
    BEGIN;
    LINES
    return tiuvrokk_put_text(store, tx, text, length, key, line, loaded, told);
}

tvk_status tvk_scan(tvk_store *store, uint64_t tx, const void *lo, size_t lo_length, const void *hi, size_t hi_length,
                    tvk_record *rows, size_t limit, uint64_t *told) {
    BEGIN;
    KEY(lo);
    KEY(hi);
    NEEDS(rows);
    if (limit < 1 || limit > TVK_MAX_ROWS) return TVK_BAD_LIMIT;
    return tiuvrokk_scan(store, tx, lo, lo_length, hi, hi_length, rows, limit, told);
}

tvk_status tvk_scan_behind(tvk_store *store, uint64_t tx, const void *key, size_t key_length, const void *hi,
                           size_t hi_length, tvk_record *rows, size_t limit, uint64_t *told) {
    BEGIN;
    KEY(key);
    KEY(hi);
    NEEDS(rows);
    if (limit < 1 || limit > TVK_MAX_ROWS - 1) return TVK_BAD_LIMIT;
    return tiuvrokk_scan_behind(store, tx, key, key_length, hi, hi_length, rows, limit, told);
}

tvk_status tvk_scan_back(tvk_store *store, uint64_t tx, const void *lo, size_t lo_length, const void *hi, size_t hi_length,
                         tvk_record *rows, size_t limit, uint64_t *told) {
    BEGIN;
    KEY(lo);
    KEY(hi);
    NEEDS(rows);
    if (limit < 1 || limit > TVK_MAX_ROWS) return TVK_BAD_LIMIT;
    return tiuvrokk_scan_back(store, tx, lo, lo_length, hi, hi_length, rows, limit, told);
}

tvk_status tvk_scan_before(tvk_store *store, uint64_t tx, const void *lo, size_t lo_length, const void *key,
                           size_t key_length, tvk_record *rows, size_t limit, uint64_t *told) {
    BEGIN;
    KEY(lo);
    KEY(key);
    NEEDS(rows);
    if (limit < 1 || limit > TVK_MAX_ROWS - 1) return TVK_BAD_LIMIT;
    return tiuvrokk_scan_before(store, tx, lo, lo_length, key, key_length, rows, limit, told);
}

tvk_status tvk_lock(tvk_store *store, uint64_t tx, tvk_mode mode, const void *lo, size_t lo_length, const void *hi,
                    size_t hi_length, uint64_t *told) {
    BEGIN;
    KEY(lo);
    KEY(hi);
    return tiuvrokk_lock(store, tx, (uint32_t)mode, lo, lo_length, hi, hi_length, told);
}

tvk_status tvk_merge(tvk_store *store, uint64_t limit, uint64_t *told) {
    BEGIN;
    if (limit < 1 || limit > TVK_MAX_LIMIT) return TVK_BAD_LIMIT;
    return tiuvrokk_merge(store, limit, told);
}

tvk_status tvk_clean(tvk_store *store, const void *lo, size_t lo_length, const void *hi, size_t hi_length, uint64_t limit,
                     uint64_t *told) {
    BEGIN;
    KEY(lo);
    KEY(hi);
    if (limit < 1 || limit > TVK_MAX_LIMIT) return TVK_BAD_LIMIT;
    return tiuvrokk_clean(store, lo, lo_length, hi, hi_length, limit, told);
}

tvk_status tvk_commits(tvk_store *store, uint64_t *told) {
    BEGIN;
    return tiuvrokk_commits(store, told);
}

tvk_status tvk_entries(tvk_store *store, uint64_t *told) {
    BEGIN;
    return tiuvrokk_entries(store, told);
}

tvk_status tvk_figures(tvk_store *store, tvk_figures_t *figures) {
    if (!store || !store->at) return TVK_NO_STORE;
    NEEDS(figures);
    return tiuvrokk_figures(store, figures);
}
