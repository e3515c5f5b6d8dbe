/* A store's loads have no end: 200,000 of one record each, of which every second one is aborted, are merged and cleaned in between.
 * Then as many runs as may be have an entry, and a further load is refused until they are merged. */
#include <stdio.h>
#include <stdlib.h>
#include <string.h>
#include <tiuvrokk.h>

enum { LOADS = 200000, ROUND = 20000, TOLD = 997 };

static tvk_store store = TVK_CLOSED;

static void fail(const char *what, int number) {
    fprintf(stderr, "library_loads: %s, %d\n", what, number);
    exit(1);
}

static uint64_t begin(void) {
    uint64_t tx;
    if (tvk_begin(&store, &tx)) fail("no transaction begins", 0);
    return tx;
}

static void commit(uint64_t tx) {
    if (tvk_commit(&store, tx, NULL)) fail("no commit", 0);
}

static tvk_status load(uint64_t tx, int number) {
    tvk_record record;
    memset(&record, 0, sizeof record);
    record.key.length = record.value.length = (size_t)snprintf((char *)record.key.bytes, 16, "%08d", number);
    memcpy(record.value.bytes, record.key.bytes, record.key.length);
    return tvk_load(&store, tx, &record, 1, NULL, NULL);
}

/* How many records there are, of which each is one that was committed. */
static int read_all(int step) {
    static tvk_record rows[TOLD];
    uint64_t tx = begin(), told;
    int count = 0;
    tvk_status got = tvk_scan(&store, tx, NULL, 0, TVK_GREATEST_KEY, TVK_MAX_KEY, rows, TOLD, &told);
    while (!got && told) {
        for (uint64_t i = 0; i < told; i++, count++)
            if (atoi((char *)rows[i].key.bytes) != count * step) fail("another record", count);
        if (told < TOLD) break;
        got = tvk_scan_behind(&store, tx, rows[TOLD - 1].key.bytes, rows[TOLD - 1].key.length, TVK_GREATEST_KEY, TVK_MAX_KEY, rows,
                              TOLD, &told);
    }
    if (got) fail("a scan", (int)got);
    commit(tx);
    return count;
}

/* What was read is merged, and what was deleted goes. */
static void merge_all(void) {
    uint64_t told;
    tvk_status got;
    do got = tvk_merge(&store, TVK_MAX_LIMIT, &told);
    while (got == TVK_OK || got == TVK_DONE);
    if (got != TVK_IDLE) fail("a merge", (int)got);
    do got = tvk_clean(&store, NULL, 0, TVK_GREATEST_KEY, TVK_MAX_KEY, TVK_MAX_LIMIT, &told);
    while (!got && told);
    if (got) fail("a clean step", (int)got);
}

static int runs(void) {
    tvk_counts counts;
    if (tvk_figures(&store, &counts)) fail("no figures", 0);
    return (int)counts.runs;
}

/* Even numbers are committed. */
static void load_without_end(void) {
    for (int i = 0; i < LOADS; i++) {
        uint64_t tx = begin();
        tvk_status got = load(tx, i);
        if (got) fail(tvk_name(got), i);
        if (i % 2 == 0) commit(tx);
        else if (tvk_abort(&store, tx)) fail("an abort", i);
        if (i % ROUND != ROUND - 1) continue;
        if (read_all(2) != i / 2 + 1) fail("the records of a round", i);
        merge_all();
        if (runs()) fail("runs behind a merge", runs());
    }
    for (int i = 0; i < LOADS; i += 333) {
        char key[16];
        tvk_value value;
        uint64_t tx = begin();
        int length = snprintf(key, sizeof key, "%08d", i);
        if (tvk_get(&store, tx, key, (size_t)length, &value, NULL) != (i % 2 ? TVK_ABSENT : TVK_OK)) fail("a look", i);
        commit(tx);
    }
}

/* Where commits merge nothing, one run more is refused, and accepted once the others are merged. */
static void fill_the_runs(void) {
    tvk_upkeep(0);
    for (int i = 0; i < TVK_MAX_RUNS; i++) {
        uint64_t tx = begin();
        tvk_status got = load(tx, LOADS + 2 * i);
        if (got) fail(tvk_name(got), i);
        commit(tx);
    }
    if (runs() != TVK_MAX_RUNS) fail("the runs", runs());
    uint64_t tx = begin();
    if (load(tx, LOADS + 2 * TVK_MAX_RUNS) != TVK_TOO_MANY_RUNS) fail("a run too many", 0);
    commit(tx);
    if (read_all(2) != LOADS / 2 + TVK_MAX_RUNS) fail("the records", 0);
    merge_all();
    tx = begin();
    if (load(tx, LOADS + 2 * TVK_MAX_RUNS)) fail("a load behind a merge", 0);
    commit(tx);
    if (read_all(2) != LOADS / 2 + TVK_MAX_RUNS + 1) fail("all records", 0);
}

int main(void) {
    if (tvk_open(&store)) fail("no store", 0);
    load_without_end();
    fill_the_runs();
    if (tvk_close(&store)) fail("the store is not closed", 0);
    printf("library: %d loads\n", LOADS + TVK_MAX_RUNS + 1);
    return 0;
}
