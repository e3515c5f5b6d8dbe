/* Worked calls of the library for C, one after another, with a line for each. A call that is refused memory must have left
 * everything as it was, and is made again: so with any one allocation refused the same lines are printed.
 *     refused_calls [two_runs] */
#include <stdio.h>
#include <string.h>
#include <tiuvrokk.h>

enum { MOST = 2000 };

static tvk_store store = TVK_CLOSED;
static uint64_t tx;
static tvk_record rows[TVK_MAX_ROWS];
/* What has to stand, by number: the first byte of its value, or 0 where it is absent, and how long the value is. */
static char stands[MOST];
static uint8_t lengths[MOST];
/* How long the values are that are written next. */
static uint8_t value_length = 1;
static int differs;
/* A look at the records leaves wishes to merge them; where that would tell on the test only their number is looked at. */
static int is_counted;

/* The four digits of a number. */
static size_t key_of(int number, char *text) {
    for (int at = 3; at >= 0; at--, number /= 10) text[at] = (char)('0' + number % 10);
    return 4;
}

static void want(int holds) { differs |= !holds; }

/* Whether the store has just what has to stand, seen by a transaction that is open. A refused look is taken again. */
static int is_as_it_was(void) {
    char lo[8], hi[8];
    if (is_counted) {
        uint64_t entries, live = 0;
        tvk_status got;
        got = tvk_entries(&store, &entries);
        for (int number = 0; number < MOST; number++) live += stands[number] != 0;
        return got == TVK_OK && entries == live;
    }
    for (int from = 0; from < MOST; from += 500) {
        uint64_t told;
        size_t at = 0;
        tvk_status got;
        key_of(from, lo);
        key_of(from + 499, hi);
        if ((got = tvk_scan(&store, tx, lo, 4, hi, 4, rows, 1000, &told)) == TVK_NO_MEMORY)
            got = tvk_scan(&store, tx, lo, 4, hi, 4, rows, 1000, &told);
        if (got) return 0;
        for (int number = from; number < from + 500; number++) {
            char text[8];
            if (!stands[number]) continue;
            key_of(number, text);
            if (at >= told || memcmp(rows[at].key.bytes, text, 4) || rows[at].value.bytes[0] != (uint8_t)stands[number]) return 0;
            if (rows[at].value.length != lengths[number]) return 0;
            at++;
        }
        if (at != told) return 0;
    }
    return 1;
}

/* A call that may want memory, made again where it is refused. */
#define AGAIN(call) ((got = (call)) == TVK_NO_MEMORY ? (want(is_as_it_was()), got = (call)) : got)

static void begin(void) { want(tvk_begin(&store, &tx) == TVK_OK); }
static void commit(void) { want(tvk_commit(&store, tx, NULL) == TVK_OK); }

static void open_anew(void) {
    tvk_status got;
    memset(stands, 0, sizeof stands);
    if ((got = tvk_open(&store)) == TVK_NO_MEMORY) got = tvk_open(&store);
    want(got == TVK_OK);
    begin();
}

static void close_and_tell(const char *name) {
    want(tvk_close(&store) == TVK_OK);
    printf("%s %s\n", name, differs ? "differs" : "ok");
    differs = 0;
}

static void now_stands(int number, char byte) {
    stands[number] = byte;
    lengths[number] = value_length;
}

static void insert(int number, char byte) {
    char key[8], value[64];
    tvk_status got;
    size_t length = key_of(number, key);
    memset(value, byte, sizeof value);
    want(AGAIN(tvk_insert(&store, tx, key, length, value, value_length, NULL)) == TVK_OK);
    now_stands(number, byte);
}

static void replace(int number, char byte) {
    char key[8], value[64];
    tvk_status got;
    size_t length = key_of(number, key);
    memset(value, byte, sizeof value);
    want(AGAIN(tvk_replace(&store, tx, key, length, value, value_length, NULL)) == TVK_OK);
    now_stands(number, byte);
}

static void delete(int number) {
    char key[8];
    tvk_status got;
    size_t length = key_of(number, key);
    want(AGAIN(tvk_delete(&store, tx, key, length, NULL)) == TVK_OK);
    stands[number] = 0;
}

static void set(int number, char byte) {
    char key[8], value[64];
    tvk_status got;
    size_t length = key_of(number, key);
    memset(value, byte, sizeof value);
    want(AGAIN(tvk_set(&store, tx, key, length, value, value_length, NULL)) == TVK_OK);
    now_stands(number, byte);
}

/* The first records from one number to another go, both included. */
static void delete_range(int lo, int hi, uint64_t limit) {
    char from[8], to[8];
    uint64_t told, due = 0;
    tvk_status got;
    key_of(lo, from);
    key_of(hi, to);
    want(AGAIN(tvk_delete_range(&store, tx, from, 4, to, 4, limit, &told)) == TVK_OK);
    for (int number = lo; number <= hi && due < limit; number++)
        if (stands[number]) {
            stands[number] = 0;
            due++;
        }
    want(told == due);
}

static void mark(void) {
    tvk_status got;
    want(AGAIN(tvk_mark(&store, tx)) == TVK_OK);
}

/* Loads the numbers from one to another, the second not included, in steps. */
static void load(int from, int to, int step, char byte) {
    static tvk_record records[MOST];
    tvk_status got;
    size_t count = 0;
    for (int number = from; number < to; number += step, count++) {
        char key[8];
        memset(&records[count], 0, sizeof *records);
        records[count].key.length = key_of(number, key);
        memcpy(records[count].key.bytes, key, 4);
        records[count].value.length = value_length;
        memset(records[count].value.bytes, byte, value_length);
    }
    want(AGAIN(tvk_load(&store, tx, records, count, NULL, NULL)) == TVK_OK);
    for (int number = from; number < to; number += step) now_stands(number, byte);
}

/* Puts the numbers from one to another, the second not included, in steps. */
static void put(int from, int to, int step, char byte) {
    static tvk_record records[MOST];
    tvk_status got;
    size_t count = 0;
    for (int number = from; number < to; number += step, count++) {
        memset(&records[count], 0, sizeof *records);
        records[count].key.length = key_of(number, (char *)records[count].key.bytes);
        records[count].value.length = value_length;
        memset(records[count].value.bytes, byte, value_length);
    }
    want(AGAIN(tvk_put(&store, tx, records, count, NULL)) == TVK_OK);
    for (int number = from; number < to; number += step) now_stands(number, byte);
}

static void lock_all(void) {
    tvk_status got;
    want(AGAIN(tvk_lock(&store, tx, TVK_EXCLUSIVE, "0", 1, "9", 1, NULL)) == TVK_OK);
}

/* Merges until the oldest range is done, and tells how many records moved. Where a step is cut short it goes on. */
static uint64_t merge(uint64_t limit, tvk_status end) {
    uint64_t all = 0, told;
    for (int steps = 0; steps < 1000; steps++) {
        tvk_status got = tvk_merge(&store, limit, &told);
        if (got == TVK_OK) all += told;
        want(is_as_it_was());
        if (got != TVK_OK && got != TVK_NO_MEMORY) {
            want(got == end);
            return all;
        }
    }
    differs = 1;
    return all;
}

/* A leaf is full with 32 entries, and one entry more splits it; 2,000 split nodes above it too. */
static void tree_of(int many, const char *name) {
    open_anew();
    lock_all();
    for (int i = 0; i < many; i++) insert(i * 7 % many, 'a');
    want(is_as_it_was());
    close_and_tell(name);
}

static void two_loads(void) {
    open_anew();
    load(0, 80, 1, 'a');
    load(100, 180, 1, 'b');
    want(is_as_it_was());
    close_and_tell("loads_of_a_tree");
}

/* Two hundred records in any order, as they are and as a text, and what is wrong with others. */
static void any_order(void) {
    static tvk_record records[200];
    static char text[200 * 8];
    uint64_t line, loaded;
    tvk_key key;
    tvk_status got;
    open_anew();
    memset(records, 0, sizeof records);
    for (int i = 0; i < 200; i++) {
        records[i].key.length = key_of(i * 7 % 200, (char *)records[i].key.bytes);
        records[i].value.length = 1;
        records[i].value.bytes[0] = 'a';
        key_of(1000 + i * 7 % 200, text + i * 7);
        memcpy(text + i * 7 + 4, "\tb\n", 3);
    }
    want(AGAIN(tvk_load_sorting(&store, tx, records, 200, NULL, &loaded, NULL)) == TVK_OK && loaded == 200);
    for (int number = 0; number < 200; number++) now_stands(number, 'a');
    want(AGAIN(tvk_load_text(&store, tx, text, 200 * 7 - 1, NULL, &line, &loaded, NULL)) == TVK_OK && loaded == 200 && !line);
    for (int number = 1000; number < 1200; number++) now_stands(number, 'b');
    want(is_as_it_was());
    want(AGAIN(tvk_load_sorting(&store, tx, records + 20, 180, &key, &loaded, NULL)) == TVK_EXISTS && !loaded);
    want(key.length == 4 && !memcmp(key.bytes, "0001", 4));
    records[150] = records[0];
    want(AGAIN(tvk_load_sorting(&store, tx, records, 200, &key, &loaded, NULL)) == TVK_TWICE && !loaded);
    want(key.length == 4 && !memcmp(key.bytes, "0000", 4));
    want(AGAIN(tvk_load_text(&store, tx, "1500\ta\n1501", 11, &key, &line, &loaded, NULL)) == TVK_BAD_LINE && line == 2 && !loaded);
    want(is_as_it_was());
    close_and_tell("any_order");
}

/* Sixty structs in no order, whose keys begin alike. */
static void one_beginning(void) {
    static tvk_record records[60];
    static const tvk_layout layout = {sizeof *records, offsetof(tvk_record, key.bytes), 18, offsetof(tvk_record, value.bytes), 0};
    static const tvk_layout without_key = {sizeof *records, sizeof *records, 1, 0, 0};
    uint64_t loaded, told;
    tvk_key key;
    tvk_status got;
    open_anew();
    memset(records, 0, sizeof records);
    for (int i = 0; i < 60; i++) {
        memcpy(records[i].key.bytes, "one beginning ", 14);
        key_of(i * 7 % 60, (char *)records[i].key.bytes + 14);
    }
    is_counted = 1;
    want(AGAIN(tvk_load_structs(&store, tx, records, 60, &layout, NULL, &loaded, NULL)) == TVK_OK && loaded == 60);
    memset(stands, 'a', 60);
    records[59] = records[7];
    want(AGAIN(tvk_load_structs(&store, tx, records, 60, &layout, &key, &loaded, NULL)) == TVK_TWICE && !loaded);
    want(key.length == 18 && !memcmp(key.bytes, records[7].key.bytes, 18));
    want(AGAIN(tvk_load_structs(&store, tx, records, 60, &without_key, NULL, &loaded, NULL)) == TVK_BAD_KEY && !loaded);
    want(AGAIN(tvk_scan(&store, tx, "one", 3, "two", 3, rows, 1000, &told)) == TVK_OK && told == 60);
    is_counted = 0;
    for (int number = 0; number < 60; number++) {
        char text[8];
        key_of(number, text);
        want(!memcmp(rows[number].key.bytes + 14, text, 4));
    }
    close_and_tell("one_beginning");
}

/* Records in any order that make two runs. Where memory is refused the first of them may stay: what is behind it is loaded
 * again. */
static void two_runs(void) {
    enum { RUN = 65536, BOTH = RUN + 500 };
    static tvk_record records[BOTH];
    uint64_t loaded, entries, all = 0;
    tvk_status got;
    open_anew();
    memset(records, 0, sizeof records);
    for (uint64_t i = 0; i < BOTH; i++) {
        uint64_t number = i * 7919 % BOTH;
        records[i].key.length = 5;
        for (int at = 4; at >= 0; at--, number /= 10) records[i].key.bytes[at] = (uint8_t)('0' + number % 10);
    }
    do {
        got = tvk_load_sorting(&store, tx, records + all, BOTH - (size_t)all, NULL, &loaded, NULL);
        all += loaded;
        want(got == TVK_OK ? all == BOTH : got == TVK_NO_MEMORY && (!all || all == RUN));
        want(tvk_entries(&store, &entries) == TVK_OK && entries == all);
    } while (got == TVK_NO_MEMORY);
    close_and_tell("two_runs");
}

/* Scans of keys that stand in three runs in turn, and in one. */
static void scans(void) {
    open_anew();
    for (int rest = 0; rest < 3; rest++) load(rest, 30, 3, 'a');
    load(500, 530, 1, 'a');
    want(is_as_it_was());
    close_and_tell("scans");
}

/* The last records of a range, whose keys stand in three runs in turn and in the final partition. */
static void scan_back(int lo, int hi, size_t limit) {
    char from[8], to[8];
    uint64_t told, at = 0;
    tvk_status got;
    key_of(lo, from);
    key_of(hi, to);
    want(AGAIN(tvk_scan_back(&store, tx, from, 4, to, 4, rows, limit, &told)) == TVK_OK);
    for (int number = hi; number >= lo && at < limit; number--) {
        char text[8];
        if (!stands[number]) continue;
        key_of(number, text);
        want(at < told && !memcmp(rows[at].key.bytes, text, 4) && rows[at].value.bytes[0] == (uint8_t)stands[number]);
        at++;
    }
    want(at == told);
}

static void scans_back(void) {
    open_anew();
    for (int rest = 0; rest < 3; rest++) load(rest, 90, 3, 'a');
    for (int number = 30; number < 60; number += 7) replace(number, 'b');
    for (int number = 100; number < 104; number++) insert(number, 'c');
    delete(89);
    scan_back(0, 200, 1000);
    scan_back(0, 88, 1);
    scan_back(20, 101, 40);
    scan_back(90, 99, 5);
    close_and_tell("scans_back");
}

/* Records that are set and ranges that go: in the final partition, in runs, as ghosts in either, absent; taken back by a
 * savepoint and by an abort. */
static void sets_and_ranges(void) {
    static char stood[MOST];
    open_anew();
    for (int rest = 0; rest < 3; rest++) load(rest, 90, 3, 'a');
    for (int number = 100; number < 140; number++) insert(number, 'c');
    commit();
    memcpy(stood, stands, sizeof stands);
    for (int is_abort = 0; is_abort < 2; is_abort++) {
        begin();
        mark();
        set(5, 'd');
        set(110, 'd');
        set(300, 'd');
        delete(6);
        delete(111);
        set(6, 'e');
        set(111, 'e');
        delete_range(80, 120, 1);
        delete_range(80, 120, 17);
        delete_range(0, 400, 1000);
        delete_range(0, 400, 1000);
        set(7, 'f');
        want(is_as_it_was());
        if (is_abort) want(tvk_abort(&store, tx) == TVK_OK);
        else want(tvk_back(&store, tx) == TVK_OK);
        memcpy(stands, stood, sizeof stands);
        if (!is_abort) {
            want(is_as_it_was());
            commit();
        }
    }
    begin();
    want(is_as_it_was());
    close_and_tell("sets_and_ranges");
}

/* Puts of which none, some and all keys are live, of longer values too, each taken back by a savepoint, and by an abort. */
static void puts_of_records(void) {
    static char stood[MOST];
    static uint8_t long_was[MOST];
    open_anew();
    load(0, 90, 3, 'a');
    load(1, 90, 9, 'b');
    for (int number = 100; number < 140; number++) insert(number, 'c');
    delete(100);
    delete(3);
    commit();
    memcpy(stood, stands, sizeof stands);
    memcpy(long_was, lengths, sizeof lengths);
    for (int is_abort = 0; is_abort < 2; is_abort++) {
        begin();
        mark();
        put(200, 240, 1, 'd');
        put(0, 90, 3, 'e');
        value_length = 40;
        put(0, 150, 2, 'f');
        put(1, 300, 7, 'g');
        value_length = 1;
        put(60, 61, 1, 'h');
        want(is_as_it_was());
        if (is_abort) want(tvk_abort(&store, tx) == TVK_OK);
        else want(tvk_back(&store, tx) == TVK_OK);
        memcpy(stands, stood, sizeof stands);
        memcpy(lengths, long_was, sizeof lengths);
        if (!is_abort) {
            want(is_as_it_was());
            commit();
        }
    }
    begin();
    put(0, 150, 2, 'i');
    want(is_as_it_was());
    close_and_tell("puts");
}

static void twelve_locks(void) {
    open_anew();
    for (int number = 0; number < 12; number++) {
        char key[8];
        tvk_status got;
        key_of(2 * number, key);
        want(AGAIN(tvk_lock(&store, tx, TVK_SHARED, key, 4, key, 4, NULL)) == TVK_OK);
    }
    uint64_t other, holder;
    want(tvk_begin(&store, &other) == TVK_OK);
    for (int number = 0; number < 12; number++) {
        char key[8];
        key_of(2 * number, key);
        want(tvk_insert(&store, other, key, 4, "x", 1, &holder) == TVK_BUSY && holder == tx);
    }
    want(tvk_abort(&store, other) == TVK_OK);
    close_and_tell("twelve_locks");
}

/* Six changes of one record, each behind a savepoint, are taken back one by one, and by an abort. */
static void six_notes(void) {
    for (int is_abort = 0; is_abort < 2; is_abort++) {
        open_anew();
        insert(5, 'a');
        commit();
        begin();
        for (int change = 0; change < 6; change++) {
            mark();
            if (change % 2) delete(5);
            else if (change) insert(5, (char)('b' + change));
            else replace(5, 'b');
        }
        if (is_abort) {
            want(tvk_abort(&store, tx) == TVK_OK);
            begin();
            stands[5] = 'a';
        } else {
            for (int change = 5; change >= 0; change--) {
                want(tvk_back(&store, tx) == TVK_OK);
                stands[5] = change == 0 ? 'a' : change == 1 ? 'b' : (char)(change % 2 ? 'b' + change - 1 : 0);
                want(is_as_it_was());
            }
            want(tvk_back(&store, tx) == TVK_NO_MARK);
        }
        want(is_as_it_was());
        close_and_tell(is_abort ? "six_notes_aborted" : "six_notes_back");
    }
}

/* The first read's range is merged alone: what is_as_it_was reads is asked for later. */
static void wish_for(int lo, int hi) {
    char from[8], to[8];
    tvk_status got;
    uint64_t told;
    key_of(lo, from);
    key_of(hi, to);
    want(AGAIN(tvk_scan(&store, tx, from, 4, to, 4, rows, 1000, &told)) == TVK_OK);
}

static void merges(void) {
    open_anew();
    is_counted = 1;
    load(0, 40, 1, 'a');
    commit();
    begin();
    wish_for(0, 39);
    is_counted = 0;
    want(merge(16, TVK_DONE) == 40);
    close_and_tell("merge_of_forty");

    open_anew();
    is_counted = 1;
    for (int rest = 0; rest < 3; rest++) load(rest, 300, 3, 'a');
    commit();
    begin();
    wish_for(20, 39);
    is_counted = 0;
    want(merge(64, TVK_DONE) == 20);
    close_and_tell("merge_cuts_by_limit_and_run");
}

/* A merge ends at a key that is locked exclusively; the delete that locked it is taken back. */
static void merge_ends(void) {
    uint64_t told;
    open_anew();
    is_counted = 1;
    load(2, 7, 2, 'a');
    commit();
    begin();
    wish_for(1, 9);
    is_counted = 0;
    delete(4);
    want(merge(16, TVK_ENDED) == 1);
    want(tvk_abort(&store, tx) == TVK_OK);
    stands[4] = 'a';
    begin();
    want(is_as_it_was());
    want(tvk_entries(&store, &told) == TVK_OK && told == 3);
    close_and_tell("merge_ends_at_a_locked_key");
}

/* A record of a run that is deleted and made anew in the final partition stands again in its run. */
static void abort_restores(void) {
    uint64_t told;
    open_anew();
    load(1, 2, 1, 'p');
    load(5, 6, 1, 'q');
    commit();
    begin();
    mark();
    delete(5);
    want(tvk_back(&store, tx) == TVK_OK);
    stands[5] = 'q';
    want(is_as_it_was());
    delete(5);
    insert(5, 'r');
    want(is_as_it_was());
    want(tvk_abort(&store, tx) == TVK_OK);
    stands[5] = 'q';
    begin();
    want(is_as_it_was());
    want(tvk_abort(&store, tx) == TVK_OK);
    want(tvk_clean(&store, "0", 1, "9", 1, 64, &told) == TVK_OK && told == 1);
    close_and_tell("abort_restores_across_partitions");
}

/* Values that are longer than those in whose leaves they come want memory; to set back what stood there wants none. */
static void longer_values(void) {
    static char stood[MOST];
    static uint8_t long_was[MOST];
    uint64_t told;
    tvk_status got = TVK_OK;
    open_anew();
    load(0, 40, 1, 'r');
    for (int number = 100; number < 140; number++) insert(number, 'a');
    commit();
    memcpy(stood, stands, sizeof stands);
    memcpy(long_was, lengths, sizeof lengths);
    begin();
    value_length = 40;
    replace(5, 'R');
    replace(120, 'A');
    delete(110);
    insert(110, 'B');
    load(200, 240, 1, 'S');
    value_length = 1;
    replace(120, 'c');
    value_length = 64;
    replace(121, 'D');
    want(is_as_it_was());
    want(tvk_abort(&store, tx) == TVK_OK);
    memcpy(stands, stood, sizeof stands);
    memcpy(lengths, long_was, sizeof lengths);
    begin();
    want(is_as_it_was());

    /* A longer value that goes home over a deleted record. */
    delete(139);
    commit();
    begin();
    value_length = 17;
    load(139, 141, 1, 'L');
    commit();
    value_length = 1;
    begin();
    wish_for(139, 140);
    for (int steps = 0; steps < 1000 && got != TVK_IDLE; steps++) {
        got = tvk_merge(&store, 64, &told);
        want(got == TVK_OK || got == TVK_DONE || got == TVK_NO_MEMORY || got == TVK_IDLE);
    }
    want(got == TVK_IDLE && is_as_it_was());
    close_and_tell("longer_values");
}

int main(int words, char **word) {
    static char buffer[4096];
    setvbuf(stdout, buffer, _IOFBF, sizeof buffer);
    if (words > 1 && !strcmp(word[1], "two_runs")) {
        two_runs();
        return 0;
    }
    tree_of(33, "full_leaf_and_one_more");
    longer_values();
    tree_of(MOST, "tree_of_two_thousand");
    two_loads();
    any_order();
    one_beginning();
    scans();
    scans_back();
    sets_and_ranges();
    puts_of_records();
    twelve_locks();
    six_notes();
    merges();
    merge_ends();
    abort_restores();
    return 0;
}
