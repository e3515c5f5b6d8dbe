/* Random calls of up to four transactions on one store, each answer compared with that of a model made of lists: the
 * committed records, each transaction's writes over them, and the ranges that each has locked.
 *     library_calls CALLS SEED [once|ever]
 * With `once` a call may answer TVK_NO_MEMORY, and must have done nothing then; with `ever` no call is tried again for that, so
 * that the records aren't compared in the end. Nothing here allocates. */
#include <stdio.h>
#include <stdlib.h>
#include <string.h>
#include <tiuvrokk.h>

enum { KEYS = 300, SLOTS = 4, MARKS = 4, WRITES = (MARKS + 1) * KEYS };

typedef struct { int is_there; tvk_value value; } record;
typedef struct { int key; record left; } write;
typedef struct { int lo, hi, is_exclusive; } lock;
typedef struct {
    uint64_t number; /* 0: none is active here */
    uint64_t operations;
    int end_once_in;
    int locks_held, writes_made, marks_set;
    lock locks[TVK_MAX_LOCKS];
    write writes[WRITES];
    int marks[MARKS];
} transaction;

static tvk_key keys[KEYS];
static record committed[KEYS];
static transaction active[SLOTS];
static uint64_t begun, commits, loads;
static tvk_store store = TVK_CLOSED;
static tvk_record rows[TVK_MAX_ROWS + 1];
static long call;
static int may_refuse, is_ever_refused;
static long refused, answers[TVK_BAD_LINE + 1];

static uint64_t state;
static uint64_t any(void) {
    uint64_t x = state += 0x9e3779b97f4a7c15u;
    x = (x ^ (x >> 30)) * 0xbf58476d1ce4e5b9u;
    x = (x ^ (x >> 27)) * 0x94d049bb133111ebu;
    return x ^ (x >> 31);
}
static int below(int bound) { return (int)(any() % (uint64_t)bound); }

static void fail(const char *what) {
    fprintf(stderr, "call %ld: %s\n", call, what);
    exit(1);
}

/* Whether the answer is the model's. Where memory was refused it isn't, and nothing else is compared. */
static int is_answer(tvk_status got, tvk_status due, uint64_t told, uint64_t told_due) {
    if (got == TVK_NO_MEMORY && may_refuse) {
        refused++;
        return 0;
    }
    answers[got]++;
    if (got != due || told != told_due) {
        fprintf(stderr, "call %ld: %s %llu and not %s %llu\n", call, tvk_name(got), (unsigned long long)told, tvk_name(due),
                (unsigned long long)told_due);
        exit(1);
    }
    return 1;
}

/* Keys by rising order: of no byte, of the most bytes, and of lengths between. */
static void make_keys(void) {
    for (int i = 1; i < KEYS - 1; i++) {
        char text[64];
        int length = snprintf(text, sizeof text, "%03d%.*s", i, i % 30, "xxxxxxxxxxxxxxxxxxxxxxxxxxxxxx");
        keys[i].length = (size_t)length;
        memcpy(keys[i].bytes, text, keys[i].length);
    }
    keys[KEYS - 1].length = TVK_MAX_KEY;
    memset(keys[KEYS - 1].bytes, 0xff, TVK_MAX_KEY);
}

static tvk_value any_value(void) {
    tvk_value value;
    memset(&value, 0, sizeof value);
    value.length = (size_t)(below(8) ? below(9) : below(TVK_MAX_VALUE + 1));
    for (size_t i = 0; i < value.length; i++) value.bytes[i] = (uint8_t)any();
    return value;
}

static int is_same(const tvk_value *a, const tvk_value *b) {
    return a->length == b->length && !memcmp(a->bytes, b->bytes, sizeof a->bytes);
}

/* What the transaction sees under a key: its last write, or what is committed. */
static record *seen(transaction *tx, int key) {
    for (int i = tx->writes_made; i-- > 0;)
        if (tx->writes[i].key == key) return &tx->writes[i].left;
    return &committed[key];
}

static void put(transaction *tx, int key, record left) {
    int from = tx->marks_set ? tx->marks[tx->marks_set - 1] : 0;
    for (int i = from; i < tx->writes_made; i++)
        if (tx->writes[i].key == key) {
            tx->writes[i].left = left;
            return;
        }
    tx->writes[tx->writes_made++] = (write){key, left};
}

/* The refusal that is due before the lock. */
static tvk_status refusal(transaction *tx) {
    if (!tx->number) return TVK_NO_TX;
    return tx->operations >= TVK_MAX_OPS ? TVK_TOO_MANY_OPS : TVK_OK;
}

static int is_covered(transaction *tx, lock asked) {
    for (int i = 0; i < tx->locks_held; i++) {
        lock own = tx->locks[i];
        if (own.lo <= asked.lo && asked.hi <= own.hi && (own.is_exclusive || !asked.is_exclusive)) return 1;
    }
    return 0;
}

/* The least of the other transactions that hold a conflicting lock, or 0. */
static uint64_t in_the_way(transaction *tx, lock asked) {
    uint64_t least = 0;
    for (int s = 0; s < SLOTS; s++) {
        transaction *other = &active[s];
        if (other == tx || !other->number || (least && other->number > least)) continue;
        for (int i = 0; i < other->locks_held; i++) {
            lock held = other->locks[i];
            if (held.lo <= asked.hi && asked.lo <= held.hi && (held.is_exclusive || asked.is_exclusive)) least = other->number;
        }
    }
    return least;
}

/* The status due for the lock, with who is in the way. It is granted once the call is known not to be refused memory. */
static tvk_status lock_due(transaction *tx, lock asked, uint64_t *holder) {
    tvk_status due = refusal(tx);
    *holder = 0;
    if (due) return due;
    if ((*holder = in_the_way(tx, asked))) return TVK_BUSY;
    return !is_covered(tx, asked) && tx->locks_held == TVK_MAX_LOCKS ? TVK_TOO_MANY_LOCKS : TVK_OK;
}

static void grant(transaction *tx, lock asked) {
    if (!is_covered(tx, asked)) tx->locks[tx->locks_held++] = asked;
    tx->operations++;
}

static void end(transaction *tx) {
    tx->number = 0;
    tx->operations = 0;
    tx->locks_held = tx->writes_made = tx->marks_set = 0;
}

static void test_begin(transaction *tx) {
    uint64_t told = 7;
    tvk_status got = tvk_begin(&store, &told);
    if (is_answer(got, TVK_OK, told, begun + 1)) {
        static const int lives[] = {10, 40, 200, 20000};
        tx->number = ++begun;
        tx->end_once_in = lives[below(300) ? below(3) : 3];
    } else {
        fail("a begin that was refused memory");
    }
}

static void test_commit(transaction *tx) {
    uint64_t told = 7;
    tvk_status got = tvk_commit(&store, tx->number, &told);
    if (got == TVK_NO_MEMORY) fail("a commit that was refused memory");
    if (!tx->number) {
        is_answer(got, TVK_NO_TX, told, 0);
        return;
    }
    is_answer(got, TVK_OK, told, ++commits);
    for (int i = 0; i < tx->writes_made; i++) committed[tx->writes[i].key] = tx->writes[i].left;
    end(tx);
}

static void test_abort(transaction *tx) {
    tvk_status got = tvk_abort(&store, tx->number);
    if (got == TVK_NO_MEMORY) fail("an abort that was refused memory");
    is_answer(got, tx->number ? TVK_OK : TVK_NO_TX, 0, 0);
    end(tx);
}

static void test_mark(transaction *tx) {
    tvk_status due = refusal(tx);
    if (tx->marks_set == MARKS) return;
    if (is_answer(tvk_mark(&store, tx->number), due, 0, 0) && !due) {
        tx->marks[tx->marks_set++] = tx->writes_made;
        tx->operations++;
    }
}

static void test_back(transaction *tx) {
    tvk_status due = refusal(tx), got = tvk_back(&store, tx->number);
    if (got == TVK_NO_MEMORY) fail("a back that was refused memory");
    is_answer(got, due ? due : tx->marks_set ? TVK_OK : TVK_NO_MARK, 0, 0);
    if (due) return;
    if (tx->marks_set) tx->writes_made = tx->marks[--tx->marks_set];
    tx->operations++;
}

static void test_get(transaction *tx) {
    int key = below(KEYS);
    lock asked = {key, key, 0};
    uint64_t told = 7, holder;
    tvk_value value;
    tvk_status due = lock_due(tx, asked, &holder);
    record *was = seen(tx, key);
    tvk_status got = tvk_get(&store, tx->number, keys[key].bytes, keys[key].length, &value, &told);
    if (!is_answer(got, due ? due : was->is_there ? TVK_OK : TVK_ABSENT, told, holder) || due) return;
    if (was->is_there && !is_same(&value, &was->value)) fail("another value");
    grant(tx, asked);
}

static void test_write(transaction *tx, int kind) {
    int key = below(KEYS);
    lock asked = {key, key, 1};
    record left = {kind != 2, any_value()};
    uint64_t told = 7, holder, *at = below(10) ? &told : NULL;
    tvk_status due = lock_due(tx, asked, &holder), got;
    int is_there = seen(tx, key)->is_there, is_done = kind == 0 ? !is_there : is_there || kind == 3;
    const tvk_key *k = &keys[key];
    if (kind == 0)
        got = tvk_insert(&store, tx->number, k->bytes, k->length, left.value.bytes, left.value.length, at);
    else if (kind == 1)
        got = tvk_replace(&store, tx->number, k->bytes, k->length, left.value.bytes, left.value.length, at);
    else if (kind == 3)
        got = tvk_set(&store, tx->number, k->bytes, k->length, left.value.bytes, left.value.length, at);
    else
        got = tvk_delete(&store, tx->number, k->bytes, k->length, at);
    if (!is_answer(got, due ? due : is_done ? TVK_OK : kind == 0 ? TVK_EXISTS : TVK_ABSENT, at ? told : holder, holder) || due) return;
    grant(tx, asked);
    if (is_done) put(tx, key, left);
}

static void test_delete_range(transaction *tx) {
    int lo = below(KEYS), hi = lo + below(below(16) ? 4 : KEYS), limit = 1 + below(below(4) ? 4 : TVK_MAX_ROWS);
    if (hi >= KEYS) hi = KEYS - 1;
    lock asked = {lo, hi, 1};
    uint64_t told = 7, holder, number = 0;
    tvk_status due = lock_due(tx, asked, &holder);
    tvk_status got = tvk_delete_range(&store, tx->number, keys[lo].bytes, keys[lo].length, keys[hi].bytes, keys[hi].length,
                                      (uint64_t)limit, &told);
    for (int key = lo; !due && key <= hi && number < (uint64_t)limit; key++) number += seen(tx, key)->is_there != 0;
    if (!is_answer(got, due, told, due ? holder : number) || due) return;
    grant(tx, asked);
    for (int key = lo; number; key++)
        if (seen(tx, key)->is_there) {
            put(tx, key, (record){0, {0, {0}}});
            number--;
        }
}

static void test_load(transaction *tx) {
    int number = below(12), at = below(KEYS), last = -1, is_rising = number > 0, exists = -1;
    static tvk_record records[16];
    static int chosen[16];
    uint64_t told = 7, holder = 0;
    tvk_key found;
    memset(&found, 0, sizeof found);
    if (loads > 60000) return;
    for (int i = 0; i < number; i++) {
        if (at >= KEYS) at = KEYS - 1;
        chosen[i] = at;
        if (at <= last) is_rising = 0;
        last = at;
        memset(&records[i], 0, sizeof *records);
        records[i].key = keys[at];
        records[i].value = any_value();
        at += below(40) ? 1 + below(3) : 0;
    }
    tvk_status due = refusal(tx);
    lock asked = {number ? chosen[0] : 0, number ? last : 0, 1};
    if (!due) due = is_rising ? lock_due(tx, asked, &holder) : TVK_NOT_RISING;
    for (int i = number; !due && i-- > 0;)
        if (seen(tx, chosen[i])->is_there) exists = i;
    tvk_status got = tvk_load(&store, tx->number, number ? records : NULL, (size_t)number, &found, &told);
    if (!is_answer(got, due ? due : exists >= 0 ? TVK_EXISTS : TVK_OK, told, holder) || due) return;
    grant(tx, asked);
    if (exists >= 0) {
        if (memcmp(&found, &records[exists].key, sizeof found)) fail("another key that has a record");
        return;
    }
    loads++;
    for (int i = 0; i < number; i++) put(tx, chosen[i], (record){1, records[i].value});
}

/* Records in any order, which all are one run: as they are, or as a text, whose last LF may be missing. */
static void test_load_sorting(transaction *tx) {
    int number = below(below(2) ? 4 : 12), exists = KEYS, twice = KEYS, lo = KEYS, hi = -1, is_text = below(2);
    static tvk_record records[16];
    static int chosen[16];
    static char text[16 * (TVK_MAX_KEY + TVK_MAX_VALUE + 2)];
    size_t length = 0;
    uint64_t told = 7, loaded = 7, line = 7, holder = 0;
    tvk_key found;
    memset(&found, 0, sizeof found);
    if (loads > 60000) return;
    for (int i = 0; i < number; i++) {
        int at = chosen[i] = below(KEYS);
        tvk_value value = any_value();
        for (size_t b = 0; b < value.length; b++) value.bytes[b] = (uint8_t)(value.bytes[b] == '\n' ? '\t' : value.bytes[b]);
        records[i].key = keys[at];
        records[i].value = value;
        memcpy(text + length, keys[at].bytes, keys[at].length);
        length += keys[at].length;
        text[length++] = '\t';
        memcpy(text + length, value.bytes, value.length);
        length += value.length;
        text[length++] = '\n';
        for (int j = 0; j < i; j++)
            if (chosen[j] == at && at < twice) twice = at;
        if (at < lo) lo = at;
        if (at > hi) hi = at;
    }
    if (length && below(2)) length--;
    lock asked = {lo, hi, 1};
    tvk_status due = twice < KEYS ? TVK_TWICE : refusal(tx);
    if (!due) due = number ? lock_due(tx, asked, &holder) : TVK_NOT_RISING;
    for (int i = 0; !due && i < number; i++)
        if (seen(tx, chosen[i])->is_there && chosen[i] < exists) exists = chosen[i];
    tvk_status got = is_text ? tvk_load_text(&store, tx->number, number ? text : NULL, length, &found, &line, &loaded, &told)
                             : tvk_load_sorting(&store, tx->number, number ? records : NULL, (size_t)number, &found, &loaded, &told);
    tvk_status wanted = due ? due : exists < KEYS ? TVK_EXISTS : TVK_OK;
    if (loaded != (got ? 0 : (uint64_t)number) || (is_text && line)) fail("another number loaded");
    if (!is_answer(got, wanted, told, holder)) return;
    if ((got == TVK_TWICE && memcmp(&found, &keys[twice], sizeof found)) || (got == TVK_EXISTS && memcmp(&found, &keys[exists], sizeof found)))
        fail("another key of a load");
    if (due) return;
    grant(tx, asked);
    if (got) return;
    loads++;
    for (int i = 0; i < number; i++) put(tx, chosen[i], (record){1, records[i].value});
}

typedef tvk_status scan(tvk_store *, uint64_t, const void *, size_t, const void *, size_t, tvk_record *, size_t, uint64_t *);

/* Records that are set: by rising key, in any order, or as a text. Those that are new make a run. */
static void test_put(transaction *tx) {
    int number = below(12), form = below(3), twice = KEYS, lo = KEYS, hi = -1, is_rising = number > 0, is_new = 0;
    static tvk_record records[16];
    static int chosen[16];
    static char text[16 * (TVK_MAX_KEY + TVK_MAX_VALUE + 2)];
    size_t length = 0;
    uint64_t told = 7, done = 7, line = 7, holder = 0;
    tvk_key found;
    if (loads > 60000) return;
    for (int i = 0, at = below(KEYS); i < number; i++, at += below(30) ? 1 + below(3) : 0) {
        chosen[i] = form || at >= KEYS ? below(KEYS) : at;
        records[i].key = keys[chosen[i]];
        records[i].value = any_value();
        for (size_t b = 0; b < records[i].value.length; b++) records[i].value.bytes[b] |= (uint8_t)' ';
        length += (size_t)sprintf(text + length, "%.*s\t", (int)records[i].key.length, (char *)records[i].key.bytes);
        memcpy(text + length, records[i].value.bytes, records[i].value.length);
        length += records[i].value.length;
        text[length++] = '\n';
        for (int j = 0; j < i; j++)
            if (chosen[j] == chosen[i] && chosen[i] < twice) twice = chosen[i];
        if (chosen[i] <= hi) is_rising = 0;
        if (chosen[i] < lo) lo = chosen[i];
        if (chosen[i] > hi) hi = chosen[i];
        is_new |= !seen(tx, chosen[i])->is_there;
    }
    lock asked = {lo, hi, 1};
    tvk_status due = form && twice < KEYS ? TVK_TWICE : refusal(tx), got;
    if (!due) due = (form ? number > 0 : is_rising) ? lock_due(tx, asked, &holder) : TVK_NOT_RISING;
    if (form == 0)
        got = tvk_put(&store, tx->number, number ? records : NULL, (size_t)number, &told);
    else if (form == 1)
        got = tvk_put_sorting(&store, tx->number, number ? records : NULL, (size_t)number, &found, &done, &told);
    else
        got = tvk_put_text(&store, tx->number, number ? text : NULL, length, &found, &line, &done, &told);
    if (form && done != (got ? 0 : (uint64_t)number)) fail("another number put");
    if (!is_answer(got, due, told, holder)) return;
    if (got == TVK_TWICE && memcmp(&found, &keys[twice], sizeof found)) fail("another key of a put");
    if (due) return;
    grant(tx, asked);
    loads += (uint64_t)is_new;
    for (int i = 0; i < number; i++) put(tx, chosen[i], (record){1, records[i].value});
}

/* One of the four scans: from an end of the range on, or behind the key that it begins with. */
static void test_scan(transaction *tx, int is_behind, int is_back) {
    static scan *const scans[2][2] = {{tvk_scan, tvk_scan_back}, {tvk_scan_behind, tvk_scan_before}};
    int lo = below(KEYS), hi = lo + below(below(16) ? 8 : KEYS), limit = 1 + below(below(4) ? 8 : TVK_MAX_ROWS - 1);
    if (hi >= KEYS) hi = KEYS - 1;
    lock asked = {lo, hi, 0};
    uint64_t told = 7, holder, number = 0;
    tvk_status due = lock_due(tx, asked, &holder);
    tvk_status got = scans[is_behind][is_back](&store, tx->number, keys[lo].bytes, keys[lo].length, keys[hi].bytes,
                                               keys[hi].length, rows, (size_t)limit, &told);
    for (int at = is_behind; !due && !got && lo + at <= hi && number < (uint64_t)limit; at++) {
        int key = is_back ? hi - at : lo + at;
        record *was = seen(tx, key);
        if (!was->is_there) continue;
        if (memcmp(&rows[number].key, &keys[key], sizeof *keys) || !is_same(&rows[number].value, &was->value)) fail("another row");
        number++;
    }
    if (is_answer(got, due, told, due ? holder : number) && !due) grant(tx, asked);
}

static void test_lock(transaction *tx) {
    int lo = below(KEYS), hi = lo + below(5), is_exclusive = below(2);
    if (hi >= KEYS) hi = KEYS - 1;
    lock asked = {lo, hi, is_exclusive};
    uint64_t told = 7, holder;
    tvk_status due = lock_due(tx, asked, &holder);
    tvk_status got = tvk_lock(&store, tx->number, is_exclusive ? TVK_EXCLUSIVE : TVK_SHARED, keys[lo].bytes, keys[lo].length,
                              keys[hi].bytes, keys[hi].length, &told);
    if (is_answer(got, due, told, holder) && !due) grant(tx, asked);
}

/* What is merged or cleaned is no transaction's to see: only the forms of the answers are tested. */
static void test_merge(void) {
    uint64_t told = 7, limit = 1 + (uint64_t)below(TVK_MAX_LIMIT);
    tvk_status got = tvk_merge(&store, limit, &told);
    if (got == TVK_NO_MEMORY && may_refuse) {
        refused++;
        return;
    }
    answers[got]++;
    int is_active = 0;
    for (int s = 0; s < SLOTS; s++) is_active |= active[s].number == told;
    if (got == TVK_OK ? told < 1 || told > limit : got == TVK_ENDED ? !told || !is_active : (got != TVK_DONE && got != TVK_IDLE) || told)
        fail(tvk_name(got));
}

static void test_clean(void) {
    uint64_t told = 7, limit = 1 + (uint64_t)below(TVK_MAX_LIMIT);
    int lo = below(KEYS), hi = lo + below(KEYS - lo);
    tvk_status got = tvk_clean(&store, keys[lo].bytes, keys[lo].length, keys[hi].bytes, keys[hi].length, limit, &told);
    answers[got]++;
    if (got || told > limit) fail("a clean step");
}

/* Each answered by a status, with nothing changed. */
static void test_bad_use(void) {
    tvk_store closed = TVK_CLOSED;
    tvk_value value;
    uint64_t tx = begun + 1, told, line;
    tvk_status got;
#define EXPECT(due, what) \
    if ((got = (what)) != (due) && !(got == TVK_NO_MEMORY && may_refuse)) fail(#what)
    EXPECT(TVK_NO_STORE, tvk_begin(NULL, &told));
    EXPECT(TVK_NO_STORE, tvk_begin(&closed, &told));
    EXPECT(TVK_NO_STORE, tvk_close(&closed));
    EXPECT(TVK_NO_STORE, tvk_close(NULL));
    EXPECT(TVK_NO_STORE, tvk_open(NULL));
    EXPECT(TVK_NO_STORE, tvk_get(&closed, 1, "a", 1, &value, NULL));
    EXPECT(TVK_NO_STORE, tvk_commits(&closed, &told));
    EXPECT(TVK_NO_STORE, tvk_entries(&closed, &told));
    if (strcmp(tvk_version(), TVK_VERSION) || TVK_VERSION_NUMBER / 10000 != atoi(TVK_VERSION)) fail("the version");
    if (sizeof TVK_GREATEST_KEY != TVK_MAX_KEY + 1 || (unsigned char)TVK_GREATEST_KEY[TVK_MAX_KEY - 1] != 0xff) fail("the greatest key");
    EXPECT(TVK_NO_STORE, tvk_figures(&closed, NULL));
    EXPECT(TVK_NULL, tvk_figures(&store, NULL));
    EXPECT(TVK_IS_OPEN, tvk_open(&store));
    EXPECT(TVK_NULL, tvk_get(&store, tx, "a", 1, NULL, NULL));
    EXPECT(TVK_NULL, tvk_get(&store, tx, NULL, 1, &value, NULL));
    EXPECT(TVK_NULL, tvk_insert(&store, tx, "a", 1, NULL, 1, NULL));
    EXPECT(TVK_NULL, tvk_load(&store, tx, NULL, 1, NULL, NULL));
    EXPECT(TVK_NULL, tvk_scan(&store, tx, "a", 1, "b", 1, NULL, 1, &told));
    EXPECT(TVK_NULL, tvk_scan_behind(&store, tx, "a", 1, "b", 1, NULL, 1, &told));
    EXPECT(TVK_NO_STORE, tvk_set(&closed, 1, NULL, 1, NULL, 1, NULL));
    EXPECT(TVK_NO_STORE, tvk_scan_back(&closed, 0, "b", 1, "a", 1, NULL, 0, NULL));
    EXPECT(TVK_NO_STORE, tvk_scan_before(NULL, 0, "b", 1, "a", 1, NULL, 0, NULL));
    EXPECT(TVK_NO_STORE, tvk_delete_range(&closed, 0, "b", 1, "a", 1, 0, NULL));
    EXPECT(TVK_NULL, tvk_set(&store, tx, "a", 1, NULL, 1, NULL));
    EXPECT(TVK_NULL, tvk_scan_back(&store, tx, "a", 1, "b", 1, NULL, 1, &told));
    EXPECT(TVK_NULL, tvk_scan_before(&store, tx, "b", 1, "a", 1, NULL, 0, &told));
    EXPECT(TVK_NULL, tvk_delete_range(&store, tx, NULL, 1, "b", 1, 1, &told));
    EXPECT(TVK_BAD_KEY, tvk_set(&store, tx, keys, TVK_MAX_KEY + 1, NULL, 1, NULL));
    EXPECT(TVK_BAD_VALUE, tvk_set(&store, tx, "a", 1, keys, TVK_MAX_VALUE + 1, NULL));
    EXPECT(TVK_BAD_KEY, tvk_delete_range(&store, tx, "a", 1, keys, TVK_MAX_KEY + 1, 0, &told));
    EXPECT(TVK_BAD_LIMIT, tvk_delete_range(&store, tx, "b", 1, "a", 1, 0, &told));
    EXPECT(TVK_BAD_LIMIT, tvk_delete_range(&store, tx, "b", 1, "a", 1, TVK_MAX_ROWS + 1, &told));
    EXPECT(TVK_BAD_LIMIT, tvk_scan_back(&store, tx, "b", 1, "a", 1, rows, TVK_MAX_ROWS + 1, &told));
    EXPECT(TVK_BAD_LIMIT, tvk_scan_before(&store, tx, "b", 1, "a", 1, rows, TVK_MAX_ROWS, &told));
    EXPECT(TVK_BAD_RANGE, tvk_delete_range(&store, tx, "b", 1, "a", 1, TVK_MAX_ROWS, &told));
    EXPECT(TVK_BAD_RANGE, tvk_scan_back(&store, tx, "b", 1, "a", 1, rows, TVK_MAX_ROWS, &told));
    EXPECT(TVK_BAD_RANGE, tvk_scan_before(&store, tx, "b", 1, "a", 1, rows, TVK_MAX_ROWS - 1, &told));
    EXPECT(TVK_NO_TX, tvk_set(&store, tx, "a", 1, "", 0, NULL));
    EXPECT(TVK_NO_TX, tvk_delete_range(&store, tx, NULL, 0, "a", 1, 1, NULL));
    EXPECT(TVK_BAD_KEY, tvk_get(&store, tx, keys, TVK_MAX_KEY + 1, &value, NULL));
    EXPECT(TVK_BAD_KEY, tvk_delete(&store, tx, keys, (size_t)-1, NULL));
    EXPECT(TVK_BAD_VALUE, tvk_insert(&store, tx, "a", 1, keys, TVK_MAX_VALUE + 1, NULL));
    EXPECT(TVK_BAD_RANGE, tvk_scan(&store, tx, "b", 1, "a", 1, rows, 1, &told));
    EXPECT(TVK_BAD_RANGE, tvk_lock(&store, tx, TVK_SHARED, "b", 1, "a", 1, &told));
    EXPECT(TVK_BAD_MODE, tvk_lock(&store, tx, (tvk_mode)2, "a", 1, "b", 1, &told));
    EXPECT(TVK_BAD_LIMIT, tvk_scan(&store, tx, "a", 1, "b", 1, rows, 0, &told));
    EXPECT(TVK_BAD_LIMIT, tvk_scan(&store, tx, "a", 1, "b", 1, rows, TVK_MAX_ROWS + 1, &told));
    EXPECT(TVK_BAD_LIMIT, tvk_scan_behind(&store, tx, "a", 1, "b", 1, rows, TVK_MAX_ROWS, &told));
    EXPECT(TVK_BAD_LIMIT, tvk_merge(&store, 0, &told));
    EXPECT(TVK_BAD_LIMIT, tvk_merge(&store, TVK_MAX_LIMIT + 1, &told));
    EXPECT(TVK_BAD_LIMIT, tvk_clean(&store, "a", 1, "b", 1, 0, &told));
    /* One order, whatever else is wrong. */
    EXPECT(TVK_NO_STORE, tvk_get(&closed, 0, NULL, 1, NULL, NULL));
    EXPECT(TVK_NO_STORE, tvk_scan(&closed, 0, "b", 1, "a", 1, NULL, 0, NULL));
    EXPECT(TVK_BAD_KEY, tvk_insert(&store, tx, keys, TVK_MAX_KEY + 1, NULL, 1, NULL));
    EXPECT(TVK_NULL, tvk_scan(&store, tx, "b", 1, "a", 1, NULL, 0, &told));
    EXPECT(TVK_BAD_LIMIT, tvk_scan(&store, tx, "b", 1, "a", 1, rows, 0, &told));
    EXPECT(TVK_BAD_LIMIT, tvk_clean(&store, "b", 1, "a", 1, TVK_MAX_LIMIT + 1, &told));
    EXPECT(TVK_BAD_MODE, tvk_lock(&store, tx, (tvk_mode)2, "b", 1, "a", 1, &told));
    EXPECT(TVK_BAD_RANGE, tvk_scan(&store, tx, "b", 1, "a", 1, rows, TVK_MAX_ROWS, &told));
    EXPECT(TVK_NO_TX, tvk_load(&store, tx, NULL, 0, NULL, NULL));
    EXPECT(TVK_NO_TX, tvk_scan(&store, tx, "a", 1, "b", 1, rows, TVK_MAX_ROWS, &told));
    EXPECT(TVK_NO_TX, tvk_commit(&store, tx, &told));
    EXPECT(TVK_NO_TX, tvk_get(&store, 0, "a", 1, &value, NULL));
    memset(rows, 0, 2 * sizeof *rows);
    rows[0].key.length = TVK_MAX_KEY + 1;
    EXPECT(TVK_BAD_KEY, tvk_load(&store, tx, rows, 1, NULL, NULL));
    rows[0].key.length = 0;
    rows[1].value.length = TVK_MAX_VALUE + 1;
    EXPECT(TVK_BAD_VALUE, tvk_load(&store, tx, rows, 2, NULL, NULL));
    EXPECT(TVK_BAD_VALUE, tvk_load_sorting(&store, tx, rows, 2, NULL, NULL, NULL));
    EXPECT(TVK_BAD_VALUE, tvk_put(&store, tx, rows, 2, NULL));
    EXPECT(TVK_BAD_VALUE, tvk_put_sorting(&store, tx, rows, 2, NULL, NULL, NULL));
    EXPECT(TVK_NO_STORE, tvk_put(&closed, tx, NULL, 1, NULL));
    EXPECT(TVK_NULL, tvk_put(&store, tx, NULL, 1, NULL));
    EXPECT(TVK_NO_TX, tvk_put(&store, tx, NULL, 0, NULL));
    EXPECT(TVK_NO_STORE, tvk_put_sorting(&closed, tx, NULL, 1, NULL, NULL, NULL));
    EXPECT(TVK_NULL, tvk_put_sorting(&store, tx, NULL, 1, NULL, NULL, NULL));
    EXPECT(TVK_NO_TX, tvk_put_sorting(&store, tx, NULL, 0, NULL, NULL, NULL));
    EXPECT(TVK_NO_STORE, tvk_put_structs(&closed, tx, NULL, 1, NULL, NULL, NULL, NULL));
    EXPECT(TVK_NULL, tvk_put_structs(&store, tx, rows, 0, NULL, NULL, NULL, NULL));
    EXPECT(TVK_NO_STORE, tvk_put_text(&closed, tx, NULL, 1, NULL, NULL, NULL, NULL));
    EXPECT(TVK_NULL, tvk_put_text(&store, tx, NULL, 1, NULL, NULL, NULL, NULL));
    EXPECT(TVK_BAD_LINE, tvk_put_text(&store, tx, "a", 1, NULL, NULL, NULL, NULL));
    EXPECT(TVK_NO_STORE, tvk_load_sorting(&closed, tx, NULL, 1, NULL, NULL, NULL));
    EXPECT(TVK_NULL, tvk_load_sorting(&store, tx, NULL, 1, NULL, NULL, NULL));
    EXPECT(TVK_NO_TX, tvk_load_sorting(&store, tx, NULL, 0, NULL, NULL, NULL));
    tvk_layout layout = {sizeof *rows, offsetof(tvk_record, key.bytes), TVK_MAX_KEY, offsetof(tvk_record, value.bytes), TVK_MAX_VALUE};
    EXPECT(TVK_NO_STORE, tvk_load_structs(&closed, tx, NULL, 1, NULL, NULL, NULL, NULL));
    EXPECT(TVK_NULL, tvk_load_structs(&store, tx, NULL, 1, &layout, NULL, NULL, NULL));
    EXPECT(TVK_NULL, tvk_load_structs(&store, tx, rows, 0, NULL, NULL, NULL, NULL));
    EXPECT(TVK_NO_TX, tvk_load_structs(&store, tx, NULL, 0, &layout, NULL, NULL, NULL));
    EXPECT(TVK_NO_TX, tvk_load_structs(&store, tx, rows, 1, &layout, NULL, NULL, NULL));
    EXPECT(TVK_TWICE, tvk_load_structs(&store, tx, rows, 2, &layout, NULL, NULL, NULL));
    EXPECT(TVK_NO_MEMORY, tvk_load_structs(&store, tx, rows, SIZE_MAX / sizeof *rows + 1, &layout, NULL, NULL, NULL));
    layout.value_length++;
    EXPECT(TVK_BAD_VALUE, tvk_load_structs(&store, tx, rows, 1, &layout, NULL, NULL, NULL));
    layout.value_length = 1;
    layout.value_at = sizeof *rows;
    EXPECT(TVK_BAD_VALUE, tvk_load_structs(&store, tx, rows, 1, &layout, NULL, NULL, NULL));
    layout.key_length++;
    EXPECT(TVK_BAD_KEY, tvk_load_structs(&store, tx, rows, 1, &layout, NULL, NULL, NULL));
    layout.key_length = 1;
    layout.key_at = SIZE_MAX;
    EXPECT(TVK_BAD_KEY, tvk_load_structs(&store, tx, rows, 1, &layout, NULL, NULL, NULL));
    /* Structs of no bytes, however many they are. */
    layout.size = 0;
    EXPECT(TVK_BAD_KEY, tvk_load_structs(&store, tx, rows, 1, &layout, NULL, NULL, NULL));
    EXPECT(TVK_NO_MEMORY, tvk_load_structs(&store, tx, rows, SIZE_MAX, &layout, NULL, NULL, NULL));
    memset(&layout, 0, sizeof layout);
    EXPECT(TVK_NO_TX, tvk_load_structs(&store, tx, rows, 1, &layout, NULL, NULL, NULL));
    EXPECT(TVK_TWICE, tvk_load_structs(&store, tx, rows, 2, &layout, NULL, NULL, NULL));
    EXPECT(TVK_NO_MEMORY, tvk_load_structs(&store, tx, rows, SIZE_MAX, &layout, NULL, NULL, NULL));
    EXPECT(TVK_NO_STORE, tvk_load_text(&closed, tx, NULL, 1, NULL, NULL, NULL, NULL));
    EXPECT(TVK_NULL, tvk_load_text(&store, tx, NULL, 1, NULL, NULL, NULL, NULL));
    EXPECT(TVK_NO_TX, tvk_load_text(&store, tx, NULL, 0, NULL, NULL, NULL, NULL));
    /* The number of the first wrong line, whatever is wrong behind it; a line may be of a TAB alone, and not empty. */
#define EXPECT_LINE(due, number, text)                                                                     \
    EXPECT(due, tvk_load_text(&store, tx, text, sizeof text - 1, NULL, &line, NULL, NULL));                \
    if (line != (got == TVK_NO_MEMORY ? 0 : number)) fail("another line")
    EXPECT_LINE(TVK_BAD_LINE, 1u, "\n");
    EXPECT_LINE(TVK_BAD_LINE, 2u, "a\tb\n\nc\td\n");
    EXPECT_LINE(TVK_BAD_LINE, 3u, "a\tb\n\t\nb");
    EXPECT_LINE(TVK_BAD_KEY, 2u, "a\t\n123456789012345678901234567890123\t\nb\n");
    EXPECT_LINE(TVK_BAD_VALUE, 1u, "a\t12345678901234567890123456789012345678901234567890123456789012345\nb");
    EXPECT_LINE(TVK_TWICE, 0u, "b\t\na\t1\na\t2\nb\t");
    EXPECT_LINE(TVK_NO_TX, 0u, "12345678901234567890123456789012\t1234567890123456789012345678901234567890123456789012345678901234");
}

static void test_any(void) {
    transaction *tx = &active[below(SLOTS)];
    if (!tx->number && below(20)) {
        test_begin(tx);
        return;
    }
    if (tx->number && !below(tx->end_once_in)) {
        if (below(3)) test_commit(tx);
        else test_abort(tx);
        return;
    }
    int kind = below(100);
    if (kind < 22) test_get(tx);
    else if (kind < 56) test_write(tx, kind % 4);
    else if (kind < 58) test_delete_range(tx);
    else if (kind < 70) test_scan(tx, 0, kind % 2);
    else if (kind < 76) test_scan(tx, 1, kind % 2);
    else if (kind < 78) test_load(tx);
    else if (kind < 79) test_load_sorting(tx);
    else if (kind < 80) test_put(tx);
    else if (kind < 82) test_lock(tx);
    else if (kind < 85) test_mark(tx);
    else if (kind < 88) test_back(tx);
    else if (kind < 96) test_merge();
    else if (kind < 99) test_clean();
    else if (!tx->number && below(2)) test_commit(tx);
    else if (tx->number && tx->operations >= TVK_MAX_OPS) test_abort(tx);
}

/* What must not be refused memory in the end is asked again until it isn't. */
#define ASK(what) \
    do got = (what); \
    while (got == TVK_NO_MEMORY && may_refuse && !is_ever_refused)

static void test_end(void) {
    uint64_t told = 7, due = 0, tx;
    tvk_status got;
    for (int s = 0; s < SLOTS; s++)
        if (active[s].number) test_abort(&active[s]);
    tvk_commits(&store, &told);
    if (told != commits) fail("another number of commits");
    if (is_ever_refused) return;
    do
        if (tvk_clean(&store, NULL, 0, keys[KEYS - 1].bytes, TVK_MAX_KEY, TVK_MAX_LIMIT, &told)) fail("the last clean steps");
    while (told);
    if (tvk_begin(&store, &tx)) fail("the last begin");
    for (int key = 0; key < KEYS; key++) {
        if (!committed[key].is_there) continue;
        tvk_value value;
        ASK(tvk_get(&store, tx, keys[key].bytes, keys[key].length, &value, NULL));
        /* One transaction may hold no more locks than that. */
        if (got == TVK_TOO_MANY_LOCKS) {
            if (tvk_commit(&store, tx, NULL) || tvk_begin(&store, &tx)) fail("the next of the last transactions");
            ASK(tvk_get(&store, tx, keys[key].bytes, keys[key].length, &value, NULL));
        }
        if (got || !is_same(&value, &committed[key].value)) fail("another value in the end");
        due++;
    }
    if (tvk_commit(&store, tx, NULL) || tvk_begin(&store, &tx)) fail("the last transaction");
    ASK(tvk_scan(&store, tx, NULL, 0, keys[KEYS - 1].bytes, TVK_MAX_KEY, rows, TVK_MAX_ROWS, &told));
    if (got || told != due) fail("another number of records in the end");
    ASK(tvk_entries(&store, &told));
    if (got || told != due) fail("another number of entries in the end");
    tvk_figures_t figures;
    ASK(tvk_figures(&store, &figures));
    if (got || figures.entries != due || figures.in_final + figures.in_runs != due || figures.ghosts) fail("other figures in the end");
    if (figures.active != 1 || figures.commits != commits + 1) fail("other transactions in the end");
}

/* How many ghosts stand behind a commit that deleted 200 records of 200. */
static uint64_t ghosts_left(void) {
    tvk_store own = TVK_CLOSED;
    tvk_figures_t figures;
    uint64_t tx;
    char key[8];
    if (tvk_open(&own)) fail("no room for a small store");
    for (int deletes = 0; deletes <= 1; deletes++) {
        if (tvk_begin(&own, &tx)) fail("a small transaction");
        for (int i = 0; i < 200; i++) {
            size_t length = (size_t)snprintf(key, sizeof key, "%03d", i);
            if (deletes ? tvk_delete(&own, tx, key, length, NULL) : tvk_insert(&own, tx, key, length, "v", 1, NULL))
                fail("200 records, and none of them");
        }
        if (tvk_commit(&own, tx, NULL)) fail("the end of a small transaction");
    }
    if (tvk_figures(&own, &figures) || tvk_close(&own)) fail("a small store");
    return figures.ghosts;
}

static void test_upkeep(void) {
    if (ghosts_left() >= 64) fail("a commit doesn't clean");
    tvk_upkeep(0);
    if (ghosts_left() != 200) fail("a commit cleans where it is told not to");
    tvk_upkeep(1);
}

/* Loads so many runs of 64 records by as many commits, keys of all in between those of each, and tells how many there were at most
 * behind a commit. */
static uint64_t most_runs_behind(tvk_store *own, int runs) {
    static tvk_record few[64];
    tvk_figures_t figures;
    uint64_t tx, told, most = 0;
    for (int run = 0; run < runs; run++) {
        if (tvk_begin(own, &tx)) fail("a transaction of a run");
        for (int i = 0; i < 64; i++) few[i].key.length = (size_t)snprintf((char *)few[i].key.bytes, TVK_MAX_KEY, "%02d %06d", i, run * 7919 % 100003);
        if (tvk_load(own, tx, few, 64, NULL, NULL)) fail("a run of 64");
        if (tvk_commit(own, tx, &told) || tvk_figures(own, &figures)) fail("the commit of a run");
        if (figures.runs > most) most = figures.runs;
    }
    if (figures.entries != 64 * (uint64_t)runs) fail("the records of runs");
    if (told != figures.commits || told != (uint64_t)runs) fail("a commit's number beside upkeep");
    return most;
}

/* How often tidy has something to do. */
static int tidied(tvk_store *own) {
    uint64_t more = 1;
    int calls = -1;
    for (; more; calls++)
        if (tvk_tidy(own, &more)) fail("tidy");
    return calls;
}

/* What nobody reads is merged: a part by commits where runs are many, and all by whoever has time, but what is locked. */
static void test_unasked(void) {
    tvk_store own = TVK_CLOSED;
    tvk_figures_t figures;
    uint64_t tx;
    if (tvk_open(&own) || most_runs_behind(&own, 64) != 64) fail("64 runs are merged unasked");
    if (tvk_close(&own) || tvk_open(&own) || most_runs_behind(&own, 3000) > 300) fail("runs that nobody reads stay");
    if (tvk_close(&own) || tvk_open(&own)) fail("a store of runs");
    tvk_upkeep(0);
    if (most_runs_behind(&own, 200) != 200) fail("a commit merges where it is told not to");
    tvk_upkeep(1);
    if (tvk_begin(&own, &tx) || tvk_lock(&own, tx, TVK_EXCLUSIVE, NULL, 0, TVK_GREATEST_KEY, TVK_MAX_KEY, NULL)) fail("a lock of all");
    if (tidied(&own) || tvk_figures(&own, &figures) || figures.runs != 200 || figures.active != 1) fail("tidy beside a lock of all");
    if (tvk_abort(&own, tx)) fail("the end of a lock of all");
    if (tidied(&own) < 50 || tvk_figures(&own, &figures) || figures.runs || figures.in_final != 12800 || figures.active) fail("tidy leaves runs");
    if (tvk_close(&own)) fail("a store without runs");
    if (tvk_tidy(&own, &tx) != TVK_NO_STORE || tvk_tidy(NULL, NULL) != TVK_NO_STORE) fail("tidy without a store");
}

/* Loads of more records than a session could stage: by rising key in one run, and in any order in five. */
enum { MANY = 300000, RUN = 65536, LINE = 18 };

static tvk_store large = TVK_CLOSED;
static tvk_record *records;
static char *text;

static void begin_large(uint64_t *tx) {
    if (tvk_open(&large) || tvk_begin(&large, tx)) fail("no room for a large load");
}

static void end_large(uint64_t tx, uint64_t due) {
    uint64_t told;
    if (tvk_commit(&large, tx, NULL) || tvk_entries(&large, &told) || told != due) fail("the records of a large load");
    if (tvk_close(&large)) fail("a large store is not closed");
}

/* Each record's key by a number, and the text of them all. */
static void make_large(int factor) {
    char line[32];
    for (int i = 0; i < MANY; i++) {
        snprintf(line, sizeof line, "%08lld\t%08d\n", (long long)i * factor % MANY, i);
        memcpy(text + (size_t)LINE * (size_t)i, line, LINE);
        records[i].key.length = records[i].value.length = 8;
        memcpy(records[i].key.bytes, line, 8);
        memcpy(records[i].value.bytes, line + 9, 8);
    }
}

static void look_at_large(uint64_t tx) {
    tvk_value value;
    for (int i = 0; i < MANY; i += 997)
        if (tvk_get(&large, tx, records[i].key.bytes, 8, &value, NULL) || memcmp(value.bytes, records[i].value.bytes, 8))
            fail("a record of a large load");
}

/* The third run is refused, for a record of its own: the two before it stay, and what is behind them can be loaded later. */
static void test_refused_run(uint64_t tx) {
    uint64_t loaded, told;
    tvk_key found;
    const tvk_key *key = &records[2 * RUN + 5].key;
    if (tvk_insert(&large, tx, key->bytes, key->length, NULL, 0, NULL)) fail("a record of a run");
    if (tvk_load_sorting(&large, tx, records, MANY, &found, &loaded, NULL) != TVK_EXISTS || loaded != 2 * RUN) fail("a refused run");
    if (memcmp(&found, key, sizeof found)) fail("the key of a refused run");
    if (tvk_entries(&large, &told) || told != 2 * RUN + 1) fail("the runs before a refused one");
    if (tvk_delete(&large, tx, key->bytes, key->length, NULL)) fail("the record of a run");
    if (tvk_load_sorting(&large, tx, records + loaded, MANY - (size_t)loaded, NULL, &loaded, NULL) || loaded != MANY - 2 * RUN)
        fail("the runs behind a refused one");
}

static void test_large_loads(void) {
    uint64_t tx, told, loaded, line;
    tvk_key found;
    records = calloc(MANY, sizeof *records);
    text = malloc((size_t)LINE * MANY);
    if (!records || !text) fail("no room for large loads");
    make_large(1);
    begin_large(&tx);
    if (tvk_load(&large, tx, records, MANY, NULL, &told)) fail("a load of 300,000 records");
    look_at_large(tx);
    end_large(tx, MANY);

    make_large(7919);
    begin_large(&tx);
    if (tvk_load_text(&large, tx, text, (size_t)LINE * MANY - 1, NULL, &line, &loaded, NULL) || loaded != MANY || line)
        fail("a text of 300,000 lines");
    look_at_large(tx);
    end_large(tx, MANY);

    const tvk_layout layout = {sizeof *records, offsetof(tvk_record, key.bytes), 8, offsetof(tvk_record, value.bytes), 8};
    begin_large(&tx);
    if (tvk_load_structs(&large, tx, records, MANY, &layout, NULL, &loaded, NULL) || loaded != MANY) fail("300,000 structs");
    look_at_large(tx);
    end_large(tx, MANY);

    for (size_t more = 0; more <= 1; more++) {
        tvk_figures_t figures;
        begin_large(&tx);
        if (tvk_load_structs(&large, tx, records, RUN + more, &layout, NULL, &loaded, NULL) || loaded != RUN + more)
            fail("65,536 structs, and one more");
        if (tvk_figures(&large, &figures) || figures.runs != 1 + more) fail("the runs of 65,536 structs, and of one more");
        end_large(tx, RUN + more);
    }

    /* A put of each second one of them makes two runs, one of all another three, and the same again none. */
    begin_large(&tx);
    const tvk_layout half = {2 * sizeof *records, layout.key_at, layout.key_length, layout.value_at, layout.value_length};
    tvk_figures_t figures;
    uint64_t runs[3];
    for (int put = 0; put < 3; put++) {
        size_t number = put ? MANY : MANY / 2;
        if (tvk_put_structs(&large, tx, records, number, put ? &layout : &half, NULL, &loaded, NULL) || loaded != number) fail("a large put");
        if (tvk_figures(&large, &figures)) fail("the figures of a large put");
        runs[put] = figures.runs;
        for (int i = 0; i < MANY; i++) records[i].value.bytes[7] ^= 1;
    }
    for (int i = 0; i < MANY; i++) records[i].value.bytes[7] ^= 1;
    if (runs[0] != 3 || runs[1] != 8 || runs[2] != 8) fail("the runs of large puts");
    look_at_large(tx);
    end_large(tx, MANY);

    begin_large(&tx);
    test_refused_run(tx);
    look_at_large(tx);
    if (tvk_clean(&large, NULL, 0, keys[KEYS - 1].bytes, TVK_MAX_KEY, TVK_MAX_LIMIT, NULL)) fail("the last clean steps");
    end_large(tx, MANY + 1);

    /* A key of the first run stands in the last one too. */
    begin_large(&tx);
    records[MANY - 1].key = records[3].key;
    if (tvk_load_sorting(&large, tx, records, MANY, &found, &loaded, NULL) != TVK_TWICE || loaded) fail("a key that stands twice");
    if (memcmp(&found, &records[3].key, sizeof found)) fail("the key that stands twice");
    end_large(tx, 0);
    free(text);
    free(records);
}

int main(int words, char **word) {
    long number = words > 1 ? atol(word[1]) : 1000;
    tvk_status got;
    state = words > 2 ? strtoull(word[2], NULL, 10) : 1;
    may_refuse = words > 3;
    is_ever_refused = may_refuse && !strcmp(word[3], "ever");
    make_keys();
    ASK(tvk_open(&store));
    if (is_ever_refused && got == TVK_NO_MEMORY) return store.at != NULL;
    if (got) fail("no store was opened");
    for (call = 1; call <= number; call++) {
        test_any();
        if (call % 1000 == 1) test_bad_use();
    }
    test_end();
    if (tvk_close(&store) || store.at) fail("the store is not closed");
    if (tvk_close(&store) != TVK_NO_STORE) fail("a closed store is closed again");
    if (may_refuse) return 0;
    test_upkeep();
    test_unasked();
    test_large_loads();
    printf("library: %ld calls, %llu commits, %llu loads;", number, (unsigned long long)commits, (unsigned long long)loads);
    for (int status = 0; status <= TVK_BAD_LINE; status++)
        if (answers[status]) printf(" %s %ld", tvk_name((tvk_status)status), answers[status]);
    printf("\n");
    return 0;
}
