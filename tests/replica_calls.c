/* Worked calls of tiuvrokk_replica.h, and bad ones, with a line for each answer. A replica that is refused memory ends, and is begun
 * anew from the log, and a log is told anew of all changes; so with any one allocation refused the same lines are printed. */
#include <stdio.h>
#include <stdlib.h>
#include <string.h>
#include <tiuvrokk_replica.h>

enum { MOST_ENTRIES = 64, ROOM = 1 << 16 };

static tvk_replica replica = TVK_NO_REPLICA;
static tvk_transaction first = TVK_NO_TRANSACTION, second = TVK_NO_TRANSACTION;
/* The log. */
static unsigned char entries[MOST_ENTRIES][ROOM];
static uint64_t sizes[MOST_ENTRIES];
static int count;
static uint64_t restored;
static int differs;

static void want(int holds, const char *what) {
    if (holds) return;
    differs = 1;
    fprintf(stderr, "replica_calls: %s\n", what);
}

/* A call again and again, while memory is refused: behind each refusal the replica is begun anew. */
static void begin_anew(void);
#define AGAIN(call) while ((call) == TVK_NO_MEMORY) begin_anew()

static void begin_anew(void) {
    uint64_t length;
    for (;;) {
        tvk_status status = TVK_OK;
        if (replica.at) (void)tvk_replica_close(&replica);
        if (tvk_replica_open(&replica)) continue;
        for (int at = 0; at < count && status == TVK_OK; at++) status = tvk_replica_take(&replica, entries[at], sizes[at], &length);
        if (status == TVK_OK && restored) status = tvk_replica_restore(&replica, restored);
        if (status == TVK_OK) return;
    }
}

/* The answer, by pieces of seven bytes. */
static void read_answer(unsigned char *text, uint64_t length) {
    uint64_t from = 0, copied;
    while (from < length) {
        want(tvk_replica_answer(&replica, from, text + from, length - from < 7 ? length - from : 7, &copied) == TVK_OK && copied,
             "an answer isn't whole");
        if (!copied) return;
        from += copied;
    }
    want(tvk_replica_answer(&replica, length, text, 7, &copied) == TVK_OK && !copied, "an answer goes on beyond its end");
}

static void print_answer(const char *asked, uint64_t length) {
    static unsigned char text[ROOM];
    read_answer(text, length);
    printf("%s: ", asked);
    if (!length) puts("-");
    for (uint64_t at = 0; at < length; at++) {
        putchar(text[at] == '\n' && at + 1 < length ? '|' : text[at]);
    }
}

/* The lines of a transaction that was tried, for it to be tried again where the replica ended. */
struct lines {
    const char *lines[16];
    int count;
};
static struct lines of_first, of_second;

static void begin(tvk_transaction *transaction, struct lines *own) {
    while (tvk_replica_begin(transaction) == TVK_NO_MEMORY) {}
    own->count = 0;
}

static tvk_status retry(tvk_transaction *transaction, const struct lines *own) {
    uint64_t length;
    tvk_status status = transaction->at ? TVK_OK : tvk_replica_begin(transaction);
    for (int at = 0; at < own->count && status == TVK_OK; at++)
        status = tvk_replica_try(&replica, transaction, own->lines[at], strlen(own->lines[at]), &length);
    return status;
}

static void try_line(tvk_transaction *transaction, struct lines *own, const char *line) {
    uint64_t length;
    tvk_status status;
    while ((status = tvk_replica_try(&replica, transaction, line, strlen(line), &length)) == TVK_NO_MEMORY || !transaction->at) {
        do {
            begin_anew();
            if (transaction->at) (void)tvk_replica_end(transaction);
        } while (retry(transaction, own));
    }
    want(status == TVK_OK, line);
    own->lines[own->count++] = line;
    print_answer(line, length);
}

/* The transaction as an entry, which comes so far behind those of the log. */
static void make_block(tvk_transaction *transaction, const struct lines *own, int behind) {
    uint64_t length;
    while (tvk_replica_block(&replica, transaction, &length) != TVK_OK) {
        do {
            begin_anew();
            if (transaction->at) (void)tvk_replica_end(transaction);
        } while (retry(transaction, own));
    }
    want(!transaction->at, "a block's transaction stays");
    sizes[count + behind] = length;
    read_answer(entries[count + behind], length);
}

/* Lines that are tried together, by a transaction that has no others. */
static void try_lines(const char *what, const char *text) {
    tvk_transaction transaction = TVK_NO_TRANSACTION;
    uint64_t length;
    for (;;) {
        while (!transaction.at && tvk_replica_begin(&transaction) == TVK_NO_MEMORY) {}
        if (tvk_replica_try_lines(&replica, &transaction, text, strlen(text), &length) == TVK_OK) break;
        begin_anew();
    }
    print_answer(what, length);
    (void)tvk_replica_end(&transaction);
}

/* Records wait, so it is no block, and it is gone. */
static void make_none(tvk_transaction *transaction, const struct lines *own) {
    uint64_t length;
    tvk_status status;
    while ((status = tvk_replica_block(&replica, transaction, &length)) == TVK_NO_MEMORY || status == TVK_NO_TX) {
        do {
            begin_anew();
            if (transaction->at) (void)tvk_replica_end(transaction);
        } while (retry(transaction, own));
    }
    want((int)status == TVK_STAGED && !length && !transaction->at, "records that wait are a block");
}

/* Another replica, none of whose clients sent any of the entries. */
static void follow(void) {
    tvk_replica other = TVK_NO_REPLICA;
    uint64_t commits = 0;
    tvk_status status;
    do {
        if (other.at) (void)tvk_replica_close(&other);
        status = tvk_replica_open(&other);
        for (int at = 0; at < count && status == TVK_OK; at++) status = tvk_replica_apply(&other, entries[at], sizes[at]);
        if (status == TVK_OK) status = tvk_replica_apply(&other, "\1", 1);
        if ((int)status == TVK_NO_ENTRY) status = tvk_replica_commits(&other, &commits);
    } while (status == TVK_NO_MEMORY);
    printf("one that tells nobody: commits %u\n", (unsigned)commits);
    want(status == TVK_OK && tvk_replica_close(&other) == TVK_OK, "it isn't closed");
}

/* The next entry comes in the log. */
static void take_next(const char *what) {
    uint64_t length;
    AGAIN(tvk_replica_take(&replica, entries[count], sizes[count], &length));
    count++;
    print_answer(what, length);
}

static void keep_up(const char *line) {
    uint64_t length;
    AGAIN(tvk_replica_keep_up(&replica, line, strlen(line), &length));
    /* (what there is to merge hangs on what was tried) */
    want(length > 0, line);
}

static void bad_calls(void) {
    tvk_replica none = TVK_NO_REPLICA;
    tvk_transaction no_lines = TVK_NO_TRANSACTION;
    uint64_t told = 7;
    char byte;
    want(tvk_replica_open(NULL) == TVK_NO_STORE && tvk_replica_close(NULL) == TVK_NO_STORE, "NULL opens");
    want(tvk_replica_close(&none) == TVK_NO_STORE, "none is closed");
    want(tvk_replica_take(&none, "", 0, &told) == TVK_NO_STORE && !told, "none takes an entry");
    want(tvk_replica_take(NULL, "", 0, NULL) == TVK_NO_STORE, "NULL takes an entry");
    want(tvk_replica_keep_up(&none, "MERGE 1", 7, NULL) == TVK_NO_STORE, "none merges");
    want(tvk_replica_renew(&none) == TVK_NO_STORE && tvk_replica_restore(&none, 1) == TVK_NO_STORE, "none is renewed");
    want(tvk_replica_commits(&none, &told) == TVK_NO_STORE, "none has commits");
    want(tvk_replica_answer(&none, 0, &byte, 1, &told) == TVK_NO_STORE && !told, "none has an answer");
    want(tvk_replica_begin(NULL) == TVK_NO_TX && tvk_replica_end(NULL) == TVK_NO_TX, "NULL begins");
    want(tvk_replica_end(&no_lines) == TVK_NO_TX, "none ends");
    want(tvk_replica_try(&replica, &no_lines, "GET a", 5, &told) == TVK_NO_TX && !told, "none is tried");
    want(tvk_replica_try(&replica, NULL, "GET a", 5, NULL) == TVK_NO_TX, "NULL is tried");
    want(tvk_replica_try(&none, &first, "GET a", 5, NULL) == TVK_NO_STORE, "none tries");
    want(tvk_replica_apply(&none, "", 0) == TVK_NO_STORE && tvk_replica_apply(NULL, "", 0) == TVK_NO_STORE, "none applies");
    want(tvk_replica_apply(&replica, NULL, 1) == TVK_NULL, "NULL is applied");
    want(tvk_replica_try_lines(&none, &first, "GET a", 5, NULL) == TVK_NO_STORE, "none tries lines");
    want(tvk_replica_try_lines(&replica, &no_lines, "GET a", 5, &told) == TVK_NO_TX && !told, "none has lines");
    want(tvk_replica_try_lines(&replica, &first, NULL, 1, NULL) == TVK_NULL, "NULL is lines");
    want(tvk_replica_block(&replica, &no_lines, NULL) == TVK_NO_TX, "none is a block");
    want(tvk_replica_open(&replica) == TVK_IS_OPEN && tvk_replica_begin(&first) == TVK_IS_OPEN, "what is open is opened");
    want(tvk_replica_take(&replica, NULL, 1, NULL) == TVK_NULL && tvk_replica_keep_up(&replica, NULL, 1, NULL) == TVK_NULL,
         "NULL is a text");
    want(tvk_replica_try(&replica, &first, NULL, 1, NULL) == TVK_NULL, "NULL is a line");
    want(tvk_replica_answer(&replica, 0, NULL, 1, NULL) == TVK_NULL, "NULL has room");
    want(tvk_replica_try(&replica, &first, "GET a\nGET b", 11, NULL) == TVK_BAD_LINE, "two lines are one");
}

static void no_entries(void) {
    static const char *const texts[] = {"", "\1", "\1\0\0\0\1", "\2\0\0\0\0", "1\n", "\1\0\0\0\1\0\0\0\7COMMIT\n"};
    static const size_t lengths[] = {0, 1, 5, 5, 2, 17};
    uint64_t length;
    for (size_t at = 0; at < sizeof lengths / sizeof *lengths; at++) {
        tvk_status status;
        while ((status = tvk_replica_take(&replica, texts[at], lengths[at], &length)) == TVK_NO_MEMORY) begin_anew();
        want((int)status == TVK_NO_ENTRY && !length, "a text is an entry");
    }
}

static void print_commits(void) {
    uint64_t commits;
    AGAIN(tvk_replica_commits(&replica, &commits));
    printf("commits %u\n", (unsigned)commits);
}

/* A change that a log is told of: of a part, or, where there is no text, of a floor. */
struct change {
    uint64_t revision, generation, since;
    tvk_entry_name name;
    uint64_t part;
    int is_new;
    const char *text;
};

static tvk_log entries_log = TVK_NO_LOG;
static struct change changes[MOST_ENTRIES];
static int change_count;

static tvk_status tell(const struct change *it, uint64_t *length) {
    *length = 0;
    if (!it->text) return tvk_log_move(&entries_log, it->revision, it->since, it->generation, 0, 9);
    return tvk_log_put(&entries_log, it->revision, it->generation, &it->name, it->part, it->is_new, it->text, strlen(it->text), length);
}

/* At the log's beginning, or by a snapshot that a floor names. */
static uint64_t begun_since, begun_generation;

static void open_log(void) {
    uint64_t length;
    int at;
    do {
        if (entries_log.at) (void)tvk_log_close(&entries_log);
        while ((begun_generation ? tvk_log_open_behind(&entries_log, begun_since, begun_generation) : tvk_log_open(&entries_log)) ==
               TVK_NO_MEMORY) {}
        for (at = 0; at < change_count && tell(&changes[at], &length) != TVK_NO_MEMORY; at++) {}
    } while (at < change_count);
}

/* The next change, and the entry that it ends, by pieces of five bytes. */
static void show(const char *what, struct change it) {
    char text[64] = "";
    uint64_t length, from = 0, copied = 1;
    tvk_status status;
    while ((status = tell(&it, &length)) == TVK_NO_MEMORY) {
        want(tvk_log_text(&entries_log, 0, text, sizeof text, &copied) == TVK_OK && !copied, "a log that is over has a text");
        want(tvk_log_generation(&entries_log, &copied) == TVK_NO_MEMORY && !copied, "a log that is over goes on");
        open_log();
    }
    changes[change_count++] = it;
    for (copied = 1; copied; from += copied)
        want(tvk_log_text(&entries_log, from, text + from, 5, &copied) == TVK_OK, "an entry has no text");
    want(from == length, "an entry isn't whole");
    printf("%s: %s\n", what, status == TVK_OK ? it.text ? text : "a floor" : status == TVK_ABSENT ? "-" :
           (int)status == TVK_PARTS_MISSING ? "parts missing" : (int)status == TVK_WENT_BACK ? "went back" : "?");
}

static struct change put_of(uint64_t revision, uint64_t generation, uint64_t number, uint64_t part, int is_new, const char *text) {
    return (struct change){revision, generation, 0, {1, 2, number}, part, is_new, text};
}

static struct change floor_of(uint64_t revision, uint64_t since, uint64_t generation) {
    return (struct change){revision, generation, since, {0, 0, 0}, 0, 0, NULL};
}

static void print_log(uint64_t revision) {
    uint64_t generation = 0, start = 0;
    int may = 0;
    want(tvk_log_generation(&entries_log, &generation) == TVK_OK && tvk_log_first_behind(&entries_log, revision, &start) == TVK_OK &&
         tvk_log_may_be_left(&entries_log, revision, &may) == TVK_OK, "a log tells nothing");
    printf("generation %u, behind %u, may %d\n", (unsigned)generation, (unsigned)start, may);
}

static void bad_log_calls(void) {
    tvk_log none = TVK_NO_LOG;
    const tvk_entry_name name = {1, 2, 3};
    uint64_t told = 7;
    int may = 7;
    char byte;
    want(tvk_log_open(NULL) == TVK_NO_STORE && tvk_log_open_behind(NULL, 1, 1) == TVK_NO_STORE, "NULL is opened");
    want(tvk_log_close(NULL) == TVK_NO_STORE && tvk_log_close(&none) == TVK_NO_STORE, "no log is closed");
    want(tvk_log_put(NULL, 1, 0, &name, TVK_HEAD, 1, "", 0, NULL) == TVK_NO_STORE, "NULL is told of a put");
    want(tvk_log_put(&none, 1, 0, &name, TVK_HEAD, 1, "", 0, &told) == TVK_NO_STORE && !told, "no log is told of a put");
    want(tvk_log_move(NULL, 1, 0, 1, 0, 0) == TVK_NO_STORE && tvk_log_move(&none, 1, 0, 1, 0, 0) == TVK_NO_STORE, "no log has a floor");
    want(tvk_log_generation(&none, &told) == TVK_NO_STORE && tvk_log_generation(NULL, NULL) == TVK_NO_STORE, "none has a generation");
    want(tvk_log_first_behind(&none, 1, &told) == TVK_NO_STORE && tvk_log_first_behind(NULL, 1, NULL) == TVK_NO_STORE, "none begins");
    want(tvk_log_may_be_left(&none, 1, &may) == TVK_NO_STORE && !may && tvk_log_may_be_left(NULL, 1, NULL) == TVK_NO_STORE, "none is left");
    told = 7;
    want(tvk_log_text(&none, 0, &byte, 1, &told) == TVK_NO_STORE && !told && tvk_log_text(NULL, 0, &byte, 1, NULL) == TVK_NO_STORE,
         "no log has a text");
    want(tvk_log_open(&entries_log) == TVK_IS_OPEN && tvk_log_open_behind(&entries_log, 1, 1) == TVK_IS_OPEN, "an open log is opened");
    want(tvk_log_open_behind(&none, 1, 0) == TVK_BAD_LIMIT && !none.at, "a snapshot has generation 0");
    want(tvk_log_put(&entries_log, 1, 0, NULL, TVK_HEAD, 1, "", 0, NULL) == TVK_NULL, "NULL is a name");
    want(tvk_log_put(&entries_log, 1, 0, &name, TVK_HEAD, 1, NULL, 1, NULL) == TVK_NULL, "NULL is an entry's text");
    want(tvk_log_text(&entries_log, 0, NULL, 1, NULL) == TVK_NULL, "NULL has room for a text");
}

static void read_logs(void) {
    open_log();
    bad_log_calls();
    show("a piece", put_of(2, 0, 1, 0, 1, "an "));
    show("again", put_of(3, 0, 1, 0, 0, "an "));
    show("a short one", put_of(4, 0, 2, TVK_HEAD, 1, "entry"));
    show("another piece", put_of(5, 0, 1, 1, 1, "entry of "));
    show("its head", put_of(6, 0, 1, TVK_HEAD, 1, "three parts"));
    show("a late head", put_of(7, 0, 1, TVK_HEAD, 0, "three parts"));
    show("of another generation", put_of(8, 1, 3, TVK_HEAD, 1, "early"));
    show("a third one", put_of(9, 0, 3, 0, 1, "over"));
    print_log(9);
    show("moved", floor_of(10, 0, 1));
    show("moved again", floor_of(10, 0, 1));
    print_log(10);
    show("its generation is over", put_of(11, 0, 3, TVK_HEAD, 1, "late"));
    show("no first piece", put_of(12, 1, 4, 1, 1, "half"));
    show("its head", put_of(13, 1, 4, TVK_HEAD, 1, "of it"));
    show("a floor of another log", floor_of(14, 9, 2));
    show("it is over", put_of(15, 1, 5, TVK_HEAD, 1, "more"));
    want((int)tvk_log_generation(&entries_log, NULL) == TVK_WENT_BACK, "a log goes on that went back");
    /* One that begins by the snapshot of the second floor. */
    change_count = 0;
    begun_since = 10;
    begun_generation = 2;
    open_log();
    print_log(12);
    show("no first piece", put_of(13, 1, 6, 1, 1, "half"));
    show("its head", put_of(14, 1, 6, TVK_HEAD, 1, "of it"));
    show("moved", floor_of(15, 10, 2));
    show("behind it", put_of(16, 2, 7, TVK_HEAD, 1, "no more"));
    print_log(16);
    want(tvk_log_close(&entries_log) == TVK_OK && !entries_log.at, "a log isn't closed");
}

/* ---- those that wait */

static void bad_wait_calls(void) {
    tvk_waits none = TVK_NO_WAITS;
    uint64_t numbers[1] = {7}, told = 7;
    int is = 7;
    want(tvk_waits_open(NULL) == TVK_NO_STORE, "NULL is opened");
    want(tvk_waits_close(NULL) == TVK_NO_STORE && tvk_waits_close(&none) == TVK_NO_STORE, "none is closed");
    want(tvk_waits_enter(NULL, 1, NULL) == TVK_NO_STORE && tvk_waits_enter(&none, 1, &told) == TVK_NO_STORE && !told,
         "none is entered");
    told = 7;
    want(tvk_waits_hand_over(&none, 9, numbers, 1, &told) == TVK_NO_STORE && !told && numbers[0] == 7, "none hands over");
    want(tvk_waits_hand_over(NULL, 9, NULL, 1, NULL) == TVK_NO_STORE, "NULL hands over");
    want(tvk_waits_settle(NULL, 1) == TVK_NO_STORE && tvk_waits_settle(&none, 1) == TVK_NO_STORE, "none settles");
    want(tvk_waits_expire(NULL, 1) == TVK_NO_STORE && tvk_waits_expire(&none, 1) == TVK_NO_STORE, "none expires");
    want(tvk_waits_reach(NULL, 1) == TVK_NO_STORE && tvk_waits_reach(&none, 1) == TVK_NO_STORE, "none reaches an end");
    want(tvk_waits_answered(NULL, 1, 1) == TVK_NO_STORE && tvk_waits_answered(&none, 1, 1) == TVK_NO_STORE, "none is answered");
    told = 7;
    want(tvk_waits_known(NULL, NULL) == TVK_NO_STORE && tvk_waits_known(&none, &told) == TVK_NO_STORE && !told, "none knows");
    want(tvk_waits_is_reached(NULL, 1, NULL) == TVK_NO_STORE && tvk_waits_is_reached(&none, 1, &is) == TVK_NO_STORE && !is,
         "none reads");
}

static int is_reached(tvk_waits *waits, uint64_t begun) {
    int is = 7;
    want(tvk_waits_is_reached(waits, begun, &is) == TVK_OK, "a read isn't told of");
    return is;
}

static void wait_for_the_log(void) {
    tvk_waits waits = TVK_NO_WAITS;
    uint64_t numbers[3] = {7, 7, 7}, told = 7;
    while (tvk_waits_open(&waits) == TVK_NO_MEMORY) want(!waits.at, "a handle without memory is open");
    want(tvk_waits_open(&waits) == TVK_IS_OPEN, "an open handle is opened");
    for (uint64_t number = 1; number <= 5; number++) {
        while (tvk_waits_enter(&waits, number == 3 ? 200 : 40, &told) == TVK_NO_MEMORY)
            want(!told, "what isn't entered has a number");
        want(told == number, "numbers don't rise by one");
    }
    want(tvk_waits_enter(&waits, 1, NULL) == TVK_NULL && tvk_waits_hand_over(&waits, 100, numbers, 3, NULL) == TVK_NULL &&
         tvk_waits_hand_over(&waits, 100, NULL, 1, &told) == TVK_NULL, "NULL has room for numbers");
    want(tvk_waits_hand_over(&waits, 100, NULL, 0, &told) == TVK_OK && !told, "some go where there is no room");
    want((int)tvk_waits_expire(&waits, 2) == TVK_UNREACHABLE && tvk_waits_expire(&waits, 2) == TVK_ABSENT,
         "one that waited isn't told once");
    want(tvk_waits_hand_over(&waits, 100, numbers, 3, &told) == TVK_OK && told == 1 && numbers[0] == 1 && numbers[1] == 7,
         "1 doesn't go");
    want(tvk_waits_hand_over(&waits, 100, numbers, 3, &told) == TVK_OK && told == 1 && numbers[0] == 3, "3 doesn't go");
    want(tvk_waits_settle(&waits, 4) == TVK_ABSENT && tvk_waits_settle(&waits, 3) == TVK_OK && tvk_waits_settle(&waits, 3) == TVK_ABSENT,
         "one that was on its way isn't told once");
    want((int)tvk_waits_expire(&waits, 1) == TVK_UNKNOWN && tvk_waits_settle(&waits, 1) == TVK_ABSENT, "one on its way isn't told once");
    want(tvk_waits_hand_over(&waits, 100, numbers, 3, &told) == TVK_OK && told == 2 && numbers[0] == 4 && numbers[1] == 5,
         "4 and 5 don't go");
    want(!is_reached(&waits, 0) && !is_reached(&waits, 1), "a read is answered before anything is known");
    while (tvk_waits_answered(&waits, 20, 8) == TVK_NO_MEMORY) {}
    while (tvk_waits_answered(&waits, 10, 5) == TVK_NO_MEMORY) {}
    want(tvk_waits_reach(&waits, 7) == TVK_OK && tvk_waits_known(&waits, &told) == TVK_OK && told == 10,
         "an end that is reached isn't known");
    want(is_reached(&waits, 10) && !is_reached(&waits, 11) && tvk_waits_reach(&waits, 6) == TVK_OK && !is_reached(&waits, 20),
         "a read is early");
    want(tvk_waits_reach(&waits, 8) == TVK_OK && is_reached(&waits, 20) && !is_reached(&waits, 21) && !is_reached(&waits, 0),
         "a read is late");
    want(tvk_waits_answered(&waits, 30, 8) == TVK_OK && tvk_waits_known(&waits, &told) == TVK_OK && told == 30,
         "an end at once isn't known");
    want(tvk_waits_close(&waits) == TVK_OK && !waits.at && tvk_waits_close(&waits) == TVK_NO_STORE, "it isn't closed");
}

int main(void) {
    static char out[BUFSIZ];
    /* (so that no memory of stdio's is refused) */
    setvbuf(stdout, out, _IOFBF, sizeof out);
    begin_anew();
    begin(&first, &of_first);
    bad_calls();
    no_entries();
    /* One is tried, and nothing of it stays until it comes in the log. */
    try_line(&first, &of_first, "GET ant");
    try_line(&first, &of_first, "SET ant 6");
    try_line(&first, &of_first, "STAGE bee=1");
    try_line(&first, &of_first, "LOAD cat=2");
    try_line(&first, &of_first, "SCAN a z 10");
    try_line(&first, &of_first, "GET");
    try_line(&first, &of_first, "COMMIT");
    begin(&second, &of_second);
    try_line(&second, &of_second, "GET ant");
    try_line(&second, &of_second, "SET dog 1");
    print_commits();
    make_block(&first, &of_first, 0);
    make_block(&second, &of_second, 1);
    take_next("the first one");
    print_commits();
    /* The second one read what the first one wrote. */
    take_next("the second one");
    print_commits();
    begin(&second, &of_second);
    try_line(&second, &of_second, "GET dog");
    try_line(&second, &of_second, "DEL cat");
    make_block(&second, &of_second, 0);
    take_next("again");
    try_lines("together", "SET ant 7\nBEGIN\n\nGET ant\nGET dog");
    try_lines("one alone", "GET ant\n");
    try_lines("none", "");
    /* Beside another one a transaction is tried anew, and is told the same. */
    begin(&first, &of_first);
    try_line(&first, &of_first, "SET fox 1");
    keep_up("MERGE 64");
    keep_up("CLEAN a z 64");
    begin(&second, &of_second);
    try_line(&second, &of_second, "GET fox");
    try_line(&first, &of_first, "GET fox");
    (void)tvk_replica_end(&second);
    try_line(&first, &of_first, "STAGE gnu=1");
    make_none(&first, &of_first);
    want(tvk_replica_keep_up(&replica, "GET ant", 7, NULL) == TVK_BAD_LINE, "a GET keeps up");
    follow();
    AGAIN(tvk_replica_renew(&replica));
    begin(&first, &of_first);
    try_line(&first, &of_first, "RSCAN a z 10");
    (void)tvk_replica_end(&first);
    restored = 41;
    AGAIN(tvk_replica_restore(&replica, restored));
    begin(&first, &of_first);
    try_line(&first, &of_first, "INS eel 9");
    make_block(&first, &of_first, 0);
    take_next("behind a snapshot");
    want(tvk_replica_close(&replica) == TVK_OK && !replica.at && tvk_replica_close(&replica) == TVK_NO_STORE, "it isn't closed");
    read_logs();
    bad_wait_calls();
    wait_for_the_log();
    puts(differs ? "differs" : "as wanted");
    return differs;
}
