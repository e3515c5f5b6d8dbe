/* Readers beside a batch a second, and writers beside dumps. Built and run by bench/beside.py.

   beside lines PORT READERS get|scan BATCH LOADS LEAD    readers at `amserve listen`, for LEAD seconds alone, then beside loads
   beside lines PORT READERS mixed BATCH LOADS LEAD       each fourth of them reads in one way, by whose name its lines end
   beside sqlite FILE READERS get|scan BATCH LOADS LEAD   the same over a file of SQLite in WAL mode, a connection for each thread
   beside writers PORT WRITERS ACCOUNTS                   transfers between accounts, until standard input ends

   The first two write a line for each transaction of a reader, R SECOND SECONDS, when it began and how long it took, and for each
   load L SECOND SECONDS TRIES, and B COUNT, how often readers were told BUSY and began anew. The last one writes what the first
   would for each transfer that was committed. */
#include <arpa/inet.h>
#include <netinet/in.h>
#include <netinet/tcp.h>
#include <pthread.h>
#include <stdio.h>
#include <stdlib.h>
#include <string.h>
#include <sys/socket.h>
#include <time.h>
#include <unistd.h>
#ifdef WITH_SQLITE
#include <sqlite3.h>
#endif

enum { OLD = 200000, GAP = 1000, KEY = 10, ROWS = 100, STAGED = 200, MOST_TRIES = 1000, THOUGHT_MICROS = 1000 };

/* How a reader reads: one record, or a hundred from a key on, where a narrow scan asks for few that it doesn't get. At
   which old keys: so many from one on. And how long it thinks in between: cold readers come to each place so seldom
   that they have little merged. */
enum kind { GET, SCAN, NARROW_SCAN };
struct way { const char *name; enum kind kind; int from, count, micros; };
static const struct way gets = {"", GET, 0, OLD, THOUGHT_MICROS}, scans = {"", SCAN, 0, OLD, THOUGHT_MICROS};
static const struct way mixed[] = {
    {" hot_get", GET, OLD / 2, OLD / 100, THOUGHT_MICROS},
    {" cold_get", GET, 0, OLD, 50 * THOUGHT_MICROS},
    {" hot_scan", NARROW_SCAN, OLD / 2, OLD / 100, THOUGHT_MICROS},
    {" cold_scan", NARROW_SCAN, 0, OLD, 50 * THOUGHT_MICROS},
};

struct event { double at, took; };
struct worker { pthread_t thread; int number, refusals; const struct way *way; struct event *events; size_t count, room; };

static const char *place;
static int is_sqlite, batch, accounts;
static const struct way *ways;
static int way_count = 1;
static volatile int is_over, loads_done;
static double started;

static double now(void) {
    struct timespec t;
    clock_gettime(CLOCK_MONOTONIC, &t);
    return (double)t.tv_sec + (double)t.tv_nsec / 1e9 - started;
}

static void rest(double seconds) {
    struct timespec t = {(time_t)seconds, (long)((seconds - (double)(time_t)seconds) * 1e9)};
    if (seconds > 0) nanosleep(&t, NULL);
}

static void fail(const char *what, const char *why) {
    fprintf(stderr, "beside: %s: %s\n", what, why);
    exit(1);
}

static void *room_for(void *old, size_t size) {
    void *room = realloc(old, size);
    if (!room) fail("room", "no memory");
    return room;
}

static void note(struct worker *worker, double at) {
    if (worker->count == worker->room) {
        worker->room = worker->room ? 2 * worker->room : 4096;
        worker->events = room_for(worker->events, worker->room * sizeof *worker->events);
    }
    worker->events[worker->count++] = (struct event){at, now() - at};
}

/* Old keys lie far apart. A load's keys lie between them, evenly over all, and no two loads share one. */
static void old_key(char *to, int number) { sprintf(to, "k%09d", number * GAP); }

static void new_key(char *to, int load, int number) {
    sprintf(to, "k%09d", (int)((long)number * OLD / batch) * GAP + load + 1);
}

/* ---- a session of the protocol */

struct session { int socket; char came[1 << 17]; size_t from, to; char answer[1 << 17]; };

static struct session *with_server(void) {
    struct session *s = room_for(NULL, sizeof *s);
    struct sockaddr_in at = {.sin_family = AF_INET, .sin_port = htons((unsigned short)atoi(place))};
    int one = 1;
    at.sin_addr.s_addr = htonl(INADDR_LOOPBACK);
    s->socket = socket(AF_INET, SOCK_STREAM, 0);
    s->from = s->to = 0;
    if (connect(s->socket, (struct sockaddr *)&at, sizeof at)) fail("connect", "refused");
    setsockopt(s->socket, IPPROTO_TCP, TCP_NODELAY, &one, sizeof one);
    return s;
}

static void say(struct session *s, const char *text, size_t length) {
    while (length) {
        ssize_t count = write(s->socket, text, length);
        if (count <= 0) fail("write", "the server went away");
        text += count;
        length -= (size_t)count;
    }
}

static const char *hear(struct session *s) {
    for (size_t length = 0;; length++) {
        if (s->from == s->to) {
            ssize_t count = read(s->socket, s->came, sizeof s->came);
            if (count <= 0) fail("read", "the server went away");
            s->from = 0;
            s->to = (size_t)count;
        }
        s->answer[length] = s->came[s->from++];
        if (s->answer[length] == '\n') {
            s->answer[length] = 0;
            return s->answer;
        }
    }
}

static int is_answered(struct session *s, const char *line, const char *wanted) {
    say(s, line, strlen(line));
    return !strncmp(hear(s), wanted, strlen(wanted));
}

static void wanted(struct session *s, const char *line, const char *answer) {
    if (!is_answered(s, line, answer)) fail(line, s->answer);
}

/* The lines of a run, all its records staged but for the last ones, which are loaded. How many lines there are. */
static int run_text(char **text, size_t *length, int load, int from, int to) {
    char key[32], *at = *text = room_for(NULL, (size_t)(to - from) * 24 + 4096);
    int lines = 0;
    for (int number = from; number < to; number++) {
        if (number == from || (number - from) % STAGED == 0) {
            if (lines++) *at++ = '\n';
            at += sprintf(at, number + STAGED < to ? "STAGE" : "LOAD");
        }
        if (load < 0) old_key(key, number);
        else new_key(key, load, number);
        at += sprintf(at, " %s=v%07d", key, number);
    }
    *at++ = '\n';
    *length = (size_t)(at - *text);
    return lines;
}

static int run_is_loaded(struct session *s, const char *text, size_t length, int lines) {
    int is_loaded = 1;
    say(s, text, length);
    while (lines--) is_loaded &= !strcmp(hear(s), "OK");
    return is_loaded;
}

static void fill_server(void) {
    struct session *s = with_server();
    wanted(s, "BEGIN\n", "BEGUN");
    for (int from = 0; from < OLD; from += OLD / 4) {
        char *text;
        size_t length;
        int lines = run_text(&text, &length, -1, from, from + OLD / 4);
        if (!run_is_loaded(s, text, length, lines)) fail("the old records", s->answer);
        free(text);
    }
    wanted(s, "COMMIT\n", "COMMITTED");
    close(s->socket);
    free(s);
}

/* As amload does: the server is held, and all its keys are locked, before the records go out. */
static int try_load(struct session *s, const char *text, size_t length, int lines) {
    if (is_answered(s, "HOLD 2000\n", "OK") && is_answered(s, "BEGIN\n", "BEGUN")
        && is_answered(s, "LOCK X k000000000 k999999999\n", "OK") && run_is_loaded(s, text, length, lines)
        && is_answered(s, "COMMIT\n", "COMMITTED"))
        return 1;
    is_answered(s, "ABORT\n", "ABORTED");
    return 0;
}

static void load_server(int load, double at) {
    static struct session *s;
    char *text;
    size_t length;
    int tries = 1, lines = run_text(&text, &length, load, 0, batch);
    if (!s) s = with_server();
    rest(at - now());
    at = now();
    while (!try_load(s, text, length, lines)) {
        if (tries++ == MOST_TRIES) fail("a load", "it never came in");
        rest(0.05);
    }
    printf("L %.6f %.6f %d\n", at, now() - at, tries);
    loads_done++;
    free(text);
}

/* The line by which a reader reads from an old key on. A narrow scan ends where about a hundred records have come. */
static void read_line(char *to, enum kind kind, int number) {
    char key[32], end[32];
    old_key(key, number);
    old_key(end, number + 1 + (int)((long)ROWS * OLD / (OLD + (long)loads_done * batch)));
    if (kind == GET) sprintf(to, "GET %s\n", key);
    else sprintf(to, "SCAN %s %s %d\n", key, kind == SCAN ? "z" : end, ROWS);
}

/* Whether the store answered, and no other had a lock in the way. */
static int is_read(struct session *s, const char *line) {
    wanted(s, "BEGIN\n", "BEGUN");
    if (!is_answered(s, line, *line == 'S' ? "ROWS" : "VAL")) {
        if (strncmp(s->answer, "BUSY", 4)) fail(line, s->answer);
        wanted(s, "ABORT\n", "ABORTED");
        return 0;
    }
    wanted(s, "COMMIT\n", "COMMITTED");
    return 1;
}

static void *read_server(void *given) {
    struct worker *me = given;
    struct session *s = with_server();
    unsigned dice = (unsigned)me->number + 1;
    while (!is_over) {
        char line[96];
        double at = now();
        read_line(line, me->way->kind, me->way->from + (int)(rand_r(&dice) % (unsigned)me->way->count));
        while (!is_read(s, line)) {
            me->refusals++;
            rest(THOUGHT_MICROS / 1e6);
        }
        note(me, at);
        rest(me->way->micros / 1e6);
    }
    wanted(s, "QUIT\n", "BYE");
    return NULL;
}

/* Some of one account goes to another. Both locks come before the first read. */
static int is_transferred(struct session *s, int one, int other, int amount) {
    char line[96];
    int amounts[2], accounts_of[2] = {one < other ? one : other, one < other ? other : one};
    wanted(s, "BEGIN\n", "BEGUN");
    for (int i = 0; i < 2; i++) {
        sprintf(line, "LOCK X a%06d a%06d\n", accounts_of[i], accounts_of[i]);
        if (!is_answered(s, line, "OK")) {
            wanted(s, "ABORT\n", "ABORTED");
            return 0;
        }
    }
    for (int i = 0; i < 2; i++) {
        sprintf(line, "GET a%06d\n", accounts_of[i]);
        wanted(s, line, "VAL ");
        amounts[i] = atoi(s->answer + 4);
    }
    for (int i = 0; i < 2; i++) {
        sprintf(line, "REP a%06d %d\n", accounts_of[i], amounts[i] + (accounts_of[i] == one ? -amount : amount));
        wanted(s, line, "OK");
    }
    wanted(s, "COMMIT\n", "COMMITTED");
    return 1;
}

static void *write_server(void *given) {
    struct worker *me = given;
    struct session *s = with_server();
    unsigned dice = (unsigned)me->number + 1;
    while (!is_over) {
        int one = (int)(rand_r(&dice) % (unsigned)accounts);
        int other = (one + 1 + (int)(rand_r(&dice) % (unsigned)(accounts - 1))) % accounts;
        double at = now();
        while (!is_transferred(s, one, other, 1) && !is_over) rest(THOUGHT_MICROS / 1e6);
        note(me, at);
        rest(THOUGHT_MICROS / 1e6);
    }
    wanted(s, "QUIT\n", "BYE");
    return NULL;
}

/* ---- SQLite */

#ifdef WITH_SQLITE
static sqlite3 *opened(void) {
    sqlite3 *db;
    int flags = SQLITE_OPEN_READWRITE | SQLITE_OPEN_CREATE | SQLITE_OPEN_NOMUTEX;
    if (sqlite3_open_v2(place, &db, flags, NULL)) fail("sqlite", "can't open");
    sqlite3_busy_timeout(db, 60000);
    return db;
}

static void run(sqlite3 *db, const char *text) {
    if (sqlite3_exec(db, text, NULL, NULL, NULL)) fail(text, sqlite3_errmsg(db));
}

static sqlite3_stmt *statement(sqlite3 *db, const char *text) {
    sqlite3_stmt *made;
    if (sqlite3_prepare_v2(db, text, -1, &made, NULL)) fail(text, sqlite3_errmsg(db));
    return made;
}

static void insert_all(sqlite3 *db, sqlite3_stmt *insert, int load, int count) {
    run(db, "BEGIN IMMEDIATE");
    for (int number = 0; number < count; number++) {
        char key[32], value[32];
        if (load < 0) old_key(key, number);
        else new_key(key, load, number);
        int length = sprintf(value, "v%07d", number);
        sqlite3_bind_text(insert, 1, key, KEY, SQLITE_TRANSIENT);
        sqlite3_bind_text(insert, 2, value, length, SQLITE_TRANSIENT);
        if (sqlite3_step(insert) != SQLITE_DONE) fail("insert", sqlite3_errmsg(db));
        sqlite3_reset(insert);
    }
    run(db, "COMMIT");
}

static const char insertion[] = "INSERT INTO records VALUES(?, ?)";

static void fill_sqlite(void) {
    sqlite3 *db = opened();
    run(db, "PRAGMA journal_mode = WAL; PRAGMA synchronous = OFF; CREATE TABLE records(k TEXT PRIMARY KEY, v TEXT) WITHOUT ROWID");
    sqlite3_stmt *insert = statement(db, insertion);
    insert_all(db, insert, -1, OLD);
    sqlite3_finalize(insert);
    sqlite3_close(db);
}

static void load_sqlite(int load, double at) {
    static sqlite3 *db;
    static sqlite3_stmt *insert;
    if (!db) {
        db = opened();
        run(db, "PRAGMA synchronous = OFF");
        insert = statement(db, insertion);
    }
    rest(at - now());
    at = now();
    insert_all(db, insert, load, batch);
    printf("L %.6f %.6f 1\n", at, now() - at);
}

static void *read_sqlite(void *given) {
    struct worker *me = given;
    unsigned dice = (unsigned)me->number + 1;
    sqlite3 *db = opened();
    sqlite3_stmt *begin = statement(db, "BEGIN"), *commit = statement(db, "COMMIT");
    sqlite3_stmt *query = statement(db, me->way->kind == SCAN ? "SELECT k, v FROM records WHERE k >= ? ORDER BY k LIMIT 100" : "SELECT v FROM records WHERE k = ?");
    while (!is_over) {
        char key[32];
        int rows = 0, last;
        double at = now();
        old_key(key, (int)(rand_r(&dice) % OLD));
        if (sqlite3_step(begin) != SQLITE_DONE) fail("begin", sqlite3_errmsg(db));
        sqlite3_bind_text(query, 1, key, KEY, SQLITE_TRANSIENT);
        while ((last = sqlite3_step(query)) == SQLITE_ROW) rows += sqlite3_column_bytes(query, 0) > 0;
        if (last != SQLITE_DONE || !rows) fail("a read", sqlite3_errmsg(db));
        sqlite3_reset(query);
        if (sqlite3_step(commit) != SQLITE_DONE) fail("commit", sqlite3_errmsg(db));
        sqlite3_reset(begin);
        sqlite3_reset(commit);
        note(me, at);
        rest(THOUGHT_MICROS / 1e6);
    }
    sqlite3_finalize(begin);
    sqlite3_finalize(commit);
    sqlite3_finalize(query);
    sqlite3_close(db);
    return NULL;
}
#else
static void fill_sqlite(void) { fail("sqlite", "its header was missing"); }
static void load_sqlite(int load, double at) { (void)load, (void)at; }
static void *read_sqlite(void *given) { return given; }
#endif

/* ---- all of it */

static struct worker *begun(int count, void *(*work)(void *)) {
    struct worker *workers = room_for(NULL, (size_t)count * sizeof *workers);
    memset(workers, 0, (size_t)count * sizeof *workers);
    for (int i = 0; i < count; i++) {
        workers[i].number = i;
        workers[i].way = &ways[i % way_count];
        if (pthread_create(&workers[i].thread, NULL, work, &workers[i])) fail("thread", "none");
    }
    return workers;
}

static void end(struct worker *workers, int count) {
    int refusals = 0;
    is_over = 1;
    for (int i = 0; i < count; i++) {
        pthread_join(workers[i].thread, NULL);
        refusals += workers[i].refusals;
        for (size_t event = 0; event < workers[i].count; event++)
            printf("R %.6f %.6f%s\n", workers[i].events[event].at, workers[i].events[event].took, workers[i].way->name);
    }
    printf("B %d\n", refusals);
}

static void beside_loads(int readers, int loads, double lead) {
    if (is_sqlite) fill_sqlite();
    else fill_server();
    started = now();
    struct worker *workers = begun(readers, is_sqlite ? read_sqlite : read_server);
    for (int load = 0; load < loads; load++) {
        if (is_sqlite) load_sqlite(load, lead + load);
        else load_server(load, lead + load);
    }
    rest(lead + loads - now());
    end(workers, readers);
}

static void fill_accounts(void) {
    struct session *s = with_server();
    char line[64];
    wanted(s, "BEGIN\n", "BEGUN");
    wanted(s, "LOCK X a b\n", "OK");
    for (int account = 0; account < accounts; account++) {
        sprintf(line, "INS a%06d 1000000\n", account);
        wanted(s, line, "OK");
    }
    wanted(s, "COMMIT\n", "COMMITTED");
    close(s->socket);
    free(s);
}

int main(int count, char **words) {
    if (count < 5) fail("words", "WAY PLACE COUNT ..");
    place = words[2];
    ways = &gets;
    if (!strcmp(words[1], "writers")) {
        accounts = atoi(words[4]);
        fill_accounts();
        started = now();
        struct worker *workers = begun(atoi(words[3]), write_server);
        while (getchar() != EOF) continue;
        end(workers, atoi(words[3]));
        return 0;
    }
    if (count < 8) fail("words", "WAY PLACE READERS KIND BATCH LOADS LEAD");
    is_sqlite = !strcmp(words[1], "sqlite");
    if (!strcmp(words[4], "scan")) ways = &scans;
    if (!strcmp(words[4], "mixed")) {
        ways = mixed;
        way_count = (int)(sizeof mixed / sizeof *mixed);
    }
    batch = atoi(words[5]);
    beside_loads(atoi(words[3]), atoi(words[6]), atof(words[7]));
    return 0;
}
