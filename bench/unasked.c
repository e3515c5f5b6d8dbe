/* Small loads that nobody reads, and scans after them, by the library or at a server. bench/unasked.py runs it.

   unasked store LOADS              loads of 64 records by the library with its upkeep, a transaction each, and scans
   unasked lines PORT LOADS BATCH   loads of so many records at `amserve listen`, sent ahead: the seconds that they take
   unasked scans PORT RECORDS       scans there, where so many records are

   The first one writes a line for each load and its commit, L MICROS and C MICROS, and for each scan, S MICROS, by
   the processor's clock; then R RUNS, how many are left, and M KIB, the memory of the process. A scan at a server is
   S MICROS by the clock. */
#define _GNU_SOURCE
#include <arpa/inet.h>
#include <inttypes.h>
#include <netinet/in.h>
#include <netinet/tcp.h>
#include <pthread.h>
#include <stdio.h>
#include <stdlib.h>
#include <string.h>
#include <sys/socket.h>
#include <time.h>
#include <unistd.h>
#ifdef WITH_STORE
#include <tiuvrokk.h>
#endif

enum { BATCH = 64, LINE_RECORDS = 64, SCANS = 1000, ROWS = 100, KEY = 16 };

static void fail(const char *what, const char *why) {
    fprintf(stderr, "unasked: %s: %s\n", what, why);
    exit(1);
}

static double seconds(clockid_t clock) {
    struct timespec t;
    clock_gettime(clock, &t);
    return (double)t.tv_sec + (double)t.tv_nsec / 1e9;
}

/* A number for each number, none twice, in no order. */
static uint64_t scattered(uint64_t n) {
    n += 0x9e3779b97f4a7c15;
    n = (n ^ n >> 30) * 0xbf58476d1ce4e5b9;
    n = (n ^ n >> 27) * 0x94d049bb133111eb;
    return n ^ n >> 31;
}

static int by_size(const void *a, const void *b) {
    uint64_t x = *(const uint64_t *)a, y = *(const uint64_t *)b;
    return (x > y) - (x < y);
}

/* The keys of a load, which rise. */
static void draw(uint64_t *keys, uint64_t load, uint64_t batch) {
    for (uint64_t i = 0; i < batch; i++) keys[i] = scattered(load * batch + i);
    qsort(keys, batch, sizeof *keys, by_size);
}

static uint64_t *room_for_keys(uint64_t batch) {
    uint64_t *room = malloc(batch * sizeof *room);
    if (!room) fail("room", "no memory");
    return room;
}

/* The ends of a range anywhere that has about a hundred of so many records. */
static void place(char *lo, char *hi, int scan, uint64_t records) {
    uint64_t from = scattered(~(uint64_t)scan), width = UINT64_MAX / records * ROWS;
    sprintf(lo, "%016" PRIx64, from);
    sprintf(hi, "%016" PRIx64, from > UINT64_MAX - width ? UINT64_MAX : from + width);
}

/* ---- by the library */

#ifdef WITH_STORE
static tvk_store store = TVK_CLOSED;

static void must(tvk_status status, const char *what) {
    if (status) fail(what, tvk_name(status));
}

static uint64_t begun(void) {
    uint64_t tx;
    must(tvk_begin(&store, &tx), "a transaction");
    return tx;
}

static void load_store(uint64_t load) {
    static tvk_record records[BATCH];
    uint64_t keys[BATCH], tx = begun();
    draw(keys, load, BATCH);
    for (int i = 0; i < BATCH; i++) {
        char text[KEY + 1];
        records[i].key.length = records[i].value.length = (size_t)sprintf(text, "%016" PRIx64, keys[i]);
        memcpy(records[i].key.bytes, text, KEY);
        memcpy(records[i].value.bytes, text, KEY);
    }
    double at = seconds(CLOCK_PROCESS_CPUTIME_ID);
    must(tvk_load(&store, tx, records, BATCH, NULL, NULL), "a load");
    double between = seconds(CLOCK_PROCESS_CPUTIME_ID);
    must(tvk_commit(&store, tx, NULL), "a commit");
    double end = seconds(CLOCK_PROCESS_CPUTIME_ID);
    printf("L %.2f\nC %.2f\n", (between - at) * 1e6, (end - between) * 1e6);
}

/* Its transaction is aborted, so that it has nothing merged. */
static void scan_store(int scan, uint64_t count) {
    static tvk_record rows[ROWS];
    char lo[KEY + 1], hi[KEY + 1];
    uint64_t tx = begun(), told;
    place(lo, hi, scan, count);
    double at = seconds(CLOCK_PROCESS_CPUTIME_ID);
    must(tvk_scan(&store, tx, lo, KEY, hi, KEY, rows, ROWS, &told), "a scan");
    printf("S %.2f\n", (seconds(CLOCK_PROCESS_CPUTIME_ID) - at) * 1e6);
    must(tvk_abort(&store, tx), "an abort");
}

static long memory(void) {
    char line[256];
    long found = 0;
    FILE *file = fopen("/proc/self/status", "r");
    while (file && fgets(line, sizeof line, file)) sscanf(line, "VmRSS: %ld", &found);
    if (file) fclose(file);
    return found;
}

static void by_store(uint64_t loads) {
    tvk_figures_t figures;
    must(tvk_open(&store), "a store");
    for (uint64_t load = 0; load < loads; load++) load_store(load);
    must(tvk_figures(&store, &figures), "figures");
    if (figures.entries != loads * BATCH) fail("figures", "other records");
    for (int scan = 0; scan < SCANS; scan++) scan_store(scan, loads * BATCH);
    printf("R %" PRIu64 "\nM %ld\n", figures.runs, memory());
}
#else
static void by_store(uint64_t loads) { (void)loads, fail("store", "it was built without the library"); }
#endif

/* ---- at a server */

static int connected(const char *port) {
    struct sockaddr_in at = {.sin_family = AF_INET, .sin_port = htons((unsigned short)atoi(port))};
    int one = 1, s = socket(AF_INET, SOCK_STREAM, 0);
    at.sin_addr.s_addr = htonl(INADDR_LOOPBACK);
    if (connect(s, (struct sockaddr *)&at, sizeof at)) fail("connect", "refused");
    setsockopt(s, IPPROTO_TCP, TCP_NODELAY, &one, sizeof one);
    return s;
}

static FILE *stream(int s, const char *mode) {
    FILE *made = fdopen(dup(s), mode);
    if (!made) fail("stream", "none");
    setvbuf(made, NULL, _IOFBF, 1 << 16);
    return made;
}

struct hearer { pthread_t thread; FILE *in; uint64_t loads; };

/* Hears that each load is answered OK. */
static void *hear_loads(void *given) {
    struct hearer *me = given;
    char line[4096];
    for (uint64_t commits = 0; commits < me->loads;) {
        if (!fgets(line, sizeof line, me->in)) fail("read", "the server went away");
        if (!strncmp(line, "COMMITTED", 9)) commits++;
        else if (strcmp(line, "OK\n") && strncmp(line, "BEGUN", 5)) fail("a load", line);
    }
    return NULL;
}

static void say_load(FILE *out, const uint64_t *keys, uint64_t batch) {
    fputs("BEGIN\n", out);
    for (uint64_t i = 0; i < batch; i++) {
        if (i % LINE_RECORDS == 0) fputs(i + LINE_RECORDS < batch ? "STAGE" : "LOAD", out);
        fprintf(out, " %016" PRIx64 "=%016" PRIx64, keys[i], keys[i]);
        if (i % LINE_RECORDS == LINE_RECORDS - 1 || i == batch - 1) putc('\n', out);
    }
    fputs("COMMIT\n", out);
}

static void by_lines(const char *port, uint64_t loads, uint64_t batch) {
    int s = connected(port);
    struct hearer hearer = {.in = stream(s, "r"), .loads = loads};
    FILE *out = stream(s, "w");
    uint64_t *keys = room_for_keys(batch);
    double at = seconds(CLOCK_MONOTONIC);
    if (pthread_create(&hearer.thread, NULL, hear_loads, &hearer)) fail("thread", "none");
    for (uint64_t load = 0; load < loads; load++) {
        draw(keys, load, batch);
        say_load(out, keys, batch);
    }
    if (fflush(out)) fail("write", "the server went away");
    pthread_join(hearer.thread, NULL);
    printf("%.3f\n", seconds(CLOCK_MONOTONIC) - at);
}

static void ask(FILE *out, FILE *in, const char *line, const char *wanted) {
    static char answer[1 << 17];
    fputs(line, out);
    if (fflush(out) || !fgets(answer, sizeof answer, in)) fail(line, "the server went away");
    if (strncmp(answer, wanted, strlen(wanted))) fail(line, answer);
}

static void by_scans(const char *port, uint64_t records) {
    int s = connected(port);
    FILE *out = stream(s, "w"), *in = stream(s, "r");
    for (int scan = 0; scan < SCANS; scan++) {
        char lo[KEY + 1], hi[KEY + 1], line[64];
        place(lo, hi, scan, records);
        sprintf(line, "SCAN %s %s %d\n", lo, hi, ROWS);
        ask(out, in, "BEGIN\n", "BEGUN");
        double at = seconds(CLOCK_MONOTONIC);
        ask(out, in, line, "ROWS");
        printf("S %.2f\n", (seconds(CLOCK_MONOTONIC) - at) * 1e6);
        ask(out, in, "COMMIT\n", "COMMITTED");
    }
}

int main(int count, char **words) {
    uint64_t last = count > 1 ? strtoull(words[count - 1], NULL, 10) : 0;
    if (count == 3 && !strcmp(words[1], "store")) by_store(last);
    else if (count == 5 && !strcmp(words[1], "lines")) by_lines(words[2], strtoull(words[3], NULL, 10), last);
    else if (count == 4 && !strcmp(words[1], "scans")) by_scans(words[2], last);
    else fail("words", "store LOADS, lines PORT LOADS BATCH or scans PORT RECORDS");
    return 0;
}
