/* A record of 16 and 16 bytes takes less than 90 bytes of the process, whether it was loaded or put; written over again and again it
 * takes what the largest transaction wanted, and no more with each. */
#include <stdio.h>
#include <stdlib.h>
#include <string.h>
#include <sys/wait.h>
#include <tiuvrokk.h>
#include <unistd.h>

enum { RUN = 50000, RUNS = 10, ROUNDS = 4, MOST_BYTES = 90, MOST_WRITTEN = 125 };

static tvk_store store = TVK_CLOSED;
static tvk_record records[RUN];

static void check(int is_right, const char *what) {
    if (is_right) return;
    fprintf(stderr, "library_bytes: %s\n", what);
    exit(1);
}

static long bytes(void) {
    long pages = 0;
    FILE *file = fopen("/proc/self/statm", "r");
    check(file && fscanf(file, "%*d %ld", &pages) == 1, "what the process takes");
    fclose(file);
    return pages * sysconf(_SC_PAGESIZE);
}

/* One run of each so many keys. */
static void fill(int run, int round) {
    for (int i = 0; i < RUN; i++) {
        records[i].key.length = (size_t)snprintf((char *)records[i].key.bytes, TVK_MAX_KEY, "%016d", i * RUNS + run);
        records[i].value.length = (size_t)snprintf((char *)records[i].value.bytes, TVK_MAX_VALUE, "%016d", i + round);
    }
}

static void write_run(int run, int round, int is_put) {
    uint64_t tx;
    fill(run, round);
    check(!tvk_begin(&store, &tx), "a beginning");
    check(!(is_put ? tvk_put(&store, tx, records, RUN, NULL) : tvk_load(&store, tx, records, RUN, NULL, NULL)), "a run");
    check(!tvk_commit(&store, tx, NULL), "a commit");
}

static void tell(long before, long most, const char *how) {
    long each = (bytes() - before) / ((long)RUN * RUNS);
    if (each < most) return;
    fprintf(stderr, "library_bytes: a record takes %ld bytes, %s\n", each, how);
    exit(1);
}

/* In a process of its own: what a store gave back would be taken for the next one. */
static void measure(int is_put) {
    long before = bytes();
    check(!tvk_open(&store), "a store");
    for (int run = 0; run < RUNS; run++) write_run(run, 0, is_put);
    tell(before, MOST_BYTES, is_put ? "put" : "loaded");
    for (int round = 1; round < ROUNDS; round++)
        for (int run = 0; run < RUNS; run++) write_run(run, round, 1);
    tell(before, MOST_WRITTEN, "written over");
    check(!tvk_close(&store), "the end");
    exit(0);
}

int main(void) {
    fill(0, 0);
    tvk_upkeep(0);
    for (int is_put = 0; is_put < 2; is_put++) {
        int status = 0;
        pid_t child = fork();
        check(child >= 0, "a process");
        if (!child) measure(is_put);
        check(waitpid(child, &status, 0) == child && status == 0, is_put ? "puts" : "loads");
    }
    return 0;
}
