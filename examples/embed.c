/* A store inside a C program, which loads structs of its own, reads between two loads, and merges while it is idle.
 *
 *     cc examples/embed.c $(pkg-config --cflags --libs tiuvrokk) */
#include <inttypes.h>
#include <stdio.h>
#include <stdlib.h>
#include <string.h>
#include <tiuvrokk.h>

enum { SENSORS = 100, BATCHES = 100, BATCH = 1000, ROWS = 100, SENSOR = 7 };

/* Readings come in the order of time, and are asked for by sensor: their keys are both numbers. */
typedef struct { uint8_t key[8]; double degrees; } reading;

static const tvk_layout layout = {sizeof(reading), offsetof(reading, key), 8, offsetof(reading, degrees), sizeof(double)};

static void must(tvk_status status, const char *what) {
    if (status == TVK_OK) return;
    fprintf(stderr, "%s: %s\n", what, tvk_text(status));
    exit(1);
}

/* Keys are ordered byte by byte, so each number begins at its highest byte. */
static void put_key(uint8_t *key, uint32_t sensor, uint32_t second) {
    for (int i = 0; i < 4; i++) {
        key[i] = (uint8_t)(sensor >> (24 - 8 * i));
        key[4 + i] = (uint8_t)(second >> (24 - 8 * i));
    }
}

/* Loads a batch as one run, as it stands, which can be read at once. It is merged with the others where it is read. */
static tvk_status load(tvk_store *store, uint64_t tx, const reading *batch, uint64_t *holder) {
    return tvk_load_structs(store, tx, batch, BATCH, &layout, NULL, NULL, holder);
}

/* How many readings a sensor has: while the rows are full, the scan goes on behind the last of them. */
static int count(tvk_store *store, uint64_t tx, uint32_t sensor) {
    static tvk_record rows[ROWS];
    uint8_t lo[8], hi[8];
    uint64_t told;
    put_key(lo, sensor, 0);
    put_key(hi, sensor, UINT32_MAX);
    must(tvk_scan(store, tx, lo, 8, hi, 8, rows, ROWS, &told), "scan");
    int all = (int)told;
    for (; told == ROWS; all += (int)told)
        must(tvk_scan_behind(store, tx, rows[ROWS - 1].key.bytes, 8, hi, 8, rows, ROWS, &told), "scan");
    return all;
}

int main(void) {
    static reading batch[BATCH];
    tvk_store store = TVK_CLOSED;
    uint64_t writer, reader, told;
    tvk_figures_t figures;
    int found = 0, waits = 0;
    must(tvk_open(&store), "open");
    for (uint32_t b = 0; b < BATCHES; b++) {
        for (uint32_t i = 0; i < BATCH; i++) {
            put_key(batch[i].key, i % SENSORS, (b * BATCH + i) / SENSORS);
            batch[i].degrees = 20 + b % 7;
        }
        must(tvk_begin(&store, &reader), "begin");
        must(tvk_begin(&store, &writer), "begin");
        found = count(&store, reader, SENSOR);
        /* The reader has locked what it read: the load is refused at once, and is tried again once the reader has ended. */
        if (load(&store, writer, batch, &told) == TVK_BUSY && told == reader) waits++;
        must(tvk_commit(&store, reader, NULL), "commit");
        must(load(&store, writer, batch, NULL), "load");
        must(tvk_commit(&store, writer, NULL), "commit");
        /* Nothing else is to do until the next batch comes, so some of what isn't merged is. */
        must(tvk_tidy(&store, NULL), "tidy");
    }
    must(tvk_figures(&store, &figures), "figures");
    printf("loaded %d, waited %d times, read %d, merged %" PRIu64 "\n", BATCHES * BATCH, waits, found, figures.in_final);
    must(tvk_close(&store), "close");
}
