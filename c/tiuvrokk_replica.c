/* The calls of tiuvrokk_replica.h over the exports of crates/am_c_replica, which take no null pointer: here each pointer is tested,
 * and a store gets its hash key. Nothing else is done. */
#define _DEFAULT_SOURCE /* getentropy */
#include "tiuvrokk_replica.h"
#include "hash_words.h"

uint32_t tiuvrokk_replica_open(tvk_replica *replica, uint64_t first, uint64_t second);
uint32_t tiuvrokk_replica_close(tvk_replica *replica);
uint32_t tiuvrokk_replica_take(tvk_replica *replica, const void *text, size_t text_length, uint64_t *told);
uint32_t tiuvrokk_replica_apply(tvk_replica *replica, const void *text, size_t text_length);
uint32_t tiuvrokk_replica_begin(tvk_transaction *transaction);
uint32_t tiuvrokk_replica_try(tvk_replica *replica, tvk_transaction *transaction, const void *line, size_t line_length,
                              uint64_t *told);
uint32_t tiuvrokk_replica_try_lines(tvk_replica *replica, tvk_transaction *transaction, const void *text, size_t text_length,
                                    uint64_t *told);
uint32_t tiuvrokk_replica_block(tvk_replica *replica, tvk_transaction *transaction, uint64_t *told);
uint32_t tiuvrokk_replica_end(tvk_transaction *transaction);
uint32_t tiuvrokk_replica_keep_up(tvk_replica *replica, const void *line, size_t line_length, uint64_t *told);
uint32_t tiuvrokk_replica_renew(tvk_replica *replica, uint64_t first, uint64_t second);
uint32_t tiuvrokk_replica_restore(tvk_replica *replica, uint64_t commits);
uint32_t tiuvrokk_replica_commits(tvk_replica *replica, uint64_t *told);
uint32_t tiuvrokk_replica_answer(tvk_replica *replica, uint64_t from, void *bytes, size_t room, uint64_t *told);

uint32_t tiuvrokk_log_open(tvk_log *log);
uint32_t tiuvrokk_log_open_behind(tvk_log *log, uint64_t since, uint64_t generation);
uint32_t tiuvrokk_log_close(tvk_log *log);
uint32_t tiuvrokk_log_put(tvk_log *log, uint64_t revision, uint64_t generation, const tvk_entry_name *name, uint64_t part,
                          uint32_t is_new, const void *text, size_t text_length, uint64_t *told);
uint32_t tiuvrokk_log_move(tvk_log *log, uint64_t revision, uint64_t since, uint64_t generation, uint64_t writer_high,
                           uint64_t writer_low);
uint32_t tiuvrokk_log_generation(tvk_log *log, uint64_t *told);
uint32_t tiuvrokk_log_first_behind(tvk_log *log, uint64_t revision, uint64_t *told);
uint32_t tiuvrokk_log_may_be_left(tvk_log *log, uint64_t revision, uint64_t *told);
uint32_t tiuvrokk_log_text(tvk_log *log, uint64_t from, void *bytes, size_t room, uint64_t *told);

uint32_t tiuvrokk_waits_open(tvk_waits *waits);
uint32_t tiuvrokk_waits_close(tvk_waits *waits);
uint32_t tiuvrokk_waits_enter(tvk_waits *waits, uint64_t bytes, uint64_t *told);
uint32_t tiuvrokk_waits_hand_over(tvk_waits *waits, uint64_t most_bytes, uint64_t *numbers, size_t room, uint64_t *told);
uint32_t tiuvrokk_waits_settle(tvk_waits *waits, uint64_t number);
uint32_t tiuvrokk_waits_expire(tvk_waits *waits, uint64_t number);
uint32_t tiuvrokk_waits_reach(tvk_waits *waits, uint64_t revision);
uint32_t tiuvrokk_waits_answered(tvk_waits *waits, uint64_t asked, uint64_t end);
uint32_t tiuvrokk_waits_known(tvk_waits *waits, uint64_t *told);
uint32_t tiuvrokk_waits_is_reached(tvk_waits *waits, uint64_t begun, uint64_t *told);

/* What a text of no bytes points to. */
static const char no_bytes[1];

/* Tests a handle, and lets the length go nowhere where it isn't wanted. */
#define BEGIN_AT(handle)                         \
    uint64_t unwanted;                           \
    if (!length) length = &unwanted;             \
    *length = 0;                                 \
    if (!(handle) || !(handle)->at) return TVK_NO_STORE

#define BEGIN BEGIN_AT(replica)

#define TRANSACTION                              \
    if (!transaction || !transaction->at) return TVK_NO_TX

#define TEXT(text)                               \
    if (!(text)) {                               \
        if (text##_length) return TVK_NULL;      \
        text = no_bytes;                         \
    }

#define ROOM                                     \
    char none[1];                                \
    if (!bytes) {                                \
        if (room) return TVK_NULL;               \
        bytes = none;                            \
    }

tvk_status tvk_replica_open(tvk_replica *replica) {
    uint64_t words[2];
    if (!replica) return TVK_NO_STORE;
    draw_words(words);
    return tiuvrokk_replica_open(replica, words[0], words[1]);
}

tvk_status tvk_replica_close(tvk_replica *replica) {
    if (!replica) return TVK_NO_STORE;
    return tiuvrokk_replica_close(replica);
}

tvk_status tvk_replica_take(tvk_replica *replica, const void *text, size_t text_length, uint64_t *length) {
    BEGIN;
    TEXT(text);
    return tiuvrokk_replica_take(replica, text, text_length, length);
}

tvk_status tvk_replica_apply(tvk_replica *replica, const void *text, size_t text_length) {
    if (!replica || !replica->at) return TVK_NO_STORE;
    TEXT(text);
    return tiuvrokk_replica_apply(replica, text, text_length);
}

tvk_status tvk_replica_begin(tvk_transaction *transaction) {
    if (!transaction) return TVK_NO_TX;
    return tiuvrokk_replica_begin(transaction);
}

tvk_status tvk_replica_try(tvk_replica *replica, tvk_transaction *transaction, const void *line, size_t line_length,
                           uint64_t *length) {
    BEGIN;
    TRANSACTION;
    TEXT(line);
    return tiuvrokk_replica_try(replica, transaction, line, line_length, length);
}

tvk_status tvk_replica_try_lines(tvk_replica *replica, tvk_transaction *transaction, const void *text, size_t text_length,
                                 uint64_t *length) {
    BEGIN;
    TRANSACTION;
    TEXT(text);
    return tiuvrokk_replica_try_lines(replica, transaction, text, text_length, length);
}

tvk_status tvk_replica_block(tvk_replica *replica, tvk_transaction *transaction, uint64_t *length) {
    BEGIN;
    TRANSACTION;
    return tiuvrokk_replica_block(replica, transaction, length);
}

tvk_status tvk_replica_end(tvk_transaction *transaction) {
    if (!transaction) return TVK_NO_TX;
    return tiuvrokk_replica_end(transaction);
}

tvk_status tvk_replica_keep_up(tvk_replica *replica, const void *line, size_t line_length, uint64_t *length) {
    BEGIN;
    TEXT(line);
    return tiuvrokk_replica_keep_up(replica, line, line_length, length);
}

tvk_status tvk_replica_renew(tvk_replica *replica) {
    uint64_t words[2];
    if (!replica) return TVK_NO_STORE;
    draw_words(words);
    return tiuvrokk_replica_renew(replica, words[0], words[1]);
}

tvk_status tvk_replica_restore(tvk_replica *replica, uint64_t commits) {
    if (!replica) return TVK_NO_STORE;
    return tiuvrokk_replica_restore(replica, commits);
}

tvk_status tvk_replica_commits(tvk_replica *replica, uint64_t *commits) {
    uint64_t *length = commits;
    BEGIN;
    return tiuvrokk_replica_commits(replica, length);
}

tvk_status tvk_replica_answer(tvk_replica *replica, uint64_t from, void *bytes, size_t room, uint64_t *copied) {
    uint64_t *length = copied;
    BEGIN;
    ROOM;
    return tiuvrokk_replica_answer(replica, from, bytes, room, length);
}

tvk_status tvk_log_open(tvk_log *log) {
    if (!log) return TVK_NO_STORE;
    return tiuvrokk_log_open(log);
}

tvk_status tvk_log_open_behind(tvk_log *log, uint64_t since, uint64_t generation) {
    if (!log) return TVK_NO_STORE;
    return tiuvrokk_log_open_behind(log, since, generation);
}

tvk_status tvk_log_close(tvk_log *log) {
    if (!log) return TVK_NO_STORE;
    return tiuvrokk_log_close(log);
}

tvk_status tvk_log_put(tvk_log *log, uint64_t revision, uint64_t generation, const tvk_entry_name *name, uint64_t part, int is_new,
                       const void *text, size_t text_length, uint64_t *length) {
    BEGIN_AT(log);
    if (!name) return TVK_NULL;
    TEXT(text);
    return tiuvrokk_log_put(log, revision, generation, name, part, is_new != 0, text, text_length, length);
}

tvk_status tvk_log_move(tvk_log *log, uint64_t revision, uint64_t since, uint64_t generation, uint64_t writer_high,
                        uint64_t writer_low) {
    if (!log) return TVK_NO_STORE;
    return tiuvrokk_log_move(log, revision, since, generation, writer_high, writer_low);
}

tvk_status tvk_log_generation(tvk_log *log, uint64_t *generation) {
    uint64_t *length = generation;
    BEGIN_AT(log);
    return tiuvrokk_log_generation(log, length);
}

tvk_status tvk_log_first_behind(tvk_log *log, uint64_t revision, uint64_t *first) {
    uint64_t *length = first;
    BEGIN_AT(log);
    return tiuvrokk_log_first_behind(log, revision, length);
}

tvk_status tvk_log_may_be_left(tvk_log *log, uint64_t revision, int *may) {
    uint64_t told = 0;
    tvk_status status = log ? tiuvrokk_log_may_be_left(log, revision, &told) : TVK_NO_STORE;
    if (may) *may = told != 0;
    return status;
}

tvk_status tvk_log_text(tvk_log *log, uint64_t from, void *bytes, size_t room, uint64_t *copied) {
    uint64_t *length = copied;
    BEGIN_AT(log);
    ROOM;
    return tiuvrokk_log_text(log, from, bytes, room, length);
}

tvk_status tvk_waits_open(tvk_waits *waits) {
    if (!waits) return TVK_NO_STORE;
    return tiuvrokk_waits_open(waits);
}

tvk_status tvk_waits_close(tvk_waits *waits) {
    if (!waits) return TVK_NO_STORE;
    return tiuvrokk_waits_close(waits);
}

tvk_status tvk_waits_enter(tvk_waits *waits, uint64_t bytes, uint64_t *number) {
    if (number) *number = 0;
    if (!waits || !waits->at) return TVK_NO_STORE;
    if (!number) return TVK_NULL;
    return tiuvrokk_waits_enter(waits, bytes, number);
}

tvk_status tvk_waits_hand_over(tvk_waits *waits, uint64_t most_bytes, uint64_t *numbers, size_t room, uint64_t *count) {
    uint64_t none[1];
    if (count) *count = 0;
    if (!waits || !waits->at) return TVK_NO_STORE;
    if (!count || (!numbers && room)) return TVK_NULL;
    return tiuvrokk_waits_hand_over(waits, most_bytes, numbers ? numbers : none, room, count);
}

tvk_status tvk_waits_settle(tvk_waits *waits, uint64_t number) {
    if (!waits) return TVK_NO_STORE;
    return tiuvrokk_waits_settle(waits, number);
}

tvk_status tvk_waits_expire(tvk_waits *waits, uint64_t number) {
    if (!waits) return TVK_NO_STORE;
    return tiuvrokk_waits_expire(waits, number);
}

tvk_status tvk_waits_reach(tvk_waits *waits, uint64_t revision) {
    if (!waits) return TVK_NO_STORE;
    return tiuvrokk_waits_reach(waits, revision);
}

tvk_status tvk_waits_answered(tvk_waits *waits, uint64_t asked, uint64_t end) {
    if (!waits) return TVK_NO_STORE;
    return tiuvrokk_waits_answered(waits, asked, end);
}

tvk_status tvk_waits_known(tvk_waits *waits, uint64_t *asked) {
    uint64_t *length = asked;
    BEGIN_AT(waits);
    return tiuvrokk_waits_known(waits, length);
}

tvk_status tvk_waits_is_reached(tvk_waits *waits, uint64_t begun, int *is) {
    uint64_t told = 0;
    tvk_status status = waits ? tiuvrokk_waits_is_reached(waits, begun, &told) : TVK_NO_STORE;
    if (is) *is = told != 0;
    return status;
}
