/* Handles as C and any C++ have them: initialized by TVK_CLOSED and assigned it, alone and within a struct. With UNREAD three calls
 * stand here whose status nobody looks at: a compiler tells two, which may be refused. */
#include <tiuvrokk.h>

struct shop {
    tvk_store stores[2];
    int customers;
};

static tvk_store first;
static tvk_store second = TVK_CLOSED;

static int is_closed(tvk_store *store) { return tvk_commits(store, NULL) == TVK_NO_STORE; }

int main(void) {
    struct shop shop = {{TVK_CLOSED, TVK_CLOSED}, 1}, other;
    tvk_store third = TVK_CLOSED;
    tvk_figures_t figures;
    tvk_counts counts;
    uint64_t tx;
    other.stores[0] = other.stores[1] = TVK_CLOSED;
    if (!is_closed(&first) || !is_closed(&second) || !is_closed(&third)) return 1;
    if (!is_closed(&shop.stores[1]) || !is_closed(&other.stores[1])) return 2;
    if (tvk_open(&other.stores[0]) || tvk_begin(&other.stores[0], &tx)) return 3;
    if (tvk_figures(&other.stores[0], &figures) || figures.active != 1) return 4;
    counts = figures;
    if (counts.active != 1 || tvk_commit(&other.stores[0], tx, NULL)) return 5;
#ifdef UNREAD
    tvk_begin(&other.stores[0], &tx);
    tvk_insert(&other.stores[0], tx, "ant", 3, "6", 1, NULL);
    tvk_abort(&other.stores[0], tx);
#endif
    return tvk_close(&other.stores[0]) == TVK_OK && is_closed(&other.stores[0]) ? 0 : 6;
}
