/* The C++ side: what was moved from or closed, exceptions that abort, what errors are about, loads and scans of any length,
 * threads one at a time, and random transactions compared with a map: library_calls_cpp CALLS SEED */
#include <cstdio>
#include <cstdlib>
#include <cstring>
#include <functional>
#include <map>
#include <random>
#include <thread>
#include <tiuvrokk.hpp>
#include <type_traits>

using tiuvrokk::Store;
using tiuvrokk::Transaction;
using Map = std::map<std::string, std::string>;

static_assert(!std::is_copy_constructible_v<Store> && !std::is_copy_assignable_v<Store>);
static_assert(!std::is_copy_constructible_v<Transaction> && !std::is_copy_assignable_v<Transaction>);
static_assert(std::is_nothrow_move_constructible_v<Store> && std::is_nothrow_move_assignable_v<Transaction>);

static void expect(bool is_so, const char *what) {
    if (is_so) return;
    std::fprintf(stderr, "library_calls.cpp: %s\n", what);
    std::exit(1);
}

/* The status of what a call throws. */
static tvk_status thrown(const std::function<void()> &call) {
    try {
        call();
    } catch (const tiuvrokk::Error &error) {
        expect(std::string(error.what()).rfind(tvk_text(error.status()), 0) == 0, "the text of an error");
        return error.status();
    }
    return TVK_OK;
}

static std::string key_of(int number) {
    char text[16];
    std::snprintf(text, sizeof text, "key%06d", number);
    return text;
}

static void moved_and_closed() {
    Store store;
    Transaction tx = store.transaction();
    tx.insert("ant", "6");
    Store other = std::move(store);
    expect(!store.is_open() && other.is_open(), "a store that was moved from"); // NOLINT: that is what is tested
    expect(thrown([&] { (void)store.transaction(); }) == TVK_NO_STORE, "a transaction of a store that was moved from");
    expect(thrown([&] { store.close(); }) == TVK_NO_STORE, "the close of a store that was moved from");
    expect(tx.get("ant") == "6", "a transaction whose store was moved");
    Transaction next = std::move(tx);
    expect(!tx.is_active() && next.is_active(), "a transaction that was moved from"); // NOLINT
    expect(thrown([&] { tx.get("ant"); }) == TVK_NO_STORE, "a read of a transaction that was moved from");
    expect(thrown([&] { tx.commit(); }) == TVK_NO_STORE, "the commit of a transaction that was moved from");
    std::uint64_t number = next.number();
    next = other.transaction();
    expect(next.number() != number, "a transaction that is assigned to");
    next.insert("ant", "6");
    auto rows = next.scan();
    expect(rows.begin()->key == "ant" && rows.begin()->value == "6", "a scan");
    other.close();
    expect(!next.is_active(), "a transaction of a closed store");
    expect(thrown([&] { next.get("ant"); }) == TVK_NO_STORE, "a read in a closed store");
    expect(thrown([&] { next.scan().begin(); }) == TVK_NO_STORE, "a scan in a closed store");
    expect(thrown([&] { other.close(); }) == TVK_NO_STORE, "a second close");
    other = Store();
    expect(other.is_open() && other.commits() == 0, "a store that is assigned to");
}

static void exceptions_abort() {
    Store store;
    try {
        Transaction tx = store.transaction();
        tx.insert("ant", "6");
        throw std::logic_error("on the way");
    } catch (const std::logic_error &) {
    }
    Transaction tx = store.transaction();
    expect(!tx.contains("ant") && store.commits() == 0, "an exception aborts");
    tx.put("ant", "6");
    expect(tx.commit() == 1 && !tx.is_active(), "a commit");
    expect(thrown([&] { tx.abort(); }) == TVK_NO_TX, "an abort behind a commit");
    for (int i = 0; i < 1000; i++) (void)store.transaction();
    expect(store.transaction().number() == 1003, "dropped transactions are no longer active");
}

static void errors() {
    Store store;
    Transaction one = store.transaction(), other = store.transaction();
    one.lock(TVK_EXCLUSIVE, "a", "c");
    try {
        other.get("bee");
        expect(false, "a lock that is in the way");
    } catch (const tiuvrokk::Busy &busy) {
        expect(busy.holder() == one.number(), "who is in the way");
    }
    one.insert("bee", "1");
    try {
        one.insert("bee", "2");
        expect(false, "a record that is there");
    } catch (const tiuvrokk::Exists &exists) {
        expect(exists.key() == "bee", "which record is there");
    }
    try {
        one.replace("cat", "2");
        expect(false, "a record that isn't there");
    } catch (const tiuvrokk::Absent &absent) {
        expect(absent.key() == "cat", "which record isn't there");
    }
    expect(!one.erase("cat") && one.erase("bee") && !one.get("bee"), "records that are erased");
    std::string long_key(33, 'k'), long_value(65, 'v');
    expect(thrown([&] { one.get(long_key); }) == TVK_BAD_KEY, "a long key");
    expect(thrown([&] { one.scan("", long_key).begin(); }) == TVK_BAD_KEY, "the long key of a scan");
    expect(thrown([&] { one.put("bee", long_value); }) == TVK_BAD_VALUE, "a long value");
    expect(thrown([&] { one.load(Map{{"bee", long_value}}); }) == TVK_BAD_VALUE, "the long value of a load");
    expect(thrown([&] { one.scan("b", "a").begin(); }) == TVK_BAD_RANGE, "a range that doesn't rise");
    expect(thrown([&] { one.load(Map{}, 0); }) == TVK_BAD_LIMIT, "runs of no records");
    expect(thrown([&] { store.merge(65); }) == TVK_BAD_LIMIT, "a merge of too many");
    expect(thrown([&] { one.back(); }) == TVK_NO_MARK, "no savepoint");
    try {
        store.merge(65);
    } catch (const tiuvrokk::Error &error) {
        expect(error.what() == std::string(tvk_text(TVK_BAD_LIMIT)) + ": 65", "what a limit was");
    }
    std::vector<std::pair<std::string, const char *>> twice{{"b", "1"}, {"a", "2"}, {"b", "3"}};
    expect(thrown([&] { one.load(twice); }) == TVK_NOT_RISING, "a key that stands twice");
    for (tvk_status status : {TVK_TOO_MANY_TX, TVK_TOO_MANY_LOCKS, TVK_TOO_MANY_OPS, TVK_TOO_MANY_RUNS})
        expect(std::strchr(tvk_text(status), ':') != nullptr, "what helps where a bound is reached");
    std::vector<Transaction> many;
    expect(thrown([&] { for (;;) many.push_back(store.transaction()); }) == TVK_TOO_MANY_TX && many.size() == TVK_MAX_TX - 2,
           "as many transactions as there may be");
}

static void pairs_written_down() {
    Store store;
    Transaction tx = store.transaction();
    expect(tx.load({{"bee", "1"}, {"ant", "6"}}) == 2 && tx.put({{"cat", "2"}, {"ant", "5"}}) == 2, "pairs that are written down");
    expect(tx.load({{"dog", "3"}}) == 1 && tx.get("ant") == "5" && tx.get("cat") == "2" && tx.get("dog") == "3", "what they set");
    expect(thrown([&] { tx.load({{"elk", "1"}, {"elk", "2"}}); }) == TVK_NOT_RISING, "one of them twice");
}

static void loads_and_scans() {
    Store store;
    Map all;
    for (int i = 0; i < 3000; i++) all[key_of(i * 7919 % 3000)] = std::string(static_cast<std::size_t>(i % 65), 'v');
    Transaction tx = store.transaction();
    expect(tx.load(all.begin(), all.end(), 10) == 3000, "a load of more runs than there are locks");
    auto rows = tx.scan();
    expect(Map(rows.begin(), rows.end()) == all, "a scan of all");
    Store copy;
    Transaction to = copy.transaction();
    expect(to.load(tx.scan()) == 3000 && to.get(key_of(8)) == all[key_of(8)], "a load of what is scanned");
    int count = 0;
    for (auto [key, value] : tx.scan(key_of(100), key_of(199)))
        count += key == key_of(100 + count) && value == all[std::string(key)];
    expect(count == 100, "a scan of one page");
    for (auto record : tx.scan("l")) expect(false, std::string(record.key).c_str());
    try {
        tx.load(Map{{"a", "1"}, {key_of(5), "2"}, {key_of(4), "3"}});
        expect(false, "a load of what is there");
    } catch (const tiuvrokk::Exists &exists) {
        expect(exists.key() == key_of(4), "the least key that is there");
    }
    Transaction back_and_away = std::move(tx);
    back_and_away.mark();
    auto last = all.rbegin();
    for (auto [key, value] : back_and_away.scan_back()) {
        expect(key == last->first && value == last->second, "a scan back of all");
        ++last;
    }
    expect(last == all.rend(), "the end of a scan back");
    expect(back_and_away.erase(key_of(100), key_of(1199), 1001) == 1001 && back_and_away.erase(key_of(100), key_of(1199)) == 99, "ranges");
    expect((*back_and_away.scan_back("", key_of(1199)).begin()).key == key_of(99), "what a range leaves");
    expect(back_and_away.erase("", tiuvrokk::GREATEST) == 1900 && back_and_away.erase("", tiuvrokk::GREATEST) == 0, "the range of all");
    back_and_away.back();
    tx = std::move(back_and_away);
    expect(thrown([&] { tx.erase("b", "a"); }) == TVK_BAD_RANGE, "a range that doesn't rise");
    expect(thrown([&] { tx.scan_back("b", "a").begin(); }) == TVK_BAD_RANGE, "a range back that doesn't rise");
    tx.erase(key_of(7));
    tx.commit();
    expect(thrown([&] { for (auto record : tx.scan()) (void)record; }) == TVK_NO_TX, "a scan behind the commit");
    Transaction reader = store.transaction();
    auto seen = reader.scan();
    expect(std::distance(seen.begin(), seen.end()) == 2999, "a scan of what was committed");
    reader.commit();
    std::uint64_t merged = store.figures().in_final;
    while (auto step = store.merge()) merged += *step;
    expect(merged >= 2999, "a merge of all");
    tvk_figures_t figures = store.figures();
    expect(figures.in_final == figures.entries && !figures.in_runs && !figures.runs, "nothing is left in runs");
    expect(figures.entries - figures.ghosts == 2999, "the records beside ghosts");
    while (store.clean()) continue;
    expect(store.entries() == 2999, "a clean");
    expect(!store.tidy(), "nothing is left to do");
}

static void what_nobody_reads() {
    Store store;
    for (int run = 0; run < 300; run++) {
        Map records;
        for (int place = 0; place < 8; place++) records[std::to_string(place) + key_of(run)] = "v";
        Transaction tx = store.transaction();
        tx.load(records.begin(), records.end());
        tx.commit();
    }
    expect(store.figures().runs >= 64 && store.figures().runs < 200, "commits merge where runs are many");
    expect(store.tidy(), "a piece of the rest");
    while (store.tidy()) continue;
    expect(!store.figures().runs && store.figures().in_final == 2400, "all of it");
}

static void loads_in_any_order() {
    Store store;
    Transaction tx = store.transaction();
    std::vector<std::pair<std::string, std::string>> all;
    std::string text;
    for (int i = 0; i < 70000; i++) {
        char key[16];
        std::snprintf(key, sizeof key, "%06d", static_cast<int>(i * 7919ll % 70000));
        all.emplace_back(key, std::to_string(i));
        if (i < 100) text += "x" + all.back().first + '\t' + all.back().second + '\n';
    }
    expect(tx.load_sorting(all) == 70000 && tx.get(all[69999].first) == "69999", "a load of two runs");
    expect(tx.load_text(text) == 100 && tx.get("x" + all[7].first) == "7", "a load of a text");
    struct Reading { char key[4]; short degrees; } readings[2] = {{{'r', 0, 0, 2}, 7}, {{'r', 0, 0, 1}, 8}};
    const tvk_layout layout = {sizeof(Reading), offsetof(Reading, key), 4, offsetof(Reading, degrees), sizeof(short)};
    expect(tx.load_structs(readings, 2, layout) == 2 && tx.get(std::string_view(readings[1].key, 4))->size() == sizeof(short), "structs");
    std::uint64_t loaded = 7;
    tx.abort();

    Transaction second = store.transaction();
    second.insert(all[66000].first, "1");
    try {
        second.load_sorting(all, &loaded);
        expect(false, "a load of what is there");
    } catch (const tiuvrokk::Exists &exists) {
        expect(exists.key() == all[66000].first && loaded == 65536, "the key that is there, and the run before");
    }
    all[69999].first = all[3].first;
    try {
        second.load_sorting(all.begin(), all.end(), &loaded);
        expect(false, "a key that stands twice");
    } catch (const tiuvrokk::Twice &twice) {
        expect(twice.key() == all[3].first && twice.status() == TVK_TWICE && loaded == 0, "the key that stands twice");
    }
    for (const char *wrong : {"a\t1\nb=2\n", "a\t1\n\nb\t2", "a\t1\n123456789012345678901234567890123\t1\n"}) {
        try {
            second.load_text(wrong);
            expect(false, "a wrong line");
        } catch (const tiuvrokk::BadLine &bad) {
            expect(bad.line() == 2 && !second.contains("a"), "which line is wrong");
        }
    }
    expect(thrown([&] { second.load_text(""); }) == TVK_NOT_RISING, "a text of no lines");
    expect(thrown([&] { second.load_sorting(Map{}); }) == TVK_NOT_RISING, "a load of no records");
}

static void puts_in_any_order() {
    Store store;
    Transaction tx = store.transaction();
    Map all, more;
    for (int i = 0; i < 3000; i++) all[key_of(2 * i)] = "old";
    for (int i = 0; i < 3000; i++) more[key_of(3 * i)] = "new";
    tx.load(all);
    expect(tx.put(more) == 3000 && tx.put(more, 700) == 3000 && tx.put(Map{}) == 0, "a put");
    for (auto &[key, value] : more) all[key] = value;
    auto rows = tx.scan();
    expect(Map(rows.begin(), rows.end()) == all, "what a put leaves");
    std::vector<std::pair<std::string, const char *>> twice{{"b", "1"}, {"a", "2"}, {"b", "3"}};
    expect(thrown([&] { tx.put(twice); }) == TVK_NOT_RISING, "a key that stands twice in a put");
    std::uint64_t done = 7;
    expect(thrown([&] { tx.put_sorting(twice, &done); }) == TVK_TWICE && done == 0, "a key that stands twice in a sorted put");
    expect(tx.put_sorting(more, &done) == 3000 && done == 3000, "a sorted put");
    expect(tx.put_text(key_of(2) + "\ttext\n" + key_of(9999) + "\ttext") == 2 && tx.get(key_of(2)) == "text", "a put of a text");
    struct Reading { char key[9]; char value; } readings[2];
    const tvk_layout layout = {sizeof(Reading), offsetof(Reading, key), 9, offsetof(Reading, value), 1};
    for (std::size_t i = 0; i < 2; i++) {
        std::memcpy(readings[i].key, key_of(i ? 4 : 7).data(), 9);
        readings[i].value = 's';
    }
    expect(tx.put_structs(readings, 2, layout, &done) == 2 && done == 2 && tx.get(std::string_view(readings[0].key, 9)) == "s", "structs");
    expect(tx.get(std::string_view(readings[1].key, 9)) == "s", "a struct whose key is there");
    expect(thrown([&] { tx.put_text("a\t1\nb"); }) == TVK_BAD_LINE && !tx.contains("a"), "a wrong line of a put");
}

static void threads_in_turn() {
    std::optional<Store> store;
    std::optional<Transaction> tx;
    std::thread([&] { tx.emplace(store.emplace().transaction()); }).join();
    std::thread([&] { tx->insert("ant", "6"); }).join();
    expect(tx->get("ant") == "6", "a record that another thread added");
    std::thread([&] {
        tx->commit();
        store->close();
    }).join();
    expect(!store->is_open(), "a store that another thread closed");
}

static void random_transactions(int calls, unsigned seed) {
    std::mt19937 random(seed);
    auto below = [&](unsigned bound) { return static_cast<int>(random() % bound); };
    Store store;
    Map committed;
    for (int done = 0; done < calls;) {
        Map seen = committed;
        Transaction tx = store.transaction();
        for (int i = below(40); i > 0; i--, done++) {
            std::string key = key_of(below(200)), value(static_cast<std::size_t>(below(65)), 'v');
            bool is_there = seen.count(key) != 0;
            switch (below(8)) {
            case 0: expect(tx.get(key) == (is_there ? std::optional(seen[key]) : std::nullopt), "a read"); break;
            case 1: tx.put(key, seen[key] = value); break;
            case 2: expect(tx.erase(key) == (seen.erase(key) != 0), "an erase"); break;
            case 3:
                expect((thrown([&] { tx.insert(key, value); }) == TVK_EXISTS) == is_there, "an insert");
                seen.emplace(key, value);
                break;
            case 4: {
                auto rows = tx.scan(key);
                expect(Map(rows.begin(), rows.end()) == Map(seen.lower_bound(key), seen.end()), "a scan");
                break;
            }
            case 5: {
                auto rows = tx.scan_back("", key);
                expect(Map(rows.begin(), rows.end()) == Map(seen.begin(), seen.upper_bound(key)), "a scan back");
                break;
            }
            case 6: {
                auto from = seen.lower_bound(key), to = seen.upper_bound(key + "~");
                std::uint64_t most = static_cast<std::uint64_t>(below(4)), gone = 0;
                for (; from != to && gone < most; gone++) from = seen.erase(from);
                expect(tx.erase(key, key + "~", most) == gone, "a range");
                break;
            }
            default:
                tx.mark();
                tx.set(key, value);
                tx.erase("", tiuvrokk::GREATEST, 3);
                tx.back();
            }
        }
        if (below(5)) {
            tx.commit();
            committed = seen;
        }
        while (below(3) && store.merge()) continue;
    }
}

int main(int, char **words) {
    moved_and_closed();
    exceptions_abort();
    errors();
    pairs_written_down();
    loads_and_scans();
    what_nobody_reads();
    loads_in_any_order();
    puts_in_any_order();
    threads_in_turn();
    random_transactions(std::atoi(words[1]), static_cast<unsigned>(std::atoi(words[2])));
    std::printf("library: %s calls from C++\n", words[1]);
}
