/* Tiuvrokk for C++17: stores and transactions that end with their scope.
 *
 *     #include <iostream>
 *     #include <tiuvrokk.hpp>
 *
 *     int main() {
 *         tiuvrokk::Store store;
 *         tiuvrokk::Transaction tx = store.transaction();
 *         tx.insert("ant", "6");
 *         if (auto value = tx.get("ant")) std::cout << *value << '\n';
 *         for (auto [key, value] : tx.scan("a", "c")) std::cout << key << ' ' << value << '\n';
 *         tx.commit();
 *     }
 *
 *     c++ -std=c++17 demo.cpp $(pkg-config --cflags --libs tiuvrokk)
 *
 * All of it stands over the calls of tiuvrokk.h, which says what each does, which statuses it has, and what locks are. A call
 * that is refused throws, and changed nothing, but that the runs of a load stay that were added before the refused one:
 * OutOfMemory, which is a std::bad_alloc, where memory was refused; Busy, Absent, Exists, Twice or BadLine, with the
 * transaction, the key or the line that they are about; and else an Error with its status. A transaction is aborted
 * where it leaves its scope without a commit, by an exception or otherwise.
 *
 * A store and its transactions are moved and not copied. An object that was moved from has no store, and neither has a
 * transaction of a closed store: their calls throw an Error of TVK_NO_STORE. Any thread may use a store with its transactions,
 * one at a time. */

#ifndef TIUVROKK_HPP
#define TIUVROKK_HPP

#if !defined(_MSVC_LANG) && __cplusplus < 201703L
#error "tiuvrokk.hpp needs C++17 (-std=c++17); tiuvrokk.h serves any older C++"
#else

#include <tiuvrokk.h>

#include <algorithm>
#include <cstdint>
#include <cstring>
#include <initializer_list>
#include <iterator>
#include <memory>
#include <new>
#include <optional>
#include <stdexcept>
#include <string>
#include <string_view>
#include <utility>
#include <vector>

namespace tiuvrokk {

/* A call that was refused. */
class Error : public std::runtime_error {
public:
    explicit Error(tvk_status status, const std::string &about = {})
        : std::runtime_error(about.empty() ? tvk_text(status) : tvk_text(status) + (": " + about)), status_(status) {}

    tvk_status status() const noexcept { return status_; }

private:
    tvk_status status_;
};

/* Another transaction is in the way. */
class Busy : public Error {
public:
    explicit Busy(std::uint64_t holder) : Error(TVK_BUSY, "transaction " + std::to_string(holder)), holder_(holder) {}

    std::uint64_t holder() const noexcept { return holder_; }

private:
    std::uint64_t holder_;
};

/* A key that has no record, or that has one already. */
class KeyError : public Error {
public:
    KeyError(tvk_status status, std::string_view key) : Error(status, std::string(key)), key_(key) {}

    const std::string &key() const noexcept { return key_; }

private:
    std::string key_;
};

class Absent : public KeyError {
public:
    explicit Absent(std::string_view key) : KeyError(TVK_ABSENT, key) {}
};

class Exists : public KeyError {
public:
    explicit Exists(std::string_view key) : KeyError(TVK_EXISTS, key) {}
};

/* A key that stands twice among what is to be loaded. */
class Twice : public KeyError {
public:
    explicit Twice(std::string_view key) : KeyError(TVK_TWICE, key) {}
};

/* A line of a text that is no record, by its number from 1. */
class BadLine : public Error {
public:
    BadLine(tvk_status status, std::uint64_t line) : Error(status, "line " + std::to_string(line)), line_(line) {}

    std::uint64_t line() const noexcept { return line_; }

private:
    std::uint64_t line_;
};

/* Memory was refused. */
class OutOfMemory : public std::bad_alloc {
public:
    const char *what() const noexcept override { return tvk_text(TVK_NO_MEMORY); }

    tvk_status status() const noexcept { return TVK_NO_MEMORY; }
};

/* A record as a scan reads it: both views last until the scan goes on. */
struct Record {
    std::string_view key, value;

    template <class Key, class Value> operator std::pair<Key, Value>() const { return {Key(key), Value(value)}; }
};

/* The greatest key that there may be, as the least one has no bytes. */
inline constexpr std::string_view GREATEST{"\xff\xff\xff\xff\xff\xff\xff\xff\xff\xff\xff\xff\xff\xff\xff\xff"
                                           "\xff\xff\xff\xff\xff\xff\xff\xff\xff\xff\xff\xff\xff\xff\xff\xff",
                                           TVK_MAX_KEY};

/* A key and a value, as a program writes them down: {{"ant", "6"}, {"bee", "4"}}. */
using Pair = std::pair<std::string_view, std::string_view>;

/* The most records of a run, unless a load is told otherwise. */
inline constexpr std::size_t RUN = 65536;

namespace detail {

template <class Text> std::string_view view(const Text &text) noexcept {
    return {reinterpret_cast<const char *>(text.bytes), text.length};
}

/* Throws what a status that refuses is: `told` is the number that came with it, `text` the key or the value that it may be
 * about, `about` what else. */
[[noreturn]] inline void refuse(tvk_status status, std::uint64_t told, std::string_view text, const std::string &about) {
    switch (status) {
    case TVK_NO_MEMORY: throw OutOfMemory();
    case TVK_BUSY: throw Busy(told);
    case TVK_ABSENT: throw Absent(text);
    case TVK_EXISTS: throw Exists(text);
    case TVK_TWICE: throw Twice(text);
    case TVK_BAD_KEY:
    case TVK_BAD_VALUE: throw Error(status, std::string(text));
    default: throw Error(status, about);
    }
}

inline void check(tvk_status status, const std::string &about) {
    if (status != TVK_OK) refuse(status, 0, about, about);
}

inline std::string transaction_text(std::uint64_t number) { return "transaction " + std::to_string(number); }

template <class Text> void fill(Text &text, std::string_view from, tvk_status bad) {
    if (from.size() > sizeof text.bytes) throw Error(bad, std::string(from));
    text.length = from.size();
    if (!from.empty()) std::memcpy(text.bytes, from.data(), from.size());
}

/* The key that is too long, if one of two is. */
inline std::string_view longer(std::string_view lo, std::string_view hi) noexcept { return lo.size() > hi.size() ? lo : hi; }

inline bool is_below(const tvk_record &one, const tvk_record &other) noexcept { return view(one.key) < view(other.key); }

}  // namespace detail

/* The records of a range, read as they are asked for, once, from one of its ends: 100 at first, and twice as many each time
 * after. */
class Rows {
public:
    class iterator {
    public:
        using iterator_category = std::input_iterator_tag;
        using value_type = Record;
        using difference_type = std::ptrdiff_t;
        using reference = Record;

        /* A record for as long as one of its views is asked for. */
        class pointer {
        public:
            const Record *operator->() const noexcept { return &record_; }

        private:
            friend class iterator;
            explicit pointer(const Record &record) : record_(record) {}

            Record record_;
        };

        iterator() = default;

        Record operator*() const {
            const tvk_record &row = rows_->page_[rows_->at_];
            return {detail::view(row.key), detail::view(row.value)};
        }

        pointer operator->() const { return pointer(**this); }

        iterator &operator++() {
            rows_->advance();
            return *this;
        }

        void operator++(int) { rows_->advance(); }

        friend bool operator==(const iterator &one, const iterator &other) { return one.is_over() == other.is_over(); }
        friend bool operator!=(const iterator &one, const iterator &other) { return !(one == other); }

    private:
        friend class Rows;
        explicit iterator(Rows *rows) : rows_(rows) {}
        bool is_over() const { return !rows_ || rows_->at_ == rows_->page_.size(); }

        Rows *rows_ = nullptr;
    };

    iterator begin() {
        if (!is_begun_) read(is_back_ ? tvk_scan_back : tvk_scan);
        return iterator(this);
    }

    iterator end() noexcept { return {}; }

private:
    friend class Transaction;

    Rows(std::shared_ptr<tvk_store> store, std::uint64_t number, std::string_view lo, std::string_view hi, bool is_back)
        : store_(std::move(store)), number_(number), lo_(lo), hi_(hi), is_back_(is_back) {}

    template <class Scan> void read(Scan scan) {
        std::uint64_t told = 0;
        page_.resize(size_);
        tvk_status status =
            scan(store_.get(), number_, lo_.data(), lo_.size(), hi_.data(), hi_.size(), page_.data(), size_, &told);
        page_.resize(status == TVK_OK ? static_cast<std::size_t>(told) : 0);
        at_ = 0;
        if (status != TVK_OK) detail::refuse(status, told, detail::longer(lo_, hi_), detail::transaction_text(number_));
        is_begun_ = true;
    }

    void advance() {
        if (++at_ < page_.size() || page_.size() < size_) return;
        (is_back_ ? hi_ : lo_) = detail::view(page_.back().key);
        size_ = std::min<std::size_t>(2 * size_, TVK_MAX_ROWS - 1);
        read(is_back_ ? tvk_scan_before : tvk_scan_behind);
    }

    std::shared_ptr<tvk_store> store_;
    std::uint64_t number_;
    std::string lo_, hi_;
    std::vector<tvk_record> page_;
    std::size_t at_ = 0, size_ = 100;
    bool is_back_, is_begun_ = false;
};

/* A transaction, by Store::transaction. It is aborted at the end of its scope, unless it ended before. */
class Transaction {
public:
    Transaction(Transaction &&other) noexcept
        : store_(std::move(other.store_)), number_(other.number_), is_active_(std::exchange(other.is_active_, false)) {}

    Transaction &operator=(Transaction &&other) noexcept {
        if (this != &other) {
            end();
            store_ = std::move(other.store_);
            number_ = other.number_;
            is_active_ = std::exchange(other.is_active_, false);
        }
        return *this;
    }

    Transaction(const Transaction &) = delete;
    Transaction &operator=(const Transaction &) = delete;

    ~Transaction() { end(); }

    /* The number by which Busy::holder names the transaction. */
    std::uint64_t number() const noexcept { return number_; }

    bool is_active() const noexcept { return is_active_ && store_ && store_->at; }

    /* Commits, and tells the number of the commit: they rise by one from 1. */
    std::uint64_t commit() {
        std::uint64_t commit = 0;
        check(tvk_commit(store_.get(), number_, &commit));
        is_active_ = false;
        return commit;
    }

    void abort() {
        check(tvk_abort(store_.get(), number_));
        is_active_ = false;
    }

    /* Sets a savepoint; `back` takes back what was written since the newest one, which goes. */
    void mark() { check(tvk_mark(store_.get(), number_)); }
    void back() { check(tvk_back(store_.get(), number_)); }

    /* The value under the key, where it has one. */
    std::optional<std::string> get(std::string_view key) const {
        tvk_value value;
        if (!read(key, value)) return std::nullopt;
        return std::string(detail::view(value));
    }

    bool contains(std::string_view key) const {
        tvk_value value;
        return read(key, value);
    }

    /* Adds a record, unless the key has one: throws Exists. */
    void insert(std::string_view key, std::string_view value) {
        if (!write(tvk_insert, key, value)) throw Exists(key);
    }

    /* Gives a record another value: throws Absent where there is none. */
    void replace(std::string_view key, std::string_view value) {
        if (!write(tvk_replace, key, value)) throw Absent(key);
    }

    /* Sets the value under the key, whether it has one or not. */
    void set(std::string_view key, std::string_view value) { write(tvk_set, key, value); }

    /* The same by another name. */
    void put(std::string_view key, std::string_view value) { set(key, value); }

    /* Takes the record away, and tells whether there was one. */
    bool erase(std::string_view key) {
        std::uint64_t told = 0;
        tvk_status status = tvk_delete(store_.get(), number_, key.data(), key.size(), &told);
        return is_done(status, told, key);
    }

    /* Takes the records from `lo` to `hi` away, both included, the first `most` of them, and tells how many went. The range is
     * locked. Each thousand is an operation. */
    std::uint64_t erase(std::string_view lo, std::string_view hi, std::uint64_t most = UINT64_MAX) {
        std::uint64_t count = 0, told = TVK_MAX_ROWS;
        while (count < most && told == TVK_MAX_ROWS) {
            std::uint64_t limit = std::min<std::uint64_t>(most - count, TVK_MAX_ROWS);
            tvk_status status = tvk_delete_range(store_.get(), number_, lo.data(), lo.size(), hi.data(), hi.size(), limit, &told);
            check(status, told, detail::longer(lo, hi));
            count += told;
        }
        return count;
    }

    /* Adds pairs of keys and values, in any order, cut into runs, each sorted and added as a whole; tells how many they are.
     * The run that is refused isn't added, and those before it stay. Each run is locked, and all keys are where there are more
     * than 255. */
    template <class Iterator> std::uint64_t load(Iterator first, Iterator last, std::size_t run = RUN) {
        return bring(first, last, run, tvk_load);
    }

    template <class Pairs> std::uint64_t load(Pairs &&pairs, std::size_t run = RUN) {
        return load(std::begin(pairs), std::end(pairs), run);
    }

    std::uint64_t load(std::initializer_list<Pair> pairs, std::size_t run = RUN) { return load(pairs.begin(), pairs.end(), run); }

    /* The same by the library's own sort, in runs of RUN, each record copied once: a key that stands twice anywhere throws Twice,
     * and nothing is added then. No pairs at all are refused, as TVK_NOT_RISING. `loaded` is told how many records were added
     * before a run that is refused. */
    template <class Iterator> std::uint64_t load_sorting(Iterator first, Iterator last, std::uint64_t *loaded = nullptr) {
        std::vector<tvk_record> records = copied(first, last);
        return load_all(records.size(), loaded, [&](tvk_key *key, std::uint64_t *, std::uint64_t *count, std::uint64_t *told) {
            return tvk_load_sorting(store_.get(), number_, records.data(), records.size(), key, count, told);
        });
    }

    template <class Pairs> std::uint64_t load_sorting(Pairs &&pairs, std::uint64_t *loaded = nullptr) {
        return load_sorting(std::begin(pairs), std::end(pairs), loaded);
    }

    /* The same of an array of structs, of which no pairs are made: `layout` says where each has its own. */
    template <class Struct>
    std::uint64_t load_structs(const Struct *structs, std::size_t number, const tvk_layout &layout, std::uint64_t *loaded = nullptr) {
        return load_all(number, loaded, [&](tvk_key *key, std::uint64_t *, std::uint64_t *count, std::uint64_t *told) {
            return tvk_load_structs(store_.get(), number_, structs, number, &layout, key, count, told);
        });
    }

    /* The same of a text, whose lines have a key, a TAB and a value each; the last one may lack its LF. A line that is no record
     * throws BadLine, and nothing is added then. */
    std::uint64_t load_text(std::string_view text, std::uint64_t *loaded = nullptr) {
        return load_all(lines_of(text), loaded, [&](tvk_key *key, std::uint64_t *line, std::uint64_t *count, std::uint64_t *told) {
            return tvk_load_text(store_.get(), number_, text.data(), text.size(), key, line, count, told);
        });
    }

    /* Sets the values under keys, in any order, whether they have one or not: pairs are cut into pieces, each sorted and put as a
     * whole, where what has no record makes a run; tells how many they are. The piece that is refused isn't put, and those before
     * it stay. A key that stands twice in a piece is refused, as TVK_NOT_RISING. */
    template <class Pairs> std::uint64_t put(Pairs &&pairs, std::size_t run = RUN) {
        return bring(std::begin(pairs), std::end(pairs), run, put_piece);
    }

    std::uint64_t put(std::initializer_list<Pair> pairs, std::size_t run = RUN) {
        return bring(pairs.begin(), pairs.end(), run, put_piece);
    }

    /* The same by the library's own sort, in pieces of RUN; `done` is told how many records were put before a piece that is
     * refused. What is wrong is told as by load_sorting, load_structs and load_text. */
    template <class Pairs> std::uint64_t put_sorting(Pairs &&pairs, std::uint64_t *done = nullptr) {
        std::vector<tvk_record> records = copied(std::begin(pairs), std::end(pairs));
        return load_all(records.size(), done, [&](tvk_key *key, std::uint64_t *, std::uint64_t *count, std::uint64_t *told) {
            return tvk_put_sorting(store_.get(), number_, records.data(), records.size(), key, count, told);
        });
    }

    template <class Struct>
    std::uint64_t put_structs(const Struct *structs, std::size_t number, const tvk_layout &layout, std::uint64_t *done = nullptr) {
        return load_all(number, done, [&](tvk_key *key, std::uint64_t *, std::uint64_t *count, std::uint64_t *told) {
            return tvk_put_structs(store_.get(), number_, structs, number, &layout, key, count, told);
        });
    }

    std::uint64_t put_text(std::string_view text, std::uint64_t *done = nullptr) {
        return load_all(lines_of(text), done, [&](tvk_key *key, std::uint64_t *line, std::uint64_t *count, std::uint64_t *told) {
            return tvk_put_text(store_.get(), number_, text.data(), text.size(), key, line, count, told);
        });
    }

    /* The records from `lo` to `hi`, both included, by rising key. They are read while they are walked through, and each time
     * the range from the next key to `hi` is locked. */
    Rows scan(std::string_view lo = {}, std::string_view hi = GREATEST) const { return Rows(store_, number_, lo, hi, false); }

    /* The same from `hi` down to `lo`. Each time the range from `lo` to the next key is locked. */
    Rows scan_back(std::string_view lo = {}, std::string_view hi = GREATEST) const { return Rows(store_, number_, lo, hi, true); }

    /* Locks a range, absent keys too. */
    void lock(tvk_mode mode, std::string_view lo = {}, std::string_view hi = GREATEST) {
        std::uint64_t told = 0;
        tvk_status status = tvk_lock(store_.get(), number_, mode, lo.data(), lo.size(), hi.data(), hi.size(), &told);
        check(status, told, detail::longer(lo, hi));
    }

private:
    friend class Store;

    Transaction(std::shared_ptr<tvk_store> store, std::uint64_t number) noexcept
        : store_(std::move(store)), number_(number), is_active_(true) {}

    void check(tvk_status status, std::uint64_t told = 0, std::string_view text = {}) const {
        if (status != TVK_OK) detail::refuse(status, told, text, detail::transaction_text(number_));
    }

    /* Whether there was a record, or none, as the call wants it. */
    bool is_done(tvk_status status, std::uint64_t told, std::string_view text) const {
        if (status == TVK_ABSENT || status == TVK_EXISTS) return false;
        check(status, told, text);
        return true;
    }

    bool read(std::string_view key, tvk_value &value) const {
        std::uint64_t told = 0;
        tvk_status status = tvk_get(store_.get(), number_, key.data(), key.size(), &value, &told);
        return is_done(status, told, key);
    }

    template <class Call> bool write(Call call, std::string_view key, std::string_view value) {
        std::uint64_t told = 0;
        tvk_status status = call(store_.get(), number_, key.data(), key.size(), value.data(), value.size(), &told);
        return is_done(status, told, status == TVK_BAD_VALUE ? value : key);
    }

    template <class Load> std::uint64_t load_all(std::size_t most, std::uint64_t *loaded, Load load) {
        tvk_key key;
        key.length = 0;
        std::uint64_t line = 0, count = 0, told = 0;
        if (loaded) *loaded = 0;
        if (most > (TVK_MAX_LOCKS - 1) * RUN) lock(TVK_EXCLUSIVE);
        tvk_status status = load(&key, &line, &count, &told);
        if (loaded) *loaded = count;
        if (line) throw BadLine(status, line);
        check(status, told, detail::view(key));
        return count;
    }

    static tvk_status put_piece(tvk_store *store, std::uint64_t tx, const tvk_record *records, std::size_t number, tvk_key *,
                                std::uint64_t *holder) {
        return tvk_put(store, tx, records, number, holder);
    }

    static std::size_t lines_of(std::string_view text) {
        return static_cast<std::size_t>(std::count(text.begin(), text.end(), '\n')) + 1;
    }

    template <class Iterator> static std::vector<tvk_record> copied(Iterator first, Iterator last) {
        std::vector<tvk_record> records;
        for (; first != last; ++first) copy(records, *first);
        return records;
    }

    template <class Pair> static void copy(std::vector<tvk_record> &records, const Pair &pair) {
        const auto &[key, value] = pair;
        tvk_record &record = records.emplace_back();
        detail::fill(record.key, key, TVK_BAD_KEY);
        detail::fill(record.value, value, TVK_BAD_VALUE);
    }

    /* Pairs in pieces, each brought in by a call. */
    template <class Iterator, class Call> std::uint64_t bring(Iterator first, Iterator last, std::size_t run, Call call) {
        std::vector<tvk_record> piece;
        std::uint64_t count = 0, runs = 0;
        if (run == 0) throw Error(TVK_BAD_LIMIT, "a run of no records");
        for (; first != last; ++first) {
            copy(piece, *first);
            if (piece.size() == run) count += bring_run(piece, runs++, call);
        }
        return piece.empty() ? count : count + bring_run(piece, runs, call);
    }

    template <class Call> std::uint64_t bring_run(std::vector<tvk_record> &piece, std::uint64_t before, Call call) {
        if (before == TVK_MAX_LOCKS - 1) lock(TVK_EXCLUSIVE);
        std::sort(piece.begin(), piece.end(), detail::is_below);
        tvk_key exists;
        exists.length = 0;
        std::uint64_t told = 0, count = piece.size();
        tvk_status status = call(store_.get(), number_, piece.data(), piece.size(), &exists, &told);
        if (status == TVK_NOT_RISING) throw Error(status, first_double(piece));
        check(status, told, detail::view(exists));
        piece.clear();
        return count;
    }

    static std::string first_double(const std::vector<tvk_record> &sorted) {
        auto is_same = [](auto &one, auto &other) { return !detail::is_below(one, other); };
        return std::string(detail::view(std::adjacent_find(sorted.begin(), sorted.end(), is_same)->key));
    }

    void end() noexcept {
        if (is_active()) tvk_abort(store_.get(), number_);
        is_active_ = false;
    }

    std::shared_ptr<tvk_store> store_;
    std::uint64_t number_;
    bool is_active_;
};

/* A store. It is open until it is closed or leaves its scope; its memory is given back then, whatever is open in it. */
class Store {
public:
    Store() : store_(std::make_shared<tvk_store>(TVK_CLOSED)) { detail::check(tvk_open(store_.get()), {}); }

    Store(Store &&) noexcept = default;

    Store &operator=(Store &&other) noexcept {
        if (this != &other) {
            tvk_close(store_.get());
            store_ = std::move(other.store_);
        }
        return *this;
    }

    Store(const Store &) = delete;
    Store &operator=(const Store &) = delete;

    ~Store() { tvk_close(store_.get()); }

    bool is_open() const noexcept { return store_ && store_->at; }

    void close() { detail::check(tvk_close(store_.get()), {}); }

    [[nodiscard]] Transaction transaction() {
        std::uint64_t number = 0;
        detail::check(tvk_begin(store_.get(), &number), {});
        return Transaction(store_, number);
    }

    /* One merge step: how many entries were worked off, 0 where the oldest range that was read is forgotten, since nothing is
     * left of it or its next key is locked, and nothing where no range is waiting. */
    std::optional<std::uint64_t> merge(std::uint64_t limit = TVK_MAX_LIMIT) {
        std::uint64_t told = 0;
        tvk_status status = tvk_merge(store_.get(), limit, &told);
        if (status == TVK_IDLE) return std::nullopt;
        if (status == TVK_DONE || status == TVK_ENDED) return 0;
        detail::check(status, std::to_string(limit));
        return told;
    }

    /* Does some of what is left to merge and to clean, and tells whether it did anything: another call may do more then. */
    bool tidy() {
        std::uint64_t told = 0;
        detail::check(tvk_tidy(store_.get(), &told), {});
        return told;
    }

    /* One clean step: takes away entries that are marked as deleted, and tells how many. */
    std::uint64_t clean(std::string_view lo = {}, std::string_view hi = GREATEST, std::uint64_t limit = TVK_MAX_LIMIT) {
        std::uint64_t told = 0;
        tvk_status status = tvk_clean(store_.get(), lo.data(), lo.size(), hi.data(), hi.size(), limit, &told);
        detail::check(status, status == TVK_BAD_LIMIT ? std::to_string(limit) : std::string(detail::longer(lo, hi)));
        return told;
    }

    std::uint64_t commits() const { return count(tvk_commits); }
    std::uint64_t entries() const { return count(tvk_entries); }

    /* How large the store is. */
    tvk_figures_t figures() const {
        tvk_figures_t figures{};
        detail::check(tvk_figures(store_.get(), &figures), {});
        return figures;
    }

    /* The handle, for the calls of tiuvrokk.h. It stays the store's. */
    tvk_store *handle() const noexcept { return store_.get(); }

private:
    template <class Call> std::uint64_t count(Call call) const {
        std::uint64_t told = 0;
        detail::check(call(store_.get(), &told), {});
        return told;
    }

    std::shared_ptr<tvk_store> store_;
};

}  // namespace tiuvrokk

#endif

#endif
