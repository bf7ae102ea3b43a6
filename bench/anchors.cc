// One piece of work on a store that a user might pick instead of silt: N puts of 20-byte keys with V-byte values, a sync
// behind each group of G puts, all background work to its end; then gets of present and of absent keys on one thread and on four, and a
// reopening. It prints one line of numbers, separated by tabs, behind one of their names.
//
// build: g++ -O2 -std=c++17 anchors.cc -o anchors -lrocksdb -lleveldb -llmdb -lpthread
// run:   ./anchors STORE FOLDER N V G GETS [THREADS]      STORE is rocksdb, leveldb or lmdb; FOLDER/STORE is made, and taken away at the end;
//        THREADS threads put, each its share of the keys with groups of its own (one, if left out; lmdb has one)
#include <leveldb/db.h>
#include <leveldb/filter_policy.h>
#include <lmdb.h>
#include <rocksdb/db.h>
#include <rocksdb/filter_policy.h>
#include <rocksdb/table.h>
#include <sys/stat.h>
#include <unistd.h>

#include <algorithm>
#include <chrono>
#include <cstdint>
#include <cstdio>
#include <cstdlib>
#include <cstring>
#include <filesystem>
#include <memory>
#include <string>
#include <thread>
#include <vector>

using Clock = std::chrono::steady_clock;

static double seconds_since(Clock::time_point start) {
    return std::chrono::duration<double>(Clock::now() - start).count();
}

static void need(bool done, const char *what) {
    if (!done) {
        fprintf(stderr, "anchors: %s failed\n", what);
        exit(1);
    }
}

// The keys are spread as digests are, and each is made of its number.
static uint64_t mix(uint64_t x) {
    x += 0x9e3779b97f4a7c15ull;
    x = (x ^ (x >> 30)) * 0xbf58476d1ce4e5b9ull;
    x = (x ^ (x >> 27)) * 0x94d049bb133111ebull;
    return x ^ (x >> 31);
}

static void key_of(uint64_t number, char *key) {
    uint64_t a = mix(number), b = mix(number ^ 0xabcdef), c = mix(number + 0x5555);
    memcpy(key, &a, 8);
    memcpy(key + 8, &b, 8);
    memcpy(key + 16, &c, 4);
}

static const uint64_t ABSENT = 1ull << 40;

static char byte_of(uint64_t number) { return static_cast<char>(number % 251); }

// A number of kibibytes that the system reports for this process: VmRSS is resident, VmHWM the most that was.
static long kib_of(const char *name) {
    FILE *file = fopen("/proc/self/status", "r");
    char line[256];
    long kib = 0;
    while (file && fgets(line, sizeof line, file))
        if (strncmp(line, name, strlen(name)) == 0) kib = atol(line + strlen(name));
    if (file) fclose(file);
    return kib;
}

struct Store {
    virtual ~Store() {}
    virtual void open(const std::string &folder) = 0;
    virtual void put(const char *key, const std::string &value, bool sync) = 0;
    virtual bool get(const char *key, std::string *value) = 0;
    virtual void finish() {}  // all work in the background, to its end
    virtual void close() = 0;
};

struct Rocks : Store {
    std::unique_ptr<rocksdb::DB> db;
    void open(const std::string &folder) override {
        rocksdb::Options options;
        options.create_if_missing = true;
        options.compression = rocksdb::kNoCompression;
        rocksdb::BlockBasedTableOptions table;
        table.filter_policy.reset(rocksdb::NewBloomFilterPolicy(10));
        options.table_factory.reset(rocksdb::NewBlockBasedTableFactory(table));
        rocksdb::DB *opened = nullptr;
        need(rocksdb::DB::Open(options, folder, &opened).ok(), "open");
        db.reset(opened);
    }
    void put(const char *key, const std::string &value, bool sync) override {
        rocksdb::WriteOptions options;
        options.sync = sync;
        need(db->Put(options, rocksdb::Slice(key, 20), value).ok(), "put");
    }
    bool get(const char *key, std::string *value) override { return db->Get(rocksdb::ReadOptions(), rocksdb::Slice(key, 20), value).ok(); }
    void finish() override { need(db->CompactRange(rocksdb::CompactRangeOptions(), nullptr, nullptr).ok(), "compaction"); }
    void close() override { db.reset(); }
};

struct Level : Store {
    std::unique_ptr<const leveldb::FilterPolicy> filter{leveldb::NewBloomFilterPolicy(10)};
    std::unique_ptr<leveldb::DB> db;
    void open(const std::string &folder) override {
        leveldb::Options options;
        options.create_if_missing = true;
        options.compression = leveldb::kNoCompression;
        options.filter_policy = filter.get();
        leveldb::DB *opened = nullptr;
        need(leveldb::DB::Open(options, folder, &opened).ok(), "open");
        db.reset(opened);
    }
    void put(const char *key, const std::string &value, bool sync) override {
        leveldb::WriteOptions options;
        options.sync = sync;
        need(db->Put(options, leveldb::Slice(key, 20), value).ok(), "put");
    }
    bool get(const char *key, std::string *value) override { return db->Get(leveldb::ReadOptions(), leveldb::Slice(key, 20), value).ok(); }
    void finish() override { db->CompactRange(nullptr, nullptr); }
    void close() override { db.reset(); }
};

// A group of puts is one transaction, which is synced as it is committed.
struct Lmdb : Store {
    MDB_env *env = nullptr;
    MDB_dbi dbi = 0;
    MDB_txn *writing = nullptr;
    static void ok(int code) { need(code == 0, mdb_strerror(code)); }
    void open(const std::string &folder) override {
        std::filesystem::create_directories(folder);
        ok(mdb_env_create(&env));
        ok(mdb_env_set_mapsize(env, 32ull << 30));
        ok(mdb_env_open(env, folder.c_str(), 0, 0644));
        MDB_txn *txn = nullptr;
        ok(mdb_txn_begin(env, nullptr, 0, &txn));
        ok(mdb_dbi_open(txn, nullptr, 0, &dbi));
        ok(mdb_txn_commit(txn));
    }
    void put(const char *key, const std::string &value, bool sync) override {
        if (!writing) ok(mdb_txn_begin(env, nullptr, 0, &writing));
        MDB_val k{20, const_cast<char *>(key)}, v{value.size(), const_cast<char *>(value.data())};
        ok(mdb_put(writing, dbi, &k, &v, 0));
        if (sync) finish();
    }
    bool get(const char *key, std::string *value) override {
        MDB_txn *txn = nullptr;
        ok(mdb_txn_begin(env, nullptr, MDB_RDONLY, &txn));
        MDB_val k{20, const_cast<char *>(key)}, v;
        int code = mdb_get(txn, dbi, &k, &v);
        if (code == 0) value->assign(static_cast<char *>(v.mv_data), v.mv_size);
        mdb_txn_abort(txn);
        return code == 0;
    }
    void finish() override {
        if (writing) ok(mdb_txn_commit(writing));
        writing = nullptr;
    }
    void close() override {
        finish();
        mdb_env_close(env);
        env = nullptr;
    }
};

static std::unique_ptr<Store> store_named(const std::string &name) {
    if (name == "rocksdb") return std::make_unique<Rocks>();
    if (name == "leveldb") return std::make_unique<Level>();
    if (name == "lmdb") return std::make_unique<Lmdb>();
    return nullptr;
}

// So many gets of one thread, of keys from this number on.
static void get_all(Store &store, uint64_t keys, uint64_t count, int thread, uint64_t first, bool present) {
    char key[20];
    std::string value;
    for (uint64_t turn = 0; turn < count; turn++) {
        uint64_t number = mix(turn * 64 + thread) % keys;
        key_of(first + number, key);
        bool found = store.get(key, &value);
        need(found == present && (!found || value[0] == byte_of(number)), "a get");
    }
}

// How many gets a second so many threads make.
static double gets_a_second(Store &store, uint64_t keys, uint64_t count, int threads, uint64_t first, bool present) {
    auto start = Clock::now();
    std::vector<std::thread> all;
    for (int thread = 0; thread < threads; thread++)
        all.emplace_back([&, thread] { get_all(store, keys, count / threads, thread, first, present); });
    for (auto &thread : all) thread.join();
    return count / seconds_since(start);
}

static uint64_t bytes_in(const std::string &folder) {
    uint64_t bytes = 0;
    for (auto &entry : std::filesystem::recursive_directory_iterator(folder)) {
        struct stat status;
        if (entry.is_regular_file() && stat(entry.path().c_str(), &status) == 0) bytes += status.st_blocks * 512ull;
    }
    return bytes;
}

static double microseconds_at(std::vector<float> &times, double part) {
    if (times.empty()) return 0;
    auto at = times.begin() + static_cast<size_t>(part * (times.size() - 1));
    std::nth_element(times.begin(), at, times.end());
    return *at;
}

// Puts each `threads`-th key from this number on, with a sync behind each group. It notes how many microseconds each put took that synced nothing.
static void put_share(Store &store, uint64_t first, uint64_t threads, uint64_t keys, uint64_t length, uint64_t group, std::vector<float> &puts) {
    char key[20];
    uint64_t done = 0;
    auto last = Clock::now();
    for (uint64_t number = first; number < keys; number += threads) {
        bool sync = ++done % group == 0 || number + threads >= keys;
        key_of(number, key);
        store.put(key, std::string(length, byte_of(number)), sync);
        auto now = Clock::now();
        if (!sync) puts.push_back(std::chrono::duration<float, std::micro>(now - last).count());
        last = now;
    }
}

// Puts all keys by so many threads. Returns how many microseconds each put took that synced nothing.
static std::vector<float> put_all(Store &store, uint64_t keys, uint64_t length, uint64_t group, uint64_t threads) {
    std::vector<std::vector<float>> puts(threads);
    std::vector<std::thread> all;
    for (uint64_t thread = 0; thread < threads; thread++)
        all.emplace_back([&, thread] { put_share(store, thread, threads, keys, length, group, puts[thread]); });
    for (auto &thread : all) thread.join();
    std::vector<float> together;
    for (auto &some : puts) {
        together.insert(together.end(), some.begin(), some.end());
        std::vector<float>().swap(some);
    }
    return together;
}

int main(int count, char **words) {
    if (count != 7 && count != 8) return 2;
    std::string name = words[1], folder = std::string(words[2]) + "/" + name;
    uint64_t keys = atoll(words[3]), length = atoll(words[4]), group = atoll(words[5]), gets = atoll(words[6]);
    uint64_t threads = count == 8 ? atoll(words[7]) : 1;
    auto store = store_named(name);
    if (!store || keys == 0 || group == 0 || threads == 0 || (name == "lmdb" && threads != 1)) return 2;
    std::filesystem::remove_all(folder);
    store->open(folder);
    auto start = Clock::now();
    std::vector<float> puts = put_all(*store, keys, length, group, threads);
    store->finish();
    double put_rate = keys / seconds_since(start);
    double late = microseconds_at(puts, 0.999), longest = microseconds_at(puts, 1);
    std::vector<float>().swap(puts);
    double one = gets_a_second(*store, keys, gets, 1, 0, true), four = gets_a_second(*store, keys, gets, 4, 0, true);
    double none = gets_a_second(*store, keys, gets, 1, ABSENT, false), none_by_four = gets_a_second(*store, keys, gets, 4, ABSENT, false);
    long resident = kib_of("VmRSS:"), most = kib_of("VmHWM:");
    store->close();
    uint64_t bytes = bytes_in(folder);
    start = Clock::now();
    store->open(folder);
    double opened = seconds_since(start) * 1000;
    store->close();
    std::filesystem::remove_all(folder);
    printf("keys\tvalue bytes\tputs/s\tgets/s 1 thread\tgets/s 4 threads\tabsent/s 1 thread\tabsent/s 4 threads\topen ms\trss KiB\tpeak KiB\tbytes on disk a key\tput p99.9 us\tput longest us\n");
    printf("%lu\t%lu\t%.0f\t%.0f\t%.0f\t%.0f\t%.0f\t%.3f\t%ld\t%ld\t%.1f\t%.0f\t%.0f\n", keys, length, put_rate, one, four, none, none_by_four, opened, resident, most,
           double(bytes) / keys, late, longest);
}
