// `load`, `scan` and `get` over a store of others: LMDB, LevelDB or RocksDB, by which of USE_LMDB, USE_LEVELDB and USE_ROCKSDB it is built with. Script, key strings, text of rows
// and answers are those of the proved program, so the comparison is of the stores. Nothing waits for the disk. The table lies in the folder `store`, its schema beside it.
#include "rows.h"
#include <fstream>
#include <functional>
#include <memory>
#include <unistd.h>

using Each = std::function<void(const std::string&, const std::string&)>;

#if defined(USE_LMDB)
#include <lmdb.h>
#include <sys/stat.h>

// One transaction for all puts, committed at the end without a sync.
struct Store {
    MDB_env* env;
    MDB_txn* txn;
    MDB_dbi dbi;

    static void check(int code) {
        if (code != 0) stop(mdb_strerror(code));
    }
    explicit Store(bool writes) {
        if (writes) mkdir("store", 0755);
        check(mdb_env_create(&env));
        check(mdb_env_set_mapsize(env, size_t(4) << 30));
        check(mdb_env_open(env, "store", writes ? MDB_NOSYNC | MDB_NOLOCK : MDB_RDONLY | MDB_NOLOCK, 0644));
        check(mdb_txn_begin(env, nullptr, writes ? 0 : MDB_RDONLY, &txn));
        check(mdb_dbi_open(txn, nullptr, 0, &dbi));
    }
    static MDB_val lent(const std::string& bytes) { return {bytes.size(), const_cast<char*>(bytes.data())}; }
    static std::string text(const MDB_val& bytes) { return {static_cast<const char*>(bytes.mv_data), bytes.mv_size}; }
    void put(const std::string& key, const std::string& value) {
        MDB_val k = lent(key), v = lent(value);
        check(mdb_put(txn, dbi, &k, &v, 0));
    }
    void finish() { check(mdb_txn_commit(txn)); }
    bool get(const std::string& key, std::string& value) {
        MDB_val k = lent(key), v;
        int code = mdb_get(txn, dbi, &k, &v);
        if (code == MDB_NOTFOUND) return false;
        check(code);
        value = text(v);
        return true;
    }
    void scan(const Each& each) {
        MDB_cursor* cursor;
        MDB_val k, v;
        check(mdb_cursor_open(txn, dbi, &cursor));
        while (mdb_cursor_get(cursor, &k, &v, MDB_NEXT) == 0) each(text(k), text(v));
    }
};

#else
#if defined(USE_LEVELDB)
#include <leveldb/db.h>
#include <leveldb/write_batch.h>
namespace db = leveldb;
#else
#include <rocksdb/db.h>
#include <rocksdb/write_batch.h>
namespace db = rocksdb;
#endif

// Batches of a thousand puts. RocksDB keeps no log, as `load` keeps none; LevelDB can't be without one.
struct Store {
    std::unique_ptr<db::DB> held;
    db::WriteBatch batch;
    db::WriteOptions options;
    int waiting = 0;

    static void check(const db::Status& status) {
        if (!status.ok()) stop(status.ToString());
    }
    explicit Store(bool writes) {
        db::Options opening;
        db::DB* opened;
        opening.create_if_missing = writes;
#if defined(USE_ROCKSDB)
        options.disableWAL = true;
        check(writes ? db::DB::Open(opening, "store", &opened) : db::DB::OpenForReadOnly(opening, "store", &opened));
#else
        check(db::DB::Open(opening, "store", &opened));
#endif
        held.reset(opened);
    }
    void write() {
        check(held->Write(options, &batch));
        batch.Clear();
        waiting = 0;
    }
    void put(const std::string& key, const std::string& value) {
        batch.Put(key, value);
        if (++waiting == 1000) write();
    }
    void finish() {
        write();
#if defined(USE_ROCKSDB)
        check(held->Flush(db::FlushOptions()));
#endif
        held.reset();
    }
    bool get(const std::string& key, std::string& value) {
        db::Status status = held->Get(db::ReadOptions(), key, &value);
        if (status.IsNotFound()) return false;
        check(status);
        return true;
    }
    void scan(const Each& each) {
        std::unique_ptr<db::Iterator> at(held->NewIterator(db::ReadOptions()));
        for (at->SeekToFirst(); at->Valid(); at->Next()) each(at->key().ToString(), at->value().ToString());
        check(at->status());
    }
};
#endif

static void load(const std::string& text) {
    Schema schema = schema_of(text);
    std::ofstream("schema") << text;
    Store store(true);
    std::string line, key, value;
    size_t puts = 0;
    while (std::getline(std::cin, line)) {
        if (!read_put(schema, line, key, value)) stop("no put: " + line);
        store.put(key, value);
        puts++;
    }
    store.finish();
    std::cout << "ok puts " << puts << "\n";
}

static Schema opened() {
    std::string text;
    std::ifstream file("schema");
    std::getline(file, text);
    return schema_of(text);
}

static void write_out(std::string& text) {
    std::cout.write(text.data(), static_cast<std::streamsize>(text.size()));
    text.clear();
}

static void scan() {
    Schema schema = opened();
    Store store(false);
    std::string out;
    size_t rows = 0;
    store.scan([&](const std::string& key, const std::string& value) {
        print_row(schema, key, value, out);
        rows++;
        if (out.size() >= 65536) write_out(out);
    });
    out += "rows " + std::to_string(rows) + "\n";
    write_out(out);
}

static void get(const std::string& text) {
    Schema schema = opened();
    std::string key, value, out;
    put_key(schema, text, 0, key);
    Store store(false);
    if (store.get(key, value)) print_value(value, out);
    else out = "none\n";
    write_out(out);
}

int main(int count, char** words) {
    std::ios::sync_with_stdio(false);
    std::string command = count > 1 ? words[1] : "";
    if (command == "load" && count == 4) load(words[3]);
    else if (command == "scan" && count == 2) scan();
    else if (command == "get" && count == 3) get(words[2]);
    else stop("load --schema S, scan, or get K");
    return 0;
}
