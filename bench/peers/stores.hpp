// Stores that groups of blocks are committed to, and that all records are read from.
#pragma once

#include "harness.hpp"

#include <cstring>
#include <filesystem>
#include <memory>

#include <fcntl.h>
#include <sys/stat.h>

#include <leveldb/db.h>
#include <leveldb/write_batch.h>
#include <lmdb.h>
#include <rocksdb/db.h>
#include <rocksdb/options.h>
#include <rocksdb/write_batch.h>
#include <sqlite3.h>

namespace files = std::filesystem;

// The most bytes behind a frame's length: the number of blocks and the length of each, of 4 bytes, and the records.
inline const u64 MOST_PAYLOAD = 1048576;

// Blocks that are committed at once.
struct Group {
    u64 start = 0;  // position of the first record
    vector<u32> lengths;
    vector<u64> records;

    u64 payload() const { return 4 + 4 * lengths.size() + 8 * records.size(); }
    bool has_room_for(u64 length) const { return payload() + 4 + 8 * length <= MOST_PAYLOAD; }
};

inline void write_all(int file, const void* bytes, u64 length, u64 at) {
    for (u64 done = 0; done < length;) {
        ssize_t written = pwrite(file, static_cast<const u8*>(bytes) + done, length - done, off_t(at + done));
        need(written > 0, "write");
        done += u64(written);
    }
}

inline void sync_data(int file) { need(fdatasync(file) == 0, "fdatasync"); }

struct Store {
    u64 commits = 0;

    virtual ~Store() = default;
    // One batch, durable then or by finish().
    virtual void commit(const Group& group, bool sync) = 0;
    // Makes durable what was committed without a sync.
    virtual void finish() = 0;
    // Whether it groups the commits of several threads on its own, by put().
    virtual bool groups_threads() const { return false; }
    virtual void put(u64, const u64*, u64, u64) { fail("this store has no put"); }
};

// ---- a plain file, of the frames of docs/file/format.md

// With gates it follows cvec's protocol: the body, a sync, the gate's byte, a sync. Else each frame is one write and one sync.
struct FrameFile : Store {
    int file;
    bool has_gates;
    u64 gate = 11;
    vector<u8> frame;

    FrameFile(const string& path, bool has_gates, bool is_there) : has_gates(has_gates) {
        file = open(path.c_str(), is_there ? O_RDWR : O_RDWR | O_CREAT | O_TRUNC, 0644);
        need(file >= 0, "open");
        const u8 header[12] = {1, 'C', 'V', 'E', 'C', 'S', 'E', 'G', 1, 8, 0, 0};
        write_all(file, header, sizeof header, 0);
        sync_data(file);
    }
    void commit(const Group& group, bool sync) override {
        u32 payload = u32(group.payload()), blocks = u32(group.lengths.size());
        frame.resize(payload + 7);
        frame[0] = has_gates ? 0 : 1;
        frame[1] = 1;
        memcpy(&frame[2], &payload, 4);
        memcpy(&frame[6], &blocks, 4);
        memcpy(&frame[10], group.lengths.data(), 4 * blocks);
        memcpy(&frame[10] + 4 * blocks, group.records.data(), 8 * group.records.size());
        frame[payload + 6] = 0;
        if (has_gates) {
            write_all(file, &frame[1], payload + 6, gate + 1);
            sync_data(file);
            const u8 opened = 1;
            write_all(file, &opened, 1, gate);
            sync_data(file);
        } else {
            write_all(file, frame.data(), payload + 7, gate);
            if (sync) sync_data(file);
        }
        gate += payload + 6;
        commits++;
    }
    void finish() override { sync_data(file); }
};

inline void take(vector<u64>& records, const void* bytes, size_t length) {
    size_t before = records.size();
    records.resize(before + length / 8);
    memcpy(records.data() + before, bytes, length);
}

// Walks the frames of a file, which is read whole, or in pieces of one whole frame and the next gate.
struct FrameReader {
    int file;
    u64 length, room;
    std::unique_ptr<u8[]> bytes;
    u64 first = 0, end = 0;  // which of the file's bytes are there

    FrameReader(const string& path, bool in_pieces) {
        file = open(path.c_str(), O_RDONLY);
        struct stat status;
        need(file >= 0 && fstat(file, &status) == 0, "open");
        length = u64(status.st_size);
        room = in_pieces ? std::min(length, MOST_PAYLOAD + 7) : length;
        bytes.reset(new u8[room]);  // not filled with zeros
    }
    ~FrameReader() { close(file); }
    void load(u64 from) {
        first = end = from;
        while (end - first < room && end < length) {
            ssize_t got = pread(file, bytes.get() + (end - first), std::min(room - (end - first), length - end), off_t(end));
            need(got > 0, "read");
            end += u64(got);
        }
    }
    // The bytes from there to there.
    const u8* at(u64 from, u64 to) {
        if (to > end) load(from);
        need(to <= end, "a frame is cut");
        return &bytes[from - first];
    }
    void take_all(vector<u64>& records) {
        load(room == length ? 0 : 11);
        for (u64 gate = 11; *at(gate, gate + 1) == 1;) {
            u32 payload, blocks;
            const u8* head = at(gate, gate + 10);
            memcpy(&payload, head + 2, 4);
            need(head[1] == 1 && payload >= 4 && payload <= MOST_PAYLOAD, "a frame has a wrong head");
            const u8* lengths = at(gate, gate + 6 + payload) + 10;
            memcpy(&blocks, lengths - 4, 4);
            need(blocks > 0 && 4 + 4 * u64(blocks) <= payload, "a frame has a wrong layout");
            u64 sum = 0;
            for (u32 k = 0; k < blocks; k++) {
                u32 block;
                memcpy(&block, lengths + 4 * k, 4);
                need(block > 0, "a frame has a wrong layout");
                sum += block;
            }
            need(4 + 4 * u64(blocks) + 8 * sum == payload, "a frame has a wrong layout");
            take(records, lengths + 4 * blocks, 8 * sum);
            gate += 6 + payload;
        }
    }
};

// ---- SQLite: a row for each block, a write-ahead log

struct Sqlite : Store {
    sqlite3* database = nullptr;
    sqlite3_stmt *begin, *end, *insert;

    static sqlite3* opened(const string& path) {
        sqlite3* database = nullptr;
        need(sqlite3_open(path.c_str(), &database) == SQLITE_OK, "sqlite open");
        return database;
    }
    static sqlite3_stmt* prepared(sqlite3* database, const char* text) {
        sqlite3_stmt* statement = nullptr;
        need(sqlite3_prepare_v2(database, text, -1, &statement, nullptr) == SQLITE_OK, "sqlite prepare");
        return statement;
    }
    void run(const char* text) { need(sqlite3_exec(database, text, nullptr, nullptr, nullptr) == SQLITE_OK, text); }
    void step(sqlite3_stmt* statement) {
        need(sqlite3_step(statement) == SQLITE_DONE, "sqlite step");
        sqlite3_reset(statement);
    }
    Sqlite(const string& path, bool sync) : database(opened(path)) {
        run("PRAGMA journal_mode=WAL");
        run(sync ? "PRAGMA synchronous=FULL" : "PRAGMA synchronous=NORMAL");
        run("CREATE TABLE blocks(start INTEGER PRIMARY KEY, records BLOB NOT NULL)");
        begin = prepared(database, "BEGIN IMMEDIATE");
        end = prepared(database, "COMMIT");
        insert = prepared(database, "INSERT INTO blocks VALUES(?,?)");
    }
    void commit(const Group& group, bool) override {
        step(begin);
        u64 at = 0;
        for (u32 length : group.lengths) {
            sqlite3_bind_int64(insert, 1, sqlite3_int64(group.start + at));
            sqlite3_bind_blob(insert, 2, group.records.data() + at, int(length * 8), SQLITE_STATIC);
            step(insert);
            at += length;
        }
        step(end);
        commits++;
    }
    void finish() override { run("PRAGMA wal_checkpoint(FULL)"); }
    static void take_all(const string& path, vector<u64>& records) {
        sqlite3_stmt* rows = prepared(opened(path), "SELECT records FROM blocks ORDER BY start");
        int status;
        while ((status = sqlite3_step(rows)) == SQLITE_ROW) {
            const void* bytes = sqlite3_column_blob(rows, 0);
            take(records, bytes, size_t(sqlite3_column_bytes(rows, 0)));
        }
        need(status == SQLITE_DONE, "sqlite read");
    }
};

// ---- LMDB: an entry for each block, by integer keys in order

struct Lmdb : Store {
    MDB_env* environment;
    MDB_dbi database = 0;

    static void need_well(int status) { need(status == 0, mdb_strerror(status)); }
    static MDB_env* opened(const string& folder, unsigned flags) {
        MDB_env* environment = nullptr;
        need_well(mdb_env_create(&environment));
        need_well(mdb_env_set_mapsize(environment, size_t(1) << 30));
        need_well(mdb_env_open(environment, folder.c_str(), flags, 0644));
        return environment;
    }
    Lmdb(const string& folder, bool sync) {
        files::create_directory(folder);
        environment = opened(folder, sync ? 0 : MDB_NOSYNC);
        MDB_txn* transaction;
        need_well(mdb_txn_begin(environment, nullptr, 0, &transaction));
        need_well(mdb_dbi_open(transaction, nullptr, MDB_INTEGERKEY, &database));
        need_well(mdb_txn_commit(transaction));
    }
    void commit(const Group& group, bool) override {
        MDB_txn* transaction;
        need_well(mdb_txn_begin(environment, nullptr, 0, &transaction));
        u64 at = 0;
        for (u32 length : group.lengths) {
            size_t start = group.start + at;
            MDB_val key{sizeof start, &start}, value{size_t(length) * 8, const_cast<u64*>(group.records.data() + at)};
            need_well(mdb_put(transaction, database, &key, &value, MDB_APPEND));
            at += length;
        }
        need_well(mdb_txn_commit(transaction));
        commits++;
    }
    void finish() override { need_well(mdb_env_sync(environment, 1)); }
    static void take_all(const string& folder, vector<u64>& records) {
        MDB_txn* transaction;
        MDB_dbi database;
        MDB_cursor* cursor;
        need_well(mdb_txn_begin(opened(folder, MDB_RDONLY), nullptr, MDB_RDONLY, &transaction));
        need_well(mdb_dbi_open(transaction, nullptr, MDB_INTEGERKEY, &database));
        need_well(mdb_cursor_open(transaction, database, &cursor));
        MDB_val key, value;
        int status;
        while ((status = mdb_cursor_get(cursor, &key, &value, MDB_NEXT)) == 0) take(records, value.mv_data, value.mv_size);
        need(status == MDB_NOTFOUND, "lmdb read");
    }
};

// ---- RocksDB and LevelDB, which have the same calls: a value for each block, by keys in order

struct RocksCalls {
    using Database = rocksdb::DB;
    using Options = rocksdb::Options;
    using Batch = rocksdb::WriteBatch;
    using Slice = rocksdb::Slice;
    using WriteOptions = rocksdb::WriteOptions;
    using ReadOptions = rocksdb::ReadOptions;
    static void finish(Database* database) { need(database->SyncWAL().ok(), "rocksdb sync"); }
};
struct LevelCalls {
    using Database = leveldb::DB;
    using Options = leveldb::Options;
    using Batch = leveldb::WriteBatch;
    using Slice = leveldb::Slice;
    using WriteOptions = leveldb::WriteOptions;
    using ReadOptions = leveldb::ReadOptions;
    static void finish(Database*) { fail("leveldb has no call that syncs a log that it left behind"); }
};

template <class Calls>
struct KeyStore : Store {
    using Batch = typename Calls::Batch;
    typename Calls::Database* database;

    template <class Status>
    static void need_well(const Status& status) {
        if (!status.ok()) fail(status.ToString());
    }
    static typename Calls::Database* opened(const string& folder, bool create) {
        typename Calls::Options options;
        options.create_if_missing = create;
        typename Calls::Database* database = nullptr;
        need_well(Calls::Database::Open(options, folder, &database));
        return database;
    }
    explicit KeyStore(const string& folder) : database(opened(folder, true)) {}
    static void add(Batch& batch, u64 start, const u64* block, u64 length) {
        u64 key = __builtin_bswap64(start);  // keys are ordered byte by byte
        batch.Put(typename Calls::Slice(reinterpret_cast<const char*>(&key), 8),
                  typename Calls::Slice(reinterpret_cast<const char*>(block), length * 8));
    }
    void write(Batch& batch, bool sync) {
        typename Calls::WriteOptions options;
        options.sync = sync;
        need_well(database->Write(options, &batch));
    }
    void commit(const Group& group, bool sync) override {
        Batch batch;
        u64 at = 0;
        for (u32 length : group.lengths) {
            add(batch, group.start + at, group.records.data() + at, length);
            at += length;
        }
        write(batch, sync);
        commits++;
    }
    void finish() override { Calls::finish(database); }
    bool groups_threads() const override { return true; }
    void put(u64 start, const u64* block, u64 length, u64 blocks) override {
        Batch batch;
        for (u64 k = 0; k < blocks; k++) add(batch, start + k * length, block + k * length, length);
        write(batch, true);
    }
    static void take_all(const string& folder, vector<u64>& records) {
        auto* entry = opened(folder, false)->NewIterator(typename Calls::ReadOptions());
        for (entry->SeekToFirst(); entry->Valid(); entry->Next()) take(records, entry->value().data(), entry->value().size());
        need_well(entry->status());
    }
};

// ---- by name

// A file that was written full of zeros before, so that no sync has to note a new length.
inline string zeros_path() { return options.folder + "/zeros"; }

inline void make_zeros() {
    int file = open(zeros_path().c_str(), O_RDWR | O_CREAT | O_TRUNC, 0644);
    need(file >= 0, "open");
    vector<u8> zeros(1 << 20);
    for (u64 k = 0; k < 48; k++) write_all(file, zeros.data(), zeros.size(), k << 20);
    need(fsync(file) == 0, "fsync");
    close(file);
}

// Without sync the store is one whose commits are synced at the very end.
inline std::unique_ptr<Store> make_store(const string& peer, const string& folder, bool sync) {
    if (peer == "sqlite") return std::make_unique<Sqlite>(folder + "/sqlite", sync);
    if (peer == "lmdb") return std::make_unique<Lmdb>(folder + "/lmdb", sync);
    if (peer == "rocksdb") return std::make_unique<KeyStore<RocksCalls>>(folder + "/rocksdb");
    if (peer == "leveldb") return std::make_unique<KeyStore<LevelCalls>>(folder + "/leveldb");
    if (peer == "limit.append") return std::make_unique<FrameFile>(folder + "/frames", false, false);
    if (peer == "limit.gate.prealloc") return std::make_unique<FrameFile>(zeros_path(), true, true);
    return std::make_unique<FrameFile>(folder + "/frames", true, false);
}

// Reads all records of a store that a process left without closing it.
inline void take_all(const string& peer, const string& folder, vector<u64>& records, bool in_pieces) {
    if (peer == "sqlite") Sqlite::take_all(folder + "/sqlite", records);
    else if (peer == "lmdb") Lmdb::take_all(folder + "/lmdb", records);
    else if (peer == "rocksdb") KeyStore<RocksCalls>::take_all(folder + "/rocksdb", records);
    else if (peer == "leveldb") KeyStore<LevelCalls>::take_all(folder + "/leveldb", records);
    else FrameReader(peer == "limit.gate.prealloc" ? zeros_path() : folder + "/frames", in_pieces).take_all(records);
}
