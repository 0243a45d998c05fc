// durable, open, latency: what becomes durable on a disk, how it is opened, and what one commit takes.
#pragma once

#include "stores.hpp"

#include <condition_variable>
#include <deque>
#include <mutex>
#include <numeric>

inline void make_empty(const string& folder) {
    files::remove_all(folder);
    files::create_directories(folder);
}

// Waits for what earlier repetitions left to be written.
inline void settle_disk() {
    int folder = open(options.folder.c_str(), O_RDONLY | O_DIRECTORY);
    need(folder >= 0 && syncfs(folder) == 0, "syncfs");
    close(folder);
}

// ---- durable: threads append blocks, and wait until they are durable or don't

// Threads add blocks, and one more commits what is there, a frame's payload at most. Who waits does so by a condition variable,
// or with --poll by looking again and again.
struct Queue {
    std::mutex lock;
    std::condition_variable added, committed;
    std::deque<Group> groups;  // the last one takes further blocks
    u64 next = 0;              // position of the next record
    u64 blocks = 0;            // added so far
    bool is_asleep = false;    // who commits waits
    alignas(128) std::atomic<bool> has_groups{false};
    alignas(128) std::atomic<u64> settled{0};
    std::atomic<bool> is_closed{false};

    // Which block it is, from 1 on.
    u64 add(const u64* block, u64 length) {
        bool wakes;
        u64 number;
        {
            std::lock_guard guard(lock);
            if (groups.empty() || !groups.back().has_room_for(length)) {
                groups.emplace_back();
                groups.back().start = next;
            }
            Group& group = groups.back();
            group.lengths.push_back(u32(length));
            group.records.insert(group.records.end(), block, block + length);
            next += length;
            has_groups.store(true, std::memory_order_release);
            number = ++blocks;
            wakes = is_asleep;
            is_asleep = false;
        }
        if (wakes) added.notify_one();
        return number;
    }
    void close() {
        {
            std::lock_guard guard(lock);
            is_closed.store(true, std::memory_order_release);
        }
        added.notify_one();
    }
    // Commits until the queue is closed and empty.
    void serve(Store& store, bool sync) {
        u64 served = 0;
        for (;;) {
            if (options.poll)
                while (!has_groups.load(std::memory_order_acquire) && !is_closed.load(std::memory_order_acquire)) sched_yield();
            Group group;
            {
                std::unique_lock guard(lock);
                while (groups.empty() && !is_closed.load()) {
                    is_asleep = true;
                    added.wait(guard);
                }
                is_asleep = false;
                if (groups.empty()) return;
                group = std::move(groups.front());
                groups.pop_front();
                if (groups.empty()) has_groups.store(false, std::memory_order_release);
            }
            store.commit(group, sync);
            served += group.lengths.size();
            {
                std::lock_guard guard(lock);
                settled.store(served, std::memory_order_release);
            }
            if (!options.poll) committed.notify_all();
        }
    }
    // Waits until that block is durable.
    void await(u64 number) {
        if (options.poll) {
            while (settled.load(std::memory_order_acquire) < number) sched_yield();
            return;
        }
        std::unique_lock guard(lock);
        while (settled.load(std::memory_order_relaxed) < number) committed.wait(guard);
    }
};

// The value below which that part of the sorted values lies.
inline double part_of(const vector<double>& sorted, double part) {
    return sorted[std::min(sorted.size() - 1, size_t(part * double(sorted.size())))];
}

// wait1: a thread waits after each block; wait64: after each 64; flow: never, and each commit is synced; late: never, and one
// sync is made at the very end.
inline Figures durable(const string& peer, const string& mode, int threads, u64 block, u64 blocks, double seconds,
                       const string& folder) {
    const bool sync = mode != "late", waits = mode == "wait1" || mode == "wait64";
    const u64 batch = mode == "wait64" ? 64 : 1;
    auto store = make_store(peer, folder, sync);
    const u64 pooled = 131072;  // the places in a pool from which ready blocks are taken
    vector<u64> pool = mixed(0, pooled + block * batch);
    Queue queue;
    std::atomic<u64> position{0}, added{0};
    const bool is_direct = waits && store->groups_threads();
    std::thread committer;
    if (!is_direct) committer = std::thread([&] { queue.serve(*store, sync); });
    std::atomic<double> begin{0};
    vector<vector<double>> rounds(static_cast<size_t>(threads));
    double took = race(threads, [&](int thread) {
        double start = now(), nobody = 0, last = start;
        begin.compare_exchange_strong(nobody, start);
        u64 own = 0, place = u64(thread) * 4099;
        auto ready = [&] { return pool.data() + (place = (place + 7919) % pooled); };
        if (waits) {
            do {
                if (is_direct) {
                    store->put(position.fetch_add(block * batch), ready(), block, batch);
                } else {
                    u64 number = 0;
                    for (u64 k = 0; k < batch; k++) number = queue.add(ready(), block);
                    queue.await(number);
                }
                own += batch;
                double end = now();
                rounds[size_t(thread)].push_back(end - last);
                last = end;
            } while (last - start < seconds);
        } else {
            for (u64 k = 0; k < blocks / u64(threads); k++) queue.add(ready(), block), own++;
        }
        added += own;
    });
    if (!is_direct) {
        queue.close();
        committer.join();
    }
    if (!sync) store->finish();
    if (!waits) took = now() - begin.load();  // until the end of the last commit, or of the last sync
    Figure figure{"durable." + mode, threads, double(added.load() * block), took, {}};
    figure.more["cpu_seconds"] = processor_seconds() - processor_start;
    if (!is_direct) figure.more["commits"] = double(store->commits);
    if (waits) {
        vector<double> all;
        for (auto& own : rounds) all.insert(all.end(), own.begin(), own.end());
        std::sort(all.begin(), all.end());
        for (auto [name, part] : {std::pair{"p10_us", .1}, {"p50_us", .5}, {"p99_us", .99}})
            figure.more[name] = part_of(all, part) * 1e6;
    }
    store.release();  // not closed, as a process that is killed leaves it
    return {figure};
}

// Opens the store that a repetition left, in a process of its own, and counts its records.
inline bool has_all_records(const string& peer, const string& folder, double expected) {
    pid_t process = fork();
    if (process == 0) {
        vector<u64> records;
        take_all(peer, folder, records, false);
        _exit(double(records.size()) == expected ? 0 : 1);
    }
    int status = 0;
    waitpid(process, &status, 0);
    return WIFEXITED(status) && WEXITSTATUS(status) == 0;
}

inline void measure_durable(const string& mode, u64 block, int threads) {
    if (!wanted(options.blocks, block) || !wanted(options.threads, u64(threads)) || !wanted(options.modes, mode)) return;
    const u64 box_ms = options.quick ? 40 : 60;
    const u64 blocks = (block == 1 ? 200000 : block == 16 ? 100000 : 4096) / (options.quick ? 8 : 1);
    const string folder = options.folder + "/durable";
    vector<string> peers{"sqlite", "lmdb", "rocksdb", "leveldb", "limit.append", "limit.gate", "limit.gate.prealloc"};
    // One sync at the end makes nothing durable of a log that LevelDB left behind before, and isn't the gate's protocol.
    if (mode == "late") peers = {"sqlite", "lmdb", "rocksdb", "limit.append"};
    vector<Job> jobs;
    for (auto& peer : peers)
        jobs.push_back(job(peer, [=] { return durable(peer, mode, threads, block, blocks, double(box_ms) * 1e-3, folder); }));
    if (mode != "late")
        add_programs(jobs, {"durable", "mode=" + mode, word("threads", u64(threads)), word("block", block), word("n", blocks),
                            word("box_ms", box_ms), "dir=" + folder});
    for (auto& job : jobs) {
        const bool is_verified = options.verify && job.words.empty();
        job.before = [=] { make_empty(folder); };
        job.after = [=, peer = job.peer](Figures& figures) {
            if (is_verified && !figures.empty()) figures[0].more["verified"] = has_all_records(peer, folder, figures[0].records);
            files::remove_all(folder);
            settle_disk();
        };
    }
    measure(block, jobs, mode == "wait1" || mode == "wait64" ? 2 : 1);
}

inline void work_durable() {
    make_zeros();
    for (u64 block : {1, 16, 1024}) {
        for (int threads : {1, 2, 4}) measure_durable("wait1", block, threads);
        measure_durable("wait64", block, 4);
        for (int threads : {1, 2, 4}) measure_durable("flow", block, threads);
        measure_durable("late", block, 4);
    }
    files::remove(zeros_path());
}

// ---- open: a store of 100 MiB is opened by a new process, until all records are in memory in order

template <class Call>
void for_each_file(const string& folder, Call call) {
    for (auto& entry : files::recursive_directory_iterator(folder)) {
        if (!entry.is_regular_file()) continue;
        int file = open(entry.path().c_str(), O_RDONLY);
        need(file >= 0, "open");
        call(file);
        close(file);
    }
}

// Drops the folder's files from this machine's cache. The cache of a virtual machine's host can't be dropped from here.
inline void evict(const string& folder) {
    for_each_file(folder, [](int file) {
        fdatasync(file);
        posix_fadvise(file, 0, 0, POSIX_FADV_DONTNEED);
    });
}

inline void read_before(const string& folder) {
    vector<char> piece(1 << 20);
    for_each_file(folder, [&](int file) {
        while (read(file, piece.data(), piece.size()) > 0) {}
    });
}

// limit.frames and limit.frames.pieces read the file of limit.gate.
inline string store_of(const string& peer) { return peer.rfind("limit.frames", 0) == 0 ? "limit.gate" : peer; }

inline void build_plain(const string& path, u64 n) {
    vector<u64> records = mixed(0, n);
    int file = open(path.c_str(), O_RDWR | O_CREAT | O_TRUNC, 0644);
    need(file >= 0, "open");
    write_all(file, records.data(), n * 8, 0);
    need(fsync(file) == 0, "fsync");
}

// Makes a store of n records in synced groups, and leaves it without closing it.
inline Figures build(const string& peer, const string& folder, u64 n, u64 block) {
    if (peer == "limit.read") {
        build_plain(folder + "/plain", n);
        return {};
    }
    auto store = make_store(store_of(peer), folder, true);
    Group group;
    for (u64 at = 0; at < n; at += block) {
        if (!group.has_room_for(block)) {
            store->commit(group, true);
            group = Group();
            group.start = at;
        }
        group.lengths.push_back(u32(block));
        for (u64 k = 0; k < block; k++) group.records.push_back(mix(at + k));
    }
    store->commit(group, true);
    store.release();
    return {};
}

inline std::unique_ptr<u64[]> read_plain(const string& path, u64 n) {
    std::unique_ptr<u64[]> records(new u64[n]);  // not filled with zeros
    int file = open(path.c_str(), O_RDONLY);
    need(file >= 0, "open");
    for (u64 done = 0; done < n * 8;) {
        ssize_t got = read(file, reinterpret_cast<u8*>(records.get()) + done, n * 8 - done);
        need(got > 0, "read");
        done += u64(got);
    }
    return records;
}

inline Figures open_store(const string& peer, const string& folder, u64 n, const char* work) {
    double start = now();
    vector<u64> taken;
    std::unique_ptr<u64[]> plain;
    if (peer == "limit.read") {
        plain = read_plain(folder + "/plain", n);
    } else {
        taken.reserve(n);
        take_all(store_of(peer), folder, taken, peer == "limit.frames.pieces");
    }
    double seconds = now() - start;
    need(plain || taken.size() == n, "open: wrong number of records");
    const u64* records = plain ? plain.get() : taken.data();
    u64 difference = 0;
    for (u64 at = 0; at < n; at++) difference += records[at] - mix(at);
    need(difference == 0, "open: wrong content");
    return {{work, 1, double(n), seconds, {{"mb_per_s", double(n) * 8e-6 / seconds}}}};
}

// LMDB and the limits are opened where they stand. Opening any other store changes it, so each repetition gets a copy.
inline bool is_opened_in_place(const string& peer) { return peer == "lmdb" || peer.rfind("limit", 0) == 0; }

inline void measure_open(bool is_cold, u64 block, u64 n, const vector<string>& peers, const vector<Program>& programs,
                         const string& stores) {
    const char* work = is_cold ? "open.cold" : "open.warm";
    const string copy = options.folder + "/copy";
    vector<Job> jobs;
    for (auto& peer : peers) {
        string folder = is_opened_in_place(peer) ? stores + "/" + peer : copy;
        jobs.push_back(job(peer, [=] { return open_store(peer, folder, n, work); }));
    }
    for (auto& program : programs) {
        vector<string> words{program.path, "open-read", "dir=" + copy, word("n", n), word("block", block)};
        words.push_back(string("work=") + work);
        jobs.push_back({program.name, {}, words, {}, {}});
    }
    for (auto& job : jobs) {
        const bool is_copied = !job.words.empty() || !is_opened_in_place(job.peer);
        const string original = stores + "/" + job.peer;
        job.before = [=] {
            if (is_copied) {
                make_empty(copy);
                files::copy(original, copy, files::copy_options::recursive);
                settle_disk();
            }
            if (is_cold) evict(is_copied ? copy : original);
            else read_before(is_copied ? copy : original);
        };
        job.after = [=](Figures&) {
            if (is_copied) files::remove_all(copy), settle_disk();
        };
    }
    measure(block, jobs);
}

inline void work_open() {
    const u64 n = options.quick ? 1310720 : 13107200;
    const string stores = options.folder + "/stores";
    for (u64 block : {16, 1024}) {
        if (!wanted(options.blocks, block)) continue;
        vector<string> peers;
        vector<Program> programs;
        make_empty(stores);
        for (string peer : {"sqlite", "lmdb", "rocksdb", "leveldb", "limit.frames", "limit.frames.pieces", "limit.read"}) {
            if (!wanted(options.peers, peer)) continue;
            string folder = stores + "/" + peer;
            files::create_directories(folder);
            if (repeat(job(peer, [=] { return build(peer, folder, n, block); })).second) peers.push_back(peer);
            else printf("{\"peer\":\"%s\",\"failed\":1,\"block\":%lu}\n", peer.c_str(), block);
        }
        for (auto& program : options.programs) {
            if (!wanted(options.peers, program.name)) continue;
            string folder = stores + "/" + program.name;
            files::create_directories(folder);
            vector<string> words{program.path, "open-build", "dir=" + folder, word("n", n), word("block", block)};
            bool is_built = repeat({program.name, {}, words, {}, {}}).second;
            if (is_built && !files::is_empty(folder)) programs.push_back(program);
        }
        settle_disk();
        measure_open(false, block, n, peers, programs, stores);
        measure_open(true, block, n, peers, programs, stores);
        files::remove_all(stores);
        settle_disk();
    }
}

// ---- latency: one thread, one commit after another

struct CommitKind {
    const char* name;
    u64 size;
    bool has_gate;      // a sync, and then a byte and a sync of its own
    bool goes_ahead;    // to the next place, or stays at the first one
    bool is_in_zeros;   // into written space
    bool is_direct;     // past the cache
};

inline Figures commit_alone(const CommitKind& kind, int commits) {
    string path = kind.is_in_zeros ? zeros_path() : options.folder + "/latency";
    const int flags = O_RDWR | (kind.is_in_zeros ? 0 : O_CREAT | O_TRUNC) | (kind.is_direct ? O_DIRECT : 0);
    int file = open(path.c_str(), flags, 0644);
    need(file >= 0, "open");
    void* bytes = nullptr;
    need(posix_memalign(&bytes, 4096, std::max<u64>(kind.size, 4096)) == 0, "memory");
    memset(bytes, 7, kind.size);
    vector<double> times;
    u64 place = 0;
    for (int k = 0; k < commits; k++) {
        double start = now();
        write_all(file, bytes, kind.size, place);
        sync_data(file);
        if (kind.has_gate) {
            const u8 opened = 1;
            write_all(file, &opened, 1, place);
            sync_data(file);
        }
        times.push_back(now() - start);
        if (kind.goes_ahead) place += kind.size;
        if (kind.is_in_zeros && place + kind.size > 48u << 20) place = 0;
    }
    close(file);
    double total = std::accumulate(times.begin(), times.end(), 0.0);
    std::sort(times.begin(), times.end());
    Figure figure{string("latency.") + kind.name, 1, double(commits), total, {{"max_us", times.back() * 1e6}}};
    for (auto [name, part] : {std::pair{"p50_us", .5}, {"p90_us", .9}, {"p99_us", .99}})
        figure.more[name] = part_of(times, part) * 1e6;
    return {figure};
}

inline void work_latency() {
    make_zeros();
    const int small = options.quick ? 100 : 400, large = options.quick ? 16 : 40;
    const u64 kib = 1024, mib = 1024 * kib;
    for (CommitKind kind : vector<CommitKind>{{"overwrite-1b", 1, false, false, true, false},
                                              {"append-4k", 4 * kib, false, true, false, false},
                                              {"gate-4k", 4 * kib, true, true, false, false},
                                              {"gate-prealloc-4k", 4 * kib, true, true, true, false},
                                              {"append-64k", 64 * kib, false, true, false, false},
                                              {"gate-64k", 64 * kib, true, true, false, false},
                                              {"gate-prealloc-64k", 64 * kib, true, true, true, false},
                                              {"append-1m", mib, false, true, false, false},
                                              {"gate-1m", mib, true, true, false, false},
                                              {"gate-prealloc-1m", mib, true, true, true, false},
                                              {"direct-1m", mib, false, true, true, true}}) {
        const int commits = kind.size >= mib ? large : kind.size >= 64 * kib ? small / 2 : small;
        Job one = job("disk", [=] { return commit_alone(kind, commits); });
        one.after = [](Figures&) {
            files::remove(options.folder + "/latency");
            settle_disk();
        };
        measure(kind.size, {one});
    }
    files::remove(zeros_path());
}
