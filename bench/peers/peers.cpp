// The peers of cvec: containers in memory, stores and plain programs, which do the same works on the same sizes. Each
// figure is printed as a line of JSON. bench/run-peers builds and runs it.
#include "basics.hpp"
#include "containers.hpp"
#include "durable.hpp"
#include "harness.hpp"
#include "search.hpp"
#include "stores.hpp"

#include <sys/vfs.h>

static const char* const USAGE =
    "usage: peers [WORD ..]\n"
    "--work=LIST            of latency,grow,append,beside,read,search,memory,durable,open\n"
    "--peers=LIST           only these\n"
    "--blocks=LIST          only blocks of so many records: of grow, append, read, memory, durable and open\n"
    "--threads=LIST         only so many threads: of grow, append and durable\n"
    "--modes=LIST           of wait1,wait64,flow,late: of durable\n"
    "--ext=NAME:PROGRAM     a program that does the works as one more peer\n"
    "--dir=FOLDER           for stores, on a disk\n"
    "--reps=N               repetitions of each figure, 3 without it\n"
    "--quick                less work\n"
    "--patience=SECONDS     to be spent on waiting for moments in which nothing else runs\n"
    "--no-rt                ordinary scheduling\n"
    "--poll                 threads wait for a commit by looking again and again\n"
    "--verify               each store is opened after durable, and its records are counted\n"
    "--versions             of the libraries, and nothing is run\n";

static void print_versions() {
    printf("oneTBB %s\n", TBB_runtime_version());
    printf("%s\n", mdb_version(nullptr, nullptr, nullptr));
    printf("SQLite %s\n", sqlite3_libversion());
    printf("RocksDB %d.%d.%d\n", ROCKSDB_MAJOR, ROCKSDB_MINOR, ROCKSDB_PATCH);
    printf("LevelDB %d.%d\n", leveldb::kMajorVersion, leveldb::kMinorVersion);
    printf("compiler g++ %s\n", __VERSION__);
}

static bool read_word(const string& text) {
    size_t equals = text.find('=');
    string name = text.substr(0, equals), value = equals == string::npos ? "" : text.substr(equals + 1);
    size_t colon = value.find(':');
    if (name == "--work") options.works = value;
    else if (name == "--peers") options.peers = value;
    else if (name == "--blocks") options.blocks = value;
    else if (name == "--threads") options.threads = value;
    else if (name == "--modes") options.modes = value;
    else if (name == "--ext" && colon != string::npos)
        options.programs.push_back({value.substr(0, colon), value.substr(colon + 1)});
    else if (name == "--dir") options.folder = value;
    else if (name == "--reps") options.repetitions = std::max(1, atoi(value.c_str()));
    else if (name == "--patience") options.patience = atof(value.c_str());
    else if (text == "--quick") options.quick = true;
    else if (text == "--no-rt") options.real_time = false;
    else if (text == "--poll") options.poll = true;
    else if (text == "--verify") options.verify = true;
    else return false;
    return true;
}

// Syncs of a file in memory cost nothing, so figures of it would say nothing.
static void need_disk() {
    struct statfs system;
    need(statfs(options.folder.c_str(), &system) == 0, "statfs");
    const u64 TMPFS = 0x01021994, RAMFS = 0x858458f6;
    u64 type = u64(system.f_type) & 0xffffffff;
    need(type != TMPFS && type != RAMFS, "the folder for stores is in memory: --dir=FOLDER names one on a disk");
}

int main(int count, char** words) {
    for (int k = 1; k < count; k++) {
        if (string(words[k]) == "--versions") {
            print_versions();
            return 0;
        }
        if (!read_word(words[k])) {
            fputs(USAGE, stderr);
            return 2;
        }
    }
    files::create_directories(options.folder);
    struct Work {
        const char* name;
        void (*run)();
        bool takes_disk;
    };
    for (Work work : {Work{"latency", work_latency, true}, Work{"grow", work_grow, false}, Work{"append", work_append, false},
                      Work{"beside", work_beside, false}, Work{"read", work_read, false}, Work{"search", work_search, false},
                      Work{"memory", work_memory, false}, Work{"durable", work_durable, true}, Work{"open", work_open, true}}) {
        if (!lists(options.works, work.name)) continue;
        if (work.takes_disk) need_disk();
        double start = now();
        work.run();
        fprintf(stderr, "peers: %s took %.1f s\n", work.name, now() - start);
    }
}
