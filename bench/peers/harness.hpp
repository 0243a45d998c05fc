// How a figure comes about: each repetition in a process of its own, interleaved over the peers of a setting.
#pragma once

#include "basics.hpp"

#include <cmath>
#include <cstring>
#include <functional>
#include <map>
#include <sstream>
#include <utility>

#include <sys/wait.h>

// ---- what is asked for

// A program that does the works as one more peer: it is started for each repetition, and times itself.
struct Program {
    string name, path;
};

struct Options {
    string works = "latency,grow,append,beside,read,search,memory,durable,open";
    string peers, blocks, threads, modes;  // only these; all where nothing is listed
    vector<Program> programs;
    string folder = ".";
    int repetitions = 3;
    double patience = 0;  // seconds that may still be spent on waiting for a quiet moment
    bool quick = false, verify = false, poll = false, real_time = true;
};
inline Options options;

inline bool lists(const string& list, const string& word) { return ("," + list + ",").find("," + word + ",") != string::npos; }
inline bool wanted(const string& list, const string& word) { return list.empty() || lists(list, word); }
inline bool wanted(const string& list, u64 number) { return wanted(list, std::to_string(number)); }

// ---- figures

struct Figure {
    string work;
    int threads = 1;
    double records = 0, seconds = 0;
    std::map<string, double> more;
    string way = {}; // of a peer that does the work in several

    double rate() const { return records / seconds; }
};
using Figures = vector<Figure>;

inline string number_text(double number) {
    char text[64];
    if (number == double(int64_t(number)) && std::abs(number) < 9e15)
        snprintf(text, sizeof text, "%lld", (long long)number);
    else
        snprintf(text, sizeof text, "%.6g", number);
    return text;
}

inline string json_of(const Figure& figure) {
    char seconds[64];
    snprintf(seconds, sizeof seconds, "%.9f", figure.seconds);
    string json = "{\"work\":\"" + figure.work + "\",\"threads\":" + number_text(figure.threads);
    json += ",\"n\":" + number_text(figure.records) + ",\"seconds\":" + seconds;
    for (auto& [name, number] : figure.more) json += ",\"" + name + "\":" + number_text(number);
    return json + "}";
}

// Reads a flat object of numbers, and of strings without escapes. Of the strings only the work and its way are taken.
inline bool read_json(const string& json, Figure& figure) {
    bool has_work = false;
    for (size_t place = 0; place < json.size();) {
        size_t open = json.find('"', place);
        if (open == string::npos) break;
        size_t close = json.find('"', open + 1);
        size_t value = close == string::npos ? close : json.find(':', close);
        if (value == string::npos) break;
        string name = json.substr(open + 1, close - open - 1);
        do value++;
        while (value < json.size() && json[value] == ' ');
        if (value < json.size() && json[value] == '"') {
            size_t end = json.find('"', value + 1);
            if (end == string::npos) break;
            string text = json.substr(value + 1, end - value - 1);
            if (name == "work") figure.work = text, has_work = true;
            if (name == "way") figure.way = text;
            place = end + 1;
        } else {
            double number = strtod(json.c_str() + value, nullptr);
            if (name == "threads") figure.threads = int(number);
            else if (name == "n") figure.records = number;
            else if (name == "seconds") figure.seconds = number;
            else if (name != "per_second" && name != "block") figure.more[name] = number;
            place = json.find(',', value);
        }
    }
    return has_work && figure.seconds > 0;
}

// ---- what else runs on this machine

struct Others {
    double runnable = 0;  // the mean number of other threads that run or wait for a processor
    double requests = 0;  // of the disks
};

inline u64 disk_requests() {
    FILE* file = fopen("/proc/diskstats", "r");
    if (!file) return 0;
    char line[512];
    u64 sum = 0;
    while (fgets(line, sizeof line, file)) {
        u64 reads, writes;
        if (sscanf(line, " %*d %*d %*s %lu %*u %*u %*u %lu", &reads, &writes) == 2) sum += reads + writes;
    }
    fclose(file);
    return sum;
}

// Looks around for so many milliseconds, in which this program does nothing.
inline Others look_around(int milliseconds) {
    Others others;
    u64 before = disk_requests();
    for (int k = 0; k < milliseconds; k++) {
        FILE* file = fopen("/proc/loadavg", "r");
        int running = 1;
        if (file) {
            if (fscanf(file, "%*f %*f %*f %d", &running) != 1) running = 1;
            fclose(file);
        }
        others.runnable += double(std::max(0, running - 1)) / milliseconds;
        usleep(1000);
    }
    others.requests = double(disk_requests() - before);
    return others;
}

// Waits for a quiet moment, as long as there is patience. The number of others that run then.
inline double await_quiet() {
    if (options.patience <= 0) return look_around(2).runnable;
    for (;;) {
        double start = now();
        Others others = look_around(10);
        if ((others.runnable < 0.4 && others.requests < 4) || options.patience <= 0) return others.runnable;
        usleep(50000);
        options.patience -= now() - start;
    }
}

// ---- repetitions

struct Job {
    string peer;
    std::function<Figures()> work;         // in a process of its own
    vector<string> words;                  // or: a program and its words
    std::function<void()> before;          // here, not timed
    std::function<void(Figures&)> after;
};

inline Job job(string peer, std::function<Figures()> work) { return {std::move(peer), std::move(work), {}, {}, {}}; }

inline string word(const char* name, u64 number) { return string(name) + "=" + std::to_string(number); }

// Adds the programs, which do the work that these words name.
inline void add_programs(vector<Job>& jobs, const vector<string>& words) {
    for (auto& program : options.programs) {
        Job added{program.name, {}, {program.path}, {}, {}};
        added.words.insert(added.words.end(), words.begin(), words.end());
        jobs.push_back(added);
    }
}

// Does the work of a repetition in this process, which was made for it, and ends it.
[[noreturn]] inline void repeat_here(const Job& job, int answers) {
    alarm(120);  // a work that stands still is ended
    if (options.real_time) {
        sched_param parameters{};
        parameters.sched_priority = 1;
        sched_setscheduler(0, SCHED_RR, &parameters);  // without the right to it the work runs as all others do
    }
    if (!job.words.empty()) {
        dup2(answers, 1);
        vector<char*> words;
        for (auto& word : job.words) words.push_back(const_cast<char*>(word.c_str()));
        words.push_back(nullptr);
        execv(words[0], words.data());
        _exit(127);
    }
    string lines;
    for (auto& figure : job.work()) lines += json_of(figure) + "\n";
    for (size_t done = 0; done < lines.size();) {
        ssize_t written = write(answers, lines.data() + done, lines.size() - done);
        need(written > 0, "write");
        done += size_t(written);
    }
    _exit(0);  // nothing is closed: a store is left as a killed process leaves it
}

// The figures of one repetition, and whether its process ended well. A program's status 3 says that it has no such work.
inline std::pair<Figures, bool> repeat(const Job& job) {
    int ends[2];
    need(pipe(ends) == 0, "pipe");
    fflush(stdout);
    pid_t process = fork();
    need(process >= 0, "fork");
    if (process == 0) {
        close(ends[0]);
        repeat_here(job, ends[1]);
    }
    close(ends[1]);
    string lines;
    char piece[4096];
    for (ssize_t got; (got = read(ends[0], piece, sizeof piece)) > 0;) lines.append(piece, size_t(got));
    close(ends[0]);
    int status = 0;
    waitpid(process, &status, 0);
    if (WIFEXITED(status) && WEXITSTATUS(status) == 3) return {{}, true};
    Figures figures;
    std::istringstream stream(lines);
    for (string line; std::getline(stream, line);) {
        Figure figure;
        if (read_json(line, figure)) figures.push_back(figure);
    }
    return {figures, WIFEXITED(status) && WEXITSTATUS(status) == 0};
}

// A peer that does a work in several ways has a name for each, behind its own.
inline string name_of(const Job& job, const Figure& figure) { return figure.way.empty() ? job.peer : job.peer + "." + figure.way; }

// All repetitions of one figure.
struct Repeated {
    string peer, work;
    int threads;
    Figures figures;
};

// A line for the best repetition, with the rates of all.
inline void print_best(const Repeated& repeated, u64 block) {
    auto slower = [](const Figure& one, const Figure& other) { return one.rate() < other.rate(); };
    auto [worst, best] = std::minmax_element(repeated.figures.begin(), repeated.figures.end(), slower);
    printf("{\"peer\":\"%s\",\"work\":\"%s\",\"threads\":%d,\"block\":%lu,", repeated.peer.c_str(), repeated.work.c_str(),
           repeated.threads, block);
    printf("\"n\":%s,\"seconds\":%.6f,\"per_second\":%.5g,", number_text(best->records).c_str(), best->seconds, best->rate());
    printf("\"spread\":%.2f,\"reps\":%zu", best->rate() / worst->rate(), repeated.figures.size());
    for (auto& [name, number] : best->more) printf(",\"%s\":%s", name.c_str(), number_text(number).c_str());
    const char* between = ",\"all\":[";
    for (auto& figure : repeated.figures) printf("%s%.5g", between, figure.rate()), between = ",";
    printf("]}\n");
}

// Measures one setting: repetition 1 of every peer, then 2 of every peer, and so on, each time in another order. So all peers
// see the same moments of a noisy machine.
inline void measure(u64 block, vector<Job> jobs, int times = 1) {
    std::erase_if(jobs, [](const Job& job) { return !wanted(options.peers, job.peer); });
    vector<Repeated> all;
    vector<string> failed;
    for (int repetition = 0; repetition < options.repetitions * times; repetition++)
        for (size_t k = 0; k < jobs.size(); k++) {
            const Job& job = jobs[(k + size_t(repetition)) % jobs.size()];
            if (job.before) job.before();
            double others = await_quiet();
            auto [figures, ended_well] = repeat(job);
            others = (others + look_around(2).runnable) / 2;
            for (auto& figure : figures) figure.more["others"] = std::round(others * 100) / 100;
            if (job.after) job.after(figures);
            if (!ended_well) failed.push_back(job.peer);
            for (auto& figure : figures) {
                auto found = std::find_if(all.begin(), all.end(), [&](const Repeated& known) {
                    return known.peer == name_of(job, figure) && known.work == figure.work && known.threads == figure.threads;
                });
                if (found == all.end()) all.push_back({name_of(job, figure), figure.work, figure.threads, {figure}});
                else found->figures.push_back(figure);
            }
        }
    // In the order of the jobs, which is that of the first repetition.
    for (auto& repeated : all) print_best(repeated, block);
    for (auto& peer : failed) printf("{\"peer\":\"%s\",\"failed\":1,\"block\":%lu}\n", peer.c_str(), block);
    fflush(stdout);
}
