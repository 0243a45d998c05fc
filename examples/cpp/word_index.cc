// Indexes the words of texts by four threads: word_index INDEX WORD TEXT.. Then it prints where WORD stands. The words of a line
// are one growth, so a stop leaves whole lines: begun again, it goes on with those that aren't there.
#include <cvec/concurrent_vector.hpp>

#include <cctype>
#include <exception>
#include <fstream>
#include <iostream>
#include <set>

struct entry {
    char word[24]; // as far as it fits, and zeros
    std::uint32_t text, line;
};

using index_of = cvec::concurrent_vector<entry>;
using place = std::pair<std::uint32_t, std::uint32_t>; // of a line: its text, and its number in that

static entry entry_of(const std::string &word, place at) {
    entry made{{}, at.first, at.second};
    std::copy_n(word.begin(), std::min(word.size(), sizeof made.word), made.word);
    return made;
}

static std::vector<entry> entries_of(const std::string &line, place at) {
    std::vector<entry> found;
    std::string word;
    for (const char letter : line + ' ') {
        if (std::isalpha(static_cast<unsigned char>(letter)) != 0) {
            word += static_cast<char>(std::tolower(static_cast<unsigned char>(letter)));
        } else if (!word.empty()) {
            found.push_back(entry_of(word, at));
            word.clear();
        }
    }
    return found;
}

// The growths of the lines that aren't there yet.
static std::vector<std::vector<entry>> work_left(const index_of &index, char **texts) {
    std::set<place> done;
    for (const entry &one : index) done.emplace(one.text, one.line);
    std::vector<std::vector<entry>> left;
    for (std::uint32_t text = 0; texts[text] != nullptr; ++text) {
        std::ifstream lines(texts[text]);
        std::string line;
        for (std::uint32_t number = 1; std::getline(lines, line); ++number)
            if (done.count({text, number}) == 0) left.push_back(entries_of(line, {text, number}));
        if (!lines.eof()) throw std::runtime_error(std::string(texts[text]) + ": this text can't be read");
    }
    return left;
}

// Each twenty lines of a thread are made durable.
static void work(index_of &index, const std::vector<std::vector<entry>> &left, std::atomic<std::size_t> &next) {
    for (std::size_t mine = 1, at = next++; at < left.size(); ++mine, at = next++) {
        index.grow_by(left[at].begin(), left[at].end());
        if (mine % 20 == 0) index.settle();
    }
}

// Does this in so many threads. What one of them throws first is thrown here, once all have ended.
template <class Work> static void in_threads(std::size_t count, const Work &work) {
    std::mutex mutex;
    std::exception_ptr first;
    std::vector<std::thread> threads;
    for (std::size_t k = 0; k < count; ++k)
        threads.emplace_back([&, k] {
            try {
                work(k);
            } catch (...) {
                const std::lock_guard<std::mutex> lock(mutex);
                if (!first) first = std::current_exception();
            }
        });
    for (std::thread &thread : threads) thread.join();
    if (first) std::rethrow_exception(first);
}

int main(int argc, char **argv) {
    if (argc < 4) return 2;
    try {
        const std::vector<entry> wanted = entries_of(argv[2], {0, 0});
        if (wanted.size() != 1) throw std::runtime_error(std::string(argv[2]) + ": this is no word");
        index_of index(argv[1]);
        std::cout << "found " << index.size() << " words" << std::endl;
        const auto left = work_left(index, argv + 3);
        std::atomic<std::size_t> next{0};
        in_threads(4, [&](std::size_t) { work(index, left, next); });
        index.settle();
        std::set<place> lines;
        for (const entry &one : index)
            if (std::equal(one.word, one.word + sizeof one.word, wanted[0].word)) lines.emplace(one.text, one.line);
        for (const place &at : lines) std::cout << argv[3 + at.first] << ":" << at.second << "\n";
        index.close();
    } catch (const std::exception &refusal) {
        std::cerr << refusal.what() << "\n";
        return 1;
    }
}
