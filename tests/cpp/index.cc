// The index of a vector by itself, over layouts of pieces at made-up addresses, of which none is read: index LAYOUTS. The status is
// 0 where it says of each position the same as a plain table, also while pieces are added beside it.
#include "cvec/piece_index.hpp"

#include <cstdio>
#include <cstdlib>
#include <random>
#include <thread>
#include <vector>

using cvec::detail::piece_index;
using cvec::detail::stretch;
using place = const unsigned char *;

struct piece {
    place at;
    std::size_t rows;
};

struct layout {
    std::vector<piece> pieces;
    std::vector<place> table; // where each row stands
};

static void require(bool holds, const char *what, std::size_t position) {
    if (holds) return;
    std::printf("not so at position %zu: %s\n", position, what);
    std::fflush(stdout);
    std::_Exit(1);
}

// How pieces follow one another: so many rows, and so many bytes from the end of one to the next.
class course {
  public:
    static constexpr unsigned kinds = 10;

    course(unsigned kind, std::uint64_t seed) : kind_(kind), random_(seed), one_(1 + below(40)), gap_(16 + 8 * below(100)) {}

    piece next(std::size_t number, std::size_t bytes) {
        const std::size_t rows = choose(number);
        const piece made{at_, rows};
        at_ += rows * bytes + gap_;
        return made;
    }

    std::size_t below(std::size_t end) { return static_cast<std::size_t>(random_() % end); }

  private:
    std::size_t choose(std::size_t number) {
        switch (kind_) {
        case 0: return one_;                                              // one run
        case 1: gap_ = 16 + 8 * below(100); return 1 + below(40);         // no run
        case 2: return seldom_another();                                  // several runs
        case 3: gap_ = below(20) == 0 ? 8 : 0; return one_;               // pieces that lie against one another
        case 4: gap_ = 8 * below(3); return below(1000) == 0 ? 5000 : 1;  // long ones among single rows
        case 5: at_ += below(4) == 0 ? 64 * below(1000) : 0; return one_; // jumps
        case 6: gap_ = below(3) == 0 ? 8 * below(50) : gap_; return number % 40 < 20 ? 1000 + below(3000) : 1500;
        case 7: return 1;
        case 8: return number == 0 ? 200000 : one_; // as of a file that was opened
        default:
            at_ -= below(3) == 0 ? 4096 : 0;
            gap_ = 4096 + 8 * below(3);
            return below(6) == 0 ? 1 + below(one_) : one_; // also backwards
        }
    }

    std::size_t seldom_another() {
        if (below(50) == 0) gap_ = 16 + 8 * below(100);
        if (below(100) == 0) one_ = 1 + below(30);
        return one_;
    }

    const unsigned kind_;
    std::mt19937_64 random_;
    std::size_t one_, gap_;
    place at_ = reinterpret_cast<place>(std::uintptr_t{1} << 40);
};

static layout layout_of(course &made, std::size_t bytes, std::size_t pieces, std::size_t most_rows) {
    layout all;
    for (std::size_t k = 0; k < pieces && all.table.size() < most_rows; ++k) {
        const piece next = made.next(k, bytes);
        all.pieces.push_back(next);
        for (std::size_t row = 0; row < next.rows; ++row) all.table.push_back(next.at + row * bytes);
    }
    return all;
}

// From this position on to the end of its piece, and of those behind it of which it tells.
template <std::size_t Bytes>
static std::size_t compare_stretch(const piece_index &index, const std::vector<place> &table, std::size_t position) {
    stretch found = index.piece(position);
    require(found.rows > 0 && found.end <= table.size() && position + found.rows <= found.end, "a stretch has rows", position);
    for (std::size_t rows = found.rows;; rows = std::min(found.each, found.end - position)) {
        for (std::size_t k = 0; k < rows; ++k)
            require(found.at + k * Bytes == table[position + k], "a stretch is where its rows are", position + k);
        position += rows;
        if (position == found.end || found.each == 0) return position;
        found.at += rows * Bytes + found.gap;
    }
}

template <std::size_t Bytes> static void compare_all(const piece_index &index, const std::vector<place> &table) {
    require(index.size() == table.size(), "all rows are covered", table.size());
    for (std::size_t k = 0; k < table.size(); ++k) require(index.template find<Bytes>(k) == table[k], "a row is found", k);
    for (std::size_t k = 0; k < table.size();) k = compare_stretch<Bytes>(index, table, k);
}

// Reads at random what is covered, until all is.
template <std::size_t Bytes> static void look(const piece_index &index, const std::vector<place> &table, std::uint64_t seed) {
    std::mt19937_64 random(seed);
    for (std::size_t size = 0; size < table.size();) {
        const std::size_t now = index.size();
        require(size <= now, "the length never falls", now);
        size = now;
        for (int k = 0; k < 16 && size > 0; ++k) {
            // The last rows are those that are being entered.
            const auto back = static_cast<std::size_t>(random() % (k % 2 == 0 ? size : std::min<std::size_t>(size, 64)));
            const std::size_t position = size - 1 - back;
            require(index.template find<Bytes>(position) == table[position], "a row is found beside one that adds", position);
            if (k % 4 == 0) {
                const stretch found = index.piece(position);
                require(found.at == table[position] && found.rows > 0, "a piece is found beside one that adds", position);
                const std::size_t last = position + found.rows - 1;
                require(last < table.size() && found.at + (found.rows - 1) * Bytes == table[last], "a piece is as long as it is",
                        last);
            }
        }
    }
}

template <std::size_t Bytes> static void add_all(piece_index &index, const layout &all, course &chance) {
    for (const piece &one : all.pieces) {
        index.add(one.at, one.rows);
        if (chance.below(8) == 0) index.publish();
        if (chance.below(512) == 0) std::this_thread::yield();
    }
    index.publish();
}

// Alone, and twice more from the start, as behind a call of the whole vector: by pieces that go on in memory, and by others.
template <std::size_t Bytes> static std::size_t compares_alone(std::uint64_t turn) {
    course made(static_cast<unsigned>(turn % course::kinds), turn),
        other(static_cast<unsigned>((turn + 3) % course::kinds), turn + 1000);
    piece_index index(Bytes);
    std::size_t compared = 0;
    for (course *each : {&made, &made, &other}) {
        const layout all = layout_of(*each, Bytes, 1 + each->below(15000), 200000);
        index.clear();
        require(index.size() == 0, "nothing is covered behind a clear", 0);
        add_all<Bytes>(index, all, *each);
        compare_all<Bytes>(index, all.table);
        compared += all.table.size();
    }
    return compared;
}

template <std::size_t Bytes> static void compares_beside_readers(std::uint64_t turn) {
    course made(static_cast<unsigned>(turn % course::kinds), turn);
    const layout all = layout_of(made, Bytes, 4000, 60000);
    piece_index index(Bytes);
    std::vector<std::thread> readers;
    for (std::uint64_t k = 0; k < 4; ++k) readers.emplace_back([&, k] { look<Bytes>(index, all.table, turn * 8 + k); });
    add_all<Bytes>(index, all, made);
    for (std::thread &one : readers) one.join();
}

int main(int argc, char **argv) {
    if (argc != 2) return 2;
    std::size_t compared = 0;
    const std::uint64_t turns = std::strtoull(argv[1], nullptr, 10);
    for (std::uint64_t turn = 0; turn < turns; turn += 3) {
        compared += compares_alone<8>(turn) + compares_alone<4>(turn + 1) + compares_alone<24>(turn + 2);
        compares_beside_readers<8>(turn);
        compares_beside_readers<16>(turn + 1);
        compares_beside_readers<264>(turn + 2);
    }
    std::printf("%zu positions\n", compared);
}
