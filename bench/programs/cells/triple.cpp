#include <algorithm>
#include <array>
#include <atomic>
#include <chrono>
#include <cstdint>
#include <cstdio>
#include <thread>

constexpr std::uint64_t ROUNDS = 3000;

struct Ordered {
    static constexpr auto word = std::memory_order_seq_cst, look = std::memory_order_seq_cst, swap = std::memory_order_seq_cst;
    static constexpr const char *name = "ordered";
};

struct Relaxed {
    static constexpr auto word = std::memory_order_relaxed, look = std::memory_order_relaxed, swap = std::memory_order_acq_rel;
    static constexpr const char *name = "relaxed";
};

// Word 0 is the state, 4 * fresh + back; the row at place r begins at word r * W + 1. The reader begins at 0, the back row at 1,
// the writer at 2.
template <int W, class Order>
struct Triple {
    std::atomic<std::uint64_t> table[3 * W + 1];
    std::uint64_t reader = 0, writer = 2;

    Triple() {
        for (auto &word : table) word.store(0);
        table[0].store(1);
    }

    void publish(const std::array<std::uint64_t, W> &row, std::uint64_t &place) {
        for (int j = 0; j < W; j++) table[place * W + 1 + j].store(row[j], Order::word);
        place = table[0].exchange(4 | place, Order::swap) & 3;
    }

    std::array<std::uint64_t, W> read(std::uint64_t &place) {
        if (table[0].load(Order::look) & 4) place = table[0].exchange(place, Order::swap) & 3;
        std::array<std::uint64_t, W> row;
        for (int j = 0; j < W; j++) row[j] = table[place * W + 1 + j].load(Order::word);
        return row;
    }
};

struct Times {
    std::uint64_t counts[2048] = {}, least = UINT64_MAX, sum = 0;

    void add(std::uint64_t ns, std::uint64_t folded) {
        counts[std::min<std::uint64_t>(ns / 250, 2047)]++;
        least = std::min(least, ns);
        sum += folded;
    }

    void print(const char *form, const char *name, int width) const {
        std::uint64_t rounds = 0, below = 0, ns = 0;
        for (auto count : counts) rounds += count;
        for (auto count : counts) {
            if (below <= rounds / 2) ns += 250;
            below += count;
        }
        std::printf("%s_%s %d %llu %llu %llu %llu\n", form, name, width, (unsigned long long)rounds, (unsigned long long)least,
                    (unsigned long long)ns, (unsigned long long)sum);
    }
};

std::uint64_t now() {
    return std::chrono::duration_cast<std::chrono::nanoseconds>(std::chrono::steady_clock::now().time_since_epoch()).count();
}

template <int W>
std::array<std::uint64_t, W> row_of(std::uint64_t n) {
    std::array<std::uint64_t, W> row;
    row.fill(n);
    return row;
}

template <int W>
std::uint64_t folded(const std::array<std::uint64_t, W> &row) {
    std::uint64_t sum = 0;
    for (auto word : row) sum += word;
    return sum;
}

template <int W, class Order>
[[gnu::noinline]] std::uint64_t publish_round(Triple<W, Order> &cell, std::uint64_t place, std::uint64_t made) {
    for (std::uint64_t k = 0; k < 1000; k++) cell.publish(row_of<W>(made + k), place);
    return place;
}

template <int W, class Order>
[[gnu::noinline]] std::uint64_t read_round(Triple<W, Order> &cell, std::uint64_t &place, std::uint64_t &oldest, std::uint64_t &newest) {
    std::uint64_t sum = 0;
    oldest = UINT64_MAX;
    for (int k = 0; k < 1000; k++) {
        auto row = cell.read(place);
        sum += folded<W>(row);
        oldest = std::min(oldest, row[0]);
        newest = row[0];
    }
    return sum;
}

template <int W, class Order>
[[gnu::noinline]] std::uint64_t round_of_both(Triple<W, Order> &cell, std::uint64_t made) {
    std::uint64_t sum = 0;
    for (std::uint64_t k = 0; k < 1000; k++) {
        cell.publish(row_of<W>(made + k), cell.writer);
        sum += folded<W>(cell.read(cell.reader));
    }
    return sum;
}

template <int W, class Order>
void alone() {
    static Triple<W, Order> cell;
    static Times reads, publishes, both;
    std::uint64_t oldest, newest;
    for (std::uint64_t round = 0; round < ROUNDS; round++) {
        auto start = now();
        auto sum = read_round(cell, cell.reader, oldest, newest);
        reads.add(now() - start, sum);
    }
    for (std::uint64_t round = 0; round < ROUNDS; round++) {
        auto start = now();
        cell.writer = publish_round(cell, cell.writer, round * 1000 + 1);
        publishes.add(now() - start, 0);
    }
    for (std::uint64_t round = 0; round < ROUNDS; round++) {
        auto start = now();
        auto sum = round_of_both(cell, round * 1000 + 3000001);
        both.add(now() - start, sum);
    }
    reads.print(Order::name, "read", W);
    publishes.print(Order::name, "publish", W);
    both.print(Order::name, "both", W);
}

template <int W, class Order>
void beside() {
    static Triple<W, Order> cell;
    static Times reads, publishes;
    static std::atomic<std::uint64_t> ended, done;
    std::thread writes([] {
        for (std::uint64_t round = 0; round < ROUNDS; round++) {
            auto start = now(), before = ended.load();
            cell.writer = publish_round(cell, cell.writer, round * 1000 + 1);
            auto rounds = ended.load() - before, ns = now() - start;
            if (rounds >= 2) publishes.add(ns, 0);
        }
        done.store(1);
    });
    std::thread looks([] {
        for (std::uint64_t round = 0;; round++) {
            std::uint64_t oldest, newest;
            auto start = now();
            auto sum = read_round(cell, cell.reader, oldest, newest);
            auto ns = now() - start;
            ended.store(round);
            if (done.load()) break;
            if (newest - oldest >= 40) reads.add(ns, sum);
        }
    });
    writes.join();
    looks.join();
    publishes.print(Order::name, "publish_beside", W);
    reads.print(Order::name, "read_beside", W);
}

int main() {
    alone<9, Ordered>();
    beside<9, Ordered>();
    alone<9, Relaxed>();
    beside<9, Relaxed>();
    alone<11, Ordered>();
    beside<11, Ordered>();
    alone<11, Relaxed>();
    beside<11, Relaxed>();
}
