// What sf_count does, written plainly: the yardstick of bench/run for rounds and forests.
//
// A round: each rank's asks, one after another, each the least of its word and a number, and then the
// asks of each word in their order. A forest: the leaves of four ranks, found by their local index, and
// how many leaves each root has. It checks nothing and proves nothing. Threads: as many as there are
// ranks, which do nothing.
//
//   g++ -O2 -std=c++20 -pthread rounds.cpp -o rounds
//   ./rounds round RANKS ASKS WORDS;  ./rounds forest LEAVES;  ./rounds threads RANKS
#include <algorithm>
#include <cstdint>
#include <cstdio>
#include <cstdlib>
#include <string>
#include <thread>
#include <tuple>
#include <unordered_map>
#include <utility>
#include <vector>

enum class Op : uint8_t { Load, Sum, Min, Max, Or, And, Replace };

struct Ask {
    uint32_t word;
    Op op;
    uint64_t value;
};

struct Turn {
    uint32_t rank, index;
};

// An ask's word, and its place in the order of the word.
struct Place {
    uint32_t word;
    uint64_t fetched;
    bool changes;
    uint32_t rank, index;
    auto key() const { return std::tie(word, fetched, changes, rank, index); }
    bool operator<(const Place& other) const { return key() < other.key(); }
};

static uint64_t applied(Op op, uint64_t value, uint64_t word) {
    switch (op) {
        case Op::Sum: return word + value;
        case Op::Min: return std::min(word, value);
        case Op::Max: return std::max(word, value);
        case Op::Or: return word | value;
        case Op::And: return word & value;
        case Op::Replace: return value;
        default: return word;
    }
}

static void run_round(uint32_t ranks, uint32_t asks, uint32_t words) {
    std::vector<std::vector<Ask>> asked(ranks);
    for (uint32_t rank = 0; rank < ranks; ++rank)
        for (uint32_t index = 0; index < asks; ++index) {
            uint64_t mixed = (uint64_t(rank) << 32 | index) * 0x9E3779B97F4A7C15u;
            asked[rank].push_back({uint32_t((mixed >> 20) % words), Op::Min, mixed});
        }
    std::vector<uint64_t> values(words, UINT64_MAX);

    std::vector<std::vector<uint64_t>> got(ranks);
    std::vector<Place> places;
    for (uint32_t rank = 0; rank < ranks; ++rank)
        for (const Ask& ask : asked[rank]) {
            uint64_t word = values[ask.word], after = applied(ask.op, ask.value, word);
            places.push_back({ask.word, UINT64_MAX - word, after != word, rank, uint32_t(got[rank].size())});
            got[rank].push_back(word);
            values[ask.word] = after;
        }
    std::sort(places.begin(), places.end());
    std::vector<size_t> firsts;
    std::vector<Turn> turns;
    size_t at = 0;
    for (uint32_t word = 0; word < words; ++word) {
        firsts.push_back(at);
        for (; at < places.size() && places[at].word == word; ++at) turns.push_back({places[at].rank, places[at].index});
    }
    firsts.push_back(at);

    uint64_t fetched = 0, order = 0;
    for (auto& own : got)
        for (uint64_t value : own) fetched = 31 * fetched + value;
    for (uint32_t word = 0; word < words; ++word)
        for (size_t k = firsts[word]; k < firsts[word + 1]; ++k) order = 31 * order + (uint64_t(turns[k].rank) << 32 | turns[k].index);
    printf("fetched %llu\norder %llu\n", (unsigned long long)fetched, (unsigned long long)order);
}

struct Leaf {
    uint32_t local, rank, index;
};

static void make_forest(uint32_t count) {
    const uint32_t ranks = 4;
    std::vector<std::vector<Leaf>> leaves(ranks);
    for (uint32_t rank = 0; rank < ranks; ++rank)
        for (uint32_t i = 0; i < count; ++i) leaves[rank].push_back({5 * i, (rank + 1) % ranks, uint32_t((uint64_t(i) * 0x9E3779B97F4A7C15u >> 20) % count)});

    std::vector<std::unordered_map<uint32_t, std::pair<uint32_t, uint32_t>>> roots(ranks);
    std::vector<std::vector<uint32_t>> degrees(ranks, std::vector<uint32_t>(count));
    for (uint32_t rank = 0; rank < ranks; ++rank)
        for (const Leaf& leaf : leaves[rank]) {
            if (leaf.rank >= ranks || leaf.index >= count) exit(4);
            if (!roots[rank].emplace(leaf.local, std::pair(leaf.rank, leaf.index)).second) exit(4);
            ++degrees[leaf.rank][leaf.index];
        }
    uint64_t sum = 0;
    for (auto& own : degrees)
        for (uint32_t degree : own) sum = 31 * sum + degree;
    printf("degrees %llu\n", (unsigned long long)sum);
}

// A star forest: its leaves, their roots by local index, and how many leaves each root has.
struct Forest {
    std::vector<std::vector<Leaf>> leaves;
    std::vector<std::unordered_map<uint32_t, std::pair<uint32_t, uint32_t>>> roots;
    std::vector<std::vector<uint32_t>> degrees;

    Forest(std::vector<uint32_t> counts, std::vector<std::vector<Leaf>> given) : leaves(std::move(given)), roots(counts.size()) {
        for (uint32_t count : counts) degrees.emplace_back(count);
        for (size_t rank = 0; rank < leaves.size(); ++rank) {
            roots[rank].reserve(leaves[rank].size());
            for (const Leaf& leaf : leaves[rank]) {
                if (leaf.rank >= counts.size() || leaf.index >= counts[leaf.rank]) exit(4);
                if (!roots[rank].emplace(leaf.local, std::pair(leaf.rank, leaf.index)).second) exit(4);
                ++degrees[leaf.rank][leaf.index];
            }
        }
    }
};

static Forest lone_forest(uint32_t count) {
    const uint32_t ranks = 4;
    std::vector<std::vector<Leaf>> leaves(ranks);
    for (uint32_t rank = 0; rank < ranks; ++rank)
        for (uint32_t i = 0; i < count; ++i) leaves[rank].push_back({i, (rank + 1) % ranks, uint32_t(uint64_t(i) * 7919 % count)});
    return Forest(std::vector<uint32_t>(ranks, count), std::move(leaves));
}

static Forest compose(const Forest& a, const Forest& b) {
    std::vector<uint32_t> counts;
    for (auto& own : a.degrees) counts.push_back(own.size());
    std::vector<std::vector<Leaf>> leaves(b.leaves.size());
    for (size_t rank = 0; rank < b.leaves.size(); ++rank)
        for (const Leaf& leaf : b.leaves[rank]) {
            auto found = a.roots[leaf.rank].find(leaf.index);
            if (found != a.roots[leaf.rank].end()) leaves[rank].push_back({leaf.local, found->second.first, found->second.second});
        }
    return Forest(std::move(counts), std::move(leaves));
}

static Forest invert(const Forest& a, const std::vector<uint32_t>& counts) {
    for (auto& own : a.degrees)
        for (uint32_t degree : own)
            if (degree > 1) exit(4);
    std::vector<std::vector<std::pair<uint32_t, uint32_t>>> leaf_of(a.degrees.size());
    for (size_t rank = 0; rank < a.degrees.size(); ++rank) leaf_of[rank].resize(a.degrees[rank].size());
    for (size_t rank = 0; rank < a.leaves.size(); ++rank)
        for (const Leaf& leaf : a.leaves[rank]) leaf_of[leaf.rank][leaf.index] = {uint32_t(rank), leaf.local};
    std::vector<std::vector<Leaf>> leaves(a.degrees.size());
    for (size_t rank = 0; rank < a.degrees.size(); ++rank)
        for (uint32_t i = 0; i < a.degrees[rank].size(); ++i)
            if (a.degrees[rank][i] == 1) leaves[rank].push_back({i, leaf_of[rank][i].first, leaf_of[rank][i].second});
    return Forest(counts, std::move(leaves));
}

static void print_leaves(const Forest& forest) {
    uint64_t sum = 0;
    for (auto& own : forest.leaves)
        for (const Leaf& leaf : own) sum = 31 * sum + (uint64_t(leaf.local) << 32 | leaf.index) + leaf.rank;
    printf("leaves %llu\n", (unsigned long long)sum);
}

static void run_algebra(const std::string& kind, uint32_t count) {
    Forest forest = lone_forest(count);
    if (kind == "made") print_leaves(forest);
    else if (kind == "compose") print_leaves(compose(forest, forest));
    else print_leaves(invert(forest, std::vector<uint32_t>(4, count)));
}

static void run_threads(uint32_t ranks) {
    std::vector<std::thread> threads;
    for (uint32_t rank = 0; rank < ranks; ++rank) threads.emplace_back([] {});
    for (auto& thread : threads) thread.join();
}

int main(int argc, char** argv) {
    std::string kind = argc > 1 ? argv[1] : "";
    if (kind == "round" && argc == 5) run_round(atoi(argv[2]), atoi(argv[3]), atoi(argv[4]));
    else if (kind == "forest" && argc == 3) make_forest(atoi(argv[2]));
    else if ((kind == "made" || kind == "compose" || kind == "invert") && argc == 3) run_algebra(kind, atoi(argv[2]));
    else if (kind == "threads" && argc == 3) run_threads(atoi(argv[2]));
    else return 2;
}
