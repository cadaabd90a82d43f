// A bank of eight threads on one store. Money moves between accounts of two segments, and an exception gives some
// transfers up in their midst. The sum stays, also after the store is opened again.
//
// usage: bank FOLDER [TRANSFERS]     (a folder that is not there, or holds no store; 200 transfers a thread)
#include "lcrvm.hpp"

#include <cinttypes>
#include <cstdio>
#include <cstdlib>
#include <future>
#include <vector>

constexpr uint32_t tellers = 8, accounts = 100, first = 1000; // accounts are in segments 1 and 2, by turns
constexpr uint32_t counter = accounts * sizeof(int64_t);      // the transfers that were made, at the end of segment 1

static uint32_t segment_of(uint32_t account) { return 1 + account % 2; }
static uint32_t offset_of(uint32_t account) { return account / 2 * sizeof(int64_t); }

struct given_up {};

static void transfer(const lcrvm::store &store, uint32_t from, uint32_t to, int64_t amount, bool durable) {
    lcrvm::transaction t(store, {1, 2});
    auto add = [&](uint32_t account, int64_t by) {
        t.put(segment_of(account), offset_of(account), t.get<int64_t>(segment_of(account), offset_of(account)) + by);
    };
    add(from, -amount);
    if (amount % 8 == 0) throw given_up{};
    add(to, amount);
    t.put(1, counter, t.get<uint64_t>(1, counter) + 1);
    t.commit(durable);
}

static unsigned teller(const lcrvm::store &store, unsigned number, unsigned transfers) {
    unsigned made = 0;
    uint64_t chance = number + 1;
    for (unsigned i = 0; i < transfers; i++) {
        chance = chance * 6364136223846793005u + 1442695040888963407u;
        uint32_t from = (chance >> 33) % accounts, to = (chance >> 41) % accounts;
        try {
            transfer(store, from, to, chance >> 50 & 63, i % 8 == 0);
            made++;
        } catch (const given_up &) {
        }
    }
    return made;
}

// Whether the accounts have what they had at first together, and the counter says what was made.
static bool is_right(const lcrvm::store &store, uint64_t made) {
    lcrvm::transaction t(store, {}, {1, 2});
    int64_t sum = 0, wanted = int64_t{accounts} * first;
    for (uint32_t account = 0; account < accounts; account++)
        sum += t.get<int64_t>(segment_of(account), offset_of(account));
    uint64_t counted = t.get<uint64_t>(1, counter);
    std::printf("%" PRIu64 " of %" PRIu64 " transfers, %" PRId64 " of %" PRId64 " coins\n", counted, made, sum, wanted);
    return sum == wanted && counted == made;
}

int main(int count, char **words) try {
    if (count < 2) return 2;
    unsigned transfers = count > 2 ? std::atoi(words[2]) : 200, made = 0;
    lcrvm::store::create(words[1]);
    lcrvm::store store(words[1]);
    {
        lcrvm::transaction t(store, {1, 2});
        for (uint32_t account = 0; account < accounts; account++)
            t.put(segment_of(account), offset_of(account), int64_t{first});
        t.commit();
    }
    std::vector<std::future<unsigned>> working;
    for (unsigned number = 0; number < tellers; number++)
        working.push_back(std::async(std::launch::async, teller, std::cref(store), number, transfers));
    for (auto &one : working) made += one.get();

    bool right = is_right(store, made);
    store.close();
    return is_right(lcrvm::store(words[1]), made) && right ? 0 : 1;
} catch (const lcrvm::error &error) {
    std::fprintf(stderr, "bank: %s\n", error.what());
    return 1;
}
