// The library beside the reference on random calls: differential SEED COUNT [THREADS].
// The calls are those of cases.hpp, batch by batch, and depend on seed and count alone; one batch in sixteen is followed by
// a script of scripts.hpp, whose steps come on top. Stops at the first difference.
// It fails too if fewer calls were made than asked for, or none of an export, or no script was closed and read back.
#include "blocks.hpp"
#include "scripts.hpp"

#include <algorithm>
#include <atomic>
#include <chrono>
#include <cinttypes>
#include <cstdio>
#include <cstdlib>
#include <mutex>
#include <thread>

namespace {

using calls::Bytes;
using calls::Call;

constexpr std::uint64_t batches_for_a_script = 16;

// The three slices of a call in one block, in one of three orders, with gaps between them or none: a byte that is
// written outside its slice is another slice's or a gap's. Without gaps, copies between neighbours take other ways.
// A call with a state has no set; its record stands before the output slice, to which it is copied.
class Block {
public:
    Block(const Call &call, const calls::Lent &lent, std::uint64_t number)
        : has_state(calls::exports[call.operation].takes_state)
    {
        const Bytes *parts[] = {has_state ? &lent.state : &call.program, has_state ? &call.program : &call.set, &lent.out};
        std::size_t gap = number / 3 % 2 == 0 ? 64 : 0;
        pad(64);
        for (std::uint64_t i = 0; i < 3; ++i) {
            std::uint64_t part = (i + number) % 3;
            starts[part] = bytes.size();
            bytes.insert(bytes.end(), parts[part]->begin(), parts[part]->end());
            pad(i == 2 ? 64 : gap);
        }
    }
    calls::Slices slices(const Call &call)
    {
        std::uint8_t *first = bytes.data() + starts[0], *second = bytes.data() + starts[1], *out = bytes.data() + starts[2];
        std::uint8_t *program = has_state ? second : first, *state = first;
        return {program, call.program.size(), second, call.set.size(), out, call.room, state, call.state.size()};
    }
    bool operator==(const Block &other) const { return bytes == other.bytes; }

private:
    void pad(std::size_t length)
    {
        for (std::size_t i = 0; i < length; ++i) bytes.push_back(static_cast<std::uint8_t>(i * 37 + 5));
    }

    bool has_state;
    Bytes bytes;
    std::size_t starts[3];
};

// A sum over calls and answers, which does not depend on the order of the batches.
std::uint64_t digest(const Call &call, std::uint64_t word, const calls::Lent &lent)
{
    std::uint64_t sum = word ^ call.operation ^ std::uint64_t{call.rule} << 8;
    for (const Bytes *part : {&call.program, &call.set, &lent.out, &call.state, &lent.state})
        for (std::uint8_t byte : *part) sum = (sum ^ byte) * 0x100000001b3;
    return sum;
}

struct Run {
    std::uint64_t seed, count;
    std::atomic<std::uint64_t> next_batch{0}, last_batch{0};
    std::mutex lock;
    calls::Tallies tallies{};
    scripts::Counts scripts;
    std::uint64_t sum = 0;
    bool differs = false;

    std::uint64_t batches() const { return (count + cases::batch_size - 1) / cases::batch_size; }
};

struct Part {
    calls::Tallies tallies{};
    scripts::Counts scripts;
    std::uint64_t sum = 0;
};

// True if the library's answer is the reference's, and no byte but the result's was written. Prints a difference if
// asked.
bool agrees(const Call &call, std::uint64_t number, bool prints, Part &part)
{
    calls::Lent lent = calls::lent_to(call, static_cast<unsigned>(number));
    Block block(call, lent, number);
    std::uint64_t expected = calls::by_reference(call, lent);
    calls::Slices slices = block.slices(call);
    std::uint64_t got = calls::by_library(call.operation, slices, call.rule);
    part.tallies[call.operation].count(call.operation, expected);
    part.sum += digest(call, expected, lent);
    if (got == expected && block == Block(call, lent, number)) return true;
    if (prints) {
        calls::print_difference(call, expected, lent, got, slices);
        if (got == expected && calls::is_as(lent, slices))
            std::puts("the answers are the same: a byte outside the slices that are written changed");
    }
    return false;
}

// Runs a batch; true if all calls agree.
bool batch_agrees(const Run &run, std::uint64_t number, bool prints, Part &part)
{
    cases::Batch batch(run.seed, number);
    std::uint64_t first = number * cases::batch_size, end = std::min(run.count, first + cases::batch_size);
    for (std::uint64_t i = first; i < end; ++i) {
        if (agrees(batch.next(), i, prints, part)) continue;
        if (prints) std::printf("case %" PRIu64 " of seed %" PRIu64 "\n", i, run.seed);
        return false;
    }
    if (number % batches_for_a_script != 0) return true;
    if (scripts::agrees(scripts::drawn(run.seed, number), prints, part.scripts)) return true;
    if (prints) std::printf("script %" PRIu64 " of seed %" PRIu64 "\n", number, run.seed);
    return false;
}

// Takes batches in order. After a difference no later batch is taken, so the first one of all is found by any threads.
void work(Run &run)
{
    Part part;
    for (;;) {
        std::uint64_t number = run.next_batch++;
        if (number >= run.last_batch) break;
        if (batch_agrees(run, number, false, part)) continue;
        std::lock_guard<std::mutex> held(run.lock);
        run.differs = true;
        if (number < run.last_batch) run.last_batch = number;
    }
    std::lock_guard<std::mutex> held(run.lock);
    for (std::size_t i = 0; i < run.tallies.size(); ++i) run.tallies[i].add(part.tallies[i]);
    run.scripts.add(part.scripts);
    run.sum += part.sum + part.scripts.sum;
}

} // namespace

int main(int count, char **words)
{
    if (count < 3 || count > 4) return std::puts("usage: differential SEED COUNT [THREADS]"), 2;
    Run run;
    run.seed = std::strtoull(words[1], nullptr, 10);
    run.count = std::strtoull(words[2], nullptr, 10);
    run.last_batch = run.batches();
    unsigned long threads = count == 4 ? std::strtoul(words[3], nullptr, 10) : 1;
    std::printf("differential: seed %" PRIu64 ", %" PRIu64 " cases, %lu threads\n", run.seed, run.count, threads);
    std::fflush(stdout);
    static std::uint8_t met[blocks::most];
    blocks::watch(met);
    auto start = std::chrono::steady_clock::now();
    std::vector<std::thread> workers;
    for (unsigned long i = 0; i < threads; ++i) workers.emplace_back(work, std::ref(run));
    for (std::thread &worker : workers) worker.join();
    double seconds = std::chrono::duration<double>(std::chrono::steady_clock::now() - start).count();
    if (run.differs) {
        Part again;
        batch_agrees(run, run.last_batch, true, again);
        return 1;
    }
    std::uint64_t made = 0;
    for (const calls::Tally &tally : run.tallies) made += tally.calls;
    if (made != run.count) return std::printf("%" PRIu64 " calls were made\n", made), 1;
    if (!calls::all_called(run.tallies)) return 1;
    for (std::size_t i = 0; i < run.tallies.size(); ++i) run.tallies[i].add(run.scripts.tallies[i]);
    calls::print(run.tallies);
    scripts::print(run.scripts);
    if (run.scripts.read_back == 0 || run.scripts.full == 0) return std::puts("the scripts have shown nothing"), 1;
    blocks::report();
    std::printf("digest %016" PRIx64 "; %.1f s, %.0f cases a second; no difference\n", run.sum, seconds,
                static_cast<double>(run.count) / seconds);
}
