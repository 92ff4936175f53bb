#include "scripts.hpp"

#include "../../include/aspda.h"

#include <algorithm>
#include <cinttypes>
#include <cstdio>

namespace scripts {

using cases::Random;

namespace {

constexpr std::size_t most_rules = reference::source_limits.rules, end_record = 4, header = 7, literal = 5;

// The length of the record that the bytes start with, if they hold its header.
std::size_t record_length(const Bytes &bytes)
{
    return bytes.size() < header ? bytes.size() : header + literal * (bytes[4] + bytes[5] + bytes[6]);
}

// The records that a script adds, mostly few and small.
std::vector<Bytes> some_records(Random &random)
{
    using Sizes = std::vector<std::size_t>;
    std::vector<Bytes> records;
    std::size_t head = random.pick(Sizes{1, 2, 4, 16}), body = random.pick(Sizes{0, 1, 2, 16});
    for (std::size_t i = random.between(1, 6); i > 0; --i) records.push_back(cases::drawn_record(random, head, body));
    return records;
}

// As many rules as there can be, with room for them or one byte less, then more of everything.
Script drawn_full(Random &random)
{
    std::vector<Bytes> stock = some_records(random), records;
    if (random.once_in(2)) stock = {cases::widest_record(random)};
    else if (random.once_in(4)) stock = {{'S', ':', 0, 0, 0, 0, 0}};
    std::size_t room = end_record;
    for (std::size_t i = 0; i < most_rules; ++i) {
        records.push_back(random.pick(stock));
        room += records.back().size();
    }
    switch (random.below(4)) {
    case 0: --room; break;
    case 1: room += random.between(1, 300); break;
    default: break;
    }
    Writer writer(room);
    writer.step(calls::begin);
    for (const Bytes &record : records) writer.step(calls::add, record);
    // One too many, or one that there is no room for.
    writer.step(calls::add, records[0]);
    if (random.once_in(2)) writer.step(calls::add, Bytes(random.below(8), 'S'));
    for (std::size_t i = random.below(8); i > 0; --i) writer.step(random.once_in(3) ? calls::add : calls::drop, records[0]);
    writer.step(calls::assembled);
    writer.step(calls::close);
    for (unsigned operation : {calls::close, calls::add, calls::drop, calls::assembled}) writer.step(operation, records[0]);
    if (random.once_in(2)) writer.step(calls::begin);
    while (writer.written().steps.size() < most_steps && !random.once_in(20))
        writer.step(random.once_in(8) ? calls::close : calls::add, random.pick(stock));
    return writer.written();
}

// A record to add: right, with something behind it, or damaged.
Bytes to_add(Random &random, const std::vector<Bytes> &records)
{
    Bytes record = random.pick(records);
    if (random.once_in(12)) cases::damage(random, record);
    if (random.once_in(25) && !record.empty()) record[0] = "EOXAsN"[random.below(6)];
    if (random.once_in(5)) {
        Bytes behind = calls::filling(random.between(1, 20), static_cast<unsigned>(random.next()));
        record.insert(record.end(), behind.begin(), behind.end());
    }
    return record;
}

unsigned drawn_operation(Random &random, bool is_open)
{
    std::size_t drawn = random.below(100);
    if (drawn < (is_open ? 2u : 30u)) return calls::begin;
    if (drawn < 5) return calls::assembled;
    if (drawn < 11) return calls::close;
    return drawn < (is_open ? 30u : 40u) ? calls::drop : calls::add;
}

// The output slice: mostly the whole buffer; else just enough for this call, one byte less, or a part.
std::size_t drawn_room(Random &random, const Writer &writer, unsigned operation, const Bytes &record)
{
    std::size_t whole = writer.written().room;
    if (!random.once_in(20)) return whole;
    std::size_t needed = operation == calls::begin ? end_record : reference::assembled(writer.state());
    if (operation == calls::add) needed += record_length(record);
    return std::min(whole, random.once_in(3) ? random.below(whole + 1) : needed - random.below(2));
}

// To no rule and on, closed and begun again, on states that are none, on older ones.
Script drawn_wandering(Random &random)
{
    using Sizes = std::vector<std::size_t>;
    std::vector<Bytes> records = some_records(random), history{Bytes(reference::state_length)};
    Writer writer(random.pick(Sizes{3, end_record, 40, 300, 1000, 5000}));
    std::size_t steps = random.between(1, most_steps);
    while (writer.written().steps.size() < steps) {
        bool is_open = writer.state()[0] == 1;
        unsigned operation = drawn_operation(random, is_open);
        Bytes record = operation == calls::add ? to_add(random, records) : Bytes{};
        if (random.once_in(80)) writer.go_back(random.pick(history));
        Bytes given = writer.state();
        if (random.once_in(40)) cases::damage_state(random, given);
        if (writer.step(operation, record, drawn_room(random, writer, operation, record), given))
            history.push_back(writer.state());
    }
    return writer.written();
}

} // namespace

bool Writer::step(unsigned operation, const Bytes &record)
{
    return step(operation, record, script.room, last);
}

bool Writer::step(unsigned operation, const Bytes &record, std::size_t room, const Bytes &given)
{
    const calls::Export &taken = calls::exports[operation];
    Call call;
    call.operation = operation;
    call.state = given;
    if (taken.takes_program) call.program = record;
    if (taken.takes_out) call.room = room;
    script.steps.push_back(call);
    calls::Lent after{given, Bytes(call.room)}; // what it holds does not count
    // Telling a length gives no state back: the next call goes on from the one before.
    if (ASPDA_IS_REFUSAL(calls::by_reference(call, after)) || operation == calls::assembled) return false;
    last = after.state;
    return true;
}

Script drawn(std::uint64_t seed, std::uint64_t number)
{
    Random random(Random(seed).next() ^ Random(~number).next() ^ 0x5c5c5c5c5c5c5c5c);
    return random.once_in(4) ? drawn_full(random) : drawn_wandering(random);
}

void Counts::add(const Counts &other)
{
    for (std::size_t i = 0; i < tallies.size(); ++i) tallies[i].add(other.tallies[i]);
    scripts += other.scripts;
    steps += other.steps;
    full += other.full;
    read_back += other.read_back;
    sum += other.sum;
}

void print(const Counts &counts)
{
    std::printf("scripts: %" PRIu64 " of %" PRIu64 " steps, %" PRIu64 " times %zu rules held, %" PRIu64
                " times closed and read back\n",
                counts.scripts, counts.steps, counts.full, most_rules, counts.read_back);
}

namespace {

constexpr std::size_t gap = 64;

// Bytes with a gap on either side; no pointer is null.
class Guarded {
public:
    explicit Guarded(const Bytes &inner) : bytes(gap, fill)
    {
        bytes.insert(bytes.end(), inner.begin(), inner.end());
        bytes.resize(bytes.size() + gap, fill);
    }
    std::uint8_t *inner() { return bytes.data() + gap; }
    bool holds(const Bytes &wanted) const
    {
        return bytes.size() == wanted.size() + 2 * gap && is_gap(0) && is_gap(bytes.size() - gap) &&
               std::equal(wanted.begin(), wanted.end(), bytes.begin() + gap);
    }

private:
    static constexpr std::uint8_t fill = 0x6d;
    bool is_gap(std::size_t at) const
    {
        return std::all_of(bytes.begin() + at, bytes.begin() + at + gap, [](std::uint8_t byte) { return byte == fill; });
    }
    Bytes bytes;
};

// The records that are held, kept by the test.
class List {
public:
    // An accepted call. The list says what the buffer holds as long as each accepted call since the last begin got the
    // state that the accepted one before it gave back.
    void take(const Call &call, const Bytes &after)
    {
        bool follows = call.state == last;
        last = after;
        if (call.operation == calls::begin) records.clear(), keeps = true;
        else keeps = keeps && follows;
        if (!keeps) return;
        if (call.operation == calls::add)
            records.emplace_back(call.program.begin(), call.program.begin() + record_length(call.program));
        if (call.operation == calls::drop) records.pop_back();
    }
    bool is_known() const { return keeps; }
    std::size_t size() const { return records.size(); }
    // Whether the library reads and shows the bytes as the list has them.
    bool is_shown_by(const std::uint8_t *made, std::size_t length) const
    {
        if (aspda_read_source(made, length) != records.size()) return false;
        std::size_t start = 0;
        for (std::uint32_t number = 1; number <= records.size(); ++number) {
            const Bytes &record = records[number - 1];
            std::uint64_t shown = aspda_show_source(made, length, number);
            if (ASPDA_IS_REFUSAL(shown) || ASPDA_SHOWN_START(shown) != start || ASPDA_SHOWN_LENGTH(shown) != record.size())
                return false;
            if (!std::equal(record.begin(), record.end(), made + start)) return false;
            start += record.size();
        }
        return length == start + end_record;
    }

private:
    Bytes last;
    std::vector<Bytes> records;
    bool keeps = false;
};

struct Answer {
    std::uint64_t word;
    Bytes state;

    bool operator==(const Answer &other) const { return word == other.word && state == other.state; }
};

// A run of a script with a buffer that holds given bytes before.
class Player {
public:
    Player(const Bytes &buffer, bool prints, Counts &counts) : expected(buffer), out(buffer), prints(prints), counts(counts) {}

    // True if the library's answer is the reference's, and what is closed is what the list says.
    bool step(const Call &call)
    {
        Guarded state(call.state), record(call.program);
        calls::Slices slices{record.inner(), call.program.size(), record.inner(),    0, out.inner(), call.room,
                             state.inner(),  call.state.size()};
        calls::Lent lent{call.state, {}};
        std::uint64_t wanted = by_reference(call, lent);
        std::uint64_t got = calls::by_library(call.operation, slices, 0);
        answers.push_back({got, Bytes(state.inner(), state.inner() + call.state.size())});
        counts.tallies[call.operation].count(call.operation, wanted);
        ++counts.steps;
        mix(wanted ^ call.operation);
        for (const Bytes &part : {call.program, call.state, lent.state})
            for (std::uint8_t byte : part) mix(byte);
        if (got != wanted || !state.holds(lent.state) || !record.holds(call.program) || !out.holds(expected))
            return differs(call, wanted, lent, got, slices, "a word, a state, the buffer or a byte beside them");
        if (ASPDA_IS_REFUSAL(wanted) || call.operation == calls::assembled) return true;
        list.take(call, lent.state);
        if (list.is_known() && list.size() == most_rules) ++counts.full;
        if (call.operation != calls::close || !list.is_known()) return true;
        ++counts.read_back;
        std::uint64_t length = aspda_assembled(state.inner(), call.state.size());
        if (list.is_shown_by(out.inner(), length)) return true;
        return differs(call, wanted, lent, got, slices, "the closed program is not that of the list");
    }
    const std::vector<Answer> &answered() const { return answers; }
    // Of all steps and their answers.
    std::uint64_t sum() const { return digest; }

private:
    void mix(std::uint64_t value) { digest = (digest ^ value) * 0x100000001b3; }

    // The reference on the first bytes of the buffer.
    std::uint64_t by_reference(const Call &call, calls::Lent &lent)
    {
        lent.out.assign(expected.begin(), expected.begin() + call.room);
        std::uint64_t word = calls::by_reference(call, lent);
        std::copy(lent.out.begin(), lent.out.end(), expected.begin());
        return word;
    }
    bool differs(const Call &call, std::uint64_t wanted, const calls::Lent &lent, std::uint64_t got,
                 const calls::Slices &slices, const char *what)
    {
        if (!prints) return false;
        calls::print_difference(call, wanted, lent, got, slices);
        std::printf("step %zu of the script: %s\n", answers.size(), what);
        return false;
    }

    Bytes expected;
    Guarded out;
    bool prints;
    Counts &counts;
    List list;
    std::vector<Answer> answers;
    std::uint64_t digest = 0;
};

} // namespace

bool agrees(const Script &script, bool prints, Counts &counts)
{
    ++counts.scripts;
    Bytes buffer = calls::filling(script.room, 11), complement = buffer;
    for (std::uint8_t &byte : complement) byte = static_cast<std::uint8_t>(~byte);
    Player first(buffer, prints, counts);
    Counts again;
    Player second(complement, prints, again);
    for (const Call &call : script.steps)
        if (!first.step(call) || !second.step(call)) return false;
    counts.sum += first.sum();
    if (first.answered() == second.answered()) return true;
    if (prints) std::puts("DIFFERENT answers or states by what the buffer holds");
    return false;
}

} // namespace scripts
