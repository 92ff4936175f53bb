// Program assembly in scripts: calls that follow each other on one buffer, with a list of the records kept beside.
#pragma once

#include "cases.hpp"

namespace scripts {

using calls::Bytes;
using calls::Call;

constexpr std::size_t most_steps = 300;

// The buffer's length, and the calls in order. Each has the state that it is given: mostly what the call before gave back.
// Its output slice is the buffer's first bytes, mostly all of them.
struct Script {
    std::size_t room = 0;
    std::vector<Call> steps;
};

// A script under way: each step is answered by the reference, so that the next one's state is known.
class Writer {
public:
    explicit Writer(std::size_t room) : last(reference::state_length) { script.room = room; }

    // A call with the state that the last accepted call gave back, or with another one; true if it gives a new one back.
    bool step(unsigned operation, const Bytes &record = {});
    bool step(unsigned operation, const Bytes &record, std::size_t room, const Bytes &given);
    const Bytes &state() const { return last; }
    // Goes on from an older state.
    void go_back(const Bytes &older) { last = older; }
    const Script &written() const { return script; }

private:
    Script script;
    Bytes last;
};

// Depends on seed and number alone. One in four goes to as many rules as a source has, and on.
Script drawn(std::uint64_t seed, std::uint64_t number);

struct Counts {
    calls::Tallies tallies{};
    std::uint64_t scripts = 0, steps = 0, full = 0, read_back = 0, sum = 0;

    void add(const Counts &other);
};

// Runs the script on the library beside the reference, twice, with complementary bytes in the buffer: words, states and
// buffers must be the reference's, words and states the same both times, and after each accepted close reading and showing
// the library's bytes must give the records of the list. Prints a difference if asked.
bool agrees(const Script &script, bool prints, Counts &counts);

void print(const Counts &counts);

} // namespace scripts
