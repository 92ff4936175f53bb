// The exports behind one way to call them, and the reference behind the same.
#pragma once

#include "reference.hpp"

#include <array>
#include <string>

namespace calls {

using reference::Bytes;
using reference::Form;

struct Export {
    const char *name; // behind `aspda_`
    Form form;
    bool takes_program, takes_set, takes_rule, takes_out;
    bool takes_state = false; // a call of program assembly; its program is the record
};

enum Operation : unsigned {
    read_source, read_plain, show_source, show_plain, translate, quotient_source, quotient_plain, extend, restriction,
    check_source, check_plain, aspif, begin, add, drop, close, assembled
};

constexpr std::array<Export, 17> exports{{
    {"read_source", Form::source, true, false, false, false},
    {"read_plain", Form::plain, true, false, false, false},
    {"show_source", Form::source, true, false, true, false},
    {"show_plain", Form::plain, true, false, true, false},
    {"translate", Form::source, true, false, false, true},
    {"quotient_source", Form::source, true, true, false, true},
    {"quotient_plain", Form::plain, true, true, false, true},
    {"extend", Form::source, true, true, false, true},
    {"restrict", Form::plain, false, true, false, true},
    {"check_source", Form::source, true, true, false, true},
    {"check_plain", Form::plain, true, true, false, true},
    {"aspif", Form::plain, true, false, false, true},
    {"begin", Form::source, false, false, false, true, true},
    {"add", Form::source, true, false, false, true, true},
    {"drop", Form::source, false, false, false, false, true},
    {"close", Form::source, false, false, false, true, true},
    {"assembled", Form::source, false, false, false, false, true},
}};

inline bool is_check(unsigned operation) { return operation == check_source || operation == check_plain; }

// A call; what its operation does not take is empty or 0.
struct Call {
    unsigned operation = 0;
    Bytes program, set;
    std::uint32_t rule = 0;
    std::size_t room = 0;
    Bytes state;
};

// What a call is lent and may write to: as it is before the call, or afterwards.
struct Lent {
    Bytes state, out;

    bool operator==(const Lent &other) const { return state == other.state && out == other.out; }
};

// Slices as the library is lent them. No pointer is null.
struct Slices {
    const std::uint8_t *program;
    std::size_t program_length;
    const std::uint8_t *set;
    std::size_t set_length;
    std::uint8_t *out;
    std::size_t room;
    std::uint8_t *state;
    std::size_t state_length;
};

std::uint64_t by_library(unsigned operation, const Slices &slices, std::uint32_t rule);
std::uint64_t by_reference(const Call &call, Lent &lent);

// What stands in a lent buffer before a call.
Bytes filling(std::size_t length, unsigned salt);
// What a call is lent before it is made.
Lent lent_to(const Call &call, unsigned salt);
// Whether state and output slice are as they should be after a call.
bool is_as(const Lent &lent, const Slices &slices);

constexpr std::size_t last_refusal = 15;

// How often an operation gave results, each refusal number and each verdict.
struct Tally {
    std::uint64_t calls = 0, accepted = 0;
    std::array<std::uint64_t, last_refusal + 1> refusals{};
    std::array<std::uint64_t, 4> verdicts{};

    void count(unsigned operation, std::uint64_t word);
    void add(const Tally &other);
};

using Tallies = std::array<Tally, exports.size()>;

void print(const Tallies &tallies);
// False, and told, if an export was not called: a run without calls has shown nothing.
bool all_called(const Tallies &tallies);

std::string hex(const std::uint8_t *bytes, std::size_t length);
// The call, and both answers where they differ.
void print_difference(const Call &call, std::uint64_t expected, const Lent &lent, std::uint64_t got,
                      const Slices &slices);

} // namespace calls
