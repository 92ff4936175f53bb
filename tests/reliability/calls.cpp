#include "calls.hpp"

#include "../../include/aspda.h"

#include <algorithm>
#include <cinttypes>
#include <cstdio>
#include <stdexcept>

namespace calls {

namespace {

using WithSet = std::uint64_t(const std::uint8_t *, std::size_t, const std::uint8_t *, std::size_t, std::uint8_t *,
                              std::size_t);

std::uint64_t with_set(WithSet *function, const Slices &s)
{
    return function(s.program, s.program_length, s.set, s.set_length, s.out, s.room);
}

} // namespace

std::uint64_t by_library(unsigned operation, const Slices &s, std::uint32_t rule)
{
    switch (operation) {
    case read_source: return aspda_read_source(s.program, s.program_length);
    case read_plain: return aspda_read_plain(s.program, s.program_length);
    case show_source: return aspda_show_source(s.program, s.program_length, rule);
    case show_plain: return aspda_show_plain(s.program, s.program_length, rule);
    case translate: return aspda_translate(s.program, s.program_length, s.out, s.room);
    case quotient_source: return with_set(aspda_quotient_source, s);
    case quotient_plain: return with_set(aspda_quotient_plain, s);
    case extend: return with_set(aspda_extend, s);
    case restriction: return aspda_restrict(s.set, s.set_length, s.out, s.room);
    case check_source: return with_set(aspda_check_source, s);
    case check_plain: return with_set(aspda_check_plain, s);
    case aspif: return aspda_aspif(s.program, s.program_length, s.out, s.room);
    case begin: return aspda_begin(s.state, s.state_length, s.out, s.room);
    case add: return aspda_add(s.state, s.state_length, s.program, s.program_length, s.out, s.room);
    case drop: return aspda_drop(s.state, s.state_length);
    case close: return aspda_close(s.state, s.state_length, s.out, s.room);
    case assembled: return aspda_assembled(s.state, s.state_length);
    default: throw std::logic_error("an operation that the library is not asked for");
    }
}

std::uint64_t by_reference(const Call &call, Lent &lent)
{
    Bytes &buffer = lent.out;
    Form form = exports[call.operation].form;
    switch (call.operation) {
    case read_source:
    case read_plain: return reference::read(form, call.program);
    case show_source:
    case show_plain: return reference::show(form, call.program, call.rule);
    case translate: return reference::translate(call.program, buffer);
    case quotient_source:
    case quotient_plain: return reference::quotient(form, call.program, call.set, buffer);
    case extend: return reference::extend(call.program, call.set, buffer);
    case restriction: return reference::restriction(call.set, buffer);
    case check_source:
    case check_plain: return reference::check(form, call.program, call.set, buffer);
    case aspif: return reference::aspif(call.program, buffer);
    case begin: return reference::begin(lent.state, buffer);
    case add: return reference::add(lent.state, call.program, buffer);
    case drop: return reference::drop(lent.state);
    case close: return reference::close(lent.state, buffer);
    case assembled: return reference::assembled(lent.state);
    default: throw std::logic_error("an operation that the reference is not asked for");
    }
}

Bytes filling(std::size_t length, unsigned salt)
{
    Bytes bytes(length);
    for (std::size_t i = 0; i < length; ++i) bytes[i] = static_cast<std::uint8_t>(i * 151 + i / 256 + salt);
    return bytes;
}

Lent lent_to(const Call &call, unsigned salt)
{
    return {call.state, filling(call.room, salt)};
}

bool is_as(const Lent &lent, const Slices &slices)
{
    return std::equal(lent.out.begin(), lent.out.end(), slices.out) &&
           std::equal(lent.state.begin(), lent.state.end(), slices.state);
}

void Tally::count(unsigned operation, std::uint64_t word)
{
    ++calls;
    if (ASPDA_IS_REFUSAL(word)) {
        ++refusals.at(ASPDA_REFUSAL_NUMBER(word));
        return;
    }
    ++accepted;
    if (is_check(operation)) ++verdicts.at(ASPDA_VERDICT(word));
}

void Tally::add(const Tally &other)
{
    calls += other.calls;
    accepted += other.accepted;
    for (std::size_t i = 0; i < refusals.size(); ++i) refusals[i] += other.refusals[i];
    for (std::size_t i = 0; i < verdicts.size(); ++i) verdicts[i] += other.verdicts[i];
}

void print(const Tallies &tallies)
{
    for (std::size_t i = 0; i < exports.size(); ++i) {
        const Tally &tally = tallies[i];
        std::printf("%s: %" PRIu64 " cases, %" PRIu64 " accepted", exports[i].name, tally.calls, tally.accepted);
        if (is_check(static_cast<unsigned>(i)))
            std::printf(" (yes %" PRIu64 ", clash %" PRIu64 ", broken %" PRIu64 ", smaller %" PRIu64 ")",
                        tally.verdicts[0], tally.verdicts[1], tally.verdicts[2], tally.verdicts[3]);
        std::printf(", refused");
        for (std::size_t number = 1; number < tally.refusals.size(); ++number)
            if (tally.refusals[number] > 0) std::printf(" %zu: %" PRIu64, number, tally.refusals[number]);
        std::printf("\n");
    }
}

bool all_called(const Tallies &tallies)
{
    bool well = true;
    for (std::size_t i = 0; i < exports.size(); ++i) {
        if (tallies[i].calls > 0) continue;
        std::printf("%s was not called\n", exports[i].name);
        well = false;
    }
    return well;
}

std::string hex(const std::uint8_t *bytes, std::size_t length)
{
    const char digits[] = "0123456789abcdef";
    std::string text;
    for (std::size_t i = 0; i < length; ++i) text += {digits[bytes[i] / 16], digits[bytes[i] % 16]};
    return text;
}

void print_difference(const Call &call, std::uint64_t expected, const Lent &lent, std::uint64_t got,
                      const Slices &slices)
{
    std::printf("DIFFERENT %s, rule %" PRIu32 ", output slice of %zu bytes\n", exports[call.operation].name, call.rule,
                call.room);
    std::printf("program %s\n", hex(call.program.data(), call.program.size()).c_str());
    std::printf("set %s\n", hex(call.set.data(), call.set.size()).c_str());
    std::printf("state %s\n", hex(call.state.data(), call.state.size()).c_str());
    auto tell = [](const char *who, std::uint64_t word, const std::string &out, const std::string &state) {
        std::printf("%s word %016" PRIx64 ", buffer %s, state %s\n", who, word, out.c_str(), state.c_str());
    };
    tell("reference:", expected, hex(lent.out.data(), lent.out.size()), hex(lent.state.data(), lent.state.size()));
    tell("library:  ", got, hex(slices.out, call.room), hex(slices.state, call.state.size()));
}

} // namespace calls
