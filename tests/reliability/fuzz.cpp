// A libFuzzer target for all exports, with the reference as oracle.
//
// An input is: operation (1 byte), number (2 bytes: the output slice's length; show's rule), length of the set
// (2 bytes), the set, the program. Of a call of program assembly the state stands in the set's place and the record in the
// program's. Slices end at a page that cannot be accessed: a read behind one stops the run.
//
// One operation more is a script of such calls, few and on a small buffer: it takes as long as many calls. The number's
// remainder is the buffer's length. Behind the header each step is a byte, and of add the length of its record (1 byte)
// and the record. The step's byte says the operation by its remainder by 5; the quotient says whether the output slice is
// just enough (1), one byte less (2) or the whole buffer (else), and whether the step goes back to an older state (above
// 47).
//
// Coverage comes from the reference, which clang instruments, and from the library's machine code (blocks.hpp):
// libFuzzer keeps the input that first met a block.
#include "blocks.hpp"
#include "scripts.hpp"

#include <algorithm>
#include <cstdio>
#include <cstdlib>
#include <sys/mman.h>

extern "C" size_t LLVMFuzzerMutate(uint8_t *data, size_t size, size_t most);

namespace {

using calls::Bytes;
using calls::Call;

constexpr std::size_t header = 5;
constexpr unsigned kinds = calls::exports.size() + 1;
constexpr std::size_t most_steps = 40, most_room = 1000;

bool is_script(const std::uint8_t *data, std::size_t size)
{
    return size >= header && data[0] % kinds == calls::exports.size();
}

scripts::Script decoded_script(const std::uint8_t *data, std::size_t size)
{
    scripts::Writer writer((data[1] * 256u + data[2]) % most_room);
    std::vector<Bytes> history{writer.state()};
    for (std::size_t at = header; at < size && history.size() <= most_steps;) {
        unsigned step = data[at++], operation = calls::begin + step % 5, more = step / 5;
        Bytes record;
        if (operation == calls::add && at < size) {
            std::size_t length = data[at++];
            length = std::min(length, size - at);
            record.assign(data + at, data + at + length);
            at += length;
        }
        if (more > 47) writer.go_back(history[more * history.size() / 64]);
        std::size_t room = writer.written().room, needed = reference::assembled(writer.state()) + record.size();
        if (more == 1 || more == 2) room = std::min(room, needed + 1 - more);
        writer.step(operation, record, room, writer.state());
        history.push_back(writer.state());
    }
    return writer.written();
}

Call decoded(const std::uint8_t *data, std::size_t size)
{
    Call call;
    if (size < header) return call;
    unsigned number = data[1] * 256u + data[2];
    std::size_t set_length = std::min<std::size_t>(data[3] * 256u + data[4], size - header);
    call.operation = data[0] % kinds % calls::exports.size();
    const calls::Export &taken = calls::exports[call.operation];
    if (taken.takes_rule) call.rule = number;
    if (taken.takes_out) call.room = number;
    if (taken.takes_set) call.set.assign(data + header, data + header + set_length);
    if (taken.takes_state) call.state.assign(data + header, data + header + set_length);
    if (taken.takes_program) call.program.assign(data + header + set_length, data + size);
    return call;
}

Bytes encoded(const Call &call)
{
    std::size_t number = calls::exports[call.operation].takes_rule ? call.rule : call.room;
    const Bytes &set = calls::exports[call.operation].takes_state ? call.state : call.set;
    Bytes bytes{static_cast<std::uint8_t>(call.operation), static_cast<std::uint8_t>(number / 256),
                static_cast<std::uint8_t>(number), static_cast<std::uint8_t>(set.size() / 256),
                static_cast<std::uint8_t>(set.size())};
    bytes.insert(bytes.end(), set.begin(), set.end());
    bytes.insert(bytes.end(), call.program.begin(), call.program.end());
    return bytes;
}

// libFuzzer looks at these too.
__attribute__((section("__libfuzzer_extra_counters"))) std::uint8_t met_now[blocks::most];

calls::Tallies tallies;
scripts::Counts in_scripts;

void report()
{
    calls::print(tallies);
    scripts::print(in_scripts);
    blocks::report();
}

// A slice that ends at an inaccessible page.
class Fenced {
public:
    Fenced()
    {
        void *mapped = mmap(nullptr, size + 65536, PROT_NONE, MAP_PRIVATE | MAP_ANONYMOUS, -1, 0);
        if (mapped == MAP_FAILED || mprotect(mapped, size, PROT_READ | PROT_WRITE) != 0) std::abort();
        end = static_cast<std::uint8_t *>(mapped) + size;
    }
    std::uint8_t *place(const Bytes &bytes)
    {
        if (bytes.size() > size) std::abort();
        return std::copy(bytes.begin(), bytes.end(), end - bytes.size()), end - bytes.size();
    }

private:
    static constexpr std::size_t size = 1 << 17;
    std::uint8_t *end;
};

} // namespace

extern "C" int LLVMFuzzerInitialize(int *, char ***)
{
    std::atexit(report);
    blocks::watch(met_now);
    return 0;
}

extern "C" int LLVMFuzzerTestOneInput(const uint8_t *data, size_t size)
{
    static Fenced program, set, out, state;
    if (is_script(data, size)) {
        if (!scripts::agrees(decoded_script(data, size), true, in_scripts)) std::abort();
        return 0;
    }
    Call call = decoded(data, size);
    calls::Lent lent = calls::lent_to(call, 7);
    calls::Slices slices{program.place(call.program), call.program.size(), set.place(call.set),     call.set.size(),
                         out.place(lent.out),         call.room,           state.place(call.state), call.state.size()};
    std::uint64_t got = calls::by_library(call.operation, slices, call.rule);
    std::uint64_t expected = calls::by_reference(call, lent);
    tallies[call.operation].count(call.operation, expected);
    if (got != expected || !calls::is_as(lent, slices) ||
        !std::equal(call.program.begin(), call.program.end(), slices.program) ||
        !std::equal(call.set.begin(), call.set.end(), slices.set)) {
        calls::print_difference(call, expected, lent, got, slices);
        std::abort();
    }
    return 0;
}

namespace {

// One more step at the end of a script; 0 if there is no room for it.
std::size_t with_step(std::uint8_t *data, std::size_t size, std::size_t most, cases::Random &random)
{
    Bytes step{static_cast<std::uint8_t>(random.below(random.once_in(3) ? 256 : 5))};
    if (step[0] % 5 == calls::add - calls::begin) {
        Bytes record = random.once_in(4) ? cases::widest_record(random) : cases::drawn_record(random, 2, 1);
        if (random.once_in(4)) cases::damage(random, record);
        record.resize(std::min<std::size_t>(record.size(), 255));
        step.push_back(static_cast<std::uint8_t>(record.size()));
        step.insert(step.end(), record.begin(), record.end());
    }
    if (size + step.size() > most) return 0;
    std::copy(step.begin(), step.end(), data + size);
    return size + step.size();
}

// Another length of the output slice: the result's or one less.
void fit(Call &call, cases::Random &random)
{
    std::size_t bound = reference::aspif_bound(call.program.size());
    if (call.operation == calls::aspif && bound + cases::well_beyond < 65536 && random.once_in(2)) {
        call.room = bound - 1 + random.below(random.once_in(2) ? 2 : cases::well_beyond);
        return;
    }
    calls::Lent lent{call.state, Bytes(65535)};
    std::uint64_t word = calls::by_reference(call, lent);
    if (word >> 63) return;
    std::size_t needed = calls::is_check(call.operation)                   ? call.set.size()
                         : calls::exports[call.operation].takes_state ? reference::assembled(lent.state)
                                                                           : std::min<std::uint64_t>(word, 65535);
    call.room = needed - (needed > 0 && random.once_in(2) ? 1 : 0);
}

} // namespace

// Half of the changes are libFuzzer's own, half are cases.hpp's damage to the program, the set or the state, another
// operation, or an output slice of the result's length or one less, for a text in aspif also around the length that always
// suffices; of a script one more step.
extern "C" size_t LLVMFuzzerCustomMutator(uint8_t *data, size_t size, size_t most, unsigned seed)
{
    cases::Random random(seed);
    if (size < header || random.once_in(2)) return LLVMFuzzerMutate(data, size, most);
    if (is_script(data, size)) {
        std::size_t longer = with_step(data, size, most, random);
        return longer > 0 ? longer : LLVMFuzzerMutate(data, size, most);
    }
    Call call = decoded(data, size);
    switch (random.below(4)) {
    case 0: cases::damage(random, call.program); break;
    case 1:
        if (calls::exports[call.operation].takes_state) cases::damage_state(random, call.state);
        else cases::damage(random, call.set);
        break;
    case 2:
        call.operation = static_cast<unsigned>(random.below(calls::exports.size()));
        if (call.state.empty()) call.state = cases::drawn_state(random);
        break;
    default: fit(call, random);
    }
    Bytes changed = encoded(call);
    if (changed.size() > most) return LLVMFuzzerMutate(data, size, most);
    std::copy(changed.begin(), changed.end(), data);
    return changed.size();
}
