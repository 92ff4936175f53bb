// Every export on slices whose surroundings cannot be touched, and the stack that each needs.
//
//     memory fences    slices that end, then slices that start, at a page that cannot be accessed; inputs are read-only
//     memory heap      slices in heap blocks of their own length, output undefined: for valgrind's memcheck
//     memory stack     a table of each export's stack at inputs of limit size
//
// All compare words and buffers with the reference.
#include "scripts.hpp"

#include <algorithm>
#include <csignal>
#include <cstdio>
#include <cstdlib>
#include <cstring>
#include <functional>
#include <pthread.h>
#include <sys/mman.h>
#include <unistd.h>

#if __has_include(<valgrind/memcheck.h>)
#include <valgrind/memcheck.h>
#else // without valgrind's header the heap mode compares, and nothing more
#define VALGRIND_MAKE_MEM_UNDEFINED(start, length) 0
#define VALGRIND_CHECK_MEM_IS_DEFINED(start, length) 0
#define VALGRIND_CHECK_VALUE_IS_DEFINED(value) 0
#define VALGRIND_GET_VBITS(start, bits, length) 0
#define RUNNING_ON_VALGRIND 0
#endif

namespace {

using calls::Bytes;
using calls::Call;
using calls::Slices;
using cases::Batch;
using cases::Style;

constexpr std::uint64_t seed = 20;

using Visit = std::function<bool(const Call &)>;

// Every export with all its slices empty.
bool visit_empty(const Visit &visit)
{
    for (unsigned operation = 0; operation < calls::exports.size(); ++operation) {
        Call call;
        call.operation = operation;
        if (!visit(call)) return false;
    }
    return true;
}

bool visit_batches(Style style, std::uint64_t batches, const Visit &visit)
{
    for (std::uint64_t number = 0; number < batches; ++number) {
        Batch batch(seed, number, style);
        for (std::uint64_t i = 0; i < cases::batch_size; ++i)
            if (!visit(batch.next())) return false;
    }
    return true;
}

// The steps of scripts, each as a call of its own.
bool visit_scripts(std::uint64_t scripts, const Visit &visit)
{
    for (std::uint64_t number = 0; number < scripts; ++number)
        for (const Call &call : scripts::drawn(seed, number).steps)
            if (!visit(call)) return false;
    return true;
}

bool visit_all(std::uint64_t small, std::uint64_t limit, const Visit &visit)
{
    return visit_empty(visit) && visit_batches(Style::small, small, visit) &&
           visit_batches(Style::disjunctive, small / 10, visit) && visit_batches(Style::limit, limit, visit) &&
           visit_scripts(2 * limit, visit);
}

// ---- Fences

const std::size_t page = static_cast<std::size_t>(sysconf(_SC_PAGESIZE));

// Whole pages with an inaccessible one on either side.
class Fenced {
public:
    explicit Fenced(std::size_t capacity) : size((capacity + page - 1) / page * page)
    {
        void *mapped = mmap(nullptr, size + 2 * page, PROT_NONE, MAP_PRIVATE | MAP_ANONYMOUS, -1, 0);
        if (mapped == MAP_FAILED) std::abort();
        start = static_cast<std::uint8_t *>(mapped) + page;
        allow(PROT_READ | PROT_WRITE);
    }
    void allow(int access)
    {
        if (mprotect(start, size, access) != 0) std::abort();
    }
    // The bytes, at either end of the pages.
    std::uint8_t *place(const Bytes &bytes, bool at_end)
    {
        if (bytes.size() > size) std::abort();
        std::uint8_t *slice = at_end ? start + size - bytes.size() : start;
        std::copy(bytes.begin(), bytes.end(), slice);
        return slice;
    }

private:
    std::size_t size;
    std::uint8_t *start;
};

// The call under way, for the report of a fault.
const Call *under_way = nullptr;
bool is_at_end = false;

void report_fault(int)
{
    std::printf("FAULT in %s, slices at the %s of their pages, output slice of %zu bytes\nprogram %s\nset %s\nstate %s\n",
                calls::exports[under_way->operation].name, is_at_end ? "end" : "start", under_way->room,
                calls::hex(under_way->program.data(), under_way->program.size()).c_str(),
                calls::hex(under_way->set.data(), under_way->set.size()).c_str(),
                calls::hex(under_way->state.data(), under_way->state.size()).c_str());
    std::fflush(stdout);
    _exit(1);
}

class Fences {
public:
    bool agrees(const Call &call, bool at_end)
    {
        calls::Lent lent = calls::lent_to(call, 7);
        Slices slices{program.place(call.program, at_end), call.program.size(), set.place(call.set, at_end),
                      call.set.size(), out.place(lent.out, at_end), call.room, state.place(call.state, at_end),
                      call.state.size()};
        std::uint64_t expected = calls::by_reference(call, lent);
        protect(call.operation, PROT_READ);
        under_way = &call;
        is_at_end = at_end;
        std::uint64_t got = calls::by_library(call.operation, slices, call.rule);
        protect(call.operation, PROT_READ | PROT_WRITE);
        if (at_end) tallies[call.operation].count(call.operation, expected);
        if (got == expected && calls::is_as(lent, slices)) return true;
        calls::print_difference(call, expected, lent, got, slices);
        return false;
    }
    calls::Tallies tallies{};

private:
    // What the call only reads: begin writes nothing to the buffer, and a state's length is told without changing it.
    void protect(unsigned operation, int access)
    {
        program.allow(access);
        set.allow(access);
        if (operation == calls::begin) out.allow(access);
        if (operation == calls::assembled) state.allow(access);
    }

    // One byte above the longest program, and room for every result, ample rooms too; states of twice their length.
    Fenced program{reference::plain_limits.length + 8}, set{40000}, out{14 * reference::plain_limits.length},
        state{2 * reference::state_length};
};

int run_fences()
{
    struct sigaction action = {};
    action.sa_handler = report_fault;
    sigaction(SIGSEGV, &action, nullptr);
    sigaction(SIGBUS, &action, nullptr);
    Fences fences;
    Visit visit = [&](const Call &call) { return fences.agrees(call, true) && fences.agrees(call, false); };
    if (!visit_all(200, 6, visit)) return 1;
    calls::print(fences.tallies);
    if (!calls::all_called(fences.tallies)) return 1;
    std::puts("memory: no access outside the slices, no write to an input");
    return 0;
}

// ---- Heap blocks

// A heap block of the bytes' own length; one byte further is an error to memcheck.
class Block {
public:
    explicit Block(const Bytes &bytes) : start(static_cast<std::uint8_t *>(std::malloc(bytes.size())))
    {
        std::copy(bytes.begin(), bytes.end(), start);
    }
    Block(const Block &) = delete;
    Block &operator=(const Block &) = delete;
    ~Block() { std::free(start); }
    std::uint8_t *const start;
};

// Where a call writes in its output slice.
struct Written {
    std::size_t start, end;
};

Written written_by(const Call &call, std::uint64_t word, const Bytes &state_after)
{
    constexpr std::uint64_t smaller = 3;
    constexpr std::size_t end_record = 4;
    if (word >> 63 || !calls::exports[call.operation].takes_out) return {0, 0};
    std::size_t held = reference::assembled(call.state) - end_record;
    switch (call.operation) {
    case calls::begin: return {0, 0};
    case calls::add: return {held, reference::assembled(state_after) - end_record};
    case calls::close: return {held, held + end_record};
    default: break;
    }
    if (!calls::is_check(call.operation)) return {0, word};
    return {0, word >> 32 == smaller ? word & 0xffffffff : 0};
}

// True if what is written is defined and no other byte was written, not even with what it held.
bool is_defined_as_written(const std::uint8_t *out, std::size_t room, Written written)
{
    if (!RUNNING_ON_VALGRIND) return true;
    if (VALGRIND_CHECK_MEM_IS_DEFINED(out + written.start, written.end - written.start) != 0) return false;
    Bytes bits(room);
    (void)VALGRIND_GET_VBITS(out, bits.data(), room);
    auto is_undefined = [](std::uint8_t undefined) { return undefined == 0xff; };
    return std::all_of(bits.begin(), bits.begin() + written.start, is_undefined) &&
           std::all_of(bits.begin() + written.end, bits.end(), is_undefined);
}

bool heap_agrees(const Call &call, calls::Tallies &tallies)
{
    calls::Lent lent = calls::lent_to(call, 7);
    Block program(call.program), set(call.set), out(lent.out), state(call.state);
    std::uint64_t expected = calls::by_reference(call, lent);
    (void)VALGRIND_MAKE_MEM_UNDEFINED(out.start, call.room);
    Slices slices{program.start, call.program.size(), set.start,   call.set.size(), out.start, call.room,
                  state.start,   call.state.size()};
    std::uint64_t got = calls::by_library(call.operation, slices, call.rule);
    tallies[call.operation].count(call.operation, expected);
    Written written = written_by(call, got, lent.state);
    bool is_defined = VALGRIND_CHECK_VALUE_IS_DEFINED(got) == 0 && got == expected &&
                      VALGRIND_CHECK_MEM_IS_DEFINED(state.start, call.state.size()) == 0 &&
                      is_defined_as_written(out.start, call.room, written);
    if (is_defined && std::equal(lent.state.begin(), lent.state.end(), state.start) &&
        std::equal(lent.out.begin() + written.start, lent.out.begin() + written.end, out.start + written.start))
        return true;
    if (!is_defined) std::puts("an undefined answer or byte of a result, or a write behind the result");
    calls::print_difference(call, expected, lent, got, slices);
    return false;
}

int run_heap()
{
    calls::Tallies tallies{};
    if (!visit_all(100, 1, [&](const Call &call) { return heap_agrees(call, tallies); })) return 1;
    calls::print(tallies);
    if (!calls::all_called(tallies)) return 1;
    std::printf("memory: heap blocks of exact length, %s\n",
                RUNNING_ON_VALGRIND ? "under valgrind" : "compared only: not under valgrind");
    return 0;
}

// ---- The stack

constexpr std::size_t stack_size = 1 << 20;
constexpr std::uint8_t paint = 0xa5;

struct Painted {
    const Call *call;
    Slices slices;
    std::uint64_t word;
    std::uint8_t *frame;
};

void *call_on_painted(void *given)
{
    auto *painted = static_cast<Painted *>(given);
    painted->frame = static_cast<std::uint8_t *>(__builtin_frame_address(0));
    painted->word = calls::by_library(painted->call->operation, painted->slices, painted->call->rule);
    return nullptr;
}

// The bytes of stack that a call used: from the caller's frame to the lowest byte that lost its paint.
std::size_t stack_of(const Call &call, std::uint8_t *stack)
{
    Bytes out(call.room + 1);
    Bytes program = call.program, set = call.set, state = call.state;
    for (Bytes *part : {&program, &set, &state}) part->push_back(0); // so that no pointer is null
    Painted painted{&call,
                    {program.data(), call.program.size(), set.data(), call.set.size(), out.data(), call.room, state.data(),
                     call.state.size()},
                    0,
                    nullptr};
    std::memset(stack, paint, stack_size);
    pthread_attr_t attributes;
    pthread_t thread;
    pthread_attr_init(&attributes);
    if (pthread_attr_setstack(&attributes, stack, stack_size) != 0) std::abort();
    if (pthread_create(&thread, &attributes, call_on_painted, &painted) != 0) std::abort();
    pthread_join(thread, nullptr);
    pthread_attr_destroy(&attributes);
    const std::uint8_t *lowest = std::find_if(stack, painted.frame, [](std::uint8_t byte) { return byte != paint; });
    return static_cast<std::size_t>(painted.frame - lowest);
}

// A check of as many literals as it takes, which no rule mentions, tries each of them, one inside the other.
void visit_deepest(const Visit &visit)
{
    reference::Literals set;
    for (unsigned number = 1; number <= reference::checked_set; ++number) set.push_back({reference::atom, 0, number});
    for (unsigned operation : {calls::check_source, calls::check_plain}) {
        Call call;
        call.operation = operation;
        call.program = reference::program_bytes({});
        call.set = reference::set_bytes(set);
        call.room = call.set.size();
        visit(call);
    }
}

// The source with the most rules to append, by every export that takes a source.
void visit_most_appended(const Visit &visit)
{
    reference::Literals set;
    for (unsigned number = 1; number <= reference::checked_set; ++number) set.push_back({reference::atom, 0, number});
    for (unsigned operation = 0; operation < calls::exports.size(); ++operation) {
        const calls::Export &taken = calls::exports[operation];
        if (taken.form != calls::Form::source || taken.takes_state) continue;
        Call call;
        call.operation = operation;
        call.program = cases::most_appended();
        if (taken.takes_set) call.set = reference::set_bytes(set);
        if (taken.takes_rule) call.rule = reference::source_limits.rules;
        if (taken.takes_out) call.room = reference::plain_limits.length;
        visit(call);
    }
}

// An assembly of as many of the widest rules as there can be.
void visit_full_assembly(const Visit &visit)
{
    cases::Random random(seed);
    scripts::Writer writer(reference::source_limits.length);
    writer.step(calls::begin);
    for (std::size_t i = 0; i <= reference::source_limits.rules; ++i) writer.step(calls::add, cases::widest_record(random));
    for (unsigned operation : {calls::assembled, calls::drop, calls::close, calls::begin}) writer.step(operation);
    for (const Call &call : writer.written().steps) visit(call);
}

// What README and the header promise, with room for frames beside the arrays.
std::size_t most_stack(unsigned operation)
{
    switch (operation) {
    case calls::check_source: return 360 << 10;
    case calls::check_plain: return 352 << 10;
    case calls::extend: return 68 << 10;
    case calls::translate:
    case calls::quotient_source: return 224 << 10;
    case calls::aspif: return 96 << 10;
    case calls::begin:
    case calls::add:
    case calls::drop:
    case calls::close:
    case calls::assembled: return 1 << 10;
    default: return 4 << 10;
    }
}

// The same for a source without sheets, which needs no array for a normal form.
std::size_t most_stack_unsheeted(unsigned operation)
{
    switch (operation) {
    case calls::check_source: return 24 << 10;
    case calls::translate:
    case calls::quotient_source: return 4 << 10;
    default: return most_stack(operation);
    }
}

// No two bytes of the program could be a sheet record's mark.
bool is_unsheeted(const Bytes &program)
{
    auto marks = [](std::uint8_t letter, std::uint8_t colon) { return (letter == 'O' || letter == 'X') && colon == ':'; };
    return std::adjacent_find(program.begin(), program.end(), marks) == program.end();
}

int run_stack()
{
    auto *stack = static_cast<std::uint8_t *>(
        mmap(nullptr, stack_size, PROT_READ | PROT_WRITE, MAP_PRIVATE | MAP_ANONYMOUS, -1, 0));
    std::array<std::size_t, calls::exports.size()> most{}, most_unsheeted{};
    Visit measure = [&](const Call &call) {
        std::size_t used = stack_of(call, stack);
        most[call.operation] = std::max(most[call.operation], used);
        if (is_unsheeted(call.program)) most_unsheeted[call.operation] = std::max(most_unsheeted[call.operation], used);
        return true;
    };
    visit_all(20, 3, measure);
    visit_batches(Style::disjunctive, 40, measure);
    visit_deepest(measure);
    visit_most_appended(measure);
    visit_full_assembly(measure);
    bool well = true;
    std::puts("export            stack in bytes, of at most; without sheets, of at most");
    for (unsigned i = 0; i < calls::exports.size(); ++i) {
        std::printf("%-16s %8zu %8zu %8zu %8zu\n", calls::exports[i].name, most[i], most_stack(i), most_unsheeted[i],
                    most_stack_unsheeted(i));
        // A call takes some stack: 0 is a table of nothing.
        well = well && 0 < most[i] && most[i] <= most_stack(i);
        well = well && 0 < most_unsheeted[i] && most_unsheeted[i] <= most_stack_unsheeted(i);
    }
    return well ? 0 : 1;
}

} // namespace

int main(int count, char **words)
{
    std::string mode = count == 2 ? words[1] : "";
    if (mode == "fences") return run_fences();
    if (mode == "heap") return run_heap();
    if (mode == "stack") return run_stack();
    return std::puts("usage: memory fences | heap | stack"), 2;
}
