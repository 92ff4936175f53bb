// Writes a seed corpus for fuzz.cpp: corpus DIRECTORY FILE...
// Each FILE is a program in bytes (examples/*.aspda, *.plain); besides there are calls of cases.hpp.
#include "scripts.hpp"

#include <cstdio>
#include <fstream>
#include <iterator>

namespace {

using calls::Bytes;
using reference::last_atom;

void put(const std::string &directory, unsigned operation, std::size_t number, const Bytes &set, const Bytes &program)
{
    static unsigned files = 0;
    std::ofstream stream(directory + "/" + std::to_string(files++), std::ios::binary);
    for (std::size_t byte : {std::size_t{operation}, number / 256, number % 256, set.size() / 256, set.size() % 256})
        stream.put(static_cast<char>(byte));
    for (const Bytes *part : {&set, &program})
        stream.write(reinterpret_cast<const char *>(part->data()), static_cast<std::streamsize>(part->size()));
}

// Calls of program assembly with this record, on states of each kind; scripts of few bytes.
void put_assembly(const std::string &directory)
{
    cases::Random random(1);
    const Bytes zeros(reference::state_length), record = cases::drawn_record(random, 2, 1);
    std::vector<Bytes> states{zeros};
    for (unsigned i = 0; i < 12; ++i) states.push_back(cases::drawn_state(random));
    for (const Bytes &state : states)
        for (unsigned operation = calls::begin; operation <= calls::assembled; ++operation)
            put(directory, operation, reference::assembled(state) + record.size(), state, record);
    for (std::uint64_t number = 0; number < 40; ++number) {
        scripts::Script script = scripts::drawn(1, number);
        Bytes steps;
        for (const calls::Call &call : script.steps) {
            if (call.program.size() > 255 || steps.size() > 1000) break;
            steps.push_back(static_cast<std::uint8_t>(call.operation - calls::begin));
            if (call.operation != calls::add) continue;
            steps.push_back(static_cast<std::uint8_t>(call.program.size()));
            steps.insert(steps.end(), call.program.begin(), call.program.end());
        }
        put(directory, calls::exports.size(), script.room, {}, steps);
    }
}

// Calls of every export with this program and set, and an output slice that is long enough for most.
void put_all(const std::string &directory, const Bytes &set, const Bytes &program)
{
    for (unsigned operation = 0; operation < calls::exports.size(); ++operation)
        put(directory, operation, calls::exports[operation].takes_rule ? 1 : 6000, set, program);
    // A length that suffices for every text, where the file can say it.
    std::size_t enough = reference::aspif_bound(program.size()) + cases::well_beyond;
    if (enough < 65536) put(directory, calls::aspif, enough, set, program);
}

// As many rules and records of sheets as a source takes, and one more; sets as large as the check and a source take, and
// one more.
void put_limits(const std::string &directory)
{
    constexpr std::size_t most_rules = reference::source_limits.rules, most_literals = reference::source_limits.set,
                          most_sheets = reference::source_limits.sheets;
    for (std::size_t rules : {most_rules, most_rules + 1})
        put_all(directory, reference::set_bytes({}), reference::program_bytes(reference::Program(rules)));
    const reference::Literal one{reference::atom, 0, 1}, two{reference::negated, 0, 2};
    const reference::Program choices{{true, 1, {one, two}, {}, {}, 0, 0}, {true, 2, {one, two}, {}, {}, 0, 0}};
    for (std::size_t sheets : {most_sheets, most_sheets + 1}) {
        std::vector<reference::Override> overrides(sheets, {1, 2, 0});
        std::vector<reference::Opposition> oppositions(sheets, {one, two, 2});
        put_all(directory, reference::set_bytes({one}), reference::program_bytes(choices, {overrides, {oppositions[0]}}));
        put_all(directory, reference::set_bytes({one}), reference::program_bytes(choices, {{overrides[0]}, oppositions}));
    }
    for (std::size_t literals :
         {reference::checked_set, reference::checked_set + 1, most_literals, most_literals + 1}) {
        reference::Literals set;
        for (unsigned i = 0; i < literals; ++i)
            set.push_back({i / last_atom * 2, i / last_atom, i % last_atom + 1});
        put_all(directory, reference::set_bytes(set), reference::program_bytes({}));
    }
}

} // namespace

int main(int count, char **words)
{
    if (count < 2) return std::puts("usage: corpus DIRECTORY FILE..."), 2;
    for (int i = 2; i < count; ++i) {
        std::ifstream stream(words[i], std::ios::binary);
        put_all(words[1], reference::set_bytes({}), Bytes((std::istreambuf_iterator<char>(stream)), {}));
    }
    put_limits(words[1]);
    put_assembly(words[1]);
    for (std::uint64_t number = 0; number < 30; ++number) {
        cases::Batch batch(1, number, cases::Style::small);
        for (std::uint64_t i = 0; i < cases::batch_size; ++i) {
            calls::Call call = batch.next();
            std::size_t last = calls::exports[call.operation].takes_rule ? call.rule : call.room;
            const Bytes &set = calls::exports[call.operation].takes_state ? call.state : call.set;
            if (call.program.size() + set.size() < 1000) put(words[1], call.operation, last % 65536, set, call.program);
        }
    }
}
