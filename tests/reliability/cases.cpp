#include "cases.hpp"

#include "../../include/aspda.h"

#include <algorithm>
#include <string>

namespace cases {

using reference::Literal;
using reference::Literals;
using reference::Opposition;
using reference::Override;
using reference::Program;
using reference::Rule;
using reference::checked_set;
using reference::last_atom;
using reference::last_tag;
using reference::plain_limits;
using reference::source_limits;

namespace {

constexpr std::size_t literal_size = 5, set_header = 4, rule_header = 7;

// Room for every result of a call with these inputs.
std::size_t ample(const Call &call)
{
    bool is_source = calls::exports[call.operation].form == Form::source;
    std::size_t length = is_source ? reference::summed_length(call.program) : call.program.size();
    return reference::times_longer * length + 6 * call.set.size() + 64;
}

Bytes encoded(Literals set)
{
    std::sort(set.begin(), set.end());
    set.erase(std::unique(set.begin(), set.end()), set.end());
    return reference::set_bytes(set);
}

Literals decoded(const Bytes &set)
{
    Literals literals;
    for (std::size_t at = set_header; at + literal_size <= set.size(); at += literal_size)
        literals.push_back({set[at], set[at + 1] * 256u + set[at + 2], set[at + 3] * 256u + set[at + 4]});
    return literals;
}

// The first `count` literals, by kind, tag and number; of the marks those with tags 1 to 3.
Literals run_of_literals(std::size_t count, bool negated_too, unsigned last_kind)
{
    Literals run;
    for (unsigned kind = 0; kind <= std::min<unsigned>(last_kind, reference::derived_negated); ++kind) {
        if (kind == reference::negated && !negated_too) continue;
        bool is_mark = kind >= reference::defeated;
        for (unsigned tag = is_mark ? 1 : 0; tag <= (is_mark ? 3u : 0u); ++tag)
            for (unsigned number = 1; number <= last_atom && run.size() < count; ++number)
                run.push_back({kind, tag, number});
    }
    return run;
}

// Any literal of the plain form, kinds alike.
Literal evenly_drawn(Random &random)
{
    auto upto = [&](unsigned most) { return static_cast<unsigned>(random.between(1, most)); };
    auto kind = static_cast<unsigned>(random.below(plain_limits.last_kind + 1));
    if (kind == reference::rule_defeated) return {kind, 0, upto(reference::last_rule_number)};
    return {kind, kind < reference::defeated ? 0 : upto(last_tag), upto(last_atom)};
}

// A byte that is often just inside or just outside a range of document 01.
std::uint8_t near(Random &random, std::uint8_t old)
{
    constexpr std::size_t kind = plain_limits.last_kind, count = plain_limits.head, naf = plain_limits.naf,
                          set = checked_set, tag = last_tag, atom = last_atom % 256;
    constexpr std::array<std::size_t, 14> edges{0,   1,       kind, kind + 1, count, naf,      naf + 1,
                                                set, set + 1, tag,  tag + 1,  atom,  atom + 1, 255};
    switch (random.below(4)) {
    case 0: return static_cast<std::uint8_t>(random.pick(edges));
    case 1: return static_cast<std::uint8_t>(old + 1);
    case 2: return static_cast<std::uint8_t>(old - 1);
    default: return static_cast<std::uint8_t>(old ^ 1u << random.below(8));
    }
}

// Puts one of a set's literals over or in place of another.
void misplace(Random &random, Bytes &set)
{
    std::size_t count = (set.size() - set_header) / literal_size;
    auto at = [&](std::size_t i) { return set.begin() + set_header + literal_size * i; };
    std::size_t from = random.below(count), to = random.once_in(2) ? (from + 1) % count : random.below(count);
    if (from == to) return;
    if (random.once_in(3)) std::copy_n(at(from), literal_size, at(to));
    else std::swap_ranges(at(from), at(from) + literal_size, at(to));
}

// Where something stands that looks like the mark of a record with one of these letters.
std::vector<std::size_t> marks_in(const Bytes &bytes, const std::string &letters)
{
    std::vector<std::size_t> marks;
    for (std::size_t i = 0; i + 1 < bytes.size(); ++i)
        if (bytes[i + 1] == ':' && letters.find(static_cast<char>(bytes[i])) != std::string::npos) marks.push_back(i);
    return marks;
}

// Cuts the last record of a sheet; false if there is none.
bool cut_sheet(Random &random, Bytes &bytes)
{
    std::vector<std::size_t> marks = marks_in(bytes, "OX");
    if (marks.empty()) return false;
    bytes.resize(std::min(bytes.size(), marks.back() + random.between(1, 12)));
    return true;
}

// Puts a record of a sheet, right or wrong, whole or cut, before something that looks like a record.
void insert_sheet(Random &random, Bytes &bytes)
{
    std::vector<std::size_t> marks = marks_in(bytes, "SDOXE");
    if (marks.empty()) return;
    auto number = [&] { return static_cast<std::uint8_t>(random.once_in(4) ? near(random, 1) : random.between(1, 4)); };
    auto sign = [&] { return static_cast<std::uint8_t>(random.once_in(8) ? near(random, 1) : random.below(2)); };
    Bytes record{'O', ':', 0, number(), 0, number()};
    if (random.once_in(2)) record = {'X', ':', sign(), 0, 0, 0, number(), sign(), 0, 0, 0, number()};
    if (random.once_in(5)) record.resize(random.below(record.size()));
    bytes.insert(bytes.begin() + random.pick(marks), record.begin(), record.end());
}

} // namespace

void damage(Random &random, Bytes &bytes)
{
    std::size_t at = random.below(bytes.size());
    switch (random.below(9)) {
    case 0: // cut
        if (random.once_in(3) && cut_sheet(random, bytes)) return;
        bytes.resize(random.once_in(2) ? at : bytes.size() - std::min(bytes.size(), random.between(1, 8)));
        return;
    case 1: // longer
        bytes.resize(bytes.size() + random.between(1, 7), static_cast<std::uint8_t>(random.next()));
        return;
    case 2: // miscounted: a program's end record
        if (!bytes.empty()) bytes.back() = near(random, bytes.back());
        return;
    case 3: // miscounted: a set's literals, or a first rule's tag
        if (bytes.size() >= set_header) bytes[random.between(2, 3)] = near(random, bytes[3]);
        return;
    case 4: // wrong order
        if (bytes.size() >= set_header + literal_size) misplace(random, bytes);
        return;
    case 5: // a sheet's record more
        insert_sheet(random, bytes);
        return;
    case 6: // a stretch left out
        bytes.erase(bytes.begin() + at, bytes.begin() + std::min(bytes.size(), at + random.between(1, 7)));
        return;
    default: // flipped
        if (!bytes.empty()) bytes[at] = near(random, bytes[at]);
    }
}

namespace {

// A literal of a source; of one that may stand in a defeasible head if it is an option.
Literal of_source(Random &random, bool is_option)
{
    auto upto = [&](unsigned most) { return static_cast<unsigned>(random.once_in(30) ? most : random.between(1, most)); };
    auto kind = static_cast<unsigned>(random.below(is_option ? reference::defeated : source_limits.last_kind + 1));
    return {kind, kind < reference::defeated ? 0 : upto(last_tag), upto(last_atom)};
}

Literals of_source(Random &random, std::size_t count, bool are_options)
{
    Literals some;
    while (some.size() < count) some.push_back(of_source(random, are_options));
    return some;
}

Bytes record_of(const Rule &rule)
{
    constexpr std::size_t end_record = 4;
    Bytes record = reference::program_bytes({rule});
    record.resize(record.size() - end_record);
    return record;
}

// A record that has no literals, or whose first one is a defeat mark: wrong in a defeasible rule.
void spoil_head(Random &random, Bytes &record)
{
    constexpr std::size_t kind = rule_header, tag = rule_header + 2;
    if (random.once_in(3)) record = {'D', ':', 0, 1, 0, 0, 0};
    else if (record.size() > tag) record[kind] |= 2, record[tag] = 1;
}

// How many bytes of records a state and the record to add need, and an end record.
std::size_t needed_by(const Call &call)
{
    std::size_t needed = reference::assembled(call.operation == calls::begin ? Bytes{} : call.state);
    if (call.program.size() >= rule_header)
        needed += rule_header + literal_size * (call.program[4] + call.program[5] + call.program[6]);
    return needed;
}

} // namespace

Bytes drawn_record(Random &random, std::size_t head, std::size_t body)
{
    Rule made{};
    made.defeasible = random.once_in(2);
    made.tag = made.defeasible ? static_cast<unsigned>(random.between(1, last_tag)) : 0;
    made.head = of_source(random, random.between(made.defeasible ? 1 : 0, head), made.defeasible);
    made.positive = of_source(random, random.between(0, body), false);
    made.naf = of_source(random, random.between(0, body), false);
    return record_of(made);
}

Bytes widest_record(Random &random)
{
    Rule made{};
    made.defeasible = random.once_in(2);
    made.tag = made.defeasible ? last_tag : 0;
    made.head = of_source(random, source_limits.head, made.defeasible);
    made.positive = of_source(random, source_limits.positive, false);
    made.naf = of_source(random, source_limits.naf, false);
    return record_of(made);
}

Bytes drawn_state(Random &random)
{
    using Sizes = std::vector<std::size_t>;
    const reference::Limits most = source_limits;
    Bytes state(reference::state_length);
    state[0] = random.once_in(10) ? 2 : 1;
    std::size_t held = random.pick(Sizes{0, 1, 2, 3, 8, 20, most.rules - 1, most.rules, random.below(most.rules + 1)});
    state[2] = static_cast<std::uint8_t>(held / 256);
    state[3] = static_cast<std::uint8_t>(held % 256);
    for (std::size_t i = 0; i < held; ++i) {
        bool is_defeasible = random.once_in(2);
        std::size_t heads = random.between(is_defeasible ? 1 : 0, most.head);
        state[reference::state_heads + i] = static_cast<std::uint8_t>(heads + (is_defeasible ? 127 : 0));
        state[reference::state_bodies + i] = static_cast<std::uint8_t>(random.below(most.positive + most.naf + 1));
    }
    return state;
}

void damage_state(Random &random, Bytes &state)
{
    constexpr std::size_t heads = reference::state_heads, bodies = reference::state_bodies, length = reference::state_length;
    using Values = std::vector<unsigned>;
    if (state.size() != length || random.once_in(12)) {
        state.assign(length, 0);
        return;
    }
    std::size_t held = state[2] * 256u + state[3], most = source_limits.rules;
    std::size_t near_end = std::min(most - 1, held - std::min(held, random.below(2)));
    auto flip = [&](std::size_t at) { state[at] = static_cast<std::uint8_t>(state[at] ^ 1u << random.below(8)); };
    switch (random.below(8)) {
    case 0: flip(random.below(heads)); return;
    case 1: flip(random.below(length)); return;
    case 2: state[heads + near_end] = static_cast<std::uint8_t>(random.pick(Values{0, 1, 16, 17, 127, 128, 143, 144, 255})); return;
    case 3: state[bodies + near_end] = static_cast<std::uint8_t>(random.pick(Values{0, 1, 31, 32, 33, 128, 255})); return;
    case 4: state[3] = static_cast<std::uint8_t>(state[3] + (random.once_in(2) ? 1 : 255)); return;
    case 5: state.resize(random.once_in(2) ? length - random.below(2) * 2 + 1 : random.below(2 * length)); return;
    case 6:
        for (std::uint8_t &byte : state) byte = static_cast<std::uint8_t>(random.next());
        return;
    default: state[0] = static_cast<std::uint8_t>(random.below(4));
    }
}

Bytes most_appended()
{
    constexpr reference::Limits most = source_limits;
    auto option = [](std::size_t i) {
        return Literal{i % 2 == 0 ? reference::negated : reference::atom, 0, static_cast<unsigned>(last_atom - 3 * i)};
    };
    Rule widest{true, 0, {}, Literals(most.positive, option(0)), Literals(most.naf, option(1)), 0, 0};
    for (std::size_t i = 0; i < most.head; ++i) widest.head.push_back(option(i));
    Program rules(most.rules, widest);
    for (std::size_t i = 0; i < most.rules; ++i) rules[i].tag = last_tag - static_cast<unsigned>(i % (most.sheets + 1));
    reference::Sheets sheets;
    for (std::size_t i = 1; i <= most.sheets; ++i) sheets.overrides.push_back({rules[0].tag, rules[i].tag, i});
    for (std::size_t i = 0; i < most.head; ++i)
        for (std::size_t j = 0; j < i && sheets.oppositions.size() < most.sheets; ++j)
            sheets.oppositions.push_back({option(i), option(j), most.rules - i});
    return reference::program_bytes(rules, sheets);
}

namespace {

Style style_of(std::uint64_t number)
{
    Random random(number);
    if (random.once_in(500)) return Style::limit;
    return random.once_in(12) ? Style::disjunctive : Style::small;
}

} // namespace

Batch::Batch(std::uint64_t seed, std::uint64_t number) : Batch(seed, number, style_of(seed + 31 * number)) {}

Batch::Batch(std::uint64_t seed, std::uint64_t number, Style which)
    : random(Random(seed).next() ^ Random(~number).next()), style(which)
{
    switch (style) {
    case Style::small: make_small(); break;
    case Style::disjunctive: make_disjunctive(); break;
    case Style::limit: make_limit(); break;
    }
    make_sets(Form::source);
    make_sets(Form::plain);
}

void Batch::choose_shape()
{
    using Numbers = std::vector<unsigned>;
    atoms = random.pick(Numbers{1, 2, 3, 4, 6, 10, 30, last_atom});
    tags = random.pick(Numbers{1, 2, 3, last_tag});
    rules = random.pick(Numbers{0, 1, 2, 3, 4, 5, 6, 8, 10, 12});
    head = random.pick(Numbers{1, 2, 2, 3, 4});
    body = random.pick(Numbers{0, 1, 2, 2, 3});
    if (random.once_in(20)) rules = random.between(20, 60);
    if (random.once_in(15)) head = source_limits.head;
    if (random.once_in(25)) body = source_limits.positive;
}

// How many records of a kind the sheets of a small source have.
std::size_t Batch::sheet_count()
{
    if (random.once_in(40)) return random.between(source_limits.sheets - 1, source_limits.sheets + 1);
    return random.once_in(10) ? random.between(6, 20) : random.between(random.once_in(10) ? 0 : 1, 5);
}

// Mostly of tags and options that the source's defeasible rules have; some again, some turned round.
void Batch::make_sheets(std::size_t overrides, std::size_t oppositions)
{
    Literals headed; // options, each with its rule's tag
    for (const Rule &one : source.rules)
        for (const Literal &option : one.head)
            if (one.defeasible) headed.push_back({option.kind, one.tag, option.number});
    auto drawn = [&] {
        if (!headed.empty() && !random.once_in(12)) return random.pick(headed);
        return Literal{static_cast<unsigned>(random.below(2)), static_cast<unsigned>(random.between(1, last_tag)),
                       static_cast<unsigned>(random.between(1, last_atom))};
    };
    auto place = [&] { return random.below(source.rules.size() + 1); };
    while (sheets.overrides.size() < overrides) {
        Override made{drawn().tag, drawn().tag, place()};
        if (!sheets.overrides.empty() && random.once_in(6)) made = random.pick(sheets.overrides);
        if (random.once_in(6)) std::swap(made.upper, made.lower);
        if (made.upper == made.lower && !random.once_in(60)) made.lower = made.lower % last_tag + 1;
        sheets.overrides.push_back(made);
    }
    while (sheets.oppositions.size() < oppositions) {
        Opposition made{drawn(), drawn(), place()};
        if (!sheets.oppositions.empty() && random.once_in(6)) made = random.pick(sheets.oppositions);
        made.first.tag = made.second.tag = 0;
        if (random.once_in(6)) std::swap(made.first, made.second);
        if (random.once_in(20) || (made.first == made.second && !random.once_in(60)))
            made.second = {1 - made.first.kind, 0, made.first.number};
        if (random.once_in(100)) (random.once_in(2) ? made.first : made.second) = literal(source_limits.last_kind);
        sheets.oppositions.push_back(made);
    }
}

// Writes one of the rules that would be appended: it is appended all the same.
void Batch::write_out()
{
    Program meant = reference::rules_of(Form::source, reference::program_bytes(source.rules, sheets));
    std::size_t written = source.rules.size();
    if (meant.size() > written) source.rules.push_back(meant[random.between(written, meant.size() - 1)]);
}

void Batch::make_small()
{
    choose_shape();
    bool has_sheets = random.once_in(2);
    if (has_sheets) {
        tags = std::max(tags, 2u);
        rules += random.below(4);
    }
    for (std::size_t i = 0; i < rules; ++i) source.rules.push_back(rule(Form::source));
    if (has_sheets) make_sheets(sheet_count(), sheet_count());
    if (has_sheets && random.once_in(4)) write_out();
    encode_source();
    if (random.once_in(2)) return;
    plain.rules.clear();
    for (std::size_t i = 0; i < rules; ++i) plain.rules.push_back(rule(Form::plain));
    plain.bytes = reference::program_bytes(plain.rules);
}

void Batch::make_disjunctive()
{
    atoms = static_cast<unsigned>(random.once_in(20) ? random.between(40, checked_set) : random.between(4, 30));
    std::size_t most = random.between(1, 4) * atoms;
    auto some_atom = [&] { return Literal{reference::atom, 0, static_cast<unsigned>(random.between(1, atoms))}; };
    for (std::size_t i = 0; i < most && i < source_limits.rules; ++i) {
        Rule made{};
        for (std::size_t n = random.between(1, 3); n > 0; --n) made.head.push_back(some_atom());
        for (std::size_t n = random.below(3); n > 0; --n) made.positive.push_back(some_atom());
        source.rules.push_back(made);
    }
    rules = source.rules.size();
    encode_source();
    source.sets.push_back(encoded(run_of_literals(atoms, false, reference::atom)));
    plain.sets = source.sets;
}

// The largest source, whose translation is the largest plain program if its sheets append the most rules; or as many
// rules as a form takes, or one more.
void Batch::make_limit()
{
    atoms = last_atom;
    tags = last_tag;
    if (random.once_in(3)) {
        source.bytes = most_appended();
        take_source();
        return;
    }
    bool is_full = random.once_in(2);
    const reference::Limits most = source_limits;
    rules = is_full ? most.rules : random.between(most.rules - 6, most.rules + 1);
    head = is_full ? most.head : 1;
    body = is_full ? most.positive : 1;
    for (std::size_t i = 0; i < rules; ++i) {
        Rule made = rule(Form::source);
        if (is_full) {
            made.defeasible = true;
            made.tag = static_cast<unsigned>(random.between(1, tags));
            made.head = literals(most.head, reference::negated);
            made.positive = literals(most.positive, most.last_kind);
            made.naf = literals(most.naf, most.last_kind);
        }
        source.rules.push_back(made);
    }
    // A full source has no byte for a record too many; with smaller rules it is one too many of its kind.
    if (is_full || random.once_in(2))
        make_sheets(random.between(most.sheets - 1, most.sheets + 1), random.between(most.sheets - 1, most.sheets + 1));
    encode_source();
    if (is_full) return;
    plain.rules.clear();
    if (random.once_in(2)) {
        make_most_literals();
        return;
    }
    body = 0;
    std::size_t count = random.between(plain_limits.rules - 5, plain_limits.rules + 1);
    for (std::size_t i = 0; i < count; ++i) plain.rules.push_back(rule(Form::plain));
    plain.bytes = reference::program_bytes(plain.rules);
}

// A plain program of the longest kind in which hardly a literal occurs twice: the widest rules, literals from everywhere.
void Batch::make_most_literals()
{
    constexpr reference::Limits most = plain_limits;
    constexpr std::size_t widest = most.head + most.positive + most.naf, end_record = 4;
    std::size_t left = most.length - end_record;
    while (left >= rule_header) {
        std::size_t count = std::min(widest, (left - rule_header) / literal_size);
        left -= rule_header + literal_size * count;
        Literals any;
        while (any.size() < count) any.push_back(evenly_drawn(random));
        auto positive = any.begin() + std::min(count, most.head), naf = any.begin() + std::min(count, most.head + most.positive);
        plain.rules.push_back({false, 0, {any.begin(), positive}, {positive, naf}, {naf, any.end()}, 0, 0});
        if (left < rule_header + literal_size) break; // room for no literal more
    }
    plain.bytes = reference::program_bytes(plain.rules);
}

void Batch::encode_source()
{
    source.bytes = reference::program_bytes(source.rules, sheets);
    take_source();
}

// What the source's bytes mean, if they are not refused, and its translation for the plain side.
void Batch::take_source()
{
    Program meant = reference::rules_of(Form::source, source.bytes);
    if (!meant.empty()) source.rules = meant;
    Bytes translation(reference::times_longer * reference::summed_length(source.bytes));
    std::uint64_t word = reference::translate(source.bytes, translation);
    translation.resize(ASPDA_IS_REFUSAL(word) ? 0 : word);
    plain.bytes = translation;
    plain.rules = reference::rules_of(Form::plain, plain.bytes);
}

void Batch::make_sets(Form form)
{
    Side &here = side(form);
    constexpr std::size_t tries = 3;
    for (std::size_t i = 0; i < tries; ++i) {
        Bytes set = encoded(head_literals(form, random.below(8)));
        here.sets.push_back(style == Style::limit ? set : repaired(form, set));
    }
    if (form == Form::source) return;
    for (const Bytes &set : std::vector<Bytes>(source.sets)) {
        Bytes extended(source.bytes.size() + set.size() + 16);
        std::uint64_t word = reference::extend(source.bytes, set, extended);
        if (ASPDA_IS_REFUSAL(word)) continue;
        extended.resize(word);
        here.sets.push_back(extended);
    }
}

Literal Batch::literal(unsigned last_kind)
{
    auto number = static_cast<unsigned>(random.once_in(40) ? last_atom : random.between(1, atoms));
    auto tag = static_cast<unsigned>(random.once_in(40) ? last_tag : random.between(1, tags));
    unsigned kind = random.once_in(2) ? 0 : static_cast<unsigned>(random.below(last_kind + 1));
    if (kind == reference::rule_defeated)
        return {kind, 0, std::min(static_cast<unsigned>(random.between(1, rules + 1)), reference::last_rule_number)};
    return {kind, kind < reference::defeated ? 0 : tag, number};
}

Literals Batch::literals(std::size_t count, unsigned last_kind)
{
    Literals some;
    while (some.size() < count) some.push_back(literal(last_kind));
    return some;
}

Rule Batch::rule(Form form)
{
    unsigned last_kind = reference::limits(form).last_kind;
    Rule made{};
    made.defeasible = form == Form::source && random.once_in(2);
    made.tag = made.defeasible ? static_cast<unsigned>(random.between(1, tags)) : 0;
    std::size_t least = made.defeasible || !random.once_in(6) ? 1 : 0;
    made.head = literals(random.between(least, head), made.defeasible ? reference::negated : last_kind);
    made.positive = literals(random.below(body + 1), last_kind);
    made.naf = literals(random.below(body + 1), last_kind);
    if (form == Form::plain && body == plain_limits.positive && random.once_in(4))
        made.naf = literals(plain_limits.naf, last_kind);
    return made;
}

// Some literals that stand in heads, with a defeat mark of an option here and there.
Literals Batch::head_literals(Form form, std::size_t most)
{
    Literals some;
    const Program &program = side(form).rules;
    for (std::size_t i = 0; i < most && !program.empty(); ++i) {
        const Rule &one = program[random.below(program.size())];
        if (one.head.empty()) continue;
        Literal chosen = random.pick(one.head);
        if (one.defeasible && random.once_in(4)) chosen = {chosen.kind + reference::defeated, one.tag, chosen.number};
        some.push_back(chosen);
    }
    return some;
}

// The set, changed as the check's verdicts ask until it is an answer set, if that comes soon.
Bytes Batch::repaired(Form form, Bytes set)
{
    std::size_t rounds = random.below(12);
    for (std::size_t i = 0; i < rounds; ++i) {
        Bytes buffer(set.size());
        std::uint64_t word = reference::check(form, side(form).bytes, set, buffer);
        if (ASPDA_IS_REFUSAL(word) || ASPDA_VERDICT(word) == ASPDA_YES) break;
        set = encoded(mended(form, decoded(set), word, buffer));
    }
    return set;
}

Literals Batch::mended(Form form, Literals set, std::uint64_t word, const Bytes &buffer)
{
    std::uint32_t value = ASPDA_VERDICT_VALUE(word);
    if (ASPDA_VERDICT(word) == ASPDA_SMALLER) return decoded(Bytes(buffer.begin(), buffer.begin() + value));
    if (ASPDA_VERDICT(word) == ASPDA_CLASH) {
        set.erase(set.begin() + value - 1);
        return set;
    }
    const Program &program = side(form).rules;
    Literals options = value <= program.size() ? program[value - 1].head : Literals{};
    if (!options.empty()) set.push_back(random.pick(options));
    else if (!set.empty()) set.erase(set.begin() + random.below(set.size()));
    return set;
}

// A set with a literal more, a literal less, or its first literal's opposite.
Bytes Batch::altered(const Bytes &set, Form form)
{
    Literals members = decoded(set);
    switch (random.below(3)) {
    case 0: members.push_back(literal(reference::limits(form).last_kind)); break;
    case 1:
        if (!members.empty()) members.erase(members.begin() + random.below(members.size()));
        break;
    default:
        if (!members.empty() && members[0].kind <= reference::negated)
            members.push_back({1 - members[0].kind, 0, members[0].number});
    }
    return encoded(members);
}

Bytes Batch::set_for(unsigned operation)
{
    Form form = calls::exports[operation].form;
    const reference::Limits most = reference::limits(form);
    if (style == Style::limit && random.once_in(2))
        return encoded(run_of_literals(random.between(most.set - 1, most.set + 1), true, most.last_kind));
    if (random.once_in(40))
        return encoded(run_of_literals(random.between(checked_set - 2, checked_set + 2), random.once_in(2), most.last_kind));
    if (random.once_in(4)) return encoded(literals(random.below(12), most.last_kind));
    Bytes set = random.pick(side(form).sets);
    return random.once_in(2) ? altered(set, form) : set;
}

std::uint32_t Batch::rule_number(Form form)
{
    if (random.once_in(30)) return static_cast<std::uint32_t>(random.next());
    return static_cast<std::uint32_t>(random.below(side(form).rules.size() + 2));
}

// The result's own length mostly, and one less, more, none.
std::size_t Batch::room_for(Call call)
{
    // Around the length that always suffices: code may go another way from there on, or from somewhat later.
    if (call.operation == calls::aspif && random.once_in(4))
        return reference::aspif_bound(call.program.size()) - 2 + random.below(random.once_in(2) ? 4 : well_beyond);
    calls::Lent lent{{}, Bytes(ample(call))};
    std::uint64_t word = calls::by_reference(call, lent);
    std::size_t needed = ASPDA_IS_REFUSAL(word)             ? random.below(64)
                         : calls::is_check(call.operation) ? call.set.size()
                                                            : word;
    switch (random.below(12)) {
    case 0: return needed == 0 ? 0 : needed - 1;
    case 1: return random.below(needed);
    case 2: return random.once_in(2) ? 0 : random.below(5);
    case 3: return needed + random.between(1, 40);
    case 4: return ample(call);
    default: return needed;
    }
}

Bytes Batch::program_for(unsigned operation)
{
    const calls::Export &taken = calls::exports[operation];
    bool is_other_form = random.once_in(40);
    Bytes program = side(is_other_form == (taken.form == Form::source) ? Form::plain : Form::source).bytes;
    if (random.once_in(taken.takes_set ? 6 : 2)) damage(random, program);
    else if (style == Style::limit && random.once_in(6)) program.push_back(0); // one byte above the limit
    return program;
}

// A call of program assembly on a state of its own.
Call Batch::assembly_call(unsigned operation)
{
    const calls::Export &taken = calls::exports[operation];
    Call call;
    call.operation = operation;
    call.state = drawn_state(random);
    if (random.once_in(4)) damage_state(random, call.state);
    if (taken.takes_program) {
        call.program = random.once_in(20) ? widest_record(random) : record_of(rule(Form::source));
        if (random.once_in(20)) spoil_head(random, call.program);
        if (random.once_in(3)) damage(random, call.program);
        if (random.once_in(30) && !call.program.empty()) call.program[0] = "EOXAsN"[random.below(6)];
        if (random.once_in(4)) call.program.resize(call.program.size() + random.between(1, 9), 'S');
    }
    if (!taken.takes_out) return call;
    std::size_t needed = needed_by(call);
    switch (random.below(6)) {
    case 0: call.room = needed - 1; break;
    case 1: call.room = random.below(needed); break;
    case 2: call.room = needed + random.between(1, 40); break;
    default: call.room = needed;
    }
    return call;
}

Call Batch::next()
{
    Call call;
    std::size_t drawn = random.below(calls::exports.size() + 2); // the checks twice as often
    call.operation = drawn < calls::exports.size()    ? static_cast<unsigned>(drawn)
                     : drawn == calls::exports.size() ? calls::check_source
                                                      : calls::check_plain;
    const calls::Export &taken = calls::exports[call.operation];
    if (taken.takes_state) return assembly_call(call.operation);
    if (taken.takes_program) call.program = program_for(call.operation);
    if (taken.takes_set) call.set = set_for(call.operation);
    if (taken.takes_set && random.once_in(8)) damage(random, call.set);
    if (taken.takes_rule) call.rule = rule_number(taken.form);
    if (taken.takes_out) call.room = room_for(call);
    return call;
}

} // namespace cases
