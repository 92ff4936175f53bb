#include "reference.hpp"

#include <algorithm>
#include <set>
#include <string>
#include <utility>

namespace reference {

namespace {

struct Refusal {
    std::uint64_t number, place;
};

// The word of an operation that may throw a refusal.
template <class Operation> std::uint64_t word_of(Operation operation)
{
    try {
        return operation();
    } catch (const Refusal &refusal) {
        return (std::uint64_t{1} << 63) + (refusal.number << 32) + refusal.place;
    }
}

// ---- Records

unsigned two_bytes(const Bytes &bytes, std::size_t at)
{
    return bytes[at] * 256u + bytes[at + 1];
}

void put_two_bytes(Bytes &bytes, std::size_t number)
{
    bytes.push_back(static_cast<std::uint8_t>(number / 256));
    bytes.push_back(static_cast<std::uint8_t>(number % 256));
}

void put_mark(Bytes &bytes, char mark)
{
    bytes.push_back(static_cast<std::uint8_t>(mark));
    bytes.push_back(':');
}

void put_literals(Bytes &bytes, const Literals &literals)
{
    for (const Literal &literal : literals) {
        bytes.push_back(static_cast<std::uint8_t>(literal.kind));
        put_two_bytes(bytes, literal.tag);
        put_two_bytes(bytes, literal.number);
    }
}

void put_rule(Bytes &bytes, const Rule &rule)
{
    put_mark(bytes, rule.defeasible ? 'D' : 'S');
    put_two_bytes(bytes, rule.tag);
    for (const Literals *part : {&rule.head, &rule.positive, &rule.naf})
        bytes.push_back(static_cast<std::uint8_t>(part->size()));
    for (const Literals *part : {&rule.head, &rule.positive, &rule.naf}) put_literals(bytes, *part);
}

void put_sheet(Bytes &bytes, const Override &over)
{
    put_mark(bytes, 'O');
    put_two_bytes(bytes, over.upper);
    put_two_bytes(bytes, over.lower);
}

void put_sheet(Bytes &bytes, const Opposition &pair)
{
    put_mark(bytes, 'X');
    put_literals(bytes, {pair.first, pair.second});
}

// The records that stand before the rule of this index, of one kind.
template <class Sheet> void put_sheets(Bytes &bytes, const std::vector<Sheet> &sheets, std::size_t index)
{
    for (const Sheet &sheet : sheets)
        if (sheet.before == index) put_sheet(bytes, sheet);
}

Literal literal_at(const Bytes &bytes, std::size_t at)
{
    return {bytes[at], two_bytes(bytes, at + 1), two_bytes(bytes, at + 3)};
}

bool is_of_form(const Literal &literal, Form form)
{
    if (literal.kind > limits(form).last_kind) return false;
    bool is_tagged = literal.kind >= defeated && literal.kind <= derived_negated;
    if (is_tagged && (literal.tag < 1 || literal.tag > last_tag)) return false;
    if (!is_tagged && literal.tag != 0) return false;
    return literal.number >= 1 && literal.number <= (literal.kind == rule_defeated ? last_rule_number : last_atom);
}

// ---- Read

bool is_mark(const Bytes &bytes, std::size_t at, char mark)
{
    return bytes[at] == static_cast<std::uint8_t>(mark) && bytes[at + 1] == ':';
}

Literals read_literals(Form form, const Bytes &bytes, std::size_t at, std::size_t count)
{
    Literals literals;
    literals.reserve(count);
    for (std::size_t i = 0; i < count; ++i) {
        Literal literal = literal_at(bytes, at + 5 * i);
        if (!is_of_form(literal, form)) throw Refusal{5, at + 5 * i};
        literals.push_back(literal);
    }
    return literals;
}

bool is_option(const Literal &literal)
{
    return literal.kind == atom || literal.kind == negated;
}

// The rule whose mark stands at `at`; `held` rules stand before it.
Rule read_rule(Form form, const Bytes &bytes, std::size_t at, std::size_t held)
{
    const Limits most = limits(form);
    if (bytes.size() - at < 7) throw Refusal{2, at};
    if (held == most.rules) throw Refusal{4, at};
    Rule rule{bytes[at] == 'D', two_bytes(bytes, at + 2), {}, {}, {}, at, 0};
    if (rule.defeasible ? rule.tag < 1 || rule.tag > last_tag : rule.tag != 0) throw Refusal{6, at};
    std::size_t head = bytes[at + 4], positive = bytes[at + 5], naf = bytes[at + 6];
    if (head > most.head || positive > most.positive || naf > most.naf) throw Refusal{4, at};
    rule.length = 7 + 5 * (head + positive + naf);
    if (bytes.size() - at < rule.length) throw Refusal{2, at};
    rule.head = read_literals(form, bytes, at + 7, head);
    rule.positive = read_literals(form, bytes, at + 7 + 5 * head, positive);
    rule.naf = read_literals(form, bytes, at + 7 + 5 * (head + positive), naf);
    if (rule.defeasible && (head == 0 || !std::all_of(rule.head.begin(), rule.head.end(), is_option)))
        throw Refusal{7, at};
    return rule;
}

void read_end(const Bytes &bytes, std::size_t at, std::size_t held)
{
    if (bytes.size() - at < 4) throw Refusal{2, at};
    if (two_bytes(bytes, at + 2) != held) throw Refusal{8, at};
    if (bytes.size() - at > 4) throw Refusal{8, at};
}

// ---- Preference sheets (document 02, ask 2)

constexpr std::size_t override_length = 6, opposition_length = 12;

// What a program's records say, before anything is made of its sheets.
struct Written {
    Program rules;
    Sheets sheets;
};

// Room for one more record of a kind of which so many are held, and all its bytes.
void expect_sheet(Form form, const Bytes &bytes, std::size_t at, std::size_t held, std::size_t length)
{
    if (held == limits(form).sheets) throw Refusal{4, at};
    if (bytes.size() - at < length) throw Refusal{2, at};
}

bool is_tag(unsigned number)
{
    return number >= 1 && number <= last_tag;
}

void read_override(Form form, const Bytes &bytes, std::size_t at, Written &written)
{
    std::vector<Override> &held = written.sheets.overrides;
    expect_sheet(form, bytes, at, held.size(), override_length);
    unsigned upper = two_bytes(bytes, at + 2), lower = two_bytes(bytes, at + 4);
    if (!is_tag(upper) || !is_tag(lower)) throw Refusal{6, at};
    if (upper == lower) throw Refusal{14, at};
    held.push_back({upper, lower, written.rules.size()});
}

Literal read_option(Form form, const Bytes &bytes, std::size_t at)
{
    Literal option = literal_at(bytes, at);
    if (!is_option(option) || !is_of_form(option, form)) throw Refusal{5, at};
    return option;
}

void read_opposition(Form form, const Bytes &bytes, std::size_t at, Written &written)
{
    std::vector<Opposition> &held = written.sheets.oppositions;
    expect_sheet(form, bytes, at, held.size(), opposition_length);
    Literal first = read_option(form, bytes, at + 2), second = read_option(form, bytes, at + 7);
    if (first == second) throw Refusal{14, at};
    held.push_back({first, second, written.rules.size()});
}

// ---- Read, a whole program

Written read_program(Form form, const Bytes &bytes)
{
    const Limits most = limits(form);
    if (bytes.size() > most.length) throw Refusal{1, 0};
    Written written;
    for (std::size_t at = 0;;) {
        if (bytes.size() - at < 2) throw Refusal{2, at};
        if (is_mark(bytes, at, 'E')) {
            read_end(bytes, at, written.rules.size());
            return written;
        }
        if (is_mark(bytes, at, 'S') || (form == Form::source && is_mark(bytes, at, 'D'))) {
            written.rules.push_back(read_rule(form, bytes, at, written.rules.size()));
            at += written.rules.back().length;
        } else if (most.sheets > 0 && is_mark(bytes, at, 'O')) {
            read_override(form, bytes, at, written);
            at += override_length;
        } else if (most.sheets > 0 && is_mark(bytes, at, 'X')) {
            read_opposition(form, bytes, at, written);
            at += opposition_length;
        } else {
            throw Refusal{3, at};
        }
    }
}

// ---- Program assembly (document 02, ask 4)

enum Stage : std::uint8_t { not_begun, is_open, is_closed };

constexpr std::size_t end_length = 4;

// The head literals of a rule, by its byte in a state.
std::size_t heads_of(std::uint8_t byte)
{
    return byte < 128 ? byte : byte - 127u;
}

// Whether some history of calls gives these bytes back.
bool is_state(const Bytes &state)
{
    const Limits most = source_limits;
    if (state.size() != state_length || state[0] > is_closed) return false;
    for (std::size_t free : {1, 4, 5, 6, 7})
        if (state[free] != 0) return false;
    std::size_t held = two_bytes(state, 2);
    if (held > (state[0] == not_begun ? 0 : most.rules)) return false;
    for (std::size_t i = 0; i < most.rules; ++i) {
        std::uint8_t head = state[state_heads + i], body = state[state_bodies + i];
        if (i >= held && (head != 0 || body != 0)) return false;
        if (heads_of(head) > most.head || body > most.positive + most.naf) return false;
    }
    return true;
}

// The bytes of the records that a state holds.
std::size_t held_length(const Bytes &state)
{
    std::size_t length = 0;
    for (std::size_t i = 0; i < two_bytes(state, 2); ++i)
        length += 7 + 5 * (heads_of(state[state_heads + i]) + state[state_bodies + i]);
    return length;
}

void expect_open(const Bytes &state)
{
    if (!is_state(state) || state[0] != is_open) throw Refusal{15, 0};
}

// Room for records of so many bytes and an end record.
void expect_room(const Bytes &buffer, std::size_t records)
{
    if (buffer.size() < records + end_length) throw Refusal{9, 0};
}

std::uint64_t set_held(Bytes &state, std::size_t rules)
{
    state[2] = static_cast<std::uint8_t>(rules / 256);
    state[3] = static_cast<std::uint8_t>(rules % 256);
    return rules;
}

// ---- Sets

Literals read_set(Form form, const Bytes &bytes, std::size_t most)
{
    if (bytes.size() < 4 || !is_mark(bytes, 0, 'A')) throw Refusal{10, 0};
    std::size_t count = two_bytes(bytes, 2);
    if (bytes.size() != 4 + 5 * count) throw Refusal{10, 0};
    if (count > most) throw Refusal{12, 0};
    Literals set;
    for (std::size_t at = 4; at < bytes.size(); at += 5) {
        Literal literal = literal_at(bytes, at);
        if (!is_of_form(literal, form)) throw Refusal{11, at};
        if (!set.empty() && !(set.back() < literal)) throw Refusal{11, at};
        set.push_back(literal);
    }
    return set;
}

bool contains(const Literals &set, const Literal &literal)
{
    return std::binary_search(set.begin(), set.end(), literal);
}

// ---- Results

std::uint64_t deliver(const Bytes &result, Bytes &buffer)
{
    if (buffer.size() < result.size()) throw Refusal{9, 0};
    std::copy(result.begin(), result.end(), buffer.begin());
    return result.size();
}

Rule strict(Literals head, Literals positive, Literals naf)
{
    return {false, 0, std::move(head), std::move(positive), std::move(naf), 0, 0};
}

// ---- Translation

Literal defeat_mark(unsigned tag, const Literal &option)
{
    return {is_negated(option.kind) ? defeated_negated : defeated, tag, option.number};
}

Literal derivation_mark(unsigned tag, const Literal &option)
{
    return {is_negated(option.kind) ? derived_negated : derived, tag, option.number};
}

Literal rule_defeated_mark(std::size_t number)
{
    return {rule_defeated, 0, static_cast<unsigned>(number)};
}

// Rules (2) to (6) of document 01 for the defeasible rule of this number.
void put_translated(Program &translation, const Rule &rule, std::size_t number)
{
    Literals defeats, derivations, naf = rule.naf;
    for (const Literal &option : rule.head) {
        defeats.push_back(defeat_mark(rule.tag, option));
        derivations.push_back(derivation_mark(rule.tag, option));
    }
    naf.push_back(rule_defeated_mark(number));
    translation.push_back(strict(derivations, rule.positive, naf));
    translation.push_back(strict({rule_defeated_mark(number)}, defeats, {}));
    for (std::size_t i = 0; i < rule.head.size(); ++i) {
        translation.push_back(strict({rule.head[i]}, {derivations[i]}, {}));
        translation.push_back(strict({derivations[i]}, {rule.head[i]}, {defeats[i]}));
        translation.push_back(strict({}, {derivations[i], defeats[i]}, {}));
    }
}

// ---- The expanded program

// An option in the head of a defeasible rule with the tag.
using TaggedOption = std::pair<unsigned, Literal>;

// The program that is meant: the rules that are written, and behind them what the sheets ask for.
Program expanded(Written written)
{
    Program program = std::move(written.rules);
    const Sheets &sheets = written.sheets;
    if (sheets.overrides.empty() || sheets.oppositions.empty()) return program;
    std::set<TaggedOption> headed;
    for (const Rule &rule : program)
        if (rule.defeasible)
            for (const Literal &option : rule.head) headed.insert({rule.tag, option});
    std::set<std::pair<Literal, Literal>> appended; // head and body
    auto append = [&](const Override &over, const Literal &a, const Literal &b) {
        if (headed.count({over.upper, a}) == 0 || headed.count({over.lower, b}) == 0) return;
        Literal mark = defeat_mark(over.lower, b);
        if (appended.insert({mark, a}).second) program.push_back(strict({mark}, {a}, {}));
    };
    for (const Override &over : sheets.overrides)
        for (const Opposition &pair : sheets.oppositions) {
            append(over, pair.first, pair.second);
            append(over, pair.second, pair.first);
        }
    return program;
}

Program program_meant(Form form, const Bytes &bytes)
{
    return expanded(read_program(form, bytes));
}

// ---- Export to aspif (document 02, ask 1)

// The literals in the program, each once, in ascending byte order.
Literals literals_in(const Program &program)
{
    Literals all;
    for (const Rule &rule : program)
        for (const Literals *part : {&rule.head, &rule.positive, &rule.naf})
            all.insert(all.end(), part->begin(), part->end());
    std::sort(all.begin(), all.end());
    all.erase(std::unique(all.begin(), all.end()), all.end());
    return all;
}

// A text in the making, and the literals by whose places, from 1, it is numbered.
class Text {
public:
    explicit Text(const Program &program) : numbered(literals_in(program))
    {
        line = "asp 1 0 0";
        end_line();
        for (const Rule &rule : program) put_rule(rule);
        put_constraints();
        put_names();
        line = "0";
        end_line();
    }
    Bytes bytes() const { return Bytes(text.begin(), text.end()); }

private:
    std::size_t number_of(const Literal &literal) const
    {
        return std::lower_bound(numbered.begin(), numbered.end(), literal) - numbered.begin() + 1;
    }
    bool occurs(const Literal &literal) const { return contains(numbered, literal); }

    void put(const std::string &field) { line += ' ' + field; }
    void put(std::size_t field) { put(std::to_string(field)); }
    void end_line()
    {
        text += line + '\n';
        line.clear();
    }

    void put_rule(const Rule &rule)
    {
        line = "1 0";
        put(rule.head.size());
        for (const Literal &literal : rule.head) put(number_of(literal));
        line += " 0";
        put(rule.positive.size() + rule.naf.size());
        for (const Literal &literal : rule.positive) put(number_of(literal));
        for (const Literal &literal : rule.naf) put("-" + std::to_string(number_of(literal)));
        end_line();
    }
    void put_constraints()
    {
        for (unsigned number = 1; number <= last_atom; ++number) {
            Literal positive{atom, 0, number}, negative{negated, 0, number};
            if (!occurs(positive) || !occurs(negative)) continue;
            line = "1 0 0 0 2";
            put(number_of(positive));
            put(number_of(negative));
            end_line();
        }
    }
    void put_names()
    {
        for (const Literal &literal : numbered) {
            if (literal.kind > negated) continue;
            std::string name = (is_negated(literal.kind) ? "n" : "p") + std::to_string(literal.number);
            line = "4";
            put(name.size());
            put(name);
            line += " 1";
            put(number_of(literal));
            end_line();
        }
    }

    Literals numbered;
    std::string text, line;
};

// ---- Extension

bool is_all_defeated(const Rule &rule, const Literals &set)
{
    return std::all_of(rule.head.begin(), rule.head.end(),
                       [&](const Literal &option) { return contains(set, defeat_mark(rule.tag, option)); });
}

Literals extension(const Program &source, const Literals &set)
{
    Literals extended = set;
    for (std::size_t i = 0; i < source.size(); ++i) {
        const Rule &rule = source[i];
        if (!rule.defeasible) continue;
        for (const Literal &option : rule.head)
            if (contains(set, option) && !contains(set, defeat_mark(rule.tag, option)))
                extended.push_back(derivation_mark(rule.tag, option));
        if (is_all_defeated(rule, set)) extended.push_back(rule_defeated_mark(i + 1));
    }
    std::sort(extended.begin(), extended.end());
    extended.erase(std::unique(extended.begin(), extended.end()), extended.end());
    return extended;
}

// ---- Quotient

// What a program's rule of this number, from 1, leaves.
struct Remainder {
    std::size_t number;
    Literals head, positive;
};

using Quotient = std::vector<Remainder>;

Quotient quotient_of(const Program &program, const Literals &set)
{
    auto is_in_set = [&](const Literal &literal) { return contains(set, literal); };
    Quotient quotient;
    for (std::size_t i = 0; i < program.size(); ++i) {
        const Rule &rule = program[i];
        if (std::any_of(rule.naf.begin(), rule.naf.end(), is_in_set)) continue;
        Literals head;
        for (const Literal &literal : rule.head)
            if (!rule.defeasible || !is_in_set(defeat_mark(rule.tag, literal))) head.push_back(literal);
        if (rule.defeasible && head.empty()) continue;
        quotient.push_back({i + 1, head, rule.positive});
    }
    return quotient;
}

bool holds(const Remainder &rule, const Literals &set)
{
    auto is_in_set = [&](const Literal &literal) { return contains(set, literal); };
    return !std::all_of(rule.positive.begin(), rule.positive.end(), is_in_set) ||
           std::any_of(rule.head.begin(), rule.head.end(), is_in_set);
}

bool is_model(const Quotient &quotient, const Literals &set)
{
    return std::all_of(quotient.begin(), quotient.end(), [&](const Remainder &rule) { return holds(rule, set); });
}

// ---- The first smaller model

struct Witness {
    bool found;
    Literals set;
};

enum Choice { absent, present, open };

using Choices = std::vector<Choice>;

// The members of `set` that are present, in order.
Literals chosen(const Literals &set, const Choices &choices)
{
    Literals subset;
    for (std::size_t i = 0; i < set.size(); ++i)
        if (choices[i] == present) subset.push_back(set[i]);
    return subset;
}

// Every proper subset in document 01's order. A subset is a number whose highest bit is the first literal: absent
// before present, literal by literal, is then the order of the numbers, and the set itself is the last.
Witness first_by_force(const Quotient &quotient, const Literals &set)
{
    std::size_t size = set.size();
    for (std::size_t row = 0; row + 1 < std::size_t{1} << size; ++row) {
        Choices choices(size);
        for (std::size_t i = 0; i < size; ++i) choices[i] = row >> (size - 1 - i) & 1 ? present : absent;
        Literals subset = chosen(set, choices);
        if (is_model(quotient, subset)) return {true, subset};
    }
    return {false, {}};
}

// A rule by the places in the set of its literals: some of `head` are present or some of `positive` absent.
struct Clause {
    std::vector<std::size_t> head, positive;
};

std::vector<std::size_t> places_in(const Literals &set, const Literals &literals)
{
    std::vector<std::size_t> places;
    for (const Literal &literal : literals) {
        auto found = std::lower_bound(set.begin(), set.end(), literal);
        if (found != set.end() && *found == literal) places.push_back(found - set.begin());
    }
    std::sort(places.begin(), places.end());
    places.erase(std::unique(places.begin(), places.end()), places.end());
    return places;
}

// A rule with a positive literal outside the set holds in every subset and gives no clause.
std::vector<Clause> clauses_of(const Quotient &quotient, const Literals &set)
{
    auto is_in_set = [&](const Literal &literal) { return contains(set, literal); };
    std::vector<Clause> clauses;
    for (const Remainder &rule : quotient)
        if (std::all_of(rule.positive.begin(), rule.positive.end(), is_in_set))
            clauses.push_back({places_in(set, rule.head), places_in(set, rule.positive)});
    Clause proper;
    for (std::size_t i = 0; i < set.size(); ++i) proper.positive.push_back(i);
    clauses.push_back(proper);
    return clauses;
}

enum class Forced { nothing, something, contradiction };

// Gives the one open literal of a clause that does not hold yet the choice that makes it hold.
Forced force(const Clause &clause, Choices &choices)
{
    std::size_t opens = 0, last = 0;
    Choice wanted = open;
    for (std::size_t place : clause.head) {
        if (choices[place] == present) return Forced::nothing;
        if (choices[place] == open) ++opens, last = place, wanted = present;
    }
    for (std::size_t place : clause.positive) {
        if (choices[place] == absent) return Forced::nothing;
        if (choices[place] == open) ++opens, last = place, wanted = absent;
    }
    if (opens == 0) return Forced::contradiction;
    if (opens > 1) return Forced::nothing;
    choices[last] = wanted;
    return Forced::something;
}

bool force_all(const std::vector<Clause> &clauses, Choices &choices)
{
    for (bool changed = true; changed;) {
        changed = false;
        for (const Clause &clause : clauses) {
            Forced forced = force(clause, choices);
            if (forced == Forced::contradiction) return false;
            if (forced == Forced::something) changed = true;
        }
    }
    return true;
}

// Choices for all that are open, the first in document 01's order; false if there are none.
bool choose(const std::vector<Clause> &clauses, Choices &choices)
{
    if (!force_all(clauses, choices)) return false;
    auto first = std::find(choices.begin(), choices.end(), open);
    if (first == choices.end()) return true;
    for (Choice choice : {absent, present}) {
        Choices tried = choices;
        tried[first - choices.begin()] = choice;
        if (choose(clauses, tried)) {
            choices = tried;
            return true;
        }
    }
    return false;
}

Witness first_by_search(const Quotient &quotient, const Literals &set)
{
    Choices choices(set.size(), open);
    if (!choose(clauses_of(quotient, set), choices)) return {false, {}};
    return {true, chosen(set, choices)};
}

Witness first_smaller(const Quotient &quotient, const Literals &set)
{
    constexpr std::size_t small = 7;
    return set.size() <= small ? first_by_force(quotient, set) : first_by_search(quotient, set);
}

// ---- Check

enum Verdict : std::uint64_t { yes, clash, broken, smaller };

std::uint64_t verdict_word(Verdict verdict, std::uint64_t value)
{
    return (static_cast<std::uint64_t>(verdict) << 32) + value;
}

bool has_opposite_in(const Literals &set, const Literal &literal)
{
    return is_option(literal) && contains(set, {is_negated(literal.kind) ? atom : negated, 0, literal.number});
}

std::uint64_t judge(const Program &program, const Literals &set, Bytes &buffer)
{
    for (std::size_t i = 0; i < set.size(); ++i)
        if (has_opposite_in(set, set[i])) return verdict_word(clash, i + 1);
    Quotient quotient = quotient_of(program, set);
    for (const Remainder &rule : quotient)
        if (!holds(rule, set)) return verdict_word(broken, rule.number);
    Witness witness = first_smaller(quotient, set);
    if (!witness.found) return verdict_word(yes, 0);
    return verdict_word(smaller, deliver(set_bytes(witness.set), buffer));
}

} // namespace

// ---- The operations

Bytes program_bytes(const Program &program, const Sheets &sheets)
{
    Bytes bytes;
    for (std::size_t i = 0; i <= program.size(); ++i) {
        put_sheets(bytes, sheets.overrides, i);
        put_sheets(bytes, sheets.oppositions, i);
        if (i < program.size()) put_rule(bytes, program[i]);
    }
    put_mark(bytes, 'E');
    put_two_bytes(bytes, program.size());
    return bytes;
}

Bytes set_bytes(const Literals &set)
{
    Bytes bytes;
    put_mark(bytes, 'A');
    put_two_bytes(bytes, set.size());
    put_literals(bytes, set);
    return bytes;
}

Program rules_of(Form form, const Bytes &bytes)
{
    try {
        return program_meant(form, bytes);
    } catch (const Refusal &) {
        return {};
    }
}

std::size_t summed_length(const Bytes &source)
{
    try {
        Written written = read_program(Form::source, source);
        std::size_t rules = written.rules.size();
        return source.size() + appended_rule * (expanded(std::move(written)).size() - rules);
    } catch (const Refusal &) {
        return source.size();
    }
}

std::uint64_t read(Form form, const Bytes &program)
{
    return word_of([&] { return read_program(form, program).rules.size(); });
}

std::uint64_t show(Form form, const Bytes &program, std::uint32_t rule)
{
    return word_of([&] {
        Program rules = read_program(form, program).rules;
        if (rule == 0 || rule > rules.size()) throw Refusal{13, 0};
        return (static_cast<std::uint64_t>(rules[rule - 1].start) << 32) + rules[rule - 1].length;
    });
}

std::uint64_t translate(const Bytes &source, Bytes &buffer)
{
    return word_of([&] {
        Program rules = program_meant(Form::source, source), translation;
        for (std::size_t i = 0; i < rules.size(); ++i) {
            if (rules[i].defeasible) put_translated(translation, rules[i], i + 1);
            else translation.push_back(rules[i]);
        }
        return deliver(program_bytes(translation), buffer);
    });
}

std::uint64_t quotient(Form form, const Bytes &program, const Bytes &set, Bytes &buffer)
{
    return word_of([&] {
        Program rules = program_meant(form, program), left;
        Literals literals = read_set(form, set, limits(form).set);
        for (const Remainder &rule : quotient_of(rules, literals)) left.push_back(strict(rule.head, rule.positive, {}));
        return deliver(program_bytes(left), buffer);
    });
}

std::uint64_t extend(const Bytes &source, const Bytes &set, Bytes &buffer)
{
    return word_of([&] {
        Program rules = program_meant(Form::source, source);
        Literals literals = read_set(Form::source, set, limits(Form::source).set);
        return deliver(set_bytes(extension(rules, literals)), buffer);
    });
}

std::uint64_t restriction(const Bytes &set, Bytes &buffer)
{
    return word_of([&] {
        Literals kept;
        for (const Literal &literal : read_set(Form::plain, set, limits(Form::plain).set))
            if (literal.kind < derived) kept.push_back(literal);
        return deliver(set_bytes(kept), buffer);
    });
}

std::uint64_t aspif(const Bytes &program, Bytes &buffer)
{
    return word_of([&] { return deliver(Text(program_meant(Form::plain, program)).bytes(), buffer); });
}

std::uint64_t check(Form form, const Bytes &program, const Bytes &set, Bytes &buffer)
{
    return word_of([&] {
        Program rules = program_meant(form, program);
        Literals literals = read_set(form, set, checked_set);
        if (buffer.size() < set.size()) throw Refusal{9, 0};
        return judge(rules, literals, buffer);
    });
}

std::uint64_t begin(Bytes &state, const Bytes &buffer)
{
    return word_of([&] {
        if (state.size() != state_length) throw Refusal{15, 0};
        expect_room(buffer, 0);
        state.assign(state_length, 0);
        state[0] = is_open;
        return std::uint64_t{0};
    });
}

std::uint64_t add(Bytes &state, const Bytes &record, Bytes &buffer)
{
    return word_of([&] {
        expect_open(state);
        if (record.size() < 2) throw Refusal{2, 0};
        if (!is_mark(record, 0, 'S') && !is_mark(record, 0, 'D')) throw Refusal{3, 0};
        std::size_t held = two_bytes(state, 2), at = held_length(state);
        Rule rule = read_rule(Form::source, record, 0, held);
        expect_room(buffer, at + rule.length);
        std::copy_n(record.begin(), rule.length, buffer.begin() + at);
        state[state_heads + held] = static_cast<std::uint8_t>(rule.head.size() + (rule.defeasible ? 127 : 0));
        state[state_bodies + held] = static_cast<std::uint8_t>(rule.positive.size() + rule.naf.size());
        return set_held(state, held + 1);
    });
}

std::uint64_t drop(Bytes &state)
{
    return word_of([&] {
        expect_open(state);
        std::size_t held = two_bytes(state, 2);
        if (held == 0) throw Refusal{15, 0};
        state[state_heads + held - 1] = state[state_bodies + held - 1] = 0;
        return set_held(state, held - 1);
    });
}

std::uint64_t close(Bytes &state, Bytes &buffer)
{
    return word_of([&] {
        expect_open(state);
        std::size_t at = held_length(state);
        expect_room(buffer, at);
        Bytes end;
        put_mark(end, 'E');
        put_two_bytes(end, two_bytes(state, 2));
        std::copy(end.begin(), end.end(), buffer.begin() + at);
        state[0] = is_closed;
        return std::uint64_t{two_bytes(state, 2)};
    });
}

std::uint64_t assembled(const Bytes &state)
{
    return end_length + (is_state(state) ? held_length(state) : 0);
}

} // namespace reference
