// Random calls. A batch is a source, a plain program (often the source's translation) and sets that fit them; each call
// of the batch takes one of these, whole or damaged; a call of program assembly takes a state of its own. A batch depends
// on the seed and on its number alone.
#pragma once

#include "calls.hpp"

namespace cases {

using calls::Bytes;
using calls::Call;
using calls::Form;

constexpr std::uint64_t batch_size = 32;
// So many bytes more than the bound of a text in aspif.
constexpr std::size_t well_beyond = 4096;

// Steele, Lea and Flood's splitmix64.
class Random {
public:
    explicit Random(std::uint64_t seed) : state(seed) {}

    std::uint64_t next()
    {
        std::uint64_t mixed = state += 0x9e3779b97f4a7c15;
        mixed = (mixed ^ mixed >> 30) * 0xbf58476d1ce4e5b9;
        mixed = (mixed ^ mixed >> 27) * 0x94d049bb133111eb;
        return mixed ^ mixed >> 31;
    }
    // 0 to bound - 1; 0 if the bound is 0.
    std::size_t below(std::size_t bound) { return bound == 0 ? 0 : next() % bound; }
    std::size_t between(std::size_t least, std::size_t most) { return least + below(most - least + 1); }
    bool once_in(std::size_t times) { return below(times) == 0; }
    template <class Items> auto pick(const Items &items) { return items[below(items.size())]; }

private:
    std::uint64_t state;
};

// One byte, literal or count of a program or set changed, a record of a sheet put in, or the slice cut or made longer.
void damage(Random &random, Bytes &bytes);

// The record of a source's rule, with at most so many literals in its head and in each part of its body.
Bytes drawn_record(Random &random, std::size_t head, std::size_t body);
// One with as many literals as there can be, strict or defeasible.
Bytes widest_record(Random &random);
// A state of an assembly: open or closed, with few rules or as many as there can be.
Bytes drawn_state(Random &random);
// One byte changed, one rule more or fewer counted, all zero, garbage, or another length.
void damage_state(Random &random, Bytes &state);

// The longest source, and of those one with the most appended rules: two for each two records of its sheets.
Bytes most_appended();

// Small: few atoms and tags, so that rules meet, with sheets or without. Disjunctive: strict rules without naf over a set
// that is a model of them all, so that the check has to search. Limit: programs, sheets and sets at the forms' limits and
// one above.
enum class Style { small, disjunctive, limit };

class Batch {
public:
    Batch(std::uint64_t seed, std::uint64_t number);
    Batch(std::uint64_t seed, std::uint64_t number, Style style);

    Call next();

private:
    struct Side {
        reference::Program rules;
        Bytes bytes;
        std::vector<Bytes> sets;
    };

    void choose_shape();
    void make_small();
    void make_disjunctive();
    void make_limit();
    void make_most_literals();
    void make_sheets(std::size_t overrides, std::size_t oppositions);
    std::size_t sheet_count();
    void write_out();
    void make_sets(Form form);
    void encode_source();
    void take_source();
    reference::Literal literal(unsigned last_kind);
    reference::Literals literals(std::size_t count, unsigned last_kind);
    reference::Rule rule(Form form);
    reference::Literals head_literals(Form form, std::size_t most);
    Bytes repaired(Form form, Bytes set);
    reference::Literals mended(Form form, reference::Literals set, std::uint64_t word, const Bytes &buffer);
    Call assembly_call(unsigned operation);
    Bytes program_for(unsigned operation);
    Bytes set_for(unsigned operation);
    Bytes altered(const Bytes &set, Form form);
    std::size_t room_for(Call call);
    std::uint32_t rule_number(Form form);
    Side &side(Form form) { return form == Form::source ? source : plain; }

    Random random;
    Style style;
    // The largest numbers that rules use.
    unsigned atoms = 1, tags = 1;
    std::size_t rules = 0, head = 1, body = 1;
    Side source, plain;
    reference::Sheets sheets; // the source's
};

} // namespace cases
