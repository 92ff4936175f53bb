// A second reference, in C++ so that millions of calls can be compared: every operation of document 01, document 02's
// export to aspif, its preference sheets and its program assembly, written from those documents and from include/aspda.h,
// without the library's definitions or code and without the Python reference.
// It is written for plainness: a program becomes a vector of rules, a set a sorted vector.
#pragma once

#include <cstddef>
#include <cstdint>
#include <tuple>
#include <vector>

namespace reference {

using Bytes = std::vector<std::uint8_t>;

enum class Form { source, plain };

enum Kind : unsigned { atom, negated, defeated, defeated_negated, derived, derived_negated, rule_defeated };

// Whether a kind is a negated atom's or that of a mark of one (document 02, ask 3).
constexpr bool is_negated(unsigned kind)
{
    return kind % 2 == 1;
}
static_assert(!is_negated(atom) && is_negated(negated) && !is_negated(defeated) && is_negated(defeated_negated));
static_assert(!is_negated(derived) && is_negated(derived_negated) && !is_negated(rule_defeated));

// A form's row of limits (document 01, "Source form and plain form", as document 02's ask 2 changes it).
struct Limits {
    std::size_t length, rules, head, positive, naf;
    unsigned last_kind;
    std::size_t set;
    // Records of preference sheets, of each kind; a form that takes none has no marks for them.
    std::size_t sheets;
};

constexpr Limits source_limits{64388, 256, 16, 16, 16, defeated_negated, 1000, 64};
constexpr Limits plain_limits{456708, 20992, 16, 16, 17, rule_defeated, 5352, 0};

constexpr Limits limits(Form form)
{
    return form == Form::source ? source_limits : plain_limits;
}

constexpr unsigned last_atom = 500, last_tag = 200, last_rule_number = 256;
constexpr std::size_t checked_set = 64;
// A translation has at most so many times its source's bytes, to which each appended rule adds so many.
constexpr std::size_t times_longer = 13, appended_rule = 17;

// A text in aspif has at most so many bytes, for a program of so many.
constexpr std::size_t aspif_bound(std::size_t length)
{
    return 2 * length + 29012;
}

// An assembly's state has so many bytes. Byte 0 is its stage: 0 before the first begin, 1 open, 2 closed. Bytes 2 and 3 are
// the number of rules held. From `state_heads` on there is a byte for each rule, a strict one's number of head literals and
// a defeasible one's plus 127; from `state_bodies` on one for each rule's number of body literals. All else is 0.
constexpr std::size_t state_length = 520, state_heads = 8, state_bodies = state_heads + source_limits.rules;
static_assert(state_bodies + source_limits.rules == state_length);

// In the order of the fields, which is the order of the bytes.
struct Literal {
    unsigned kind, tag, number;

    bool operator<(const Literal &other) const
    {
        return std::tie(kind, tag, number) < std::tie(other.kind, other.tag, other.number);
    }
    bool operator==(const Literal &other) const
    {
        return kind == other.kind && tag == other.tag && number == other.number;
    }
};

using Literals = std::vector<Literal>;

struct Rule {
    bool defeasible;
    unsigned tag;
    Literals head, positive, naf;
    // Where its record lies, if it was read.
    std::size_t start, length;
};

using Program = std::vector<Rule>;

// The upper tag overrides the lower one; `before` rules stand before its record.
struct Override {
    unsigned upper, lower;
    std::size_t before;
};

// The two options oppose each other; `before` rules stand before its record.
struct Opposition {
    Literal first, second;
    std::size_t before;
};

// Preference sheets, each kind in the order of its records.
struct Sheets {
    std::vector<Override> overrides;
    std::vector<Opposition> oppositions;
};

// The bytes of a program, with sheets, and of a set, whether or not they keep a form's limits. Of the records before one
// rule the overrides come first.
Bytes program_bytes(const Program &program, const Sheets &sheets = {});
Bytes set_bytes(const Literals &set);
// The rules of the program that the bytes mean, appended ones too; none if they are refused.
Program rules_of(Form form, const Bytes &bytes);
// A source's length for the thirteenfold bound: its bytes, and more for each appended rule.
std::size_t summed_length(const Bytes &source);

// Each gives the word of include/aspda.h. `buffer` is the lent output slice: it comes with what it holds before the
// call and leaves with what it holds afterwards.
std::uint64_t read(Form form, const Bytes &program);
std::uint64_t show(Form form, const Bytes &program, std::uint32_t rule);
std::uint64_t translate(const Bytes &source, Bytes &buffer);
std::uint64_t quotient(Form form, const Bytes &program, const Bytes &set, Bytes &buffer);
std::uint64_t extend(const Bytes &source, const Bytes &set, Bytes &buffer);
std::uint64_t restriction(const Bytes &set, Bytes &buffer);
std::uint64_t aspif(const Bytes &program, Bytes &buffer);
std::uint64_t check(Form form, const Bytes &program, const Bytes &set, Bytes &buffer);

// Program assembly (document 02, ask 4): `state` is lent and changed, as `buffer` is.
std::uint64_t begin(Bytes &state, const Bytes &buffer);
std::uint64_t add(Bytes &state, const Bytes &record, Bytes &buffer);
std::uint64_t drop(Bytes &state);
std::uint64_t close(Bytes &state, Bytes &buffer);
std::uint64_t assembled(const Bytes &state);

} // namespace reference
