// The reference beside the vector file of tests/vectors.py, which has the answers of the Python reference: the two were
// written apart. The format is described in tests/cases/vector_file.py. Rows of the filter are passed over. An export
// without rows is a failure.
#include "calls.hpp"

#include <algorithm>
#include <cstdio>
#include <fstream>
#include <iterator>
#include <stdexcept>

namespace {

using calls::Bytes;

class File {
public:
    explicit File(const char *name)
    {
        std::ifstream stream(name, std::ios::binary);
        bytes.assign(std::istreambuf_iterator<char>(stream), {});
    }

    std::uint64_t number(std::size_t size)
    {
        std::uint64_t value = 0;
        for (std::uint8_t byte : take(size)) value = value * 256 + byte;
        return value;
    }

    Bytes take(std::size_t size)
    {
        if (size > bytes.size() - at) throw std::runtime_error("the vector file is cut");
        at += size;
        return Bytes(bytes.begin() + at - size, bytes.begin() + at);
    }

    std::string text()
    {
        Bytes name = take(number(1));
        return std::string(name.begin(), name.end());
    }

    // Pieces of blobs, joined.
    Bytes slice()
    {
        Bytes joined;
        for (std::uint64_t pieces = number(1); pieces > 0; --pieces) {
            const Bytes &blob = blobs.at(number(4));
            std::size_t start = number(4), length = number(4);
            joined.insert(joined.end(), blob.begin() + start, blob.begin() + start + length);
        }
        return joined;
    }

    std::vector<Bytes> blobs;

private:
    Bytes bytes;
    std::size_t at = 0;
};

constexpr unsigned not_an_export = calls::exports.size();
constexpr unsigned salt = 89;

unsigned operation_named(const std::string &name)
{
    unsigned operation = 0;
    while (operation < not_an_export && name != calls::exports[operation].name) ++operation;
    if (operation == not_an_export && name != "filter") throw std::runtime_error("no export is named " + name);
    return operation;
}

// A row: a call, its word, and what it was lent as it is afterwards.
struct Row {
    std::string name;
    calls::Call call;
    std::uint64_t word;
    calls::Lent after;
};

// A buffer with bytes written to it from a place on.
Bytes written_to(Bytes buffer, std::size_t start, const Bytes &written)
{
    if (start + written.size() > buffer.size()) throw std::runtime_error("a row writes outside its buffer");
    std::copy(written.begin(), written.end(), buffer.begin() + start);
    return buffer;
}

Row read_row(File &file, const std::vector<unsigned> &operations)
{
    Row row;
    calls::Call &call = row.call;
    call.operation = operations.at(file.number(1));
    row.name = file.text();
    call.program = file.slice();
    call.set = file.slice();
    call.rule = static_cast<std::uint32_t>(file.number(4));
    call.room = file.number(4);
    row.word = file.number(8);
    Bytes written = file.slice();
    // The filter writes to no lent buffer, and its rows are passed over.
    if (call.operation != not_an_export) row.after.out = written_to(calls::filling(call.room, salt), 0, written);
    return row;
}

Row read_assembly_row(File &file, const std::vector<unsigned> &operations)
{
    Row row;
    calls::Call &call = row.call;
    call.operation = operations.at(file.number(1));
    row.name = file.text();
    call.state = file.slice();
    call.program = file.slice();
    call.room = file.number(4);
    row.word = file.number(8);
    row.after.state = file.slice();
    std::size_t start = file.number(4);
    row.after.out = written_to(calls::filling(call.room, salt), start, file.slice());
    return row;
}

// True unless the reference differs from the row.
bool agrees(Row row, calls::Tallies &tallies)
{
    if (row.call.operation == not_an_export) return true;
    calls::Lent lent = calls::lent_to(row.call, salt);
    std::uint64_t got = calls::by_reference(row.call, lent);
    tallies[row.call.operation].count(row.call.operation, got);
    if (got == row.word && lent == row.after) return true;
    std::printf("the vectors' row %s\n", row.name.c_str());
    calls::Slices slices{};
    slices.out = row.after.out.data();
    slices.state = row.after.state.data();
    calls::print_difference(row.call, got, lent, row.word, slices);
    return false;
}

bool all_agree(File &file, calls::Tallies &tallies)
{
    const std::string magic = "aspda vectors 1\n";
    if (file.take(magic.size()) != Bytes(magic.begin(), magic.end())) throw std::runtime_error("this is no vector file");
    std::vector<unsigned> operations;
    for (std::uint64_t names = file.number(1); names > 0; --names) operations.push_back(operation_named(file.text()));
    for (std::uint64_t rows = 0;;) {
        switch (file.number(1)) {
        case 'B': file.blobs.push_back(file.take(file.number(4))); break;
        case 'R':
            ++rows;
            if (!agrees(read_row(file, operations), tallies)) return false;
            break;
        case 'A':
            ++rows;
            if (!agrees(read_assembly_row(file, operations), tallies)) return false;
            break;
        case 'E':
            if (file.number(4) != rows) throw std::runtime_error("the vector file's number of rows is wrong");
            return true;
        default: throw std::runtime_error("unknown entry in the vector file");
        }
    }
}

} // namespace

int main(int count, char **words)
{
    if (count != 2) return std::puts("usage: vectors FILE"), 2;
    File file(words[1]);
    calls::Tallies tallies{};
    if (!all_agree(file, tallies)) return 1;
    calls::print(tallies);
    if (!calls::all_called(tallies)) return 1;
    std::puts("the two references agree");
}
