// Which of the library's basic blocks ran. The library comes as machine code, which no compiler can instrument: each
// block gets a breakpoint that is taken out when it is first met.
#pragma once

#include <cstddef>
#include <cstdint>

namespace blocks {

constexpr std::size_t most = 16384;

// Sets a breakpoint at each address in the file that the variable ASPDA_BLOCKS names (blocks.py makes it), if set.
// The counter of a block, by its place in the file, becomes 1 when it is met. The program is linked at fixed addresses.
void watch(std::uint8_t (&counters)[most]);

// Prints how many were met, and with ASPDA_UNMET set the others' addresses.
void report();

} // namespace blocks
