#include "blocks.hpp"

#include <algorithm>
#include <csignal>
#include <cstdio>
#include <cstdlib>
#include <fstream>
#include <sys/mman.h>
#include <ucontext.h>
#include <unistd.h>
#include <vector>

namespace blocks {

namespace {

struct Block {
    std::uint8_t *address;
    std::uint8_t instruction;
    volatile bool is_met;
};

constexpr std::uint8_t breakpoint = 0xcc;

std::vector<Block> watched; // by address
std::uint8_t *counts = nullptr;

// Two threads may meet one block at once; both put the same byte back.
void meet(int, siginfo_t *, void *context)
{
    auto &registers = static_cast<ucontext_t *>(context)->uc_mcontext.gregs;
    auto *address = reinterpret_cast<std::uint8_t *>(registers[REG_RIP] - 1);
    auto found = std::lower_bound(watched.begin(), watched.end(), address,
                                  [](const Block &block, std::uint8_t *at) { return block.address < at; });
    if (found == watched.end() || found->address != address) std::abort();
    found->is_met = true;
    counts[found - watched.begin()] = 1;
    *address = found->instruction;
    registers[REG_RIP] -= 1;
}

void make_writable(const std::uint8_t *from, const std::uint8_t *to)
{
    auto page = static_cast<std::uintptr_t>(sysconf(_SC_PAGESIZE));
    std::uintptr_t start = reinterpret_cast<std::uintptr_t>(from) / page * page;
    std::size_t length = reinterpret_cast<std::uintptr_t>(to) + 1 - start;
    if (mprotect(reinterpret_cast<void *>(start), length, PROT_READ | PROT_WRITE | PROT_EXEC) != 0) std::abort();
}

} // namespace

void watch(std::uint8_t (&counters)[most])
{
    const char *file = std::getenv("ASPDA_BLOCKS");
    if (file == nullptr) return;
    counts = counters;
    std::ifstream stream(file);
    for (std::uintptr_t address; stream >> std::hex >> address;)
        watched.push_back({reinterpret_cast<std::uint8_t *>(address), 0, false});
    if (watched.empty() || watched.size() > most) std::abort();
    struct sigaction action = {};
    action.sa_sigaction = meet;
    action.sa_flags = SA_SIGINFO;
    sigaction(SIGTRAP, &action, nullptr);
    make_writable(watched.front().address, watched.back().address);
    for (Block &block : watched) {
        block.instruction = *block.address;
        *block.address = breakpoint;
    }
}

void report()
{
    auto met = std::count_if(watched.begin(), watched.end(), [](const Block &block) { return block.is_met; });
    std::printf("%zu of the library's %zu basic blocks met\n", static_cast<std::size_t>(met), watched.size());
    if (std::getenv("ASPDA_UNMET") == nullptr) return;
    for (const Block &block : watched)
        if (!block.is_met) std::printf("unmet %p\n", static_cast<void *>(block.address));
}

} // namespace blocks
