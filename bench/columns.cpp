/* lly::column beside loops of C++ over the same bytes: the sum of the leaf x of { x: i32, y: u32 }, and x added to an array, in packed records, arrays, blocks
 * of 16 rows and fields of 20 bits. A loop knows its layout.
 *
 * g++ -std=c++17 -O3 -Iinclude bench/columns.cpp lib/libllama_layout.a -o columns
 * usage: columns column|loop aos|soa|aosoa|bits sum|add ROWS ROUNDS     ROWS is a multiple of 16; a sum of what is made is printed */
#include <cstdlib>
#include <iostream>
#include <memory>

#include "llama_layout.hpp"

enum { LANES = 16, BITS = 20, SPARE = 8 };

struct pair {
    std::int32_t x;
    std::uint32_t y;
};

struct block {
    std::int32_t x[LANES];
    std::uint32_t y[LANES];
};

// ---- The loops, each over bytes that lie as its layout says.

template <typename Each>
static void over_aos(const std::uint8_t *bytes, std::uint64_t rows, Each each) {
    const pair *const pairs = reinterpret_cast<const pair *>(bytes);
    for (std::uint64_t row = 0; row < rows; row++) {
        each(row, pairs[row].x);
    }
}

template <typename Each>
static void over_soa(const std::uint8_t *bytes, std::uint64_t rows, Each each) {
    const std::int32_t *const x = reinterpret_cast<const std::int32_t *>(bytes);
    for (std::uint64_t row = 0; row < rows; row++) {
        each(row, x[row]);
    }
}

template <typename Each>
static void over_aosoa(const std::uint8_t *bytes, std::uint64_t rows, Each each) {
    const block *const blocks = reinterpret_cast<const block *>(bytes);
    for (std::uint64_t at = 0; at < rows / LANES; at++) {
        for (std::uint64_t lane = 0; lane < LANES; lane++) {
            each(at * LANES + lane, blocks[at].x[lane]);
        }
    }
}

template <typename Each>
static void over_bits(const std::uint8_t *bytes, std::uint64_t rows, Each each) {
    for (std::uint64_t row = 0; row < rows; row++) {
        const std::uint64_t bit = row * BITS;
        std::uint64_t word;
        std::memcpy(&word, bytes + bit / 8, sizeof word);
        each(row, static_cast<std::int32_t>(static_cast<std::uint32_t>(word >> bit % 8) << (32 - BITS)) >> (32 - BITS));
    }
}

// ---- The work, handed to a loop.

#define WORKS(form)                                                                                                       \
    __attribute__((noipa)) static void sum_##form(const std::uint8_t *bytes, std::uint64_t rows, std::int64_t *sums) {     \
        std::int64_t sum = 0;                                                                                             \
        over_##form(bytes, rows, [&](std::uint64_t, std::int32_t x) { sum += x; });                                       \
        sums[0] += sum;                                                                                                   \
    }                                                                                                                     \
    __attribute__((noipa)) static void add_##form(const std::uint8_t *bytes, std::uint64_t rows, std::int64_t *sums) {     \
        over_##form(bytes, rows, [&](std::uint64_t row, std::int32_t x) { sums[row] += x; });                             \
    }

WORKS(aos)
WORKS(soa)
WORKS(aosoa)
WORKS(bits)

__attribute__((noipa)) static void sum_column(const lly::column<std::int32_t> &column, std::int64_t *sums) {
    std::int64_t sum = 0;
    column.runs([&](auto numbers) {
        std::int64_t part = 0;
        for (const std::int64_t x : numbers) {
            part += x;
        }
        sum += part;
    });
    sums[0] += sum;
}

__attribute__((noipa)) static void add_column(const lly::column<std::int32_t> &column, std::int64_t *sums) {
    column.runs([&](auto numbers) {
        std::int64_t *const to = sums + numbers.first();
        for (std::uint64_t row = 0; row < numbers.size(); row++) {
            to[row] += numbers[row];
        }
    });
}

using loop = void(const std::uint8_t *, std::uint64_t, std::int64_t *);

static const std::string FORMS[] = {"aos", "soa", "aosoa", "bits"};
static const std::string LAYOUTS[] = {"aos(packed, row)", "soa(multi, row)", "aosoa(16, row)", "bitsoa(8 { x: 20 }, row)"};
static loop *const LOOPS[][2] = {{sum_aos, add_aos}, {sum_soa, add_soa}, {sum_aosoa, add_aosoa}, {sum_bits, add_bits}};

int main(int count, char **words) {
    std::size_t form = 0;
    while (count == 6 && form < 4 && FORMS[form] != words[2]) {
        form++;
    }
    if (count != 6 || form == 4) {
        std::cerr << "usage: columns column|loop aos|soa|aosoa|bits sum|add ROWS ROUNDS\n";
        return 1;
    }
    const bool ours = words[1] == std::string("column"), add = words[3] == std::string("add");
    const std::uint64_t rows = std::strtoull(words[4], nullptr, 10), rounds = std::strtoull(words[5], nullptr, 10);
    std::vector<std::int64_t> values(rows), sums(rows + 1);
    for (std::uint64_t row = 0; row < rows; row++) {
        values[row] = static_cast<std::int64_t>(row % 1000) - 500;
    }
    lly::view view("record P { x: i32, y: u32 }", "view V : P [" + std::to_string(rows) + "] as " + LAYOUTS[form]);
    view.set_run(0, 0, values);
    // The bytes of a loop are those of the view, in memory of its own.
    std::vector<std::uint8_t> bytes = view.blob(0);
    bytes.resize(bytes.size() + SPARE);
    const auto column = view.column<std::int32_t>("x");
    for (std::uint64_t round = 0; round < rounds; round++) {
        if (ours) {
            (add ? add_column : sum_column)(column, sums.data());
        } else {
            LOOPS[form][add](bytes.data(), rows, sums.data());
        }
    }
    std::int64_t sum = 0;
    for (std::uint64_t row = 0; row <= rows; row++) {
        sum += sums[row] * static_cast<std::int64_t>(row % 7 + 1);
    }
    std::cout << sum << '\n';
    return 0;
}
