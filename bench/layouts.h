// Layouts of the table that is measured, as accessors written by hand, and the work on them that is compared.
//
// `fixed`: an accessor for each form whose offsets and sizes the compiler knows. `general`: an accessor for each form
// that takes offsets, widths, signs, strides and lanes from a plan that is made when the program runs.
#include <stdbool.h>
#include <stddef.h>
#include <stdint.h>
#include <stdio.h>
#include <stdlib.h>
#include <string.h>

#define LEAVES 4
#define LANES 8
#define ROW_BYTES 15
#define BLOCK_BYTES (LANES * ROW_BYTES)

enum { USAGE = 2, FAULT = 1 };

// Of such a function a compiler uses nothing but its type.
#ifdef __clang__
#define NOT_LOOKED_INTO __attribute__((noinline, optnone))
#else
#define NOT_LOOKED_INTO __attribute__((noipa))
#endif

typedef __int128 number;

enum form { AOS, SOA, AOSOA };

// How a leaf lies: where its first value begins, and how it is stored.
struct leaf_plan {
    size_t first;
    unsigned width;
    bool is_signed;
    number least;
    number greatest;
};

struct table {
    unsigned char *bytes;
    size_t size;
    uint32_t rows;
    // the first byte of each array of the form soa
    size_t arrays[LEAVES];
    // what the general accessors go by
    struct leaf_plan leaves[LEAVES];
    size_t stride;
    uint32_t lanes;
    // what those of bits, of split bytes and of other orders go by: the bits from a row to the next, where the array of each byte of a
    // row begins, and the extents of an array
    size_t steps[LEAVES];
    size_t cells[ROW_BYTES];
    uint32_t extents[3];
};

// ---- numbers of one type

static inline number load(const unsigned char *at, unsigned width, bool is_signed) {
    switch (width) {
    case 8:
        return is_signed ? (number)(int8_t)*at : (number)*at;
    case 16: {
        uint16_t word;
        memcpy(&word, at, sizeof word);
        return is_signed ? (number)(int16_t)word : (number)word;
    }
    case 32: {
        uint32_t word;
        memcpy(&word, at, sizeof word);
        return is_signed ? (number)(int32_t)word : (number)word;
    }
    default: {
        uint64_t word;
        memcpy(&word, at, sizeof word);
        return is_signed ? (number)(int64_t)word : (number)word;
    }
    }
}

static inline void store(unsigned char *at, unsigned width, number value) {
    uint64_t word = (uint64_t)value;
    switch (width) {
    case 8:
        memcpy(at, &word, 1);
        break;
    case 16:
        memcpy(at, &word, 2);
        break;
    case 32:
        memcpy(at, &word, 4);
        break;
    default:
        memcpy(at, &word, 8);
    }
}

// ---- fixed: a leaf of the record { a: i8, b: i16, c: i32, d: i64 } takes 1, 2, 4 or 8 bytes

static inline unsigned fixed_bytes(unsigned leaf) {
    return 1u << leaf;
}

// The bytes of the leaves before it.
static inline unsigned fixed_offset(unsigned leaf) {
    return (1u << leaf) - 1;
}

static inline bool fixed_fits(unsigned leaf, number value) {
    number end = (number)1 << (8 * fixed_bytes(leaf) - 1);
    return -end <= value && value < end;
}

static inline unsigned char *fixed_aos(const struct table *table, uint32_t row, unsigned leaf) {
    return table->bytes + (size_t)row * ROW_BYTES + fixed_offset(leaf);
}

static inline unsigned char *fixed_soa(const struct table *table, uint32_t row, unsigned leaf) {
    return table->bytes + table->arrays[leaf] + (size_t)row * fixed_bytes(leaf);
}

static inline unsigned char *fixed_aosoa(const struct table *table, uint32_t row, unsigned leaf) {
    return table->bytes + (size_t)(row / LANES) * BLOCK_BYTES + LANES * fixed_offset(leaf) +
           row % LANES * fixed_bytes(leaf);
}

#define FIXED_ACCESSORS(form)                                                                                          \
    static inline number get_fixed_##form(const struct table *table, uint32_t row, unsigned leaf) {                    \
        return load(fixed_##form(table, row, leaf), 8 * fixed_bytes(leaf), true);                                      \
    }                                                                                                                  \
    static inline bool set_fixed_##form(struct table *table, uint32_t row, unsigned leaf, number value) {              \
        if (!fixed_fits(leaf, value))                                                                                  \
            return false;                                                                                              \
        store(fixed_##form(table, row, leaf), 8 * fixed_bytes(leaf), value);                                           \
        return true;                                                                                                   \
    }

FIXED_ACCESSORS(aos)
FIXED_ACCESSORS(soa)
FIXED_ACCESSORS(aosoa)

// ---- general: by the plan alone

static inline unsigned char *general_aos(const struct table *table, uint32_t row, unsigned leaf) {
    return table->bytes + row * table->stride + table->leaves[leaf].first;
}

static inline unsigned char *general_soa(const struct table *table, uint32_t row, unsigned leaf) {
    const struct leaf_plan *plan = &table->leaves[leaf];
    return table->bytes + plan->first + (size_t)row * (plan->width / 8);
}

static inline unsigned char *general_aosoa(const struct table *table, uint32_t row, unsigned leaf) {
    const struct leaf_plan *plan = &table->leaves[leaf];
    return table->bytes + row / table->lanes * table->stride + plan->first +
           (size_t)(row % table->lanes) * (plan->width / 8);
}

#define GENERAL_ACCESSORS(form)                                                                                        \
    static inline number get_general_##form(const struct table *table, uint32_t row, unsigned leaf) {                  \
        const struct leaf_plan *plan = &table->leaves[leaf];                                                           \
        return load(general_##form(table, row, leaf), plan->width, plan->is_signed);                                   \
    }                                                                                                                  \
    static inline bool set_general_##form(struct table *table, uint32_t row, unsigned leaf, number value) {            \
        const struct leaf_plan *plan = &table->leaves[leaf];                                                           \
        if (value < plan->least || value > plan->greatest)                                                             \
            return false;                                                                                              \
        store(general_##form(table, row, leaf), plan->width, value);                                                   \
        return true;                                                                                                   \
    }

GENERAL_ACCESSORS(aos)
GENERAL_ACCESSORS(soa)
GENERAL_ACCESSORS(aosoa)

// ---- the work, which is what is measured

// The value is hidden from the compiler, which else sees that it fits in each leaf and drops the tests of `set`.
static inline number value_of(uint32_t round, uint32_t row, unsigned leaf) {
    number value = (number)(((uint64_t)round + row + leaf) % 256) - 128;
    __asm__("" : "+r"(value));
    return value;
}

// The leaves of a row are unrolled in both kinds of accessor.
#define WORK(accessor)                                                                                                 \
    __attribute__((noinline)) static bool write_##accessor(struct table *table, uint32_t rounds) {                     \
        for (uint32_t round = 0; round < rounds; round++)                                                              \
            for (uint32_t row = 0; row < table->rows; row++)                                                           \
                _Pragma("GCC unroll 4") for (unsigned leaf = 0; leaf < LEAVES; leaf++)                                 \
                    if (!set_##accessor(table, row, leaf, value_of(round, row, leaf)))                                 \
                        return false;                                                                                  \
        return true;                                                                                                   \
    }                                                                                                                  \
    __attribute__((noinline)) static bool read_##accessor(const struct table *table, uint32_t rounds, number *sum) {   \
        number total = 0;                                                                                              \
        for (uint32_t round = 0; round < rounds; round++) {                                                            \
            number round_sum = 0;                                                                                      \
            for (uint32_t row = 0; row < table->rows; row++) {                                                         \
                number row_sum = 0;                                                                                    \
                _Pragma("GCC unroll 4") for (unsigned leaf = 0; leaf < LEAVES; leaf++)                                 \
                    if (__builtin_add_overflow(row_sum, get_##accessor(table, row, leaf), &row_sum))                   \
                        return false;                                                                                  \
                if (__builtin_add_overflow(round_sum, row_sum, &round_sum))                                            \
                    return false;                                                                                      \
            }                                                                                                          \
            if (__builtin_add_overflow(total, round_sum, &total))                                                      \
                return false;                                                                                          \
        }                                                                                                              \
        *sum = total;                                                                                                  \
        return true;                                                                                                   \
    }

WORK(fixed_aos)
WORK(fixed_soa)
WORK(fixed_aosoa)
WORK(general_aos)
WORK(general_soa)
WORK(general_aosoa)

struct work {
    bool (*write)(struct table *, uint32_t);
    bool (*read)(const struct table *, uint32_t, number *);
};

static const struct work WORKS[2][3] = {
    {{write_fixed_aos, read_fixed_aos}, {write_fixed_soa, read_fixed_soa}, {write_fixed_aosoa, read_fixed_aosoa}},
    {{write_general_aos, read_general_aos},
     {write_general_soa, read_general_soa},
     {write_general_aosoa, read_general_aosoa}},
};

// ---- plans

static size_t padded(size_t at, size_t size) {
    return (at + size - 1) / size * size;
}

// Plans a table of zeros, and returns its number of bytes. It is not looked into, so no number of a plan is known.
NOT_LOOKED_INTO static size_t plan_table(struct table *table, enum form form, uint32_t rows) {
    size_t end = 0;
    for (unsigned leaf = 0; leaf < LEAVES; leaf++) {
        size_t size = (size_t)1 << leaf;
        size_t count = form == AOS ? 1 : form == SOA ? rows : LANES;
        size_t first = form == SOA ? padded(end, size) : end;
        number least = -((number)1 << (8 * size - 1));
        table->arrays[leaf] = first;
        table->leaves[leaf] = (struct leaf_plan){first, (unsigned)(8 * size), true, least, -1 - least};
        end = first + count * size;
    }
    table->rows = rows;
    table->stride = end;
    table->lanes = LANES;
    if (form == SOA)
        return end;
    return end * (form == AOS ? rows : (size_t)padded(rows, LANES) / LANES);
}

static void print_number(number value) {
    char digits[40];
    size_t at = sizeof digits;
    unsigned __int128 left = value < 0 ? -(unsigned __int128)value : (unsigned __int128)value;
    digits[--at] = 0;
    do
        digits[--at] = (char)('0' + (int)(left % 10));
    while ((left /= 10) != 0);
    printf("%s%s\n", value < 0 ? "-" : "", digits + at);
}

static int index_of(const char *word, const char *const *words, int count) {
    for (int index = 0; index < count; index++)
        if (strcmp(word, words[index]) == 0)
            return index;
    return -1;
}

// The words of the kinds and of the forms.
static const char *const KINDS[] = {"fixed", "general"};
static const char *const FORMS[] = {"aos", "soa", "aosoa"};

// Makes a table of zeros. False where there is no memory.
static bool make_table(struct table *table, enum form form, uint32_t rows) {
    table->size = plan_table(table, form, rows);
    table->bytes = calloc(table->size == 0 ? 1 : table->size, 1);
    return table->bytes != NULL;
}
