// The peer of `bench_layouts table FORM GRID ROWS SETS GETS` for bit fields, swapped and split bytes and other orders than that by rows: the
// same work on the same bytes, by accessors written by hand.
//
//   forms fixed|general FORM[_GRID] ROWS SETS GETS
#include "layouts.h"

// The columns of a plane, and the further extents of a space.
#define COLUMNS 1000
#define SIDE 100

// ---- bits: a field of up to 57 bits lies in the eight bytes from its first

// In place of one width for all leaves: a width for each.
#define MIXED 0

static inline unsigned fixed_bits(unsigned width, unsigned leaf) {
    static const unsigned mixed[LEAVES] = {8, 11, 23, 57};
    if (width == MIXED)
        return mixed[leaf];
    return width < 8 * fixed_bytes(leaf) ? width : 8 * fixed_bytes(leaf);
}

// The bits of the leaves before it.
static inline unsigned fixed_bit(unsigned width, unsigned leaf) {
    unsigned bit = 0;
    for (unsigned before = 0; before < leaf; before++)
        bit += fixed_bits(width, before);
    return bit;
}

static inline bool fits_bits(unsigned bits, number value) {
    number end = (number)1 << (bits - 1);
    return -end <= value && value < end;
}

static inline number load_bits(const unsigned char *bytes, size_t bit, unsigned width, bool is_signed) {
    uint64_t word;
    memcpy(&word, bytes + bit / 8, sizeof word);
    word = word >> bit % 8 << (64 - width);
    return is_signed ? (number)((int64_t)word >> (64 - width)) : (number)(word >> (64 - width));
}

static inline void store_bits(unsigned char *bytes, size_t bit, unsigned width, number value) {
    uint64_t mask = UINT64_MAX >> (64 - width), word;
    memcpy(&word, bytes + bit / 8, sizeof word);
    word = (word & ~(mask << bit % 8)) | ((uint64_t)value & mask) << bit % 8;
    memcpy(bytes + bit / 8, &word, sizeof word);
}

#define FIXED_BITS(form, width, at)                                                                                    \
    static inline number get_fixed_##form(const struct table *table, uint32_t row, unsigned leaf) {                    \
        return load_bits(table->bytes, at, fixed_bits(width, leaf), true);                                             \
    }                                                                                                                  \
    static inline bool set_fixed_##form(struct table *table, uint32_t row, unsigned leaf, number value) {              \
        if (!fits_bits(fixed_bits(width, leaf), value))                                                                \
            return false;                                                                                              \
        store_bits(table->bytes, at, fixed_bits(width, leaf), value);                                                  \
        return true;                                                                                                   \
    }

#define FIXED_BIT_FORMS(name, width)                                                                                   \
    FIXED_BITS(bitaos_##name, width, (size_t)row * fixed_bit(width, LEAVES) + fixed_bit(width, leaf))                  \
    FIXED_BITS(bitsoa_##name, width, 8 * table->arrays[leaf] + (size_t)row * fixed_bits(width, leaf))

FIXED_BIT_FORMS(9, 9)
FIXED_BIT_FORMS(23, 23)
FIXED_BIT_FORMS(57, 57)
FIXED_BIT_FORMS(mixed, MIXED)

// A field of the general accessors begins at a bit of its own, and again with each step of a row.
static inline size_t general_bit(const struct table *table, uint32_t row, unsigned leaf) {
    return table->leaves[leaf].first + row * table->steps[leaf];
}

static inline number get_general_bits(const struct table *table, uint32_t row, unsigned leaf) {
    const struct leaf_plan *plan = &table->leaves[leaf];
    return load_bits(table->bytes, general_bit(table, row, leaf), plan->width, plan->is_signed);
}

static inline bool set_general_bits(struct table *table, uint32_t row, unsigned leaf, number value) {
    const struct leaf_plan *plan = &table->leaves[leaf];
    if (value < plan->least || value > plan->greatest)
        return false;
    store_bits(table->bytes, general_bit(table, row, leaf), plan->width, value);
    return true;
}

// ---- swapped: the bytes of each value in reverse order

static inline number load_swapped(const unsigned char *at, unsigned width, bool is_signed) {
    switch (width) {
    case 8:
        return load(at, width, is_signed);
    case 16: {
        uint16_t word;
        memcpy(&word, at, sizeof word);
        word = __builtin_bswap16(word);
        return is_signed ? (number)(int16_t)word : (number)word;
    }
    case 32: {
        uint32_t word;
        memcpy(&word, at, sizeof word);
        word = __builtin_bswap32(word);
        return is_signed ? (number)(int32_t)word : (number)word;
    }
    default: {
        uint64_t word;
        memcpy(&word, at, sizeof word);
        word = __builtin_bswap64(word);
        return is_signed ? (number)(int64_t)word : (number)word;
    }
    }
}

static inline void store_swapped(unsigned char *at, unsigned width, number value) {
    switch (width) {
    case 8:
        store(at, width, value);
        break;
    case 16:
        store(at, width, __builtin_bswap16((uint16_t)value));
        break;
    case 32:
        store(at, width, __builtin_bswap32((uint32_t)value));
        break;
    default:
        store(at, width, (number)__builtin_bswap64((uint64_t)value));
    }
}

// ---- the slot of a row of a plane, which has lines and columns, and of a space of three extents: by columns the first extent goes
// fastest, and in Morton order the binary digits of all go in turn, those of the last the lowest

static inline uint32_t col_plane(uint32_t row, uint32_t first, uint32_t second, uint32_t third) {
    (void)third;
    return row % second * first + row / second;
}

static inline uint32_t col_space(uint32_t row, uint32_t first, uint32_t second, uint32_t third) {
    return (row % third * second + row / third % second) * first + row / third / second;
}

static inline size_t spread_in_two(size_t component) {
    component = (component | component << 8) & 0x0f00ff;
    component = (component | component << 4) & 0x0f0f0f;
    component = (component | component << 2) & 0x333333;
    return (component | component << 1) & 0x555555;
}

static inline size_t spread_in_three(size_t component) {
    component = (component | component << 8) & 0x00f00f;
    component = (component | component << 4) & 0x0c30c3;
    return (component | component << 2) & 0x249249;
}

static inline uint32_t morton_plane(uint32_t row, uint32_t first, uint32_t second, uint32_t third) {
    (void)first, (void)third;
    return (uint32_t)(spread_in_two(row / second) << 1 | spread_in_two(row % second));
}

static inline uint32_t morton_space(uint32_t row, uint32_t first, uint32_t second, uint32_t third) {
    (void)first;
    return (uint32_t)(spread_in_three(row / third / second) << 2 | spread_in_three(row / third % second) << 1 |
                      spread_in_three(row % third));
}

// ---- accessors of whole bytes

#define FIXED_BYTES(form, at, load, store)                                                                             \
    static inline number get_fixed_##form(const struct table *table, uint32_t row, unsigned leaf) {                    \
        return load(at, 8 * fixed_bytes(leaf), true);                                                                  \
    }                                                                                                                  \
    static inline bool set_fixed_##form(struct table *table, uint32_t row, unsigned leaf, number value) {              \
        if (!fixed_fits(leaf, value))                                                                                  \
            return false;                                                                                              \
        store(at, 8 * fixed_bytes(leaf), value);                                                                       \
        return true;                                                                                                   \
    }

FIXED_BYTES(aos_swap, fixed_aos(table, row, leaf), load_swapped, store_swapped)
FIXED_BYTES(soa_swap, fixed_soa(table, row, leaf), load_swapped, store_swapped)

#define GENERAL_BYTES(form, at, load, store)                                                                           \
    static inline number get_general_##form(const struct table *table, uint32_t row, unsigned leaf) {                  \
        const struct leaf_plan *plan = &table->leaves[leaf];                                                           \
        return load(at, plan->width, plan->is_signed);                                                                 \
    }                                                                                                                  \
    static inline bool set_general_##form(struct table *table, uint32_t row, unsigned leaf, number value) {            \
        const struct leaf_plan *plan = &table->leaves[leaf];                                                           \
        if (value < plan->least || value > plan->greatest)                                                             \
            return false;                                                                                              \
        store(at, plan->width, value);                                                                                 \
        return true;                                                                                                   \
    }

GENERAL_BYTES(aos_swap, general_aos(table, row, leaf), load_swapped, store_swapped)
GENERAL_BYTES(soa_swap, general_soa(table, row, leaf), load_swapped, store_swapped)

#define FIXED_SLOT(slot, second, third) slot(row, table->extents[0], second, third)
#define GENERAL_SLOT(slot) slot(row, table->extents[0], table->extents[1], table->extents[2])
#define ORDERED(slot, second, third)                                                                                   \
    FIXED_BYTES(aos_##slot, fixed_aos(table, FIXED_SLOT(slot, second, third), leaf), load, store)                      \
    FIXED_BYTES(soa_##slot, fixed_soa(table, FIXED_SLOT(slot, second, third), leaf), load, store)                      \
    GENERAL_BYTES(aos_##slot, general_aos(table, GENERAL_SLOT(slot), leaf), load, store)                               \
    GENERAL_BYTES(soa_##slot, general_soa(table, GENERAL_SLOT(slot), leaf), load, store)                               \
    WORK(fixed_aos_##slot)                                                                                             \
    WORK(fixed_soa_##slot)                                                                                             \
    WORK(general_aos_##slot)                                                                                           \
    WORK(general_soa_##slot)

ORDERED(col_plane, COLUMNS, 1)
ORDERED(col_space, SIDE, SIDE)
ORDERED(morton_plane, COLUMNS, 1)
ORDERED(morton_space, SIDE, SIDE)

// ---- split: each byte of a leaf is a cell, least significant first

static inline unsigned char *fixed_aos_byte(const struct table *table, uint32_t row, unsigned byte) {
    return table->bytes + (size_t)row * ROW_BYTES + byte;
}

static inline unsigned char *fixed_soa_byte(const struct table *table, uint32_t row, unsigned byte) {
    return table->bytes + (size_t)byte * table->rows + row;
}

static inline unsigned char *general_byte(const struct table *table, uint32_t row, unsigned byte) {
    return table->bytes + table->cells[byte] + row * table->stride;
}

#define SPLIT_ACCESSORS(form, at, width, is_signed, first, fits)                                                       \
    static inline number get_##form(const struct table *table, uint32_t row, unsigned leaf) {                          \
        uint64_t word = 0;                                                                                             \
        _Pragma("GCC unroll 8")                                                                                        \
        for (unsigned byte = 0; byte < (width) / 8; byte++)                                                            \
            word |= (uint64_t)*at(table, row, (first) + byte) << 8 * byte;                                             \
        word <<= 64 - (width);                                                                                         \
        return is_signed ? (number)((int64_t)word >> (64 - (width))) : (number)(word >> (64 - (width)));               \
    }                                                                                                                  \
    static inline bool set_##form(struct table *table, uint32_t row, unsigned leaf, number value) {                    \
        if (!(fits))                                                                                                   \
            return false;                                                                                              \
        _Pragma("GCC unroll 8")                                                                                        \
        for (unsigned byte = 0; byte < (width) / 8; byte++)                                                            \
            *at(table, row, (first) + byte) = (unsigned char)((uint64_t)value >> 8 * byte);                            \
        return true;                                                                                                   \
    }

#define FIXED_SPLIT(form, at)                                                                                          \
    SPLIT_ACCESSORS(fixed_##form, at, 8 * fixed_bytes(leaf), true, fixed_offset(leaf), fixed_fits(leaf, value))

FIXED_SPLIT(aos_split, fixed_aos_byte)
FIXED_SPLIT(soa_split, fixed_soa_byte)
SPLIT_ACCESSORS(general_split, general_byte, table->leaves[leaf].width, table->leaves[leaf].is_signed,
                table->leaves[leaf].first, value >= table->leaves[leaf].least && value <= table->leaves[leaf].greatest)

// ---- the work

WORK(fixed_bitaos_9)
WORK(fixed_bitaos_23)
WORK(fixed_bitaos_57)
WORK(fixed_bitaos_mixed)
WORK(fixed_bitsoa_9)
WORK(fixed_bitsoa_23)
WORK(fixed_bitsoa_57)
WORK(fixed_bitsoa_mixed)
WORK(fixed_aos_swap)
WORK(fixed_soa_swap)
WORK(fixed_aos_split)
WORK(fixed_soa_split)
WORK(general_bits)
WORK(general_aos_swap)
WORK(general_soa_swap)
WORK(general_split)

// How the values of a form lie: in bits or in bytes, as records or as arrays.
enum lie { RECORDS, ARRAYS, BIT_RECORDS, BIT_ARRAYS };

struct measured {
    const char *name;
    enum lie lie;
    // the most bits of a value
    unsigned width;
    // the extents behind the first, and how many there are where they are in Morton order
    uint32_t second, third;
    unsigned digits;
    struct work works[2];
};

#define KINDS_OF(fixed, general)                                                                                       \
    {{write_fixed_##fixed, read_fixed_##fixed}, {write_general_##general, read_general_##general}}
#define BY_ROWS(name, lie, width, general) {#name, lie, width, 1, 1, 0, KINDS_OF(name, general)}
#define IN_ORDER(slot, second, third, digits)                                                                          \
    {"aos_" #slot, RECORDS, 64, second, third, digits, KINDS_OF(aos_##slot, aos_##slot)},                              \
        {"soa_" #slot, ARRAYS, 64, second, third, digits, KINDS_OF(soa_##slot, soa_##slot)}

static const struct measured MEASURED[] = {
    BY_ROWS(bitaos_9, BIT_RECORDS, 9, bits),
    BY_ROWS(bitaos_23, BIT_RECORDS, 23, bits),
    BY_ROWS(bitaos_57, BIT_RECORDS, 57, bits),
    BY_ROWS(bitaos_mixed, BIT_RECORDS, MIXED, bits),
    BY_ROWS(bitsoa_9, BIT_ARRAYS, 9, bits),
    BY_ROWS(bitsoa_23, BIT_ARRAYS, 23, bits),
    BY_ROWS(bitsoa_57, BIT_ARRAYS, 57, bits),
    BY_ROWS(bitsoa_mixed, BIT_ARRAYS, MIXED, bits),
    BY_ROWS(aos_swap, RECORDS, 64, aos_swap),
    BY_ROWS(soa_swap, ARRAYS, 64, soa_swap),
    BY_ROWS(aos_split, RECORDS, 64, split),
    BY_ROWS(soa_split, ARRAYS, 64, split),
    IN_ORDER(col_plane, COLUMNS, 1, 0),
    IN_ORDER(col_space, SIDE, SIDE, 0),
    IN_ORDER(morton_plane, COLUMNS, 1, 2),
    IN_ORDER(morton_space, SIDE, SIDE, 3),
};

enum { FORM_COUNT = sizeof MEASURED / sizeof *MEASURED };

// The slots of a table; in Morton order those of an array whose extents are one power of two.
static uint32_t slots_of(const struct measured *form, uint32_t first) {
    uint32_t side = 1, slots = 1;
    if (form->digits == 0)
        return first * form->second * form->third;
    while (side < first || side < form->second || side < form->third)
        side *= 2;
    for (unsigned digit = 0; digit < form->digits; digit++)
        slots *= side;
    return slots;
}

// Plans a table of so many rows of an array, and returns its number of bytes. It is not looked into, so no number of a plan is known.
NOT_LOOKED_INTO static size_t plan_form(struct table *table, const struct measured *form, uint32_t rows) {
    uint32_t slots = slots_of(form, rows);
    bool is_in_bits = form->lie == BIT_RECORDS || form->lie == BIT_ARRAYS;
    bool is_array = form->lie == ARRAYS || form->lie == BIT_ARRAYS;
    size_t unit = is_in_bits ? 8 : 1, end = 0, cell = 0;
    for (unsigned leaf = 0; leaf < LEAVES; leaf++) {
        unsigned bytes = 1u << leaf, bits = fixed_bits(form->width, leaf);
        number least = -((number)1 << (bits - 1));
        table->arrays[leaf] = end / unit;
        table->steps[leaf] = bits;
        table->leaves[leaf] = (struct leaf_plan){end, bits, true, least, -1 - least};
        if (form->works[1].read == read_general_split)
            table->leaves[leaf].first = cell;
        for (unsigned byte = 0; byte < bytes; byte++, cell++)
            table->cells[cell] = is_array ? cell * slots : cell;
        // an array of bits begins at a whole byte
        end += (is_array ? slots : 1) * (is_in_bits ? (size_t)bits : (size_t)bytes);
        if (is_array && is_in_bits)
            end = padded(end, 64);
    }
    if (form->lie == BIT_RECORDS)
        for (unsigned leaf = 0; leaf < LEAVES; leaf++)
            table->steps[leaf] = end;
    table->rows = rows * form->second * form->third;
    table->stride = is_array ? 1 : end;
    memcpy(table->extents, (uint32_t[]){rows, form->second, form->third}, sizeof table->extents);
    // a word may be loaded up to seven bytes past the last value
    return (is_array ? end : end * slots) / unit + 16;
}

int main(int count, char **words) {
    int kind = count == 6 ? index_of(words[1], KINDS, 2) : -1, form = 0;
    while (count == 6 && form < FORM_COUNT && strcmp(words[2], MEASURED[form].name) != 0)
        form++;
    if (kind < 0 || form == FORM_COUNT) {
        puts("usage: forms fixed|general FORM ROWS SETS GETS");
        return USAGE;
    }
    struct table table;
    number sum;
    struct work work = MEASURED[form].works[kind];
    table.bytes = calloc(plan_form(&table, &MEASURED[form], (uint32_t)strtoul(words[3], NULL, 10)), 1);
    if (!table.bytes || !work.write(&table, (uint32_t)strtoul(words[4], NULL, 10)) ||
        !work.read(&table, (uint32_t)strtoul(words[5], NULL, 10), &sum)) {
        puts("fault");
        return FAULT;
    }
    print_number(sum);
    return 0;
}
