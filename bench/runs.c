/* lly_get_run, lly_set_run and lly_get beside loops in C over the same bytes: the leaf x of { x: i32, y: u32 }, in packed records, arrays, blocks of 16
 * rows and fields of 20 bits. A loop knows its layout. It tests once that the rows are there, and each value that it stores for its range, as the library does.
 *
 * gcc -std=gnu99 -O2 -Iinclude bench/runs.c lib/libllama_layout.a -o runs
 * usage: runs llama|loop aos|soa|aosoa|bits get|set|one ROWS ROUNDS     ROWS is a multiple of 16; the sum of what is read is printed */
#include <inttypes.h>
#include <stdbool.h>
#include <stdio.h>
#include <stdlib.h>
#include <string.h>

#include "llama_layout.h"

/* STRIDE has no factor in common with a number of rows that ends in 0, so each row comes once. */
enum { LANES = 16, BITS = 20, STRIDE = 17, SPARE = 64 };

static void fail(const char *why) {
    fprintf(stderr, "runs: %s\n", why);
    exit(1);
}

static void must(int32_t answer) {
    if (answer != LLY_DONE) {
        fail("a call is refused");
    }
}

/* ---- The accessors of the four layouts, and the range of what each holds. */

static inline void *at_aos(uint8_t *bytes, uint64_t row) { return bytes + 8 * row; }
static inline void *at_soa(uint8_t *bytes, uint64_t row) { return bytes + 4 * row; }
static inline void *at_aosoa(uint8_t *bytes, uint64_t row) { return bytes + row / LANES * LANES * 8 + row % LANES * 4; }

#define WHOLE(form)                                                                                     \
    static const int64_t far_##form = INT32_MAX;                                                        \
    static inline int64_t get_##form(uint8_t *bytes, uint64_t row) {                                    \
        int32_t value;                                                                                  \
        memcpy(&value, at_##form(bytes, row), 4);                                                       \
        return value;                                                                                   \
    }                                                                                                   \
    static inline void put_##form(uint8_t *bytes, uint64_t row, int64_t value) {                        \
        const int32_t low = (int32_t)value;                                                             \
        memcpy(at_##form(bytes, row), &low, 4);                                                         \
    }

WHOLE(aos)
WHOLE(soa)
WHOLE(aosoa)

static const int64_t far_bits = (1 << (BITS - 1)) - 1;

static inline int64_t get_bits(uint8_t *bytes, uint64_t row) {
    const uint64_t at = row * BITS;
    uint32_t word;
    memcpy(&word, bytes + at / 8, 4);
    return (int32_t)(word >> at % 8 << (32 - BITS)) >> (32 - BITS);
}

static inline void put_bits(uint8_t *bytes, uint64_t row, int64_t value) {
    const uint64_t at = row * BITS;
    const uint32_t ones = ((1u << BITS) - 1) << at % 8;
    uint32_t word;
    memcpy(&word, bytes + at / 8, 4);
    word = (word & ~ones) | ((uint32_t)value << at % 8 & ones);
    memcpy(bytes + at / 8, &word, 4);
}

/* ---- The loops. */

#define LOOPS(form)                                                                                     \
    __attribute__((noipa)) static bool read_##form(uint8_t *bytes, uint64_t rows, uint64_t first,       \
                                                   int64_t *values, uint64_t count) {                   \
        if (first > rows || count > rows - first) {                                                     \
            return false;                                                                               \
        }                                                                                               \
        for (uint64_t k = 0; k < count; k++) {                                                          \
            values[k] = get_##form(bytes, first + k);                                                   \
        }                                                                                               \
        return true;                                                                                    \
    }                                                                                                   \
    __attribute__((noipa)) static bool store_##form(uint8_t *bytes, uint64_t rows, uint64_t first,      \
                                                    int64_t *values, uint64_t count) {                  \
        if (first > rows || count > rows - first) {                                                     \
            return false;                                                                               \
        }                                                                                               \
        for (uint64_t k = 0; k < count; k++) {                                                          \
            if (values[k] < -far_##form - 1 || values[k] > far_##form) {                                \
                return false;                                                                           \
            }                                                                                           \
            put_##form(bytes, first + k, values[k]);                                                    \
        }                                                                                               \
        return true;                                                                                    \
    }                                                                                                   \
    __attribute__((noipa)) static bool each_##form(uint8_t *bytes, uint64_t rows, uint64_t first,       \
                                                   int64_t *sum, uint64_t count) {                      \
        for (uint64_t k = first; k < count; k++) {                                                      \
            *sum += get_##form(bytes, k * STRIDE % rows);                                               \
        }                                                                                               \
        return true;                                                                                    \
    }

LOOPS(aos)
LOOPS(soa)
LOOPS(aosoa)
LOOPS(bits)

typedef bool loop(uint8_t *, uint64_t, uint64_t, int64_t *, uint64_t);

static const char *const FORMS[] = {"aos", "soa", "aosoa", "bits"};
static const char *const LAYOUTS[] = {"aos(packed, row)", "soa(multi, row)", "aosoa(16, row)", "bitsoa(8 { x: 20 }, row)"};
static const char *const WORKS[] = {"get", "set", "one"};
static loop *const LOOPS_OF[][3] = {
    {read_aos, store_aos, each_aos},
    {read_soa, store_soa, each_soa},
    {read_aosoa, store_aosoa, each_aosoa},
    {read_bits, store_bits, each_bits},
};

static int index_of(const char *word, const char *const *words, int count) {
    for (int k = 0; k < count; k++) {
        if (strcmp(word, words[k]) == 0) {
            return k;
        }
    }
    fail("usage: runs llama|loop aos|soa|aosoa|bits get|set|one ROWS ROUNDS");
    return 0;
}

static void make(lly_view *view, int form, uint64_t rows) {
    static const char record[] = "record P { x: i32, y: u32 }";
    char line[80];
    lly_fault fault = LLY_NO_FAULT;
    const int length = snprintf(line, sizeof line, "view V : P [%" PRIu64 "] as %s", rows, LAYOUTS[form]);
    must(lly_new(view, (const uint8_t *)record, strlen(record), (const uint8_t *)line, (size_t)length, &fault));
}

/* A round of a piece of work by the library: all rows at once, or one by one. */
static void by_llama(lly_view *view, int work, int64_t *values, uint64_t rows) {
    lly_fault fault = LLY_NO_FAULT;
    int64_t value = 0;
    if (work == 0) {
        must(lly_get_run(view, 0, 0, values, rows));
    } else if (work == 1) {
        must(lly_set_run(view, 0, 0, values, rows, &fault));
    } else {
        for (uint64_t k = 0; k < rows; k++) {
            must(lly_get(view, k * STRIDE % rows, 0, &value));
            values[0] += value;
        }
    }
}

int main(int count, char **words) {
    static const char *const programs[] = {"llama", "loop"};
    if (count != 6) {
        index_of("", programs, 0);
    }
    const int ours = index_of(words[1], programs, 2) == 0, form = index_of(words[2], FORMS, 4), work = index_of(words[3], WORKS, 3);
    const uint64_t rows = strtoull(words[4], NULL, 10), rounds = strtoull(words[5], NULL, 10);
    uint8_t *bytes = calloc(rows + SPARE, 8);
    int64_t *values = malloc((rows + 1) * sizeof *values), sum = 0;
    lly_view view = LLY_NONE;
    if (!bytes || !values) {
        fail("there is no memory");
    }
    for (uint64_t row = 0; row < rows; row++) {
        values[row] = (int64_t)(row % 1000) - 500;
    }
    if (ours) {
        make(&view, form, rows);
        by_llama(&view, 1, values, rows);
    } else if (!LOOPS_OF[form][1](bytes, rows, 0, values, rows)) {
        fail("a value is refused");
    }
    for (uint64_t round = 0; round < rounds; round++) {
        if (ours) {
            by_llama(&view, work, values, rows);
        } else if (!LOOPS_OF[form][work](bytes, rows, 0, values, rows)) {
            fail("a value is refused");
        }
    }
    for (uint64_t row = 0; row < rows; row++) {
        sum += values[row] * (int64_t)(row % 7);
    }
    printf("%" PRId64 "\n", sum);
    lly_drop(&view);
    free(values);
    free(bytes);
    return 0;
}
