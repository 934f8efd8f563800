/* The stencil of bench/stencils.py in plain C, over the bytes that llama has: a square of cells, each with two numbers of 32 bits, which lie in
   an array each (soa) or in blocks of 16 cells (aosoa). In each round the values of the window are worked out over the table as it is and put
   into a buffer of the same bytes, then all are stored. Each place that is read or written is tested to lie within the bytes, and each value to
   be one of 32 bits.

   fixed: the layout, the terms and the divisor are known when this is built. general: they are numbers that are learned when it runs.

   usage: stencil_c fixed|general soa|aosoa FILE     FILE tells the side of the square and the number of rounds */
#include <inttypes.h>
#include <stdint.h>
#include <stdio.h>
#include <stdlib.h>
#include <string.h>

#define INLINE __attribute__((always_inline)) static inline
#define LEARNED __attribute__((noipa)) static

enum { LANES_BITS = 4, NUMBER = 4, LEAVES = 2, TERMS = 5, DIVISOR = 8, HOT = 1000000 };

/* The number of a row lies in byte (row >> shift) * block + (row & mask) * NUMBER. */
struct form {
    unsigned shift;
    size_t mask, block;
};

static const struct form SOA = { 0, 0, NUMBER };
static const struct form AOSOA = { LANES_BITS, (1 << LANES_BITS) - 1, LEAVES * NUMBER << LANES_BITS };

struct table {
    unsigned char *bytes, *buffer;
    size_t length, side;
    struct form form;
};

struct term {
    int64_t weight, far;
};

/* What a stencil is told when it runs: its terms, each with how far away it is read in rows, and its divisor. */
struct plan {
    struct term terms[TERMS];
    size_t count;
    int64_t divisor;
};

static void fail(const char *why)
{
    fprintf(stderr, "stencil_c: %s\n", why);
    exit(1);
}

static unsigned char *zeros(size_t length)
{
    unsigned char *bytes = calloc(length, 1);
    if (!bytes)
        fail("no memory");
    return bytes;
}

INLINE size_t place(struct form form, size_t length, size_t row)
{
    size_t at = (row >> form.shift) * form.block + (row & form.mask) * NUMBER;
    if (at > length - NUMBER)
        fail("a row is outside");
    return at;
}

INLINE int64_t get(const unsigned char *bytes, struct form form, size_t length, size_t row)
{
    int32_t number;
    memcpy(&number, bytes + place(form, length, row), sizeof number);
    return number;
}

INLINE void set(unsigned char *bytes, struct form form, size_t length, size_t row, int64_t value)
{
    if (value < INT32_MIN || value > INT32_MAX)
        fail("a value is out of range");
    int32_t number = (int32_t)value;
    memcpy(bytes + place(form, length, row), &number, sizeof number);
}

INLINE int64_t fixed_value(const struct table *table, struct form form, size_t row)
{
    int64_t sum = get(table->bytes, form, table->length, row - table->side);
    sum += get(table->bytes, form, table->length, row - 1);
    sum += 4 * get(table->bytes, form, table->length, row);
    sum += get(table->bytes, form, table->length, row + 1);
    sum += get(table->bytes, form, table->length, row + table->side);
    return sum / DIVISOR;
}

INLINE int64_t general_value(const struct table *table, struct form form, const struct plan *plan, size_t row)
{
    int64_t sum = 0;
    for (size_t at = 0; at < plan->count; at++)
        sum += plan->terms[at].weight * get(table->bytes, form, table->length, row + (size_t)plan->terms[at].far);
    return sum / plan->divisor;
}

/* One round; the plan is none where the terms are known. */
INLINE void one_round(const struct table *table, struct form form, const struct plan *plan)
{
    size_t last = table->side - 1;
    for (size_t line = 1; line < last; line++)
        for (size_t row = line * table->side + 1; row < line * table->side + last; row++)
            set(table->buffer, form, table->length, row, plan ? general_value(table, form, plan, row) : fixed_value(table, form, row));
    for (size_t line = 1; line < last; line++)
        for (size_t row = line * table->side + 1; row < line * table->side + last; row++)
            set(table->bytes, form, table->length, row, get(table->buffer, form, table->length, row));
}

LEARNED void rounds_of_soa(const struct table *table, size_t rounds)
{
    for (size_t round = 0; round < rounds; round++)
        one_round(table, SOA, NULL);
}

LEARNED void rounds_of_aosoa(const struct table *table, size_t rounds)
{
    for (size_t round = 0; round < rounds; round++)
        one_round(table, AOSOA, NULL);
}

LEARNED void rounds_of_plan(const struct table *table, const struct plan *plan, size_t rounds)
{
    for (size_t round = 0; round < rounds; round++)
        one_round(table, table->form, plan);
}

static struct table new_table(struct form form, size_t side)
{
    size_t rows = side * side, blocks = (rows + form.mask) >> form.shift, length = blocks * form.block;
    struct table table = { zeros(length), zeros(length), length, side, form };
    for (size_t row = 0; row < rows; row++)
        set(table.bytes, form, length, row, row < side ? HOT : (int64_t)(row / side * 31 + row % side * 17) % 2001 - 1000);
    return table;
}

static int64_t sum_of(const struct table *table)
{
    int64_t sum = 0;
    for (size_t row = 0; row < table->side * table->side; row++)
        sum += get(table->bytes, table->form, table->length, row);
    return sum;
}

static void read_sizes(const char *name, size_t *side, size_t *rounds)
{
    FILE *file = fopen(name, "r");
    if (!file || fscanf(file, "%zu %zu", side, rounds) != 2 || *side < 2)
        fail("the file tells no side and no number of rounds");
    fclose(file);
}

int main(int count, char **words)
{
    size_t side, rounds;
    if (count != 4)
        fail("usage: stencil_c fixed|general soa|aosoa FILE");
    read_sizes(words[3], &side, &rounds);
    int is_soa = !strcmp(words[2], "soa");
    struct table table = new_table(is_soa ? SOA : AOSOA, side);
    if (!strcmp(words[1], "general")) {
        int64_t line = (int64_t)side;
        struct plan plan = { { { 1, -line }, { 1, -1 }, { 4, 0 }, { 1, 1 }, { 1, line } }, TERMS, DIVISOR };
        rounds_of_plan(&table, &plan, rounds);
    } else if (is_soa) {
        rounds_of_soa(&table, rounds);
    } else {
        rounds_of_aosoa(&table, rounds);
    }
    printf("%" PRId64 "\n", sum_of(&table));
    return 0;
}
