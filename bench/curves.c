/* The work of bench/curves.py in plain C: a table of two numbers of 32 bits a row over a plane or a space, an array for each, by rows, by columns
   or in Morton order. The extents, the order and the rounds are learned when it runs. Rows are gone through in row order: by columns the slot of
   the next one is a distance on, and in Morton order the digits of an index come from a table for each place. Each place that is read or written
   is tested to lie within the bytes, and each value that is stored to be one of 32 bits.

   usage: curves_c sum|axpy|copy row|col|morton ROUNDS EXTENT..     x is spread by `x = i0 * 31 + i1 * 17` */
#include <inttypes.h>
#include <stdint.h>
#include <stdio.h>
#include <stdlib.h>
#include <string.h>

enum { MOST = 3, FACTOR = 3 };

struct table {
    int32_t *x, *y;
    size_t slots, rank, rows, extents[MOST];
    /* of each place and each index along it, what it adds to the slot */
    size_t *adds[MOST];
};

static void fail(const char *why)
{
    fprintf(stderr, "curves_c: %s\n", why);
    exit(1);
}

static void *zeros(size_t count, size_t size)
{
    void *room = calloc(count, size);
    if (!room)
        fail("no memory");
    return room;
}

/* The bits of an index, each so many bits apart, from one on. */
static size_t spread(size_t index, size_t apart, size_t from)
{
    size_t slot = 0;
    for (size_t bit = 0; index >> bit; bit++)
        slot |= (index >> bit & 1) << (bit * apart + from);
    return slot;
}

static size_t added(const struct table *table, const char *order, size_t place, size_t index)
{
    size_t far = 1;
    if (!strcmp(order, "morton"))
        return spread(index, table->rank, table->rank - 1 - place);
    if (!strcmp(order, "col"))
        for (size_t before = 0; before < place; before++)
            far *= table->extents[before];
    else
        for (size_t behind = place + 1; behind < table->rank; behind++)
            far *= table->extents[behind];
    return index * far;
}

static struct table new_table(const char *order, size_t rank, const size_t *extents)
{
    struct table table = { .rank = rank, .rows = 1, .slots = 1 };
    for (size_t place = 0; place < rank; place++) {
        table.extents[place] = extents[place];
        table.rows *= extents[place];
    }
    for (size_t place = 0; place < rank; place++) {
        table.adds[place] = zeros(extents[place], sizeof(size_t));
        for (size_t index = 0; index < extents[place]; index++)
            table.adds[place][index] = added(&table, order, place, index);
        table.slots += table.adds[place][extents[place] - 1];
    }
    table.x = zeros(table.slots, sizeof(int32_t));
    table.y = zeros(table.slots, sizeof(int32_t));
    return table;
}

static size_t within(const struct table *table, size_t slot)
{
    if (slot >= table->slots)
        fail("a row is outside");
    return slot;
}

static int32_t narrow(int64_t value)
{
    if (value < INT32_MIN || value > INT32_MAX)
        fail("a value is out of range");
    return (int32_t)value;
}

static size_t width(const struct table *table)
{
    return table->extents[table->rank - 1];
}

static size_t lines(const struct table *table)
{
    return table->rows / width(table);
}

/* The slot of the first row of a line, which is what is left of a row without its last place. */
static size_t first_of(const struct table *table, size_t line)
{
    size_t slot = 0;
    for (size_t place = table->rank - 1; place-- > 0; line /= table->extents[place])
        slot += table->adds[place][line % table->extents[place]];
    return slot;
}

static size_t slot_of(const struct table *table, size_t first, size_t k)
{
    return within(table, first + table->adds[table->rank - 1][k]);
}

/* x = i0 * 31 + i1 * 17 */
static void fill(struct table *table)
{
    size_t behind = table->rows / table->extents[0], apart = behind / table->extents[1];
    for (size_t row = 0; row < table->rows; row++) {
        size_t at = slot_of(table, first_of(table, row / width(table)), row % width(table));
        table->x[at] = narrow((int64_t)(row / behind * 31 + row % behind / apart * 17));
    }
}

__attribute__((noipa)) static int64_t sum(const struct table *table, const int32_t *leaf)
{
    int64_t sum = 0;
    for (size_t line = 0; line < lines(table); line++) {
        size_t first = first_of(table, line);
        for (size_t k = 0; k < width(table); k++)
            sum += leaf[slot_of(table, first, k)];
    }
    return sum;
}

__attribute__((noipa)) static void axpy(struct table *table, int64_t factor)
{
    for (size_t line = 0; line < lines(table); line++) {
        size_t first = first_of(table, line);
        for (size_t k = 0; k < width(table); k++) {
            size_t at = slot_of(table, first, k);
            table->y[at] = narrow(factor * table->x[at] + table->y[at]);
        }
    }
}

__attribute__((noipa)) static void copy(const struct table *from, struct table *to)
{
    for (size_t line = 0; line < lines(from); line++) {
        size_t first = first_of(from, line), first_there = first_of(to, line);
        for (size_t k = 0; k < width(from); k++) {
            size_t at = slot_of(from, first, k), there = slot_of(to, first_there, k);
            to->x[there] = from->x[at];
            to->y[there] = from->y[at];
        }
    }
}

int main(int count, char **words)
{
    size_t extents[MOST], rank = (size_t)count - 4;
    if (count < 6 || rank > MOST)
        fail("usage: curves_c sum|axpy|copy row|col|morton ROUNDS EXTENT..");
    for (size_t place = 0; place < rank; place++)
        extents[place] = strtoul(words[4 + place], NULL, 10);
    struct table table = new_table(words[2], rank, extents), rows = new_table("row", rank, extents);
    unsigned long rounds = strtoul(words[3], NULL, 10);
    int copies = !strcmp(words[1], "copy");
    fill(copies ? &rows : &table);
    for (unsigned long round = 0; round < rounds; round++) {
        if (!strcmp(words[1], "sum"))
            printf("%" PRId64 "\n", sum(&table, table.x));
        else if (copies)
            copy(&rows, &table);
        else
            axpy(&table, FACTOR);
    }
    printf("%" PRId64 "\n", sum(&table, copies ? table.x : table.y));
    return 0;
}
