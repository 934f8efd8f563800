/* The work of bench/scripts in plain C: loads a dataset with the columns id, x, y, w into packed structs, each number tested for
   its range, then prints it, or prints the sum of y, at once, after `update P where x > 0 set y = x * 3 + i0 % 7`, after ADDS times
   `update P set x = x + 1` (add) or `update P where x > 0 set x = x - 1, y = y + 1` (pairs), ADDS times more (sums), or after the table went TURNS times from structs to arrays, to blocks of 8 rows and
   back, in memory that is made anew each time (relayout) or once (copy). Or it writes its blob file, once alone (file) or SAVES times before
   the sum (saves); or reads a blob file OPENS times, whole and into memory that is made anew, and prints the sum (open). Nothing of a file is
   tested but its length.

   usage: scripts_c print|sum|update|add|pairs|sums|relayout|copy|file|saves|open FILE */
#include <inttypes.h>
#include <stdint.h>
#include <stdio.h>
#include <stdlib.h>
#include <string.h>

enum { MOST_DIGITS = 18, ROOM = 1 << 16, LONGEST_ROW = 64, LANES = 8, TURNS = 3, ADDS = 10, SAVES = 10, OPENS = 10, FRONT = 12, MOST_TEXTS = 256 };

static const char HEADER[] = "id,x,y,w\n";
static const char MAGIC[] = "LLAMAB1\n";
static const char TEXTS[] = "record R { id : u32 , x : i32 , y : i64 , w : u16 }\nview V : R [ %zu ] as aos ( packed , row )\n";

struct __attribute__((packed)) row {
    uint32_t id;
    int32_t x;
    int64_t y;
    uint16_t w;
};

struct table {
    struct row *rows;
    size_t count;
};

static void fail(const char *why)
{
    fprintf(stderr, "scripts_c: %s\n", why);
    exit(1);
}

static char *read_file(const char *name, size_t *length)
{
    FILE *file = fopen(name, "rb");
    if (!file || fseek(file, 0, SEEK_END))
        fail("the file can't be read");
    *length = (size_t)ftell(file);
    rewind(file);
    char *bytes = malloc(*length + 1);
    if (!bytes || fread(bytes, 1, *length, file) != *length)
        fail("the file can't be read");
    bytes[*length] = '\0';
    fclose(file);
    return bytes;
}

/* The number that stands here, up to a given end; moves behind the end. The text has a 0 byte behind it. */
static int64_t number(const char **at, char end, int64_t least, int64_t greatest)
{
    const char *text = *at;
    int negative = *text == '-';
    text += negative;
    const char *first = text;
    int64_t value = 0;
    for (; *text >= '0' && *text <= '9'; text++)
        value = value * 10 + (*text - '0');
    if (text == first || text - first > MOST_DIGITS || *text != end)
        fail("a field is no number");
    value = negative ? -value : value;
    if (value < least || value > greatest)
        fail("a number is out of range");
    *at = text + 1;
    return value;
}

static struct table load(const char *bytes, size_t length)
{
    const char *at = bytes, *end = bytes + length;
    size_t lines = 0;
    if (strncmp(at, HEADER, strlen(HEADER)))
        fail("the header is another");
    at += strlen(HEADER);
    for (const char *line = at; (line = memchr(line, '\n', (size_t)(end - line))); line++)
        lines++;
    struct table table = { malloc(lines * sizeof(struct row) + 1), 0 };
    if (!table.rows)
        fail("there is no memory");
    while (at < end) {
        struct row *row = &table.rows[table.count++];
        row->id = (uint32_t)number(&at, ',', 0, UINT32_MAX);
        row->x = (int32_t)number(&at, ',', INT32_MIN, INT32_MAX);
        row->y = number(&at, ',', INT64_MIN, INT64_MAX);
        row->w = (uint16_t)number(&at, '\n', 0, UINT16_MAX);
    }
    return table;
}

static char *put_number(char *out, int64_t value)
{
    char digits[20];
    int count = 0;
    uint64_t rest = value < 0 ? 0 - (uint64_t)value : (uint64_t)value;
    do {
        digits[count++] = (char)('0' + rest % 10);
        rest /= 10;
    } while (rest);
    if (value < 0)
        *out++ = '-';
    while (count)
        *out++ = digits[--count];
    return out;
}

static void write_out(const char *from, const char *to)
{
    if (fwrite(from, 1, (size_t)(to - from), stdout) != (size_t)(to - from))
        fail("the output takes no more");
}

static void print(struct table table)
{
    static char room[ROOM + LONGEST_ROW];
    memcpy(room, HEADER, strlen(HEADER));
    char *out = room + strlen(HEADER);
    for (size_t i = 0; i < table.count; i++) {
        const struct row *row = &table.rows[i];
        out = put_number(out, row->id);
        *out++ = ',';
        out = put_number(out, row->x);
        *out++ = ',';
        out = put_number(out, row->y);
        *out++ = ',';
        out = put_number(out, row->w);
        *out++ = '\n';
        if (out - room >= ROOM) {
            write_out(room, out);
            out = room;
        }
    }
    write_out(room, out);
}

static void update(struct table table)
{
    for (size_t i = 0; i < table.count; i++)
        if (table.rows[i].x > 0)
            table.rows[i].y = (int64_t)table.rows[i].x * 3 + (int64_t)(i % 7);
}

static void add(struct table table)
{
    for (size_t i = 0; i < table.count; i++) {
        int64_t value = (int64_t)table.rows[i].x + 1;
        if (value < INT32_MIN || value > INT32_MAX)
            fail("a number is out of range");
        table.rows[i].x = (int32_t)value;
    }
}

static void add_pairs(struct table table)
{
    for (size_t i = 0; i < table.count; i++) {
        struct row *row = &table.rows[i];
        if (row->x <= 0)
            continue;
        int64_t x = (int64_t)row->x - 1, y;
        if (x < INT32_MIN || x > INT32_MAX || __builtin_add_overflow(row->y, 1, &y))
            fail("a number is out of range");
        row->x = (int32_t)x;
        row->y = y;
    }
}

static void print_sum(struct table table)
{
    int64_t sum = 0;
    for (size_t i = 0; i < table.count; i++)
        sum += table.rows[i].y;
    printf("%" PRId64 "\n", sum);
}

struct arrays {
    uint32_t *id;
    int32_t *x;
    int64_t *y;
    uint16_t *w;
};

struct __attribute__((packed)) block {
    uint32_t id[LANES];
    int32_t x[LANES];
    int64_t y[LANES];
    uint16_t w[LANES];
};

static void *room_for(size_t bytes)
{
    void *room = calloc(bytes + 1, 1);
    if (!room)
        fail("there is no memory");
    return room;
}

static struct arrays new_arrays(size_t count)
{
    return (struct arrays){ room_for(4 * count), room_for(4 * count), room_for(8 * count), room_for(2 * count) };
}

static struct block *new_blocks(size_t count)
{
    return room_for((count + LANES - 1) / LANES * sizeof(struct block));
}

static void free_arrays(struct arrays to)
{
    free(to.id), free(to.x), free(to.y), free(to.w);
}

static void to_arrays(struct table from, struct arrays to)
{
    for (size_t i = 0; i < from.count; i++) {
        to.id[i] = from.rows[i].id;
        to.x[i] = from.rows[i].x;
        to.y[i] = from.rows[i].y;
        to.w[i] = from.rows[i].w;
    }
}

static void to_blocks(struct arrays from, struct block *to, size_t count)
{
    for (size_t i = 0; i < count; i += LANES, to++) {
        size_t rows = count - i < LANES ? count - i : LANES;
        memcpy(to->id, from.id + i, rows * sizeof *from.id);
        memcpy(to->x, from.x + i, rows * sizeof *from.x);
        memcpy(to->y, from.y + i, rows * sizeof *from.y);
        memcpy(to->w, from.w + i, rows * sizeof *from.w);
    }
}

static void to_rows(const struct block *from, struct table to)
{
    for (size_t i = 0; i < to.count; i++) {
        const struct block *block = &from[i / LANES];
        to.rows[i] = (struct row){ block->id[i % LANES], block->x[i % LANES], block->y[i % LANES], block->w[i % LANES] };
    }
}

static void relayout(struct table *table)
{
    for (int turn = 0; turn < TURNS; turn++) {
        struct arrays arrays = new_arrays(table->count);
        to_arrays(*table, arrays);
        free(table->rows);
        struct block *blocks = new_blocks(table->count);
        to_blocks(arrays, blocks, table->count);
        free_arrays(arrays);
        table->rows = room_for(table->count * sizeof(struct row));
        to_rows(blocks, *table);
        free(blocks);
    }
}

static void copy(struct table table)
{
    struct arrays arrays = new_arrays(table.count);
    struct block *blocks = new_blocks(table.count);
    for (int turn = 0; turn < TURNS; turn++) {
        to_arrays(table, arrays);
        to_blocks(arrays, blocks, table.count);
        to_rows(blocks, table);
    }
}

static void save(struct table table)
{
    char front[FRONT + MOST_TEXTS];
    int size = snprintf(front + FRONT, MOST_TEXTS, TEXTS, table.count);
    memcpy(front, MAGIC, strlen(MAGIC));
    for (int byte = 0; byte < 4; byte++)
        front[strlen(MAGIC) + byte] = (char)(size >> 8 * byte);
    write_out(front, front + FRONT + size);
    write_out((const char *)table.rows, (const char *)(table.rows + table.count));
}

/* The rows of a blob file, which stand at the end of its bytes. */
static struct table rows_in(const char *bytes, size_t length)
{
    size_t size = 0;
    for (int byte = 0; byte < 4 && length > FRONT; byte++)
        size |= (size_t)(unsigned char)bytes[strlen(MAGIC) + byte] << 8 * byte;
    if (length < FRONT + size || (length - FRONT - size) % sizeof(struct row))
        fail("the blob file is cut");
    return (struct table){ (struct row *)(bytes + FRONT + size), (length - FRONT - size) / sizeof(struct row) };
}

static void open_and_sum(const char *name)
{
    size_t length;
    for (int turn = 1; turn < OPENS; turn++)
        free(read_file(name, &length));
    const char *bytes = read_file(name, &length);
    print_sum(rows_in(bytes, length));
}

int main(int count, char **words)
{
    size_t length;
    if (count != 3)
        fail("usage: scripts_c print|sum|update|add|pairs|sums|relayout|copy|file|saves|open FILE");
    if (!strcmp(words[1], "open")) {
        open_and_sum(words[2]);
        return 0;
    }
    char *bytes = read_file(words[2], &length);
    struct table table = load(bytes, length);
    if (!strcmp(words[1], "print")) {
        print(table);
        return 0;
    }
    if (!strcmp(words[1], "file")) {
        save(table);
        return 0;
    }
    if (!strcmp(words[1], "update"))
        update(table);
    else if (!strcmp(words[1], "add"))
        for (int turn = 0; turn < ADDS; turn++)
            add(table);
    else if (!strcmp(words[1], "pairs"))
        for (int turn = 0; turn < ADDS; turn++)
            add_pairs(table);
    else if (!strcmp(words[1], "sums"))
        for (int turn = 0; turn < ADDS; turn++)
            print_sum(table);
    else if (!strcmp(words[1], "saves"))
        for (int turn = 0; turn < SAVES; turn++)
            save(table);
    else if (!strcmp(words[1], "relayout"))
        relayout(&table);
    else if (!strcmp(words[1], "copy"))
        copy(table);
    print_sum(table);
    return 0;
}
