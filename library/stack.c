/* What each call of llama_layout.h takes of the stack. It reads lines and hands each to each call that takes a text: as a record, as a view, in the header of a
 * file, as a line and as a path. Of what makes a view it makes one, and tries every other call on it. Each call runs on a thread whose stack was filled
 * with a pattern. It writes the call and the number of the line, and then how far below the call the deepest byte lies that was changed: so a call that
 * ends the program is named. tools/checks/stack has the lines, and judges the numbers.
 */
#define _GNU_SOURCE
#include <pthread.h>
#include <stdio.h>
#include <stdlib.h>
#include <string.h>
#include <sys/mman.h>

#include "llama_layout.h"

#define STACK ((size_t)512 * 1024)
#define GUARD ((size_t)64 * 1024)
#define PATTERN UINT64_C(0x5ca1ab1e0ddba11d)

struct text {
    uint8_t bytes[8192];
    size_t length;
};

struct call {
    const char *name;
    void (*make)(void);
};

static uint64_t *stack; /* from its lowest word on */
static char *begun;     /* where the call was made */
static int line_number = 0;

static struct text line, loading;
static struct text record = {"record P { x: i32 }", 19}, table = {"view V : P [2] as soa(multi, row)", 33};
static const struct text *first, *second;
static lly_view view = LLY_NONE, other = LLY_NONE;
static lly_fault fault;
static lly_places places;
static const uint8_t *bytes_at;
static int32_t answer;
static uint64_t row, naturals[2];
static uint32_t bits;
static bool sign;
static int64_t value, integers[2];
static const uint64_t origin[4], ends[] = {2};
static size_t count, file_length, csv_length, blob_length, lent_length, opened_length;
static uint8_t *file, *csv, *blob, *lent;
static const uint8_t *opened;
static uint8_t header[8192 * 2 + 20];

#define TEXT(text) (text)->bytes, (text)->length
#define WITH_TEXTS(CALL)                                                    \
    CALL(new, (&view, TEXT(first), TEXT(second), &fault))                   \
    CALL(load, (&other, TEXT(first), TEXT(second), csv, csv_length, &fault)) \
    CALL(relayout, (&view, TEXT(&line), &fault))                            \
    CALL(kernel, (&view, TEXT(&line), &value, &fault))                      \
    CALL(do, (&view, TEXT(&line), &value, &fault))                          \
    CALL(tell, (&view, TEXT(&line), csv, csv_length, &count, &fault))       \
    CALL(leaf, (&view, TEXT(&line), &count))
#define ON_A_VIEW(CALL)                                                     \
    CALL(version, ())                                                       \
    CALL(rows, (&view, &row))                                               \
    CALL(leaves, (&view, &count))                                           \
    CALL(blobs, (&view, &count))                                            \
    CALL(row, (&view, origin, 1, &row))                                     \
    CALL(extents, (&view, naturals, 2, &count))                             \
    CALL(path, (&view, 0, (uint8_t *)&row, sizeof row, &count))             \
    CALL(type, (&view, 0, &bits, &sign))                                    \
    CALL(counts, (&view, 0, &row, naturals))                                \
    CALL(get, (&view, 0, 0, &value))                                        \
    CALL(get_u64, (&view, 0, 0, &row))                                      \
    CALL(set, (&view, 0, 0, 1))                                             \
    CALL(set_u64, (&view, 0, 0, 1))                                         \
    CALL(get_run, (&view, 0, 0, integers, 2))                               \
    CALL(get_run_u64, (&view, 0, 0, naturals, 2))                           \
    CALL(set_run, (&view, 0, 0, integers, 2, &fault))                       \
    CALL(set_run_u64, (&view, 0, 0, naturals, 2, &fault))                   \
    CALL(get_run_as, (&view, 0, 0, 64, false, (uint8_t *)&row, 8))          \
    CALL(set_run_as, (&view, 0, 0, 64, false, (uint8_t *)&row, 8, &fault))  \
    CALL(gather, (&view, origin, 2, 0, integers))                           \
    CALL(gather_u64, (&view, origin, 2, 0, naturals))                       \
    CALL(scatter, (&view, origin, 2, 0, integers, &fault))                  \
    CALL(scatter_u64, (&view, origin, 2, 0, naturals, &fault))              \
    CALL(scatter_add, (&view, origin, 2, 0, integers, &fault))              \
    CALL(get_box, (&view, origin, ends, 1, 0, integers, 2))                 \
    CALL(get_box_u64, (&view, origin, ends, 1, 0, naturals, 2))             \
    CALL(set_box, (&view, origin, ends, 1, 0, integers, 2, &fault))         \
    CALL(set_box_u64, (&view, origin, ends, 1, 0, naturals, 2, &fault))     \
    CALL(print, (&view, csv, csv_length, &count))                           \
    CALL(save, (&view, file, file_length, &count))                          \
    CALL(blob, (&view, 0, blob, blob_length, &count))                       \
    CALL(record, (&view, csv, csv_length, &count))                          \
    CALL(layout, (&view, csv, csv_length, &count))                          \
    CALL(lend, (&view, lent, lent_length, &count))                          \
    CALL(return, (&view, lent, lent_length, &fault))                        \
    CALL(message, (LLY_RANGE, &fault, csv, csv_length, &count))             \
    CALL(place, (&view, 0, &places, &fault))                                \
    CALL(blob_at, (&view, 0, &bytes_at, &count))                            \
    CALL(open, (&other, opened, opened_length, &fault))                     \
    CALL(copy, (&view, &other, &fault))

#define MAKE(name, arguments) static void make_##name(void) { answer = lly_##name arguments; }
WITH_TEXTS(MAKE)
ON_A_VIEW(MAKE)
static void make_drop(void) { lly_drop(&other); }

#define ENTRY(name, arguments) {"lly_" #name, make_##name},
static const struct call on_a_view[] = {ON_A_VIEW(ENTRY){"lly_drop", make_drop}};

static void *run(void *call)
{
    begun = __builtin_frame_address(0);
    ((const struct call *)call)->make();
    return NULL;
}

static void measure(const struct call *call)
{
    pthread_attr_t how;
    pthread_t thread;
    struct call made = *call;
    size_t at = 0;

    printf("%s %d ", made.name, line_number);
    fflush(stdout);
    while (at < STACK / sizeof *stack) {
        stack[at++] = PATTERN;
    }
    if (pthread_attr_init(&how) || pthread_attr_setstack(&how, stack, STACK) || pthread_create(&thread, &how, run, &made)) {
        exit(3);
    }
    pthread_join(thread, NULL);
    pthread_attr_destroy(&how);
    for (at = 0; stack[at] == PATTERN; at++) {
    }
    printf("%ld\n", (long)(begun - (char *)(stack + at)));
}

#define MEASURE(name) measure(&(const struct call){"lly_" #name, make_##name})

/* As many bytes as a call asked for, and room for two more. */
static uint8_t *room(uint8_t *before, size_t *length)
{
    free(before);
    *length = count;
    return malloc(count + 2);
}

/* Puts the first name of the dataset in quotes. */
static void quote(void)
{
    const size_t end = strcspn((char *)csv, ",\n");

    memmove(csv + end + 2, csv + end, csv_length - end);
    memmove(csv + 1, csv, end);
    csv[0] = csv[end + 1] = '"';
    csv_length += 2;
}

/* Every call on the view, and a view of each dataset and each file that it makes. */
static void try_view(void)
{
    size_t k;

    lly_print(&view, NULL, 0, &count);
    csv = room(csv, &csv_length);
    lly_save(&view, NULL, 0, &count);
    file = room(file, &file_length);
    if (lly_blob(&view, 0, NULL, 0, &count) == LLY_NO_ROOM) {
        blob = room(blob, &blob_length);
    }
    lly_lend(&view, NULL, 0, &count);
    lent = room(lent, &lent_length);
    opened = file;
    opened_length = file_length;
    for (k = 0; k < sizeof on_a_view / sizeof *on_a_view; k++) {
        measure(&on_a_view[k]);
    }
    loading.length = (size_t)sprintf((char *)loading.bytes, "load%.*s from \"d\"", (int)table.length - 4, (char *)table.bytes + 4);
    first = &record;
    second = &loading;
    MEASURE(load);
    quote();
    MEASURE(load);
}

/* The line as one of two texts, which stays if a view is made of them. */
static void try_text(struct text *text, const struct text *one, const struct text *two)
{
    first = one;
    second = two;
    MEASURE(new);
    if (answer == LLY_DONE) {
        *text = line;
        try_view();
        return;
    }
    MEASURE(load);
    count = one->length + two->length + 2;
    opened = header;
    opened_length = (size_t)sprintf((char *)header, "LLAMAB1\n%c%c%c%c%s\n%s\n", (int)count & 255, (int)count >> 8, 0, 0, (char *)one->bytes, (char *)two->bytes);
    MEASURE(open);
}

int main(void)
{
    char *pages = mmap(NULL, GUARD + STACK, PROT_READ | PROT_WRITE, MAP_PRIVATE | MAP_ANONYMOUS, -1, 0);

    if (pages == MAP_FAILED || mprotect(pages, GUARD, PROT_NONE)) {
        return 3;
    }
    stack = (uint64_t *)(pages + GUARD);
    while (fgets((char *)line.bytes, sizeof line.bytes, stdin)) {
        line.length = strcspn((char *)line.bytes, "\n");
        line.bytes[line.length] = 0;
        line_number++;
        try_text(&record, &line, &table);
        try_text(&table, &record, &line);
        MEASURE(relayout);
        if (answer == LLY_DONE) {
            try_view();
        }
        MEASURE(kernel);
        MEASURE(do);
        MEASURE(tell);
        MEASURE(leaf);
    }
    return 0;
}
