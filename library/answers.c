/* Answers of the calls of llama_layout.h: their numbers, what they report of their faults, and what they leave. Those for a lack of memory are not among them. tools/library_examples runs it; it says what
 * differs, and ends with 0 where nothing does.
 */
#include <inttypes.h>
#include <stdio.h>
#include <stdlib.h>
#include <string.h>

#include "llama_layout.h"
#include "llama_layout_places.h"

static int differs = 0;

#define EXPECT(what, expected)                                                                                                     \
    do {                                                                                                                           \
        const int64_t is = (int64_t)(what), due = (int64_t)(expected);                                                             \
        if (is != due) {                                                                                                           \
            printf("line %d: %s is %" PRId64 ", and not %" PRId64 "\n", __LINE__, #what, is, due);                                  \
            differs = 1;                                                                                                           \
        }                                                                                                                          \
    } while (0)

#define TEXT(text) (const uint8_t *)(text), strlen(text)

static const char RECORD[] = "record P { x: i32, n: u16, on: bool, big: u64 }";
static const char LINE[] = "view V : P [2, 3] as aos(packed, row)";
static const lly_fault UNTOUCHED = {-7, 71, 72, 73};

/* A fault, field by field. */
static void expect_fault(int line, const lly_fault *fault, int32_t cause, uint64_t row, size_t leaf, uint64_t column) {
    if (fault->cause != cause || fault->row != row || fault->leaf != leaf || fault->column != column) {
        printf("line %d: the fault is %" PRId32 " %" PRIu64 " %zu %" PRIu64 ", and not %" PRId32 " %" PRIu64 " %zu %" PRIu64 "\n", line, fault->cause, fault->row,
               fault->leaf, fault->column, cause, row, leaf, column);
        differs = 1;
    }
}

#define EXPECT_FAULT(cause, row, leaf, column) expect_fault(__LINE__, &fault, cause, row, leaf, column)
#define EXPECT_NO_FAULT() expect_fault(__LINE__, &fault, UNTOUCHED.cause, UNTOUCHED.row, UNTOUCHED.leaf, UNTOUCHED.column)

static void make(lly_view *view, const char *record, const char *line) {
    lly_fault fault = UNTOUCHED;
    EXPECT(lly_new(view, TEXT(record), TEXT(line), &fault), LLY_DONE);
    EXPECT_NO_FAULT();
}

/* The text of a view, which is asked for twice: for its length, and for itself. */
static void expect_print(lly_view *view, const char *expected) {
    size_t needed = 0;
    uint8_t *text;
    EXPECT(lly_print(view, NULL, 0, &needed), LLY_NO_ROOM);
    EXPECT(needed, strlen(expected));
    text = malloc(needed + 1);
    text[needed] = 0;
    EXPECT(lly_print(view, text, needed, &needed), LLY_DONE);
    EXPECT(strcmp((const char *)text, expected), 0);
    free(text);
}

static void views_are_refused(void) {
    lly_view view = LLY_NONE;
    lly_fault fault = UNTOUCHED;
    char long_line[4098];
    char deep[200] = "view V : P [2] as ";
    size_t k;
    uint64_t rows = 0;
    make(&view, RECORD, LINE);
    EXPECT(lly_new(&view, TEXT("record P { x i32 }"), TEXT(LINE), &fault), LLY_SYNTAX);
    EXPECT_FAULT(LLY_TEXT_FIRST, 0, 0, 14);
    EXPECT(lly_new(&view, TEXT(RECORD), TEXT("view V : P [2 as aos(packed, row)"), &fault), LLY_SYNTAX);
    EXPECT_FAULT(LLY_TEXT_SECOND, 0, 0, 15);
    EXPECT(lly_new(&view, TEXT(LINE), TEXT(LINE), &fault), LLY_OTHER_LINE);
    EXPECT_FAULT(LLY_TEXT_FIRST, 0, 0, 0);
    EXPECT(lly_new(&view, TEXT(RECORD), TEXT(RECORD), &fault), LLY_OTHER_LINE);
    EXPECT_FAULT(LLY_TEXT_SECOND, 0, 0, 0);
    memset(long_line, ' ', 4097);
    EXPECT(lly_new(&view, (const uint8_t *)long_line, 4097, TEXT(LINE), &fault), LLY_LINE_TOO_LONG);
    EXPECT_FAULT(LLY_TEXT_FIRST, 0, 0, 0);
    EXPECT(lly_new(&view, (const uint8_t *)long_line, 4096, TEXT(LINE), &fault), LLY_OTHER_LINE);
    EXPECT_FAULT(LLY_TEXT_FIRST, 0, 0, 0);
    EXPECT(lly_new(&view, TEXT(RECORD), TEXT("view V : Q [2] as aos(packed, row)"), &fault), LLY_UNKNOWN);
    EXPECT_FAULT(0, 0, 0, 0);
    EXPECT(lly_new(&view, TEXT(RECORD), TEXT("view V : P [2] as Layout"), &fault), LLY_UNKNOWN);
    EXPECT(lly_new(&view, TEXT("record P { x: i32, x: i8 }"), TEXT(LINE), &fault), LLY_BAD_RECORD);
    EXPECT_FAULT(LLY_RECORD_TWICE, 0, 0, 0);
    EXPECT(lly_new(&view, TEXT("record P { x: i32[65] }"), TEXT(LINE), &fault), LLY_BAD_RECORD);
    EXPECT_FAULT(LLY_RECORD_TOO_MANY_LEAVES, 0, 0, 0);
    EXPECT(lly_new(&view, TEXT(RECORD), TEXT("view V : P [1, 1, 1, 1, 1] as aos(packed, row)"), &fault), LLY_BAD_EXTENTS);
    EXPECT_FAULT(LLY_EXTENTS_RANK, 0, 0, 0);
    EXPECT(lly_new(&view, TEXT(RECORD), TEXT("view V : P [16777217] as aos(packed, row)"), &fault), LLY_BAD_EXTENTS);
    EXPECT_FAULT(LLY_EXTENTS_TOO_MANY, 0, 0, 0);
    EXPECT(lly_new(&view, TEXT(RECORD), TEXT("view V : P [2] as aosoa(65, row)"), &fault), LLY_BAD_MAPPING);
    EXPECT_FAULT(LLY_MAPPING_LANES, 0, 0, 0);
    EXPECT(lly_new(&view, TEXT(RECORD), TEXT("view V : P [2] as byteswap(bitaos(8, row))"), &fault), LLY_BAD_MAPPING);
    EXPECT_FAULT(LLY_MAPPING_NOT_FULL, 0, 0, 0);
    EXPECT(lly_new(&view, TEXT("record P { x: u64[64] }"), TEXT("view V : P [16777216] as aos(packed, row)"), &fault), LLY_TOO_BIG);
    EXPECT_FAULT(0, 0, 0, 0);
    for (k = 0; k < 9; k++) {
        strcat(deep, "byteswap(");
    }
    strcat(deep, "aos(packed, row)");
    for (k = 0; k < 9; k++) {
        strcat(deep, ")");
    }
    EXPECT(lly_new(&view, TEXT(RECORD), TEXT(deep), &fault), LLY_BAD_MAPPING);
    EXPECT_FAULT(LLY_MAPPING_TOO_DEEP, 0, 0, 0);
    EXPECT(lly_rows(&view, &rows), LLY_DONE);
    EXPECT(rows, 6);
    lly_drop(&view);
    lly_drop(&view);
    EXPECT(view.full, 0);
}

static void datasets_are_loaded(void) {
    static const char line[] = "load V : P [2, ?] as soa(multi, col) from \"any\"";
    lly_view view = LLY_NONE;
    lly_fault fault = UNTOUCHED;
    uint64_t rows = 0;
    EXPECT(lly_load(&view, TEXT(RECORD), TEXT(line), TEXT("on,big,n,x,other\n1,18446744073709551615,7,-5,a\n0,0,8,6,b\n"), &fault), LLY_DONE);
    EXPECT_NO_FAULT();
    expect_print(&view, "x,n,on,big\n-5,7,1,18446744073709551615\n6,8,0,0\n");
    EXPECT(lly_load(&view, TEXT(RECORD), TEXT(line), TEXT("on,big,n,x\n1,2,3,4\n1,2,3,4\n0,0,8,6\n"), &fault), LLY_BAD_EXTENTS);
    EXPECT_FAULT(LLY_EXTENTS_NOT_DIVISIBLE, 0, 0, 0);
    EXPECT(lly_load(&view, TEXT(RECORD), TEXT("load V : P [3] as aos(min, row) from \"any\""), TEXT("on,big,n,x\n1,2,3,4\n"), &fault), LLY_BAD_EXTENTS);
    EXPECT_FAULT(LLY_EXTENTS_NOT_EQUAL, 0, 0, 0);
    EXPECT(lly_load(&view, TEXT(RECORD), TEXT(line), TEXT("on,big,x\n1,2,3\n1,2,3\n"), &fault), LLY_MISSING_COLUMN);
    EXPECT_FAULT(0, 0, 1, 0);
    EXPECT(lly_load(&view, TEXT(RECORD), TEXT(line), TEXT("x,n,on,big,on\n1,2,1,4,5\n1,2,1,4,5\n"), &fault), LLY_COLUMN_TWICE);
    EXPECT_FAULT(0, 0, 2, 0);
    EXPECT(lly_load(&view, TEXT(RECORD), TEXT(line), TEXT("x,n,on,big\n1,2,1,4\n1,2,1\n"), &fault), LLY_SHORT_ROW);
    EXPECT_FAULT(0, 1, 3, 0);
    EXPECT(lly_load(&view, TEXT(RECORD), TEXT(line), TEXT("x,n,on,big\n1,two,1,4\n1,2,1,4\n"), &fault), LLY_NUMBER);
    EXPECT_FAULT(0, 0, 1, 0);
    EXPECT(lly_load(&view, TEXT(RECORD), TEXT(line), TEXT("x,n,on,big\n1,2,1,4\n1,65536,1,4\n"), &fault), LLY_RANGE);
    EXPECT_FAULT(0, 1, 1, 0);
    EXPECT(lly_load(&view, TEXT(RECORD), TEXT("load V : P [?] as bitaos(4, row) from \"any\""), TEXT("x,n,on,big\n7,2,1,4\n8,2,1,4\n"), &fault), LLY_NARROW);
    EXPECT_FAULT(0, 1, 0, 0);
    EXPECT(lly_load(&view, TEXT(RECORD), TEXT(LINE), TEXT("x,n,on,big\n"), &fault), LLY_OTHER_LINE);
    EXPECT_FAULT(LLY_TEXT_SECOND, 0, 0, 0);
    EXPECT(lly_new(&view, TEXT(RECORD), TEXT(line), &fault), LLY_OTHER_LINE);
    EXPECT_FAULT(LLY_TEXT_SECOND, 0, 0, 0);
    EXPECT(lly_rows(&view, &rows), LLY_DONE);
    EXPECT(rows, 2);
    lly_drop(&view);
}

static void places_are_found(void) {
    lly_view view = LLY_NONE;
    const uint64_t last[] = {1, 2}, outside[] = {2, 0};
    uint64_t row = 9, rows = 9;
    size_t leaf = 9, leaves = 9, blobs = 9;
    EXPECT(lly_rows(&view, &rows), LLY_NO_VIEW);
    EXPECT(lly_leaves(&view, &leaves), LLY_NO_VIEW);
    EXPECT(lly_blobs(&view, &blobs), LLY_NO_VIEW);
    EXPECT(lly_row(&view, last, 2, &row), LLY_NO_VIEW);
    EXPECT(lly_leaf(&view, TEXT("n"), &leaf), LLY_NO_VIEW);
    make(&view, "record P { pos { x: i32, y: i32 }, h: u8[3] }", "view V : P [2, 3] as split(pos, soa(multi, row), aos(packed, row))");
    EXPECT(lly_rows(&view, &rows), LLY_DONE);
    EXPECT(rows, 6);
    EXPECT(lly_leaves(&view, &leaves), LLY_DONE);
    EXPECT(leaves, 5);
    EXPECT(lly_blobs(&view, &blobs), LLY_DONE);
    EXPECT(blobs, 3);
    EXPECT(lly_row(&view, outside, 2, &row), LLY_NO_PLACE);
    EXPECT(lly_row(&view, last, 1, &row), LLY_NO_PLACE);
    EXPECT(lly_row(&view, NULL, 0, &row), LLY_NO_PLACE);
    EXPECT(row, 9);
    EXPECT(lly_row(&view, last, 2, &row), LLY_DONE);
    EXPECT(row, 5);
    EXPECT(lly_leaf(&view, TEXT("pos"), &leaf), LLY_NO_PLACE);
    EXPECT(lly_leaf(&view, NULL, 0, &leaf), LLY_NO_PLACE);
    EXPECT(leaf, 9);
    EXPECT(lly_leaf(&view, TEXT("pos.y"), &leaf), LLY_DONE);
    EXPECT(leaf, 1);
    EXPECT(lly_leaf(&view, TEXT("h[2]"), &leaf), LLY_DONE);
    EXPECT(leaf, 4);
    lly_drop(&view);
}

static void views_say_what_they_are(void) {
    static const struct {
        const char *path;
        uint32_t bits;
        bool sign;
    } leaves[] = {{"pos.x", 32, true}, {"pos.y", 16, false}, {"on", 1, false}, {"h[0]", 8, true}, {"h[1]", 8, true}, {"big", 64, false}};
    static const uint64_t rows[] = {0, 0};
    static const int64_t large[] = {65535, 1};
    lly_view view = LLY_NONE;
    lly_fault fault = UNTOUCHED;
    uint64_t extents[4] = {9, 9, 9, 9}, reads = 9, writes = 9;
    int64_t values[2] = {9, 9};
    uint8_t path[9] = "unchanged";
    uint32_t bits = 9;
    size_t needed = 9, leaf;
    bool sign = true;
    EXPECT(lly_extents(&view, extents, 4, &needed), LLY_NO_VIEW);
    EXPECT(lly_path(&view, 0, path, 9, &needed), LLY_NO_VIEW);
    EXPECT(lly_type(&view, 0, &bits, &sign), LLY_NO_VIEW);
    EXPECT(lly_counts(&view, 0, &reads, &writes), LLY_NO_VIEW);
    EXPECT(needed, 9);
    make(&view, "record P { pos { x: i32, y: u16 }, on: bool, h: i8[2], big: u64 }", "view V : P [2, 3] as count(soa(multi, row))");
    EXPECT(lly_extents(&view, extents, 1, &needed), LLY_NO_ROOM);
    EXPECT(needed, 2);
    EXPECT(extents[0], 9);
    EXPECT(lly_extents(&view, extents, 4, &needed), LLY_DONE);
    EXPECT(extents[0], 2);
    EXPECT(extents[1], 3);
    EXPECT(extents[2], 9);
    EXPECT(lly_path(&view, 0, path, 4, &needed), LLY_NO_ROOM);
    EXPECT(needed, 5);
    EXPECT(memcmp(path, "unchanged", 9), 0);
    for (leaf = 0; leaf < 6; leaf++) {
        memset(path, '.', 9);
        EXPECT(lly_path(&view, leaf, path, 9, &needed), LLY_DONE);
        EXPECT(needed, strlen(leaves[leaf].path));
        EXPECT(memcmp(path, leaves[leaf].path, needed), 0);
        EXPECT(path[needed], '.');
        EXPECT(lly_type(&view, leaf, &bits, &sign), LLY_DONE);
        EXPECT(bits, leaves[leaf].bits);
        EXPECT(sign, leaves[leaf].sign);
        EXPECT(lly_counts(&view, leaf, &reads, &writes), LLY_DONE);
        EXPECT(reads + writes, 0);
    }
    EXPECT(lly_path(&view, 6, path, 9, &needed), LLY_NO_PLACE);
    EXPECT(lly_type(&view, 6, &bits, &sign), LLY_NO_PLACE);
    EXPECT(lly_counts(&view, 6, &reads, &writes), LLY_NO_PLACE);
    EXPECT(bits, 64);
    EXPECT(needed, 3);
    /* each read and each write, and of a sum that is refused the read */
    EXPECT(lly_set(&view, 5, 1, 7), LLY_DONE);
    EXPECT(lly_gather(&view, rows, 2, 1, values), LLY_DONE);
    EXPECT(lly_counts(&view, 1, &reads, &writes), LLY_DONE);
    EXPECT(10 * reads + writes, 21);
    EXPECT(lly_scatter_add(&view, rows, 2, 1, large, &fault), LLY_RANGE);
    EXPECT(lly_scatter(&view, rows, 2, 6, large, &fault), LLY_NO_PLACE);
    EXPECT(lly_counts(&view, 1, &reads, &writes), LLY_DONE);
    EXPECT(10 * reads + writes, 42);
    EXPECT(lly_counts(&view, 0, &reads, &writes), LLY_DONE);
    EXPECT(reads + writes, 0);
    make(&view, "record P { x: i32 }", "view V : P [2] as heat(1, soa(multi, row))");
    EXPECT(lly_counts(&view, 0, &reads, &writes), LLY_NO_PLACE);
    lly_drop(&view);
}

static void values_are_read_and_stored(void) {
    lly_view view = LLY_NONE;
    int64_t value = 9;
    uint64_t natural = 9;
    EXPECT(lly_get(&view, 0, 0, &value), LLY_NO_VIEW);
    EXPECT(lly_set_u64(&view, 0, 0, 1), LLY_NO_VIEW);
    make(&view, RECORD, "view V : P [2, 3] as bitsoa(16 { big: 64 }, row)");
    EXPECT(lly_set(&view, 5, 0, -32768), LLY_DONE);
    EXPECT(lly_set(&view, 5, 0, 32768), LLY_NARROW);
    EXPECT(lly_set(&view, 5, 0, INT64_C(1) << 40), LLY_RANGE);
    EXPECT(lly_set(&view, 6, 0, 1), LLY_NO_PLACE);
    EXPECT(lly_set(&view, 0, 4, 1), LLY_NO_PLACE);
    EXPECT(lly_set_u64(&view, 1, 3, UINT64_MAX), LLY_DONE);
    EXPECT(lly_set(&view, 1, 3, -1), LLY_RANGE);
    EXPECT(lly_get(&view, 5, 0, &value), LLY_DONE);
    EXPECT(value, -32768);
    EXPECT(lly_get(&view, 1, 3, &value), LLY_BAD_TYPE);
    EXPECT(lly_get_u64(&view, 5, 0, &natural), LLY_BAD_TYPE);
    EXPECT(lly_get_u64(&view, 6, 3, &natural), LLY_NO_PLACE);
    EXPECT(value, -32768);
    EXPECT(natural, 9);
    EXPECT(lly_get_u64(&view, 1, 3, &natural), LLY_DONE);
    EXPECT(natural == UINT64_MAX, 1);
    lly_drop(&view);
    make(&view, RECORD, "view V : P [2] wrap as aos(packed, row)");
    EXPECT(lly_set(&view, 0, 1, -1), LLY_DONE);
    EXPECT(lly_get(&view, 0, 1, &value), LLY_DONE);
    EXPECT(value, 65535);
    lly_drop(&view);
}

/* A run of 100 rows under a layout, from and to each type, with the rows that stand before and behind it. */
static void runs_under(const char *line) {
    lly_view view = LLY_NONE;
    lly_fault fault = UNTOUCHED;
    int64_t values[100], read[100];
    uint64_t naturals[100], read_naturals[100];
    uint64_t first;
    size_t k;
    make(&view, "record P { x: i32, n: u16 }", line);
    for (first = 0; first < 40; first += 13) {
        for (k = 0; k < 100; k++) {
            values[k] = (int64_t)k * 300 - 15000;
            naturals[k] = k * 655;
        }
        EXPECT(lly_set_run(&view, first, 0, values, 100, &fault), LLY_DONE);
        EXPECT(lly_set_run_u64(&view, first, 1, naturals, 100, &fault), LLY_DONE);
        EXPECT_NO_FAULT();
        memset(read, 0, sizeof read);
        memset(read_naturals, 0, sizeof read_naturals);
        EXPECT(lly_get_run(&view, first, 0, read, 100), LLY_DONE);
        EXPECT(lly_get_run_u64(&view, first, 1, read_naturals, 100), LLY_DONE);
        EXPECT(memcmp(values, read, sizeof values), 0);
        EXPECT(memcmp(naturals, read_naturals, sizeof naturals), 0);
        EXPECT(lly_get_run(&view, first, 1, read, 100), LLY_DONE);
        EXPECT(read[99], 64845);
        for (k = 0; k < 100; k++) {
            int64_t value = 0;
            EXPECT(lly_get(&view, first + k, 0, &value), LLY_DONE);
            EXPECT(value, values[k]);
        }
    }
    /* the first value that is not taken; what is before it is stored */
    for (k = 0; k < 100; k++) {
        values[k] = 40000 + (int64_t)k;
        naturals[k] = k == 70 ? UINT64_MAX : 7;
    }
    EXPECT(lly_set_run(&view, 1, 1, values, 100, &fault), LLY_DONE);
    values[37] = 65536;
    values[60] = -1;
    EXPECT(lly_set_run(&view, 3, 1, values, 100, &fault), LLY_RANGE);
    EXPECT_FAULT(0, 40, 1, 0);
    EXPECT(lly_get_run(&view, 0, 1, read, 100), LLY_DONE);
    EXPECT(read[39], 40036);
    EXPECT(read[40], 40039);
    EXPECT(lly_set_run_u64(&view, 0, 0, naturals, 100, &fault), LLY_RANGE);
    EXPECT_FAULT(0, 70, 0, 0);
    EXPECT(lly_get_run(&view, 0, 0, read, 100), LLY_DONE);
    EXPECT(read[69], 7);
    EXPECT(read[70] != 7, 1);
    EXPECT(lly_get_run_u64(&view, 0, 0, read_naturals, 1), LLY_BAD_TYPE);
    EXPECT(lly_get_run(&view, 101, 0, read, 100), LLY_NO_PLACE);
    EXPECT(lly_get_run(&view, UINT64_MAX, 0, read, 1), LLY_NO_PLACE);
    EXPECT(lly_get_run(&view, 200, 0, read, 0), LLY_DONE);
    EXPECT(lly_get_run(&view, 0, 0, NULL, 0), LLY_DONE);
    EXPECT(lly_set_run(&view, 0, 2, values, 1, &fault), LLY_NO_PLACE);
    EXPECT_FAULT(0, 0, 0, 0);
    lly_drop(&view);
    EXPECT(lly_get_run(&view, 0, 0, read, 1), LLY_NO_VIEW);
    EXPECT(lly_set_run(&view, 0, 0, values, 1, &fault), LLY_NO_VIEW);
    EXPECT(lly_set_run_u64(&view, 0, 0, naturals, 1, &fault), LLY_NO_VIEW);
}

/* Numbers of each width, to and from leaves of each type, over more rows than go at once. */
static void runs_of_each_width(void) {
    enum { ROWS = 700 };
    static int8_t small[ROWS], small_read[ROWS];
    static uint16_t naturals[ROWS], naturals_read[ROWS];
    static int32_t wide[ROWS];
    static double doubles[ROWS], doubles_read[ROWS];
    static float floats[ROWS], floats_read[ROWS];
    lly_view view = LLY_NONE;
    lly_fault fault = UNTOUCHED;
    int64_t value = 0;
    size_t k;
    make(&view, "record P { x: i8, n: u16, on: bool, big: u64, f: u32 }", "view V : P [7, 101] as aosoa(8, row)");
    for (k = 0; k < ROWS; k++) {
        small[k] = (int8_t)(k % 256 - 128);
        naturals[k] = (uint16_t)(k * 93);
        doubles[k] = (k % 2 ? -1.0 : 1.0) / (double)(k + 1);
        floats[k] = (float)doubles[k];
    }
    EXPECT(lly_set_run_i8(&view, 3, 0, small, ROWS, &fault), LLY_DONE);
    EXPECT(lly_set_run_u16(&view, 3, 1, naturals, ROWS, &fault), LLY_DONE);
    EXPECT(lly_set_run_f64(&view, 3, 3, doubles, ROWS, &fault), LLY_DONE);
    EXPECT(lly_set_run_f32(&view, 3, 4, floats, ROWS, &fault), LLY_DONE);
    EXPECT_NO_FAULT();
    EXPECT(lly_get_run_i8(&view, 3, 0, small_read, ROWS), LLY_DONE);
    EXPECT(lly_get_run_u16(&view, 3, 1, naturals_read, ROWS), LLY_DONE);
    EXPECT(lly_get_run_f64(&view, 3, 3, doubles_read, ROWS), LLY_DONE);
    EXPECT(lly_get_run_f32(&view, 3, 4, floats_read, ROWS), LLY_DONE);
    EXPECT(memcmp(small, small_read, sizeof small), 0);
    EXPECT(memcmp(naturals, naturals_read, sizeof naturals), 0);
    EXPECT(memcmp(doubles, doubles_read, sizeof doubles), 0);
    EXPECT(memcmp(floats, floats_read, sizeof floats), 0);
    EXPECT(lly_get_run_i32(&view, 3, 0, wide, ROWS), LLY_DONE);
    EXPECT(wide[5], -123);
    EXPECT(lly_get_run_i32(&view, 3, 1, wide, ROWS), LLY_DONE);
    EXPECT(wide[699], 65007);
    EXPECT(lly_get_run_i8(&view, 0, 2, small_read, 5), LLY_DONE);
    EXPECT(small_read[4], 0);
    EXPECT(lly_get(&view, 3, 0, &value), LLY_DONE);
    EXPECT(value, -128);
    EXPECT(lly_get_run_u8(&view, 0, 0, (uint8_t *)small, 1), LLY_BAD_TYPE);
    EXPECT(lly_get_run_u32(&view, 0, 0, (uint32_t *)wide, 1), LLY_BAD_TYPE);
    EXPECT(lly_get_run_i16(&view, 0, 1, (int16_t *)naturals, 1), LLY_BAD_TYPE);
    EXPECT(lly_get_run_f64(&view, 0, 0, doubles, 1), LLY_BAD_TYPE);
    EXPECT(lly_get_run_as(&view, 0, 0, 24, true, (uint8_t *)wide, 3), LLY_BAD_TYPE);
    EXPECT(lly_get_run_as(&view, 0, 0, 0, true, (uint8_t *)wide, 3), LLY_BAD_TYPE);
    EXPECT(lly_get_run_as(&view, 0, 0, 32, true, (uint8_t *)wide, 6), LLY_NO_PLACE);
    EXPECT(lly_get_run_i32(&view, 8, 0, wide, ROWS), LLY_NO_PLACE);
    EXPECT(lly_get_run_i32(&view, 0, 5, wide, 1), LLY_NO_PLACE);
    EXPECT(lly_get_run_i32(&view, 707, 0, NULL, 0), LLY_DONE);
    EXPECT(wide[699], 65007);
    wide[0] = 127;
    wide[1] = 128;
    EXPECT(lly_set_run_i32(&view, 10, 0, wide, 2, &fault), LLY_RANGE);
    EXPECT_FAULT(0, 11, 0, 0);
    EXPECT(lly_get_run_i8(&view, 10, 0, small_read, 2), LLY_DONE);
    EXPECT(small_read[0], 127);
    EXPECT(small_read[1], -120);
    EXPECT(lly_set_run_i8(&view, 6, 3, small, 1, &fault), LLY_RANGE);
    EXPECT_FAULT(0, 6, 3, 0);
    EXPECT(lly_set_run_as(&view, 0, 0, 12, false, (uint8_t *)wide, 3, &fault), LLY_BAD_TYPE);
    EXPECT(lly_set_run_as(&view, 0, 0, 16, false, (uint8_t *)wide, 3, &fault), LLY_NO_PLACE);
    lly_drop(&view);
    EXPECT(lly_get_run_u32(&view, 0, 0, (uint32_t *)wide, 1), LLY_NO_VIEW);
    EXPECT(lly_set_run_u8(&view, 0, 0, (uint8_t *)wide, 1, &fault), LLY_NO_VIEW);
}

static void runs_are_read_and_stored(void) {
    static const char *const lines[] = {
        "view V : P [200] as aos(packed, row)",       "view V : P [200] as soa(multi, row)",        "view V : P [20, 10] as soa(single, col)",
        "view V : P [200] as aosoa(16, row)",         "view V : P [200] as aosoa(8, row)",          "view V : P [10, 20] as aosoa(3, morton)",
        "view V : P [200] as bitsoa(30 { n: 17 }, row)", "view V : P [200] as bitaos(31 { n: 16 }, row)", "view V : P [200] as byteswap(soa(multi, row))",
        "view V : P [200] as bytesplit(aos(packed, row))", "view V : P [200] as count(soa(multi, row))", "view V : P [200] as split(x, aosoa(16, row), bitaos(16, col))",
    };
    size_t k;
    for (k = 0; k < sizeof lines / sizeof lines[0]; k++) {
        runs_under(lines[k]);
    }
}

/* Rows of a list, one of them twice, under a layout that holds each value. */
static void lists_under(const char *line) {
    static const uint64_t rows[] = {5, 0, 5, 2}, outside[] = {0, 6}, twice[] = {0, 0, 2};
    static const int64_t first[] = {10, 20, 30, -40}, second[] = {1, 2, 3, 4}, small[] = {255, 1, 256, 7}, grown[] = {254, 1, 1}, shrunk[] = {-255, -1, 1};
    static const uint64_t big[] = {1, 2, UINT64_MAX, 4}, one[] = {1, 1, 1};
    lly_view view = LLY_NONE;
    lly_fault fault = UNTOUCHED;
    int64_t read[4] = {9, 9, 9, 9};
    uint64_t naturals[4] = {9, 9, 9, 9};
    make(&view, "record P { x: i32, n: u8, big: u64 }", line);
    EXPECT(lly_scatter(&view, rows, 4, 0, first, &fault), LLY_DONE);
    EXPECT_NO_FAULT();
    expect_print(&view, "x,n,big\n20,0,0\n0,0,0\n-40,0,0\n0,0,0\n0,0,0\n30,0,0\n");
    EXPECT(lly_scatter_add(&view, rows, 4, 0, second, &fault), LLY_DONE);
    EXPECT_NO_FAULT();
    EXPECT(lly_gather(&view, rows, 4, 0, read), LLY_DONE);
    EXPECT(read[0], 34);
    EXPECT(read[1], 22);
    EXPECT(read[2], 34);
    EXPECT(read[3], -36);
    /* no such row or leaf: nothing is read or stored, and each row is tested before */
    EXPECT(lly_gather(&view, outside, 2, 0, read), LLY_NO_PLACE);
    EXPECT(lly_gather(&view, rows, 4, 3, read), LLY_NO_PLACE);
    EXPECT(lly_gather_u64(&view, rows, 4, 0, naturals), LLY_BAD_TYPE);
    EXPECT(lly_gather(&view, rows, 4, 2, read), LLY_BAD_TYPE);
    EXPECT(lly_gather(&view, outside, 2, 2, read), LLY_NO_PLACE);
    EXPECT(read[1], 22);
    EXPECT(naturals[0], 9);
    EXPECT(lly_scatter(&view, outside, 2, 0, second, &fault), LLY_NO_PLACE);
    EXPECT_FAULT(0, 0, 0, 0);
    EXPECT(lly_scatter_add(&view, outside, 2, 0, second, &fault), LLY_NO_PLACE);
    EXPECT(lly_scatter(&view, rows, 4, 3, second, &fault), LLY_NO_PLACE);
    EXPECT(lly_scatter_u64(&view, outside, 2, 0, big, &fault), LLY_NO_PLACE);
    EXPECT(lly_gather(&view, rows, 4, 0, read), LLY_DONE);
    EXPECT(read[1], 22);
    /* the first value that is not taken: those before it are stored */
    EXPECT(lly_scatter(&view, rows, 4, 1, small, &fault), LLY_RANGE);
    EXPECT_FAULT(0, 5, 1, 0);
    EXPECT(lly_gather_u64(&view, rows, 4, 1, naturals), LLY_DONE);
    EXPECT(naturals[0], 255);
    EXPECT(naturals[1], 1);
    EXPECT(naturals[3], 0);
    EXPECT(lly_scatter_add(&view, twice, 3, 1, grown, &fault), LLY_RANGE);
    EXPECT_FAULT(0, 0, 1, 0);
    EXPECT(lly_scatter_add(&view, twice, 3, 1, shrunk, &fault), LLY_RANGE);
    EXPECT_FAULT(0, 0, 1, 0);
    EXPECT(lly_gather(&view, twice, 3, 1, read), LLY_DONE);
    EXPECT(read[0], 0);
    EXPECT(read[2], 0);
    /* the widest type */
    EXPECT(lly_scatter_u64(&view, rows, 4, 2, big, &fault), LLY_DONE);
    EXPECT(lly_scatter_add(&view, rows, 1, 2, shrunk + 1, &fault), LLY_DONE);
    EXPECT(lly_gather_u64(&view, rows, 4, 2, naturals), LLY_DONE);
    EXPECT(naturals[0] == UINT64_MAX - 1, 1);
    EXPECT(naturals[1], 2);
    EXPECT(naturals[3], 4);
    EXPECT(lly_scatter_add(&view, rows, 4, 2, second, &fault), LLY_RANGE);
    EXPECT_FAULT(0, 5, 2, 0);
    EXPECT(lly_scatter_u64(&view, rows, 3, 0, one, &fault), LLY_DONE);
    EXPECT(lly_gather(&view, NULL, 0, 0, NULL), LLY_DONE);
    EXPECT(lly_gather(&view, NULL, 0, 3, NULL), LLY_NO_PLACE);
    EXPECT(lly_scatter_add(&view, NULL, 0, 0, NULL, &fault), LLY_DONE);
    lly_drop(&view);
    EXPECT(lly_gather(&view, rows, 4, 0, read), LLY_NO_VIEW);
    EXPECT(lly_gather_u64(&view, rows, 4, 0, naturals), LLY_NO_VIEW);
    EXPECT(lly_scatter(&view, rows, 4, 0, first, &fault), LLY_NO_VIEW);
    EXPECT_FAULT(0, 0, 0, 0);
    EXPECT(lly_scatter_u64(&view, rows, 4, 0, big, &fault), LLY_NO_VIEW);
    EXPECT(lly_scatter_add(&view, rows, 4, 0, first, &fault), LLY_NO_VIEW);
}

static void lists_of_rows_are_read_and_stored(void) {
    static const char *const lines[] = {
        "view V : P [6] as aos(packed, row)",           "view V : P [2, 3] as soa(multi, row)", "view V : P [3, 2] as aosoa(4, morton)",
        "view V : P [6] as bitaos(9 { big: 64 }, row)", "view V : P [6] as count(aos(min, row))",
    };
    static const uint64_t twice[] = {1, 1};
    static const int64_t most[] = {7, 1}, low[] = {200, 57};
    lly_view view = LLY_NONE;
    lly_fault fault = UNTOUCHED;
    int64_t read[2] = {9, 9};
    size_t k;
    for (k = 0; k < sizeof lines / sizeof lines[0]; k++) {
        lists_under(lines[k]);
    }
    make(&view, "record P { x: i32 }", "view V : P [2] as bitsoa(4, row)");
    EXPECT(lly_scatter_add(&view, twice, 2, 0, most, &fault), LLY_NARROW);
    EXPECT_FAULT(0, 1, 0, 0);
    EXPECT(lly_gather(&view, twice, 2, 0, read), LLY_DONE);
    EXPECT(read[1], 7);
    make(&view, "record P { n: u8 }", "view V : P [2] wrap as aos(packed, row)");
    EXPECT(lly_scatter_add(&view, twice, 2, 0, low, &fault), LLY_DONE);
    EXPECT(lly_gather(&view, twice, 2, 0, read), LLY_DONE);
    EXPECT(read[0], 1);
    lly_drop(&view);
}

/* Boxes of 4 times 5 rows, of which each has its number in x. */
static void boxes_under(const char *line) {
    static const uint64_t low[] = {1, 2}, high[] = {3, 5}, none[] = {4, 0}, all[] = {4, 5}, outside[] = {4, 6}, wide[] = {3, UINT64_MAX};
    static const uint64_t big[] = {1, 2, UINT64_MAX, 4, 5, 6};
    static const int64_t due[] = {7, 8, 9, 12, 13, 14}, small[] = {1, 2, 3, 256, 5, 6};
    lly_view view = LLY_NONE;
    lly_fault fault = UNTOUCHED;
    int64_t read[20];
    uint64_t naturals[6] = {9, 9, 9, 9, 9, 9};
    size_t k;
    make(&view, "record P { x: i32, n: u8, big: u64 }", line);
    for (k = 0; k < 20; k++) {
        read[k] = (int64_t)k;
    }
    EXPECT(lly_set_box(&view, high, low, 2, 0, read, 20, &fault), LLY_BAD_WINDOW);
    EXPECT_FAULT(0, 0, 0, 0);
    EXPECT(lly_set_run(&view, 0, 0, read, 20, &fault), LLY_DONE);
    EXPECT(lly_get_box(&view, low, high, 2, 0, read, 6), LLY_DONE);
    EXPECT(memcmp(read, due, sizeof due), 0);
    EXPECT(read[6], 6);
    EXPECT(lly_set_box(&view, low, high, 2, 1, small, 6, &fault), LLY_RANGE);
    EXPECT_FAULT(0, 12, 1, 0);
    EXPECT(lly_get_box_u64(&view, low, high, 2, 1, naturals, 6), LLY_DONE);
    EXPECT(naturals[2], 3);
    EXPECT(naturals[3], 0);
    EXPECT(lly_set_box_u64(&view, low, high, 2, 2, big, 6, &fault), LLY_DONE);
    EXPECT(lly_get_box_u64(&view, low, high, 2, 2, naturals, 6), LLY_DONE);
    EXPECT(memcmp(naturals, big, sizeof big), 0);
    /* no window, then no place, then another type: nothing is read or stored */
    EXPECT(lly_get_box(&view, low, high, 1, 3, read, 2), LLY_BAD_WINDOW);
    EXPECT(lly_get_box(&view, NULL, NULL, 0, 0, read, 1), LLY_BAD_WINDOW);
    EXPECT(lly_get_box(&view, high, low, 2, 0, read, 6), LLY_BAD_WINDOW);
    EXPECT(lly_get_box(&view, low, outside, 2, 0, read, 6), LLY_BAD_WINDOW);
    EXPECT(lly_get_box_u64(&view, low, wide, 2, 1, naturals, 6), LLY_BAD_WINDOW);
    EXPECT(lly_set_box_u64(&view, low, wide, 2, 1, big, 6, &fault), LLY_BAD_WINDOW);
    EXPECT_FAULT(0, 0, 0, 0);
    EXPECT(lly_get_box(&view, low, high, 2, 0, read, 5), LLY_NO_PLACE);
    EXPECT(lly_get_box(&view, low, high, 2, 3, read, 6), LLY_NO_PLACE);
    EXPECT(lly_set_box(&view, low, high, 2, 1, small, 5, &fault), LLY_NO_PLACE);
    EXPECT(lly_get_box(&view, low, high, 2, 2, read, 6), LLY_BAD_TYPE);
    EXPECT(lly_get_box_u64(&view, low, high, 2, 0, naturals, 6), LLY_BAD_TYPE);
    EXPECT(memcmp(read, due, sizeof due), 0);
    EXPECT(memcmp(naturals, big, sizeof big), 0);
    EXPECT(lly_get_box(&view, none, all, 2, 0, NULL, 0), LLY_DONE);
    EXPECT(lly_set_box(&view, none, all, 2, 0, NULL, 0, &fault), LLY_DONE);
    lly_drop(&view);
    EXPECT(lly_get_box(&view, low, high, 2, 0, read, 6), LLY_NO_VIEW);
    EXPECT(lly_get_box_u64(&view, low, high, 2, 1, naturals, 6), LLY_NO_VIEW);
    EXPECT(lly_set_box(&view, low, high, 2, 0, due, 6, &fault), LLY_NO_VIEW);
    EXPECT(lly_set_box_u64(&view, low, high, 2, 2, big, 6, &fault), LLY_NO_VIEW);
}

static void boxes_are_read_and_stored(void) {
    static const char *const lines[] = {
        "view V : P [4, 5] as aos(packed, row)",         "view V : P [4, 5] as soa(multi, col)", "view V : P [4, 5] as aosoa(4, morton)",
        "view V : P [4, 5] as bitaos(9 { big: 64 }, row)", "view V : P [4, 5] as count(aos(min, row))",
    };
    static const uint64_t low[] = {0, 1, 0}, high[] = {2, 2, 3};
    lly_view view = LLY_NONE;
    lly_fault fault = UNTOUCHED;
    int64_t values[6] = {1, 2, 3, 4, 5, 6};
    uint64_t reads = 0, writes = 0;
    size_t k;
    for (k = 0; k < sizeof lines / sizeof lines[0]; k++) {
        boxes_under(lines[k]);
    }
    make(&view, "record P { n: u8 }", "view V : P [2, 2, 3] as count(soa(multi, row))");
    EXPECT(lly_set_box(&view, low, high, 3, 0, values, 6, &fault), LLY_DONE);
    EXPECT(lly_get_box(&view, low, high, 3, 0, values, 6), LLY_DONE);
    EXPECT(lly_counts(&view, 0, &reads, &writes), LLY_DONE);
    EXPECT(10 * reads + writes, 66);
    expect_print(&view, "n\n0\n0\n0\n1\n2\n3\n0\n0\n0\n4\n5\n6\n");
    lly_drop(&view);
}

static void tables_are_copied(void) {
    lly_view source = LLY_NONE, target = LLY_NONE;
    lly_fault fault = UNTOUCHED;
    EXPECT(lly_copy(&source, &target, &fault), LLY_NO_VIEW);
    EXPECT_FAULT(0, 0, 0, 0);
    make(&source, "record P { x: i32, n: u16 }", "view V : P [3] as aos(packed, row)");
    EXPECT(lly_copy(&source, &target, &fault), LLY_NO_VIEW);
    EXPECT(lly_copy(&target, &source, &fault), LLY_NO_VIEW);
    EXPECT(lly_copy(&source, &source, &fault), LLY_SAME);
    make(&target, "record P { x: i32, n: u16 }", "view V : P [3, 1] as soa(multi, row)");
    EXPECT(lly_copy(&source, &target, &fault), LLY_MISMATCH);
    EXPECT_FAULT(0, 0, 0, 0);
    make(&target, "record P { x: i32, n: u16 }", "view V : P [3] as bitaos(9, row)");
    EXPECT(lly_set(&source, 0, 0, -256), LLY_DONE);
    EXPECT(lly_set(&source, 1, 1, 512), LLY_DONE);
    EXPECT(lly_copy(&source, &target, &fault), LLY_NARROW);
    EXPECT_FAULT(0, 1, 1, 0);
    expect_print(&target, "x,n\n-256,0\n0,0\n0,0\n");
    fault = UNTOUCHED;
    EXPECT(lly_set(&source, 1, 1, 511), LLY_DONE);
    EXPECT(lly_copy(&source, &target, &fault), LLY_DONE);
    EXPECT_NO_FAULT();
    expect_print(&target, "x,n\n-256,0\n0,511\n0,0\n");
    lly_drop(&source);
    lly_drop(&target);
}

static void tables_are_laid_anew(void) {
    lly_view view = LLY_NONE;
    lly_fault fault = UNTOUCHED;
    size_t blobs = 0;
    EXPECT(lly_relayout(&view, TEXT("relayout V as aos(min, row)"), &fault), LLY_NO_VIEW);
    EXPECT_FAULT(0, 0, 0, 0);
    make(&view, "record P { x: i32, n: u16 }", "view V : P [2] as aos(packed, row)");
    EXPECT(lly_set(&view, 1, 0, -9), LLY_DONE);
    fault = UNTOUCHED;
    EXPECT(lly_relayout(&view, TEXT("relayout Any as soa(multi, row)"), &fault), LLY_DONE);
    EXPECT_NO_FAULT();
    EXPECT(lly_blobs(&view, &blobs), LLY_DONE);
    EXPECT(blobs, 2);
    EXPECT(lly_relayout(&view, TEXT("relayout V as bitaos(4, row)"), &fault), LLY_NARROW);
    EXPECT_FAULT(0, 1, 0, 0);
    EXPECT(lly_relayout(&view, TEXT("relayout V as bitaos(0, row)"), &fault), LLY_BAD_MAPPING);
    EXPECT_FAULT(LLY_MAPPING_WIDTH, 0, 0, 0);
    EXPECT(lly_relayout(&view, TEXT("relayout V as Layout"), &fault), LLY_UNKNOWN);
    EXPECT(lly_relayout(&view, TEXT("relayout V as"), &fault), LLY_SYNTAX);
    EXPECT_FAULT(LLY_TEXT_FIRST, 0, 0, 14);
    EXPECT(lly_relayout(&view, TEXT("print V"), &fault), LLY_OTHER_LINE);
    EXPECT_FAULT(LLY_TEXT_FIRST, 0, 0, 0);
    EXPECT(lly_blobs(&view, &blobs), LLY_DONE);
    EXPECT(blobs, 2);
    expect_print(&view, "x,n\n0,0\n-9,0\n");
    lly_drop(&view);
}

static void kernels_run(void) {
    lly_view view = LLY_NONE;
    lly_fault fault = UNTOUCHED;
    int64_t value = 9;
    EXPECT(lly_kernel(&view, TEXT("kernel V sum(x) lanes 8"), &value, &fault), LLY_NO_VIEW);
    EXPECT(lly_load(&view, TEXT("record P { x: i32, n: u16, big: i64 }"), TEXT("load V : P [?] as soa(multi, row) from \"any\""), TEXT("x,n,big\n5,1,0\n-7,2,0\n30,3,0\n"), &fault),
           LLY_DONE);
    fault = UNTOUCHED;
    EXPECT(lly_kernel(&view, TEXT("kernel Any sum(x) lanes 8"), &value, &fault), LLY_DONE);
    EXPECT(value, 28);
    EXPECT(lly_kernel(&view, TEXT("kernel V least(x) lanes 1"), &value, &fault), LLY_DONE);
    EXPECT(value, -7);
    EXPECT(lly_kernel(&view, TEXT("kernel V axpy(10, n, x) lanes 4"), &value, &fault), LLY_DONE);
    EXPECT(value, -7);
    EXPECT_NO_FAULT();
    expect_print(&view, "x,n,big\n15,1,0\n13,2,0\n60,3,0\n");
    EXPECT(lly_kernel(&view, TEXT("kernel V axpy(32000, x, n) lanes 16"), &value, &fault), LLY_RANGE);
    EXPECT_FAULT(0, 0, 1, 0);
    EXPECT(lly_kernel(&view, TEXT("kernel V sum(y) lanes 8"), &value, &fault), LLY_UNKNOWN);
    EXPECT_FAULT(0, 0, 0, 0);
    EXPECT(lly_kernel(&view, TEXT("kernel V sum(x) lanes 3"), &value, &fault), LLY_BAD_KERNEL);
    EXPECT_FAULT(LLY_KERNEL_LANES, 0, 0, 0);
    EXPECT(lly_kernel(&view, TEXT("kernel V sum(big) lanes 8"), &value, &fault), LLY_BAD_KERNEL);
    EXPECT_FAULT(LLY_KERNEL_WIDE, 0, 0, 0);
    make(&view, "record P { x: i32 }", "view V : P [0] as aos(packed, row)");
    EXPECT(lly_kernel(&view, TEXT("kernel V greatest(x) lanes 8"), &value, &fault), LLY_EMPTY);
    EXPECT_FAULT(0, 0, 0, 0);
    EXPECT(value, -7);
    lly_drop(&view);
}

/* What a line tells of a view, which is asked for twice: for its length, and for itself. */
static void expect_told(lly_view *view, const char *line, const char *expected) {
    lly_fault fault = UNTOUCHED;
    size_t needed = 0;
    uint8_t *text;
    EXPECT(lly_tell(view, TEXT(line), NULL, 0, &needed, &fault), LLY_NO_ROOM);
    EXPECT_FAULT(0, 0, 0, 0);
    EXPECT(needed, strlen(expected));
    text = malloc(needed + 1);
    text[needed] = 0;
    fault = UNTOUCHED;
    EXPECT(lly_tell(view, TEXT(line), text, needed, &needed, &fault), LLY_DONE);
    EXPECT_NO_FAULT();
    EXPECT(strcmp((const char *)text, expected), 0);
    free(text);
}

static void lines_are_done(void) {
    lly_view view = LLY_NONE;
    lly_fault fault = UNTOUCHED;
    int64_t number = 9;
    EXPECT(lly_do(&view, TEXT("reduce V sum x"), &number, &fault), LLY_NO_VIEW);
    EXPECT_FAULT(0, 0, 0, 0);
    EXPECT(lly_load(&view, TEXT("record P { x: i32, n: u8, big: u64 }"), TEXT("load V : P [2, 2] as soa(multi, row) from \"any\""),
                    TEXT("x,n,big\n5,1,18446744073709551615\n-7,2,1\n30,3,0\n0,4,0\n"), &fault),
           LLY_DONE);
    fault = UNTOUCHED;
    EXPECT(lly_do(&view, TEXT("set Any[1, 0].x = x * 2 + i1"), &number, &fault), LLY_DONE);
    EXPECT(lly_do(&view, TEXT("update V where n > 2 set n = n + 10, x = n"), &number, &fault), LLY_DONE);
    EXPECT(number, 9);
    EXPECT(lly_do(&view, TEXT("reduce V min x"), &number, &fault), LLY_DONE);
    EXPECT(number, -7);
    EXPECT(lly_do(&view, TEXT("reduce V count where x < n"), &number, &fault), LLY_DONE);
    EXPECT(number, 3);
    EXPECT(lly_do(&view, TEXT("kernel V sum(n) lanes 4"), &number, &fault), LLY_DONE);
    EXPECT(number, 30);
    EXPECT_NO_FAULT();
    expect_print(&view, "x,n,big\n5,1,18446744073709551615\n-7,2,1\n3,13,0\n4,14,0\n");
    /* refusals: those at a row leave the rows before it changed by an update and by a kernel alone */
    EXPECT(lly_do(&view, TEXT("reduce V sum big"), &number, &fault), LLY_BAD_TYPE);
    EXPECT_FAULT(0, 0, 0, 0);
    EXPECT(lly_do(&view, TEXT("update V set n = n * 20, x = 1"), &number, &fault), LLY_RANGE);
    EXPECT_FAULT(0, 2, 1, 0);
    expect_print(&view, "x,n,big\n1,20,18446744073709551615\n1,40,1\n3,13,0\n4,14,0\n");
    EXPECT(lly_do(&view, TEXT("update V set x = 6 / (n - 13)"), &number, &fault), LLY_DIVIDE_BY_ZERO);
    EXPECT_FAULT(0, 2, 0, 0);
    expect_print(&view, "x,n,big\n0,20,18446744073709551615\n0,40,1\n3,13,0\n4,14,0\n");
    EXPECT(lly_do(&view, TEXT("set V[0, 0].x = 170141183460469231731687303715884105727 + 1"), &number, &fault), LLY_OVERFLOW);
    EXPECT_FAULT(0, 0, 0, 0);
    EXPECT(lly_do(&view, TEXT("set V[1, 1].n = 256"), &number, &fault), LLY_RANGE);
    EXPECT_FAULT(0, 3, 1, 0);
    EXPECT(lly_do(&view, TEXT("set V[2, 0].n = 1"), &number, &fault), LLY_NO_PLACE);
    EXPECT_FAULT(0, 0, 0, 0);
    EXPECT(lly_do(&view, TEXT("set V[0, 0].y = 1"), &number, &fault), LLY_UNKNOWN);
    EXPECT(lly_do(&view, TEXT("update V set x = 1, n = 2, x = 3"), &number, &fault), LLY_TWICE);
    EXPECT_FAULT(0, 0, 0, 0);
    EXPECT(lly_do(&view, TEXT("update V set x = 1, n = 2, n = 3"), &number, &fault), LLY_TWICE);
    EXPECT_FAULT(0, 0, 1, 0);
    EXPECT(lly_do(&view, TEXT("kernel V sum(big) lanes 4"), &number, &fault), LLY_BAD_KERNEL);
    EXPECT_FAULT(LLY_KERNEL_WIDE, 0, 0, 0);
    EXPECT(lly_do(&view, TEXT("update V set"), &number, &fault), LLY_SYNTAX);
    EXPECT_FAULT(LLY_TEXT_FIRST, 0, 0, 13);
    EXPECT(lly_do(&view, TEXT("drop V"), &number, &fault), LLY_OTHER_LINE);
    EXPECT_FAULT(LLY_TEXT_FIRST, 0, 0, 0);
    EXPECT(number, 30);
    expect_print(&view, "x,n,big\n0,20,18446744073709551615\n0,40,1\n3,13,0\n4,14,0\n");
    make(&view, "record P { x: i32 }", "view V : P [0] as aos(packed, row)");
    EXPECT(lly_do(&view, TEXT("reduce V max x"), &number, &fault), LLY_EMPTY);
    EXPECT(lly_do(&view, TEXT("reduce V sum x"), &number, &fault), LLY_DONE);
    EXPECT(number, 0);
    lly_drop(&view);
}

static void rounds_and_turns_are_done(void) {
    lly_view view = LLY_NONE;
    lly_fault fault = UNTOUCHED;
    int64_t number = 9;
    uint8_t text[4];
    size_t needed = 9;
    EXPECT(lly_load(&view, TEXT("record P { t: u8 }"), TEXT("load V : P [4] as aos(packed, row) from \"any\""), TEXT("t\n0\n10\n20\n40\n"), &fault), LLY_DONE);
    fault = UNTOUCHED;
    EXPECT(lly_do(&view, TEXT("stencil V window [1 : 3] set t = (1 * t at [-1], 1 * t at [1]) / 2 rounds 1"), &number, &fault), LLY_DONE);
    expect_print(&view, "t\n0\n10\n25\n40\n");
    EXPECT(lly_do(&view, TEXT("relayout V as soa(multi, row)"), &number, &fault), LLY_DONE);
    EXPECT_NO_FAULT();
    expect_print(&view, "t\n0\n10\n25\n40\n");
    /* 0 + 2 * 25 and 10 + 2 * 40, then 0 + 2 * 90 and 50 + 2 * 40, then 0 + 2 * 130, which no u8 has: the first two rounds stay */
    EXPECT(lly_do(&view, TEXT("stencil V window [1 : 3] set t = (1 * t at [-1], 2 * t at [1]) / 1 rounds 9"), &number, &fault), LLY_RANGE);
    EXPECT_FAULT(0, 1, 0, 0);
    expect_print(&view, "t\n0\n180\n130\n40\n");
    EXPECT(lly_do(&view, TEXT("stencil V window [0 : 3] set t = (1 * t at [-1]) / 1 rounds 1"), &number, &fault), LLY_BAD_STENCIL);
    EXPECT_FAULT(LLY_STENCIL_REACH, 0, 0, 0);
    EXPECT(lly_do(&view, TEXT("stencil V window [0 : 5] set t = (1 * t at [0]) / 1 rounds 1"), &number, &fault), LLY_BAD_WINDOW);
    EXPECT(lly_do(&view, TEXT("relayout V as bitaos(7, row)"), &number, &fault), LLY_NARROW);
    EXPECT_FAULT(0, 1, 0, 0);
    EXPECT(lly_do(&view, TEXT("relayout V as bitaos(0, row)"), &number, &fault), LLY_BAD_MAPPING);
    expect_print(&view, "t\n0\n180\n130\n40\n");
    make(&view, "record P { a: u16 }", "view V : P [4] as bitaos(12, row)");
    EXPECT(lly_do(&view, TEXT("update V set a = 4095 actors [1] schedule 0 turns 4"), &number, &fault), LLY_SHARED_BYTE);
    EXPECT_FAULT(0, 0, 0, 1);
    EXPECT(lly_do(&view, TEXT("update V set a = 4095 actors [5] schedule 0 turns 4"), &number, &fault), LLY_BAD_ACTORS);
    EXPECT_FAULT(LLY_ACTORS_CUTS, 0, 0, 0);
    EXPECT(lly_do(&view, TEXT("update V set a = 70000 * i0 actors [2] schedule 0 turns 4"), &number, &fault), LLY_RANGE);
    EXPECT_FAULT(0, 1, 0, 0);
    expect_print(&view, "a\n0\n0\n0\n0\n");
    EXPECT(lly_do(&view, TEXT("update V set a = i0 actors [2] schedule 0 turns 4"), &number, &fault), LLY_DONE);
    expect_print(&view, "a\n0\n1\n2\n3\n");
    EXPECT(lly_tell(&view, TEXT("advise V granule 3 pass a times 1 among aos(packed, row)"), text, 4, &needed, &fault), LLY_BAD_ADVICE);
    EXPECT_FAULT(LLY_ADVICE_GRANULE, 0, 0, 0);
    EXPECT(number, 9);
    lly_drop(&view);
}

static void lines_are_told(void) {
    lly_view view = LLY_NONE;
    lly_fault fault = UNTOUCHED;
    uint8_t text[4] = {'.', '.', '.', '.'};
    size_t needed = 9;
    EXPECT(lly_tell(&view, TEXT("print V"), text, 4, &needed, &fault), LLY_NO_VIEW);
    EXPECT_FAULT(0, 0, 0, 0);
    make(&view, "record P { x: i16, n: u8 }", "view V : P [3] as count(soa(single, row))");
    EXPECT(lly_set(&view, 1, 0, 258), LLY_DONE);
    EXPECT(lly_set(&view, 2, 1, 9), LLY_DONE);
    expect_told(&view, "counts V", "leaf,reads,writes\nx,0,1\nn,0,1\n");
    expect_told(&view, "print Any window [1 : 3]", "x,n\n258,0\n0,9\n");
    expect_told(&view, "counts V", "leaf,reads,writes\nx,4,1\nn,4,1\n");
    expect_told(&view, "print V", "x,n\n0,0\n258,0\n0,9\n");
    expect_told(&view, "bytes V 0", "00 00 02 01 00 00 00 00 09\n");
    expect_told(&view, "layout V",
                "blob,bit,bits,record,leaf,low\n0,0,16,0,x,0\n0,16,16,1,x,0\n0,32,16,2,x,0\n0,48,8,0,n,0\n0,56,8,1,n,0\n0,64,8,2,n,0\n");
    fault = UNTOUCHED;
    EXPECT(lly_tell(&view, TEXT("print V"), text, 3, &needed, &fault), LLY_NO_ROOM);
    EXPECT(memcmp(text, "....", 4), 0);
    needed = 9;
    EXPECT(lly_tell(&view, TEXT("heat V"), text, 4, &needed, &fault), LLY_NOT_COUNTED);
    EXPECT_FAULT(0, 0, 0, 0);
    EXPECT(lly_tell(&view, TEXT("bytes V 1"), text, 4, &needed, &fault), LLY_NO_PLACE);
    EXPECT(lly_tell(&view, TEXT("print V window [1 : 4]"), text, 4, &needed, &fault), LLY_BAD_WINDOW);
    EXPECT(lly_tell(&view, TEXT("reduce V sum x"), text, 4, &needed, &fault), LLY_OTHER_LINE);
    EXPECT_FAULT(LLY_TEXT_FIRST, 0, 0, 0);
    EXPECT(lly_tell(&view, TEXT("print"), text, 4, &needed, &fault), LLY_SYNTAX);
    EXPECT_FAULT(LLY_TEXT_FIRST, 0, 0, 6);
    EXPECT(needed, 9);
    make(&view, "record P { x: i16 }", "view V : P [32769] as soa(multi, row)");
    EXPECT(lly_tell(&view, TEXT("layout V"), text, 4, &needed, &fault), LLY_TOO_BIG);
    lly_drop(&view);
}

/* What is said of an answer with this cause, row 3, leaf 1 and column 14. */
static void expect_message(int32_t answer, int32_t cause, const char *expected) {
    const lly_fault fault = {cause, 3, 1, 14};
    uint8_t text[64];
    size_t needed = 0;
    EXPECT(lly_message(answer, &fault, NULL, 0, &needed), LLY_NO_ROOM);
    EXPECT(needed, strlen(expected));
    EXPECT(lly_message(answer, &fault, text, sizeof text, &needed), LLY_DONE);
    EXPECT(needed == strlen(expected) && memcmp(text, expected, needed) == 0, 1);
}

static void answers_have_words(void) {
    const lly_fault none = LLY_NO_FAULT;
    size_t needed = 9;
    expect_message(LLY_DONE, 0, "Done");
    expect_message(LLY_NO_VIEW, 0, "NoView");
    expect_message(LLY_RANGE, 0, "Range record 3 leaf 1");
    expect_message(LLY_SYNTAX, LLY_TEXT_SECOND, "Syntax column 14");
    expect_message(LLY_OTHER_LINE, LLY_TEXT_FIRST, "OtherLine");
    expect_message(LLY_UNKNOWN, 0, "Unknown");
    expect_message(LLY_BAD_MAPPING, LLY_MAPPING_NOT_FULL, "BadMapping NotFull");
    expect_message(LLY_COLUMN_TWICE, 0, "ColumnTwice 1");
    expect_message(LLY_BAD_FILE, LLY_FILE_MAGIC, "BadFile Magic");
    expect_message(LLY_NULL, 0, "Null");
    expect_message(LLY_SAME, 0, "Same");
    expect_message(LLY_TWICE, 0, "Twice 1");
    expect_message(LLY_DIVIDE_BY_ZERO, 0, "DivideByZero record 3");
    expect_message(LLY_BAD_WINDOW, 0, "BadWindow");
    expect_message(LLY_IRREGULAR, 0, "Irregular");
    /* no call answers so */
    EXPECT(lly_message(33, &none, NULL, 0, &needed), LLY_NO_PLACE);
    EXPECT(lly_message(-1, &none, NULL, 0, &needed), LLY_NO_PLACE);
    EXPECT(lly_message(LLY_BAD_RECORD, &none, NULL, 0, &needed), LLY_NO_PLACE);
    EXPECT(needed, 9);
}

/* The texts of an opened view make another one, and numbers are changed where they lie. */
static void bytes_are_lent(void) {
    lly_view view = LLY_NONE, again = LLY_NONE;
    lly_fault fault = UNTOUCHED;
    lly_places places;
    uint8_t record[100], layout[100], bytes[16];
    size_t needed = 9, record_len, layout_len;
    uint64_t reads, writes;
    EXPECT(lly_record(&view, record, 100, &needed), LLY_NO_VIEW);
    EXPECT(lly_layout(&view, layout, 100, &needed), LLY_NO_VIEW);
    EXPECT(lly_lend(&view, bytes, 16, &needed), LLY_NO_VIEW);
    EXPECT(needed, 9);
    EXPECT_NO_FAULT();
    EXPECT(lly_return(&view, bytes, 16, &fault), LLY_NO_VIEW);
    EXPECT_FAULT(0, 0, 0, 0);
    fault = UNTOUCHED;
    make(&view, "record P { on: bool, n: u16, x: i8 }", "view V : P [2] as split(x, soa(multi, row), aos(aligned, row))");
    EXPECT(lly_record(&view, NULL, 0, &needed), LLY_NO_ROOM);
    EXPECT(lly_record(&view, record, 100, &record_len), LLY_DONE);
    EXPECT(needed, record_len);
    EXPECT(memcmp(record, "record R { on : bool , n : u16 , x : i8 }", record_len), 0);
    EXPECT(lly_layout(&view, layout, 100, &layout_len), LLY_DONE);
    EXPECT(lly_new(&again, record, record_len, layout, layout_len, &fault), LLY_DONE);
    EXPECT(lly_set(&view, 0, 1, 770), LLY_DONE);
    EXPECT(lly_set(&view, 1, 2, -1), LLY_DONE);
    memset(bytes, 0xAA, 16);
    EXPECT(lly_lend(&view, bytes, 9, &needed), LLY_NO_ROOM);
    EXPECT(needed, 10);
    EXPECT(bytes[0], 0xAA);
    EXPECT(lly_lend(&view, bytes, 16, &needed), LLY_DONE);
    EXPECT(memcmp(bytes, "\x00\xFF\x00\x00\x02\x03\x00\x00\x00\x00\xAA", 11), 0);
    EXPECT(lly_return(&again, bytes, 10, &fault), LLY_DONE);
    expect_print(&again, "on,n,x\n0,770,0\n0,0,-1\n");
    EXPECT(lly_place(&view, 1, &places, &fault), LLY_DONE);
    EXPECT(places.blob, 1);
    lly_put_number(bytes + 2, &places, 1, 65535);
    EXPECT(lly_return(&view, bytes, 10, &fault), LLY_DONE);
    EXPECT_NO_FAULT();
    expect_print(&view, "on,n,x\n0,770,0\n0,65535,-1\n");
    EXPECT(lly_return(&view, bytes, 9, &fault), LLY_BAD_FILE);
    EXPECT_FAULT(LLY_FILE_LENGTH, 0, 0, 0);
    EXPECT(lly_return(&view, bytes, 11, &fault), LLY_BAD_FILE);
    EXPECT_FAULT(LLY_FILE_LENGTH, 0, 0, 0);
    bytes[2] = 2; /* no bool */
    EXPECT(lly_return(&view, bytes, 10, &fault), LLY_BAD_FILE);
    EXPECT_FAULT(LLY_FILE_CONTENTS, 0, 0, 0);
    bytes[2] = 1;
    bytes[3] = 1; /* padding */
    EXPECT(lly_return(&view, bytes, 10, &fault), LLY_BAD_FILE);
    EXPECT_FAULT(LLY_FILE_CONTENTS, 0, 0, 0);
    expect_print(&view, "on,n,x\n0,770,0\n0,65535,-1\n");
    fault = UNTOUCHED;
    make(&view, "record P { x: i8 }", "view V : P [2] as count(soa(multi, row))");
    EXPECT(lly_get_run(&view, 0, 0, (int64_t *)layout, 2), LLY_DONE);
    EXPECT(lly_lend(&view, bytes, 16, &needed), LLY_DONE);
    EXPECT(lly_return(&view, bytes, 2, &fault), LLY_DONE);
    EXPECT(lly_counts(&view, 0, &reads, &writes), LLY_DONE);
    EXPECT(10 * reads + writes, 2);
    lly_drop(&view);
    lly_drop(&again);
}

static void bytes_are_copied_out(void) {
    lly_view view = LLY_NONE, again = LLY_NONE;
    lly_fault fault = UNTOUCHED;
    uint8_t bytes[200], blob[10];
    size_t needed = 9, file;
    EXPECT(lly_print(&view, bytes, 200, &needed), LLY_NO_VIEW);
    EXPECT(lly_save(&view, bytes, 200, &needed), LLY_NO_VIEW);
    EXPECT(lly_blob(&view, 0, bytes, 200, &needed), LLY_NO_VIEW);
    EXPECT(needed, 9);
    make(&view, "record P { x: i16, n: u8 }", "view V : P [2] as aos(packed, row)");
    EXPECT(lly_set(&view, 0, 0, 258), LLY_DONE);
    EXPECT(lly_set(&view, 1, 1, 255), LLY_DONE);
    EXPECT(lly_blob(&view, 1, blob, 10, &needed), LLY_NO_PLACE);
    EXPECT(needed, 9);
    memset(blob, 0xAA, 10);
    EXPECT(lly_blob(&view, 0, blob, 5, &needed), LLY_NO_ROOM);
    EXPECT(needed, 6);
    EXPECT(blob[0], 0xAA);
    EXPECT(lly_blob(&view, 0, blob, 10, &needed), LLY_DONE);
    EXPECT(memcmp(blob, "\x02\x01\x00\x00\x00\xFF\xAA", 7), 0);
    memset(bytes, 0, 200);
    EXPECT(lly_print(&view, bytes, 14, &needed), LLY_NO_ROOM);
    EXPECT(needed, 16);
    EXPECT(bytes[0], 0);
    EXPECT(lly_print(&view, bytes, 200, &needed), LLY_DONE);
    EXPECT(memcmp(bytes, "x,n\n258,0\n0,255\n", 17), 0);
    EXPECT(lly_save(&view, NULL, 0, &file), LLY_NO_ROOM);
    EXPECT(lly_save(&view, bytes, file, &needed), LLY_DONE);
    EXPECT(needed, file);
    EXPECT(memcmp(bytes, "LLAMAB1\n", 8), 0);
    EXPECT(memcmp(bytes + file - 6, "\x02\x01\x00\x00\x00\xFF", 6), 0);
    EXPECT(lly_open(&again, bytes, file, &fault), LLY_DONE);
    EXPECT_NO_FAULT();
    expect_print(&again, "x,n\n258,0\n0,255\n");
    EXPECT(lly_open(&again, bytes, file - 1, &fault), LLY_BAD_FILE);
    EXPECT_FAULT(LLY_FILE_LENGTH, 0, 0, 0);
    EXPECT(lly_open(&again, bytes, 0, &fault), LLY_BAD_FILE);
    EXPECT_FAULT(LLY_FILE_MAGIC, 0, 0, 0);
    bytes[8] ^= 1;
    EXPECT(lly_open(&again, bytes, file, &fault), LLY_BAD_FILE);
    EXPECT_FAULT(LLY_FILE_HEADER, 0, 0, 0);
    expect_print(&again, "x,n\n258,0\n0,255\n");
    lly_drop(&view);
    lly_drop(&again);
}

/* Each leaf of RECORD in each row, with numbers of both signs and of all bits, as a place reads it and as a call does. */
static void expect_numbers(int line, lly_view *view, size_t leaf) {
    static const int64_t values[] = {0, -1, 1, INT64_MAX, INT64_MIN, 0x123456789abcdef};
    lly_column column;
    lly_fault fault;
    uint64_t row;
    for (row = 0; row < 6; row++) {
        EXPECT(lly_set_u64(view, row, leaf, (uint64_t)values[row]), LLY_DONE);
    }
    EXPECT(lly_column_of(view, leaf, &column, &fault), LLY_DONE);
    for (row = 0; row < 6; row++) {
        int64_t read = 0;
        const int32_t answer = leaf == 3 ? lly_get_u64(view, row, leaf, (uint64_t *)&read) : lly_get(view, row, leaf, &read);
        if (answer != LLY_DONE || lly_number(column.blob, &column.places, row) != read) {
            printf("line %d: the number of leaf %zu in row %" PRIu64 " is read as another\n", line, leaf, row);
            differs = 1;
        }
    }
}

/* The places of a leaf, field by field, and its numbers. */
static void expect_places(int line, lly_view *view, size_t leaf, lly_places due) {
    lly_places is;
    lly_fault fault = UNTOUCHED;
    const int32_t answer = lly_place(view, leaf, &is, &fault);
    if (answer != LLY_DONE || is.blob != due.blob || is.bytes != due.bytes || is.base != due.base || is.lanes != due.lanes || is.lane != due.lane || is.block != due.block
        || is.width != due.width || is.is_signed != due.is_signed || is.is_turned != due.is_turned || is.in_bits != due.in_bits || is.in_digits != due.in_digits) {
        printf("line %d: the places are answered by %" PRId32 ", or others: %zu, %" PRIu64 ", %" PRIu64 ", %" PRIu64 " %" PRIu64 " %" PRIu64 ", %" PRIu32 ", %d%d%d%d\n", line, answer,
               is.blob, is.bytes, is.base, is.lanes, is.lane, is.block, is.width, is.is_signed, is.is_turned, is.in_bits, is.in_digits);
        differs = 1;
        return;
    }
    EXPECT_NO_FAULT();
    expect_numbers(line, view, leaf);
}

#define EXPECT_PLACES(leaf, ...) expect_places(__LINE__, &view, leaf, (lly_places){__VA_ARGS__})

static void expect_irregular(int line, const char *how) {
    lly_view view = LLY_NONE;
    lly_fault fault = UNTOUCHED;
    lly_places places;
    memset(&places, 7, sizeof places);
    make(&view, RECORD, how);
    if (lly_place(&view, 3, &places, &fault) != LLY_IRREGULAR || places.lanes != UINT64_C(0x0707070707070707)) {
        printf("line %d: there are places, or what was there is lost\n", line);
        differs = 1;
    }
    expect_fault(line, &fault, 0, 0, 3, 0);
    lly_drop(&view);
}

/* The places of the leaves, worked out from what docs/LAYOUTS.md says of each form: a record has 15 bytes, and 6 rows are over 2 lines and 3 columns. */
static void numbers_are_read_by_places(void) {
    lly_view view = LLY_NONE;
    lly_fault fault = UNTOUCHED;
    lly_places places;
    const uint8_t *bytes = NULL;
    size_t length = 9;
    EXPECT(lly_place(&view, 0, &places, &fault), LLY_NO_VIEW);
    EXPECT_FAULT(0, 0, 0, 0);
    EXPECT(lly_blob_at(&view, 0, &bytes, &length), LLY_NO_VIEW);
    make(&view, RECORD, "view V : P [2, 3] wrap as aos(packed, row)");
    EXPECT_PLACES(0, 0, 90, 0, 6, 15, 0, 32, true, false, false, false);
    EXPECT_PLACES(1, 0, 90, 4, 6, 15, 0, 16, false, false, false, false);
    EXPECT_PLACES(2, 0, 90, 6, 6, 15, 0, 8, false, false, false, false);
    EXPECT_PLACES(3, 0, 90, 7, 6, 15, 0, 64, false, false, false, false);
    EXPECT(lly_place(&view, 4, &places, &fault), LLY_NO_PLACE);
    EXPECT(lly_blob_at(&view, 1, &bytes, &length), LLY_NO_PLACE);
    EXPECT(length, 9);
    EXPECT(bytes == NULL, true);
    EXPECT(lly_blob_at(&view, 0, &bytes, &length), LLY_DONE);
    EXPECT(length, 90);
    make(&view, RECORD, "view V : P [2, 3] wrap as aos(aligned, row)");
    EXPECT_PLACES(3, 0, 96, 8, 6, 16, 0, 64, false, false, false, false);
    make(&view, RECORD, "view V : P [2, 3] wrap as soa(multi, row)");
    EXPECT_PLACES(1, 1, 12, 0, 6, 2, 0, 16, false, false, false, false);
    make(&view, RECORD, "view V : P [2, 3] wrap as soa(single, row)");
    EXPECT_PLACES(3, 0, 90, 42, 6, 8, 0, 64, false, false, false, false);
    make(&view, RECORD, "view V : P [2, 3] wrap as aosoa(4, row)");
    EXPECT_PLACES(0, 0, 120, 0, 4, 4, 60, 32, true, false, false, false);
    EXPECT_PLACES(3, 0, 120, 28, 4, 8, 60, 64, false, false, false, false);
    make(&view, RECORD, "view V : P [2, 3] wrap as aosoa(3, row)");
    EXPECT_PLACES(3, 0, 90, 21, 3, 8, 45, 64, false, false, false, false);
    make(&view, RECORD, "view V : P [2, 1, 3] wrap as soa(multi, col)");
    EXPECT_PLACES(3, 3, 48, 0, 3, 16, 8, 64, false, false, false, false);
    make(&view, RECORD, "view V : P [2, 3] wrap as soa(multi, col)");
    EXPECT_PLACES(0, 0, 24, 0, 3, 8, 4, 32, true, false, false, false);
    make(&view, RECORD, "view V : P [2, 3] wrap as soa(multi, morton)");
    EXPECT_PLACES(0, 0, 64, 0, 3, 0, 4, 32, true, false, false, true);
    make(&view, RECORD, "view V : P [2, 3] wrap as bitaos(5, row)");
    EXPECT_PLACES(0, 0, 16, 0, 6, 20, 0, 5, true, false, true, false);
    EXPECT_PLACES(3, 0, 16, 15, 6, 20, 0, 5, false, false, true, false);
    make(&view, RECORD, "view V : P [2, 3] wrap as bitsoa(57, row)");
    EXPECT_PLACES(3, 3, 48, 0, 6, 57, 0, 57, false, false, true, false);
    make(&view, RECORD, "view V : P [2, 3] wrap as byteswap(aos(packed, row))");
    EXPECT_PLACES(0, 0, 90, 0, 6, 15, 0, 32, true, true, false, false);
    EXPECT_PLACES(2, 0, 90, 6, 6, 15, 0, 8, false, false, false, false);
    EXPECT_PLACES(3, 0, 90, 7, 6, 15, 0, 64, false, true, false, false);
    lly_drop(&view);
    expect_irregular(__LINE__, "view V : P [2, 3] as count(aos(packed, row))");
    expect_irregular(__LINE__, "view V : P [2, 3] as bytesplit(soa(multi, row))");
    expect_irregular(__LINE__, "view V : P [2, 3] as bitaos(58, row)");
    expect_irregular(__LINE__, "view V : P [2, 2, 2] as soa(multi, col)");
}

/* Each pointer of each call, NULL in turn. */
static void null_is_answered(void) {
    lly_view view = LLY_NONE, other = LLY_NONE;
    lly_fault fault = UNTOUCHED;
    const uint8_t *const none = NULL, *at = NULL;
    lly_places places;
    uint8_t bytes[1];
    uint64_t index[1] = {0}, row = 0, naturals[1] = {0};
    int64_t values[1] = {0};
    uint32_t bits = 0;
    bool sign = false;
    size_t size = 0;
    make(&view, RECORD, LINE);
    EXPECT(lly_new(NULL, TEXT(RECORD), TEXT(LINE), &fault), LLY_NULL);
    EXPECT(lly_new(&view, none, 1, TEXT(LINE), &fault), LLY_NULL);
    EXPECT(lly_new(&view, TEXT(RECORD), none, 1, &fault), LLY_NULL);
    EXPECT(lly_new(&view, TEXT(RECORD), TEXT(LINE), NULL), LLY_NULL);
    EXPECT(lly_new(&view, none, 0, none, 0, &fault), LLY_OTHER_LINE);
    fault = UNTOUCHED;
    EXPECT(lly_load(NULL, TEXT(RECORD), TEXT(LINE), none, 0, &fault), LLY_NULL);
    EXPECT(lly_load(&view, none, 1, TEXT(LINE), none, 0, &fault), LLY_NULL);
    EXPECT(lly_load(&view, TEXT(RECORD), none, 1, none, 0, &fault), LLY_NULL);
    EXPECT(lly_load(&view, TEXT(RECORD), TEXT(LINE), none, 1, &fault), LLY_NULL);
    EXPECT(lly_load(&view, TEXT(RECORD), TEXT(LINE), none, 0, NULL), LLY_NULL);
    EXPECT(lly_open(NULL, none, 0, &fault), LLY_NULL);
    EXPECT(lly_open(&view, none, 1, &fault), LLY_NULL);
    EXPECT(lly_open(&view, none, 0, NULL), LLY_NULL);
    EXPECT(lly_rows(NULL, &row), LLY_NULL);
    EXPECT(lly_rows(&view, NULL), LLY_NULL);
    EXPECT(lly_leaves(NULL, &size), LLY_NULL);
    EXPECT(lly_leaves(&view, NULL), LLY_NULL);
    EXPECT(lly_blobs(NULL, &size), LLY_NULL);
    EXPECT(lly_blobs(&view, NULL), LLY_NULL);
    EXPECT(lly_row(NULL, index, 1, &row), LLY_NULL);
    EXPECT(lly_row(&view, NULL, 1, &row), LLY_NULL);
    EXPECT(lly_row(&view, index, 1, NULL), LLY_NULL);
    EXPECT(lly_leaf(NULL, none, 0, &size), LLY_NULL);
    EXPECT(lly_leaf(&view, none, 1, &size), LLY_NULL);
    EXPECT(lly_leaf(&view, none, 0, NULL), LLY_NULL);
    EXPECT(lly_extents(NULL, naturals, 1, &size), LLY_NULL);
    EXPECT(lly_extents(&view, NULL, 1, &size), LLY_NULL);
    EXPECT(lly_extents(&view, naturals, 1, NULL), LLY_NULL);
    EXPECT(lly_path(NULL, 0, bytes, 1, &size), LLY_NULL);
    EXPECT(lly_path(&view, 0, NULL, 1, &size), LLY_NULL);
    EXPECT(lly_path(&view, 0, bytes, 1, NULL), LLY_NULL);
    EXPECT(lly_type(NULL, 0, &bits, &sign), LLY_NULL);
    EXPECT(lly_type(&view, 0, NULL, &sign), LLY_NULL);
    EXPECT(lly_type(&view, 0, &bits, NULL), LLY_NULL);
    EXPECT(lly_counts(NULL, 0, naturals, &row), LLY_NULL);
    EXPECT(lly_counts(&view, 0, NULL, &row), LLY_NULL);
    EXPECT(lly_counts(&view, 0, naturals, NULL), LLY_NULL);
    EXPECT(lly_get(NULL, 0, 0, values), LLY_NULL);
    EXPECT(lly_get(&view, 0, 0, NULL), LLY_NULL);
    EXPECT(lly_get_u64(NULL, 0, 3, naturals), LLY_NULL);
    EXPECT(lly_get_u64(&view, 0, 3, NULL), LLY_NULL);
    EXPECT(lly_set(NULL, 0, 0, 1), LLY_NULL);
    EXPECT(lly_set_u64(NULL, 0, 0, 1), LLY_NULL);
    EXPECT(lly_get_run(NULL, 0, 0, values, 1), LLY_NULL);
    EXPECT(lly_get_run(&view, 0, 0, NULL, 1), LLY_NULL);
    EXPECT(lly_get_run_u64(NULL, 0, 3, naturals, 1), LLY_NULL);
    EXPECT(lly_get_run_u64(&view, 0, 3, NULL, 1), LLY_NULL);
    EXPECT(lly_set_run(NULL, 0, 0, values, 1, &fault), LLY_NULL);
    EXPECT(lly_set_run(&view, 0, 0, NULL, 1, &fault), LLY_NULL);
    EXPECT(lly_set_run(&view, 0, 0, values, 1, NULL), LLY_NULL);
    EXPECT(lly_set_run_u64(NULL, 0, 3, naturals, 1, &fault), LLY_NULL);
    EXPECT(lly_set_run_u64(&view, 0, 3, NULL, 1, &fault), LLY_NULL);
    EXPECT(lly_set_run_u64(&view, 0, 3, naturals, 1, NULL), LLY_NULL);
    EXPECT(lly_get_run_as(NULL, 0, 0, 8, true, bytes, 1), LLY_NULL);
    EXPECT(lly_get_run_as(&view, 0, 0, 8, true, NULL, 1), LLY_NULL);
    EXPECT(lly_set_run_as(NULL, 0, 0, 8, true, bytes, 1, &fault), LLY_NULL);
    EXPECT(lly_set_run_as(&view, 0, 0, 8, true, NULL, 1, &fault), LLY_NULL);
    EXPECT(lly_set_run_as(&view, 0, 0, 8, true, bytes, 1, NULL), LLY_NULL);
    EXPECT(lly_gather(NULL, naturals, 1, 0, values), LLY_NULL);
    EXPECT(lly_gather(&view, NULL, 1, 0, values), LLY_NULL);
    EXPECT(lly_gather(&view, naturals, 1, 0, NULL), LLY_NULL);
    EXPECT(lly_gather_u64(NULL, naturals, 1, 3, naturals), LLY_NULL);
    EXPECT(lly_gather_u64(&view, NULL, 1, 3, naturals), LLY_NULL);
    EXPECT(lly_gather_u64(&view, naturals, 1, 3, NULL), LLY_NULL);
    EXPECT(lly_scatter(NULL, naturals, 1, 0, values, &fault), LLY_NULL);
    EXPECT(lly_scatter(&view, NULL, 1, 0, values, &fault), LLY_NULL);
    EXPECT(lly_scatter(&view, naturals, 1, 0, NULL, &fault), LLY_NULL);
    EXPECT(lly_scatter(&view, naturals, 1, 0, values, NULL), LLY_NULL);
    EXPECT(lly_scatter_u64(NULL, naturals, 1, 3, naturals, &fault), LLY_NULL);
    EXPECT(lly_scatter_u64(&view, NULL, 1, 3, naturals, &fault), LLY_NULL);
    EXPECT(lly_scatter_u64(&view, naturals, 1, 3, NULL, &fault), LLY_NULL);
    EXPECT(lly_scatter_u64(&view, naturals, 1, 3, naturals, NULL), LLY_NULL);
    EXPECT(lly_scatter_add(NULL, naturals, 1, 0, values, &fault), LLY_NULL);
    EXPECT(lly_scatter_add(&view, NULL, 1, 0, values, &fault), LLY_NULL);
    EXPECT(lly_scatter_add(&view, naturals, 1, 0, NULL, &fault), LLY_NULL);
    EXPECT(lly_scatter_add(&view, naturals, 1, 0, values, NULL), LLY_NULL);
    EXPECT(lly_get_box(NULL, naturals, naturals, 1, 0, values, 1), LLY_NULL);
    EXPECT(lly_get_box(&view, NULL, naturals, 1, 0, values, 1), LLY_NULL);
    EXPECT(lly_get_box(&view, naturals, NULL, 1, 0, values, 1), LLY_NULL);
    EXPECT(lly_get_box(&view, naturals, naturals, 1, 0, NULL, 1), LLY_NULL);
    EXPECT(lly_get_box_u64(NULL, naturals, naturals, 1, 3, naturals, 1), LLY_NULL);
    EXPECT(lly_get_box_u64(&view, NULL, naturals, 1, 3, naturals, 1), LLY_NULL);
    EXPECT(lly_get_box_u64(&view, naturals, NULL, 1, 3, naturals, 1), LLY_NULL);
    EXPECT(lly_get_box_u64(&view, naturals, naturals, 1, 3, NULL, 1), LLY_NULL);
    EXPECT(lly_set_box(NULL, naturals, naturals, 1, 0, values, 1, &fault), LLY_NULL);
    EXPECT(lly_set_box(&view, NULL, naturals, 1, 0, values, 1, &fault), LLY_NULL);
    EXPECT(lly_set_box(&view, naturals, NULL, 1, 0, values, 1, &fault), LLY_NULL);
    EXPECT(lly_set_box(&view, naturals, naturals, 1, 0, NULL, 1, &fault), LLY_NULL);
    EXPECT(lly_set_box(&view, naturals, naturals, 1, 0, values, 1, NULL), LLY_NULL);
    EXPECT(lly_set_box_u64(NULL, naturals, naturals, 1, 3, naturals, 1, &fault), LLY_NULL);
    EXPECT(lly_set_box_u64(&view, NULL, naturals, 1, 3, naturals, 1, &fault), LLY_NULL);
    EXPECT(lly_set_box_u64(&view, naturals, NULL, 1, 3, naturals, 1, &fault), LLY_NULL);
    EXPECT(lly_set_box_u64(&view, naturals, naturals, 1, 3, NULL, 1, &fault), LLY_NULL);
    EXPECT(lly_set_box_u64(&view, naturals, naturals, 1, 3, naturals, 1, NULL), LLY_NULL);
    EXPECT(lly_copy(NULL, &other, &fault), LLY_NULL);
    EXPECT(lly_copy(&view, NULL, &fault), LLY_NULL);
    EXPECT(lly_copy(&view, &other, NULL), LLY_NULL);
    EXPECT(lly_relayout(NULL, none, 0, &fault), LLY_NULL);
    EXPECT(lly_relayout(&view, none, 1, &fault), LLY_NULL);
    EXPECT(lly_relayout(&view, none, 0, NULL), LLY_NULL);
    EXPECT(lly_kernel(NULL, none, 0, values, &fault), LLY_NULL);
    EXPECT(lly_kernel(&view, none, 1, values, &fault), LLY_NULL);
    EXPECT(lly_kernel(&view, none, 0, NULL, &fault), LLY_NULL);
    EXPECT(lly_kernel(&view, none, 0, values, NULL), LLY_NULL);
    EXPECT(lly_do(NULL, none, 0, values, &fault), LLY_NULL);
    EXPECT(lly_do(&view, none, 1, values, &fault), LLY_NULL);
    EXPECT(lly_do(&view, none, 0, NULL, &fault), LLY_NULL);
    EXPECT(lly_do(&view, none, 0, values, NULL), LLY_NULL);
    EXPECT(lly_tell(NULL, none, 0, bytes, 1, &size, &fault), LLY_NULL);
    EXPECT(lly_tell(&view, none, 1, bytes, 1, &size, &fault), LLY_NULL);
    EXPECT(lly_tell(&view, none, 0, NULL, 1, &size, &fault), LLY_NULL);
    EXPECT(lly_tell(&view, none, 0, bytes, 1, NULL, &fault), LLY_NULL);
    EXPECT(lly_tell(&view, none, 0, bytes, 1, &size, NULL), LLY_NULL);
    EXPECT(lly_print(NULL, bytes, 1, &size), LLY_NULL);
    EXPECT(lly_print(&view, NULL, 1, &size), LLY_NULL);
    EXPECT(lly_print(&view, bytes, 1, NULL), LLY_NULL);
    EXPECT(lly_save(NULL, bytes, 1, &size), LLY_NULL);
    EXPECT(lly_save(&view, NULL, 1, &size), LLY_NULL);
    EXPECT(lly_save(&view, bytes, 1, NULL), LLY_NULL);
    EXPECT(lly_blob(NULL, 0, bytes, 1, &size), LLY_NULL);
    EXPECT(lly_blob(&view, 0, NULL, 1, &size), LLY_NULL);
    EXPECT(lly_blob(&view, 0, bytes, 1, NULL), LLY_NULL);
    EXPECT(lly_record(NULL, bytes, 1, &size), LLY_NULL);
    EXPECT(lly_record(&view, NULL, 1, &size), LLY_NULL);
    EXPECT(lly_record(&view, bytes, 1, NULL), LLY_NULL);
    EXPECT(lly_layout(NULL, bytes, 1, &size), LLY_NULL);
    EXPECT(lly_layout(&view, NULL, 1, &size), LLY_NULL);
    EXPECT(lly_layout(&view, bytes, 1, NULL), LLY_NULL);
    EXPECT(lly_lend(NULL, bytes, 1, &size), LLY_NULL);
    EXPECT(lly_lend(&view, NULL, 1, &size), LLY_NULL);
    EXPECT(lly_lend(&view, bytes, 1, NULL), LLY_NULL);
    EXPECT(lly_return(NULL, bytes, 1, &fault), LLY_NULL);
    EXPECT(lly_return(&view, NULL, 1, &fault), LLY_NULL);
    EXPECT(lly_return(&view, bytes, 1, NULL), LLY_NULL);
    EXPECT(lly_message(LLY_RANGE, NULL, bytes, 1, &size), LLY_NULL);
    EXPECT(lly_message(LLY_RANGE, &fault, NULL, 1, &size), LLY_NULL);
    EXPECT(lly_message(LLY_RANGE, &fault, bytes, 1, NULL), LLY_NULL);
    EXPECT(lly_place(NULL, 0, &places, &fault), LLY_NULL);
    EXPECT(lly_place(&view, 0, NULL, &fault), LLY_NULL);
    EXPECT(lly_place(&view, 0, &places, NULL), LLY_NULL);
    EXPECT(lly_blob_at(NULL, 0, &at, &size), LLY_NULL);
    EXPECT(lly_blob_at(&view, 0, NULL, &size), LLY_NULL);
    EXPECT(lly_blob_at(&view, 0, &at, NULL), LLY_NULL);
    EXPECT_NO_FAULT();
    lly_drop(NULL);
    EXPECT(lly_rows(&view, &row), LLY_DONE);
    EXPECT(row, 6);
    lly_drop(&view);
}

int main(void) {
    EXPECT(lly_version(), LLY_VERSION);
    views_are_refused();
    datasets_are_loaded();
    places_are_found();
    views_say_what_they_are();
    values_are_read_and_stored();
    runs_of_each_width();
    runs_are_read_and_stored();
    lists_of_rows_are_read_and_stored();
    boxes_are_read_and_stored();
    tables_are_copied();
    tables_are_laid_anew();
    kernels_run();
    lines_are_done();
    rounds_and_turns_are_done();
    lines_are_told();
    answers_have_words();
    bytes_are_copied_out();
    bytes_are_lent();
    numbers_are_read_by_places();
    null_is_answered();
    return differs;
}
