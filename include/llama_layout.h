/* llama_layout.h: views of llama for C, C++ and what calls C.
 *
 * A view is a table of whole numbers: a row for each index of an array, and in it a number for each leaf of a record. How the numbers lie in
 * memory is written in a line of the script language; docs/LANGUAGE.md has it.
 *
 *     lly_view view = LLY_NONE;
 *     lly_fault fault = LLY_NO_FAULT;
 *     if (lly_new(&view, record, strlen(record), line, strlen(line), &fault) != LLY_DONE) { .. fault.column .. }
 *
 * What each call owes is proved of the library. What the caller owes:
 * - A handle is LLY_NONE, or was left by the last call on it. It is never copied while it holds a view, and never changed by hand: two
 *   copies would free the view twice. lly_drop lets its view go.
 * - An array or a text has at least as many elements as its length says. No two arguments of a call overlap.
 * - There is one call at a time with a handle, on the thread that made its view. Views on other threads are independent. No call is made from a
 *   signal handler, or in the forked child of a process with threads.
 * - Memory comes from the program's malloc, realloc and free, which are of one allocator.
 *
 * A pointer that is NULL is answered by LLY_NULL, and nothing changes; a text or an array of length 0 may be NULL.
 *
 * A text is bytes with a length, not ended by 0. Lines are those of the second version of the language, whole, of at most 4,096 bytes. Rows,
 * leaves and blobs count from 0: leaf 0 is the first of the record. Memory is taken by lly_new, lly_load, lly_open, lly_relayout,
 * lly_kernel, lly_do, lly_tell, lly_print, lly_save, lly_record, lly_layout, lly_return and lly_message alone; each may answer LLY_NO_MEMORY, and then
 * changes nothing but counts of accesses. A call takes at most 64 KiB of stack, whatever text it is handed: this is measured, not proved.
 * Each call but lly_drop and lly_version answers a number below, and changes nothing but what it says.
 */
#ifndef LLAMA_LAYOUT_H
#define LLAMA_LAYOUT_H

#include <stdbool.h>
#include <stddef.h>
#include <stdint.h>

#ifdef __cplusplus
extern "C" {
#endif

/* The version of this header, 1.2.0. lly_version gives that of the library, which fits where the first of the three numbers is the same: version / 10000.
 * The shared library has it in its name and in those of its calls, so that no program is started with one that does not fit.
 */
#define LLY_VERSION 10200

/* A view, or none: then full is false, and the rest means nothing. */
typedef struct lly_view {
    bool full;
    void *at;
} lly_view;

/* A handle that holds no view: all zeros. */
#define LLY_NONE { false, NULL }

/* What a call answers. */
enum {
    LLY_DONE = 0,
    LLY_NO_VIEW = 1,         /* the handle holds no view */
    LLY_NO_PLACE = 2,        /* there is no such row, leaf, blob, path or index */
    LLY_NO_MEMORY = 3,       /* memory ran out */
    LLY_NO_ROOM = 4,         /* the buffer is too short: *needed says how long it has to be */
    LLY_BAD_TYPE = 5,        /* a number, or some value of the leaf's type, is none of the caller's type */
    LLY_RANGE = 6,           /* the value lies outside of the declared range of its leaf, and the view is strict: row, leaf */
    LLY_NARROW = 7,          /* it lies in that range and not in the range of how its leaf is stored, and the view is strict: row, leaf */
    LLY_MISMATCH = 8,        /* the views have other records or other extents */
    LLY_SYNTAX = 9,          /* a text is no line, from its column on: cause, column */
    LLY_TOO_DEEP = 10,       /* an expression in a text is more than 32 deep: cause */
    LLY_OTHER_LINE = 11,     /* a text is a line of another command: cause */
    LLY_LINE_TOO_LONG = 12,  /* a text has more than 4,096 bytes: cause */
    LLY_UNKNOWN = 13,        /* a name or a path stands in a text that names nothing */
    LLY_BAD_RECORD = 14,     /* the record is refused: cause */
    LLY_BAD_EXTENTS = 15,    /* the extents are refused: cause */
    LLY_BAD_MAPPING = 16,    /* the mapping is refused: cause */
    LLY_TOO_BIG = 17,        /* a limit is passed: 2^24 rows, 2^28 bytes of a view or a dataset, 4,096 bytes of a text of a file's header */
    LLY_BAD_KERNEL = 18,     /* the kernel is refused: cause */
    LLY_EMPTY = 19,          /* there is no row, so no least and no greatest value */
    LLY_MISSING_COLUMN = 20, /* no column of the dataset names the leaf: leaf */
    LLY_COLUMN_TWICE = 21,   /* two columns of the dataset name the leaf: leaf */
    LLY_SHORT_ROW = 22,      /* the row of the dataset has no field in the leaf's column: row, leaf */
    LLY_NUMBER = 23,         /* the field of the dataset is no number: row, leaf */
    LLY_BAD_FILE = 24,       /* the bytes are no file of a view: cause */
    LLY_NULL = 25,           /* a pointer is NULL */
    LLY_SAME = 26,           /* both handles are one */
    LLY_TWICE = 27,          /* an update sets the leaf a second time: leaf */
    LLY_OVERFLOW = 28,       /* a result of an expression lies outside of 128 bits: row */
    LLY_DIVIDE_BY_ZERO = 29, /* a divisor in an expression is 0: row */
    LLY_NOT_COUNTED = 30,    /* the view counts no accesses */
    LLY_BAD_WINDOW = 31,     /* the spans are no window of the extents */
    LLY_IRREGULAR = 32,      /* the numbers of the leaf lie as no lly_places says, or accesses to them are counted: leaf */
    LLY_BAD_STENCIL = 33,    /* the stencil is refused: cause */
    LLY_BAD_ACTORS = 34,     /* the rows are not shared out among actors: cause */
    LLY_BAD_ADVICE = 35,     /* no layout is advised: cause */
    LLY_SHARED_BYTE = 36     /* a byte holds bits of rows of two actors: row is its blob, column its place there, from 0 */
};

/* The cause in a fault of LLY_SYNTAX, LLY_TOO_DEEP, LLY_OTHER_LINE and LLY_LINE_TOO_LONG: which text of the call it is. */
enum { LLY_TEXT_FIRST = 1, LLY_TEXT_SECOND = 2 };

/* That of LLY_BAD_RECORD. */
enum {
    LLY_RECORD_TOO_DEEP = 1,       /* fields and arrays nest more than 8 deep */
    LLY_RECORD_EMPTY = 2,          /* some record has no field */
    LLY_RECORD_TWICE = 3,          /* two fields of one record share a name */
    LLY_RECORD_NO_ELEMENTS = 4,    /* some array has no element */
    LLY_RECORD_TOO_MANY_LEAVES = 5 /* there are more than 64 leaves */
};

/* That of LLY_BAD_EXTENTS. */
enum {
    LLY_EXTENTS_RANK = 1,             /* there are not 1 to 4 extents */
    LLY_EXTENTS_TWO_ROWS = 2,         /* two extents are written `?` */
    LLY_EXTENTS_ROWS_BESIDE_ZERO = 3, /* an extent is 0 beside one that is written `?` */
    LLY_EXTENTS_NOT_DIVISIBLE = 4,    /* the other extents do not divide the number of rows of the dataset */
    LLY_EXTENTS_NOT_EQUAL = 5,        /* the extents have another number of rows than the dataset */
    LLY_EXTENTS_TOO_MANY = 6          /* there are more than 2^24 rows */
};

/* That of LLY_BAD_MAPPING. */
enum {
    LLY_MAPPING_TOO_DEEP = 1, /* the mapping nests more than 8 deep, counters left out */
    LLY_MAPPING_COUNTER = 2,  /* a counter stands below a node that is none, or twice */
    LLY_MAPPING_LANES = 3,    /* the lanes are not 1 to 64 */
    LLY_MAPPING_WIDTH = 4,    /* a width is not 1 to 64 */
    LLY_MAPPING_GRANULE = 5,  /* the granule is no power of two from 1 to 4,096 */
    LLY_MAPPING_SIDE = 6,     /* one side of a split has no leaf */
    LLY_MAPPING_FIELD = 7,    /* a width is said of a path that no leaf is under */
    LLY_MAPPING_NOT_FULL = 8  /* a leaf below byteswap or bytesplit is not stored as its type is */
};

/* That of LLY_BAD_KERNEL. */
enum {
    LLY_KERNEL_LANES = 1,   /* the lanes are not 1, 2, 4, 8 or 16 */
    LLY_KERNEL_WIDE = 2,    /* the type of a leaf has more than 32 bits */
    LLY_KERNEL_CONSTANT = 3 /* a constant lies outside of its range, or the least is above the greatest */
};

/* That of LLY_BAD_FILE, in the order in which they are looked for. */
enum {
    LLY_FILE_MAGIC = 1,   /* the first eight bytes are not those of a file */
    LLY_FILE_HEADER = 2,  /* behind them there is no header */
    LLY_FILE_LAYOUT = 3,  /* no view is made of the header */
    LLY_FILE_LENGTH = 4,  /* the bytes behind the header are not as many as those of the blobs */
    LLY_FILE_CONTENTS = 5 /* they are not the image of rows that such a view may hold */
};

/* That of LLY_BAD_STENCIL. */
enum {
    LLY_STENCIL_REACH = 1,  /* offsets have another rank or are out of range, or from some row of the window they reach outside the extents */
    LLY_STENCIL_WEIGHT = 2, /* a weight or the divisor is out of range */
    LLY_STENCIL_TERMS = 3,  /* there are more than 64 terms */
    LLY_STENCIL_ROUNDS = 4  /* there are more than 1,000 rounds */
};

/* That of LLY_BAD_ACTORS. */
enum {
    LLY_ACTORS_CUTS = 1, /* there are more than 63 cuts, they fall somewhere, or one is over the number of rows */
    LLY_ACTORS_TURNS = 2 /* there are more than 2^20 turns */
};

/* That of LLY_BAD_ADVICE. */
enum {
    LLY_ADVICE_GRANULE = 1,   /* the granule is no power of two from 1 to 4,096 */
    LLY_ADVICE_PASSES = 2,    /* there are more than 16 passes */
    LLY_ADVICE_CANDIDATES = 3 /* there are more than 16 candidates */
};

/* Where and why a call was refused, beside its answer. A refusal other than LLY_NULL and LLY_SAME sets all of it, what its answer does not
 * name to 0; a call that is done leaves it as it was. Rows of a dataset count from 0 behind its header, and columns of a text from 1.
 */
typedef struct lly_fault {
    int32_t cause;
    uint64_t row;
    size_t leaf;
    uint64_t column;
} lly_fault;

#define LLY_NO_FAULT { 0, 0, 0, 0 }

/* The version of the library. */
int32_t lly_version(void);

/* ---- Views that are made. Each lets go what the handle held before, where it is done; on a refusal the handle stays as it was. */

/* A view of zeros. The first text is a line `record P { .. }`, and the second a line `view V : P [..] as ..`: what they mean in a script of these
 * two lines. No name of a mapping is known. */
int32_t lly_new(lly_view *out, const uint8_t *first, size_t first_len, const uint8_t *second, size_t second_len, lly_fault *fault);

/* A view of a dataset: CSV with a header that names the leaves by their paths, in any order and beside other columns. The second text is a line
 * `load V : P [..] as .. from ".."`, of which the file is not looked at: the dataset stands in memory. One extent may be `?`, and stands for what
 * the rows of the dataset leave. */
int32_t lly_load(lly_view *out, const uint8_t *first, size_t first_len, const uint8_t *second, size_t second_len, const uint8_t *csv,
                   size_t csv_len, lly_fault *fault);

/* The view of which the bytes are the file, as lly_save makes them and the command `save` writes them. */
int32_t lly_open(lly_view *out, const uint8_t *bytes, size_t bytes_len, lly_fault *fault);

/* Lets the view go, if there is one, and leaves LLY_NONE. */
void lly_drop(lly_view *view);

/* ---- Where things are. */

/* How many rows the view has, how many leaves its record, and in how many blobs it lies. */
int32_t lly_rows(lly_view *view, uint64_t *rows);
int32_t lly_leaves(lly_view *view, size_t *leaves);
int32_t lly_blobs(lly_view *view, size_t *blobs);

/* The row of an index, which has as many numbers as the array has extents: its place in the lexicographic list of the indices, in which the last
 * number runs fastest. LLY_NO_PLACE where there is none, and *row stays as it was. */
int32_t lly_row(lly_view *view, const uint64_t *index, size_t rank, uint64_t *row);

/* The leaf of a path, as `pos.x` or `h[2]`. LLY_NO_PLACE where there is none, and *leaf stays as it was. */
int32_t lly_leaf(lly_view *view, const uint8_t *path, size_t path_len, size_t *leaf);

/* The extents of the array, as many as an index has numbers. *needed is set to how many; LLY_NO_ROOM where rank is less, and the array stays as it was. */
int32_t lly_extents(lly_view *view, uint64_t *extents, size_t rank, size_t *needed);

/* The path of a leaf, as lly_leaf takes it and the first line of lly_print has it, copied into a buffer as below. LLY_NO_PLACE where there is no such leaf. */
int32_t lly_path(lly_view *view, size_t leaf, uint8_t *path, size_t path_len, size_t *needed);

/* The type of a leaf: how many bits a value has, 1 for a `bool`, and whether there is a sign. LLY_NO_PLACE where there is no such leaf, and both stay. */
int32_t lly_type(lly_view *view, size_t leaf, uint32_t *bits, bool *sign);

/* How often a leaf was read and written, as `counts` shows it. LLY_NO_PLACE where there is no such leaf or the layout has no `count`, and both stay. */
int32_t lly_counts(lly_view *view, size_t leaf, uint64_t *reads, uint64_t *writes);

/* ---- One value. */

/* The value of a leaf in a row. LLY_NO_PLACE where there is no such row or leaf; LLY_BAD_TYPE where the leaf is a `u64`. On a refusal *value
 * stays as it was. A view that counts accesses counts a read.
 */
int32_t lly_get(lly_view *view, uint64_t row, size_t leaf, int64_t *value);

/* The same, for a leaf without a sign. LLY_BAD_TYPE where the leaf is an `i8`, `i16`, `i32` or `i64`. */
int32_t lly_get_u64(lly_view *view, uint64_t row, size_t leaf, uint64_t *value);

/* Makes the value of a leaf in a row this one. A strict view answers LLY_RANGE or LLY_NARROW where it does not fit, and changes nothing; a
 * view whose line has the word `wrap` keeps the low bits that fit. A view that counts accesses counts a write.
 */
int32_t lly_set(lly_view *view, uint64_t row, size_t leaf, int64_t value);

/* The same, of a value without a sign. */
int32_t lly_set_u64(lly_view *view, uint64_t row, size_t leaf, uint64_t value);

/* ---- One leaf of many rows, to and from an array: the fast way. How the values are stored is asked once for many rows. */

/* The values of a leaf in the rows first, first + 1 and so on, as many as the array is long: values[k] is that of row first + k. It answers as
 * lly_get does, LLY_NO_PLACE also where there are not so many rows, and on a refusal the array stays as it was. A view that counts accesses
 * counts a read of each.
 */
int32_t lly_get_run(lly_view *view, uint64_t first, size_t leaf, int64_t *values, size_t count);
int32_t lly_get_run_u64(lly_view *view, uint64_t first, size_t leaf, uint64_t *values, size_t count);

/* Makes the values of a leaf in these rows those of the array. It answers as lly_set does, LLY_NO_PLACE also where there are not so many
 * rows. A strict view that does not take a value has those before it; fault->row and fault->leaf are those of this value.
 */
int32_t lly_set_run(lly_view *view, uint64_t first, size_t leaf, const int64_t *values, size_t count, lly_fault *fault);
int32_t lly_set_run_u64(lly_view *view, uint64_t first, size_t leaf, const uint64_t *values, size_t count, lly_fault *fault);

/* The same of numbers of another width: bits is 8, 16, 32 or 64, sign says whether there is one, and the numbers are as many as fill the bytes, one after another,
 * the least significant byte of each first. LLY_BAD_TYPE where bits is none of these, and of a read also where some value of the leaf's type is no such number.
 * LLY_NO_PLACE also where the bytes are no whole number of numbers.
 */
int32_t lly_get_run_as(lly_view *view, uint64_t first, size_t leaf, uint32_t bits, bool sign, uint8_t *bytes, size_t bytes_len);
int32_t lly_set_run_as(lly_view *view, uint64_t first, size_t leaf, uint32_t bits, bool sign, const uint8_t *bytes, size_t bytes_len, lly_fault *fault);

/* The same of arrays by their types: lly_get_run_i8, lly_set_run_i8 and so on. `_f64` carries the bits of a double in a `u64` leaf, and `_f32` those of a float in a
 * `u32` leaf: copies, layouts, files and places keep them as they are, but expressions, kernels and texts see whole numbers. To compute with fractions store them in
 * fixed point, as whole numbers of a small unit.
 */
#define LLY_RUN_OF(name, type, bits, sign)                                                                                                       \
    static inline int32_t lly_get_run_##name(lly_view *view, uint64_t first, size_t leaf, type *values, size_t count) {                           \
        return lly_get_run_as(view, first, leaf, bits, sign, (uint8_t *)values, count * sizeof *values);                                          \
    }                                                                                                                                             \
    static inline int32_t lly_set_run_##name(lly_view *view, uint64_t first, size_t leaf, const type *values, size_t count, lly_fault *fault) {   \
        return lly_set_run_as(view, first, leaf, bits, sign, (const uint8_t *)values, count * sizeof *values, fault);                             \
    }
LLY_RUN_OF(i8, int8_t, 8, true)
LLY_RUN_OF(i16, int16_t, 16, true)
LLY_RUN_OF(i32, int32_t, 32, true)
LLY_RUN_OF(u8, uint8_t, 8, false)
LLY_RUN_OF(u16, uint16_t, 16, false)
LLY_RUN_OF(u32, uint32_t, 32, false)
LLY_RUN_OF(f32, float, 32, false)
LLY_RUN_OF(f64, double, 64, false)
#undef LLY_RUN_OF

/* ---- One leaf of the rows of a list: values[k] is that of row rows[k], and both arrays have count elements. A row may stand in the list more than
 * once. All rows are tested before one is read or stored: LLY_NO_PLACE where some row or the leaf is none, and nothing changes. */

/* The values of a leaf in these rows. Else it answers as lly_get does, and on a refusal the array stays as it was. A view that counts accesses counts a
 * read for each element of the list.
 */
int32_t lly_gather(lly_view *view, const uint64_t *rows, size_t count, size_t leaf, int64_t *values);
int32_t lly_gather_u64(lly_view *view, const uint64_t *rows, size_t count, size_t leaf, uint64_t *values);

/* Stores each value in its row as lly_set does, in the order of the list: in a row that stands there twice the later value is left. A strict view
 * that does not take a value has exactly those before it; fault->row and fault->leaf are those of this value.
 */
int32_t lly_scatter(lly_view *view, const uint64_t *rows, size_t count, size_t leaf, const int64_t *values, lly_fault *fault);
int32_t lly_scatter_u64(lly_view *view, const uint64_t *rows, size_t count, size_t leaf, const uint64_t *values, lly_fault *fault);

/* Adds each value to what stands in its row, in the order of the list: to a row that stands there twice both are added. The leaf may have any type. A sum
 * is one of whole numbers of any size, and is then stored as by lly_scatter: a strict view refuses one that does not fit, and a view whose line has
 * the word `wrap` keeps its low bits. A view that counts accesses counts a read and a write for each value, and for one that is refused the read.
 */
int32_t lly_scatter_add(lly_view *view, const uint64_t *rows, size_t count, size_t leaf, const int64_t *values, lly_fault *fault);

/* ---- One leaf of the rows of a box: of those whose index has low[d] <= index[d] < high[d] for each extent d, in their order, so the last component of
 * the index runs fastest. A box with low[d] == high[d] has no row. LLY_BAD_WINDOW where rank is not the number of the extents, or a low bound is above its
 * high one, or a high one above its extent; then LLY_NO_PLACE where the leaf is none, or count is not the number of rows; and nothing changes. */

/* The values of a leaf in these rows, as lly_gather gives them. */
int32_t lly_get_box(lly_view *view, const uint64_t *low, const uint64_t *high, size_t rank, size_t leaf, int64_t *values, size_t count);
int32_t lly_get_box_u64(lly_view *view, const uint64_t *low, const uint64_t *high, size_t rank, size_t leaf, uint64_t *values, size_t count);

/* Stores values in these rows, as lly_scatter does. */
int32_t lly_set_box(lly_view *view, const uint64_t *low, const uint64_t *high, size_t rank, size_t leaf, const int64_t *values, size_t count,
                    lly_fault *fault);
int32_t lly_set_box_u64(lly_view *view, const uint64_t *low, const uint64_t *high, size_t rank, size_t leaf, const uint64_t *values, size_t count,
                        lly_fault *fault);

/* ---- Whole tables. */

/* Makes the table of the target that of the source, of each value what the target keeps; their layouts may differ. LLY_MISMATCH where their
 * records or their extents differ, and nothing changes. LLY_NARROW where a strict target does not hold a value: fault->row and fault->leaf are
 * those of the first such, by rows and then leaves, and exactly the rows before it are copied. LLY_SAME where both handles are one.
 */
int32_t lly_copy(lly_view *source, lly_view *target, lly_fault *fault);

/* Lays the table of the view out anew, as a line `relayout V as ..` says; the name of the view in it may be any. It refuses a mapping as lly_new
 * does. LLY_NARROW where the new layout does not hold a value of a strict view. On a refusal the view stays as it was, but for what it counts.
 */
int32_t lly_relayout(lly_view *view, const uint8_t *line, size_t line_len, lly_fault *fault);

/* Runs a kernel over the rows, as a line `kernel V .. lanes N` says; the name of the view in it may be any. A sum, a least or greatest value or a
 * count goes to *value; for the other kernels it stays as it was. LLY_RANGE or LLY_NARROW where a strict view does not take a value to store:
 * fault->row is the first such row, and exactly the rows before it are changed.
 */
int32_t lly_kernel(lly_view *view, const uint8_t *line, size_t line_len, int64_t *value, lly_fault *fault);

/* ---- Lines of a script. A call does what the command of its line does in a script that has nothing but this view, by the name that the line gives
 * it: so any name will do, and no mapping has one. */

/* Does a line `set V[..].path = ..`, `update V ..`, with actors too, `reduce V ..`, `kernel V .. lanes N`, `stencil V ..` or `relayout V as ..`. The number
 * that the command writes goes to *number; where it writes none, that stays as it was, and where it is no int64_t the answer is LLY_BAD_TYPE. The memory
 * that an update by actors shows is not told. LLY_RANGE, LLY_NARROW, LLY_OVERFLOW and LLY_DIVIDE_BY_ZERO name the first row that is refused: an update
 * without actors and a kernel have changed exactly the rows before it, and a stencil has made the rounds before that one. Every other refusal
 * leaves all values as they were; what was read up to it may be counted. `relayout` makes the new table beside the old one, as in a script. Other lines
 * are LLY_OTHER_LINE: `copy` has a call of its own.
 */
int32_t lly_do(lly_view *view, const uint8_t *line, size_t line_len, int64_t *number, lly_fault *fault);

/* Puts what a line `print V`, `print V window [..]`, `counts V`, `heat V`, `layout V`, `bytes V B` or `advise V ..` writes into a buffer, as the calls
 * below put bytes there. No value changes. A view that counts accesses counts the reads, also where the buffer is too short. LLY_NO_PLACE where `bytes` names
 * no blob, LLY_TOO_BIG where the blobs that `layout` or `bytes` shows have more than 65,536 bytes.
 */
int32_t lly_tell(lly_view *view, const uint8_t *line, size_t line_len, uint8_t *text, size_t text_len, size_t *needed, lly_fault *fault);

/* ---- Bytes that are copied into a buffer. Each sets *needed to their number, and answers LLY_NO_ROOM where the buffer is shorter; then the
 * buffer stays as it was. So a first call with a length of 0 asks for the length. */

/* The text of the table as CSV, as `print` shows it: a line of the paths of the leaves, and one for each row. A view that counts accesses counts a
 * read of each value, also where the buffer is too short. */
int32_t lly_print(lly_view *view, uint8_t *text, size_t text_len, size_t *needed);

/* The bytes of the file of the view: docs/FILES.md says what they are. LLY_TOO_BIG where a text of its header has more than 4,096 bytes. */
int32_t lly_save(lly_view *view, uint8_t *bytes, size_t bytes_len, size_t *needed);

/* The bytes of a blob, bit for bit what the layout says, with padding 0. */
int32_t lly_blob(lly_view *view, size_t blob, uint8_t *bytes, size_t bytes_len, size_t *needed);

/* The texts of the two lines of which lly_new makes a view of zeros like this one, where neither has more than 4,096 bytes: `record R { .. }` and
 * `view V : R [..] as ..`. So a program can read a file that it has not made. */
int32_t lly_record(lly_view *view, uint8_t *text, size_t text_len, size_t *needed);
int32_t lly_layout(lly_view *view, uint8_t *text, size_t text_len, size_t *needed);

/* The bytes of all blobs, one behind another: each begins at the sum of the lengths of those before it. They are lent: a program changes numbers in them,
 * where lly_place says that they lie, and hands them to lly_return. */
int32_t lly_lend(lly_view *view, uint8_t *bytes, size_t bytes_len, size_t *needed);

/* Makes the table of the view the one of which these are the bytes of the blobs, one behind another. LLY_BAD_FILE with LLY_FILE_LENGTH where they are not as many, and
 * with LLY_FILE_CONTENTS where they are not the image of rows that the view may hold: so a number outside of the declared range of its leaf and a bit of padding that
 * is 1 are found. On a refusal the view stays as it was. A view that counts accesses begins anew, with a write of each value. Bytes that come back as they
 * were lent leave each value as it was. */
int32_t lly_return(lly_view *view, const uint8_t *bytes, size_t bytes_len, lly_fault *fault);

/* The words of an answer and of the fault that came with it, as `Range record 3 leaf 1`: those that a script prints where a script has some, but a leaf
 * is its number and a name is left out. A call without a fault has LLY_NO_FAULT. LLY_NO_PLACE where no call answers so. */
int32_t lly_message(int32_t answer, const lly_fault *fault, uint8_t *text, size_t text_len, size_t *needed);

/* ---- Numbers without a call: where those of a leaf lie is asked once, and a loop reads them. llama_layout_places.h has C that does. What the caller owes:
 * - The bytes are read, and never written: lly_lend has a copy that may be.
 * - They lie where lly_blob_at says until the handle is handed to lly_new, lly_load, lly_open, lly_relayout, lly_return or lly_drop. No other call moves them.
 * - lly_set and its like, lly_copy into the view and lly_kernel change them, so nobody reads while such a call runs. Beside other calls, and where there is none,
 *   any number of threads may read.
 * - Places are used with the blob that they name, of the view that they were told of or a whole copy of it, and for rows of that view.
 * - The machine stores the least significant byte first, as all do for which the library is built.
 */

/* Where the numbers of a leaf lie. Rows go in groups of `lanes`, the last of which may not be full. The number in row r begins at
 *
 *     base + r / lanes * block + r % lanes * lane
 *
 * and where in_digits is true at base + z * block, where z has the binary digits of r / lanes and of r % lanes in turn, those of r % lanes first: Morton order.
 * That is a byte of the blob, or where in_bits is true a bit; bit k of a blob is bit k % 8 of its byte k / 8. The number has `width` bits from there on.
 * Where is_turned is false the least significant come first, else the most significant byte does.
 * Where all rows lie evenly, as under aos and soa, they are one group, and the number in row r begins at base + r * lane.
 *
 * It is proved that in each row these are the places of the mapping, and that what stands there is the number that lly_get reads, whatever numbers the view
 * gets. It is so until another table is put into the handle.
 */
typedef struct lly_places {
    size_t blob;    /* the blob, and how many bytes it has */
    uint64_t bytes;
    uint64_t base;  /* where the number in row 0 begins */
    uint64_t lanes; /* how many rows a group has, at least 1 */
    uint64_t lane;  /* from a row to the next in its group */
    uint64_t block; /* from a group to the next */
    uint32_t width; /* 8, 16, 32 or 64; in bits 1 to 57 */
    bool is_signed; /* the top bit is a sign */
    bool is_turned;
    bool in_bits;
    bool in_digits;
} lly_places;

/* The places of a leaf. LLY_NO_PLACE where there is no such leaf. LLY_IRREGULAR where accesses are counted, where `change` stores the leaf in another sign
 * than that of its type, and where no lly_places say where it lies. Exactly then: so by rows under aos, soa, aosoa, bitaos, bitsoa and byteswap each leaf has
 * places, but for fields of more than 57 bits that are no whole bytes at a byte. Only in Morton order, and of a view without rows, it may be answered though there are some. On a refusal *places
 * stays as it was. It takes no memory. Under most layouts it looks at no row, and else at each.
 */
int32_t lly_place(lly_view *view, size_t leaf, lly_places *places, lly_fault *fault);

/* Where the bytes of a blob lie: *bytes is the first of them, and *length how many they are; of none *bytes is NULL. LLY_NO_PLACE where there is no such
 * blob, and both stay as they were. That *bytes is the address is tested: no contract of the toolchain speaks of addresses.
 */
int32_t lly_blob_at(lly_view *view, size_t blob, const uint8_t **bytes, size_t *length);

#ifdef __cplusplus
}
#endif

#endif
