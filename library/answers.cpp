// Each member of lly::view, and what it throws. tools/library_examples runs it; it says what differs, and ends with 0 where nothing does.
#include <iostream>

#include <llama_layout.hpp>

static int differs = 0;

#define EXPECT(what, expected)                                                        \
    do {                                                                              \
        if (!((what) == (expected))) {                                                \
            std::cout << "line " << __LINE__ << ": " << #what << " is otherwise\n";   \
            differs = 1;                                                              \
        }                                                                             \
    } while (0)

template <typename Call>
static void expect_refusal(int line, std::int32_t answer, std::uint64_t row, Call call) {
    try {
        call();
    } catch (const lly::error &refusal) {
        if (refusal.answer() == answer && refusal.fault().row == row && refusal.what() == std::string(lly::message(answer))) {
            return;
        }
    }
    std::cout << "line " << line << ": the refusal is another, or none\n";
    differs = 1;
}

#define EXPECT_REFUSAL(answer, row, call) expect_refusal(__LINE__, answer, row, [&] { call; })

static const char RECORD[] = "record P { x: i32, big: u64 }";
static const char LINE[] = "view V : P [2, 2] as aos(packed, row)";

static void numbers() {
    lly::view view(RECORD, LINE);
    const std::vector<std::uint64_t> big{1, UINT64_MAX};
    EXPECT(view.rows(), 4U);
    EXPECT(view.leaves(), 2U);
    EXPECT(view.blobs(), 1U);
    EXPECT(view.row({1, 0}), 2U);
    EXPECT(view.leaf("big"), 1U);
    EXPECT(view.extents(), (std::vector<std::uint64_t>{2, 2}));
    EXPECT(view.path(1), "big");
    EXPECT(view.type(0), std::make_pair(UINT32_C(32), true));
    EXPECT_REFUSAL(LLY_NO_PLACE, 0, view.counts(0));
    view.set(3, 0, -7);
    view.set(3, 1, UINT64_MAX);
    view.set(2, 0, true);
    EXPECT(view.get(3, 0), -7);
    EXPECT(view.get<std::uint64_t>(3, 1), UINT64_MAX);
    view.set_run(0, 1, big);
    view.set_run(0, 0, std::vector<std::int64_t>{5, 6});
    EXPECT(view.run<std::uint64_t>(0, 1, 2), big);
    EXPECT(view.run(0, 0, 4), (std::vector<std::int64_t>{5, 6, 1, -7}));
    EXPECT(view.run<std::int32_t>(0, 0, 4), (std::vector<std::int32_t>{5, 6, 1, -7}));
    EXPECT_REFUSAL(LLY_BAD_TYPE, 0, view.run<std::int16_t>(0, 0, 4));
    EXPECT(view.print(), "x,big\n5,1\n6,18446744073709551615\n1,0\n-7,18446744073709551615\n");
    EXPECT(view.blob(0).size(), 48U);
    EXPECT(view.blob(0)[12], 6);
    EXPECT_REFUSAL(LLY_NO_PLACE, 0, view.leaf("none"));
    EXPECT_REFUSAL(LLY_BAD_TYPE, 0, view.get(0, 1));
    EXPECT_REFUSAL(LLY_RANGE, 2, view.set_run(1, 0, std::vector<std::int64_t>{1, INT64_MAX}));
    view.set_run(0, 0, std::vector<std::int8_t>{-3, 4});
    view.set_run(2, 1, std::vector<double>{0.5, -2.25});
    EXPECT(view.run(0, 0, 2), (std::vector<std::int64_t>{-3, 4}));
    EXPECT(view.run<double>(2, 1, 2), (std::vector<double>{0.5, -2.25}));
}

static void lists() {
    lly::view view(RECORD, LINE);
    const std::vector<std::uint64_t> rows{3, 1, 3};
    view.scatter(rows, 0, std::vector<std::int64_t>{1, 2, 3});
    view.scatter_add(rows, 0, {10, 10, -20});
    EXPECT(view.gather(rows, 0), (std::vector<std::int64_t>{-7, 12, -7}));
    view.scatter(rows, 1, std::vector<std::uint64_t>{1, UINT64_MAX, 3});
    EXPECT(view.gather<std::uint64_t>(rows, 1), (std::vector<std::uint64_t>{3, UINT64_MAX, 3}));
    EXPECT_REFUSAL(LLY_NO_PLACE, 0, view.gather({4}, 0));
    EXPECT_REFUSAL(LLY_NO_PLACE, 0, view.scatter_add(rows, 0, {1}));
    EXPECT_REFUSAL(LLY_BAD_TYPE, 0, view.gather(rows, 1));
    EXPECT_REFUSAL(LLY_RANGE, 1, view.scatter_add(rows, 1, {1, 1, 1}));
    EXPECT(view.print(), "x,big\n0,0\n12,18446744073709551615\n0,0\n-7,4\n");
}

static void boxes() {
    lly::view view(RECORD, "view V : P [2, 3] as aosoa(2, col)");
    view.set_box({0, 1}, {2, 3}, 0, std::vector<std::int64_t>{1, 2, 3, 4});
    view.set_box({1, 0}, {2, 3}, 1, std::vector<std::uint64_t>{5, 6, UINT64_MAX});
    EXPECT(view.box({0, 1}, {2, 2}, 0), (std::vector<std::int64_t>{1, 3}));
    EXPECT(view.box<std::uint64_t>({0, 2}, {2, 3}, 1), (std::vector<std::uint64_t>{0, UINT64_MAX}));
    EXPECT(view.box({1, 3}, {2, 3}, 0).size(), 0U);
    EXPECT_REFUSAL(LLY_BAD_WINDOW, 0, view.box({0}, {2}, 0));
    EXPECT_REFUSAL(LLY_BAD_WINDOW, 0, view.box({0, 0}, {2}, 0));
    EXPECT_REFUSAL(LLY_BAD_WINDOW, 0, view.box({0, 0}, {2, UINT64_MAX}, 0));
    EXPECT_REFUSAL(LLY_NO_PLACE, 0, view.set_box({0, 0}, {1, 2}, 0, std::vector<std::int64_t>{1}));
    EXPECT_REFUSAL(LLY_RANGE, 2, view.set_box({0, 0}, {2, 3}, 0, std::vector<std::int64_t>{1, 2, INT64_MAX, 4, 5, 6}));
}

static void tables() {
    lly::view view = lly::view::load(RECORD, "load V : P [?, 2] as soa(multi, row) from \"any\"", "big,x\n1,2\n3,4\n");
    lly::view other(RECORD, "view V : P [1, 2] as aosoa(2, col)");
    view.copy_to(other);
    EXPECT(other.print(), "x,big\n2,1\n4,3\n");
    EXPECT_REFUSAL(LLY_SAME, 0, other.copy_to(other));
    EXPECT(other.kernel("kernel V sum(x) lanes 4"), 6);
    EXPECT(other.perform("update V where x > 2 set x = x + 1"), 0);
    EXPECT(other.perform("reduce V max x"), 5);
    EXPECT(other.perform("set V[0, 1].x = 4"), 0);
    EXPECT(other.tell("print V window [0 : 1, 1 : 2]"), "x,big\n4,3\n");
    EXPECT_REFUSAL(LLY_NOT_COUNTED, 0, other.tell("counts V"));
    EXPECT_REFUSAL(LLY_DIVIDE_BY_ZERO, 1, other.perform("update V set x = x / (x - 4)"));
    EXPECT(other.perform("set V[0, 0].x = 2"), 0);
    other.relayout("relayout V as bitaos(20, row)");
    lly::view opened = lly::view::open(other.save());
    EXPECT(opened.blobs(), 1U);
    view = std::move(opened);
    EXPECT(view.print(), other.print());
    EXPECT(lly_rows(view.handle(), nullptr), LLY_NULL);
    EXPECT_REFUSAL(LLY_SYNTAX, 0, lly::view(RECORD, "view V"));
    EXPECT_REFUSAL(LLY_BAD_FILE, 0, lly::view::open({}));
    EXPECT(std::string(lly::message(LLY_BAD_WINDOW)), "the spans are no window of the extents");
    EXPECT(std::string(lly::message(99)), "an answer of a later version");
    EXPECT(lly::error(LLY_NARROW, {0, 3, 1, 0}).words(), "Narrow record 3 leaf 1");
    EXPECT(lly::error(99, LLY_NO_FAULT).words(), "an answer of a later version");
}

// The sum of a column by each of its ways, and what is refused.
static void columns() {
    const char *const layouts[] = {"aos(packed, row)", "soa(multi, row)", "aosoa(4, row)", "soa(multi, col)", "soa(multi, morton)", "byteswap(soa(multi, row))", "bitaos(20, row)"};
    const std::vector<std::int64_t> values{5, -6, 7, -8, 9, -524288};
    for (const char *const layout : layouts) {
        lly::view view(RECORD, std::string("view V : P [2, 3] as ") + layout);
        view.set_run(0, 0, values);
        const auto column = view.column<std::int32_t>("x");
        EXPECT(column(1, 0), -8);
        EXPECT(column(0, 2), 7);
        std::vector<std::int64_t> read(6), by_row;
        column.runs([&](auto numbers) {
            std::uint64_t row = numbers.first();
            for (const std::int64_t number : numbers) {
                read[row++] = number;
            }
        });
        for (std::uint64_t row = 0; row < column.size(); row++) {
            by_row.push_back(column[row]);
        }
        EXPECT(read, values);
        EXPECT(by_row, values);
        EXPECT_REFUSAL(LLY_BAD_TYPE, 0, view.column<std::uint32_t>("x"));
        EXPECT_REFUSAL(LLY_BAD_TYPE, 0, view.column<std::int16_t>(0));
    }
    lly::view split(RECORD, "view V : P [2, 3] as bytesplit(soa(multi, row))");
    EXPECT_REFUSAL(LLY_IRREGULAR, 0, split.column<std::int32_t>("x"));
}

// Numbers that are changed where they lie in what is lent, and bytes that no view has.
static void edits() {
    const char *const layouts[] = {"aos(packed, row)", "soa(multi, row)", "aosoa(4, row)", "soa(multi, morton)", "byteswap(soa(single, col))", "bitaos(20, row)"};
    for (const char *const layout : layouts) {
        lly::view view("record P { on: bool, x: i32, n: u16 }", std::string("view V : P [2, 3] as ") + layout);
        view.set(5, 1, -524288);
        view.edit([](lly::lent &lent) {
            const auto x = lent.column<std::int32_t>("x");
            x(0, 1) = x(0, 1);
            const auto n = lent.column<std::uint16_t>(2);
            for (std::uint64_t row = 0; row + 1 < x.size(); row++) {
                x[row] = static_cast<std::int32_t>(row) - 3;
                n[row] = 1;
            }
            x[0] = x[5];
        });
        EXPECT(view.run(0, 1, 6), (std::vector<std::int64_t>{-524288, -2, -1, 0, 1, -524288}));
        EXPECT(view.run(0, 2, 6), (std::vector<std::int64_t>{1, 1, 1, 1, 1, 0}));
        const std::string before = view.print();
        EXPECT_REFUSAL(LLY_BAD_FILE, 0, view.edit([](lly::lent &lent) { lent.bytes.pop_back(); }));
        EXPECT_REFUSAL(LLY_BAD_TYPE, 0, view.edit([](lly::lent &lent) { lent.column<std::uint32_t>("x")[0] = 7; }));
        EXPECT(view.print(), before);
        EXPECT(view.record(), "record R { on : bool , x : i32 , n : u16 }");
        lly::view again(view.record(), view.layout());
        view.copy_to(again);
        EXPECT(again.save(), view.save());
    }
}

int main() {
    numbers();
    lists();
    boxes();
    columns();
    edits();
    tables();
    return differs;
}
