// llama_layout.hpp: the calls of llama_layout.h for C++17, inline: a class that owns a view, and a refusal as an exception.
#ifndef LLAMA_LAYOUT_HPP
#define LLAMA_LAYOUT_HPP

#include <algorithm>
#include <cstddef>
#include <cstdint>
#include <cstring>
#include <functional>
#include <iterator>
#include <initializer_list>
#include <new>
#include <numeric>
#include <stdexcept>
#include <string>
#include <string_view>
#include <type_traits>
#include <utility>
#include <vector>

#include "llama_layout.h"
#include "llama_layout_places.h"

namespace lly {

/// What an answer says.
inline const char *message(std::int32_t answer) noexcept {
    switch (answer) {
    case LLY_DONE: return "done";
    case LLY_NO_VIEW: return "the handle holds no view";
    case LLY_NO_PLACE: return "there is no such row, leaf, blob, path or index";
    case LLY_NO_MEMORY: return "memory ran out";
    case LLY_NO_ROOM: return "the buffer is too short";
    case LLY_BAD_TYPE: return "a number, or some value of the leaf's type, is none of the caller's type";
    case LLY_RANGE: return "the value lies outside of the declared range of its leaf, and the view is strict";
    case LLY_NARROW: return "it lies in that range and not in the range of how its leaf is stored, and the view is strict";
    case LLY_MISMATCH: return "the views have other records or other extents";
    case LLY_SYNTAX: return "a text is no line, from its column on";
    case LLY_TOO_DEEP: return "an expression in a text is more than 32 deep";
    case LLY_OTHER_LINE: return "a text is a line of another command";
    case LLY_LINE_TOO_LONG: return "a text has more than 4,096 bytes";
    case LLY_UNKNOWN: return "a name or a path stands in a text that names nothing";
    case LLY_BAD_RECORD: return "the record is refused";
    case LLY_BAD_EXTENTS: return "the extents are refused";
    case LLY_BAD_MAPPING: return "the mapping is refused";
    case LLY_TOO_BIG: return "a limit is passed";
    case LLY_BAD_KERNEL: return "the kernel is refused";
    case LLY_EMPTY: return "there is no row, so no least and no greatest value";
    case LLY_MISSING_COLUMN: return "no column of the dataset names the leaf";
    case LLY_COLUMN_TWICE: return "two columns of the dataset name the leaf";
    case LLY_SHORT_ROW: return "the row of the dataset has no field in the leaf's column";
    case LLY_NUMBER: return "the field of the dataset is no number";
    case LLY_BAD_FILE: return "the bytes are no file of a view";
    case LLY_NULL: return "a pointer is NULL";
    case LLY_SAME: return "both handles are one";
    case LLY_TWICE: return "an update sets the leaf a second time";
    case LLY_OVERFLOW: return "a result of an expression lies outside of 128 bits";
    case LLY_DIVIDE_BY_ZERO: return "a divisor in an expression is 0";
    case LLY_NOT_COUNTED: return "the view counts no accesses";
    case LLY_BAD_WINDOW: return "the spans are no window of the extents";
    case LLY_IRREGULAR: return "the numbers of the leaf lie as no lly_places says, or accesses to them are counted";
    case LLY_BAD_STENCIL: return "the stencil is refused";
    case LLY_BAD_ACTORS: return "the rows are not shared out among actors";
    case LLY_BAD_ADVICE: return "no layout is advised";
    case LLY_SHARED_BYTE: return "a byte holds bits of rows of two actors";
    default: return "an answer of a later version";
    }
}

/// A refusal: its answer, and where and why, as llama_layout.h says of the answer. What it does not name is 0.
class error : public std::runtime_error {
public:
    error(std::int32_t answer, const lly_fault &fault) : std::runtime_error(message(answer)), answer_(answer), fault_(fault) {}
    std::int32_t answer() const noexcept { return answer_; }
    const lly_fault &fault() const noexcept { return fault_; }

    /// What a script prints of it, but a leaf is its number: `Range record 3 leaf 1`.
    std::string words() const {
        std::uint8_t text[64];
        std::size_t needed = 0;
        const std::int32_t told = lly_message(answer_, &fault_, text, sizeof text, &needed);
        return told == LLY_DONE ? std::string(reinterpret_cast<const char *>(text), needed) : what();
    }

private:
    std::int32_t answer_;
    lly_fault fault_;
};

/// Numbers that lie evenly, in rows one after another. How one is read is known to the compiler; so is how far they lie apart in a dense run, and how many
/// they are in a group of `Rows`.
template <typename Number, typename Read, std::uint64_t Rows = 0>
class run {
public:
    class iterator {
    public:
        using iterator_category = std::input_iterator_tag;
        using value_type = Number;
        using difference_type = std::ptrdiff_t;
        using pointer = const Number *;
        using reference = Number;

        iterator(const run &of, typename Read::cursor at) : of_(&of), at_(at) {}
        Number operator*() const { return of_->read_(of_->blob_, of_->spot_, at_); }
        iterator &operator++() {
            at_ += Read::step(of_->apart_);
            return *this;
        }
        iterator operator++(int) {
            const iterator old = *this;
            ++*this;
            return old;
        }
        bool operator==(const iterator &other) const { return at_ == other.at_; }
        bool operator!=(const iterator &other) const { return at_ != other.at_; }

    private:
        const run *of_;
        typename Read::cursor at_;
    };

    run(const std::uint8_t *blob, std::uint64_t first, std::uint64_t spot, std::uint64_t apart, std::uint64_t rows, Read read)
        : blob_(blob), first_(first), spot_(spot), apart_(apart ? apart : 1), rows_(rows), read_(read) {}

    /// The row of the view that is its first, and how many it has.
    std::uint64_t first() const { return first_; }
    std::uint64_t size() const { return Rows ? Rows : rows_; }
    Number operator[](std::uint64_t row) const { return read_(blob_, spot_, at(row)); }
    iterator begin() const { return {*this, at(0)}; }
    iterator end() const { return {*this, at(size())}; }

private:
    typename Read::cursor at(std::uint64_t row) const { return Read::first(blob_, spot_) + row * Read::step(apart_); }

    const std::uint8_t *blob_;
    std::uint64_t first_, spot_, apart_, rows_;
    Read read_;
};

// How a number is read where a cursor stands: whole bytes by their addresses, and in a dense run by their number, of which compilers make loops over vectors; the
// same in reverse order, and fields near the end of a blob, by a load that does not pass it; other fields.
#ifdef __GNUC__
// A load by the number's own type, at whatever address: so a loop that stores numbers of another type needs no tests whether the two overlap.
template <typename Number>
Number loaded(const std::uint8_t *at) {
    using loose [[gnu::aligned(1)]] = const Number;
    return *reinterpret_cast<loose *>(at);
}
#else
template <typename Number>
Number loaded(const std::uint8_t *at) {
    Number number;
    std::memcpy(&number, at, sizeof number);
    return number;
}
#endif

template <typename Number>
struct read_whole {
    using cursor = const std::uint8_t *;
    static cursor first(const std::uint8_t *blob, std::uint64_t spot) { return blob + spot; }
    static std::uint64_t step(std::uint64_t apart) { return apart; }
    Number operator()(const std::uint8_t *, std::uint64_t, cursor at) const { return loaded<Number>(at); }
};

template <typename Number>
struct read_dense {
    using cursor = std::uint64_t;
    static cursor first(const std::uint8_t *, std::uint64_t) { return 0; }
    static std::uint64_t step(std::uint64_t) { return 1; }
    Number operator()(const std::uint8_t *blob, std::uint64_t spot, cursor row) const { return loaded<Number>(blob + spot + row * sizeof(Number)); }
};

struct by_spots {
    using cursor = std::uint64_t;
    static cursor first(const std::uint8_t *, std::uint64_t spot) { return spot; }
    static std::uint64_t step(std::uint64_t apart) { return apart; }
};

template <typename Number>
struct read_any : by_spots {
    lly_places places;
    explicit read_any(const lly_places &places) : places(places) {}
    Number operator()(const std::uint8_t *blob, std::uint64_t, cursor spot) const { return static_cast<Number>(lly_number_at(blob, &places, spot)); }
};

template <typename Number>
struct read_field : by_spots {
    std::uint64_t ones, half;
    read_field(std::uint64_t ones, std::uint64_t half) : ones(ones), half(half) {}
    Number operator()(const std::uint8_t *blob, std::uint64_t, cursor bit) const {
        std::uint64_t word;
        std::memcpy(&word, blob + bit / 8, sizeof word);
        return static_cast<Number>((((word >> bit % 8) & ones) ^ half) - half);
    }
};

/// The rows of an array: `shape(i, j)` is that of an index, whose last number runs fastest. What is no index of the array gives no row of it.
class shape {
public:
    explicit shape(std::vector<std::uint64_t> extents) : extents_(std::move(extents)) {}

    std::uint64_t rows() const { return std::accumulate(extents_.begin(), extents_.end(), std::uint64_t(1), std::multiplies<>()); }

    template <typename... Index>
    std::uint64_t operator()(Index... index) const {
        std::uint64_t row = 0;
        std::size_t dimension = 0;
        ((row = row * extents_[dimension++] + static_cast<std::uint64_t>(index)), ...);
        return row;
    }

private:
    std::vector<std::uint64_t> extents_;
};

/// The numbers of a leaf where they lie, as an object that copies nothing and makes no call: `column[row]`, or `column(i, j)` by an index. It is of use as long as lly_blob_at says of its view.
template <typename Number>
class column {
public:
    column(const std::uint8_t *blob, const lly_places &places, lly::shape shape) : blob_(blob), places_(places), rows_(shape.rows()), shape_(std::move(shape)) {
        static_assert(std::is_integral_v<Number>, "a view holds whole numbers");
        const std::size_t bits = 8 * sizeof(Number);
        if (std::is_signed_v<Number> != places.is_signed || (places.in_bits ? bits < places.width : bits != places.width)) {
            throw error(LLY_BAD_TYPE, LLY_NO_FAULT);
        }
    }

    std::uint64_t size() const { return rows_; }
    const lly_places &places() const { return places_; }
    Number operator[](std::uint64_t row) const { return static_cast<Number>(lly_number(blob_, &places_, row)); }
    template <typename... Index>
    Number operator()(Index... index) const {
        return (*this)[shape_(index...)];
    }
    const lly::shape &shape() const { return shape_; }

    /// Hands all rows on, in their order, by runs that lie evenly. Each is of one of several types, so the function is a generic one:
    /// `column.runs([&](auto numbers) { for (const auto number : numbers) { .. } })`.
    template <typename Each>
    void runs(Each each) const {
        if (places_.in_bits) {
            by_fields(each);
        } else if (places_.in_digits || places_.is_turned) {
            by(read_any<Number>(places_), each);
        } else if (places_.lane != sizeof(Number)) {
            by(read_whole<Number>(), each);
        } else if (places_.lanes == 8) {
            by_groups<8>(each);
        } else if (places_.lanes == 16) {
            by_groups<16>(each);
        } else {
            by(read_dense<Number>(), each);
        }
    }

private:
    template <typename Read, typename Each>
    void by(Read read, Each &each) const {
        for (std::uint64_t row = 0, count; row < rows_; row += count) {
            count = lly_even(&places_, row, rows_ - row);
            each(run<Number, Read>(blob_, row, lly_spot(&places_, row), places_.lane, count, read));
        }
    }

    // Dense groups of as many rows, and what is left behind the last full one.
    template <std::uint64_t Rows, typename Each>
    void by_groups(Each &each) const {
        std::uint64_t row = 0, spot = places_.base;
        for (; rows_ - row >= Rows; row += Rows, spot += places_.block) {
            each(run<Number, read_dense<Number>, Rows>(blob_, row, spot, sizeof(Number), Rows, {}));
        }
        if (row < rows_) {
            each(run<Number, read_dense<Number>>(blob_, row, spot, sizeof(Number), rows_ - row, {}));
        }
    }

    // Of the fields of a run those go first of which eight bytes lie in the blob.
    template <typename Each>
    void by_fields(Each &each) const {
        const read_field<Number> near(~(~std::uint64_t(0) << places_.width), places_.is_signed ? std::uint64_t(1) << (places_.width - 1) : 0);
        const read_any<Number> last(places_);
        const std::uint64_t end = places_.bytes < 8 ? 0 : 8 * (places_.bytes - 7);
        for (std::uint64_t row = 0, count; row < rows_; row += count) {
            count = lly_even(&places_, row, rows_ - row);
            const std::uint64_t spot = lly_spot(&places_, row), lane = places_.lane;
            const std::uint64_t inside = spot >= end ? 0 : lane == 0 ? count : (end - spot - 1) / lane + 1;
            const std::uint64_t sure = inside < count ? inside : count;
            each(run<Number, read_field<Number>>(blob_, row, spot, lane, sure, near));
            if (sure < count) {
                each(run<Number, read_any<Number>>(blob_, row + sure, spot + sure * lane, lane, count - sure, last));
            }
        }
    }

    const std::uint8_t *blob_;
    lly_places places_;
    std::uint64_t rows_;
    lly::shape shape_;
};

/// The numbers of a leaf in bytes that a view lent, where they lie: `column[row] = column[row] + 1`. Of a number that is written the low bits stay that have a place.
template <typename Number>
class lent_column {
public:
    class number {
    public:
        number(const lent_column &of, std::uint64_t row) : of_(of), row_(row) {}
        operator Number() const { return of_.read_[row_]; }
        Number operator=(Number number) const {
            of_.put(row_, number);
            return number;
        }
        Number operator=(const number &other) const { return *this = static_cast<Number>(other); }

    private:
        const lent_column &of_;
        std::uint64_t row_;
    };

    lent_column(std::uint8_t *blob, const lly_places &places, lly::shape shape)
        : read_(blob, places, std::move(shape)), blob_(blob), is_even_(!places.in_bits && !places.is_turned && !places.in_digits && places.lanes >= read_.size()) {}

    std::uint64_t size() const { return read_.size(); }
    number operator[](std::uint64_t row) const { return {*this, row}; }
    template <typename... Index>
    number operator()(Index... index) const {
        return (*this)[read_.shape()(index...)];
    }

private:
    void put(std::uint64_t row, Number number) const {
        const lly_places &places = read_.places();
        if (is_even_) {
            std::memcpy(blob_ + places.base + row * places.lane, &number, sizeof number);
        } else {
            lly_put_number(blob_, &places, row, static_cast<std::int64_t>(number));
        }
    }

    column<Number> read_;
    std::uint8_t *blob_;
    bool is_even_;
};

class view;

/// The bytes of all blobs of a view, one behind another, as `view.edit` lends them.
class lent {
public:
    explicit lent(view &of);

    /// The numbers of a leaf in them, as `view.column` has those of the view.
    template <typename Number = std::int64_t>
    lent_column<Number> column(std::size_t leaf);
    template <typename Number = std::int64_t>
    lent_column<Number> column(std::string_view path);

    std::vector<std::uint8_t> bytes;

private:
    view &of_;
};

/// A view, which is moved and never copied, and goes with its object. Numbers are `std::int64_t` or, of leaves of `u64`, `std::uint64_t`.
class view {
public:
    /// Zeros, of a line `record P { .. }` and a line `view V : P [..] as ..`.
    view(std::string_view record, std::string_view line) {
        checked([&](lly_fault *fault) { return lly_new(&handle_, bytes(record), record.size(), bytes(line), line.size(), fault); });
    }

    /// A dataset, of a line `load V : P [..] as .. from ".."`, whose file is not read: its bytes are here.
    static view load(std::string_view record, std::string_view line, std::string_view csv) {
        view made;
        checked([&](lly_fault *fault) {
            return lly_load(&made.handle_, bytes(record), record.size(), bytes(line), line.size(), bytes(csv), csv.size(), fault);
        });
        return made;
    }

    /// The view of which these are the bytes of the file.
    static view open(const std::vector<std::uint8_t> &file) {
        view made;
        checked([&](lly_fault *fault) { return lly_open(&made.handle_, file.data(), file.size(), fault); });
        return made;
    }

    view(const view &) = delete;
    view &operator=(const view &) = delete;
    view(view &&other) noexcept { std::swap(handle_, other.handle_); }
    view &operator=(view &&other) noexcept {
        std::swap(handle_, other.handle_);
        return *this;
    }
    ~view() { lly_drop(&handle_); }

    std::uint64_t rows() { return asked<std::uint64_t>([&](auto *rows) { return lly_rows(&handle_, rows); }); }
    std::size_t leaves() { return asked<std::size_t>([&](auto *leaves) { return lly_leaves(&handle_, leaves); }); }
    std::size_t blobs() { return asked<std::size_t>([&](auto *blobs) { return lly_blobs(&handle_, blobs); }); }
    std::uint64_t row(std::initializer_list<std::uint64_t> index) {
        return asked<std::uint64_t>([&](auto *row) { return lly_row(&handle_, index.begin(), index.size(), row); });
    }
    std::size_t leaf(std::string_view path) {
        return asked<std::size_t>([&](auto *leaf) { return lly_leaf(&handle_, bytes(path), path.size(), leaf); });
    }

    std::vector<std::uint64_t> extents() {
        std::vector<std::uint64_t> extents(4);
        std::size_t rank = 0;
        must(lly_extents(&handle_, extents.data(), extents.size(), &rank));
        extents.resize(rank);
        return extents;
    }

    std::string path(std::size_t leaf) {
        return filled<std::string>([&](std::uint8_t *path, std::size_t room, std::size_t *needed) { return lly_path(&handle_, leaf, path, room, needed); });
    }

    /// How many bits the values of a leaf have, and whether they have a sign.
    std::pair<std::uint32_t, bool> type(std::size_t leaf) {
        std::pair<std::uint32_t, bool> type;
        must(lly_type(&handle_, leaf, &type.first, &type.second));
        return type;
    }

    /// How often a leaf was read, and written, where the layout counts that.
    std::pair<std::uint64_t, std::uint64_t> counts(std::size_t leaf) {
        std::pair<std::uint64_t, std::uint64_t> counts;
        must(lly_counts(&handle_, leaf, &counts.first, &counts.second));
        return counts;
    }

    template <typename Number = std::int64_t>
    Number get(std::uint64_t row, std::size_t leaf) {
        return asked<Number>([&](Number *value) {
            if constexpr (is_unsigned<Number>()) {
                return lly_get_u64(&handle_, row, leaf, value);
            } else {
                return lly_get(&handle_, row, leaf, value);
            }
        });
    }

    template <typename Number>
    void set(std::uint64_t row, std::size_t leaf, Number value) {
        static_assert(std::is_integral_v<Number>, "a view holds whole numbers");
        if constexpr (std::is_unsigned_v<Number> && sizeof(Number) == 8) {
            must(lly_set_u64(&handle_, row, leaf, value));
        } else {
            must(lly_set(&handle_, row, leaf, value));
        }
    }

    /// The numbers of a leaf in so many rows from the first on, in any type of whole numbers. A `double` or a `float` has the bits of what a `u64` or a `u32` holds.
    template <typename Number = std::int64_t>
    std::vector<Number> run(std::uint64_t first, std::size_t leaf, std::size_t count) {
        std::vector<Number> values(count);
        if constexpr (std::is_same_v<Number, std::uint64_t>) {
            must(lly_get_run_u64(&handle_, first, leaf, values.data(), count));
        } else if constexpr (std::is_same_v<Number, std::int64_t>) {
            must(lly_get_run(&handle_, first, leaf, values.data(), count));
        } else {
            must(lly_get_run_as(&handle_, first, leaf, 8 * sizeof(Number), has_sign<Number>(), reinterpret_cast<std::uint8_t *>(values.data()), count * sizeof(Number)));
        }
        return values;
    }

    template <typename Number>
    void set_run(std::uint64_t first, std::size_t leaf, const std::vector<Number> &values) {
        checked([&](lly_fault *fault) {
            if constexpr (std::is_same_v<Number, std::uint64_t>) {
                return lly_set_run_u64(&handle_, first, leaf, values.data(), values.size(), fault);
            } else if constexpr (std::is_same_v<Number, std::int64_t>) {
                return lly_set_run(&handle_, first, leaf, values.data(), values.size(), fault);
            } else {
                const auto *const numbers = reinterpret_cast<const std::uint8_t *>(values.data());
                return lly_set_run_as(&handle_, first, leaf, 8 * sizeof(Number), has_sign<Number>(), numbers, values.size() * sizeof(Number), fault);
            }
        });
    }

    /// The numbers of a leaf in the rows of a list, in its order.
    template <typename Number = std::int64_t>
    std::vector<Number> gather(const std::vector<std::uint64_t> &rows, std::size_t leaf) {
        std::vector<Number> values(rows.size());
        if constexpr (is_unsigned<Number>()) {
            must(lly_gather_u64(&handle_, rows.data(), rows.size(), leaf, values.data()));
        } else {
            must(lly_gather(&handle_, rows.data(), rows.size(), leaf, values.data()));
        }
        return values;
    }

    /// Stores a number in each row of a list, in its order. There are as many as rows, or `LLY_NO_PLACE` is thrown.
    template <typename Number>
    void scatter(const std::vector<std::uint64_t> &rows, std::size_t leaf, const std::vector<Number> &values) {
        must(values.size() == rows.size() ? LLY_DONE : LLY_NO_PLACE);
        checked([&](lly_fault *fault) {
            if constexpr (is_unsigned<Number>()) {
                return lly_scatter_u64(&handle_, rows.data(), rows.size(), leaf, values.data(), fault);
            } else {
                return lly_scatter(&handle_, rows.data(), rows.size(), leaf, values.data(), fault);
            }
        });
    }

    /// Adds them to what stands there.
    void scatter_add(const std::vector<std::uint64_t> &rows, std::size_t leaf, const std::vector<std::int64_t> &values) {
        must(values.size() == rows.size() ? LLY_DONE : LLY_NO_PLACE);
        checked([&](lly_fault *fault) { return lly_scatter_add(&handle_, rows.data(), rows.size(), leaf, values.data(), fault); });
    }

    /// The numbers of a leaf in the rows of a box, the last index fastest. Bounds of two lengths throw `LLY_BAD_WINDOW`.
    template <typename Number = std::int64_t>
    std::vector<Number> box(const std::vector<std::uint64_t> &low, const std::vector<std::uint64_t> &high, std::size_t leaf) {
        must(low.size() == high.size() ? LLY_DONE : LLY_BAD_WINDOW);
        const std::uint64_t most = rows();
        std::uint64_t count = 1;
        for (std::size_t d = 0; d < low.size(); d++) {
            count = std::min(most, count * (low[d] < high[d] ? std::min(most, high[d] - low[d]) : 0));
        }
        std::vector<Number> values(count);
        if constexpr (is_unsigned<Number>()) {
            must(lly_get_box_u64(&handle_, low.data(), high.data(), low.size(), leaf, values.data(), count));
        } else {
            must(lly_get_box(&handle_, low.data(), high.data(), low.size(), leaf, values.data(), count));
        }
        return values;
    }

    /// Stores a number in each row of a box, in their order.
    template <typename Number>
    void set_box(const std::vector<std::uint64_t> &low, const std::vector<std::uint64_t> &high, std::size_t leaf, const std::vector<Number> &values) {
        must(low.size() == high.size() ? LLY_DONE : LLY_BAD_WINDOW);
        checked([&](lly_fault *fault) {
            if constexpr (is_unsigned<Number>()) {
                return lly_set_box_u64(&handle_, low.data(), high.data(), low.size(), leaf, values.data(), values.size(), fault);
            } else {
                return lly_set_box(&handle_, low.data(), high.data(), low.size(), leaf, values.data(), values.size(), fault);
            }
        });
    }

    /// The numbers of a leaf where they lie. The type is that in which they are stored; of a field of bits it is as wide or wider.
    template <typename Number = std::int64_t>
    lly::column<Number> column(std::size_t leaf) {
        const lly_places places = this->places(leaf);
        return {blob_at(places.blob).first, places, lly::shape(extents())};
    }

    template <typename Number = std::int64_t>
    lly::column<Number> column(std::string_view path) {
        return column<Number>(leaf(path));
    }

    lly_places places(std::size_t leaf) {
        lly_places places;
        checked([&](lly_fault *fault) { return lly_place(&handle_, leaf, &places, fault); });
        return places;
    }

    /// Where the bytes of a blob lie, and how many they are.
    std::pair<const std::uint8_t *, std::size_t> blob_at(std::size_t blob) {
        std::pair<const std::uint8_t *, std::size_t> at;
        must(lly_blob_at(&handle_, blob, &at.first, &at.second));
        return at;
    }

    /// Lends the bytes of the blobs to a function, and has them back when it is done: `view.edit([](lly::lent &lent) { auto x = lent.column<std::int32_t>("x"); .. })`.
    /// Where it throws, or they stand for no rows of the view, the view stays as it was.
    template <typename Change>
    void edit(Change change) {
        lent lent(*this);
        change(lent);
        checked([&](lly_fault *fault) { return lly_return(&handle_, lent.bytes.data(), lent.bytes.size(), fault); });
    }

    void copy_to(view &target) {
        checked([&](lly_fault *fault) { return lly_copy(&handle_, &target.handle_, fault); });
    }

    /// A line `relayout V as ..`.
    void relayout(std::string_view line) {
        checked([&](lly_fault *fault) { return lly_relayout(&handle_, bytes(line), line.size(), fault); });
    }

    /// A line `kernel V .. lanes N`, and its number, 0 where it has none.
    std::int64_t kernel(std::string_view line) {
        std::int64_t value = 0;
        checked([&](lly_fault *fault) { return lly_kernel(&handle_, bytes(line), line.size(), &value, fault); });
        return value;
    }

    /// A line `set V[..].path = ..`, `update V ..`, `kernel V ..` or `reduce V ..`, and its number, 0 where it has none.
    std::int64_t perform(std::string_view line) {
        std::int64_t number = 0;
        checked([&](lly_fault *fault) { return lly_do(&handle_, bytes(line), line.size(), &number, fault); });
        return number;
    }

    /// What a line `print V window [..]`, `counts V`, `heat V`, `layout V` or `bytes V B` writes.
    std::string tell(std::string_view line) {
        lly_fault fault = LLY_NO_FAULT;
        return filled<std::string>(
            [&](std::uint8_t *text, std::size_t room, std::size_t *needed) { return lly_tell(&handle_, bytes(line), line.size(), text, room, needed, &fault); }, &fault);
    }

    std::string print() {
        return filled<std::string>([&](std::uint8_t *text, std::size_t room, std::size_t *needed) { return lly_print(&handle_, text, room, needed); });
    }

    /// The lines of which a view of zeros like this one is made.
    std::string record() {
        return filled<std::string>([&](std::uint8_t *text, std::size_t room, std::size_t *needed) { return lly_record(&handle_, text, room, needed); });
    }

    std::string layout() {
        return filled<std::string>([&](std::uint8_t *text, std::size_t room, std::size_t *needed) { return lly_layout(&handle_, text, room, needed); });
    }

    std::vector<std::uint8_t> save() {
        return filled<std::vector<std::uint8_t>>([&](std::uint8_t *file, std::size_t room, std::size_t *needed) { return lly_save(&handle_, file, room, needed); });
    }

    std::vector<std::uint8_t> blob(std::size_t blob) {
        return filled<std::vector<std::uint8_t>>([&](std::uint8_t *to, std::size_t room, std::size_t *needed) { return lly_blob(&handle_, blob, to, room, needed); });
    }

    /// The handle, for calls of C.
    lly_view *handle() noexcept { return &handle_; }

private:
    friend class lent;

    view() = default;

    template <typename Number>
    static constexpr bool is_unsigned() {
        static_assert(std::is_same_v<Number, std::int64_t> || std::is_same_v<Number, std::uint64_t>, "numbers have 64 bits");
        return std::is_unsigned_v<Number>;
    }

    template <typename Number>
    static constexpr bool has_sign() {
        static_assert(std::is_arithmetic_v<Number> && sizeof(Number) <= 8, "numbers have at most 64 bits");
        return std::is_integral_v<Number> && std::is_signed_v<Number>;
    }

    static const std::uint8_t *bytes(std::string_view text) { return reinterpret_cast<const std::uint8_t *>(text.data()); }

    static void must(std::int32_t answer, const lly_fault &fault = LLY_NO_FAULT) {
        if (answer == LLY_NO_MEMORY) {
            throw std::bad_alloc();
        }
        if (answer != LLY_DONE) {
            throw error(answer, fault);
        }
    }

    template <typename Call>
    static void checked(Call call) {
        lly_fault fault = LLY_NO_FAULT;
        const std::int32_t answer = call(&fault);
        must(answer, fault);
    }

    template <typename Number, typename Call>
    static Number asked(Call call) {
        Number number = 0;
        must(call(&number));
        return number;
    }

    // What a call puts into a buffer, which is asked for its length first.
    template <typename Buffer, typename Call>
    static Buffer filled(Call call, const lly_fault *fault = nullptr) {
        Buffer buffer;
        std::size_t needed = 0;
        std::int32_t answer = call(nullptr, 0, &needed);
        if (answer == LLY_NO_ROOM) {
            buffer.resize(needed);
            answer = call(reinterpret_cast<std::uint8_t *>(buffer.data()), needed, &needed);
        }
        must(answer, fault ? *fault : lly_fault LLY_NO_FAULT);
        return buffer;
    }

    lly_view handle_ = LLY_NONE;
};

inline lent::lent(view &of) : of_(of) {
    bytes = view::filled<std::vector<std::uint8_t>>([&](std::uint8_t *to, std::size_t room, std::size_t *needed) { return lly_lend(of.handle(), to, room, needed); });
}

template <typename Number>
lent_column<Number> lent::column(std::size_t leaf) {
    const lly_places places = of_.places(leaf);
    std::uint8_t *blob = bytes.data();
    for (std::size_t before = 0; before < places.blob; before++) {
        blob += of_.blob_at(before).second;
    }
    return {blob, places, lly::shape(of_.extents())};
}

template <typename Number>
lent_column<Number> lent::column(std::string_view path) {
    return column<Number>(of_.leaf(path));
}

} // namespace lly

#endif
