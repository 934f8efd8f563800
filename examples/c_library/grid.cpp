// A view is an object that is moved and never copied, and what a call refuses is an exception.
#include <iostream>
#include <utility>

#include <llama_layout.hpp>

int main() {
    lly::view grid("record Cell { heat: i32, wall: bool }", "view Grid : Cell [8, 8] as aosoa(16, morton)");
    const std::size_t heat = grid.leaf("heat"), wall = grid.leaf("wall");
    for (std::uint64_t row = 0; row < grid.rows(); row++) {
        grid.set(row, heat, row * row);
    }
    lly::view moved = std::move(grid);
    for (std::int64_t value : moved.run(moved.row({3, 6}), heat, 4)) {
        std::cout << value << '\n';
    }
    moved.relayout("relayout V as bitsoa(13, row)");
    lly::view opened = lly::view::open(moved.save());
    std::cout << opened.kernel("kernel V sum(heat) lanes 8") << '\n';
    try {
        opened.set_run(0, wall, std::vector<std::int64_t>{1, 0, 2});
    } catch (const lly::error &refusal) {
        std::cout << refusal.answer() << ", row " << refusal.fault().row << ": " << refusal.what() << '\n';
    }
    return 0;
}
