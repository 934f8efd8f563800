// A plasma in two views: particles, whose layout is the one line of text that the program is handed, and cells. It prints what plain.cpp prints, whatever the layout.
//
// usage: plasma PARTICLES STEPS LAYOUT
#include <cinttypes>
#include <cstdio>
#include <cstdlib>
#include <exception>
#include <iostream>
#include <string>
#include <vector>

#include <llama_layout.hpp>

#include "rules.hpp"

static const char particle_record[] = "record Particle { cell { x:u8, y:u8 }, part { x:u8, y:u8 }, v { x:i16, y:i16 }, charge:i8 }";
static const char cell_record[] = "record Cell { charge:i32, potential:i32, force { x:i32, y:i32 } }";
enum particle_leaf { cell_x, cell_y, part_x, part_y, v_x, v_y, charge, particle_leaves };
enum cell_leaf { density, potential, force_x, force_y };

using column = std::vector<std::int64_t>;

// Rows of a view as columns: how numbers come out of a view and go into it is said here alone. Each run is one call.
class rows {
public:
    rows(lly::view &view, std::size_t leaves, std::size_t most) : view_(view), columns_(leaves, column(most)) {}

    // The rows from here on that are worked on next.
    void at(std::uint64_t first, std::size_t count) {
        first_ = first;
        count_ = count;
    }
    std::size_t count() const { return count_; }

    void fetch(std::size_t from, std::size_t to) {
        for (std::size_t leaf = from; leaf <= to; leaf++) {
            must(lly_get_run(view_.handle(), first_, leaf, columns_[leaf].data(), count_));
        }
    }

    void store(std::size_t from, std::size_t to) {
        lly_fault fault = LLY_NO_FAULT;
        for (std::size_t leaf = from; leaf <= to; leaf++) {
            must(lly_set_run(view_.handle(), first_, leaf, columns_[leaf].data(), count_, &fault));
        }
    }

    column &operator[](std::size_t leaf) { return columns_[leaf]; }

private:
    static void must(std::int32_t answer) {
        if (answer != LLY_DONE) {
            throw lly::error(answer, LLY_NO_FAULT);
        }
    }

    lly::view &view_;
    std::vector<column> columns_;
    std::uint64_t first_ = 0;
    std::size_t count_ = 0;
};

// Does something with each block of rows of the particles, one after the other.
template <typename Work>
static void for_blocks(lly::view &particles, Work work) {
    constexpr std::size_t most = 1024;
    const std::uint64_t all = particles.rows();
    rows block(particles, particle_leaves, most);
    for (std::uint64_t first = 0; first < all; first += most) {
        block.at(first, static_cast<std::size_t>(std::min<std::uint64_t>(most, all - first)));
        work(block);
    }
}

static void fill(lly::view &particles) {
    dice dice;
    std::int64_t number = 0;
    for_blocks(particles, [&](rows &of) {
        for (std::size_t k = 0; k < of.count(); k++) {
            const particle it = thrown(dice, number++);
            const std::int64_t values[] = {it.cell_x, it.cell_y, it.part_x, it.part_y, it.v_x, it.v_y, it.charge};
            for (std::size_t leaf = 0; leaf < particle_leaves; leaf++) {
                of[leaf][k] = values[leaf];
            }
        }
        of.store(cell_x, charge);
    });
}

static touched touches(rows &of, std::size_t k) { return touches(of[cell_x][k], of[cell_y][k], of[part_x][k], of[part_y][k]); }

static void deposit(lly::view &particles, rows &grid) {
    std::fill(grid[density].begin(), grid[density].end(), 0);
    for_blocks(particles, [&](rows &of) {
        of.fetch(cell_x, part_y);
        of.fetch(charge, charge);
        for (std::size_t k = 0; k < of.count(); k++) {
            const touched it = touches(of, k);
            for (int corner = 0; corner < 4; corner++) {
                grid[density][static_cast<std::size_t>(it.cell[corner])] += of[charge][k] * it.weight[corner];
            }
        }
    });
    grid.store(density, density);
}

static void find_forces(rows &grid, std::int64_t less) {
    auto at = [&](cell_leaf leaf, std::int64_t cell) { return grid[leaf][static_cast<std::size_t>(cell)]; };
    column next(grid.count());
    grid.fetch(density, potential);
    for (std::int64_t sweep = 0; sweep < sweeps; sweep++) {
        for (std::int64_t cell = 0; cell < side * side; cell++) {
            const beside it = cells_beside(cell);
            next[static_cast<std::size_t>(cell)] =
                swept(at(potential, it.left), at(potential, it.right), at(potential, it.above), at(potential, it.below), at(density, cell) / less);
        }
        grid[potential].swap(next);
    }
    for (std::int64_t cell = 0; cell < side * side; cell++) {
        const beside it = cells_beside(cell);
        grid[force_x][static_cast<std::size_t>(cell)] = at(potential, it.left) - at(potential, it.right);
        grid[force_y][static_cast<std::size_t>(cell)] = at(potential, it.above) - at(potential, it.below);
    }
    grid.store(potential, force_y);
}

static void push(lly::view &particles, rows &grid) {
    grid.fetch(force_x, force_y);
    for_blocks(particles, [&](rows &of) {
        of.fetch(cell_x, charge);
        for (std::size_t k = 0; k < of.count(); k++) {
            const touched it = touches(of, k);
            std::int64_t x = 0, y = 0;
            for (int corner = 0; corner < 4; corner++) {
                x += it.weight[corner] * grid[force_x][static_cast<std::size_t>(it.cell[corner])];
                y += it.weight[corner] * grid[force_y][static_cast<std::size_t>(it.cell[corner])];
            }
            of[v_x][k] = pushed(of[v_x][k], of[charge][k], x);
            of[v_y][k] = pushed(of[v_y][k], of[charge][k], y);
            x = moved(of[cell_x][k] * parts + of[part_x][k], of[v_x][k]);
            y = moved(of[cell_y][k] * parts + of[part_y][k], of[v_y][k]);
            of[cell_x][k] = x / parts;
            of[cell_y][k] = y / parts;
            of[part_x][k] = x % parts;
            of[part_y][k] = y % parts;
        }
        of.store(cell_x, v_y);
    });
}

static void tell(lly::view &particles, rows &grid) {
    std::int64_t whole = 0, momentum_x = 0, momentum_y = 0, energy = 0;
    std::uint64_t sum = 0;
    grid.fetch(density, density);
    for (std::int64_t it : grid[density]) {
        whole += it;
    }
    for_blocks(particles, [&](rows &of) {
        of.fetch(cell_x, v_y);
        for (std::size_t k = 0; k < of.count(); k++) {
            momentum_x += of[v_x][k];
            momentum_y += of[v_y][k];
            energy += of[v_x][k] * of[v_x][k] + of[v_y][k] * of[v_y][k];
            for (std::int64_t it : {of[cell_x][k] * parts + of[part_x][k], of[cell_y][k] * parts + of[part_y][k], of[v_x][k], of[v_y][k]}) {
                sum = mixed(sum, it);
            }
        }
    });
    std::printf("charge %" PRId64 ", momentum %" PRId64 " %" PRId64 ", energy %" PRId64 ", sum %016" PRIx64 "\n", whole, momentum_x, momentum_y, energy, sum);
}

int main(int count, char **words) {
    if (count != 4) {
        std::cerr << "usage: plasma PARTICLES STEPS LAYOUT\n";
        return 2;
    }
    try {
        lly::view particles(particle_record, std::string("view Particles : Particle [") + words[1] + "] as " + words[3]);
        lly::view cells(cell_record, "view Cells : Cell [64, 64] as soa(multi, row)");
        const std::int64_t less = less_for(static_cast<std::int64_t>(particles.rows()));
        rows grid(cells, force_y + 1, side * side);
        grid.at(0, side * side);
        fill(particles);
        for (int step = std::atoi(words[2]); step > 0; step--) {
            deposit(particles, grid);
            find_forces(grid, less);
            push(particles, grid);
        }
        tell(particles, grid);
    } catch (const std::exception &refusal) {
        std::cerr << "plasma: " << refusal.what() << '\n';
        return 1;
    }
    return 0;
}
