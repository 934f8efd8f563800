// A plasma in arrays written by hand: an array for each field. Its output is what plasma.cpp must print under each layout.
//
// usage: plain PARTICLES STEPS
#include <cinttypes>
#include <cstdio>
#include <cstdlib>
#include <vector>

#include "rules.hpp"

struct particles {
    std::vector<std::uint8_t> cell_x, cell_y, part_x, part_y;
    std::vector<std::int16_t> v_x, v_y;
    std::vector<std::int8_t> charge;
};

struct cells {
    std::vector<std::int32_t> charge, potential, force_x, force_y;
};

static particles made(std::size_t count) {
    particles of;
    dice dice;
    for (std::size_t k = 0; k < count; k++) {
        const particle it = thrown(dice, static_cast<std::int64_t>(k));
        of.cell_x.push_back(static_cast<std::uint8_t>(it.cell_x));
        of.cell_y.push_back(static_cast<std::uint8_t>(it.cell_y));
        of.part_x.push_back(static_cast<std::uint8_t>(it.part_x));
        of.part_y.push_back(static_cast<std::uint8_t>(it.part_y));
        of.v_x.push_back(static_cast<std::int16_t>(it.v_x));
        of.v_y.push_back(static_cast<std::int16_t>(it.v_y));
        of.charge.push_back(static_cast<std::int8_t>(it.charge));
    }
    return of;
}

static void deposit(const particles &of, cells &grid) {
    std::fill(grid.charge.begin(), grid.charge.end(), 0);
    for (std::size_t k = 0; k < of.charge.size(); k++) {
        const touched it = touches(of.cell_x[k], of.cell_y[k], of.part_x[k], of.part_y[k]);
        for (int corner = 0; corner < 4; corner++) {
            grid.charge[static_cast<std::size_t>(it.cell[corner])] += static_cast<std::int32_t>(of.charge[k] * it.weight[corner]);
        }
    }
}

static void find_forces(cells &grid, std::int64_t less) {
    std::vector<std::int32_t> next(side * side);
    auto at = [](const std::vector<std::int32_t> &of, std::int64_t cell) { return of[static_cast<std::size_t>(cell)]; };
    for (std::int64_t sweep = 0; sweep < sweeps; sweep++) {
        for (std::int64_t cell = 0; cell < side * side; cell++) {
            const beside it = cells_beside(cell);
            const auto &old = grid.potential;
            next[static_cast<std::size_t>(cell)] =
                static_cast<std::int32_t>(swept(at(old, it.left), at(old, it.right), at(old, it.above), at(old, it.below), at(grid.charge, cell) / less));
        }
        grid.potential.swap(next);
    }
    for (std::int64_t cell = 0; cell < side * side; cell++) {
        const beside it = cells_beside(cell);
        grid.force_x[static_cast<std::size_t>(cell)] = at(grid.potential, it.left) - at(grid.potential, it.right);
        grid.force_y[static_cast<std::size_t>(cell)] = at(grid.potential, it.above) - at(grid.potential, it.below);
    }
}

static void push(particles &of, const cells &grid) {
    for (std::size_t k = 0; k < of.charge.size(); k++) {
        const touched it = touches(of.cell_x[k], of.cell_y[k], of.part_x[k], of.part_y[k]);
        std::int64_t force_x = 0, force_y = 0;
        for (int corner = 0; corner < 4; corner++) {
            force_x += it.weight[corner] * grid.force_x[static_cast<std::size_t>(it.cell[corner])];
            force_y += it.weight[corner] * grid.force_y[static_cast<std::size_t>(it.cell[corner])];
        }
        of.v_x[k] = static_cast<std::int16_t>(pushed(of.v_x[k], of.charge[k], force_x));
        of.v_y[k] = static_cast<std::int16_t>(pushed(of.v_y[k], of.charge[k], force_y));
        const std::int64_t x = moved(of.cell_x[k] * parts + of.part_x[k], of.v_x[k]), y = moved(of.cell_y[k] * parts + of.part_y[k], of.v_y[k]);
        of.cell_x[k] = static_cast<std::uint8_t>(x / parts);
        of.cell_y[k] = static_cast<std::uint8_t>(y / parts);
        of.part_x[k] = static_cast<std::uint8_t>(x % parts);
        of.part_y[k] = static_cast<std::uint8_t>(y % parts);
    }
}

static void tell(const particles &of, const cells &grid) {
    std::int64_t charge = 0, momentum_x = 0, momentum_y = 0, energy = 0;
    std::uint64_t sum = 0;
    for (std::int32_t it : grid.charge) {
        charge += it;
    }
    for (std::size_t k = 0; k < of.charge.size(); k++) {
        momentum_x += of.v_x[k];
        momentum_y += of.v_y[k];
        energy += of.v_x[k] * of.v_x[k] + of.v_y[k] * of.v_y[k];
        for (std::int64_t it : {of.cell_x[k] * parts + of.part_x[k], of.cell_y[k] * parts + of.part_y[k], std::int64_t{of.v_x[k]}, std::int64_t{of.v_y[k]}}) {
            sum = mixed(sum, it);
        }
    }
    std::printf("charge %" PRId64 ", momentum %" PRId64 " %" PRId64 ", energy %" PRId64 ", sum %016" PRIx64 "\n", charge, momentum_x, momentum_y, energy, sum);
}

int main(int count, char **words) {
    if (count != 3) {
        std::fprintf(stderr, "usage: plain PARTICLES STEPS\n");
        return 2;
    }
    particles of = made(std::strtoull(words[1], nullptr, 10));
    const std::int64_t less = less_for(static_cast<std::int64_t>(of.charge.size()));
    const std::vector<std::int32_t> zeros(side * side);
    cells grid{zeros, zeros, zeros, zeros};
    for (int step = std::atoi(words[2]); step > 0; step--) {
        deposit(of, grid);
        find_forces(grid, less);
        push(of, grid);
    }
    tell(of, grid);
    return 0;
}
