// The numbers and rules of the plasma, on whole numbers alone: both programs take them from here, and differ in where their particles and cells lie.
#ifndef RULES_HPP
#define RULES_HPP

#include <algorithm>
#include <cstdint>

// A square of cells whose sides are joined. A place is a cell and 256ths of it, and a velocity so many 256ths a step.
constexpr std::int64_t side = 64, parts = 256, around = side * parts, most_speed = 2047, sweeps = 10, mass = 1024;

// A generator of numbers, the same everywhere.
class dice {
public:
    std::int64_t below(std::int64_t most) {
        state_ = state_ * 6364136223846793005u + 1442695040888963407u;
        return static_cast<std::int64_t>((state_ >> 33) % static_cast<std::uint64_t>(most));
    }

private:
    std::uint64_t state_ = 1;
};

struct particle {
    std::int64_t cell_x, cell_y, part_x, part_y, v_x, v_y, charge;
};

// Particle k of a plasma that has as many of one charge as of the other, or one more.
inline particle thrown(dice &dice, std::int64_t k) {
    const std::int64_t x = dice.below(around), y = dice.below(around), v_x = dice.below(129) - 64, v_y = dice.below(129) - 64;
    return {x / parts, y / parts, x % parts, y % parts, v_x, v_y, k % 2 * 2 - 1};
}

// The four cells that a particle touches, and 65,536ths of it in each.
struct touched {
    std::int64_t cell[4], weight[4];
};

inline touched touches(std::int64_t cell_x, std::int64_t cell_y, std::int64_t part_x, std::int64_t part_y) {
    const std::int64_t right = (cell_x + 1) % side, below = (cell_y + 1) % side * side, here = cell_y * side;
    const std::int64_t far_x = parts - part_x, far_y = parts - part_y;
    return {{here + cell_x, here + right, below + cell_x, below + right}, {far_x * far_y, part_x * far_y, far_x * part_y, part_x * part_y}};
}

// A speed behind a push, and where it leads to from a place around the square.
inline std::int64_t pushed(std::int64_t speed, std::int64_t charge, std::int64_t force) { return std::clamp(speed + charge * (force / (parts * parts)) / mass, -most_speed, most_speed); }
inline std::int64_t moved(std::int64_t place, std::int64_t speed) { return (place + speed + around) % around; }

// By how much the charge of a cell counts less, so that it does not depend on how many particles there are.
inline std::int64_t less_for(std::int64_t particles) { return 16 * particles / (side * side) + 1; }

// A potential behind a sweep, from those beside it.
inline std::int64_t swept(std::int64_t left, std::int64_t right, std::int64_t above, std::int64_t below, std::int64_t charge) { return (left + right + above + below + charge) / 4; }

// The cells beside one, left, right, above and below.
struct beside {
    std::int64_t left, right, above, below;
};

inline beside cells_beside(std::int64_t cell) {
    const std::int64_t x = cell % side, line = cell - x, all = side * side;
    return {line + (x + side - 1) % side, line + (x + 1) % side, (cell + all - side) % all, (cell + side) % all};
}

// One number of many, in which each and its place counts.
inline std::uint64_t mixed(std::uint64_t sum, std::int64_t number) { return (sum ^ static_cast<std::uint64_t>(number)) * 1099511628211u; }

#endif
