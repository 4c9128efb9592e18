// A game's loop: 20 ticks a second, and a turn in each. A group walks by one flow field, a scout by smoothed waypoints; while
// they walk a player builds a wall across their ways. In a release:
//     c++ -std=c++17 -Iinclude -Iexamples/cpp examples/cpp/game_loop.cpp lib/libpathserve.a -o loop && ./loop
#include "pathserve.hpp"
#include <cstdio>

using pathserve::Cell;
using pathserve::Fixed;
using pathserve::Point;
using pathserve::middle_of;
using pathserve::navcell;

namespace {

constexpr std::uint32_t width = 28, height = 10;
constexpr std::uint8_t infantry = 0;
constexpr Fixed speed = navcell / 4; // a tick: five navcells a second

// The root rounded down. A game in lockstep computes without floats.
std::int64_t root(std::int64_t square) {
    std::int64_t low = 0, high = std::int64_t{1} << 31;
    while (high - low > 1) {
        std::int64_t middle = (low + high) / 2;
        (middle * middle <= square ? low : high) = middle;
    }
    return low;
}

// The point after a tick on the straight way to another.
Point toward(Point from, Point to) {
    std::int64_t east = std::int64_t{to.x} - from.x, north = std::int64_t{to.z} - from.z, far = root(east * east + north * north);
    if (far <= speed) return to;
    return {from.x + static_cast<Fixed>(east * speed / far), from.z + static_cast<Fixed>(north * speed / far)};
}

// A soldier of the group: it walks from the middle of a cell to that of the next, as the field leads.
struct Soldier {
    Point at, next;

    void tick(const pathserve::Field &field) {
        if (at == next)
            if (auto cell = field.next(pathserve::cell_of(at))) next = middle_of(*cell);
        at = toward(at, next);
    }
};

// A single unit, which walks straight from waypoint to waypoint.
struct Scout {
    Point at;
    std::vector<Cell> ahead; // the waypoints that it has not come to
    Cell left = pathserve::cell_of(at); // the one that it left last

    void tick() {
        if (ahead.empty()) return;
        at = toward(at, middle_of(ahead.front()));
        if (!(at == middle_of(ahead.front()))) return;
        left = ahead.front();
        ahead.erase(ahead.begin());
    }

    // From its own cell a line may be blocked though its way is clear.
    bool is_clear(pathserve::View &view) const {
        Cell from = left;
        for (Cell to : ahead) {
            if (!view.clear(infantry, from, to)) return false;
            from = to;
        }
        return true;
    }

    // Asks for a path, and walks it by smoothed waypoints, from the middle of its first cell.
    void go(pathserve::View &view, pathserve::Finder &finder, const pathserve::Goal &goal) {
        pathserve::Found found = finder.find(view, goal.path(0, infantry, at));
        view.smooth(infantry, found.reply.start, found.waypoints);
        ahead = std::move(found.waypoints);
        if (!pathserve::is_path(found.reply)) return;
        left = found.reply.start;
        ahead.insert(ahead.begin(), left);
    }
};

class Game {
  public:
    Game() {
        match.end_turn(replies); // a view costs less after the first turn
        changed();
    }

    // What all players ordered for this tick comes in the same order everywhere, and nothing else reaches the match.
    void tick(const std::vector<pathserve::Post> &orders) {
        match.post(orders);
        if (match.end_turn(replies).relabelled != 0) changed();
        for (Soldier &it : group) it.tick(field);
        scout.tick();
    }

    void draw(int after) {
        pathserve::View view = match.view();
        std::printf("tick %d\n", after);
        for (std::uint32_t j = height; j-- > 0;) {
            std::string line(width, '.');
            for (std::uint32_t i = 0; i < width; i++)
                if (!view.passable(infantry, {static_cast<std::uint16_t>(i), static_cast<std::uint16_t>(j)})) line[i] = '#';
            for (const Soldier &it : group) put(line, j, it.at, 's');
            put(line, j, scout.at, 'c');
            std::puts(line.c_str());
        }
    }

    bool is_there() const {
        for (const Soldier &it : group)
            if (!(it.at == it.next) || field.step(pathserve::cell_of(it.at)) != PATHSERVE_STEP_STAYS) return false;
        return scout.ahead.empty();
    }

  private:
    // The map has changed: the field is made anew, once for the group, and whose way is cut asks again.
    void changed() {
        pathserve::View view = match.view();
        view.make(field, camp.path(0, infantry, group.front().next));
        if (scout.ahead.empty() || !scout.is_clear(view)) {
            scout.go(view, finder, hill);
            std::printf("the scout goes by");
            for (Cell it : scout.ahead) std::printf(" %d,%d", it.i, it.j);
            std::puts("");
        }
    }

    static void put(std::string &line, std::uint32_t j, Point at, char sign) {
        Cell cell = pathserve::cell_of(at);
        if (cell.j == j) line[cell.i] = sign;
    }

    static Soldier soldier(std::uint16_t i, std::uint16_t j) { return {middle_of({i, j}), middle_of({i, j})}; }

    pathserve::Match match{{width, height, 1}, {pathserve::passability_class("infantry", navcell / 2)}};
    pathserve::Finder finder;
    pathserve::Replies replies;
    pathserve::Field field{width, height};
    pathserve::Goal camp = pathserve::Goal::circle(middle_of({24, 3}), 2 * navcell), hill = pathserve::Goal::point(middle_of({25, 8}));
    std::vector<Soldier> group = {soldier(2, 2), soldier(2, 4), soldier(4, 2), soldier(4, 4)};
    Scout scout = {middle_of({1, 7}), {}};
};

} // namespace

int main() {
    Game game;
    // a wall from the north border nearly to the south
    const pathserve::Rectangle wall = {middle_of({14, 6}), {navcell, 0}, navcell / 2, 7 * navcell / 2};
    int tick = 0;
    for (; !game.is_there() && tick < 400; tick++) {
        if (tick == 20) game.draw(tick);
        game.tick(tick == 20 ? std::vector{pathserve::add_rectangle(0, 1, 1, wall)} : std::vector<pathserve::Post>{});
    }
    game.draw(tick);
    return game.is_there() ? 0 : 1;
}
